//! Shows how far a survey is: a bar on a terminal, lines elsewhere.

use indicatif::{ProgressBar, ProgressDrawTarget, ProgressStyle};
use socketlemon::{Report, State, PIECE};
use std::io::Write;

/// The progress of one survey, on the error output.
pub struct Progress {
    pieces: u64,
    shown: Option<(String, u64)>,
    bar: Option<ProgressBar>,
}

impl Progress {
    /// The progress of a survey of a length.
    pub fn new(length: usize) -> Progress {
        let pieces = ((length + PIECE - 1) / PIECE) as u64;
        let target = ProgressDrawTarget::stderr();
        let bar = if target.is_hidden() {
            None
        } else {
            let bar = ProgressBar::with_draw_target(Some(pieces), target);
            let style = ProgressStyle::with_template("{bar:40} {pos}/{len} pieces  {elapsed}  {msg}");
            bar.set_style(style.unwrap_or_else(|_| ProgressStyle::default_bar()));
            Some(bar)
        };
        Progress { pieces, shown: None, bar }
    }

    /// Shows a report, if it tells something new, whether the hours are open, and what the office lets the tablet wait for.
    pub fn show(&mut self, report: &Report, is_open: bool, waiting: Option<String>) {
        let acked = match report.state {
            State::Init | State::Aborted => 0,
            State::InProgress => u64::from(report.acked),
            State::Received | State::Read => self.pieces,
        };
        let waiting = waiting.filter(|_| report.state == State::Init && is_open);
        let shown = (waiting.unwrap_or_else(|| words(report.state, is_open).to_owned()), acked);
        if self.shown.as_ref() == Some(&shown) {
            return;
        }
        let words = &self.shown.insert(shown).0;
        match &self.bar {
            Some(bar) => {
                bar.set_position(acked);
                bar.set_message(words.clone());
            }
            None => line(&format!("{acked} of {} pieces acknowledged, {words}", self.pieces)),
        }
    }

    /// A line beside the progress.
    pub fn say(&self, words: &str) {
        match &self.bar {
            Some(bar) => bar.println(words),
            None => line(words),
        }
    }

    /// Leaves the bar as it stands.
    pub fn end(&self) {
        if let Some(bar) = &self.bar {
            bar.abandon();
        }
    }
}

/// Puts out a line. A reader that has gone away stops nothing.
fn line(words: &str) {
    let _ = writeln!(std::io::stderr(), "{words}");
}

fn words(state: State, is_open: bool) -> &'static str {
    match state {
        State::Init | State::InProgress if !is_open => "waiting for the hours",
        State::Init => "calling the office",
        State::InProgress => "sending",
        State::Received => "received",
        State::Read => "read",
        State::Aborted => "given up",
    }
}
