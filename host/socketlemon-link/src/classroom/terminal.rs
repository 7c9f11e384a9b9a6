//! A lesson in the terminal: for each round a bar, and the packets of both sides.

use super::lesson::{Lesson, Step};
use super::run::{Round, Sent, Side, ROUND_MS};
use super::script::Letter;
use super::{counted, mark};
use socketlemon::State;
use std::fmt::Write;

const LEGEND: &str = "\
bar, a mark for each piece:  █ acked: its reply came   ▒ sent: no reply yet   · started: not sent yet
packets and replies:         3 delivered   3✗ lost   3×2 delivered twice   (3) arrived and was ignored
";

/// The drawing of a lesson.
pub fn draw(lesson: &Lesson) -> String {
    let pieces = counted(lesson.pieces(), "piece");
    let mut out = format!("A survey of {} bytes in {pieces}.\n\n{LEGEND}\n", lesson.length);
    for (round, steps) in lesson.drawn().iter().zip(lesson.steps()) {
        // the first and the last of the steps are the init's and the done's
        draw_round(&mut out, round, &steps[1..steps.len() - 1]);
    }
    if let Some(rest) = lesson.rest() {
        out += &format!("{rest}\n");
    }
    let sentences = [lesson.outcome(), lesson.damage()].concat();
    out + "\n" + &sentences.join("\n") + "\n"
}

fn draw_round(out: &mut String, round: &Round, pieces: &[Step]) {
    let ms = ROUND_MS * round.number as u64;
    let bar: String = pieces.iter().map(|step| bar_mark(*step)).collect();
    let _ = writeln!(out, "round {:2} {ms:5} ms  {bar}  {}", round.number, words(round));
    for (side, name) in [(Side::Tablet, "tablet sends"), (Side::Office, "office replies")] {
        let packets: Vec<String> =
            round.packets.iter().filter(|packet| packet.from == side).map(packet_mark).collect();
        if !packets.is_empty() {
            let _ = writeln!(out, "{name:>18}  {}", packets.join(" "));
        }
    }
}

fn bar_mark(step: Step) -> char {
    match step {
        Step::Started => '·',
        Step::Sent => '▒',
        Step::Acked => '█',
    }
}

fn words(round: &Round) -> String {
    let report = &round.report;
    match report.state {
        State::Init => "calling the office".to_owned(),
        State::InProgress => {
            format!("started {}, sent {}, acked {}", report.started, report.sent, report.acked)
        }
        // the classroom has no deadline, and nothing is taken
        State::Received | State::Read | State::Aborted => "received".to_owned(),
    }
}

fn packet_mark(packet: &Sent) -> String {
    let mark = mark(packet.content);
    match packet.letter {
        Letter::Lost => format!("{mark}✗"),
        _ if packet.is_ignored() => format!("({mark})"),
        Letter::Delivered => mark,
        Letter::Repeated => format!("{mark}×2"),
    }
}
