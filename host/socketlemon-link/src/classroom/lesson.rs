//! A lesson: a run, what became of each piece, how much is worth drawing, and what it comes to in words.

use super::run::{self, Round, Sent, Side, ROUNDS, ROUND_MS};
use super::script::{Letter, Letters, Script};
use super::{counted, name};
use crate::datagram::Content;
use socketlemon::{Refusal, State, PIECE};

/// How far the init, a piece or the done is.
#[derive(Clone, Copy, Debug, PartialEq, Eq)]
pub enum Step {
    /// It was not sent yet.
    Started,
    /// It was sent, and no reply has come.
    Sent,
    /// Its reply has come.
    Acked,
}

/// A run, and what is said of it.
#[derive(Clone, Debug)]
pub struct Lesson {
    /// The bytes of the survey.
    pub length: usize,
    /// The push and all rounds.
    pub rounds: Vec<Round>,
    /// In which round it would be received over a link that delivers everything once.
    best: Option<usize>,
}

impl Lesson {
    /// The lesson of a script. The library refuses none of the calls that are not packets.
    pub fn of(script: &Script) -> Result<Lesson, Refusal> {
        let good = Script { length: script.length, letters: Letters::default() };
        Ok(Lesson {
            length: script.length.bytes(),
            rounds: run::run(script)?,
            best: received(&run::run(&good)?),
        })
    }

    /// How many pieces the survey has.
    pub fn pieces(&self) -> usize {
        (self.length + PIECE - 1) / PIECE
    }

    /// What the program `classroom` prints: for each round its number, the state and the three counts.
    pub fn rows(&self) -> String {
        let row = |round: &Round| {
            let report = &round.report;
            let (state, started) = (report.state as u8, report.started);
            format!("{} {state} {started} {} {}\n", round.number, report.sent, report.acked)
        };
        self.rounds.iter().map(row).collect()
    }

    /// The rounds that are drawn: as long as something changes, and the next one if something is sent in it.
    pub fn drawn(&self) -> &[Round] {
        let known = |round: &Round| (round.report, round.is_whole);
        let changes = |pair: &[Round]| known(&pair[0]) != known(&pair[1]);
        let last = self.rounds.windows(2).rposition(changes).map_or(0, |before| before + 1);
        let is_sending = self.rounds.get(last + 1).map_or(false, |next| !next.packets.is_empty());
        &self.rounds[..=last + usize::from(is_sending)]
    }

    /// A sentence on the rounds that are not drawn, if there are any.
    pub fn rest(&self) -> Option<String> {
        let rest = &self.rounds[self.drawn().len()..];
        let first = rest.first()?.number;
        let packets = || rest.iter().flat_map(|round| &round.packets);
        Some(match packets().count() {
            0 => format!("Rounds {first} to {ROUNDS}: nothing is sent any more."),
            count => format!(
                "Rounds {first} to {ROUNDS} change nothing any more: {} sent, {} lost and {} ignored.",
                counted(count, "more packet"),
                packets().filter(|packet| packet.letter == Letter::Lost).count(),
                packets().filter(|packet| packet.is_ignored()).count()
            ),
        })
    }

    /// The init, the pieces and the done.
    pub fn contents(&self) -> Vec<Content> {
        let pieces = (0..self.pieces()).map(Content::Piece);
        std::iter::once(Content::Init).chain(pieces).chain([Content::Done]).collect()
    }

    /// For each round, how far each of the contents is at its end.
    pub fn steps(&self) -> Vec<Vec<Step>> {
        let contents = self.contents();
        let mut steps = vec![Step::Started; contents.len()];
        let after = |round: &Round| {
            for packet in &round.packets {
                if let Some(place) = contents.iter().position(|content| *content == packet.content) {
                    steps[place] = step(steps[place], packet);
                }
            }
            steps.clone()
        };
        self.rounds.iter().map(after).collect()
    }

    /// When the survey was received, and when it could have been: sentences.
    pub fn outcome(&self) -> Vec<String> {
        let whole = self.rounds.iter().find(|round| round.is_whole).map(|round| round.number);
        match (received(&self.rounds), whole) {
            (Some(round), _) => {
                let ms = ROUND_MS * round as u64;
                let known =
                    format!("in round {round}, {ms} ms after the push, that the office has the survey");
                let could = match self.best {
                    Some(best) if best < round => format!("Without losses it would be round {best}."),
                    _ => "That is as soon as without losses.".to_owned(),
                };
                vec![format!("The tablet knows {known}."), could]
            }
            (None, Some(round)) => vec![
                format!("The office has the whole survey in round {round}, but the tablet never learns it."),
                "The reply to its done was lost, and the office replies to a done once.".to_owned(),
            ],
            (None, None) => {
                vec![format!("The office does not have the whole survey after {ROUNDS} rounds.")]
            }
        }
    }

    /// What the link did to the packets of all rounds: sentences.
    pub fn damage(&self) -> Vec<String> {
        let count = |from: Side, letter: Letter| {
            let packets = self.rounds.iter().flat_map(|round| &round.packets);
            packets.filter(|packet| packet.from == from && packet.letter == letter).count()
        };
        let both = |letter: Letter| match (count(Side::Tablet, letter), count(Side::Office, letter)) {
            (0, 0) => "nothing.".to_owned(),
            (packets, 1) => {
                format!("{} of the tablet and 1 reply of the office.", counted(packets, "packet"))
            }
            (packets, replies) => {
                format!("{} of the tablet and {replies} replies of the office.", counted(packets, "packet"))
            }
        };
        let lost = format!("Lost in all: {}", both(Letter::Lost));
        let repeated = format!("Delivered twice: {}", both(Letter::Repeated));
        [Some(lost), Some(repeated), self.most_sent()].into_iter().flatten().collect()
    }

    /// A sentence on what the tablet had to send most often, if anything was sent again.
    fn most_sent(&self) -> Option<String> {
        let packets = || self.rounds.iter().flat_map(|round| &round.packets);
        let times = |content: Content| {
            packets().filter(|packet| packet.from == Side::Tablet && packet.content == content).count()
        };
        let most = self.contents().into_iter().map(times).max().filter(|most| *most > 1)?;
        let all = self.contents().into_iter().filter(|content| times(*content) == most);
        let names: Vec<String> = all.map(name).collect();
        Some(match names.len() {
            1 => format!("Sent most often: {}, {most} times.", names[0]),
            2..=3 => format!("Sent most often: {}, {most} times each.", names.join(" and ")),
            count => format!("Sent most often: {count} of the packets, {most} times each."),
        })
    }
}

/// The round in which the tablet learns that the office has the survey.
fn received(rounds: &[Round]) -> Option<usize> {
    rounds.iter().find(|round| round.report.state == State::Received).map(|round| round.number)
}

/// How far a content is after one more packet about it.
fn step(before: Step, packet: &Sent) -> Step {
    let is_taken = packet.arrivals.iter().any(Result::is_ok);
    match (packet.from, before) {
        (Side::Office, _) if is_taken => Step::Acked,
        (Side::Tablet, Step::Started) => Step::Sent,
        _ => before,
    }
}

#[cfg(test)]
mod tests {
    use super::*;

    fn lesson(text: &str) -> Lesson {
        Lesson::of(&Script::read(text.as_bytes()).expect("a script")).expect("a run")
    }

    /// Scripts in which packets of every kind are lost and repeated.
    fn lessons() -> Vec<Lesson> {
        let letters = ["", "RRRR", "LRLDRLLDDRDLL", "DDLLLLLLLLLRLRLRLDDDDLLDLDLLDLDLDLDL"];
        let both = |length: &'static str| letters.map(|letters| lesson(&format!("{length}\n{letters}")));
        ["0", "1301", "11700", "32500"].into_iter().flat_map(both).collect()
    }

    #[test]
    fn the_steps_are_counted_as_the_library_counts_them() {
        let mut compared = 0;
        for lesson in lessons() {
            for (round, steps) in lesson.rounds.iter().zip(lesson.steps()) {
                let pieces = &steps[1..steps.len() - 1];
                let count = |step| pieces.iter().filter(|one| **one == step).count();
                let report = &round.report;
                let counts = [report.started, report.sent, report.acked].map(usize::from);
                if report.state == State::InProgress {
                    assert_eq!([Step::Started, Step::Sent, Step::Acked].map(count), counts, "{round:?}");
                    compared += 1;
                }
                assert_eq!(steps[0] == Step::Acked, report.state != State::Init, "{round:?}");
                assert_eq!(steps[steps.len() - 1] == Step::Acked, report.state == State::Received);
            }
        }
        assert!(compared > 50, "{compared}");
    }

    #[test]
    fn what_is_not_drawn_is_as_the_last_that_is() {
        for lesson in lessons() {
            let drawn = lesson.drawn();
            let last = drawn.last().expect("the push is drawn");
            for round in &lesson.rounds[drawn.len()..] {
                assert_eq!((round.report, round.is_whole), (last.report, last.is_whole));
            }
            assert_eq!(lesson.rest().is_some(), drawn.len() < lesson.rounds.len());
            // the last that is drawn changes something, or sends something behind one that does
            let before = &drawn[drawn.len() - 2];
            let is_new = (before.report, before.is_whole) != (last.report, last.is_whole);
            assert!(is_new || !last.packets.is_empty(), "{last:?}");
        }
    }

    #[test]
    fn the_outcome_is_told() {
        let cases = [
            ("32500", "in round 5, 500 ms after the push", "as soon as without losses"),
            ("32500\nDDR", "in round 5, 500 ms after the push", "as soon as without losses"),
            ("2600\nDDL", "in round 3, 300 ms after the push", "Without losses it would be round 2"),
            ("0\nDDDL", "has the whole survey in round 1", "the tablet never learns it"),
        ];
        for (script, when, why) in cases {
            let outcome = lesson(script).outcome().join(" ");
            assert!(outcome.contains(when) && outcome.contains(why), "{script:?}: {outcome}");
        }
        let lost = lesson(&format!("0\n{}", "L".repeat(51)));
        assert_eq!(lost.outcome(), ["The office does not have the whole survey after 50 rounds."]);
    }

    #[test]
    fn the_damage_is_told() {
        let cases = [
            ("32500", "nothing", "nothing", None),
            (
                "1301\nDDLRL",
                "1 packet of the tablet and 1 reply of the office",
                "1 packet of the tablet and 0 replies of the office",
                Some("piece 0, 2 times"),
            ),
            (
                "2600\nLDLDRLLL",
                "4 packets of the tablet and 1 reply of the office",
                "0 packets of the tablet and 1 reply of the office",
                Some("the init and piece 0, 3 times each"),
            ),
            (
                "5200\nDDLLL",
                "3 packets of the tablet and 0 replies of the office",
                "nothing",
                Some("piece 0 and piece 1 and piece 2, 2 times each"),
            ),
            (
                "5200\nDDLLLL",
                "4 packets of the tablet and 0 replies of the office",
                "nothing",
                Some("4 of the packets, 2 times each"),
            ),
        ];
        for (script, lost, repeated, most) in cases {
            let damage = lesson(script).damage();
            assert_eq!(damage[0], format!("Lost in all: {lost}."), "{script:?}");
            assert_eq!(damage[1], format!("Delivered twice: {repeated}."), "{script:?}");
            let sentence = most.map(|most| format!("Sent most often: {most}."));
            assert_eq!(damage.get(2), sentence.as_ref(), "{script:?}");
        }
    }

    #[test]
    fn refused_packets_have_no_reply_and_no_letter() {
        // the done comes twice and has one reply, which is lost; then it is sent in every round
        let lesson = lesson("0\nDDRLR");
        let packets: Vec<&Sent> = lesson.rounds.iter().flat_map(|round| &round.packets).collect();
        assert_eq!(packets.len(), 4 + 49);
        assert_eq!(packets[2].arrivals, [Ok(()), Err(Refusal::UnknownId)]);
        assert_eq!(packets[4].arrivals, [Err(Refusal::UnknownId); 2]);
        assert_eq!([2, 3, 4].map(|number| packets[number].is_ignored()), [false, false, true]);
        assert!(packets.iter().zip(0..).all(|(packet, number)| packet.number == number));
    }
}
