//! The classroom: its lines beside a model, what it draws, the page, and inputs that are none.

mod common;

use common::{assert_fails, link, Folder};
use quick_xml::events::{BytesStart, Event};
use quick_xml::Reader;
use std::collections::VecDeque;

/// What the program prints for a length and letters, by a model that knows the protocol and no bytes.
struct Model<'a> {
    letters: &'a [u8],
    queue: VecDeque<Packet>,
    /// The tablet: its state, and how far each piece is.
    state: u8,
    pieces: Vec<Piece>,
    /// The office: the message is unknown, arriving or whole.
    office: u8,
}

#[derive(Clone, Copy, PartialEq)]
enum Piece {
    Started,
    /// In which round last.
    Sent(usize),
    Acked,
}

#[derive(Clone, Copy)]
enum Packet {
    Init,
    Piece(usize),
    Done,
    InitAck,
    PieceAck(usize),
    DoneAck,
}

impl Model<'_> {
    fn rows(length: usize, letters: &str) -> String {
        let mut model = Model {
            letters: letters.as_bytes(),
            queue: VecDeque::new(),
            state: 0,
            pieces: vec![Piece::Started; (length + 1_299) / 1_300],
            office: 0,
        };
        (0..=50).map(|round| model.round(round)).collect()
    }

    fn round(&mut self, round: usize) -> String {
        match self.state {
            0 => self.put(Packet::Init),
            1 if self.pieces.iter().all(|piece| *piece == Piece::Acked) => self.put(Packet::Done),
            1 => {
                for index in self.chosen() {
                    self.pieces[index] = Piece::Sent(round);
                    self.put(Packet::Piece(index));
                }
            }
            _ => {}
        }
        while let Some(packet) = self.queue.pop_front() {
            self.deliver(packet);
        }
        let count = |fits: fn(&Piece) -> bool| match self.state {
            1 => self.pieces.iter().filter(|piece| fits(piece)).count(),
            _ => 0,
        };
        let started = count(|piece| *piece == Piece::Started);
        let sent = count(|piece| matches!(piece, Piece::Sent(_)));
        let acked = count(|piece| *piece == Piece::Acked);
        format!("{round} {} {started} {sent} {acked}\n", self.state)
    }

    /// The first eight: new ones by index, then those sent longest ago. All were sent in earlier rounds, so
    /// are due.
    fn chosen(&self) -> Vec<usize> {
        let age = |index: &usize| match self.pieces[*index] {
            Piece::Started => (0, 0),
            Piece::Sent(round) => (1, round),
            Piece::Acked => (2, 0),
        };
        let mut all: Vec<usize> =
            (0..self.pieces.len()).filter(|index| self.pieces[*index] != Piece::Acked).collect();
        all.sort_by_key(age);
        all.truncate(8);
        all
    }

    fn put(&mut self, packet: Packet) {
        let letter = self.letters.first().copied().unwrap_or(b'D');
        self.letters = self.letters.get(1..).unwrap_or(&[]);
        let copies = match letter {
            b'L' => 0,
            b'R' => 2,
            _ => 1,
        };
        self.queue.extend(std::iter::repeat(packet).take(copies));
    }

    fn deliver(&mut self, packet: Packet) {
        match (packet, self.office, self.state) {
            (Packet::Init, 0 | 1, _) => {
                self.office = 1;
                self.put(Packet::InitAck);
            }
            (Packet::Piece(index), 1, _) => self.put(Packet::PieceAck(index)),
            (Packet::Done, 1, _) => {
                self.office = 2;
                self.put(Packet::DoneAck);
            }
            (Packet::InitAck, _, 0) => self.state = 1,
            (Packet::PieceAck(index), _, 1) => self.pieces[index] = Piece::Acked,
            (Packet::DoneAck, _, 1) => self.state = 2,
            // refused: nothing is put out
            _ => {}
        }
    }
}

/// What a command of the classroom prints.
fn classroom(folder: &Folder, words: &[&str]) -> String {
    let out = link(folder, &[&["classroom"], words].concat()).output().expect("the classroom");
    assert!(out.status.success() && out.stderr.is_empty(), "{words:?}: {out:?}");
    String::from_utf8(out.stdout).expect("text")
}

fn rows(folder: &Folder, length: usize, letters: &str) -> String {
    classroom(folder, &["--rows", "--length", &length.to_string(), "--letters", letters])
}

/// Letters that look random, so many of ten of each kind.
fn letters(seed: u64, count: usize, lost: u64, repeated: u64) -> String {
    let mut state = seed;
    let letter = || {
        state = state.wrapping_mul(6_364_136_223_846_793_005).wrapping_add(1_442_695_040_888_963_407);
        match (state >> 33) % 10 {
            n if n < lost => 'L',
            n if n < lost + repeated => 'R',
            _ => 'D',
        }
    };
    std::iter::repeat_with(letter).take(count).collect()
}

#[test]
fn the_first_lines_are_the_customers() {
    let folder = Folder::new();
    let all = rows(&folder, 0, "");
    assert!(all.starts_with("0 1 0 0 0\n1 2 0 0 0\n2 2 0 0 0\n"), "{all}");
    assert!(all.ends_with("\n50 2 0 0 0\n"), "{all}");
    assert_eq!(all.lines().count(), 51);
}

#[test]
fn a_survey_of_25_pieces_needs_four_rounds_and_one_for_its_done() {
    let all = rows(&Folder::new(), 32_500, "");
    let first = "0 1 25 0 0\n1 1 17 0 8\n2 1 9 0 16\n3 1 1 0 24\n4 1 0 0 25\n5 2 0 0 0\n6 2 0 0 0\n";
    assert!(all.starts_with(first), "{all}");
}

#[test]
fn losses_and_repeats_by_hand() {
    let folder = Folder::new();
    // the init is lost, then its reply; then piece 0, then the reply to piece 1
    let all = rows(&folder, 2_600, "LDLDDLDL");
    let first = "0 0 0 0 0\n1 0 0 0 0\n2 1 2 0 0\n3 1 0 2 0\n4 1 0 0 2\n5 2 0 0 0\n";
    assert!(all.starts_with(first), "{all}");
    // the init comes twice; the first of its two replies is lost, and the second is enough
    assert!(rows(&folder, 0, "RL").starts_with("0 1 0 0 0\n1 2 0 0 0\n"));
    // the done comes twice and is answered once: that reply has the next letter
    assert!(rows(&folder, 0, "DDRL").ends_with("\n49 1 0 0 0\n50 1 0 0 0\n"));
    assert!(rows(&folder, 0, "DDRDL").contains("\n1 2 0 0 0\n"));
}

#[test]
fn where_the_reply_to_the_done_is_lost_the_tablet_never_learns_it() {
    let folder = Folder::new();
    let all = rows(&folder, 1_300, "DDDDDL");
    assert_eq!(all.lines().skip(1).filter(|line| line.ends_with(" 1 0 0 1")).count(), 50, "{all}");
    let drawn = classroom(&folder, &["--length", "1300", "--letters", "DDDDDL"]);
    for words in
        ["done✗", "(done)", "Rounds 4 to 50 change nothing any more: 47 more packets", "never learns it"]
    {
        assert!(drawn.contains(words), "{words}: {drawn}");
    }
}

#[test]
fn the_lines_are_those_of_the_model() {
    let folder = Folder::new();
    let lengths =
        [0, 1, 249, 250, 1_300, 1_301, 1_549, 2_600, 10_400, 10_401, 11_700, 20_801, 32_499, 32_500];
    let mut received = 0;
    for (seed, length) in (1..).zip(lengths.into_iter().cycle().take(56)) {
        let (lost, repeated) = [(0, 5), (2, 1), (4, 1), (6, 2)][seed as usize % 4];
        let letters = letters(seed, [2_000, 150, 40][seed as usize % 3], lost, repeated);
        let all = rows(&folder, length, &letters);
        assert_eq!(all, Model::rows(length, &letters), "{length} {letters}");
        received += usize::from(all.ends_with(" 2 0 0 0\n"));
    }
    assert!((20..56).contains(&received), "some are received, and some are not: {received}");
    for letters in ["L".repeat(2_000), "R".repeat(2_000)] {
        assert_eq!(rows(&folder, 32_500, &letters), Model::rows(32_500, &letters));
    }
}

#[test]
fn a_file_says_the_same() {
    let folder = Folder::new();
    let wanted = rows(&folder, 20_801, "DDLRL");
    for text in ["20801\nDDLRL", "20801\nDDLRL\n"] {
        folder.file("lesson.txt", text.as_bytes());
        assert_eq!(classroom(&folder, &["--rows", "--file", "lesson.txt"]), wanted);
    }
}

#[test]
fn other_inputs_end_with_2() {
    let folder = Folder::new();
    let run = |words: &[&str]| link(&folder, &[&["classroom"], words].concat());
    let long = "D".repeat(2_001);
    let lists: [(&[&str], &str); 11] = [
        (&[], "--length"),
        (&["--length", "32501"], "a survey has at most 32500 bytes"),
        (&["--length", "007"], "the length has no leading zero"),
        (&["--length", "+7"], "the length is a decimal number"),
        (&["--length", ""], "--length"),
        (&["--length", "7", "--letters", "DXL"], "not 'X'"),
        (&["--length", "7", "--letters", &long], "at most 2000 letters, not 2001"),
        (&["--letters", "D"], "--length"),
        (&["--length", "7", "--file", "f"], "--file"),
        (&["--length", "7", "--rows", "--page", "p"], "--page"),
        (&["--length", "7", "--page", "p", "--title", "two\nlines"], "one line"),
    ];
    for (words, why) in lists {
        assert_fails(run(words), 2, &[why]);
    }
    folder.file("lesson", b"7\nD\n\n");
    assert_fails(run(&["--file", "lesson"]), 2, &["lesson is no script: it has more than two lines"]);
    folder.file("lesson", &[b'D'; 1_000_000]);
    assert_fails(run(&["--file", "lesson"]), 2, &["lesson is no script: the length is a decimal number"]);
    assert_fails(run(&["--file", "nowhere"]), 1, &["cannot read nowhere"]);
    assert_fails(run(&["--length", "7", "--page", "no/where.html"]), 1, &["cannot write no/where.html"]);
}

#[test]
fn the_drawing_has_the_rounds_until_nothing_changes() {
    let folder = Folder::new();
    let drawn = classroom(&folder, &["--length", "11700", "--letters", "DDDLDR"]);
    let wanted = "\
round  0     0 ms  ·········  started 9, sent 0, acked 0
      tablet sends  init
    office replies  init
round  1   100 ms  █▒██████·  started 1, sent 1, acked 7
      tablet sends  0 1✗ 2 3×2 4 5 6 7
    office replies  0 2 3 3 4 5 6 7
round  2   200 ms  █████████  started 0, sent 0, acked 9
      tablet sends  8 1
    office replies  8 1
round  3   300 ms  █████████  received
      tablet sends  done
    office replies  done
Rounds 4 to 50: nothing is sent any more.
";
    assert!(drawn.contains(wanted), "{drawn}");
    let lost = classroom(&folder, &["--length", "1", "--letters", &"L".repeat(2_000)]);
    let words = "Rounds 2 to 50 change nothing any more: 49 more packets sent, 49 lost and 0 ignored.";
    assert!(lost.contains(words), "{lost}");
}

#[test]
fn the_paper_shows_what_is_printed() {
    let paper = include_str!("../../README.md");
    let command = paper.split("    $link classroom ").nth(1).expect("a command");
    let words: Vec<&str> = command.lines().next().expect("a line").split(' ').collect();
    let drawn = classroom(&Folder::new(), &words);
    let indented = |line: &str| match line {
        "" => "\n".to_owned(),
        _ => format!("    {line}\n"),
    };
    let shown: String = drawn.lines().map(indented).collect();
    assert!(shown.contains("Without losses it would be round 2."), "{shown}");
    assert!(paper.contains(&shown), "{shown}");
}

/// The elements of a page with the value of their class; it is checked that every one is closed.
fn elements(page: &[u8]) -> Vec<(String, String)> {
    let mut reader = Reader::from_reader(page);
    let (mut seen, mut open, mut buffer) = (Vec::new(), 0, Vec::new());
    let seen_as = |start: &BytesStart<'_>| {
        let name = String::from_utf8_lossy(start.name().as_ref()).into_owned();
        let class = start.try_get_attribute("class").expect("well-formed attributes");
        (name, class.map_or(String::new(), |class| class.unescape_value().expect("a value").into_owned()))
    };
    loop {
        match reader.read_event_into(&mut buffer).expect("well-formed markup") {
            Event::Start(start) => {
                open += 1;
                seen.push(seen_as(&start));
            }
            Event::Empty(start) => seen.push(seen_as(&start)),
            Event::End(_) => open -= 1,
            Event::Text(text) => drop(text.unescape().expect("well-formed text")),
            Event::Eof => break,
            _ => {}
        }
        buffer.clear();
    }
    assert_eq!(open, 0, "every element is closed");
    seen
}

#[test]
fn the_page_is_well_formed_and_has_what_is_drawn() {
    let folder = Folder::new();
    for (length, letters) in [(0, "DDDL"), (1, "RRRR"), (11_700, "LDLDDDLRLRLLD"), (32_500, "DDLLLRDDDDDDL")]
    {
        let words = ["--length", &length.to_string(), "--letters", letters, "--page", "p.html"];
        let drawn = classroom(&folder, &words);
        let page = std::fs::read_to_string(folder.path("p.html")).expect("the page");
        assert!([" src=", " href=", "url(", "@import"].iter().all(|load| !page.contains(load)), "{page}");
        let seen = elements(page.as_bytes());
        let count = |name: &str, class: &str| seen.iter().filter(|(n, c)| n == name && c == class).count();
        let rounds = drawn.lines().filter(|line| line.starts_with("round ")).count();
        assert_eq!(count("g", "round"), rounds, "{length} {letters}");
        // the legend has two of them; all that is lost here is lost before the rest
        let lost = letters.matches('L').count();
        assert_eq!(count("path", "lost"), 2 + lost, "{length} {letters}");
        assert!(seen.iter().all(|(name, _)| !["script", "link", "img", "iframe"].contains(&name.as_str())));
    }
}

#[test]
fn a_heading_is_escaped() {
    let folder = Folder::new();
    let title = "<script>\"B&B\" isn't > this</script>";
    classroom(&folder, &["--length", "1", "--page", "p.html", "--title", title]);
    let page = std::fs::read_to_string(folder.path("p.html")).expect("the page");
    let escaped = "&lt;script&gt;&quot;B&amp;B&quot; isn&apos;t &gt; this&lt;/script&gt;";
    assert!(page.contains(&format!("<h1>{escaped}</h1>")), "{page}");
    assert!(page.contains(&format!("<title>{escaped}</title>")), "{page}");
    assert!(page.starts_with("<!DOCTYPE html><html lang=\"en\">"), "{page}");
    assert!(elements(page.as_bytes()).iter().all(|(name, _)| name != "script"));
}
