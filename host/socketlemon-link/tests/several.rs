//! Several tablets at one office: all of them finish, whatever the link, and those that have to wait are told so.

mod common;

use common::relay::{Bad, Relay};
use common::voice::{address, init, piece, Voice};
use common::{introduce_all, is_slow, start, survey, tablet_by, Folder, Office, Running};
use socketlemon_link::notice::Notice;
use std::time::{Duration, Instant};

/// A link that loses a tenth of the datagrams, repeats some, and is up to 40 ms late.
fn bad(seed: u64) -> Bad {
    Bad { lose: 0.1, repeat: 0.05, late: Duration::from_millis(40), lost_aborts: None, seed }
}

/// A tablet that was started, and what became of it.
struct Sent {
    running: Running,
    start: Instant,
}

impl Sent {
    /// Starts tablet number `number` with a survey of a length.
    fn start(folder: &Folder, office: &Office, to: &str, number: usize, length: usize) -> Sent {
        let file = folder.file(&format!("{number}.data"), &survey(length, number));
        let key = format!("{number}.key");
        let command = tablet_by(folder, office, to, &file, &["--deadline", "100", "--key", &key]);
        Sent { running: start(command), start: Instant::now() }
    }

    /// Waits for its end. Gives its exit code, how long it took at most, and what it said.
    fn end(mut self) -> (Option<i32>, Duration, String) {
        let output = self.running.end();
        (output.status.code(), self.start.elapsed(), String::from_utf8_lossy(&output.stderr).into_owned())
    }
}

/// So many tablets send the longest survey at once; all arrive, and those that wait are told.
fn all_finish(tablets: usize, bad: Bad) {
    let folder = Folder::new();
    introduce_all(&folder, tablets);
    let office = Office::start(&folder, "[::1]:0", &[]);
    let relay = Relay::to(&office.socket, bad);
    let sent: Vec<Sent> =
        (0..tablets).map(|number| Sent::start(&folder, &office, &relay.socket, number, 32_500)).collect();
    let ends: Vec<_> = sent.into_iter().map(Sent::end).collect();
    let failed: Vec<_> = ends.iter().filter(|(code, ..)| *code != Some(0)).collect();
    assert!(failed.is_empty(), "{} of {tablets} did not finish: {failed:?}", failed.len());
    let was_told = |end: &(Option<i32>, Duration, String)| end.2.contains("waiting for the office: ");
    assert!(ends.iter().any(was_told), "nobody was told to wait");
    let mut surveys: Vec<_> = (0..tablets).map(|number| survey(32_500, number)).collect();
    surveys.sort();
    assert!(folder.surveys() == surveys, "each survey is there once");
    assert_eq!(folder.arriving(), 0);
}

#[test]
fn ten_tablets_finish_on_a_good_link() {
    all_finish(10, Bad::GOOD);
}

#[test]
fn ten_tablets_finish_on_a_bad_link() {
    let seeds = if is_slow() { 10 } else { 1 };
    (1..=seeds).for_each(|seed| all_finish(10, bad(seed)));
}

/// Two of 25 pieces need 50 cells of 45. The third, which is short, does not wait for them.
#[test]
fn a_short_survey_passes_two_long_ones() {
    let rounds = if is_slow() { 20 } else { 2 };
    for round in 1..=rounds {
        let folder = Folder::new();
        introduce_all(&folder, 3);
        let office = Office::start(&folder, "[::1]:0", &[]);
        let relay = Relay::to(&office.socket, bad(round));
        let mut sent: Vec<Sent> =
            (0..2).map(|number| Sent::start(&folder, &office, &relay.socket, number, 32_500)).collect();
        std::thread::sleep(Duration::from_millis(300));
        sent.push(Sent::start(&folder, &office, &relay.socket, 2, 65));
        let short = sent.pop().expect("the third").end();
        assert_eq!(short.0, Some(0), "{}", short.2);
        // it waits up to 2 s for the news that it was read
        assert!(short.1 < Duration::from_secs(15), "65 bytes took {:?}", short.1);
        sent.into_iter().map(Sent::end).for_each(|(code, _, said)| assert_eq!(code, Some(0), "{said}"));
        assert_eq!(folder.surveys().len(), 3);
    }
}

/// Who came first is served first, and nobody takes cells that were promised to another.
#[test]
fn a_place_in_line_is_kept() {
    let folder = Folder::new();
    introduce_all(&folder, 4);
    let office = Office::start(&folder, "[::1]:0", &[]);
    let voice = Voice::to(&office);
    let own: Vec<_> = (0..4).map(|number| address(&folder, &format!("{number}.key"))).collect();
    voice.announce(own[0], 0);
    let wait = |before| (0, Some(Notice::Wait(before)));
    assert_eq!(voice.ask(own[1], &init(1, 32_500)), wait(0));
    assert_eq!(voice.ask(own[2], &init(2, 32_500)), wait(1));
    assert_eq!(voice.ask(own[1], &init(1, 32_500)), wait(0));
    // 20 cells are free, and with 20 beside it the first of the line can still start
    assert_eq!(voice.ask(own[3], &init(3, 19 * 1_300)), (0x81, None));
    assert_eq!(voice.ask(own[3], &init(4, 1_300)), (0x81, None));
    assert_eq!(voice.ask(own[3], &init(5, 1)), wait(2), "with one more it could not");
    // what was promised is there
    voice.pieces(own[0], 0, 0..25, 1_300);
    voice.pieces(own[3], 3, 0..19, 1_300);
    voice.pieces(own[3], 4, 0..1, 1_300);
    // the first gives up; only the next one in line takes its place
    voice.send(own[0], &[&[0; 8][..], &[0x20, 0, 0, 0]].concat());
    assert_eq!(voice.ask(own[2], &init(2, 32_500)), wait(1));
    assert_eq!(voice.ask(own[1], &init(1, 32_500)), (0x81, None));
    assert_eq!(voice.ask(own[2], &init(2, 32_500)), wait(0));
    // one that waits can give up too
    voice.send(own[2], &[&[2; 8][..], &[0x20, 0, 0, 0]].concat());
    assert_eq!(voice.ask(own[3], &init(5, 1)), wait(0));
}

/// A tablet whose deadline is shorter than its wait arrives all the same: the time in line does not count.
#[test]
fn the_time_in_line_does_not_count() {
    let folder = Folder::new();
    introduce_all(&folder, 2);
    let office = Office::start(&folder, "[::1]:0", &[]);
    let (voice, own) = (Voice::to(&office), address(&folder, "0.key"));
    voice.announce(own, 7);
    let file = folder.file("1.data", &survey(32_500, 1));
    let words = ["--deadline", "2", "--key", "1.key"];
    let mut sent = start(tablet_by(&folder, &office, &office.socket, &file, &words));
    let end = Instant::now() + Duration::from_secs(4);
    while Instant::now() < end {
        voice.pieces(own, 7, 0..1, 1_300);
        std::thread::sleep(Duration::from_millis(100));
    }
    voice.send(own, &[&[7; 8][..], &[0x20, 0, 0, 0]].concat());
    let output = sent.end();
    assert_eq!(output.status.code(), Some(0), "{output:?}");
    let told = String::from_utf8_lossy(&output.stderr);
    assert!(told.contains("pieces acknowledged, waiting for the office: next in line"), "{told}");
}

/// A tablet of another make cuts pieces of 1,100 bytes: 30 of them, where 25 were promised.
#[test]
fn pieces_of_another_size_find_room_or_make_it() {
    let folder = Folder::new();
    introduce_all(&folder, 3);
    let mut office = Office::start(&folder, "[::1]:0", &[]);
    let voice = Voice::to(&office);
    let own: Vec<_> = (0..3).map(|number| address(&folder, &format!("{number}.key"))).collect();
    // with one beside it that needs 20 there is no room for the 26th piece; it counts as lost
    voice.announce(own[0], 1);
    assert_eq!(voice.ask(own[1], &init(2, 20 * 1_300)), (0x81, None));
    voice.pieces(own[0], 1, 0..25, 1_080);
    voice.send(own[0], &piece(1, 25, 1_080));
    // nobody else is admitted before it, and what was promised to the other is there
    assert_eq!(voice.ask(own[2], &init(3, 1)), (0, Some(Notice::Wait(0))));
    voice.pieces(own[1], 2, 0..20, 1_300);
    voice.send(own[1], &[&[2; 8][..], &[0x20, 0, 0, 0]].concat());
    voice.pieces(own[0], 1, 25..30, 1_080);
    assert_eq!(folder.store().records().next().map(|record| record.slots), Some(30));
    // a thirty-first can never have a cell
    voice.send(own[0], &piece(1, 30, 1_040));
    office.line(|line| line.contains("was dropped: it has more pieces than a tablet may have cells"));
    assert_eq!(voice.ask(own[2], &init(3, 1)), (0x81, None));
}

/// Two such tablets would wait for each other: the one that asked first goes on, and the other one is told.
#[test]
fn two_that_outgrow_their_promise_do_not_wait_for_each_other() {
    let folder = Folder::new();
    introduce_all(&folder, 2);
    let mut office = Office::start(&folder, "[::1]:0", &[]);
    let voice = Voice::to(&office);
    let own: Vec<_> = (0..2).map(|number| address(&folder, &format!("{number}.key"))).collect();
    let length = 22 * 1_300;
    for number in [0, 1u8] {
        assert_eq!(voice.ask(own[usize::from(number)], &init(number, length)), (0x81, None));
    }
    voice.pieces(own[0], 0, 0..23, 1_000);
    voice.pieces(own[1], 1, 0..22, 1_000);
    voice.send(own[1], &piece(1, 22, 1_000));
    voice.pieces(own[0], 0, 23..28, 1_000);
    let line = office.line(|line| line.contains("was dropped: an older one needs its cells"));
    assert!(line.contains("0101010101010101"), "{line}");
    assert_eq!(voice.ask(own[1], &piece(1, 22, 1_000)), (0, Some(Notice::Gone)));
}
