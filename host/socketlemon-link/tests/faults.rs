//! What goes wrong beside the link: an office that is killed, an outage, tablets that are stopped.

mod common;

use common::relay::{Bad, Relay};
use common::voice::{address, init, piece, Voice};
use common::{
    introduce, introduce_all, is_slow, run, signal, start, survey, tablet, tablet_by, wait_until, Folder,
    Office, Running,
};
use socketlemon_link::notice::Notice;
use socketlemon_link::random::Seeded;
use std::io::{BufRead, BufReader, Read};
use std::process::{ChildStderr, Command};
use std::time::{Duration, Instant};

/// A link on which a survey of 25 pieces takes some seconds.
fn slow_link(seed: u64) -> Bad {
    Bad { lose: 0.5, repeat: 0.1, late: Duration::from_millis(50), lost_aborts: None, seed }
}

/// Starts the known tablet with the longest survey, over a relay; and gives its lines.
fn send(folder: &Folder, office: &Office, relay: &Relay) -> (Running, BufReader<ChildStderr>) {
    let file = folder.file("survey", &survey(32_500, 3));
    let mut running = start(tablet_by(folder, office, &relay.socket, &file, &["--deadline", "60"]));
    let lines = BufReader::new(running.0.stderr.take().expect("its lines"));
    (running, lines)
}

/// Reads the tablet's lines up to one that fits; whether there was one.
fn says(lines: &mut BufReader<ChildStderr>, fits: impl Fn(&str) -> bool) -> bool {
    lines.by_ref().lines().any(|line| fits(&line.expect("a line")))
}

/// The link is cut until the office has dropped the survey; when it is mended the tablet starts anew, and soon.
#[test]
fn an_outage_longer_than_the_office_remembers_is_noticed() {
    let folder = Folder::new();
    introduce(&folder);
    let mut office = Office::start(&folder, "[::1]:0", &["--forget", "1"]);
    let relay = Relay::to(&office.socket, slow_link(1));
    let (mut tablet, mut lines) = send(&folder, &office, &relay);
    assert!(says(&mut lines, |line| line.starts_with("3 of 25 pieces")));
    relay.cut(true);
    office.line(|line| line.ends_with("went silent and was dropped"));
    relay.cut(false);
    assert!(says(&mut lines, |line| line == "the office no longer has the survey; it is sent anew"));
    lines.lines().for_each(drop);
    assert_eq!(tablet.end().status.code(), Some(0));
    assert!(folder.surveys() == [survey(32_500, 3)]);
}

/// A message that was silent before the office was stopped is not heard anew because it starts again.
#[test]
fn a_restart_does_not_reset_silence() {
    let folder = Folder::new();
    introduce(&folder);
    let forget = ["--forget", "4"];
    let mut office = Office::start(&folder, "[::1]:0", &forget);
    Voice::to(&office).announce(address(&folder, "tablet.key"), 7);
    office.kill();
    std::thread::sleep(Duration::from_secs(4));
    let start = Instant::now();
    office = Office::start(&folder, "[::1]:0", &forget);
    office.line(|line| line.contains("went silent and was dropped"));
    assert!(start.elapsed() < Duration::from_secs(3), "it was dropped after {:?}", start.elapsed());
}

/// A tablet that is stopped says so, and leaves nothing behind in the office, though the link loses two of the three packets that say it.
#[test]
fn a_tablet_that_is_stopped_says_that_it_gives_up() {
    for name in ["INT", "TERM", "HUP"] {
        let folder = Folder::new();
        introduce(&folder);
        let office = Office::start(&folder, "[::1]:0", &[]);
        let relay = Relay::to(&office.socket, Bad { lose: 0.3, lost_aborts: Some(2), ..slow_link(2) });
        let (mut tablet, mut lines) = send(&folder, &office, &relay);
        assert!(says(&mut lines, |line| line.starts_with("3 of 25 pieces")));
        signal(tablet.0.id(), name);
        assert!(says(&mut lines, |line| line.contains("stopped by a signal: ")), "SIG{name}");
        assert_eq!(tablet.end().status.code(), Some(1), "SIG{name}");
        wait_until("an empty store", || folder.arriving() == 0);
    }
}

/// What `nohup` or a shell lets a tablet ignore does not stop it.
#[test]
fn a_signal_that_is_ignored_at_the_start_stays_ignored() {
    let folder = Folder::new();
    introduce(&folder);
    let office = Office::start(&folder, "[::1]:0", &[]);
    let relay = Relay::to(&office.socket, slow_link(3));
    let file = folder.file("survey", &survey(32_500, 3));
    let send = tablet_by(&folder, &office, &relay.socket, &file, &["--deadline", "60"]);
    let mut shell = Command::new("sh");
    shell.args(["-c", "trap '' HUP; exec \"$0\" \"$@\""]).arg(send.get_program()).args(send.get_args());
    shell.current_dir(send.get_current_dir().expect("the test's folder"));
    let mut tablet = start(shell);
    let mut lines = BufReader::new(tablet.0.stderr.take().expect("its lines"));
    assert!(says(&mut lines, |line| line.starts_with("3 of 25 pieces")));
    signal(tablet.0.id(), "HUP");
    lines.lines().for_each(drop);
    assert_eq!(tablet.end().status.code(), Some(0));
}

/// A tablet that could not say so is pushed out by its own next survey, within seconds.
#[test]
fn a_new_survey_pushes_out_the_abandoned_one_of_its_tablet() {
    let folder = Folder::new();
    introduce(&folder);
    let mut office = Office::start(&folder, "[::1]:0", &[]);
    let (voice, own) = (Voice::to(&office), address(&folder, "tablet.key"));
    voice.announce(own, 7);
    voice.pieces(own, 7, 0..25, 1_300);
    let file = folder.file("survey", &survey(32_500, 3));
    let output = run(tablet(&folder, &office, &file, &["--deadline", "20"]));
    assert_eq!(output.status.code(), Some(0), "{output:?}");
    let line = office.line(|line| line.contains("was dropped: its tablet is silent"));
    assert!(line.contains("0707070707070707"), "{line}");
    assert_eq!(voice.ask(own, &piece(7, 0, 1_300)), (0, Some(Notice::Gone)), "a late word of the old one");
}

/// One that still speaks is not pushed out: the new one waits for it.
#[test]
fn a_survey_that_still_arrives_is_not_pushed_out() {
    let folder = Folder::new();
    introduce(&folder);
    let office = Office::start(&folder, "[::1]:0", &[]);
    let (voice, own) = (Voice::to(&office), address(&folder, "tablet.key"));
    voice.announce(own, 7);
    let end = Instant::now() + Duration::from_millis(3_500);
    while Instant::now() < end {
        voice.pieces(own, 7, 0..1, 1_300);
        assert_eq!(voice.ask(own, &init(8, 32_500)), (0, Some(Notice::Wait(0))));
        std::thread::sleep(Duration::from_millis(100));
    }
    assert_eq!(folder.arriving(), 1);
}

/// Tablets send over a bad link while the office is killed again and again: each survey arrives, once and unmixed.
#[test]
fn kills_lose_double_and_mix_nothing() {
    let (tablets, kills) = if is_slow() { (6, 120) } else { (4, 10) };
    let folder = Folder::new();
    introduce_all(&folder, tablets);
    let mut office = Office::start(&folder, "[::1]:0", &[]);
    let relay = Relay::to(&office.socket, Bad { lose: 0.2, ..slow_link(5) });
    let sends = |number: usize| {
        let file = folder.file(&format!("{number}.data"), &survey(32_500 - number, number));
        let key = format!("{number}.key");
        start(tablet_by(&folder, &office, &relay.socket, &file, &["--key", &key, "--deadline", "100"]))
    };
    let all: Vec<Running> = (0..tablets).map(sends).collect();
    let mut random = Seeded::new(9);
    for _ in 0..kills {
        std::thread::sleep(Duration::from_micros(random.number() % 250_000));
        office.kill();
        let socket = office.socket.clone();
        office = Office::start(&folder, &socket, &[]);
    }
    for mut running in all {
        let output = running.end();
        assert_eq!(output.status.code(), Some(0), "{output:?}");
    }
    let mut sent: Vec<_> = (0..tablets).map(|number| survey(32_500 - number, number)).collect();
    sent.sort();
    assert!(folder.surveys() == sent, "each survey is there once");
}
