//! Sending hours: a tablet that is given a file of them.

mod common;

use common::{assert_fails, introduce, key, link, run, survey, tablet, Folder, Office};
use socketlemon::{Calendar, Offset, Weekday};
use socketlemon_link::faults::Odds;
use socketlemon_link::keys::Key;
use socketlemon_link::signals::Signals;
use socketlemon_link::tablet::{send, Ended, Send};
use std::net::UdpSocket;
use std::process::Stdio;
use std::sync::atomic::{AtomicU64, Ordering::Relaxed};
use std::time::{Duration, SystemTime, UNIX_EPOCH};

/// The flags of packets of a tablet, byte 8 behind the two addresses.
const FLAGS: usize = 32 + 8;
const INIT: u8 = 0x80;
const ABORTED: u8 = 0x20;

/// Hours that are open all the time, and hours that never are: the file says nothing but an offset and a date.
const OPEN: &[u8] = b"Mon-Sun 00:00-24:00 # always\n";
const SHUT: &[u8] = b"UTC+01:00\n2026-12-25\n";

#[test]
fn a_survey_leaves_within_hours() {
    let folder = Folder::new();
    introduce(&folder);
    let office = Office::start(&folder, "[::1]:0", &[]);
    let file = folder.file("survey", &survey(2_600, 0));
    folder.file("hours", OPEN);
    let output = run(tablet(&folder, &office, &file, &["--hours", "hours"]));
    assert_eq!(output.status.code(), Some(0), "{output:?}");
    let told = String::from_utf8_lossy(&output.stderr);
    assert!(told.contains("2 of 2 pieces acknowledged, read") && !told.contains("closed"), "{told}");
    assert!(folder.surveys() == [survey(2_600, 0)]);
}

#[test]
fn none_leaves_outside() {
    let folder = Folder::new();
    introduce(&folder);
    let office = Office::start(&folder, "[::1]:0", &[]);
    let file = folder.file("survey", &survey(1_300, 0));
    folder.file("hours", SHUT);
    assert_fails(
        tablet(&folder, &office, &file, &["--hours", "hours", "--deadline", "1"]),
        1,
        &[
            "closed; these hours never open, and the tablet gives up in ",
            "0 of 1 pieces acknowledged, waiting for the hours",
            "the hours did not open within 1 s, so nothing of the survey was sent",
        ],
    );
    assert!(folder.surveys().is_empty());
}

/// The flags of the packets that a tablet sends to somebody who does not answer, up to its deadline.
fn sent_in_vain(hours: &[u8]) -> Vec<u8> {
    let folder = Folder::new();
    key(&folder, "tablet.key");
    folder.file("hours", hours);
    folder.file("survey", &survey(1_300, 0));
    let socket = UdpSocket::bind("[::1]:0").expect("a socket");
    let to = socket.local_addr().expect("its address").to_string();
    let words = [
        "tablet",
        "send",
        "survey",
        "--office",
        "400::1",
        "--deadline",
        "1",
        "--hours",
        "hours",
        "--to",
        &to,
    ];
    let status = link(&folder, &words).stderr(Stdio::null()).status().expect("a tablet");
    assert_eq!(status.code(), Some(1));
    // all that was sent is here
    socket.set_nonblocking(true).expect("a socket that does not wait");
    let mut buffer = [0; 2_000];
    let next = || socket.recv(&mut buffer).ok().map(|_| buffer[FLAGS]);
    std::iter::from_fn(next).collect()
}

/// The push sends its init, and the deadline its aborted packet, more than once; hours stop neither.
#[test]
fn outside_hours_only_the_first_init_leaves() {
    assert_eq!(sent_in_vain(SHUT), [INIT, ABORTED, ABORTED, ABORTED]);
    let open = sent_in_vain(OPEN);
    assert!(open.len() > 6 && open[..open.len() - 3].iter().all(|flags| *flags == INIT), "{open:?}");
}

#[test]
fn a_deadline_before_the_opening_is_told_at_once() {
    let folder = Folder::new();
    key(&folder, "tablet.key");
    folder.file("survey", &survey(1_300, 0));
    // it opens for a minute, some three days from now
    let unix_ms = SystemTime::now().duration_since(UNIX_EPOCH).expect("a time after 1970").as_millis() as u64;
    let then = Calendar::closed().offset(Offset::UTC).local_time(unix_ms + 3 * 86_400_000).weekday();
    folder.file("hours", format!("{then} 12:00-12:01\n").as_bytes());
    let words = [
        "tablet",
        "send",
        "survey",
        "--to",
        "[::1]:9",
        "--office",
        "400::1",
        "--deadline",
        "1",
        "--hours",
        "hours",
    ];
    let opens = format!("closed; opens {then} ");
    assert_fails(
        link(&folder, &words),
        1,
        &[&opens, " 12:00 (UTC+00:00), in ", "; the tablet gives up in ", ", before that"],
    );
}

/// A clock that starts with its first reading, three seconds before Monday 23 November 2026, 7:30 UTC.
fn before_monday_morning() -> SystemTime {
    static FIRST: AtomicU64 = AtomicU64::new(0);
    let elapsed = SystemTime::now().duration_since(UNIX_EPOCH).expect("a time after 1970").as_millis() as u64;
    let first = FIRST.compare_exchange(0, elapsed, Relaxed, Relaxed).map_or_else(|first| first, |_| elapsed);
    UNIX_EPOCH + Duration::from_millis(1_795_419_000_000 - 3_000 + elapsed.saturating_sub(first))
}

/// Also if the office has forgotten by then that it was announced.
#[test]
fn a_survey_leaves_as_soon_as_the_hours_open() {
    let folder = Folder::new();
    introduce(&folder);
    let mut office = Office::start(&folder, "[::1]:0", &["--forget", "1"]);
    let data = survey(2_600, 0);
    let told = Send {
        survey: data.clone(),
        to: office.socket.parse().expect("a socket"),
        office: office.address.parse().expect("an address"),
        topic: "survey".to_owned(),
        key: Key::of_file(&folder.path("tablet.key")).expect("a key"),
        deadline: Duration::from_secs(30),
        hours: Calendar::closed().open(Weekday::Monday, "07:30-17:00".parse().expect("a window")),
        now: before_monday_morning,
        odds: Odds { lose: 0.0, repeat: 0.0, reorder: 0.0, seed: 1 },
        signals: Signals::default(),
    };
    let start = std::time::Instant::now();
    assert_eq!(send(&told), Ok(Ended::Read));
    let seconds = start.elapsed().as_secs_f64();
    assert!((2.9..15.0).contains(&seconds), "it left after {seconds} s");
    office.line(|line| line.ends_with(" went silent and was dropped"));
    assert!(folder.surveys() == [data]);
}

#[test]
fn wrong_hours_are_told() {
    let folder = Folder::new();
    folder.file("survey", &survey(1_300, 0));
    let send = |hours: &str| {
        link(
            &folder,
            &["tablet", "send", "survey", "--to", "[::1]:1", "--office", "400::1", "--hours", hours],
        )
    };
    assert_fails(send("nowhere"), 1, &["cannot read nowhere"]);
    folder.file("bad", b"Mon 07:30-17:00\n\n2026-04-31\n");
    assert_fails(send("bad"), 1, &["line 3 of bad: there is no date 2026-04-31"]);
    assert!(!folder.path("tablet.key").exists(), "nothing was done");
}
