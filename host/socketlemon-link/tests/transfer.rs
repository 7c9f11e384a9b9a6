//! Transfers over loopback: on a bad link, and with an office that is stopped in the middle.

mod common;

use common::{assert_fails, introduce, run, survey, tablet, Folder, Office};
use std::io::{BufRead, BufReader};
use std::process::Stdio;

/// Sends a survey of each length over a bad link; the office's files must be the same.
fn arrive_over_a_bad_link(lengths: &[usize]) {
    let folder = Folder::new();
    introduce(&folder);
    let bad = ["--lose", "0.25", "--repeat", "0.2", "--reorder", "0.2"];
    let count = lengths.len().to_string();
    let mut office =
        Office::start(&folder, "[::1]:0", &[&bad[..], &["--seed", "11", "--count", &count]].concat());
    let mut sent = Vec::new();
    for (number, &length) in lengths.iter().enumerate() {
        let data = survey(length, number);
        let file = folder.file("next", &data);
        let seed = number.to_string();
        let output = run(tablet(
            &folder,
            &office,
            &file,
            &[&bad[..], &["--seed", &seed, "--deadline", "60"]].concat(),
        ));
        assert_eq!(output.status.code(), Some(0), "{length} bytes: {output:?}");
        let said = String::from_utf8_lossy(&output.stdout).into_owned();
        assert!(said.starts_with(&format!("survey of {length} bytes: re")), "{said}");
        sent.push(data);
    }
    assert_eq!(office.end(), Some(0));
    sent.sort();
    assert!(folder.surveys() == sent, "the office's files are the tablet's");
}

#[test]
fn surveys_arrive_over_a_bad_link() {
    arrive_over_a_bad_link(&[0, 1, 777, 1_550, 13_000, 32_500]);
}

/// The last piece of each is of one byte, the longest such survey has 25 pieces.
#[test]
fn surveys_with_a_short_last_piece_arrive_over_a_bad_link() {
    arrive_over_a_bad_link(&[1_301, 2_601, 31_201]);
}

#[test]
fn a_good_link_ends_with_read() {
    let folder = Folder::new();
    introduce(&folder);
    let office = Office::start(&folder, "[::1]:0", &[]);
    let file = folder.file("survey", &survey(2_600, 0));
    let output = run(tablet(&folder, &office, &file, &[]));
    assert_eq!(output.status.code(), Some(0), "{output:?}");
    assert!(String::from_utf8_lossy(&output.stdout).contains(": read after"), "{output:?}");
    assert!(
        String::from_utf8_lossy(&output.stderr).contains("2 of 2 pieces acknowledged, read"),
        "{output:?}"
    );
    assert!(folder.surveys() == [survey(2_600, 0)]);
}

#[test]
fn an_office_goes_on_after_a_restart() {
    let folder = Folder::new();
    introduce(&folder);
    let data = survey(32_500, 3);
    let file = folder.file("survey", &data);
    // so bad that it takes many rounds
    let bad = ["--lose", "0.6", "--reorder", "0.2"];
    let mut office = Office::start(&folder, "[::1]:0", &bad);
    let patient = [&bad[..], &["--deadline", "60"]].concat();
    let mut sender = tablet(&folder, &office, &file, &patient)
        .stdout(Stdio::null())
        .stderr(Stdio::piped())
        .spawn()
        .expect("a tablet");
    let mut lines = BufReader::new(sender.stderr.take().expect("its lines")).lines();
    for pieces in ["2 of 25", "9 of 25"] {
        let seen = lines.any(|line| line.expect("a line").starts_with(pieces));
        assert!(seen, "the tablet tells of {pieces} pieces");
        office.kill();
        assert!(folder.surveys().is_empty(), "there is no survey before it is whole");
        let socket = office.socket.clone();
        office = Office::start(&folder, &socket, &bad);
        office.line(|line| line == "messages that go on from before: 1");
    }
    lines.for_each(drop);
    assert_eq!(sender.wait().expect("its status").code(), Some(0));
    assert!(folder.surveys() == [data]);
    let names = || {
        std::fs::read_dir(folder.path("out"))
            .expect("the folder")
            .map(|entry| entry.expect("an entry").path())
    };
    let half_written = names().any(|path| path.extension().map_or(true, |extension| extension == "part"));
    assert!(names().count() == 4 && !half_written, "the survey, its sum, the store and its lock");
}

#[test]
fn an_unknown_tablet_is_told_so() {
    let folder = Folder::new();
    introduce(&folder);
    folder.file("known", b"# nobody yet\n\n");
    let mut office = Office::start(&folder, "[::1]:0", &[]);
    let file = folder.file("survey", &survey(1_300, 0));
    let send = tablet(&folder, &office, &file, &["--deadline", "1"]);
    assert_fails(
        send,
        1,
        &["the office does not know the key of ", "did not know the key of ", " within 1 s"],
    );
    assert!(office.runs());
    assert!(folder.surveys().is_empty());
}

#[test]
fn a_closed_topic_is_not_answered() {
    let folder = Folder::new();
    introduce(&folder);
    let office = Office::start(&folder, "[::1]:0", &["--allow", "survey=::/128", "--allow", "open"]);
    let file = folder.file("survey", &survey(1_300, 0));
    for topic in ["survey", "other"] {
        let send = tablet(&folder, &office, &file, &["--deadline", "1", "--topic", topic]);
        assert_fails(send, 1, &["nobody answered at [::1]:", "take the topic"]);
    }
    assert_eq!(run(tablet(&folder, &office, &file, &["--topic", "open"])).status.code(), Some(0));
}
