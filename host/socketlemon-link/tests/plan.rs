//! The command plan: what it prints, and what it says where there is no plan.

mod common;

use common::{assert_fails, link, Folder};
use std::process::Command;

fn plan(folder: &Folder, length: &str, pieces: &str) -> Command {
    link(folder, &["plan", "--length", length, "--pieces", pieces])
}

#[test]
fn a_plan_is_one_line() {
    let folder = Folder::new();
    for (length, pieces, line) in [
        ("0", "0", "\n"),
        ("0", "1", "0\n"),
        ("250", "1", "250\n"),
        ("251", "2", "251 0\n"),
        ("1301", "2", "1301 0\n"),
        ("3000", "4", "1364 1364 272 0\n"),
        ("7250", "6", "1364 1364 1364 1364 1364 430\n"),
    ] {
        let output = plan(&folder, length, pieces).output().expect("a plan");
        let told = (String::from_utf8_lossy(&output.stdout), String::from_utf8_lossy(&output.stderr));
        assert_eq!((told.0.as_ref(), told.1.as_ref()), (line, ""), "{length} in {pieces}");
        assert_eq!(output.status.code(), Some(0), "{length} in {pieces}");
    }
}

#[test]
fn where_there_is_none_it_says_why() {
    let folder = Folder::new();
    let huge = u64::MAX.to_string();
    for (length, pieces, why) in [
        ("1", "0", "no plan: a survey of 1 byte needs at least 1 piece\n"),
        ("1301", "1", "no plan: a survey of 1301 bytes needs at least 2 pieces\n"),
        ("32500", "24", "no plan: a survey of 32500 bytes needs at least 25 pieces\n"),
        ("0", "2", "no plan: a survey of 0 bytes has at most 1 piece\n"),
        ("250", "2", "no plan: a survey of 250 bytes has at most 1 piece\n"),
        ("7250", "30", "no plan: a survey of 7250 bytes has at most 29 pieces\n"),
        ("32500", "31", "no plan: a survey of 32500 bytes has at most 30 pieces\n"),
        ("32500", &huge, "no plan: a survey of 32500 bytes has at most 30 pieces\n"),
        ("32501", "26", "no plan: a survey has at most 32500 bytes\n"),
        (&huge, &huge, "no plan: a survey has at most 32500 bytes\n"),
    ] {
        assert_fails(plan(&folder, length, pieces), 1, &[&format!("socketlemon-link: {why}")]);
        let output = plan(&folder, length, pieces).output().expect("an answer");
        assert!(output.stdout.is_empty(), "{length} in {pieces}: {output:?}");
    }
}

#[test]
fn wrong_usage_ends_with_2() {
    let folder = Folder::new();
    let lists: [&[&str]; 4] = [&[], &["--length", "1300"], &["--pieces", "1"], &["1300", "1"]];
    for words in lists {
        assert_fails(link(&folder, &[&["plan"], words].concat()), 2, &["--help"]);
    }
    for number in ["", "-1", "1.5", "a lot", "18446744073709551616"] {
        assert_fails(plan(&folder, number, "1"), 2, &["--help"]);
        assert_fails(plan(&folder, "1300", number), 2, &["--help"]);
    }
    let help = link(&folder, &["plan", "--help"]).output().expect("the help");
    assert_eq!(help.status.code(), Some(0));
}
