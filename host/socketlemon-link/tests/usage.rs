//! What a user is told when something is wrong.

mod common;

use common::voice::{address, Voice};
use common::{assert_fails, introduce, key, link, signal, survey, tablet, Folder, Office};

#[test]
fn wrong_usage_ends_with_2() {
    let folder = Folder::new();
    let to = ["--to", "[::1]:1", "--office", "400::1"];
    let lists: [&[&str]; 8] = [
        &[],
        &["tablet"],
        &["tablet", "send"],
        &["tablet", "send", "f", "--to", "here", "--office", "400::1"],
        &["tablet", "send", "f", "--to", "127.0.0.1:1", "--office", "400::1"],
        &["tablet", "send", "f", to[0], to[1], to[2], to[3], "--lose", "1.5"],
        &["office", "listen"],
        &["office", "listen", "--out", "o", "--known", "k", "--allow", "survey=400::/200"],
    ];
    for words in lists {
        assert_fails(link(&folder, words), 2, &["--help"]);
    }
    let help = link(&folder, &["tablet", "send", "--help"]).output().expect("the help");
    assert_eq!(help.status.code(), Some(0));
}

#[test]
fn files_that_cannot_be_sent_are_told() {
    let folder = Folder::new();
    let send = |file: &str| link(&folder, &["tablet", "send", file, "--to", "[::1]:1", "--office", "400::1"]);
    assert_fails(send("nowhere"), 1, &["cannot read nowhere"]);
    folder.file("long", &survey(32_501, 0));
    assert_fails(send("long"), 1, &["long cannot be sent", "longer than 32500 bytes"]);
    folder.file("good", &survey(1_300, 0));
    folder.file("tablet.key", b"no key");
    assert_fails(send("good"), 1, &["tablet.key is not a key"]);
}

/// A key is made by the command key and by nothing else, so that none is made under a wrong name.
#[test]
fn keys_are_made_by_one_command_only() {
    let folder = Folder::new();
    folder.file("good", &survey(1_300, 0));
    folder.file("known", b"");
    let send = ["tablet", "send", "good", "--to", "[::1]:1", "--office", "400::1", "--key", "tablte.key"];
    let listen = ["office", "listen", "--out", "out", "--known", "known", "--listen", "[::1]:0"];
    let words = |name: &str| format!("there is no key file {name}; socketlemon-link key {name} makes one");
    assert_fails(link(&folder, &send), 1, &[&words("tablte.key")]);
    assert_fails(link(&folder, &listen), 1, &[&words("office.key")]);
    assert!(!folder.path("tablte.key").exists() && !folder.path("office.key").exists());
    let made = link(&folder, &["key", "new.key"]).output().expect("the key command");
    assert_eq!(String::from_utf8_lossy(&made.stderr), "a new key is in new.key\n");
    let shown = link(&folder, &["key", "new.key"]).output().expect("the key command");
    assert_eq!((shown.stdout, shown.stderr.len()), (made.stdout, 0), "the same key, and none was made");
}

/// What the command key prints is a list of known keys; so are key files, and both with remarks.
#[test]
fn the_list_of_keys_takes_what_the_command_prints() {
    let folder = Folder::new();
    let [one, two] = ["1.key", "2.key"].map(|name| key(&folder, name));
    let bare = std::fs::read_to_string(folder.path("1.key")).expect("a key file");
    let count = |list: &str| {
        folder.file("known", list.as_bytes());
        Office::start(&folder, "[::1]:0", &[]).keys.clone()
    };
    for (list, keys) in [
        (String::new(), "0"),
        (one.clone(), "1"),
        (format!("{one}\n# a second one\n{two}"), "2"),
        (format!("{one}{bare}"), "1"),
        (format!("{} # of house 12\n", bare.trim()), "1"),
    ] {
        assert_eq!(count(&list), keys, "{list}");
    }
    let listen = ["office", "listen", "--out", "out", "--known", "known", "--listen", "[::1]:0"];
    let address = one.lines().nth(1).expect("the address");
    for list in [format!("{two}\n{address}\n"), format!("{address}\n")] {
        folder.file("known", list.as_bytes());
        assert_fails(link(&folder, &listen), 1, &["of known is not the address of the key above it"]);
    }
}

/// A tablet that is put on the list gets in without a restart, and one that is taken off does not; a list that cannot be read changes nothing.
#[test]
fn the_list_of_keys_is_read_again() {
    let folder = Folder::new();
    let line = key(&folder, "tablet.key");
    folder.file("known", b"");
    let mut office = Office::start(&folder, "[::1]:0", &[]);
    let file = folder.file("survey", &survey(1_300, 0));
    assert_fails(tablet(&folder, &office, &file, &["--deadline", "1"]), 1, &["did not know the key"]);
    folder.file("known", line.as_bytes());
    office.line(|line| line == "keys known: 1, before: 0");
    let send = || tablet(&folder, &office, &file, &["--deadline", "20"]).output().expect("a tablet");
    assert_eq!(send().status.code(), Some(0));
    folder.file("known", b"no key at all");
    office.line(|line| line.contains("the keys stay as they were, 1 known: line 1 of known is not a key"));
    let send = || tablet(&folder, &office, &file, &["--deadline", "20"]).output().expect("a tablet");
    assert_eq!(send().status.code(), Some(0));
    std::fs::remove_file(folder.path("known")).expect("the list");
    office.line(|line| line.contains("the keys stay as they were, 1 known: cannot read known"));
    // at a signal it is read in any case, also if it is as it was
    signal(office.pid(), "HUP");
    office.line(|line| line.contains("the keys stay as they were, 1 known: cannot read known"));
    folder.file("known", b"# nobody\n");
    office.line(|line| line == "keys known: 0, before: 1");
    assert!(office.runs());
}

/// What is stopped ends well, with its state on the disk; a message on its way goes on.
#[test]
fn an_office_ends_by_signals_as_people_expect() {
    for name in ["TERM", "INT"] {
        let folder = Folder::new();
        introduce(&folder);
        let mut office = Office::start(&folder, "[::1]:0", &[]);
        Voice::to(&office).announce(address(&folder, "tablet.key"), 7);
        signal(office.pid(), "HUP");
        office.line(|line| line == "keys known: 1, before: 1");
        signal(office.pid(), name);
        office.line(|line| line == "stopped by a signal; messages that can go on: 1");
        assert_eq!(office.end(), Some(0), "SIG{name}");
        office = Office::start(&folder, "[::1]:0", &[]);
        office.line(|line| line == "messages that go on from before: 1");
    }
}

#[test]
fn nobody_answers() {
    let folder = Folder::new();
    introduce(&folder);
    // an office that has gone: its port was free a moment ago
    let mut office = Office::start(&folder, "[::1]:0", &[]);
    office.kill();
    let file = folder.file("survey", &survey(1_300, 0));
    let words = format!("nobody answered at {} within 1 s", office.socket);
    assert_fails(tablet(&folder, &office, &file, &["--deadline", "1"]), 1, &[&words]);
}

#[test]
fn an_office_that_cannot_start_says_why() {
    let folder = Folder::new();
    introduce(&folder);
    let listen = |more: &[&str]| {
        let mut command = link(&folder, &["office", "listen", "--out", "out", "--known", "known"]);
        command.args(more);
        command
    };
    let office = Office::start(&folder, "[::1]:0", &[]);
    assert_fails(
        listen(&["--listen", &office.socket]),
        1,
        &["cannot listen on", "another program uses this port"],
    );
    drop(office);
    assert_fails(listen(&["--known", "nowhere"]), 2, &["--known"]);
    let words = ["office", "listen", "--out", "out", "--listen", "[::1]:0", "--known"];
    assert_fails(link(&folder, &[&words[..], &["nowhere"]].concat()), 1, &["cannot read nowhere"]);
    folder.file("bad", b"# a key follows\nxyz\n");
    assert_fails(link(&folder, &[&words[..], &["bad"]].concat()), 1, &["line 2 of bad is not a key"]);
    let at = ["--listen", "[::1]:0"];
    assert_fails(
        listen(&[&at[..], &["--allow", "a", "--allow", "a"]].concat()),
        1,
        &["\"a\" is listed twice"],
    );
}

/// Two signals that come before the office has looked at the first end it at once.
#[test]
fn a_second_signal_ends_at_once() {
    let folder = Folder::new();
    introduce(&folder);
    let mut office = Office::start(&folder, "[::1]:0", &[]);
    ["STOP", "INT", "TERM", "CONT"].iter().for_each(|name| signal(office.pid(), name));
    assert_eq!(office.end(), Some(1));
}

#[test]
fn a_file_that_is_no_store_is_told() {
    let folder = Folder::new();
    introduce(&folder);
    drop(Office::start(&folder, "[::1]:0", &[]));
    let good = std::fs::read(folder.path("out/office.store")).expect("the store of the first office");
    let other = [b"x", &good[1..]].concat();
    let longer = [&good[..], b"x"].concat();
    let cases = [
        (&good[..0], "another form"),
        (&other[..], "another form"),
        (&good[..100], "fewer than"),
        (&good[..good.len() - 1], "fewer than"),
        (&longer[..], "its sum differs"),
    ];
    let listen = ["office", "listen", "--out", "out", "--known", "known", "--listen", "[::1]:0"];
    for (bytes, why) in cases {
        folder.file("out/office.store", bytes);
        let words = ["office.store is not a store of the office", why, "Move it away"];
        assert_fails(link(&folder, &listen), 1, &words);
    }
}
