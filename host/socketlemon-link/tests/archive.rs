//! Surveys that are kept for years: the keyed sum beside each, and the check that names what does not match.

mod common;

use common::voice::{Tablet, Voice};
use common::{assert_fails, introduce, key, link, run, signal, survey, tablet, wait_until};
use common::{Folder, Office, Running};
use std::io::Write;
use std::os::unix::fs::PermissionsExt;
use std::path::PathBuf;
use std::process::{Command, Stdio};

const ARCHIVE: [&str; 2] = ["--archive-key", "archive.key"];

/// Makes an archive key.
fn archive_key(folder: &Folder, name: &str) {
    let made = run(link(folder, &["archive", "key", name]));
    assert_eq!(made.status.code(), Some(0), "{made:?}");
}

/// An archive with surveys that tablets have sent. Gives their names, in the order of the check.
fn archive(folder: &Folder, lengths: &[usize]) -> Vec<String> {
    introduce(folder);
    archive_key(folder, "archive.key");
    let office = Office::start(folder, "[::1]:0", &ARCHIVE);
    for (number, length) in lengths.iter().enumerate() {
        let file = folder.file("survey", &survey(*length, number));
        assert_eq!(run(tablet(folder, &office, &file, &[])).status.code(), Some(0));
    }
    names(folder)
}

/// The names of the surveys in the folder, sorted.
fn names(folder: &Folder) -> Vec<String> {
    let all = std::fs::read_dir(folder.path("out")).expect("the folder of the surveys");
    let name = |entry: std::fs::DirEntry| entry.file_name().into_string().expect("a name");
    let mut names: Vec<String> = all.map(|entry| name(entry.expect("an entry"))).collect();
    names.retain(|name| name.ends_with(".survey"));
    names.sort();
    names
}

/// A file of the archive, and its bytes.
fn bytes(folder: &Folder, name: &str) -> (PathBuf, Vec<u8>) {
    let path = folder.path("out").join(name);
    let bytes = std::fs::read(&path).expect("a file of the archive");
    (path, bytes)
}

/// What the check of a folder says, and its status.
fn check_of(folder: &Folder, archive: &str, key: &str) -> (String, Option<i32>) {
    let output = run(link(folder, &["archive", "check", archive, "--archive-key", key]));
    assert!(output.stderr.is_empty(), "{output:?}");
    (String::from_utf8(output.stdout).expect("text"), output.status.code())
}

fn check(folder: &Folder) -> (String, Option<i32>) {
    check_of(folder, "out", "archive.key")
}

/// What b3sum, which is another make, gives for a name and bytes, by the recipe of host/README.
fn b3sum(folder: &Folder, name: &str) -> Vec<u8> {
    let joined = folder.file("joined", &[name.as_bytes(), b"\0", &bytes(folder, name).1].concat());
    let digits = std::fs::read_to_string(folder.path("archive.key")).expect("the archive key");
    let pair = |at: usize| u8::from_str_radix(&digits[at..at + 2], 16).expect("two digits");
    let secret: Vec<u8> = (0..64).step_by(2).map(pair).collect();
    let mut command = Command::new("b3sum");
    command.args(["--keyed", "--no-names"]).arg(joined).stdin(Stdio::piped()).stdout(Stdio::piped());
    let mut child = command.spawn().expect("b3sum");
    child.stdin.take().expect("its input").write_all(&secret).expect("the key");
    child.wait_with_output().expect("its sum").stdout
}

#[test]
fn what_tablets_have_sent_checks_out() {
    let folder = Folder::new();
    let names = archive(&folder, &[0, 10_000, 32_500]);
    assert_eq!(names.len(), 3);
    for name in &names {
        let (_, sum) = bytes(&folder, &format!("{name}.keyed"));
        assert_eq!(sum, b3sum(&folder, name), "{name}");
    }
    assert_eq!(check(&folder), ("3 surveys match\n".to_owned(), Some(0)));
}

/// Two of an archive's surveys and their sums, as the office has written them.
struct Good {
    surveys: [(PathBuf, Vec<u8>); 2],
    sums: [(PathBuf, Vec<u8>); 2],
}

impl Good {
    fn of(folder: &Folder, names: &[String]) -> Good {
        let surveys = [0, 1].map(|at| bytes(folder, &names[at]));
        Good { surveys, sums: [0, 1].map(|at| bytes(folder, &format!("{}.keyed", names[at]))) }
    }

    /// Puts other bytes into files, or takes them away, checks the archive, and makes all good again.
    fn with(&self, folder: &Folder, files: &[(&PathBuf, Option<Vec<u8>>)]) -> (String, Option<i32>) {
        for (path, bytes) in files {
            match bytes {
                Some(bytes) => std::fs::write(path, bytes).expect("a file of the archive"),
                None => std::fs::remove_file(path).expect("a file of the archive"),
            }
        }
        let told = check(folder);
        for (path, bytes) in self.surveys.iter().chain(&self.sums) {
            std::fs::write(path, bytes).expect("a file of the archive");
        }
        told
    }
}

/// Each thing that can happen to a survey or its sum, one at a time.
#[test]
fn what_does_not_match_is_named() {
    let folder = Folder::new();
    let names = archive(&folder, &[1_300, 10_000, 10_000]);
    let good = Good::of(&folder, &names);
    let ((survey, bytes), (sum, line)) = (&good.surveys[0], &good.sums[0]);
    let flip = |bytes: &[u8], place: usize| {
        let mut bytes = bytes.to_vec();
        bytes[place] ^= 1;
        bytes
    };
    let other_digit = if line[5] == b'0' { b'1' } else { b'0' };
    let digit = [&line[..5], &[other_digit], &line[6..]].concat();
    let differs = ": does not match its keyed sum";
    let no_digits = ".keyed: not a sum of 64 hexadecimal digits and a line feed";
    for (file, bytes, wrong) in [
        (survey, Some(flip(bytes, 0)), differs),
        (survey, Some(flip(bytes, bytes.len() - 1)), differs),
        (survey, Some(bytes[1..].to_vec()), differs),
        (survey, Some([&bytes[..], b"\n"].concat()), differs),
        (survey, None, ".keyed: a keyed sum without a survey"),
        (sum, Some(digit), differs),
        (sum, Some(flip(line, 64)), no_digits),
        (sum, Some(line[..64].to_vec()), no_digits),
        (sum, Some(Vec::new()), no_digits),
        (sum, None, ": has no keyed sum"),
    ] {
        let told = format!("{}{wrong}\n2 surveys match, 1 does not\n", names[0]);
        assert_eq!(good.with(&folder, &[(file, bytes)]), (told, Some(1)));
    }
    assert_eq!(check(&folder), ("3 surveys match\n".to_owned(), Some(0)));
}

/// Two surveys under each other's names, without and with their sums.
#[test]
fn swapped_surveys_are_named() {
    let folder = Folder::new();
    let names = archive(&folder, &[1_300, 10_000, 10_000]);
    let good = Good::of(&folder, &names);
    let lines: Vec<String> =
        names[..2].iter().map(|name| format!("{name}: does not match its keyed sum\n")).collect();
    let told = (lines.concat() + "1 survey matches, 2 do not\n", Some(1));
    let [surveys, sums] = [&good.surveys, &good.sums]
        .map(|[one, two]| [(&one.0, Some(two.1.clone())), (&two.0, Some(one.1.clone()))]);
    assert_eq!(good.with(&folder, &surveys), told);
    assert_eq!(good.with(&folder, &[surveys, sums].concat()), told);
}

#[test]
fn another_key_matches_nothing() {
    let folder = Folder::new();
    let names = archive(&folder, &[100, 200]);
    archive_key(&folder, "other.key");
    let lines: String = names.iter().map(|name| format!("{name}: does not match its keyed sum\n")).collect();
    let told = (format!("{lines}0 surveys match, 2 do not\n"), Some(1));
    assert_eq!(check_of(&folder, "out", "other.key"), told);
}

/// What no office has written is told too, and does not hold up the check.
#[test]
fn odd_files_are_named() {
    let folder = Folder::new();
    let name = archive(&folder, &[100]).remove(0);
    std::fs::create_dir(folder.path("out/folder.survey")).expect("a folder");
    std::fs::write(folder.path("out/long.survey"), survey(32_501, 0)).expect("a file");
    let pipe = Command::new("mkfifo").arg(folder.path("out/pipe.survey")).status().expect("mkfifo");
    assert!(pipe.success());
    std::os::unix::fs::symlink("nowhere", folder.path("out/to-nowhere.survey")).expect("a link");
    std::fs::create_dir(folder.path(&format!("out/{name}.keyed.part"))).expect("a folder");
    let lines = [
        "folder.survey: cannot be read: it is not a file",
        "long.survey: longer than 32500 bytes, so it is none of the office's",
        "pipe.survey: cannot be read: it is not a file",
        "to-nowhere.survey: cannot be read: No such file or directory (os error 2)",
        "1 survey matches, 4 do not",
    ];
    assert_eq!(check(&folder), (lines.join("\n") + "\n", Some(1)));
}

/// A folder without surveys is more often a wrong one than an archive without a mistake.
#[test]
fn a_folder_without_surveys_is_told() {
    let folder = Folder::new();
    archive_key(&folder, "archive.key");
    std::fs::create_dir(folder.path("empty")).expect("a folder");
    let told = ("there are no surveys in empty\n".to_owned(), Some(1));
    assert_eq!(check_of(&folder, "empty", "archive.key"), told);
    folder.file("empty/notes.txt", b"nothing");
    assert_eq!(check_of(&folder, "empty", "archive.key"), told);
    let words = ["archive", "check", "nowhere", ARCHIVE[0], ARCHIVE[1]];
    assert_fails(link(&folder, &words), 1, &["cannot read the folder nowhere"]);
}

/// The office is stopped when a part of the files is there and nothing is noted: its tablet sends the done again.
#[test]
fn a_stop_between_the_files_is_made_good() {
    let folder = Folder::new();
    introduce(&folder);
    archive_key(&folder, "archive.key");
    let mut office = Office::start(&folder, "[::1]:0", &ARCHIVE);
    let voice = Voice::to(&office);
    let mut tablet = Tablet::push(&folder, &voice, &survey(1_300, 1));
    let [_, _, done] = tablet.send_all(&voice);
    let (store, before) = bytes(&folder, "office.store");
    assert_eq!(tablet.ask(&voice, &done).expect("the receipt").frame[8], 0x41);
    let name = names(&folder).remove(0);
    let [ends_keyed, ends_b3] = [".keyed", ".b3"].map(|end| format!("{name}{end}"));
    for gone in [&[&ends_keyed][..], &[&name], &[&name, &ends_b3], &[&ends_keyed, &ends_b3]] {
        office.kill();
        std::fs::write(&store, &before).expect("the office's file");
        gone.iter().for_each(|name| std::fs::remove_file(bytes(&folder, name).0).expect("a file"));
        assert_eq!(check(&folder).1, Some(1), "{gone:?}");
        office = Office::start(&folder, "[::1]:0", &ARCHIVE);
        let again = tablet.ask(&Voice::to(&office), &done).expect("the receipt again");
        assert_eq!(again.frame[8], 0x41);
        assert_eq!(check(&folder), ("1 survey matches\n".to_owned(), Some(0)), "{gone:?}");
        assert_eq!(
            (names(&folder), bytes(&folder, &ends_b3).1.len()),
            (vec![name.clone()], 64 + 3 + name.len())
        );
    }
}

/// Where the sum cannot be written, the survey is not there either, and is not acknowledged.
#[test]
fn no_survey_without_its_sum() {
    let folder = Folder::new();
    introduce(&folder);
    archive_key(&folder, "archive.key");
    let mut office = Office::start(&folder, "[::1]:0", &ARCHIVE);
    let voice = Voice::to(&office);
    let mut tablet = Tablet::push(&folder, &voice, &survey(1_300, 1));
    let [_, _, done] = tablet.send_all(&voice);
    let name = format!("{:032x}-{}.survey", u128::from_be_bytes(tablet.own.0), tablet.id);
    let in_the_way = folder.path(&format!("out/{name}.keyed"));
    std::fs::create_dir(&in_the_way).expect("a folder");
    voice.send(tablet.own, &done);
    assert_eq!(office.end(), Some(1));
    // whatever it has sent is in the socket by now
    voice.socket.set_nonblocking(true).expect("a socket that does not wait");
    assert!(voice.receive(tablet.own).is_none(), "no receipt");
    assert!(names(&folder).is_empty(), "no survey");
    std::fs::remove_dir(&in_the_way).expect("the folder");
    let office = Office::start(&folder, "[::1]:0", &ARCHIVE);
    assert_eq!(tablet.ask(&Voice::to(&office), &done).expect("the receipt").frame[8], 0x41);
    assert_eq!(names(&folder), [name]);
    assert_eq!(check(&folder), ("1 survey matches\n".to_owned(), Some(0)));
}

/// What was taken without the key gets no sum later, for nobody knows what has happened to it since.
#[test]
fn surveys_from_before_the_key_are_named() {
    let folder = Folder::new();
    introduce(&folder);
    let file = folder.file("survey", &survey(100, 1));
    let office = Office::start(&folder, "[::1]:0", &[]);
    assert_eq!(run(tablet(&folder, &office, &file, &[])).status.code(), Some(0));
    drop(office);
    let name = names(&folder).remove(0);
    assert!(!folder.path("out").join(format!("{name}.keyed")).exists());
    archive(&folder, &[200]);
    assert_eq!(
        check(&folder),
        (format!("{name}: has no keyed sum\n1 survey matches, 1 does not\n"), Some(1))
    );
}

#[test]
fn a_key_is_made_once_and_only_for_its_owner() {
    let folder = Folder::new();
    let made = run(link(&folder, &["archive", "key", "archive.key"]));
    let (path, words) = (folder.path("archive.key"), String::from_utf8_lossy(&made.stdout).into_owned());
    let secret = std::fs::read_to_string(&path).expect("the archive key");
    assert!(words.starts_with("a new archive key is in archive.key;"), "{words}");
    assert!(!words.contains(secret.trim()) && made.stderr.is_empty());
    assert_eq!(secret.len(), 65);
    assert!(secret.trim_end_matches('\n').bytes().all(|byte| b"0123456789abcdef".contains(&byte)));
    let mode = std::fs::metadata(&path).expect("the archive key").permissions().mode();
    assert_eq!(mode & 0o777, 0o600);
    let again = || link(&folder, &["archive", "key", "archive.key"]);
    assert_fails(again(), 1, &["archive.key is there already, and stays as it is"]);
    assert_eq!(std::fs::read_to_string(&path).expect("the archive key"), secret);
    folder.file("archive.key", b"");
    assert_fails(again(), 1, &["archive.key is there already"]);
    archive_key(&folder, "other.key");
    assert_ne!(std::fs::read_to_string(folder.path("other.key")).expect("another key"), secret);
    assert_fails(link(&folder, &["archive", "key", "no/where"]), 1, &["cannot write no/where"]);
}

/// A file that is no archive key is told by both commands, with the one that makes a key, and without what it says.
#[test]
fn bad_key_files_are_told() {
    let folder = Folder::new();
    introduce(&folder);
    key(&folder, "office.key");
    std::fs::create_dir(folder.path("out")).expect("a folder");
    let listen =
        ["office", "listen", "--out", "out", "--known", "known", "--listen", "[::1]:0", "--count", "0"];
    let commands: [&[&str]; 2] = [&listen, &["archive", "check", "out"]];
    let digits = "5ec7e7".repeat(11);
    let long = digits[..64].to_owned() + &" ".repeat(2_000);
    let two = format!("{0}\n{0}\n", &digits[..64]);
    let no_digit = digits[..63].to_owned() + "g";
    for words in commands {
        let command = || link(&folder, &[words, &ARCHIVE].concat());
        let _ = std::fs::remove_file(folder.path("archive.key"));
        let told = "there is no archive key archive.key; socketlemon-link archive key archive.key makes one";
        assert_fails(command(), 1, &[told]);
        for text in ["", "\n", &digits[..63], &digits[..65], &no_digit, &two, &long, "\u{fffd}"] {
            folder.file("archive.key", text.as_bytes());
            let told = ["archive.key is not an archive key", "socketlemon-link archive key FILE makes one"];
            assert_fails(command(), 1, &told);
            let output = run(command());
            let said =
                [output.stdout, output.stderr].map(|bytes| String::from_utf8_lossy(&bytes).into_owned());
            assert!(!said.concat().contains("5ec7e7"), "{said:?}");
        }
        let command = link(&folder, &[words, &["--archive-key", "out"]].concat());
        assert_fails(command, 1, &["cannot read out"]);
    }
    let own = link(&folder, &[&listen[..], &["--archive-key", "office.key"]].concat());
    assert_fails(own, 1, &["the archive key is the office's key, which is no secret"]);
    assert!(!folder.path("out/office.store").exists());
}

/// All that an office says from its first word to its last, on both outputs.
#[test]
fn the_secret_is_in_no_log() {
    let folder = Folder::new();
    introduce(&folder);
    key(&folder, "office.key");
    archive_key(&folder, "archive.key");
    let log = std::fs::File::create(folder.path("log")).expect("a log");
    let said = || std::fs::read_to_string(folder.path("log")).expect("the log");
    let listen = ["office", "listen", "--out", "out", "--known", "known", "--listen", "[::1]:0"];
    let mut command = link(&folder, &[&listen[..], &ARCHIVE].concat());
    command.stdout(log.try_clone().expect("the log")).stderr(log);
    let mut office = Running(command.spawn().expect("an office"));
    wait_until("the first line", || said().contains("keys known: 1\n"));
    let first = said().lines().find(|line| line.starts_with("office ")).expect("the first line").to_owned();
    let words: Vec<&str> = first.split_whitespace().collect();
    folder.file("survey", &survey(1_300, 0));
    let to = ["--to", words[4].trim_end_matches(','), "--office", words[1]];
    assert_eq!(run(link(&folder, &[&["tablet", "send", "survey"], &to[..]].concat())).status.code(), Some(0));
    signal(office.0.id(), "TERM");
    assert_eq!(office.end().status.code(), Some(0));
    let secret = std::fs::read_to_string(folder.path("archive.key")).expect("the archive key");
    assert!(said().contains("survey of 1300 bytes") && said().contains("stopped by a signal"), "{}", said());
    assert!(!said().contains(secret.trim()), "{}", said());
    assert_eq!(check(&folder).1, Some(0));
}

#[test]
fn wrong_usage_ends_with_2() {
    let folder = Folder::new();
    let lists: [&[&str]; 6] = [
        &["archive"],
        &["archive", "check"],
        &["archive", "check", "out"],
        &["archive", "check", ARCHIVE[0], ARCHIVE[1]],
        &["archive", "check", "out", "--archive-key"],
        &["archive", "key"],
    ];
    for words in lists {
        assert_fails(link(&folder, words), 2, &["--help"]);
    }
}
