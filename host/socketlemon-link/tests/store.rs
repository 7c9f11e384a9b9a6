//! The office's files: who may use them, what is damaged in them, how often they are written, and what is kept for how long.

mod common;

use common::voice::{address, init, piece, Tablet, Voice};
use common::{assert_fails, introduce, link, run, signal, survey, tablet, Folder, Office};
use socketlemon::{Id, MOST_BYTES};
use std::process::Command;

/// A second office on the same store, by another port.
#[test]
fn one_office_to_a_store() {
    let folder = Folder::new();
    introduce(&folder);
    let second = || {
        let mut command = link(&folder, &["office", "listen", "--out", "out", "--known", "known"]);
        command.args(["--listen", "[::1]:0", "--count", "0"]);
        command
    };
    let mut office = Office::start(&folder, "[::1]:0", &[]);
    assert_fails(second(), 1, &["another office uses out/office.store"]);
    // whatever way the first one ends, it lets go
    office.kill();
    assert_eq!(run(second()).status.code(), Some(0));
}

/// A bit that has flipped anywhere in the office's file is found before anything of it is used.
#[test]
fn a_damaged_store_is_not_used() {
    let folder = Folder::new();
    introduce(&folder);
    let mut office = Office::start(&folder, "[::1]:0", &[]);
    let (voice, own) = (Voice::to(&office), address(&folder, "tablet.key"));
    voice.announce(own, 7);
    voice.pieces(own, 7, 0..3, 1_300);
    office.kill();
    let good = std::fs::read(folder.path("out/office.store")).expect("the office's file");
    let listen = || {
        let mut command = link(&folder, &["office", "listen", "--out", "out", "--known", "known"]);
        command.args(["--listen", "[::1]:0", "--count", "0"]);
        command
    };
    // in a piece first, where the store stays sound
    let a_piece = good.windows(1_300).position(|bytes| bytes == [7; 1_300]).expect("a piece");
    for place in std::iter::once(a_piece + 100).chain((0..good.len()).step_by(good.len() / 40)) {
        let mut bytes = good.clone();
        bytes[place] ^= 1 << (place % 8);
        folder.file("out/office.store", &bytes);
        assert_fails(listen(), 1, &["out/office.store is not a store of the office", "Move it away"]);
    }
    folder.file("out/office.store", &good);
    assert_eq!(run(listen()).status.code(), Some(0));
}

/// Beside each survey is its sum, as the tablet has sent it. A bit that has flipped in the file is found with it.
#[test]
fn a_survey_has_its_sum_beside_it() {
    let folder = Folder::new();
    introduce(&folder);
    let office = Office::start(&folder, "[::1]:0", &[]);
    let file = folder.file("survey", &survey(10_000, 1));
    assert_eq!(run(tablet(&folder, &office, &file, &[])).status.code(), Some(0));
    let names =
        || std::fs::read_dir(folder.path("out")).expect("the folder").map(|entry| entry.expect("one").path());
    let with = |end: &str| names().find(|path| path.to_string_lossy().ends_with(end)).expect("a file");
    let (survey, sum) = (with(".survey"), with(".survey.b3"));
    let check = || {
        let mut command = Command::new("b3sum");
        command
            .current_dir(folder.path("out"))
            .arg("--check")
            .arg(&sum)
            .output()
            .expect("b3sum")
            .status
            .success()
    };
    assert!(check(), "the sum is the survey's");
    let mut bytes = std::fs::read(&survey).expect("the survey");
    bytes[5_000] ^= 4;
    std::fs::write(&survey, bytes).expect("the survey");
    assert!(!check(), "a flipped bit is found");
}

/// All that waits in the socket is on the disk after one save: 25 pieces that came while the office was busy.
#[test]
fn one_save_serves_all_that_has_come() {
    let folder = Folder::new();
    introduce(&folder);
    let mut office = Office::start(&folder, "[::1]:0", &[]);
    let (voice, own) = (Voice::to(&office), address(&folder, "tablet.key"));
    voice.announce(own, 7);
    signal(office.pid(), "STOP");
    (0..25).for_each(|index| voice.send(own, &piece(7, index, 1_300)));
    signal(office.pid(), "CONT");
    for index in 0..25 {
        let answer = voice.receive(own).expect("an acknowledgement");
        assert_eq!((answer.frame[8], answer.frame[19]), (0x11, index));
    }
    signal(office.pid(), "TERM");
    let line = office.line(|line| line.starts_with("surveys: "));
    // at the start, for the init, for the pieces, and at the end
    assert!(line.ends_with("; saves of the store: 4; waits for the disk: 8"), "{line}");
    assert_eq!(office.end(), Some(0));
}

/// Of a survey as a tablet sends it: how often it is saved, and how often the disk is waited for.
#[test]
fn a_survey_takes_few_saves() {
    let folder = Folder::new();
    introduce(&folder);
    let mut office = Office::start(&folder, "[::1]:0", &["--count", "1"]);
    let file = folder.file("survey", &survey(MOST_BYTES, 1));
    assert_eq!(run(tablet(&folder, &office, &file, &[])).status.code(), Some(0));
    let line = office.line(|line| line.starts_with("surveys: 1; "));
    let numbers: Vec<u32> =
        line.split(|c: char| !c.is_ascii_digit()).filter_map(|word| word.parse().ok()).collect();
    // one save for each of the 27 packets, one at the start and one for the take would be 29
    assert!(numbers.len() == 3 && numbers[1] < 25 && numbers[2] <= 2 * numbers[1] + 3, "{line}");
}

/// Each of many surveys can be asked for again; and none of the inits that come late opens anything.
#[test]
fn receipts_outlive_many_surveys() {
    let folder = Folder::new();
    introduce(&folder);
    let mut office = Office::start(&folder, "[::1]:0", &[]);
    let mut voice = Voice::to(&office);
    let mut packets = Vec::new();
    for number in 0..100 {
        let mut tablet = Tablet::push_as(&folder, &voice, &[], Id([number; 8]));
        let init = tablet.init.clone();
        let done = tablet.next(&voice, &init, 0);
        let receipt = tablet.ask(&voice, &done).expect("the receipt");
        assert_eq!(
            (receipt.frame[8], voice.receive(tablet.own).expect("the read packet").frame[8]),
            (0x41, 0x08)
        );
        packets.push((tablet.own, init, done, receipt.frame));
    }
    office.kill();
    let socket = office.socket.clone();
    let mut office = Office::start(&folder, &socket, &[]);
    voice = Voice::to(&office);
    let again = |own, packet: &[u8]| {
        voice.send(own, packet);
        voice.receive(own).expect("the receipt again").frame
    };
    packets.iter().for_each(|(own, _, done, receipt)| assert_eq!(again(*own, done), *receipt));
    packets.iter().for_each(|(own, init, _, receipt)| assert_eq!(again(*own, init), *receipt));
    assert_eq!(folder.arriving(), 0);
    assert!(office.runs());
}

/// Eight inits that come late do not close the office.
#[test]
fn late_inits_do_not_close_the_office() {
    let folder = Folder::new();
    introduce(&folder);
    let office = Office::start(&folder, "[::1]:0", &[]);
    let voice = Voice::to(&office);
    let mut inits = Vec::new();
    for number in 0..8 {
        let mut tablet = Tablet::push_as(&folder, &voice, &survey(1_300, 1), Id([number; 8]));
        let [init, _, done] = tablet.send_all(&voice);
        assert_eq!(tablet.ask(&voice, &done).expect("the receipt").frame[8], 0x41);
        assert_eq!(voice.receive(tablet.own).expect("the read packet").frame[8], 0x08);
        inits.push((tablet.own, init));
    }
    for (own, init) in &inits {
        assert_eq!(voice.ask(*own, init).0, 0x41, "the receipt, and no acknowledgement of the init");
    }
    let own = inits[0].0;
    assert_eq!(voice.ask(own, &init(100, 1_300)).0, 0x81, "there is room for another one");
    assert_eq!(folder.arriving(), 1);
}
