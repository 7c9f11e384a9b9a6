//! What an office must withstand: noise, strangers, and inits and dones that come again.

mod common;

use common::voice::{address, init, piece, stranger, Tablet, Voice, ID};
use common::{introduce, run, survey, tablet, wait_until, Folder, Office};
use socketlemon::{Address, State};
use socketlemon_link::notice::Notice;
use socketlemon_link::random::Seeded;
use std::os::unix::fs::MetadataExt;
use std::time::Duration;

/// A packet with random bytes, or one of a right form with wrong contents.
fn noise(random: &mut Seeded, own: Address, known: Address) -> Vec<u8> {
    let length = (random.number() % 2_000) as usize;
    let mut bytes: Vec<u8> = std::iter::repeat_with(|| random.number() as u8).take(length).collect();
    // three of four go to the office's address, and half of those have numbers small enough to matter
    if length >= 32 && !random.chance(0.25) {
        bytes[16..32].copy_from_slice(&own.0);
        // half of them in the name of the known tablet
        if random.chance(0.5) {
            bytes[..16].copy_from_slice(&known.0);
        }
        if random.chance(0.5) {
            for field in [44, 52, 60] {
                let small = random.number() % 40_000;
                if let Some(place) = bytes.get_mut(field..field + 8) {
                    place.copy_from_slice(&small.to_be_bytes());
                }
            }
        }
    }
    bytes
}

#[test]
fn noise_does_not_stop_the_office() {
    let folder = Folder::new();
    introduce(&folder);
    let mut office = Office::start(&folder, "[::1]:0", &["--count", "1"]);
    let (voice, known) = (Voice::to(&office), address(&folder, "tablet.key"));
    let hostile = std::thread::spawn(move || {
        let mut random = Seeded::new(5);
        for number in 0..6_000 {
            voice.raw(&noise(&mut random, voice.office, known));
            if number % 20 == 0 {
                std::thread::sleep(Duration::from_millis(5));
            }
        }
    });
    let data = survey(32_500, 1);
    let output = run(tablet(&folder, &office, &folder.file("survey", &data), &["--deadline", "40"]));
    assert_eq!(output.status.code(), Some(0), "{output:?}");
    hostile.join().expect("the hostile sender");
    let counts = office.line(|line| line.starts_with("dropped: ") && !line.contains("dropped: none"));
    for reason in ["too short", "too long", "to another address", "of strangers", "unknown id", "short frame"]
    {
        assert!(counts.contains(reason), "{reason:?} is not in {counts:?}");
    }
    assert_eq!(office.end(), Some(0));
    assert!(folder.surveys() == [data]);
}

#[test]
fn a_packet_that_is_cut_counts_as_lost() {
    let folder = Folder::new();
    introduce(&folder);
    let mut office = Office::start(&folder, "[::1]:0", &["--count", "1"]);
    let voice = Voice::to(&office);
    let data = survey(1_300, 0);
    let mut tablet = Tablet::push(&folder, &voice, &data);
    let mut packet = tablet.init.clone();
    let cuts = |packet: &[u8]| [1, 7, 8, 11, 12, 20, packet.len() - 1];
    for flags in [0x80, 0x10, 0x40] {
        assert_eq!(packet[8], flags);
        cuts(&packet).into_iter().for_each(|length| voice.send(tablet.own, &packet[..length]));
        // nobody answers what is cut: this is the answer to the whole packet
        let answer = tablet.ask(&voice, &packet).expect("an answer");
        assert_eq!(answer.frame[8], flags | 0x01);
        tablet.take(&answer);
        if flags != 0x40 {
            packet = tablet.wake(0);
        }
    }
    assert_eq!(voice.receive(tablet.own).expect("the read packet").frame[8], 0x08);
    // nor does a done that is cut get the receipt of the whole one
    cuts(&packet).into_iter().for_each(|length| voice.send(tablet.own, &packet[..length]));
    let counted = format!("dropped: none; refused: {} short frame", 4 * cuts(&packet).len());
    office.line(|line| line == counted);
    assert_eq!(office.end(), Some(0));
    assert!(folder.surveys() == [data]);
}

/// The known tablet sends a survey of so many bytes, which arrives.
fn a_survey_arrives(folder: &Folder, office: &mut Office, length: usize) {
    let data = survey(length, 1);
    let output = run(tablet(folder, office, &folder.file("survey", &data), &["--deadline", "40"]));
    assert_eq!(output.status.code(), Some(0), "{output:?}");
    assert!(office.runs());
    assert!(folder.surveys() == [data]);
}

/// What strangers send is neither stored nor written; the log names them, each once, and they are told.
#[test]
fn strangers_make_the_office_write_nothing() {
    let folder = Folder::new();
    introduce(&folder);
    let mut office = Office::start(&folder, "[::1]:0", &[]);
    let voice = Voice::to(&office);
    // the file is replaced as a whole, so another one has another number
    let number = || std::fs::metadata(folder.path("out/office.store")).expect("the office's file").ino();
    let before = number();
    for id in 0..200 {
        let from = stranger(id % 4);
        assert_eq!(voice.ask(from, &init(id, 32_500)), (0, Some(Notice::Stranger)));
        assert_eq!(voice.ask(from, &piece(id, 0, 1_300)), (0, Some(Notice::Stranger)));
    }
    assert_eq!(voice.ask(stranger(9), &init(9, 1)), (0, Some(Notice::Stranger)));
    assert_eq!((number(), folder.arriving()), (before, 0));
    for key in [0, 1, 2, 3, 9] {
        let line = office.line(|line| line.starts_with("a stranger knocks: "));
        let (who, at) =
            (stranger(key).to_string(), voice.socket.local_addr().expect("its address").to_string());
        assert!(line.contains(&who) && line.contains(&at), "{line}");
    }
    a_survey_arrives(&folder, &mut office, 32_500);
    office.line(|line| line.starts_with("dropped: 401 of strangers;"));
}

#[test]
fn silent_messages_are_dropped() {
    let folder = Folder::new();
    introduce(&folder);
    let mut office = Office::start(&folder, "[::1]:0", &["--forget", "1"]);
    let voice = Voice::to(&office);
    let own = address(&folder, "tablet.key");
    assert_eq!(voice.ask(own, &init(7, 1_300)), (0x81, None), "the init is acknowledged");
    let line = office.line(|line| line.contains("went silent and was dropped"));
    assert!(line.contains("0707070707070707"), "{line}");
    wait_until("an empty store", || folder.arriving() == 0);
}

#[test]
fn a_done_that_comes_again_gets_its_receipt_again() {
    let folder = Folder::new();
    introduce(&folder);
    let mut office = Office::start(&folder, "[::1]:0", &[]);
    let mut voice = Voice::to(&office);
    let data = survey(1_300, 0);
    let mut tablet = Tablet::push(&folder, &voice, &data);
    let [init, chunk, done] = tablet.send_all(&voice);
    let first = tablet.ask(&voice, &done).expect("the receipt");
    assert_eq!(first.frame[8], 0x41);
    let read = voice.receive(tablet.own).expect("the read packet");
    assert_eq!(read.frame[8], 0x08);

    // both were lost on the way: the tablet sends its done again, also to an office that was started again
    assert_eq!(tablet.ask(&voice, &done).expect("the receipt again").frame, first.frame);
    office.kill();
    let socket = office.socket.clone();
    office = Office::start(&folder, &socket, &[]);
    voice = Voice::to(&office);
    let again = tablet.ask(&voice, &done).expect("the receipt again");
    assert_eq!(again.frame, first.frame);
    tablet.take(&again);
    assert_eq!(tablet.send.report(ID).expect("report").state, State::Received);

    // an init or a piece that comes late opens nothing, and tells the same
    for late in [&init, &chunk] {
        assert_eq!(tablet.ask(&voice, late).expect("the receipt again").frame, first.frame);
    }
    assert_eq!(tablet.ask(&voice, &done).expect("the receipt again").frame, first.frame);
    assert_eq!(folder.arriving(), 0);

    // a done with another sum is another done
    let mut other = done;
    other[51] ^= 1;
    voice.socket.set_read_timeout(Some(Duration::from_millis(300))).expect("a time to wait");
    assert!(tablet.ask(&voice, &other).is_none());
    assert!(folder.surveys() == [data], "and it was written once");
}

#[test]
fn an_init_that_comes_again_loses_no_piece() {
    let folder = Folder::new();
    introduce(&folder);
    let office = Office::start(&folder, "[::1]:0", &[]);
    let voice = Voice::to(&office);
    let data = survey(1_300, 0);
    let mut tablet = Tablet::push(&folder, &voice, &data);
    let [init, _, done] = tablet.send_all(&voice);
    let kept = || std::fs::read(folder.path("out/office.store")).expect("the office's file");
    let before = kept();
    let again = tablet.ask(&voice, &init).expect("an acknowledgement");
    assert_eq!((again.frame[8], &again.frame[12..21]), (0x81, &init[12..21]));
    assert!(kept() == before, "what the office keeps is as it was");
    assert_eq!(tablet.ask(&voice, &done).expect("the receipt").frame[8], 0x41);
    assert_eq!(voice.receive(tablet.own).expect("the read packet").frame[8], 0x08);
    assert!(folder.surveys() == [data]);
}
