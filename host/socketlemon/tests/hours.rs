//! Sending hours: outside them a send wake does nothing, and everything else goes on.

mod common;

use common::{message, push, send_at, Side, ID};
use socketlemon::{Calendar, Id, Packet, Refusal, Run, State, Wake, Weekday, Window, LONGEST_RUN};

const MINUTE: u64 = 60_000;

/// Open from 7:30 to 17:00 UTC on Thursdays, as 1 January 1970 was one.
fn thursdays() -> Calendar {
    Calendar::closed().open(Weekday::Thursday, "07:30-17:00".parse::<Window>().expect("a window"))
}

/// The packets of a send wake, as the run's bytes. Where there are none, no byte of store or run has changed.
fn wake(side: &mut Side, clock_ms: u64, unix_ms: u64) -> Vec<u8> {
    let (before, calendar) = (side.send.clone(), thursdays());
    let mut run = [0xee; LONGEST_RUN];
    let wake = Wake::Send { clock_ms, calendar: &calendar, unix_ms };
    let sent = side.send.wake(wake, ID, &mut run).expect("wake").as_bytes().to_vec();
    if sent.is_empty() {
        assert!(
            side.send == before && run.iter().all(|byte| *byte == 0xee),
            "a wake for nothing changed something"
        );
    }
    sent
}

/// Hands the packets of a run to the other side, and its replies back.
fn exchange(near: &mut Side, far: &mut Side, run: &[u8]) {
    let (mut reply, mut nothing) = ([0; LONGEST_RUN], [0; LONGEST_RUN]);
    for packet in Run::from_bytes(run) {
        let answer = far.packet(packet, &mut reply).expect("a packet");
        let replies: Vec<Packet<'_>> = answer.run.packets().collect();
        for packet in replies {
            near.packet(packet, &mut nothing).expect("a reply");
        }
    }
}

/// A tablet whose message is announced, and the office.
fn announced() -> (Side, Side) {
    let (mut tablet, mut office) = (Side::new(1, 25), Side::new(2, 25));
    let data = message(2_600);
    let mut run = [0; LONGEST_RUN];
    let push = push(&tablet, &office, &data);
    let init = tablet.send.push(&push, &mut run).expect("push").as_bytes().to_vec();
    assert!(!init.is_empty(), "a push reads no calendar");
    exchange(&mut tablet, &mut office, &init);
    (tablet, office)
}

#[test]
fn a_message_leaves_within_hours() {
    let (mut tablet, mut office) = announced();
    let (opens, closes) = (450 * MINUTE, 1_020 * MINUTE);
    for unix_ms in [0, opens - 1, closes, closes + 86_400_000] {
        assert!(wake(&mut tablet, 1_000, unix_ms).is_empty(), "at {}", unix_ms);
    }
    // nothing was stamped outside hours: both pieces are due, by a clock that has not moved
    let pieces = wake(&mut tablet, 1_000, opens);
    assert_eq!(Run::from_bytes(&pieces).packets().count(), 2);
    exchange(&mut tablet, &mut office, &pieces);
    assert!(wake(&mut tablet, 1_100, closes).is_empty(), "the done has to wait too");
    let done = wake(&mut tablet, 1_100, closes - 1);
    exchange(&mut tablet, &mut office, &done);
    assert_eq!(tablet.send.report(ID).expect("report").state, State::Received);
}

#[test]
fn refusals_come_outside_hours_too() {
    let (mut tablet, _) = announced();
    let calendar = Calendar::closed();
    let wake = send_at(0, &calendar);
    let mut refused = |id, bytes| tablet.send.wake(wake, id, &mut vec![0; bytes]).err();
    assert_eq!(refused(ID, LONGEST_RUN - 1), Some(Refusal::ShortOutput));
    assert_eq!(refused(Id([9; 8]), LONGEST_RUN), Some(Refusal::UnknownId));
    assert_eq!(refused(ID, LONGEST_RUN), None);
}

#[test]
fn deadlines_run_on() {
    let (mut tablet, _) = announced();
    assert!(wake(&mut tablet, 1_000, 0).is_empty());
    let mut run = [0; LONGEST_RUN];
    let aborted = tablet.send.wake(Wake::Deadline, ID, &mut run).expect("the deadline");
    assert_eq!(aborted.packets().count(), 1);
    assert_eq!(tablet.send.report(ID).expect("report").state, State::Aborted);
}
