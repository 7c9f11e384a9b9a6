//! Whole transfers between two sides, in memory.

mod common;

use common::{message, push, send_at, Side, ID};
use socketlemon::{Calendar, Kind, Packet, Refusal, Report, Role, Run, State, Store, Wake, LONGEST_RUN};

/// Sends a message over a link that loses every `lose`th packet, and hands the packets of a run over from the last to the first. Gives the clock at the end.
fn send(tablet: &mut Side, office: &mut Side, data: &[u8], lose: usize) -> u64 {
    let push = push(tablet, office, data);
    let mut run = [0; LONGEST_RUN];
    let mut reply = [0; LONGEST_RUN];
    let mut out = tablet.send.push(&push, &mut run).expect("push").as_bytes().to_vec();
    let mut sent = 0;
    for clock_ms in (0..60_000).step_by(100) {
        let mut packets: Vec<_> = Run::from_bytes(&out).packets().collect();
        packets.reverse();
        for packet in packets {
            sent += 1;
            if sent % lose == 0 {
                continue;
            }
            let answer = office.packet(packet, &mut run).expect("a packet of the tablet");
            for packet in answer.run {
                tablet.packet(packet, &mut reply).expect("a packet of the office");
            }
        }
        if tablet.send.report(ID).expect("report").state == State::Received {
            return clock_ms;
        }
        let calendar = Calendar::always();
        out = tablet.send.wake(send_at(clock_ms, &calendar), ID, &mut run).expect("wake").as_bytes().to_vec();
    }
    panic!("a message of {} bytes did not arrive in a minute", data.len());
}

#[test]
fn messages_arrive_as_they_were() {
    for length in [0, 1, 249, 250, 251, 1_300, 1_301, 1_550, 2_600, 2_601, 9_999, 32_500] {
        for lose in [usize::MAX, 3] {
            let (mut tablet, mut office) = (Side::new(1, 25), Side::new(2, 25));
            let data = message(length);
            send(&mut tablet, &mut office, &data, lose);

            let mut run = [0; LONGEST_RUN];
            let (taken, read) = office.receive.take(&mut run).expect("take");
            assert!(taken.data == data, "{length} bytes, losing each {lose}th");
            assert_eq!(taken.record.kind, Kind::Whole);
            assert_eq!(taken.record.id, ID);
            assert_eq!(taken.record.source, tablet.address);
            assert_eq!(taken.record.destination, office.address);
            assert_eq!(taken.record.length, length as u64);
            assert_eq!(usize::from(taken.record.slots), (length + 1_299) / 1_300);
            assert_eq!(taken.record.topic, b"survey");
            assert!(!taken.record.reply);

            let packets: Vec<_> = read.packets().collect();
            assert_eq!((packets.len(), read.pieces()), (1, 0), "one read packet");
            let mut reply = [0; LONGEST_RUN];
            tablet.packet(packets[0], &mut reply).expect("read");
            assert_eq!(tablet.send.report(ID).expect("report").state, State::Read);
            assert_eq!(office.receive.take(&mut run).err(), Some(Refusal::NoneWhole));
            assert_eq!(office.receive.records().count(), 0);
        }
    }
}

#[test]
fn a_report_counts_the_pieces() {
    let (mut tablet, mut office) = (Side::new(1, 25), Side::new(2, 25));
    let data = message(2_600);
    let push = push(&tablet, &office, &data);
    let (mut run, mut reply) = ([0; LONGEST_RUN], [0; LONGEST_RUN]);
    let report = |tablet: &Side| tablet.send.report(ID).expect("report");

    let out = tablet.send.push(&push, &mut run).expect("push");
    let start = Report {
        destination: office.address,
        state: State::Init,
        started: 0,
        sent: 0,
        acked: 0,
        created_s: 5,
        end_s: 65,
        length: 2_600,
    };
    assert_eq!(report(&tablet), start);

    let init: Packet<'_> = out.packets().next().expect("an init");
    let ack = office.packet(init, &mut reply).expect("init").run;
    let answer = tablet.packet(ack.packets().next().expect("an ack"), &mut run).expect("ack");
    assert!(answer.wake, "an acknowledged init wakes the senders");
    assert!(answer.run.is_empty());
    assert_eq!(report(&tablet), Report { state: State::InProgress, started: 2, ..start });

    let out = tablet.send.wake(send_at(0, &Calendar::always()), ID, &mut run).expect("wake");
    assert_eq!(report(&tablet), Report { state: State::InProgress, sent: 2, ..start });
    let second = out.packets().nth(1).expect("a second piece");
    let ack = office.packet(second, &mut reply).expect("chunk").run;
    tablet.packet(ack.packets().next().expect("an ack"), &mut run).expect("ack");
    assert_eq!(report(&tablet), Report { state: State::InProgress, sent: 1, acked: 1, ..start });

    let aborted = tablet.send.wake(Wake::Deadline, ID, &mut run).expect("the deadline");
    assert_eq!(report(&tablet), Report { state: State::Aborted, ..start });
    assert_eq!(office.receive.records().map(|record| record.kind).collect::<Vec<_>>(), [Kind::Arriving]);
    office.packet(aborted.packets().next().expect("an aborted"), &mut reply).expect("aborted");
    assert_eq!(office.receive.records().count(), 0);
    tablet.send.wake(Wake::Deadline, ID, &mut run).expect("the second deadline");
    assert_eq!(tablet.send.report(ID), Err(Refusal::UnknownId));
}

#[test]
fn a_store_goes_on_from_its_bytes() {
    let (mut tablet, mut office) = (Side::new(1, 25), Side::new(2, 25));
    let data = message(32_500);
    send(&mut tablet, &mut office, &data, 4);
    let kept = office.receive.as_bytes().to_vec();
    assert_eq!(kept.len(), 16 + 8 * 328 + 1_380 * 25);
    let mut again = Store::from_bytes(Role::Receive, kept).expect("a sound store");
    assert_eq!((again.role(), again.cells()), (Role::Receive, 25));
    assert!(again.take(&mut [0; LONGEST_RUN]).expect("take").0.data == data);
    assert!(Store::from_bytes(Role::Send, tablet.send.clone().into_bytes()).is_ok());
}

#[test]
fn bytes_that_are_no_store_are_refused() {
    for role in [Role::Receive, Role::Send] {
        let kept = Store::new(role, 2).expect("a store").into_bytes();
        for length in [0, 1, 15, 16, kept.len() - 1] {
            assert_eq!(Store::from_bytes(role, kept[..length].to_vec()), Err(Refusal::UnsoundStore));
        }
        for place in [0, 1, 4, 5, 6, 7, 16, 17, 16 + 328, kept.len() - 1] {
            let mut bytes = kept.clone();
            bytes[place] ^= 0x55;
            assert_eq!(Store::from_bytes(role, bytes), Err(Refusal::UnsoundStore), "byte {place}");
        }
    }
    for cells in [0, 46, usize::MAX] {
        assert_eq!(Store::new(Role::Send, cells), Err(Refusal::UnsoundStore), "{cells} cells");
    }
    for cells in [1, 45] {
        assert_eq!(Store::new(Role::Send, cells).map(|store| store.cells()), Ok(cells));
    }
}
