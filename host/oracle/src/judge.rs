//! Whether what the library answered to a call is what the original put out.

use crate::call::{Got, Packet, Said, Taken, Woke};

/// Says whether the library's count of the pieces that it sends is wrong, which the original does not have.
pub fn judge_count(got: &Got) -> Result<(), String> {
    match got.packets.iter().filter(|packet| packet.is_piece()).count() as u64 {
        pieces if pieces == got.pieces => Ok(()),
        pieces => Err(format!("the library counts {} pieces and puts out {pieces}", got.pieces)),
    }
}

/// Says how the two differ, if they do.
pub fn judge(got: &Got, said: &Said) -> Result<(), String> {
    judge_count(got)?;
    if got.number != said.number {
        return Err(format!("the library answers {}, the original {}", got.number, said.number));
    }
    if got.packets.len() != said.packets.len() {
        return Err(format!(
            "the library puts out {} packets, the original {}",
            got.packets.len(),
            said.packets.len()
        ));
    }
    for (place, (ours, theirs)) in got.packets.iter().zip(&said.packets).enumerate() {
        if ours != theirs {
            return Err(format!("packet {place}: {}", first_difference(ours, theirs)));
        }
    }
    let mark = match said.woke {
        Some(Woke::Yes) => got.wake == 1,
        Some(Woke::No) => got.wake == 0,
        Some(Woke::Unseen) => true,
        None => got.wake == 0,
    };
    if !mark {
        return Err(format!(
            "the library's wake mark is {}, the original's senders woke: {:?}",
            got.wake, said.woke
        ));
    }
    if got.report != said.report {
        return Err(format!("the library reports {:?}, the original {:?}", got.report, said.report));
    }
    if got.taken != said.taken {
        let brief = |taken: &Option<Taken>| {
            taken.as_ref().map(|t| (t.id, t.reply, t.from, t.to, t.topic.clone(), t.data.len()))
        };
        return Err(format!(
            "the library hands out {:?}, the original {:?} (id, reply, from, to, topic, length)",
            brief(&got.taken),
            brief(&said.taken)
        ));
    }
    Ok(())
}

fn first_difference(ours: &Packet, theirs: &Packet) -> String {
    if (ours.from, ours.to) != (theirs.from, theirs.to) {
        return format!(
            "the library's goes {:?} to {:?}, the original's {:?} to {:?}",
            ours.from, ours.to, theirs.from, theirs.to
        );
    }
    match ours.bytes.iter().zip(&theirs.bytes).position(|(a, b)| a != b) {
        Some(at) => format!(
            "byte {at} is {:#04x} from the library, {:#04x} from the original",
            ours.bytes[at], theirs.bytes[at]
        ),
        None => {
            format!("{} bytes from the library, {} from the original", ours.bytes.len(), theirs.bytes.len())
        }
    }
}
