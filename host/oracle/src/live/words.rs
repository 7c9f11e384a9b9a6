//! What the original says while it handles a packet: its log lines name the check that a packet failed, so that the numbers can be compared too.

use std::cell::Cell;
use std::fmt::{self, Write};
use std::sync::Once;

use tracing::field::{Field, Visit};
use tracing::span::{Attributes, Id, Record};
use tracing::{Event, Level, Metadata, Subscriber};

use crate::call::NO_WORK;

/// A part of each line that tells of a refusal, and the refusal's number.
const REFUSALS: [(&str, u64); 18] = [
    ("by ACL", 4),
    ("already have a complete", 5),
    ("CHUNK for being out", 9),
    ("index is too high", 10),
    ("too small", 11),
    ("amount of chunks", 13),
    ("incomplete message", 14),
    ("invalid size", 15),
    ("wrong checksum", 16),
    ("No public key", 17),
    ("INIT ACK for", 18),
    ("CHUNK ACK for message not", 18),
    ("DONE ACK for", 18),
    ("Got READ", 18),
    ("chunk is out of bounds", 19),
    ("READ ACK", NO_WORK),
    ("unknown ACK", NO_WORK),
    ("unknown message flags", NO_WORK),
];

thread_local! {
    static LAST: Cell<Option<u64>> = const { Cell::new(None) };
}

/// Listens to the original's log from here on.
pub fn listen() {
    static ONCE: Once = Once::new();
    ONCE.call_once(|| tracing::subscriber::set_global_default(Listener).expect("nobody else listens"));
    LAST.with(Cell::take);
}

/// The number of the refusal that was last told of since the last call of this.
pub fn last_refusal() -> Option<u64> {
    LAST.with(Cell::take)
}

struct Listener;

impl Subscriber for Listener {
    fn enabled(&self, metadata: &Metadata<'_>) -> bool {
        metadata.is_event() && *metadata.level() <= Level::DEBUG && metadata.target().ends_with("::message")
    }

    fn event(&self, event: &Event<'_>) {
        let mut line = Line(String::new());
        event.record(&mut line);
        if let Some((_, number)) = REFUSALS.iter().find(|(part, _)| line.0.contains(part)) {
            LAST.with(|last| last.set(Some(*number)));
        }
    }

    fn new_span(&self, _: &Attributes<'_>) -> Id {
        Id::from_u64(1)
    }

    fn record(&self, _: &Id, _: &Record<'_>) {}

    fn record_follows_from(&self, _: &Id, _: &Id) {}

    fn enter(&self, _: &Id) {}

    fn exit(&self, _: &Id) {}
}

/// An event's text.
struct Line(String);

impl Visit for Line {
    fn record_debug(&mut self, field: &Field, value: &dyn fmt::Debug) {
        if field.name() == "message" {
            write!(self.0, "{value:?}").expect("text grows");
        }
    }
}
