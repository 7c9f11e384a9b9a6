//! What hours add to a wake, in turns, on stores of one cell, where little else happens: a deadline wake of an id that nobody has reads no calendar; a send wake of
//! it looks at the calendar's form; a send wake of a message that has timed out also asks whether the calendar is open. Beside them that wake on the largest stores.

use std::hint::black_box;

use benches::library::Node;
use benches::turns::{self, Routine};
use socketlemon::{Calendar, Date, Refusal, Store, Wake};

/// A message that leaves, and an id that nobody has.
const LEAVING: [u8; 8] = *b"house 12";
const NOBODY: [u8; 8] = *b"nowhere.";

/// Always open but for so many dates, the days from 1 February 2000 on; it is asked about 1 January 1970.
fn closed_on(dates: usize) -> Calendar {
    let days = (2..4).flat_map(|month| (1..29).map(move |day| Date::new(2000, month, day).expect("a date")));
    days.take(dates)
        .fold(Calendar::always(), |calendar, date| calendar.close_on(date).expect("room for a date"))
}

/// A node of so many cells with a message that has timed out, to which a send wake does nothing more, and with others.
fn timed_out(cells: usize, others: u8) -> Node {
    let mut node = Node::new(benches::KEY, benches::PEER_KEY, cells);
    node.push(LEAVING, &benches::message(1));
    for n in 0..others {
        node.push([n; 8], &benches::message(6 * benches::PIECE));
    }
    node.wake_as(Wake::Deadline, LEAVING).expect("the deadline passes");
    node
}

/// A wake of the message that has timed out, or of nobody's.
fn wake<'a>(name: &'static str, start: Node, wake: Wake<'a>, id: [u8; 8]) -> Routine<'a> {
    let answer = if id == LEAVING { Ok(0) } else { Err(Refusal::UnknownId) };
    assert_eq!(start.clone().wake_as(wake, id), answer, "{name}");
    Routine::fresh(name, move || start.clone(), move |node| node.wake_as(black_box(wake), id))
}

fn main() {
    for dates in [0, Calendar::MOST_DATES] {
        let calendar = closed_on(dates);
        let send = Wake::Send { clock_ms: 0, calendar: &calendar, unix_ms: 0 };
        let routines = vec![
            wake("deadline", timed_out(1, 0), Wake::Deadline, NOBODY),
            wake("form", timed_out(1, 0), send, NOBODY),
            wake("open", timed_out(1, 0), send, LEAVING),
            wake("full", timed_out(Store::MOST_CELLS, 7), send, LEAVING),
            wake("empty", timed_out(Store::MOST_CELLS, 0), send, LEAVING),
        ];
        turns::measure("hours", dates, routines);
    }
}
