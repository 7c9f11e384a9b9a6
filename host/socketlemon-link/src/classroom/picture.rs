//! The picture on a lesson's page: a row for each round, a column for the init, each piece and the done.
//!
//! In a row the tablet is above and the office below; packets are arrows from the one to the other.

use super::lesson::{Lesson, Step};
use super::markup::Markup;
use super::run::{Round, Sent, Side, ROUND_MS};
use super::script::Letter;
use super::{mark, name};
use crate::datagram::Content;
use quick_xml::Result;
use socketlemon::State;

/// Where the columns start, and how wide they are.
const LEFT: usize = 150;
const COLUMN: usize = 30;
const WIDE: usize = 44;
const GAP: usize = 6;

/// Where the rounds start, how high they are, and what is between the tablet's line and the office's.
const TOP: usize = 44;
const ROW: usize = 84;
const TABLET: usize = 14;
const OFFICE: usize = 66;

/// The bar on the right.
const BAR: usize = 200;
const BAR_HEIGHT: usize = 18;

/// Draws the rounds of a lesson.
pub fn draw(page: &mut Markup, lesson: &Lesson) -> Result<()> {
    let columns = columns(lesson);
    let right = columns.last().map_or(LEFT, |last| last.right) + 4 * GAP;
    let (width, height) = (right + BAR + GAP, TOP + ROW * lesson.drawn().len());
    let attributes = [
        ("xmlns", "http://www.w3.org/2000/svg".to_owned()),
        ("class", "rounds".to_owned()),
        ("viewBox", format!("0 0 {width} {height}")),
        ("width", width.to_string()),
        ("role", "img".to_owned()),
        ("aria-label", "the packets of each round, and how far the pieces are".to_owned()),
    ];
    page.element("svg", &attributes, |svg| {
        draw_head(svg, &columns, right)?;
        for (round, steps) in lesson.drawn().iter().zip(lesson.steps()) {
            let place = format!("translate(0 {})", TOP + ROW * round.number);
            svg.element("g", &[("class", "round".to_owned()), ("transform", place)], |g| {
                draw_labels(g, round)?;
                for (column, step) in columns.iter().zip(steps) {
                    draw_column(g, column, step, round)?;
                }
                draw_bar(g, lesson, round, right)
            })?;
        }
        Ok(())
    })
}

struct Column {
    content: Content,
    left: usize,
    right: usize,
}

fn columns(lesson: &Lesson) -> Vec<Column> {
    let mut left = LEFT;
    let column = |content: Content| {
        let (width, gap) = match content {
            Content::Piece(_) => (COLUMN, 0),
            _ => (WIDE, GAP),
        };
        // a gap on both sides of the init and of the done
        let column = Column { content, left: left + gap, right: left + gap + width };
        left = column.right + gap;
        column
    };
    lesson.contents().into_iter().map(column).collect()
}

/// A text at a place, with its class.
fn label(page: &mut Markup, class: &str, x: usize, y: usize, text: &str) -> Result<()> {
    let attributes = [("class", class.to_owned()), ("x", x.to_string()), ("y", y.to_string())];
    page.text("text", &attributes, text)
}

fn draw_head(svg: &mut Markup, columns: &[Column], right: usize) -> Result<()> {
    let pieces: Vec<&Column> =
        columns.iter().filter(|column| matches!(column.content, Content::Piece(_))).collect();
    if let (Some(first), Some(last)) = (pieces.first(), pieces.last()) {
        label(svg, "middle", (first.left + last.right) / 2, 16, "pieces, counted from 0")?;
    }
    for column in columns {
        label(svg, "middle", (column.left + column.right) / 2, 38, &mark(column.content))?;
    }
    label(svg, "", right, 38, "how far the pieces are")
}

fn draw_labels(g: &mut Markup, round: &Round) -> Result<()> {
    let ms = ROUND_MS * round.number as u64;
    let title = match round.number {
        0 => "push".to_owned(),
        number => format!("round {number}"),
    };
    label(g, "strong", 4, 38, &title)?;
    label(g, "small", 4, 54, &format!("{ms} ms"))?;
    label(g, "small end", LEFT - 4, TABLET + 4, "tablet")?;
    label(g, "small end", LEFT - 4, OFFICE + 4, "office")
}

/// A column's ground, by how far it is at the round's end, and its arrows side by side.
fn draw_column(g: &mut Markup, column: &Column, step: Step, round: &Round) -> Result<()> {
    let class = match step {
        Step::Started => "started",
        Step::Sent => "sent",
        Step::Acked => "acked",
    };
    let width = column.right - column.left;
    draw_rect(g, class, (column.left, TABLET), (width, OFFICE - TABLET))?;
    let packets: Vec<&Sent> =
        round.packets.iter().filter(|packet| packet.content == column.content).collect();
    // a lost packet is drawn too
    let lines = |packet: &Sent| packet.arrivals.len().max(1);
    let count: usize = packets.iter().map(|packet| lines(packet)).sum();
    let mut line = 0;
    for packet in packets {
        for copy in 0..lines(packet) {
            line += 1;
            draw_arrow(g, column.left as f64 + (width * line) as f64 / (count + 1) as f64, packet, copy)?;
        }
    }
    Ok(())
}

fn draw_rect(g: &mut Markup, class: &str, at: (usize, usize), size: (usize, usize)) -> Result<()> {
    let attributes = [
        ("class", class.to_owned()),
        ("x", at.0.to_string()),
        ("y", at.1.to_string()),
        ("width", size.0.to_string()),
        ("height", size.1.to_string()),
    ];
    g.empty("rect", &attributes)
}

/// One delivery of a packet, or its loss: an arrow from its side to the other, or half of one and a cross.
fn draw_arrow(g: &mut Markup, x: f64, packet: &Sent, copy: usize) -> Result<()> {
    let (from, to, side) = match packet.from {
        Side::Tablet => (TABLET as f64, OFFICE as f64, "packet"),
        Side::Office => (OFFICE as f64, TABLET as f64, "reply"),
    };
    let (class, path) = match packet.arrivals.get(copy) {
        None => ("lost", lost(x, from, (from + to) / 2.0)),
        Some(Ok(())) => (side, arrow(x, from, to)),
        Some(Err(_)) => ("ignored", arrow(x, from, to)),
    };
    g.element("path", &[("class", class.to_owned()), ("d", path)], |inner| {
        inner.text("title", &[], &told(packet, copy))
    })
}

/// The path of an arrow, upright.
pub(super) fn arrow(x: f64, from: f64, to: f64) -> String {
    // each half of the head is a line of its own, so that dashes do not cut it
    let back = to - 5.0 * (to - from).signum();
    let half = |side: f64| format!("M{x:.1} {to:.1}L{side:.1} {back:.1}");
    format!("M{x:.1} {from:.1}V{to:.1}{}{}", half(x - 3.0), half(x + 3.0))
}

/// The path of an arrow that ends half way in a cross.
pub(super) fn lost(x: f64, from: f64, to: f64) -> String {
    let (left, right, above, below) = (x - 4.0, x + 4.0, to - 4.0, to + 4.0);
    let stroke = |start: f64, end: f64| format!("M{left:.1} {start:.1}L{right:.1} {end:.1}");
    format!("M{x:.1} {from:.1}V{to:.1}{}{}", stroke(above, below), stroke(below, above))
}

/// What an arrow says when it is pointed at.
fn told(packet: &Sent, copy: usize) -> String {
    let what = match packet.from {
        Side::Tablet => name(packet.content),
        Side::Office => format!("the reply to {}", name(packet.content)),
    };
    let fate = match (packet.letter, packet.arrivals.get(copy)) {
        (_, Some(Err(refusal))) => format!("ignored ({refusal})"),
        (Letter::Lost, _) => "lost".to_owned(),
        (Letter::Repeated, _) => "delivered twice".to_owned(),
        (Letter::Delivered, _) => "delivered".to_owned(),
    };
    format!("packet {}: {what}, {fate}", packet.number + 1)
}

/// The bar of Acked, Sent and Started pieces, with the state above it and the counts below.
fn draw_bar(g: &mut Markup, lesson: &Lesson, round: &Round, left: usize) -> Result<()> {
    let report = &round.report;
    let pieces = lesson.pieces();
    let (acked, sent, started) = (report.acked.into(), report.sent.into(), report.started.into());
    let (state, counts, words) = match report.state {
        State::Init => ("calling the office", [0, 0, pieces], "no reply to the init yet".to_owned()),
        State::InProgress => {
            ("sending", [acked, sent, started], format!("{acked} acked, {sent} sent, {started} started"))
        }
        // the classroom has no deadline, and nothing is taken
        State::Received | State::Read | State::Aborted => {
            ("received", [pieces, 0, 0], "the tablet has its receipt".to_owned())
        }
    };
    let y = (TABLET + OFFICE - BAR_HEIGHT) / 2;
    label(g, "strong", left, y - 6, state)?;
    let mut before = 0;
    for (count, class) in counts.into_iter().zip(["acked", "sent", "started"]) {
        let [start, end] = [before, before + count].map(|there| BAR * there / pieces.max(1));
        if count > 0 {
            draw_rect(g, class, (left + start, y), (end - start, BAR_HEIGHT))?;
        }
        before += count;
    }
    label(g, "small", left, y + BAR_HEIGHT + 15, &words)
}
