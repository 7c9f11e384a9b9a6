//! A lesson as a page for a browser: one file, which loads nothing.

use super::counted;
use super::lesson::Lesson;
use super::markup::Markup;
use super::picture::{self, arrow, lost};
use quick_xml::Result;

/// Without quotes and angle brackets, which a style does not unescape.
const STYLE: &str = "
body { font: 16px/1.5 sans-serif; color: #1b1b1b; background: #ffffff; margin: 24px; }
h1 { font-size: 24px; margin: 0 0 8px; }
p { max-width: 1100px; margin: 0 0 10px; }
ul { list-style: none; display: flex; flex-wrap: wrap; gap: 6px 24px; margin: 0 0 16px; padding: 0; }
li { display: flex; align-items: center; gap: 8px; }
svg.rounds { display: block; max-width: 100%; height: auto; margin: 0 0 12px; }
text { font: 14px sans-serif; fill: #1b1b1b; }
text.small { font-size: 12px; fill: #555555; }
text.strong { font-weight: bold; }
text.middle { text-anchor: middle; }
text.end { text-anchor: end; }
rect { stroke: #b5b5b5; stroke-width: 1; }
rect.started { fill: #ffffff; }
rect.sent { fill: #ffe9a0; }
rect.acked { fill: #a5d8a0; }
path { fill: none; stroke-width: 1.6; }
path.packet { stroke: #123f8c; }
path.reply { stroke: #12692b; }
path.lost { stroke: #cc1414; stroke-width: 2.2; }
path.ignored { stroke: #777777; stroke-dasharray: 6 3; }
";

const READING: &str = "Time runs downwards, a row for every 100 ms: arrows down are what the tablet sends, \
arrows up are the office's replies, and a red cross is a packet that was lost. \
In a row the tablet sends at most eight pieces, new ones first, and each again until its reply comes: \
a survey is slow where columns stay yellow over many rows.";

/// The page of a lesson, in UTF-8.
pub fn write(lesson: &Lesson, title: &str) -> Result<Vec<u8>> {
    let mut page = Markup::page()?;
    page.element("html", &[("lang", "en".to_owned())], |html| {
        html.element("head", &[], |head| {
            head.empty("meta", &[("charset", "utf-8".to_owned())])?;
            head.text("title", &[], title)?;
            head.text("style", &[], STYLE)
        })?;
        html.element("body", &[], |body| draw_body(body, lesson, title))
    })?;
    Ok(page.into_bytes())
}

/// The heading of a page that was given none.
pub fn title(lesson: &Lesson) -> String {
    format!("A survey of {} bytes in {}", lesson.length, counted(lesson.pieces(), "piece"))
}

fn draw_body(body: &mut Markup, lesson: &Lesson, title: &str) -> Result<()> {
    body.text("h1", &[], title)?;
    body.text("p", &[("class", "outcome".to_owned())], &lesson.outcome().join(" "))?;
    body.text("p", &[("class", "damage".to_owned())], &lesson.damage().join(" "))?;
    body.text("p", &[("class", "reading".to_owned())], READING)?;
    body.element("ul", &[], draw_legend)?;
    picture::draw(body, lesson)?;
    match lesson.rest() {
        Some(rest) => body.text("p", &[("class", "rest".to_owned())], &rest),
        None => Ok(()),
    }
}

fn draw_legend(ul: &mut Markup) -> Result<()> {
    let down = arrow(8.0, 2.0, 28.0);
    let arrows = [
        ("packet", down.clone(), "a packet from the tablet arrives"),
        ("reply", arrow(8.0, 28.0, 2.0), "the office's reply arrives"),
        ("lost", lost(8.0, 2.0, 16.0), "a packet is lost"),
        ("lost", lost(8.0, 28.0, 14.0), "a reply is lost"),
        ("packet", format!("{}{}", arrow(4.0, 2.0, 28.0), arrow(12.0, 2.0, 28.0)), "delivered twice"),
        ("ignored", down, "arrives, and is ignored"),
    ];
    for (class, path, words) in arrows {
        draw_sample(ul, words, |svg| svg.empty("path", &[("class", class.to_owned()), ("d", path)]))?;
    }
    let grounds = [
        ("started", "started: not sent yet"),
        ("sent", "sent: no reply has come yet"),
        ("acked", "acked: the reply has come"),
    ];
    for (class, words) in grounds {
        draw_sample(ul, words, |svg| {
            let size = |name| (name, "14".to_owned());
            let place = [("x", "1".to_owned()), ("y", "8".to_owned())];
            let attributes = [("class", class.to_owned()), size("width"), size("height")];
            svg.empty("rect", &[&attributes[..], &place].concat())
        })?;
    }
    ul.text("li", &[], "init: announces the survey, at the push and until its reply comes")?;
    ul.text("li", &[], "done: ends the survey, when every piece has its reply")
}

/// A line of the legend: a small picture, and what it means.
fn draw_sample(ul: &mut Markup, words: &str, draw: impl FnOnce(&mut Markup) -> Result<()>) -> Result<()> {
    let size = [("width", "16".to_owned()), ("height", "30".to_owned())];
    ul.element("li", &[], |li| {
        li.element("svg", &size, draw)?;
        li.text("span", &[], words)
    })
}
