//! A lesson on why a survey is slow: the run of the program `classroom`, drawn for people.
//!
//! [`script`] is what the link does with each packet, [`run`] the calls, [`lesson`] what they come to;
//! [`terminal`] and [`page`] draw it.

pub mod lesson;
mod markup;
pub mod page;
mod picture;
pub mod run;
pub mod script;
pub mod terminal;

use crate::datagram::Content;

/// A count with its word: `1 piece`, `2 pieces`.
pub(crate) fn counted(count: usize, word: &str) -> String {
    match count {
        1 => format!("1 {word}"),
        _ => format!("{count} {word}s"),
    }
}

/// A content on a drawing.
fn mark(content: Content) -> String {
    match content {
        Content::Init => "init".to_owned(),
        Content::Piece(index) => index.to_string(),
        Content::Done => "done".to_owned(),
        Content::Other => "other".to_owned(),
    }
}

/// A content in a sentence.
fn name(content: Content) -> String {
    match content {
        Content::Piece(index) => format!("piece {index}"),
        other => format!("the {}", mark(other)),
    }
}
