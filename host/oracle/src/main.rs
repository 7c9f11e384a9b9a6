//! Socketlemon's oracle: runs the library beside the original Rust, or replays lists of what the original put out.

use std::process::ExitCode;

mod commands;
mod judge;
mod library;
// Without the original, lists are only read.
#[cfg_attr(not(original), allow(dead_code))]
mod list;
#[cfg(original)]
mod live;
mod replay;

use oracle::call;
#[cfg(original)]
use oracle::{crypto, data, frame, message, subnet};

fn main() -> ExitCode {
    let words: Vec<String> = std::env::args().skip(1).collect();
    match commands::run(&words) {
        Ok(true) => ExitCode::SUCCESS,
        Ok(false) => ExitCode::FAILURE,
        Err(why) => {
            eprintln!("oracle: {why}\n\n{}", commands::USAGE);
            ExitCode::from(2)
        }
    }
}
