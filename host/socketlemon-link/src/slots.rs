//! Radio slots: the sizes of a survey's pieces, for a planner who has so many slots.

use crate::classroom::counted;
use crate::failure::Failure;
use socketlemon::{Store, MOST_BYTES};

/// The sizes of so many pieces of a survey, in one line; where there is no such plan, why not.
pub fn plan(length: u64, pieces: u64) -> Result<String, Failure> {
    match socketlemon::plan(length, pieces) {
        Ok(sizes) => Ok(sizes.iter().map(u16::to_string).collect::<Vec<_>>().join(" ")),
        Err(_) => Err(Failure::new(format!("no plan: {}", why_not(length, pieces)))),
    }
}

/// Why there is no plan, by the numbers of pieces for which there is one.
fn why_not(length: u64, pieces: u64) -> String {
    let has_plan = |number: &usize| socketlemon::plan(length, *number as u64).is_ok();
    let numbers = || (0..=Store::MOST_OF_SOURCE).filter(has_plan);
    let survey = || format!("a survey of {}", counted(length as usize, "byte"));
    match (numbers().min(), numbers().max()) {
        (Some(fewest), _) if pieces < fewest as u64 => {
            format!("{} needs at least {}", survey(), counted(fewest, "piece"))
        }
        (_, Some(most)) => format!("{} has at most {}", survey(), counted(most, "piece")),
        (_, None) => format!("a survey has at most {MOST_BYTES} bytes"),
    }
}
