//! The command line.

use std::fs;

use crate::list::List;
use crate::replay::replay;

pub const USAGE: &str = "usage:
  oracle [--seeds N] [--first SEED] [--steps N] [--fault NAME]
      compares with the original, N sequences of N steps each; a fault must be found:
      reply, report, take, wake, deadline, mark, refused, number, leave, stay, leave-init, leave-early,
      stay-init, restart, skip, shut, stamp, open, calendar, nine, unsent, wanting, due-first, falling,
      counted, stay-full, leave-full, fill, cut, spill, stay-source, leave-source, few-cells, whole-free,
      sender-counted, cell-first or drop-source
  oracle replay FILE...
      replays lists of what the original put out
  oracle record FOLDER
      makes those lists anew
Exit status: 0 no difference (or nothing to compare with), 1 a difference, 2 what was asked cannot be done.";

/// Runs what the words ask; true if no difference came up, an error if they make no sense.
pub fn run(words: &[String]) -> Result<bool, String> {
    match words.first().map(String::as_str) {
        Some("replay") if words.len() > 1 => replay_files(&words[1..]),
        Some("record") if words.len() == 2 => record(&words[1]),
        Some("replay" | "record") => Err("a file or folder is missing, or there are too many".to_string()),
        _ => compare(&Options::read(words)?),
    }
}

/// What a comparison is asked to do.
struct Options {
    seeds: u64,
    first: u64,
    steps: u64,
    fault: Option<String>,
}

/// As many sequences as run in about a minute on two cores.
const SEEDS: u64 = 24_000;
const STEPS: u64 = 300;

impl Options {
    fn read(words: &[String]) -> Result<Self, String> {
        let mut options = Self { seeds: SEEDS, first: 1, steps: STEPS, fault: None };
        for pair in words.chunks(2) {
            let [name, value] = pair else {
                return Err(format!("'{}' stands alone", pair[0]));
            };
            let number = |least| match value.parse::<u32>() {
                Ok(number) if number >= least => Ok(u64::from(number)),
                _ => Err(format!("{name} takes a number from {least} on, not '{value}'")),
            };
            match name.as_str() {
                "--seeds" => options.seeds = number(1)?,
                "--first" => options.first = number(0)?,
                "--steps" => options.steps = number(1)?,
                "--fault" => options.fault = Some(value.clone()),
                _ => return Err(format!("'{name}' is not an option")),
            }
        }
        Ok(options)
    }
}

/// Replays each list; a file that cannot be read as one is an error, not a difference.
fn replay_files(files: &[String]) -> Result<bool, String> {
    let mut differences = 0;
    for file in files {
        let text = fs::read_to_string(file).map_err(|e| format!("{file}: {e}"))?;
        let list = List::read(&text).map_err(|why| format!("{file}: {why}"))?;
        match replay(&list) {
            Ok(calls) => println!("{file}: {calls} calls, no difference"),
            Err(why) => {
                println!("{file}: {why}");
                differences += 1;
            }
        }
    }
    println!("{} lists replayed, {differences} with a difference", files.len());
    Ok(differences == 0)
}

/// Says that there is no original; nothing is compared, which is no difference.
#[cfg(not(original))]
fn skipped() -> Result<bool, String> {
    println!("comparison skipped: the original is not available (name the folder of its files in SOCKETLEMON_ORIGINAL and build again)");
    Ok(true)
}

#[cfg(not(original))]
fn compare(options: &Options) -> Result<bool, String> {
    let Options { seeds: _, first: _, steps: _, fault: _ } = options;
    skipped()
}

#[cfg(not(original))]
fn record(_folder: &str) -> Result<bool, String> {
    skipped()
}

#[cfg(original)]
fn compare(options: &Options) -> Result<bool, String> {
    use crate::live::{compare, coverage::Coverage, fault::FAULTS};

    let fault = match &options.fault {
        None => None,
        Some(wanted) => {
            let found = FAULTS.iter().find(|(name, _)| name == wanted);
            Some(found.ok_or_else(|| format!("'{wanted}' is not a fault"))?.1)
        }
    };
    let mut coverage = Coverage::default();
    let sequences =
        compare::Sequences { first: options.first, seeds: options.seeds, steps: options.steps, fault };
    if let Err((seed, difference)) = compare::compare(&sequences, &mut coverage) {
        println!("# seed {seed}: {}", difference.why);
        println!("# the shortest beginning of its sequence that shows it; the last call differs:");
        for left in &difference.left {
            println!("# {left}; its calls are here with the library's own answers");
        }
        print!("{}", difference.calls.write());
        println!("# a difference after {} calls that agree", coverage.calls());
        return Ok(false);
    }
    print!("{}", coverage.lines());
    let missing = coverage.missing();
    if !missing.is_empty() {
        println!("not met in this run: {}", missing.join(", "));
    }
    let too_many_left = coverage.too_many_left();
    if let Some(told) = &too_many_left {
        println!("{told}");
    }
    println!("{} calls compared in {} sequences, no difference", coverage.calls(), options.seeds);
    // a full run, or a longer one, that does not meet everything has not compared what it should
    let whole = missing.is_empty() && too_many_left.is_none();
    Ok(whole || options.seeds < SEEDS || options.steps < STEPS)
}

#[cfg(original)]
fn record(folder: &str) -> Result<bool, String> {
    let samples = match crate::live::samples::samples() {
        Ok(samples) => samples,
        Err(difference) => {
            println!("{}: no lists are made while the two differ", difference.why);
            return Ok(false);
        }
    };
    for (name, list) in samples {
        let file = format!("{folder}/{name}.txt");
        fs::write(&file, list.write()).map_err(|e| format!("{file}: {e}"))?;
        println!("{file}: {} calls", list.entries.len());
    }
    Ok(true)
}
