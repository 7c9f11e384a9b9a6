//! The command line.

use crate::classroom::script::{Length, Letters};
use crate::faults::Odds;
use clap::{Args, Parser, Subcommand};
use socketlemon::{Address, Rules, RulesError, Subnet};
use std::net::SocketAddrV6;
use std::path::PathBuf;

/// Sends surveys from a tablet to the office over UDP on IPv6.
#[derive(Debug, Parser)]
#[command(name = "socketlemon-link", version)]
#[command(after_help = "Exit status: 0 arrived (read or received), 1 failed, 2 wrong usage.")]
pub struct Cli {
    /// Which side this is, or what is shown.
    #[command(subcommand)]
    pub side: Side,
}

/// The sides, their keys, what they have left behind, and a lesson on both.
#[derive(Debug, Subcommand)]
pub enum Side {
    /// The side that sends surveys
    #[command(subcommand)]
    Tablet(TabletCommand),
    /// The side that receives surveys
    #[command(subcommand)]
    Office(OfficeCommand),
    /// Surveys that are kept for years: their key and their check
    #[command(subcommand)]
    Archive(ArchiveCommand),
    /// Show why a survey is slow: a tablet and an office over a link that loses and repeats packets as told
    Classroom(ClassroomArgs),
    /// Plan radio slots: the sizes of the pieces of a survey, by the number of pieces
    #[command(after_help = "Exit status: 0 planned, 1 there is no such plan, 2 wrong usage.")]
    Plan(PlanArgs),
    /// Show the key of a file and its address; the file is made if it is not there
    Key {
        /// The key file
        file: PathBuf,
    },
}

/// What a tablet does.
#[derive(Debug, Subcommand)]
pub enum TabletCommand {
    /// Send a survey and wait until the office has it
    Send(SendArgs),
}

/// What the office does.
#[derive(Debug, Subcommand)]
pub enum OfficeCommand {
    /// Receive surveys and write each to a file when it is whole
    Listen(ListenArgs),
}

/// What is done with archived surveys.
#[derive(Debug, Subcommand)]
pub enum ArchiveCommand {
    /// Check the surveys in a folder against their keyed sums, and name what does not match
    #[command(after_help = "Exit status: 0 there are surveys and all match, 1 otherwise, 2 wrong usage.")]
    Check(CheckArgs),
    /// Make an archive key, the secret of --archive-key, in a file that is not there yet
    Key {
        /// The file, which only its owner can read
        file: PathBuf,
    },
}

/// What to check.
#[derive(Debug, Args)]
pub struct CheckArgs {
    /// The folder of the surveys
    pub folder: PathBuf,
    /// The archive key with which the office has written them
    #[arg(long, value_name = "FILE")]
    pub archive_key: PathBuf,
}

/// How to send.
#[derive(Debug, Args)]
pub struct SendArgs {
    /// The survey, a file of at most 32,500 bytes
    pub file: PathBuf,
    /// The office's socket.
    #[arg(long, value_name = "ADDR", help = "The office's socket, as [::1]:7700")]
    pub to: SocketAddrV6,
    /// The office's address, as the office shows it when it starts
    #[arg(long, value_name = "ADDRESS")]
    pub office: Address,
    /// The survey's topic
    #[arg(long, default_value = "survey", value_parser = topic)]
    pub topic: String,
    /// The tablet's key file; the command key makes one
    #[arg(long, value_name = "FILE", default_value = "tablet.key")]
    pub key: PathBuf,
    /// After how many seconds the tablet gives up, also while the hours are closed; the time in the office's line
    /// does not count
    #[arg(long, value_name = "SECONDS", default_value_t = 300, value_parser = clap::value_parser!(u64).range(1..=2_592_000))]
    pub deadline: u64,
    /// The hours in which surveys may leave; without it, always.
    #[arg(
        long,
        value_name = "FILE",
        help = "The hours in which surveys may leave: lines as Mon-Fri 07:30-17:00, UTC+01:00, 2026-12-25 (closed) [default: always]"
    )]
    pub hours: Option<PathBuf>,
    /// How bad the link is.
    #[command(flatten)]
    pub odds: OddsArgs,
}

/// How to listen.
#[derive(Debug, Args)]
pub struct ListenArgs {
    /// The folder for the surveys; made if it is not there
    #[arg(long, value_name = "DIR")]
    pub out: PathBuf,
    /// The keys of the tablets whose surveys are taken: a file with a key on each line, as the command key prints it;
    /// read again when it changes, and at SIGHUP
    #[arg(long, value_name = "FILE")]
    pub known: PathBuf,
    /// The socket to listen on
    #[arg(long, value_name = "ADDR", default_value = "[::1]:7700")]
    pub listen: SocketAddrV6,
    /// The office's key file; the command key makes one
    #[arg(long, value_name = "FILE", default_value = "office.key")]
    pub key: PathBuf,
    /// The file that keeps what has arrived so far [default: office.store in the folder for the surveys]
    #[arg(long, value_name = "FILE")]
    pub store: Option<PathBuf>,
    /// Write a keyed sum beside each survey, with the secret of this file; the command archive key makes one
    #[arg(long, value_name = "FILE")]
    pub archive_key: Option<PathBuf>,
    /// A topic that is taken, and from which subnets; can be given again. All other topics are rejected
    #[arg(long, value_name = "TOPIC[=SUBNET,..]", default_value = "survey=400::/7", value_parser = allowed)]
    pub allow: Vec<Allowed>,
    /// After how many seconds of silence a message that is not whole is dropped; after 10 if another one needs its room
    #[arg(long, value_name = "SECONDS", default_value_t = 300, value_parser = clap::value_parser!(u64).range(1..=86_400))]
    pub forget: u64,
    /// End after this many surveys, when the link is quiet
    #[arg(long, value_name = "N")]
    pub count: Option<u64>,
    /// How bad the link is.
    #[command(flatten)]
    pub odds: OddsArgs,
}

/// Which lesson, and how it is shown.
#[derive(Debug, Args)]
#[command(group = clap::ArgGroup::new("lesson").required(true).args(["length", "file"]))]
#[command(after_help = CLASSROOM_HELP)]
pub struct ClassroomArgs {
    /// The survey's length in bytes, at most 32500
    #[arg(long, value_name = "N")]
    pub length: Option<Length>,
    /// What the link does with each packet of either side, in their order: D delivers it, L loses it,
    /// R delivers it twice. At most 2000 letters; packets behind the last are delivered
    #[arg(long, value_name = "DLR..", default_value = "", hide_default_value = true, requires = "length")]
    pub letters: Letters,
    /// A file with the length on one line and the letters on a second, as the program classroom reads it
    #[arg(long, value_name = "FILE")]
    pub file: Option<PathBuf>,
    /// Write the lesson as a page for a browser, which needs no network
    #[arg(long, value_name = "FILE.html")]
    pub page: Option<PathBuf>,
    /// The page's heading
    #[arg(long, value_name = "TEXT", requires = "page", value_parser = title)]
    pub title: Option<String>,
    /// Print only the lines of the program classroom: round, state, pieces Started, Sent and Acked
    #[arg(long, conflicts_with = "page")]
    pub rows: bool,
}

const CLASSROOM_HELP: &str = "\
The push is at 0 ms, and a round every 100 ms, 50 in all. In a round the tablet sends its init, or at most
eight pieces, or, when every piece has its reply, its done; the office replies within the round.

  socketlemon-link classroom --length 32500                           nothing is lost
  socketlemon-link classroom --length 32500 --letters DDDLDDLDR       the fourth packet is lost, ..
  socketlemon-link classroom --file lesson.txt --page lesson.html     as a page for the lesson

Exit status: 0 shown, 1 a file cannot be read or written, 2 wrong usage or a script of another form.";

/// What to plan.
#[derive(Debug, Args)]
pub struct PlanArgs {
    /// The survey's length in bytes, at most 32500
    #[arg(long, value_name = "N")]
    pub length: u64,
    /// How many pieces it is sent in: a piece for each slot
    #[arg(long, value_name = "K")]
    pub pieces: u64,
}

/// A bad link, for trials; what this side sends goes through it.
#[derive(Clone, Copy, Debug, Args)]
#[command(next_help_heading = "A bad link, for trials; what this side sends goes through it")]
pub struct OddsArgs {
    /// The probability that a datagram is lost
    #[arg(long, value_name = "P", default_value_t = 0.0, value_parser = probability)]
    pub lose: f64,
    /// The probability that it goes out twice
    #[arg(long, value_name = "P", default_value_t = 0.0, value_parser = probability)]
    pub repeat: f64,
    /// The probability that it goes out after the next one
    #[arg(long, value_name = "P", default_value_t = 0.0, value_parser = probability)]
    pub reorder: f64,
    /// What the outcomes follow from
    #[arg(long, value_name = "N", default_value_t = 1)]
    pub seed: u64,
}

impl From<OddsArgs> for Odds {
    fn from(args: OddsArgs) -> Odds {
        Odds { lose: args.lose, repeat: args.repeat, reorder: args.reorder, seed: args.seed }
    }
}

fn probability(text: &str) -> Result<f64, String> {
    text.parse()
        .ok()
        .filter(|p| (0.0..=1.0).contains(p))
        .ok_or_else(|| "a probability is a number from 0 to 1".to_owned())
}

/// A heading. Control characters have no place in a page.
fn title(text: &str) -> Result<String, String> {
    match text.chars().any(char::is_control) {
        true => Err("a heading is one line, without control characters".to_owned()),
        false => Ok(text.to_owned()),
    }
}

fn topic(text: &str) -> Result<String, String> {
    match text.len() {
        0..=255 => Ok(text.to_owned()),
        length => Err(format!("a topic has at most 255 bytes, not {length}")),
    }
}

/// A topic with the subnets that it admits.
#[derive(Clone, Debug, PartialEq, Eq)]
pub struct Allowed {
    topic: String,
    subnets: Vec<Subnet>,
}

/// Reads `survey`, which admits everybody, or `survey=400::/7,500::/8`.
fn allowed(text: &str) -> Result<Allowed, String> {
    let (name, subnets) = match text.split_once('=') {
        None => (text, vec![Subnet::ALL]),
        Some((name, list)) => {
            let subnets: Result<Vec<Subnet>, RulesError> = list.split(',').map(str::parse).collect();
            (name, subnets.map_err(|error| error.to_string())?)
        }
    };
    Ok(Allowed { topic: topic(name)?, subnets })
}

/// The rule book of the topics that are taken.
pub fn rules(allowed: &[Allowed]) -> Result<Rules, RulesError> {
    allowed
        .iter()
        .try_fold(Rules::reject_unlisted(), |rules, one| rules.topic(one.topic.as_bytes(), &one.subnets))
}

#[cfg(test)]
mod tests {
    use super::*;
    use clap::CommandFactory;

    #[test]
    fn the_command_line_is_well_formed() {
        Cli::command().debug_assert();
    }

    #[test]
    fn probabilities_lie_between_0_and_1() {
        assert_eq!((probability("0"), probability("0.25"), probability("1")), (Ok(0.0), Ok(0.25), Ok(1.0)));
        for text in ["", "x", "-0.1", "1.1", "NaN", "inf"] {
            assert!(probability(text).is_err(), "{text:?}");
        }
    }

    #[test]
    fn topics_make_a_rule_book() {
        let one = allowed("survey=400::/7").expect("a topic");
        let all = allowed("open").expect("a topic");
        let mut bytes = b"\x01\x06survey\x01\x04".to_vec();
        bytes.extend([0; 15]);
        bytes.extend(b"\x07\x04open\x01");
        bytes.extend([0; 17]);
        assert_eq!(rules(&[one.clone(), all]).map(|rules| rules.as_bytes().to_vec()), Ok(bytes));
        assert_eq!(rules(&[one.clone(), one]), Err(RulesError::ListedTwice(b"survey".to_vec())));
        assert!(allowed("survey=").is_err());
        assert!(allowed("survey=400::/7,nowhere").is_err());
        assert!(allowed(&"t".repeat(256)).is_err());
    }
}
