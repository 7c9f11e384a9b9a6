//! The commands `tablet send`, `office listen`, `archive`, `classroom`, `plan` and `key`.

#![forbid(unsafe_code)]

use clap::Parser;
use socketlemon::Calendar;
use socketlemon_link::archive::{self, ArchiveKey};
use socketlemon_link::classroom::lesson::Lesson;
use socketlemon_link::classroom::script::Script;
use socketlemon_link::classroom::{page, terminal};
use socketlemon_link::cli::{
    self, ArchiveCommand, CheckArgs, ClassroomArgs, Cli, ListenArgs, OfficeCommand, PlanArgs, SendArgs, Side,
    TabletCommand,
};
use socketlemon_link::failure::Failure;
use socketlemon_link::hours;
use socketlemon_link::keys::Key;
use socketlemon_link::office::{Listen, Office};
use socketlemon_link::signals::Signals;
use socketlemon_link::slots;
use socketlemon_link::tablet::{self, Ended, Send};
use std::io::Write;
use std::path::Path;
use std::process::ExitCode;
use std::time::{Duration, Instant, SystemTime};

fn main() -> ExitCode {
    // a wrong usage ends here with status 2
    let done = match Cli::parse().side {
        Side::Tablet(TabletCommand::Send(args)) => send(args),
        Side::Office(OfficeCommand::Listen(args)) => listen(args),
        Side::Archive(ArchiveCommand::Check(args)) => match check(&args) {
            // what is wrong has been said
            Ok(false) => return ExitCode::FAILURE,
            done => done.map(|_| ()),
        },
        Side::Archive(ArchiveCommand::Key { file }) => archive_key(&file),
        Side::Classroom(args) => classroom(args),
        Side::Plan(args) => plan(&args),
        Side::Key { file } => key(&file),
    };
    match done {
        Ok(()) => ExitCode::SUCCESS,
        Err(failure) => {
            let _ = writeln!(std::io::stderr(), "socketlemon-link: {failure}");
            ExitCode::from(failure.status())
        }
    }
}

/// Puts out a line at once.
fn say(line: &str) {
    show(&format!("{line}\n"));
}

/// Puts out a text at once. A reader that has gone away stops nothing.
fn show(text: &str) {
    let mut out = std::io::stdout();
    let _ = write!(out, "{text}").and_then(|()| out.flush());
}

/// Shows the key of a file, and says if it was made.
fn key(file: &Path) -> Result<(), Failure> {
    let (key, is_new) = Key::of_file_or_new(file)?;
    if is_new {
        let _ = writeln!(std::io::stderr(), "a new key is in {}", file.display());
    }
    say(&format!("key {key}\naddress {}", key.address()));
    Ok(())
}

/// Makes an archive key, which is not shown.
fn archive_key(file: &Path) -> Result<(), Failure> {
    ArchiveKey::make(file)?;
    say(&format!("a new archive key is in {}; keep it secret, and a copy of it elsewhere", file.display()));
    Ok(())
}

/// Checks archived surveys, and says whether all match.
fn check(args: &CheckArgs) -> Result<bool, Failure> {
    archive::check(&args.folder, &ArchiveKey::of_file(&args.archive_key)?, |line| say(&line))
}

/// Shows the sizes of the pieces of a survey.
fn plan(args: &PlanArgs) -> Result<(), Failure> {
    say(&slots::plan(args.length, args.pieces)?);
    Ok(())
}

fn send(args: SendArgs) -> Result<(), Failure> {
    let told = Send {
        survey: tablet::read_survey(&args.file)?,
        hours: args.hours.map_or_else(|| Ok(Calendar::always()), |file| hours::read(&file))?,
        to: args.to,
        office: args.office,
        topic: args.topic,
        key: Key::of_file(&args.key)?,
        deadline: Duration::from_secs(args.deadline),
        now: SystemTime::now,
        odds: args.odds.into(),
        signals: Signals::of_tablet()?,
    };
    let start = Instant::now();
    let ended = match tablet::send(&told)? {
        Ended::Read => "read",
        Ended::Received => "received (the news that it was read did not come)",
    };
    let (length, seconds) = (told.survey.len(), start.elapsed().as_secs_f64());
    say(&format!("survey of {length} bytes: {ended} after {seconds:.1} s"));
    Ok(())
}

fn listen(args: ListenArgs) -> Result<(), Failure> {
    let key = Key::of_file(&args.key)?;
    let archive = args.archive_key.as_deref().map(ArchiveKey::of_file).transpose()?;
    if archive.as_ref().map_or(false, |archive| archive.is_public(&key)) {
        return Err(Failure::new("the archive key is the office's key, which is no secret"));
    }
    let told = Listen {
        store: args.store.unwrap_or_else(|| args.out.join("office.store")),
        out: args.out,
        listen: args.listen,
        archive,
        key,
        known: args.known,
        rules: cli::rules(&args.allow).map_err(|error| Failure::new(format!("wrong --allow: {error}")))?,
        forget: Duration::from_secs(args.forget),
        count: args.count,
        odds: args.odds.into(),
        signals: Signals::of_office()?,
    };
    let mut office = Office::open(&told)?;
    say(&format!("office {} listens on {}, keys known: {}", told.key.address(), office.at()?, office.keys()));
    match office.arriving() {
        0 => {}
        n => say(&format!("messages that go on from before: {n}")),
    }
    office.work(|line| say(&line))
}

fn classroom(args: ClassroomArgs) -> Result<(), Failure> {
    let script = match (args.length, args.file) {
        (Some(length), _) => Script { length, letters: args.letters },
        (None, Some(file)) => Script::of_file(&file)?,
        // the command line has one of them
        (None, None) => return Err(Failure::input("neither --length nor --file")),
    };
    let lesson =
        Lesson::of(&script).map_err(|refusal| Failure::new(format!("the library refuses: {refusal}")))?;
    if args.rows {
        show(&lesson.rows());
        return Ok(());
    }
    show(&terminal::draw(&lesson));
    if let Some(file) = args.page {
        let title = args.title.unwrap_or_else(|| page::title(&lesson));
        let bytes = page::write(&lesson, &title).map_err(|error| Failure::new(error.to_string()))?;
        std::fs::write(&file, bytes).map_err(|error| Failure::file("write", &file, &error))?;
        say(&format!("the page is in {}", file.display()));
    }
    Ok(())
}
