//! The tablet: sends one survey and waits until the office has it.

mod why;

use crate::counts::Counts;
use crate::datagram::{Arrived, MOST};
use crate::failure::Failure;
use crate::faults::Odds;
use crate::hours;
use crate::keys::Key;
use crate::notice::Notice;
use crate::port::Port;
use crate::progress::Progress;
use crate::random;
use crate::signals::Signals;
use crate::waiting::Waiting;
use socketlemon::{
    Address, Arrival, Calendar, Id, Push, Report, Role, Rules, Run, State, Store, Wake, LONGEST_RUN,
    MOST_BYTES, PACKET_RUN, PIECE,
};
use std::fs::File;
use std::io::Read;
use std::net::{Ipv6Addr, SocketAddrV6};
use std::path::Path;
use std::time::{Duration, Instant, SystemTime, UNIX_EPOCH};

/// How often what is due is sent.
const SEND_WAKE: Duration = Duration::from_millis(100);

/// How long the tablet waits for the news that a received survey was read. The office sends it once, so it can be lost.
const READ_WAIT: Duration = Duration::from_secs(2);

/// After how long without an answer the user is told.
const FIRST_WORD: Duration = Duration::from_secs(3);

/// How often the office is told that the tablet gives up, and the time in between.
const ABORTS: u32 = 3;
const BETWEEN_ABORTS: Duration = Duration::from_millis(30);

/// What the tablet is told.
#[derive(Clone, Debug)]
pub struct Send {
    /// The survey.
    pub survey: Vec<u8>,
    /// The office's socket.
    pub to: SocketAddrV6,
    /// The office's address.
    pub office: Address,
    /// The survey's topic.
    pub topic: String,
    /// The tablet's key.
    pub key: Key,
    /// When the tablet gives up.
    pub deadline: Duration,
    /// The hours in which the survey may leave.
    pub hours: Calendar,
    /// The clock of the day, which the hours go by.
    pub now: fn() -> SystemTime,
    /// How bad the link is, in the direction of the office.
    pub odds: Odds,
    /// What the system tells it.
    pub signals: Signals,
}

/// How a survey has ended well.
#[derive(Clone, Copy, Debug, PartialEq, Eq)]
pub enum Ended {
    /// The office has it whole.
    Received,
    /// The office has it in a file.
    Read,
}

/// Reads a survey that can be sent: one that is not too long.
pub fn read_survey(path: &Path) -> Result<Vec<u8>, Failure> {
    let failed = |error| Failure::file("read", path, &error);
    let file = File::open(path).map_err(failed)?;
    let mut survey = Vec::new();
    file.take(MOST_BYTES as u64 + 1).read_to_end(&mut survey).map_err(failed)?;
    if survey.len() > MOST_BYTES {
        return Err(Failure::new(format!(
            "{} cannot be sent: it is longer than {MOST_BYTES} bytes, the most that a message can have",
            path.display()
        )));
    }
    Ok(survey)
}

/// A survey on its way.
struct Tablet<'a> {
    told: &'a Send,
    own: Address,
    id: Id,
    send: Store,
    /// The tablet takes no messages; a packet call asks for a receive store and a rule book all the same.
    nothing_to_receive: Store,
    no_topics: Rules,
    port: Port,
    start: Instant,
    counts: Counts,
    answers: u64,
    /// Whether the user was told that there is no answer.
    told_silent: bool,
    /// Since when the hours are open; nothing while they are closed.
    open: Option<Instant>,
    /// Whether they were closed when they were last looked at.
    was_closed: bool,
    /// Whether they were open at any time.
    was_open: bool,
    /// Since when the survey is received.
    received: Option<Instant>,
    /// What the office has told about its line.
    waiting: Waiting,
    /// Whether the office has told that it does not know the key.
    is_stranger: bool,
}

/// Sends a survey and waits for its receipt.
pub fn send(told: &Send) -> Result<Ended, Failure> {
    let mut progress = Progress::new(told.survey.len());
    let ended = Tablet::new(told)?.work(&mut progress);
    progress.end();
    ended
}

impl Tablet<'_> {
    fn new(told: &Send) -> Result<Tablet<'_>, Failure> {
        let store = |role, cells| {
            Store::new(role, cells).map_err(|refusal| Failure::new(format!("cannot make a store: {refusal}")))
        };
        let any_port = SocketAddrV6::new(Ipv6Addr::UNSPECIFIED, 0, 0, 0);
        Ok(Tablet {
            told,
            own: told.key.address(),
            id: Id(random::bytes()?),
            send: store(Role::Send, MOST_BYTES / PIECE)?,
            nothing_to_receive: store(Role::Receive, 1)?,
            no_topics: Rules::reject_unlisted(),
            port: Port::open(any_port, told.odds)?,
            start: Instant::now(),
            counts: Counts::default(),
            answers: 0,
            told_silent: false,
            open: None,
            was_closed: false,
            was_open: false,
            received: None,
            waiting: Waiting::default(),
            is_stranger: false,
        })
    }

    fn work(&mut self, progress: &mut Progress) -> Result<Ended, Failure> {
        let mut buffer = [0; MOST + 1];
        let mut next_send = self.start + SEND_WAKE;
        self.push()?;
        loop {
            let now = Instant::now();
            self.look_at_hours(now, progress)?;
            if let Some(ended) = self.ended(now, progress)? {
                return Ok(ended);
            }
            if self.told.signals.stop() {
                return self.stopped(progress);
            }
            self.tell_silence(now, progress);
            if now >= next_send {
                next_send = now + SEND_WAKE;
                self.port.release();
                self.wake_send()?;
            }
            if let Some((datagram, _)) = self.port.receive(next_send, &mut buffer)? {
                self.datagram(datagram, progress)?;
            }
        }
    }

    /// How the survey has ended, if it has. Not to have arrived at the deadline is a failure.
    fn ended(&mut self, now: Instant, progress: &mut Progress) -> Result<Option<Ended>, Failure> {
        let report = self.show(progress)?;
        match report.state {
            State::Read => Ok(Some(Ended::Read)),
            State::Received => {
                let since = *self.received.get_or_insert(now);
                Ok((now >= since + READ_WAIT).then_some(Ended::Received))
            }
            _ if now >= self.end() => {
                self.give_up()?;
                self.show(progress)?;
                Err(self.why_not(&report))
            }
            _ => Ok(None),
        }
    }

    /// When the tablet gives up. The time in the office's line does not count.
    fn end(&self) -> Instant {
        self.start + self.told.deadline + self.waiting.waited()
    }

    /// Shows how far the survey is.
    fn show(&mut self, progress: &mut Progress) -> Result<Report, Failure> {
        let report = self.report()?;
        if report.state != State::Init {
            self.waiting.over();
        }
        progress.show(&report, self.open.is_some(), self.waiting.words());
        Ok(report)
    }

    /// Lets the deadline pass. The office is told so more than once, for a packet may be lost, and what it holds of the survey would wait in vain.
    fn give_up(&mut self) -> Result<(), Failure> {
        let mut run = [0; LONGEST_RUN];
        let out = self.woken(Wake::Deadline, &mut run)?;
        for time in 0..ABORTS {
            if time > 0 {
                std::thread::sleep(BETWEEN_ABORTS);
            }
            put(&mut self.port, out, self.told.to);
            self.port.release();
        }
        Ok(())
    }

    /// Ends because a signal says so.
    fn stopped(&mut self, progress: &mut Progress) -> Result<Ended, Failure> {
        let report = self.report()?;
        match report.state {
            State::Read => return Ok(Ended::Read),
            State::Received => return Ok(Ended::Received),
            _ => self.give_up()?,
        }
        self.show(progress)?;
        let all = self.pieces();
        Err(Failure::new(format!(
            "stopped by a signal: {} of {all} pieces were acknowledged, and the office was told to drop them",
            report.acked
        )))
    }

    /// Notes whether the hours are open. Tells the user when they close, and starts again when they open.
    fn look_at_hours(&mut self, now: Instant, progress: &mut Progress) -> Result<(), Failure> {
        let unix_ms = self.unix_ms();
        let is_open = self.told.hours.is_open(unix_ms);
        self.open = if is_open { self.open.or(Some(now)) } else { None };
        self.was_open |= is_open;
        let was_closed = std::mem::replace(&mut self.was_closed, !is_open);
        if is_open && was_closed {
            self.start_again()?;
        }
        if !is_open && !was_closed && self.received.is_none() {
            let left = self.end().saturating_duration_since(now);
            progress.say(&hours::closed(&self.told.hours, unix_ms, left));
        }
        Ok(())
    }

    /// Announces the survey anew, under another id: while the hours were closed, the office may have forgotten it.
    /// Where all its pieces have arrived, only a receipt is missing, and a second survey would be one too many.
    fn start_again(&mut self) -> Result<(), Failure> {
        let report = self.report()?;
        let all = self.pieces();
        if report.state != State::InProgress || (all > 0 && usize::from(report.acked) == all) {
            return Ok(());
        }
        self.start_anew()
    }

    /// Announces the survey under another id.
    fn start_anew(&mut self) -> Result<(), Failure> {
        // the first tells the office, the second makes room
        self.wake(Wake::Deadline)?;
        self.wake(Wake::Deadline)?;
        self.id = Id(random::bytes()?);
        self.push()
    }

    fn pieces(&self) -> usize {
        (self.told.survey.len() + PIECE - 1) / PIECE
    }

    /// Tells the user once if nobody has answered for a while.
    fn tell_silence(&mut self, now: Instant, progress: &mut Progress) {
        let is_silent = self.answers == 0 && self.open.map_or(false, |open| now >= open + FIRST_WORD);
        if self.told_silent || !is_silent {
            return;
        }
        self.told_silent = true;
        progress.say(&format!(
            "no answer from {} yet, trying for {} s",
            self.told.to,
            self.told.deadline.as_secs()
        ));
    }

    fn push(&mut self) -> Result<(), Failure> {
        let told = self.told;
        let push = Push {
            id: self.id,
            reply: false,
            from: self.own,
            to: told.office,
            topic: told.topic.as_bytes(),
            data: &told.survey,
            created_ms: self.unix_ms(),
            try_ms: millis(told.deadline),
        };
        let mut run = [0; LONGEST_RUN];
        let out = self
            .send
            .push(&push, &mut run)
            .map_err(|refusal| Failure::new(format!("the survey cannot be sent: {refusal}")))?;
        put(&mut self.port, out, told.to);
        Ok(())
    }

    /// Sends what is due, by a clock that starts with the survey and never goes back, if the hours are open.
    fn wake_send(&mut self) -> Result<(), Failure> {
        let (clock_ms, unix_ms) = (millis(self.start.elapsed()), self.unix_ms());
        self.wake(Wake::Send { clock_ms, calendar: &self.told.hours, unix_ms })
    }

    /// The time of the day, in milliseconds since 1970 in UTC.
    fn unix_ms(&self) -> u64 {
        millis((self.told.now)().duration_since(UNIX_EPOCH).unwrap_or_default())
    }

    fn wake(&mut self, wake: Wake<'_>) -> Result<(), Failure> {
        let mut run = [0; LONGEST_RUN];
        let out = self.woken(wake, &mut run)?;
        put(&mut self.port, out, self.told.to);
        Ok(())
    }

    /// What a wake wants to be sent.
    fn woken<'r>(&mut self, wake: Wake<'_>, run: &'r mut [u8]) -> Result<Run<'r>, Failure> {
        self.send
            .wake(wake, self.id, run)
            .map_err(|refusal| Failure::new(format!("the survey cannot be woken: {refusal}")))
    }

    fn report(&self) -> Result<Report, Failure> {
        self.send.report(self.id).map_err(|refusal| Failure::new(format!("the survey is lost: {refusal}")))
    }

    fn datagram(&mut self, datagram: &[u8], progress: &Progress) -> Result<(), Failure> {
        let arrived = match Arrived::read(datagram, self.own) {
            Ok(arrived) => arrived,
            Err(reason) => {
                self.counts.drop(reason);
                return Ok(());
            }
        };
        if let Some((id, notice)) = Notice::read(&arrived.frame) {
            return match (id, arrived.from) == (self.id, self.told.office) {
                true => self.notice(notice, progress),
                false => Ok(()),
            };
        }
        let arrival = Arrival {
            frame: &arrived.frame,
            from: arrived.from,
            to: arrived.to,
            rules: &self.no_topics,
            known: false,
        };
        let mut run = [0; PACKET_RUN];
        match self.nothing_to_receive.packet(&mut self.send, &arrival, &mut run) {
            Ok(answer) => {
                self.answers += 1;
                self.is_stranger = false;
                if answer.wake {
                    self.wake_send()?;
                }
            }
            Err(refusal) => self.counts.refuse(refusal),
        }
        Ok(())
    }

    /// Does as the office has told about the survey.
    fn notice(&mut self, notice: Notice, progress: &Progress) -> Result<(), Failure> {
        self.answers += 1;
        match (notice, self.report()?.state) {
            (Notice::Wait(before), State::Init) => self.waiting.told(before, Instant::now()),
            (Notice::Gone, State::InProgress) => {
                progress.say("the office no longer has the survey; it is sent anew");
                self.start_anew()?;
            }
            (Notice::Stranger, State::Init | State::InProgress) if !self.is_stranger => {
                self.is_stranger = true;
                progress.say(&format!(
                    "the office does not know the key of {} yet; its list wants the line that the command key prints",
                    self.own
                ));
            }
            _ => {}
        }
        Ok(())
    }
}

fn put(port: &mut Port, run: Run<'_>, to: SocketAddrV6) {
    for packet in run {
        port.send(&packet, to.into());
    }
}

fn millis(time: Duration) -> u64 {
    u64::try_from(time.as_millis()).unwrap_or(u64::MAX)
}
