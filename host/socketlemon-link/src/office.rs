//! The office: receives surveys and writes each to a file when it is whole.

mod calls;
mod desk;

use crate::admission::Admission;
use crate::archive::ArchiveKey;
use crate::counts::Counts;
use crate::datagram;
use crate::failure::Failure;
use crate::faults::Odds;
use crate::files;
use crate::kept::Kept;
use crate::keys::{Key, Known, KnownFile};
use crate::peers::Peers;
use crate::port::Port;
use crate::signals::Signals;
use crate::strangers::Strangers;
use crate::surveys::Surveys;
use calls::Calls;
use socketlemon::{Address, Refusal, Rules, LONGEST_RUN};
use std::net::{SocketAddr, SocketAddrV6};
use std::path::PathBuf;
use std::time::{Duration, Instant};

/// How often the office looks after what is late.
const TICK: Duration = Duration::from_millis(100);

/// How many datagrams are handled before what they have changed is put on the disk. All that wait in the socket are, so that a wait for the disk serves many.
const BATCH: usize = 64;

/// How long no datagram must come before an office that has all its surveys ends: a tablet that misses its receipt asks every 100 ms.
const QUIET: Duration = Duration::from_secs(1);

/// How often the counts are shown, if they have changed.
const COUNTS: Duration = Duration::from_secs(10);

/// How often the office looks whether the list of keys has changed.
const KEYS: Duration = Duration::from_secs(1);

/// What the office is told at its start.
#[derive(Clone, Debug)]
pub struct Listen {
    /// The folder for the surveys.
    pub out: PathBuf,
    /// The key of the sums that are kept beside the surveys; none are if there is no key.
    pub archive: Option<ArchiveKey>,
    /// The socket to listen on.
    pub listen: SocketAddrV6,
    /// The office's key.
    pub key: Key,
    /// The file with the keys of those whose surveys it takes.
    pub known: PathBuf,
    /// The file that keeps the store.
    pub store: PathBuf,
    /// The topics that it takes.
    pub rules: Rules,
    /// After how long a silent message is dropped.
    pub forget: Duration,
    /// After how many surveys it ends; never if there is no number.
    pub count: Option<u64>,
    /// How bad the link is, in the direction of the tablets.
    pub odds: Odds,
    /// What the system tells it.
    pub signals: Signals,
}

/// An office at work.
#[derive(Debug)]
pub struct Office {
    own: Address,
    port: Port,
    kept: Kept,
    calls: Calls,
    known_file: KnownFile,
    known: Known,
    surveys: Surveys,
    peers: Peers,
    admission: Admission,
    strangers: Strangers,
    forget: Duration,
    counts: Counts,
    written: u64,
    enough: Option<u64>,
    signals: Signals,
    /// The answers of this batch, which leave when all that they acknowledge is on the disk.
    answers: Vec<(Vec<u8>, SocketAddr)>,
    /// What is to be said about it.
    lines: Vec<String>,
}

impl Office {
    /// Opens the folder, the socket and the store.
    pub fn open(told: &Listen) -> Result<Office, Failure> {
        let (known_file, known) = KnownFile::open(&told.known)?;
        let surveys = Surveys::open(&told.out, told.archive.clone())?;
        let port = Port::open(told.listen, told.odds)?;
        let mut office = Office {
            own: told.key.address(),
            port,
            kept: Kept::open(&told.store)?,
            calls: Calls::new(told.rules.clone())?,
            known_file,
            known,
            surveys,
            peers: Peers::default(),
            admission: Admission::default(),
            strangers: Strangers::default(),
            forget: told.forget,
            counts: Counts::default(),
            written: 0,
            enough: told.count,
            signals: told.signals.clone(),
            answers: Vec::new(),
            lines: Vec::new(),
        };
        office.drop_strangers();
        Ok(office)
    }

    /// The socket that it listens on.
    pub fn at(&self) -> Result<SocketAddr, Failure> {
        self.port.at()
    }

    /// How many keys are known.
    pub fn keys(&self) -> usize {
        self.known.count()
    }

    /// How many messages were on their way when the office was last stopped.
    pub fn arriving(&self) -> usize {
        self.kept.arriving().len()
    }

    /// Receives surveys, until there are as many as were asked for and the link is quiet, or a signal stops it. `say` is given a line for each thing that
    /// happens.
    pub fn work(&mut self, mut say: impl FnMut(String)) -> Result<(), Failure> {
        let mut last = Instant::now();
        let (mut next_tick, mut next_keys, mut next_counts) = (last + TICK, last + KEYS, last + COUNTS);
        let mut shown = Counts::default();
        self.settle(&mut say)?;
        loop {
            for (datagram, peer) in self.port.gather(next_tick, BATCH)? {
                last = Instant::now();
                self.datagram(&datagram, peer);
            }
            let now = Instant::now();
            if now >= next_tick {
                next_tick = now + TICK;
                self.tick(now)?;
            }
            let is_asked = self.signals.look_again();
            if now >= next_keys || is_asked {
                next_keys = now + KEYS;
                self.look_at_keys(is_asked);
            }
            self.settle(&mut say)?;
            let is_stopped = self.signals.stop();
            let has_enough =
                self.enough.map_or(false, |enough| self.written >= enough) && now >= last + QUIET;
            if (now >= next_counts && self.counts != shown) || is_stopped || has_enough {
                say(self.counts.to_string());
                shown = self.counts.clone();
            }
            if is_stopped || has_enough {
                return self.end(is_stopped, say);
            }
            next_counts = if now >= next_counts { now + COUNTS } else { next_counts };
        }
    }

    /// Writes each whole survey to its file, puts all that has changed on the disk, and only then sends the answers.
    fn settle(&mut self, say: &mut impl FnMut(String)) -> Result<(), Failure> {
        let mut run = [0; LONGEST_RUN];
        loop {
            let (survey, read) = match self.kept.store.take(&mut run) {
                Ok(taken) => taken,
                Err(Refusal::NoneWhole) => break,
                Err(refusal) => return Err(Failure::new(format!("cannot take a survey: {refusal}"))),
            };
            let (source, length) = (survey.record.source, survey.data.len());
            let path = self.surveys.keep(&survey, self.kept.receipts.sum(source, survey.record.id))?;
            self.written += 1;
            self.lines.push(format!("survey of {length} bytes from {source} is in {}", path.display()));
            if let Some(peer) = self.peers.socket(source) {
                self.answers.extend(read.packets().map(|packet| (datagram::write(&packet), peer)));
            }
        }
        self.kept.save()?;
        for (bytes, peer) in self.answers.drain(..) {
            self.port.send_datagram(bytes, peer);
        }
        self.lines.drain(..).for_each(say);
        Ok(())
    }

    /// What is due by the clock.
    fn tick(&mut self, now: Instant) -> Result<(), Failure> {
        self.port.release();
        self.drop_silent(now);
        self.lines.extend(self.strangers.tell(now));
        self.kept.save_times(now)
    }

    /// Drops the messages that have been silent for too long.
    fn drop_silent(&mut self, now: Instant) {
        for record in self.kept.arriving() {
            if self.kept.silence.of(record.id, now) >= self.forget && self.abort(record.id) {
                let (id, source) = (record.id, record.source);
                self.lines.push(format!("message {id} from {source} went silent and was dropped"));
            }
        }
    }

    /// Drops the messages of sources whose key is not known, or no longer: they cannot become whole.
    fn drop_strangers(&mut self) {
        for record in self.kept.arriving() {
            if !self.known.has(record.source) && self.abort(record.id) {
                let (id, source) = (record.id, record.source);
                self.lines.push(format!("message {id} was dropped: the key of {source} is not known"));
            }
        }
    }

    /// Reads the list of keys again if it has changed, or if a signal asks for it. The old one stays where the new one cannot be read.
    fn look_at_keys(&mut self, in_any_case: bool) {
        match self.known_file.again(in_any_case) {
            None => {}
            Some(Ok(known)) => {
                self.lines.push(format!("keys known: {}, before: {}", known.count(), self.known.count()));
                self.known = known;
                self.drop_strangers();
            }
            Some(Err(failure)) => {
                let count = self.known.count();
                self.lines.push(format!("the keys stay as they were, {count} known: {failure}"));
            }
        }
    }

    /// The last words.
    fn end(&mut self, is_stopped: bool, mut say: impl FnMut(String)) -> Result<(), Failure> {
        self.kept.finish()?;
        let (written, saves, syncs) = (self.written, self.kept.saves(), files::syncs());
        say(format!("surveys: {written}; saves of the store: {saves}; waits for the disk: {syncs}"));
        if is_stopped {
            say(format!("stopped by a signal; messages that can go on: {}", self.arriving()));
        }
        Ok(())
    }
}
