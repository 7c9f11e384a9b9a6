//! What the office keeps on the disk, in one file that is replaced as a whole: its receive store, when each arriving message was last heard, and the receipts.
//!
//! The file is a word that names its form (8 bytes), the number of rows of the last two (8 each), the store, the rows, and a CRC-64 of all that (8).

use crate::crc::crc64;
use crate::failure::Failure;
use crate::files;
use crate::lock::Lock;
use crate::receipts::{self, Receipts};
use crate::silence::{self, Silence};
use socketlemon::{Kind, Record, Refusal, Role, Store};
use std::path::{Path, PathBuf};
use std::time::{Duration, Instant, SystemTime, UNIX_EPOCH};

const FORM: &[u8; 8] = b"SLoffic2";
const NUMBER: usize = 8;
const HEAD: usize = FORM.len() + 2 * NUMBER;

/// How old the times of the last words may become in the file while nothing else changes.
const STALE: Duration = Duration::from_secs(10);

/// The office's state, in memory and in its file, which no other office has.
#[derive(Debug)]
pub struct Kept {
    path: PathBuf,
    /// The receive store.
    pub store: Store,
    /// The receipts.
    pub receipts: Receipts,
    /// When each arriving message was last heard.
    pub silence: Silence,
    on_disk: Option<(Store, Receipts)>,
    saved: Instant,
    saves: u64,
    _lock: Lock,
}

impl Kept {
    /// The state of a file, or a fresh one with the most cells if there is no file.
    pub fn open(path: &Path) -> Result<Kept, Failure> {
        let lock = Lock::of(path)?;
        let fresh = Store::new(Role::Receive, Store::MOST_CELLS)
            .map_err(|refusal| Failure::new(format!("cannot make a store: {refusal}")))?;
        let (store, silence, receipts) = match files::read_if_there(path)? {
            None => (fresh, Silence::default(), Receipts::default()),
            Some(bytes) => read(&bytes, fresh.as_bytes().len()).map_err(|why| {
                let path = path.display();
                Failure::new(format!(
                    "{path} is not a store of the office ({why}). Nothing of it is used. Move it away to start \
                     with an empty one: tablets that are still sending then start anew"
                ))
            })?,
        };
        let (path, saved) = (path.to_owned(), Instant::now());
        let mut kept = Kept { path, store, receipts, silence, on_disk: None, saved, saves: 0, _lock: lock };
        kept.save()?;
        Ok(kept)
    }

    /// The arriving messages.
    pub fn arriving(&self) -> Vec<Record> {
        self.store.records().filter(|record| record.kind == Kind::Arriving).collect()
    }

    /// Writes the state to its file if it has changed.
    pub fn save(&mut self) -> Result<(), Failure> {
        let is_same =
            |(store, receipts): &(Store, Receipts)| *store == self.store && *receipts == self.receipts;
        match self.on_disk.as_ref().map_or(false, is_same) {
            true => Ok(()),
            false => self.write(),
        }
    }

    /// Writes the state if messages are on their way whose last words in the file are old.
    pub fn save_times(&mut self, now: Instant) -> Result<(), Failure> {
        let age = now.saturating_duration_since(self.saved);
        let is_heard = |record: &Record| self.silence.of(record.id, now) < age;
        match age >= STALE && self.arriving().iter().any(is_heard) {
            true => self.write(),
            false => Ok(()),
        }
    }

    /// Writes the times of the last words a last time.
    pub fn finish(&mut self) -> Result<(), Failure> {
        match self.arriving().is_empty() {
            true => self.save(),
            false => self.write(),
        }
    }

    /// How often it was written.
    pub fn saves(&self) -> u64 {
        self.saves
    }

    fn write(&mut self) -> Result<(), Failure> {
        let now = Instant::now();
        let ids: Vec<_> = self.arriving().iter().map(|record| record.id).collect();
        self.silence.keep(&ids, now);
        let (heard, receipts) = (self.silence.to_bytes(now, unix_ms()), self.receipts.to_bytes());
        let counts = [heard.len() / silence::ROW, receipts.len() / receipts::ROW];
        let mut bytes = FORM.to_vec();
        counts.iter().for_each(|count| bytes.extend((*count as u64).to_be_bytes()));
        [self.store.as_bytes(), &heard, &receipts].iter().for_each(|part| bytes.extend(*part));
        bytes.extend(crc64(&bytes).to_be_bytes());
        files::replace(&self.path, &bytes)?;
        self.on_disk = Some((self.store.clone(), self.receipts.clone()));
        self.saved = now;
        self.saves += 1;
        Ok(())
    }
}

/// The time of the day, in milliseconds since 1970.
pub fn unix_ms() -> u64 {
    let time = SystemTime::now().duration_since(UNIX_EPOCH).unwrap_or_default();
    u64::try_from(time.as_millis()).unwrap_or(u64::MAX)
}

fn read(bytes: &[u8], store_bytes: usize) -> Result<(Store, Silence, Receipts), String> {
    let least = HEAD + store_bytes + NUMBER;
    if !bytes.starts_with(FORM) {
        return Err("it is of another form, perhaps that of an earlier version".to_owned());
    }
    if bytes.len() < least {
        return Err(format!("it has {} bytes, fewer than {least}", bytes.len()));
    }
    let (all, sum) = bytes.split_at(bytes.len() - NUMBER);
    if crc64(all).to_be_bytes() != sum {
        return Err("it is damaged: its sum differs".to_owned());
    }
    let (heard, rest) = (number(&all[FORM.len()..]), &all[HEAD..]);
    let (store, rows) = rest.split_at(store_bytes);
    let cut = heard.and_then(|n| n.checked_mul(silence::ROW)).filter(|cut| *cut <= rows.len());
    let (heard, receipts) = rows.split_at(cut.ok_or("its rows are cut")?);
    let silence = Silence::from_bytes(heard, Instant::now(), unix_ms()).ok_or("its times are cut")?;
    let receipts = Receipts::from_bytes(receipts).ok_or("what follows the store are no receipts")?;
    if number(&all[FORM.len() + NUMBER..]) != Some(receipts.count()) {
        return Err("what follows the store are other receipts".to_owned());
    }
    let store =
        Store::from_bytes(Role::Receive, store.to_vec()).map_err(|refusal: Refusal| refusal.to_string())?;
    Ok((store, silence, receipts))
}

fn number(bytes: &[u8]) -> Option<usize> {
    usize::try_from(u64::from_be_bytes(bytes.get(..NUMBER)?.try_into().ok()?)).ok()
}

/// The store in the bytes of a file, for those who look into it from outside; nothing if it is not one.
pub fn store_of(bytes: &[u8]) -> Option<Store> {
    let fresh = Store::new(Role::Receive, Store::MOST_CELLS).ok()?;
    read(bytes, fresh.as_bytes().len()).ok().map(|(store, _, _)| store)
}
