//! Keys: 32 bytes in hexadecimal on a line. An address comes from a key.

use crate::failure::Failure;
use crate::{files, hex, random};
use socketlemon::Address;
use std::collections::BTreeSet;
use std::fmt;
use std::path::{Path, PathBuf};
use std::time::SystemTime;

/// A public key.
#[derive(Clone, Copy, Debug, PartialEq, Eq)]
pub struct Key(pub [u8; 32]);

impl Key {
    /// The key of a file.
    pub fn of_file(path: &Path) -> Result<Key, Failure> {
        Key::if_there(path)?.ok_or_else(|| {
            let path = path.display();
            Failure::new(format!("there is no key file {path}; socketlemon-link key {path} makes one"))
        })
    }

    /// The key of a file, which is made with a random key if it is not there; and whether it was made.
    pub fn of_file_or_new(path: &Path) -> Result<(Key, bool), Failure> {
        match Key::if_there(path)? {
            Some(key) => Ok((key, false)),
            None => {
                let key = Key(random::bytes()?);
                files::replace(path, format!("{key}\n").as_bytes())?;
                Ok((key, true))
            }
        }
    }

    fn if_there(path: &Path) -> Result<Option<Key>, Failure> {
        let read = |bytes: Vec<u8>| {
            let key = std::str::from_utf8(&bytes).ok().and_then(|text| Key::read(text.trim()));
            key.ok_or_else(|| {
                let path = path.display();
                Failure::new(format!("{path} is not a key: it has one line of 64 hexadecimal digits"))
            })
        };
        files::read_if_there(path)?.map(read).transpose()
    }

    /// Reads 64 hexadecimal digits.
    pub fn read(text: &str) -> Option<Key> {
        hex::read(text).map(Key)
    }

    /// The key's address.
    pub fn address(&self) -> Address {
        Address::of_key(&self.0).expect("a key of 32 bytes has an address")
    }
}

impl fmt::Display for Key {
    fn fmt(&self, f: &mut fmt::Formatter<'_>) -> fmt::Result {
        f.write_str(&hex::write(&self.0))
    }
}

/// The sources whose keys are known.
#[derive(Clone, Debug, Default, PartialEq, Eq)]
pub struct Known(BTreeSet<Address>);

impl Known {
    /// Reads a list of keys, one a line, as a key file has them or as the command `key` prints them, with the address behind; empty lines and what stands
    /// behind a # count for nothing.
    pub fn of_file(path: &Path) -> Result<Known, Failure> {
        let text = std::fs::read_to_string(path).map_err(|error| Failure::file("read", path, &error))?;
        let mut known = BTreeSet::new();
        let mut last = None;
        for (number, line) in text.lines().enumerate() {
            let line = line.split('#').next().unwrap_or_default().trim();
            let failed = |why: &str| Failure::new(format!("line {} of {} {why}", number + 1, path.display()));
            if let Some(address) = line.strip_prefix("address ") {
                if address.trim().parse().ok() != last || last.is_none() {
                    return Err(failed("is not the address of the key above it"));
                }
            } else if !line.is_empty() {
                let digits = line.strip_prefix("key ").unwrap_or(line).trim();
                let key = Key::read(digits).ok_or_else(|| failed("is not a key of 64 hexadecimal digits"))?;
                last = Some(key.address());
                known.insert(key.address());
            }
        }
        Ok(Known(known))
    }

    /// Whether the key of this source is known.
    pub fn has(&self, source: Address) -> bool {
        self.0.contains(&source)
    }

    /// How many are known.
    pub fn count(&self) -> usize {
        self.0.len()
    }
}

/// When a file was last written, and its length.
type Stamp = Option<(SystemTime, u64)>;

/// A file of known keys that may change.
#[derive(Clone, Debug)]
pub struct KnownFile {
    path: PathBuf,
    /// How it was when it was last read, and when it was last looked at.
    read: Stamp,
    seen: Stamp,
}

impl KnownFile {
    /// Reads a file, and looks out for changes from then on.
    pub fn open(path: &Path) -> Result<(KnownFile, Known), Failure> {
        let stamp = stamp(path);
        let known = Known::of_file(path)?;
        Ok((KnownFile { path: path.to_owned(), read: stamp, seen: stamp }, known))
    }

    /// Looks at the file. What it says, if it has changed since it was read and not since the last look, for whoever writes it may not be done; or in any case.
    pub fn again(&mut self, in_any_case: bool) -> Option<Result<Known, Failure>> {
        let now = stamp(&self.path);
        let is_settled = std::mem::replace(&mut self.seen, now) == now;
        let is_new = is_settled && now != self.read;
        (in_any_case || is_new).then(|| {
            self.read = now;
            Known::of_file(&self.path)
        })
    }
}

/// The stamp of a file; nothing if it is not there, or is a pipe, which can be read only once.
fn stamp(path: &Path) -> Stamp {
    let about = std::fs::metadata(path).ok().filter(|about| about.is_file())?;
    Some((about.modified().ok()?, about.len()))
}

#[cfg(test)]
mod tests {
    use super::*;

    #[test]
    fn a_key_is_read_as_it_is_shown() {
        let mut bytes = [0; 32];
        bytes.iter_mut().zip(1u8..).for_each(|(byte, n)| *byte = n.wrapping_mul(37));
        let key = Key(bytes);
        assert_eq!(Key::read(&key.to_string()), Some(key));
        assert_eq!(Key::read(&key.to_string().to_uppercase()), Some(key));
    }

    #[test]
    fn other_texts_are_no_key() {
        let good = "0".repeat(64);
        assert!(Key::read(&good).is_some());
        for text in ["", "00", &good[1..], &format!("{good}0"), &good.replacen('0', "g", 1), &"é".repeat(32)]
        {
            assert_eq!(Key::read(text), None, "{text:?}");
        }
    }
}
