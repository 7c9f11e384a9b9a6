//! Surveys that are kept for years: beside each is a sum that only the owner of a secret can make.

mod check;

pub use check::check;

use crate::failure::Failure;
use crate::keys::Key;
use crate::{files, hex, random};
use socketlemon::{keyed_hash_32, same_sum, SumKey};
use std::fs::{File, OpenOptions};
use std::io::{self, Write};
use std::os::unix::fs::OpenOptionsExt;
use std::path::Path;

/// What the name of a survey's keyed sum has behind the survey's.
const END: &str = ".keyed";

/// The longest key file: the digits, and room for spaces and line ends.
const LONGEST_FILE: usize = 1_024;

/// The secret of an archive. Nothing shows it.
#[derive(Clone, Debug)]
pub struct ArchiveKey(SumKey);

impl ArchiveKey {
    /// The key with these bytes.
    pub fn new(bytes: [u8; 32]) -> ArchiveKey {
        ArchiveKey(SumKey::new(bytes))
    }

    /// The key of a file.
    pub fn of_file(path: &Path) -> Result<ArchiveKey, Failure> {
        let name = path.display();
        let makes = "socketlemon-link archive key";
        let bytes = match files::read_up_to(path, LONGEST_FILE) {
            Ok(bytes) => bytes,
            Err(error) if error.kind() == io::ErrorKind::NotFound => {
                return Err(Failure::new(format!("there is no archive key {name}; {makes} {name} makes one")))
            }
            Err(error) => return Err(Failure::file("read", path, &error)),
        };
        let text = bytes.as_deref().and_then(|bytes| std::str::from_utf8(bytes).ok());
        text.and_then(|text| hex::read(text.trim())).map(ArchiveKey::new).ok_or_else(|| {
            let form = "it has one line of 64 hexadecimal digits";
            Failure::new(format!("{name} is not an archive key: {form}, and {makes} FILE makes one"))
        })
    }

    /// Makes a file with a random key, which only its owner can read. What is there stays as it is.
    pub fn make(path: &Path) -> Result<(), Failure> {
        let line = format!("{}\n", hex::write(&random::bytes()?));
        let file = OpenOptions::new().write(true).create_new(true).mode(0o600).open(path);
        let failed = |error: io::Error| match error.kind() {
            io::ErrorKind::AlreadyExists => {
                Failure::new(format!("{} is there already, and stays as it is", path.display()))
            }
            _ => Failure::file("write", path, &error),
        };
        let fill = |mut file: File| file.write_all(line.as_bytes()).and_then(|()| file.sync_all());
        fill(file.map_err(failed)?).and_then(|()| files::sync_folder(path)).map_err(|error| {
            // half a key is none
            let _ = std::fs::remove_file(path);
            Failure::file("write", path, &error)
        })
    }

    /// Whether this is a key that makes an address, as the command `key` shows it to everybody.
    pub fn is_public(&self, key: &Key) -> bool {
        same_sum(&self.sum(b"", b""), &ArchiveKey::new(key.0).sum(b"", b""))
    }

    /// The keyed sum of a survey: of its file's name, a NUL, which no name has, and its bytes.
    pub fn sum(&self, name: &[u8], survey: &[u8]) -> [u8; 32] {
        keyed_hash_32(&self.0, &[name, b"\0", survey].concat())
    }

    /// What the file beside a survey says.
    pub fn line(&self, name: &str, survey: &[u8]) -> String {
        format!("{}\n", hex::write(&self.sum(name.as_bytes(), survey)))
    }
}

/// The name of the file beside a survey.
pub fn beside(name: &str) -> String {
    format!("{name}{END}")
}

#[cfg(test)]
mod tests {
    use super::*;

    #[test]
    fn a_sum_covers_the_name_and_the_bytes() {
        let key = ArchiveKey::new([7; 32]);
        let sum = key.sum(b"a.survey", b"kitchen");
        assert_eq!(sum, keyed_hash_32(&SumKey::new([7; 32]), b"a.survey\0kitchen"));
        for other in [key.sum(b"b.survey", b"kitchen"), key.sum(b"a.survey", b"Kitchen"), key.sum(b"", b"")] {
            assert!(!same_sum(&sum, &other));
        }
        assert!(!same_sum(&sum, &ArchiveKey::new([8; 32]).sum(b"a.survey", b"kitchen")));
    }

    #[test]
    fn the_secret_is_not_shown() {
        assert_eq!(format!("{:?}", ArchiveKey::new([0x6b; 32])), "ArchiveKey(SumKey(..))");
    }

    #[test]
    fn a_public_key_is_told_from_others() {
        let key = ArchiveKey::new([7; 32]);
        assert!(key.is_public(&Key([7; 32])) && !key.is_public(&Key([8; 32])));
    }
}
