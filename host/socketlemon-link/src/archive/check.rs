//! The check of a folder of archived surveys.

use super::{ArchiveKey, END};
use crate::failure::Failure;
use crate::{files, hex};
use socketlemon::{same_sum, MOST_BYTES};
use std::collections::BTreeSet;
use std::ffi::OsStr;
use std::io::{self, ErrorKind};
use std::os::unix::ffi::OsStrExt;
use std::path::Path;

/// The end of a survey's name.
const SURVEY: &[u8] = b".survey";

/// The bytes of a sum's file: 64 digits and a line feed.
const LONGEST_SUM_FILE: usize = 65;

/// A file as far as it was read: its bytes, nothing if there are too many, or why it cannot be read.
type Read = io::Result<Option<Vec<u8>>>;

/// Goes through a folder's surveys by their names. `say` is given a line for each that does not match its sum, and one that counts. Says whether there are
/// surveys and all match.
pub fn check(folder: &Path, key: &ArchiveKey, mut say: impl FnMut(String)) -> Result<bool, Failure> {
    let (mut good, mut bad) = (0, 0);
    for name in names(folder).map_err(|error| Failure::file("read the folder", folder, &error))? {
        let sum_name = [&name, END.as_bytes()].concat();
        let (survey, sum) = (read(folder, &name, MOST_BYTES), read(folder, &sum_name, LONGEST_SUM_FILE));
        match judge(key, &name, survey, sum) {
            Ok(()) => good += 1,
            Err(wrong) => {
                bad += 1;
                say(wrong);
            }
        }
    }
    match good + bad {
        0 => say(format!("there are no surveys in {}", folder.display())),
        _ => say(count(good, bad)),
    }
    Ok(good > 0 && bad == 0)
}

/// The names of the surveys in a folder, also of those that only have a sum.
fn names(folder: &Path) -> io::Result<BTreeSet<Vec<u8>>> {
    let mut names = BTreeSet::new();
    for entry in std::fs::read_dir(folder)? {
        let name = entry?.file_name();
        let name = name.as_bytes();
        let name = name.strip_suffix(END.as_bytes()).unwrap_or(name);
        if name.ends_with(SURVEY) {
            names.insert(name.to_owned());
        }
    }
    Ok(names)
}

/// Reads a file of a folder. A pipe, which might never end, is not read.
fn read(folder: &Path, name: &[u8], most: usize) -> Read {
    let path = folder.join(OsStr::from_bytes(name));
    match std::fs::metadata(&path)?.is_file() {
        true => files::read_up_to(&path, most),
        false => Err(io::Error::new(ErrorKind::Other, "it is not a file")),
    }
}

/// What is wrong with a survey and its sum, in a line.
fn judge(key: &ArchiveKey, name: &[u8], survey: Read, sum: Read) -> Result<(), String> {
    // whoever can write into the folder chooses names, but not the lines of a terminal
    let shown = String::from_utf8_lossy(name).escape_debug().to_string();
    let is_gone = |read: &Read| matches!(read, Err(error) if error.kind() == ErrorKind::NotFound);
    if is_gone(&survey) && !is_gone(&sum) {
        return Err(format!("{shown}{END}: a keyed sum without a survey"));
    }
    let survey = survey
        .map_err(|error| format!("{shown}: cannot be read: {error}"))?
        .ok_or_else(|| format!("{shown}: longer than {MOST_BYTES} bytes, so it is none of the office's"))?;
    if is_gone(&sum) {
        return Err(format!("{shown}: has no keyed sum"));
    }
    let sum = sum
        .map_err(|error| format!("{shown}{END}: cannot be read: {error}"))?
        .and_then(|bytes| read_sum(&bytes))
        .ok_or_else(|| format!("{shown}{END}: not a sum of 64 hexadecimal digits and a line feed"))?;
    match same_sum(&sum, &key.sum(name, &survey)) {
        true => Ok(()),
        false => Err(format!("{shown}: does not match its keyed sum")),
    }
}

/// Reads a sum's file, which has exactly what the office writes.
fn read_sum(bytes: &[u8]) -> Option<[u8; 32]> {
    let text = std::str::from_utf8(bytes).ok()?.strip_suffix('\n')?;
    hex::read(text).filter(|sum| hex::write(sum) == text)
}

/// How many match.
fn count(good: usize, bad: usize) -> String {
    let matching = match good {
        1 => "1 survey matches".to_owned(),
        _ => format!("{good} surveys match"),
    };
    match bad {
        0 => matching,
        1 => format!("{matching}, 1 does not"),
        _ => format!("{matching}, {bad} do not"),
    }
}

#[cfg(test)]
mod tests {
    use super::*;

    #[test]
    fn counts_are_sentences() {
        assert_eq!(count(12, 0), "12 surveys match");
        assert_eq!(count(1, 0), "1 survey matches");
        assert_eq!(count(12, 1), "12 surveys match, 1 does not");
        assert_eq!(count(0, 3), "0 surveys match, 3 do not");
    }

    #[test]
    fn a_sum_is_read_only_as_it_is_written() {
        let good = format!("{}\n", hex::write(&[0xab; 32]));
        assert_eq!(read_sum(good.as_bytes()), Some([0xab; 32]));
        for text in ["", "\n", &good[1..], good.trim(), &format!("{good}\n"), &good.to_uppercase()] {
            assert_eq!(read_sum(text.as_bytes()), None, "{text:?}");
        }
    }

    #[test]
    fn names_cannot_forge_lines() {
        let gone = || Err(io::Error::from(ErrorKind::NotFound));
        let line = judge(&ArchiveKey::new([7; 32]), b"a\n\x1b[2K.survey", Ok(Some(Vec::new())), gone());
        assert_eq!(line, Err("a\\n\\u{1b}[2K.survey: has no keyed sum".to_owned()));
    }
}
