//! Archives a survey with a keyed sum, and checks it later: a wrong secret, a changed byte, the files of
//! another survey under its name and a sum cut short are all found.
//!
//! `host/cargo run --example archive` shows it in a folder of its own, which it removes again.

use socketlemon::{keyed_hash_32, same_sum, SumKey};
use std::path::{Path, PathBuf};
use std::{env, fs, io, process};

/// The shop's secret: 32 random bytes, which are kept in another place than the archive.
type Secret = [u8; 32];

/// What the keys are for. Another program, or another use, has other words here, and so other keys.
const CONTEXT: &[u8] = b"Socketlemon's example 2026-11-17, sums of archived surveys";

/// A key for each survey, so that the sum of one does not fit under the name of another. A secret always has
/// 32 bytes, so no two pairs of secret and name give the same material.
fn key_of(secret: &Secret, name: &str) -> SumKey {
    SumKey::derive(CONTEXT, &[secret, name.as_bytes()].concat())
}

/// A folder with a file for each survey, and one for its sum.
struct Archive {
    folder: PathBuf,
}

impl Archive {
    fn survey(&self, name: &str) -> PathBuf {
        self.folder.join(format!("{name}.survey"))
    }

    fn sum(&self, name: &str) -> PathBuf {
        self.folder.join(format!("{name}.sum"))
    }

    fn keep(&self, secret: &Secret, name: &str, survey: &[u8]) -> io::Result<()> {
        fs::write(self.survey(name), survey)?;
        fs::write(self.sum(name), keyed_hash_32(&key_of(secret, name), survey))
    }

    /// Whether the survey is the one that was kept under this name, by somebody who has the secret.
    fn is_kept(&self, secret: &Secret, name: &str) -> io::Result<bool> {
        let (survey, sum) = (fs::read(self.survey(name))?, fs::read(self.sum(name))?);
        let made = keyed_hash_32(&key_of(secret, name), &survey);
        Ok(sum.try_into().map_or(false, |sum| same_sum(&sum, &made)))
    }
}

/// What is tried, and whether the archive then says that house 12's survey is the one that was kept.
fn story(folder: &Path) -> io::Result<Vec<(&'static str, bool)>> {
    let archive = Archive { folder: folder.to_path_buf() };
    let (secret, wrong) = ([0x5e; 32], [0x5f; 32]);
    let (name, survey) = ("house-12", b"kitchen: 150 m3/h\nbath: 60 m3/h\n");
    archive.keep(&secret, name, survey)?;
    archive.keep(&secret, "house-13", b"kitchen: 950 m3/h\n")?;
    let mut told = vec![
        ("as it was kept", archive.is_kept(&secret, name)?),
        ("with a wrong secret", archive.is_kept(&wrong, name)?),
    ];
    let mut changed = *survey;
    changed[9] = b'9';
    fs::write(archive.survey(name), changed)?;
    told.push(("with a changed byte", archive.is_kept(&secret, name)?));
    for file in [Archive::survey, Archive::sum] {
        fs::copy(file(&archive, "house-13"), file(&archive, name))?;
    }
    told.push(("with the files of another house", archive.is_kept(&secret, name)?));
    archive.keep(&secret, name, survey)?;
    fs::write(archive.sum(name), &fs::read(archive.sum(name))?[..31])?;
    told.push(("with a sum cut short", archive.is_kept(&secret, name)?));
    Ok(told)
}

/// The same in a folder of its own.
fn told() -> io::Result<Vec<(&'static str, bool)>> {
    let folder = env::temp_dir().join(format!("socketlemon-archive-{}", process::id()));
    fs::create_dir(&folder)?;
    let told = story(&folder);
    fs::remove_dir_all(&folder)?;
    told
}

fn main() -> io::Result<()> {
    for (tried, is_kept) in told()? {
        println!(
            "{tried}: {}",
            if is_kept { "the survey that was kept" } else { "NOT the survey that was kept" }
        );
    }
    Ok(())
}

/// `cargo test` runs this, so that the example stays true.
#[test]
fn only_the_survey_as_it_was_kept_passes() -> io::Result<()> {
    let told = told()?;
    assert_eq!(told.len(), 5);
    for (tried, is_kept) in told {
        assert_eq!(is_kept, tried == "as it was kept", "{tried}");
    }
    Ok(())
}
