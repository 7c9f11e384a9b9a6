//! The folder of the surveys that were taken.

use crate::archive::{self, ArchiveKey};
use crate::failure::Failure;
use crate::{files, hex};
use socketlemon::Taken;
use std::path::{Path, PathBuf};

/// The folder.
#[derive(Debug)]
pub struct Surveys {
    folder: PathBuf,
    archive: Option<ArchiveKey>,
}

impl Surveys {
    /// Opens a folder, which is made if it is not there. With an archive's key, a keyed sum is kept beside each survey.
    pub fn open(folder: &Path, archive: Option<ArchiveKey>) -> Result<Surveys, Failure> {
        std::fs::create_dir_all(folder).map_err(|error| Failure::file("make the folder", folder, &error))?;
        Ok(Surveys { folder: folder.to_owned(), archive })
    }

    /// Writes a survey to a file named by its source and id, and gives the file's name. Beside it goes a file with its BLAKE3 sum, the one that its done has
    /// brought, as `b3sum --check` reads it, and one with its keyed sum, if the folder is an archive. A survey that is there already, because the office stopped
    /// before it could note that it was taken, is not written twice, only those of its sums that are not there as they should be;
    /// another one of the same name gets a number.
    pub fn keep(&self, survey: &Taken, sum: Option<[u8; 32]>) -> Result<PathBuf, Failure> {
        let (name, is_there) = self.name(survey)?;
        let path = self.folder.join(&name);
        let mut files = self.sums(&name, survey, sum);
        if is_there {
            for (beside, line) in &files {
                if files::read_if_there(beside)?.as_deref() != Some(line) {
                    files::replace(beside, line)?;
                }
            }
            return Ok(path);
        }
        // the survey last: where it is, its sums are
        files.push((path.clone(), survey.data.clone()));
        let files: Vec<(&Path, &[u8])> =
            files.iter().map(|(path, bytes)| (path.as_path(), bytes.as_slice())).collect();
        files::replace_all(&files)?;
        Ok(path)
    }

    /// The name of a survey's file, and whether the survey is there already.
    fn name(&self, survey: &Taken) -> Result<(String, bool), Failure> {
        let source = u128::from_be_bytes(survey.record.source.0);
        let stem = format!("{source:032x}-{}", survey.record.id);
        let mut name = format!("{stem}.survey");
        let mut number = 1;
        while let Some(there) = files::read_if_there(&self.folder.join(&name))? {
            if there == survey.data {
                return Ok((name, true));
            }
            number += 1;
            name = format!("{stem}-{number}.survey");
        }
        Ok((name, false))
    }

    /// The files beside a survey, and what they say.
    fn sums(&self, name: &str, survey: &Taken, sum: Option<[u8; 32]>) -> Vec<(PathBuf, Vec<u8>)> {
        let plain = sum.map(|sum| (format!("{name}.b3"), format!("{}  {name}\n", hex::write(&sum))));
        let keyed = self.archive.as_ref().map(|key| (archive::beside(name), key.line(name, &survey.data)));
        let all = plain.into_iter().chain(keyed);
        all.map(|(name, line)| (self.folder.join(name), line.into_bytes())).collect()
    }
}
