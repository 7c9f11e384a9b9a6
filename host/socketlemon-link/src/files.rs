//! Files that are there whole or not at all.

use crate::failure::Failure;
use std::fs::{self, File};
use std::io::{self, Read, Write};
use std::path::{Path, PathBuf};
use std::sync::atomic::{AtomicU64, Ordering};

/// How often something was waited for to be on the disk.
static SYNCS: AtomicU64 = AtomicU64::new(0);

/// How often this program has waited for the disk so far.
pub fn syncs() -> u64 {
    SYNCS.load(Ordering::Relaxed)
}

/// Puts bytes in the place of a file: under a temporary name beside it first, and on the disk before they take its name.
pub fn replace(path: &Path, bytes: &[u8]) -> Result<(), Failure> {
    replace_all(&[(path, bytes)])
}

/// Puts bytes in the place of each of some files of one folder, the last one last.
pub fn replace_all(files: &[(&Path, &[u8])]) -> Result<(), Failure> {
    for (path, bytes) in files {
        write_part(path, bytes).map_err(|error| Failure::file("write", path, &error))?;
    }
    for (path, _) in files {
        fs::rename(part(path), path).map_err(|error| Failure::file("write", path, &error))?;
    }
    match files.last() {
        Some((path, _)) => sync_folder(path).map_err(|error| Failure::file("write", path, &error)),
        None => Ok(()),
    }
}

/// The temporary name of a file.
fn part(path: &Path) -> PathBuf {
    let mut name = path.file_name().unwrap_or_default().to_os_string();
    name.push(".part");
    path.with_file_name(name)
}

fn write_part(path: &Path, bytes: &[u8]) -> io::Result<()> {
    let mut file = File::create(part(path))?;
    file.write_all(bytes)?;
    SYNCS.fetch_add(1, Ordering::Relaxed);
    file.sync_data()
}

/// Waits until a file's name is on the disk.
pub fn sync_folder(path: &Path) -> io::Result<()> {
    let folder = match path.parent() {
        Some(folder) if !folder.as_os_str().is_empty() => File::open(folder)?,
        _ => File::open(".")?,
    };
    SYNCS.fetch_add(1, Ordering::Relaxed);
    folder.sync_all()
}

/// Reads a whole file; nothing if there is none.
pub fn read_if_there(path: &Path) -> Result<Option<Vec<u8>>, Failure> {
    match fs::read(path) {
        Ok(bytes) => Ok(Some(bytes)),
        Err(error) if error.kind() == io::ErrorKind::NotFound => Ok(None),
        Err(error) => Err(Failure::file("read", path, &error)),
    }
}

/// Reads a file of at most so many bytes; nothing if it has more.
pub fn read_up_to(path: &Path, most: usize) -> io::Result<Option<Vec<u8>>> {
    let mut bytes = Vec::new();
    File::open(path)?.take(most as u64 + 1).read_to_end(&mut bytes)?;
    Ok(Some(bytes).filter(|bytes| bytes.len() <= most))
}
