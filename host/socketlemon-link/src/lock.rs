//! A lock that one office holds on its store. The system lets go of it when the office ends, however it ends.

use crate::failure::Failure;
use rustix::fs::{flock, FlockOperation};
use std::fs::{File, OpenOptions};
use std::path::Path;

/// A lock that is held.
#[derive(Debug)]
pub struct Lock {
    _file: File,
}

impl Lock {
    /// Locks a file, by a file beside it: its name with `.lock`.
    pub fn of(path: &Path) -> Result<Lock, Failure> {
        let mut name = path.file_name().unwrap_or_default().to_os_string();
        name.push(".lock");
        let beside = path.with_file_name(name);
        let file = OpenOptions::new()
            .create(true)
            .append(true)
            .open(&beside)
            .map_err(|error| Failure::file("open", &beside, &error))?;
        match flock(&file, FlockOperation::NonBlockingLockExclusive) {
            Ok(()) => Ok(Lock { _file: file }),
            Err(rustix::io::Errno::WOULDBLOCK) => Err(Failure::new(format!(
                "another office uses {}: it holds {}; give this one a --store and an --out of its own",
                path.display(),
                beside.display()
            ))),
            Err(error) => Err(Failure::file("lock", &beside, &error.into())),
        }
    }
}
