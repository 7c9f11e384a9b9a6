//! Signals, as flags that the work loops look at. Where nothing waits, a signal ends the wait for a datagram.

use crate::failure::Failure;
use signal_hook::consts::{SIGHUP, SIGINT, SIGTERM};
use signal_hook::flag;
use std::sync::atomic::{AtomicBool, Ordering};
use std::sync::Arc;

/// What the system has told the program.
#[derive(Clone, Debug, Default)]
pub struct Signals {
    stop: Arc<AtomicBool>,
    look_again: Arc<AtomicBool>,
}

impl Signals {
    /// The signals of a tablet: SIGINT (Ctrl-C), SIGTERM and SIGHUP stop it, the second one at once.
    pub fn of_tablet() -> Result<Signals, Failure> {
        let signals = Signals::default();
        signals.stop_by(&[SIGINT, SIGTERM, SIGHUP])?;
        Ok(signals)
    }

    /// The signals of an office: SIGINT and SIGTERM stop it, the second one at once; at SIGHUP it looks at its files again.
    pub fn of_office() -> Result<Signals, Failure> {
        let signals = Signals::default();
        signals.stop_by(&[SIGINT, SIGTERM])?;
        flag::register(SIGHUP, Arc::clone(&signals.look_again)).map_err(failed)?;
        Ok(signals)
    }

    fn stop_by(&self, numbers: &[i32]) -> Result<(), Failure> {
        // what was ignored at the start, as by nohup, stays ignored
        for number in numbers.iter().filter(|number| !is_ignored(**number)) {
            flag::register_conditional_shutdown(*number, 1, Arc::clone(&self.stop)).map_err(failed)?;
            flag::register(*number, Arc::clone(&self.stop)).map_err(failed)?;
        }
        Ok(())
    }

    /// Whether the program should stop.
    pub fn stop(&self) -> bool {
        self.stop.load(Ordering::Relaxed)
    }

    /// Whether files should be looked at again; once for each time.
    pub fn look_again(&self) -> bool {
        self.look_again.swap(false, Ordering::Relaxed)
    }
}

fn failed(error: std::io::Error) -> Failure {
    Failure::new(format!("cannot listen to signals: {error}"))
}

/// Whether the program was started with a signal ignored, as far as the system tells.
fn is_ignored(number: i32) -> bool {
    let status = std::fs::read_to_string("/proc/self/status").unwrap_or_default();
    let mask = status.lines().find_map(|line| line.strip_prefix("SigIgn:"));
    let mask = mask.and_then(|digits| u64::from_str_radix(digits.trim(), 16).ok()).unwrap_or_default();
    mask >> (number - 1) & 1 == 1
}
