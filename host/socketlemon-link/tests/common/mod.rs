//! Offices and tablets as processes, in a folder of their own.
#![allow(dead_code)] // each test file uses a part of it

pub mod relay;
pub mod voice;

use socketlemon::Store;
use socketlemon_link::kept;
use std::io::{BufRead, BufReader, Read};
use std::path::{Path, PathBuf};
use std::process::{Child, Command, Output, Stdio};
use std::sync::atomic::{AtomicU32, Ordering};
use std::sync::mpsc::{self, Receiver};
use std::time::{Duration, Instant};

/// How long a test waits for what should come soon, also on a busy machine.
const PATIENCE: Duration = Duration::from_secs(60);

/// How long it waits for a tablet, which gives up by itself.
const LONG_PATIENCE: Duration = Duration::from_secs(150);

/// A folder that goes away at the end of the test.
pub struct Folder(PathBuf);

impl Folder {
    pub fn new() -> Folder {
        static COUNT: AtomicU32 = AtomicU32::new(0);
        let name =
            format!("socketlemon-link-{}-{}", std::process::id(), COUNT.fetch_add(1, Ordering::Relaxed));
        let path = std::env::temp_dir().join(name);
        std::fs::create_dir_all(&path).expect("a folder for the test");
        Folder(path)
    }

    pub fn path(&self, name: &str) -> PathBuf {
        self.0.join(name)
    }

    /// Writes a file, which is there whole or not at all, and gives its name.
    pub fn file(&self, name: &str, bytes: &[u8]) -> PathBuf {
        let (part, path) = (self.path("next-file"), self.path(name));
        std::fs::write(&part, bytes)
            .and_then(|()| std::fs::rename(&part, &path))
            .expect("a file for the test");
        path
    }

    /// The store in the office's file.
    pub fn store(&self) -> Store {
        kept::store_of(&std::fs::read(self.path("out/office.store")).expect("the office's file"))
            .expect("a store")
    }

    /// How many messages the office holds that are not whole.
    pub fn arriving(&self) -> usize {
        self.store().records().count()
    }

    /// The surveys that the office has written, sorted by their bytes.
    pub fn surveys(&self) -> Vec<Vec<u8>> {
        let mut all: Vec<Vec<u8>> = std::fs::read_dir(self.path("out"))
            .expect("the folder of the surveys")
            .map(|entry| entry.expect("an entry").path())
            .filter(|path| path.extension().map_or(false, |extension| extension == "survey"))
            .map(|path| std::fs::read(path).expect("a survey"))
            .collect();
        all.sort();
        all
    }
}

impl Drop for Folder {
    fn drop(&mut self) {
        let _ = std::fs::remove_dir_all(&self.0);
    }
}

/// A command of the program under test, or of another one, as an earlier version, that SOCKETLEMON_LINK names.
pub fn link(folder: &Folder, words: &[&str]) -> Command {
    let other = std::env::var_os("SOCKETLEMON_LINK");
    let mut command = Command::new(other.unwrap_or_else(|| env!("CARGO_BIN_EXE_socketlemon-link").into()));
    command.current_dir(&folder.0).args(words).stdin(Stdio::null());
    command
}

/// Makes a key, if it is not there, and gives what the command has printed.
pub fn key(folder: &Folder, name: &str) -> String {
    let made = link(folder, &["key", name]).output().expect("the key command");
    assert!(made.status.success(), "{made:?}");
    String::from_utf8(made.stdout).expect("text")
}

/// Makes the tablet's key and puts it on the office's list.
pub fn introduce(folder: &Folder) {
    key(folder, "tablet.key");
    std::fs::copy(folder.path("tablet.key"), folder.path("known")).expect("a list of keys");
}

/// Makes the keys of so many tablets, `0.key` and so on, and puts them on the office's list.
pub fn introduce_all(folder: &Folder, tablets: usize) {
    let keys = (0..tablets).map(|number| {
        let name = format!("{number}.key");
        key(folder, &name);
        std::fs::read_to_string(folder.path(&name)).expect("a key file")
    });
    folder.file("known", keys.collect::<String>().as_bytes());
}

/// An office as a process, which ends with the test.
pub struct Office {
    pub address: String,
    pub socket: String,
    /// How many keys it knew at its start.
    pub keys: String,
    child: Child,
    lines: Receiver<String>,
}

impl Office {
    /// Starts an office on a socket, `[::1]:0` for a free one, with more words for its command line.
    pub fn start(folder: &Folder, socket: &str, more: &[&str]) -> Office {
        key(folder, "office.key");
        let mut child =
            link(folder, &["office", "listen", "--out", "out", "--known", "known", "--listen", socket])
                .args(more)
                .stdout(Stdio::piped())
                .spawn()
                .expect("an office");
        let out = child.stdout.take().expect("its output");
        let (sender, lines) = mpsc::channel();
        std::thread::spawn(move || {
            BufReader::new(out).lines().map_while(|line| line.ok()).try_for_each(|line| sender.send(line))
        });
        let none = String::new;
        let mut office = Office { address: none(), socket: none(), keys: none(), child, lines };
        let first = office.line(|line| line.starts_with("office "));
        let words: Vec<&str> = first.split_whitespace().collect();
        office.address = words[1].to_owned();
        office.socket = words[4].trim_end_matches(',').to_owned();
        office.keys = words[7].to_owned();
        office
    }

    /// The next line that fits.
    pub fn line(&mut self, fits: impl Fn(&str) -> bool) -> String {
        let end = Instant::now() + PATIENCE;
        loop {
            let wait = end.saturating_duration_since(Instant::now());
            match self.lines.recv_timeout(wait) {
                Ok(line) if fits(&line) => return line,
                Ok(_) => {}
                Err(error) => panic!("the office did not say what was waited for: {error}"),
            }
        }
    }

    /// Its process number.
    pub fn pid(&self) -> u32 {
        self.child.id()
    }

    /// Whether it still runs.
    pub fn runs(&mut self) -> bool {
        self.child.try_wait().expect("its status").is_none()
    }

    /// Ends it at once, as a power cut would.
    pub fn kill(&mut self) {
        self.child.kill().expect("an end");
        self.child.wait().expect("its status");
    }

    /// Waits for its end, and gives its exit code.
    pub fn end(&mut self) -> Option<i32> {
        let end = Instant::now() + PATIENCE;
        while Instant::now() < end {
            if let Some(status) = self.child.try_wait().expect("its status") {
                return status.code();
            }
            std::thread::sleep(Duration::from_millis(20));
        }
        panic!("the office does not end");
    }
}

impl Drop for Office {
    fn drop(&mut self) {
        let _ = self.child.kill();
        let _ = self.child.wait();
    }
}

/// A tablet's command that sends a file to an office.
pub fn tablet(folder: &Folder, office: &Office, file: &Path, more: &[&str]) -> Command {
    tablet_by(folder, office, &office.socket, file, more)
}

/// A tablet's command that sends a file to an office by another socket, a relay's.
pub fn tablet_by(folder: &Folder, office: &Office, to: &str, file: &Path, more: &[&str]) -> Command {
    let mut command = link(folder, &["tablet", "send"]);
    command.arg(file).args(["--to", to, "--office", &office.address]).args(more);
    command
}

/// Sends a process a signal by its name, as TERM.
pub fn signal(pid: u32, name: &str) {
    let status = Command::new("kill").args([format!("-{name}"), pid.to_string()]).status().expect("kill");
    assert!(status.success());
}

/// Waits for something that should come soon.
pub fn wait_until(what: &str, mut is_so: impl FnMut() -> bool) {
    let end = Instant::now() + PATIENCE;
    while !is_so() {
        assert!(Instant::now() < end, "{what} did not come");
        std::thread::sleep(Duration::from_millis(20));
    }
}

/// Whether the slow tests are to be run in full.
pub fn is_slow() -> bool {
    std::env::var_os("SOCKETLEMON_SLOW").is_some()
}

/// A process that ends with the test.
pub struct Running(pub Child);

impl Running {
    /// Waits for its end, but not for ever, and gives what it has said.
    pub fn end(&mut self) -> Output {
        let [out, err] = [
            self.0.stdout.take().map(|out| Box::new(out) as Box<dyn Read + Send>),
            self.0.stderr.take().map(|err| Box::new(err) as Box<dyn Read + Send>),
        ]
        .map(|from| {
            std::thread::spawn(move || {
                let mut bytes = Vec::new();
                from.map(|mut from| from.read_to_end(&mut bytes));
                bytes
            })
        });
        let end = Instant::now() + LONG_PATIENCE;
        let status = loop {
            match self.0.try_wait().expect("its status") {
                Some(status) => break status,
                None if Instant::now() >= end => panic!("it does not end"),
                None => std::thread::sleep(Duration::from_millis(10)),
            }
        };
        let [stdout, stderr] = [out, err].map(|thread| thread.join().expect("what it has said"));
        Output { status, stdout, stderr }
    }
}

impl Drop for Running {
    fn drop(&mut self) {
        let _ = self.0.kill();
        let _ = self.0.wait();
    }
}

/// Starts a command whose words are caught.
pub fn start(mut command: Command) -> Running {
    Running(command.stdout(Stdio::piped()).stderr(Stdio::piped()).spawn().expect("the program under test"))
}

/// Runs a command to its end.
pub fn run(command: Command) -> Output {
    start(command).end()
}

/// Asserts that a command failed with a status, and with words on its error output.
pub fn assert_fails(command: Command, code: i32, words: &[&str]) {
    let output = run(command);
    let told = String::from_utf8_lossy(&output.stderr);
    assert_eq!(output.status.code(), Some(code), "{told}");
    for words in words {
        assert!(told.contains(words), "{words:?} is not in {told:?}");
    }
    assert!(!told.contains("panicked"), "{told}");
}

/// A survey in which each piece is different.
pub fn survey(length: usize, number: usize) -> Vec<u8> {
    (0..length).map(|i| (i * 31 + i / 251 + i / 1_300 + number * 7) as u8).collect()
}
