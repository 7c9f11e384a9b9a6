//! The script of a lesson: the survey's length, and what the link does with each packet.
//!
//! It is what the program `classroom` reads, and nothing else is taken.

use crate::failure::Failure;
use socketlemon::MOST_BYTES;
use std::fs::File;
use std::io::Read;
use std::path::Path;
use std::str::FromStr;

/// The most letters of a script.
pub const MOST_LETTERS: usize = 2_000;

/// More bytes than a script can have, which stands for any longer file.
const TOO_MANY_BYTES: u64 = 4_096;

/// What the link does with a packet.
#[derive(Clone, Copy, Debug, PartialEq, Eq)]
pub enum Letter {
    /// D: it is delivered.
    Delivered,
    /// L: it is lost.
    Lost,
    /// R: it is delivered twice, one right behind the other.
    Repeated,
}

impl Letter {
    /// How often the packet is delivered.
    pub fn copies(self) -> usize {
        match self {
            Letter::Delivered => 1,
            Letter::Lost => 0,
            Letter::Repeated => 2,
        }
    }
}

/// The length of a survey, at most 32,500 bytes.
#[derive(Clone, Copy, Debug, PartialEq, Eq)]
pub struct Length(usize);

impl Length {
    /// In bytes.
    pub fn bytes(self) -> usize {
        self.0
    }
}

impl FromStr for Length {
    type Err = String;

    /// Reads a decimal number without a leading zero.
    fn from_str(text: &str) -> Result<Length, String> {
        if text.is_empty() || !text.bytes().all(|byte| byte.is_ascii_digit()) {
            return Err("the length is a decimal number".to_owned());
        }
        if text.len() > 1 && text.starts_with('0') {
            return Err("the length has no leading zero".to_owned());
        }
        // digits that no usize holds are too many bytes all the same
        text.parse()
            .ok()
            .filter(|bytes| *bytes <= MOST_BYTES)
            .map(Length)
            .ok_or_else(|| format!("a survey has at most {MOST_BYTES} bytes"))
    }
}

/// A letter for each packet, in the order in which the calls put them out; past the end, D.
#[derive(Clone, Debug, Default, PartialEq, Eq)]
pub struct Letters(Vec<Letter>);

impl Letters {
    /// The letter of the packet with this number, from 0.
    pub fn of(&self, number: usize) -> Letter {
        self.0.get(number).copied().unwrap_or(Letter::Delivered)
    }
}

impl FromStr for Letters {
    type Err = String;

    fn from_str(text: &str) -> Result<Letters, String> {
        let letter = |c| match c {
            'D' => Ok(Letter::Delivered),
            'L' => Ok(Letter::Lost),
            'R' => Ok(Letter::Repeated),
            _ => Err(format!("the letters are D (delivered), L (lost) and R (delivered twice), not {c:?}")),
        };
        let letters: Vec<Letter> = text.chars().map(letter).collect::<Result<_, _>>()?;
        match letters.len() {
            0..=MOST_LETTERS => Ok(Letters(letters)),
            count => Err(format!("there are at most {MOST_LETTERS} letters, not {count}")),
        }
    }
}

/// A script.
#[derive(Clone, Debug, PartialEq, Eq)]
pub struct Script {
    /// The length of the survey.
    pub length: Length,
    /// What happens to the packets.
    pub letters: Letters,
}

impl Script {
    /// The script of a file. One that is not of the form is a wrong input.
    pub fn of_file(path: &Path) -> Result<Script, Failure> {
        let mut bytes = Vec::new();
        File::open(path)
            .and_then(|file| file.take(TOO_MANY_BYTES).read_to_end(&mut bytes))
            .map_err(|error| Failure::file("read", path, &error))?;
        Script::read(&bytes).map_err(|why| Failure::input(format!("{} is no script: {why}", path.display())))
    }

    /// Reads the length on one line and the letters on a second, which may be absent. The last line may lack
    /// its end.
    pub fn read(bytes: &[u8]) -> Result<Script, String> {
        let text = std::str::from_utf8(bytes).map_err(|_| "it is no text".to_owned())?;
        let lines: Vec<&str> = text.split('\n').collect();
        let (length, letters) = match lines[..] {
            [length] => (length, ""),
            [length, letters] | [length, letters, ""] => (length, letters),
            _ => return Err("it has more than two lines".to_owned()),
        };
        Ok(Script { length: length.parse()?, letters: letters.parse()? })
    }
}

#[cfg(test)]
mod tests {
    use super::*;

    fn of(bytes: usize, letters: &[Letter]) -> Result<Script, String> {
        Ok(Script { length: Length(bytes), letters: Letters(letters.to_vec()) })
    }

    #[test]
    fn scripts_are_read() {
        use Letter::{Delivered, Lost, Repeated};
        for text in ["5", "5\n", "5\n\n"] {
            assert_eq!(Script::read(text.as_bytes()), of(5, &[]), "{text:?}");
        }
        for text in ["32500\nDLR", "32500\nDLR\n"] {
            assert_eq!(Script::read(text.as_bytes()), of(32_500, &[Delivered, Lost, Repeated]), "{text:?}");
        }
        assert_eq!(Script::read(b"0"), of(0, &[]));
        let most = format!("1\n{}\n", "L".repeat(2_000));
        assert_eq!(Script::read(most.as_bytes()), of(1, &[Lost; 2_000]));
        assert!(most.len() < TOO_MANY_BYTES as usize);
    }

    #[test]
    fn nothing_else_is_a_script() {
        let long = format!("1\n{}", "D".repeat(2_001));
        let digits = "9".repeat(4_000);
        let zeros = format!("1{}", "0".repeat(64));
        let cases: [(&str, &str); 17] = [
            ("", "decimal"),
            ("\n", "decimal"),
            ("\nD", "decimal"),
            ("-1", "decimal"),
            ("+1", "decimal"),
            (" 1", "decimal"),
            ("1 ", "decimal"),
            ("1\r\n", "decimal"),
            ("1\0", "decimal"),
            ("\u{661}", "decimal"),
            ("05", "leading zero"),
            ("32501", "at most 32500 bytes"),
            (&digits, "at most 32500 bytes"),
            (&zeros, "at most 32500 bytes"),
            ("1\nd", "not 'd'"),
            ("1\nD D", "not ' '"),
            (&long, "at most 2000 letters, not 2001"),
        ];
        for (text, why) in cases {
            let said = Script::read(text.as_bytes()).expect_err(text);
            assert!(said.contains(why), "{text:?}: {said}");
        }
        for text in ["1\n\n\n", "1\nD\n\n", "1\nD\nD", "1\n\nD"] {
            assert_eq!(
                Script::read(text.as_bytes()),
                Err("it has more than two lines".to_owned()),
                "{text:?}"
            );
        }
        assert_eq!(Script::read(b"1\n\xff"), Err("it is no text".to_owned()));
    }

    #[test]
    fn behind_the_last_letter_all_is_delivered() {
        let letters: Letters = "LR".parse().expect("letters");
        let first: Vec<usize> = (0..4).map(|number| letters.of(number).copies()).collect();
        assert_eq!(first, [0, 2, 1, 1]);
    }
}
