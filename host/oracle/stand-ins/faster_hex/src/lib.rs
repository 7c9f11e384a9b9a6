//! Hexadecimal digits of bytes and back.

use std::fmt;

/// What is not an even number of hexadecimal digits of the right length.
#[derive(Debug)]
pub struct Error;

impl fmt::Display for Error {
    fn fmt(&self, f: &mut fmt::Formatter<'_>) -> fmt::Result {
        f.write_str("not hexadecimal digits of the right length")
    }
}

impl std::error::Error for Error {}

/// The digits of `bytes`.
pub fn hex_string(bytes: &[u8]) -> String {
    bytes.iter().map(|byte| format!("{byte:02x}")).collect()
}

/// Fills `out` with the bytes that `digits` says.
pub fn hex_decode(digits: &[u8], out: &mut [u8]) -> Result<(), Error> {
    if digits.len() != 2 * out.len() {
        return Err(Error);
    }
    let value = |digit: u8| (digit as char).to_digit(16).ok_or(Error);
    for (byte, pair) in out.iter_mut().zip(digits.chunks(2)) {
        *byte = (value(pair[0])? * 16 + value(pair[1])?) as u8;
    }
    Ok(())
}
