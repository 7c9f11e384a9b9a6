//! Addresses and ids.

use crate::{ffi, Refusal};
use std::fmt;
use std::net::{AddrParseError, Ipv6Addr};
use std::str::FromStr;

/// Where a message comes from or goes to: 16 bytes, shown as an IPv6 address.
#[derive(Clone, Copy, Debug, PartialEq, Eq, PartialOrd, Ord, Hash)]
pub struct Address(pub [u8; 16]);

impl Address {
    /// The address of a public key of 32 bytes; any other length is [`Refusal::BadFrame`].
    ///
    /// ```
    /// use socketlemon::{Address, Refusal};
    /// let address = Address::of_key(&[7; 32])?;
    /// assert!(address.0[0] == 4 || address.0[0] == 5);
    /// assert_eq!(Address::of_key(&[7; 31]), Err(Refusal::BadFrame));
    /// # Ok::<(), Refusal>(())
    /// ```
    pub fn of_key(key: &[u8]) -> Result<Address, Refusal> {
        let mut out = [0; 16];
        let answer = ffi::address(key, &mut out);
        Refusal::from_number(answer.number).map_or(Ok(Address(out)), Err)
    }
}

impl fmt::Display for Address {
    fn fmt(&self, f: &mut fmt::Formatter<'_>) -> fmt::Result {
        Ipv6Addr::from(self.0).fmt(f)
    }
}

impl FromStr for Address {
    type Err = AddrParseError;

    fn from_str(text: &str) -> Result<Address, AddrParseError> {
        Ipv6Addr::from_str(text).map(|address| Address(address.octets()))
    }
}

/// What names a message: 8 bytes that the sender chooses, shown in hexadecimal.
#[derive(Clone, Copy, Debug, PartialEq, Eq, PartialOrd, Ord, Hash)]
pub struct Id(pub [u8; 8]);

impl fmt::Display for Id {
    fn fmt(&self, f: &mut fmt::Formatter<'_>) -> fmt::Result {
        self.0.iter().try_for_each(|byte| write!(f, "{byte:02x}"))
    }
}

#[cfg(test)]
mod tests {
    use super::*;

    #[test]
    fn an_address_is_read_as_it_is_shown() {
        let address = Address::of_key(&[9; 32]).expect("a key of 32 bytes");
        assert_eq!(address.to_string().parse(), Ok(address));
        assert!("survey".parse::<Address>().is_err());
    }

    #[test]
    fn keys_of_other_lengths_are_refused() {
        for length in [0, 31, 33, 64] {
            assert_eq!(Address::of_key(&vec![1; length]), Err(Refusal::BadFrame));
        }
    }

    #[test]
    fn an_id_is_shown_in_hexadecimal() {
        assert_eq!(Id([0, 1, 0xab, 0, 0, 0, 0, 0xff]).to_string(), "0001ab00000000ff");
    }
}
