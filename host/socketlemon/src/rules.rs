//! The rule book: which topics the office takes, and from whom.

use crate::Address;
use std::fmt;

/// A rule book, as the bytes that a packet call reads.
///
/// ```
/// use socketlemon::{Address, Rules, Subnet};
/// let home: Subnet = Subnet::new("400::".parse::<Address>()?, 7)?;
/// let rules = Rules::reject_unlisted().topic(b"survey", &[home])?.topic(b"closed", &[])?;
/// assert_eq!(rules.as_bytes()[..8], *b"\x01\x06survey");
/// # Ok::<(), Box<dyn std::error::Error>>(())
/// ```
#[derive(Clone, Debug, PartialEq, Eq)]
pub struct Rules {
    bytes: Vec<u8>,
    listed: Vec<Vec<u8>>,
}

impl Rules {
    /// A book that accepts topics that it does not list.
    pub fn accept_unlisted() -> Rules {
        Rules::from_bytes(&[0])
    }

    /// A book that rejects topics that it does not list.
    pub fn reject_unlisted() -> Rules {
        Rules::from_bytes(&[1])
    }

    /// A book of any bytes. They are not read here: where they are malformed, or where [`Rules::topic`] adds one of their topics again, the packet
    /// call answers [`Refusal::BadRules`](crate::Refusal::BadRules).
    pub fn from_bytes(bytes: &[u8]) -> Rules {
        Rules { bytes: bytes.to_vec(), listed: Vec::new() }
    }

    /// The same book with one more entry: the topic admits sources in any of the subnets, and nobody if there are none.
    pub fn topic(mut self, topic: &[u8], subnets: &[Subnet]) -> Result<Rules, RulesError> {
        let length = u8::try_from(topic.len()).map_err(|_| RulesError::LongTopic(topic.len()))?;
        let count = u8::try_from(subnets.len()).map_err(|_| RulesError::ManySubnets(subnets.len()))?;
        if self.listed.iter().any(|other| other == topic) {
            return Err(RulesError::ListedTwice(topic.to_vec()));
        }
        self.listed.push(topic.to_vec());
        self.bytes.push(length);
        self.bytes.extend_from_slice(topic);
        self.bytes.push(count);
        for subnet in subnets {
            self.bytes.extend_from_slice(&subnet.address.0);
            self.bytes.push(subnet.bits);
        }
        Ok(self)
    }

    /// The book's bytes.
    pub fn as_bytes(&self) -> &[u8] {
        &self.bytes
    }
}

/// The addresses that start with the same bits.
#[derive(Clone, Copy, Debug, PartialEq, Eq, Hash)]
pub struct Subnet {
    address: Address,
    bits: u8,
}

impl Subnet {
    /// Every address.
    pub const ALL: Subnet = Subnet { address: Address([0; 16]), bits: 0 };

    /// The addresses with the first `bits` bits of `address`, at most 128.
    pub fn new(address: Address, bits: u8) -> Result<Subnet, RulesError> {
        if bits > 128 {
            return Err(RulesError::ManyBits(bits));
        }
        Ok(Subnet { address, bits })
    }
}

impl std::str::FromStr for Subnet {
    type Err = RulesError;

    /// Reads `400::/7`.
    fn from_str(text: &str) -> Result<Subnet, RulesError> {
        let unreadable = || RulesError::NoSubnet(text.to_owned());
        let (address, bits) = text.split_once('/').ok_or_else(unreadable)?;
        let address = address.parse().map_err(|_| unreadable())?;
        Subnet::new(address, bits.parse().map_err(|_| unreadable())?)
    }
}

impl fmt::Display for Subnet {
    fn fmt(&self, f: &mut fmt::Formatter<'_>) -> fmt::Result {
        write!(f, "{}/{}", self.address, self.bits)
    }
}

/// Why an entry does not fit into a rule book.
#[derive(Clone, Debug, PartialEq, Eq)]
pub enum RulesError {
    /// A topic of more than 255 bytes.
    LongTopic(usize),
    /// More than 255 subnets for one topic.
    ManySubnets(usize),
    /// A topic that the book lists already.
    ListedTwice(Vec<u8>),
    /// More than 128 prefix bits.
    ManyBits(u8),
    /// A text that is not an IPv6 address, a slash and a number of bits.
    NoSubnet(String),
}

impl fmt::Display for RulesError {
    fn fmt(&self, f: &mut fmt::Formatter<'_>) -> fmt::Result {
        match self {
            RulesError::LongTopic(n) => write!(f, "a topic has at most 255 bytes, not {n}"),
            RulesError::ManySubnets(n) => write!(f, "a topic has at most 255 subnets, not {n}"),
            RulesError::ListedTwice(topic) => {
                write!(f, "the topic {:?} is listed twice", String::from_utf8_lossy(topic))
            }
            RulesError::ManyBits(n) => write!(f, "a subnet has at most 128 prefix bits, not {n}"),
            RulesError::NoSubnet(text) => {
                write!(f, "{text:?} is not a subnet: write an IPv6 address, a slash and the bits, as 400::/7")
            }
        }
    }
}

impl std::error::Error for RulesError {}

#[cfg(test)]
mod tests {
    use super::*;

    #[test]
    fn a_book_has_the_bytes_of_the_paper() {
        let subnet: Subnet = "500::/8".parse().expect("a subnet");
        let rules = Rules::accept_unlisted()
            .topic(b"ab", &[subnet, Subnet::ALL])
            .and_then(|rules| rules.topic(b"", &[]))
            .expect("a book");
        let mut bytes = vec![0, 2, b'a', b'b', 2, 5];
        bytes.extend([0; 15]);
        bytes.push(8);
        bytes.extend([0; 17]);
        bytes.extend([0, 0]);
        assert_eq!(rules.as_bytes(), bytes);
    }

    #[test]
    fn entries_that_do_not_fit_are_refused() {
        let rules = || Rules::reject_unlisted();
        assert!(rules().topic(&[1; 255], &[Subnet::ALL; 255]).is_ok());
        assert_eq!(rules().topic(&[1; 256], &[]), Err(RulesError::LongTopic(256)));
        assert_eq!(rules().topic(b"a", &[Subnet::ALL; 256]), Err(RulesError::ManySubnets(256)));
        let twice = rules().topic(b"a", &[]).and_then(|rules| rules.topic(b"a", &[]));
        assert_eq!(twice, Err(RulesError::ListedTwice(b"a".to_vec())));
        assert_eq!("::/129".parse::<Subnet>(), Err(RulesError::ManyBits(129)));
        for text in ["", "::", "::/", "::/x", "::/256", "a/b/c"] {
            assert_eq!(text.parse::<Subnet>(), Err(RulesError::NoSubnet(text.to_owned())));
        }
    }
}
