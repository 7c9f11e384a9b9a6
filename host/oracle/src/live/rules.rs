//! Rule books: as topics with subnets, and as the library's bytes.

use crate::call::Address;

/// A listed topic with its subnets: address and prefix bits.
type Entry = (Vec<u8>, Vec<(Address, u8)>);

/// Which topics are open to whom.
#[derive(Clone, Debug, Default, PartialEq, Eq)]
pub struct Book {
    /// Whether topics that are not listed are accepted.
    pub accept: bool,
    /// The topics that are listed.
    pub topics: Vec<Entry>,
}

impl Book {
    /// Its bytes.
    pub fn write(&self) -> Vec<u8> {
        let mut bytes = vec![u8::from(!self.accept)];
        for (topic, subnets) in &self.topics {
            bytes.push(topic.len() as u8);
            bytes.extend(topic);
            bytes.push(subnets.len() as u8);
            for (address, bits) in subnets {
                bytes.extend(address);
                bytes.push(*bits);
            }
        }
        bytes
    }

    /// The book that the bytes say, if they are well-formed.
    pub fn read(bytes: &[u8]) -> Option<Self> {
        let mut rest = bytes;
        let mut next = |count: usize| {
            let (part, after) = (rest.get(..count)?, &rest[count..]);
            rest = after;
            Some((part, after.is_empty()))
        };
        let (first, mut at_end) = next(1)?;
        let accept = match first[0] {
            0 => true,
            1 => false,
            _ => return None,
        };
        let mut topics: Vec<Entry> = Vec::new();
        while !at_end {
            let (count, _) = next(1)?;
            let topic = next(count[0].into())?.0.to_vec();
            let (count, mut end) = next(1)?;
            let mut subnets = Vec::new();
            for _ in 0..count[0] {
                let (subnet, last) = next(17)?;
                end = last;
                subnets.push((subnet[..16].try_into().ok()?, subnet[16]));
            }
            if subnets.iter().any(|(_, bits)| *bits > 128) || topics.iter().any(|(other, _)| *other == topic)
            {
                return None;
            }
            topics.push((topic, subnets));
            at_end = end;
        }
        Some(Self { accept, topics })
    }
}

#[cfg(test)]
mod tests {
    use super::Book;

    #[test]
    fn what_is_written_is_read() {
        let book = Book {
            accept: false,
            topics: vec![
                (vec![], vec![([7; 16], 128)]),
                (b"ducts".to_vec(), vec![]),
                (vec![1; 255], vec![([0; 16], 0), ([9; 16], 3)]),
            ],
        };
        assert_eq!(Book::read(&book.write()), Some(book));
    }

    #[test]
    fn malformed_books_are_not_read() {
        for bytes in [&[][..], &[2], &[0, 1], &[0, 1, 65], &[0, 0, 1, 0], &[0, 0, 0, 0, 0]] {
            assert_eq!(Book::read(bytes), None, "{bytes:?}");
        }
        let mut long_prefix = Book { accept: true, topics: vec![(vec![], vec![([0; 16], 128)])] }.write();
        *long_prefix.last_mut().unwrap() = 129;
        assert_eq!(Book::read(&long_prefix), None);
    }
}
