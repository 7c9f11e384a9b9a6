//! Who knocked without a known key: told once a source and minute, and never more than a few, however many there are.

use socketlemon::Address;
use std::net::SocketAddr;
use std::time::{Duration, Instant};

/// How many are told by name in a minute.
const MOST: usize = 16;

/// After how long the counts are told and a source is told anew.
const MINUTE: Duration = Duration::from_secs(60);

/// The strangers of the last minute.
#[derive(Clone, Debug, Default)]
pub struct Strangers {
    named: Vec<(Address, u64)>,
    others: u64,
    since: Option<Instant>,
}

impl Strangers {
    /// Notes a datagram of an address whose key is not known. Gives a line to be said if it is the first.
    pub fn knock(&mut self, address: Address, socket: SocketAddr, now: Instant) -> Option<String> {
        self.since.get_or_insert(now);
        if let Some((_, count)) = self.named.iter_mut().find(|(other, _)| *other == address) {
            *count += 1;
            return None;
        }
        if self.named.len() == MOST {
            self.others += 1;
            return None;
        }
        self.named.push((address, 1));
        Some(format!(
            "a stranger knocks: {address} at {socket}; its key is not known, and nothing of it is kept"
        ))
    }

    /// After a minute, how often each has knocked, if that is more than was told already.
    pub fn tell(&mut self, now: Instant) -> Option<String> {
        self.since.filter(|since| now.saturating_duration_since(*since) >= MINUTE)?;
        let Strangers { named, others, .. } = std::mem::take(self);
        let mut words: Vec<String> = named
            .iter()
            .filter(|(_, count)| *count > 1)
            .map(|(address, count)| format!("{address} with {count} datagrams"))
            .collect();
        if others > 0 {
            words.push(format!("others with {others} datagrams"));
        }
        (!words.is_empty()).then(|| format!("strangers in the last minute: {}", words.join(", ")))
    }
}

#[cfg(test)]
mod tests {
    use super::*;

    #[test]
    fn each_is_told_once_a_minute_and_few_by_name() {
        let (mut strangers, start) = (Strangers::default(), Instant::now());
        let socket = SocketAddr::from(([0u16; 8], 9));
        let mut lines = 0;
        for n in 0..10_000u32 {
            let mut address = Address([4; 16]);
            address.0[12..].copy_from_slice(&(n % 100).to_be_bytes());
            lines += strangers.knock(address, socket, start).iter().count();
        }
        assert_eq!((lines, strangers.named.len()), (MOST, MOST));
        assert_eq!(strangers.tell(start + MINUTE - Duration::from_millis(1)), None);
        let told = strangers.tell(start + MINUTE).expect("a line");
        assert_eq!(told.matches(" with 100 datagrams").count(), MOST, "{told}");
        assert!(told.ends_with("others with 8400 datagrams"), "{told}");
        assert_eq!(strangers.tell(start + MINUTE * 3), None, "nobody has knocked since");
        assert!(strangers.knock(Address([4; 16]), socket, start + MINUTE).is_some(), "told anew");
        assert_eq!(strangers.tell(start + MINUTE * 2), None, "once is told already");
    }
}
