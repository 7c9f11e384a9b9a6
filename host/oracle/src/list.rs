//! Lists of calls with what the original put out, as text: see crates/replay/README.md for the form.

use std::collections::BTreeSet;
use std::fmt::Write;

use crate::call::{Address, Call, Packet, Push, Report, Said, Setup, Taken, Wake, Woke, FRAME};

/// A node's setup, the address that the original makes of its key, and the calls in order.
#[derive(Debug, PartialEq, Eq)]
pub struct List {
    pub setup: Setup,
    pub address: Address,
    pub entries: Vec<Entry>,
    /// Why there is no call after the last: a comment, so that reading a list leaves it out.
    pub end: Option<String>,
}

/// A call and what the original put out for it.
#[derive(Clone, Debug, PartialEq, Eq)]
pub struct Entry {
    pub call: Call,
    pub said: Said,
}

impl List {
    /// The text of the list.
    pub fn write(&self) -> String {
        let mut text = String::new();
        let setup = &self.setup;
        writeln!(
            text,
            "node {} {} {} {}",
            hex(&setup.key),
            hex(&self.address),
            setup.recv_cells,
            setup.send_cells
        )
        .expect("text grows");
        for entry in &self.entries {
            write_entry(&mut text, entry);
        }
        if let Some(end) = &self.end {
            writeln!(text, "# {end}").expect("text grows");
        }
        text
    }

    /// The list that the text says, or the line that is not of the form.
    pub fn read(text: &str) -> Result<Self, String> {
        let mut list: Option<Self> = None;
        for (at, line) in text.lines().enumerate() {
            let words: Vec<&str> = line.split_whitespace().collect();
            if words.is_empty() || words[0].starts_with('#') {
                continue;
            }
            let read = match &mut list {
                None => read_node(&words).map(|node| list = Some(node)),
                Some(list) => read_line(&mut list.entries, &words),
            };
            read.ok_or_else(|| {
                format!("line {}: '{}' is not of the form", at + 1, line.chars().take(80).collect::<String>())
            })?;
        }
        list.ok_or_else(|| "it has no line 'node'".to_string())
    }
}

fn write_entry(text: &mut String, entry: &Entry) {
    let said = &entry.said;
    let line = match &entry.call {
        Call::Rules(book) => format!("rules {}", pack(book)),
        Call::Known(addresses) => {
            addresses.iter().fold("known".to_string(), |line, address| line + " " + &hex(address))
        }
        Call::Push(p) => {
            let Push { id, reply, to, topic, data, created, try_ms } = p;
            format!(
                "push {} {} {} {} {} {created} {try_ms}",
                hex(id),
                u8::from(*reply),
                hex(to),
                pack(topic),
                pack(data)
            )
        }
        Call::Packet(p) => {
            let used = p.bytes.iter().rposition(|byte| *byte != 0).map_or(0, |last| last + 1);
            format!("packet {} {} {}", hex(&p.from), hex(&p.to), pack(&p.bytes[..used]))
        }
        Call::Wake(kind, id, clock) => format!("wake {} {} {clock}", *kind as u64, hex(id)),
        Call::Report(id) => format!("report {}", hex(id)),
        Call::Take => "take".to_string(),
    };
    text.push_str(&line);
    text.push('\n');
    if said.number != 0 {
        writeln!(text, "number {}", said.number).expect("text grows");
    }
    if let Some(r) = &said.report {
        let [started, sent, acked] = r.pieces;
        writeln!(
            text,
            "= {} {} {started} {sent} {acked} {} {} {}",
            hex(&r.to),
            r.state,
            r.created_s,
            r.end_s,
            r.length
        )
        .expect("text grows");
    }
    if let Some(t) = &said.taken {
        writeln!(
            text,
            "= {} {} {} {} {} {}",
            hex(&t.id),
            u8::from(t.reply),
            hex(&t.from),
            hex(&t.to),
            pack(&t.topic),
            pack(&t.data)
        )
        .expect("text grows");
    }
    for p in &said.packets {
        writeln!(text, "> {} {} {}", hex(&p.from), hex(&p.to), pack(&p.bytes)).expect("text grows");
    }
    match said.woke {
        Some(Woke::Yes) => text.push_str("woke yes\n"),
        Some(Woke::No) => text.push_str("woke no\n"),
        Some(Woke::Unseen) => text.push_str("woke unseen\n"),
        None => {}
    }
}

fn read_node(words: &[&str]) -> Option<List> {
    match words {
        ["node", key, address, recv, send] => {
            let setup =
                Setup { key: array(key)?, recv_cells: recv.parse().ok()?, send_cells: send.parse().ok()? };
            Some(List { setup, address: array(address)?, entries: Vec::new(), end: None })
        }
        _ => None,
    }
}

/// Reads a call, or a line about what the original put out for the last one.
fn read_line(entries: &mut Vec<Entry>, words: &[&str]) -> Option<()> {
    let call = match words {
        ["rules", book] => Call::Rules(unpack(book)?),
        ["known", addresses @ ..] => {
            Call::Known(addresses.iter().map(|address| array(address)).collect::<Option<BTreeSet<_>>>()?)
        }
        ["push", id, reply, to, topic, data, created, try_ms] => Call::Push(Push {
            id: array(id)?,
            reply: flag(reply)?,
            to: array(to)?,
            topic: unpack(topic)?,
            data: unpack(data)?,
            created: created.parse().ok()?,
            try_ms: try_ms.parse().ok()?,
        }),
        ["packet", from, to, bytes] => {
            let mut bytes = unpack(bytes)?;
            if bytes.len() > FRAME {
                return None;
            }
            bytes.resize(FRAME, 0);
            Call::Packet(Packet { from: array(from)?, to: array(to)?, bytes })
        }
        ["wake", kind, id, clock] => {
            let kind = match *kind {
                "1" => Wake::Send,
                "2" => Wake::Deadline,
                _ => return None,
            };
            Call::Wake(kind, array(id)?, clock.parse().ok()?)
        }
        ["report", id] => Call::Report(array(id)?),
        ["take"] => Call::Take,
        _ => return read_said(entries.last_mut()?, words),
    };
    entries.push(Entry { call, said: Said::default() });
    Some(())
}

/// Reads what the original put out for a call: packets, and of all else one line each.
fn read_said(entry: &mut Entry, words: &[&str]) -> Option<()> {
    let said = &mut entry.said;
    match (&entry.call, words) {
        (_, [">", from, to, bytes]) => {
            said.packets.push(Packet { from: array(from)?, to: array(to)?, bytes: unpack(bytes)? })
        }
        (Call::Packet(_), ["woke", seen]) if said.woke.is_none() => said.woke = Some(woke(seen)?),
        (_, ["number", number]) if said.number == 0 => said.number = number.parse().ok()?,
        (Call::Report(_), ["=", to, state, started, sent, acked, created, end, length])
            if said.report.is_none() =>
        {
            said.report = Some(Report {
                to: array(to)?,
                state: state.parse().ok()?,
                pieces: [started.parse().ok()?, sent.parse().ok()?, acked.parse().ok()?],
                created_s: created.parse().ok()?,
                end_s: end.parse().ok()?,
                length: length.parse().ok()?,
            });
        }
        (Call::Take, ["=", id, reply, from, to, topic, data]) if said.taken.is_none() => {
            said.taken = Some(Taken {
                id: array(id)?,
                reply: flag(reply)?,
                from: array(from)?,
                to: array(to)?,
                topic: unpack(topic)?,
                data: unpack(data)?,
            });
        }
        _ => return None,
    }
    Some(())
}

fn woke(word: &str) -> Option<Woke> {
    match word {
        "yes" => Some(Woke::Yes),
        "no" => Some(Woke::No),
        "unseen" => Some(Woke::Unseen),
        _ => None,
    }
}

fn flag(word: &str) -> Option<bool> {
    match word {
        "0" => Some(false),
        "1" => Some(true),
        _ => None,
    }
}

fn hex(bytes: &[u8]) -> String {
    faster_hex::hex_string(bytes)
}

fn unhex(digits: &str) -> Option<Vec<u8>> {
    let mut bytes = vec![0; digits.len() / 2];
    faster_hex::hex_decode(digits.as_bytes(), &mut bytes).ok()?;
    Some(bytes)
}

fn array<const N: usize>(digits: &str) -> Option<[u8; N]> {
    unhex(digits)?.try_into().ok()
}

/// Runs of the same byte that are shorter than this are written out.
const SHORTEST_RUN: usize = 6;

/// Bytes as digits, with `.xx*N.` for a run of N times the byte xx; `-` for none.
fn pack(bytes: &[u8]) -> String {
    if bytes.is_empty() {
        return "-".to_string();
    }
    let mut parts: Vec<String> = vec![String::new()];
    let mut at = 0;
    while at < bytes.len() {
        let run = bytes[at..].iter().take_while(|byte| **byte == bytes[at]).count();
        if run >= SHORTEST_RUN {
            parts.push(format!("{:02x}*{run}", bytes[at]));
            parts.push(String::new());
        } else if let Some(part) = parts.last_mut() {
            part.push_str(&hex(&bytes[at..at + run]));
        }
        at += run;
    }
    parts.retain(|part| !part.is_empty());
    parts.join(".")
}

fn unpack(text: &str) -> Option<Vec<u8>> {
    if text == "-" {
        return Some(Vec::new());
    }
    let mut bytes = Vec::new();
    for part in text.split('.') {
        match part.split_once('*') {
            None if part.is_empty() => return None,
            None => bytes.extend(unhex(part)?),
            Some((byte, count)) => {
                let [byte] = array(byte)?;
                bytes.resize(bytes.len() + count.parse::<u16>().ok()? as usize, byte);
            }
        }
    }
    Some(bytes)
}

#[cfg(test)]
mod tests {
    use super::*;

    #[test]
    fn bytes_come_back() {
        for bytes in [
            vec![],
            vec![0],
            vec![7; 6],
            vec![7; 1300],
            [vec![1, 2, 3], vec![9; 40], vec![4], vec![9; 5], vec![8; 6]].concat(),
        ] {
            assert_eq!(unpack(&pack(&bytes)), Some(bytes));
        }
        assert_eq!(pack(&[[1; 3].to_vec(), [2; 6].to_vec()].concat()), "010101.02*6");
        for bad in ["", "0", "xx", "01*", "0101*3", "01*99999", ".."] {
            assert_eq!(unpack(bad), None, "{bad}");
        }
    }

    #[test]
    fn a_list_comes_back() {
        let mut frame = vec![0; FRAME];
        frame[..13].copy_from_slice(&[1, 2, 3, 4, 5, 6, 7, 8, 0x81, 0, 0, 0, 9]);
        let packet = Packet { from: [1; 16], to: [2; 16], bytes: frame };
        let sent = Said { packets: vec![Packet { bytes: vec![5; 36], ..packet.clone() }], ..Said::default() };
        let report = Report {
            to: [3; 16],
            state: 1,
            pieces: [1, 2, 3],
            created_s: u64::MAX / 1000,
            end_s: 9,
            length: 32_500,
        };
        let taken =
            Taken { id: [4; 8], reply: true, from: [5; 16], to: [6; 16], topic: vec![], data: vec![0; 2600] };
        let push = Push {
            id: [7; 8],
            reply: false,
            to: [8; 16],
            topic: b"ducts".to_vec(),
            data: vec![1; 9],
            created: u64::MAX,
            try_ms: 0,
        };
        let entries = vec![
            Entry { call: Call::Rules(vec![1, 0, 0]), said: Said::default() },
            Entry { call: Call::Known([[9; 16], [8; 16]].into()), said: Said::default() },
            Entry { call: Call::Push(push.clone()), said: sent.clone() },
            Entry { call: Call::Push(push), said: Said { number: 21, ..Said::default() } },
            Entry { call: Call::Packet(packet), said: Said { woke: Some(Woke::Unseen), ..sent } },
            Entry { call: Call::Wake(Wake::Deadline, [1; 8], 12), said: Said::default() },
            Entry { call: Call::Report([1; 8]), said: Said { report: Some(report), ..Said::default() } },
            Entry { call: Call::Take, said: Said { taken: Some(taken), ..Said::default() } },
        ];
        let setup = Setup { key: [1; 32], recv_cells: 45, send_cells: 1 };
        let mut list = List { setup, address: [2; 16], entries, end: Some("no more".to_string()) };
        let text = list.write();
        assert!(text.ends_with("\n# no more\n"), "{text}");
        list.end = None;
        assert_eq!(text.strip_suffix("# no more\n"), Some(&list.write()[..]));
        assert_eq!(List::read(&text), Ok(list));
    }

    #[test]
    fn a_bad_line_is_named() {
        assert_eq!(List::read("# nothing\n"), Err("it has no line 'node'".to_string()));
        let text = format!("node {} {} 45 45\ntake\n= none\n", "00".repeat(32), "00".repeat(16));
        assert_eq!(List::read(&text), Err("line 3: '= none' is not of the form".to_string()));
    }
}
