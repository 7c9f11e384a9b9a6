//! Surveys from a tablet to the office over UDP on IPv6: sockets, clocks and files around the `socketlemon` library.
//!
//! A datagram is a packet behind its from-address and its to-address. Both sides can be told to make the link bad, for trials.
//! The classroom shows what a bad link does, without a socket.

#![forbid(unsafe_code)]
#![warn(missing_docs)]

pub mod admission;
pub mod archive;
pub mod classroom;
pub mod cli;
pub mod counts;
pub mod crc;
pub mod datagram;
pub mod failure;
pub mod faults;
pub mod files;
pub mod hex;
pub mod hours;
pub mod kept;
pub mod keys;
pub mod line;
pub mod lock;
pub mod notice;
pub mod office;
pub mod peers;
pub mod port;
pub mod progress;
pub mod random;
pub mod receipts;
pub mod signals;
pub mod silence;
pub mod slots;
pub mod strangers;
pub mod surveys;
pub mod tablet;
pub mod waiting;
