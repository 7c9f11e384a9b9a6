//! The UDP socket of a side, behind a link that can be made bad.

use crate::datagram;
use crate::failure::Failure;
use crate::faults::{Faults, Odds};
use socketlemon::Packet;
use std::io::{self, ErrorKind};
use std::net::{SocketAddr, SocketAddrV6, UdpSocket};
use std::time::{Duration, Instant};

/// A socket on IPv6 that sends and receives datagrams.
#[derive(Debug)]
pub struct Port {
    socket: UdpSocket,
    faults: Faults<(Vec<u8>, SocketAddr)>,
    trouble: Option<io::Error>,
}

impl Port {
    /// Opens a socket.
    pub fn open(at: SocketAddrV6, odds: Odds) -> Result<Port, Failure> {
        let socket = UdpSocket::bind(at).map_err(|error| match error.kind() {
            ErrorKind::AddrInUse => {
                Failure::new(format!("cannot listen on {at}: another program uses this port"))
            }
            _ => Failure::new(format!("cannot listen on {at}: {error}")),
        })?;
        Ok(Port { socket, faults: Faults::new(odds), trouble: None })
    }

    /// Where it listens.
    pub fn at(&self) -> Result<SocketAddr, Failure> {
        self.socket
            .local_addr()
            .map_err(|error| Failure::new(format!("cannot tell the socket's address: {error}")))
    }

    /// Sends a packet. What cannot be sent counts as lost, as on any link.
    pub fn send(&mut self, packet: &Packet<'_>, to: SocketAddr) {
        self.send_datagram(datagram::write(packet), to);
    }

    /// Sends a datagram that was written before.
    pub fn send_datagram(&mut self, bytes: Vec<u8>, to: SocketAddr) {
        for (bytes, to) in self.faults.pass((bytes, to)) {
            self.put(&bytes, to);
        }
    }

    /// Sends what the bad link still holds back. To be called now and then.
    pub fn release(&mut self) {
        if let Some((bytes, to)) = self.faults.release() {
            self.put(&bytes, to);
        }
    }

    fn put(&mut self, bytes: &[u8], to: SocketAddr) {
        self.trouble = self.socket.send_to(bytes, to).err();
    }

    /// What the system said when the last datagram could not be sent; nothing if it was sent.
    pub fn trouble(&self) -> Option<&io::Error> {
        self.trouble.as_ref()
    }

    /// Waits for a datagram, but not beyond a time. One byte more than fits is read, so that a longer one can be told.
    pub fn receive<'b>(
        &self,
        until: Instant,
        buffer: &'b mut [u8; datagram::MOST + 1],
    ) -> Result<Option<(&'b [u8], SocketAddr)>, Failure> {
        // a wait of 0 would mean to wait for ever
        let wait = until.saturating_duration_since(Instant::now()).max(Duration::from_millis(1));
        self.socket.set_read_timeout(Some(wait)).map_err(failed)?;
        self.read(buffer)
    }

    /// Waits for a datagram, but not beyond a time, and takes those that are there beside it, up to so many in all.
    pub fn gather(&self, until: Instant, most: usize) -> Result<Vec<(Vec<u8>, SocketAddr)>, Failure> {
        let mut buffer = [0; datagram::MOST + 1];
        let owned = |(bytes, from): (&[u8], SocketAddr)| (bytes.to_vec(), from);
        let mut all: Vec<_> = self.receive(until, &mut buffer)?.map(owned).into_iter().collect();
        if all.is_empty() {
            return Ok(all);
        }
        self.socket.set_nonblocking(true).map_err(failed)?;
        while all.len() < most {
            match self.read(&mut buffer)? {
                Some(next) => all.push(owned(next)),
                None => break,
            }
        }
        self.socket.set_nonblocking(false).map_err(failed)?;
        Ok(all)
    }

    fn read<'b>(
        &self,
        buffer: &'b mut [u8; datagram::MOST + 1],
    ) -> Result<Option<(&'b [u8], SocketAddr)>, Failure> {
        match self.socket.recv_from(buffer) {
            Ok((length, from)) => Ok(Some((&buffer[..length], from))),
            Err(error) => match error.kind() {
                // nothing came in time, or the system tells of a datagram that met a closed port
                ErrorKind::WouldBlock | ErrorKind::TimedOut | ErrorKind::Interrupted => Ok(None),
                ErrorKind::ConnectionRefused | ErrorKind::ConnectionReset => Ok(None),
                _ => Err(failed(error)),
            },
        }
    }
}

fn failed(error: io::Error) -> Failure {
    Failure::new(format!("cannot receive datagrams: {error}"))
}
