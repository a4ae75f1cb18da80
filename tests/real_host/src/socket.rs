// SPDX-License-Identifier: MIT OR Apache-2.0
//! The sockets to hosts, none of which may hold the keyboard up.

use std::io::{Error, ErrorKind, Read, Result, Write};
use std::net::{Shutdown, TcpStream};
use std::os::unix::net::UnixStream;
use std::sync::mpsc::{SyncSender, TrySendError, sync_channel};
use std::time::{Duration, Instant};

/// How many answers wait at most for a host that reads them, and how long one of them waits.
const MOST_ANSWERS: usize = 4_096;
const PATIENCE: Duration = Duration::from_secs(5);

/// The wire to the host, of either kind.
pub enum Socket {
    Tcp(TcpStream),
    Pair(UnixStream),
}

impl Socket {
    pub fn again(&self) -> Result<Socket> {
        Ok(match self {
            Socket::Tcp(socket) => Socket::Tcp(socket.try_clone()?),
            Socket::Pair(socket) => Socket::Pair(socket.try_clone()?),
        })
    }

    pub fn hang_up(&self) {
        let _ = match self {
            Socket::Tcp(socket) => socket.shutdown(Shutdown::Both),
            Socket::Pair(socket) => socket.shutdown(Shutdown::Both),
        };
    }

    fn set_patience(&self) -> Result<()> {
        match self {
            Socket::Tcp(socket) => socket.set_write_timeout(Some(PATIENCE)),
            Socket::Pair(socket) => socket.set_write_timeout(Some(PATIENCE)),
        }
    }
}

impl Read for Socket {
    fn read(&mut self, to: &mut [u8]) -> Result<usize> {
        match self {
            Socket::Tcp(socket) => socket.read(to),
            Socket::Pair(socket) => socket.read(to),
        }
    }
}

impl Write for Socket {
    fn write(&mut self, from: &[u8]) -> Result<usize> {
        match self {
            Socket::Tcp(socket) => socket.write(from),
            Socket::Pair(socket) => socket.write(from),
        }
    }

    fn flush(&mut self) -> Result<()> {
        Ok(())
    }
}

/// What is sent to a host, by a thread of its own. When this is dropped, the thread sends what waits, and hangs up.
pub struct Answers(SyncSender<Vec<u8>>);

impl Answers {
    pub fn to(mut socket: Socket) -> Result<Answers> {
        socket.set_patience()?;
        let (answers, sent) = sync_channel::<Vec<u8>>(MOST_ANSWERS);
        std::thread::spawn(move || {
            let _ = sent.iter().try_for_each(|answer| socket.write_all(&answer));
            socket.hang_up();
        });
        Ok(Answers(answers))
    }
}

impl Write for Answers {
    fn write(&mut self, from: &[u8]) -> Result<usize> {
        match self.0.try_send(from.to_vec()) {
            Ok(()) => Ok(from.len()),
            Err(TrySendError::Full(_)) => Err(Error::new(ErrorKind::TimedOut, "it reads no answers")),
            Err(TrySendError::Disconnected(_)) => Err(ErrorKind::BrokenPipe.into()),
        }
    }

    fn flush(&mut self) -> Result<()> {
        Ok(())
    }
}

/// A socket that reads and writes up to a time, however few bytes come at once.
pub struct Until<'s> {
    socket: &'s TcpStream,
    end: Instant,
}

impl Until<'_> {
    pub fn after(socket: &TcpStream, time: Duration) -> Until<'_> {
        Until { socket, end: Instant::now() + time }
    }

    fn left(&self) -> Result<Option<Duration>> {
        let left = self.end.saturating_duration_since(Instant::now());
        if left.is_zero() { Err(ErrorKind::TimedOut.into()) } else { Ok(Some(left)) }
    }
}

impl Read for Until<'_> {
    fn read(&mut self, to: &mut [u8]) -> Result<usize> {
        self.socket.set_read_timeout(self.left()?)?;
        self.socket.read(to)
    }
}

impl Write for Until<'_> {
    fn write(&mut self, from: &[u8]) -> Result<usize> {
        self.socket.set_write_timeout(self.left()?)?;
        self.socket.write(from)
    }

    fn flush(&mut self) -> Result<()> {
        Ok(())
    }
}
