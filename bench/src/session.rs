//! One run of GDB over a space.

use crate::packets::{Command, byte};
use crate::space::{Fault, Pace, Space, fill};

const READ: u64 = 2048;

pub struct Session<'s, S> {
    pub space: &'s mut S,
    pace: Pace,
    depth: u8,
    last_fault: Option<Fault>,
}

impl<'s, S: Space> Session<'s, S> {
    pub fn new(space: &'s mut S, pace: Pace) -> Session<'s, S> {
        Session {
            space,
            pace,
            depth: 0,
            last_fault: None,
        }
    }

    /// The reply's payload.
    pub fn answer(&mut self, payload: &[u8]) -> Vec<u8> {
        let reply = Command::parse(payload).and_then(|command| self.reply(command));
        reply.unwrap_or_else(error)
    }

    fn reply(&mut self, command: Command) -> Result<Vec<u8>, u8> {
        let ok = b"OK".to_vec();
        Ok(match command {
            Command::WhyHalted => b"S05".to_vec(),
            Command::Read { first, count } => self.read(first, count),
            Command::Write { first, digits } => {
                let bytes: Option<Vec<u8>> = digits.chunks(2).map(byte).collect();
                self.space.set(self.depth, first, &bytes.unwrap())?;
                ok
            }
            Command::Registers => vec![b'x'; 328],
            Command::Detach | Command::Thread => ok,
            Command::Supported => b"PacketSize=1000".to_vec(),
            Command::Depth(depth) => {
                self.depth = depth;
                ok
            }
            Command::LastFault => self.last_fault(),
            Command::Unknown => Vec::new(),
        })
    }

    fn read(&mut self, first: u64, count: u64) -> Vec<u8> {
        let mut bytes = vec![0; count.min(READ) as usize];
        let (placed, fault) = fill(self.space, self.pace, first, &mut bytes);
        self.last_fault = fault.or(self.last_fault);
        match fault {
            Some(fault) if placed == 0 => error(fault.cause),
            _ => spell(&bytes[..placed]),
        }
    }

    fn last_fault(&self) -> Vec<u8> {
        match self.last_fault {
            None => b"none".to_vec(),
            Some(f) => format!("{:02x},{:016x},{:02x}", f.depth, f.address, f.cause).into_bytes(),
        }
    }
}

fn error(number: u8) -> Vec<u8> {
    format!("E{number:02x}").into_bytes()
}

fn spell(bytes: &[u8]) -> Vec<u8> {
    const DIGITS: &[u8; 16] = b"0123456789abcdef";
    let digit = |value: u8| DIGITS[usize::from(value)];
    bytes
        .iter()
        .flat_map(|&byte| [digit(byte >> 4), digit(byte & 15)])
        .collect()
}
