//! What can be read, address by address or in runs.

#[derive(Clone, Copy, Debug, PartialEq, Eq)]
pub struct Fault {
    pub depth: u8,
    pub address: u64,
    pub cause: u8,
}

impl Fault {
    /// A fault of the space that was read.
    pub fn own(address: u64, cause: u8) -> Fault {
        Fault {
            depth: 0,
            address,
            cause,
        }
    }

    /// The fault as the layer above shows it.
    pub fn above(self) -> Fault {
        Fault {
            depth: self.depth.saturating_add(1),
            ..self
        }
    }
}

pub trait Space {
    fn byte(&self, address: u64) -> Result<u8, Fault>;

    /// Fills the front of a buffer that is not empty, as far as one look at this space reaches, and tells how far: at least
    /// one byte.
    fn run(&self, first: u64, into: &mut [u8]) -> Result<usize, Fault>;

    /// Patches addresses from the first on in the overlay at a depth, or tells the refusal's number.
    fn set(&mut self, depth: u8, first: u64, bytes: &[u8]) -> Result<(), u8>;

    /// Takes back the patch of one address in the overlay at a depth.
    fn clear(&mut self, depth: u8, address: u64) -> Result<(), u8>;
}

/// How a buffer is filled.
#[derive(Clone, Copy, Debug, PartialEq, Eq)]
pub enum Pace {
    /// Each address for itself.
    Byte,
    /// In runs: a page is translated once for all of its bytes that are read.
    Page,
}

/// Fills a buffer up to the first fault or the last address, and tells how many bytes were placed.
pub fn fill(space: &impl Space, pace: Pace, first: u64, into: &mut [u8]) -> (usize, Option<Fault>) {
    let mut placed = 0;
    while placed < into.len() {
        let Some(address) = first.checked_add(placed as u64) else {
            break;
        };
        let step = match pace {
            Pace::Byte => space.byte(address).map(|byte| {
                into[placed] = byte;
                1
            }),
            Pace::Page => space.run(address, &mut into[placed..]),
        };
        match step {
            Ok(count) => placed += count,
            Err(fault) => return (placed, Some(fault)),
        }
    }
    (placed, None)
}
