//! Four-level paging, as the processor's manual has it.

use crate::space::{Fault, Pace, Space, fill};

/// Bits 51:12.
const TABLE: u64 = 0x000F_FFFF_FFFF_F000;
const PRESENT: u64 = 1;
const PAGE_SIZE: u64 = 1 << 7;

pub struct Paging<S> {
    cr3: u64,
    pace: Pace,
    below: S,
}

/// A final address and how many bytes its page has from there on.
struct Spot {
    address: u64,
    left: u64,
}

impl<S: Space> Paging<S> {
    /// How the entries of the tables are read is told by the pace.
    pub fn new(cr3: u64, pace: Pace, below: S) -> Paging<S> {
        Paging { cr3, pace, below }
    }

    fn translate(&self, address: u64) -> Result<Spot, Fault> {
        let high = address as i64 >> 47;
        if high != 0 && high != -1 {
            return Err(Fault::own(address, 0x04));
        }
        let mut table = self.cr3 & TABLE;
        let mut level = 4;
        loop {
            let shift = 12 + 9 * (level - 1);
            let index = address >> shift & 0x1FF;
            let entry = self.entry(table + index * 8)?;
            if entry & PRESENT == 0 {
                return Err(Fault::own(address, 0x10 + level));
            }
            let large = entry & PAGE_SIZE != 0 && (level == 2 || level == 3);
            if level == 1 || large {
                let offsets = (1 << shift) - 1;
                let offset = address & offsets;
                return Ok(Spot {
                    address: (entry & TABLE & !offsets) + offset,
                    left: offsets - offset + 1,
                });
            }
            table = entry & TABLE;
            level -= 1;
        }
    }

    fn entry(&self, place: u64) -> Result<u64, Fault> {
        let mut bytes = [0; 8];
        match fill(&self.below, self.pace, place, &mut bytes) {
            (_, Some(fault)) => Err(fault.above()),
            (_, None) => Ok(u64::from_le_bytes(bytes)),
        }
    }
}

impl<S: Space> Space for Paging<S> {
    fn byte(&self, address: u64) -> Result<u8, Fault> {
        let spot = self.translate(address)?;
        self.below.byte(spot.address).map_err(Fault::above)
    }

    fn run(&self, first: u64, into: &mut [u8]) -> Result<usize, Fault> {
        let spot = self.translate(first)?;
        let left = usize::try_from(spot.left).unwrap_or(usize::MAX);
        let count = into.len().min(left);
        let placed = self.below.run(spot.address, &mut into[..count]);
        placed.map_err(Fault::above)
    }

    fn set(&mut self, depth: u8, first: u64, bytes: &[u8]) -> Result<(), u8> {
        let depth = depth.checked_sub(1).ok_or(0x26)?;
        self.below.set(depth, first, bytes)
    }

    fn clear(&mut self, depth: u8, address: u64) -> Result<(), u8> {
        let depth = depth.checked_sub(1).ok_or(0x26)?;
        self.below.clear(depth, address)
    }
}
