//! Patches over any space.

use crate::space::{Fault, Space};
use std::collections::BTreeMap;

const ROOM: usize = 256;

pub struct Overlay<S> {
    patches: BTreeMap<u64, u8>,
    below: S,
}

impl<S: Space> Overlay<S> {
    pub fn new(below: S) -> Overlay<S> {
        Overlay {
            patches: BTreeMap::new(),
            below,
        }
    }
}

impl<S: Space> Space for Overlay<S> {
    fn byte(&self, address: u64) -> Result<u8, Fault> {
        match self.patches.get(&address) {
            Some(patch) => Ok(*patch),
            None => self.below.byte(address).map_err(Fault::above),
        }
    }

    fn run(&self, first: u64, into: &mut [u8]) -> Result<usize, Fault> {
        let gap = match self.patches.range(first..).next() {
            Some((&address, &patch)) if address == first => {
                into[0] = patch;
                return Ok(1);
            }
            Some((&address, _)) => usize::try_from(address - first).unwrap_or(usize::MAX),
            None => usize::MAX,
        };
        let count = into.len().min(gap);
        let placed = self.below.run(first, &mut into[..count]);
        placed.map_err(Fault::above)
    }

    fn set(&mut self, depth: u8, first: u64, bytes: &[u8]) -> Result<(), u8> {
        if depth > 0 {
            return self.below.set(depth - 1, first, bytes);
        }
        let Some(more) = bytes.len().checked_sub(1) else {
            return Ok(());
        };
        let last = first.checked_add(more as u64).ok_or(0x25)?;
        let replaced = self.patches.range(first..=last).count();
        if self.patches.len() - replaced + bytes.len() > ROOM {
            return Err(0x27);
        }
        self.patches
            .extend((first..=last).zip(bytes.iter().copied()));
        Ok(())
    }

    fn clear(&mut self, depth: u8, address: u64) -> Result<(), u8> {
        if depth > 0 {
            return self.below.clear(depth - 1, address);
        }
        self.patches.remove(&address);
        Ok(())
    }
}
