//! A larger cart: runs of pages of 4 KiB at scattered virtual addresses, whose frames lie shuffled in memory, in a dump of as
//! many ranges as are asked for.

use crate::random::Random;
use crate::samples::{range, record};

pub const PAGE: usize = 4096;
/// Where the memory of the tables and pages begins.
const BASE: u64 = 0x10_0000;
const PRESENT: u64 = 3;

#[derive(Clone, Copy)]
pub struct Size {
    pub pages: usize,
    /// Pages that lie one behind the other in a run of virtual addresses.
    pub run: usize,
    pub ranges: usize,
}

pub struct World {
    pub dump: Vec<u8>,
    pub root: [u8; 8],
    virtuals: Vec<u64>,
    frames: Vec<u64>,
}

impl World {
    pub fn new(size: Size) -> World {
        let mut random = Random::new(0xA151E);
        let virtuals = scattered(size, &mut random);
        let mut memory = Memory::new(size, &mut random);
        let root = memory.frame();
        let frames = virtuals
            .iter()
            .map(|at| memory.map(root, *at, &mut random))
            .collect();
        World {
            dump: memory.dump(size.ranges, &mut random),
            root: root.to_le_bytes(),
            virtuals,
            frames,
        }
    }

    /// The virtual address of a page.
    pub fn page(&self, number: usize) -> u64 {
        self.virtuals[number]
    }

    /// A patch file with so many patches in each overlay, spread over all pages, none of them in a table.
    pub fn patches(&self, count: usize) -> Vec<u8> {
        let mut random = Random::new(count as u64);
        let mut file = Vec::new();
        for number in 0..count {
            let page = number % self.virtuals.len();
            let offset = number / self.virtuals.len() * 8 + random.below(8);
            self.patch(&mut file, page, [offset, 2048 + offset], number as u8);
        }
        file
    }

    /// A patch file that patches every 16th byte of a page in each overlay, in the lower one 8 bytes further on.
    pub fn dense_patches(&self, page: usize) -> Vec<u8> {
        let mut file = Vec::new();
        for number in 0..PAGE / 16 {
            self.patch(
                &mut file,
                page,
                [16 * number, 16 * number + 8],
                number as u8,
            );
        }
        file
    }

    /// Adds a patch in each overlay, at offsets of a page and of its frame.
    fn patch(&self, file: &mut Vec<u8>, page: usize, offsets: [usize; 2], value: u8) {
        let [upper, lower] = offsets.map(|offset| offset as u64);
        file.extend(record(self.virtuals[page] + upper, 0, Some(value)));
        file.extend(record(self.frames[page] + lower, 2, Some(value)));
    }
}

/// The virtual addresses of pages, in runs.
fn scattered(size: Size, random: &mut Random) -> Vec<u64> {
    let mut virtuals = Vec::new();
    while virtuals.len() < size.pages {
        // all of a run's pages are in one table of level 1
        let run = (random.number() % (1 << 26)) << 21;
        let start = if run >> 46 & 1 == 1 {
            run | !0 << 47
        } else {
            run
        };
        let taken = |at: &u64| *at >> 21 == start >> 21;
        if !virtuals.iter().any(taken) {
            let left = size.run.min(size.pages - virtuals.len());
            virtuals.extend((0..left).map(|page| start + (page * PAGE) as u64));
        }
    }
    virtuals
}

/// Physical memory from the base on, whose frames are handed out in a shuffled order.
struct Memory {
    bytes: Vec<u8>,
    free: Vec<u64>,
}

impl Memory {
    fn new(size: Size, random: &mut Random) -> Memory {
        // each run of pages takes a table at each of three levels at the most, and there is the root
        let frames = size.pages + 3 * size.pages.div_ceil(size.run) + 1;
        let mut free: Vec<u64> = (0..frames)
            .map(|frame| BASE + (frame * PAGE) as u64)
            .collect();
        random.shuffle(&mut free);
        Memory {
            bytes: vec![0; frames * PAGE],
            free,
        }
    }

    fn frame(&mut self) -> u64 {
        self.free.pop().expect("a free frame")
    }

    /// Maps a page at a virtual address, and answers its frame.
    fn map(&mut self, root: u64, at: u64, random: &mut Random) -> u64 {
        let mut table = root;
        for level in (1..=4).rev() {
            let index = at >> (12 + 9 * (level - 1)) & 0x1FF;
            table = self.follow(table + index * 8);
        }
        let start = (table - BASE) as usize;
        self.bytes[start..start + PAGE].copy_from_slice(&random.bytes(PAGE));
        table
    }

    /// Where an entry leads; it is made to lead to a free frame if it leads nowhere.
    fn follow(&mut self, place: u64) -> u64 {
        let start = (place - BASE) as usize;
        let entry = u64::from_le_bytes(self.bytes[start..start + 8].try_into().unwrap());
        if entry != 0 {
            return entry - PRESENT;
        }
        let frame = self.frame();
        self.bytes[start..start + 8].copy_from_slice(&(frame | PRESENT).to_le_bytes());
        frame
    }

    /// The memory in ranges of about the same size, in a shuffled order.
    fn dump(&self, ranges: usize, random: &mut Random) -> Vec<u8> {
        let size = self.bytes.len().div_ceil(ranges);
        let mut parts: Vec<_> = self.bytes.chunks(size).enumerate().collect();
        random.shuffle(&mut parts);
        let mut dump = Vec::new();
        for (number, bytes) in parts {
            range(&mut dump, BASE + (number * size) as u64, bytes);
        }
        dump
    }
}
