//! Random carts, streams and patch files, and damage to them.

use bench::cart::{Day, Read};
use bench::packets::frame;
use bench::random::Random;
use bench::samples::{claim, record};
use bench::tally::Tally;

const CASES: u64 = 60_000;

pub fn compare(tally: &mut Tally) {
    tally.kind("random carts, streams and patch files: loaded, served and read");
    for seed in 0..CASES {
        // a case is three comparisons, which are made by whoever has them
        let mixture = Mixture::new(seed);
        tally.load(&mixture.dump, mixture.room);
        tally.day(&mixture.day());
        tally.read(&mixture.read(), mixture.length);
    }
}

struct Mixture {
    dump: Vec<u8>,
    root: Vec<u8>,
    before: Vec<u8>,
    file: Vec<u8>,
    after: Vec<u8>,
    room: usize,
    first: u64,
    piece: usize,
    length: usize,
}

impl Mixture {
    fn new(seed: u64) -> Mixture {
        let random = &mut Random::new(seed);
        let mut mixture = Mixture {
            dump: dump(random),
            root: (0x1000 | random.number() & 0xfff).to_le_bytes().to_vec(),
            before: stream(random),
            file: file(random),
            after: stream(random),
            room: random.pick(&[64, 64, 64, 5, 10, 0]),
            first: virtual_address(random),
            piece: random.pick(&[1, 7, 2048]),
            length: random.below(80),
        };
        mixture.damage(random);
        mixture
    }

    /// Leaves a third as it is.
    fn damage(&mut self, random: &mut Random) {
        let parts = [
            &mut self.dump,
            &mut self.root,
            &mut self.before,
            &mut self.file,
        ];
        for part in parts {
            if part.is_empty() || !random.once_in(3) {
                continue;
            }
            let at = random.below(part.len());
            match random.below(4) {
                0 => part.truncate(at),
                1 => part[at] ^= 1 << random.below(8),
                2 => part[at] = random.number() as u8,
                _ => {
                    part.remove(at);
                }
            }
        }
    }

    fn day(&self) -> Day<'_> {
        Day {
            dump: &self.dump,
            root: &self.root,
            before: &self.before,
            file: &self.file,
            after: &self.after,
        }
    }

    fn read(&self) -> Read<'_> {
        Read {
            dump: &self.dump,
            root: &self.root,
            file: &self.file,
            first: self.first,
            piece: self.piece,
        }
    }
}

/// Ranges of entries in the first pages, in any order; now and then one that overlaps another, or more than 64.
fn dump(random: &mut Random) -> Vec<u8> {
    let mut spots: Vec<u64> = (1..9)
        .flat_map(|page| [0, 0x28, 0xfc0, 0xfe0].map(|offset| page * 0x1000 + offset))
        .collect();
    random.shuffle(&mut spots);
    spots.truncate(random.below(8) + 25);
    if random.once_in(50) {
        spots.extend((0..40).map(|number| 0x10_0000 + number * 64));
    }
    let mut dump = Vec::new();
    for spot in spots {
        let bytes: Vec<u8> = (0..random.below(3) + 2)
            .flat_map(|_| entry(random).to_le_bytes())
            .collect();
        let longer = if random.once_in(200) { 64 } else { 0 };
        claim(
            &mut dump,
            spot,
            spot + bytes.len() as u64 - 1 + longer,
            &bytes,
        );
    }
    dump
}

/// An entry that mostly leads to one of the first pages.
fn entry(random: &mut Random) -> u64 {
    let mut entry = (random.below(8) as u64 + 1) << 12 | 3;
    if random.once_in(8) {
        entry |= 0x80;
    }
    if random.once_in(8) {
        entry &= !1;
    }
    if random.once_in(6) {
        entry |= 0xfff << 52;
    }
    if random.once_in(40) {
        entry ^= 1 << random.below(64);
    }
    entry
}

fn virtual_address(random: &mut Random) -> u64 {
    let mut address = 0;
    for _ in 0..4 {
        address = address << 9 | random.pick(&[0, 0, 0, 1, 2, 5, 508, 511]);
    }
    address = address << 12 | random.pick(&[0, 0, 8, 0x2c, 0xfc0, 0xff0, 0xfff]);
    if address >> 47 & 1 == 1 {
        address |= !0 << 47;
    }
    if random.once_in(40) {
        address ^= 1 << random.below(64);
    }
    address
}

/// An address for a patch at a depth: above the tables a virtual one, below them a physical one.
fn patched_address(random: &mut Random, depth: usize) -> u64 {
    if depth == 0 {
        virtual_address(random)
    } else {
        let offset = random.pick(&[0, 0, 8, 0x28, 0xfc0, 0xff8]) + random.below(8);
        (random.below(8) as u64 + 1) << 12 | offset as u64
    }
}

fn depth(random: &mut Random) -> usize {
    random.pick(&[0, 0, 0, 2, 2, 2, 2, 1, 3, 200])
}

fn file(random: &mut Random) -> Vec<u8> {
    let mut file = Vec::new();
    for _ in 0..random.below(6) {
        let depth = depth(random);
        let value = (!random.once_in(4)).then(|| random.number() as u8 | 1);
        file.extend(record(patched_address(random, depth), depth as u8, value));
    }
    file
}

fn stream(random: &mut Random) -> Vec<u8> {
    let mut stream = Vec::new();
    let mut at = 0;
    for _ in 0..random.below(10) {
        let payload = match random.below(12) {
            0 => "qaisle.fault".to_string(),
            1 | 2 => {
                at = depth(random);
                format!("Qaisle.depth:{at:02x}")
            }
            3..=5 => write(random, at),
            6 => ["?", "g", "D", "Hc-1", "qSupported", "vCont?"][random.below(6)].to_string(),
            _ => format!("m{:x},{:x}", virtual_address(random), random.below(40)),
        };
        stream.extend(frame(payload.as_bytes()));
        if random.once_in(5) {
            stream.push(random.pick(b"+-$#\x03x"));
        }
    }
    stream
}

fn write(random: &mut Random, depth: usize) -> String {
    let address = patched_address(random, depth);
    let count = random.below(9);
    let digits: String = (0..count)
        .map(|_| format!("{:02x}", random.number() as u8))
        .collect();
    format!("M{address:x},{count:x}:{digits}")
}
