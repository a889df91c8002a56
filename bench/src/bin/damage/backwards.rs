//! Reads across the edges of pages of three sizes whose neighbours lie backwards in memory, with patches about these edges.

use bench::cart::{Day, Read};
use bench::random::Random;
use bench::samples::{claim, entries, packets, range, record};
use bench::tally::Tally;

const SMALL: u64 = 1 << 12;
const MIDDLE: u64 = 1 << 21;
const LARGE: u64 = 1 << 30;

/// How many bytes of a frame memory has on either side of an edge.
const SIDE: u64 = 40;
/// How many of these the file does not have about the last edge.
const CUT: usize = 9;
const BACKS: std::ops::Range<u64> = 0..SIDE + 3;
const LENGTHS: [usize; 5] = [0, 1, 41, 83, 100];
const PIECES: [usize; 4] = [1, 5, 41, usize::MAX];

/// Three pages that follow one another, and whose frames follow one another the other way round.
struct Pages {
    size: u64,
    first: u64,
    lowest: u64,
}

/// The first ends where the second begins, and the third where the fourth begins. Behind the second and the fourth and before
/// the third pages are absent.
const RUNS: [Pages; 4] = [
    Pages {
        size: MIDDLE,
        first: LARGE - 4 * MIDDLE,
        lowest: LARGE,
    },
    Pages {
        size: SMALL,
        first: LARGE - MIDDLE,
        lowest: 0x10000,
    },
    Pages {
        size: SMALL,
        first: LARGE - 3 * SMALL,
        lowest: 0x20000,
    },
    Pages {
        size: LARGE,
        first: LARGE,
        lowest: 4 * LARGE,
    },
];

const ROOT: [u8; 8] = 0x1000_u64.to_le_bytes();
const HIGH_TABLE: u64 = 0x2000;
const MIDDLE_TABLE: u64 = 0x3000;
const LOW_TABLE: u64 = 0x4000;

impl Pages {
    /// Their entries, from the first page on.
    fn entries(&self) -> [u64; 3] {
        let large = if self.size == SMALL { 0 } else { 0x80 };
        [2, 1, 0].map(|frame| (self.lowest + frame * self.size) | large | 3)
    }
}

/// The edges of three things of a size.
fn edges(first: u64, size: u64) -> impl Iterator<Item = u64> {
    (0..4).map(move |count| first + count * size)
}

fn page_edges() -> Vec<u64> {
    let mut all: Vec<u64> = RUNS
        .iter()
        .flat_map(|run| edges(run.first, run.size))
        .collect();
    all.dedup();
    all
}

fn frame_edges() -> Vec<u64> {
    RUNS.iter()
        .flat_map(|run| edges(run.lowest, run.size))
        .collect()
}

fn dump() -> Vec<u8> {
    let mut dump = Vec::new();
    let [middle, first_small, last_small, large] = RUNS.map(|run| run.entries());
    range(&mut dump, 0x1000, &entries(&[HIGH_TABLE | 3]));
    let [a, b, c] = large;
    range(
        &mut dump,
        HIGH_TABLE,
        &entries(&[MIDDLE_TABLE | 3, a, b, c, 0]),
    );
    let [a, b, c] = middle;
    range(
        &mut dump,
        MIDDLE_TABLE + 508 * 8,
        &entries(&[a, b, c, LOW_TABLE | 3]),
    );
    let [a, b, c] = last_small;
    range(&mut dump, LOW_TABLE + 508 * 8, &entries(&[0, a, b, c]));
    let [a, b, c] = first_small;
    range(&mut dump, LOW_TABLE, &entries(&[a, b, c, 0]));

    let mut random = Random::new(0xBAC);
    for (number, edge) in frame_edges().into_iter().enumerate() {
        let (below, above) = (random.bytes(SIDE as usize), random.bytes(SIDE as usize));
        let start = edge - SIDE;
        if number == 15 {
            range(&mut dump, start, &below);
            // the file does not have all of it
            claim(&mut dump, edge, edge + SIDE - 1, &above[CUT..]);
            continue;
        }
        // one range on both sides, or two in this order or the other
        match number % 4 {
            1 => {
                range(&mut dump, start, &below);
                range(&mut dump, edge, &above);
            }
            2 | 3 => range(&mut dump, start, &[below, above].concat()),
            _ => {
                range(&mut dump, edge, &above);
                range(&mut dump, start, &below);
            }
        }
    }
    dump
}

/// A patch file with patches at such offsets from each edge, in both overlays.
fn about_edges(offsets: impl Iterator<Item = i64> + Clone) -> Vec<u8> {
    let mut file = Vec::new();
    for (depth, edges) in [(0, page_edges()), (2, frame_edges())] {
        for edge in edges {
            for offset in offsets.clone() {
                let value = (offset as u8) ^ (edge >> 12) as u8 ^ depth;
                file.extend(record(edge.wrapping_add_signed(offset), depth, Some(value)));
            }
        }
    }
    file
}

/// Makes the page behind the first small ones present, and that behind the large ones.
fn present_again() -> Vec<u8> {
    let small = (LOW_TABLE + 3 * 8, 0x20003);
    let large = (HIGH_TABLE + 4 * 8, (7 * LARGE) | 0x83);
    let mut file = Vec::new();
    for (place, entry) in [small, large] {
        for (at, byte) in (place..).zip(u64::to_le_bytes(entry)) {
            file.extend(record(at, 2, Some(byte)));
        }
    }
    file
}

pub fn compare(tally: &mut Tally) {
    let dump = dump();
    let side = SIDE as i64;
    let files = [
        Vec::new(),
        // across each edge
        about_edges(-2..2),
        // at both ends of what is stored about an edge
        about_edges([-side, side - 1].into_iter()),
        // over bytes that are absent, among them those of absent pages
        about_edges([-side - 1, side, side + 1].into_iter()),
        // here and there, and over absent bytes
        about_edges((-side - 2..side + 3).step_by(7)),
        present_again(),
    ];
    for file in &files {
        for first in firsts() {
            fixed(tally, &dump, file, first);
            served(tally, &dump, file, first);
        }
    }
    random(tally, &dump);
}

/// From each edge, and from some bytes before it.
fn firsts() -> impl Iterator<Item = u64> {
    page_edges()
        .into_iter()
        .flat_map(|edge| BACKS.map(move |back| edge - back))
}

fn fixed(tally: &mut Tally, dump: &[u8], file: &[u8], first: u64) {
    tally.kind("reads across pages of 4 KiB, 2 MiB and 1 GiB that lie backwards in memory");
    for piece in PIECES {
        let read = Read {
            dump,
            root: &ROOT,
            file,
            first,
            piece,
        };
        for length in LENGTHS {
            tally.read(&read, length);
        }
    }
}

/// The same by packets, with the faults.
fn served(tally: &mut Tally, dump: &[u8], file: &[u8], first: u64) {
    tally.kind("packets that read across such pages, and their faults");
    let reads = LENGTHS.map(|length| format!("m{first:x},{length:x}"));
    let asked = reads.iter().flat_map(|read| [read, "qaisle.fault"]);
    let stream = packets(&asked.collect::<Vec<_>>());
    tally.day(&Day {
        dump,
        root: &ROOT,
        before: &stream,
        file,
        after: &stream,
    });
}

/// Patches at random about the edges, and reads at random.
fn random(tally: &mut Tally, dump: &[u8]) {
    tally.kind("reads across such pages under random patches");
    let edges = [(0, page_edges()), (2, frame_edges())];
    for seed in 0..500 {
        let random = &mut Random::new(seed);
        let mut file = Vec::new();
        for _ in 0..random.below(200) {
            let (depth, edges) = &edges[random.below(2)];
            let about = random.pick(edges) - SIDE - 3 + random.below(86) as u64;
            let value = (!random.once_in(6)).then(|| random.number() as u8);
            file.extend(record(about, *depth, value));
        }
        for _ in 0..60 {
            let read = Read {
                dump,
                root: &ROOT,
                file: &file,
                first: random.pick(&edges[0].1) - random.below(60) as u64,
                piece: random.pick(&PIECES),
            };
            tally.read(&read, random.below(120));
        }
    }
}
