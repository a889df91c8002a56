//! Reads of buffers, in pieces of several sizes, from everywhere.

use bench::cart::Read;
use bench::samples::{SAMPLE_DUMP, SAMPLE_ROOT, file, wide_dump};
use bench::tally::Tally;
use bench::world::{Size, World};

const PIECES: [usize; 6] = [0, 1, 7, 64, 2048, usize::MAX];
const LENGTHS: [usize; 4] = [0, 1, 40, 70];

pub fn compare(tally: &mut Tally) {
    let (wide, file) = (wide_dump(), file());
    tally.kind("reads of small dumps from about every edge");
    let edges: [u64; 21] = [
        0,
        0xff0,
        0x1000,
        0x2000,
        0x3000,
        0x4000,
        0x5000,
        0x20_0000,
        0x20_6000,
        0x40_0000,
        0x4000_0000,
        0x4000_6000,
        0x4000_8000,
        0x8000_0000,
        1 << 39,
        1 << 47,
        !0 << 47,
        !0 << 39,
        !0 << 30,
        !0 << 21,
        !0 << 12,
    ];
    for (dump, file) in [
        (SAMPLE_DUMP, &[][..]),
        (SAMPLE_DUMP, &file),
        (&wide, &[]),
        (&wide, &file),
        (&wide, &file[..96 + 3]),
        (&wide[..77], &file),
    ] {
        for first in edges
            .iter()
            .flat_map(|edge| (0..33).map(|back| edge.wrapping_sub(back)))
        {
            for piece in PIECES {
                let read = Read {
                    dump,
                    root: SAMPLE_ROOT,
                    file,
                    first,
                    piece,
                };
                for length in LENGTHS {
                    tally.read(&read, length);
                }
            }
        }
    }
    large(tally);
}

/// Reads across many pages of a dump of 64 ranges, with no patches, with some in each page, and with many in one.
fn large(tally: &mut Tally) {
    tally.kind("reads of thousands of bytes across shuffled pages and 64 ranges");
    for (pages, ranges) in [(16, 64), (64, 64), (16, 8), (16, 1)] {
        let world = World::new(Size {
            pages,
            run: 8,
            ranges,
        });
        let spread = [0, 16, 256].map(|count| world.patches(count));
        let dense = [0, pages - 1].map(|page| world.dense_patches(page));
        for file in spread.iter().chain(&dense) {
            for page in 0..pages {
                for (piece, skip) in [(1, 0xfc0), (7, 0xff9), (2048, 0), (2048, 0x923)] {
                    let read = Read {
                        dump: &world.dump,
                        root: &world.root,
                        file,
                        first: world.page(page) + skip,
                        piece,
                    };
                    tally.read(&read, if page % 8 == 0 { 5000 } else { 200 });
                }
            }
        }
    }
}
