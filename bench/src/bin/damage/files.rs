//! Damaged patch files.

use crate::loads::changes;
use bench::cart::Day;
use bench::samples::{SAMPLE_ROOT, after, file, packets, record, wide_dump};
use bench::tally::Tally;

pub fn compare(tally: &mut Tally) {
    let (dump, file, after) = (wide_dump(), file(), after());
    let before = packets(&["mff0,20", "Mff0,1:40"]);
    let day = Day {
        dump: &dump,
        root: SAMPLE_ROOT,
        before: &before,
        file: &file,
        after: &after,
    };
    tally.kind("a patch file cut at every length");
    for length in 0..=file.len() {
        let file = &file[..length];
        tally.day(&Day { file, ..day });
    }
    tally.kind("a patch file's byte changed to every other value");
    for at in 0..file.len() {
        changes(&file, at, |file| tally.day(&Day { file, ..day }));
    }
    tally.kind("a patch file's records at every depth, twice and in another order");
    for depth in 0..=255 {
        for (at, _) in file.chunks(16).enumerate() {
            let mut file = file.clone();
            file[at * 16 + 8] = depth;
            tally.day(&Day { file: &file, ..day });
            file.rotate_left(at * 16);
            tally.day(&Day { file: &file, ..day });
            tally.day(&Day {
                file: &file.repeat(2),
                ..day
            });
        }
    }
    limits(tally, &day);
}

/// Files that come to the limit of 256 patches at one depth or at both.
fn limits(tally: &mut Tally, day: &Day) {
    let long = long_file();
    tally.kind("a patch file of more than 256 patches cut at every length");
    for length in 0..=long.len() {
        let file = &long[..length];
        tally.day(&Day { file, ..*day });
    }
    tally.kind("a byte of that file changed to some other values");
    for at in 0..long.len() {
        for change in [0x01, 0x02, 0x80, 0xFF] {
            let mut file = long.clone();
            file[at] ^= change;
            tally.day(&Day {
                file: &file,
                ..*day
            });
        }
    }
    tally.kind("a record of that file left out or moved to its end");
    for at in (0..long.len()).step_by(16) {
        let mut file = long.clone();
        let left: Vec<u8> = file.drain(at..at + 16).collect();
        tally.day(&Day {
            file: &file,
            ..*day
        });
        file.extend(left);
        tally.day(&Day {
            file: &file,
            ..*day
        });
    }
}

/// 255 more patches fill the upper overlay, which has one; some are replaced and taken back; and one is too many.
fn long_file() -> Vec<u8> {
    let mut long = Vec::new();
    for number in 0..255u64 {
        let address = 0x800 + number * 37 % 255;
        long.extend(record(address, 0, Some(number as u8)));
        if number % 16 == 3 {
            long.extend(record(0x5ff0 + number % 13, 2, Some(number as u8)));
        }
    }
    long.extend(record(0x810, 0, Some(0xEE)));
    long.extend(record(0x811, 0, None));
    long.extend(record(0x2000, 0, Some(0x12)));
    long.extend(record(0x2000, 0, Some(0x13)));
    long.extend(record(0x2001, 0, Some(0x14)));
    long.extend(record(0x4010, 2, Some(0x03)));
    long
}
