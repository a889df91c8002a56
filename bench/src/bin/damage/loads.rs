//! Damaged dumps and roots: loaded, and looked at.

use bench::cart::Day;
use bench::samples::{SAMPLE_DUMP, SAMPLE_ROOT, claim, looks, range, wide_dump};
use bench::tally::Tally;

const ROOMS: [usize; 7] = [0, 1, 3, 4, 8, 9, 64];

pub fn compare(tally: &mut Tally) {
    let looks = looks();
    let mut look = Look {
        tally,
        looks: &looks,
    };
    for dump in [SAMPLE_DUMP.to_vec(), wide_dump()] {
        look.cut(&dump);
        look.changed_headers(&dump);
        look.changed_tables(&dump);
        look.damaged_roots(&dump);
    }
    look.extents();
    look.many();
}

struct Look<'a> {
    tally: &'a mut Tally,
    looks: &'a [u8],
}

impl Look<'_> {
    fn at(&mut self, dump: &[u8], root: &[u8]) {
        self.tally.day(&Day {
            dump,
            root,
            before: self.looks,
            file: &[],
            after: &[],
        });
    }

    fn load_and_look(&mut self, dump: &[u8], rooms: &[usize]) {
        for room in rooms {
            self.tally.load(dump, *room);
        }
        self.at(dump, SAMPLE_ROOT);
    }

    fn cut(&mut self, dump: &[u8]) {
        self.tally.kind("a dump cut at every length");
        for length in 0..=dump.len() {
            self.load_and_look(&dump[..length], &ROOMS);
        }
        self.tally.kind("a dump with bytes behind it");
        for more in 1..=64 {
            let longer = [dump, &vec![0x45; more]].concat();
            self.load_and_look(&longer, &ROOMS);
        }
    }

    fn changed_headers(&mut self, dump: &[u8]) {
        self.tally
            .kind("a header's byte changed to every other value");
        for place in headers(dump) {
            for at in place..place + 32 {
                changes(dump, at, |changed| self.load_and_look(changed, &[64, 3]));
            }
        }
    }

    fn changed_tables(&mut self, dump: &[u8]) {
        self.tally
            .kind("a byte behind the headers changed to every other value");
        let mut ends: Vec<_> = headers(dump).into_iter().skip(1).collect();
        ends.push(dump.len());
        for (place, end) in headers(dump).into_iter().zip(ends) {
            for at in place + 32..end {
                changes(dump, at, |changed| self.at(changed, SAMPLE_ROOT));
            }
        }
    }

    fn damaged_roots(&mut self, dump: &[u8]) {
        self.tally
            .kind("a root file cut, longer, and with every byte changed");
        let long = [SAMPLE_ROOT, b"behind"].concat();
        for length in 0..=long.len() {
            self.at(dump, &long[..length]);
        }
        for at in 0..SAMPLE_ROOT.len() {
            changes(SAMPLE_ROOT, at, |changed| self.at(dump, changed));
        }
    }

    /// Ranges of all kinds beside each other: equal, overlapping, touching, up to the last address, of all addresses.
    fn extents(&mut self) {
        self.tally
            .kind("two and three ranges with ends beside each other");
        let ends = [0, 1, 7, 8, 9, 1 << 63, u64::MAX - 8, u64::MAX - 1, u64::MAX];
        let pairs = || ends.iter().flat_map(|a| ends.iter().map(|b| (*a, *b)));
        for (first, last) in pairs() {
            for (next, end) in pairs() {
                let mut dump = Vec::new();
                let bytes = last.wrapping_sub(first).wrapping_add(1);
                claim(&mut dump, first, last, &vec![7; bytes.min(20) as usize]);
                claim(&mut dump, next, end, b"second");
                claim(&mut dump, 20, 25, b"third");
                self.load_and_look(&dump, &[64, 1, 0]);
            }
        }
    }

    /// More ranges than a cart has room for, and more bytes than are served.
    fn many(&mut self) {
        self.tally
            .kind("dumps of 60 to 70 ranges, and of more than 65,536 bytes");
        for count in 60..70 {
            let mut dump = wide_dump();
            dump.truncate(dump.len() - 5 - 32);
            for number in 8..count {
                range(&mut dump, 0x10_0000 - number * 16, b"one of many");
            }
            self.load_and_look(&dump, &[0, 59, 60, 61, 62, 63, 64, 65, 70, usize::MAX]);
        }
        for behind in 65_400..65_600 {
            let mut dump = Vec::new();
            claim(
                &mut dump,
                0x9000,
                0x9000 + behind - 1,
                &vec![1; behind as usize],
            );
            dump.extend(SAMPLE_DUMP);
            self.load_and_look(&dump, &[64, 1]);
        }
        for size in 65_496..65_540 {
            let mut dump = SAMPLE_DUMP[..160].to_vec();
            range(&mut dump, 0x5000, &vec![2; size]);
            self.load_and_look(&dump, &[64]);
        }
    }
}

/// Calls with each of the 255 changes of one byte.
pub fn changes(bytes: &[u8], at: usize, mut call: impl FnMut(&[u8])) {
    let mut changed = bytes.to_vec();
    for change in 1..=255 {
        changed[at] = bytes[at] ^ change;
        call(&changed);
    }
}

/// The places of a good dump's headers.
fn headers(dump: &[u8]) -> Vec<usize> {
    let ranges = bench::lime::load(dump, 64).expect("a good dump");
    ranges.iter().map(|range| range.place - 32).collect()
}
