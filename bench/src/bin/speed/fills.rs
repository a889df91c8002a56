//! Loads, and fills through overlay, four-level paging, overlay and image.

use crate::clock::{Contender, Laps, race};
use bench::aisle;
use bench::cart::{Cart, Read, Told, cart, fill_in_pieces, load_dump};
use bench::patchfile;
use bench::space::Pace;
use bench::world::{PAGE, Size, World};
use std::hint::black_box;

/// 1 MiB, in runs of pages that follow one another. Of each run all or the first page is read, by one call.
const PAGES: usize = 256;
const RUN: usize = 32;

#[derive(Clone, Copy)]
struct Setting {
    name: &'static str,
    ranges: usize,
    patches: Patches,
    piece: usize,
    /// How many pages of each run are read.
    pages: usize,
}

#[derive(Clone, Copy)]
enum Patches {
    /// So many in each overlay, spread over all pages.
    Spread(usize),
    /// Every 16th byte of the page that is read, in each overlay. Each page has a patch file of its own.
    Dense,
}

const LEAST: Setting = Setting {
    name: "1 MiB, 1 range, no patches, reads of 2,048 bytes",
    ranges: 1,
    patches: Patches::Spread(0),
    piece: 2048,
    pages: RUN,
};
const RANGES: Setting = Setting {
    name: "64 ranges",
    ranges: 64,
    ..LEAST
};
const PATCHES: Setting = Setting {
    name: "256 patches in each overlay",
    patches: Patches::Spread(256),
    ..LEAST
};
const SINGLE_PAGES: Setting = Setting {
    name: "64 ranges, single pages",
    pages: 1,
    ..RANGES
};

const SETTINGS: [Setting; 10] = [
    // these differ from the first in one thing each
    LEAST,
    Setting {
        name: "8 ranges",
        ranges: 8,
        ..LEAST
    },
    RANGES,
    Setting {
        name: "16 patches in each overlay",
        patches: Patches::Spread(16),
        ..LEAST
    },
    PATCHES,
    Setting {
        name: "reads of 256 bytes",
        piece: 256,
        ..LEAST
    },
    Setting {
        name: "reads of 16 bytes",
        piece: 16,
        ..LEAST
    },
    // and these are patches among many ranges
    Setting {
        name: "64 ranges, 256 patches in each overlay",
        ranges: 64,
        ..PATCHES
    },
    SINGLE_PAGES,
    Setting {
        name: "64 ranges, single pages, each 16th byte patched in each overlay",
        patches: Patches::Dense,
        ..SINGLE_PAGES
    },
];

pub fn compare() {
    compare_loads();
    compare_fills();
}

pub fn say(other: &str, ratio: f64) {
    println!("  proved takes {ratio:.2} times as long as {other}");
}

fn compare_loads() {
    let (ranges, patches) = (Prepared::new(RANGES), Prepared::new(PATCHES));
    let dump = &ranges.world.dump;
    let times = race(vec![
        contender(|| aisle::load_dump(black_box(dump), 64)),
        contender(|| load_dump(black_box(dump), 64)),
        contender(|| patches.load_proved()),
        contender(|| patches.load_plain(Pace::Page)),
    ]);
    println!("loading a dump of 64 ranges:");
    say("plain", times[0].by(&times[1]));
    println!("loading a dump of 1 range and applying a patch file of 512 records:");
    say("plain", times[2].by(&times[3]));
}

fn contender<'a, T>(work: impl Fn() -> T + 'a) -> Contender<'a> {
    Box::new(move || {
        black_box(work());
    })
}

fn compare_fills() {
    let fills = fills();
    println!(
        "fills, without loading and patching: how many times as long as the proved one each takes"
    );
    head(["default body", "plain bytes", "plain pages", "loading"]);
    for (setting, fill) in SETTINGS.iter().zip(&fills) {
        let others = [&fill.bytewise, &fill.bytes, &fill.pages, &fill.loading];
        line(setting, others.map(|other| other.by(&fill.proved)));
    }
    let [least, _, ranges, _, _, _, _, patched, single, dense] = &fills[..] else {
        unreachable!("there are as many fills as settings")
    };
    println!("how many times as long each takes as itself in the first line");
    head(["proved", "default body", "plain bytes", "plain pages"]);
    for (setting, fill) in SETTINGS.iter().zip(&fills).take(7) {
        line(
            setting,
            [
                fill.proved.by(&least.proved),
                fill.bytewise.by(&least.bytewise),
                fill.bytes.by(&least.bytes),
                fill.pages.by(&least.pages),
            ],
        );
    }
    println!("the proved fill, 64 ranges:");
    println!(
        "  {:.1} times as fast as the default body's",
        ranges.bytewise.by(&ranges.proved)
    );
    println!(
        "  with 256 patches in each overlay, {:.2} of its own speed with none",
        ranges.proved.by(&patched.proved)
    );
    println!(
        "  with each 16th byte of a page patched in each overlay, {:.2} of its own speed with none",
        single.proved.by(&dense.proved)
    );
}

fn head(names: [&str; 4]) {
    let names = names.map(|name| format!("{name:>14}"));
    println!("  {:62}{}", "", names.concat());
}

fn line(setting: &Setting, ratios: [f64; 4]) {
    let ratios = ratios.map(|ratio| {
        let digits = match ratio {
            ..1.0 => 3,
            1.0..10.0 => 2,
            _ => 1,
        };
        format!("{ratio:>14.digits$}")
    });
    println!("  {:62}{}", setting.name, ratios.concat());
}

/// What the fills of a setting take: the proved one, that by the default body, and the plain ones, a byte and a page at a time.
struct Fill {
    proved: Laps,
    bytewise: Laps,
    bytes: Laps,
    pages: Laps,
    /// What the first two had to do before.
    loading: Laps,
}

fn fills() -> Vec<Fill> {
    let prepared = SETTINGS.map(Prepared::new);
    let mut laps = race(prepared.iter().flat_map(Prepared::contenders).collect()).into_iter();
    let mut next = || laps.next().expect("a lap of each contender");
    let fill = |_| {
        let [loading, proved, bytewise, bytes, pages] = [(); 5].map(|_| next());
        Fill {
            proved: proved.less(&loading),
            bytewise: bytewise.less(&loading),
            bytes,
            pages,
            loading,
        }
    };
    prepared.iter().map(fill).collect()
}

/// A cart, and all reads of it under patch files.
struct Prepared {
    world: World,
    setting: Setting,
    /// The first page of each run, and the patch file under which it is read.
    runs: Vec<(usize, Vec<u8>)>,
}

impl Prepared {
    fn new(setting: Setting) -> Prepared {
        let world = World::new(Size {
            pages: PAGES,
            run: RUN,
            ranges: setting.ranges,
        });
        let file = |page| match setting.patches {
            Patches::Spread(count) => world.patches(count),
            Patches::Dense => world.dense_patches(page),
        };
        let runs = (0..PAGES)
            .step_by(RUN)
            .map(|page| (page, file(page)))
            .collect();
        Prepared {
            world,
            setting,
            runs,
        }
    }

    /// In the order in which they are read by `fills`.
    fn contenders(&self) -> [Contender<'_>; 5] {
        [
            contender(|| self.load_proved()),
            self.fill_proved(aisle::read_patched),
            self.fill_proved(aisle::read_bytewise),
            self.fill_plain(Pace::Byte),
            self.fill_plain(Pace::Page),
        ]
    }

    fn reads(&self) -> impl Iterator<Item = Read<'_>> {
        self.runs.iter().map(|(page, file)| Read {
            dump: &self.world.dump,
            root: &self.world.root,
            file,
            first: self.world.page(*page),
            piece: self.setting.piece,
        })
    }

    /// For one read.
    fn buffer(&self) -> Vec<u8> {
        vec![0; self.setting.pages * PAGE]
    }

    /// What each call of a fill begins with, and no more: nothing is read.
    fn load_proved(&self) {
        for read in self.reads() {
            let told = aisle::read_patched(black_box(&read), &mut []);
            assert_eq!(told.refusal, 0);
        }
    }

    /// Each call loads the cart and applies the file.
    fn fill_proved(&self, fill: fn(&Read, &mut [u8]) -> Told) -> Contender<'_> {
        let mut into = self.buffer();
        Box::new(move || {
            for read in self.reads() {
                let told = fill(&read, black_box(&mut into));
                assert_eq!(told.count, into.len());
            }
        })
    }

    fn load_plain(&self, pace: Pace) -> Vec<Cart<'_>> {
        self.reads().map(|read| patched(&read, pace)).collect()
    }

    /// Fills of carts that are loaded and patched once.
    fn fill_plain(&self, pace: Pace) -> Contender<'_> {
        let carts = self.load_plain(pace);
        let mut into = self.buffer();
        Box::new(move || {
            for (read, cart) in self.reads().zip(&carts) {
                let (first, piece) = (read.first, read.piece);
                let placed = fill_in_pieces(cart, pace, first, piece, black_box(&mut into));
                assert_eq!(placed, into.len());
            }
        })
    }
}

fn patched<'a>(read: &Read<'a>, pace: Pace) -> Cart<'a> {
    let mut cart = cart(read.dump, read.root, pace).expect("a good dump");
    patchfile::apply(read.file, &mut cart).expect("a good file");
    cart
}
