//! Runs both sides on a case, compares all that they tell and write, and counts.

use crate::aisle;
use crate::cart::{Day, Read, Told, load_dump, read_patched, serve_day};
use crate::space::Pace;
use std::fmt::{Debug, Write};

/// What stands in a buffer before a call.
const UNTOUCHED: u8 = 0xA5;
/// How much more room there is than what is sent takes.
const MORE: usize = 512;
/// What is told where what is sent has too little room.
const TOO_SMALL: Told = Told {
    refusal: 0xff,
    place: 0,
    count: 0,
};
/// How many differences of a kind are shown.
const SHOWN: usize = 3;

pub struct Kind {
    pub name: &'static str,
    pub cases: usize,
    pub differ: usize,
    pub shown: Vec<String>,
}

impl Kind {
    /// Adds what another worker counted of the same kind.
    pub fn add(&mut self, more: Kind) {
        self.cases += more.cases;
        self.differ += more.differ;
        self.shown.extend(more.shown);
        self.shown.truncate(SHOWN);
    }
}

/// One of several workers, which each have every so many cases.
pub struct Tally {
    worker: usize,
    workers: usize,
    number: usize,
    /// The kind that is counted now.
    at: usize,
    pub kinds: Vec<Kind>,
}

impl Tally {
    pub fn new(worker: usize, workers: usize) -> Tally {
        Tally {
            worker,
            workers,
            number: 0,
            at: 0,
            kinds: Vec::new(),
        }
    }

    /// Counts what follows as of this kind.
    pub fn kind(&mut self, name: &'static str) {
        let known = self.kinds.iter().position(|kind| kind.name == name);
        self.at = known.unwrap_or(self.kinds.len());
        if known.is_some() {
            return;
        }
        self.kinds.push(Kind {
            name,
            cases: 0,
            differ: 0,
            shown: Vec::new(),
        });
    }

    /// Whether the next case is this worker's.
    pub fn mine(&mut self) -> bool {
        self.number += 1;
        self.number % self.workers == self.worker
    }

    pub fn load(&mut self, dump: &[u8], room: usize) {
        if self.mine() {
            let plain = load_dump(dump, room);
            let proved = aisle::load_dump(dump, room);
            self.count(plain == proved, || {
                format!(
                    "load: room {room}, dump {}\n  plain {plain:?}\n  proved {proved:?}",
                    hex(dump)
                )
            });
        }
    }

    pub fn day(&mut self, day: &Day) {
        if self.mine() {
            let plain = serve_day(day, Pace::Byte);
            let room = plain.0.len() + MORE;
            self.day_in(day, plain, room);
        }
    }

    /// A day of which what is sent has only so much room.
    pub fn day_with_room(&mut self, day: &Day, room: usize) {
        if self.mine() {
            self.day_in(day, serve_day(day, Pace::Byte), room);
        }
    }

    fn day_in(&mut self, day: &Day, plain: (Vec<u8>, Told), room: usize) {
        let paged = serve_day(day, Pace::Page);
        let same_paces = plain == paged;
        let (mut plain, mut told) = plain;
        if plain.len() > room {
            told = TOO_SMALL;
            plain.clear();
        }
        plain.resize(room, 0);
        let mut proved = vec![UNTOUCHED; plain.len()];
        let proved_told = aisle::serve_day(day, &mut proved);
        let same = same_paces && told == proved_told && plain == proved;
        self.count(same, || {
            let paged = (paged.1, paged.0.as_slice());
            let sides = [
                ("plain", told, plain.as_slice()),
                ("plain by pages", paged.0, paged.1),
                ("proved", proved_told, proved.as_slice()),
            ];
            format!(
                "day: {}{}",
                Inputs(day.dump, day.root, day.file).text(),
                both(day, &sides)
            )
        });
    }

    pub fn read(&mut self, read: &Read, length: usize) {
        if !self.mine() {
            return;
        }
        let mut buffers = [const { Vec::new() }; 4];
        let [bytes, pages, proved, bytewise] = buffers.each_mut().map(|buffer| {
            buffer.resize(length, UNTOUCHED);
            buffer
        });
        let tolds = [
            read_patched(read, Pace::Byte, bytes),
            read_patched(read, Pace::Page, pages),
            aisle::read_patched(read, proved),
            aisle::read_bytewise(read, bytewise),
        ];
        let same = tolds == [tolds[0]; 4] && [&pages, &proved, &bytewise] == [&bytes; 3];
        self.count(same, || {
            let names = ["plain", "plain by pages", "proved", "proved byte by byte"];
            let mut text = format!("read: {:#x} in {}, ", read.first, read.piece);
            text += &Inputs(read.dump, read.root, read.file).text();
            for ((name, told), buffer) in names
                .iter()
                .zip(tolds)
                .zip([bytes, pages, proved, bytewise])
            {
                text += &side(name, told, buffer);
            }
            text
        });
    }

    fn count(&mut self, same: bool, text: impl FnOnce() -> String) {
        let kind = &mut self.kinds[self.at];
        kind.cases += 1;
        if !same {
            kind.differ += 1;
            if kind.shown.len() < SHOWN {
                kind.shown.push(text());
            }
        }
    }
}

struct Inputs<'a>(&'a [u8], &'a [u8], &'a [u8]);

impl Inputs<'_> {
    fn text(&self) -> String {
        format!(
            "dump {}, root {}, file {}",
            hex(self.0),
            hex(self.1),
            hex(self.2)
        )
    }
}

fn both(day: &Day, sides: &[(&str, Told, &[u8])]) -> String {
    let mut text = format!(
        "\n  before \"{}\"\n  after \"{}\"",
        day.before.escape_ascii(),
        day.after.escape_ascii()
    );
    for (name, told, bytes) in sides {
        text += &side(name, *told, bytes);
    }
    text
}

fn side(name: &str, told: impl Debug, bytes: &[u8]) -> String {
    format!("\n  {name}: {told:?} \"{}\"", bytes.escape_ascii())
}

fn hex(bytes: &[u8]) -> String {
    bytes.iter().fold(String::new(), |mut text, byte| {
        let _ = write!(text, "{byte:02x}");
        text
    })
}
