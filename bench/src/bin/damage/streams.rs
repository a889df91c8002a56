//! Damaged streams around a patch file.

use crate::loads::changes;
use bench::cart::{Day, serve_day};
use bench::packets::frame;
use bench::samples::{SAMPLE_DUMP, SAMPLE_ROOT, after, file, packets, talk, wide_dump};
use bench::space::Pace;
use bench::tally::Tally;
use bench::world::{Size, World};

pub fn compare(tally: &mut Tally) {
    let (dump, talk, file, after) = (wide_dump(), talk(), file(), after());
    let day = Day {
        dump: &dump,
        root: SAMPLE_ROOT,
        before: &talk,
        file: &file,
        after: &after,
    };
    tally.kind("a stream cut at every length");
    for length in 0..=talk.len() {
        let before = &talk[..length];
        tally.day(&Day { before, ..day });
        tally.day(&Day {
            before,
            dump: SAMPLE_DUMP,
            ..day
        });
    }
    for length in 0..=after.len() {
        let after = &after[..length];
        tally.day(&Day { after, ..day });
    }
    tally.kind("a stream's byte changed to every other value");
    for at in 0..talk.len() {
        changes(&talk, at, |before| tally.day(&Day { before, ..day }));
    }
    for at in 0..after.len() {
        changes(&after, at, |after| tally.day(&Day { after, ..day }));
    }
    payloads(tally, &day);
    long_frames(tally, &day);
    long_writes(tally, &day);
    long_reads(tally);
    long_streams(tally, &day);
    little_room(tally, &day);
}

/// Changes of payloads that are heard, since their sums are right.
fn payloads(tally: &mut Tally, day: &Day) {
    tally.kind("a payload's byte changed, left out or doubled, under its right sum");
    let asked = [
        "?",
        "g",
        "D",
        "Hg0",
        "qSupported:x+",
        "qaisle.fault",
        "Qaisle.depth:02",
        "mff0,20",
        "Mff2,2:0aB9",
        "m0000000000000ff0,1",
        "mfffffffffffffff8,8",
        "M5ff0,1:5a",
        "M1000,0:",
        "",
    ];
    let mut hear = |payload: &[u8]| {
        let mut before = packets(&["Qaisle.depth:02", "m1000,1"]);
        before.extend(frame(payload));
        before.extend(packets(&[
            "mff0,4",
            "M5ff1,1:21",
            "qaisle.fault",
            "mff0,20",
        ]));
        tally.day(&Day {
            before: &before,
            ..*day
        });
    };
    for payload in asked.map(str::as_bytes) {
        for at in 0..payload.len() {
            changes(payload, at, &mut hear);
            hear(&[&payload[..at], &payload[at + 1..]].concat());
            hear(&[&payload[..=at], &payload[at..]].concat());
            hear(&payload[..at]);
        }
        for more in 0..=255 {
            hear(&[payload, &[more]].concat());
        }
    }
}

/// Frames about as long as the longest, with and without an end.
fn long_frames(tally: &mut Tally, day: &Day) {
    tally.kind("frames about as long as the longest");
    for length in 4090..4106 {
        for filler in [b'x', b'+', b'-', b'$'] {
            let payload = vec![filler; length];
            let mut before = packets(&["?"]);
            before.extend(frame(&payload));
            before.extend(packets(&["mff0,4"]));
            let length = before.len();
            for cut in (0..16).chain([5000]) {
                let before = &before[..length - cut.min(length - 4000)];
                tally.day(&Day { before, ..*day });
            }
        }
    }
}

/// Writes of about as many bytes as an overlay has room for, and as a payload has.
fn long_writes(tally: &mut Tally, day: &Day) {
    tally.kind("writes of about 256 bytes, and of as many as a payload has");
    for count in (250..262).chain(2030..2050) {
        for depth in 0..4 {
            for earlier in ["m0,1", "M0,1:11", "Mff,3:112233", "M200,1:11"] {
                let depth = format!("Qaisle.depth:0{depth}");
                let digits = "5a".repeat(count);
                let write = format!("M0,{count:x}:{digits}");
                let end = format!("M{:x},{count:x}:{digits}", u64::MAX - count as u64);
                let before = packets(&[&depth, earlier, &write, &end, "m0,4", "mff,8", "mff0,8"]);
                tally.day(&Day {
                    before: &before,
                    ..*day
                });
            }
        }
    }
}

/// Streams of more bytes than a server has at a time, so that each item comes to lie across the end of its buffer.
fn long_streams(tally: &mut Tally, day: &Day) {
    tally.kind("streams longer than a server's buffer");
    let long = day.before.repeat(4200 / day.before.len() + 2);
    for shift in 0..day.before.len() + 8 {
        let before = [&vec![b'+'; shift], long.as_slice(), b"$D#44"].concat();
        tally.day(&Day {
            before: &before,
            ..*day
        });
    }
}

/// Less room than what is sent takes, and just enough.
fn little_room(tally: &mut Tally, day: &Day) {
    tally.kind("little room for what is sent");
    let needed = serve_day(day, Pace::Byte).0.len();
    for room in 0..needed + 3 {
        tally.day_with_room(day, room);
        tally.day_with_room(
            &Day {
                file: &day.file[1..],
                ..*day
            },
            room,
        );
        tally.day_with_room(
            &Day {
                dump: &day.dump[1..],
                ..*day
            },
            room,
        );
    }
}

/// Reads of about 2,048 addresses and of far more, that meet no fault before.
fn long_reads(tally: &mut Tally) {
    tally.kind("reads of about 2,048 addresses and more by packets");
    let world = World::new(Size {
        pages: 8,
        run: 8,
        ranges: 1,
    });
    let counts = (2040..2056).chain([4096, 0x7000, 1 << 32, u64::MAX >> 1]);
    for count in counts {
        for skip in [0, 0x7ff, 0x7801, 0x8000 - 2048, 0x8000 - 2047] {
            let read = format!("m{:x},{count:x}", world.page(0) + skip);
            let before = packets(&["m0,1", &read, "qaisle.fault"]);
            tally.day(&Day {
                dump: &world.dump,
                root: &world.root,
                before: &before,
                file: &world.patches(20),
                after: &before,
            });
        }
    }
}
