//! Dumps, streams and patch files to compare on.

use crate::packets::frame;

pub const SAMPLE_DUMP: &[u8] = include_bytes!("../../crates/serve/data/image.lime");
pub const SAMPLE_ROOT: &[u8] = include_bytes!("../../crates/serve/data/root.bin");

/// Adds a range to a LiME file, with as many bytes as are given of those that it claims.
pub fn claim(dump: &mut Vec<u8>, first: u64, last: u64, bytes: &[u8]) {
    dump.extend(0x4C69_4D45u32.to_le_bytes());
    dump.extend(1u32.to_le_bytes());
    dump.extend(first.to_le_bytes());
    dump.extend(last.to_le_bytes());
    dump.extend([0; 8]);
    dump.extend(bytes);
}

/// Adds a range that has all of its bytes.
pub fn range(dump: &mut Vec<u8>, first: u64, bytes: &[u8]) {
    claim(dump, first, first + (bytes.len() as u64 - 1), bytes);
}

pub fn entries(entries: &[u64]) -> Vec<u8> {
    entries
        .iter()
        .flat_map(|entry| entry.to_le_bytes())
        .collect()
}

/// Several ranges out of order, with neighbours and gaps: pages of all three sizes, a table that points at itself, unread bits
/// set, an entry that is not present, the last addresses, and a range that the file does not have whole.
pub fn wide_dump() -> Vec<u8> {
    let mut dump = Vec::new();
    range(&mut dump, 0x6000, b"sixth page begin");
    range(&mut dump, 0x1ff8, &entries(&[0x1003]));
    range(&mut dump, 0x1000, &entries(&[0x2007]));
    range(&mut dump, 0x2000, &entries(&[0x3063, 0x83]));
    let large = 0x8000_0000_001f_e0e3;
    range(&mut dump, 0x3000, &entries(&[0x4003, large]));
    let unread = 0xfff0_0000_0000_5fe3;
    range(
        &mut dump,
        0x4000,
        &entries(&[0x5003, 0x6003, 0x6002, unread, 0x7003]),
    );
    range(&mut dump, 0x5ff0, b"the fifth's last");
    range(&mut dump, u64::MAX - 7, b"the last");
    claim(&mut dump, 0x7000, 0x7fff, b"stays");
    dump
}

pub fn packets(payloads: &[&str]) -> Vec<u8> {
    payloads
        .iter()
        .flat_map(|payload| frame(payload.as_bytes()))
        .collect()
}

/// Reads that show a dump: across pages of each size, tables, the first and last addresses, and each fault.
pub fn looks() -> Vec<u8> {
    packets(&[
        "mffc,8",
        "qaisle.fault",
        "mff0,20",
        "qaisle.fault",
        "m1ffc,8",
        "m3ff0,14",
        "qaisle.fault",
        "m4000,8",
        "qaisle.fault",
        "m200000,1",
        "m205ff0,20",
        "qaisle.fault",
        "m40005ffc,8",
        "m40001000,1",
        "m40007004,2",
        "qaisle.fault",
        "m7fffffffffff,1",
        "m800000000000,1",
        "qaisle.fault",
        "mffffff8000000000,9",
        "mfffffffffffffff8,8",
        "mffffffffffffffff,1",
        "qaisle.fault",
    ])
}

/// Every command, refused ones too, with resends, garbage and wrong sums between.
pub fn talk() -> Vec<u8> {
    let mut talk = b"-+".to_vec();
    talk.extend(packets(&["qSupported:x+", "?"]));
    talk.extend(b"-\x03+$m0,1#00$m0,1#zz");
    talk.extend(packets(&["Hg0", "g", "qaisle.fault", "mff0,20", "m2000,1"]));
    talk.extend(b"--");
    talk.extend(packets(&[
        "qaisle.fault",
        "Qaisle.depth:02",
        "M4010,2:0350",
    ]));
    talk.extend(packets(&[
        "m1FFC,8",
        "Qaisle.depth:00",
        "Mff2,1:aB",
        "mff0,4",
    ]));
    talk.extend(packets(&["Qaisle.depth:01", "M0,1:00", "Qaisle.depth:zz"]));
    talk.extend(packets(&["m0,0", "M0,2:00", "mffffffffffffffff,2", "mx"]));
    talk.extend(packets(&["", "vMustReplyEmpty", "gg", "D"]));
    talk.extend(b"$m0,$m5,6#");
    talk
}

/// What is asked after a patch file, in short.
pub fn after() -> Vec<u8> {
    let mut after = b"-".to_vec();
    after.extend(packets(&["mff0,20", "qaisle.fault", "M1ff1,1:7e"]));
    after.extend(packets(&["m1ffc,8", "m2000,8", "Qaisle.depth:02"]));
    after.extend(packets(&["M4000,2:0360", "m0,4", "qaisle.fault"]));
    after.extend(b"-");
    after
}

/// A record of a patch file: sets a value, or takes one back.
pub fn record(address: u64, depth: u8, value: Option<u8>) -> [u8; 16] {
    let mut record = [0; 16];
    record[..8].copy_from_slice(&address.to_le_bytes());
    record[8] = depth;
    record[9] = u8::from(value.is_some());
    record[12] = value.unwrap_or(0);
    record
}

/// Patches of page tables and of data at both overlays, of which some are taken back.
pub fn file() -> Vec<u8> {
    [
        record(0x4010, 2, Some(0x03)),
        record(0x5ffd, 2, Some(b'Z')),
        record(0xffe, 0, Some(b'Y')),
        record(0x5ff1, 2, Some(b'X')),
        record(0x5ffd, 2, None),
        record(0x2fff, 0, None),
        record(u64::MAX, 0, Some(1)),
    ]
    .concat()
}
