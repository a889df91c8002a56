//! Patch files: records of 16 bytes.

use crate::space::Space;

const RECORD: usize = 16;

/// A refusal's number and the index of a record.
pub type Refused = (u8, usize);

/// Applies a file, and tells how many records it has.
pub fn apply(file: &[u8], space: &mut impl Space) -> Result<usize, Refused> {
    if !file.len().is_multiple_of(RECORD) {
        return Err((0x3a, 0));
    }
    let records = || file.chunks(RECORD).enumerate();
    if let Some((index, _)) = records().find(|(_, record)| !well_formed(record)) {
        return Err((0x3b, index));
    }
    for (index, record) in records() {
        run(record, space).map_err(|number| (number, index))?;
    }
    Ok(file.len() / RECORD)
}

fn well_formed(record: &[u8]) -> bool {
    let (kind, value) = (record[9], record[12]);
    let zeros = [10, 11, 13, 14, 15].iter().all(|&at| record[at] == 0);
    zeros && (kind == 1 || kind == 0 && value == 0)
}

fn run(record: &[u8], space: &mut impl Space) -> Result<(), u8> {
    let address = u64::from_le_bytes(record[..8].try_into().unwrap());
    let depth = record[8];
    if record[9] == 1 {
        space.set(depth, address, &record[12..13])
    } else {
        space.clear(depth, address)
    }
}
