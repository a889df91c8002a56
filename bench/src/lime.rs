//! LiME files, version 1, and the image of one.

use crate::space::{Fault, Space};

const HEADER: usize = 32;
const MAGIC: u32 = 0x4C69_4D45;

#[derive(Clone, Copy, Debug, PartialEq, Eq)]
pub struct Range {
    pub first: u64,
    pub last: u64,
    /// Where in the file the byte of the first address is.
    pub place: usize,
}

/// A refused load: the number, the header's place in the file, and how many ranges stand before it.
#[derive(Clone, Copy, Debug, PartialEq, Eq)]
pub struct Refused {
    pub number: u8,
    pub place: usize,
    pub count: usize,
}

pub fn load(file: &[u8], room: usize) -> Result<Vec<Range>, Refused> {
    let mut ranges: Vec<Range> = Vec::new();
    let mut place = 0;
    while place < file.len() {
        let refused = |number| Refused {
            number,
            place,
            count: ranges.len(),
        };
        let (first, last) = header(&file[place..]).map_err(refused)?;
        if ranges.iter().any(|r| first <= r.last && r.first <= last) {
            return Err(refused(0x34));
        }
        if ranges.len() == room {
            return Err(refused(0x35));
        }
        place += HEADER;
        ranges.push(Range { first, last, place });
        // a range that claims more than the file has is the last
        let bytes = usize::try_from(last - first).unwrap_or(usize::MAX);
        place = place.saturating_add(bytes).saturating_add(1);
    }
    Ok(ranges)
}

fn header(rest: &[u8]) -> Result<(u64, u64), u8> {
    let header = rest.get(..HEADER).ok_or(0x30)?;
    let long = |at: usize| u64::from_le_bytes(header[at..at + 8].try_into().unwrap());
    let (first, last) = (long(8), long(16));
    let begins = u64::from(MAGIC) | 1 << 32;
    if long(0) != begins || last < first {
        return Err(0x31);
    }
    Ok((first, last))
}

/// The bottom of a pile.
pub struct Image<'a> {
    pub ranges: Vec<Range>,
    pub file: &'a [u8],
}

impl Image<'_> {
    /// The bytes that the file has from an address on to the end of its range.
    fn stored(&self, address: u64) -> Result<&[u8], Fault> {
        let range = self
            .ranges
            .iter()
            .find(|r| r.first <= address && address <= r.last);
        let range = range.ok_or(Fault::own(address, 0x01))?;
        let missing = Fault::own(address, 0x02);
        let skipped = usize::try_from(address - range.first).map_err(|_| missing)?;
        let start = range.place.checked_add(skipped).ok_or(missing)?;
        let bytes = self.file.get(start..).ok_or(missing)?;
        if bytes.is_empty() {
            return Err(missing);
        }
        let left = usize::try_from(range.last - address).unwrap_or(usize::MAX);
        Ok(&bytes[..bytes.len().min(left.saturating_add(1))])
    }
}

impl Space for Image<'_> {
    fn byte(&self, address: u64) -> Result<u8, Fault> {
        self.stored(address).map(|bytes| bytes[0])
    }

    fn run(&self, first: u64, into: &mut [u8]) -> Result<usize, Fault> {
        let bytes = self.stored(first)?;
        let count = bytes.len().min(into.len());
        into[..count].copy_from_slice(&bytes[..count]);
        Ok(count)
    }

    fn set(&mut self, _: u8, _: u64, _: &[u8]) -> Result<(), u8> {
        Err(0x26)
    }

    fn clear(&mut self, _: u8, _: u64) -> Result<(), u8> {
        Err(0x26)
    }
}

#[cfg(test)]
mod tests {
    use super::*;

    const SAMPLE: &[u8] = include_bytes!("../../crates/serve/data/image.lime");

    #[test]
    fn the_sample_has_five_ranges() {
        let ranges = load(SAMPLE, 64).unwrap();
        let places: Vec<_> = ranges.iter().map(|r| (r.first, r.place)).collect();
        assert_eq!(
            places,
            [
                (0x1000, 32),
                (0x2000, 72),
                (0x3000, 112),
                (0x4000, 152),
                (0x5ffc, 200)
            ]
        );
    }

    #[test]
    fn a_table_without_room_is_full_at_the_third_header() {
        let refused = Refused {
            number: 0x35,
            place: 80,
            count: 2,
        };
        assert_eq!(load(SAMPLE, 2), Err(refused));
    }
}
