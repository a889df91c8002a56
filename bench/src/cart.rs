//! The pile of a stopped cart, and what is done with it.

use crate::lime::{Image, Refused, load};
use crate::overlay::Overlay;
use crate::paging::Paging;
use crate::patchfile;
use crate::server::Server;
use crate::session::Session;
use crate::space::{Pace, Space, fill};

/// How much of a dump is served.
pub const SERVED: usize = 65_536;
const RANGES: usize = 64;

pub type Cart<'a> = Overlay<Paging<Overlay<Image<'a>>>>;

/// What is told of a call: a refusal or 0, a place and a count.
#[repr(C)]
#[derive(Clone, Copy, Debug, Default, PartialEq, Eq)]
pub struct Told {
    pub refusal: u8,
    pub place: usize,
    pub count: usize,
}

/// A day with a cart: its two files, the streams of two sessions, and the patch file between them.
#[derive(Clone, Copy)]
pub struct Day<'a> {
    pub dump: &'a [u8],
    pub root: &'a [u8],
    pub before: &'a [u8],
    pub file: &'a [u8],
    pub after: &'a [u8],
}

/// A read of a patched cart, in pieces.
#[derive(Clone, Copy)]
pub struct Read<'a> {
    pub dump: &'a [u8],
    pub root: &'a [u8],
    pub file: &'a [u8],
    pub first: u64,
    pub piece: usize,
}

pub fn load_dump(dump: &[u8], room: usize) -> Told {
    match load(dump, room.min(RANGES)) {
        Ok(ranges) => Told {
            count: ranges.len(),
            ..Told::default()
        },
        Err(refused) => Told {
            refusal: refused.number,
            place: refused.place,
            count: refused.count,
        },
    }
}

pub fn cart<'a>(dump: &'a [u8], root: &[u8], pace: Pace) -> Result<Cart<'a>, Refused> {
    let mut cr3 = [0; 8];
    let given = root.len().min(8);
    cr3[..given].copy_from_slice(&root[..given]);
    let ranges = load(dump, RANGES)?;
    let image = Image { ranges, file: dump };
    let paged = Paging::new(u64::from_le_bytes(cr3), pace, Overlay::new(image));
    Ok(Overlay::new(paged))
}

/// All that is sent on such a day, and what is told of it.
pub fn serve_day(day: &Day, pace: Pace) -> (Vec<u8>, Told) {
    let dump = &day.dump[..day.dump.len().min(SERVED)];
    let mut sent = Vec::new();
    let mut cart = match cart(dump, day.root, pace) {
        Ok(cart) => cart,
        Err(refused) => return (sent, no_dump(refused)),
    };
    serve_stream(&mut cart, pace, day.before, &mut sent);
    let applied = patchfile::apply(day.file, &mut cart);
    serve_stream(&mut cart, pace, day.after, &mut sent);
    let (refusal, place) = match applied {
        Ok(records) => (0, records),
        Err(refused) => refused,
    };
    let count = sent.len();
    let told = Told {
        refusal,
        place,
        count,
    };
    (sent, told)
}

fn serve_stream(cart: &mut Cart, pace: Pace, stream: &[u8], sent: &mut Vec<u8>) {
    Server::new(Session::new(cart, pace)).listen(stream, sent);
}

pub fn read_patched(read: &Read, pace: Pace, into: &mut [u8]) -> Told {
    let mut cart = match cart(read.dump, read.root, pace) {
        Ok(cart) => cart,
        Err(refused) => {
            return Told {
                refusal: refused.number,
                place: refused.place,
                count: 0,
            };
        }
    };
    match patchfile::apply(read.file, &mut cart) {
        Ok(_) => Told {
            refusal: 0,
            place: 0,
            count: fill_in_pieces(&cart, pace, read.first, read.piece, into),
        },
        Err((refusal, place)) => Told {
            refusal,
            place,
            count: 0,
        },
    }
}

/// Fills a buffer in pieces up to the first fault, and tells how many bytes were placed.
pub fn fill_in_pieces(
    cart: &impl Space,
    pace: Pace,
    first: u64,
    piece: usize,
    into: &mut [u8],
) -> usize {
    let mut placed = 0;
    for part in into.chunks_mut(piece.max(1)) {
        let Some(address) = first.checked_add(placed as u64) else {
            break;
        };
        let (count, fault) = fill(cart, pace, address, part);
        placed += count;
        if fault.is_some() {
            break;
        }
    }
    placed
}

fn no_dump(refused: Refused) -> Told {
    Told {
        refusal: refused.number,
        ..Told::default()
    }
}

#[cfg(test)]
mod tests {
    use super::*;

    #[test]
    fn the_sample_session_sends_what_the_program_serve_prints() {
        let day = Day {
            dump: include_bytes!("../../crates/serve/data/image.lime"),
            root: include_bytes!("../../crates/serve/data/root.bin"),
            before: include_bytes!("../../crates/serve/stdin"),
            file: &[],
            after: &[],
        };
        let printed = include_bytes!("../../crates/serve/stdout");
        for pace in [Pace::Byte, Pace::Page] {
            assert_eq!(serve_day(&day, pace).0, printed);
        }
    }
}
