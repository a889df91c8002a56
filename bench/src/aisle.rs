//! The proved libraries, by the functions that the crate `exports` makes of them.

use crate::cart::{Day, Read, Told};

mod raw {
    use super::Told;

    #[link(name = "exports", kind = "static")]
    unsafe extern "C" {
        pub fn aisle_load(dump: *const u8, dump_len: usize, room: usize, told: *mut Told);
        pub fn aisle_serve(
            dump: *const u8,
            dump_len: usize,
            root: *const u8,
            root_len: usize,
            before: *const u8,
            before_len: usize,
            file: *const u8,
            file_len: usize,
            after: *const u8,
            after_len: usize,
            sent: *mut u8,
            sent_len: usize,
            told: *mut Told,
        );
        pub fn aisle_read(
            dump: *const u8,
            dump_len: usize,
            root: *const u8,
            root_len: usize,
            file: *const u8,
            file_len: usize,
            first: u64,
            piece: usize,
            into: *mut u8,
            into_len: usize,
            told: *mut Told,
        );
        pub fn aisle_read_bytewise(
            dump: *const u8,
            dump_len: usize,
            root: *const u8,
            root_len: usize,
            file: *const u8,
            file_len: usize,
            first: u64,
            piece: usize,
            into: *mut u8,
            into_len: usize,
            told: *mut Told,
        );
    }
}

/// What no call tells, so that a call that tells nothing is seen.
const UNTOLD: Told = Told {
    refusal: 0xEE,
    place: usize::MAX,
    count: usize::MAX,
};

pub fn load_dump(dump: &[u8], room: usize) -> Told {
    let mut told = UNTOLD;
    // SAFETY: the pointer and the length are a slice's, and nothing else holds what is told.
    unsafe { raw::aisle_load(dump.as_ptr(), dump.len(), room, &mut told) };
    told
}

/// Fills `sent` with all that is sent, and zeros behind it.
pub fn serve_day(day: &Day, sent: &mut [u8]) -> Told {
    let mut told = UNTOLD;
    // SAFETY: each pointer and length are a slice's; `sent` and `told` are borrowed by this call alone.
    unsafe {
        raw::aisle_serve(
            day.dump.as_ptr(),
            day.dump.len(),
            day.root.as_ptr(),
            day.root.len(),
            day.before.as_ptr(),
            day.before.len(),
            day.file.as_ptr(),
            day.file.len(),
            day.after.as_ptr(),
            day.after.len(),
            sent.as_mut_ptr(),
            sent.len(),
            &mut told,
        );
    }
    told
}

/// By the fills of the cart's layers.
pub fn read_patched(read: &Read, into: &mut [u8]) -> Told {
    call(raw::aisle_read, read, into)
}

/// By the body that every space's fill has to begin with: byte by byte.
pub fn read_bytewise(read: &Read, into: &mut [u8]) -> Told {
    call(raw::aisle_read_bytewise, read, into)
}

type ReadCall = unsafe extern "C" fn(
    dump: *const u8,
    dump_len: usize,
    root: *const u8,
    root_len: usize,
    file: *const u8,
    file_len: usize,
    first: u64,
    piece: usize,
    into: *mut u8,
    into_len: usize,
    told: *mut Told,
);

fn call(function: ReadCall, read: &Read, into: &mut [u8]) -> Told {
    let mut told = UNTOLD;
    // SAFETY: each pointer and length are a slice's; `into` and `told` are borrowed by this call alone.
    unsafe {
        function(
            read.dump.as_ptr(),
            read.dump.len(),
            read.root.as_ptr(),
            read.root.len(),
            read.file.as_ptr(),
            read.file.len(),
            read.first,
            read.piece,
            into.as_mut_ptr(),
            into.len(),
            &mut told,
        );
    }
    told
}
