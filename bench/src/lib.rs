//! A small implementation of what Aisle does, written from its documents alone, and the proved libraries beside it.

pub mod aisle;
pub mod cart;
pub mod lime;
pub mod overlay;
pub mod packets;
pub mod paging;
pub mod patchfile;
pub mod random;
pub mod samples;
pub mod server;
pub mod session;
pub mod space;
pub mod tally;
pub mod world;
