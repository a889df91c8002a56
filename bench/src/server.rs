//! The loop over the bytes that come from GDB.

use crate::packets::{Item, frame, hear};
use crate::session::Session;
use crate::space::Space;

pub struct Server<'s, S> {
    session: Session<'s, S>,
    /// The latest reply's frame; empty before the first.
    latest: Vec<u8>,
}

impl<'s, S: Space> Server<'s, S> {
    pub fn new(session: Session<'s, S>) -> Server<'s, S> {
        Server {
            session,
            latest: Vec::new(),
        }
    }

    /// Serves all that is whole of the bytes received, and tells how many bytes that is.
    pub fn listen(&mut self, received: &[u8], sent: &mut Vec<u8>) -> usize {
        let mut used = 0;
        loop {
            let item = hear(&received[used..]);
            match item {
                Item::Unfinished => return used,
                Item::Ignored | Item::NoEnd => {}
                Item::WrongSum(_) => sent.push(b'-'),
                Item::Resend => sent.extend(&self.latest),
                Item::Packet(payload) => {
                    self.latest = frame(&self.session.answer(payload));
                    sent.push(b'+');
                    sent.extend(&self.latest);
                }
            }
            used += item.used();
        }
    }
}
