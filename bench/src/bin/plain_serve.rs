//! Serves the cart in this folder over standard input and output, by the independent implementation.

use bench::cart::{SERVED, cart};
use bench::server::Server;
use bench::session::Session;
use bench::space::Pace;
use std::io::{Read, Write, stdin, stdout};

fn main() -> std::io::Result<()> {
    let dump = std::fs::read("image.lime")?;
    let root = std::fs::read("root.bin")?;
    let served = &dump[..dump.len().min(SERVED)];
    let mut cart = match cart(served, &root, Pace::Page) {
        Ok(cart) => cart,
        Err(refused) => {
            println!("refused {:02x}", refused.number);
            return Ok(());
        }
    };
    let mut server = Server::new(Session::new(&mut cart, Pace::Page));
    let mut received = Vec::new();
    let mut buffer = [0; 4100];
    let mut sent = Vec::new();
    loop {
        let count = stdin().read(&mut buffer)?;
        if count == 0 {
            return Ok(());
        }
        received.extend(&buffer[..count]);
        let used = server.listen(&received, &mut sent);
        received.drain(..used);
        stdout().write_all(&sent)?;
        stdout().flush()?;
        sent.clear();
    }
}
