//! Packets over pipes: the proved program and the plain one serve the same cart, and each packet waits for the reply before it.

use crate::clock::race;
use crate::fills::say;
use bench::packets::frame;
use bench::world::{Size, World};
use std::io::{Read, Result, Write};
use std::path::{Path, PathBuf};
use std::process::{Child, ChildStdin, ChildStdout, Command, Stdio, id};

/// Where `tools/built.sh` leaves the proved program.
const PROVED: &str = concat!(env!("CARGO_MANIFEST_DIR"), "/../crates/serve/out/serve");

/// The cart's pages, one behind the other.
const PAGES: usize = 8;

pub fn compare() -> Result<()> {
    pin()?;
    let folder = std::env::temp_dir().join(format!("aisle-speed-{}", id()));
    std::fs::create_dir(&folder)?;
    let done = ping_pong(&folder);
    std::fs::remove_dir_all(&folder)?;
    done
}

/// Keeps this program, and the servers that it starts, on one processor.
fn pin() -> Result<()> {
    let pinned = Command::new("taskset")
        .args(["-cp", "0", &id().to_string()])
        .stdout(Stdio::null())
        .status()?;
    assert!(pinned.success(), "taskset pins this program");
    Ok(())
}

fn ping_pong(folder: &Path) -> Result<()> {
    let world = World::new(Size {
        pages: PAGES,
        run: PAGES,
        ranges: 64,
    });
    std::fs::write(folder.join("image.lime"), &world.dump)?;
    std::fs::write(folder.join("root.bin"), world.root)?;
    let mut proved = Served::start(Path::new(PROVED), folder)?;
    let mut plain = Served::start(&beside("plain_serve")?, folder)?;
    println!("packets over a pipe, client and server on one processor:");
    for count in [1, 64, 2047] {
        // each page in turn, since its bytes are in the dump's first ranges or in its last
        let packets: Vec<_> = (0..PAGES)
            .map(|page| frame(format!("m{:x},{count:x}", world.page(page)).as_bytes()))
            .collect();
        // `+`, the reply's frame
        let length = 1 + count * 2 + 4;
        for packet in &packets {
            assert_eq!(proved.ask(packet, length)?, plain.ask(packet, length)?);
        }
        let times = race(vec![
            Box::new(|| proved.ask_all(&packets, length)),
            Box::new(|| plain.ask_all(&packets, length)),
        ]);
        say(
            &format!("plain to answer a read of {count} addresses"),
            times[0].by(&times[1]),
        );
    }
    proved.end()?;
    plain.end()
}

/// A program that is built beside this one.
fn beside(name: &str) -> Result<PathBuf> {
    Ok(std::env::current_exe()?.with_file_name(name))
}

struct Served {
    program: Child,
    input: ChildStdin,
    output: ChildStdout,
}

impl Served {
    fn start(program: &Path, folder: &Path) -> Result<Served> {
        let mut program = Command::new(program)
            .current_dir(folder)
            .stdin(Stdio::piped())
            .stdout(Stdio::piped())
            .spawn()?;
        Ok(Served {
            input: program.stdin.take().expect("a pipe"),
            output: program.stdout.take().expect("a pipe"),
            program,
        })
    }

    /// Sends a packet, and answers what comes back, so many bytes.
    fn ask(&mut self, packet: &[u8], length: usize) -> Result<Vec<u8>> {
        self.input.write_all(packet)?;
        let mut reply = vec![0; length];
        self.output.read_exact(&mut reply)?;
        Ok(reply)
    }

    fn ask_all(&mut self, packets: &[Vec<u8>], length: usize) {
        for packet in packets {
            drop(self.ask(packet, length).expect("a reply"));
        }
    }

    fn end(mut self) -> Result<()> {
        drop(self.input);
        self.program.wait().map(drop)
    }
}
