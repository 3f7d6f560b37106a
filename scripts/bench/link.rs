//! A link in plain Rust, to hold one of a site against: a thread that makes frames, a bounded channel, a writing thread, a
//! connection on 127.0.0.1, and a reading thread that takes the bytes apart and counts the frames. It keeps no journal.
//!
//! `rustc -O scripts/bench/link.rs -o link && ./link N` has the sizes of the links: a channel of 64 places, writes of
//! 4,096 bytes and reads of 512 at most. `./link N wide` has 65,536 of each.

use std::io::{Read, Result, Write};
use std::net::{TcpListener, TcpStream};
use std::sync::mpsc::{sync_channel, Receiver};
use std::thread;
use std::time::Instant;

/// A probe of process 1 to a process that it waits for.
#[derive(Clone, Copy)]
struct Probe {
    origin: u16,
    from: u16,
    to: u16,
}

/// The hello of site 1 in edition 2.
const HELLO: [u8; 6] = [0x43, 0x4D, 0x48, 2, 0, 1];

const FRAME_LEN: usize = 7;

/// How much of what is taken together.
#[derive(Clone, Copy)]
struct Sizes {
    channel: usize,
    write: usize,
    read: usize,
}

fn put(bytes: &mut Vec<u8>, probe: Probe) {
    bytes.push(3);
    bytes.extend_from_slice(&probe.origin.to_be_bytes());
    bytes.extend_from_slice(&probe.from.to_be_bytes());
    bytes.extend_from_slice(&probe.to.to_be_bytes());
}

/// Writes the frames that are there together in one write.
fn write_link(mut out: TcpStream, frames: Receiver<Probe>, most: usize) -> Result<()> {
    out.set_nodelay(true)?;
    out.write_all(&HELLO)?;
    let mut bytes = Vec::with_capacity(most);
    while let Ok(first) = frames.recv() {
        bytes.clear();
        put(&mut bytes, first);
        while bytes.len() + FRAME_LEN <= most {
            match frames.try_recv() {
                Ok(frame) => put(&mut bytes, frame),
                Err(_) => break,
            }
        }
        out.write_all(&bytes)?;
    }
    Ok(())
}

fn number_at(bytes: &[u8], at: usize) -> u16 {
    u16::from_be_bytes([bytes[at], bytes[at + 1]])
}

/// Reads to the end, and counts the frames whose numbers are those of processes.
fn read_link(mut incoming: TcpStream, most: usize) -> Result<u64> {
    let mut hello = [0u8; 6];
    incoming.read_exact(&mut hello)?;
    let mut buffer = vec![0u8; most];
    let mut rest = Vec::new();
    let mut count = 0;
    loop {
        let len = incoming.read(&mut buffer)?;
        if len == 0 || hello != HELLO {
            return Ok(count);
        }
        rest.extend_from_slice(&buffer[..len]);
        let mut at = 0;
        while rest.len() - at >= FRAME_LEN {
            let whole = &rest[at..at + FRAME_LEN];
            let probe = Probe {
                origin: number_at(whole, 1),
                from: number_at(whole, 3),
                to: number_at(whole, 5),
            };
            if whole[0] != 3 || probe.origin == 0 || probe.from == 0 || probe.from == probe.to {
                return Ok(count);
            }
            count += 1;
            at += FRAME_LEN;
        }
        rest.drain(..at);
    }
}

fn main() -> Result<()> {
    let words: Vec<String> = std::env::args().collect();
    let wanted = words.get(1).and_then(|word| word.parse::<u64>().ok()).unwrap_or(1_000_000);
    let sizes = if words.get(2).is_some_and(|word| word == "wide") {
        Sizes { channel: 65_536, write: 65_536, read: 65_536 }
    } else {
        Sizes { channel: 64, write: 4_096, read: 512 }
    };
    let listener = TcpListener::bind("127.0.0.1:0")?;
    let port = listener.local_addr()?.port();
    let reading = thread::spawn(move || read_link(listener.accept()?.0, sizes.read));
    let began = Instant::now();
    let out = TcpStream::connect(("127.0.0.1", port))?;
    let (sender, frames) = sync_channel(sizes.channel);
    let writing = thread::spawn(move || write_link(out, frames, sizes.write));
    for number in 0..wanted {
        let to = 2 + (number % 32) as u16;
        sender.send(Probe { origin: 1, from: 1, to }).expect("the writing thread runs");
    }
    drop(sender);
    writing.join().expect("it ends")?;
    let count = reading.join().expect("it ends")?;
    let rate = count as f64 / began.elapsed().as_secs_f64();
    println!("{count} frames, {rate:.0} a second");
    Ok(())
}
