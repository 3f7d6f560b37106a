//! Two sites that wait for each other, each in a thread of its own: the run of examples/cycle-over-two-sites.script.
//!
//! `two_sites FOLDER` leaves the journals of the run in FOLDER/one.cmhj and FOLDER/two.cmhj, and audits them.

use cmh::{audit, hello, Edition, Entry, Reader, Row, Site, Verdict};
use std::error::Error;
use std::fs::{self, File};
use std::io::Write;
use std::sync::mpsc::{channel, Receiver, Sender};
use std::{env, path::PathBuf, thread};

type Fallible<T> = Result<T, Box<dyn Error + Send + Sync>>;

const EDITION: Edition = Edition::One;
const ROWS: [Row; 2] = [
    Row {
        site: 1,
        processes: &[1],
    },
    Row {
        site: 2,
        processes: &[2],
    },
];
const WORLD: &[u8] =
    br#"{"edition":1,"sites":[{"site":1,"processes":[1]},{"site":2,"processes":[2]}]}"#;

/// One site, with its journal and the links to and from the other site.
struct Peer {
    number: u16,
    site: Site,
    journal: File,
    out: Sender<Vec<u8>>,
}

impl Peer {
    /// An event, the step, the append, the sync, and only then the frames.
    fn take(&mut self, event: &[u8]) -> Fallible<Option<u16>> {
        let prepared = self.site.prepare(event)?;
        self.journal.write_all(&prepared.entry.bytes)?;
        self.journal.sync_data()?;
        let Entry {
            sendings, declared, ..
        } = prepared.entry.clone();
        prepared.keep();
        for (_to, frame) in sendings {
            self.out.send(frame)?;
        }
        if let Some(process) = declared {
            println!("site {} declared {process}", self.number);
        }
        Ok(declared)
    }
}

fn event(kind: u8, rest: &[u8]) -> Vec<u8> {
    [&[kind], rest].concat()
}

/// Asks, and takes two frames: the request of the other site, and the probe. Site 1 starts a computation in between.
fn run(mut peer: Peer, link: Receiver<Vec<u8>>) -> Fallible<Site> {
    let other = 3 - peer.number;
    let mut reader = Reader::new(EDITION, &[other])?;
    let header = peer.site.header();
    peer.journal.write_all(&header)?;
    peer.out.send(hello(EDITION, peer.number)?.to_vec())?;
    let [own, its] = [peer.number as u8, other as u8];
    peer.take(&event(1, &[0, own, 1, 0, its]))?;
    let mut taken = 0;
    while taken < 2 {
        for frame in reader.feed(&link.recv()?)? {
            peer.take(&event(4, &[&[0, its], frame.as_slice()].concat()))?;
            taken += 1;
            if taken == 1 && peer.number == 1 {
                peer.take(&event(3, &[0, 1]))?;
            }
        }
    }
    Ok(peer.site)
}

fn main() -> Fallible<()> {
    let folder = PathBuf::from(env::args_os().nth(1).ok_or("two_sites FOLDER")?);
    let paths = [folder.join("one.cmhj"), folder.join("two.cmhj")];
    let ((to_two, at_two), (to_one, at_one)) = (channel(), channel());
    let mut threads = Vec::new();
    for (number, path, out, link) in [
        (1, &paths[0], to_two, at_one),
        (2, &paths[1], to_one, at_two),
    ] {
        let peer = Peer {
            number,
            site: Site::new(EDITION, &ROWS, number)?,
            journal: File::create(path)?,
            out,
        };
        threads.push(thread::spawn(move || run(peer, link)));
    }
    for thread in threads {
        let mut site = thread.join().map_err(|_| "a thread panicked")??;
        println!("declared {:?}", site.declared()?);
    }
    let journals = [fs::read(&paths[0])?, fs::read(&paths[1])?];
    let audit = audit(WORLD, &[&journals[0], &journals[1]])?;
    print!("{}", audit.text);
    if audit.verdict == Verdict::Accepted {
        Ok(())
    } else {
        Err("the audit refused the journals".into())
    }
}
