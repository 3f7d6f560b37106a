//! A deadlock of two sites in edition 3 that ends: the process that is declared withdraws, the other one goes on, and then
//! it asks again.
//!
//! `victim FOLDER` leaves the journals of the run in FOLDER/one.cmhj and FOLDER/two.cmhj. Process 1 lives at site 1 and
//! process 2 at site 2. Both sites are in this program, and a queue is the link from each to the other.

use cmh::{Declaration, Row, Site3, World};
use std::collections::VecDeque;
use std::error::Error;
use std::fs::File;
use std::io::Write;
use std::{env, path::PathBuf};

type Fallible<T> = Result<T, Box<dyn Error>>;

/// A program draws it at random, for each run that begins.
const WORLD: World = *b"victim\0\0\0\0\0\0\0\0\0\0";
const ROWS: [Row; 2] = [
    Row {
        site: 1,
        processes: &[1],
    },
    Row {
        site: 2,
        processes: &[2],
    },
];

/// One site, its journal, and the messages that are on the way to it.
struct Peer {
    site: Site3,
    journal: File,
    queue: VecDeque<Vec<u8>>,
}

/// Both sites: that of process 1 and that of process 2.
struct Run([Peer; 2]);

impl Run {
    /// An event, the step, the append, the sync, and only then the messages.
    fn take(&mut self, site: u16, event: &[u8]) -> Fallible<()> {
        let Peer {
            site: controller,
            journal,
            ..
        } = &mut self.0[usize::from(site) - 1];
        let prepared = controller.prepare(event)?;
        journal.write_all(&prepared.entry.bytes)?;
        journal.sync_data()?;
        let entry = prepared.entry.clone();
        prepared.keep();
        for (to, message) in entry.sendings {
            self.0[usize::from(to) - 1].queue.push_back(message);
        }
        if let Some(Declaration { process, stamp }) = entry.declared {
            println!("site {site} declared {process} at {stamp}");
        }
        Ok(())
    }

    /// Delivers what is on the way until nothing is.
    fn settle(&mut self) -> Fallible<()> {
        while let Some(at) = self.0.iter().position(|peer| !peer.queue.is_empty()) {
            let message = self.0[at].queue.pop_front().unwrap_or_default();
            let from = 2 - at as u8;
            self.take(at as u16 + 1, &[&[4, 0, from], message.as_slice()].concat())?;
        }
        Ok(())
    }

    fn show(&mut self, when: &str) -> Fallible<()> {
        let mut told = Vec::new();
        for (process, peer) in (1..).zip(&mut self.0) {
            let waits = peer.site.waits(process)?;
            let holder = waits.first().map_or("nobody".to_string(), u16::to_string);
            let mut text = format!("{process} waits for {holder},");
            for other in peer.site.leaving(process)? {
                text += &format!(" {process} leaves {other},");
            }
            told.push(format!("{text} {} declared", peer.site.declared()?.len()));
        }
        println!("{when}: {}", told.join("; "));
        Ok(())
    }
}

fn main() -> Fallible<()> {
    let folder = PathBuf::from(env::args_os().nth(1).ok_or("victim FOLDER")?);
    let open = |number, name| -> Fallible<Peer> {
        let mut site = Site3::new(&WORLD, &ROWS, number)?;
        let mut journal = File::create(folder.join(name))?;
        journal.write_all(&site.head())?;
        Ok(Peer {
            site,
            journal,
            queue: VecDeque::new(),
        })
    };
    let mut run = Run([open(1, "one.cmhj")?, open(2, "two.cmhj")?]);
    run.take(1, &[1, 0, 1, 1, 0, 2])?; // 1 asks for what 2 holds, and 2 for what 1 holds
    run.settle()?;
    run.take(2, &[1, 0, 2, 1, 0, 1])?;
    run.settle()?;
    run.show("deadlock")?;
    run.take(2, &[7, 0, 2, 1, 0, 1])?; // 2 withdraws
    run.show("withdrawn")?;
    run.settle()?;
    run.take(2, &[2, 0, 2, 0, 1])?; // and gives 1 what it holds
    run.settle()?;
    run.show("ended")?;
    run.take(2, &[1, 0, 2, 1, 0, 1])?; // it asks again, and gets it
    run.settle()?;
    run.take(1, &[2, 0, 1, 0, 2])?;
    run.settle()?;
    run.show("gone on")
}
