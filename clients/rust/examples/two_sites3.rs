//! Two sites of edition 3 that wait for each other, each a process of its own, over a socket. Each dies once and is started
//! again on its journal, the link goes on, and the deadlock is found and ends.
//!
//! `two_sites3 FOLDER` leaves the journals of the run in FOLDER/one.cmhj and FOLDER/two.cmhj.
//!
//! Site 2 dies as it writes its second entry, half of which is in the file; site 1 once its third entry is synced, and before
//! its message is sent. What a site does next is told by its state, so it does not matter where it died.

use cmh::{entry_max, got3, sent3, Entry3, Got3, Row, Site3, World};
use std::error::Error;
use std::fs::{self, File, OpenOptions};
use std::io::{self, Read, Write};
use std::os::unix::fs::FileExt;
use std::os::unix::net::{UnixListener, UnixStream};
use std::path::{Path, PathBuf};
use std::process::{self, Child, Command};
use std::{env, thread, time::Duration};

type Fallible<T> = Result<T, Box<dyn Error>>;

/// A program draws it at random, for each run that begins.
const WORLD: World = *b"two sites, no. 3";
const ROWS: [Row; 2] = [
    Row {
        site: 1,
        processes: &[1],
    },
    Row {
        site: 2,
        processes: &[2],
    },
];
const NAMES: [&str; 2] = ["one.cmhj", "two.cmhj"];
const HEAD_LEN: u64 = 71;

/// One site, and its journal. There is one process at each, which has the site's number.
struct Peer {
    number: u16,
    other: u16,
    site: Site3,
    path: PathBuf,
    journal: File,
    entries: u32,
    dies_at: u32,
}

/// A new site. Its journal gets its name once it is whole.
fn begin(folder: &Path, path: &Path, number: u16) -> Fallible<Site3> {
    let mut site = Site3::new(&WORLD, &ROWS, number)?;
    let fresh = path.with_extension("new");
    let mut file = File::create(&fresh)?;
    file.write_all(&site.head())?;
    file.sync_all()?;
    fs::rename(fresh, path)?;
    File::open(folder)?.sync_all()?;
    Ok(site)
}

/// A site that goes on. What was cut off goes, and what was read is written once more and synced, before anybody hears of it.
fn open_again(path: &Path, number: u16) -> Fallible<Site3> {
    let bytes = fs::read(path)?;
    let (site, end) = Site3::open(&WORLD, &ROWS, number, &bytes)?;
    let from = end.saturating_sub(entry_max() as u64);
    let file = OpenOptions::new().write(true).open(path)?;
    file.set_len(end)?;
    file.write_all_at(&bytes[from as usize..end as usize], from)?;
    file.sync_all()?;
    Ok(site)
}

impl Peer {
    fn new(folder: &Path, number: u16, dies_at: u32) -> Fallible<Peer> {
        let path = folder.join(NAMES[usize::from(number) - 1]);
        let site = if path.exists() {
            open_again(&path, number)?
        } else {
            begin(folder, &path, number)?
        };
        Ok(Peer {
            number,
            other: 3 - number,
            site,
            journal: OpenOptions::new().append(true).open(&path)?,
            path,
            entries: 0,
            dies_at,
        })
    }

    /// An event, its entry, the append, the sync, and only then the messages.
    fn take(&mut self, link: &mut UnixStream, event: &[u8]) -> Fallible<()> {
        self.entries += 1;
        let dies = self.entries == self.dies_at;
        let prepared = self.site.prepare(event)?;
        let Entry3 {
            bytes,
            sendings,
            declared,
        } = prepared.entry.clone();
        let len = if dies && self.number == 2 {
            bytes.len() / 2
        } else {
            bytes.len()
        };
        let kept = self.journal.write_all(&bytes[..len]);
        kept.and_then(|()| self.journal.sync_data())
            .map_err(|error| format!("the journal: {error}"))?;
        if dies {
            process::abort();
        }
        prepared.keep();
        if let Some(found) = declared {
            println!(
                "site {} declared {} at {}",
                self.number, found.process, found.stamp
            );
        }
        for (_to, message) in sendings {
            link.write_all(&message)?;
        }
        Ok(())
    }

    /// An ask (1) or a withdrawal (7) that names the other process, or the reply to it (2).
    fn act_on_other(&mut self, link: &mut UnixStream, kind: u8) -> Fallible<()> {
        let [own, other] = [self.number as u8, self.other as u8];
        match kind {
            2 => self.take(link, &[2, 0, own, 0, other]),
            kind => self.take(link, &[kind, 0, own, 1, 0, other]),
        }
    }

    fn has_entries(&self) -> Fallible<bool> {
        Ok(fs::metadata(&self.path)?.len() > HEAD_LEN)
    }

    /// What the site does by itself in its state; answers whether all is done.
    fn act(&mut self, link: &mut UnixStream) -> Fallible<bool> {
        let own = self.number;
        if own == 1 {
            if !self.has_entries()? {
                self.act_on_other(link, 1)?;
            }
            return Ok(self.site.waits(own)?.is_empty());
        }
        if !self.site.declared()?.is_empty() {
            self.act_on_other(link, 7)?; // the victim gives up, ..
        }
        let owes = !self.site.owed(own)?.is_empty();
        if owes && !self.site.leaving(own)?.is_empty() {
            self.act_on_other(link, 2)?; // .. and grants what it holds
        } else if owes && self.site.waits(own)?.is_empty() {
            self.act_on_other(link, 1)?;
        }
        let is_quiet = self.site.owed(own)?.is_empty()
            && self.site.waits(own)?.is_empty()
            && self.site.leaving(own)?.is_empty();
        Ok(is_quiet && self.has_entries()?)
    }

    /// Each site tells what it has got, and is sent what it lacks.
    fn resume(&mut self, link: &mut UnixStream) -> Fallible<()> {
        let journal = fs::read(&self.path)?;
        let got = got3(&journal, self.other)?;
        link.write_all(&got.count.to_be_bytes())?;
        link.write_all(&got.mark.to_be_bytes())?;
        let (mut count, mut mark) = ([0; 8], [0; 8]);
        link.read_exact(&mut count)?;
        link.read_exact(&mut mark)?;
        let told = Got3 {
            count: u64::from_be_bytes(count),
            mark: u64::from_be_bytes(mark),
        };
        link.write_all(&sent3(&journal, self.other, told)?)?;
        Ok(())
    }

    /// Takes the next message of the other site.
    fn receive(&mut self, link: &mut UnixStream) -> Fallible<()> {
        let mut event = [0; 3 + 23];
        event[0] = 4;
        event[1..3].copy_from_slice(&self.other.to_be_bytes());
        link.read_exact(&mut event[3..4])?;
        let end = 3 + if event[3] == 3 { 23 } else { 13 };
        link.read_exact(&mut event[4..end])?;
        self.take(link, &event[..end])
    }

    /// Runs on one connection, until all is done.
    fn run_on(&mut self, link: &mut UnixStream) -> Fallible<()> {
        self.resume(link)?;
        while !self.act(link)? {
            self.receive(link)?;
        }
        Ok(())
    }
}

/// Site 1 listens, and site 2 dials until it is there.
fn connect(listener: Option<&UnixListener>, path: &Path) -> Fallible<UnixStream> {
    if let Some(listener) = listener {
        return Ok(listener.accept()?.0);
    }
    loop {
        match UnixStream::connect(path) {
            Ok(link) => return Ok(link),
            Err(_) => thread::sleep(Duration::from_millis(10)),
        }
    }
}

fn run(folder: &Path, number: u16, dies_at: u32) -> Fallible<()> {
    let mut peer = Peer::new(folder, number, dies_at)?;
    let at = folder.join("link");
    let mut listener = None;
    if number == 1 {
        let _ = fs::remove_file(&at);
        listener = Some(UnixListener::bind(&at)?);
    }
    loop {
        let mut link = connect(listener.as_ref(), &at)?;
        match peer.run_on(&mut link) {
            Ok(()) => return Ok(()),
            // The connection has ended: the other site died, and comes again.
            Err(error) if error.is::<io::Error>() => {}
            Err(error) => return Err(error),
        }
    }
}

fn start(folder: &Path, number: u16, dies_at: u32) -> io::Result<Child> {
    Command::new(env::current_exe()?)
        .arg(folder)
        .args([number.to_string(), dies_at.to_string()])
        .spawn()
}

fn main() -> Fallible<()> {
    let words: Vec<String> = env::args().collect();
    let folder = PathBuf::from(words.get(1).ok_or("two_sites3 FOLDER")?);
    if let [_, _, number, dies_at] = &words[..] {
        return run(&folder, number.parse()?, dies_at.parse()?);
    }
    let mut sites = [start(&folder, 1, 3)?, start(&folder, 2, 2)?];
    for number in [2, 1] {
        let site = &mut sites[usize::from(number) - 1];
        if site.wait()?.code().is_some() {
            return Err(format!("site {number} did not die").into());
        }
        println!("site {number} was killed");
        *site = start(&folder, number, 0)?;
    }
    for mut site in sites {
        if !site.wait()?.success() {
            return Err("a site failed".into());
        }
    }
    let journals = [
        fs::read(folder.join(NAMES[0]))?,
        fs::read(folder.join(NAMES[1]))?,
    ];
    for (from, to) in [(1, 2), (2, 1)] {
        let got = got3(&journals[to - 1], from as u16)?;
        let lacks = sent3(&journals[from - 1], to as u16, got)?.len();
        println!(
            "site {to} got {} messages of site {from}, and lacks {lacks} bytes",
            got.count
        );
    }
    Ok(())
}
