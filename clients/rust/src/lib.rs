//! The proved core of cmh, safe to call: [`Site`], [`Site3`], [`got3`], [`sent3`], [`Reader`] and [`audit`] over
//! `include/cmh.h`.
//!
//! Nothing here reads a file, opens a socket or starts a thread. The bytes are those of `docs/formats.md`, and
//! `docs/library.md` has a complete loop. A site or a reader may go to another thread, but it is in one call at a time:
//! they are `Send`, and not `Sync`.
//!
//! ```compile_fail
//! fn shared<T: Sync>() {}
//! shared::<cmh::Site>();
//! ```

use std::{error, fmt, result};

mod journal3;
mod raw;
mod site3;

pub use journal3::{got3, sent3, Got3};
pub use site3::{entry_max, Declaration, Entry3, Prepared3, Site3, World};

/// Why a call was refused. Nothing has changed then, but that a [`Reader`] keeps the fault of its link.
#[derive(Clone, Copy, Debug, PartialEq, Eq)]
#[non_exhaustive]
pub enum Error {
    /// A refusal of `docs/rules.md`, by its number: 1 to 8, and in edition 3 also 14 to 17.
    Refusal(u32),
    OutOfMemory,
    /// The journal holds 1,000,000 entries.
    JournalFull,
    /// The bytes are not those of one event, or of one entry.
    Spelling,
    /// The edition is not 1 or 2.
    Edition,
    /// The text is not the JSON of a topology.
    Rows,
    /// An entry is prepared, and has to be kept or dropped first.
    Prepared,
    /// No entry is prepared.
    NotPrepared,
    /// The number of a site is not from 1 to 9999.
    Number,
    /// The rows are no topology: the fault's number in `docs/formats.md`.
    Topology(u32),
    /// The stream is no link of a sender: the fault's number in `docs/formats.md`.
    Link(u32),
    /// What is wrong with a journal of edition 3.
    Journal(JournalFault),
    /// A link of edition 3 does not go on: the refusal's number in `docs/formats.md`, 7 or 8. The journal is not the newest
    /// one of its site, which takes no more steps.
    Mismatch(u32),
    /// A code that this crate does not know.
    Other(u32),
}

/// What is wrong with a journal of edition 3. Nothing of it is to be cut.
#[derive(Clone, Copy, Debug, PartialEq, Eq)]
pub enum JournalFault {
    /// The bytes do not begin with the whole head of a segment.
    NoSegment,
    /// What stands behind its good entries is not the rest of one append. `Site3::open` says where: at this offset.
    Damaged(Option<u64>),
    /// It is of another site or world, or does not begin with its world.
    OtherSegment,
    /// The entry of this number, counted from 1, is not what the rules make of its event.
    UnlawfulEntry(u64),
}

pub type Result<T> = result::Result<T, Error>;

impl Error {
    fn of(code: u32) -> Error {
        match code {
            1..=8 | 14..=17 => Error::Refusal(code),
            11 => Error::OutOfMemory,
            12 => Error::JournalFull,
            20 => Error::Spelling,
            24 => Error::Edition,
            25 => Error::Rows,
            26 => Error::Prepared,
            27 => Error::NotPrepared,
            28 => Error::Number,
            31..=34 => Error::Topology(code - 30),
            41..=43 => Error::Link(code - 40),
            raw::NO_SEGMENT => Error::Journal(JournalFault::NoSegment),
            raw::DAMAGED => Error::Journal(JournalFault::Damaged(None)),
            raw::OTHER_SEGMENT => Error::Journal(JournalFault::OtherSegment),
            67 | 68 => Error::Mismatch(code - 60),
            code => Error::Other(code),
        }
    }
}

impl fmt::Display for Error {
    fn fmt(&self, f: &mut fmt::Formatter<'_>) -> fmt::Result {
        match self {
            Error::Refusal(number) => write!(f, "refused by rule {number}"),
            Error::OutOfMemory => write!(f, "out of memory"),
            Error::JournalFull => write!(f, "the journal is full"),
            Error::Spelling => write!(f, "the bytes are not those of one event or entry"),
            Error::Edition => write!(f, "there is no such edition"),
            Error::Rows => write!(f, "the text is not the JSON of a topology"),
            Error::Prepared => write!(f, "an entry is prepared"),
            Error::NotPrepared => write!(f, "no entry is prepared"),
            Error::Number => write!(f, "the number of a site is not from 1 to 9999"),
            Error::Topology(number) => write!(f, "topology fault {number}"),
            Error::Link(number) => write!(f, "link fault {number}"),
            Error::Journal(fault) => write!(f, "{fault}"),
            Error::Mismatch(number) => write!(f, "the link does not go on: refusal {number}"),
            Error::Other(code) => write!(f, "code {code}"),
        }
    }
}

impl fmt::Display for JournalFault {
    fn fmt(&self, f: &mut fmt::Formatter<'_>) -> fmt::Result {
        match self {
            JournalFault::NoSegment => write!(f, "the journal does not begin with a segment"),
            JournalFault::Damaged(None) => write!(f, "the journal is damaged"),
            JournalFault::Damaged(Some(offset)) => {
                write!(f, "the journal is damaged at byte {offset}")
            }
            JournalFault::OtherSegment => write!(f, "the journal is of another site or world"),
            JournalFault::UnlawfulEntry(number) => {
                write!(f, "entry {number} of the journal is not lawful")
            }
        }
    }
}

impl error::Error for Error {}

fn checked(code: u32) -> Result<()> {
    match code {
        raw::OK => Ok(()),
        code => Err(Error::of(code)),
    }
}

/// The edition of the rules and formats. All sites of a world are of one.
#[derive(Clone, Copy, Debug, PartialEq, Eq)]
pub enum Edition {
    One = 1,
    Two = 2,
}

/// What a site's journal holds next. It is appended and synced before its frames are sent.
#[derive(Clone, Debug, PartialEq, Eq)]
pub struct Entry {
    pub bytes: Vec<u8>,
    /// Each frame to send, in this order: the site that it goes to, and its bytes.
    pub sendings: Vec<(u16, Vec<u8>)>,
    /// The process that was declared deadlocked.
    pub declared: Option<u16>,
}

impl Entry {
    /// Reads the bytes of one entry.
    pub fn read(edition: Edition, bytes: &[u8]) -> Result<Entry> {
        let mut sendings = Vec::new();
        loop {
            let mut sending = raw::Sending::default();
            // SAFETY: the slice is lent for the call.
            let code = unsafe {
                raw::cmh_entry_sending(
                    edition as u8,
                    bytes.as_ptr(),
                    bytes.len(),
                    sendings.len(),
                    &mut sending,
                )
            };
            if code == raw::NO_SENDING {
                break;
            }
            checked(code)?;
            let frame = &bytes[sending.offset..sending.offset + sending.len];
            sendings.push((sending.to, frame.to_vec()));
        }
        let mut process = 0;
        // SAFETY: as above.
        checked(unsafe {
            raw::cmh_entry_declared(edition as u8, bytes.as_ptr(), bytes.len(), &mut process)
        })?;
        let declared = (process > 0).then_some(process);
        Ok(Entry {
            bytes: bytes.to_vec(),
            sendings,
            declared,
        })
    }
}

/// The processes of a site.
#[derive(Clone, Copy, Debug)]
pub struct Row<'a> {
    pub site: u16,
    pub processes: &'a [u16],
}

impl Row<'_> {
    /// Of each row the site, how many processes it has, and these.
    fn words(rows: &[Row<'_>]) -> Result<Vec<u16>> {
        let mut words = Vec::new();
        for row in rows {
            words.push(row.site);
            words.push(u16::try_from(row.processes.len()).map_err(|_| Error::Topology(1))?);
            words.extend_from_slice(row.processes);
        }
        Ok(words)
    }
}

/// The controller of one site, which is opened before its first step.
#[derive(Debug)]
pub struct Site {
    raw: raw::Handle,
    edition: Edition,
}

// SAFETY: the library declares what its handle holds as `Send`, and each call takes `&mut self`, so that a handle is in one
// call at a time.
unsafe impl Send for Site {}

impl Site {
    /// Opens a site of the world with these rows.
    pub fn new(edition: Edition, rows: &[Row<'_>], number: u16) -> Result<Site> {
        let words = Row::words(rows)?;
        let mut raw = raw::Handle::CLOSED;
        // SAFETY: the handle is closed, and the slice is lent for the call.
        checked(unsafe {
            raw::cmh_site_new(&mut raw, edition as u8, words.as_ptr(), words.len(), number)
        })?;
        Ok(Site { raw, edition })
    }

    /// Opens a site of the world that the text of a topology file gives.
    pub fn from_json(topology: &[u8], number: u16) -> Result<Site> {
        let mut raw = raw::Handle::CLOSED;
        // SAFETY: as above.
        checked(unsafe {
            raw::cmh_site_new_json(&mut raw, topology.as_ptr(), topology.len(), number)
        })?;
        let mut site = Site {
            raw,
            edition: Edition::One,
        };
        if site.header()[4] == Edition::Two as u8 {
            site.edition = Edition::Two;
        }
        Ok(site)
    }

    /// The bytes with which the journal begins.
    pub fn header(&mut self) -> [u8; raw::HEADER_LEN] {
        let mut out = [0; raw::HEADER_LEN];
        // SAFETY: `out` is lent for the call. It is long enough and the handle is open, so that the code is 0.
        unsafe { raw::cmh_site_header(&mut self.raw, out.as_mut_ptr(), out.len()) };
        out
    }

    /// Takes one event.
    pub fn step(&mut self, event: &[u8]) -> Result<Entry> {
        self.entry(raw::cmh_site_step, event)
    }

    /// The first half of a step. The entry is kept or dropped before anything else is done with the site.
    pub fn prepare(&mut self, event: &[u8]) -> Result<Prepared<'_>> {
        let entry = self.entry(raw::cmh_site_prepare, event)?;
        Ok(Prepared { site: self, entry })
    }

    /// The processes of this site that were declared deadlocked, ascending.
    pub fn declared(&mut self) -> Result<Vec<u16>> {
        let raw = &mut self.raw;
        // SAFETY: `out` and `count` are lent for the call.
        processes(|out, len, count| unsafe { raw::cmh_site_declared(raw, out, len, count) })
    }

    /// The processes that a process of this site waits for, ascending.
    pub fn waits(&mut self, process: u16) -> Result<Vec<u16>> {
        let raw = &mut self.raw;
        // SAFETY: as above.
        processes(|out, len, count| unsafe { raw::cmh_site_waits(raw, process, out, len, count) })
    }

    /// The processes whose requests a process of this site has not answered, ascending.
    pub fn owed(&mut self, process: u16) -> Result<Vec<u16>> {
        let raw = &mut self.raw;
        // SAFETY: as above.
        processes(|out, len, count| unsafe { raw::cmh_site_owed(raw, process, out, len, count) })
    }

    fn entry(&mut self, call: raw::Step, event: &[u8]) -> Result<Entry> {
        let mut out = vec![0; raw::ENTRY_MAX];
        let mut count = 0;
        // SAFETY: the slices are lent for the call, and overlap nothing.
        checked(unsafe {
            call(
                &mut self.raw,
                event.as_ptr(),
                event.len(),
                out.as_mut_ptr(),
                out.len(),
                &mut count,
            )
        })?;
        Entry::read(self.edition, &out[..count])
    }
}

impl Drop for Site {
    fn drop(&mut self) {
        // SAFETY: nobody uses the handle any more.
        unsafe { raw::cmh_site_free(&mut self.raw) }
    }
}

fn processes(call: impl FnOnce(*mut u16, usize, &mut usize) -> u32) -> Result<Vec<u16>> {
    let mut out = vec![0; raw::PROCESSES_MAX];
    let mut count = 0;
    checked(call(out.as_mut_ptr(), out.len(), &mut count))?;
    out.truncate(count);
    Ok(out)
}

/// An entry that is written, and waits to be kept or dropped. Letting it go drops it.
#[derive(Debug)]
pub struct Prepared<'a> {
    site: &'a mut Site,
    pub entry: Entry,
}

impl Prepared<'_> {
    /// The entry is in the journal: the site goes on from it.
    pub fn keep(self) {
        // SAFETY: an entry is prepared, so that the code is 0; `drop` finds none then, and changes nothing.
        unsafe { raw::cmh_site_keep(&mut self.site.raw) };
    }
}

impl Drop for Prepared<'_> {
    fn drop(&mut self) {
        // SAFETY: where nothing is prepared nothing changes.
        unsafe { raw::cmh_site_drop(&mut self.site.raw) };
    }
}

/// A reader of what one site sends on one link.
#[derive(Debug)]
pub struct Reader {
    raw: raw::Handle,
}

// SAFETY: as of `Site`.
unsafe impl Send for Reader {}

impl Reader {
    /// A reader of a link that begins with the hello of one of these sites.
    pub fn new(edition: Edition, senders: &[u16]) -> Result<Reader> {
        let mut raw = raw::Handle::CLOSED;
        // SAFETY: the handle is closed, and the slice is lent for the call.
        checked(unsafe {
            raw::cmh_reader_new(&mut raw, edition as u8, senders.as_ptr(), senders.len())
        })?;
        Ok(Reader { raw })
    }

    /// The frames that are whole by the next piece of the stream, however it was cut. Frames before a fault are given
    /// first, and the fault at each later call. After [`Error::OutOfMemory`] the piece may be fed again.
    pub fn feed(&mut self, piece: &[u8]) -> Result<Vec<Vec<u8>>> {
        let mut out = vec![0; piece.len() + raw::FRAME_LEFT];
        let mut count = 0;
        // SAFETY: the slices are lent for the call, and overlap nothing.
        checked(unsafe {
            raw::cmh_reader_feed(
                &mut self.raw,
                piece.as_ptr(),
                piece.len(),
                out.as_mut_ptr(),
                out.len(),
                &mut count,
            )
        })?;
        let mut frames = Vec::new();
        let mut left = &out[..count];
        while let Some(kind) = left.first() {
            let (frame, after) = left.split_at(if *kind == 3 { 7 } else { 5 });
            frames.push(frame.to_vec());
            left = after;
        }
        Ok(frames)
    }

    /// The site whose hello was read, if one was.
    pub fn sender(&mut self) -> Option<u16> {
        // SAFETY: the handle is open.
        let sender = unsafe { raw::cmh_reader_sender(&mut self.raw) };
        (sender > 0).then_some(sender)
    }
}

impl Drop for Reader {
    fn drop(&mut self) {
        // SAFETY: nobody uses the handle any more.
        unsafe { raw::cmh_reader_free(&mut self.raw) }
    }
}

/// The bytes with which a link from the site begins.
pub fn hello(edition: Edition, site: u16) -> Result<[u8; raw::HELLO_LEN]> {
    let mut out = [0; raw::HELLO_LEN];
    // SAFETY: `out` is lent for the call.
    checked(unsafe { raw::cmh_hello(edition as u8, site, out.as_mut_ptr(), out.len()) })?;
    Ok(out)
}

/// What an audit finds.
#[derive(Clone, Copy, Debug, PartialEq, Eq)]
pub enum Verdict {
    /// The journals come from one run.
    Accepted,
    /// They don't.
    Refused,
    /// A file is at fault.
    Fault,
}

/// What an audit tells, with the lines of `cmh audit`.
#[derive(Clone, Debug, PartialEq, Eq)]
pub struct Audit {
    pub verdict: Verdict,
    pub text: String,
}

/// Whether the journals of all sites, in any order, come from one run of the world that the topology file gives.
pub fn audit(topology: &[u8], journals: &[&[u8]]) -> Result<Audit> {
    let files = journals.concat();
    let lens: Vec<usize> = journals.iter().map(|journal| journal.len()).collect();
    let mut out = vec![0; 4096];
    loop {
        let (mut count, mut status) = (0, 0);
        // SAFETY: the slices are lent for the call, and overlap nothing.
        let code = unsafe {
            raw::cmh_audit(
                topology.as_ptr(),
                topology.len(),
                files.as_ptr(),
                files.len(),
                lens.as_ptr(),
                lens.len(),
                out.as_mut_ptr(),
                out.len(),
                &mut count,
                &mut status,
            )
        };
        if code == raw::SHORT {
            out.resize(count, 0);
            continue;
        }
        checked(code)?;
        let verdict = match status {
            0 => Verdict::Accepted,
            1 => Verdict::Refused,
            _ => Verdict::Fault,
        };
        return Ok(Audit {
            verdict,
            text: String::from_utf8_lossy(&out[..count]).into_owned(),
        });
    }
}

/// The version of the library that is linked.
pub fn version() -> u32 {
    // SAFETY: it takes nothing.
    unsafe { raw::cmh_version() }
}
