//! A site of edition 3.

use crate::{checked, processes, raw, Error, JournalFault, Result, Row};

/// The number of a world: drawn at random for each run that begins, and the same for all its sites.
pub type World = [u8; raw::WORLD_LEN];

/// A process that was declared deadlocked, and the stamp of the stop at which its cycle stood.
#[derive(Clone, Copy, Debug, PartialEq, Eq)]
pub struct Declaration {
    pub process: u16,
    pub stamp: u64,
}

/// What the journal of a site of edition 3 holds next. It is appended and synced before its messages are sent.
#[derive(Clone, Debug, PartialEq, Eq)]
pub struct Entry3 {
    pub bytes: Vec<u8>,
    /// Each message to send, in this order: the site that it goes to, and its bytes.
    pub sendings: Vec<(u16, Vec<u8>)>,
    pub declared: Option<Declaration>,
}

impl Entry3 {
    /// Reads the bytes of one entry. Its mark is not looked at.
    pub fn read(bytes: &[u8]) -> Result<Entry3> {
        let mut sent = vec![raw::Sending::default(); bytes.len() / 16];
        let mut count = 0;
        // SAFETY: the slices are lent for the call, and overlap nothing.
        checked(unsafe {
            raw::cmh_entry3_sendings(
                bytes.as_ptr(),
                bytes.len(),
                sent.as_mut_ptr(),
                sent.len(),
                &mut count,
            )
        })?;
        let (mut process, mut stamp) = (0, 0);
        // SAFETY: as above.
        checked(unsafe {
            raw::cmh_entry3_declared(bytes.as_ptr(), bytes.len(), &mut process, &mut stamp)
        })?;
        let message = |sending: &raw::Sending| bytes[sending.offset..][..sending.len].to_vec();
        Ok(Entry3 {
            bytes: bytes.to_vec(),
            sendings: sent[..count]
                .iter()
                .map(|each| (each.to, message(each)))
                .collect(),
            declared: (process > 0).then_some(Declaration { process, stamp }),
        })
    }
}

/// How many bytes the longest entry has.
pub fn entry_max() -> usize {
    // SAFETY: it takes nothing.
    unsafe { raw::cmh_site3_entry_max() }
}

/// The controller of one site of edition 3, which is opened before its first step, or where its journal ends: a blocked
/// process may ask for more, and a process may withdraw its waits, so a deadlock ends.
#[derive(Debug)]
pub struct Site3 {
    raw: raw::Handle,
    /// Room for an entry, which grows where one is longer.
    out: Vec<u8>,
}

// SAFETY: as of `Site`.
unsafe impl Send for Site3 {}

impl Site3 {
    /// Opens a site of the world with this number and these rows.
    pub fn new(world: &World, rows: &[Row<'_>], number: u16) -> Result<Site3> {
        let words = Row::words(rows)?;
        let mut raw = raw::Handle::CLOSED;
        // SAFETY: the handle is closed, and the slices are lent for the call.
        checked(unsafe {
            raw::cmh_site3_new(
                &mut raw,
                world.as_ptr(),
                world.len(),
                words.as_ptr(),
                words.len(),
                number,
            )
        })?;
        Ok(Site3 {
            raw,
            out: vec![0; 4096],
        })
    }

    /// Opens the site on the bytes of its journal, and tells how many of them are the journal: the file is cut there. Before
    /// anything is sent or told, the last bytes of the journal are written once more over themselves, [`entry_max`] of them or
    /// all, and the file is synced.
    pub fn open(
        world: &World,
        rows: &[Row<'_>],
        number: u16,
        journal: &[u8],
    ) -> Result<(Site3, u64)> {
        let words = Row::words(rows)?;
        let (mut raw, mut place) = (raw::Handle::CLOSED, 0);
        // SAFETY: the handle is closed, and the slices are lent for the call.
        let code = unsafe {
            raw::cmh_site3_open(
                &mut raw,
                world.as_ptr(),
                world.len(),
                words.as_ptr(),
                words.len(),
                number,
                journal.as_ptr(),
                journal.len(),
                &mut place,
            )
        };
        match code {
            raw::DAMAGED => Err(Error::Journal(JournalFault::Damaged(Some(place)))),
            raw::UNLAWFUL_ENTRY => Err(Error::Journal(JournalFault::UnlawfulEntry(place))),
            code => checked(code).map(|()| {
                let out = vec![0; 4096];
                (Site3 { raw, out }, place)
            }),
        }
    }

    /// The bytes with which the journal begins.
    pub fn head(&mut self) -> [u8; raw::SITE3_HEAD_LEN] {
        let mut out = [0; raw::SITE3_HEAD_LEN];
        // SAFETY: `out` is lent for the call. It is long enough and the handle is open, so that the code is 0.
        unsafe { raw::cmh_site3_head(&mut self.raw, out.as_mut_ptr(), out.len()) };
        out
    }

    /// Takes one event. It is both halves of a step, since out of memory may also come once the entry is read.
    pub fn step(&mut self, event: &[u8]) -> Result<Entry3> {
        let prepared = self.prepare(event)?;
        let entry = prepared.entry.clone();
        prepared.keep();
        Ok(entry)
    }

    /// The first half of a step. The entry is kept or dropped before anything else is done with the site.
    pub fn prepare(&mut self, event: &[u8]) -> Result<Prepared3<'_>> {
        let count = self.written(event)?;
        match Entry3::read(&self.out[..count]) {
            Ok(entry) => Ok(Prepared3 { site: self, entry }),
            Err(error) => {
                // SAFETY: the handle is open, and an entry is prepared.
                unsafe { raw::cmh_site3_drop(&mut self.raw) };
                Err(error)
            }
        }
    }

    /// The processes of this site that are declared deadlocked, ascending.
    pub fn declared(&mut self) -> Result<Vec<u16>> {
        let raw = &mut self.raw;
        // SAFETY: `out` and `count` are lent for the call.
        processes(|out, len, count| unsafe { raw::cmh_site3_declared(raw, out, len, count) })
    }

    /// The processes that a process of this site waits for, ascending.
    pub fn waits(&mut self, process: u16) -> Result<Vec<u16>> {
        let raw = &mut self.raw;
        // SAFETY: as above.
        processes(|out, len, count| unsafe { raw::cmh_site3_waits(raw, process, out, len, count) })
    }

    /// The processes whose requests a process of this site has not answered, ascending.
    pub fn owed(&mut self, process: u16) -> Result<Vec<u16>> {
        let raw = &mut self.raw;
        // SAFETY: as above.
        processes(|out, len, count| unsafe { raw::cmh_site3_owed(raw, process, out, len, count) })
    }

    /// The processes of other sites that a process of this site gave up, and can't ask again before their sites have
    /// answered, ascending.
    pub fn leaving(&mut self, process: u16) -> Result<Vec<u16>> {
        let raw = &mut self.raw;
        // SAFETY: as above.
        processes(|out, len, count| unsafe {
            raw::cmh_site3_leaving(raw, process, out, len, count)
        })
    }

    /// Prepares an event, and answers how many bytes of `out` are its entry.
    fn written(&mut self, event: &[u8]) -> Result<usize> {
        loop {
            let mut count = 0;
            // SAFETY: the slices are lent for the call, and overlap nothing.
            let code = unsafe {
                raw::cmh_site3_prepare(
                    &mut self.raw,
                    event.as_ptr(),
                    event.len(),
                    self.out.as_mut_ptr(),
                    self.out.len(),
                    &mut count,
                )
            };
            if code == raw::SHORT {
                self.out.resize(count, 0);
                continue;
            }
            checked(code)?;
            return Ok(count);
        }
    }
}

impl Drop for Site3 {
    fn drop(&mut self) {
        // SAFETY: nobody uses the handle any more.
        unsafe { raw::cmh_site3_free(&mut self.raw) }
    }
}

/// An entry of edition 3 that is written, and waits to be kept or dropped. Letting it go drops it.
#[derive(Debug)]
pub struct Prepared3<'a> {
    site: &'a mut Site3,
    pub entry: Entry3,
}

impl Prepared3<'_> {
    /// The entry is in the journal: the site goes on from it.
    pub fn keep(self) {
        // SAFETY: an entry is prepared, so that the code is 0; `drop` finds none then, and changes nothing.
        unsafe { raw::cmh_site3_keep(&mut self.site.raw) };
    }
}

impl Drop for Prepared3<'_> {
    fn drop(&mut self) {
        // SAFETY: where nothing is prepared nothing changes.
        unsafe { raw::cmh_site3_drop(&mut self.site.raw) };
    }
}
