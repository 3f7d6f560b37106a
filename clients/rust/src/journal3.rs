//! What the journal of a site of edition 3 has of its links.

use crate::{checked, raw, Result};

/// How many messages of a site were got, and the mark of their bytes. The receiver tells both when a connection is made.
#[derive(Clone, Copy, Debug, PartialEq, Eq)]
pub struct Got3 {
    pub count: u64,
    pub mark: u64,
}

/// What the journal has got from site `from`.
pub fn got3(journal: &[u8], from: u16) -> Result<Got3> {
    let (mut count, mut mark) = (0, 0);
    // SAFETY: the slice is lent for the call.
    checked(unsafe {
        raw::cmh_journal3_got(journal.as_ptr(), journal.len(), from, &mut count, &mut mark)
    })?;
    Ok(Got3 { count, mark })
}

/// The messages that the journal sends to site `to`, but for those that it has got: they are written to the connection, and
/// then those of further entries.
pub fn sent3(journal: &[u8], to: u16, got: Got3) -> Result<Vec<u8>> {
    let mut out = vec![0; 4096];
    loop {
        let mut count = 0;
        // SAFETY: the slices are lent for the call, and overlap nothing.
        let code = unsafe {
            raw::cmh_journal3_sent(
                journal.as_ptr(),
                journal.len(),
                to,
                got.count,
                got.mark,
                out.as_mut_ptr(),
                out.len(),
                &mut count,
            )
        };
        out.resize(count, 0);
        if code != raw::SHORT {
            checked(code)?;
            return Ok(out);
        }
    }
}
