//! `include/cmh.h` as it stands, but for `cmh_site3_step`, which this crate does in two halves.

use std::{ffi::c_void, ptr};

pub const OK: u32 = 0;
pub const SHORT: u32 = 21;
pub const NO_SENDING: u32 = 29;
pub const NO_SEGMENT: u32 = 51;
pub const DAMAGED: u32 = 52;
pub const OTHER_SEGMENT: u32 = 53;
pub const UNLAWFUL_ENTRY: u32 = 54;

pub const HEADER_LEN: usize = 7;
pub const HELLO_LEN: usize = 6;
pub const FRAME_LEFT: usize = 6;
pub const ENTRY_MAX: usize = 20_881;

/// No process waits for, owes or leaves more others than a world has.
pub const PROCESSES_MAX: usize = 4096;

pub const WORLD_LEN: usize = 16;
pub const SITE3_HEAD_LEN: usize = 71;

/// A `cmh_site`, a `cmh_site3` or a `cmh_reader`.
#[repr(C)]
#[derive(Debug)]
pub struct Handle {
    is_open: bool,
    held: *mut c_void,
}

impl Handle {
    pub const CLOSED: Handle = Handle {
        is_open: false,
        held: ptr::null_mut(),
    };
}

#[repr(C)]
#[derive(Clone, Debug, Default)]
pub struct Sending {
    pub to: u16,
    pub offset: usize,
    pub len: usize,
}

/// `cmh_site_step` or `cmh_site_prepare`.
pub type Step =
    unsafe extern "C" fn(&mut Handle, *const u8, usize, *mut u8, usize, &mut usize) -> u32;

#[link(name = "cmh", kind = "static")]
unsafe extern "C" {
    pub fn cmh_version() -> u32;
    pub fn cmh_site_new(
        site: &mut Handle,
        edition: u8,
        rows: *const u16,
        rows_len: usize,
        number: u16,
    ) -> u32;
    pub fn cmh_site_new_json(
        site: &mut Handle,
        json: *const u8,
        json_len: usize,
        number: u16,
    ) -> u32;
    pub fn cmh_site_header(site: &mut Handle, out: *mut u8, out_len: usize) -> u32;
    pub fn cmh_site_step(
        site: &mut Handle,
        event: *const u8,
        event_len: usize,
        out: *mut u8,
        out_len: usize,
        count: &mut usize,
    ) -> u32;
    pub fn cmh_site_prepare(
        site: &mut Handle,
        event: *const u8,
        event_len: usize,
        out: *mut u8,
        out_len: usize,
        count: &mut usize,
    ) -> u32;
    pub fn cmh_site_keep(site: &mut Handle) -> u32;
    pub fn cmh_site_drop(site: &mut Handle) -> u32;
    pub fn cmh_site_declared(
        site: &mut Handle,
        out: *mut u16,
        out_len: usize,
        count: &mut usize,
    ) -> u32;
    pub fn cmh_site_waits(
        site: &mut Handle,
        process: u16,
        out: *mut u16,
        out_len: usize,
        count: &mut usize,
    ) -> u32;
    pub fn cmh_site_owed(
        site: &mut Handle,
        process: u16,
        out: *mut u16,
        out_len: usize,
        count: &mut usize,
    ) -> u32;
    pub fn cmh_site_free(site: &mut Handle);
    pub fn cmh_entry_sending(
        edition: u8,
        entry: *const u8,
        entry_len: usize,
        place: usize,
        out: &mut Sending,
    ) -> u32;
    pub fn cmh_entry_declared(
        edition: u8,
        entry: *const u8,
        entry_len: usize,
        process: &mut u16,
    ) -> u32;
    pub fn cmh_site3_new(
        site: &mut Handle,
        world: *const u8,
        world_len: usize,
        rows: *const u16,
        rows_len: usize,
        number: u16,
    ) -> u32;
    pub fn cmh_site3_open(
        site: &mut Handle,
        world: *const u8,
        world_len: usize,
        rows: *const u16,
        rows_len: usize,
        number: u16,
        journal: *const u8,
        journal_len: usize,
        place: &mut u64,
    ) -> u32;
    pub fn cmh_site3_head(site: &mut Handle, out: *mut u8, out_len: usize) -> u32;
    pub fn cmh_site3_prepare(
        site: &mut Handle,
        event: *const u8,
        event_len: usize,
        out: *mut u8,
        out_len: usize,
        count: &mut usize,
    ) -> u32;
    pub fn cmh_site3_keep(site: &mut Handle) -> u32;
    pub fn cmh_site3_drop(site: &mut Handle) -> u32;
    pub fn cmh_site3_declared(
        site: &mut Handle,
        out: *mut u16,
        out_len: usize,
        count: &mut usize,
    ) -> u32;
    pub fn cmh_site3_waits(
        site: &mut Handle,
        process: u16,
        out: *mut u16,
        out_len: usize,
        count: &mut usize,
    ) -> u32;
    pub fn cmh_site3_owed(
        site: &mut Handle,
        process: u16,
        out: *mut u16,
        out_len: usize,
        count: &mut usize,
    ) -> u32;
    pub fn cmh_site3_leaving(
        site: &mut Handle,
        process: u16,
        out: *mut u16,
        out_len: usize,
        count: &mut usize,
    ) -> u32;
    pub fn cmh_site3_free(site: &mut Handle);
    pub fn cmh_entry3_sendings(
        entry: *const u8,
        entry_len: usize,
        out: *mut Sending,
        out_len: usize,
        count: &mut usize,
    ) -> u32;
    pub fn cmh_entry3_declared(
        entry: *const u8,
        entry_len: usize,
        process: &mut u16,
        stamp: &mut u64,
    ) -> u32;
    pub fn cmh_site3_entry_max() -> usize;
    pub fn cmh_journal3_got(
        journal: *const u8,
        journal_len: usize,
        from: u16,
        count: &mut u64,
        mark: &mut u64,
    ) -> u32;
    pub fn cmh_journal3_sent(
        journal: *const u8,
        journal_len: usize,
        to: u16,
        got: u64,
        mark: u64,
        out: *mut u8,
        out_len: usize,
        count: &mut usize,
    ) -> u32;
    pub fn cmh_reader_new(
        reader: &mut Handle,
        edition: u8,
        senders: *const u16,
        senders_len: usize,
    ) -> u32;
    pub fn cmh_reader_feed(
        reader: &mut Handle,
        piece: *const u8,
        piece_len: usize,
        out: *mut u8,
        out_len: usize,
        count: &mut usize,
    ) -> u32;
    pub fn cmh_reader_sender(reader: &mut Handle) -> u16;
    pub fn cmh_reader_free(reader: &mut Handle);
    pub fn cmh_hello(edition: u8, site: u16, out: *mut u8, out_len: usize) -> u32;
    pub fn cmh_audit(
        json: *const u8,
        json_len: usize,
        files: *const u8,
        files_len: usize,
        lens: *const usize,
        lens_len: usize,
        out: *mut u8,
        out_len: usize,
        count: &mut usize,
        status: &mut u8,
    ) -> u32;
}
