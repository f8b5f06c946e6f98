//! The functions of atomfs.h.

use std::ffi::CStr;
use std::os::raw::{c_char, c_void};

#[repr(C)]
pub struct Handle {
    pub is_open: u8,
    pub most: u32,
    pub at: *mut c_void,
}

#[repr(C)]
#[derive(Clone, Copy, Default)]
pub struct RawStat {
    pub is_dir: u8,
    pub size: u64,
}

#[repr(C)]
pub struct Request {
    pub call: u8,
    pub path: *const u8,
    pub length: usize,
    pub other: *const u8,
    pub other_length: usize,
    pub offset: u64,
    pub size: u64,
    pub bytes: *const u8,
    pub bytes_length: usize,
}

pub const OK: u8 = 0;
pub const TOO_SMALL: u8 = 1;
pub const UNTOLD: u8 = 2;
pub const WAITS: u8 = 3;
pub const BAD_LIMIT: u8 = 6;
pub const NO_MEMORY: u8 = 7;
pub const NO_SEAT: u8 = 8;
pub const SEAT_BUSY: u8 = 9;
pub const FULL: u8 = 10;
pub const NO_REPLY: u8 = 11;
pub const UNDER_WAY: u8 = 12;
pub const BAD_HEADER: u8 = 16;
pub const BAD_PATH: u8 = 20;
pub const PATH_NOT_ABSOLUTE: u8 = 28;
pub const PATH_NUL: u8 = 29;
pub const PATH_NAME_TOO_LONG: u8 = 30;
pub const PATH_TOO_MANY_NAMES: u8 = 31;
pub const PATH_DOT: u8 = 32;
pub const PATH_TRAILING_SLASH: u8 = 33;
pub const NO_CALL: u8 = 34;
pub const BAD_CHOICE: u8 = 35;
/// From here on a call has failed, and the rest is the number of its error.
pub const FAILED: u8 = 128;

/// By this number all calls are drawn.
pub const WHOLE: u64 = u64::MAX;

pub const FOUND_LAWFUL: u8 = 0;
pub const FOUND_NO_ORDER: u8 = 1;
pub const FOUND_NO_HISTORY: u8 = 2;
pub const TELL_FRONT: u8 = 1;
pub const TELL_WORDS: u8 = 2;

/// A tree that threads share.
#[repr(C)]
pub struct Shared {
    private: [u8; 0],
}

/// A session of one.
#[repr(C)]
pub struct Session {
    private: [u8; 0],
}

/// What is called after each event.
pub type Gate = extern "C" fn(*mut c_void, u64, u8, u64);

/// By this seed calls do not pause.
pub const NO_PAUSES: u64 = u64::MAX;

/// A function of a session on one path.
pub type OfSession = unsafe extern "C" fn(*mut Session, *const u8, usize, *mut u64) -> u8;

/// A function on one path.
pub type OnPath = unsafe extern "C" fn(*mut Handle, u64, *const u8, usize, *mut u64) -> u8;

/// A function on two paths.
pub type OnPaths = unsafe extern "C" fn(*mut Handle, u64, *const u8, usize, *const u8, usize, *mut u64) -> u8;

extern "C" {
    pub fn atomfs_open_with(fs: *mut Handle, limit: usize, version: u8) -> u8;
    pub fn atomfs_open_from(
        fs: *mut Handle,
        limit: usize,
        version: u8,
        text: *const u8,
        length: usize,
        line: *mut usize,
    ) -> u8;
    pub fn atomfs_open_at(fs: *mut Handle, limit: usize, other: *mut Handle, number: *mut u64) -> u8;
    pub fn atomfs_close(fs: *mut Handle) -> u8;
    pub fn atomfs_seat(fs: *mut Handle, seat: *mut u64) -> u8;

    pub fn atomfs_mkdir(fs: *mut Handle, seat: u64, path: *const u8, length: usize, number: *mut u64) -> u8;
    pub fn atomfs_mknod(fs: *mut Handle, seat: u64, path: *const u8, length: usize, number: *mut u64) -> u8;
    pub fn atomfs_unlink(fs: *mut Handle, seat: u64, path: *const u8, length: usize, number: *mut u64) -> u8;
    pub fn atomfs_rmdir(fs: *mut Handle, seat: u64, path: *const u8, length: usize, number: *mut u64) -> u8;
    pub fn atomfs_rename(
        fs: *mut Handle,
        seat: u64,
        path: *const u8,
        length: usize,
        other: *const u8,
        other_length: usize,
        number: *mut u64,
    ) -> u8;
    pub fn atomfs_exchange(
        fs: *mut Handle,
        seat: u64,
        path: *const u8,
        length: usize,
        other: *const u8,
        other_length: usize,
        number: *mut u64,
    ) -> u8;
    pub fn atomfs_stat(
        fs: *mut Handle,
        seat: u64,
        path: *const u8,
        length: usize,
        stat: *mut RawStat,
        number: *mut u64,
    ) -> u8;
    pub fn atomfs_readdir(
        fs: *mut Handle,
        seat: u64,
        path: *const u8,
        length: usize,
        out: *mut u8,
        room: usize,
        count: *mut usize,
        number: *mut u64,
    ) -> u8;
    pub fn atomfs_list(
        fs: *mut Handle,
        seat: u64,
        path: *const u8,
        length: usize,
        after: *const u8,
        after_length: usize,
        most: u32,
        out: *mut u8,
        room: usize,
        count: *mut usize,
        number: *mut u64,
    ) -> u8;
    pub fn atomfs_read(
        fs: *mut Handle,
        seat: u64,
        path: *const u8,
        length: usize,
        offset: u64,
        out: *mut u8,
        room: usize,
        count: *mut usize,
        number: *mut u64,
    ) -> u8;
    pub fn atomfs_write(
        fs: *mut Handle,
        seat: u64,
        path: *const u8,
        length: usize,
        offset: u64,
        bytes: *const u8,
        bytes_length: usize,
        wrote: *mut u64,
        number: *mut u64,
    ) -> u8;
    pub fn atomfs_truncate(
        fs: *mut Handle,
        seat: u64,
        path: *const u8,
        length: usize,
        size: u64,
        number: *mut u64,
    ) -> u8;

    pub fn atomfs_begin_call(fs: *mut Handle, seat: u64, request: *const Request, number: *mut u64) -> u8;
    pub fn atomfs_step(fs: *mut Handle, seat: u64, did: *mut u8, about: *mut u64) -> u8;
    pub fn atomfs_step_any(fs: *mut Handle, seat: *mut u64, did: *mut u8, about: *mut u64) -> u8;

    pub fn atomfs_reply_done(fs: *mut Handle, number: u64) -> u8;
    pub fn atomfs_reply_stat(fs: *mut Handle, number: u64, stat: *mut RawStat) -> u8;
    pub fn atomfs_reply_names(
        fs: *mut Handle,
        number: u64,
        after: *const u8,
        after_length: usize,
        out: *mut u8,
        room: usize,
        count: *mut usize,
    ) -> u8;
    pub fn atomfs_reply_bytes(fs: *mut Handle, number: u64, out: *mut u8, room: usize, count: *mut usize) -> u8;
    pub fn atomfs_reply_wrote(fs: *mut Handle, number: u64, wrote: *mut u64) -> u8;

    pub fn atomfs_version() -> *const c_char;
    pub fn atomfs_status_text(status: u8) -> *const c_char;

    pub fn atomfs_journal(
        fs: *mut Handle,
        first: usize,
        out: *mut u8,
        room: usize,
        count: *mut usize,
        entries: *mut usize,
    ) -> u8;
    pub fn atomfs_opening(fs: *mut Handle, out: *mut u8, room: usize, count: *mut usize) -> u8;
    pub fn atomfs_checkpoint(fs: *mut Handle, out: *mut u8, room: usize, count: *mut usize, number: *mut u64) -> u8;
    pub fn atomfs_forget(fs: *mut Handle, number: *mut u64) -> u8;
    pub fn atomfs_keep(fs: *mut Handle, most: u32) -> u8;
    pub fn atomfs_verdict(fs: *mut Handle, place: *mut u64, kind: *mut u8) -> u8;
    pub fn atomfs_tree(fs: *mut Handle, out: *mut u8, room: usize, count: *mut usize) -> u8;

    pub fn atomfs_run(script: *const u8, length: usize, out: *mut u8, room: usize, count: *mut usize) -> u8;
    pub fn atomfs_check(journal: *const u8, length: usize, out: *mut u8, room: usize, count: *mut usize) -> u8;

    pub fn atomfs_trace(
        script: *const u8,
        length: usize,
        schedule: u8,
        seed: u64,
        every: u8,
        out: *mut u8,
        room: usize,
        count: *mut usize,
    ) -> u8;
    pub fn atomfs_draw(
        text: *const u8,
        length: usize,
        schedule: u8,
        seed: u64,
        around: u64,
        out: *mut u8,
        room: usize,
        count: *mut usize,
    ) -> u8;
    pub fn atomfs_schedule(
        script: *const u8,
        length: usize,
        schedule: u8,
        seed: u64,
        out: *mut u8,
        room: usize,
        count: *mut usize,
    ) -> u8;
    pub fn atomfs_seeds(
        script: *const u8,
        length: usize,
        seed: u64,
        runs: u64,
        out: *mut u8,
        room: usize,
        count: *mut usize,
    ) -> u8;
    pub fn atomfs_linearize(
        history: *const u8,
        length: usize,
        limit: u64,
        tell: u8,
        out: *mut u8,
        room: usize,
        count: *mut usize,
        found: *mut u8,
    ) -> u8;
    pub fn atomfs_explain(word: *const u8, length: usize, out: *mut u8, room: usize, count: *mut usize) -> u8;

    pub fn atomfs_shared_from(shared: *mut *mut Shared, fs: *mut Handle) -> u8;
    pub fn atomfs_shared_close(shared: *mut *mut Shared) -> u8;
    pub fn atomfs_shared_session(shared: *mut Shared, session: *mut *mut Session, seat: *mut u64) -> u8;
    pub fn atomfs_shared_end(session: *mut *mut Session) -> u8;
    pub fn atomfs_shared_lock(shared: *mut Shared, fs: *mut *mut Handle) -> u8;
    pub fn atomfs_shared_unlock(shared: *mut Shared) -> u8;
    pub fn atomfs_shared_gate(shared: *mut Shared, gate: Option<Gate>, context: *mut c_void) -> u8;
    pub fn atomfs_shared_pauses(shared: *mut Shared, seed: u64) -> u8;
    pub fn atomfs_shared_wait_most(shared: *mut Shared, milliseconds: u32) -> u8;
    pub fn atomfs_shared_holders(shared: *mut Shared, out: *mut u8, room: usize, count: *mut usize) -> u8;
    pub fn atomfs_shared_finish(shared: *mut Shared, count: *mut u64) -> u8;
    pub fn atomfs_shared_mkdir(session: *mut Session, path: *const u8, length: usize, number: *mut u64) -> u8;
    pub fn atomfs_shared_mknod(session: *mut Session, path: *const u8, length: usize, number: *mut u64) -> u8;
    pub fn atomfs_shared_unlink(session: *mut Session, path: *const u8, length: usize, number: *mut u64) -> u8;
    pub fn atomfs_shared_rmdir(session: *mut Session, path: *const u8, length: usize, number: *mut u64) -> u8;
    pub fn atomfs_shared_rename(
        session: *mut Session,
        path: *const u8,
        length: usize,
        other: *const u8,
        other_length: usize,
        number: *mut u64,
    ) -> u8;
    pub fn atomfs_shared_exchange(
        session: *mut Session,
        path: *const u8,
        length: usize,
        other: *const u8,
        other_length: usize,
        number: *mut u64,
    ) -> u8;
    pub fn atomfs_shared_stat(
        session: *mut Session,
        path: *const u8,
        length: usize,
        stat: *mut RawStat,
        number: *mut u64,
    ) -> u8;
    pub fn atomfs_shared_readdir(
        session: *mut Session,
        path: *const u8,
        length: usize,
        out: *mut u8,
        room: usize,
        count: *mut usize,
        number: *mut u64,
    ) -> u8;
    pub fn atomfs_shared_list(
        session: *mut Session,
        path: *const u8,
        length: usize,
        after: *const u8,
        after_length: usize,
        most: u32,
        out: *mut u8,
        room: usize,
        count: *mut usize,
        number: *mut u64,
    ) -> u8;
    pub fn atomfs_shared_read(
        session: *mut Session,
        path: *const u8,
        length: usize,
        offset: u64,
        out: *mut u8,
        room: usize,
        count: *mut usize,
        number: *mut u64,
    ) -> u8;
    pub fn atomfs_shared_write(
        session: *mut Session,
        path: *const u8,
        length: usize,
        offset: u64,
        bytes: *const u8,
        bytes_length: usize,
        wrote: *mut u64,
        number: *mut u64,
    ) -> u8;
    pub fn atomfs_shared_truncate(
        session: *mut Session,
        path: *const u8,
        length: usize,
        size: u64,
        number: *mut u64,
    ) -> u8;

    pub fn atomfs_check_path(path: *const u8, length: usize, version: u8) -> u8;
}

/// A text of the library that stays as it is.
pub fn words(text: *const c_char) -> &'static str {
    if text.is_null() {
        return "";
    }
    // SAFETY: the library's words are constants, which end with a byte 0.
    unsafe { CStr::from_ptr(text) }.to_str().unwrap_or("")
}
