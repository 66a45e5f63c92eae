//! The calls of the C library, as `include/serialcheck.h` has them.
use std::ffi::c_void;

pub const YES: u32 = 0;
pub const NO: u32 = 1;
pub const MISUSE: u32 = 2;
pub const MORE: u32 = 4;
pub const SMALL: u32 = 6;

pub const STRICT: u32 = 1;
pub const ANYWHERE: u32 = 2;
pub const NEED_PATTERN: u32 = 4;

/// What a call answers: the header's `serialcheck_answer`.
#[repr(C)]
#[derive(Clone, Debug, Default, PartialEq, Eq)]
pub struct Answer {
    pub status: u32,
    pub reason: u32,
    pub from: u64,
    pub to: u64,
    pub bytes: u64,
    pub contents: u64,
    pub refs: u64,
    pub depth: u64,
    pub handles: u64,
    pub name_from: u64,
    pub name_to: u64,
    pub whole: u64,
}

/// A filter or a stream: the header's `serialcheck_filter` and `serialcheck_stream`.
#[repr(C)]
#[derive(Debug)]
pub struct Handle {
    at: *mut c_void,
    is_open: bool,
}

impl Handle {
    /// A handle that holds nothing: SERIALCHECK_NONE. It stays where it is.
    pub fn none() -> Box<Handle> {
        Box::new(Handle { at: std::ptr::null_mut(), is_open: false })
    }
}

pub type ReadFilter = unsafe extern "C" fn(*const u8, usize, *const u8, usize, u32, *mut Answer, *mut Handle) -> u32;

extern "C" {
    pub fn serialcheck_filter_new(
        text: *const u8,
        len: usize,
        modules: *const u8,
        modules_len: usize,
        flags: u32,
        answer: *mut Answer,
        filter: *mut Handle,
    ) -> u32;
    pub fn serialcheck_filter_read(
        file: *const u8,
        len: usize,
        modules: *const u8,
        modules_len: usize,
        flags: u32,
        answer: *mut Answer,
        filter: *mut Handle,
    ) -> u32;
    pub fn serialcheck_filter_check(filter: *const Handle, bytes: *const u8, len: usize, answer: *mut Answer) -> u32;
    pub fn serialcheck_filter_free(filter: *mut Handle);
    pub fn serialcheck_stream_new(filter: *const Handle, answer: *mut Answer, stream: *mut Handle) -> u32;
    pub fn serialcheck_stream_feed(stream: *mut Handle, bytes: *const u8, len: usize, answer: *mut Answer) -> u32;
    pub fn serialcheck_stream_class(stream: *mut Handle, room: *mut u8, len: usize, told: *mut Answer) -> u32;
    pub fn serialcheck_stream_end(stream: *mut Handle, answer: *mut Answer) -> u32;
    pub fn serialcheck_stream_free(stream: *mut Handle);
    pub fn serialcheck_show(bytes: *const u8, len: usize, most: usize, room: *mut u8, room_len: usize, answer: *mut Answer) -> u32;
    pub fn serialcheck_list(
        bytes: *const u8,
        len: usize,
        filter: *const u8,
        filter_len: usize,
        modules: *const u8,
        modules_len: usize,
        most: usize,
        room: *mut u8,
        room_len: usize,
        answer: *mut Answer,
    ) -> u32;
    pub fn serialcheck_version() -> u32;
    pub fn serialcheck_line(answer: *const Answer, room: *mut u8, room_len: usize, told: *mut Answer) -> u32;
    pub fn serialcheck_class(bytes: *const u8, len: usize, answer: *const Answer, room: *mut u8, room_len: usize, told: *mut Answer) -> u32;
    pub fn serialcheck_reason_name(reason: u32, room: *mut u8, room_len: usize, told: *mut Answer) -> u32;
    pub fn serialcheck_reason_text(reason: u32, room: *mut u8, room_len: usize, told: *mut Answer) -> u32;
    pub fn serialcheck_cause_name(cause: u32, room: *mut u8, room_len: usize, told: *mut Answer) -> u32;
}
