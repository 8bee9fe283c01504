//! The functions of include/hekaton.h.
#[repr(C)]
pub struct Handle {
    pub at: *mut u8,
    pub live: bool,
}

#[repr(C)]
#[derive(Default)]
pub struct Found {
    pub row: bool,
    pub tag: u32,
    pub len: usize,
}

#[repr(C)]
#[derive(Default)]
pub struct Bounds {
    pub horizon: u64,
    pub readable: u64,
    pub ops: u64,
}

#[repr(C)]
#[derive(Default)]
pub struct Page {
    pub more: bool,
    pub rows: usize,
    pub last: u64,
    pub len: usize,
}

extern "C" {
    pub fn hk_open(handle: *mut Handle, log: u64, streams: u16) -> u8;
    pub fn hk_close(handle: *mut Handle);
    pub fn hk_call(handle: *mut Handle, requests: *const u8, len: usize, out: *mut u8, room: usize, written: *mut usize) -> u8;
    pub fn hk_reply(handle: *mut Handle, from: usize, out: *mut u8, room: usize) -> usize;
    pub fn hk_absorb(handle: *mut Handle, piece: *const u8, len: usize) -> u8;
    pub fn hk_finish(handle: *mut Handle) -> u8;
    pub fn hk_get(handle: *mut Handle, time: u64, table: u16, key: u64, found: *mut Found, out: *mut u8, room: usize) -> u8;
    pub fn hk_count(handle: *mut Handle, time: u64, table: u16, count: *mut u64) -> u8;
    pub fn hk_range(handle: *mut Handle, time: u64, table: u16, low: u64, high: u64, out: *mut u8, room: usize, needed: *mut usize) -> u8;
    pub fn hk_by_tag(handle: *mut Handle, time: u64, table: u16, tag: u32, low: u64, out: *mut u8, room: usize, needed: *mut usize) -> u8;
    pub fn hk_range_page(handle: *mut Handle, time: u64, table: u16, low: u64, high: u64, most: u32, out: *mut u8, room: usize, page: *mut Page) -> u8;
    pub fn hk_by_tag_page(handle: *mut Handle, time: u64, table: u16, tag: u32, low: u64, most: u32, out: *mut u8, room: usize, page: *mut Page) -> u8;
    pub fn hk_front(handle: *mut Handle, bounds: *mut Bounds) -> u8;
    pub fn hk_prune(handle: *mut Handle, horizon: u64) -> u8;
    pub fn hk_merge(handle: *mut Handle, peer: *mut Handle) -> u8;
    pub fn hk_words(number: u8, out: *mut u8, room: usize) -> usize;
    pub fn hk_version(out: *mut u8, room: usize) -> usize;
}
