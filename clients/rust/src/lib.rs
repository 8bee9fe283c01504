//! A verified read replica, embedded: docs/EMBEDDING.md. No dependency but libhekaton.
//!
//! ```no_run
//! let mut replica = hekaton::Replica::open(7, 1)?;
//! replica.absorb(&std::fs::read("examples/first.bin").unwrap())?;
//! let row = replica.get(1, 1, 5)?.expect("a row");
//! println!("tag {}, body {:x?}", row.tag, row.body);
//! # Ok::<(), hekaton::Refused>(())
//! ```
mod sys;

use std::fmt;

const ROOM: usize = 4_096;

/// A key, a tag and the length of a body.
const HEAD: usize = 14;

/// Why a call was refused, by its number.
#[derive(Clone, Copy, PartialEq, Eq, Debug)]
pub struct Refused {
    pub number: u8,
}

impl fmt::Display for Refused {
    fn fmt(&self, f: &mut fmt::Formatter<'_>) -> fmt::Result {
        let mut words = [0; 512];
        let n = unsafe { sys::hk_words(self.number, words.as_mut_ptr(), words.len()) };
        match std::str::from_utf8(&words[..n.min(512)]) {
            Ok(line) if n > 0 => f.write_str(line.trim_end()),
            _none => write!(f, "refused {}", self.number),
        }
    }
}

impl std::error::Error for Refused {}

fn done(number: u8) -> Result<(), Refused> {
    if number == 0 { Ok(()) } else { Err(Refused { number }) }
}

/// The version of the library that is linked.
pub fn version() -> String {
    let mut text = [0; 32];
    let n = unsafe { sys::hk_version(text.as_mut_ptr(), text.len()) };
    String::from_utf8_lossy(&text[..n.min(32)]).trim_end_matches('\0').to_string()
}

/// A row.
#[derive(Clone, PartialEq, Eq, Debug)]
pub struct Row {
    pub tag: u32,
    pub body: Vec<u8>,
}

/// From where to where a replica can be read, and how many operations it has done.
#[derive(Clone, Copy, PartialEq, Eq, Debug)]
pub struct Bounds {
    pub horizon: u64,
    pub readable: u64,
    pub ops: u64,
}

/// A replica of one log. It may go to another thread, and is let go with the value. The handle moves with it: the
/// library keeps no address of a handle, and Rust lets nobody use the place that it was moved from.
pub struct Replica {
    handle: sys::Handle,
    buffer: Vec<u8>,
}

// The library proves that a handle may go to another thread. It is not `Sync`: each call takes `&mut self`.
unsafe impl Send for Replica {}

impl Replica {
    /// A replica of a log of 1 to 64 streams that took nothing. 5: another number of streams; 90: no memory.
    pub fn open(log: u64, streams: u16) -> Result<Replica, Refused> {
        let mut handle = sys::Handle { at: std::ptr::null_mut(), live: false };
        done(unsafe { sys::hk_open(&mut handle, log, streams) })?;
        Ok(Replica { handle, buffer: vec![0; ROOM] })
    }

    /// Answers requests, 0 or more whole frames: how that ended, and the replies, also where it ended with a fault.
    pub fn call(&mut self, requests: &[u8]) -> (Result<(), Refused>, &[u8]) {
        let mut n = 0;
        let number = unsafe {
            sys::hk_call(&mut self.handle, requests.as_ptr(), requests.len(), self.buffer.as_mut_ptr(), self.buffer.len(), &mut n)
        };
        self.rest(n);
        (done(number), &self.buffer[..n])
    }

    /// Makes the buffer as large as is needed, and takes what did not fit.
    fn rest(&mut self, needed: usize) {
        let had = self.buffer.len();
        if needed > had {
            self.buffer.resize(needed, 0);
            unsafe { sys::hk_reply(&mut self.handle, had, self.buffer[had..].as_mut_ptr(), needed - had) };
        }
    }

    /// Takes the next piece of a stream of item frames.
    pub fn absorb(&mut self, piece: &[u8]) -> Result<(), Refused> {
        done(unsafe { sys::hk_absorb(&mut self.handle, piece.as_ptr(), piece.len()) })
    }

    /// Ends the stream of item frames, and begins another. 1: a frame was cut off.
    pub fn finish(&mut self) -> Result<(), Refused> {
        done(unsafe { sys::hk_finish(&mut self.handle) })
    }

    /// The row of a table at a key at a time, if there is one.
    pub fn get(&mut self, time: u64, table: u16, key: u64) -> Result<Option<Row>, Refused> {
        let mut found = sys::Found::default();
        done(unsafe { sys::hk_get(&mut self.handle, time, table, key, &mut found, self.buffer.as_mut_ptr(), self.buffer.len()) })?;
        Ok(found.row.then(|| Row { tag: found.tag, body: self.buffer[..found.len].to_vec() }))
    }

    /// How many rows a table has at a time.
    pub fn count(&mut self, time: u64, table: u16) -> Result<u64, Refused> {
        let mut count = 0;
        done(unsafe { sys::hk_count(&mut self.handle, time, table, &mut count) })?;
        Ok(count)
    }

    /// The rows of a table with keys from low to high, both inside, at a time, by rising key.
    pub fn range(&mut self, time: u64, table: u16, low: u64, high: u64) -> Result<Vec<(u64, Row)>, Refused> {
        let mut n = 0;
        done(unsafe {
            sys::hk_range(&mut self.handle, time, table, low, high, self.buffer.as_mut_ptr(), self.buffer.len(), &mut n)
        })?;
        self.rest(n);
        Ok(rows_of(&self.buffer[..n]))
    }

    /// The rows of a table with a tag and keys from low on, at a time, by rising key.
    pub fn by_tag(&mut self, time: u64, table: u16, tag: u32, low: u64) -> Result<Vec<(u64, Row)>, Refused> {
        let mut n = 0;
        done(unsafe {
            sys::hk_by_tag(&mut self.handle, time, table, tag, low, self.buffer.as_mut_ptr(), self.buffer.len(), &mut n)
        })?;
        self.rest(n);
        Ok(rows_of(&self.buffer[..n]))
    }

    /// The first rows of `range`, at most `most` of them, and whether others follow: those with keys above the last one.
    pub fn range_page(&mut self, time: u64, table: u16, low: u64, high: u64, most: u32) -> Result<(Vec<(u64, Row)>, bool), Refused> {
        let mut page = sys::Page::default();
        done(unsafe {
            sys::hk_range_page(&mut self.handle, time, table, low, high, most, self.buffer.as_mut_ptr(), self.buffer.len(), &mut page)
        })?;
        self.rest(page.len);
        Ok((rows_of(&self.buffer[..page.len]), page.more))
    }

    /// The first rows of `by_tag`, at most `most` of them, and whether others follow. It costs as much as `by_tag`.
    pub fn by_tag_page(&mut self, time: u64, table: u16, tag: u32, low: u64, most: u32) -> Result<(Vec<(u64, Row)>, bool), Refused> {
        let mut page = sys::Page::default();
        done(unsafe {
            sys::hk_by_tag_page(&mut self.handle, time, table, tag, low, most, self.buffer.as_mut_ptr(), self.buffer.len(), &mut page)
        })?;
        self.rest(page.len);
        Ok((rows_of(&self.buffer[..page.len]), page.more))
    }

    /// From where to where it can be read.
    pub fn front(&mut self) -> Result<Bounds, Refused> {
        let mut it = sys::Bounds::default();
        done(unsafe { sys::hk_front(&mut self.handle, &mut it) })?;
        Ok(Bounds { horizon: it.horizon, readable: it.readable, ops: it.ops })
    }

    /// Drops what ended at a horizon or before. 24: it is above the readable mark.
    pub fn prune(&mut self, horizon: u64) -> Result<(), Refused> {
        done(unsafe { sys::hk_prune(&mut self.handle, horizon) })
    }

    /// Joins all that another replica of the log holds.
    pub fn merge(&mut self, peer: &mut Replica) -> Result<(), Refused> {
        done(unsafe { sys::hk_merge(&mut self.handle, &mut peer.handle) })
    }
}

impl Drop for Replica {
    fn drop(&mut self) {
        unsafe { sys::hk_close(&mut self.handle) }
    }
}

/// The rows of the library's text: key, tag, length and body of each, the high byte first.
fn rows_of(mut text: &[u8]) -> Vec<(u64, Row)> {
    let mut rows = Vec::new();
    while text.len() >= HEAD {
        let (head, rest) = text.split_at(HEAD);
        let (key, tag) = (u64::from_be_bytes(head[..8].try_into().unwrap()), u32::from_be_bytes(head[8..12].try_into().unwrap()));
        let (body, after) = rest.split_at(u16::from_be_bytes([head[12], head[13]]) as usize);
        rows.push((key, Row { tag, body: body.to_vec() }));
        text = after;
    }
    rows
}
