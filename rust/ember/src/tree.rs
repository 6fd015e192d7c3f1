//! The reader and the writer of the Glow tree.

use crate::{error, ffi, number, Error, Row};

/// What Root holds.
#[derive(Clone, Copy, PartialEq, Eq, Debug)]
pub enum Root {
    /// Elements.
    Elements,
    /// Stream entries.
    Streams,
}

impl Root {
    pub(crate) fn word(self) -> u64 {
        match self {
            Root::Elements => 0,
            Root::Streams => 3,
        }
    }

    pub(crate) fn of(word: u64) -> Root {
        if word == Root::Streams.word() {
            Root::Streams
        } else {
            Root::Elements
        }
    }
}

/// What the tree reader read: the first `count` rows are the entries, in message order.
#[derive(Clone, Copy, PartialEq, Eq, Debug)]
pub struct Read {
    /// What Root holds.
    pub root: Root,
    /// How many entries.
    pub count: usize,
}

pub(crate) fn read_of(number: u64, place: u64, count: u64, root: u64) -> Result<Read, Error> {
    if number == number::DONE {
        Ok(Read { root: Root::of(root), count: count as usize })
    } else {
        Err(Error::in_tree(number, place, count))
    }
}

/// Reads a message into the rows of a table; or 30 to 37 with the place in the message, [`Error::Room`] with how many entries it has, or
/// [`Error::Setup`] for a table over 256 rows or a message over 16,384 bytes.
/// Never changes the table but after `Ok`, and then no row past the count.
pub fn read(message: &[u8], table: &mut [Row]) -> Result<Read, Error> {
    let mut answer = [0; 3];
    // SAFETY: each pointer and its count name a slice that is borrowed here, those written to mutably; a row is fifty words.
    let number = unsafe {
        ffi::ember_read(message.as_ptr(), message.len(), table.as_mut_ptr(), table.len(), answer.as_mut_ptr(), answer.len())
    };
    read_of(number, answer[0], answer[1], answer[2])
}

/// Writes the message of rows, whose texts, octets, paths and sources are parts of `parts`: how long it is, or [`Error::Out`] and
/// the output as it was.
/// Never writes a part of a message.
pub fn write(rows: &[Row], root: Root, parts: &[u8], out: &mut [u8]) -> Result<usize, Error> {
    let mut answer = [0; 1];
    // SAFETY: each pointer and its count name a slice that is borrowed here, those written to mutably.
    let number = unsafe {
        ffi::ember_write(
            rows.as_ptr(),
            rows.len(),
            rows.len(),
            root.word(),
            parts.as_ptr(),
            parts.len(),
            out.as_mut_ptr(),
            out.len(),
            answer.as_mut_ptr(),
            answer.len(),
        )
    };
    error::told(number).map(|()| answer[0] as usize)
}

/// Whether rows make a tree that the reader accepts.
/// Never changes anything.
pub fn accepts(rows: &[Row], root: Root, parts: &[u8]) -> bool {
    // SAFETY: each pointer and its count name a slice that is borrowed here.
    let number = unsafe { ffi::ember_accepts(rows.as_ptr(), rows.len(), rows.len(), root.word(), parts.as_ptr(), parts.len()) };
    number == 1
}
