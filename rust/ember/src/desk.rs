//! The desk, and whole turns.

use crate::frames::event;
use crate::tree::read_of;
use crate::{error, ffi, number, Error, Event, Kind, Read, Root, Row, Session, PATH_MAX, ROWS_MAX, SIDE_MAX, STORE_BYTES};

/// The type of a matrix.
#[derive(Clone, Copy, PartialEq, Eq, Debug)]
#[repr(u64)]
pub enum Type {
    /// A target has one source at most.
    OneToN = 0,
    /// .. and a source one target.
    OneToOne = 1,
    /// Any number, within the limits.
    NToN = 2,
}

/// What a desk is opened from.
#[derive(Clone, Copy, PartialEq, Eq, Debug)]
pub struct Figures {
    /// The type.
    pub kind: Type,
    /// 1 to 64.
    pub targets: u64,
    /// 1 to 64.
    pub sources: u64,
    /// The most connections, where given.
    pub total: Option<u64>,
    /// The most sources of a target, where given.
    pub each: Option<u64>,
}

impl Figures {
    fn words(&self) -> [u64; 7] {
        let (total, each) = (self.total.map_or([0, 0], |n| [1, n]), self.each.map_or([0, 0], |n| [1, n]));
        [self.kind as u64, self.targets, self.sources, total[0], total[1], each[0], each[1]]
    }

    /// How many crosspoints a desk with these figures has, at most `SIDE_MAX` times `SIDE_MAX`; 0 if they are out of their ranges.
    fn size(&self) -> usize {
        let words = self.words();
        // SAFETY: the pointer and its count name a slice that is borrowed here.
        let number = unsafe { ffi::ember_desk_size(words.as_ptr(), words.len()) };
        number as usize
    }
}

/// What a request does with its list of sources.
#[derive(Clone, Copy, PartialEq, Eq, Debug)]
#[repr(u64)]
pub enum Operation {
    /// The target's sources become the list.
    Absolute = 0,
    /// .. are joined by it.
    Connect = 1,
    /// .. lose it.
    Disconnect = 2,
}

/// A desk: figures, path and crosspoints, the first `size` of those here. It is legal from its opening on, whatever is asked of it.
#[derive(Clone, PartialEq, Eq, Debug)]
pub struct Desk {
    figures: Figures,
    path: [u64; PATH_MAX],
    numbers: usize,
    crosspoints: [u8; SIDE_MAX * SIDE_MAX],
}

impl Desk {
    /// Opens a desk with no connections; [`Error::Desk`] if figures or path are out of their ranges.
    /// Never gives a desk that is not legal.
    pub fn open(figures: Figures, path: &[u64]) -> Result<Desk, Error> {
        let mut desk = Desk { figures, path: [0; PATH_MAX], numbers: path.len(), crosspoints: [0; SIDE_MAX * SIDE_MAX] };
        desk.path.get_mut(..path.len()).ok_or(Error::Desk)?.copy_from_slice(path);
        let words = figures.words();
        // SAFETY: each pointer and its count name a slice that is borrowed here, the crosspoints mutably.
        let number = unsafe {
            ffi::ember_desk_open(
                words.as_ptr(),
                words.len(),
                0,
                path.as_ptr(),
                path.len(),
                desk.crosspoints.as_mut_ptr(),
                figures.size(),
            )
        };
        error::told(number).map(|()| desk)
    }

    /// The figures it was opened from.
    /// Never others, whatever was asked since.
    pub fn figures(&self) -> &Figures {
        &self.figures
    }

    /// The path of its matrix.
    /// Never empty, and never over 16 numbers.
    pub fn path(&self) -> &[u64] {
        &self.path[..self.numbers]
    }

    /// Whether a source is connected to a target; both are numbered from 0.
    /// Never panics: there is no connection past the desk's counts.
    pub fn is_connected(&self, target: usize, source: usize) -> bool {
        let (targets, sources) = (self.figures.targets as usize, self.figures.sources as usize);
        target < targets && source < sources && self.crosspoints[target * sources + source] == 1
    }

    /// The sources of a target, ascending.
    /// Never panics: a target past the desk's count has none.
    pub fn sources(&self, target: usize) -> impl Iterator<Item = u64> + '_ {
        (0..SIDE_MAX).filter(move |&source| self.is_connected(target, source)).map(|source| source as u64)
    }

    /// Whether it is legal, as the library judges it: always.
    /// Never changes anything.
    pub fn is_legal(&self) -> bool {
        let words = self.figures.words();
        // SAFETY: each pointer and its count name a slice that is borrowed here.
        let number = unsafe {
            ffi::ember_desk_is_legal(
                words.as_ptr(),
                words.len(),
                self.path.as_ptr(),
                self.numbers,
                self.crosspoints.as_ptr(),
                self.figures.size(),
            )
        };
        number == 1
    }

    /// Asks for one target, with a list of sources that may be empty or name one twice; or 41 to 44.
    /// Never changes a crosspoint if it refuses.
    pub fn request(&mut self, target: u64, sources: &[u64], operation: Operation) -> Result<(), Error> {
        let words = self.figures.words();
        // SAFETY: each pointer and its count name a slice that is borrowed here, the crosspoints mutably.
        let number = unsafe {
            ffi::ember_desk_request(
                words.as_ptr(),
                words.len(),
                target,
                sources.as_ptr(),
                sources.len(),
                operation as u64,
                self.crosspoints.as_mut_ptr(),
                self.figures.size(),
            )
        };
        error::told(number)
    }

    /// Serves the connections among rows, in order: how many answers there are, 0 or 40 to 44 each, and zeros after them; or `Setup`, if
    /// the rows make no tree that the reader accepts or there are more than 256, or the message is over 16,384 bytes.
    /// Never changes anything if it refuses, nor a crosspoint for a connection that is refused.
    pub fn call(&mut self, rows: &[Row], root: Root, message: &[u8], answers: &mut [u8; 256]) -> Result<usize, Error> {
        let words = self.figures.words();
        let mut answer = [0; 1];
        // SAFETY: each pointer and its count name a slice that is borrowed here, those written to mutably.
        let number = unsafe {
            ffi::ember_desk_call(
                words.as_ptr(),
                words.len(),
                self.path.as_ptr(),
                self.numbers,
                rows.as_ptr(),
                rows.len(),
                rows.len(),
                root.word(),
                message.as_ptr(),
                message.len(),
                self.crosspoints.as_mut_ptr(),
                self.figures.size(),
                answers,
                answer.as_mut_ptr(),
                answer.len(),
            )
        };
        error::told(number).map(|()| answer[0] as usize)
    }
}

/// What reading a route sheet needs beside it, some 17 KB; put it into a `Box` where the stack is small.
pub struct Scratch {
    store: [u8; STORE_BYTES],
}

impl Default for Scratch {
    fn default() -> Scratch {
        Scratch { store: [0; STORE_BYTES] }
    }
}

/// Route sheets.
impl Desk {
    /// Writes the desk's sheet: how many bytes it has, at most [`crate::SHEET_MAX`]; [`Error::Out`] and the output as it was if it has no room.
    /// Never writes a part of a sheet.
    pub fn write_sheet(&self, out: &mut [u8]) -> Result<usize, Error> {
        let words = self.figures.words();
        let mut answer = [0; 1];
        // SAFETY: each pointer and its count name a slice that is borrowed here, those written to mutably.
        let number = unsafe {
            ffi::ember_sheet_write(
                words.as_ptr(),
                words.len(),
                self.path.as_ptr(),
                self.numbers,
                self.crosspoints.as_ptr(),
                self.figures.size(),
                out.as_mut_ptr(),
                out.len(),
                answer.as_mut_ptr(),
                answer.len(),
            )
        };
        error::told(number).map(|()| answer[0] as usize)
    }

    /// Reads a sheet: its desk, or the first refusal.
    /// Never gives a desk that is not legal.
    pub fn read_sheet(text: &[u8], scratch: &mut Scratch) -> Result<Desk, Error> {
        let mut words = [0; 7];
        let mut path = [0; PATH_MAX];
        let mut crosspoints = [0; SIDE_MAX * SIDE_MAX];
        let mut answer = [0; 1];
        // SAFETY: each pointer and its count name a slice that is borrowed here, those written to mutably.
        let number = unsafe {
            ffi::ember_sheet_read(
                text.as_ptr(),
                text.len(),
                scratch.store.as_mut_ptr(),
                scratch.store.len(),
                words.as_mut_ptr(),
                words.len(),
                path.as_mut_ptr(),
                path.len(),
                crosspoints.as_mut_ptr(),
                crosspoints.len(),
                answer.as_mut_ptr(),
                answer.len(),
            )
        };
        let kind = match words[0] {
            0 => Type::OneToN,
            1 => Type::OneToOne,
            _ => Type::NToN,
        };
        let given = |flag: u64, value: u64| (flag == 1).then_some(value);
        let figures = Figures {
            kind,
            targets: words[1],
            sources: words[2],
            total: given(words[3], words[4]),
            each: given(words[5], words[6]),
        };
        error::told(number).map(|()| Desk { figures, path, numbers: answer[0] as usize, crosspoints })
    }
}

/// A stream and a desk behind it: N is the most entries of a message, at most 256. Some 410 bytes an entry and 22 KB; put it into a
/// `Box` where the stack is small. For several streams and one desk take a [`Session`] each, [`crate::read`] and [`Desk::call`].
pub struct Line<const N: usize> {
    session: Session,
    desk: Desk,
    table: [Row; N],
    answers: [u8; 256],
}

/// What a turn told.
#[derive(Clone, Copy, PartialEq, Debug)]
pub struct Turn<'a> {
    /// The event, if one came.
    pub event: Event<'a>,
    /// How many bytes of the chunk were consumed.
    pub consumed: usize,
    /// Whether an unfinished message was thrown away.
    pub discarded: bool,
    /// After a message what the tree reader answered.
    pub tree: Option<Result<Read, Error>>,
    /// The message's entries, if it was read.
    pub rows: &'a [Row],
    /// The desk's answer to each of its connections, in order: 0 or 40 to 44.
    pub answers: &'a [u8],
    /// The desk after the turn.
    pub desk: &'a Desk,
}

impl<'a> Turn<'a> {
    /// Each connection of the message with the desk's answer to it, in order.
    /// Never one without the other.
    pub fn results(&self) -> impl Iterator<Item = (&'a Row, Result<(), Error>)> + use<'a> {
        let connections = self.rows.iter().filter(|row| row.kind() == Some(Kind::Connection));
        connections.zip(self.answers).map(|(row, &number)| (row, error::told(number.into())))
    }
}

impl<const N: usize> Line<N> {
    /// A fresh stream before a desk.
    /// Never compiles for more than 256 entries.
    pub fn new(desk: Desk) -> Line<N> {
        const { assert!(N <= ROWS_MAX) };
        Line { session: Session::new(), desk, table: [Row::default(); N], answers: [0; 256] }
    }

    /// The desk as it is now.
    /// Never changes it.
    pub fn desk(&self) -> &Desk {
        &self.desk
    }

    /// The desk, for requests of the host's own between turns.
    /// Never touches the stream: an open frame or message stays.
    pub fn desk_mut(&mut self) -> &mut Desk {
        &mut self.desk
    }

    /// Takes a turn: the session's call on a chunk; after a message, the tree reader's call on it; after its 0, the desk's call on the entries. Offer
    /// the rest of the chunk again.
    /// Never changes the desk at any event but a message that is read.
    pub fn turn(&mut self, chunk: &[u8]) -> Turn<'_> {
        let words = self.desk.figures.words();
        let mut told = [0; 9];
        // SAFETY: each pointer and its count name a slice that is borrowed here, those written to mutably.
        let number = unsafe {
            ffi::ember_turn(
                self.session.words.as_mut_ptr(),
                self.session.words.len(),
                self.session.store.as_mut_ptr(),
                self.session.store.len(),
                chunk.as_ptr(),
                chunk.len(),
                self.table.as_mut_ptr(),
                N,
                words.as_ptr(),
                words.len(),
                self.desk.path.as_ptr(),
                self.desk.numbers,
                self.desk.crosspoints.as_mut_ptr(),
                self.desk.figures.size(),
                &mut self.answers,
                told.as_mut_ptr(),
                told.len(),
            )
        };
        let tree = (number == number::MESSAGE).then(|| read_of(told[3], told[4], told[5], told[6]));
        let count = if let Some(Ok(Read { count, .. })) = tree { count } else { 0 };
        Turn {
            event: event(number, &self.session.store, told[2] as usize),
            consumed: told[1] as usize,
            discarded: told[0] != 0,
            tree,
            rows: self.table.get(..count).unwrap_or(&[]),
            answers: self.answers.get(..told[8] as usize).unwrap_or(&[]),
            desk: &self.desk,
        }
    }
}
