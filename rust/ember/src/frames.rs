//! The session, and the writer of frames.

use crate::{error, ffi, number, Error, STORE_BYTES};

/// A session with its store: one for each stream. Some 17 KB; put it into a `Box` where the stack is small.
#[derive(Clone)]
pub struct Session {
    pub(crate) words: [u64; 4],
    pub(crate) store: [u8; STORE_BYTES],
}

/// What a call made of a chunk.
#[derive(Clone, Copy, PartialEq, Eq, Debug)]
pub struct Fed<'a> {
    /// The event, if one came.
    pub event: Event<'a>,
    /// How many bytes of the chunk were consumed: up to and including the event's last, or all.
    pub consumed: usize,
    /// Whether an unfinished message was thrown away.
    pub discarded: bool,
}

/// An event of the stream.
#[derive(Clone, Copy, PartialEq, Eq, Debug)]
pub enum Event<'a> {
    /// None: all was consumed, and more bytes are needed.
    More,
    /// A piece of a message that is not finished.
    Piece,
    /// A finished message.
    Message(&'a [u8]),
    /// Keep-alive request.
    Request,
    /// Keep-alive response.
    Response,
    /// A frame was refused, or bytes outside frames: 10 to 24.
    Refused(Error),
}

impl Default for Session {
    fn default() -> Session {
        Session::new()
    }
}

impl Session {
    /// A fresh session: outside frames, no message open.
    /// Never fails.
    pub fn new() -> Session {
        let mut session = Session { words: [0; 4], store: [0; STORE_BYTES] };
        // SAFETY: the pointer and its count name the session's own words.
        unsafe { ffi::ember_start(session.words.as_mut_ptr(), 4) };
        session
    }

    /// Offers a chunk of the stream, of any length; offer the rest again, from the first byte that was not consumed.
    /// Never tells an event twice, however the stream is cut.
    pub fn feed(&mut self, chunk: &[u8]) -> Fed<'_> {
        let mut answer = [0; 3];
        // SAFETY: each pointer and its count name a slice that is borrowed here, those written to mutably.
        let number = unsafe {
            ffi::ember_feed(
                self.words.as_mut_ptr(),
                self.words.len(),
                self.store.as_mut_ptr(),
                self.store.len(),
                chunk.as_ptr(),
                chunk.len(),
                answer.as_mut_ptr(),
                answer.len(),
            )
        };
        Fed { event: event(number, &self.store, answer[2] as usize), consumed: answer[1] as usize, discarded: answer[0] != 0 }
    }
}

pub(crate) fn event(number: u64, store: &[u8; STORE_BYTES], length: usize) -> Event<'_> {
    match number {
        number::DONE => Event::More,
        number::PIECE => Event::Piece,
        number::MESSAGE => Event::Message(store.get(..length).unwrap_or(&[])),
        number::REQUEST => Event::Request,
        number::RESPONSE => Event::Response,
        number => Event::Refused(Error::of(number).unwrap_or(Error::Setup)),
    }
}

fn told(number: u64, count: u64) -> Result<usize, Error> {
    error::told(number).map(|()| count as usize)
}

/// Writes a frame around content without its CRC, at most 1,022 bytes: how many bytes it has. [`Error::Out`] and the output as it was if it has no room.
/// Never looks at what the content says.
pub fn write_frame(content: &[u8], out: &mut [u8]) -> Result<usize, Error> {
    let mut count = 0;
    // SAFETY: each pointer and its count name a slice that is borrowed here, the output mutably.
    let number = unsafe { ffi::ember_write_frame(content.as_ptr(), content.len(), out.as_mut_ptr(), out.len(), &mut count) };
    told(number, count)
}

/// Writes the keep-alive request: how many bytes it has, or [`Error::Out`].
/// Never writes a part of it.
pub fn write_request(out: &mut [u8]) -> Result<usize, Error> {
    let mut count = 0;
    // SAFETY: as above.
    let number = unsafe { ffi::ember_write_request(out.as_mut_ptr(), out.len(), &mut count) };
    told(number, count)
}

/// Writes the keep-alive response: how many bytes it has, or [`Error::Out`].
/// Never writes a part of it.
pub fn write_response(out: &mut [u8]) -> Result<usize, Error> {
    let mut count = 0;
    // SAFETY: as above.
    let number = unsafe { ffi::ember_write_response(out.as_mut_ptr(), out.len(), &mut count) };
    told(number, count)
}

/// Writes a message of at most 16,384 bytes as frames: how many bytes they have, or [`Error::Out`].
/// Never asks whether the message is a tree.
pub fn write_message(message: &[u8], out: &mut [u8]) -> Result<usize, Error> {
    let mut count = 0;
    // SAFETY: as above.
    let number = unsafe { ffi::ember_write_message(message.as_ptr(), message.len(), out.as_mut_ptr(), out.len(), &mut count) };
    told(number, count)
}
