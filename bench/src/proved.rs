//! The proved session and writer, through the C interface.
#![cfg_attr(not(test), allow(dead_code))]
use crate::{Answer, STORE};

extern "C" {
    fn framing_start(session: *mut u64, words: usize) -> u64;
    fn framing_feed(
        session: *mut u64,
        words: usize,
        store: *mut u8,
        store_bytes: usize,
        chunk: *const u8,
        chunk_bytes: usize,
        answer: *mut u64,
        answer_words: usize,
    ) -> u64;
    fn framing_write_frame(content: *const u8, bytes: usize, out: *mut u8, out_bytes: usize, count: *mut u64) -> u64;
    fn framing_write_request(out: *mut u8, out_bytes: usize, count: *mut u64) -> u64;
    fn framing_write_response(out: *mut u8, out_bytes: usize, count: *mut u64) -> u64;
    fn framing_write_message(message: *const u8, bytes: usize, out: *mut u8, out_bytes: usize, count: *mut u64) -> u64;
}

/// The library reads and writes only within the slices, whatever they hold and however long they are.
pub fn start(session: &mut [u64]) -> u64 {
    unsafe { framing_start(session.as_mut_ptr(), session.len()) }
}

pub fn feed(session: &mut [u64], store: &mut [u8], chunk: &[u8], answer: &mut [u64]) -> u64 {
    unsafe {
        framing_feed(
            session.as_mut_ptr(),
            session.len(),
            store.as_mut_ptr(),
            store.len(),
            chunk.as_ptr(),
            chunk.len(),
            answer.as_mut_ptr(),
            answer.len(),
        )
    }
}

/// The bytes written, or the number 46.
pub fn write_frame(content: &[u8], out: &mut [u8]) -> Result<usize, u64> {
    written(|count| unsafe { framing_write_frame(content.as_ptr(), content.len(), out.as_mut_ptr(), out.len(), count) })
}

pub fn write_request(out: &mut [u8]) -> Result<usize, u64> {
    written(|count| unsafe { framing_write_request(out.as_mut_ptr(), out.len(), count) })
}

pub fn write_response(out: &mut [u8]) -> Result<usize, u64> {
    written(|count| unsafe { framing_write_response(out.as_mut_ptr(), out.len(), count) })
}

pub fn write_message(message: &[u8], out: &mut [u8]) -> Result<usize, u64> {
    written(|count| unsafe { framing_write_message(message.as_ptr(), message.len(), out.as_mut_ptr(), out.len(), count) })
}

fn written(call: impl FnOnce(&mut u64) -> u64) -> Result<usize, u64> {
    let mut count = 0;
    match call(&mut count) {
        0 => Ok(count as usize),
        number => Err(number),
    }
}

pub struct Session {
    words: [u64; 4],
    store: Box<[u8; STORE]>,
}

impl crate::Reader for Session {
    fn start() -> Self {
        let mut words = [0; 4];
        assert_eq!(start(&mut words), 0);
        Session { words, store: Box::new([0; STORE]) }
    }

    fn feed(&mut self, chunk: &[u8]) -> Answer {
        let mut answer = [0; 3];
        let number = feed(&mut self.words, &mut self.store[..], chunk, &mut answer);
        Answer { number, discarded: answer[0] == 1, consumed: answer[1] as usize, length: answer[2] as usize }
    }

    fn store(&self) -> &[u8] {
        &self.store[..]
    }
}
