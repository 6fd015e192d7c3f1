//! The plain session again, with the proved one's strides: content, the rest of a faulty frame and a stray run are taken in loops of
//! their own, and all else by the plain step.
use crate::plain::{Place, Session as Plain, CONTENT, CONTENT_LIMIT};
use crate::{Answer, Reader};

pub struct Session(Plain);

impl Session {
    /// Goes on from `at` as far as no event can be made.
    fn stride(&mut self, mut at: usize, chunk: &[u8]) -> usize {
        match self.0.place {
            Place::Inside => {
                let mut length = self.0.length;
                let content = &mut self.0.store[CONTENT..];
                while at < chunk.len() && length < CONTENT_LIMIT {
                    let byte = chunk[at];
                    if byte < 0xF8 {
                        content[length] = byte;
                        at += 1;
                    } else {
                        match chunk.get(at + 1) {
                            Some(&next @ 0xD8..=0xDF) if byte == 0xFD => content[length] = next ^ 0x20,
                            _ => break,
                        }
                        at += 2;
                    }
                    length += 1;
                }
                self.0.length = length;
                at
            }
            Place::Stray => chunk[at..].iter().position(|&byte| byte == 0xFE).map_or(chunk.len(), |n| at + n),
            Place::Faulted(_) => chunk[at..].iter().position(|&byte| byte >= 0xFE).map_or(chunk.len(), |n| at + n),
            Place::Outside | Place::Escaped => at,
        }
    }
}

impl Reader for Session {
    fn start() -> Self {
        Session(Plain::start())
    }

    fn feed(&mut self, chunk: &[u8]) -> Answer {
        let mut at = 0;
        while at < chunk.len() {
            let event = self.0.step(chunk[at]);
            at += 1;
            if let Some((number, discarded, length)) = event {
                return Answer { number, discarded, consumed: at, length };
            }
            at = self.stride(at, chunk);
        }
        Answer { number: 0, discarded: false, consumed: at, length: 0 }
    }

    fn store(&self) -> &[u8] {
        self.0.store()
    }
}
