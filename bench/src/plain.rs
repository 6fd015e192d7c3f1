//! A plain session in safe Rust, by the same rules: a byte at a time, the same store, the checksum by table at the frame's end.
use crate::{Answer, STORE};

pub const CONTENT: usize = 16384;
pub const CONTENT_LIMIT: usize = 1024;
const MESSAGE_LIMIT: usize = 16384;

const TABLE: [u16; 256] = {
    let mut table = [0; 256];
    let mut i = 0;
    while i < 256 {
        let mut crc = i as u16;
        let mut bit = 0;
        while bit < 8 {
            crc = if crc & 1 == 1 { crc >> 1 ^ 0x8408 } else { crc >> 1 };
            bit += 1;
        }
        table[i] = crc;
        i += 1;
    }
    table
};

pub fn checksum(bytes: &[u8]) -> u16 {
    !bytes.iter().fold(0xFFFF, |crc, &byte| crc >> 8 ^ TABLE[usize::from(crc as u8 ^ byte)])
}

#[derive(Clone, Copy)]
pub enum Place {
    Outside,
    Stray,
    Inside,
    Escaped,
    Faulted(u64),
}

pub struct Session {
    pub place: Place,
    pub length: usize,
    message: Option<usize>,
    pub store: Box<[u8; STORE]>,
}

impl Session {
    fn refuse(&mut self, number: u64, place: Place) -> (u64, bool, usize) {
        self.place = place;
        self.length = 0;
        (number, self.message.take().is_some(), 0)
    }

    fn add(&mut self, byte: u8) {
        if self.length < CONTENT_LIMIT {
            self.store[CONTENT + self.length] = byte;
            self.length += 1;
            self.place = Place::Inside;
        } else {
            self.place = Place::Faulted(13);
        }
    }

    fn piece(&mut self, first: bool, last: bool) -> (u64, bool, usize) {
        let payload = CONTENT + 9..CONTENT + self.length - 2;
        let discarded = first && self.message.is_some();
        let start = if first {
            0
        } else {
            match self.message {
                None => return self.refuse(23, Place::Outside),
                Some(length) => length,
            }
        };
        let length = start + payload.len();
        if length > MESSAGE_LIMIT {
            return self.refuse(24, Place::Outside);
        }
        self.store.copy_within(payload, start);
        self.place = Place::Outside;
        self.message = if last { None } else { Some(length) };
        if last {
            (3, discarded, length)
        } else {
            (2, discarded, 0)
        }
    }

    fn end(&mut self) -> (u64, bool, usize) {
        let content = &self.store[CONTENT..CONTENT + self.length];
        if content.len() < 6 {
            return self.refuse(15, Place::Outside);
        }
        let (body, sent) = content.split_at(content.len() - 2);
        if checksum(body) != u16::from_le_bytes([sent[0], sent[1]]) {
            return self.refuse(16, Place::Outside);
        }
        if body[0] != 0 || body[1] != 0x0E || body[3] != 1 {
            return self.refuse(20, Place::Outside);
        }
        match (body[2], body.len()) {
            (0, 9..) => {}
            (1 | 2, 4) => {
                self.place = Place::Outside;
                return (3 + u64::from(body[2]), false, 0);
            }
            _ => return self.refuse(20, Place::Outside),
        }
        let flags = body[4];
        if flags & 0x1F != 0 || (flags & 0x20 != 0) != (body.len() == 9) {
            return self.refuse(21, Place::Outside);
        }
        if body[5] != 1 || body[6] != 2 || body[8] != 2 {
            return self.refuse(22, Place::Outside);
        }
        self.piece(flags & 0x80 != 0, flags & 0x40 != 0)
    }

    pub fn step(&mut self, byte: u8) -> Option<(u64, bool, usize)> {
        match (self.place, byte) {
            (Place::Outside | Place::Stray, 0xFE) => {
                self.place = Place::Inside;
                self.length = 0;
                None
            }
            (Place::Outside, _) => Some(self.refuse(10, Place::Stray)),
            (Place::Stray, _) => None,
            (Place::Inside, 0..=0xF7) => {
                self.add(byte);
                None
            }
            (Place::Inside, 0xFD) => {
                self.place = Place::Escaped;
                None
            }
            (Place::Inside, 0xFF) => Some(self.end()),
            (Place::Inside, 0xFE) if self.length == 0 => None,
            (Place::Inside | Place::Escaped, 0xFE) => Some(self.refuse(11, Place::Inside)),
            (Place::Escaped, 0xFF) => Some(self.refuse(14, Place::Outside)),
            (Place::Escaped, 0xD8..=0xDF) => {
                self.add(byte ^ 0x20);
                None
            }
            (Place::Faulted(number), 0xFE) => Some(self.refuse(number, Place::Inside)),
            (Place::Faulted(number), 0xFF) => Some(self.refuse(number, Place::Outside)),
            (Place::Faulted(_), _) => None,
            (Place::Inside | Place::Escaped, _) => {
                self.place = Place::Faulted(12);
                None
            }
        }
    }
}

impl crate::Reader for Session {
    fn start() -> Self {
        Session { place: Place::Outside, length: 0, message: None, store: Box::new([0; STORE]) }
    }

    fn feed(&mut self, chunk: &[u8]) -> Answer {
        for (at, &byte) in chunk.iter().enumerate() {
            if let Some((number, discarded, length)) = self.step(byte) {
                return Answer { number, discarded, consumed: at + 1, length };
            }
        }
        Answer { number: 0, discarded: false, consumed: chunk.len(), length: 0 }
    }

    fn store(&self) -> &[u8] {
        &self.store[..]
    }
}
