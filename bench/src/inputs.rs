//! Streams of frames.
use crate::proved::{write_frame, write_message, write_request};

pub const PAYLOAD: usize = 1013;

/// splitmix64
pub struct Random(pub u64);

impl Random {
    pub fn next(&mut self) -> u64 {
        self.0 = self.0.wrapping_add(0x9E37_79B9_7F4A_7C15);
        let z = (self.0 ^ self.0 >> 30).wrapping_mul(0xBF58_476D_1CE4_E5B9);
        let z = (z ^ z >> 27).wrapping_mul(0x94D0_49BB_1331_11EB);
        z ^ z >> 31
    }
}

/// Messages of 16 full packets each, as bytes of the given choice.
fn packets(bytes: usize, mut payload: impl FnMut() -> u8) -> Vec<u8> {
    let mut stream = Vec::new();
    let mut frame = [0; 2050];
    for packet in 0.. {
        if stream.len() >= bytes {
            break;
        }
        let flags = match packet % 16 {
            0 => 0x80,
            15 => 0x40,
            _ => 0x00,
        };
        let mut content = vec![0x00, 0x0E, 0x00, 0x01, flags, 0x01, 0x02, 0x14, 0x02];
        content.extend((0..PAYLOAD).map(|_| payload()));
        let length = write_frame(&content, &mut frame).expect("a frame of 1,022 bytes fits");
        stream.extend(&frame[..length]);
    }
    stream
}

/// Full packets of random payload bytes below F8: nothing in the payload is escaped.
pub fn full(bytes: usize) -> Vec<u8> {
    let mut random = Random(1);
    packets(bytes, || (random.next() % 0xF8) as u8)
}

/// Full packets of random payload bytes from F8 on: all of it is escaped.
pub fn escapes(bytes: usize) -> Vec<u8> {
    let mut random = Random(2);
    packets(bytes, || 0xF8 | random.next() as u8)
}

/// Frames that ask whether the other side is there.
pub fn keep_alives(bytes: usize) -> Vec<u8> {
    let mut frame = [0; 16];
    let length = write_request(&mut frame).expect("a request fits");
    frame[..length].repeat(bytes / length)
}

/// Messages of 24 bytes, a packet each.
pub fn small(bytes: usize) -> Vec<u8> {
    let mut random = Random(5);
    let mut stream = Vec::new();
    while stream.len() < bytes {
        let message: [u8; 24] = std::array::from_fn(|_| random.next() as u8);
        let mut frame = [0; 128];
        let length = write_message(&message, &mut frame).expect("a message of 24 bytes fits");
        stream.extend(&frame[..length]);
    }
    stream
}

/// Random bytes.
pub fn noise(bytes: usize) -> Vec<u8> {
    let mut random = Random(3);
    (0..bytes).map(|_| random.next() as u8).collect()
}
