//! Generators: seeded, deterministic.

pub mod desk;
pub mod frames;
pub mod octets;
pub mod packets;
pub mod rows;
pub mod tree;
pub mod watch;

/// splitmix64.
#[derive(Clone)]
pub struct Random {
    state: u64,
}

impl Random {
    pub fn new(seed: u64) -> Random {
        Random { state: seed }
    }

    pub fn next(&mut self) -> u64 {
        self.state = self.state.wrapping_add(0x9E37_79B9_7F4A_7C15);
        let mut z = self.state;
        z = (z ^ z >> 30).wrapping_mul(0xBF58_476D_1CE4_E5B9);
        z = (z ^ z >> 27).wrapping_mul(0x94D0_49BB_1331_11EB);
        z ^ z >> 31
    }

    /// 0 to `count` - 1.
    pub fn below(&mut self, count: usize) -> usize {
        (self.next() % count as u64) as usize
    }

    /// `low` to `high`, both included.
    pub fn range(&mut self, low: usize, high: usize) -> usize {
        low + self.below(high - low + 1)
    }

    /// True once in `count` times.
    pub fn one_in(&mut self, count: usize) -> bool {
        self.below(count) == 0
    }

    pub fn pick<T: Clone>(&mut self, list: &[T]) -> T {
        list[self.below(list.len())].clone()
    }

    pub fn byte(&mut self) -> u8 {
        self.next() as u8
    }

    pub fn bytes(&mut self, length: usize) -> Vec<u8> {
        (0..length).map(|_| self.byte()).collect()
    }

    pub fn shuffle<T>(&mut self, list: &mut [T]) {
        for index in (1..list.len()).rev() {
            list.swap(index, self.below(index + 1));
        }
    }
}

/// A seed for case `index` of a run, far from its neighbours.
pub fn case_seed(seed: u64, index: u64) -> u64 {
    Random::new(seed ^ index.wrapping_mul(0xD1B5_4A32_D192_ED03)).next()
}

/// A change of single bytes: cut, insert, flip, overwrite, repeat, reorder.
pub fn mutate_bytes(random: &mut Random, bytes: &mut Vec<u8>) {
    let length = bytes.len();
    if length == 0 {
        bytes.push(random.byte());
        return;
    }
    let at = random.below(length);
    match random.below(7) {
        0 => bytes.truncate(at),
        1 => {
            let count = random.range(1, 4.min(length - at));
            bytes.drain(at..at + count);
        }
        2 => {
            let octet = if random.one_in(2) { random.byte() } else { random.pick(INTERESTING) };
            bytes.insert(at, octet);
        }
        3 => bytes[at] ^= 1 << random.below(8),
        4 => bytes[at] = if random.one_in(2) { random.byte() } else { random.pick(INTERESTING) },
        5 => {
            let count = random.range(1, 12.min(length - at));
            let part = bytes[at..at + count].to_vec();
            bytes.splice(at..at, part);
        }
        _ => {
            let other = random.below(length);
            bytes.swap(at, other);
        }
    }
}

const INTERESTING: &[u8] = &[
    0x00, 0x01, 0x02, 0x1F, 0x20, 0x30, 0x31, 0x3F, 0x60, 0x6B, 0x7F, 0x80, 0x81, 0x82, 0x84, 0x85, 0xA0, 0xA1, 0xA2, 0xA5, 0xA9,
    0xD8, 0xF8, 0xFD, 0xFE, 0xFF,
];

/// A stream as lines of hexadecimal digits, in chunks of some style.
pub fn chunked(random: &mut Random, stream: &[u8]) -> String {
    let style = random.below(8);
    chunked_in(random, stream, style)
}

pub fn chunked_in(random: &mut Random, stream: &[u8], style: usize) -> String {
    let case = random.below(4);
    let mut out = String::new();
    let mut at = 0;
    while at < stream.len() {
        let style = if style == 7 { random.range(1, 6) } else { style };
        let rest = stream.len() - at;
        let length = match style {
            0 => rest,
            1 => 1,
            2 => random.range(1, 3),
            3 => random.range(1, 40),
            4 => random.range(1, 2_000),
            // Up to and including the next special byte.
            5 => stream[at..].iter().position(|&byte| byte >= 0xFD).map_or(rest, |index| index + 1),
            // Up to the next special byte.
            _ => stream[at + 1..].iter().position(|&byte| byte >= 0xFD).map_or(rest, |index| index + 1),
        };
        let length = length.min(rest);
        let digits = crate::lines::digits(&stream[at..at + length]);
        match case {
            0 => out += &digits.to_lowercase(),
            1 => out.extend(digits.chars().map(|c| if random.one_in(2) { c.to_ascii_lowercase() } else { c })),
            _ => out += &digits,
        }
        out.push('\n');
        at += length;
    }
    out
}

/// Lines that no program takes as pairs.
pub fn bad_hex_line(random: &mut Random) -> Vec<u8> {
    let mut line = Vec::new();
    for _ in 0..random.below(12) {
        let octet = random.pick(&[0xFE, 0xFF, 0xFD, 0x00, 0x0E, 0x41]);
        line.extend(crate::lines::digits(&[octet]).bytes());
    }
    match random.below(9) {
        0 => line.clear(),
        1 => line.push(b'F'),
        2 => line.push(b'\r'),
        3 => line.extend(b" FE"),
        4 => line.extend(b"G0"),
        5 => line.extend(b"0g"),
        6 => line.extend(b"0x00"),
        7 => line.extend([0xC3, 0xA9]),
        _ => {
            let at = random.below(line.len() + 1);
            let byte = random.pick(&[b'/', b':', b'@', b'G', b'`', b'g', 0, b'\t', b' ', b'-', 0x7F, 0x80, 0xFF]);
            line.insert(at, byte);
        }
    }
    line
}

#[cfg(test)]
mod tests {
    use super::*;

    /// The first numbers of splitmix64 from 0.
    #[test]
    fn splitmix() {
        let mut random = Random::new(0);
        assert_eq!(random.next(), 0xE220_A839_7B1D_CDAF);
        assert_eq!(random.next(), 0x6E78_9E6A_A1B9_65F4);
    }

    #[test]
    fn bad_lines_are_bad() {
        let mut random = Random::new(5);
        for _ in 0..2_000 {
            let line = bad_hex_line(&mut random);
            assert!(crate::lines::hex_line(&line).1, "{line:?}");
        }
    }
}
