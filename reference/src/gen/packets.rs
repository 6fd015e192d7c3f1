//! Request lines of the program `packets`.

use super::Random;
use crate::lines::hex;
use crate::programs::PACKETS_LINE_MAX;

pub const KINDS: [&str; 5] = ["frame", "request", "response", "message", "malformed"];

/// Bytes of some sort: all escaped, all plain, at the escapes' edge, or any.
fn bytes(random: &mut Random, length: usize) -> Vec<u8> {
    match random.below(6) {
        0 => (0..length).map(|_| 0xF8 + random.below(8) as u8).collect(),
        1 => (0..length).map(|_| random.below(0xF8) as u8).collect(),
        2 => (0..length).map(|_| 0xF6 + random.below(4) as u8).collect(),
        3 => vec![random.byte(); length],
        _ => random.bytes(length),
    }
}

fn word(random: &mut Random, length: usize) -> String {
    let word = hex(&bytes(random, length));
    match random.below(4) {
        0 => word.to_lowercase(),
        1 => word.chars().map(|c| if random.one_in(2) { c.to_ascii_lowercase() } else { c }).collect(),
        _ => word,
    }
}

fn frame_length(random: &mut Random) -> usize {
    match random.below(12) {
        0 => 0,
        1 => random.range(1_018, 1_026),
        2 => random.range(900, 2_100),
        3 => random.range(30, 300),
        _ => random.range(1, 20),
    }
}

fn message_length(random: &mut Random) -> usize {
    match random.below(40) {
        0..=3 => 0,
        4..=7 => 1_013 * random.range(1, 3) + random.below(5) - 2,
        8 => 1_013 * random.range(4, 16) + random.below(5) - 2,
        9 => 16_384 + random.below(5) - 2,
        10 => random.below(17_000),
        11..=15 => random.range(100, 1_100),
        _ => random.range(1, 40),
    }
}

/// Lines that are no request.
pub const MALFORMED: &[&str] = &[
    "",
    " ",
    "-",
    "frame",
    "frame ",
    "frame  -",
    " frame -",
    "frame - ",
    "frame --",
    "frame 0",
    "frame 000",
    "frame 0G",
    "frame G0",
    "frame 0x00",
    "frame 00 00",
    "frame 00\r",
    "frame 00-",
    "frame -00",
    "frames 00",
    "Frame 00",
    "frame\t00",
    "frame00",
    "request ",
    "request -",
    "request 00",
    " request",
    "requests",
    "reques",
    "REQUEST",
    "response ",
    "response -",
    "responses",
    "respons",
    "message",
    "message ",
    "message  -",
    "message 0",
    "message 0g",
    "message - -",
    "messages -",
    "Message -",
    "keep-alive",
    "46",
    "bad line",
];

fn of_kind(random: &mut Random, kind: usize) -> Vec<u8> {
    match kind {
        0 => {
            let length = frame_length(random);
            format!("frame {}", word(random, length)).into_bytes()
        }
        1 => b"request".to_vec(),
        2 => b"response".to_vec(),
        3 => {
            let length = message_length(random);
            format!("message {}", word(random, length)).into_bytes()
        }
        _ => malformed(random),
    }
}

fn malformed(random: &mut Random) -> Vec<u8> {
    if random.one_in(2) {
        return random.pick(MALFORMED).as_bytes().to_vec();
    }
    let kind = random.below(4);
    let mut line = of_kind(random, kind);
    let at = random.below(line.len() + 1);
    match random.below(5) {
        0 => line.insert(at, random.pick(b"gG-+.xX/:@` \t\r\0\x7F\xFF")),
        1 => line.truncate(at),
        2 => line.push(b' '),
        3 => line.extend(b" 00"),
        _ => {
            if at < line.len() {
                line.remove(at);
            }
        }
    }
    line
}

/// An input of the program `packets`, and how many requests of each kind it has.
pub fn input(seed: u64, count: usize) -> (Vec<u8>, [usize; KINDS.len()]) {
    let mut random = Random::new(seed);
    let mut kinds_seen = [0; KINDS.len()];
    let mut text = Vec::new();
    for _ in 0..count {
        let kind = random.pick(&[0, 0, 0, 0, 0, 3, 3, 3, 3, 1, 2, 4]);
        kinds_seen[kind] += 1;
        text.extend(of_kind(&mut random, kind));
        text.push(b'\n');
    }
    if random.one_in(2) && text.len() > 1 && text[text.len() - 2] != b'\n' {
        text.pop();
    }
    (text, kinds_seen)
}

/// P8, the keep-alives, each single byte, and lengths around every limit, plain and escaped.
fn edges(random: &mut Random) -> Vec<String> {
    let mut lines: Vec<String> = vec!["frame FF00F901".to_string(), "request".to_string(), "response".to_string()];
    for byte in 0..=255u8 {
        lines.push(format!("frame {byte:02X}"));
    }
    let filled = |byte: u8, length: usize| hex(&vec![byte; length]);
    for length in [0, 1, 2, 3, 4, 5, 9, 100, 1_012, 1_013, 1_014, 1_020, 1_021, 1_022, 1_023, 1_024, 1_025, 2_048] {
        for byte in [0x00, 0xF7, 0xF8, 0xFD, 0xFE, 0xFF] {
            lines.push(format!("frame {}", filled(byte, length)));
        }
        lines.push(format!("frame {}", word(random, length)));
    }
    for length in [0, 1, 2, 10, 1_011, 1_012, 1_013, 1_014, 1_015, 2_025, 2_026, 2_027, 3_038, 3_039, 3_040] {
        for byte in [0x00, 0xFF] {
            lines.push(format!("message {}", filled(byte, length)));
        }
        lines.push(format!("message {}", word(random, length)));
    }
    for (byte, length) in [
        (0xFE, 16_384),
        (0x11, 16_383),
        (0x22, 16_384),
        (0x33, 16_385),
        (0xFF, 16_385),
        (0x44, 1_013 * 16),
        (0x55, 1_013 * 16 + 1),
        (0x00, 20_000),
    ] {
        lines.push(format!("message {}", filled(byte, length)));
    }
    lines.push(format!("message {}", word(random, 16_384)));
    // The longest line, and one longer.
    lines.push(format!("frame {}", filled(0x00, (PACKETS_LINE_MAX - 6) / 2)));
    lines.push(format!("frame {}", filled(0x00, (PACKETS_LINE_MAX - 4) / 2)));
    lines.extend(MALFORMED.iter().map(|line| line.to_string()));
    lines
}

/// The stored input.
pub fn stored() -> Vec<u8> {
    let mut random = Random::new(301);
    let mut text = Vec::new();
    for line in edges(&mut random) {
        text.extend(line.bytes());
        text.push(b'\n');
    }
    text.extend(input(302, 300).0);
    if text.last() == Some(&b'\n') {
        text.pop();
    }
    text
}

#[cfg(test)]
mod tests {
    use super::*;
    use crate::framing::{run, Session, MESSAGE, STORE_LENGTH};
    use crate::lines::{hex_line, lines};
    use crate::programs::{packet_answer, packets};

    #[test]
    fn malformed_lines_are_bad() {
        for line in MALFORMED {
            assert_eq!(packet_answer(line.as_bytes()), None, "{line}");
        }
    }

    /// What is written for a message is read back as that message, and nothing else happens.
    #[test]
    fn messages_are_read_back() {
        let input = stored();
        let output = packets(&input);
        assert_eq!(output.lines().count(), lines(&input).len());
        let mut read = 0;
        for (line, answer) in lines(&input).iter().zip(output.lines()) {
            if let (Some(word), false) = (line.strip_prefix(b"message "), ["46", "bad line"].contains(&answer)) {
                let mut session = Session::start();
                let mut store = vec![0; STORE_LENGTH];
                let events = run(&mut session, &mut store, &hex_line(answer.as_bytes()).0, &mut 0);
                let last = &events.last().unwrap().1;
                assert_eq!(last.number, MESSAGE);
                assert_eq!(hex(last.message.as_ref().unwrap()), String::from_utf8_lossy(word).to_uppercase());
                read += 1;
            }
        }
        assert!(read > 60, "{read}");
        assert!(output.lines().any(|line| line == "46"));
    }
}
