//! Streams of frames, as input of the program `frames`.

use super::{bad_hex_line, chunked, chunked_in, mutate_bytes, Random};
use crate::framing::{crc, packet, write_keep_alive, BOF, CE, EOF, INVALID, PAYLOAD_MAX, XOR};

/// A frame around any data, of any length.
fn framed(data: &[u8]) -> Vec<u8> {
    let mut content = data.to_vec();
    content.extend(crc(data));
    with_content(&content)
}

/// A frame with the CRC's bits changed.
fn framed_badly(data: &[u8], change: u16) -> Vec<u8> {
    let mut content = data.to_vec();
    content.extend((u16::from_le_bytes(crc(data)) ^ change).to_le_bytes());
    with_content(&content)
}

fn with_content(content: &[u8]) -> Vec<u8> {
    let mut out = vec![BOF];
    for &byte in content {
        if byte >= INVALID {
            out.extend([CE, byte ^ XOR]);
        } else {
            out.push(byte);
        }
    }
    out.push(EOF);
    out
}

/// Payload bytes: anything, small ones, or those that are escaped.
fn payload(random: &mut Random, length: usize) -> Vec<u8> {
    match random.below(4) {
        0 => random.bytes(length),
        1 => (0..length).map(|_| 0xF0 + random.below(16) as u8).collect(),
        2 => (0..length).map(|_| INVALID + random.below(8) as u8).collect(),
        _ => (0..length).map(|_| random.below(0xF8) as u8).collect(),
    }
}

fn payload_length(random: &mut Random) -> usize {
    match random.below(10) {
        0 => 0,
        1 => 1,
        2 => random.range(1_000, 1_013),
        3 => random.range(20, 400),
        _ => random.range(1, 20),
    }
}

fn minor(random: &mut Random) -> u8 {
    if random.one_in(2) {
        0x14
    } else {
        random.byte()
    }
}

/// A right packet; the empty flag where there is no payload.
fn good_piece(random: &mut Random, marks: u8, length: usize) -> Vec<u8> {
    let payload = payload(random, length);
    let empty = if payload.is_empty() { 0x20 } else { 0 };
    framed(&packet(marks | empty, minor(random), &payload))
}

/// A right message in one or more pieces, sometimes with keep-alives and empty pieces between them.
fn good_message(random: &mut Random) -> Vec<u8> {
    let count = random.range(1, 4);
    let mut out = Vec::new();
    for index in 0..count {
        let first = if index == 0 { 0x80 } else { 0 };
        let last = if index + 1 == count { 0x40 } else { 0 };
        let length = payload_length(random);
        out.extend(good_piece(random, first | last, length));
        if random.one_in(4) {
            out.extend(write_keep_alive(random.one_in(2)));
        }
    }
    out
}

/// Pieces up to `total` bytes and a last one.
fn big_message(random: &mut Random, total: usize, last_marks: u8, tail: usize) -> Vec<u8> {
    let mut out = Vec::new();
    let mut sent = 0;
    while sent < total {
        let length = (total - sent).min(if random.one_in(6) { random.range(900, PAYLOAD_MAX) } else { PAYLOAD_MAX });
        let payload: Vec<u8> = (0..length).map(|_| random.below(0xF8) as u8).collect();
        out.extend(framed(&packet(if sent == 0 { 0x80 } else { 0 }, 0x14, &payload)));
        if random.one_in(8) {
            out.extend(write_keep_alive(random.one_in(2)));
        }
        sent += length;
    }
    out.extend(good_piece(random, last_marks, tail));
    out
}

/// A packet with faults in some of header, flags, DTD and CRC.
fn bad_packet(random: &mut Random) -> Vec<u8> {
    let length = random.below(6);
    let mut data = packet(0, minor(random), &payload(random, length));
    data[4] = random.pick(&[0x00, 0x40, 0x80, 0xC0]) | if length == 0 { 0x20 } else { 0 };
    for _ in 0..random.range(1, 3) {
        match random.below(12) {
            0 => data[0] = random.range(1, 255) as u8,
            1 => data[1] = random.byte(),
            2 => data[2] = random.byte(),
            3 => data[3] = random.byte(),
            4 => data.truncate(random.range(4, 8.min(data.len()))),
            5 if data.len() > 4 => data[4] ^= 1 << random.below(5),
            6 if data.len() > 4 => data[4] ^= 0x20,
            7 if data.len() > 5 => data[5] = random.byte(),
            8 if data.len() > 6 => data[6] = random.pick(&[0, 1, 3, 0x82]),
            9 if data.len() > 8 => data[8] = random.byte(),
            10 => data[2] = random.pick(&[1, 2, 3]),
            _ => return framed_badly(&data, random.range(1, 0xFFFF) as u16),
        }
        if data.len() < 4 {
            break;
        }
    }
    framed(&data)
}

/// A step inside a frame that is a fault, or the frame's end.
fn fault_step(random: &mut Random) -> Vec<u8> {
    match random.below(8) {
        0 => vec![random.range(0xF8, 0xFC) as u8],
        1 => vec![CE, random.byte()],
        2 => vec![CE, CE],
        3 => vec![CE, random.pick(&[0xD7, 0xE0, 0xF8, 0xFC, 0x00, 0x20])],
        4 => vec![CE, EOF],
        5 => vec![CE, BOF],
        6 => vec![BOF],
        _ => vec![EOF],
    }
}

/// A frame with byte faults in any order, ended or not.
fn faulty_frame(random: &mut Random) -> Vec<u8> {
    let mut out = vec![BOF];
    for _ in 0..random.range(1, 4) {
        for _ in 0..random.below(5) {
            out.push(random.below(0xF8) as u8);
        }
        out.extend(fault_step(random));
    }
    if random.one_in(2) {
        out.push(EOF);
    }
    out
}

/// A frame with content near 1,024 bytes: right or wrong, cut or faulty at the limit.
fn long_frame(random: &mut Random) -> Vec<u8> {
    let content = random.range(1_020, 1_030);
    let payload = payload(random, content - 2 - 9);
    let marks = random.pick(&[0xC0, 0x80, 0x00, 0x40]);
    let mut out = if random.one_in(4) {
        framed_badly(&packet(marks, 0x14, &payload), random.range(1, 0xFFFF) as u16)
    } else {
        framed(&packet(marks, 0x14, &payload))
    };
    if random.one_in(2) {
        out.pop();
        for _ in 0..random.range(1, 3) {
            out.extend(fault_step(random));
        }
    }
    out
}

fn short_frame(random: &mut Random) -> Vec<u8> {
    let length = random.below(7);
    let data = random.bytes(length);
    match random.below(3) {
        0 => with_content(&data),
        1 => framed(&data[..length.min(4)]),
        _ => framed(&[&[0x00, 0x0E], &data[..]].concat()),
    }
}

fn stray(random: &mut Random) -> Vec<u8> {
    let length = random.range(1, 8);
    (0..length).map(|_| if random.one_in(3) { EOF } else { random.below(0xFE) as u8 }).collect()
}

fn noise(random: &mut Random) -> Vec<u8> {
    let length = random.range(1, 40);
    let special = [BOF, EOF, CE, 0xF8, 0xDE, 0xD8, 0x00, 0x0E, 0x01, 0x02, 0x80, 0xC0];
    (0..length).map(|_| if random.one_in(3) { random.byte() } else { random.pick(&special) }).collect()
}

pub const KINDS: [&str; 14] = [
    "keep-alive",
    "message",
    "piece",
    "first piece",
    "bad packet",
    "bad crc",
    "faulty frame",
    "long frame",
    "short frame",
    "cut frame",
    "stray",
    "noise",
    "mutated message",
    "big message",
];

/// One piece of a stream of the given kind.
pub fn part(random: &mut Random, kind: usize) -> Vec<u8> {
    match kind {
        0 => write_keep_alive(random.one_in(2)),
        1 => good_message(random),
        2 => {
            let marks = random.pick(&[0x00, 0x40, 0x80, 0xC0]);
            let length = payload_length(random);
            good_piece(random, marks, length)
        }
        3 => {
            let length = payload_length(random);
            good_piece(random, 0x80, length)
        }
        4 => bad_packet(random),
        5 => {
            let length = random.below(8);
            let payload = payload(random, length);
            framed_badly(&packet(0xC0, 0x14, &payload), 1 << random.below(16))
        }
        6 => faulty_frame(random),
        7 => long_frame(random),
        8 => short_frame(random),
        9 => {
            let mut frame = good_message(random);
            frame.truncate(random.range(1, frame.len()));
            frame
        }
        10 => stray(random),
        11 => noise(random),
        12 => {
            let mut stream = good_message(random);
            for _ in 0..random.range(1, 3) {
                mutate_bytes(random, &mut stream);
            }
            stream
        }
        _ => {
            let total = 16_384 - random.below(3);
            let (marks, tail) = random.pick(&[(0x40, 0), (0x40, 1), (0x40, 2), (0x00, 3), (0x80, 5), (0x00, 0)]);
            let mut out = big_message(random, total, marks, tail);
            out.extend(good_piece(random, 0x40, 1));
            out
        }
    }
}

/// Something with a fault, by the number of its event; the long ones once in `long` times.
pub fn fault(random: &mut Random, long: usize) -> Vec<u8> {
    let frame = |flags: u8, at: usize, byte: u8, payload: &[u8]| {
        let mut data = packet(flags, 0x14, payload);
        data[at] = byte;
        framed(&data)
    };
    match random.pick(&[10, 11, 12, 13, 14, 15, 16, 20, 20, 21, 22, 23, 24, 0, 0]) {
        10 => vec![random.pick(&[0x00, 0x41, 0xF8, 0xFD, 0xFF])],
        11 => random.pick(&[vec![0xFE, 0x00, 0xFE], vec![0xFE, 0xFD, 0xFE]]),
        12 => random.pick(&[vec![0xFE, 0xF8, 0xFF], vec![0xFE, 0x00, 0xFC, 0xFE], vec![0xFE, 0xFD, 0x00, 0xFF]]),
        13 if random.one_in(long) => [vec![0xFE], vec![0x11; 1_025], vec![0xFF]].concat(),
        14 => vec![0xFE, 0x11, 0xFD, 0xFF],
        15 => [vec![0xFE], vec![0x11; random.below(6)], vec![0xFF]].concat(),
        16 => vec![0xFE, 0x00, 0x0E, 0x01, 0x01, 0x94, 0xE5, 0xFF],
        20 => match random.below(5) {
            0 => frame(0xC0, 0, 1, &[1]),
            1 => frame(0xC0, 1, 0x0D, &[1]),
            2 => frame(0xC0, 2, random.range(1, 9) as u8, &[1]),
            3 => frame(0xC0, 3, 2, &[1]),
            _ => framed(&packet(0xE0, 0x14, &[])[..random.range(4, 8)]),
        },
        21 => random.pick(&[frame(0xC0, 4, 0xC1, &[1]), frame(0xC0, 4, 0xE0, &[1]), frame(0xC0, 4, 0xC0, &[])]),
        22 => random.pick(&[frame(0xC0, 5, 2, &[1]), frame(0xC0, 6, 3, &[1]), frame(0xC0, 8, 1, &[1])]),
        23 => framed(&packet(random.pick(&[0x00, 0x40]), 0x14, &[1])),
        24 if random.one_in(long) => {
            let full = |flags| framed(&packet(flags, 0x14, &[0x55; PAYLOAD_MAX]));
            [full(0x80), full(0).repeat(16)].concat()
        }
        _ => {
            let kind = random.pick(&[4, 5, 6, 8, 9, 10, 11, 12]);
            part(random, kind)
        }
    }
}

/// The kinds of the parts of a stream. A first piece often stands before a fault, so that there is a
/// message to throw away.
fn parts(random: &mut Random, count: usize) -> Vec<usize> {
    let mut kinds = Vec::new();
    while kinds.len() < count {
        let kind = match random.below(60) {
            0 => 13,
            1 | 2 => 7,
            _ => random.pick(&[0, 1, 2, 3, 4, 5, 6, 8, 9, 10, 11, 12]),
        };
        if random.one_in(3) {
            kinds.push(3);
        }
        kinds.push(kind);
    }
    kinds
}

/// A part of each kind but the longest, in a drawn order; with `long` also every header and flag, long frames, and
/// messages over the limit.
pub fn some_of_each(random: &mut Random, long: bool) -> Vec<u8> {
    let mut kinds: Vec<usize> = (0..13).filter(|kind| long || *kind != 7).collect();
    random.shuffle(&mut kinds);
    let mut stream = Vec::new();
    for kind in kinds {
        stream.extend(part(random, kind));
    }
    if long {
        stream.extend(headers());
        stream.extend(every_flags());
        stream.extend(big_messages(random));
    }
    stream
}

/// An input of the program `frames`, and how many parts of each kind it has.
pub fn input(seed: u64, count: usize) -> (Vec<u8>, [usize; KINDS.len()]) {
    let mut random = Random::new(seed);
    let random = &mut random;
    let mut kinds_seen = [0; KINDS.len()];
    let mut stream = Vec::new();
    for kind in parts(random, count) {
        kinds_seen[kind] += 1;
        stream.extend(part(random, kind));
    }
    let mut text = chunked(random, &stream).into_bytes();
    if random.one_in(6) {
        // A bad line, last or before other lines.
        let starts: Vec<usize> =
            std::iter::once(0).chain(text.iter().enumerate().filter(|(_, &byte)| byte == b'\n').map(|(at, _)| at + 1)).collect();
        let at = if random.one_in(2) { text.len() } else { random.pick(&starts) };
        let mut line = bad_hex_line(random);
        if !line.is_empty() && random.one_in(2) && at == text.len() {
            text.extend(line);
        } else {
            line.push(b'\n');
            text.splice(at..at, line);
        }
    } else if random.one_in(3) && text.last() == Some(&b'\n') {
        text.pop();
    }
    (text, kinds_seen)
}

/// Each byte value outside a frame, in a frame, and after CE, with and without other content.
fn every_byte() -> Vec<u8> {
    let mut out = Vec::new();
    for byte in 0..=255 {
        out.extend([BOF, EOF, byte, BOF, EOF]); // the first byte of a stray run
        out.extend([BOF, byte, EOF]);
        out.extend([BOF, CE, byte, EOF, BOF, EOF]);
        out.extend([BOF, 0x00, CE, byte, 0x01, BOF, EOF]);
    }
    out
}

/// Two byte faults in each order, ended by EOF and by BOF, with and without an open message.
fn fault_pairs() -> Vec<u8> {
    let filled = vec![0x11; 1_025];
    let steps: [&[u8]; 10] =
        [&[0xF8], &[0xFC], &[CE, 0x41], &[CE, CE], &[CE, 0xE0], &[CE, 0xDF], &[CE, EOF], &[CE, BOF], &[0x11], &filled];
    let first = framed(&packet(0x80, 0x14, &[0x01, 0x02, 0x03]));
    let mut out = Vec::new();
    let mut count = 0;
    for a in steps {
        for b in steps {
            for end in [EOF, BOF] {
                if (a.len() > 2 || b.len() > 2) && end == BOF && count % 3 != 0 {
                    count += 1;
                    continue; // the long ones only now and then
                }
                if count % 2 == 0 {
                    out.extend(&first);
                }
                count += 1;
                out.push(BOF);
                out.extend(a);
                out.extend(b);
                out.push(end);
                if end == BOF {
                    out.push(EOF);
                }
            }
        }
    }
    out
}

/// Every mixture of faults of CRC, header, flags, DTD and orphan.
fn fault_mixtures() -> Vec<u8> {
    let mut out = Vec::new();
    let open = framed(&packet(0x80, 0x14, &[0x55]));
    let close = framed(&packet(0xC0, 0x14, &[0x66]));
    for header in 0..6 {
        for flags in 0..4 {
            for dtd in 0..4 {
                for change in [0, 0x0100] {
                    for marks in [0x00, 0x80, 0x40] {
                        for opened in [false, true] {
                            let mut data = packet(marks, 0x14, if flags == 3 { &[] } else { &[0x77] });
                            match header {
                                1 => data[0] = 0x01,
                                2 => data[1] = 0x0D,
                                3 => data[2] = 0x03,
                                4 => data[3] = 0x02,
                                _ => {}
                            }
                            match flags {
                                1 => data[4] |= 0x01,
                                2 => data[4] |= 0x20,
                                _ => {} // 3: no payload and no mark for it
                            }
                            match dtd {
                                1 => data[5] = 0x02,
                                2 => data[6] = 0x00,
                                3 => data[8] = 0x01,
                                _ => {}
                            }
                            if header == 5 {
                                data.truncate(8);
                            }
                            out.extend(if opened { &open } else { &close });
                            out.extend(framed_badly(&data, change));
                        }
                    }
                }
            }
        }
    }
    out
}

/// Every flags byte, with and without payload, on an open message and on none.
fn every_flags() -> Vec<u8> {
    let mut out = Vec::new();
    let open = framed(&packet(0x80, 0x14, &[0x55]));
    for flags in 0..=255 {
        out.extend(framed(&packet(flags, 0x14, &[0x01])));
        out.extend(framed(&packet(flags, flags, &[])));
        if flags & 0x1F == 0 {
            out.extend(&open);
            out.extend(framed(&packet(flags, 0x14, &[0xFF, 0x00])));
            out.extend(&open);
            out.extend(framed(&packet(flags, 0x14, &[])));
        }
    }
    out
}

/// Each value of each header byte, keep-alives of other sizes, and short frames.
fn headers() -> Vec<u8> {
    let mut out = Vec::new();
    let open = framed(&packet(0x80, 0x14, &[0x55]));
    for at in [0, 1, 2, 3, 5, 6, 7, 8] {
        for value in [0x00, 0x01, 0x02, 0x03, 0x0D, 0x0E, 0x0F, 0x7F, 0x80, 0xF8, 0xFD, 0xFE, 0xFF] {
            let mut data = packet(0xC0, 0x14, &[0x77, 0x88]);
            data[at] = value;
            out.extend(framed(&data));
        }
    }
    for command in 0..4 {
        for length in 0..12 {
            let mut data = vec![0x00, 0x0E, command, 0x01, 0xE0, 0x01, 0x02, 0x14, 0x02, 0x33, 0x44, 0x55];
            data.truncate(length);
            out.extend(&open);
            out.extend(framed(&data));
        }
    }
    for length in 0..8 {
        out.extend(&open);
        out.extend(with_content(&vec![0x00; length]));
        out.extend([BOF, BOF]);
        out.extend(with_content(&vec![0xFF; length]));
    }
    out
}

/// Content of 1,018 to 1,030 bytes, plain and escaped throughout.
fn long_frames() -> Vec<u8> {
    let mut out = Vec::new();
    for content in 1_020..=1_030 {
        for byte in [0x33, 0xFB] {
            out.extend(framed(&packet(0xC0, 0x14, &vec![byte; content - 11])));
        }
    }
    // At 1,023 and 1,024 bytes: each kind of byte, and CE and each kind of byte.
    let open = framed(&packet(0x80, 0x14, &[0x55]));
    for content in [1_023, 1_024] {
        for tail in [
            &[0x00][..],
            &[0x00, 0x00],
            &[0xF7],
            &[0xF8],
            &[0xFC, 0x00],
            &[CE],
            &[CE, BOF],
            &[CE, 0xD7],
            &[CE, 0xD8],
            &[CE, 0xDF],
            &[CE, 0xE0],
            &[CE, CE],
            &[CE, 0xDD, CE],
            &[CE, 0xD8, 0xF8],
            &[0x00, CE, 0xD8],
            &[0x00, CE, BOF],
            &[BOF],
        ] {
            out.extend(&open);
            out.push(BOF);
            out.extend(vec![0x22; content]);
            out.extend(tail);
            out.push(EOF);
        }
    }
    out
}

/// Messages around 16,384 bytes.
fn big_messages(random: &mut Random) -> Vec<u8> {
    let mut out = big_message(random, 16_384, 0x40, 1);
    out.extend(good_piece(random, 0x40, 2)); // an orphan now
    out.extend(big_message(random, 16_380, 0x00, 5));
    out.extend(good_piece(random, 0x00, 0));
    out.extend(big_message(random, 16_383, 0x00, 1)); // exactly 16,384, still open
    out.extend(good_piece(random, 0x00, 0)); // an empty piece adds nothing
    out.extend(good_piece(random, 0x80, 4)); // throws it away
    out.extend(good_piece(random, 0x40, 4));
    out
}

/// The stored input: every event, each fault in each order, long frames, 24, escapes at every limit, many
/// chunkings; no bad line; ends inside a frame and a message.
pub fn stored() -> Vec<u8> {
    let mut random = Random::new(101);
    let random = &mut random;
    let mut text = String::new();
    text += &chunked_in(random, &[0xFE, 0x00, 0x0E, 0x01, 0x01, 0x94, 0xE4, 0xFF], 0); // P9
    text += &chunked_in(random, &[0xFE, 0x00, 0x0E, 0x01, 0x01, 0x94, 0xE5, 0xFF], 1); // P10
    text += &chunked_in(random, &[0xFE, 0xFE, 0xFF], 1); // P11
    text += &chunked_in(random, &framed(&[0xFF, 0x00, 0xF9, 0x01]), 2); // P8
    for (stream, style) in [
        (every_byte(), 3),
        (every_flags(), 2),
        (headers(), 5),
        (fault_mixtures(), 6),
        (fault_pairs(), 4),
        (long_frames(), 7),
        (big_message(random, 16_384, 0x40, 0), 0),
        (big_messages(random), 4),
    ] {
        text += &chunked_in(random, &stream, style);
    }
    for round in 0..88 {
        let mut stream = Vec::new();
        for kind in parts(random, 4) {
            if kind != 13 && (kind != 7 || round % 4 == 0) {
                stream.extend(part(random, kind));
            }
        }
        text += &chunked_in(random, &stream, round % 8);
    }
    let mut stream = vec![BOF, EOF];
    stream.extend(framed(&packet(0x80, 0x14, &[0x01, 0x02, 0x03, 0x04, 0x05])));
    stream.extend(write_keep_alive(false));
    stream.extend([BOF, 0x00, 0x0E, CE, 0xD8, CE]);
    text += &chunked_in(random, &stream, 3);
    text.pop(); // the last line ends at the input's end
    text.into_bytes()
}

#[cfg(test)]
mod tests {
    use super::*;
    use crate::lines::{hex_line, lines};
    use crate::programs::frames;

    #[test]
    fn stored_input_covers_every_event() {
        let input = stored();
        assert!(input.len() < 600_000, "{}", input.len());
        assert!(lines(&input).iter().all(|line| !hex_line(line).1));
        let output = frames(&input);
        for number in [2, 3, 4, 5, 10, 11, 12, 13, 14, 15, 16, 20, 21, 22, 23, 24] {
            for discarded in [0, 1] {
                if discarded == 1 && [4, 5, 23].contains(&number) || discarded == 0 && number == 24 {
                    continue; // cannot be
                }
                let found = output.lines().any(|line| {
                    let words: Vec<&str> = line.split(' ').collect();
                    words[1] == number.to_string() && words[2] == discarded.to_string()
                });
                assert!(found, "no event {number} {discarded}");
            }
        }
        assert!(output.ends_with(" 3 5\n"), "{}", &output[output.len() - 40..]);
    }

    #[test]
    fn deterministic() {
        assert_eq!(input(7, 20), input(7, 20));
        assert_ne!(input(7, 20), input(8, 20));
        assert_eq!(stored(), stored());
    }
}
