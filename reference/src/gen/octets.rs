//! Request lines of the program `octets`.

use super::Random;
use crate::lines::{digits, hex};
use crate::programs::OCTETS_LINE_MAX;
use crate::values::{
    from_double, write_identifier, write_int, write_length, write_oid, write_real, LENGTH_MAX, NUMBER_MAX, TAG_NUMBER_MAX,
};

pub const KINDS: [&str; 14] = [
    "read int",
    "read real",
    "read bool",
    "read tag",
    "read oid",
    "write int",
    "write real",
    "write bool",
    "write tag",
    "write length",
    "write oid",
    "malformed",
    "read value",
    "write value",
];

/// One request and the index of its kind.
pub fn request(random: &mut Random) -> (Vec<u8>, usize) {
    let kind = match random.below(32) {
        0..=3 => 0,
        4..=8 => 1,
        9 => 2,
        10..=12 => 3,
        13..=15 => 4,
        16 | 17 => 5,
        18 | 19 => 6,
        20 => 8,
        21 => 9,
        22 => 10,
        23 => random.pick(&[7, 11, 11]),
        24..=29 => 12,
        _ => 13,
    };
    (of_kind(random, kind), kind)
}

fn of_kind(random: &mut Random, kind: usize) -> Vec<u8> {
    match kind {
        0 => read(random, "int", int_octets),
        1 => read(random, "real", real_octets),
        2 => read(random, "bool", bool_octets),
        3 => read(random, "tag", tag_octets),
        4 => read(random, "oid", oid_octets),
        5 => format!("write int {}", int_word(random)).into_bytes(),
        6 => format!("write real {:016X}", double_bits(random)).into_bytes(),
        7 => format!("write bool {}", random.pick(&["true", "false"])).into_bytes(),
        8 => {
            let number = natural(random, TAG_NUMBER_MAX);
            format!("write tag {} {} {}", random.below(4), random.below(2), number).into_bytes()
        }
        9 => format!("write length {}", natural(random, LENGTH_MAX)).into_bytes(),
        10 => {
            let count = random.below(7);
            let words: Vec<String> = (0..count).map(|_| natural(random, NUMBER_MAX)).collect();
            format!("write oid {}", if count == 0 { "-".to_string() } else { words.join(".") }).into_bytes()
        }
        11 => malformed(random),
        12 => read_value(random),
        _ => write_value(random),
    }
}

fn read(random: &mut Random, name: &str, octets: fn(&mut Random) -> Vec<u8>) -> Vec<u8> {
    let mut octets = octets(random);
    octets.truncate(64);
    let mut word = hex(&octets);
    if random.one_in(4) {
        word = word.to_lowercase();
    }
    format!("read {name} {word}").into_bytes()
}

/// A number near a power of two, or any.
fn near_power(random: &mut Random) -> i128 {
    let power = random.below(70);
    let near = (1i128 << power) + random.range(0, 6) as i128 - 3;
    match random.below(3) {
        0 => near,
        1 => -near,
        _ => i128::from(random.next() as i64 >> random.below(64)),
    }
}

fn int_word(random: &mut Random) -> String {
    let value = near_power(random);
    let zeros = if random.one_in(8) { "0".repeat(random.range(1, 30)) } else { String::new() };
    match random.below(12) {
        0 => format!("{}{}{}", if random.one_in(2) { "-" } else { "" }, zeros, "9".repeat(random.range(18, 60))),
        1 => format!("-{zeros}0"),
        _ => format!("{}{}{}", if value < 0 { "-" } else { "" }, zeros, value.unsigned_abs()),
    }
}

/// A decimal number around `top` or a power of two, sometimes with leading zeros or far too long.
fn natural(random: &mut Random, top: u64) -> String {
    let zeros = if random.one_in(10) { "0".repeat(random.range(1, 25)) } else { String::new() };
    let value = match random.below(6) {
        0 => u128::from(top) + random.range(0, 4) as u128 - 2,
        1 => near_power(random).unsigned_abs(),
        2 => u128::from(random.next()) >> random.below(64),
        3 => u128::from(random.next() % (top + 1)),
        _ => u128::from(random.next() % (top + 1)) >> random.below(32),
    };
    if random.one_in(40) {
        return format!("{zeros}1{}", "0".repeat(random.range(20, 60)));
    }
    format!("{zeros}{value}")
}

fn int_octets(random: &mut Random) -> Vec<u8> {
    match random.below(4) {
        0 => {
            // Written right, then made longer or not.
            let mut octets = write_int(near_power(random) as i64);
            if random.one_in(3) {
                octets.insert(0, if octets[0] & 0x80 != 0 { 0xFF } else { 0x00 });
            }
            octets
        }
        1 => {
            let length = random.range(1, 9);
            let mut octets = random.bytes(length);
            octets[0] = random.pick(&[0x00, 0xFF, 0x01, 0xFE, 0x7F, 0x80]);
            if length > 1 && random.one_in(2) {
                octets[1] = random.pick(&[0x00, 0x7F, 0x80, 0xFF]);
            }
            octets
        }
        2 => {
            let length = random.below(12);
            random.bytes(length)
        }
        _ => {
            let length = random.range(1, 8);
            random.bytes(length)
        }
    }
}

fn bool_octets(random: &mut Random) -> Vec<u8> {
    let length = random.pick(&[0, 1, 1, 1, 1, 2, 3]);
    (0..length).map(|_| if random.one_in(3) { 0 } else { random.byte() }).collect()
}

/// The octets of a real: mantissa, exponent in its length, scale, sign.
fn real(negative: bool, mantissa: u64, mantissa_length: usize, exponent: i64, exponent_length: usize, scale: u8) -> Vec<u8> {
    let sign = if negative { 0x40 } else { 0 };
    let mut octets = vec![0x80 | sign | scale << 2 | (exponent_length as u8 - 1)];
    octets.extend(&exponent.to_be_bytes()[8 - exponent_length..]);
    octets.extend(&mantissa.to_be_bytes()[8 - mantissa_length..]);
    octets
}

/// Some spelling of a mantissa and power: shifted, scaled, with more octets than needed.
fn spelt(random: &mut Random, negative: bool, mantissa: u64, power: i64) -> Vec<u8> {
    let room = mantissa.leading_zeros() as usize;
    let shift = if random.one_in(2) { 0 } else { random.below(room + 1) };
    let scale = if random.one_in(2) { 0 } else { random.below(4) as u8 };
    let mantissa = if shift == 64 { 0 } else { mantissa << shift };
    let exponent = power - shift as i64 - i64::from(scale);
    let fewest = write_int(exponent).len().min(3);
    let exponent_length = if random.one_in(2) { fewest } else { random.range(fewest, 3) };
    let bytes = (64 - mantissa.leading_zeros() as usize).div_ceil(8).max(1);
    let mantissa_length = if random.one_in(2) { bytes } else { random.range(bytes, 8) };
    real(negative, mantissa, mantissa_length, exponent, exponent_length, scale)
}

fn double_bits(random: &mut Random) -> u64 {
    let sign = (random.below(2) as u64) << 63;
    let fraction = match random.below(4) {
        0 => 0,
        1 => 1 << random.below(52),
        2 => random.next() >> 12 >> random.below(52) << random.below(12) & ((1 << 52) - 1),
        _ => random.next() >> 12,
    };
    let exponent = match random.below(6) {
        0 => 0,
        1 => 1,
        2 => 0x7FF,
        3 => 0x7FE,
        4 => random.range(1_000, 1_100) as u64,
        _ => random.below(2_048) as u64,
    };
    sign | exponent << 52 | fraction
}

fn real_octets(random: &mut Random) -> Vec<u8> {
    let negative = random.one_in(2);
    match random.below(10) {
        0..=3 => {
            // A double, in some spelling.
            let value = f64::from_bits(double_bits(random));
            if !value.is_finite() || value == 0.0 {
                return random.pick(&[vec![], vec![0x40], vec![0x41]]);
            }
            let odd = from_double(value);
            spelt(random, odd.negative, odd.mantissa, odd.power)
        }
        4 => {
            // A mantissa around 2^53.
            let mantissa = (1u64 << random.range(51, 54)) + random.range(0, 6) as u64 - 3;
            let power = random.range(0, 40) as i64 - 20;
            spelt(random, negative, mantissa, power)
        }
        5 => {
            // A power around -1,074.
            let mantissa = (random.next() >> 11 >> random.below(53)) | 1;
            let power = -1_074 + random.range(0, 6) as i64 - 3;
            spelt(random, negative, mantissa, power)
        }
        6 => {
            // Bits plus power around 1,024.
            let mantissa = (random.next() >> 11 >> random.below(53)) | 1;
            let bits = i64::from(64 - mantissa.leading_zeros());
            let power = 1_024 - bits + random.range(0, 4) as i64 - 2;
            spelt(random, negative, mantissa, power)
        }
        7 => {
            // Any mantissa of 8 octets that may reduce, any exponent.
            let mantissa = random.next() >> random.below(64) << random.below(64);
            let length = random.range(1, 3);
            let exponent = random.next() as i64;
            let octets = (64 - mantissa.leading_zeros() as usize).div_ceil(8).max(1);
            real(negative, mantissa, random.range(octets, 8), exponent, length, random.below(4) as u8)
        }
        8 => {
            // A right one with other first bits, or cut, or longer.
            let power = random.range(0, 200) as i64 - 100;
            let mut octets = spelt(random, negative, 0x1234_5678, power);
            match random.below(4) {
                0 => octets[0] = random.byte(),
                1 if random.one_in(2) => {
                    // Form 11, with a count of octets or without.
                    octets[0] |= 0x03;
                    octets.splice(1..2, random.pick(&[vec![], vec![0; 4], vec![4, 0, 0, 0, 0], vec![1, 0], vec![3, 0, 0, 0]]));
                }
                1 => octets[0] ^= 1 << random.below(8),
                2 => octets.truncate(random.below(octets.len())),
                _ => {
                    let length = random.range(1, 8);
                    octets.extend(random.bytes(length));
                }
            }
            octets
        }
        _ => {
            let length = random.below(13);
            let mut octets = random.bytes(length);
            if length > 0 && random.one_in(2) {
                octets[0] = random
                    .pick(&[0x40, 0x41, 0x42, 0x43, 0x00, 0x01, 0x02, 0x03, 0x80, 0x81, 0x82, 0x83, 0xC0, 0x90, 0xA0, 0xB0]);
            }
            octets
        }
    }
}

/// Identifier octets, the number in `length` octets of long form.
fn long_identifier(first: u8, number: u64, length: usize) -> Vec<u8> {
    let mut octets = vec![first | 0x1F];
    for index in (0..length).rev() {
        let more = if index > 0 { 0x80 } else { 0 };
        octets.push((number >> (7 * index) & 0x7F) as u8 | more);
    }
    octets
}

fn tag_octets(random: &mut Random) -> Vec<u8> {
    let first = random.byte() & 0xE0;
    let mut octets = match random.below(5) {
        0 => vec![first | random.below(31) as u8],
        1 => {
            let number = random.next() & TAG_NUMBER_MAX >> random.below(28);
            write_identifier(first >> 6, first & 0x20 != 0, number).unwrap()
        }
        2 => {
            // Small numbers in long form, longer forms than needed too.
            let length = random.range(1, 6);
            let number = random.next() >> random.below(64);
            long_identifier(first, number, length)
        }
        3 => {
            let mut octets = vec![first | 0x1F];
            for _ in 0..random.range(1, 6) {
                octets.push(random.pick(&[0x80, 0x81, 0xFF, 0x7F, 0x00, 0x01]));
            }
            octets
        }
        _ => vec![random.byte()],
    };
    match random.below(6) {
        0 => octets.push(random.below(0x80) as u8),
        1 => octets.push(0x80),
        2 => octets.extend(write_length(random.next() & LENGTH_MAX >> random.below(32)).unwrap()),
        3 => {
            let length = random.range(1, 4);
            octets.push(0x80 + length as u8);
            octets.extend(random.bytes(length));
        }
        4 => {
            octets.push(random.pick(&[0x84, 0x85, 0x86, 0xFE, 0xFF, 0x88]));
            octets.extend(random.bytes(5));
        }
        _ => {}
    }
    if random.one_in(3) {
        let length = random.range(1, 6);
        octets.extend(random.bytes(length));
    }
    if random.one_in(4) {
        octets.truncate(random.below(octets.len() + 1));
    }
    octets
}

fn oid_octets(random: &mut Random) -> Vec<u8> {
    let mut octets = Vec::new();
    if random.one_in(12) {
        // Many numbers; the fault, if there is one, in the last.
        let count = random.pick(&[8, 15, 16, 17, 63, 64, 65, 200, 1_001]);
        let one: &[u8] = random.pick(&[&[1][..], &[0], &[0x81, 0x00], &[0x87, 0xFF, 0xFF, 0xFF, 0x7F]]);
        let last: &[u8] = random.pick(&[&[][..], &[0x7F], &[0x80, 0x01], &[0x81], &[0x88, 0x80, 0x80, 0x80, 0x00]]);
        return [&one.repeat(count)[..], last].concat();
    }
    for _ in 0..random.below(7) {
        match random.below(8) {
            0 => octets.extend(write_oid(&[NUMBER_MAX - random.below(3) as u64]).unwrap()),
            1 => {
                // Over the limit, in five or more octets.
                octets.extend(&long_identifier(0, NUMBER_MAX + 1 + (random.next() >> random.range(30, 63)), 5)[1..]);
            }
            2 if random.one_in(3) => {
                octets.push(random.range(0x81, 0xFF) as u8);
                for _ in 0..random.range(5, 14) {
                    octets.push(0x80 | random.byte());
                }
                octets.push(random.byte() & 0x7F);
            }
            3 if random.one_in(3) => octets.push(0x80),
            4 if random.one_in(3) => octets.push(0x80 | random.byte()),
            _ => octets.extend(write_oid(&[random.next() & NUMBER_MAX >> random.below(31)]).unwrap()),
        }
    }
    octets
}

/// Tag, length and content octets of some value, right or nearly so.
fn value_octets(random: &mut Random) -> Vec<u8> {
    let number = random.pick(&[1, 2, 4, 9, 12, 1, 2, 4, 9, 12, 1, 2, 4, 9, 12, 0, 3, 5, 13, 16, 30]);
    let first = if random.one_in(8) { random.byte() & 0xE0 } else { 0 };
    let mut octets =
        if random.one_in(4) { long_identifier(first, number, random.range(1, 4)) } else { vec![first | number as u8] };
    let content = match number {
        1 => bool_octets(random),
        2 => int_octets(random),
        9 => real_octets(random),
        _ => {
            let length = if random.one_in(20) { random.range(120, 300) } else { random.below(12) };
            random.bytes(length)
        }
    };
    match random.below(6) {
        0 => {
            // A length in more octets than needed.
            let length = random.range(2, 4);
            octets.push(0x80 + length as u8);
            octets.extend(&(content.len() as u32).to_be_bytes()[4 - length..]);
        }
        1 if random.one_in(3) => octets.push(random.pick(&[0x80, 0x85, 0xFF, 0x84, 0x81, 0x7F])),
        _ => octets.extend(write_length(content.len() as u64).unwrap()),
    }
    octets.extend(content);
    octets
}

/// A value somewhere in a message; the bound near one of the places that matter.
fn read_value(random: &mut Random) -> Vec<u8> {
    let length = random.pick(&[0, 0, 1, 2, 3, 7, 20]);
    let mut message = random.bytes(length);
    let value = value_octets(random);
    message.extend(&value);
    let end = message.len();
    if random.one_in(3) {
        let length = random.range(1, 9);
        message.extend(random.bytes(length));
    }
    if random.one_in(3) {
        message.truncate(length + random.below(message.len() - length + 1));
    }
    let near = |random: &mut Random, place: usize| (place + random.below(5)).saturating_sub(2).to_string();
    let at = match random.below(12) {
        0 => near(random, length),
        1 => near(random, message.len()),
        2 if random.one_in(4) => natural(random, u64::MAX - 2),
        _ => length.to_string(),
    };
    let bound = match random.below(8) {
        0 | 1 => "-".to_string(),
        2 => near(random, end),
        3 => near(random, message.len()),
        4 => message.len().to_string(),
        5 => (length + random.below(value.len() + 1)).to_string(),
        6 if random.one_in(4) => natural(random, u64::MAX - 2),
        _ => end.to_string(),
    };
    let mut word = hex(&message);
    if random.one_in(4) {
        word = word.to_lowercase();
    }
    format!("read value {at} {bound} {word}").into_bytes()
}

fn write_value(random: &mut Random) -> Vec<u8> {
    let text = |random: &mut Random| {
        let length = match random.below(12) {
            0 => 0,
            1 => random.range(125, 130),
            2 => random.range(250, 260),
            3 if random.one_in(10) => random.range(300, 8_000),
            _ => random.below(40),
        };
        hex(&random.bytes(length))
    };
    match random.below(8) {
        0 | 1 => format!("write value int {}", int_word(random)),
        2 | 3 => format!("write value real {:016X}", double_bits(random)),
        4 => format!("write value bool {}", random.pick(&["true", "false"])),
        5 | 6 => format!("write value text {}", text(random)),
        _ => format!("write value octets {}", text(random).to_lowercase()),
    }
    .into_bytes()
}

fn malformed(random: &mut Random) -> Vec<u8> {
    if random.one_in(3) {
        return random.pick(MALFORMED).as_bytes().to_vec();
    }
    let kind = random.pick(&[0, 1, 2, 3, 4, 5, 6, 7, 8, 9, 10, 12, 13]);
    let mut line = of_kind(random, kind);
    let at = random.below(line.len() + 1);
    match random.below(6) {
        0 => line.insert(at, b' '),
        1 => line.insert(at, random.pick(b"gG-+.xX/:@`\t\r\0\x7F")),
        2 => line.truncate(at),
        3 => line.push(b' '),
        4 => line.extend(b" 1"),
        _ => {
            if at < line.len() {
                line.remove(at);
            }
        }
    }
    line
}

/// Lines that are no request.
pub const MALFORMED: &[&str] = &[
    "",
    " ",
    "read",
    "write",
    "read int",
    "read int ",
    "read  int 01",
    " read int 01",
    "read int 01 ",
    "read int 0",
    "read int 010",
    "read int 0G",
    "read int 0x01",
    "read int --",
    "read int - ",
    "read int 01\r",
    "read\tint\t01",
    "READ int 01",
    "Read int 01",
    "read Int 01",
    "read integer 01",
    "read length 01",
    "read text 41",
    "read int 01 02",
    "read real",
    "read real 8",
    "read bool",
    "read bool true",
    "read tag",
    "read oid",
    "read oid 1.2",
    "write int",
    "write int ",
    "write int -",
    "write int --1",
    "write int +1",
    "write int 1-",
    "write int 1.0",
    "write int 0x10",
    "write int 1 2",
    "write int A",
    "write real",
    "write real 0",
    "write real -",
    "write real 3FF000000000000",
    "write real 3FF00000000000000",
    "write real 3FF000000000000000",
    "write real 3FF000000000000G",
    "write real 1.0",
    "write bool",
    "write bool TRUE",
    "write bool True",
    "write bool FF",
    "write bool true ",
    "write bool -",
    "write tag",
    "write tag 0",
    "write tag 0 0",
    "write tag 4 0 0",
    "write tag 0 2 0",
    "write tag -1 0 0",
    "write tag 0 0 -1",
    "write tag 0 0 x",
    "write tag 0 0 1 2",
    "write tag 9 9 9",
    "write length",
    "write length -1",
    "write length x",
    "write length 1 1",
    "write length indefinite",
    "write oid",
    "write oid ",
    "write oid .",
    "write oid 1.",
    "write oid .1",
    "write oid 1..2",
    "write oid -1",
    "write oid 1.-2",
    "write oid 1,2",
    "write oid 1 2",
    "write oid --",
    "write oid 2147483648.",
    "bad line",
    "end",
    "read value",
    "read value ",
    "read value 0",
    "read value 0 ",
    "read value 0 -",
    "read value 0 - ",
    "read value 0 0500",
    "read value 0500",
    "read value  0 - 0500",
    "read value 0  - 0500",
    "read value 0 -  0500",
    "read value 0 - 0500 ",
    "read value 0 - 0500 00",
    "read value 0 - 050",
    "read value 0 - 0x00",
    "read value 0 -- 0500",
    "read value 0 -1 0500",
    "read value 0 1- 0500",
    "read value 0 x 0500",
    "read value - - 0500",
    "read value -1 - 0500",
    "read value x - 0500",
    "read Value 0 - 0500",
    "read values 0 - 0500",
    "write value",
    "write value ",
    "write value int",
    "write value int ",
    "write value int x",
    "write value int -",
    "write value int 1 ",
    "write value int 1 2",
    "write value  int 1",
    "write value Int 1",
    "write value integer 1",
    "write value real",
    "write value real -",
    "write value real 3FF000000000000",
    "write value real 3FF000000000000000",
    "write value real 3FF000000000000000 ",
    "write value bool",
    "write value bool ",
    "write value bool 1",
    "write value bool FF",
    "write value bool true ",
    "write value bool falsee",
    "write value bool TRUE",
    "write value text",
    "write value text ",
    "write value text 4",
    "write value text abc",
    "write value text --",
    "write value text 41 42",
    "write value octets",
    "write value octets 0G",
    "write value absent",
    "write value absent -",
    "write value oid 1.2",
    "write value 5",
    "write value tag 0 0 0",
];

/// 001's integer table and the edges of every rule.
pub fn edges() -> Vec<String> {
    let mut lines: Vec<String> = Vec::new();
    // 001's integer table, P1 to P7 among it.
    for (value, octets) in [
        ("1", "01"),
        ("-1", "FF"),
        ("255", "00FF"),
        ("127", "7F"),
        ("128", "0080"),
        ("-128", "80"),
        ("65535", "00FFFF"),
        ("32768", "008000"),
        ("-32768", "8000"),
        ("1333", "0535"),
    ] {
        lines.push(format!("write int {value}"));
        lines.push(format!("read int {octets}"));
    }
    edges_of_integers(&mut lines);
    edges_of_reals(&mut lines);
    for octets in ["-", "00", "01", "7F", "80", "FF", "0000", "00FF", "FF00", "010101"] {
        lines.push(format!("read bool {octets}"));
    }
    lines.push("write bool true".to_string());
    lines.push("write bool false".to_string());
    edges_of_tags(&mut lines);
    edges_of_oids(&mut lines);
    edges_of_values(&mut lines);
    lines.extend(MALFORMED.iter().map(|line| line.to_string()));
    lines
}

fn edges_of_integers(lines: &mut Vec<String>) {
    lines.push("read int -".to_string());
    for bits in 0..=66 {
        for offset in [-2, -1, 0, 1] {
            let value = (1i128 << bits) + offset;
            lines.push(format!("write int {value}"));
            lines.push(format!("write int -{value}").replace("--", ""));
            if let Ok(value) = i64::try_from(value) {
                lines.push(format!("read int {}", digits(&write_int(value))));
                lines.push(format!("read int {}", digits(&write_int(-value))));
            }
        }
    }
    // The first nine bits, at each width.
    for length in 1..=10 {
        for first in [0x00, 0x01, 0x7F, 0x80, 0xFE, 0xFF] {
            for second in [0x00, 0x7F, 0x80, 0xFF] {
                let mut octets = vec![0x55; length];
                octets[0] = first;
                if length > 1 {
                    octets[1] = second;
                }
                lines.push(format!("read int {}", digits(&octets)));
            }
        }
    }
    for word in [
        "0",
        "-0",
        "00",
        "-000",
        "0000000000000000000000000000001",
        "9223372036854775807",
        "9223372036854775808",
        "-9223372036854775808",
        "-9223372036854775809",
        "18446744073709551615",
        "18446744073709551616",
        "18446744073709551617",
        "-18446744073709551616",
        "36893488147419103232",
        "340282366920938463463374607431768211456",
        "-340282366920938463463374607431768211457",
        "99999999999999999999999999999999999999999999999999999999",
    ] {
        lines.push(format!("write int {word}"));
    }
}

fn edges_of_reals(lines: &mut Vec<String>) {
    for octets in [
        "-",
        "40",
        "41",
        "42",
        "43",
        "00",
        "01",
        "02",
        "03",
        "0131",
        "4000",
        "4100",
        "4040",
        "3F",
        "7F",
        "80",
        "8000",
        "800000",
        "800001",
        "C00001",
        "81",
        "8100",
        "810000",
        "81000001",
        "82",
        "820000",
        "82000000",
        "8200000001",
        "83",
        "830001",
        "83010001",
        "8302000001",
        "8303FFFFFF01",
        // Four octets of exponent, with and without a count of them.
        "830000000001",
        "830400000001",
        "83040000000001",
        "8304000000000001",
        "83FFFFFFFF01",
        "C30000000001",
        "900001",
        "A00001",
        "B00001",
        "D00001",
        "840001",
        "880001",
        "8C0001",
        "CC0001",
        "8F010001",
        "8000000001",
        "800000000000000001",
        "80000000000000000001",
        "8000000000000000000001",
        "800000000000000000000001",
        "80000000000000000000",
        "82FFFFFF01",
        "828000000001",
        "827FFFFF01",
        "82800000FF",
        "FF",
        "FFFF",
        "FFFFFF",
    ] {
        lines.push(format!("read real {octets}"));
    }
    let mut add = |negative, mantissa: u64, power: i64| {
        for scale in 0..4u8 {
            for shift in [0, 1, 7, 8, 10, 11] {
                if shift > mantissa.leading_zeros() {
                    continue;
                }
                let mantissa = mantissa << shift;
                let exponent = power - i64::from(shift) - i64::from(scale);
                let fewest = write_int(exponent).len();
                let octets = (64 - mantissa.leading_zeros() as usize).div_ceil(8).max(1);
                if shift == 0 && scale == 0 {
                    for exponent_length in fewest..=3 {
                        for mantissa_length in [octets, 8] {
                            let octets = real(negative, mantissa, mantissa_length, exponent, exponent_length, 0);
                            lines.push(format!("read real {}", digits(&octets)));
                        }
                    }
                } else if fewest <= 3 {
                    let octets = real(negative, mantissa, octets, exponent, fewest, scale);
                    lines.push(format!("read real {}", digits(&octets)));
                }
            }
        }
    };
    for mantissa in [
        1,
        3,
        (1 << 52) - 1,
        1 << 52,
        (1 << 52) + 1,
        (1 << 53) - 1,
        1 << 53,
        (1 << 53) + 1,
        (1 << 53) + 2,
        (1 << 54) - 2,
        (1 << 54) - 1,
        (1u64 << 63),
        (1 << 63) + (1 << 11),
        (1 << 63) + (1 << 10),
        u64::MAX,
        u64::MAX << 10,
        u64::MAX << 11,
        u64::MAX << 12,
    ] {
        add(false, mantissa, 0);
        let odd_mantissa = mantissa >> mantissa.trailing_zeros();
        let bits = i64::from(64 - odd_mantissa.leading_zeros());
        for offset in [-1, 0, 1] {
            add(mantissa % 4 == 3, odd_mantissa, -1_074 + offset);
            add(mantissa % 4 != 3, odd_mantissa, 1_024 - bits + offset);
            add(false, odd_mantissa, -1_022 - bits + 1 + offset);
        }
    }
    for power in [-129, -128, -127, 127, 128, -1_022, 1_023] {
        add(true, 1, power);
    }
    for bits in [
        0u64,
        1,
        2,
        3,
        0x000F_FFFF_FFFF_FFFF,
        0x0008_0000_0000_0000,
        0x0010_0000_0000_0000,
        0x0010_0000_0000_0001,
        0x3FE0_0000_0000_0000,
        0x3FF0_0000_0000_0000,
        0x3FF8_0000_0000_0000,
        0x3FEF_FFFF_FFFF_FFFF,
        0x3FF0_0000_0000_0001,
        0x4000_0000_0000_0000,
        0x4340_0000_0000_0000,
        0x433F_FFFF_FFFF_FFFF,
        0x47E0_0000_0000_0000,
        0x47F0_0000_0000_0000,
        0x37F0_0000_0000_0000,
        0x37E0_0000_0000_0000,
        0x7FE0_0000_0000_0000,
        0x7FEF_FFFF_FFFF_FFFF,
        0x7FF0_0000_0000_0000,
        0x7FF0_0000_0000_0001,
        0x7FF8_0000_0000_0000,
        0x7FFF_FFFF_FFFF_FFFF,
    ] {
        lines.push(format!("write real {bits:016X}"));
        lines.push(format!("write real {:016x}", bits | 1 << 63));
    }
    // Powers of two that change the exponent's or the mantissa's octets.
    for exponent in 0..0x7FF_u64 {
        if exponent % 97 == 0 || (880..=910).contains(&exponent) || (1_145..=1_155).contains(&exponent) {
            lines.push(format!("write real {:016X}", exponent << 52));
        }
    }
    for power in 0..53 {
        lines.push(format!("write real {:016X}", ((9_007_199_254_740_991u64 >> power) as f64).to_bits()));
        lines.push(format!("write real {:016X}", ((1u64 << power) as f64 + 1.0).to_bits()));
    }
}

fn edges_of_tags(lines: &mut Vec<String>) {
    for first in 0..=255u8 {
        lines.push(format!("read tag {first:02X}"));
        lines.push(format!("read tag {first:02X}00"));
        lines.push(format!("read tag {first:02X}80"));
        lines.push(format!("read tag 60{first:02X}"));
        lines.push(format!("read tag 40{first:02X}"));
        lines.push(format!("read tag 60{first:02X}0102030405"));
        lines.push(format!("read tag BF{first:02X}00"));
        lines.push(format!("read tag 5F{first:02X}"));
    }
    for octets in [
        "-",
        "1F",
        "1F80",
        "1F8000",
        "1F800100",
        "1F8100",
        "1F810000",
        "1F0000",
        "1F0100",
        "1F1E00",
        "1F1F00",
        "1F7F00",
        "1FFF7F00",
        "1FFFFF7F00",
        "1FFFFFFF7F00",
        "1FFFFFFFFF7F00",
        "1F8180808000",
        "1F818080800000",
        "1F81808080",
        "1F818080",
        "1F81808000",
        "1F8180800000",
        "1FFFFFFF",
        "1FFFFFFFFF",
        "3FFFFFFF7F80",
        "1FFFFFFF7F80",
        "1FFFFFFF7F84FFFFFFFF",
        "1FFFFFFF7F84FFFFFF",
        "1FFFFFFF7F8500000000FF",
        "600B6B09A007620",
        "600B6B09A0076205A003020120",
        "608100",
        "60820000",
        "6083000000",
        "608400000000",
        "60850000000000",
        "6081",
        "608201",
        "60830102",
        "6084010203",
        "608401020304",
        "60847FFFFFFF",
        "608480000000",
        "6084FFFFFFFF",
        "6081FF",
        "60817F",
        "6082FFFF",
        "6083FFFFFF",
        "0000",
        "00",
        "2000",
        "2080",
        "0080",
    ] {
        lines.push(format!("read tag {octets}"));
    }
    for class in 0..4 {
        for constructed in 0..2 {
            for number in [
                0u64,
                1,
                30,
                31,
                32,
                127,
                128,
                16_383,
                16_384,
                2_097_151,
                2_097_152,
                268_435_454,
                268_435_455,
                268_435_456,
                4_294_967_295,
                4_294_967_296,
                u64::MAX,
            ] {
                lines.push(format!("write tag {class} {constructed} {number}"));
            }
        }
    }
    lines.push("write tag 2 1 00000000000000000000000000000031".to_string());
    lines.push("write tag 2 1 18446744073709551616".to_string());
    lines.push("write tag 2 1 18446744073709551647".to_string());
    for number in [
        0u64,
        1,
        127,
        128,
        129,
        255,
        256,
        257,
        65_535,
        65_536,
        16_777_215,
        16_777_216,
        2_147_483_647,
        2_147_483_648,
        4_294_967_294,
        4_294_967_295,
        4_294_967_296,
        u64::MAX,
    ] {
        lines.push(format!("write length {number}"));
    }
    lines.push("write length 0000000000000000000000000000128".to_string());
    lines.push("write length 18446744073709551616".to_string());
    lines.push("write length 18446744073709551744".to_string());
}

fn edges_of_oids(lines: &mut Vec<String>) {
    for octets in [
        "-",
        "00",
        "01",
        "7F",
        "80",
        "8000",
        "8001",
        "8100",
        "8080",
        "808000",
        "81",
        "FF",
        "FF7F",
        "FFFF7F",
        "FFFFFF7F",
        "81808000",
        "8180808000",
        "87FFFFFF7F",
        "8880808000",
        "8FFFFFFF7F",
        "9080808000",
        "FFFFFFFF7F",
        "818080808000",
        "FFFFFFFFFF7F",
        "8180808080808080808000",
        "FFFFFFFFFFFFFFFFFF7F",
        "81FFFFFFFFFFFFFFFFFF7F",
        "82808080808080808080808080808000",
        "0000",
        "0100",
        "0180",
        "018000",
        "01800101",
        "888080800080",
        "88808080008001",
        "8880808000",
        "888080800001",
        "0188808080000281",
        "8880808080",
        "81808080808000",
        "000102030405060708090A0B0C0D0E0F",
        "000102030405060708090A0B0C0D0E0F10",
        "7F7F7F7F7F7F80",
    ] {
        lines.push(format!("read oid {octets}"));
    }
    // The fault last in a long list; long lists that are right.
    for count in [2, 3, 4, 8, 16, 17, 64, 65, 256, 1_001] {
        for first in ["01", "00", "7F", "8100", "87FFFFFF7F"] {
            for last in ["", "00", "87FFFFFF7F", "8880808000", "8001", "80", "81"] {
                if count <= 65 || first == "01" {
                    lines.push(format!("read oid {}{last}", first.repeat(count)));
                }
            }
        }
        let numbers = vec!["1"; count].join(".");
        for last in ["", ".0", ".128", ".2147483647", ".2147483648", "."] {
            lines.push(format!("write oid {numbers}{last}"));
        }
    }
    for word in [
        "-",
        "0",
        "1",
        "127",
        "128",
        "16383",
        "16384",
        "2097151",
        "2097152",
        "268435455",
        "268435456",
        "2147483647",
        "2147483648",
        "4294967296",
        "4294967297",
        "18446744073709551616",
        "18446744073709551617",
        "0.0",
        "1.2.3",
        "1.128.2147483647",
        "1.2147483648",
        "2147483648.1",
        "00000000000000000001.02",
        "1.2.3.4.5.6.7.8.9.10.11.12.13.14.15.16.17",
        "2147483647.2147483647.2147483647.2147483647.2147483647.2147483647",
    ] {
        lines.push(format!("write oid {word}"));
    }
}

/// Values with their tags: each with every bound near it and at every place where the message may end, at the
/// message's start and further in.
fn edges_of_values(lines: &mut Vec<String>) {
    for value in [
        "0101FF",
        "010100",
        "010102",
        "0100",
        "0102FFFF",
        "01020000",
        "0181017F",
        "1F0101FF",
        "02020102",
        "0200",
        "02020001",
        "0209010203040506070809",
        "1F82020105",
        "0C03414243",
        "0C00",
        "0C840000000241C3",
        "0403000102",
        "0400",
        "0900",
        "090140",
        "090141",
        "090142",
        "0903800001",
        "0903830001",
        "1F890982800001",
        "0D020105",
        "1F80010105",
        "1F81808080000101",
        "1FFFFFFF7F0105",
        "0280",
        "0285000000000105",
        "02FF0105",
        "21030101FF",
        "300302010530",
        "3080020105",
        "308302010520",
        "418101FF",
        "A103020105",
        "E20105",
        "0000",
    ] {
        let octets = value.len() / 2;
        for before in [0, 3] {
            let around = "FF".repeat(before);
            for kept in 0..=octets {
                let message = format!("{around}{}", &value[..2 * kept]);
                let message = if message.is_empty() { "-" } else { &message };
                for bound in before.saturating_sub(1)..=before + octets + 1 {
                    // At the start, only the bounds at the message's end and one past the value.
                    if before > 0 || bound == kept || bound == octets + 1 {
                        lines.push(format!("read value {before} {bound} {message}"));
                    }
                }
                lines.push(format!("read value {before} - {message}"));
            }
            lines.push(format!("read value {before} {} {around}{value}0105", before + octets));
            lines.push(format!("read value {before} - {around}{value}0105"));
        }
    }
    // Places and bounds far outside, and past 64 bits.
    let top = ["18446744073709551614", "18446744073709551615", "18446744073709551616", "99999999999999999999999"];
    for bound in ["-", "0", "1", "2", "3", "4", "5"].iter().chain(&top) {
        for at in ["0", "1", "2", "3", "4", "0003"].iter().chain(&top) {
            lines.push(format!("read value {at} {bound} 0101FF"));
        }
        lines.push(format!("read value 1 {bound} FF02"));
        lines.push(format!("read value 0 {bound} 0C84FFFFFFFF"));
        lines.push(format!("read value 0 {bound} -"));
    }
    for value in ["0", "-0", "1", "-1", "127", "128", "-128", "-129", "255", "256", "-32768", "32768", "008"] {
        lines.push(format!("write value int {value}"));
    }
    for power in [31, 39, 55, 62, 63, 64] {
        for offset in [-1, 0, 1] {
            lines.push(format!("write value int {}", (1i128 << power) + offset));
            lines.push(format!("write value int {}", -(1i128 << power) + offset));
        }
    }
    for bits in [
        0u64,
        1,
        0x000F_FFFF_FFFF_FFFF,
        0x0010_0000_0000_0000,
        0x3FF0_0000_0000_0000,
        0x3FF8_0000_0000_0000,
        0x3FB9_9999_9999_999A,
        0x4340_0000_0000_0001,
        0x47F0_0000_0000_0000,
        0x7FEF_FFFF_FFFF_FFFF,
        0x7FF0_0000_0000_0000,
        0x7FF0_0000_0000_0001,
        0x7FF8_0000_0000_0000,
        0x7FFF_FFFF_FFFF_FFFF,
    ] {
        for bits in [bits, bits | 1 << 63] {
            lines.push(format!("write value real {bits:016X}"));
            if let Ok(octets) = write_real(f64::from_bits(bits)) {
                lines.push(format!("read value 2 - 610009{:02X}{}", octets.len(), digits(&octets)));
            }
        }
    }
    lines.push("write value bool true".to_string());
    lines.push("write value bool false".to_string());
    for length in [0, 1, 2, 126, 127, 128, 129, 255, 256, 257, 1_024, 8_182] {
        let octets: Vec<u8> = (0..length).map(|at: u32| (at * 7 % 251) as u8).collect();
        lines.push(format!("write value text {}", hex(&octets)));
        lines.push(format!("write value octets {}", hex(&octets).to_lowercase()));
        lines.push(format!(
            "read value 0 - {}",
            digits(&[&[0x0C, 0x82, (length >> 8) as u8, length as u8], &octets[..]].concat())
        ));
    }
    // The longest line, and one longer.
    lines.push(format!("read bool {}", "00".repeat((OCTETS_LINE_MAX - 10) / 2)));
    lines.push(format!("read int {}", "00".repeat((OCTETS_LINE_MAX - 8) / 2)));
}

/// An input of the program `octets`, and how many requests of each kind it has.
pub fn input(seed: u64, count: usize) -> (Vec<u8>, [usize; KINDS.len()]) {
    let mut random = Random::new(seed);
    let mut kinds_seen = [0; KINDS.len()];
    let mut text = Vec::new();
    for _ in 0..count {
        let (line, kind) = request(&mut random);
        kinds_seen[kind] += 1;
        text.extend(line);
        text.push(b'\n');
    }
    if random.one_in(2) && text.len() > 1 && text[text.len() - 2] != b'\n' {
        text.pop();
    }
    (text, kinds_seen)
}

/// The stored input: the edges and some thousands of drawn requests.
pub fn stored() -> Vec<u8> {
    let mut text = Vec::new();
    for line in edges() {
        text.extend(line.bytes());
        text.push(b'\n');
    }
    text.extend(input(201, 6_000).0);
    if text.last() == Some(&b'\n') {
        text.pop();
    }
    text
}

#[cfg(test)]
mod tests {
    use super::*;
    use crate::lines::lines;
    use crate::programs::{answer, octets};

    #[test]
    fn malformed_lines_are_bad() {
        for line in MALFORMED {
            assert_eq!(answer(line.as_bytes()), None, "{line}");
        }
    }

    #[test]
    fn one_answer_a_line_and_both_answers_of_each_kind() {
        let input = stored();
        let output = octets(&input);
        assert_eq!(output.lines().count(), lines(&input).len());
        for kind in KINDS.iter().filter(|kind| **kind != "malformed") {
            let mut refused = 0;
            let mut taken = 0;
            for (line, answer) in lines(&input).iter().zip(output.lines()) {
                if line.starts_with(kind.as_bytes()) && answer != "bad line" {
                    if ["30", "35", "46"].contains(&answer.split(' ').next().unwrap()) {
                        refused += 1;
                    } else {
                        taken += 1;
                    }
                }
            }
            assert!(taken > 0, "{kind}: none taken");
            assert!(refused > 0 || *kind == "write bool", "{kind}: none refused");
        }
    }
}
