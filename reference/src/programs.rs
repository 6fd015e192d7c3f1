//! The programs `frames`, `octets`, `packets` and `sheet`, and our own `rewrite`, from standard input's bytes to standard
//! output's text.

use crate::framing::{self, Session, STORE_LENGTH};
use crate::lines::{hex, hex_line, lines};
use crate::tree::{self, Answer, TABLE_MAX};
use crate::values::{self, Oid, Value};
use crate::{sheet, tree_writer};

/// Program `frames`: each line is one chunk, offered until it is consumed.
pub fn frames(input: &[u8]) -> String {
    let mut session = Session::start();
    let mut store = vec![0; STORE_LENGTH];
    let mut offset = 0;
    let mut out = String::new();
    for line in lines(input) {
        let (chunk, bad) = hex_line(line);
        for (at, event) in framing::run(&mut session, &mut store, &chunk, &mut offset) {
            out += &format!("{} {} {}", at, event.number, u8::from(event.discarded));
            if let Some(message) = &event.message {
                out += " ";
                out += &hex(message);
            }
            out += "\n";
        }
        if bad {
            out += "bad line\n";
            return out;
        }
    }
    let frame = if session.in_frame() { session.frame_length.to_string() } else { "-".to_string() };
    let message = session.message.map_or("-".to_string(), |length| length.to_string());
    out += &format!("end {offset} {frame} {message}\n");
    out
}

/// The longest lines of requests that the programs take.
pub const OCTETS_LINE_MAX: usize = 16_384;
pub const PACKETS_LINE_MAX: usize = 65_536;

/// One request a line, one answer a line.
fn answers(input: &[u8], longest: usize, answer: fn(&[u8]) -> Option<String>) -> String {
    let mut out = String::new();
    for line in lines(input) {
        let answered = if line.len() > longest { None } else { answer(line) };
        out += &answered.unwrap_or("bad line".to_string());
        out += "\n";
    }
    out
}

/// Program `octets`.
pub fn octets(input: &[u8]) -> String {
    answers(input, OCTETS_LINE_MAX, answer)
}

/// Program `packets`.
pub fn packets(input: &[u8]) -> String {
    answers(input, PACKETS_LINE_MAX, packet_answer)
}

/// What the frame writer writes for one request; None for a bad line.
pub fn packet_answer(line: &[u8]) -> Option<String> {
    let words: Vec<&[u8]> = line.split(|&byte| byte == b' ').collect();
    match words.as_slice() {
        [b"frame", word] => Some(written(framing::write_frame(&octets_of(word)?))),
        [b"request"] => Some(hex(&framing::write_keep_alive(false))),
        [b"response"] => Some(hex(&framing::write_keep_alive(true))),
        [b"message", word] => Some(written(framing::write_message(&octets_of(word)?).map(|frames| frames.concat()))),
        _ => None,
    }
}

/// The answer to one request; None for a bad line. Words stand one space apart.
pub fn answer(line: &[u8]) -> Option<String> {
    let words: Vec<&[u8]> = line.split(|&byte| byte == b' ').collect();
    match words.as_slice() {
        [b"read", b"int", word] => Some(shown(values::read_int(&octets_of(word)?).map(|value| value.to_string()))),
        [b"read", b"real", word] => {
            Some(shown(values::read_real(&octets_of(word)?).map(|value| format!("{:016X}", value.to_bits()))))
        }
        [b"read", b"bool", word] => Some(shown(values::read_bool(&octets_of(word)?).map(|value| value.to_string()))),
        [b"read", b"tag", word] => Some(read_tag(&octets_of(word)?)),
        [b"read", b"oid", word] => Some(read_oid(&octets_of(word)?)),
        [b"read", b"value", at, bound, word] => {
            let at = natural(at)? as usize;
            let limit = if *bound == b"-" { None } else { Some(natural(bound)? as usize) };
            Some(read_value(&octets_of(word)?, at, limit))
        }
        [b"write", b"value", kind, word] => Some(match value(kind, word)? {
            Some(value) => written(values::write_value(&value)),
            None => values::OUT.to_string(),
        }),
        [b"write", b"int", word] => Some(match integer(word)? {
            Some(value) => hex(&values::write_int(value)),
            None => "46".to_string(),
        }),
        [b"write", b"real", word] => Some(written(values::write_real(f64::from_bits(bits(word)?)))),
        [b"write", b"bool", b"true"] => Some(hex(&values::write_bool(true))),
        [b"write", b"bool", b"false"] => Some(hex(&values::write_bool(false))),
        [b"write", b"tag", class, constructed, number] => {
            let (class, constructed, number) = (natural(class)?, natural(constructed)?, natural(number)?);
            if class > 3 || constructed > 1 {
                return None;
            }
            Some(written(values::write_identifier(class as u8, constructed == 1, number)))
        }
        [b"write", b"length", number] => Some(written(values::write_length(natural(number)?))),
        [b"write", b"oid", b"-"] => Some("-".to_string()),
        [b"write", b"oid", word] => {
            let numbers: Option<Vec<u64>> = word.split(|&byte| byte == b'.').map(natural).collect();
            Some(written(values::write_oid(&numbers?)))
        }
        _ => None,
    }
}

fn read_tag(octets: &[u8]) -> String {
    match values::read_tag(octets, 0, None) {
        Err(refusal) => refusal.number.to_string(),
        Ok(tag) => {
            let length = tag.length.map_or("indefinite".to_string(), |length| length.to_string());
            format!("{} {} {} {} {}", tag.class, u8::from(tag.constructed), tag.number, length, tag.content)
        }
    }
}

/// `KIND CONTENT NEXT`, `other` or `NUMBER PLACE`.
fn read_value(message: &[u8], at: usize, limit: Option<usize>) -> String {
    match values::read_value(message, at, limit) {
        Err(refusal) => format!("{} {}", refusal.number, refusal.place),
        Ok(None) => "other".to_string(),
        Ok(Some((value, next))) => match value {
            Value::Integer(value) => format!("int {value} {next}"),
            Value::Real(value) => format!("real {:016X} {next}", value.to_bits()),
            Value::Text(text) => format!("text {} {next}", hex(&text)),
            Value::Boolean(value) => format!("bool {value} {next}"),
            Value::Octets(octets) => format!("octets {} {next}", hex(&octets)),
        },
    }
}

/// A value as `write value` spells it. None: malformed; Some(None): an integer that no value holds.
fn value(kind: &[u8], word: &[u8]) -> Option<Option<Value>> {
    Some(Some(match kind {
        b"int" => match integer(word)? {
            Some(value) => Value::Integer(value),
            None => return Some(None),
        },
        b"real" => Value::Real(f64::from_bits(bits(word)?)),
        b"text" => Value::Text(octets_of(word)?),
        b"bool" => match word {
            b"true" => Value::Boolean(true),
            b"false" => Value::Boolean(false),
            _ => return None,
        },
        b"octets" => Value::Octets(octets_of(word)?),
        _ => return None,
    }))
}

fn read_oid(octets: &[u8]) -> String {
    match values::read_oid(octets) {
        Oid::Bad => values::BER.to_string(),
        Oid::Numbers(numbers) if numbers.contains(&None) => "range".to_string(),
        Oid::Numbers(numbers) if numbers.is_empty() => "-".to_string(),
        Oid::Numbers(numbers) => {
            let shown: Vec<String> = numbers.iter().flatten().map(|number| number.to_string()).collect();
            shown.join(".")
        }
    }
}

fn shown(result: Result<String, u8>) -> String {
    result.unwrap_or_else(|number| number.to_string())
}

fn written(result: Result<Vec<u8>, u8>) -> String {
    shown(result.map(|octets| hex(&octets)))
}

/// `-` is no octets; otherwise one or more pairs.
fn octets_of(word: &[u8]) -> Option<Vec<u8>> {
    if word == b"-" {
        return Some(Vec::new());
    }
    match hex_line(word) {
        (octets, false) => Some(octets),
        _ => None,
    }
}

/// Exactly 16 hexadecimal digits.
fn bits(word: &[u8]) -> Option<u64> {
    let octets: [u8; 8] = octets_of(word)?.try_into().ok()?;
    Some(u64::from_be_bytes(octets))
}

/// One or more decimal digits, leading zeros allowed. Over 64 bits it stays at the top, out of every range.
fn natural(word: &[u8]) -> Option<u64> {
    if word.is_empty() {
        return None;
    }
    let mut value: u64 = 0;
    for &byte in word {
        if !byte.is_ascii_digit() {
            return None;
        }
        value = value.saturating_mul(10).saturating_add(u64::from(byte - b'0'));
    }
    Some(value)
}

/// An optional `-` and digits. None: malformed; Some(None): no i64.
fn integer(word: &[u8]) -> Option<Option<i64>> {
    let (negative, digits) = match word {
        [b'-', digits @ ..] => (true, digits),
        digits => (false, digits),
    };
    let size = i128::from(natural(digits)?);
    Some(i64::try_from(if negative { -size } else { size }).ok())
}

/// Each line is one message (`-`: of no bytes), read with a table of 256. Printed: `0 COUNT HEX`, the entries'
/// count and the tree as our writer writes it; `NUMBER PLACE`; `38 COUNT`; or `1`.
pub fn trees(input: &[u8]) -> String {
    let mut out = String::new();
    for line in lines(input) {
        let answer = octets_of(line).map(|message| tree::read(&message, TABLE_MAX));
        out += &match answer {
            None => "bad line".to_string(),
            Some(Answer::Setup) => "1".to_string(),
            Some(Answer::Room(count)) => format!("38 {count}"),
            Some(Answer::Refused(refusal)) => format!("{} {}", refusal.number, refusal.place),
            Some(Answer::Tree(tree)) => format!("0 {} {}", tree.entries.len(), written(tree_writer::write(&tree))),
        };
        out += "\n";
    }
    out
}

/// The longest input that the program `sheet` reads.
pub const SHEET_MAX: usize = 600_000;

/// Program `sheet`: the input is one route sheet. Printed: its number and, after 0, the sheet as we write it.
pub fn sheets(input: &[u8]) -> String {
    if input.len() > SHEET_MAX {
        return "too long\n".to_string();
    }
    match sheet::read(input) {
        Ok(desk) => format!("0\n{}", sheet::write(&desk).unwrap()),
        Err(number) => format!("{number}\n"),
    }
}

#[cfg(test)]
mod tests {
    use super::*;

    #[test]
    fn frames_of_the_listing_sample() {
        let input = b"FE000E010194E4FF\nFE000E0201FDDCCEFF\nFEFF\n00\n";
        assert_eq!(frames(input), "8 4 0\n17 5 0\n19 15 0\n20 10 0\nend 20 - -\n");
    }

    #[test]
    fn frames_end_and_bad_lines() {
        assert_eq!(frames(b""), "end 0 - -\n");
        assert_eq!(frames(b"FE"), "end 1 0 -\n");
        assert_eq!(frames(b"fe00fd"), "end 3 1 -\n");
        assert_eq!(frames(b"FE0000F9000000"), "end 7 2 -\n");
        assert_eq!(frames(b"FEFF\n\nFE"), "2 15 0\nbad line\n");
        assert_eq!(frames(b"FEFF0\n"), "2 15 0\nbad line\n");
        assert_eq!(frames(b"FEFF\r\n"), "2 15 0\nbad line\n");
        let first = framing::write_frame(&framing::packet(0x80, 0x14, &[1, 2])).unwrap();
        let last = framing::write_frame(&framing::packet(0x40, 0x14, &[0xAB])).unwrap();
        let text = format!("{}\n{}\n{}", hex(&first), hex(&last), hex(&first));
        let n = first.len();
        let all = n + last.len();
        assert_eq!(frames(text.as_bytes()), format!("{n} 2 0\n{all} 3 0 0102AB\n{} 2 0\nend {} - 2\n", all + n, all + n));
    }

    #[test]
    fn own_formats() {
        assert_eq!(trees(b"600B6B09A0076205A003020120\n-\n60\nx"), "0 1 600B6B09A0076205A003020120\n30 0\n30 1\nbad line\n");
        assert_eq!(sheets(b""), "33\n");
        let filled = |count: usize| sheets(&[b"FF".repeat(count / 2), vec![b'0'; count % 2]].concat());
        assert_eq!(filled(SHEET_MAX - 1), "12\n");
        assert_eq!(filled(SHEET_MAX), "10\n");
        assert_eq!(filled(SHEET_MAX + 1), "too long\n");
    }

    #[test]
    fn requests() {
        for (line, expected) in [
            ("read int 00FF", "255"),
            ("read int -", "30"),
            ("read int 8000000000000000", "-9223372036854775808"),
            ("read real -", "0000000000000000"),
            ("read real 800001", "3FF0000000000000"),
            ("read real 41", "FFF0000000000000"),
            ("read real 80", "35"),
            ("read bool 02", "true"),
            ("read bool 0000", "30"),
            ("read tag 600b", "1 1 0 11 2"),
            ("read tag 6080FF", "1 1 0 indefinite 2"),
            ("read tag 4080", "30"),
            ("read tag -", "30"),
            ("read oid -", "-"),
            ("read oid 018100", "1.128"),
            ("read oid 8880808000", "range"),
            ("read oid 888080800080", "30"),
            ("write int -128", "80"),
            ("write int 9223372036854775807", "7FFFFFFFFFFFFFFF"),
            ("write int 9223372036854775808", "46"),
            ("write int -9223372036854775808", "8000000000000000"),
            ("write int -9223372036854775809", "46"),
            ("write int 00000000000000000000000000000001", "01"),
            ("write int 99999999999999999999999999999999999999999999999999", "46"),
            ("write int -0", "00"),
            ("write int +1", "bad line"),
            ("write int -", "bad line"),
            ("write real 0000000000000000", "-"),
            ("write real 8000000000000000", "46"),
            ("write real 3ff0000000000000", "800001"),
            ("write real 3ff000000000000", "bad line"),
            ("write bool true", "FF"),
            ("write bool false", "00"),
            ("write bool 1", "bad line"),
            ("write tag 2 1 31", "BF1F"),
            ("write tag 2 1 268435456", "46"),
            ("write tag 4 1 1", "bad line"),
            ("write tag 3 2 1", "bad line"),
            ("write length 128", "8180"),
            ("write length 4294967296", "46"),
            ("write oid 1.128", "018100"),
            ("write oid -", "-"),
            ("write oid 2147483648", "46"),
            ("write oid 1..2", "bad line"),
            ("read value 0 - 020105", "int 5 3"),
            ("read value 2 5 0000010105", "bool true 5"),
            ("read value 2 5 000001020505", "30 2"),
            ("read value 2 - 0000010205", "30 5"),
            ("read value 2 3 000001", "30 2"),
            ("read value 2 4 000001", "30 3"),
            ("read value 2 - 000001", "30 3"),
            ("read value 0 - 090105", "35 0"),
            ("read value 0 - 0900", "real 0000000000000000 2"),
            ("read value 0 - 0C0341624300", "text 416243 5"),
            ("read value 0 - 0400", "octets - 2"),
            ("read value 0 - 3080", "other"),
            ("read value - - 3080", "bad line"),
            ("read value 0 -1 3080", "bad line"),
            ("write value int -129", "0202FF7F"),
            ("write value int 9223372036854775808", "46"),
            ("write value real 0000000000000000", "0900"),
            ("write value real 7FF8000000000000", "46"),
            ("write value text -", "0C00"),
            ("write value octets 0a", "04010A"),
            ("write value bool true", "0101FF"),
            ("write value bool 1", "bad line"),
            ("write value absent -", "bad line"),
            ("", "bad line"),
            ("read  int 01", "bad line"),
            ("read int 01 ", "bad line"),
            ("read int 0", "bad line"),
            ("read int 01\r", "bad line"),
        ] {
            assert_eq!(octets(line.as_bytes()), if line.is_empty() { String::new() } else { format!("{expected}\n") }, "{line}");
        }
        assert_eq!(octets(b"\nread int 01"), "bad line\n1\n");
    }

    #[test]
    fn packets_of_the_papers() {
        assert_eq!(packets(b"frame FF00f901\n"), "FEFDDF00FDD9019583FF\n"); // P8
        assert_eq!(packets(b"request\nresponse"), "FE000E010194E4FF\nFE000E0201FDDCCEFF\n"); // P9, the listing sample
        assert_eq!(packets(b"frame -"), "FE0000FF\n");
        assert!(packets(b"message -").starts_with("FE000E0001E001021402"));
        assert_eq!(packets(b"\nrequest \nmessage\nframe 0\nresponse 00"), "bad line\n".repeat(5));
    }
}
