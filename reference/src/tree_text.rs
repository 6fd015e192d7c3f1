//! The program `tree`: one request a line. `read HEX` or `read N HEX`: the answer with a line for each entry. `write HEX`:
//! what is written for the entries that were read.

use crate::framing::MESSAGE_MAX;
use crate::lines::{digits, hex, hex_line, lines};
use crate::tree::{self, Answer, Body, Entry, Key, RootKind, TABLE_MAX};
use crate::tree_writer;
use crate::values::Value;

/// Whether the program `tree` of the repository takes `write HEX`. Until it does, such a line is a bad one, and only
/// commands with `--write` know it.
pub const WRITES: bool = true;

/// The largest table that a request may name: "0 to 300: over 256 answers 1".
pub const TABLE_NAMED_MAX: usize = 300;
/// The longest message that a request may hold: "up to 16,385 bytes, so that 1 can be seen".
pub const REQUEST_MAX: usize = MESSAGE_MAX + 1;

/// Program `tree`.
pub fn trees(input: &[u8], writes: bool) -> String {
    lines(input).iter().map(|line| answer(line, writes)).collect()
}

/// What one line prints, its last 0A included.
pub fn answer(line: &[u8], writes: bool) -> String {
    if let Some(message) = to_write(line).filter(|_| writes) {
        return match tree::read(&message, TABLE_MAX) {
            Answer::Tree(tree) => match tree_writer::write(&tree) {
                Ok(octets) => format!("0 {}\n", digits(&octets)),
                Err(number) => format!("{number}\n"),
            },
            refusal => shown(&refusal),
        };
    }
    match request(line) {
        Some((table, message)) => shown(&tree::read(&message, table)),
        None => "bad line\n".to_string(),
    }
}

/// The message of `write HEX`, which names no table.
pub fn to_write(line: &[u8]) -> Option<Vec<u8>> {
    octets(line.strip_prefix(b"write ")?)
}

/// The table's length and the message of a line that reads; None for others. Words stand one space apart.
pub fn request(line: &[u8]) -> Option<(usize, Vec<u8>)> {
    let words: Vec<&[u8]> = line.split(|&byte| byte == b' ').collect();
    match words.as_slice() {
        [b"read", message] => Some((TABLE_MAX, octets(message)?)),
        [b"read", table, message] => Some((table_length(table)?, octets(message)?)),
        _ => None,
    }
}

/// 0 to 300 in decimal, without leading zeros.
fn table_length(word: &[u8]) -> Option<usize> {
    let text = std::str::from_utf8(word).ok()?;
    let plain = text.bytes().all(|byte| byte.is_ascii_digit()) && (text == "0" || !text.starts_with('0'));
    text.parse().ok().filter(|&length: &usize| plain && length <= TABLE_NAMED_MAX)
}

fn octets(word: &[u8]) -> Option<Vec<u8>> {
    if word == b"-" {
        return Some(Vec::new());
    }
    match hex_line(word) {
        (octets, false) if octets.len() <= REQUEST_MAX => Some(octets),
        _ => None,
    }
}

pub fn shown(answer: &Answer) -> String {
    match answer {
        Answer::Setup => "1\n".to_string(),
        Answer::Refused(refusal) => format!("{} {}\n", refusal.number, refusal.place),
        Answer::Room(count) => format!("38 {count}\n"),
        Answer::Tree(tree) => {
            let kind = match tree.kind {
                RootKind::Elements => "elements",
                RootKind::Streams => "streams",
            };
            let mut out = format!("0 {kind} {}\n", tree.entries.len());
            for (index, entry) in tree.entries.iter().enumerate() {
                out += &entry_line(index, entry);
            }
            out
        }
    }
}

/// `INDEX PARENT KIND` and the members that are present: number or path first, then by context number.
fn entry_line(index: usize, entry: &Entry) -> String {
    let parent = entry.parent.map_or("-".to_string(), |parent| parent.to_string());
    let mut line = format!("{index} {parent} ");
    match &entry.body {
        Body::Parameter(key, contents) => {
            line += if matches!(key, Key::Path(_)) { "qualified-parameter" } else { "parameter" };
            put_key(&mut line, key);
            put(&mut line, "identifier", &contents.identifier, |value| text(value));
            put(&mut line, "description", &contents.description, |value| text(value));
            put(&mut line, "value", &contents.value, any);
            put(&mut line, "minimum", &contents.minimum, any);
            put(&mut line, "maximum", &contents.maximum, any);
            put(&mut line, "access", &contents.access, i64::to_string);
            put(&mut line, "factor", &contents.factor, i64::to_string);
            put(&mut line, "online", &contents.online, bool::to_string);
            put(&mut line, "step", &contents.step, i64::to_string);
            put(&mut line, "stream", &contents.stream_identifier, i64::to_string);
        }
        Body::Node(key, contents) => {
            line += if matches!(key, Key::Path(_)) { "qualified-node" } else { "node" };
            put_key(&mut line, key);
            put(&mut line, "identifier", &contents.identifier, |value| text(value));
            put(&mut line, "description", &contents.description, |value| text(value));
            put(&mut line, "root", &contents.root, bool::to_string);
            put(&mut line, "online", &contents.online, bool::to_string);
        }
        Body::Matrix(key, contents) => {
            line += if matches!(key, Key::Path(_)) { "qualified-matrix" } else { "matrix" };
            put_key(&mut line, key);
            put(&mut line, "identifier", &contents.identifier, |value| text(value));
            put(&mut line, "description", &contents.description, |value| text(value));
            put(&mut line, "type", &contents.kind, i64::to_string);
            put(&mut line, "mode", &contents.mode, i64::to_string);
            put(&mut line, "targets", &contents.targets, i64::to_string);
            put(&mut line, "sources", &contents.sources, i64::to_string);
            put(&mut line, "total-limit", &contents.total_limit, i64::to_string);
            put(&mut line, "target-limit", &contents.target_limit, i64::to_string);
        }
        Body::Command { number, mask } => {
            line += "command";
            put(&mut line, "number", &Some(*number), i64::to_string);
            put(&mut line, "mask", mask, i64::to_string);
        }
        Body::Connection { target, sources, operation } => {
            line += "connection";
            put(&mut line, "target", &Some(*target), i64::to_string);
            put(&mut line, "sources", sources, |value| dots(value));
            put(&mut line, "operation", operation, i64::to_string);
        }
        Body::StreamEntry { identifier, value } => {
            line += "stream";
            put(&mut line, "stream", &Some(*identifier), i64::to_string);
            put(&mut line, "value", &Some(value), |value| any(value));
        }
    }
    line + "\n"
}

fn put<T>(line: &mut String, name: &str, value: &Option<T>, show: impl Fn(&T) -> String) {
    if let Some(value) = value {
        *line += &format!(" {name}={}", show(value));
    }
}

fn put_key(line: &mut String, key: &Key) {
    match key {
        Key::Number(number) => put(line, "number", &Some(*number), i64::to_string),
        Key::Path(path) => put(line, "path", &Some(path), |path| dots(path)),
    }
}

/// Numbers with dots; `-` for none.
fn dots(numbers: &[u64]) -> String {
    if numbers.is_empty() {
        return "-".to_string();
    }
    numbers.iter().map(u64::to_string).collect::<Vec<String>>().join(".")
}

/// In double quotes, "the bytes 20 to 7E as they are save `"` and `\`, every other byte as `\` and two upper-case
/// hexadecimal digits".
fn text(bytes: &[u8]) -> String {
    let mut out = String::from("\"");
    for &byte in bytes {
        if (0x20..=0x7E).contains(&byte) && byte != b'"' && byte != b'\\' {
            out.push(byte as char);
        } else {
            out.push('\\');
            out += &digits(&[byte]);
        }
    }
    out.push('"');
    out
}

/// A member of any kind, with a word before it.
fn any(value: &Value) -> String {
    match value {
        Value::Integer(value) => format!("int:{value}"),
        Value::Real(value) => format!("real:{:016X}", value.to_bits()),
        Value::Text(bytes) => format!("text:{}", text(bytes)),
        Value::Boolean(value) => format!("bool:{value}"),
        Value::Octets(octets) => format!("octets:{}", hex(octets)),
    }
}

#[cfg(test)]
mod tests {
    use super::*;

    #[track_caller]
    fn gives(line: &str, expected: &str) {
        assert_eq!(answer(line.as_bytes(), false), format!("{expected}\n"), "{line}");
        let writes = line.starts_with("write ");
        assert!(writes || answer(line.as_bytes(), true) == format!("{expected}\n"), "{line}");
    }

    /// A message, with spaces, in a request.
    #[track_caller]
    fn reads(message: &str, expected: &str) {
        gives(&format!("read {}", message.replace(' ', "")), expected);
    }

    #[test]
    fn p12() {
        gives("read 600B6B09A0076205A003020120", "0 elements 1\n0 - command number=32");
        gives("read 600b6b09a0076205a003020120", "0 elements 1\n0 - command number=32");
    }

    /// The requests and answers that 001 describes: a directory asked of a node, a value announced.
    #[test]
    fn messages_that_001_describes() {
        reads(
            "60 18 6B 16 A0 14 63 12 A0 03 02 01 01 A2 0B 64 09 A0 07 62 05 A0 03 02 01 20",
            "0 elements 2\n0 - node number=1\n1 0 command number=32",
        );
        reads(
            "60 18 6B 16 A0 14 69 12 A0 05 0D 03 01 02 03 A1 09 31 07 A2 05 09 03 80 01 03",
            "0 elements 1\n0 - qualified-parameter path=1.2.3 value=real:4018000000000000",
        );
    }

    #[test]
    fn answers() {
        gives("read -", "30 0");
        gives("read 60", "30 1");
        gives("read 60026B00", "0 elements 0");
        gives("read 60026500", "0 streams 0");
        gives("read 1 60146B12A0076205A003020120A0076205A003020120", "38 2");
        gives("read 0 60026B00", "0 elements 0");
        gives("read 256 60026B00", "0 elements 0");
        gives("read 257 60026B00", "1");
        gives("read 300 60026B00", "1");
        gives("read 300 -", "1");
        gives("read 12", "30 1");
        assert_eq!(answer(format!("read {}", "00".repeat(16_384)).as_bytes(), false), "30 0\n");
        assert_eq!(answer(format!("read {}", "00".repeat(16_385)).as_bytes(), false), "1\n");
        assert_eq!(answer(format!("read {}", "00".repeat(16_386)).as_bytes(), false), "bad line\n");
    }

    #[test]
    fn entries() {
        reads(
            "60 33 6B 31 A0 2F 71 2D A0 04 0D 02 01 02 A1 14 31 12 A4 03 02 01 02 A5 03 02 01 03 A2 03 02 01 02 BF 64 00 \
             A5 0F 30 0D A0 0B 70 09 A0 03 02 01 00 A1 02 0D 00",
            "0 elements 2\n0 - qualified-matrix path=1.2 type=2 targets=2 sources=3\n1 0 connection target=0 sources=-",
        );
        reads("60 10 65 0E A0 0C 66 0A A0 03 02 01 00 A1 03 02 01 05", "0 streams 1\n0 - stream stream=0 value=int:5");
        // A set in any order is printed by context number; octets, a text with every kind of byte, a flag.
        reads(
            "60 31 6B 2F A0 2D 61 2B A0 03 02 01 01 A1 24 31 22 AE 03 02 01 07 A9 03 01 01 FF A2 02 04 00 \
             A3 06 0C 04 22 5C 7E 7F A0 05 0C 03 5F 20 41 A5 03 02 01 03",
            "0 elements 1\n0 - parameter number=1 identifier=\"_ A\" value=octets:- minimum=text:\"\\22\\5C~\\7F\" access=3 \
             online=true stream=7",
        );
    }

    #[test]
    fn bad_lines() {
        for line in [
            "",
            "read",
            "read ",
            "read  -",
            "read - ",
            " read -",
            "Read -",
            "READ -",
            "write -",
            "read 6",
            "read 6G",
            "read --",
            "read 60 6",
            "read 00 -",
            "read 01 -",
            "read 0256 -",
            "read 301 -",
            "read 999999999999999999999 -",
            "read +1 -",
            "read -1 -",
            "read - -",
            "read 1 1 -",
            "read 1  -",
            "read 1 ",
            "read A -",
            "read -\r",
            "read 60\r",
            "read 60\t",
            "read 0x60",
            "reading -",
            "read1 -",
            "read\t-",
        ] {
            gives(line, "bad line");
        }
        assert_eq!(trees(b"", true), "");
        assert_eq!(trees(b"\n", true), "bad line\n");
        assert_eq!(trees(b"read -\n\nread 60026B00", true), "30 0\nbad line\n0 elements 0\n");
    }

    #[test]
    fn writes() {
        let input =
            b"write 60806B800000 0000\nwrite 60806B8000000000\nwrite 60026500\nwrite -\nwrite 60\nwrite 6002\nread 60026B00";
        assert_eq!(trees(input, true), "bad line\n0 60026B00\n0 60026500\n30 0\n30 1\n30 2\n0 elements 0\n");
        assert_eq!(trees(input, false), format!("{}0 elements 0\n", "bad line\n".repeat(6)));
        let long = |count: usize| format!("write {}", "00".repeat(count)).into_bytes();
        assert_eq!(answer(&long(16_384), true), "30 0\n");
        assert_eq!(answer(&long(16_385), true), "1\n");
        assert_eq!(answer(&long(16_386), true), "bad line\n");
    }
}
