//! The program `desk`: a script, one line at a time (docs/DECISIONS.md, "Program `desk`").

use crate::desk::{self, Desk, Figures};
use crate::framing::{Session, DONE, STORE_LENGTH};
use crate::lines::{hex_line, lines};
use crate::sheet;
use crate::tree::{self, Answer, TABLE_MAX};

/// "A line of over 131,072 bytes ... print[s] `bad line`"
pub const LINE_MAX: usize = 131_072;

/// What one line of the script makes.
#[derive(Clone, PartialEq, Eq, Debug)]
pub enum Said {
    /// `open`: 0 or 45.
    Opened(u8),
    /// `bytes`: a line for each event.
    Events(Vec<Turn>),
    /// `request`: the desk's number.
    Requested(u8),
    /// `show`, `grid` and `sheet`, with each line's 0A.
    Show(String),
    Grid(String),
    Sheet(String),
    Bad,
}

/// An event, after 3 the tree's number, and after its 0 the desk's answers.
#[derive(Clone, PartialEq, Eq, Debug)]
pub struct Turn {
    pub event: u8,
    pub tree: Option<u8>,
    pub desk: Option<Vec<u8>>,
}

impl Turn {
    fn text(&self) -> String {
        let mut text = self.event.to_string();
        if let Some(tree) = self.tree {
            text += &format!(" {tree}");
        }
        if let Some(answers) = &self.desk {
            text += &format!(" {}", joined(answers, ","));
        }
        text + "\n"
    }
}

impl Said {
    pub fn text(&self) -> String {
        match self {
            Said::Opened(number) | Said::Requested(number) => format!("{number}\n"),
            Said::Events(turns) => turns.iter().map(Turn::text).collect(),
            Said::Show(text) | Said::Grid(text) | Said::Sheet(text) => text.clone(),
            Said::Bad => "bad line\n".to_string(),
        }
    }
}

/// `-` for none.
fn joined<T: ToString>(list: &[T], between: &str) -> String {
    if list.is_empty() {
        return "-".to_string();
    }
    list.iter().map(|item| item.to_string()).collect::<Vec<String>>().join(between)
}

/// The desk, if one is open, and its session.
pub struct Program {
    pub desk: Option<Desk>,
    session: Session,
    store: Vec<u8>,
}

impl Program {
    pub fn start() -> Program {
        Program { desk: None, session: Session::start(), store: vec![0; STORE_LENGTH] }
    }

    /// What one line makes of it; a bad line changes nothing.
    pub fn line(&mut self, line: &[u8]) -> Said {
        self.taken(line).unwrap_or(Said::Bad)
    }

    fn taken(&mut self, line: &[u8]) -> Option<Said> {
        if line.len() > LINE_MAX {
            return None;
        }
        // "Words stand exactly one space apart, and nothing stands after the last."
        let words: Vec<&[u8]> = line.split(|&byte| byte == b' ').collect();
        if let [b"open", kind, mode, targets, sources, total, per_target, path] = words.as_slice() {
            let opened = self.open(Figures {
                path: list(path)?,
                // "not given, which is 0 for type, mode and counts (a count of 0 is 45), an absent limit"
                kind: figure(kind)?,
                mode: figure(mode)?,
                targets: figure(targets)?,
                sources: figure(sources)?,
                total_limit: figure(total)?,
                target_limit: figure(per_target)?,
            });
            return Some(Said::Opened(opened));
        }
        let Program { desk, session, store } = self;
        let desk = desk.as_mut()?;
        Some(match words.as_slice() {
            [b"bytes", word] => Said::Events(turns(desk, session, store, &pairs(word)?)),
            [b"request", target, sources, operation] => {
                let operation = if *operation == b"-" { desk::ABSOLUTE as u64 } else { number(operation)? };
                let (target, sources) = (number(target)?, list(sources)?);
                // "an operation over 2 makes a bad line"
                if operation > desk::DISCONNECT as u64 {
                    return None;
                }
                Said::Requested(request(desk, target, &sources, operation))
            }
            [b"show"] => Said::Show(show(desk)),
            [b"grid"] => Said::Grid(grid(desk)),
            [b"sheet"] => Said::Sheet(sheet::write(desk).unwrap()),
            _ => return None,
        })
    }

    /// "0 starts a fresh session too ... 45 leaves no desk"
    fn open(&mut self, figures: Figures) -> u8 {
        match desk::open(&figures) {
            Ok(opened) => {
                self.desk = Some(opened);
                self.session = Session::start();
                DONE
            }
            Err(number) => {
                self.desk = None;
                number
            }
        }
    }
}

/// Program `desk`.
pub fn desks(input: &[u8]) -> String {
    let mut program = Program::start();
    lines(input).iter().map(|line| program.line(line).text()).collect()
}

/// "a chunk, offered until it is consumed"; each event's turn.
fn turns(desk: &mut Desk, session: &mut Session, store: &mut [u8], chunk: &[u8]) -> Vec<Turn> {
    let mut turns = Vec::new();
    let mut at = 0;
    while at < chunk.len() {
        let (event, consumed, next) = session.call(store, &chunk[at..]);
        *session = next;
        at += consumed;
        if event.number == DONE {
            continue;
        }
        let mut turn = Turn { event: event.number, tree: None, desk: None };
        // "Only a finished message goes on to the tree reader", its entries to the desk.
        if let Some(message) = &event.message {
            let answer = tree::read(message, TABLE_MAX);
            turn.tree = Some(answer.number());
            if let Answer::Tree(tree) = &answer {
                turn.desk = Some(desk.call(tree).unwrap_or_else(|number| vec![number]));
            }
        }
        turns.push(turn);
    }
    turns
}

/// The path is the desk's own.
fn request(desk: &mut Desk, target: u64, sources: &[u64], operation: u64) -> u8 {
    let path = desk.path.clone();
    desk.request(&path, capped(target), sources, operation as i64)
}

fn show(desk: &Desk) -> String {
    let rows: Vec<String> = desk.rows.iter().map(|row| joined(row, ".")).collect();
    rows.join(";") + "\n"
}

fn grid(desk: &Desk) -> String {
    let sources = 0..desk.sources as u64;
    let digits = |digit: fn(u64) -> u64| -> String { sources.clone().map(|source| digit(source).to_string()).collect() };
    let mut out = format!("   {}\n   {}\n", digits(|source| source / 10), digits(|source| source % 10));
    for (target, row) in desk.rows.iter().enumerate() {
        let cells: String = sources.clone().map(|source| if row.contains(&source) { '#' } else { '.' }).collect();
        out += &format!("{target:02} {cells}\n");
    }
    out
}

/// "A number is one or more decimal digits, leading zeros allowed, no sign; one over 64 bits is taken as 2^64 - 1".
fn number(word: &[u8]) -> Option<u64> {
    if word.is_empty() || !word.iter().all(u8::is_ascii_digit) {
        return None;
    }
    let mut value: u128 = 0;
    for &byte in word {
        value = (value * 10 + u128::from(byte - b'0')).min(u128::from(u64::MAX));
    }
    Some(value as u64)
}

/// Over 63 bits is as much out of every range as 63 bits are.
fn capped(number: u64) -> i64 {
    number.min(i64::MAX as u64) as i64
}

/// A number or `-`.
fn figure(word: &[u8]) -> Option<Option<i64>> {
    if word == b"-" {
        return Some(None);
    }
    Some(Some(capped(number(word)?)))
}

/// Numbers with dots, or `-` for none.
fn list(word: &[u8]) -> Option<Vec<u64>> {
    if word == b"-" {
        return Some(Vec::new());
    }
    word.split(|&byte| byte == b'.').map(number).collect()
}

/// "one or more pairs of digits of either case, not `-`"
fn pairs(word: &[u8]) -> Option<Vec<u8>> {
    let (octets, bad) = hex_line(word);
    Some(octets).filter(|_| !bad)
}

#[cfg(test)]
mod tests {
    use super::*;
    use crate::framing::{packet, write_frame, write_message};
    use crate::lines::digits;

    /// Target 1 gets the sources 0 and 2, in the matrix 1.
    const MESSAGE: &str = "601E6B1CA01A7118A0030D0101A511300FA00D700BA003020101A1040D020002";

    fn framed(message: &str) -> String {
        digits(&write_message(&hex_line(message.as_bytes()).0).unwrap().concat())
    }

    fn said(script: &str) -> Vec<String> {
        desks(script.as_bytes()).lines().map(str::to_string).collect()
    }

    #[test]
    fn a_turn_has_three_parts() {
        let bytes = framed(MESSAGE);
        let refused = framed("6000");
        let none = framed("60026B00");
        let other = framed(&MESSAGE.replace("0D0101", "0D0102"));
        let script = format!("open 2 - 2 3 - - 1\nbytes {bytes}FE000E010194E4FF{refused}\nbytes {none}\nbytes {other}\nshow\n");
        assert_eq!(said(&script), ["0", "3 0 0", "4", "3 33", "3 0 -", "3 0 40", "-;0.2"]);
    }

    #[test]
    fn chunks_of_a_byte_and_pieces() {
        let message = hex_line(MESSAGE.as_bytes()).0;
        let (first, last) = message.split_at(9);
        let stream = [write_frame(&packet(0x80, 0x14, first)).unwrap(), write_frame(&packet(0x40, 0x00, last)).unwrap()].concat();
        let mut script = "open 2 0 2 3 - - 01\n".to_string();
        for byte in stream {
            script += &format!("bytes {byte:02x}\n");
        }
        assert_eq!(said(&(script + "show")), ["0", "2", "3 0 0", "-;0.2"]);
    }

    #[test]
    fn opening_again() {
        let bytes = framed(MESSAGE);
        let (half, rest) = bytes.split_at(20);
        // A bad line leaves desk and session; 0 makes both anew.
        let script = format!("open 2 - 2 3 - - 1\nbytes {half}\nopen 2 - 2 3 - -\nbytes {rest}\nshow");
        assert_eq!(said(&script), ["0", "bad line", "3 0 0", "-;0.2"]);
        let script = format!("open 2 - 2 3 - - 1\nbytes {half}\nopen 2 - 2 3 - - 1\nbytes {rest}\nshow");
        assert_eq!(said(&script), ["0", "0", "10", "-;-"]);
        let script = format!("open 2 - 2 3 - - 1\nopen 2 1 2 3 - - 1\nbytes {bytes}\nshow\nopen - - 1 1 - - 1\nshow");
        assert_eq!(said(&script), ["0", "45", "bad line", "bad line", "0", "-"]);
    }

    #[test]
    fn figures() {
        for (line, expected) in [
            ("open 0 0 64 64 - - 1", "0"),
            ("open - - 64 64 - - 1", "0"),
            ("open 2 - 1 1 2147483647 2147483647 2147483647", "0"),
            ("open 002 - 01 0000000000000000000000000000001 0001 1 001.2", "0"),
            ("open 2 - 1 1 2147483648 - 1", "45"),
            ("open 2 - 1 1 - 0 1", "45"),
            ("open 0 - 1 1 0 - 1", "45"),
            ("open 3 - 1 1 - - 1", "45"),
            ("open 2 1 1 1 - - 1", "45"),
            ("open 2 2 1 1 - - 1", "45"),
            ("open 2 - - 1 - - 1", "45"),
            ("open 2 - 1 - - - 1", "45"),
            ("open 2 - 65 1 - - 1", "45"),
            ("open 2 - 1 18446744073709551616 - - 1", "45"),
            ("open 2 - 1 18446744073709551617 - - 1", "45"),
            ("open 18446744073709551616 - 1 1 - - 1", "45"),
            ("open 2 - 1 1 - - -", "45"),
            ("open 2 - 1 1 - - 0", "45"),
            ("open 2 - 1 1 - - 1.2.3.4.5.6.7.8.9.10.11.12.13.14.15.16", "0"),
            ("open 2 - 1 1 - - 1.2.3.4.5.6.7.8.9.10.11.12.13.14.15.16.17", "45"),
            ("open 2 - 1 1 - - 2147483648", "45"),
            ("open 2 - 1 1 - - 1.", "bad line"),
            ("open 2 - 1 1 - - .1", "bad line"),
            ("open 2 - 1 1 - - 1..2", "bad line"),
            ("open 2 - 1 1 - - 1.-", "bad line"),
            ("open 2 - 1 1 - - +1", "bad line"),
            ("open 2 - 1 1 - - -1", "bad line"),
            ("open 2 - 1 1 - -1 1", "bad line"),
            ("open 2 - 1 1 - -", "bad line"),
            ("open 2 - 1 1 - - 1 ", "bad line"),
            ("open 2 - 1 1 - - 1 1", "bad line"),
            ("open  2 - 1 1 - - 1", "bad line"),
            (" open 2 - 1 1 - - 1", "bad line"),
            ("Open 2 - 1 1 - - 1", "bad line"),
            ("open 2 - 1 1 - - 1\r", "bad line"),
            ("show", "bad line"),
            ("grid", "bad line"),
            ("sheet", "bad line"),
            ("bytes FE", "bad line"),
            ("request 0 0 0", "bad line"),
            (" ", "bad line"),
        ] {
            assert_eq!(said(line), [expected], "{line}");
        }
        let path = |count| format!("open 2 - 1 1 - - {}\n", vec!["1"; count].join("."));
        assert_eq!(said(&(path(16) + &path(17) + &path(65_528) + &path(65_529))), ["0", "45", "45", "bad line"]);
        assert_eq!(said(""), Vec::<String>::new());
        assert_eq!(said("\n"), ["bad line"]);
    }

    #[test]
    fn requests_and_pictures() {
        for (line, expected) in [
            ("request 0 1.10 -", "0"),
            ("request 1 - -", "0"),
            ("request 0 1.010.1 2", "0"),
            ("request 2 0 0", "41"),
            ("request 18446744073709551616 0 0", "41"),
            ("request 0 12 0", "42"),
            ("request 0 0.18446744073709551616 2", "42"),
            ("request 0 0.1.2 1", "43"),
            ("request 1 0.1 0", "44"),
            ("request 0 0 3", "bad line"),
            ("request 0 0 18446744073709551616", "bad line"),
            ("request - 0 0", "bad line"),
            ("request 0 0", "bad line"),
            ("request 0  0", "bad line"),
            ("request 0 0 -0", "bad line"),
            ("request 0 0. 0", "bad line"),
            ("request 0 0 0 0", "bad line"),
            ("request", "bad line"),
            ("bytes", "bad line"),
            ("bytes -", "bad line"),
            ("bytes ", "bad line"),
            ("bytes 0", "bad line"),
            ("bytes 00 00", "bad line"),
            ("show ", "bad line"),
            ("grid 1", "bad line"),
            ("sheets", "bad line"),
        ] {
            let script = format!("open 2 - 2 12 3 2 1\nrequest 0 10.1 -\n{line}\n");
            assert_eq!(said(&script), ["0", "0", expected], "{line}");
        }
        let script = "open 2 - 2 12 - - 1\nrequest 0 10.1.1 -\nshow\ngrid\nsheet\n";
        let picture = ["0", "0", "1.10;-", "   000000000011", "   012345678901", "00 .#........#.", "01 ............"];
        let said = said(script);
        assert_eq!(said[..7], picture);
        assert_eq!(crate::programs::sheets(said[7].as_bytes()), format!("0\n{}\n", said[7]));
        assert_eq!(said.len(), 8);
        // A list is as long as its line, and a line of 131,072 bytes is none too long.
        let list = |count| vec!["0"; count].join(".");
        let script = format!("open 2 - 1 1 - - 1\nrequest 0 {} 1\nrequest 0 {} 1\n", list(65_530), list(65_531));
        assert_eq!(self::said(&script), ["0", "0", "bad line"]);
        let bytes = |count: usize| format!("bytes {}\n", "FE".repeat(count));
        let script = format!("open 2 - 1 1 - - 1\n{}{}bytes FF\n", bytes(65_533), bytes(65_534));
        assert_eq!(self::said(&script), ["0", "bad line", "15"]);
        let script = format!("open 2 - 1 1 - - {}1\nopen 2 - 1 1 - - {}1\n", "0".repeat(131_054), "0".repeat(131_055));
        assert_eq!(self::said(&script), ["0", "bad line"]);
    }
}
