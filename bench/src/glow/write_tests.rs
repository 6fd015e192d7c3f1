//! Every writer against the decoder: the same numbers and bytes, an output as it was after a refusal, and bytes past the
//! written ones as they were.
use super::write::{agree, all, tests, writers, Accepts, Input, Write, FAMILIES};
use super::{plain, Answer, Row, ENTRIES, MESSAGE};
use reference::compare_rows::{self, Library};
use reference::rows;

/// A writer and a test of entries in the place of the library that the decoder compares itself with.
struct Compared(Write, Accepts);

impl Library for Compared {
    fn accepts(&self, rows: &[Row], count: usize, root: u64, message: &[u8]) -> u64 {
        u64::from((self.1)(rows, count, root, message))
    }

    fn write(&self, rows: &[Row], count: usize, root: u64, message: &[u8], out: &mut [u8], answer: &mut [u64]) -> u64 {
        if answer.len() != 1 {
            return 1;
        }
        match (self.0)(rows, count, root, message, out) {
            Ok(length) => {
                answer[0] = length as u64;
                0
            }
            Err(number) => number,
        }
    }

    fn read(&self, message: &[u8], table: &mut [Row], answer: &mut [u64]) -> u64 {
        let Answer::Read { streams, count } = plain::read(message, table) else { panic!("not read") };
        answer[1] = count as u64;
        answer[2] = if streams { 3 } else { 0 };
        0
    }
}

/// Rows as read, made at the edges of depth, count and length, and damaged; each with outputs too short, exact and longer.
#[test]
fn drawn_rows() {
    for ((name, write), (_, accepts)) in writers().into_iter().zip(tests()) {
        let (report, code) = compare_rows::run(20_000, 20_261_116, &Compared(write, accepts));
        assert_eq!(code, 0, "{name}: {report}");
        println!("{name}: {report}");
    }
}

/// The decoder's answer, from every writer.
fn compare(name: &str, input: &Input) -> Result<usize, u64> {
    let expected = rows::written(&input.rows, input.count, input.root, &input.message);
    for (writer, write) in writers() {
        let mut out = vec![0xAA; MESSAGE + 16];
        let answer = input.write(write, &mut out);
        let (length, octets) = match &expected {
            Ok(octets) => (Ok(octets.len()), &octets[..]),
            Err(number) => (Err(u64::from(*number)), &[][..]),
        };
        assert_eq!(answer, length, "{name}: {writer}");
        assert!(out.starts_with(octets) && out[octets.len()..].iter().all(|&octet| octet == 0xAA), "{name}: {writer}");
    }
    agree(name, input)
}

#[test]
fn the_inputs() {
    let answers = all().map(|(name, input)| (compare(name, &input), input));
    let [(announcement, first), (connections, second), (deep, third), (small, fourth), (refused, last)] = answers;
    // The shortest definite form is written: what is in it already is written as it was.
    assert_eq!(announcement, Ok(first.message.len()));
    assert_eq!(connections, Ok(second.message.len()));
    assert!(deep.is_ok_and(|length| length < third.message.len()));
    assert_eq!(small, Ok(fourth.message.len()));
    assert_eq!(refused, Err(46));
    assert_eq!([second.count, third.count, fourth.count, last.count], [ENTRIES, 255, ENTRIES, first.count]);
}

/// Those of `bench all`.
#[test]
fn all_entries() {
    for (name, input) in super::families::entries() {
        assert_eq!(compare(name, &input).is_ok(), name != "refused value", "{name}");
    }
}

/// Each family fills its size, and is written as it was.
#[test]
fn families_grow() {
    for (name, make) in FAMILIES {
        let whole = make(1).len();
        for part in [8, 4, 2, 1] {
            let message = make(part);
            assert!(message.len() <= MESSAGE && message.len() * 20 > 11 * whole / part, "{name}: {} of {whole}", message.len());
            let input = Input::read(message);
            assert_eq!(compare(name, &input), Ok(input.message.len()), "{name}");
            let mut out = vec![0; MESSAGE];
            assert_eq!(input.write(writers()[0].1, &mut out), Ok(input.message.len()));
            assert!(out.starts_with(&input.message), "{name}");
        }
        assert!(whole > MESSAGE * 9 / 10 || name == "small parameters", "{name}: {whole}");
    }
}

/// Whatever words a row holds, they are judged and not tripped over.
#[test]
fn any_words() {
    let message = [1, 2, 3, b'a'];
    let words = [0, 1, 2, 3, 4, 9, 12, 13, 1 << 31, 1 << 32, u64::MAX - 1, u64::MAX];
    let mut state = 20_261_117u64;
    let mut draw = || {
        state ^= state << 13;
        state ^= state >> 7;
        state ^= state << 17;
        (state >> 20) as usize
    };
    let mut written = 0;
    for _ in 0..200_000 {
        let mut rows = vec![[0; 50]; 1 + draw() % 4];
        for row in &mut rows {
            row[0] = [1, 2, 3, 4, 5, 6, 7, 8, 9, 2, 8, 9, words[draw() % words.len()]][draw() % 13];
            row[1] = words[draw() % 3 * (draw() % 5)];
            row[2..5].copy_from_slice([[2, 1, 0], [13, 0, 3], [2, 5, 0]][draw() % 3].as_slice());
            for _ in 0..draw() % 3 {
                row[2 + draw() % 48] = words[draw() % words.len()];
            }
        }
        let count = [rows.len(), rows.len(), rows.len(), 0, rows.len() + 1, usize::MAX][draw() % 6];
        let root = [0, 0, 0, 3, 3, 1, u64::MAX][draw() % 7];
        written += usize::from(compare("any words", &Input { rows, count, root, message: message.to_vec() }).is_ok());
    }
    assert!(written > 10_000, "{written}");
}

/// Every kind, cell and type, with numbers around the ends of every range.
#[test]
fn every_cell() {
    let message = [1, 2, 0x81, 0x80, b'a', b'/', 0];
    let firsts = (0..8).chain([i64::from(i32::MIN) - 1, i32::MIN.into(), -129, -128, -1, 127, 128, i32::MAX.into()]);
    let firsts: Vec<u64> = firsts.chain([1 << 31, i64::MIN, i64::MAX]).map(|first| first as u64).collect();
    let mut written = 0;
    for kind in 1..=9 {
        let mut row = [0; 50];
        row[0] = kind;
        row[2..5].copy_from_slice(if (5..=7).contains(&kind) { &[13, 0, 2] } else { &[2, 1, 0] });
        if kind == 9 {
            row[5..8].copy_from_slice(&[2, 1, 0]);
        }
        // A connection needs a matrix.
        let mut matrix = [0; 50];
        matrix[..5].copy_from_slice(&[4, 0, 2, 1, 0]);
        let above = if kind == 8 { vec![matrix] } else { vec![] };
        row[1] = above.len() as u64;
        let root = if kind == 9 { 3 } else { 0 };
        for (cell, tag) in (0..16).flat_map(|cell| (0..=14).map(move |tag| (cell, tag))) {
            for (&first, second) in firsts.iter().flat_map(|first| (0..4).map(move |second| (first, second))) {
                let mut changed = row;
                changed[2 + 3 * cell..5 + 3 * cell].copy_from_slice(&[tag, first, second]);
                let rows = [&above[..], &[changed]].concat();
                let input = Input { count: rows.len(), rows, root, message: message.to_vec() };
                written += usize::from(compare("every cell", &input).is_ok());
            }
        }
    }
    assert!(written > 1_000, "{written}");
}
