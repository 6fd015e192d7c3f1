//! The Glow tree writers: the proved one, if its library has it, beside one in plain safe Rust. Nanoseconds a message on
//! each of the inputs, and nanoseconds a byte as trees grow.
use super::inputs::{self, integer, member, members, root, tag, text};
use super::{growth, plain, plain_writer, Answer, Row, ENTRIES, MESSAGE};
use std::hint::black_box;
use std::time::Instant;

pub type Write = fn(&[Row], usize, u64, &[u8], &mut [u8]) -> Result<usize, u64>;
pub type Accepts = fn(&[Row], usize, u64, &[u8]) -> bool;

/// The writers, with their names. The first is what the others are compared with.
pub fn writers() -> Vec<(&'static str, Write)> {
    vec![
        ("plain", plain_writer::write),
        #[cfg(glow)]
        ("proved", super::proved::write),
    ]
}

/// The tests of entries: whether some message is read as these.
pub fn tests() -> Vec<(&'static str, Accepts)> {
    vec![
        ("plain", plain_writer::accepts),
        #[cfg(glow)]
        ("proved", super::proved::accepts),
    ]
}

/// What a writer is handed.
pub struct Input {
    pub rows: Vec<Row>,
    pub count: usize,
    pub root: u64,
    pub message: Vec<u8>,
}

impl Input {
    /// The entries of a message, their parts in it, in a table of 256 rows.
    pub fn read(message: Vec<u8>) -> Input {
        let mut rows = vec![[0; 50]; ENTRIES];
        let Answer::Read { streams, count } = plain::read(&message, &mut rows) else { panic!("not read") };
        Input { rows, count, root: if streams { 3 } else { 0 }, message }
    }

    pub fn write(&self, write: Write, out: &mut [u8]) -> Result<usize, u64> {
        write(black_box(&self.rows), self.count, self.root, black_box(&self.message), out)
    }

    pub fn accepted(&self, accepts: Accepts) -> bool {
        accepts(black_box(&self.rows), self.count, self.root, black_box(&self.message))
    }
}

// ---- Inputs ----

/// A parameter with a number and an integer, as an item.
fn small(index: usize) -> Vec<u8> {
    let contents = tag(0x31, &members(&[(2, integer(index as i32 * 37))]));
    member(0, &tag(0x61, &[member(0, &integer(1 + index as i32)), member(1, &contents)].concat()))
}

pub fn smalls(count: usize) -> Vec<u8> {
    root(&(0..count).flat_map(small).collect::<Vec<u8>>())
}

/// The announcement, with its last entry's last member out of its range.
pub fn refused(announcement: Vec<u8>) -> Input {
    let mut input = Input::read(announcement);
    let row = &mut input.rows[input.count - 1];
    let cell = (0..16).rev().find(|cell| row[2 + 3 * cell] == 2).expect("an integer");
    row[3 + 3 * cell] = u64::MAX;
    input
}

pub fn all() -> [(&'static str, Input); 5] {
    let [(_, announcement), (_, connections), (_, deep), ..] = inputs::all();
    [
        ("announcement", Input::read(announcement.clone())),
        ("connections", Input::read(connections)),
        ("deep nest", Input::read(deep)),
        ("small parameters", Input::read(smalls(ENTRIES))),
        ("refused", refused(announcement)),
    ]
}

// ---- Families ----

type Family = (&'static str, fn(usize) -> Vec<u8>);

/// Messages that are written as they are read, at an eighth, a quarter, a half and the whole of their longest size: that of
/// a message, or 256 entries. The flat ones first.
pub const FAMILIES: [Family; 8] = [
    ("announcement", |part| growth::announcement(MESSAGE / part)),
    ("connections", |part| growth::connections(MESSAGE / part)),
    ("small parameters", |part| smalls(ENTRIES / part)),
    ("one text", |part| growth::one_text(MESSAGE / part)),
    ("sources", |part| growth::sources(MESSAGE / part)),
    ("chains", |part| chains(16 / part)),
    ("deep parameters", |part| deep_parameters(MESSAGE / part)),
    ("deep connections", |part| deep_connections(MESSAGE / part)),
];

/// A node or matrix around what it holds.
fn around(kind: u8, member_number: u8, collection: u8, items: &[u8]) -> Vec<u8> {
    let mut inside = [member(0, &integer(1)), member(1, &tag(0x31, &member(0, &text(&"n".repeat(40)))))].concat();
    if !items.is_empty() {
        inside.extend(member(member_number, &tag(collection, items)));
    }
    member(0, &tag(kind, &inside))
}

/// Chains of 15 nodes, each with a name of 40 letters.
pub fn chains(count: usize) -> Vec<u8> {
    let chain = (0..15).fold(Vec::new(), |inner, _| around(0x63, 2, 0x64, &inner));
    root(&chain.repeat(count))
}

fn parameter(index: usize) -> Vec<u8> {
    let contents = tag(0x31, &members(&[(1, text(&"d".repeat(50))), (2, integer(index as i32 * 37))]));
    member(0, &tag(0x61, &[member(0, &integer(1 + index as i32)), member(1, &contents)].concat()))
}

/// Items in a matrix that is the 14th in a chain of nodes.
fn deep_items(bytes: usize, number: u8, collection: u8, item: fn(usize) -> Vec<u8>) -> Vec<u8> {
    const CHAIN: usize = 14 * 80;
    let matrix = around(0x6D, number, collection, &growth::fill(bytes - CHAIN, item));
    root(&(1..14).fold(matrix, |inner, _| around(0x63, 2, 0x64, &inner)))
}

pub fn deep_parameters(bytes: usize) -> Vec<u8> {
    deep_items(bytes, 2, 0x64, parameter)
}

pub fn deep_connections(bytes: usize) -> Vec<u8> {
    deep_items(bytes, 5, 0x30, growth::connection)
}

// ---- Measuring ----

/// Every writer gives the same answer and leaves the same output, and every test of entries says the same.
pub fn agree(name: &str, input: &Input) -> Result<usize, u64> {
    let mut expected = vec![0xAA; MESSAGE];
    let answer = input.write(plain_writer::write, &mut expected);
    for (writer, write) in writers() {
        let mut out = vec![0xAA; MESSAGE];
        assert_eq!(input.write(write, &mut out), answer, "{name}: {writer} answers otherwise");
        assert!(out == expected, "{name}: {writer} writes otherwise");
    }
    let accepted = input.accepted(plain_writer::accepts);
    for (tester, accepts) in tests() {
        assert_eq!(input.accepted(accepts), accepted, "{name}: {tester} accepts otherwise");
    }
    answer
}

/// Seconds for `rounds` calls. The output is not cleared between them.
fn pass(write: Write, input: &Input, out: &mut [u8], rounds: usize) -> f64 {
    let began = Instant::now();
    for _ in 0..rounds {
        let _ = black_box(input.write(write, black_box(&mut *out)));
    }
    began.elapsed().as_secs_f64()
}

const PASSES: usize = 15;

pub fn main(rounds: usize) {
    println!("{rounds} calls a pass, the best of {PASSES} passes, taken in turn; an output of {MESSAGE} bytes, not cleared between calls");
    let writers = writers();
    print!("{:<17} {:>6} {:>7}", "input", "bytes", "entries");
    for (name, _) in &writers {
        print!(" {:>12} {:>7} {:>6}", format!("{name} ns"), "MB/s", "ratio");
    }
    println!();
    let mut out = vec![0; MESSAGE];
    for (name, input) in all() {
        let answer = agree(name, &input);
        let mut best = vec![f64::MAX; writers.len()];
        for _ in 0..PASSES {
            for ((_, write), best) in writers.iter().zip(&mut best) {
                *best = best.min(pass(*write, &input, &mut out, rounds));
            }
        }
        let bytes = match answer {
            Ok(length) => length.to_string(),
            Err(number) => format!("({number})"),
        };
        print!("{name:<17} {bytes:>6} {:>7}", input.count);
        for seconds in &best {
            let each = seconds / rounds as f64;
            let rate = answer.map_or("-".to_string(), |length| format!("{:.0}", length as f64 / each / 1e6));
            print!(" {:>12.0} {rate:>7} {:>6.2}", each * 1e9, best[0] / seconds);
        }
        println!();
    }
    grow(rounds);
}

fn grow(rounds: usize) {
    let writers = writers();
    println!();
    println!("nanoseconds a byte written at each size, {rounds} calls a pass at the full size, the best of {PASSES} passes, taken in turn");
    print!("{:<17} {:>7} {:>7} {:>7}", "input", "bytes", "entries", "writer");
    for part in ["eighth", "quarter", "half", "whole"] {
        print!(" {part:>8}");
    }
    println!(" {:>10}", "last/first");
    let mut out = vec![0; MESSAGE];
    for (name, make) in FAMILIES {
        let inputs = [8, 4, 2, 1].map(|part| Input::read(make(part)));
        let lengths = [0, 1, 2, 3].map(|size| agree(name, &inputs[size]).expect("written"));
        let mut best = vec![[f64::MAX; 4]; writers.len()];
        for _ in 0..PASSES {
            for ((_, write), best) in writers.iter().zip(&mut best) {
                for (size, input) in inputs.iter().enumerate() {
                    let rounds = rounds << (3 - size);
                    let each = pass(*write, input, &mut out, rounds) * 1e9 / (rounds * lengths[size]) as f64;
                    best[size] = best[size].min(each);
                }
            }
        }
        for ((writer, _), best) in writers.iter().zip(&best) {
            print!("{name:<17} {:>7} {:>7} {writer:>7}", lengths[3], inputs[3].count);
            best.iter().for_each(|each| print!(" {each:>8.2}"));
            println!(" {:>10.2}", best[3] / best[0]);
        }
    }
}
