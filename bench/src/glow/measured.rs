//! Reader, writer and test of entries for `bench all`.
use super::families::{entries, messages};
use super::write::{agree, Input};
use super::{plain, plain_writer, proved, Answer, ENTRIES, MESSAGE};
use crate::all::{timed, Family, Side};
use std::hint::black_box;

/// The table and the output are not cleared between calls.
pub fn families() -> Vec<Family> {
    let read = messages().into_iter().map(|(name, message)| reader(name, message));
    let written = entries().into_iter().map(|(name, input)| writer(name, input));
    let tested = entries().into_iter().map(|(name, input)| tester(name, input));
    read.chain(written).chain(tested).collect()
}

fn family(part: &'static str, name: &str, bytes: usize, count: usize, run: Box<dyn FnMut(Side, usize) -> f64>) -> Family {
    Family { part, name: name.to_string(), bytes, count, unit: "message", units: 1.0, run }
}

fn reader(name: &str, message: Vec<u8>) -> Family {
    let [mut table, mut other] = [(); 2].map(|()| vec![[0; 50]; ENTRIES]);
    let answer = plain::read(&message, &mut table);
    assert_eq!(proved::read(&message, &mut other), answer, "{name}: answered otherwise");
    assert!(other == table, "{name}: filled otherwise");
    let count = match answer {
        Answer::Read { count, .. } | Answer::Room { count } => count,
        _ => 0,
    };
    let bytes = message.len();
    let run = move |side, calls| {
        let read = if side == Side::Plain { plain::read } else { proved::read };
        timed(calls, || {
            black_box(read(black_box(&message), black_box(&mut table)));
        })
    };
    family("reader", name, bytes, count, Box::new(run))
}

fn writer(name: &str, input: Input) -> Family {
    let bytes = agree(name, &input).unwrap_or(input.message.len());
    let count = input.count;
    let mut out = vec![0; MESSAGE];
    let run = move |side, calls| {
        let write = if side == Side::Plain { plain_writer::write } else { proved::write };
        timed(calls, || {
            let _ = black_box(input.write(write, black_box(&mut out)));
        })
    };
    family("writer", name, bytes, count, Box::new(run))
}

fn tester(name: &str, input: Input) -> Family {
    let bytes = agree(name, &input).unwrap_or(input.message.len());
    let count = input.count;
    let run = move |side, calls| {
        let accepts = if side == Side::Plain { plain_writer::accepts } else { proved::accepts };
        timed(calls, || {
            black_box(input.accepted(accepts));
        })
    };
    family("entries", name, bytes, count, Box::new(run))
}
