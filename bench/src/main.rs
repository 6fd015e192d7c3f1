//! The proved session (the static library) beside two in safe Rust, a plain one and one with the proved one's strides, on
//! three streams: megabytes a second of each, and the ratios. `bench [MEGABYTES [CHUNK]]`, 16 and 65,536 if not given;
//! `bench tree [ROUNDS]` and `bench growth [ROUNDS]` measure the tree readers, `bench write [ROUNDS]` the tree writers,
//! `bench turns [REQUESTS]` whole turns, `bench stack` the stack of calls. `bench all` prints the ratios of all in one table and
//! fails where one is under its floor.
mod all;
mod floors;
mod glow;
mod inputs;
mod plain;
mod proved;
mod stack;
mod strided;
#[cfg(test)]
mod tests;
mod turns;

use std::hint::black_box;
use std::process::ExitCode;
use std::time::Instant;

pub const STORE: usize = 17408;

/// What a call answers.
#[derive(Clone, Copy, Debug, PartialEq, Eq)]
pub struct Answer {
    pub number: u64,
    pub discarded: bool,
    pub consumed: usize,
    pub length: usize,
}

pub trait Reader {
    fn start() -> Self;
    fn feed(&mut self, chunk: &[u8]) -> Answer;
    fn store(&self) -> &[u8];
}

/// Feeds the whole stream in chunks, and hands each event to `note`, with the bytes consumed so far and the store.
fn run<R: Reader>(reader: &mut R, stream: &[u8], chunk: usize, mut note: impl FnMut(usize, Answer, &[u8])) {
    let mut offset = 0;
    for mut rest in stream.chunks(chunk) {
        while !rest.is_empty() {
            let answer = reader.feed(rest);
            assert!(answer.number != 1 && answer.consumed > 0);
            rest = &rest[answer.consumed..];
            offset += answer.consumed;
            if answer.number != 0 {
                note(offset, answer, reader.store());
            }
        }
    }
}

/// Every event with its offset and values, and a finished message's bytes.
fn events<R: Reader>(stream: &[u8], chunk: usize) -> Vec<(usize, u64, bool, Vec<u8>)> {
    let mut events = Vec::new();
    run(&mut R::start(), stream, chunk, |offset, answer, store| {
        events.push((offset, answer.number, answer.discarded, store[..answer.length].to_vec()));
    });
    events
}

/// Seconds for one pass over the stream. The session and its store are made before the clock starts; the store is not
/// cleared between calls or passes.
fn pass<R: Reader>(reader: &mut R, stream: &[u8], chunk: usize) -> f64 {
    let began = Instant::now();
    let mut sum = 0;
    run(reader, black_box(stream), chunk, |offset, answer, _| {
        sum += offset as u64 ^ answer.number ^ answer.length as u64;
    });
    black_box(sum);
    began.elapsed().as_secs_f64()
}

fn main() -> ExitCode {
    let mut words = std::env::args().skip(1).peekable();
    if words.next_if(|word| word == "all").is_some() {
        return all::main(words);
    }
    let part = words.next_if(|word| word.parse::<usize>().is_err());
    let numbers: Vec<usize> = words.map(|word| word.parse().expect("a number")).collect();
    let number = |place: usize, other: usize| numbers.get(place).copied().unwrap_or(other);
    match part.as_deref() {
        None => session(number(0, 16), number(1, 65_536)),
        Some("tree") => glow::main(number(0, 50)),
        Some("growth") => glow::growth::main(number(0, 5)),
        Some("write") => glow::write::main(number(0, 5)),
        Some("turns") => turns::main(number(0, 4_096)),
        Some("stack") => stack::main(),
        Some(other) => {
            eprintln!("bench: no part {other}");
            return ExitCode::from(2);
        }
    }
    ExitCode::SUCCESS
}

/// The three sessions on streams of so many megabytes.
fn session(megabytes: usize, chunk: usize) {
    let passes = 15;
    println!("{megabytes} megabytes a stream, chunks of {chunk} bytes, the best of {passes} passes, taken in turn");
    println!("{:<14} {:>12} {:>12} {:>8} {:>12} {:>8}", "stream", "proved MB/s", "plain MB/s", "ratio", "strided MB/s", "ratio");
    for (name, stream) in [
        ("full packets", inputs::full(megabytes * 1_000_000)),
        ("escapes only", inputs::escapes(megabytes * 1_000_000)),
        ("noise", inputs::noise(megabytes * 1_000_000)),
    ] {
        let expected = events::<plain::Session>(&stream, chunk);
        assert_eq!(events::<proved::Session>(&stream, chunk), expected, "{name}: unlike events");
        assert_eq!(events::<strided::Session>(&stream, chunk), expected, "{name}: unlike events");
        let mut proved_session = proved::Session::start();
        let mut plain_session = plain::Session::start();
        let mut strided_session = strided::Session::start();
        let mut best = [f64::MAX; 3];
        for _ in 0..passes {
            best[0] = best[0].min(pass(&mut proved_session, &stream, chunk));
            best[1] = best[1].min(pass(&mut plain_session, &stream, chunk));
            best[2] = best[2].min(pass(&mut strided_session, &stream, chunk));
        }
        let rate = best.map(|seconds| stream.len() as f64 / 1e6 / seconds);
        println!(
            "{name:<14} {:>12.0} {:>12.0} {:>8.2} {:>12.0} {:>8.2}",
            rate[0],
            rate[1],
            rate[0] / rate[1],
            rate[2],
            rate[0] / rate[2]
        );
    }
}
