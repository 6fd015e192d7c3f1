//! Whole turns over streams of connection requests: a session call; if it finishes a message, the tree reader's call; if that
//! gives 0, the desk's call on those entries. The proved ones, if their library is there, beside such in plain safe Rust.
//! `bench turns [REQUESTS]`: nanoseconds a request on desks of each type, and as streams grow.
#[cfg_attr(not(ember), allow(dead_code))]
mod inputs;
#[cfg(ember)]
pub mod measured;
mod plain;
mod plain_desk;
#[cfg(ember)]
mod proved;
#[cfg(test)]
mod tests;

use std::hint::black_box;
use std::time::Instant;

/// The most targets and sources.
pub const SIDE: usize = 64;

/// A desk's figures: type (0: 1:N, 1: 1:1, 2: N:N), counts, limits and path.
#[derive(Clone, Debug)]
pub struct Figures {
    pub kind: u64,
    pub targets: u64,
    pub sources: u64,
    pub total: Option<u64>,
    pub per_target: Option<u64>,
    pub path: Vec<u64>,
}

impl Figures {
    /// How many targets and sources the lent crosspoints have cells for: 0 or 1 for each, target by target.
    pub fn lent(&self) -> (usize, usize) {
        (self.targets as usize, self.sources as usize)
    }

    pub fn cells(&self) -> usize {
        self.lent().0 * self.lent().1
    }

    pub fn cell(&self, target: usize, source: usize) -> usize {
        self.lent().1 * target + source
    }
}

/// What a turn answers.
#[derive(Clone, Copy, Debug, PartialEq, Eq)]
pub struct Turn {
    pub consumed: usize,
    /// The session's number.
    pub event: u64,
    /// The tree reader's, if it was called.
    pub tree: Option<u64>,
    /// How many answers the desk gave, if it was called; 1 (SETUP) cannot come in a turn.
    pub answers: Option<usize>,
}

/// A session, a table and a desk.
pub trait Host {
    fn turn(&mut self, chunk: &[u8]) -> Turn;
    /// Those of the last turn come first.
    fn answers(&self) -> &[u64];
    /// Whether the target has the source.
    fn holds(&self, target: usize, source: usize) -> bool;
}

type Open = fn(&Figures) -> Box<dyn Host>;

/// How each is opened, with an empty desk. The first is what the others are compared with.
fn hosts() -> Vec<(&'static str, Open)> {
    vec![
        ("plain", |figures| Box::new(plain::Plain::open(figures))),
        ("trusting", |figures| Box::new(plain::Trusting::open(figures))),
        #[cfg(ember)]
        ("proved", |figures| Box::new(proved::Proved::open(figures))),
    ]
}

/// Offers the whole stream in chunks, and hands each turn to `note` with the desk's answers.
fn run(host: &mut dyn Host, stream: &[u8], chunk: usize, mut note: impl FnMut(Turn, &[u64])) {
    for mut rest in stream.chunks(chunk) {
        while !rest.is_empty() {
            let turn = host.turn(rest);
            assert!(turn.consumed > 0);
            rest = &rest[turn.consumed..];
            note(turn, &host.answers()[..turn.answers.unwrap_or(0)]);
        }
    }
}

/// What a host said and where its desk ends.
#[derive(PartialEq, Eq, Debug)]
struct Outcome {
    turns: Vec<Turn>,
    answers: Vec<u64>,
    cells: Vec<bool>,
}

fn outcome(open: Open, figures: &Figures, stream: &[u8], chunk: usize) -> Outcome {
    let mut host = open(figures);
    let (mut turns, mut answers) = (Vec::new(), Vec::new());
    run(&mut *host, stream, chunk, |turn, said| {
        turns.push(turn);
        answers.extend(said);
    });
    let (targets, sources) = (figures.targets as usize, figures.sources as usize);
    let cells = (0..targets * sources).map(|cell| host.holds(cell / sources, cell % sources)).collect();
    Outcome { turns, answers, cells }
}

const CHUNK: usize = 65_536;
const PASSES: usize = 15;

/// Seconds for one pass over the stream, from an empty desk that is opened before the clock starts.
fn pass(open: Open, figures: &Figures, stream: &[u8]) -> f64 {
    let mut host = open(figures);
    let mut sum = 0;
    let began = Instant::now();
    run(&mut *host, black_box(stream), CHUNK, |turn, answers| sum += turn.event + answers.iter().sum::<u64>());
    let seconds = began.elapsed().as_secs_f64();
    black_box(sum);
    seconds
}

/// The best seconds of each host on each stream, after all have said the same.
fn best(name: &str, figures: &Figures, streams: &[Vec<u8>]) -> Vec<Vec<f64>> {
    let hosts = hosts();
    for stream in streams {
        let expected = outcome(hosts[0].1, figures, stream, CHUNK);
        for (host, open) in &hosts[1..] {
            assert!(outcome(*open, figures, stream, CHUNK) == expected, "{name}: {host} says otherwise");
        }
    }
    let mut best = vec![vec![f64::MAX; streams.len()]; hosts.len()];
    for _ in 0..PASSES {
        for ((_, open), best) in hosts.iter().zip(&mut best) {
            for (stream, best) in streams.iter().zip(best) {
                *best = best.min(pass(*open, figures, stream));
            }
        }
    }
    best
}

pub fn main(requests: usize) {
    println!("{requests} requests a stream, chunks of {CHUNK} bytes, the best of {PASSES} passes, taken in turn");
    print!("{:<6} {:>11} {:>9} {:>8}", "desk", "a message", "bytes", "refused");
    for (name, _) in hosts() {
        print!(" {:>12} {:>7} {:>6}", format!("{name} ns"), "MB/s", "ratio");
    }
    println!();
    for (name, figures) in inputs::desks() {
        for each in [1, 16, 255] {
            let stream = inputs::stream(&figures, requests, each);
            let said = outcome(hosts()[0].1, &figures, &stream, CHUNK).answers;
            assert_eq!(said.len(), requests);
            let refused = said.iter().filter(|&&number| number != 0).count();
            let bytes = stream.len() as f64;
            let best = best(name, &figures, &[stream]);
            print!("{name:<6} {each:>11} {bytes:>9} {refused:>8}");
            for seconds in &best {
                let ratio = best[0][0] / seconds[0];
                print!(" {:>12.0} {:>7.0} {ratio:>6.2}", seconds[0] * 1e9 / requests as f64, bytes / seconds[0] / 1e6);
            }
            println!();
        }
    }
    grow(requests);
}

/// Nanoseconds a request as the stream gets longer: one request a message, and sixteen.
fn grow(requests: usize) {
    println!();
    println!("nanoseconds a request as streams grow");
    let counts = [8, 4, 2, 1].map(|part| requests / part);
    print!("{:<6} {:>11} {:>9}", "desk", "a message", "host");
    counts.iter().for_each(|count| print!(" {count:>9}"));
    println!(" {:>10}", "last/first");
    for (name, figures) in inputs::desks() {
        for each in [1, 16] {
            let streams = counts.map(|count| inputs::stream(&figures, count, each));
            for ((host, _), best) in hosts().iter().zip(best(name, &figures, &streams)) {
                print!("{name:<6} {each:>11} {host:>9}");
                let each: Vec<f64> = best.iter().zip(counts).map(|(seconds, count)| seconds * 1e9 / count as f64).collect();
                each.iter().for_each(|each| print!(" {each:>9.1}"));
                println!(" {:>10.2}", each[3] / each[0]);
            }
        }
    }
}
