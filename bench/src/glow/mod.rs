//! The Glow tree reader and writer: the proved ones, if their library is there, beside such in plain safe Rust.
//! `bench tree [ROUNDS]`: nanoseconds a message and megabytes a second, on each of the inputs. `bench growth [ROUNDS]`:
//! nanoseconds a byte as messages grow. `bench write [ROUNDS]`: the writers.
#[cfg(any(test, glow))]
mod families;
pub mod growth;
pub mod inputs;
#[cfg(glow)]
pub mod measured;
pub mod plain;
pub mod plain_writer;
#[cfg(glow)]
mod proved;
#[cfg(test)]
mod tests;
pub mod write;
#[cfg(test)]
mod write_tests;

use std::hint::black_box;
use std::time::Instant;

/// Kind, parent's place plus 1, then 16 cells of three words: the type of the value (0: absent) and two of content.
pub type Row = [u64; 50];

/// The longest table and message.
pub const ENTRIES: usize = 256;
pub const MESSAGE: usize = 16_384;

#[derive(Clone, Copy, Debug, PartialEq, Eq)]
pub enum Answer {
    /// 1
    Setup,
    /// 30 to 37
    Refused { number: u64, place: usize },
    /// 38
    Room { count: usize },
    /// 0
    Read { streams: bool, count: usize },
}

type Read<'a> = (&'static str, Box<dyn FnMut(&[u8], &mut [Row]) -> Answer + 'a>);

/// The readers, with their names. The first is what the others are compared with.
fn readers() -> Vec<Read<'static>> {
    let mut once = plain::Once::new();
    vec![
        ("plain", Box::new(plain::read)),
        ("once", Box::new(move |message, table| once.read(message, table))),
        #[cfg(glow)]
        ("proved", Box::new(proved::read)),
    ]
}

/// Seconds for `rounds` calls. The table is not cleared between them.
fn pass(read: &mut dyn FnMut(&[u8], &mut [Row]) -> Answer, message: &[u8], table: &mut [Row], rounds: usize) -> f64 {
    let began = Instant::now();
    for _ in 0..rounds {
        black_box(read(black_box(message), black_box(&mut *table)));
    }
    began.elapsed().as_secs_f64()
}

pub fn main(rounds: usize) {
    const PASSES: usize = 15;
    let mut readers = readers();
    println!(
        "{rounds} calls a pass, the best of {PASSES} passes, taken in turn; a table of {ENTRIES} rows, not cleared between calls"
    );
    print!("{:<14} {:>6} {:>7}", "input", "bytes", "answer");
    for (name, _) in &readers {
        print!(" {:>12} {:>7} {:>6}", format!("{name} ns"), "MB/s", "ratio");
    }
    println!();
    for (name, message) in inputs::all() {
        let mut table = vec![[0; 50]; ENTRIES];
        let expected = plain::read(&message, &mut table);
        for (reader, read) in &mut readers {
            let mut other = vec![[0; 50]; ENTRIES];
            assert_eq!(read(&message, &mut other), expected, "{name}: {reader} answers otherwise");
            assert!(other == table, "{name}: {reader} fills otherwise");
        }
        let mut best = vec![f64::MAX; readers.len()];
        for _ in 0..PASSES {
            for ((_, read), best) in readers.iter_mut().zip(&mut best) {
                *best = best.min(pass(read, &message, &mut table, rounds));
            }
        }
        let number = match expected {
            Answer::Setup => "1".to_string(),
            Answer::Refused { number, .. } => number.to_string(),
            Answer::Room { .. } => "38".to_string(),
            Answer::Read { count, .. } => format!("0, {count}"),
        };
        print!("{name:<14} {:>6} {number:>7}", message.len());
        for seconds in &best {
            let each = seconds / rounds as f64;
            print!(" {:>12.0} {:>7.0} {:>6.2}", each * 1e9, message.len() as f64 / each / 1e6, best[0] / seconds);
        }
        println!();
    }
}
