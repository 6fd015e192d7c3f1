//! The proved judge and writer of entries beside this decoder, through the C interface, on fresh rows.

use crate::gen::rows::{case, shown, Case, DAMAGES, KINDS};
use crate::gen::{case_seed, Random};
use crate::lines::hex;
use crate::rows::{self, Row};
use crate::tree::{self, Answer, TABLE_MAX};
use crate::values::OUT;
use std::collections::BTreeMap;
use std::time::Instant;

const USAGE: &str = "usage: reference compare rows N SEED
";

/// The C interface: `glow_accepts`, `glow_write` and `glow_read`. What they return is the number answered.
pub trait Library {
    fn accepts(&self, rows: &[Row], count: usize, root: u64, message: &[u8]) -> u64;
    fn write(&self, rows: &[Row], count: usize, root: u64, message: &[u8], out: &mut [u8], answer: &mut [u64]) -> u64;
    fn read(&self, message: &[u8], table: &mut [Row], answer: &mut [u64]) -> u64;
}

/// Exit code 0: no difference; 1: a difference; 2: bad usage or no library.
pub fn command(words: &[&str], library: Option<&dyn Library>) -> i32 {
    let numbers: Vec<u64> = words.iter().filter_map(|word| word.parse().ok()).collect();
    let (true, [count, seed]) = (numbers.len() == words.len(), numbers.as_slice()) else {
        eprint!("{USAGE}");
        return 2;
    };
    let Some(library) = library else {
        eprintln!("rows: built without a library that has glow_accepts and glow_write: see reference/README.md, compare rows");
        return 2;
    };
    let (text, code) = run(*count, *seed, library);
    print!("{text}");
    code
}

/// Compares that many cases and gives the report.
pub fn run(count: u64, seed: u64, library: &dyn Library) -> (String, i32) {
    let started = Instant::now();
    let mut counts: [BTreeMap<String, usize>; 3] = Default::default();
    let mut report = String::new();
    let mut done = 0;
    let mut code = 0;
    while done < count && code == 0 {
        let case_seed = case_seed(seed, done);
        let mut random = Random::new(case_seed);
        let case = case(&mut random);
        done += 1;
        *counts[0].entry(KINDS[case.kind].to_string()).or_default() += 1;
        for &damage in &case.damages {
            *counts[1].entry(DAMAGES[damage].to_string()).or_default() += 1;
        }
        match compared(&mut random, &case, library) {
            Ok(answer) => *counts[2].entry(answer.to_string()).or_default() += 1,
            Err(difference) => {
                report += &format!("rows: difference\nreproduce: reference generate rows {case_seed} 1\n");
                report += &format!("{difference}\n{}", shown(&case));
                code = 1;
            }
        }
    }
    report += &format!(
        "rows: {done} cases compared, {} in {:.1} s, seed {seed}\n",
        if code == 0 { "no difference" } else { "the last one differs" },
        started.elapsed().as_secs_f64(),
    );
    for (name, counts) in ["kinds", "damages", "answers"].iter().zip(&counts) {
        let words: Vec<String> = counts.iter().map(|(word, count)| format!("{word}: {count}")).collect();
        report += &format!("  {name}: {}\n", words.join("; "));
    }
    (report, code)
}

/// What the case is, or how the library differs.
fn compared(random: &mut Random, case: &Case, library: &dyn Library) -> Result<&'static str, String> {
    let accepted = rows::accepted(&case.rows, case.count, case.root, &case.message);
    let written = rows::written(&case.rows, case.count, case.root, &case.message);
    judged(random, case, accepted, &written, library)?;
    if case.kind == 0 && case.damages.is_empty() {
        as_read(random, case, &written, library)?;
    }
    match (accepted, &written) {
        (true, Ok(_)) => Ok("accepted and written"),
        (true, Err(_)) => Ok("accepted, 46"),
        (false, Err(_)) => Ok("not accepted, 46"),
        (false, Ok(_)) => Err("the decoder writes what it does not accept".to_string()),
    }
}

/// Whether the library accepts and writes the case as this decoder does.
fn judged(
    random: &mut Random,
    case: &Case,
    accepted: bool,
    written: &Result<Vec<u8>, u8>,
    library: &dyn Library,
) -> Result<(), String> {
    let number = library.accepts(&case.rows, case.count, case.root, &case.message);
    if number != u64::from(accepted) {
        return Err(format!("glow_accepts: {number}, decoder: {accepted}"));
    }
    let more = 1 + random.pick(&[0, 1, 7, 100, 20_000]);
    match written {
        Err(_) => {
            let length = random.pick(&[0, 1, 16_383, 16_384, 16_385, 40_000]);
            refused(random, case, length, 1, u64::from(OUT), library)?;
        }
        Ok(octets) => {
            refused(random, case, octets.len() - 1, 1, u64::from(OUT), library)?;
            if random.one_in(4) {
                let length = random.below(octets.len());
                refused(random, case, length, 1, u64::from(OUT), library)?;
            }
            for length in [octets.len(), octets.len() + more] {
                taken(random, case, length, octets, library)?;
            }
        }
    }
    if random.one_in(16) {
        // "answer_words is 1, else 1 is answered"
        let (length, words) = (random.pick(&[0, 100, 16_384]), random.pick(&[0, 2, 3]));
        refused(random, case, length, words, 1, library)?;
    }
    Ok(())
}

/// Pointless content, so that a change shows.
fn pattern(random: &mut Random, length: usize) -> Vec<u8> {
    let first = random.byte();
    (0..length).map(|place| first ^ (place.wrapping_mul(0x9D) >> 3) as u8).collect()
}

/// An output of that length is left as it was, and so is the answer if the number is 1.
fn refused(
    random: &mut Random,
    case: &Case,
    length: usize,
    words: usize,
    expected: u64,
    library: &dyn Library,
) -> Result<(), String> {
    let before = pattern(random, length);
    let mut out = before.clone();
    let mut answer = vec![0xDEAD; words];
    let number = library.write(&case.rows, case.count, case.root, &case.message, &mut out, &mut answer);
    let what = format!("glow_write, output of {length} bytes, answer of {words} words");
    if number != expected {
        return Err(format!("{what}: {number}, decoder: {expected}"));
    }
    if out != before {
        return Err(format!("{what}: {number}, and the output has changed"));
    }
    if expected == 1 && answer != vec![0xDEAD; words] {
        return Err(format!("{what}: 1, and the answer has changed"));
    }
    Ok(())
}

/// An output of that length gets these octets, its rest as it was.
fn taken(random: &mut Random, case: &Case, length: usize, octets: &[u8], library: &dyn Library) -> Result<(), String> {
    let before = pattern(random, length);
    let mut out = before.clone();
    let mut answer = [0xDEAD];
    let number = library.write(&case.rows, case.count, case.root, &case.message, &mut out, &mut answer);
    let what = format!("glow_write, output of {length} bytes");
    if number != 0 || answer[0] != octets.len() as u64 {
        return Err(format!("{what}: {number} and {}, decoder: 0 and {}", answer[0], octets.len()));
    }
    if out[..octets.len()] != *octets {
        return Err(format!("{what}:\n  library {}\n  decoder {}", hex(&out[..octets.len()]), hex(octets)));
    }
    if out[octets.len()..] != before[octets.len()..] {
        return Err(format!("{what}: the bytes past the written ones have changed"));
    }
    Ok(())
}

/// The case's message read by the library: its rows make the tree that this decoder reads, are accepted, and written alike.
fn as_read(random: &mut Random, case: &Case, written: &Result<Vec<u8>, u8>, library: &dyn Library) -> Result<(), String> {
    let Answer::Tree(tree) = tree::read(&case.message, TABLE_MAX) else { unreachable!() };
    let mut table = vec![[0xDEAD; rows::WORDS]; tree.entries.len() + random.below(3)];
    table.truncate(TABLE_MAX);
    let mut answer = [0; 3];
    let number = library.read(&case.message, &mut table, &mut answer);
    if number != 0 {
        return Err(format!("glow_read: {number}, decoder: 0"));
    }
    let read = Case { rows: table, count: answer[1] as usize, root: answer[2], ..case.clone() };
    if rows::tree_of(&read.rows, read.count, read.root, &read.message) != Some(tree) {
        return Err(format!("glow_read gives another tree:\n{}", shown(&read)));
    }
    judged(random, &read, true, written, library).map_err(|why| format!("as the library reads it: {why}"))
}

#[cfg(test)]
mod tests {
    use super::*;
    use crate::rows::rows_of;
    use crate::tree_writer::spelt;
    use crate::values::least_real;

    /// The decoder behind the C interface, with faults planted.
    struct Own {
        fault: &'static str,
    }

    impl Own {
        /// Rows without the words that the fault leaves out of sight.
        fn mended(&self, rows: &[Row]) -> Vec<Row> {
            let mut rows = rows.to_vec();
            let parents: Vec<u64> = rows.iter().map(|row| row[1]).collect();
            let mut order: Vec<usize> = (0..rows.len()).collect();
            for (place, row) in rows.iter_mut().enumerate() {
                if self.fault == "parents by their low words" {
                    row[1] &= 0xFFFF_FFFF;
                }
                let kind = row[0];
                for (cell, words) in row[2..].chunks_mut(3).enumerate() {
                    let value = matches!(words[0], 1 | 2 | 9);
                    match self.fault {
                        "second words of values" if value => words[2] = 0,
                        "words of absent members" if words[0] == 0 => words[1..].fill(0),
                        "flags over 1" if words[0] == 1 => words[1] = words[1].min(1),
                        "minus zero" if words[0] == 9 && words[1] == 1 << 63 => words[1] = 0,
                        "NaN" if words[0] == 9 && f64::from_bits(words[1]).is_nan() => words[1] = 0,
                        "cells of a node from 5 on" if matches!(kind, 3 | 6) && cell >= 5 => words.fill(0),
                        "third member of a stream entry" if kind == 9 && cell == 2 => words.fill(0),
                        _ => {}
                    }
                }
                // Connections stand where they should.
                if self.fault == "connections anywhere" && kind == 8 && parents[place] != 0 {
                    let last = parents.iter().rposition(|&parent| parent == parents[place]).unwrap();
                    order.retain(|&other| other != place);
                    let at = order.iter().position(|&other| other == last).map_or(order.len(), |at| at + 1);
                    order.insert(at, place);
                }
            }
            if order.iter().zip(0..).all(|(&place, at)| place == at) || order.len() != rows.len() {
                return rows;
            }
            let place_of = |old: u64| order.iter().position(|&place| place as u64 == old);
            order
                .iter()
                .map(|&place| {
                    let mut row = rows[place];
                    row[1] = row[1].checked_sub(1).map_or(0, |old| place_of(old).map_or(u64::MAX, |at| at as u64 + 1));
                    row
                })
                .collect()
        }
    }

    impl Library for Own {
        fn accepts(&self, rows: &[Row], count: usize, root: u64, message: &[u8]) -> u64 {
            let accepted = match self.fault {
                "accepts what is written" => rows::written(rows, count, root, message).is_ok(),
                "a count over the table" => rows::accepted(rows, count.min(rows.len()), root, message),
                "any root" => rows::accepted(rows, count, if root == 0 { 0 } else { 3 }, message),
                "parts by their low words" => {
                    let mut rows = rows.to_vec();
                    rows.iter_mut().flat_map(|row| row[2..].chunks_mut(3)).for_each(|cell| {
                        if matches!(cell[0], 4 | 12 | 13) {
                            cell[1] &= 0xFFFF_FFFF;
                        }
                    });
                    rows::accepted(&rows, count, root, message)
                }
                "16,385 bytes fit" | "16,384 bytes do not fit" => {
                    let tree = rows::tree_of(rows, count, root, message);
                    let length = tree.and_then(|tree| spelt(&tree, least_real).ok()).map(|octets| octets.len());
                    let accepted = rows::accepted(rows, count, root, message);
                    if self.fault.starts_with("16,385") {
                        accepted || length == Some(16_385)
                    } else {
                        accepted && length != Some(16_384)
                    }
                }
                _ => rows::accepted(&self.mended(rows), count, root, message),
            };
            u64::from(accepted)
        }

        fn write(&self, rows: &[Row], count: usize, root: u64, message: &[u8], out: &mut [u8], answer: &mut [u64]) -> u64 {
            if answer.len() != 1 {
                return if self.fault == "an answer of any length" { 46 } else { 1 };
            }
            match rows::written(rows, count, root, message) {
                Ok(octets) if octets.len() <= out.len() => {
                    out[..octets.len()].copy_from_slice(&octets);
                    answer[0] = octets.len() as u64;
                    if self.fault == "one byte past" && octets.len() < out.len() {
                        out[octets.len()] ^= 1;
                    }
                    0
                }
                Ok(octets) if self.fault == "as much as fits" => {
                    let length = out.len();
                    out.copy_from_slice(&octets[..length]);
                    46
                }
                _ => 46,
            }
        }

        fn read(&self, message: &[u8], table: &mut [Row], answer: &mut [u64]) -> u64 {
            let Answer::Tree(tree) = tree::read(message, table.len()) else { panic!() };
            // Parts are where their octets first stand; that is enough here.
            let rows = rows_of(&tree, &mut |octets| (0..).find(|&at| message[at..].starts_with(octets)).unwrap());
            table[..rows.len()].copy_from_slice(&rows);
            answer[1] = rows.len() as u64;
            answer[2] = if tree.kind == tree::RootKind::Streams { 3 } else { 0 };
            0
        }
    }

    #[test]
    fn no_difference_to_itself() {
        let (report, code) = run(3_000, 5, &Own { fault: "" });
        assert_eq!(code, 0, "{report}");
        println!("{report}");
        for word in KINDS.iter().chain(&DAMAGES).chain(&["accepted and written", "accepted, 46", "not accepted, 46"]) {
            assert!(report.contains(&format!("{word}: ")), "{word}: {report}");
        }
    }

    #[test]
    fn planted_faults_are_found() {
        for fault in [
            "accepts what is written",
            "a count over the table",
            "any root",
            "parts by their low words",
            "an answer of any length",
            "one byte past",
            "as much as fits",
            "16,385 bytes fit",
            "16,384 bytes do not fit",
            "parents by their low words",
            "second words of values",
            "words of absent members",
            "flags over 1",
            "minus zero",
            "NaN",
            "cells of a node from 5 on",
            "third member of a stream entry",
            "connections anywhere",
        ] {
            let (report, code) = run(20_000, 7, &Own { fault });
            assert_eq!(code, 1, "{fault}: {report}");
        }
    }

    #[test]
    fn usage() {
        assert_eq!(command(&["10"], None), 2);
        assert_eq!(command(&["10", "x"], None), 2);
        assert_eq!(command(&["10", "1"], None), 2);
        assert_eq!(command(&["1", "1"], Some(&Own { fault: "" })), 0);
    }
}
