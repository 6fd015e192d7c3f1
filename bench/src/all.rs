//! `bench all [PART]... [PASSES] [--csv]`: every family, or those of the named parts, in one run and one table: ours through the C
//! libraries beside plain safe Rust. Ends with 1 and names the families whose ratio is under their floor (floors.txt).
use crate::{floors, inputs, plain, proved, Reader};
use std::process::ExitCode;
use std::time::Instant;

#[derive(Clone, Copy, Debug, PartialEq, Eq)]
pub enum Side {
    Plain,
    Ours,
}

/// One input, and how to run both sides on it.
pub struct Family {
    pub part: &'static str,
    pub name: String,
    /// Of the message or the stream.
    pub bytes: usize,
    /// Entries of a message, requests of a stream; 0 if nothing is read.
    pub count: usize,
    /// What a time is of, and how many of them one call has.
    pub unit: &'static str,
    pub units: f64,
    /// Seconds that so many calls take.
    pub run: Box<dyn FnMut(Side, usize) -> f64>,
}

#[cfg_attr(not(any(glow, ember)), allow(dead_code))]
pub fn timed(calls: usize, mut call: impl FnMut()) -> f64 {
    let began = Instant::now();
    for _ in 0..calls {
        call();
    }
    began.elapsed().as_secs_f64()
}

/// Every family whose library is there; both sides have answered alike on each.
pub fn families() -> Vec<Family> {
    #[allow(unused_mut)]
    let mut all = sessions();
    #[cfg(glow)]
    all.extend(crate::glow::measured::families());
    #[cfg(ember)]
    all.extend(crate::turns::measured::families());
    all
}

/// Streams in chunks of so many bytes.
fn sessions() -> Vec<Family> {
    const BYTES: usize = 250_000;
    const CHUNK: usize = 65_536;
    [
        ("full packets", CHUNK, inputs::full(BYTES)),
        ("escapes only", CHUNK, inputs::escapes(BYTES)),
        ("noise", CHUNK, inputs::noise(BYTES)),
        ("keep-alive requests", CHUNK, inputs::keep_alives(BYTES)),
        ("messages of 24 bytes", CHUNK, inputs::small(BYTES)),
        ("full packets by 1400 bytes", 1_400, inputs::full(BYTES)),
        ("full packets by 16 bytes", 16, inputs::full(BYTES)),
    ]
    .into_iter()
    .map(|(name, chunk, stream)| {
        let expected = crate::events::<plain::Session>(&stream, chunk);
        assert!(crate::events::<proved::Session>(&stream, chunk) == expected, "{name}: unlike events");
        let (mut first, mut second) = (plain::Session::start(), proved::Session::start());
        Family {
            part: "session",
            name: name.to_string(),
            bytes: stream.len(),
            count: 0,
            unit: "1000 bytes",
            units: stream.len() as f64 / 1e3,
            run: Box::new(move |side, calls| match side {
                Side::Plain => (0..calls).map(|_| crate::pass(&mut first, &stream, chunk)).sum(),
                Side::Ours => (0..calls).map(|_| crate::pass(&mut second, &stream, chunk)).sum(),
            }),
        }
    })
    .collect()
}

// ---- Measuring ----

/// About so many seconds a pass: short, so that some passes are not interrupted.
const PASS: f64 = 0.002;
const PASSES: usize = 50;

struct Measured {
    family: Family,
    calls: [usize; 2],
    /// Seconds a unit, the best pass of each side.
    best: [f64; 2],
}

impl Measured {
    fn new(mut family: Family) -> Measured {
        let calls = [Side::Plain, Side::Ours].map(|side| {
            let once = (0..3).map(|_| (family.run)(side, 1)).fold(f64::MAX, f64::min);
            (PASS / once).ceil() as usize
        });
        Measured { family, calls, best: [f64::MAX; 2] }
    }

    /// One pass of each side, in this order.
    fn pass(&mut self, order: [Side; 2]) {
        for side in order {
            let calls = self.calls[side as usize];
            let seconds = (self.family.run)(side, calls) / (calls as f64 * self.family.units);
            let best = &mut self.best[side as usize];
            *best = best.min(seconds);
        }
    }

    fn ratio(&self) -> f64 {
        self.best[Side::Plain as usize] / self.best[Side::Ours as usize]
    }

    fn nanoseconds(&self, side: Side) -> f64 {
        self.best[side as usize] * 1e9
    }

    fn floor(&self) -> floors::Floor {
        floors::of(self.family.part, &self.family.name)
    }

    fn is_under(&self) -> bool {
        self.ratio() < self.floor().floor
    }
}

/// All families in each pass, both sides of a family beside each other and first in turn, so that what else the machine does
/// falls on both.
fn measure(measured: &mut [&mut Measured], passes: usize) {
    for pass in 0..passes {
        let order = if pass % 2 == 0 { [Side::Plain, Side::Ours] } else { [Side::Ours, Side::Plain] };
        measured.iter_mut().for_each(|measured| measured.pass(order));
    }
}

// ---- Printing ----

/// Three figures or more.
fn time(nanoseconds: f64) -> String {
    match nanoseconds {
        0.0..10.0 => format!("{nanoseconds:.2}"),
        10.0..100.0 => format!("{nanoseconds:.1}"),
        _ => format!("{nanoseconds:.0}"),
    }
}

const TITLES: [&str; 10] = ["part", "family", "bytes", "count", "ns a", "plain", "ours", "ratio", "floor", "aim"];
const WIDTHS: [usize; 10] = [7, 26, 6, 5, 10, 6, 6, 5, 5, 4];

fn cells(measured: &Measured) -> [String; 10] {
    let Family { part, name, bytes, count, unit, .. } = &measured.family;
    let floors::Floor { floor, aim } = measured.floor();
    [
        part.to_string(),
        name.clone(),
        bytes.to_string(),
        count.to_string(),
        unit.to_string(),
        time(measured.nanoseconds(Side::Plain)),
        time(measured.nanoseconds(Side::Ours)),
        format!("{:.2}", measured.ratio()),
        format!("{floor:.2}"),
        aim.map_or(String::new(), |aim| format!("{aim:.2}")),
    ]
}

/// A line of a Markdown table: words to the left, numbers to the right.
fn line(cells: &[String; 10]) -> String {
    let mut line = String::new();
    for (index, (cell, width)) in cells.iter().zip(WIDTHS).enumerate() {
        match index {
            0 | 1 | 4 => line += &format!("| {cell:<width$} "),
            _ => line += &format!("| {cell:>width$} "),
        }
    }
    line + "|"
}

fn print(all: &[Measured], csv: bool) {
    if csv {
        println!("{}", TITLES.join(",").replace("ns a", "unit").replace("plain,ours", "plain_ns,ours_ns"));
        all.iter().for_each(|measured| println!("{}", cells(measured).join(",")));
        return;
    }
    println!("{}", line(&TITLES.map(String::from)));
    let rule = |index, width| if matches!(index, 0 | 1 | 4) { "-".repeat(width) } else { "-".repeat(width - 1) + ":" };
    println!("{}", line(&std::array::from_fn(|index| rule(index, WIDTHS[index]))));
    all.iter().for_each(|measured| println!("{}", line(&cells(measured))));
}

/// What the words ask for: parts (all, if none is named), passes, and whether the table is one of commas.
struct Asked {
    parts: Vec<&'static str>,
    passes: usize,
    csv: bool,
}

fn asked(words: impl Iterator<Item = String>) -> Option<Asked> {
    let mut known: Vec<&str> = floors::all().map(|(part, ..)| part).collect();
    known.dedup();
    let mut asked = Asked { parts: Vec::new(), passes: PASSES, csv: false };
    for word in words {
        if word == "--csv" {
            asked.csv = true;
        } else if let Some(part) = known.iter().find(|&&part| part == word) {
            asked.parts.push(part);
        } else {
            asked.passes = word.parse().ok().filter(|&passes| passes > 0)?;
        }
    }
    if asked.parts.is_empty() {
        asked.parts = known;
    }
    Some(asked)
}

pub fn main(words: impl Iterator<Item = String>) -> ExitCode {
    let Some(Asked { parts, passes, csv }) = asked(words) else {
        eprintln!("bench all [PART]... [PASSES] [--csv]");
        return ExitCode::from(2);
    };
    let families = families().into_iter().filter(|family| parts.contains(&family.part));
    let mut all: Vec<Measured> = families.map(Measured::new).collect();
    measure(&mut all.iter_mut().collect::<Vec<_>>(), passes);
    // A second chance, since the best only gets better.
    measure(&mut all.iter_mut().filter(|measured| measured.is_under()).collect::<Vec<_>>(), 2 * passes);
    print(&all, csv);
    let mut code = ExitCode::SUCCESS;
    for measured in all.iter().filter(|measured| measured.is_under()) {
        let Family { part, name, .. } = &measured.family;
        eprintln!("under its floor: {part}, {name}: {:.2}, floor {:.2}", measured.ratio(), measured.floor().floor);
        code = ExitCode::FAILURE;
    }
    for part in parts.iter().filter(|&&part| all.iter().all(|measured| measured.family.part != part)) {
        eprintln!("not measured, since its library is not there: {part}");
        code = ExitCode::FAILURE;
    }
    code
}

#[cfg(all(test, glow, ember))]
mod tests {
    /// Every family has one floor, in the same order, and can stand in a line of commas; making them compares both sides.
    #[test]
    fn floors() {
        let families: Vec<(&str, String)> = super::families().into_iter().map(|family| (family.part, family.name)).collect();
        let floors: Vec<(&str, String)> = crate::floors::all().map(|(part, name, _)| (part, name.to_string())).collect();
        assert_eq!(families, floors);
        assert!(families.iter().all(|(_, name)| !name.contains(',')));
        assert!((1..families.len()).all(|place| !families[..place].contains(&families[place])));
        assert!(crate::floors::all().all(|(_, _, floor)| floor.floor > 0.0 && floor.aim.is_none_or(|aim| aim > floor.floor)));
    }
}
