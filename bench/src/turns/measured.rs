//! Whole turns and desk calls for `bench all`.
use super::{inputs, outcome, pass, plain, plain_desk, proved, Figures, Open, CHUNK};
use crate::all::{timed, Family, Side};
use crate::glow::write::{self, Input};
use crate::glow::{growth, MESSAGE};
use crate::inputs::Random;
use std::hint::black_box;

/// The most requests that a message has, and those of a stream.
const FULL: usize = 255;
const REQUESTS: usize = 4 * FULL;

pub fn families() -> Vec<Family> {
    let mut all = Vec::new();
    for (name, figures) in inputs::desks() {
        for each in [1, FULL] {
            let stream = inputs::stream(&figures, REQUESTS, each);
            all.push(turns(format!("{name} {each} a message"), &figures, stream, REQUESTS, "request"));
        }
    }
    let [dense, small] = [inputs::dense(), inputs::small()];
    for (name, figures, each) in [("dense N:N", &dense, FULL), ("small 1:N", &small, 1)] {
        let stream = inputs::stream(figures, REQUESTS, each);
        all.push(turns(format!("{name} {each} a message"), figures, stream, REQUESTS, "request"));
    }
    for (name, message) in [("announcement", growth::announcement(MESSAGE)), ("deep nest", write::chains(16))] {
        let stream = inputs::frames(&message).repeat(8);
        all.push(turns(name.to_string(), &small, stream, 8, "message"));
    }
    for (name, figures) in inputs::desks().into_iter().chain([("dense N:N", dense)]) {
        all.push(desk_call(name, figures));
    }
    all
}

/// Passes from an empty desk that is opened before the clock starts.
fn turns(name: String, figures: &Figures, stream: Vec<u8>, units: usize, unit: &'static str) -> Family {
    let open = |side: Side| -> Open {
        match side {
            Side::Plain => |figures| Box::new(plain::Plain::open(figures)),
            Side::Ours => |figures| Box::new(proved::Proved::open(figures)),
        }
    };
    let [expected, said] = [Side::Plain, Side::Ours].map(|side| outcome(open(side), figures, &stream, CHUNK));
    assert!(said == expected, "{name}: said otherwise");
    let figures = figures.clone();
    Family {
        part: "turns",
        name,
        bytes: stream.len(),
        count: said.answers.len(),
        unit,
        units: units as f64,
        run: Box::new(move |side, calls| (0..calls).map(|_| pass(open(side), &figures, &stream)).sum()),
    }
}

/// What a desk call is lent.
struct Call {
    figures: Figures,
    words: [u64; 7],
    cells: Vec<u8>,
    input: Input,
    answers: [u64; 256],
    bytes: [u8; 256],
}

impl Call {
    fn call(&mut self, side: Side) -> Result<usize, u64> {
        let Call { figures, words, cells, input: Input { rows, count, root, message }, answers, bytes } = self;
        match side {
            Side::Plain => plain_desk::call(figures, cells, rows, *count, *root, message, answers),
            Side::Ours => proved::call(figures, words, cells, rows, *count, *root, message, bytes),
        }
    }
}

/// 255 connections, handed in as the reader left them, again and again on one desk.
fn desk_call(name: &str, figures: Figures) -> Family {
    let input = Input::read(inputs::message(&mut Random(9), &figures, FULL));
    let cells = vec![0; figures.cells()];
    let mut lent = Call { words: proved::words(&figures), figures, cells, input, answers: [0; 256], bytes: [0; 256] };
    let [expected, said] = [Side::Plain, Side::Ours].map(|side| {
        lent.cells.fill(0);
        (lent.call(side), lent.cells.clone())
    });
    assert!(said == expected, "{name}: said otherwise");
    assert_eq!(lent.bytes.map(u64::from), lent.answers, "{name}: answered otherwise");
    Family {
        part: "desk",
        name: format!("{name} {FULL} a message"),
        bytes: lent.input.message.len(),
        count: FULL,
        unit: "request",
        units: FULL as f64,
        run: Box::new(move |side, calls| {
            timed(calls, || {
                let _ = black_box(black_box(&mut lent).call(side));
            })
        }),
    }
}
