//! Scripts of the program `desk`: drawn ones, and the stored one.

use super::{ask, asked, figures, requests, Asked};
use crate::desk::{Figures, SIDE_MAX};
use crate::desk_text::{Program, Said, LINE_MAX};
use crate::framing::{self, packet, write_frame, write_keep_alive, Session, BIG, MESSAGE_MAX, PAYLOAD_MAX, STORE_LENGTH};
use crate::gen::tree::{self, rules, spell, spell_changed, Style};
use crate::gen::{bad_hex_line, frames, mutate_bytes, rows, Random};
use crate::lines::{digits, lines};
use crate::tree::{Body, Entry, Key, MatrixContents, ParameterContents, RootKind, Tree};
use crate::tree_writer;
use crate::values::{least_real, write_real, Value, NUMBER_MAX};
use std::collections::BTreeMap;

/// How often each kind of line and each number came.
pub type Counts = BTreeMap<String, usize>;

/// A script as it grows, beside what the program makes of it.
pub struct Script {
    random: Random,
    program: Program,
    pub text: Vec<u8>,
    pub output: String,
    pub counts: Counts,
    /// Bytes of the stream that no line has offered yet.
    stream: Vec<u8>,
}

fn word(value: Option<i64>) -> String {
    value.map_or("-".to_string(), |value| value.to_string())
}

fn dots(numbers: &[u64]) -> String {
    if numbers.is_empty() {
        return "-".to_string();
    }
    numbers.iter().map(u64::to_string).collect::<Vec<String>>().join(".")
}

/// The words of an `open` line.
fn open_words(figures: &Figures) -> Vec<String> {
    let mut words = vec!["open".to_string()];
    for figure in [figures.kind, figures.mode, figures.targets, figures.sources, figures.total_limit, figures.target_limit] {
        words.push(word(figure));
    }
    words.push(dots(&figures.path));
    words
}

fn request_line(asked: &Asked) -> String {
    format!("request {} {} {}", asked.target, dots(asked.sources.as_deref().unwrap_or_default()), word(asked.operation))
}

/// Numbers that a program might take for small ones.
const ODD_NUMBERS: [&str; 16] = [
    "0",
    "1",
    "2",
    "3",
    "00",
    "65",
    "255",
    "256",
    "257",
    "4294967296",
    "4294967297",
    "9223372036854775808",
    "18446744073709551615",
    "18446744073709551616",
    "18446744073709551617",
    "36893488147419103234",
];

const BAD_LINES: [&str; 60] = [
    "",
    " ",
    "-",
    "end",
    "message 60026B00",
    "show ",
    " show",
    "Show",
    "SHOW",
    "shows",
    "show 0",
    "show\r",
    "show\t",
    "sho",
    "grid ",
    "grid 0",
    "grids",
    "grid\r",
    "sheet ",
    "sheet 0",
    "sheets",
    "sheet\r",
    "bytes",
    "bytes ",
    "bytes -",
    "bytes 0",
    "bytes FE0",
    "bytes FE FF",
    "bytes  FE",
    "bytes FE ",
    "bytes FE\r",
    "bytes 0xFE",
    "bytes G0",
    "bytesFE",
    "byte FE",
    "request",
    "request 0",
    "request 0 0",
    "request 0 0 0 0",
    "request 0 0 ",
    "request 0  0",
    "request  0 0 0",
    "request - 0 0",
    "request 0 0. 0",
    "request 0 .0 0",
    "request 0 0..1 0",
    "request 0 0,1 0",
    "request 0 0.- 0",
    "request +0 0 0",
    "request 0 -1 0",
    "request 0 0 -1",
    "request 0 0 0\r",
    "request 0x0 0 0",
    "open",
    "open 2 - 2 2 - -",
    "open 2 - 2 2 - - 1 1",
    "open 2 - 2 2 - - 1.",
    "open 2 - 2 2 - - 1..1",
    "open 2 - +2 2 - - 1",
    "open 2  2 2 - - 1",
];

impl Script {
    pub fn new(seed: u64) -> Script {
        Script {
            random: Random::new(seed),
            program: Program::start(),
            text: Vec::new(),
            output: String::new(),
            counts: Counts::new(),
            stream: Vec::new(),
        }
    }

    fn count(&mut self, what: String) {
        *self.counts.entry(what).or_default() += 1;
    }

    /// Adds a line; one with 0A inside is several.
    fn push(&mut self, line: impl AsRef<[u8]>) {
        let mut text = line.as_ref().to_vec();
        text.push(b'\n');
        for line in lines(&text) {
            let said = self.program.line(line);
            self.output += &said.text();
            match said {
                Said::Opened(number) => self.count(format!("open {number:02}")),
                Said::Requested(number) => self.count(format!("request {number:02}")),
                Said::Show(_) => self.count("show".to_string()),
                Said::Grid(_) => self.count("grid".to_string()),
                Said::Sheet(_) => self.count("sheet".to_string()),
                Said::Bad => self.count("bad line".to_string()),
                Said::Events(turns) => {
                    if turns.is_empty() {
                        self.count("no event".to_string());
                    }
                    for turn in turns {
                        self.count(format!("event {:02}", turn.event));
                        if let Some(number) = turn.tree {
                            self.count(format!("tree {number:02}"));
                        }
                        for number in turn.desk.unwrap_or_default() {
                            self.count(format!("desk {number:02}"));
                        }
                    }
                }
            }
        }
        self.text.extend(text);
    }

    // ---- Lines ----

    /// Sometimes with zeros before a number.
    fn push_words(&mut self, mut words: Vec<String>) {
        if self.random.one_in(16) && words.len() > 1 {
            let at = self.random.range(1, words.len() - 1);
            if words[at].bytes().all(|byte| byte.is_ascii_digit()) {
                let zeros = self.random.pick(&[1, 2, 20, 70]);
                words[at].insert_str(0, &"0".repeat(zeros));
            }
        }
        self.push(words.join(" "));
    }

    fn open_well(&mut self) {
        let figures = figures(&mut self.random);
        self.push_words(open_words(&figures));
    }

    /// Figures with one or two out of their ranges, or at their ends.
    fn open_oddly(&mut self) {
        let mut words = open_words(&figures(&mut self.random));
        for _ in 0..self.random.range(1, 2) {
            let at = self.random.range(1, 7);
            words[at] = match at {
                1 => self.random.pick(&["-", "0", "1", "2", "3"]),
                2 => self.random.pick(&["-", "0", "1", "2"]),
                3 | 4 => self.random.pick(&["-", "0", "1", "64", "65", "66"]),
                5 | 6 => self.random.pick(&["-", "0", "1", "2147483647", "2147483648"]),
                _ => self.random.pick(&["-", "0", "1", "1.0.1", "2147483647", "2147483648", "1.2147483648"]),
            }
            .to_string();
            if self.random.one_in(3) {
                words[at] = self.random.pick(&ODD_NUMBERS).to_string();
            }
        }
        if self.random.one_in(3) {
            // Its fault, if it has one, is the last number.
            let count = self.random.pick(&[1, 2, 3, 4, 7, 14, 15, 16, 17, 40]);
            let last = self.random.pick(&[0, 1, NUMBER_MAX, NUMBER_MAX + 1]);
            words[7] = dots(&[vec![1; count - 1], vec![last]].concat());
        }
        self.push_words(words);
    }

    fn request(&mut self) {
        let Some(desk) = &self.program.desk else {
            return self.push("request 0 0 0");
        };
        let line = request_line(&asked(&mut self.random, desk));
        let mut words: Vec<String> = line.split(' ').map(str::to_string).collect();
        if self.random.one_in(20) {
            let at = self.random.range(1, 3);
            words[at] = self.random.pick(&ODD_NUMBERS).to_string();
            if at == 2 && self.random.one_in(2) {
                words[at] = format!("0.{}", words[at]);
            }
        }
        self.push_words(words);
    }

    fn bad_line(&mut self) {
        match self.random.below(4) {
            0 => {
                let line = [b"bytes ".to_vec(), bad_hex_line(&mut self.random)].concat();
                self.push(line);
            }
            1 => {
                // A right line, changed. It may still be right.
                let mut line: Vec<u8> = match self.random.below(3) {
                    0 => open_words(&figures(&mut self.random)).join(" ").into_bytes(),
                    1 => self.random.pick(&["show", "grid", "sheet", "bytes FE", "bytes FF"]).into(),
                    _ => "request 0 0.1 1".into(),
                };
                mutate_bytes(&mut self.random, &mut line);
                self.push(line);
            }
            _ => {
                let line = self.random.pick(&BAD_LINES);
                self.push(line);
            }
        }
    }

    /// Lists and lines at their greatest lengths.
    fn long_line(&mut self) {
        let more = self.random.below(2);
        let line = match self.random.below(5) {
            0 => format!("request 0 {} 0", dots(&vec![0; (LINE_MAX - "request 0  0".len() + 1) / 2 + more])),
            1 => format!("open 2 - 2 2 - - {}", dots(&vec![1; (LINE_MAX - "open 2 - 2 2 - - ".len() + 1) / 2 + more])),
            2 => format!("request {}0 0 -", "0".repeat(LINE_MAX + more - "request 0 0 -".len())),
            3 => format!("bytes {}", "FE".repeat((LINE_MAX - 6) / 2 + more)),
            _ => format!("show{}", " ".repeat(LINE_MAX - 4 + more)),
        };
        self.push(line);
    }

    // ---- The stream ----

    /// A message's packets, with keep-alives and empty pieces between them.
    fn send(&mut self, message: &[u8]) {
        let random = &mut self.random;
        let size =
            random.pick(&[PAYLOAD_MAX, PAYLOAD_MAX, PAYLOAD_MAX, 200, 60, 20, 7]).max(message.len() / 8 + 1).min(PAYLOAD_MAX);
        let mut pieces: Vec<&[u8]> = message.chunks(size).collect();
        while pieces.is_empty() || random.one_in(16) {
            let at = random.below(pieces.len() + 1);
            pieces.insert(at, &[]);
        }
        for (index, piece) in pieces.iter().enumerate() {
            let first = if index == 0 { 0x80 } else { 0 };
            let last = if index + 1 == pieces.len() { 0x40 } else { 0 };
            let empty = if piece.is_empty() { 0x20 } else { 0 };
            let minor = if random.one_in(4) { random.byte() } else { 0x14 };
            self.stream.extend(write_frame(&packet(first | last | empty, minor, piece)).unwrap());
            if random.one_in(16) {
                self.stream.extend(write_keep_alive(random.one_in(2)));
            }
        }
    }

    /// A message of requests, in some spelling.
    fn send_requests(&mut self) {
        let random = &mut self.random;
        let Some(desk) = &self.program.desk else {
            return self.stream.extend(write_keep_alive(false));
        };
        let most = if random.one_in(40) { random.pick(&[64, 254, 255, 256]) } else { 8 };
        let tree = requests(random, desk, most);
        let style = if random.one_in(2) { Style::PLAIN } else { Style::draw(random) };
        let message = match random.below(16) {
            0 => spell_changed(random, style, &tree),
            1 => {
                let mut message = spell(random, style, &tree);
                mutate_bytes(random, &mut message);
                message
            }
            _ => spell(random, style, &tree),
        };
        if message.len() <= MESSAGE_MAX {
            self.send(&message);
        }
    }

    /// A part of a stream that is no message of requests.
    fn send_other(&mut self) {
        match self.random.below(10) {
            0 => {
                let message = tree::message(&mut self.random).0;
                self.send(&message);
            }
            1 if self.random.one_in(30) => {
                // Entries whose shortest message is about as long as a message may be.
                let tree = rows::long(&mut self.random, least_real);
                let message = tree_writer::spelt(&tree, least_real).unwrap_or_default();
                if message.len() <= MESSAGE_MAX {
                    self.send(&message);
                }
            }
            1 => {
                let number = self.random.range(30, 37) as u8;
                let message = rules::refused(&mut self.random, number);
                self.send(&message);
            }
            2 => {
                let fault = frames::fault(&mut self.random, 40);
                self.stream.extend(fault);
            }
            3 => self.stream.extend(write_keep_alive(self.random.one_in(2))),
            _ => {
                let rare = self.random.below(300);
                let kind = match rare {
                    0 => 13,
                    1..=12 => 7,
                    _ => self.random.pick(&[0, 1, 2, 3, 4, 5, 6, 8, 9, 10, 11, 12]),
                };
                let part = frames::part(&mut self.random, kind);
                self.stream.extend(part);
            }
        }
    }

    fn push_bytes(&mut self, bytes: &[u8]) {
        let text = digits(bytes);
        let text: String = match self.random.below(6) {
            0 => text.to_lowercase(),
            1 => text.chars().map(|c| if self.random.one_in(2) { c.to_ascii_lowercase() } else { c }).collect(),
            _ => text,
        };
        self.push(format!("bytes {text}"));
    }

    /// Offers what the stream has, cut anywhere; with `keep` sometimes not all of it.
    fn offer(&mut self, keep: bool) {
        let stream = std::mem::take(&mut self.stream);
        if stream.is_empty() {
            return;
        }
        let length = stream.len();
        let mut cuts = vec![0, length];
        let count = self.random.pick(&[0, 0, 0, 0, 1, 1, 2, 3, 5]);
        for _ in 0..count {
            let at = self.random.below(length + 1);
            let cut = match self.random.below(3) {
                0 => at,
                // Before or after the next special byte.
                side => stream[at..].iter().position(|&byte| byte >= 0xFD).map_or(length, |more| at + more + side - 1),
            };
            cuts.push(cut);
        }
        if length <= 10 && self.random.one_in(6) {
            cuts.extend(0..length);
        }
        cuts.extend((0..length).step_by((LINE_MAX - 6) / 2));
        cuts.sort();
        cuts.dedup();
        let parts: Vec<&[u8]> = cuts.windows(2).map(|cut| &stream[cut[0]..cut[1]]).collect();
        for (index, part) in parts.iter().enumerate() {
            if keep && index > 0 && index + 1 == parts.len() && self.random.one_in(3) {
                self.stream = part.to_vec();
                return;
            }
            self.push_bytes(part);
        }
    }

    // ---- Whole scripts ----

    fn step(&mut self) {
        match self.random.below(100) {
            0..=27 => self.request(),
            28..=60 => {
                for _ in 0..self.random.pick(&[1, 1, 1, 2, 3]) {
                    self.send_requests();
                }
                self.offer(true);
            }
            61..=73 => {
                for _ in 0..self.random.pick(&[1, 1, 1, 2, 4]) {
                    self.send_other();
                }
                self.offer(true);
            }
            74..=83 => self.push("show"),
            84..=85 => self.push("grid"),
            86..=88 => self.push("sheet"),
            89..=95 => self.bad_line(),
            96 | 97 => self.open_well(),
            98 => self.open_oddly(),
            _ => {
                if self.random.one_in(4) {
                    self.long_line();
                }
            }
        }
    }

    /// A script of 5 to 30 lines or so, which begins with an `open` of its own.
    fn script(&mut self) {
        let start = self.text.len();
        self.stream.clear();
        if self.random.one_in(8) {
            self.open_oddly();
            for _ in 0..self.random.below(4) {
                self.step();
            }
        }
        if self.text.len() == start || self.program.desk.is_none() {
            self.open_well();
        }
        for _ in 0..self.random.range(4, 18) {
            self.step();
        }
        self.offer(false);
        self.push("show");
    }
}

/// An input of that many scripts. What it prints and counts is there too.
pub fn input(seed: u64, count: usize) -> Script {
    let mut script = Script::new(seed);
    if script.random.one_in(4) {
        // No desk yet.
        for line in ["show", "bytes FE", "request 0 0 0", "grid", "sheet", ""] {
            if script.random.one_in(3) {
                script.push(line);
            }
        }
    }
    for _ in 0..count {
        script.script();
    }
    if script.random.one_in(4) {
        script.text.pop();
    }
    script
}

// ---- The stored script ----

fn opened(kind: Option<i64>, sides: (i64, i64), limits: (Option<i64>, Option<i64>), path: &[u64]) -> String {
    let figures = Figures {
        path: path.to_vec(),
        kind,
        mode: None,
        targets: Some(sides.0),
        sources: Some(sides.1),
        total_limit: limits.0,
        target_limit: limits.1,
    };
    open_words(&figures).join(" ")
}

/// A message of the requests to the matrix at that path, as the writer writes it.
fn message_of(path: &[u64], asked: &[Asked]) -> Vec<u8> {
    let matrix = Body::Matrix(Key::Path(path.to_vec()), MatrixContents::default());
    let mut entries = vec![Entry { parent: None, body: matrix }];
    entries.extend(asked.iter().map(|asked| Entry { parent: Some(0), body: asked.clone().body() }));
    tree_writer::write(&Tree { kind: RootKind::Elements, entries }).unwrap()
}

impl Script {
    /// Every operation with every kind of list, on each type: as lines, and as one message for each operation.
    fn every_request(&mut self) {
        for kind in [None, Some(0), Some(1), Some(2)] {
            let path = [1, 2];
            self.push(opened(kind, (4, 5), (None, None), &path));
            for operation in [None, Some(0), Some(1), Some(2)] {
                let mut all = Vec::new();
                for target in [0, 3, 4] {
                    for sources in
                        [vec![], vec![2], vec![4, 4], vec![1, 3], vec![3, 1, 3], vec![0, 1, 2, 3, 4], vec![5], vec![0, 6]]
                    {
                        let asked = Asked { target, sources: Some(sources), operation };
                        self.push(request_line(&asked));
                        all.push(asked);
                    }
                    all.push(Asked { target, sources: None, operation });
                    self.push("show");
                }
                self.stream = Vec::new();
                self.send(&message_of(&path, &all));
                self.offer(false);
                self.push("show");
            }
            self.push("grid");
            self.push("sheet");
            self.push("request 9 9 3");
        }
    }

    /// In 1:1 a source goes with its last request.
    fn moves(&mut self) {
        self.push(opened(Some(1), (3, 3), (None, None), &[7]));
        for asked in [
            ask(0, &[0], 1),
            ask(1, &[1], 0),
            ask(2, &[2], 1),
            ask(1, &[0], 1),
            ask(0, &[1], 0),
            ask(2, &[1, 1], 1),
            ask(0, &[2], 0),
            ask(0, &[2], 1),
            ask(2, &[0, 2], 0),
            ask(1, &[], 0),
            ask(2, &[], 1),
            ask(1, &[1], 2),
            ask(0, &[0, 1, 2], 2),
        ] {
            let bytes = digits(&crate::framing::write_message(&message_of(&[7], &[asked])).unwrap().concat());
            self.push(format!("bytes {bytes}"));
            self.push("show");
        }
    }

    /// Both limits, from one below to one above, by lines and by messages.
    fn limits(&mut self) {
        for (total, per_target) in [(Some(5), Some(3)), (Some(3), None), (None, Some(2)), (Some(1), Some(1)), (Some(7), Some(6))]
        {
            self.push(opened(Some(2), (3, 6), (total, per_target), &[2_147_483_647]));
            for operation in [0, 1] {
                for target in 0..3 {
                    for count in [1, 2, 3, 4, 6] {
                        let sources: Vec<u64> = (0..count).collect();
                        self.push(request_line(&ask(target, &sources, operation)));
                    }
                    self.push("show");
                }
            }
            self.push("request 0 0.1.2 2");
            for target in 0..3 {
                let asked = [ask(target, &[5], 1), ask(target, &[4, 5], 1), ask(target, &[5], 2), ask(target, &[0], 0)];
                self.send(&message_of(&[2_147_483_647], &asked));
                self.offer(false);
                self.push("show");
            }
        }
        // 1:N and 1:1 keep their limits and heed none.
        for kind in [0, 1] {
            self.push(opened(Some(kind), (3, 3), (Some(1), Some(1)), &[1]));
            for target in 0..3 {
                self.push(request_line(&ask(target, &[target], 1)));
            }
            self.push("show");
            self.push("sheet");
        }
    }

    /// Both sides of every range at opening.
    fn openings(&mut self) {
        let right = ["open", "2", "0", "3", "3", "-", "-", "1.2"];
        let ranges: [(usize, &[&str]); 7] = [
            (1, &["-", "0", "1", "2", "3", "18446744073709551616"]),
            (2, &["-", "0", "1", "2", "18446744073709551616"]),
            (3, &["-", "0", "1", "64", "65", "257", "4294967297", "18446744073709551617"]),
            (4, &["-", "0", "1", "64", "65", "257", "4294967297", "18446744073709551617"]),
            (5, &["-", "0", "1", "2147483647", "2147483648", "4294967297", "18446744073709551617"]),
            (6, &["-", "0", "1", "2147483647", "2147483648", "4294967297", "18446744073709551617"]),
            (7, &["-", "0", "1", "1.0", "2147483647", "2147483648", "4294967297", "00001", "18446744073709551617"]),
        ];
        for (at, words) in ranges {
            for word in words {
                let mut line = right;
                line[at] = word;
                self.push(line.join(" "));
                self.push("request 0 0 1");
            }
        }
        for count in [15, 16, 17, 1_025] {
            self.push(format!("open 2 0 3 3 - - {}", dots(&vec![3; count])));
            self.push("show");
        }
    }

    /// The largest desk: its corners.
    fn corners(&mut self) {
        for kind in 0..=2 {
            self.push(opened(Some(kind), (SIDE_MAX, SIDE_MAX), (None, Some(SIDE_MAX)), &[1; 16]));
            for (target, source) in [(0, 0), (0, 63), (63, 0), (63, 63), (64, 0), (0, 64), (31, 32)] {
                self.push(request_line(&ask(target, &[source], 1)));
            }
            let all: Vec<u64> = (0..64).collect();
            self.push(request_line(&ask(1, &all, 0)));
            self.push("show");
            self.push(if kind == 2 { "grid" } else { "sheet" });
        }
        // A desk that is full: its sheet takes many packets.
        for target in 0..64 {
            let sources: Vec<u64> = (0..64).filter(|source| source % 3 != target % 3).collect();
            self.send(&message_of(&[1; 16], &[ask(target, &sources, 0)]));
        }
        self.offer(false);
        self.push("sheet");
        self.push(opened(Some(2), (1, 1), (None, None), &[1]));
        self.push("request 0 0 -");
        self.push("grid");
    }

    /// A message over several packets, in each chunking, with keep-alives and faults between its pieces.
    fn pieces(&mut self) {
        let path = [5, 6];
        let asked: Vec<Asked> = (0..6).map(|index| ask(index % 4, &[index % 3, (index + 1) % 3], (index % 3) as i64)).collect();
        let message = message_of(&path, &asked);
        let frames = |sizes: usize| -> Vec<Vec<u8>> {
            let pieces: Vec<&[u8]> = message.chunks(sizes).collect();
            let flags = |index: usize| if index == 0 { 0x80 } else { 0 } | if index + 1 == pieces.len() { 0x40 } else { 0 };
            let framed = |(index, piece): (usize, &&[u8])| write_frame(&packet(flags(index), 0x14, piece)).unwrap();
            pieces.iter().enumerate().map(framed).collect()
        };
        let alive = write_keep_alive(false);
        for size in [message.len(), message.len() - 1, 40, 25] {
            self.push(opened(Some(2), (4, 3), (None, Some(2)), &path));
            let stream = frames(size).concat();
            for chunk in [1_000_000, 100, 33, 9] {
                for part in stream.chunks(chunk) {
                    self.push_bytes(part);
                }
                self.push("show");
            }
            // A keep-alive between pieces disturbs nothing; a request neither.
            for frame in frames(size) {
                self.push_bytes(&[&frame[..], &alive].concat());
                self.push("request 0 0 2");
            }
            self.push("show");
        }
        for fault in 0..6 {
            let all = frames(40);
            for (index, frame) in all.iter().enumerate() {
                if index == 1 {
                    match fault {
                        0 => self.push("bytes 00"),
                        1 => self.push("bytes FE00"),
                        2 => self.push("bytes FEF8FF"),
                        3 => self.push("bytes FE000E010194E5FF"),
                        4 => self.push_bytes(&all[0]),
                        _ => continue,
                    }
                }
                self.push_bytes(frame);
            }
        }
        // A cut at each byte of a frame, and the rest with the next frame's beginning.
        let one = frames(message.len()).concat();
        for at in (1..one.len()).step_by(7) {
            self.push_bytes(&one[..at]);
            self.push_bytes(&[&one[at..], &alive].concat());
        }
    }

    /// Each kind of fault in a stream, and messages with each number of the tree reader's.
    fn faults(&mut self) {
        self.push(opened(Some(0), (4, 4), (None, None), &[1, 1]));
        for round in 0..8 {
            for kind in 0..13 {
                if kind == 7 && round % 4 != 0 {
                    continue; // the long ones
                }
                let part = frames::part(&mut self.random, kind);
                self.stream.extend(part);
                if self.random.one_in(2) {
                    self.send_requests();
                }
                self.offer(true);
            }
            self.push("show");
        }
        // One that has 24.
        let has_24 = |stream: &[u8]| {
            let events = framing::run(&mut Session::start(), &mut vec![0; STORE_LENGTH], stream, &mut 0);
            events.iter().any(|(_, event)| event.number == BIG)
        };
        let big = std::iter::repeat_with(|| frames::part(&mut self.random, 13)).find(|part| has_24(part)).unwrap();
        self.stream.extend(big);
        self.offer(false);
        for number in 30..=37 {
            for _ in 0..4 {
                let message = rules::refused(&mut self.random, number);
                self.send(&message);
                self.offer(true);
            }
        }
        self.offer(false);
        // 255 connections are as many as the table has room for beside their matrix.
        for count in [255, 256] {
            let all: Vec<Asked> = (0..count).map(|index| Asked { target: index % 5, sources: None, operation: None }).collect();
            let entries = std::iter::once(Body::Matrix(Key::Path(vec![1, 1]), MatrixContents::default()))
                .chain(all.into_iter().map(Asked::body))
                .enumerate()
                .map(|(place, body)| Entry { parent: if place == 0 { None } else { Some(0) }, body })
                .collect();
            let message = spell(&mut self.random, Style::PLAIN, &Tree { kind: RootKind::Elements, entries });
            self.send(&message);
            self.offer(false);
        }
        self.push("show");
    }

    /// Where two refusals meet, and every list with its fault last: sources in a request, numbers of a path.
    fn lists(&mut self) {
        let path = [3, 1, 2];
        for kind in 0..=2 {
            for limits in [(Some(3), Some(2)), (None, None)] {
                self.push(opened(Some(kind), (4, 5), limits, &path));
                self.push("request 1 1 0");
                let mut all = Vec::new();
                for operation in [0, 1, 2] {
                    let long: Vec<u64> = (0..if limits.0.is_none() { 1_000 } else { 70 }).map(|index| index % 2).collect();
                    for last in [vec![], vec![4], vec![5], vec![4_294_967_296], vec![2, 3, 4], vec![2, 3, 5]] {
                        // 41 before 42 and 43, 42 before 43 and 44, 43 before 44.
                        for (target, first) in [(0, vec![]), (3, vec![0]), (4, vec![0]), (0, vec![0, 1, 2, 3]), (2, long.clone())]
                        {
                            if first.len() > 70 && last != [5] && last != [4] {
                                continue;
                            }
                            let sources = [first, last.clone()].concat();
                            let asked = ask(target, &sources, operation);
                            self.push(request_line(&asked));
                            if sources.iter().all(|&source| source <= NUMBER_MAX) && sources.len() < 20 {
                                all.push(asked);
                            }
                        }
                        self.push("show");
                    }
                }
                self.stream = Vec::new();
                self.send(&message_of(&path, &all));
                self.offer(false);
                self.push("show");
                // 40 before all others.
                self.send(&message_of(&[3, 1, 3], &all));
                self.offer(false);
            }
        }
        // Every source in one list, once and twice, and one too many.
        for kind in 0..=2 {
            self.push(opened(Some(kind), (SIDE_MAX, SIDE_MAX), (None, None), &[1]));
            let all: Vec<u64> = (0..64).collect();
            for (target, list) in [(0, all.clone()), (63, [&all[..], &all].concat()), (62, [&all[..], &[64]].concat())] {
                for operation in [0, 1, 2, 1] {
                    self.push(request_line(&ask(target, &list, operation)));
                }
                self.push("show");
            }
            // The last target has what the first takes, and back.
            self.push(request_line(&ask(63, &[63], 0)));
            self.push(request_line(&ask(0, &[63], 1)));
            self.push("show");
            self.push(request_line(&ask(63, &[63], 1)));
            self.push("show");
        }
        // Paths: another number at each place, one number less, one more.
        let long: Vec<u64> = (1..=16).map(|number| number * 134_217_727).collect();
        for length in [1, 2, 3, 15, 16] {
            let path = &long[..length];
            self.push(opened(Some(2), (2, 2), (None, None), path));
            for place in 0..length {
                let mut other = path.to_vec();
                other[place] -= 1;
                self.send(&message_of(&other, &[ask(0, &[0], 0)]));
            }
            self.send(&message_of(path, &[ask(0, &[0], 0)]));
            if length > 1 {
                self.send(&message_of(&path[..length - 1], &[ask(0, &[1], 0)]));
                self.send(&message_of(&path[1..], &[ask(0, &[1], 0)]));
            }
            if length < 16 {
                self.send(&message_of(&long[..length + 1], &[ask(0, &[1], 0)]));
                self.send(&message_of(&[&[1], path].concat(), &[ask(0, &[1], 0)]));
            }
            self.offer(false);
            self.push("show");
        }
        for place in 0..16 {
            for number in [0, 1, NUMBER_MAX, NUMBER_MAX + 1] {
                let mut path = [2; 16];
                path[place] = number;
                self.push(format!("open 2 0 3 3 - - {}", dots(&path)));
                self.push(format!("open 2 0 3 3 - - {}", dots(&path[..=place])));
            }
        }
    }

    /// A message of 16,384 bytes whose reals are in their least form, shorter than the written one: entries as read are
    /// always some message's.
    fn least(&mut self) {
        self.push(opened(Some(2), (2, 2), (None, None), &[1]));
        let two = |power: i32| f64::powi(2.0, power);
        let shorter = |value: &f64| least_real(*value).unwrap().len() < write_real(*value).unwrap().len();
        let reals: Vec<f64> = (120..150)
            .flat_map(|power| {
                [two(power), -two(power), 3.0 * two(power), 255.0 * two(power), -127.0 * two(power), 65_535.0 * two(power)]
            })
            .chain((1..=4).map(|octets| (two(8 * octets) - 1.0) * two(130)))
            .filter(shorter)
            .collect();
        let body = |value: f64, description: Option<Vec<u8>>| {
            let contents = ParameterContents { value: Some(Value::Real(value)), description, ..Default::default() };
            Body::Parameter(Key::Number(1), contents)
        };
        let message = |filling: usize| {
            let matrix = Body::Matrix(Key::Path(vec![1]), MatrixContents::default());
            let mut entries = vec![Entry { parent: None, body: matrix }];
            entries.extend((0..200).map(|at| Entry { parent: Some(0), body: body(reals[at % reals.len()], None) }));
            entries.push(Entry { parent: Some(0), body: body(1.0, Some(vec![b'a'; filling])) });
            entries.push(Entry { parent: Some(0), body: ask(1, &[0, 1], 0).body() });
            tree_writer::spelt(&Tree { kind: RootKind::Elements, entries }, least_real).unwrap()
        };
        let filling = (0..MESSAGE_MAX - 3_000).rev().find(|&filling| message(filling).len() <= MESSAGE_MAX).unwrap();
        self.send(&message(filling));
        self.offer(false);
        self.push("show");
    }

    fn bad_lines(&mut self) {
        self.push("open 2 1 2 2 - - 1");
        for line in BAD_LINES.iter().chain(&["show", "grid", "sheet", "bytes FE", "request 0 0 0"]) {
            self.push(line);
        }
        self.push(opened(Some(2), (2, 2), (None, None), &[1]));
        self.push("request 1 0.1 -");
        self.push("bytes FE000E");
        for line in BAD_LINES {
            self.push(line);
        }
        for byte in [0, 9, 11, 13, 127, 128, 255] {
            self.push([b"show".to_vec(), vec![byte]].concat());
        }
        // Nothing of it has changed desk or session.
        self.push("bytes 010194E4FF");
        self.push("show");
        self.push("bytes FE00");
        self.push(opened(Some(2), (2, 2), (None, None), &[1]));
        self.push("bytes 0E010194E4FFFE000E010194E4FF");
        self.push("show");
    }
}

/// The stored script: every request on every type, limits, moves, pieces, chunkings, faults and bad lines, then drawn
/// scripts.
pub fn stored() -> Vec<u8> {
    let mut script = Script::new(501);
    script.push("show");
    script.every_request();
    script.moves();
    script.limits();
    script.openings();
    script.corners();
    script.pieces();
    script.faults();
    script.lists();
    script.least();
    script.bad_lines();
    for seed in 0.. {
        let drawn = input(seed, 1).text;
        if drawn.len() < 2_000 {
            for line in lines(&drawn) {
                script.push(line);
            }
        }
        if lines(&script.text).len() >= STORED_LINES {
            break;
        }
    }
    script.text
}

const STORED_LINES: usize = 3_400;

#[cfg(test)]
mod tests {
    use super::*;
    use crate::desk_text::desks;

    #[test]
    fn stored_script_shows_every_number() {
        let text = stored();
        assert!(text.len() < 450_000, "{}", text.len());
        assert!((STORED_LINES..STORED_LINES + 60).contains(&lines(&text).len()));
        let mut script = Script::new(0);
        for line in lines(&text) {
            script.push(line);
        }
        assert_eq!(script.output, desks(&text));
        for number in [2, 3, 4, 5, 10, 11, 12, 13, 14, 15, 16, 20, 21, 22, 23, 24] {
            assert!(script.counts.contains_key(&format!("event {number:02}")), "no event {number}");
        }
        for number in [0, 30, 31, 32, 33, 34, 35, 36, 37, 38] {
            assert!(script.counts.contains_key(&format!("tree {number:02}")), "no answer {number}");
        }
        for number in [0, 40, 41, 42, 43, 44] {
            assert!(script.counts.contains_key(&format!("desk {number:02}")), "no desk's {number}");
        }
        for what in ["open 00", "open 45", "request 00", "request 41", "request 42", "request 43", "request 44", "no event"] {
            assert!(script.counts.contains_key(what), "no {what}");
        }
        for what in ["show", "grid", "sheet", "bad line"] {
            assert!(script.counts[what] > 3, "{what}");
        }
    }

    #[test]
    fn drawn_scripts_reach_every_number() {
        let mut counts = Counts::new();
        for seed in 0..12 {
            let script = input(seed, 100);
            assert_eq!(desks(&script.text), script.output, "seed {seed}");
            for (what, count) in script.counts {
                *counts.entry(what).or_default() += count;
            }
        }
        let mut wanted: Vec<String> = Vec::new();
        for number in [2, 3, 4, 5, 10, 11, 12, 13, 14, 15, 16, 20, 21, 22, 23] {
            wanted.push(format!("event {number:02}"));
        }
        for number in [0, 30, 31, 32, 33, 34, 35, 36, 37, 38] {
            wanted.push(format!("tree {number:02}"));
        }
        for number in [0, 40, 41, 42, 43, 44] {
            wanted.push(format!("desk {number:02}"));
        }
        for number in [0, 41, 42, 43, 44] {
            wanted.push(format!("request {number:02}"));
        }
        for what in ["open 00", "open 45", "show", "grid", "sheet", "bad line", "no event"] {
            wanted.push(what.to_string());
        }
        for what in wanted {
            assert!(counts.get(&what).is_some_and(|&count| count > 3), "{what}: {counts:?}");
        }
    }
}
