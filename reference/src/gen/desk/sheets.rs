//! Route sheets: as written, spelt otherwise, and refused for each reason.

use super::{ask, asked, used_desk, Asked};
use crate::desk::{Desk, Figures, N_TO_N};
use crate::framing::{self, packet, write_frame, write_keep_alive, MESSAGE_MAX, PAYLOAD_MAX};
use crate::gen::tree::{self, rules, spell, spell_changed, Style};
use crate::gen::{bad_hex_line, chunked, frames, mutate_bytes, Random};
use crate::lines::digits;
use crate::programs::SHEET_MAX;
use crate::sheet;
use crate::tree::{Body, Entry, Key, NodeContents, ParameterContents, RootKind, Tree, TABLE_MAX};
use crate::tree_writer;

pub const KINDS: [&str; 17] = [
    "as written",
    "connections otherwise",
    "contents otherwise",
    "spelt otherwise",
    "packets otherwise",
    "unfinished message before",
    "bad line",
    "fault in the stream",
    "not one message",
    "open at the end",
    "other elements",
    "changed message",
    "many entries",
    "figures",
    "connection refused",
    "several of these",
    "noise",
];

const SEVERAL: usize = 15;
const NOISE: usize = 16;

/// The matrix's contents.
fn contents(tree: &mut Tree) -> &mut crate::tree::MatrixContents {
    match &mut tree.entries[0].body {
        Body::Matrix(_, contents) => contents,
        _ => unreachable!(),
    }
}

fn connect(tree: &mut Tree, asked: Asked) {
    tree.entries.push(Entry { parent: Some(0), body: asked.body() });
}

/// The same desk by other connections: sources unsorted and named twice, targets in another order or left out, in parts.
fn connections_otherwise(random: &mut Random, desk: &Desk, tree: &mut Tree) {
    tree.entries.truncate(1);
    let mut rows: Vec<(u64, Vec<u64>)> = desk.rows.iter().enumerate().map(|(target, row)| (target as u64, row.clone())).collect();
    if random.one_in(2) {
        random.shuffle(&mut rows);
    }
    for (target, mut row) in rows {
        if row.is_empty() && random.one_in(2) {
            continue;
        }
        random.shuffle(&mut row);
        match random.below(4) {
            0 if !row.is_empty() => {
                let (first, last) = row.split_at(random.below(row.len() + 1));
                connect(tree, ask(target, first, 0));
                connect(tree, ask(target, last, 1));
                if random.one_in(3) {
                    connect(tree, ask(target, first, 2));
                    connect(tree, ask(target, first, 1));
                }
            }
            1 => {
                if !row.is_empty() {
                    let again = random.pick(&row);
                    row.push(again);
                }
                connect(tree, Asked { target, sources: Some(row), operation: random.pick(&[None, Some(0), Some(1)]) });
            }
            _ => connect(tree, Asked { target, sources: if row.is_empty() { None } else { Some(row) }, operation: None }),
        }
    }
    if random.one_in(3) {
        let asked = asked(random, desk);
        connect(tree, asked);
    }
    tree.entries.truncate(TABLE_MAX);
}

/// What a sheet may also say (S6).
fn contents_otherwise(random: &mut Random, tree: &mut Tree) {
    let contents = contents(tree);
    match random.below(4) {
        0 => contents.identifier = Some(b"router".to_vec()),
        1 => contents.description = Some(b"".to_vec()),
        2 => contents.mode = Some(0),
        _ => {
            contents.kind = None;
            contents.identifier = Some(b"_".to_vec());
        }
    }
}

fn figures_out_of_range(random: &mut Random, tree: &mut Tree) {
    let contents = contents(tree);
    match random.below(6) {
        0 => contents.kind = random.pick(&[None, Some(0), Some(1), Some(2), Some(3)]),
        1 => contents.mode = Some(1),
        2 => contents.targets = random.pick(&[None, Some(0), Some(1), Some(64), Some(65), Some(2_147_483_647)]),
        3 => contents.sources = random.pick(&[None, Some(0), Some(1), Some(64), Some(65), Some(2_147_483_647)]),
        4 => contents.total_limit = random.pick(&[None, Some(0), Some(1), Some(3)]),
        _ => contents.target_limit = random.pick(&[None, Some(0), Some(1), Some(3)]),
    }
}

fn connection_refused(random: &mut Random, desk: &Desk, tree: &mut Tree) {
    let all: Vec<u64> = (0..desk.sources as u64).collect();
    let target = random.below(desk.targets as usize) as u64;
    let asked = match random.below(4) {
        0 => ask(desk.targets as u64 + random.below(2) as u64, &[], 0),
        1 => ask(target, &[desk.sources as u64 + random.below(2) as u64], random.below(3) as i64),
        2 => ask(target, &all, random.below(2) as i64),
        _ => {
            // Every target, until there are too many.
            for target in 0..desk.targets as u64 {
                let sources: Vec<u64> = all.iter().copied().take(desk.target_limit.unwrap_or(desk.sources) as usize).collect();
                connect(tree, ask(target, &sources, 1));
            }
            asked(random, desk)
        }
    };
    connect(tree, asked);
    if random.one_in(3) {
        let last = tree.entries.pop().unwrap();
        let at = random.range(1, tree.entries.len());
        tree.entries.insert(at, last);
    }
}

fn other_elements(random: &mut Random, tree: &mut Tree) {
    let key = Key::Number(random.range(1, 9) as i64);
    let body = match random.below(4) {
        0 => Body::Command { number: 32, mask: None },
        1 => Body::Node(key, NodeContents::default()),
        2 => Body::Parameter(key, ParameterContents::default()),
        _ => tree.entries[0].body.clone(),
    };
    match random.below(6) {
        0 => tree.entries.push(Entry { parent: None, body }),
        1 => {
            // Before it.
            for entry in &mut tree.entries {
                entry.parent = entry.parent.map(|parent| parent + 1);
            }
            tree.entries.insert(0, Entry { parent: None, body });
        }
        2 => {
            // In it.
            let body = if matches!(body, Body::Matrix(..)) { Body::Command { number: 1, mask: Some(-1) } } else { body };
            tree.entries.insert(1, Entry { parent: Some(0), body });
        }
        3 => {
            // Not qualified.
            if let Body::Matrix(key, _) = &mut tree.entries[0].body {
                *key = Key::Number(3);
            }
        }
        4 => *tree = Tree { kind: random.pick(&[RootKind::Elements, RootKind::Streams]), entries: Vec::new() },
        _ => *tree = tree::tree(random, 6),
    }
}

/// The frames of a message in packets of up to that size.
fn packets(random: &mut Random, message: &[u8], size: usize) -> Vec<Vec<u8>> {
    let mut pieces: Vec<&[u8]> = message.chunks(size).collect();
    while pieces.is_empty() || random.one_in(6) {
        let at = random.below(pieces.len() + 1);
        pieces.insert(at, &[]);
    }
    let mut out = Vec::new();
    for (index, piece) in pieces.iter().enumerate() {
        let marks = if index == 0 { 0x80 } else { 0 } | if index + 1 == pieces.len() { 0x40 } else { 0 };
        let empty = if piece.is_empty() { 0x20 } else { 0 };
        let minor = if random.one_in(2) { random.byte() } else { 0x14 };
        out.push(write_frame(&packet(marks | empty, minor, piece)).unwrap());
    }
    out
}

/// A member out of its range, which the tree reader finds.
fn member_out_of_range(random: &mut Random, tree: &mut Tree) {
    match random.below(6) {
        0 => contents(tree).identifier = Some(random.pick(&["", "1a", "a/b", "/"]).as_bytes().to_vec()),
        1 => contents(tree).kind = random.pick(&[Some(-1), Some(3)]),
        2 => contents(tree).mode = random.pick(&[Some(-1), Some(2)]),
        3 => contents(tree).targets = random.pick(&[Some(-1), Some(2_147_483_648)]),
        4 => {
            let wrong = random.pick(&[-1, 2_147_483_648]);
            let operation = random.pick(&[-1, 3]);
            let (target, operation) = random.pick(&[(wrong, None), (0, Some(operation))]);
            let body = Body::Connection { target, sources: None, operation };
            tree.entries.push(Entry { parent: Some(0), body });
        }
        _ => {
            let path = random.pick(&[vec![], vec![0], vec![1; 17], vec![1, 0]]);
            if let Body::Matrix(key, _) = &mut tree.entries[0].body {
                *key = Key::Path(path);
            }
        }
    }
}

/// A sheet of that kind.
pub fn of_kind(random: &mut Random, kind: usize) -> Vec<u8> {
    let desk = used_desk(random);
    let mut kinds = vec![kind];
    if kind == SEVERAL {
        kinds = (0..random.range(2, 4)).map(|_| random.range(1, SEVERAL - 1)).collect();
    }
    let does = |kind: &str| kinds.contains(&KINDS.iter().position(|name| *name == kind).unwrap());
    if kind == NOISE {
        return noise(random);
    }
    let mut tree = sheet::tree_of(&desk);
    let mut changed = 0;
    if does("connections otherwise") {
        connections_otherwise(random, &desk, &mut tree);
    }
    if does("contents otherwise") {
        contents_otherwise(random, &mut tree);
    }
    if does("figures") {
        figures_out_of_range(random, &mut tree);
    }
    if does("connection refused") {
        connection_refused(random, &desk, &mut tree);
    }
    if does("many entries") {
        let count = TABLE_MAX + random.below(3) - 1;
        while tree.entries.len() < count {
            connect(&mut tree, Asked { target: 0, sources: None, operation: Some(1) });
        }
    }
    if does("changed message") && random.one_in(3) {
        member_out_of_range(random, &mut tree);
    } else if does("changed message") {
        changed = random.range(1, 5);
    }
    if does("other elements") {
        other_elements(random, &mut tree);
    }
    let style = if does("spelt otherwise") { Style::draw(random) } else { Style::PLAIN };
    let mut message = spell(random, style, &tree);
    message = match changed {
        1 => spell_changed(random, style, &tree),
        2 => message[..random.below(message.len() + 1)].to_vec(),
        3 => {
            mutate_bytes(random, &mut message);
            message
        }
        4 => {
            let number = random.range(30, 37) as u8;
            rules::refused(random, number)
        }
        5 => tree::message(random).0,
        _ => message,
    };
    message.truncate(MESSAGE_MAX);
    let otherwise = does("packets otherwise");
    let size = if otherwise { random.pick(&[PAYLOAD_MAX, 500, 100, 31]).max(message.len() / 60 + 1) } else { PAYLOAD_MAX };
    let mut frames = if otherwise { packets(random, &message, size) } else { framing::write_message(&message).unwrap() };
    if does("unfinished message before") {
        let other = packets(random, &message, 50);
        let count = random.below(other.len());
        frames.splice(0..0, other.into_iter().take(count.min(4)));
    }
    if does("not one message") {
        match random.below(5) {
            0 => frames.clear(),
            1 => frames = vec![write_keep_alive(false); random.range(1, 3)],
            2 => frames.extend(frames.clone()),
            3 => frames.extend(framing::write_message(&[]).unwrap()),
            _ => frames.insert(0, write_frame(&packet(0xC0, 0x14, &[0x60])).unwrap()),
        }
    }
    if does("open at the end") {
        match random.below(6) {
            0 => frames.push(vec![0xFE]),
            1 | 2 => frames.push(open_frame(random)),
            3 => frames.push(write_frame(&packet(0xA0, 0x14, &[])).unwrap()),
            4 => frames.push(write_frame(&packet(0x80, 0x14, &[0x60])).unwrap()),
            _ => {
                frames.pop();
            }
        }
    }
    if does("fault in the stream") {
        let at = random.below(frames.len() + 1);
        match random.below(4) {
            0 if at < frames.len() => mutate_bytes(random, &mut frames[at]),
            1 if at < frames.len() && frames.len() > 1 => {
                frames.remove(at);
            }
            _ => frames.insert(at, frames::fault(random, 4)),
        }
    }
    if random.one_in(6) {
        let at = random.below(frames.len() + 1);
        frames.insert(at, write_keep_alive(random.one_in(2)));
    }
    lines_of(random, &frames, otherwise, does("bad line"))
}

/// A frame that is not ended: with content, up to the most and one more, after CE, past a fault.
fn open_frame(random: &mut Random) -> Vec<u8> {
    let length = random.pick(&[0, 1, 2, 3, 6, 100, 1_023, 1_024, 1_025]);
    let mut frame = [vec![0xFE], vec![0x11; length]].concat();
    frame.extend(random.pick(&[vec![], vec![], vec![0xFD], vec![0xF8], vec![0xFD, 0x00], vec![0xFC, 0x00, 0x11]]));
    frame
}

/// The frames as lines.
fn lines_of(random: &mut Random, frames: &[Vec<u8>], otherwise: bool, bad: bool) -> Vec<u8> {
    let mut text = if otherwise && random.one_in(2) {
        let stream = frames.concat();
        // As chunks, but not as one byte a line for the long ones.
        if stream.len() < 4_000 {
            chunked(random, &stream)
        } else {
            digits(&stream).to_lowercase() + "\n"
        }
    } else {
        frames.iter().map(|frame| digits(frame) + "\n").collect()
    };
    if otherwise && random.one_in(3) {
        text = text.to_lowercase();
    }
    let mut text = text.into_bytes();
    if bad {
        let starts: Vec<usize> =
            std::iter::once(0).chain(text.iter().enumerate().filter(|(_, &byte)| byte == b'\n').map(|(at, _)| at + 1)).collect();
        let at = random.pick(&starts);
        match random.below(4) {
            0 if at > 0 => text.insert(at - 1, b'\r'),
            1 if at > 0 => {
                // One digit of a pair is missing.
                text.remove(at - 1 - random.below(2).min(at - 1));
            }
            _ => {
                let line = [bad_hex_line(random), b"\n".to_vec()].concat();
                text.splice(at..at, line);
            }
        }
    }
    if otherwise && random.one_in(3) && text.last() == Some(&b'\n') {
        text.pop();
    }
    text
}

fn noise(random: &mut Random) -> Vec<u8> {
    match random.below(6) {
        0 => Vec::new(),
        1 => b"\n".to_vec(),
        2 => {
            let length = random.below(40);
            let bytes = random.bytes(length);
            chunked(random, &bytes).into_bytes()
        }
        3 => random.bytes(20),
        4 if random.one_in(60) => {
            // As long as the program reads, and longer: a frame that goes on, or one line.
            let length = SHEET_MAX + random.below(3) - 1;
            let line = random.pick(&[16, 64, 1 << 21]);
            let mut text: Vec<u8> = (0..length).map(|at| if at % line == line - 1 { b'\n' } else { b'0' }).collect();
            text[..2].copy_from_slice(b"FE");
            text
        }
        _ => b"FE000E010194E4FF\n".repeat(random.range(1, 4)),
    }
}

/// How often each kind is drawn.
const WEIGHTS: [usize; 40] = [
    0, 1, 1, 2, 3, 3, 4, 4, 5, 6, 6, 7, 7, 7, 7, 7, 7, 8, 8, 9, 9, 10, 10, 11, 11, 11, 11, 11, 11, 12, 13, 13, 14, 14, 14, 14,
    15, 15, 15, 16,
];

/// A sheet and the index of its kind.
pub fn input(seed: u64) -> (Vec<u8>, usize) {
    let mut random = Random::new(seed);
    let kind = random.pick(&WEIGHTS);
    (of_kind(&mut random, kind), kind)
}

/// The stored sheet: a right one that is not as we write it. An N:N desk of 48 targets and 40 sources with both limits; its
/// connections in several steps, unsorted and twice, in packets of another size, with keep-alives between, in lines that
/// are no frames, in both cases.
pub fn stored() -> Vec<u8> {
    let mut random = Random::new(601);
    let random = &mut random;
    let figures = Figures {
        path: vec![1, 300, 2_147_483_647],
        kind: Some(N_TO_N),
        mode: None,
        targets: Some(48),
        sources: Some(40),
        total_limit: Some(600),
        target_limit: Some(20),
    };
    let mut desk = crate::desk::open(&figures).unwrap();
    for target in 0..48 {
        let count = random.below(21);
        let sources: Vec<u64> = (0..count).map(|_| random.below(40) as u64).collect();
        if target % 7 != 3 {
            desk.request(&figures.path, target, &sources, 0);
        }
    }
    let mut tree = sheet::tree_of(&desk);
    contents(&mut tree).identifier = Some(b"studio".to_vec());
    contents(&mut tree).description = Some("Bücher".as_bytes().to_vec());
    contents(&mut tree).mode = Some(0);
    tree.entries.truncate(1);
    for (target, row) in desk.rows.iter().enumerate().rev() {
        let mut row = row.clone();
        random.shuffle(&mut row);
        let (first, last) = row.split_at(row.len() / 2);
        let target = target as u64;
        if target % 7 == 3 {
            continue;
        }
        match target % 3 {
            0 => connect(&mut tree, Asked { target, sources: Some(row), operation: None }),
            1 => {
                connect(&mut tree, ask(target, first, 0));
                connect(&mut tree, ask(target, &[last, last].concat(), 1));
            }
            _ => {
                connect(&mut tree, ask(target, &[first, &[39]].concat(), 0));
                connect(&mut tree, ask(target, &[39], 2));
                connect(&mut tree, ask(target, &row, 1));
            }
        }
    }
    let message = tree_writer::write(&tree).unwrap();
    let mut lines = String::new();
    for (index, payload) in message.chunks(400).enumerate() {
        let marks = if index == 0 { 0x80 } else { 0 } | if 400 * (index + 1) >= message.len() { 0x40 } else { 0 };
        let frame = digits(&write_frame(&packet(marks, 0x14, payload)).unwrap());
        let (half, rest) = frame.split_at(100);
        lines += &match index % 3 {
            0 => format!("{frame}\n"),
            1 => format!("{}\n{rest}{}\n", half.to_lowercase(), digits(&write_keep_alive(false))),
            _ => format!("{half}\n{}\n", rest.to_lowercase()),
        };
        lines += &format!("{}\n", digits(&write_keep_alive(index % 2 == 1)));
    }
    lines.into_bytes()
}

/// Sheets by name, each refused at its very end, or with its fault last in a long list: examples/sheets/ends.
pub fn ends() -> Vec<(String, Vec<u8>)> {
    let figures = Figures {
        path: vec![1, 5],
        kind: Some(N_TO_N),
        mode: None,
        targets: Some(20),
        sources: Some(6),
        total_limit: Some(21),
        target_limit: Some(2),
    };
    let mut desk = crate::desk::open(&figures).unwrap();
    for target in 0..20 {
        desk.request(&figures.path, target, &[target as u64 % 6], 0);
    }
    let tree = sheet::tree_of(&desk);
    let text = |tree: &Tree| -> String {
        let message = tree_writer::write(tree).unwrap();
        framing::write_message(&message).unwrap().iter().map(|frame| digits(frame) + "\n").collect()
    };
    let right = text(&tree);
    let piece = |marks: u8, payload: &[u8]| digits(&write_frame(&packet(marks, 0x14, payload)).unwrap()) + "\n";
    let alive = digits(&write_keep_alive(false)) + "\n";
    let mut list: Vec<(String, Vec<u8>)> = Vec::new();
    let mut add = |name: &str, sheet: String| list.push((name.to_string(), sheet.into_bytes()));
    add("right", right.clone());
    // "nothing is open at the end"
    for (name, frame) in [
        ("bof", "FE".to_string()),
        ("content-1", "FE00".to_string()),
        ("content-2", "FE000E".to_string()),
        ("content-6", "FE000E010194E4".to_string()),
        ("content-1024", format!("FE{}", "00".repeat(1_024))),
        ("content-1025", format!("FE{}", "00".repeat(1_025))),
        ("ce", "FEFD".to_string()),
        ("ce-after-content", "FE000E010194FD".to_string()),
        ("escaped", "FE00FDD8".to_string()),
        ("fault", "FEF8".to_string()),
        ("fault-after-content", "FE000EFC".to_string()),
        ("past-a-fault", "FE00FB0E01".to_string()),
        ("fault-after-ce", "FEFD00".to_string()),
        ("past-a-fault-after-ce", "FE00FDE00E".to_string()),
    ] {
        add(&format!("open-{name}"), format!("{right}{frame}\n"));
        add(&format!("open-{name}-alone"), format!("{frame}\n"));
        add(&format!("open-{name}-no-line-end"), format!("{right}{frame}"));
    }
    add("open-message", right.clone() + &piece(0x80, &[0x60]));
    add("open-message-empty", right.clone() + &piece(0xA0, &[]));
    add("open-message-then-alive", right.clone() + &piece(0xA0, &[]) + &alive);
    add("open-message-alone", piece(0x80, &[0x60]));
    // "exactly one message is finished"
    add("one-after-many-alive", alive.repeat(40) + &right + &alive.repeat(40));
    add("two", right.repeat(2));
    add("three", right.repeat(3));
    add("none-of-many-alive", alive.repeat(40));
    add("empty-message-last", right.clone() + &piece(0xE0, &[]));
    add("empty-message-first", piece(0xE0, &[]) + &right);
    // "12 for any bad line, the first event from 10 up", each after many lines.
    let many = right.clone() + &alive.repeat(40);
    for (name, line) in [("empty", ""), ("half", "FEF"), ("space", "FE "), ("letter", "FG"), ("return", "FEFF\r"), ("odd", "0")] {
        add(&format!("bad-line-last-{name}"), format!("{many}{line}\n"));
        add(&format!("bad-line-before-an-event-{name}"), format!("00\n{many}{line}\n"));
    }
    for (name, frame) in [
        ("10", "00".to_string()),
        ("11", "FE00FE".to_string()),
        ("12", "FEF8FF".to_string()),
        ("13", format!("FE{}FF", "00".repeat(1_025))),
        ("14", "FEFDFF".to_string()),
        ("15", "FEFF".to_string()),
        ("16", "FE000E010194E5FF".to_string()),
        ("20", digits(&write_frame(&[0x00, 0x0E, 0x01, 0x02]).unwrap())),
        ("21", digits(&write_frame(&packet(0xC1, 0x14, &[0x60])).unwrap())),
        ("22", digits(&write_frame(&[0x00, 0x0E, 0x00, 0x01, 0xC0, 0x02, 0x02, 0x14, 0x02, 0x60]).unwrap())),
        ("23", digits(&write_frame(&packet(0x40, 0x14, &[0x60])).unwrap())),
    ] {
        add(&format!("event-last-{name}"), format!("{many}{frame}\n"));
        add(&format!("event-then-stray-{name}"), format!("{frame}\n00\n{many}"));
    }
    // "one qualified matrix and its connections alone": another element last.
    for (name, parent, body) in [
        ("command", None, Body::Command { number: 32, mask: None }),
        ("node", None, Body::Node(Key::Number(1), NodeContents::default())),
        ("parameter", None, Body::Parameter(Key::Path(vec![1]), ParameterContents::default())),
        ("matrix", None, tree.entries[0].body.clone()),
        ("matrix-by-number", None, Body::Matrix(Key::Number(1), Default::default())),
    ] {
        let mut other = tree.clone();
        other.entries.push(Entry { parent, body });
        add(&format!("element-last-{name}"), text(&other));
    }
    let mut other = tree.clone();
    other.entries.insert(1, Entry { parent: Some(0), body: Body::Command { number: 32, mask: None } });
    add("element-first-command", text(&other));
    let mut other = tree.clone();
    other.entries.push(Entry { parent: None, body: tree.entries[0].body.clone() });
    other.entries.push(Entry { parent: Some(21), body: ask(0, &[], 0).body() });
    add("two-matrices-with-connections", text(&other));
    // "the desk's": the last connection refused, and which refusal where there are two.
    for (name, asked) in [
        ("41", ask(20, &[0], 0)),
        ("42", ask(0, &[6], 0)),
        ("43", ask(0, &[0, 1, 2], 0)),
        ("41-before-42", ask(20, &[6], 0)),
        ("42-before-43", ask(0, &[0, 1, 2, 6], 0)),
        ("42-before-43-connect", ask(0, &[1, 2, 3, 6], 1)),
        ("42-disconnect", ask(0, &[1, 2, 3, 6], 2)),
        ("disconnect", ask(0, &[1, 2, 3, 5, 0, 1], 2)),
        ("one-more", ask(0, &[0, 1], 0)),
    ] {
        let mut other = tree.clone();
        connect(&mut other, asked);
        add(&format!("last-{name}"), text(&other));
    }
    for (name, asked) in [("44", ask(1, &[1, 2], 0)), ("44-connect", ask(1, &[2], 1)), ("43-before-44", ask(1, &[1, 2, 3], 0))] {
        let mut other = tree.clone();
        connect(&mut other, ask(0, &[0, 1], 0));
        connect(&mut other, asked);
        add(&format!("last-{name}"), text(&other));
    }
    list
}

/// NAME INPUT OUTPUT, in hexadecimal digits.
pub fn stored_ends() -> Vec<u8> {
    let line = |(name, sheet): (String, Vec<u8>)| {
        let said = crate::programs::sheets(&sheet);
        format!("{name} {} {}\n", crate::lines::hex(&sheet).to_lowercase(), digits(said.as_bytes()).to_lowercase())
    };
    ends().into_iter().map(line).collect::<String>().into_bytes()
}

#[cfg(test)]
mod tests {
    use super::*;
    use crate::programs::sheets;

    /// What each of the ends says, by its name.
    #[test]
    fn ends_say_what_they_are_named() {
        for (name, sheet) in ends() {
            let said = sheets(&sheet);
            let number = said.lines().next().unwrap();
            let wanted = match name.as_str() {
                "right" | "one-after-many-alive" | "last-disconnect" | "last-one-more" => "0",
                name if name.starts_with("bad-line") => "12",
                name if name.starts_with("event-") => name.rsplit('-').next().unwrap(),
                name if name.starts_with("last-") => &name[5..7],
                _ => "33",
            };
            assert_eq!(number, wanted, "{name}");
        }
    }

    #[test]
    fn stored_sheet_is_right() {
        let text = stored();
        let said = sheets(&text);
        let written = said.strip_prefix("0\n").expect("a right sheet");
        assert!(written.lines().count() > 1, "{written}");
        let desk = sheet::read(&text).unwrap();
        assert_eq!(desk.total_limit, Some(600));
        assert!(desk.rows.iter().any(|row| row.is_empty()) && desk.rows.iter().any(|row| row.len() > 6));
        assert!(desk.rows.concat().len() > 300);
    }

    #[test]
    fn each_kind_has_its_answers() {
        let expected: [(&str, &[u8]); 12] = [
            ("as written", &[0]),
            ("connections otherwise", &[0, 41, 42, 43, 44]),
            ("contents otherwise", &[0]),
            ("spelt otherwise", &[0]),
            ("packets otherwise", &[0]),
            ("unfinished message before", &[0]),
            ("bad line", &[12]),
            ("not one message", &[33]),
            ("open at the end", &[33]),
            ("other elements", &[33]),
            ("figures", &[0, 41, 42, 43, 44, 45]),
            ("connection refused", &[41, 42, 43, 44]),
        ];
        for (name, answers) in expected {
            let kind = KINDS.iter().position(|kind| *kind == name).unwrap();
            let mut random = Random::new(71);
            let mut seen = [0usize; 64];
            for _ in 0..300 {
                let number = sheet::read(&of_kind(&mut random, kind)).map_or_else(|number| number, |_| 0);
                seen[usize::from(number)] += 1;
            }
            let most: usize = answers.iter().map(|&number| seen[usize::from(number)]).sum();
            assert!(most > 250, "{name}: {seen:?}");
            assert!(answers.iter().all(|&number| seen[usize::from(number)] > 0), "{name}: {seen:?}");
        }
    }

    #[test]
    fn sheets_reach_every_number() {
        let mut seen = [0usize; 64];
        for seed in 0..12_000 {
            let number = sheet::read(&input(seed).0).map_or_else(|number| number, |_| 0);
            seen[usize::from(number)] += 1;
        }
        // 40 cannot come: the desk has the path of the one matrix.
        let numbers = [0, 10, 11, 12, 13, 14, 15, 16, 20, 21, 22, 23, 24, 30, 31, 32, 33, 34, 35, 36, 37, 38, 41, 42, 43, 44, 45];
        for number in numbers {
            assert!(seen[number] > 0, "{number}: {seen:?}");
        }
        assert_eq!(seen[40], 0);
    }
}
