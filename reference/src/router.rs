//! What the C examples `examples/router` and `examples/plugin` must write.

use crate::desk::{self, Desk, Figures, ABSOLUTE, CONNECT, DISCONNECT, MATRIX, N_TO_N, TARGET};
use crate::framing::{self, Session, STORE_LENGTH};
use crate::gen::Random;
use crate::tree::{self, Answer, Body, Entry, Key, MatrixContents, NodeContents, RootKind, Tree, TABLE_MAX};
use crate::tree_writer;

/// The desk of `router 2 8 10 1.2`.
fn opened() -> Desk {
    let figures = Figures { path: vec![1, 2], kind: Some(N_TO_N), targets: Some(8), sources: Some(10), ..Default::default() };
    desk::open(&figures).unwrap()
}

fn frames(tree: &Tree) -> Vec<u8> {
    framing::write_message(&tree_writer::write(tree).unwrap()).unwrap().concat()
}

fn connection(target: i64, sources: &[u64], operation: i64) -> Body {
    let sources = if sources.is_empty() { None } else { Some(sources.to_vec()) };
    Body::Connection { target, sources, operation: if operation == ABSOLUTE { None } else { Some(operation) } }
}

/// The qualified matrix at a path, with connections.
fn qualified(path: &[u64], connections: Vec<Body>) -> Tree {
    let mut entries = vec![Entry { parent: None, body: Body::Matrix(Key::Path(path.to_vec()), MatrixContents::default()) }];
    entries.extend(connections.into_iter().map(|body| Entry { parent: Some(0), body }));
    Tree { kind: RootKind::Elements, entries }
}

/// The matrix 2 in the node 1, as a device announces it.
fn announced(connections: Vec<Body>) -> Tree {
    let node = NodeContents { identifier: Some(b"device".to_vec()), ..Default::default() };
    let matrix = MatrixContents {
        identifier: Some(b"matrix".to_vec()),
        kind: Some(N_TO_N),
        targets: Some(8),
        sources: Some(10),
        ..Default::default()
    };
    let mut entries = vec![
        Entry { parent: None, body: Body::Node(Key::Number(1), node) },
        Entry { parent: Some(0), body: Body::Matrix(Key::Number(2), matrix) },
    ];
    entries.extend(connections.into_iter().map(|body| Entry { parent: Some(1), body }));
    Tree { kind: RootKind::Elements, entries }
}

/// A stream with every answer of the example in it: keep-alives, connections of either form of the matrix, of another one, refused
/// ones, a target named twice, refused frames and refused trees.
pub fn stream() -> Vec<u8> {
    let random = &mut Random::new(8);
    let mut stream = framing::write_keep_alive(false);
    let first =
        qualified(&[1, 2], vec![connection(5, &[1, 2], CONNECT), connection(0, &[3], ABSOLUTE), connection(5, &[9], CONNECT)]);
    stream.extend(frames(&first));
    stream.extend(frames(&announced(vec![
        connection(7, &[0, 1, 2, 3, 4, 5, 6, 7, 8, 9], ABSOLUTE),
        connection(8, &[0], ABSOLUTE),
    ])));
    stream.extend(frames(&qualified(&[1, 3], vec![connection(1, &[1], CONNECT)])));
    stream.extend(frames(&qualified(&[1, 2], vec![connection(6, &[10], CONNECT), connection(0, &[3], DISCONNECT)])));
    stream.extend(frames(&qualified(&[1, 2], Vec::new())));
    stream.extend(framing::write_keep_alive(true));
    stream.extend([0x00, 0xFE, 0x00, 0xFE]);
    stream.extend(
        framing::write_message(&[0x60, 0x0B, 0x6B, 0x09, 0xA0, 0x07, 0x63, 0x05, 0xA0, 0x03, 0x02, 0x01, 0x00]).unwrap().concat(),
    );
    stream.extend(framing::write_keep_alive(false));
    for _ in 0..40 {
        let path = if random.one_in(9) { [1, 1] } else { [1, 2] };
        let connections = (0..random.range(0, 6))
            .map(|_| {
                let most = random.pick(&[10, 10, 10, 12]);
                let sources: Vec<u64> = (0..random.range(0, 4)).map(|_| random.below(most) as u64).collect();
                connection(random.below(9) as i64, &sources, random.pick(&[ABSOLUTE, CONNECT, CONNECT, DISCONNECT]))
            })
            .collect();
        let mut bytes = frames(&qualified(&path, connections));
        if random.one_in(8) {
            let at = random.below(bytes.len());
            bytes[at] ^= 1 << random.below(8);
        }
        stream.extend(bytes);
    }
    stream
}

/// What `router 2 8 10 1.2` writes to standard output and to standard error.
pub fn router(stream: &[u8]) -> (Vec<u8>, String) {
    let (mut session, mut store, mut offset) = (Session::start(), vec![0; STORE_LENGTH], 0);
    let (mut desk, mut out, mut text) = (opened(), Vec::new(), String::new());
    for (_, event) in framing::run(&mut session, &mut store, stream, &mut offset) {
        if event.number == 4 {
            out.extend(framing::write_keep_alive(true));
        }
        if event.number >= 10 {
            text += &format!("event {}\n", event.number);
        }
        let Some(message) = event.message else { continue };
        match tree::read(&message, TABLE_MAX) {
            Answer::Tree(tree) => out.extend(answer(&mut desk, &tree, &mut text)),
            Answer::Refused(refusal) => text += &format!("tree {} at {}\n", refusal.number, refusal.place),
            other => text += &format!("tree {} at 0\n", other.number()),
        }
    }
    for (target, row) in desk.rows.iter().enumerate() {
        let cells: String = (0..desk.sources as u64).map(|source| if row.contains(&source) { '#' } else { '.' }).collect();
        text += &format!("{target:2} {cells}\n");
    }
    (out, text)
}

fn answer(desk: &mut Desk, tree: &Tree, text: &mut String) -> Vec<u8> {
    let answers = desk.call(tree).unwrap();
    let mut named: Vec<i64> = Vec::new();
    let targets = tree.entries.iter().filter_map(|entry| match &entry.body {
        Body::Connection { target, .. } => Some(*target),
        _ => None,
    });
    for (place, (target, number)) in targets.zip(answers).enumerate() {
        if number != 0 {
            *text += &format!("connection {}: {number}\n", place + 1);
        }
        if number != MATRIX && number != TARGET && !named.contains(&target) {
            named.push(target);
        }
    }
    if named.is_empty() {
        return Vec::new();
    }
    let now = named.iter().map(|&target| connection(target, &desk.rows[target as usize], ABSOLUTE)).collect();
    frames(&qualified(&desk.path, now))
}

/// What `plugin 5 9` is offered (a keep-alive, the announcement, what another asked for, and the router's answer), what it writes, and what
/// it says.
pub fn plugin() -> (Vec<u8>, Vec<u8>, String) {
    let request = frames(&qualified(&[1, 2], vec![connection(5, &[9], CONNECT)]));
    let mut stream = framing::write_keep_alive(false);
    stream.extend(frames(&announced(vec![connection(5, &[1], ABSOLUTE)])));
    stream.extend(frames(&qualified(&[1, 2], vec![connection(4, &[9], ABSOLUTE)])));
    stream.extend(frames(&qualified(&[1, 3], vec![connection(5, &[9], ABSOLUTE)])));
    stream.extend(router(&request).0);
    (stream, request, "matrix 1.2 \"matrix\": 8 targets, 10 sources\ntarget 5: sources 9\n".to_string())
}

#[cfg(test)]
mod tests {
    use super::*;

    #[test]
    fn every_answer_is_there() {
        let (out, text) = router(&stream());
        for line in
            ["event 10", "event 11", "event 16", "tree 34 at 10", "connection 1: 40", "connection 1: 42", "connection 2: 41"]
        {
            assert!(text.lines().any(|found| found == line), "{line}: {text}");
        }
        // What is answered is read, and says what the desk holds: served to a fresh router it makes the same picture for the targets it names.
        let (_, again) = router(&out);
        assert!(
            again.lines().all(|line| !line.starts_with("tree") && !line.starts_with("connection") && !line.starts_with("event")),
            "{again}"
        );
        assert_eq!(text.lines().rev().take(8).collect::<Vec<_>>(), again.lines().rev().take(8).collect::<Vec<_>>());
    }
}
