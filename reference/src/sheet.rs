//! Route sheets (document 01, "Desk", second part).

use crate::desk::{self, Desk, Figures};
use crate::framing::{self, Session, BYTE, MESSAGE, SETUP, STORE_LENGTH, STRAY};
use crate::lines::{digits, hex_line, lines};
use crate::tree::{self, Answer, Body, Entry, Key, MatrixContents, RootKind, Tree, TABLE_MAX};
use crate::tree_writer;
use crate::values::GLOW;

/// "one message holding the qualified matrix with type, counts and limits, every target and its sources
/// ascending, operation and empty lists left out"
pub fn tree_of(desk: &Desk) -> Tree {
    let contents = MatrixContents {
        kind: Some(desk.kind),
        targets: Some(desk.targets),
        sources: Some(desk.sources),
        total_limit: desk.total_limit,
        target_limit: desk.target_limit,
        ..Default::default()
    };
    let mut entries = vec![Entry { parent: None, body: Body::Matrix(Key::Path(desk.path.clone()), contents) }];
    for (target, row) in desk.rows.iter().enumerate() {
        let sources = if row.is_empty() { None } else { Some(row.clone()) };
        let body = Body::Connection { target: target as i64, sources, operation: None };
        entries.push(Entry { parent: Some(0), body });
    }
    Tree { kind: RootKind::Elements, entries }
}

/// "written as upper-case hexadecimal lines, one frame and 0A a line"; 1 for a desk that is not legal.
pub fn write(desk: &Desk) -> Result<String, u8> {
    if !desk.legal() {
        return Err(SETUP);
    }
    let message = tree_writer::write(&tree_of(desk))?;
    let mut out = String::new();
    for frame in framing::write_message(&message)? {
        out += &digits(&frame);
        out += "\n";
    }
    Ok(out)
}

/// "The first refusal in this order ends it, with no desk".
pub fn read(sheet: &[u8]) -> Result<Desk, u8> {
    // "12 for any bad line"
    let mut chunks = Vec::new();
    for line in lines(sheet) {
        let (chunk, bad) = hex_line(line);
        if bad {
            return Err(BYTE);
        }
        chunks.push(chunk);
    }
    // "the first event from 10 up"
    let mut session = Session::start();
    let mut store = vec![0; STORE_LENGTH];
    let mut offset = 0;
    let mut messages = Vec::new();
    for chunk in chunks {
        for (_, event) in framing::run(&mut session, &mut store, &chunk, &mut offset) {
            if event.number >= STRAY {
                return Err(event.number);
            }
            if event.number == MESSAGE {
                messages.extend(event.message);
            }
        }
    }
    // "33 unless exactly one message is finished and nothing is open at the end"
    if messages.len() != 1 || session.in_frame() || session.message.is_some() {
        return Err(GLOW);
    }
    // "the tree's"
    let tree = match tree::read(&messages[0], TABLE_MAX) {
        Answer::Tree(tree) => tree,
        other => return Err(other.number()),
    };
    // "33 unless it is one qualified matrix and its connections alone"
    let alone = tree.entries.iter().skip(1).all(|entry| matches!(entry.body, Body::Connection { .. }));
    let (Some(Body::Matrix(Key::Path(path), contents)), true) = (tree.entries.first().map(|entry| &entry.body), alone) else {
        return Err(GLOW);
    };
    // "the desk's": 45 first, then the first connection refused.
    let mut desk = desk::open(&Figures {
        path: path.clone(),
        kind: contents.kind,
        mode: contents.mode,
        targets: contents.targets,
        sources: contents.sources,
        total_limit: contents.total_limit,
        target_limit: contents.target_limit,
    })?;
    match desk.call(&tree)?.into_iter().find(|&answer| answer != 0) {
        Some(answer) => Err(answer),
        None => Ok(desk),
    }
}

#[cfg(test)]
mod tests {
    use super::*;
    use crate::desk::{ABSOLUTE, DESK, N_TO_N, SOURCE};

    fn sample() -> Desk {
        let figures = Figures {
            path: vec![1, 2],
            kind: Some(N_TO_N),
            targets: Some(64),
            sources: Some(64),
            target_limit: Some(64),
            ..Default::default()
        };
        let mut desk = desk::open(&figures).unwrap();
        for target in 0..64 {
            let sources: Vec<u64> = (0..target).collect();
            assert_eq!(desk.request(&[1, 2], target as i64, &sources, ABSOLUTE), 0);
        }
        desk
    }

    #[test]
    fn written_sheets_are_read() {
        let desk = sample();
        let sheet = write(&desk).unwrap();
        assert!(sheet.lines().count() > 2);
        assert_eq!(read(sheet.as_bytes()), Ok(desk));
        assert_eq!(read(sheet.trim_end().as_bytes()), Ok(sample()));
    }

    #[test]
    fn refusals_in_order() {
        let sheet = write(&sample()).unwrap();
        assert_eq!(read(b""), Err(GLOW));
        assert_eq!(read(format!("{sheet}\n").as_bytes()), Err(BYTE));
        assert_eq!(read(sheet.replace('\n', "\r\n").as_bytes()), Err(BYTE));
        assert_eq!(read(format!("00\n{sheet}").as_bytes()), Err(STRAY));
        assert_eq!(read(format!("{sheet}{sheet}").as_bytes()), Err(GLOW));
        assert_eq!(read(format!("{sheet}FE\n").as_bytes()), Err(GLOW));
        assert_eq!(read(format!("FE000E010194E4FF\n{sheet}").as_bytes()), Ok(sample()));
        let first = sheet.lines().next().unwrap();
        assert_eq!(read(first.as_bytes()), Err(GLOW)); // a message open at the end
        assert_eq!(read(format!("{first}\n{sheet}").as_bytes()), Ok(sample())); // S4
    }

    fn sheet_of(tree: &Tree) -> Vec<u8> {
        let frames = framing::write_message(&tree_writer::write(tree).unwrap()).unwrap();
        digits(&frames.concat()).into_bytes()
    }

    #[test]
    fn figures_and_connections() {
        let mut tree = tree_of(&sample());
        assert_eq!(read(&sheet_of(&tree)), Ok(sample()));
        if let Body::Connection { sources, .. } = &mut tree.entries[5].body {
            *sources = Some(vec![64]);
        }
        assert_eq!(read(&sheet_of(&tree)), Err(SOURCE));
        if let Body::Matrix(_, contents) = &mut tree.entries[0].body {
            contents.sources = None;
        }
        assert_eq!(read(&sheet_of(&tree)), Err(DESK));
        tree.entries.push(Entry { parent: None, body: Body::Command { number: 1, mask: None } });
        assert_eq!(read(&sheet_of(&tree)), Err(GLOW));
        assert_eq!(read(&sheet_of(&Tree { kind: RootKind::Elements, entries: vec![] })), Err(GLOW));
    }
}
