//! Every host against the decoder: the same events, numbers and crosspoints.
use super::plain_desk::{call, legal};
use super::{hosts, inputs, outcome, Figures, Host};
use crate::glow::{plain::read, Answer, Row, ENTRIES};
use reference::desk::{Desk, Figures as Opening};
use reference::desk_text::{Program, Said};
use reference::gen::desk::{figures as drawn_figures, scripts, used_desk};
use reference::gen::Random;
use reference::lines::{digits, hex_line, lines};
use reference::rows;

fn figures_of(desk: &Desk) -> Figures {
    Figures {
        kind: desk.kind as u64,
        targets: desk.targets as u64,
        sources: desk.sources as u64,
        total: desk.total_limit.map(|limit| limit as u64),
        per_target: desk.target_limit.map(|limit| limit as u64),
        path: desk.path.clone(),
    }
}

fn same_crosspoints(host: &dyn Host, desk: &Desk) -> bool {
    let sources = 0..desk.sources as usize;
    desk.rows
        .iter()
        .enumerate()
        .all(|(target, row)| sources.clone().all(|source| host.holds(target, source) == row.contains(&(source as u64))))
}

/// What a host says of a chunk, as the decoder's program says it.
fn events(host: &mut dyn Host, chunk: &[u8]) -> Said {
    let mut turns = Vec::new();
    let mut rest = chunk;
    while !rest.is_empty() {
        let turn = host.turn(rest);
        rest = &rest[turn.consumed..];
        if turn.event != 0 {
            let said = |count| host.answers()[..count].iter().map(|&number| number as u8).collect();
            turns.push(reference::desk_text::Turn {
                event: turn.event as u8,
                tree: turn.tree.map(|number| number as u8),
                desk: turn.answers.map(said),
            });
        }
    }
    Said::Events(turns)
}

/// The decoder's drawn scripts, their `open` and `bytes` lines alone: every event, message and request that they have.
#[test]
fn drawn_scripts() {
    let mut seen = [0usize; 64];
    for seed in 0..12 {
        let script = scripts::input(seed, 100).text;
        for (name, open) in hosts() {
            let mut program = Program::start();
            let mut host: Option<Box<dyn Host>> = None;
            for line in lines(&script) {
                if !line.starts_with(b"open") && !line.starts_with(b"bytes") {
                    continue;
                }
                match program.line(line) {
                    Said::Opened(_) => host = program.desk.as_ref().map(|desk| open(&figures_of(desk))),
                    Said::Events(turns) => {
                        for number in turns.iter().filter_map(|turn| turn.desk.as_ref()).flatten() {
                            seen[usize::from(*number)] += 1;
                        }
                        let host = host.as_deref_mut().expect("a desk");
                        let said = events(host, &hex_line(&line[6..]).0);
                        assert!(said == Said::Events(turns), "{name}, seed {seed}: {said:?}");
                        assert!(same_crosspoints(host, program.desk.as_ref().unwrap()), "{name}, seed {seed}");
                    }
                    _ => {}
                }
            }
        }
    }
    assert!([0, 40, 41, 42, 43, 44].iter().all(|&number: &usize| seen[number] > 100), "{seen:?}");
}

/// The benchmark's own streams, in other chunks too: the requests that they should have, each answered.
#[test]
fn the_streams() {
    for (name, figures) in inputs::desks() {
        for each in [1, 16, 255] {
            let requests = 1_000;
            let stream = inputs::stream(&figures, requests, each);
            let mut program = Program::start();
            let word = |limit: Option<u64>| limit.map_or("-".to_string(), |limit| limit.to_string());
            let opened = format!("open {} - 64 64 {} {} 1.5", figures.kind, word(figures.total), word(figures.per_target));
            assert_eq!(program.line(opened.as_bytes()), Said::Opened(0));
            let mut expected = Vec::new();
            for part in stream.chunks(30_000) {
                let Said::Events(turns) = program.line(format!("bytes {}", digits(part)).as_bytes()) else { panic!() };
                expected.extend(turns.into_iter().filter_map(|turn| turn.desk).flatten().map(u64::from));
            }
            assert_eq!(expected.len(), requests);
            let refused = expected.iter().filter(|&&number| number != 0).count();
            assert!(refused > requests / 40 && refused < requests / 2, "{name}: {refused}");
            for (host, open) in hosts() {
                for chunk in [65_536, 1_400, 7] {
                    let said = outcome(open, &figures, &stream, chunk);
                    assert!(said.answers == expected, "{name}: {host}");
                }
                let mut opened = open(&figures);
                super::run(&mut *opened, &stream, 65_536, |_, _| {});
                assert!(same_crosspoints(&*opened, program.desk.as_ref().unwrap()), "{name}: {host}");
            }
            if figures.kind == 2 {
                assert!([41, 42, 43, 44].iter().all(|number| expected.contains(number)), "{name}");
            }
        }
    }
}

/// The desk's crosspoints, if what is lent for its figures has a cell for each.
fn lent(desk: &Desk) -> Option<Vec<u8>> {
    let figures = figures_of(desk);
    let mut cells = vec![0; figures.cells()];
    for (target, row) in desk.rows.iter().enumerate() {
        for source in row.iter().map(|&source| source as usize) {
            if target >= figures.lent().0 || source >= figures.lent().1 {
                return None;
            }
            cells[figures.cell(target, source)] = 1;
        }
    }
    Some(cells)
}

fn cells_of(desk: &Desk) -> Vec<u8> {
    lent(desk).expect("a legal desk")
}

/// Desks after requests, and the same with a cell or a figure changed.
#[test]
fn legality() {
    let mut random = Random::new(31);
    let mut counts = [0, 0];
    for _ in 0..20_000 {
        let mut desk = used_desk(&mut random);
        let total = desk.rows.concat().len() as u64;
        assert_eq!(legal(&figures_of(&desk), &cells_of(&desk)), Some(total));
        for _ in 0..random.range(1, 3) {
            let other: Opening = drawn_figures(&mut random);
            match random.below(7) {
                0 => desk.kind = random.pick(&[0, 1, 2, 3]),
                1 => desk.sources = random.pick(&[0, 1, 2, 64, 65, desk.sources]),
                2 => desk.total_limit = random.pick(&[other.total_limit, Some(0), Some(2_147_483_648), Some(total as i64)]),
                3 => desk.target_limit = random.pick(&[other.target_limit, Some(0), Some(2_147_483_648)]),
                4 => desk.path = random.pick(&[other.path, vec![], vec![0], vec![1; 17], vec![2_147_483_648]]),
                _ => {
                    let at = random.below(desk.rows.len());
                    let source = random.below(desk.sources.clamp(1, 64) as usize) as u64;
                    if !desk.rows[at].contains(&source) {
                        desk.rows[at].push(source);
                        desk.rows[at].sort();
                    }
                }
            }
        }
        let Some(cells) = lent(&desk) else { continue };
        let right = desk.legal();
        counts[usize::from(right)] += 1;
        let said = legal(&figures_of(&desk), &cells);
        assert_eq!(said.is_some(), right, "{desk:?}");
        if right {
            let mut cells = cells_of(&desk);
            let at = random.below(cells.len());
            cells[at] = 2;
            assert_eq!(legal(&figures_of(&desk), &cells), None);
            assert_eq!(legal(&figures_of(&desk), &cells[1..]), None);
            for target in desk.targets as usize..figures_of(&desk).lent().0 {
                let mut cells = cells_of(&desk);
                cells[figures_of(&desk).cell(target, 0)] = 1;
                assert_eq!(legal(&figures_of(&desk), &cells), None);
            }
        }
    }
    assert!(counts[0] > 5_000 && counts[1] > 5_000, "{counts:?}");
}

/// Rows that a stranger hands in: 1 and everything as it was, or what the decoder's desk answers to the tree that they are.
#[test]
fn handed_in() {
    let mut random = Random::new(32);
    let mut counts = [0, 0];
    for _ in 0..20_000 {
        let mut desk = used_desk(&mut random);
        let message = {
            let tree = reference::gen::desk::requests(&mut random, &desk, 8);
            reference::gen::tree::spell(&mut random, reference::gen::tree::Style::PLAIN, &tree)
        };
        let mut table: Vec<Row> = vec![[0; 50]; ENTRIES];
        let Answer::Read { streams, count } = read(&message, &mut table) else { continue };
        let root = if streams { 3 } else { 0 };
        if count > 0 && random.one_in(2) {
            let word = random.pick(&[0, 0, 1, 2, 3, 4, 5, 6, 9, 10]);
            let value = random.pick(&[0, 1, 2, 3, 8, 13, 1 << 31, u64::MAX]);
            table[random.below(count)][word] = value;
        }
        let figures = figures_of(&desk);
        let mut cells = cells_of(&desk);
        let before = cells.clone();
        let mut answers = vec![99; count];
        let said = call(&figures, &mut cells, &table, count, root, &message, &mut answers);
        let handed =
            rows::accepted(&table, count, root, &message).then(|| rows::tree_of(&table, count, root, &message)).flatten();
        counts[usize::from(handed.is_some())] += 1;
        match handed {
            None => {
                assert_eq!(said, Err(1));
                assert!(cells == before && answers.iter().all(|&answer| answer == 99));
            }
            Some(tree) => {
                let expected: Vec<u64> = desk.call(&tree).unwrap().into_iter().map(u64::from).collect();
                assert_eq!(said, Ok(expected.len()));
                assert_eq!(answers[..expected.len()], expected);
                assert!(answers[expected.len()..].iter().all(|&answer| answer == 99));
                assert!(cells == cells_of(&desk));
                if count > 0 {
                    let mut short = vec![99; count - 1];
                    assert_eq!(call(&figures, &mut cells, &table, count, root, &message, &mut short), Err(1));
                }
            }
        }
    }
    assert!(counts[0] > 2_000 && counts[1] > 5_000, "{counts:?}");
}
