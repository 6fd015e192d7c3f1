//! Desks, their figures, and requests: as numbers, and as trees with the matrix in every place that it may have.

pub mod scripts;
pub mod sheets;

use super::tree;
use super::Random;
use crate::desk::{open, Desk, Figures};
use crate::tree::{Body, Entry, Key, MatrixContents, NodeContents, ParameterContents, RootKind, Tree};

const TOP: i64 = 2_147_483_647;

/// The number or one beside it, at least 1.
fn near(random: &mut Random, number: i64) -> i64 {
    (number + random.range(0, 2) as i64 - 1).clamp(1, TOP)
}

/// Figures that can be opened; mostly small, so that limits are met.
pub fn figures(random: &mut Random) -> Figures {
    let side = |random: &mut Random| random.pick(&[1, 2, 2, 3, 3, 4, 4, 5, 8, 12, 33, 63, 64]);
    let (targets, sources) = (side(random), side(random));
    let length = random.pick(&[1, 1, 2, 2, 3, 5, 13, 14, 15, 16]);
    let number = |random: &mut Random| match random.below(8) {
        0 => random.range(100, 300) as u64,
        1 => TOP as u64 - random.below(2) as u64,
        _ => random.range(1, 4) as u64,
    };
    let total = random.pick(&[1, 2, 3, 5, TOP, targets * sources, targets * sources]);
    let per_target = random.pick(&[1, 1, 2, 2, 3, TOP, sources, sources]);
    Figures {
        path: (0..length).map(|_| number(random)).collect(),
        kind: random.pick(&[None, Some(0), Some(0), Some(1), Some(1), Some(1), Some(2), Some(2), Some(2), Some(2)]),
        mode: random.pick(&[None, Some(0)]),
        targets: Some(targets),
        sources: Some(sources),
        total_limit: if random.one_in(2) { None } else { Some(near(random, total)) },
        target_limit: if random.one_in(2) { None } else { Some(near(random, per_target)) },
    }
}

/// A connection's members.
#[derive(Clone, PartialEq, Eq, Debug)]
pub struct Asked {
    pub target: u64,
    pub sources: Option<Vec<u64>>,
    pub operation: Option<i64>,
}

impl Asked {
    pub fn body(self) -> Body {
        Body::Connection { target: self.target as i64, sources: self.sources, operation: self.operation }
    }
}

pub fn ask(target: u64, sources: &[u64], operation: i64) -> Asked {
    Asked { target, sources: Some(sources.to_vec()), operation: Some(operation) }
}

/// A request that mostly fits the desk: sources that it has elsewhere or here, counts around its limits, a source twice.
pub fn asked(random: &mut Random, desk: &Desk) -> Asked {
    let targets = desk.targets as usize;
    let sources = desk.sources as usize;
    let target = if random.one_in(14) {
        desk.targets as u64 + random.pick(&[0, 0, 1, 190, TOP as u64 - desk.targets as u64])
    } else {
        random.below(targets) as u64
    };
    let any = |random: &mut Random, count: usize| -> Vec<u64> { (0..count).map(|_| random.below(sources) as u64).collect() };
    let mut list = match random.below(9) {
        0 => Vec::new(),
        1 | 2 => any(random, 1),
        3 => {
            // One that another target may have: in 1:1 it moves.
            let held: Vec<u64> = desk.rows.concat();
            if held.is_empty() {
                any(random, 1)
            } else {
                vec![random.pick(&held)]
            }
        }
        4 => desk.rows.get(target as usize).cloned().unwrap_or_default(),
        5 => {
            // About as many as a target may have.
            let most = desk.target_limit.unwrap_or(desk.sources).min(desk.sources) as usize;
            let start = random.below(sources);
            let count = (most + random.below(3)).saturating_sub(1).min(sources);
            (0..count).map(|index| ((start + index) % sources) as u64).collect()
        }
        6 => (0..sources as u64).collect(),
        _ => {
            let count = random.range(2, 6);
            any(random, count)
        }
    };
    if !list.is_empty() && random.one_in(3) {
        let again = random.pick(&list);
        list.push(again);
    }
    if random.one_in(2) {
        random.shuffle(&mut list);
    }
    if random.one_in(30) && !list.is_empty() {
        // Many times the same.
        list = list.repeat(random.pick(&[8, 33, 129]).min(1_000 / list.len().max(1)).max(1));
    }
    if random.one_in(14) {
        let at = if random.one_in(2) { list.len() } else { random.below(list.len() + 1) };
        list.insert(at, desk.sources as u64 + random.pick(&[0, 0, 1, 190, TOP as u64 - desk.sources as u64]));
    }
    let sources = if list.is_empty() && random.one_in(2) { None } else { Some(list) };
    Asked { target, sources, operation: random.pick(&[None, Some(0), Some(1), Some(1), Some(1), Some(2)]) }
}

/// An element on the way to a matrix: any that may hold others.
fn holder(random: &mut Random, key: Key) -> Body {
    match random.below(8) {
        0 => Body::Parameter(key, ParameterContents::default()),
        1 => Body::Matrix(key, MatrixContents::default()),
        _ => Body::Node(key, NodeContents::default()),
    }
}

/// What a matrix may say of itself beside a request, which no desk looks at (D9).
fn said_of_itself(random: &mut Random) -> MatrixContents {
    if random.one_in(3) {
        return MatrixContents { kind: Some(2), mode: Some(1), targets: Some(1_000), total_limit: Some(0), ..Default::default() };
    }
    MatrixContents::default()
}

/// Adds the matrix of that path with some requests: qualified, below a qualified element, or plain all the way.
fn add_matrix(random: &mut Random, desk: &Desk, path: &[u64], count: usize, entries: &mut Vec<Entry>) {
    let first = match random.below(6) {
        0 | 1 => 0, // plain
        2 => random.range(1, path.len()),
        _ => path.len(),
    };
    // Connections of a matrix on the fifteenth level pass the 64 containers.
    let first = if path.len() - first.max(1) >= 14 && !random.one_in(4) { path.len() } else { first };
    let start = entries.len();
    let mut keys = Vec::new();
    if first > 0 {
        keys.push(Key::Path(path[..first].to_vec()));
    }
    keys.extend(path[first..].iter().map(|&number| Key::Number(number as i64)));
    let levels = keys.len();
    for (level, key) in keys.into_iter().enumerate() {
        let body = if level + 1 == levels { Body::Matrix(key, said_of_itself(random)) } else { holder(random, key) };
        entries.push(Entry { parent: if level == 0 { None } else { Some(start + level - 1) }, body });
    }
    for level in (0..levels).rev() {
        let place = start + level;
        let matrix = matches!(entries[place].body, Body::Matrix(..));
        // The connections of a matrix on the way follow those of what it holds.
        let count = if level + 1 == levels { count } else { random.pick(&[0, 1]) };
        for _ in 0..if matrix { count } else { 0 } {
            entries.push(Entry { parent: Some(place), body: asked(random, desk).body() });
        }
    }
}

/// A message of requests, sometimes with other paths and other elements.
pub fn requests(random: &mut Random, desk: &Desk, most: usize) -> Tree {
    let mut entries = Vec::new();
    let parts = random.pick(&[1, 1, 1, 1, 2, 3]);
    for _ in 0..parts {
        if random.one_in(8) {
            tree::add_element(random, &mut entries, None, 1, 0, 4);
            continue;
        }
        let mut path = desk.path.clone();
        match random.below(24) {
            0 => {
                let at = random.below(path.len());
                path[at] = if path[at] > 1 { path[at] - 1 } else { 2 };
            }
            1 if path.len() > 1 => {
                path.pop();
            }
            2 if path.len() < 16 => path.push(1),
            _ => {}
        }
        let count = random.pick(&[0, 1, 1, 1, 2, 3, 5, most]);
        add_matrix(random, desk, &path, count.min(most), &mut entries);
    }
    Tree { kind: RootKind::Elements, entries }
}

/// A desk after some requests.
pub fn used_desk(random: &mut Random) -> Desk {
    let mut desk = open(&figures(random)).unwrap();
    for _ in 0..random.below(80) {
        let asked = asked(random, &desk);
        let path = desk.path.clone();
        desk.request(&path, asked.target as i64, &asked.sources.unwrap_or_default(), asked.operation.unwrap_or(0));
    }
    desk
}

#[cfg(test)]
mod tests {
    use super::*;
    use crate::sheet;

    #[test]
    fn requests_keep_a_desk_legal() {
        let mut random = Random::new(21);
        let mut seen = [0usize; 64];
        for _ in 0..300 {
            let mut desk = open(&figures(&mut random)).unwrap();
            for _ in 0..20 {
                let tree = requests(&mut random, &desk, 8);
                let before = desk.clone();
                // Some are too deep to be read.
                let Ok(answers) = desk.call(&tree) else { continue };
                assert!(desk.legal());
                if answers.iter().all(|&answer| answer != 0) {
                    assert_eq!(desk, before);
                }
                for answer in answers {
                    seen[usize::from(answer)] += 1;
                }
            }
        }
        for number in [0, 40, 41, 42, 43, 44] {
            assert!(seen[number] > 100, "{number}: {}", seen[number]);
        }
    }

    #[test]
    fn sheets_read_back() {
        let mut random = Random::new(22);
        for _ in 0..300 {
            let desk = used_desk(&mut random);
            let text = sheet::write(&desk).unwrap();
            assert_eq!(sheet::read(text.as_bytes()), Ok(desk));
        }
    }
}
