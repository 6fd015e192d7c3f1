//! The desk (document 01, "Desk").

use crate::framing::{DONE, SETUP};
use crate::tree::{Body, Key, Tree, PATH_MAX};
use crate::tree_writer;
use crate::values::NUMBER_MAX;

pub const MATRIX: u8 = 40;
pub const TARGET: u8 = 41;
pub const SOURCE: u8 = 42;
pub const MANY: u8 = 43;
pub const TOTAL: u8 = 44;
pub const DESK: u8 = 45;

pub const ONE_TO_N: i64 = 0;
pub const ONE_TO_ONE: i64 = 1;
pub const N_TO_N: i64 = 2;

pub const ABSOLUTE: i64 = 0;
pub const CONNECT: i64 = 1;
pub const DISCONNECT: i64 = 2;

/// "1 to 64 targets, 1 to 64 sources"
pub const SIDE_MAX: i64 = 64;

/// What a desk is opened from.
#[derive(Clone, PartialEq, Eq, Debug, Default)]
pub struct Figures {
    pub path: Vec<u64>,
    pub kind: Option<i64>,
    pub mode: Option<i64>,
    pub targets: Option<i64>,
    pub sources: Option<i64>,
    pub total_limit: Option<i64>,
    pub target_limit: Option<i64>,
}

#[derive(Clone, PartialEq, Eq, Debug)]
pub struct Desk {
    pub path: Vec<u64>,
    pub kind: i64,
    pub targets: i64,
    pub sources: i64,
    /// "Limits, where given, are at least 1 and kept as given; only N:N heeds them."
    pub total_limit: Option<i64>,
    pub target_limit: Option<i64>,
    /// The sources of each target, ascending.
    pub rows: Vec<Vec<u64>>,
}

fn path_right(path: &[u64]) -> bool {
    (1..=PATH_MAX).contains(&path.len()) && path.iter().all(|number| (1..=NUMBER_MAX).contains(number))
}

fn limit_right(limit: Option<i64>) -> bool {
    limit.is_none_or(|limit| (1..=NUMBER_MAX as i64).contains(&limit))
}

/// An empty desk, or 45: "opening figures, mode (1) or path out of range". A missing type is 1:N (D3), a
/// missing count 45.
pub fn open(figures: &Figures) -> Result<Desk, u8> {
    let (Some(targets), Some(sources)) = (figures.targets, figures.sources) else { return Err(DESK) };
    let kind = figures.kind.unwrap_or(ONE_TO_N);
    let right = path_right(&figures.path)
        && (ONE_TO_N..=N_TO_N).contains(&kind)
        && figures.mode.unwrap_or(0) == 0
        && (1..=SIDE_MAX).contains(&targets)
        && (1..=SIDE_MAX).contains(&sources)
        && limit_right(figures.total_limit)
        && limit_right(figures.target_limit);
    if !right {
        return Err(DESK);
    }
    Ok(Desk {
        path: figures.path.clone(),
        kind,
        targets,
        sources,
        total_limit: figures.total_limit,
        target_limit: figures.target_limit,
        rows: vec![Vec::new(); targets as usize],
    })
}

impl Desk {
    pub fn figures(&self) -> Figures {
        Figures {
            path: self.path.clone(),
            kind: Some(self.kind),
            mode: None,
            targets: Some(self.targets),
            sources: Some(self.sources),
            total_limit: self.total_limit,
            target_limit: self.target_limit,
        }
    }

    /// "N:N has a limit per target (default the source count) and in total (default targets times sources)."
    fn most_per_target(&self) -> usize {
        self.target_limit.unwrap_or(self.sources) as usize
    }

    fn most_in_total(&self) -> usize {
        self.total_limit.unwrap_or(self.targets * self.sources) as usize
    }

    fn total(&self) -> usize {
        self.rows.iter().map(Vec::len).sum()
    }

    /// "A desk is legal if its figures could be opened and its crosspoints fit its counts, type and limits."
    pub fn legal(&self) -> bool {
        let counts = open(&self.figures()).is_ok()
            && self.rows.len() == self.targets as usize
            && self.rows.iter().all(|row| {
                row.windows(2).all(|pair| pair[0] < pair[1]) && row.iter().all(|&source| source < self.sources as u64)
            });
        let fits = match self.kind {
            ONE_TO_N => self.rows.iter().all(|row| row.len() <= 1),
            ONE_TO_ONE => {
                let mut used: Vec<u64> = self.rows.concat();
                let count = used.len();
                used.sort();
                used.dedup();
                self.rows.iter().all(|row| row.len() <= 1) && used.len() == count
            }
            _ => self.rows.iter().all(|row| row.len() <= self.most_per_target()) && self.total() <= self.most_in_total(),
        };
        counts && fits
    }

    /// One connection of the matrix at `path`: 0, or 40 to 44 with the crosspoints as they were. "Frame, header
    /// and desk checks run in table order".
    pub fn request(&mut self, path: &[u64], target: i64, sources: &[u64], operation: i64) -> u8 {
        if path != self.path {
            return MATRIX;
        }
        if !(0..self.targets).contains(&target) {
            return TARGET;
        }
        if sources.iter().any(|&source| source >= self.sources as u64) {
            return SOURCE;
        }
        // "A source named twice counts once."
        let mut list = sources.to_vec();
        list.sort();
        list.dedup();
        let target = target as usize;
        let old = &self.rows[target];
        if operation == DISCONNECT {
            // "Disconnect never gives 43 or 44."
            self.rows[target] = old.iter().copied().filter(|source| !list.contains(source)).collect();
            return DONE;
        }
        if self.kind == N_TO_N {
            let mut result = if operation == CONNECT { [old.clone(), list].concat() } else { list };
            result.sort();
            result.dedup();
            if result.len() > self.most_per_target() {
                return MANY;
            }
            if self.total() - old.len() + result.len() > self.most_in_total() {
                return TOTAL;
            }
            self.rows[target] = result;
            return DONE;
        }
        // "(1:N, 1:1: list over one)"
        if list.len() > 1 {
            return MANY;
        }
        if operation == CONNECT && list.is_empty() {
            return DONE; // connect adds; nothing to add (D6)
        }
        // "for 1:1, absolute or connect with one source takes it from every other target"
        if self.kind == ONE_TO_ONE {
            for row in &mut self.rows {
                row.retain(|source| !list.contains(source));
            }
        }
        // "For 1:N and 1:1, connect with one source replaces (house)"
        self.rows[target] = list;
        DONE
    }

    /// The desk's call on the entries of a message, as read: an answer for each connection, in order. Err is 1:
    /// "desk not legal, entries handed in ... that make no tree the reader accepts", in their shortest form (H1).
    pub fn call(&mut self, tree: &Tree) -> Result<Vec<u8>, u8> {
        if !self.legal() || tree_writer::least(tree).is_err() {
            return Err(SETUP);
        }
        let mut answers = Vec::new();
        for entry in &tree.entries {
            if let Body::Connection { target, sources, operation } = &entry.body {
                let path = full_path(tree, entry.parent.unwrap());
                // "A missing list is empty."; "absolute (0, default)"
                let sources = sources.clone().unwrap_or_default();
                answers.push(self.request(&path, *target, &sources, operation.unwrap_or(ABSOLUTE)));
            }
        }
        Ok(answers)
    }
}

/// The full path of an element.
pub fn full_path(tree: &Tree, place: usize) -> Vec<u64> {
    let entry = &tree.entries[place];
    match &entry.body {
        Body::Parameter(key, _) | Body::Node(key, _) | Body::Matrix(key, _) => match key {
            Key::Path(path) => path.clone(),
            Key::Number(number) => {
                let mut path = entry.parent.map_or(Vec::new(), |parent| full_path(tree, parent));
                path.push(*number as u64);
                path
            }
        },
        _ => Vec::new(),
    }
}

#[cfg(test)]
mod tests {
    use super::*;

    fn desk(kind: i64, targets: i64, sources: i64) -> Desk {
        open(&Figures { path: vec![1], kind: Some(kind), targets: Some(targets), sources: Some(sources), ..Default::default() })
            .unwrap()
    }

    #[test]
    fn one_to_one_takes_the_source_from_its_old_target() {
        let mut desk = desk(ONE_TO_ONE, 3, 3);
        assert_eq!(desk.request(&[1], 0, &[2], ABSOLUTE), 0);
        assert_eq!(desk.request(&[1], 1, &[2, 2], CONNECT), 0);
        assert_eq!(desk.rows, [vec![], vec![2], vec![]]);
        assert_eq!(desk.request(&[1], 2, &[], ABSOLUTE), 0);
        assert_eq!(desk.request(&[1], 1, &[], CONNECT), 0);
        assert_eq!(desk.request(&[1], 1, &[0, 1], CONNECT), MANY);
        assert_eq!(desk.rows, [vec![], vec![2], vec![]]);
    }

    #[test]
    fn one_to_n_replaces() {
        let mut desk = desk(ONE_TO_N, 2, 3);
        assert_eq!(desk.request(&[1], 0, &[1], CONNECT), 0);
        assert_eq!(desk.request(&[1], 1, &[1], CONNECT), 0);
        assert_eq!(desk.request(&[1], 0, &[2], CONNECT), 0);
        assert_eq!(desk.rows, [vec![2], vec![1]]);
        assert_eq!(desk.request(&[1], 1, &[0, 1, 2], DISCONNECT), 0);
        assert_eq!(desk.request(&[1], 0, &[3], DISCONNECT), SOURCE); // D4
        assert_eq!(desk.request(&[2], 9, &[3], ABSOLUTE), MATRIX);
        assert_eq!(desk.request(&[1], 2, &[3], ABSOLUTE), TARGET);
        assert_eq!(desk.rows, [vec![2], vec![]]);
    }

    #[test]
    fn n_to_n_limits() {
        let mut desk = desk(N_TO_N, 2, 4);
        desk.target_limit = Some(2);
        desk.total_limit = Some(3);
        assert_eq!(desk.request(&[1], 0, &[3, 1, 3], ABSOLUTE), 0);
        assert_eq!(desk.request(&[1], 0, &[0], CONNECT), MANY);
        assert_eq!(desk.request(&[1], 0, &[1], CONNECT), 0); // D8
        assert_eq!(desk.request(&[1], 1, &[0, 1], ABSOLUTE), TOTAL);
        assert_eq!(desk.request(&[1], 1, &[0], CONNECT), 0);
        assert_eq!(desk.rows, [vec![1, 3], vec![0]]);
        assert!(desk.legal());
        desk.rows[1] = vec![0, 2];
        assert!(!desk.legal());
    }

    #[test]
    fn opening() {
        let good = Figures { path: vec![1], targets: Some(64), sources: Some(1), ..Default::default() };
        assert_eq!(open(&good).unwrap().kind, ONE_TO_N);
        for bad in [
            Figures { path: vec![], ..good.clone() },
            Figures { path: vec![0], ..good.clone() },
            Figures { path: vec![1; 17], ..good.clone() },
            Figures { kind: Some(3), ..good.clone() },
            Figures { mode: Some(1), ..good.clone() },
            Figures { targets: Some(65), ..good.clone() },
            Figures { sources: Some(0), ..good.clone() },
            Figures { sources: None, ..good.clone() },
            Figures { total_limit: Some(0), ..good.clone() },
            Figures { target_limit: Some(0), ..good.clone() },
        ] {
            assert_eq!(open(&bad), Err(DESK));
        }
    }
}
