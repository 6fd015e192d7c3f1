//! Entries handed in as rows of words: the tree that they make with the message beside them, whether some message is read
//! as it, and what is written for it. Nothing here knows the rules of Glow but where a member's cell is and which types it
//! may have: a tree is judged by putting its message together and reading that.

use crate::tree::{Body, Entry, Key, MatrixContents, NodeContents, ParameterContents, RootKind, Tree, TABLE_MAX};
use crate::tree::{BOOLEAN_TAG, INTEGER_TAG, OCTETS_TAG, OID_TAG, REAL_TAG, TEXT_TAG};
use crate::tree_writer::{self, Octets};
use crate::values::{read_oid, write_oid, Oid, Value, OUT};

/// Kind, the parent's place and 1 (0: none), sixteen cells of three words: the universal tag number of the value (0:
/// absent) and two words of content.
pub type Row = [u64; WORDS];
pub const WORDS: usize = 50;
pub const CELLS: usize = 16;

pub const PARAMETER: u64 = 1;
pub const COMMAND: u64 = 2;
pub const NODE: u64 = 3;
pub const MATRIX: u64 = 4;
pub const QUALIFIED_PARAMETER: u64 = 5;
pub const QUALIFIED_NODE: u64 = 6;
pub const QUALIFIED_MATRIX: u64 = 7;
pub const CONNECTION: u64 = 8;
pub const STREAM_ENTRY: u64 = 9;

pub const ELEMENTS: u64 = 0;
pub const STREAMS: u64 = 3;

/// Whether some message of at most 16,384 bytes is read as exactly these entries (H1).
pub fn accepted(rows: &[Row], count: usize, root: u64, message: &[u8]) -> bool {
    tree_of(rows, count, root, message).is_some_and(|tree| tree_writer::least(&tree).is_ok())
}

/// What is written for these entries, or 46.
pub fn written(rows: &[Row], count: usize, root: u64, message: &[u8]) -> Octets {
    tree_writer::write(&tree_of(rows, count, root, message).ok_or(OUT)?)
}

/// The tree that the first rows make, by content; None where a row is no entry's, a part does not lie in the message (which
/// may be of any length), or there are no such rows or Root. Numbers, names, places and depth are not judged.
pub fn tree_of(rows: &[Row], count: usize, root: u64, message: &[u8]) -> Option<Tree> {
    if count > rows.len() || count > TABLE_MAX {
        return None;
    }
    let kind = match root {
        ELEMENTS => RootKind::Elements,
        STREAMS => RootKind::Streams,
        _ => return None,
    };
    let entries = rows[..count].iter().map(|row| entry_of(row, message)).collect::<Option<Vec<Entry>>>()?;
    Some(Tree { kind, entries })
}

/// The entry of a row; every word of it is looked at.
fn entry_of(row: &Row, message: &[u8]) -> Option<Entry> {
    let parent = match row[1] {
        0 => None,
        word => Some(usize::try_from(word - 1).ok()?),
    };
    let mut cells = Cells { row, message, taken: [false; CELLS] };
    let kind = row[0];
    let body = match kind {
        PARAMETER | QUALIFIED_PARAMETER => Body::Parameter(
            cells.key(kind == QUALIFIED_PARAMETER)?,
            ParameterContents {
                identifier: cells.text(1)?,
                description: cells.text(2)?,
                value: cells.any(3)?,
                minimum: cells.any(4)?,
                maximum: cells.any(5)?,
                access: cells.integer(6)?,
                factor: cells.integer(9)?,
                online: cells.flag(10)?,
                step: cells.integer(12)?,
                stream_identifier: cells.integer(15)?,
            },
        ),
        NODE | QUALIFIED_NODE => Body::Node(
            cells.key(kind == QUALIFIED_NODE)?,
            NodeContents {
                identifier: cells.text(1)?,
                description: cells.text(2)?,
                root: cells.flag(3)?,
                online: cells.flag(4)?,
            },
        ),
        MATRIX | QUALIFIED_MATRIX => Body::Matrix(
            cells.key(kind == QUALIFIED_MATRIX)?,
            MatrixContents {
                identifier: cells.text(1)?,
                description: cells.text(2)?,
                kind: cells.integer(3)?,
                mode: cells.integer(4)?,
                targets: cells.integer(5)?,
                sources: cells.integer(6)?,
                total_limit: cells.integer(7)?,
                target_limit: cells.integer(8)?,
            },
        ),
        COMMAND => Body::Command { number: cells.integer(0)??, mask: cells.integer(1)? },
        CONNECTION => Body::Connection { target: cells.integer(0)??, sources: cells.numbers(1)?, operation: cells.integer(2)? },
        STREAM_ENTRY => Body::StreamEntry { identifier: cells.integer(0)??, value: cells.any(1)?? },
        _ => return None,
    };
    cells.others_absent().then_some(Entry { parent, body })
}

/// The cells of a row. Each reader gives None for a cell that is no such member's, and Some(None) for an absent one.
struct Cells<'a> {
    row: &'a Row,
    message: &'a [u8],
    taken: [bool; CELLS],
}

impl Cells<'_> {
    fn words(&self, cell: usize) -> (u64, u64, u64) {
        (self.row[2 + 3 * cell], self.row[3 + 3 * cell], self.row[4 + 3 * cell])
    }

    fn take(&mut self, cell: usize) -> Option<Member> {
        self.taken[cell] = true;
        let (tag, first, second) = self.words(cell);
        let member = match (tag, second) {
            (0, 0) if first == 0 => Member::Absent,
            (BOOLEAN_TAG, 0) if first <= 1 => Member::Value(Value::Boolean(first == 1)),
            (INTEGER_TAG, 0) => Member::Value(Value::Integer(first as i64)),
            (REAL_TAG, 0) => Member::Value(Value::Real(f64::from_bits(first))),
            (OCTETS_TAG, _) => Member::Value(Value::Octets(self.part(first, second)?)),
            (TEXT_TAG, _) => Member::Value(Value::Text(self.part(first, second)?)),
            (OID_TAG, _) => match read_oid(&self.part(first, second)?) {
                Oid::Bad => return None,
                Oid::Numbers(numbers) => Member::Numbers(numbers.into_iter().collect::<Option<Vec<u64>>>()?),
            },
            _ => return None,
        };
        Some(member)
    }

    /// A part "lies in the message": it begins and ends there.
    fn part(&self, start: u64, length: u64) -> Option<Vec<u8>> {
        let end = u128::from(start) + u128::from(length);
        (end <= self.message.len() as u128).then(|| self.message[start as usize..end as usize].to_vec())
    }

    fn any(&mut self, cell: usize) -> Option<Option<Value>> {
        match self.take(cell)? {
            Member::Absent => Some(None),
            Member::Value(value) => Some(Some(value)),
            Member::Numbers(_) => None,
        }
    }

    fn integer(&mut self, cell: usize) -> Option<Option<i64>> {
        match self.any(cell)? {
            None => Some(None),
            Some(Value::Integer(value)) => Some(Some(value)),
            Some(_) => None,
        }
    }

    fn flag(&mut self, cell: usize) -> Option<Option<bool>> {
        match self.any(cell)? {
            None => Some(None),
            Some(Value::Boolean(value)) => Some(Some(value)),
            Some(_) => None,
        }
    }

    fn text(&mut self, cell: usize) -> Option<Option<Vec<u8>>> {
        match self.any(cell)? {
            None => Some(None),
            Some(Value::Text(text)) => Some(Some(text)),
            Some(_) => None,
        }
    }

    fn numbers(&mut self, cell: usize) -> Option<Option<Vec<u64>>> {
        match self.take(cell)? {
            Member::Absent => Some(None),
            Member::Numbers(numbers) => Some(Some(numbers)),
            Member::Value(_) => None,
        }
    }

    fn key(&mut self, qualified: bool) -> Option<Key> {
        if qualified {
            self.numbers(0)?.map(Key::Path)
        } else {
            self.integer(0)?.map(Key::Number)
        }
    }

    fn others_absent(&self) -> bool {
        (0..CELLS).all(|cell| self.taken[cell] || self.words(cell) == (0, 0, 0))
    }
}

enum Member {
    Absent,
    Value(Value),
    Numbers(Vec<u64>),
}

// ---- Rows of a tree ----

/// The rows of a tree. `place` says where the octets of a text, octets, a path or sources stand in the message beside.
pub fn rows_of(tree: &Tree, place: &mut dyn FnMut(&[u8]) -> usize) -> Vec<Row> {
    tree.entries.iter().map(|entry| Filled { row: [0; WORDS], place }.entry(entry)).collect()
}

struct Filled<'a> {
    row: Row,
    place: &'a mut dyn FnMut(&[u8]) -> usize,
}

impl Filled<'_> {
    fn entry(mut self, entry: &Entry) -> Row {
        self.row[1] = entry.parent.map_or(0, |parent| parent as u64 + 1);
        self.row[0] = match &entry.body {
            Body::Parameter(key, contents) => {
                self.text(1, &contents.identifier);
                self.text(2, &contents.description);
                self.any(3, contents.value.as_ref());
                self.any(4, contents.minimum.as_ref());
                self.any(5, contents.maximum.as_ref());
                self.integer(6, contents.access);
                self.integer(9, contents.factor);
                self.flag(10, contents.online);
                self.integer(12, contents.step);
                self.integer(15, contents.stream_identifier);
                self.key(key, PARAMETER, QUALIFIED_PARAMETER)
            }
            Body::Node(key, contents) => {
                self.text(1, &contents.identifier);
                self.text(2, &contents.description);
                self.flag(3, contents.root);
                self.flag(4, contents.online);
                self.key(key, NODE, QUALIFIED_NODE)
            }
            Body::Matrix(key, contents) => {
                self.text(1, &contents.identifier);
                self.text(2, &contents.description);
                self.integer(3, contents.kind);
                self.integer(4, contents.mode);
                self.integer(5, contents.targets);
                self.integer(6, contents.sources);
                self.integer(7, contents.total_limit);
                self.integer(8, contents.target_limit);
                self.key(key, MATRIX, QUALIFIED_MATRIX)
            }
            Body::Command { number, mask } => {
                self.integer(0, Some(*number));
                self.integer(1, *mask);
                COMMAND
            }
            Body::Connection { target, sources, operation } => {
                self.integer(0, Some(*target));
                if let Some(sources) = sources {
                    self.part(1, OID_TAG, &write_oid(sources).unwrap());
                }
                self.integer(2, *operation);
                CONNECTION
            }
            Body::StreamEntry { identifier, value } => {
                self.integer(0, Some(*identifier));
                self.any(1, Some(value));
                STREAM_ENTRY
            }
        };
        self.row
    }

    fn put(&mut self, cell: usize, words: [u64; 3]) {
        self.row[2 + 3 * cell..5 + 3 * cell].copy_from_slice(&words);
    }

    fn part(&mut self, cell: usize, tag: u64, octets: &[u8]) {
        let start = (self.place)(octets) as u64;
        self.put(cell, [tag, start, octets.len() as u64]);
    }

    fn key(&mut self, key: &Key, number: u64, path: u64) -> u64 {
        match key {
            Key::Number(value) => {
                self.integer(0, Some(*value));
                number
            }
            Key::Path(numbers) => {
                self.part(0, OID_TAG, &write_oid(numbers).unwrap());
                path
            }
        }
    }

    fn integer(&mut self, cell: usize, value: Option<i64>) {
        self.any(cell, value.map(Value::Integer).as_ref());
    }

    fn flag(&mut self, cell: usize, value: Option<bool>) {
        self.any(cell, value.map(Value::Boolean).as_ref());
    }

    fn text(&mut self, cell: usize, value: &Option<Vec<u8>>) {
        if let Some(text) = value {
            self.part(cell, TEXT_TAG, text);
        }
    }

    fn any(&mut self, cell: usize, value: Option<&Value>) {
        match value {
            None => {}
            Some(Value::Integer(value)) => self.put(cell, [INTEGER_TAG, *value as u64, 0]),
            Some(Value::Real(value)) => self.put(cell, [REAL_TAG, value.to_bits(), 0]),
            Some(Value::Boolean(value)) => self.put(cell, [BOOLEAN_TAG, u64::from(*value), 0]),
            Some(Value::Text(text)) => self.part(cell, TEXT_TAG, text),
            Some(Value::Octets(octets)) => self.part(cell, OCTETS_TAG, octets),
        }
    }
}

#[cfg(test)]
mod tests;
