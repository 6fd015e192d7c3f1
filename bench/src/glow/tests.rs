//! Every reader against the decoder: the same answers, and rows that say the same tree.
use super::growth::{FAMILIES, UNLISTED};
use super::{inputs, plain, readers, Answer, Row, ENTRIES, MESSAGE};
use reference::gen::tree::{requests::Requests, rules};
use reference::tree::{self, Body, Entry, Key, MatrixContents, NodeContents, ParameterContents, RootKind, Tree};
use reference::tree_text;
use reference::values::{read_oid, Oid, Value};

/// What a row says, read with its message. Cells that its kind does not have must be zero.
struct Cells<'a> {
    message: &'a [u8],
    row: Row,
}

impl Cells<'_> {
    /// The cell's type and content, which is taken out of the row.
    fn take(&mut self, cell: usize) -> (u64, u64, u64) {
        let words = &mut self.row[2 + 3 * cell..5 + 3 * cell];
        let taken = (words[0], words[1], words[2]);
        words.fill(0);
        assert!(taken.0 != 0 || (taken.1, taken.2) == (0, 0), "an absent cell holds something");
        assert!(taken.0 > 3 && taken.0 != 9 || taken.2 == 0, "a number's cell holds too much");
        taken
    }

    fn part(&self, start: u64, length: u64) -> Vec<u8> {
        self.message[start as usize..(start + length) as usize].to_vec()
    }

    fn any(&mut self, cell: usize) -> Option<Value> {
        let (kind, content, length) = self.take(cell);
        Some(match kind {
            0 => return None,
            1 => {
                assert!(content < 2);
                Value::Boolean(content == 1)
            }
            2 => Value::Integer(content as i64),
            4 => Value::Octets(self.part(content, length)),
            9 => Value::Real(f64::from_bits(content)),
            12 => Value::Text(self.part(content, length)),
            _ => panic!("type {kind}"),
        })
    }

    fn int(&mut self, cell: usize) -> Option<i64> {
        self.any(cell).map(|value| if let Value::Integer(value) = value { value } else { panic!("{value:?}") })
    }

    fn flag(&mut self, cell: usize) -> Option<bool> {
        self.any(cell).map(|value| if let Value::Boolean(value) = value { value } else { panic!("{value:?}") })
    }

    fn text(&mut self, cell: usize) -> Option<Vec<u8>> {
        self.any(cell).map(|value| if let Value::Text(value) = value { value } else { panic!("{value:?}") })
    }

    fn numbers(&mut self, cell: usize) -> Option<Vec<u64>> {
        let (kind, content, length) = self.take(cell);
        if kind == 0 {
            return None;
        }
        assert_eq!(kind, 13);
        let Oid::Numbers(numbers) = read_oid(&self.part(content, length)) else { panic!() };
        Some(numbers.into_iter().map(Option::unwrap).collect())
    }

    fn entry(mut self) -> Entry {
        let (kind, parent) = (self.row[0], self.row[1].checked_sub(1).map(|place| place as usize));
        let key = |cells: &mut Self| match kind {
            5..=7 => Key::Path(cells.numbers(0).unwrap()),
            _ => Key::Number(cells.int(0).unwrap()),
        };
        let body = match kind {
            1 | 5 => Body::Parameter(
                key(&mut self),
                ParameterContents {
                    identifier: self.text(1),
                    description: self.text(2),
                    value: self.any(3),
                    minimum: self.any(4),
                    maximum: self.any(5),
                    access: self.int(6),
                    factor: self.int(9),
                    online: self.flag(10),
                    step: self.int(12),
                    stream_identifier: self.int(15),
                },
            ),
            3 | 6 => Body::Node(
                key(&mut self),
                NodeContents { identifier: self.text(1), description: self.text(2), root: self.flag(3), online: self.flag(4) },
            ),
            4 | 7 => Body::Matrix(
                key(&mut self),
                MatrixContents {
                    identifier: self.text(1),
                    description: self.text(2),
                    kind: self.int(3),
                    mode: self.int(4),
                    targets: self.int(5),
                    sources: self.int(6),
                    total_limit: self.int(7),
                    target_limit: self.int(8),
                },
            ),
            2 => Body::Command { number: self.int(0).unwrap(), mask: self.int(1) },
            8 => Body::Connection { target: self.int(0).unwrap(), sources: self.numbers(1), operation: self.int(2) },
            9 => Body::StreamEntry { identifier: self.int(0).unwrap(), value: self.any(1).unwrap() },
            _ => panic!("kind {kind}"),
        };
        assert!(self.row[2..].iter().all(|&word| word == 0), "{:?}", self.row);
        Entry { parent, body }
    }
}

/// One message through every reader. The table starts with words that no reader writes.
fn compare(message: &[u8], length: usize) {
    let expected = tree::read(message, length);
    for (name, read) in &mut readers() {
        let mark = |place: usize| [0xDEAD_0000_0000 + place as u64; 50];
        let mut table: Vec<Row> = (0..length).map(mark).collect();
        let answer = read(message, &mut table);
        let count = match (&expected, answer) {
            (tree::Answer::Setup, Answer::Setup) => 0,
            (tree::Answer::Refused(refusal), Answer::Refused { number, place }) => {
                assert_eq!((u64::from(refusal.number), refusal.place), (number, place), "{name}: {message:02X?}");
                0
            }
            (tree::Answer::Room(expected), Answer::Room { count }) => {
                assert_eq!(*expected, count, "{name}: {message:02X?}");
                0
            }
            (tree::Answer::Tree(tree), Answer::Read { streams, count }) => {
                let kind = if streams { RootKind::Streams } else { RootKind::Elements };
                let entries = table[..count].iter().map(|row| Cells { message, row: *row }.entry()).collect();
                assert!(*tree == Tree { kind, entries }, "{name}: {message:02X?}");
                count
            }
            _ => panic!("{name}: {expected:?} {answer:?} {message:02X?}"),
        };
        // A refusal leaves the table, and rows past the count stay.
        assert!(table[count..].iter().zip(count..).all(|(row, place)| *row == mark(place)), "{name}: {message:02X?}");
    }
}

#[test]
fn every_rule() {
    for case in rules::cases() {
        let (table, message) = tree_text::request(case.line.as_bytes()).unwrap();
        compare(&message, table);
    }
}

#[test]
fn drawn_messages() {
    let mut requests = Requests::new(20_261_115);
    let mut answers = 0;
    while answers < 40_000 {
        let (line, _) = requests.request();
        if let Some((table, message)) = tree_text::request(&line) {
            compare(&message, table);
            answers += 1;
        }
    }
}

#[test]
fn the_inputs() {
    for (name, message) in inputs::all() {
        assert!(message.len() <= MESSAGE, "{name}: {}", message.len());
        compare(&message, ENTRIES);
    }
    let answers = inputs::all().map(|(_, message)| plain::read(&message, &mut vec![[0; 50]; ENTRIES]));
    let [announcement, connections, deep, unlisted, refused] = answers;
    assert!(matches!(announcement, Answer::Read { streams: false, count: 100.. }), "{announcement:?}");
    assert_eq!(connections, Answer::Read { streams: false, count: ENTRIES });
    assert_eq!(deep, Answer::Read { streams: false, count: 255 });
    assert_eq!(unlisted, Answer::Read { streams: false, count: 1 });
    let last = inputs::all()[4].1.len();
    assert_eq!(refused, Answer::Refused { number: 34, place: last - 3 });
}

/// Those of `bench all`.
#[test]
fn all_messages() {
    for (name, message) in super::families::messages() {
        assert!(message.len() <= MESSAGE, "{name}: {}", message.len());
        compare(&message, ENTRIES);
        let answer = plain::read(&message, &mut vec![[0; 50]; ENTRIES]);
        match name {
            "too many entries" => assert!(matches!(answer, Answer::Room { .. })),
            "refused value" => assert!(matches!(answer, Answer::Refused { number: 34, .. })),
            "refused text" => assert!(matches!(answer, Answer::Refused { number: 36, .. })),
            "refused nest" => assert!(matches!(answer, Answer::Refused { number: 30, .. })),
            _ => assert!(matches!(answer, Answer::Read { .. }), "{name}: {answer:?}"),
        }
    }
}

/// Each family fills its size, and every reader answers alike at each.
#[test]
fn families_grow() {
    for (name, make) in FAMILIES.into_iter().chain(UNLISTED) {
        for bytes in [MESSAGE / 8, MESSAGE / 4, MESSAGE / 2, MESSAGE] {
            let message = make(bytes);
            assert!(message.len() <= bytes && message.len() > bytes / 2, "{name}: {} of {bytes} bytes", message.len());
            let mut table = vec![[0; 50]; ENTRIES];
            let expected = plain::read(&message, &mut table);
            if name.starts_with("refused") {
                assert!(matches!(expected, Answer::Refused { place, .. } if place + 8 > message.len()), "{name}: {expected:?}");
            } else {
                assert!(matches!(expected, Answer::Read { .. } | Answer::Room { .. }), "{name}: {expected:?}");
            }
            for (reader, mut read) in readers() {
                let mut other = vec![[0; 50]; ENTRIES];
                assert_eq!(read(&message, &mut other), expected, "{name}: {reader}");
                assert!(other == table, "{name}: {reader} fills otherwise");
            }
        }
    }
}
