//! Entries: what a row says, and rows made by hand.

use crate::{member, PATH_MAX};

/// An entry: a row of fifty words, which this crate's functions look into and make.
#[derive(Clone, Copy, PartialEq, Eq, Debug)]
#[repr(transparent)]
pub struct Row(pub [u64; 50]);

/// The kinds of entry. A qualified element has a full path in place of its number.
#[derive(Clone, Copy, PartialEq, Eq, Debug)]
#[repr(u64)]
#[allow(missing_docs)]
pub enum Kind {
    Parameter = 1,
    Command = 2,
    Node = 3,
    Matrix = 4,
    QualifiedParameter = 5,
    QualifiedNode = 6,
    QualifiedMatrix = 7,
    Connection = 8,
    StreamEntry = 9,
}

const KINDS: [Kind; 9] = [
    Kind::Parameter,
    Kind::Command,
    Kind::Node,
    Kind::Matrix,
    Kind::QualifiedParameter,
    Kind::QualifiedNode,
    Kind::QualifiedMatrix,
    Kind::Connection,
    Kind::StreamEntry,
];

/// What a member holds. Texts, octets, paths and sources are parts of the message.
#[derive(Clone, Copy, PartialEq, Debug)]
pub enum Value<'m> {
    /// It was not sent.
    Absent,
    /// A boolean.
    Boolean(bool),
    /// An integer.
    Integer(i64),
    /// A real.
    Real(f64),
    /// A text as it was sent: the sender's UTF-8, which is not checked.
    Text(&'m [u8]),
    /// Octets.
    Octets(&'m [u8]),
    /// A path or sources.
    Numbers(Numbers<'m>),
}

const BOOLEAN: u64 = 1;
const INTEGER: u64 = 2;
const OCTETS: u64 = 4;
const REAL: u64 = 9;
const TEXT: u64 = 12;
const RELATIVE_OID: u64 = 13;

/// The numbers of a path or of sources, one after another.
#[derive(Clone, Copy, PartialEq, Eq, Debug)]
pub struct Numbers<'m>(&'m [u8]);

impl Iterator for Numbers<'_> {
    type Item = u64;

    fn next(&mut self) -> Option<u64> {
        let mut number = 0;
        while let Some((&octet, rest)) = self.0.split_first() {
            self.0 = rest;
            number = number << 7 | u64::from(octet & 0x7F);
            if octet < 0x80 {
                return Some(number);
            }
        }
        None
    }
}

impl Default for Row {
    fn default() -> Row {
        Row([0; 50])
    }
}

impl Row {
    /// Begins an entry: its kind, its parent's place among the rows, every member absent.
    /// Never asks whether it makes a tree with others: [`crate::accepts`] says that.
    pub fn new(kind: Kind, parent: Option<usize>) -> Row {
        let mut row = Row::default();
        row.0[0] = kind as u64;
        row.0[1] = parent.map_or(0, |place| place as u64 + 1);
        row
    }

    /// The entry's kind; none if the row holds no entry.
    /// Never looks at its members.
    pub fn kind(&self) -> Option<Kind> {
        KINDS.into_iter().find(|&kind| kind as u64 == self.0[0])
    }

    /// The place of the entry that this one stands in; none if it stands in Root.
    /// Never looks at that entry.
    pub fn parent(&self) -> Option<usize> {
        self.0[1].checked_sub(1).map(|place| place as usize)
    }

    /// Whether it is a parameter, qualified or not.
    /// Never looks at its members.
    pub fn is_parameter(&self) -> bool {
        matches!(self.kind(), Some(Kind::Parameter | Kind::QualifiedParameter))
    }

    /// Whether it is a node, qualified or not.
    /// Never looks at its members.
    pub fn is_node(&self) -> bool {
        matches!(self.kind(), Some(Kind::Node | Kind::QualifiedNode))
    }

    /// Whether it is a matrix, qualified or not.
    /// Never looks at its members.
    pub fn is_matrix(&self) -> bool {
        matches!(self.kind(), Some(Kind::Matrix | Kind::QualifiedMatrix))
    }

    /// What a member holds (see [`member`](crate::member)); `message` is the one the row was read from.
    /// Never gives a part that does not lie in the message: that is `Absent`.
    pub fn value<'m>(&self, member: usize, message: &'m [u8]) -> Value<'m> {
        let Some(cell) = self.0[2..].chunks_exact(3).nth(member) else { return Value::Absent };
        let part = || {
            let end = cell[1].checked_add(cell[2])?;
            message.get(usize::try_from(cell[1]).ok()?..usize::try_from(end).ok()?)
        };
        match cell[0] {
            BOOLEAN => Value::Boolean(cell[1] != 0),
            INTEGER => Value::Integer(cell[1] as i64),
            REAL => Value::Real(f64::from_bits(cell[1])),
            TEXT => part().map_or(Value::Absent, Value::Text),
            OCTETS => part().map_or(Value::Absent, Value::Octets),
            RELATIVE_OID => part().map_or(Value::Absent, |octets| Value::Numbers(Numbers(octets))),
            _ => Value::Absent,
        }
    }

    /// An integer member.
    /// Never converts another type.
    pub fn integer(&self, member: usize) -> Option<i64> {
        match self.value(member, &[]) {
            Value::Integer(value) => Some(value),
            _ => None,
        }
    }

    /// The numbers of a path or of sources; none at all if the member is absent.
    /// Never looks past the message.
    pub fn numbers<'m>(&self, member: usize, message: &'m [u8]) -> Numbers<'m> {
        match self.value(member, message) {
            Value::Numbers(numbers) => numbers,
            _ => Numbers(&[]),
        }
    }

    fn put(&mut self, member: usize, cell: [u64; 3]) {
        if let Some(words) = self.0[2..].chunks_exact_mut(3).nth(member) {
            words.copy_from_slice(&cell);
        }
    }

    /// Puts an integer.
    /// Never asks whether it is in its range; a member over 15 is left out, here and below.
    pub fn put_integer(&mut self, member: usize, value: i64) {
        self.put(member, [INTEGER, value as u64, 0]);
    }

    /// Puts a boolean.
    /// Never asks whether the member is one.
    pub fn put_boolean(&mut self, member: usize, value: bool) {
        self.put(member, [BOOLEAN, u64::from(value), 0]);
    }

    /// Puts a real, and says so: minus zero as zero; NaN, which cannot be sent, leaves the member absent, and is `false`.
    /// Never rounds it.
    pub fn put_real(&mut self, member: usize, value: f64) -> bool {
        let bits = if value == 0.0 { 0 } else { value.to_bits() };
        self.put(member, if value.is_nan() { [0; 3] } else { [REAL, bits, 0] });
        !value.is_nan()
    }

    /// Puts a text that stands at `start` in the bytes that [`crate::write`] is given.
    /// Never copies it.
    pub fn put_text(&mut self, member: usize, start: usize, length: usize) {
        self.put(member, [TEXT, start as u64, length as u64]);
    }

    /// Puts octets that stand there.
    /// Never copies them.
    pub fn put_octets(&mut self, member: usize, start: usize, length: usize) {
        self.put(member, [OCTETS, start as u64, length as u64]);
    }

    /// Puts a path or sources that stand there, as [`encode`] leaves them.
    /// Never copies them.
    pub fn put_numbers(&mut self, member: usize, start: usize, length: usize) {
        self.put(member, [RELATIVE_OID, start as u64, length as u64]);
    }
}

/// Encodes the numbers of a path or of sources at the start of `out`: how many octets they take; none if they have no room or one
/// is over 2,147,483,647.
/// Never writes past `out`.
pub fn encode(numbers: &[u64], out: &mut [u8]) -> Option<usize> {
    let mut at = 0;
    for &number in numbers {
        if number > 2_147_483_647 {
            return None;
        }
        let septets = (number.max(1).ilog2() / 7) as usize;
        for place in (0..=septets).rev() {
            let more = if place > 0 { 0x80 } else { 0 };
            *out.get_mut(at)? = (number >> (7 * place)) as u8 & 0x7F | more;
            at += 1;
        }
    }
    Some(at)
}

/// The full path of the element at a place of the rows, at the start of `path`: how many numbers it has, 1 to 16; none if the
/// entry is no element or the rows make no such path.
/// Never goes up more than sixteen parents, whatever the rows say.
pub fn full_path(rows: &[Row], place: usize, message: &[u8], path: &mut [u64; PATH_MAX]) -> Option<usize> {
    let mut own = [0; PATH_MAX];
    let mut above = 0;
    let mut front = Numbers(&[]);
    let mut next = Some(place);
    while let Some(place) = next {
        let row = rows.get(place)?;
        match row.kind()? {
            Kind::QualifiedParameter | Kind::QualifiedNode | Kind::QualifiedMatrix => {
                front = row.numbers(member::NUMBER_OR_PATH, message);
                if front.count() == 0 {
                    return None;
                }
                break;
            }
            Kind::Parameter | Kind::Node | Kind::Matrix => {
                *own.get_mut(above)? = u64::try_from(row.integer(member::NUMBER_OR_PATH)?).ok().filter(|&number| number > 0)?;
                above += 1;
                next = row.parent();
            }
            _ => return None,
        }
    }
    let mut count = 0;
    for number in front.chain(own[..above].iter().rev().copied()) {
        *path.get_mut(count)? = number;
        count += 1;
    }
    Some(count)
}
