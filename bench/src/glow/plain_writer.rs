//! A Glow tree writer in plain safe Rust, by document 01's rules, for the proved one to be measured against: the rows are
//! judged forward, their sizes summed from the last to the first, and the message is written forward. It allocates nothing.
use super::plain::{is_name, numbers};
use super::{Row, ENTRIES, MESSAGE};
use std::ops::Range;

/// The number of a refusal: output too short, or a value or tree that the reader refuses.
pub const OUT: u64 = 46;

/// The deepest level of an element, and the longest full path.
const LEVELS: u32 = 15;
const STEPS: u32 = 16;

const CELLS: usize = 16;
const TOP: i64 = 2_147_483_647;

/// What a cell may hold.
#[derive(Clone, Copy)]
enum Rule {
    /// Its kind has no such member.
    Nothing,
    Int(i64, i64),
    Text,
    Name,
    Flag,
    Any,
    Path,
    Sources,
}

const I32: Rule = Rule::Int(-TOP - 1, TOP);
const FROM_0: Rule = Rule::Int(0, TOP);
const FROM_1: Rule = Rule::Int(1, TOP);

struct Kind {
    tag: u8,
    rules: [Rule; CELLS],
    /// The first so many cells must hold something.
    required: usize,
    /// Cells from 1 on are members of its contents, and other entries may stand in it.
    element: bool,
}

const fn leaf(tag: u8, members: &[Rule], required: usize) -> Kind {
    let mut rules = [Rule::Nothing; CELLS];
    let mut cell = 0;
    while cell < members.len() {
        rules[cell] = members[cell];
        cell += 1;
    }
    Kind { tag, rules, required, element: false }
}

/// A node, parameter or matrix: its number or path, identifier and description, and the contents of that kind.
const fn element(tag: u8, key: Rule, contents: &[(usize, Rule)]) -> Kind {
    let mut rules = [Rule::Nothing; CELLS];
    rules[0] = key;
    rules[1] = Rule::Name;
    rules[2] = Rule::Text;
    let mut index = 0;
    while index < contents.len() {
        rules[1 + contents[index].0] = contents[index].1;
        index += 1;
    }
    Kind { tag, rules, required: 1, element: true }
}

const PARAMETER: [(usize, Rule); 8] =
    [(2, Rule::Any), (3, Rule::Any), (4, Rule::Any), (5, Rule::Int(0, 3)), (8, I32), (9, Rule::Flag), (11, I32), (14, FROM_0)];
const NODE: [(usize, Rule); 2] = [(2, Rule::Flag), (3, Rule::Flag)];
const MATRIX: [(usize, Rule); 6] =
    [(2, Rule::Int(0, 2)), (3, Rule::Int(0, 1)), (4, FROM_0), (5, FROM_0), (6, FROM_0), (7, FROM_0)];

static KINDS: [Kind; 9] = [
    element(0x61, FROM_1, &PARAMETER),
    leaf(0x62, &[I32, I32], 1),
    element(0x63, FROM_1, &NODE),
    element(0x6D, FROM_1, &MATRIX),
    element(0x69, Rule::Path, &PARAMETER),
    element(0x6A, Rule::Path, &NODE),
    element(0x71, Rule::Path, &MATRIX),
    leaf(0x70, &[FROM_0, Rule::Sources, Rule::Int(0, 2)], 1),
    leaf(0x66, &[FROM_0, Rule::Any], 2),
];

const CONNECTION: u64 = 8;
const STREAM: u64 = 9;

fn kind_of(row: &Row) -> Option<&'static Kind> {
    KINDS.get(usize::try_from(row[0]).ok()?.checked_sub(1)?)
}

fn is_matrix(row: &Row) -> bool {
    matches!(row[0], 4 | 7)
}

fn is_qualified(row: &Row) -> bool {
    matches!(row[0], 5..=7)
}

fn cell(row: &Row, cell: usize) -> [u64; 3] {
    [row[2 + 3 * cell], row[3 + 3 * cell], row[4 + 3 * cell]]
}

/// What is known of an entry.
#[derive(Clone, Copy)]
struct Known {
    level: u32,
    /// Numbers in its full path.
    steps: u32,
    /// Bytes inside its tag.
    own: u32,
    /// Bytes inside the tags of its contents, children and connections.
    contents: u32,
    children: u32,
    connections: u32,
}

const UNKNOWN: Known = Known { level: 0, steps: 0, own: 0, contents: 0, children: 0, connections: 0 };

/// Writes the first `count` rows, whose parts lie in the message, and gives the length; `root` is 0 for elements, 3 for
/// streams. The output is as it was after a refusal.
pub fn write(rows: &[Row], count: usize, root: u64, message: &[u8], out: &mut [u8]) -> Result<usize, u64> {
    let collection = match root {
        0 => 0x6B,
        3 => 0x65,
        _ => return Err(OUT),
    };
    if count > ENTRIES {
        return Err(OUT);
    }
    let rows = rows.get(..count).ok_or(OUT)?;
    let mut known = [UNKNOWN; ENTRIES];
    judge::<false>(rows, root == 3, message, &mut known).ok_or(OUT)?;
    let items = sum(rows, &mut known);
    let length = around(around(items)) as usize;
    if length > MESSAGE || length > out.len() {
        return Err(OUT);
    }
    let mut writer = Writer { out, at: 0 };
    writer.head(0x60, around(items));
    writer.head(collection, items);
    for place in 0..rows.len() {
        writer.entry(rows, place, &known, message);
    }
    Ok(writer.at)
}

/// Whether some message of at most 16,384 bytes is read as the first `count` rows, whose parts lie in the message.
pub fn accepts(rows: &[Row], count: usize, root: u64, message: &[u8]) -> bool {
    let (true, Some(rows)) = (count <= ENTRIES && matches!(root, 0 | 3), rows.get(..count)) else { return false };
    let mut known = [UNKNOWN; ENTRIES];
    if judge::<true>(rows, root == 3, message, &mut known).is_none() {
        return false;
    }
    around(around(sum(rows, &mut known))) as usize <= MESSAGE
}

// ---- Judging ----

/// Places, kinds, levels, paths and values of all entries; the sizes of their own members are noted, those of reals as they are
/// written or, with LEAST, in their shortest form.
fn judge<const LEAST: bool>(rows: &[Row], streams: bool, message: &[u8], known: &mut [Known; ENTRIES]) -> Option<()> {
    for (place, row) in rows.iter().enumerate() {
        let kind = kind_of(row)?;
        if (row[0] == STREAM) != streams {
            return None;
        }
        let mut level = 1;
        let mut steps = 0;
        if row[1] != 0 {
            let parent = parent_of(rows, place)?;
            if row[0] == CONNECTION {
                if !is_matrix(&rows[parent]) || known[parent].level >= LEVELS {
                    return None;
                }
            } else {
                let after_connection = rows[place - 1][0] == CONNECTION && rows[place - 1][1] == row[1];
                let child = kind_of(&rows[parent])?.element && !after_connection;
                if streams || is_qualified(row) || !child || known[parent].level >= LEVELS {
                    return None;
                }
            }
            level = known[parent].level + 1;
            steps = known[parent].steps;
        } else if row[0] == CONNECTION {
            return None;
        }
        let mut known_now = Known { level, steps, ..UNKNOWN };
        for (index, &rule) in kind.rules.iter().enumerate() {
            let [tag, first, second] = cell(row, index);
            if tag == 0 {
                if index < kind.required || first != 0 || second != 0 {
                    return None;
                }
                continue;
            }
            let length = content::<LEAST>(tag, first, second, rule, message)?;
            let size = around(around(length));
            if kind.element && index > 0 {
                known_now.contents += size;
            } else {
                known_now.own += size;
            }
        }
        if is_qualified(row) {
            let path = part(row[3], row[4], message)?;
            known_now.steps = path.iter().filter(|&&octet| octet < 0x80).count() as u32;
        } else if kind.element {
            known_now.steps += 1;
        }
        if known_now.steps > STEPS {
            return None;
        }
        known[place] = known_now;
    }
    Some(())
}

/// The parent's place: it is the entry before, or one of those around it.
fn parent_of(rows: &[Row], place: usize) -> Option<usize> {
    let parent = rows[place][1];
    let mut around = place as u64;
    while around != parent {
        // 0 is Root, which is around all.
        around = rows[(around as usize).checked_sub(1)?][1];
    }
    Some(parent as usize - 1)
}

fn part(start: u64, length: u64, message: &[u8]) -> Option<&[u8]> {
    let start = usize::try_from(start).ok()?;
    let length = usize::try_from(length).ok()?;
    if length > MESSAGE {
        return None;
    }
    message.get(start..start.checked_add(length)?)
}

/// The length of a value's content octets, if it is a value by the rule.
fn content<const LEAST: bool>(tag: u64, first: u64, second: u64, rule: Rule, message: &[u8]) -> Option<u32> {
    let fits = match rule {
        Rule::Nothing => false,
        Rule::Int(..) => tag == 2,
        Rule::Text | Rule::Name => tag == 12,
        Rule::Flag => tag == 1,
        Rule::Any => matches!(tag, 1 | 2 | 4 | 9 | 12),
        Rule::Path | Rule::Sources => tag == 13,
    };
    if !fits {
        return None;
    }
    match tag {
        1 => (first <= 1 && second == 0).then_some(1),
        2 => {
            let number = first as i64;
            if let Rule::Int(low, high) = rule {
                if number < low || number > high {
                    return None;
                }
            }
            (second == 0).then_some(integer_size(number))
        }
        9 => {
            let real = real(first)?;
            (second == 0).then_some(if LEAST { real.least_size() } else { real.size() })
        }
        _ => {
            let octets = part(first, second, message)?;
            let good = match rule {
                Rule::Name => is_name(octets),
                Rule::Path => {
                    let path = numbers(octets)?;
                    path.count > 0 && path.count <= STEPS as usize && !path.zero && !path.over
                }
                Rule::Sources => !numbers(octets)?.over,
                _ => true,
            };
            good.then_some(octets.len() as u32)
        }
    }
}

/// Octets of an integer.
fn integer_size(value: i64) -> u32 {
    let bits = 64 - (value ^ (value >> 63)).leading_zeros();
    bits / 8 + 1
}

enum Real {
    Zero,
    Infinity { negative: bool },
    Finite { negative: bool, power: i64, mantissa: u64 },
}

/// The mantissa made odd; none for minus zero and NaN.
fn real(bits: u64) -> Option<Real> {
    let negative = bits >> 63 == 1;
    let exponent = (bits >> 52 & 0x7FF) as i64;
    let fraction = bits & ((1 << 52) - 1);
    match (exponent, fraction) {
        (0x7FF, 0) => return Some(Real::Infinity { negative }),
        (0x7FF, _) => return None,
        (0, 0) => return (!negative).then_some(Real::Zero),
        _ => {}
    }
    let (mantissa, power) = if exponent == 0 { (fraction, -1_074) } else { (fraction | 1 << 52, exponent - 1_075) };
    let zeros = mantissa.trailing_zeros();
    Some(Real::Finite { negative, power: power + i64::from(zeros), mantissa: mantissa >> zeros })
}

impl Real {
    fn size(&self) -> u32 {
        match *self {
            Real::Zero => 0,
            Real::Infinity { .. } => 1,
            Real::Finite { power, mantissa, .. } => 1 + integer_size(power) + mantissa_size(mantissa),
        }
    }
}

impl Real {
    /// An exponent of two octets has only one if scale and free bits of the mantissa's first octet make it small enough.
    fn least_size(&self) -> u32 {
        match *self {
            Real::Finite { power, mantissa, .. } => {
                let free = i64::from(mantissa.leading_zeros() % 8);
                let shorter = power > 127 && power - 3 - free <= 127;
                self.size() - u32::from(shorter)
            }
            _ => self.size(),
        }
    }
}

fn mantissa_size(mantissa: u64) -> u32 {
    (64 - mantissa.leading_zeros()).div_ceil(8)
}

// ---- Sizes ----

/// The size of a tag around so many bytes. Longer ones than a message only have to stay so.
fn around(length: u32) -> u32 {
    let octets = match length {
        0..=0x7F => 1,
        0x80..=0xFF => 2,
        _ => 3,
    };
    1 + octets + length
}

/// Each entry adds itself to its parent's children or connections; gives the size of what stands at root level.
fn sum(rows: &[Row], known: &mut [Known; ENTRIES]) -> u32 {
    let mut items = 0;
    for (place, row) in rows.iter().enumerate().rev() {
        let Known { contents, children, connections, .. } = known[place];
        let mut own = known[place].own;
        for inner in [contents, children, connections] {
            if inner > 0 {
                own += around(around(inner));
            }
        }
        known[place].own = own;
        let size = around(around(own));
        match row[1] {
            0 => items += size,
            parent if row[0] == CONNECTION => known[parent as usize - 1].connections += size,
            parent => known[parent as usize - 1].children += size,
        }
    }
    items
}

// ---- Writing ----

struct Writer<'o> {
    out: &'o mut [u8],
    at: usize,
}

impl Writer<'_> {
    fn octet(&mut self, octet: u8) {
        self.out[self.at] = octet;
        self.at += 1;
    }

    fn octets(&mut self, octets: &[u8]) {
        self.out[self.at..self.at + octets.len()].copy_from_slice(octets);
        self.at += octets.len();
    }

    /// A tag and its length.
    fn head(&mut self, tag: u8, length: u32) {
        self.octet(tag);
        match length {
            0..=0x7F => {}
            0x80..=0xFF => self.octet(0x81),
            _ => {
                self.octet(0x82);
                self.octet((length >> 8) as u8);
            }
        }
        self.octet(length as u8);
    }

    /// A value's tag in a member's.
    fn value(&mut self, member: u8, tag: u8, length: u32) {
        self.head(0xA0 | member, around(length));
        self.head(tag, length);
    }

    /// The last so many octets of a number.
    fn number(&mut self, number: u64, size: u32) {
        let octets = number.to_be_bytes();
        self.octets(&octets[8 - size as usize..]);
    }

    fn entry(&mut self, rows: &[Row], place: usize, known: &[Known; ENTRIES], message: &[u8]) {
        let row = &rows[place];
        if row[1] != 0 {
            let parent = row[1] as usize - 1;
            if row[0] == CONNECTION {
                // The first of them opens the collection.
                if rows[place - 1][0] != CONNECTION || rows[place - 1][1] != row[1] {
                    self.value(5, 0x30, known[parent].connections);
                }
            } else if parent == place - 1 {
                self.value(2, 0x64, known[parent].children);
            }
        }
        let Some(kind) = kind_of(row) else { return };
        self.value(0, kind.tag, known[place].own);
        if kind.element {
            self.cells(row, 0..1, 0, message);
            if known[place].contents > 0 {
                self.value(1, 0x31, known[place].contents);
                self.cells(row, 1..CELLS, 1, message);
            }
        } else {
            self.cells(row, 0..3, 0, message);
        }
    }

    /// The members that are there; `first` is the cell of member 0.
    fn cells(&mut self, row: &Row, cells: Range<usize>, first: usize, message: &[u8]) {
        for index in cells {
            let words = cell(row, index);
            if words[0] != 0 {
                self.cell((index - first) as u8, words, message);
            }
        }
    }

    /// A member that holds a value.
    fn cell(&mut self, member: u8, [tag, first, second]: [u64; 3], message: &[u8]) {
        match tag {
            1 => {
                self.value(member, 0x01, 1);
                self.octet(if first == 1 { 0xFF } else { 0x00 });
            }
            2 => {
                let size = integer_size(first as i64);
                self.value(member, 0x02, size);
                self.number(first, size);
            }
            9 => {
                if let Some(real) = real(first) {
                    self.value(member, 0x09, real.size());
                    self.real(real);
                }
            }
            _ => {
                if let Some(octets) = part(first, second, message) {
                    self.value(member, tag as u8, octets.len() as u32);
                    self.octets(octets);
                }
            }
        }
    }

    fn real(&mut self, real: Real) {
        match real {
            Real::Zero => {}
            Real::Infinity { negative } => self.octet(0x40 | u8::from(negative)),
            Real::Finite { negative, power, mantissa } => {
                let size = integer_size(power);
                self.octet(0x80 | u8::from(negative) << 6 | (size - 1) as u8);
                self.number(power as u64, size);
                self.number(mantissa, mantissa_size(mantissa));
            }
        }
    }
}
