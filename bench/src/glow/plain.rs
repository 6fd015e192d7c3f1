//! A Glow tree reader in plain safe Rust, by document 01's rules, for the proved one to be measured against: one
//! recursive walk over the message, told by a sink what to keep.
use super::{Answer, Row, ENTRIES, MESSAGE};

/// A refusal: its number and place.
#[derive(Clone, Copy)]
struct No {
    number: u64,
    place: usize,
}

fn no<T>(number: u64, place: usize) -> Result<T, No> {
    Err(No { number, place })
}

const BER: u64 = 30;
const FORM: u64 = 31;
const DEPTH: u64 = 32;
const GLOW: u64 = 33;
const NUMBER: u64 = 34;
const REAL: u64 = 35;
const NAME: u64 = 36;
const PATH: u64 = 37;

/// Containers open at once, numbers in a path.
const CONTAINERS: u32 = 64;
const STEPS: usize = 16;

/// Class and constructed bit, as a tag's first octet has them.
const APPLICATION: u8 = 0x60;
const CONTEXT: u8 = 0xA0;
const SEQUENCES: u8 = 0x20;
const PRIMITIVE: u8 = 0x00;
const CONSTRUCTED: u8 = 0x20;
const CLASS: u8 = 0xC0;

/// What takes the entries.
trait Sink {
    fn entry(&mut self, place: usize, kind: u64, parent: u64);
    fn cell(&mut self, place: usize, cell: usize, words: [u64; 3]);
}

/// Keeps nothing: for judging a message.
struct Nothing;

impl Sink for Nothing {
    fn entry(&mut self, _: usize, _: u64, _: u64) {}
    fn cell(&mut self, _: usize, _: usize, _: [u64; 3]) {}
}

/// Rows as far as there are.
struct Rows<'t>(&'t mut [Row]);

impl Sink for Rows<'_> {
    fn entry(&mut self, place: usize, kind: u64, parent: u64) {
        if let Some(row) = self.0.get_mut(place) {
            *row = [0; 50];
            row[0] = kind;
            row[1] = parent;
        }
    }

    fn cell(&mut self, place: usize, cell: usize, words: [u64; 3]) {
        if let Some(row) = self.0.get_mut(place) {
            row[2 + 3 * cell..5 + 3 * cell].copy_from_slice(&words);
        }
    }
}

/// Judges the message first, and walks it a second time to fill the table.
pub fn read(message: &[u8], table: &mut [Row]) -> Answer {
    if table.len() > ENTRIES || message.len() > MESSAGE {
        return Answer::Setup;
    }
    let mut walk = Walk::new(message, Nothing);
    let streams = match walk.root() {
        Ok(streams) => streams,
        Err(no) => return Answer::Refused { number: no.number, place: no.place },
    };
    let count = walk.entries;
    if count > table.len() {
        return Answer::Room { count };
    }
    // Nothing refuses it now.
    let _ = Walk::new(message, Rows(table)).root();
    Answer::Read { streams, count }
}

/// The other way: walks once into rows of its own, and copies them at the end.
pub struct Once {
    rows: Vec<Row>,
}

impl Once {
    pub fn new() -> Once {
        Once { rows: vec![[0; 50]; ENTRIES] }
    }

    pub fn read(&mut self, message: &[u8], table: &mut [Row]) -> Answer {
        if table.len() > ENTRIES || message.len() > MESSAGE {
            return Answer::Setup;
        }
        let mut walk = Walk::new(message, Rows(&mut self.rows[..table.len()]));
        let streams = match walk.root() {
            Ok(streams) => streams,
            Err(no) => return Answer::Refused { number: no.number, place: no.place },
        };
        let count = walk.entries;
        if count > table.len() {
            return Answer::Room { count };
        }
        table[..count].copy_from_slice(&self.rows[..count]);
        Answer::Read { streams, count }
    }
}

/// A tag with its length, and where its content starts.
#[derive(Clone, Copy)]
struct Head {
    at: usize,
    /// Class and constructed bit.
    bits: u8,
    definite: bool,
    number: u32,
    length: usize,
    start: usize,
}

impl Head {
    fn is(&self, bits: u8, number: u32) -> bool {
        self.bits == bits && self.number == number
    }

    fn constructed(&self) -> bool {
        self.bits & CONSTRUCTED != 0
    }

    /// The container that it opens.
    fn open(&self, around: Open) -> Open {
        Open { definite: self.definite, end: if self.definite { self.start + self.length } else { around.end } }
    }
}

/// An open container: whether it has an end of its own, and the end of the nearest that has.
#[derive(Clone, Copy)]
struct Open {
    definite: bool,
    end: usize,
}

enum Next {
    /// The container's end, and the byte after it.
    End(usize, usize),
    Tag(Head),
}

/// What a collection holds.
#[derive(Clone, Copy)]
enum Items {
    Root,
    Children,
    Connections,
    Streams,
}

/// What a member must be.
#[derive(Clone, Copy)]
enum Rule {
    Int(i64, i64),
    Text,
    Name,
    Flag,
    Any,
    Sources,
}

const TOP: i64 = 2_147_483_647;
const I32: Rule = Rule::Int(-TOP - 1, TOP);
const FROM_0: Rule = Rule::Int(0, TOP);

fn parameter_rule(number: u32) -> Option<Rule> {
    Some(match number {
        0 => Rule::Name,
        1 => Rule::Text,
        2..=4 => Rule::Any,
        5 => Rule::Int(0, 3),
        8 | 11 => I32,
        9 => Rule::Flag,
        14 => FROM_0,
        _ => return None,
    })
}

fn node_rule(number: u32) -> Option<Rule> {
    Some(match number {
        0 => Rule::Name,
        1 => Rule::Text,
        2 | 3 => Rule::Flag,
        _ => return None,
    })
}

fn matrix_rule(number: u32) -> Option<Rule> {
    Some(match number {
        0 => Rule::Name,
        1 => Rule::Text,
        2 => Rule::Int(0, 2),
        3 => Rule::Int(0, 1),
        4..=7 => FROM_0,
        _ => return None,
    })
}

fn command_rule(number: u32) -> Option<Rule> {
    matches!(number, 0 | 1).then_some(I32)
}

fn connection_rule(number: u32) -> Option<Rule> {
    Some(match number {
        0 => FROM_0,
        1 => Rule::Sources,
        2 => Rule::Int(0, 2),
        _ => return None,
    })
}

fn stream_rule(number: u32) -> Option<Rule> {
    Some(match number {
        0 => FROM_0,
        1 => Rule::Any,
        _ => return None,
    })
}

struct Walk<'m, S> {
    message: &'m [u8],
    entries: usize,
    /// Room for passing over containers.
    stack: [Open; CONTAINERS as usize],
    sink: S,
}

impl<'m, S: Sink> Walk<'m, S> {
    fn new(message: &'m [u8], sink: S) -> Walk<'m, S> {
        Walk { message, entries: 0, stack: [Open { definite: true, end: 0 }; CONTAINERS as usize], sink }
    }

    // ---- Tags ----

    /// The tag at `at`; `end` is the end of the nearest definite container.
    #[inline(always)]
    fn head(&self, at: usize, end: usize) -> Result<Head, No> {
        // Mostly one octet each.
        if let Some(&[first, length]) = self.message.get(at..at + 2) {
            if first & 0x1F != 0x1F && at + 2 <= end {
                let (bits, number, start) = (first & 0xE0, u32::from(first & 0x1F), at + 2);
                if length < 0x80 {
                    let length = usize::from(length);
                    if start + length > end {
                        return no(BER, at);
                    }
                    return Ok(Head { at, bits, definite: true, number, length, start });
                }
                if length == 0x80 && bits & CONSTRUCTED != 0 {
                    return Ok(Head { at, bits, definite: false, number, length: 0, start });
                }
            }
        }
        self.long_head(at, end)
    }

    fn long_head(&self, at: usize, end: usize) -> Result<Head, No> {
        let size = self.message.len();
        let cut = if end <= size { at } else { size };
        let stop = end.min(size);
        let octet = |place: usize| if place < stop { Ok(self.message[place]) } else { no(BER, cut) };
        let first = octet(at)?;
        let mut place = at + 1;
        let mut number = u32::from(first & 0x1F);
        if number == 0x1F {
            number = 0;
            let mut count = 0;
            loop {
                let part = octet(place)?;
                place += 1;
                count += 1;
                if count == 1 && part == 0x80 || count == 4 && part >= 0x80 {
                    return no(BER, at);
                }
                number = number << 7 | u32::from(part & 0x7F);
                if part < 0x80 {
                    break;
                }
            }
        }
        let bits = first & 0xE0;
        let short = octet(place)?;
        place += 1;
        let length = match short {
            0..=0x7F => usize::from(short),
            0x80 if bits & CONSTRUCTED != 0 => {
                return Ok(Head { at, bits, definite: false, number, length: 0, start: place });
            }
            0x81..=0x84 => {
                let mut length = 0;
                for _ in 0x80..short {
                    length = length << 8 | usize::from(octet(place)?);
                    place += 1;
                }
                length
            }
            _ => return no(BER, at),
        };
        if length > end - place {
            return no(BER, at);
        }
        Ok(Head { at, bits, definite: true, number, length, start: place })
    }

    /// What stands at `at` in an open container.
    #[inline]
    fn next(&self, at: usize, open: Open) -> Result<Next, No> {
        if at == open.end {
            return if open.definite { Ok(Next::End(at, at)) } else { no(BER, at) };
        }
        match self.message.get(at) {
            None => no(BER, self.message.len()),
            Some(0) => self.zero(at, open),
            Some(_) => Ok(Next::Tag(self.head(at, open.end)?)),
        }
    }

    /// A 00: the end of an indefinite container, or a fault.
    fn zero(&self, at: usize, open: Open) -> Result<Next, No> {
        if open.definite || at + 1 == open.end {
            return no(BER, at);
        }
        match self.message.get(at + 1) {
            None => no(BER, self.message.len()),
            Some(0) => Ok(Next::End(at, at + 2)),
            Some(_) => no(BER, at),
        }
    }

    /// Containers still allowed inside a tag.
    fn room(&self, head: &Head, room: u32) -> Result<u32, No> {
        match room {
            _ if !head.constructed() => Ok(room),
            0 => no(DEPTH, head.at),
            _ => Ok(room - 1),
        }
    }

    /// The one value in an outer tag: of the same form.
    fn value(&self, outer: &Head, open: Open, room: u32) -> Result<(Head, u32), No> {
        match self.next(outer.start, open)? {
            Next::End(place, _) => no(GLOW, place),
            Next::Tag(head) if head.definite != outer.definite => no(FORM, head.at),
            Next::Tag(head) => {
                let room = self.room(&head, room)?;
                Ok((head, room))
            }
        }
    }

    /// An outer tag ends after its value.
    #[inline]
    fn close(&self, at: usize, open: Open, room: u32) -> Result<usize, No> {
        match self.next(at, open)? {
            Next::End(_, after) => Ok(after),
            Next::Tag(head) => {
                self.room(&head, room)?;
                no(GLOW, head.at)
            }
        }
    }

    fn octets(&self, head: &Head) -> Result<&[u8], No> {
        match self.message.get(head.start..head.start + head.length) {
            Some(octets) => Ok(octets),
            None => no(BER, self.message.len()),
        }
    }

    /// A member that is not listed. The containers around the open one wait in a stack.
    fn pass(&mut self, head: &Head, around: Open, room: u32) -> Result<usize, No> {
        if !head.constructed() {
            self.octets(head)?;
            return Ok(head.start + head.length);
        }
        let mut open = head.open(around);
        let mut at = head.start;
        let mut waiting = 0;
        loop {
            match self.next(at, open)? {
                Next::End(_, after) => {
                    if waiting == 0 {
                        return Ok(after);
                    }
                    at = after;
                    waiting -= 1;
                    open = self.stack[waiting];
                }
                Next::Tag(inner) if inner.constructed() => {
                    if waiting == room as usize {
                        return no(DEPTH, inner.at);
                    }
                    self.stack[waiting] = open;
                    waiting += 1;
                    open = inner.open(open);
                    at = inner.start;
                }
                Next::Tag(inner) => {
                    self.octets(&inner)?;
                    at = inner.start + inner.length;
                }
            }
        }
    }

    // ---- Root, collections, elements ----

    /// Whether it holds streams.
    fn root(&mut self) -> Result<bool, No> {
        if self.message.first() == Some(&0) {
            return no(BER, 0);
        }
        let outside = Open { definite: true, end: usize::MAX };
        let root = self.head(0, usize::MAX)?;
        if !root.is(APPLICATION, 0) {
            return no(GLOW, 0);
        }
        let open = root.open(outside);
        let (value, room) = self.value(&root, open, CONTAINERS - 1)?;
        let items = match (value.bits, value.number) {
            (APPLICATION, 11) => Items::Root,
            (APPLICATION, 5) => Items::Streams,
            _ => return no(GLOW, value.at),
        };
        let after = self.items(&value, open, room, items, 0, 0)?;
        let end = self.close(after, open, CONTAINERS - 1)?;
        if end < self.message.len() {
            return no(BER, end);
        }
        Ok(matches!(items, Items::Streams))
    }

    /// A collection's items. `parent` is the parent's place plus 1, `steps` the length of its path.
    fn items(&mut self, tag: &Head, around: Open, room: u32, items: Items, parent: u64, steps: usize) -> Result<usize, No> {
        let open = tag.open(around);
        let mut at = tag.start;
        loop {
            let item = match self.next(at, open)? {
                Next::End(_, after) => return Ok(after),
                Next::Tag(item) => item,
            };
            let room = self.room(&item, room)?;
            if !item.is(CONTEXT, 0) {
                return no(GLOW, item.at);
            }
            let inside = item.open(open);
            let (value, deeper) = self.value(&item, inside, room)?;
            if value.bits != APPLICATION {
                return no(GLOW, value.at);
            }
            let after = match (items, value.number) {
                (Items::Root | Items::Children, 2) => self.leaf(&value, inside, deeper, 2, parent, command_rule, 1)?,
                (Items::Root | Items::Children, 1) => self.element(&value, inside, deeper, 1, parent, steps)?,
                (Items::Root | Items::Children, 3) => self.element(&value, inside, deeper, 3, parent, steps)?,
                (Items::Root | Items::Children, 13) => self.element(&value, inside, deeper, 4, parent, steps)?,
                (Items::Root, 9) => self.element(&value, inside, deeper, 5, parent, steps)?,
                (Items::Root, 10) => self.element(&value, inside, deeper, 6, parent, steps)?,
                (Items::Root, 17) => self.element(&value, inside, deeper, 7, parent, steps)?,
                (Items::Connections, 16) => self.leaf(&value, inside, deeper, 8, parent, connection_rule, 1)?,
                (Items::Streams, 6) => self.leaf(&value, inside, deeper, 9, 0, stream_rule, 2)?,
                _ => return no(GLOW, value.at),
            };
            at = self.close(after, inside, room)?;
        }
    }

    fn entry(&mut self, kind: u64, parent: u64) -> usize {
        let place = self.entries;
        self.entries += 1;
        self.sink.entry(place, kind, parent);
        place
    }

    /// A parameter, node or matrix, qualified or not.
    fn element(&mut self, tag: &Head, around: Open, room: u32, kind: u64, parent: u64, steps: usize) -> Result<usize, No> {
        let place = self.entry(kind, parent);
        let open = tag.open(around);
        let mut at = tag.start;
        let mut last = None;
        let mut path = 0;
        loop {
            let member = match self.next(at, open)? {
                Next::End(end, _) if last.is_none() => return no(GLOW, end),
                Next::End(_, after) => return Ok(after),
                Next::Tag(member) => member,
            };
            let room = self.room(&member, room)?;
            let number = member.number;
            // In order, and the first of them is the number or path.
            let ordered = match last {
                None => number == 0,
                Some(last) => number > last,
            };
            if member.bits & CLASS != CONTEXT & CLASS || !ordered {
                return no(GLOW, member.at);
            }
            last = Some(number);
            let listed = number < 3 || number == 5 && matches!(kind, 4 | 7);
            if !listed {
                at = self.pass(&member, open, room)?;
                continue;
            }
            if !member.constructed() {
                return no(GLOW, member.at);
            }
            let inside = member.open(open);
            let (value, deeper) = self.value(&member, inside, room)?;
            let after = match number {
                0 => {
                    path = if kind >= 5 { self.path(&value, place)? } else { self.number(&value, place, steps)? };
                    value.start + value.length
                }
                1 if value.is(SEQUENCES, 17) => match kind {
                    1 | 5 => self.contents(&value, inside, deeper, place, parameter_rule)?,
                    3 | 6 => self.contents(&value, inside, deeper, place, node_rule)?,
                    _ => self.contents(&value, inside, deeper, place, matrix_rule)?,
                },
                2 if value.is(APPLICATION, 4) => self.items(&value, inside, deeper, Items::Children, place as u64 + 1, path)?,
                5 if value.is(SEQUENCES, 16) => self.items(&value, inside, deeper, Items::Connections, place as u64 + 1, path)?,
                _ => return no(GLOW, value.at),
            };
            at = self.close(after, inside, room)?;
        }
    }

    /// The members of a contents set: in any order, no listed one twice.
    fn contents(
        &mut self,
        set: &Head,
        around: Open,
        room: u32,
        place: usize,
        rule: impl Fn(u32) -> Option<Rule>,
    ) -> Result<usize, No> {
        let open = set.open(around);
        let mut at = set.start;
        let mut seen = 0u32;
        loop {
            let member = match self.next(at, open)? {
                Next::End(_, after) => return Ok(after),
                Next::Tag(member) => member,
            };
            let room = self.room(&member, room)?;
            if member.bits & CLASS != CONTEXT & CLASS {
                return no(GLOW, member.at);
            }
            at = match rule(member.number) {
                None => self.pass(&member, open, room)?,
                Some(rule) => {
                    if !member.constructed() || seen >> member.number & 1 != 0 {
                        return no(GLOW, member.at);
                    }
                    seen |= 1 << member.number;
                    self.member(&member, open, room, rule, place, member.number as usize + 1)?
                }
            };
        }
    }

    /// A command, connection or stream entry: a sequence whose first `required` members must be there.
    #[allow(clippy::too_many_arguments)]
    fn leaf(
        &mut self,
        tag: &Head,
        around: Open,
        room: u32,
        kind: u64,
        parent: u64,
        rule: impl Fn(u32) -> Option<Rule>,
        required: u32,
    ) -> Result<usize, No> {
        let place = self.entry(kind, parent);
        let open = tag.open(around);
        let mut at = tag.start;
        // The lowest number that may come, and how many required ones have.
        let mut lowest = 0;
        let mut have = 0;
        loop {
            let member = match self.next(at, open)? {
                Next::End(end, _) if have < required => return no(GLOW, end),
                Next::End(_, after) => return Ok(after),
                Next::Tag(member) => member,
            };
            let room = self.room(&member, room)?;
            let number = member.number;
            if member.bits & CLASS != CONTEXT & CLASS || number < lowest || have < required && number > have {
                return no(GLOW, member.at);
            }
            lowest = number + 1;
            at = match rule(number) {
                None => self.pass(&member, open, room)?,
                Some(_) if !member.constructed() => return no(GLOW, member.at),
                Some(rule) => {
                    have += 1;
                    self.member(&member, open, room, rule, place, number as usize)?
                }
            };
        }
    }

    /// A listed member that holds a value.
    #[inline]
    fn member(&mut self, member: &Head, around: Open, room: u32, rule: Rule, place: usize, cell: usize) -> Result<usize, No> {
        let inside = member.open(around);
        let (value, _) = self.value(member, inside, room)?;
        let words = self.judged(&value, rule)?;
        self.sink.cell(place, cell, words);
        self.close(value.start + value.length, inside, room)
    }

    // ---- Values ----

    fn number(&mut self, value: &Head, place: usize, steps: usize) -> Result<usize, No> {
        let words = self.judged(value, Rule::Int(1, TOP))?;
        if steps + 1 > STEPS {
            return no(PATH, value.at);
        }
        self.sink.cell(place, 0, words);
        Ok(steps + 1)
    }

    fn path(&mut self, value: &Head, place: usize) -> Result<usize, No> {
        if !value.is(PRIMITIVE, 13) {
            return no(GLOW, value.at);
        }
        let Some(numbers) = numbers(self.octets(value)?) else {
            return no(BER, value.at);
        };
        if numbers.count == 0 || numbers.count > STEPS || numbers.zero || numbers.over {
            return no(PATH, value.at);
        }
        self.sink.cell(place, 0, [13, value.start as u64, value.length as u64]);
        Ok(numbers.count)
    }

    /// A value's cell, by its rule.
    fn judged(&self, value: &Head, rule: Rule) -> Result<[u64; 3], No> {
        let fits = value.bits == PRIMITIVE
            && match rule {
                Rule::Int(..) => value.number == 2,
                Rule::Text | Rule::Name => value.number == 12,
                Rule::Flag => value.number == 1,
                Rule::Any => matches!(value.number, 1 | 2 | 4 | 9 | 12),
                Rule::Sources => value.number == 13,
            };
        if !fits {
            return no(GLOW, value.at);
        }
        let octets = self.octets(value)?;
        let content = match value.number {
            1 => match octets {
                [octet] => [u64::from(*octet != 0), 0],
                _ => return no(BER, value.at),
            },
            2 => {
                let Some(number) = integer(octets) else {
                    return no(BER, value.at);
                };
                match rule {
                    Rule::Int(low, high) if number < low || number > high => return no(NUMBER, value.at),
                    _ => [number as u64, 0],
                }
            }
            9 => match real(octets) {
                Some(bits) => [bits, 0],
                None => return no(REAL, value.at),
            },
            12 => {
                if matches!(rule, Rule::Name) && !is_name(octets) {
                    return no(NAME, value.at);
                }
                part(value)
            }
            13 => match numbers(octets) {
                None => return no(BER, value.at),
                Some(numbers) if numbers.over => return no(NUMBER, value.at),
                Some(_) => part(value),
            },
            _ => part(value),
        };
        Ok([u64::from(value.number), content[0], content[1]])
    }
}

fn part(value: &Head) -> [u64; 2] {
    [value.start as u64, value.length as u64]
}

fn integer(octets: &[u8]) -> Option<i64> {
    match octets {
        [octet] => Some(i64::from(*octet as i8)),
        [] | [0x00, 0x00..=0x7F, ..] | [0xFF, 0x80..=0xFF, ..] => None,
        [first, rest @ ..] if rest.len() < 8 => {
            Some(rest.iter().fold(i64::from(*first as i8), |number, &octet| number << 8 | i64::from(octet)))
        }
        _ => None,
    }
}

pub fn is_name(octets: &[u8]) -> bool {
    octets.first().is_some_and(|&first| first.is_ascii_alphabetic() || first == b'_') && !octets.contains(&b'/')
}

/// The double's bits.
fn real(octets: &[u8]) -> Option<u64> {
    let (first, rest) = match octets {
        [] => return Some(0),
        [0x40] => return Some(f64::INFINITY.to_bits()),
        [0x41] => return Some(f64::NEG_INFINITY.to_bits()),
        [first, rest @ ..] => (*first, rest),
    };
    let size = usize::from(first & 3) + 1;
    if first & 0xB0 != 0x80 || size > 3 || rest.len() <= size || rest.len() > size + 8 {
        return None;
    }
    let (exponent, mantissa) = rest.split_at(size);
    let power = exponent[1..].iter().fold(i64::from(exponent[0] as i8), |power, &octet| power << 8 | i64::from(octet));
    let mantissa = mantissa.iter().fold(0u64, |mantissa, &octet| mantissa << 8 | u64::from(octet));
    if mantissa == 0 {
        return None;
    }
    let zeros = mantissa.trailing_zeros();
    let mantissa = mantissa >> zeros;
    let power = power + i64::from(first >> 2 & 3) + i64::from(zeros);
    let bits = i64::from(64 - mantissa.leading_zeros());
    if bits > 53 || power < -1_074 || bits + power > 1_024 {
        return None;
    }
    let sign = u64::from(first & 0x40) << 57;
    let exponent = bits + power + 1_022;
    let number = if exponent > 0 {
        // The leading one is not written.
        (exponent as u64) << 52 | (mantissa << (53 - bits)) & ((1 << 52) - 1)
    } else {
        mantissa << (power + 1_074)
    };
    Some(sign | number)
}

pub struct Numbers {
    pub count: usize,
    pub zero: bool,
    pub over: bool,
}

/// What a relative identifier holds; none for bad octets.
pub fn numbers(octets: &[u8]) -> Option<Numbers> {
    let mut numbers = Numbers { count: 0, zero: false, over: false };
    let mut number = 0u64;
    let mut inside = false;
    for &octet in octets {
        if !inside && octet == 0x80 {
            return None;
        }
        // Over 2^31 it stays over, however long it is.
        number = (number << 7 | u64::from(octet & 0x7F)).min(1 << 40);
        inside = octet >= 0x80;
        if !inside {
            numbers.count += 1;
            numbers.zero |= number == 0;
            numbers.over |= number > TOP as u64;
            number = 0;
        }
    }
    if inside {
        return None;
    }
    Some(numbers)
}
