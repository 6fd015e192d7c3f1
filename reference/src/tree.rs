//! The tree reader (document 01, "Glow", "Numbers answered"; places by document 02, request 09).

use crate::framing::{MESSAGE_MAX, SETUP};
use crate::values::{
    self, read_bool, read_int, read_oid, read_tag, refusal, Oid, Refusal, Tag, Value, APPLICATION, BER, CONTEXT, DEPTH, FORM,
    GLOW, NAME, NUMBER, NUMBER_MAX, PATH, ROOM, UNIVERSAL,
};

/// "At most 64 containers, outer tags among them, open at once."
pub const CONTAINERS_MAX: usize = 64;
/// "The lent table has 0 to 256 entries".
pub const TABLE_MAX: usize = 256;
/// "A full path has 1 to 16 numbers."
pub const PATH_MAX: usize = 16;

// "Application numbers". "The chapter 'Application defined types' decides for streams."
pub const ROOT: u64 = 0;
pub const PARAMETER: u64 = 1;
pub const COMMAND: u64 = 2;
pub const NODE: u64 = 3;
pub const ELEMENT_COLLECTION: u64 = 4;
pub const STREAM_COLLECTION: u64 = 5;
pub const STREAM_ENTRY: u64 = 6;
pub const QUALIFIED_PARAMETER: u64 = 9;
pub const QUALIFIED_NODE: u64 = 10;
pub const ROOT_ELEMENT_COLLECTION: u64 = 11;
pub const MATRIX: u64 = 13;
pub const CONNECTION: u64 = 16;
pub const QUALIFIED_MATRIX: u64 = 17;

// Universal numbers (001, "The tag format"), beside those of the values.
pub use crate::values::{BOOLEAN_TAG, INTEGER_TAG, OCTETS_TAG, REAL_TAG, TEXT_TAG};
pub const OID_TAG: u64 = 13;
pub const SEQUENCE_TAG: u64 = 16;
pub const SET_TAG: u64 = 17;

/// "command, mask, factor and step are signed 32-bit"
pub const SIGNED_32: (i64, i64) = (-2_147_483_648, 2_147_483_647);
/// "Numbers are 1 to 2,147,483,647"
pub const FROM_1: (i64, i64) = (1, NUMBER_MAX as i64);
/// "target, source and stream numbers, counts and limits start at 0"
pub const FROM_0: (i64, i64) = (0, NUMBER_MAX as i64);
/// "Type and operation are 0 to 2, mode 0 or 1, access 0 to 3"
pub const TO_2: (i64, i64) = (0, 2);
pub const TO_1: (i64, i64) = (0, 1);
pub const TO_3: (i64, i64) = (0, 3);

/// "The answer names Root's kind."
#[derive(Clone, Copy, PartialEq, Eq, Debug)]
pub enum RootKind {
    Elements,
    Streams,
}

#[derive(Clone, PartialEq, Eq, Debug)]
pub enum Key {
    Number(i64),
    /// Qualified.
    Path(Vec<u64>),
}

#[derive(Clone, PartialEq, Debug, Default)]
pub struct ParameterContents {
    pub identifier: Option<Vec<u8>>,
    pub description: Option<Vec<u8>>,
    pub value: Option<Value>,
    pub minimum: Option<Value>,
    pub maximum: Option<Value>,
    pub access: Option<i64>,
    pub factor: Option<i64>,
    pub online: Option<bool>,
    pub step: Option<i64>,
    pub stream_identifier: Option<i64>,
}

#[derive(Clone, PartialEq, Debug, Default)]
pub struct NodeContents {
    pub identifier: Option<Vec<u8>>,
    pub description: Option<Vec<u8>>,
    pub root: Option<bool>,
    pub online: Option<bool>,
}

#[derive(Clone, PartialEq, Debug, Default)]
pub struct MatrixContents {
    pub identifier: Option<Vec<u8>>,
    pub description: Option<Vec<u8>>,
    pub kind: Option<i64>,
    pub mode: Option<i64>,
    pub targets: Option<i64>,
    pub sources: Option<i64>,
    pub total_limit: Option<i64>,
    pub target_limit: Option<i64>,
}

#[derive(Clone, PartialEq, Debug)]
pub enum Body {
    Parameter(Key, ParameterContents),
    Node(Key, NodeContents),
    Matrix(Key, MatrixContents),
    Command { number: i64, mask: Option<i64> },
    Connection { target: i64, sources: Option<Vec<u64>>, operation: Option<i64> },
    StreamEntry { identifier: i64, value: Value },
}

/// "Each element, connection and stream entry is one entry, in message order, with its parent's place."
#[derive(Clone, PartialEq, Debug)]
pub struct Entry {
    pub parent: Option<usize>,
    pub body: Body,
}

#[derive(Clone, PartialEq, Debug)]
pub struct Tree {
    pub kind: RootKind,
    pub entries: Vec<Entry>,
}

#[derive(Clone, PartialEq, Debug)]
pub enum Answer {
    Tree(Tree),
    /// 1: table over 256 entries or message over 16,384 bytes.
    Setup,
    Refused(Refusal),
    /// 38, with how many entries the message has.
    Room(usize),
}

impl Answer {
    pub fn number(&self) -> u8 {
        match self {
            Answer::Tree(_) => 0,
            Answer::Setup => SETUP,
            Answer::Refused(refusal) => refusal.number,
            Answer::Room(_) => ROOM,
        }
    }
}

/// Reads a message for a table of that many entries.
pub fn read(message: &[u8], table: usize) -> Answer {
    if table > TABLE_MAX || message.len() > MESSAGE_MAX {
        return Answer::Setup;
    }
    let mut reader = Reader { message, entries: Vec::new() };
    match reader.root() {
        Err(refusal) => Answer::Refused(refusal),
        // "message right, table too small; says how many"
        Ok(_) if reader.entries.len() > table => Answer::Room(reader.entries.len()),
        Ok(kind) => Answer::Tree(Tree { kind, entries: reader.entries }),
    }
}

/// An open container.
#[derive(Clone, Copy)]
struct Container {
    /// Its own end, if definite.
    end: Option<usize>,
    /// The end of the nearest definite container, itself included.
    limit: Option<usize>,
    /// How many containers are open, itself included.
    open: usize,
}

/// What stands next in a container: a tag whose own octets are right, or the container's end.
enum Next {
    Tag(Tag),
    /// The place of the end (if indefinite, its first 00), and the byte after the container.
    End {
        place: usize,
        after: usize,
    },
}

struct Reader<'a> {
    message: &'a [u8],
    entries: Vec<Entry>,
}

type At = Result<usize, Refusal>;

impl<'a> Reader<'a> {
    // ---- Tags, ends, forms and depth ----

    fn enter(&self, tag: &Tag, around: Container) -> Container {
        let end = tag.length.map(|length| tag.content + length as usize);
        Container { end, limit: end.or(around.limit), open: around.open + 1 }
    }

    fn next(&self, at: usize, container: Container) -> Result<Next, Refusal> {
        match container.end {
            Some(end) if at == end => return Ok(Next::End { place: end, after: end }),
            // A closing 00 missing at the end of a definite container around it.
            None if container.limit == Some(at) => return refusal(BER, at),
            _ => {}
        }
        if at >= self.message.len() {
            return refusal(BER, self.message.len()); // bytes run out
        }
        if self.message[at] == 0x00 {
            return self.end_of_contents(at, container);
        }
        Ok(Next::Tag(read_tag(self.message, at, container.limit)?))
    }

    /// A tag 00: it ends an indefinite container with a second 00, and else "ends nothing".
    fn end_of_contents(&self, at: usize, container: Container) -> Result<Next, Refusal> {
        if container.end.is_some() || container.limit == Some(at + 1) {
            return refusal(BER, at);
        }
        match self.message.get(at + 1) {
            None => refusal(BER, self.message.len()),
            Some(0x00) => Ok(Next::End { place: at, after: at + 2 }),
            Some(_) => refusal(BER, at),
        }
    }

    /// "65th container"
    fn depth(&self, tag: &Tag, around: Container) -> Result<(), Refusal> {
        if tag.constructed && around.open == CONTAINERS_MAX {
            return refusal(DEPTH, tag.place);
        }
        Ok(())
    }

    /// The tag of the one value in an outer tag. "An outer tag around one value (Root, each member, each
    /// collection item) has the same form, definite or indefinite, as the value inside."
    fn inner(&self, outer: &Tag, container: Container) -> Result<Tag, Refusal> {
        match self.next(outer.content, container)? {
            Next::End { place, .. } => refusal(GLOW, place), // "a member or value missing"
            Next::Tag(tag) => {
                if tag.length.is_none() != outer.length.is_none() {
                    return refusal(FORM, tag.place);
                }
                self.depth(&tag, container)?;
                Ok(tag)
            }
        }
    }

    /// An outer tag ends after its one value.
    fn close(&self, at: usize, container: Container) -> At {
        match self.next(at, container)? {
            Next::End { after, .. } => Ok(after),
            Next::Tag(tag) => {
                self.depth(&tag, container)?;
                refusal(GLOW, tag.place)
            }
        }
    }

    fn expect(&self, tag: &Tag, class: u8, constructed: bool, number: u64) -> Result<(), Refusal> {
        if (tag.class, tag.constructed, tag.number) != (class, constructed, number) {
            return refusal(GLOW, tag.place);
        }
        Ok(())
    }

    fn octets(&self, tag: &Tag) -> Result<(&'a [u8], usize), Refusal> {
        values::content(self.message, tag)
    }

    /// "a context tag we don't list is passed over, its value checked for tags, lengths and depth alone"
    fn pass_over(&self, tag: &Tag, around: Container) -> At {
        if !tag.constructed {
            return Ok(self.octets(tag)?.1);
        }
        let container = self.enter(tag, around);
        let mut at = tag.content;
        loop {
            match self.next(at, container)? {
                Next::End { after, .. } => return Ok(after),
                Next::Tag(tag) => {
                    self.depth(&tag, container)?;
                    at = self.pass_over(&tag, container)?;
                }
            }
        }
    }

    /// The members of a sequence ("strictly ascending tag order") or a set ("any order, no listed one
    /// twice"). `take` reads a listed one from its outer tag to the byte after it.
    fn members(
        &mut self,
        tag: &Tag,
        container: Container,
        sequence: bool,
        listed: &[u64],
        required: &[u64],
        take: &mut dyn FnMut(&mut Self, &Tag, Container) -> At,
    ) -> At {
        let mut at = tag.content;
        let mut seen: Vec<u64> = Vec::new();
        let mut last: Option<u64> = None;
        loop {
            let tag = match self.next(at, container)? {
                // "A missing member is found at the first higher tag or its container's end."
                Next::End { place, .. } if required.iter().any(|number| !seen.contains(number)) => return refusal(GLOW, place),
                Next::End { after, .. } => return Ok(after),
                Next::Tag(tag) => tag,
            };
            self.depth(&tag, container)?;
            let is_listed = listed.contains(&tag.number);
            if tag.class != CONTEXT
                || sequence && last.is_some_and(|last| tag.number <= last)
                || required.iter().any(|&number| number < tag.number && !seen.contains(&number))
                || is_listed && (!tag.constructed || seen.contains(&tag.number))
            {
                return refusal(GLOW, tag.place);
            }
            last = Some(tag.number);
            at = if is_listed {
                seen.push(tag.number);
                let inside = self.enter(&tag, container);
                take(self, &tag, inside)?
            } else {
                self.pass_over(&tag, container)?
            };
        }
    }

    /// The items of a collection: "Item of any collection: 0, no other." `take` reads the value in an item.
    fn items(&mut self, tag: &Tag, container: Container, take: &mut dyn FnMut(&mut Self, &Tag, Container) -> At) -> At {
        let mut at = tag.content;
        loop {
            let item = match self.next(at, container)? {
                Next::End { after, .. } => return Ok(after),
                Next::Tag(item) => item,
            };
            self.depth(&item, container)?;
            self.expect(&item, CONTEXT, true, 0)?;
            let inside = self.enter(&item, container);
            let value = self.inner(&item, inside)?;
            let after = take(self, &value, inside)?;
            at = self.close(after, inside)?;
        }
    }

    // ---- Root, collections, elements ----

    fn root(&mut self) -> Result<RootKind, Refusal> {
        if self.message.first() == Some(&0x00) {
            return refusal(BER, 0); // "a tag 00 that ends nothing"
        }
        let outside = Container { end: None, limit: None, open: 0 };
        let tag = read_tag(self.message, 0, None)?;
        self.expect(&tag, APPLICATION, true, ROOT)?;
        let container = self.enter(&tag, outside);
        let value = self.inner(&tag, container)?;
        if value.class != APPLICATION || !value.constructed {
            return refusal(GLOW, value.place);
        }
        let inside = self.enter(&value, container);
        let (kind, after) = match value.number {
            ROOT_ELEMENT_COLLECTION => {
                let after = self.items(&value, inside, &mut |reader, tag, around| reader.element(tag, around, None, 0))?;
                (RootKind::Elements, after)
            }
            STREAM_COLLECTION => {
                let after = self.items(&value, inside, &mut |reader, tag, around| reader.stream_entry(tag, around))?;
                (RootKind::Streams, after)
            }
            _ => return refusal(GLOW, value.place),
        };
        let end = self.close(after, container)?;
        if end < self.message.len() {
            return refusal(BER, end); // "the first byte left after Root"
        }
        Ok(kind)
    }

    /// An element. `parent` is its parent's place and `steps` the length of its parent's full path; both are
    /// none at root level, where alone "Qualified elements stand".
    fn element(&mut self, tag: &Tag, around: Container, parent: Option<usize>, steps: usize) -> At {
        if tag.class != APPLICATION || !tag.constructed {
            return refusal(GLOW, tag.place);
        }
        let container = self.enter(tag, around);
        let place = self.entries.len();
        let key = Key::Number(0);
        let (body, qualified) = match (tag.number, parent) {
            (COMMAND, _) => return self.command(tag, container, parent),
            (PARAMETER, _) => (Body::Parameter(key, ParameterContents::default()), false),
            (NODE, _) => (Body::Node(key, NodeContents::default()), false),
            (MATRIX, _) => (Body::Matrix(key, MatrixContents::default()), false),
            (QUALIFIED_PARAMETER, None) => (Body::Parameter(key, ParameterContents::default()), true),
            (QUALIFIED_NODE, None) => (Body::Node(key, NodeContents::default()), true),
            (QUALIFIED_MATRIX, None) => (Body::Matrix(key, MatrixContents::default()), true),
            _ => return refusal(GLOW, tag.place),
        };
        let listed: &[u64] = if matches!(body, Body::Matrix(..)) { &[0, 1, 2, 5] } else { &[0, 1, 2] };
        self.entries.push(Entry { parent, body });
        let mut path_length = 0;
        self.members(tag, container, true, listed, &[0], &mut |reader, member, inside| match member.number {
            0 => {
                let (key, length, after) = reader.key(member, inside, qualified, steps)?;
                path_length = length;
                match &mut reader.entries[place].body {
                    Body::Parameter(at, _) | Body::Node(at, _) | Body::Matrix(at, _) => *at = key,
                    _ => unreachable!(),
                }
                Ok(after)
            }
            1 => reader.contents(member, inside, place),
            2 => {
                let value = reader.inner(member, inside)?;
                reader.expect(&value, APPLICATION, true, ELEMENT_COLLECTION)?;
                let collection = reader.enter(&value, inside);
                let after = reader.items(&value, collection, &mut |reader, tag, around| {
                    reader.element(tag, around, Some(place), path_length)
                })?;
                reader.close(after, inside)
            }
            _ => {
                let value = reader.inner(member, inside)?;
                reader.expect(&value, UNIVERSAL, true, SEQUENCE_TAG)?;
                let collection = reader.enter(&value, inside);
                let after = reader.items(&value, collection, &mut |reader, tag, around| reader.connection(tag, around, place))?;
                reader.close(after, inside)
            }
        })
    }

    /// A number or a path; also the length of the element's full path.
    fn key(&self, member: &Tag, inside: Container, qualified: bool, steps: usize) -> Result<(Key, usize, usize), Refusal> {
        if qualified {
            let (tag, octets, after) = self.primitive(member, inside, OID_TAG)?;
            let Oid::Numbers(numbers) = read_oid(octets) else { return refusal(BER, tag.place) };
            // "path empty, over 16 (parents counted) or with a number out of range"
            let path: Vec<u64> = numbers.iter().flatten().copied().filter(|&number| number >= 1).collect();
            if numbers.is_empty() || numbers.len() > PATH_MAX || path.len() < numbers.len() {
                return refusal(PATH, tag.place);
            }
            let length = path.len();
            Ok((Key::Path(path), length, self.close(after, inside)?))
        } else {
            let (tag, number, after) = self.integer(member, inside, FROM_1)?;
            if steps + 1 > PATH_MAX {
                return refusal(PATH, tag.place);
            }
            Ok((Key::Number(number), steps + 1, self.close(after, inside)?))
        }
    }

    fn contents(&mut self, member: &Tag, inside: Container, place: usize) -> At {
        let value = self.inner(member, inside)?;
        self.expect(&value, UNIVERSAL, true, SET_TAG)?;
        let set = self.enter(&value, inside);
        let mut body = self.entries[place].body.clone();
        let after = match &mut body {
            Body::Parameter(_, contents) => self.parameter_contents(&value, set, contents)?,
            Body::Node(_, contents) => self.node_contents(&value, set, contents)?,
            Body::Matrix(_, contents) => self.matrix_contents(&value, set, contents)?,
            _ => unreachable!(),
        };
        self.entries[place].body = body;
        self.close(after, inside)
    }

    /// "Parameter: value 2, minimum 3, maximum 4, access 5, factor 8, online 9, step 11, stream identifier 14."
    fn parameter_contents(&mut self, tag: &Tag, set: Container, contents: &mut ParameterContents) -> At {
        self.members(tag, set, false, &[0, 1, 2, 3, 4, 5, 8, 9, 11, 14], &[], &mut |reader, member, inside| {
            let after = match member.number {
                0 => reader.keep(reader.identifier(member, inside)?, &mut contents.identifier),
                1 => reader.keep(reader.text(member, inside)?, &mut contents.description),
                2 => reader.keep(reader.value(member, inside)?, &mut contents.value),
                3 => reader.keep(reader.value(member, inside)?, &mut contents.minimum),
                4 => reader.keep(reader.value(member, inside)?, &mut contents.maximum),
                5 => reader.keep(reader.number(member, inside, TO_3)?, &mut contents.access),
                8 => reader.keep(reader.number(member, inside, SIGNED_32)?, &mut contents.factor),
                9 => reader.keep(reader.flag(member, inside)?, &mut contents.online),
                11 => reader.keep(reader.number(member, inside, SIGNED_32)?, &mut contents.step),
                _ => reader.keep(reader.number(member, inside, FROM_0)?, &mut contents.stream_identifier),
            };
            reader.close(after, inside)
        })
    }

    /// "All contents: identifier 0, description 1. Node: root flag 2, online 3."
    fn node_contents(&mut self, tag: &Tag, set: Container, contents: &mut NodeContents) -> At {
        self.members(tag, set, false, &[0, 1, 2, 3], &[], &mut |reader, member, inside| {
            let after = match member.number {
                0 => reader.keep(reader.identifier(member, inside)?, &mut contents.identifier),
                1 => reader.keep(reader.text(member, inside)?, &mut contents.description),
                2 => reader.keep(reader.flag(member, inside)?, &mut contents.root),
                _ => reader.keep(reader.flag(member, inside)?, &mut contents.online),
            };
            reader.close(after, inside)
        })
    }

    /// "Matrix: type 2, mode 3, targets 4, sources 5, total limit 6, limit per target 7."
    fn matrix_contents(&mut self, tag: &Tag, set: Container, contents: &mut MatrixContents) -> At {
        self.members(tag, set, false, &[0, 1, 2, 3, 4, 5, 6, 7], &[], &mut |reader, member, inside| {
            let after = match member.number {
                0 => reader.keep(reader.identifier(member, inside)?, &mut contents.identifier),
                1 => reader.keep(reader.text(member, inside)?, &mut contents.description),
                2 => reader.keep(reader.number(member, inside, TO_2)?, &mut contents.kind),
                3 => reader.keep(reader.number(member, inside, TO_1)?, &mut contents.mode),
                4 => reader.keep(reader.number(member, inside, FROM_0)?, &mut contents.targets),
                5 => reader.keep(reader.number(member, inside, FROM_0)?, &mut contents.sources),
                6 => reader.keep(reader.number(member, inside, FROM_0)?, &mut contents.total_limit),
                _ => reader.keep(reader.number(member, inside, FROM_0)?, &mut contents.target_limit),
            };
            reader.close(after, inside)
        })
    }

    /// "Command: number 0, mask 1." Its number is no step of a path (O11).
    fn command(&mut self, tag: &Tag, container: Container, parent: Option<usize>) -> At {
        let (mut number, mut mask) = (None, None);
        let after = self.members(tag, container, true, &[0, 1], &[0], &mut |reader, member, inside| {
            let kept = if member.number == 0 { &mut number } else { &mut mask };
            let after = reader.keep(reader.number(member, inside, SIGNED_32)?, kept);
            reader.close(after, inside)
        })?;
        self.entries.push(Entry { parent, body: Body::Command { number: number.unwrap(), mask } });
        Ok(after)
    }

    /// "Connection: target 0, sources 1, operation 2."
    fn connection(&mut self, tag: &Tag, around: Container, parent: usize) -> At {
        self.expect(tag, APPLICATION, true, CONNECTION)?;
        let container = self.enter(tag, around);
        let (mut target, mut sources, mut operation) = (None, None, None);
        let after = self.members(tag, container, true, &[0, 1, 2], &[0], &mut |reader, member, inside| {
            let after = match member.number {
                0 => reader.keep(reader.number(member, inside, FROM_0)?, &mut target),
                1 => reader.keep(reader.sources(member, inside)?, &mut sources),
                _ => reader.keep(reader.number(member, inside, TO_2)?, &mut operation),
            };
            reader.close(after, inside)
        })?;
        let body = Body::Connection { target: target.unwrap(), sources, operation };
        self.entries.push(Entry { parent: Some(parent), body });
        Ok(after)
    }

    /// "StreamEntry: identifier 0, value 1", both required.
    fn stream_entry(&mut self, tag: &Tag, around: Container) -> At {
        self.expect(tag, APPLICATION, true, STREAM_ENTRY)?;
        let container = self.enter(tag, around);
        let (mut identifier, mut value) = (None, None);
        let after = self.members(tag, container, true, &[0, 1], &[0, 1], &mut |reader, member, inside| {
            let after = match member.number {
                0 => reader.keep(reader.number(member, inside, FROM_0)?, &mut identifier),
                _ => reader.keep(reader.value(member, inside)?, &mut value),
            };
            reader.close(after, inside)
        })?;
        let body = Body::StreamEntry { identifier: identifier.unwrap(), value: value.unwrap() };
        self.entries.push(Entry { parent: None, body });
        Ok(after)
    }

    // ---- Values in their outer tags: what was read, and the byte after the value ----

    fn keep<T>(&self, (value, after): (T, usize), kept: &mut Option<T>) -> usize {
        *kept = Some(value);
        after
    }

    /// A primitive of one universal type.
    fn primitive(&self, member: &Tag, inside: Container, number: u64) -> Result<(Tag, &'a [u8], usize), Refusal> {
        let tag = self.inner(member, inside)?;
        self.expect(&tag, UNIVERSAL, false, number)?;
        let (octets, after) = self.octets(&tag)?;
        Ok((tag, octets, after))
    }

    fn integer(&self, member: &Tag, inside: Container, range: (i64, i64)) -> Result<(Tag, i64, usize), Refusal> {
        let (tag, octets, after) = self.primitive(member, inside, INTEGER_TAG)?;
        let value = read_int(octets).or(refusal(BER, tag.place))?;
        if value < range.0 || value > range.1 {
            return refusal(NUMBER, tag.place);
        }
        Ok((tag, value, after))
    }

    fn number(&self, member: &Tag, inside: Container, range: (i64, i64)) -> Result<(i64, usize), Refusal> {
        let (_, value, after) = self.integer(member, inside, range)?;
        Ok((value, after))
    }

    fn flag(&self, member: &Tag, inside: Container) -> Result<(bool, usize), Refusal> {
        let (tag, octets, after) = self.primitive(member, inside, BOOLEAN_TAG)?;
        Ok((read_bool(octets).or(refusal(BER, tag.place))?, after))
    }

    fn text(&self, member: &Tag, inside: Container) -> Result<(Vec<u8>, usize), Refusal> {
        let (_, octets, after) = self.primitive(member, inside, TEXT_TAG)?;
        Ok((octets.to_vec(), after))
    }

    /// "Identifiers start with a letter or "_" and hold no "/"."
    fn identifier(&self, member: &Tag, inside: Container) -> Result<(Vec<u8>, usize), Refusal> {
        let (tag, octets, after) = self.primitive(member, inside, TEXT_TAG)?;
        let starts = octets.first().is_some_and(|&byte| byte.is_ascii_alphabetic() || byte == b'_');
        if !starts || octets.contains(&b'/') {
            return refusal(NAME, tag.place);
        }
        Ok((octets.to_vec(), after))
    }

    /// Sources: any count of numbers from 0, none too.
    fn sources(&self, member: &Tag, inside: Container) -> Result<(Vec<u64>, usize), Refusal> {
        let (tag, octets, after) = self.primitive(member, inside, OID_TAG)?;
        let Oid::Numbers(numbers) = read_oid(octets) else { return refusal(BER, tag.place) };
        let sources: Vec<u64> = numbers.iter().flatten().copied().collect();
        if sources.len() < numbers.len() {
            return refusal(NUMBER, tag.place);
        }
        Ok((sources, after))
    }

    /// "A value is an integer, a real, a text, a boolean or octets."
    fn value(&self, member: &Tag, inside: Container) -> Result<(Value, usize), Refusal> {
        let tag = self.inner(member, inside)?;
        match values::value_of(self.message, &tag)? {
            Some(value) => Ok(value),
            None => refusal(GLOW, tag.place),
        }
    }
}

#[cfg(test)]
mod tests {
    use super::*;
    use crate::lines::hex_line;

    fn of(text: &str) -> Vec<u8> {
        let text = text.replace(' ', "");
        if text.is_empty() {
            return Vec::new();
        }
        let (bytes, bad) = hex_line(text.as_bytes());
        assert!(!bad, "{text}");
        bytes
    }

    #[track_caller]
    fn refused(text: &str, number: u8, place: usize) {
        assert_eq!(read(&of(text), 256), Answer::Refused(Refusal { number, place }), "{text}");
    }

    #[track_caller]
    fn entries(text: &str) -> Vec<Entry> {
        match read(&of(text), 256) {
            Answer::Tree(tree) => tree.entries,
            other => panic!("{text}: {other:?}"),
        }
    }

    #[test]
    fn p12() {
        let read = entries("60 0B 6B 09 A0 07 62 05 A0 03 02 01 20");
        assert_eq!(read, [Entry { parent: None, body: Body::Command { number: 32, mask: None } }]);
    }

    #[test]
    fn spellings() {
        let one = entries("60 0B 6B 09 A0 07 63 05 A0 03 02 01 01");
        // Indefinite, long tags and lengths.
        assert_eq!(entries("60 80 6B 80 A0 80 63 80 A0 03 02 01 01 00 00 00 00 00 00 00 00"), one);
        assert_eq!(entries("7F 00 80 7F 0B 80 BF 00 80 7F 03 80 BF 00 08 1F 02 84 00 00 00 01 01 00 00 00 00 00 00 00 00"), one);
        // Unlisted members are passed over, without a rule on forms.
        assert_eq!(entries("60 13 6B 11 A0 0F 63 0D A0 03 02 01 01 A9 06 30 80 05 00 00 00").len(), 1);
        assert_eq!(entries("60 02 6B 00"), []);
        assert_eq!(entries("60 02 65 00"), []);
    }

    #[test]
    fn forms_and_missing() {
        refused("", BER, 0);
        refused("00", BER, 0);
        refused("61 00", GLOW, 0);
        refused("40 00", GLOW, 0);
        refused("60 00", GLOW, 2); // a value missing at Root's end
        refused("60 80 00 00", GLOW, 2);
        refused("60 80 6B 00 00 00", FORM, 2);
        refused("60 02 6B 80", FORM, 2);
        refused("60 03 6B 80 00", FORM, 2);
        refused("60 03 6B 00 00", BER, 4); // a tag 00 that ends nothing
        refused("60 04 6B 00 6B 00", GLOW, 4); // a second value
        refused("60 02 6B 00 00", BER, 4); // left after Root
        refused("60 03 6B 00", BER, 4); // bytes run out
        refused("60 02 6B 01", BER, 2); // passes its container's end
        refused("60 02 6A 00", GLOW, 2);
        refused("60 04 6B 02 A0 00", GLOW, 6); // value missing in an item
        refused("60 04 6B 02 80 00", GLOW, 4);
        refused("60 04 6B 02 A1 00", GLOW, 4);
        refused("60 06 6B 04 A0 02 63 00", GLOW, 8); // number missing
        refused("60 80 6B 80 A0 80 63 80 00 00 00 00 00 00 00 00", GLOW, 8);
        refused("60 0B 6B 09 A0 07 63 05 A1 03 31 01 00", GLOW, 8); // found at the first higher tag
    }

    #[test]
    fn places_of_the_open_points() {
        // R2: one 00 before the end of a definite container around an indefinite one, inside a passed-over value.
        refused("60 10 6B 0E A0 0C 63 0A A0 03 02 01 01 A9 03 30 80 00", BER, 17);
        refused("60 0F 6B 0D A0 0B 63 09 A0 03 02 01 01 A9 02 30 80", BER, 17);
        // R3, R4.
        refused("60 80 6B 80 00 01", BER, 4);
        refused("60 80 6B 80 00", BER, 5);
        refused("60 05 00", BER, 2);
        // R7: own octets cut where the container's end lies past the message.
        refused("60 05 6B", BER, 3);
        refused("60 01 6B", BER, 2);
        // O13, O14.
        refused("60 0B 6B 09 A0 07 63 05 A0 03 04 01", GLOW, 10);
        refused("60 13 6B 11 A0 0F 63 0D A0 0B 02 09 01", BER, 13);
        refused("60 10 6B 0E A0 0C 63 0A A0 08 02 09 01", BER, 10);
        // V4, V5, V6, V7.
        refused("60 0B 6B 09 A0 07 63 05 A0 03 22 01 01", GLOW, 10);
        refused("60 0B 6B 09 A0 07 63 05 80 03 02 01 01", GLOW, 8);
        refused("60 80 6B 80 1F 00 00", GLOW, 4);
        // 34 and 37 at the integer's tag.
        refused("60 0B 6B 09 A0 07 63 05 A0 03 02 01 00", NUMBER, 10);
        refused("60 0C 6B 0A A0 08 63 06 A0 04 02 02 00 01", BER, 10);
        refused("60 0A 6B 08 A0 06 6A 04 A0 02 0D 00", PATH, 10);
        refused("60 0B 6B 09 A0 07 6A 05 A0 03 0D 01 00", PATH, 10);
        refused("60 0B 6B 09 A0 07 6A 05 A0 03 0D 01 80", BER, 10);
    }

    #[test]
    fn order_of_checks() {
        refused("60 0F 6B 0D A0 0B 63 05 A0 03 02 01 01 63 80 00 00", GLOW, 13); // O2
        refused("60 08 6B 06 A0 04 65 80 00 00", FORM, 6); // O3
        refused("60 0D 6B 0B A0 09 63 07 A0 03 02 01 01 C9 00", GLOW, 13); // O7
        entries("60 11 6B 0F A0 0D 63 0B A0 03 02 01 01 A9 04 10 00 22 00"); // O9
        refused("60 08 6B 06 A0 80 63 05 A0 00", BER, 6); // V9, before 31
        refused("60 06 6B 04 A0 80 63 80", BER, 8); // R9
        refused("60 0D 6B 0B A0 80 63 05 A0 03 02 01 01 00 00", FORM, 6);
        refused("60 0D 6B 0B A0 09 63 80 A0 03 02 01 01 00 00", FORM, 6);
        refused("60 0F 6B 0D A0 80 63 80 A0 80 02 01 01 00 00 00 00", FORM, 10);
        // A value's own faults before the next tag's.
        refused("60 0D 6B 0B A0 09 63 07 A0 05 02 01 00 C9 00", NUMBER, 10);
        refused("60 0D 6B 0B A0 09 63 07 A0 05 02 01 01 C9 00", GLOW, 13);
        refused("60 0D 6B 0B A0 09 63 07 A0 05 02 01 01 1F 80", BER, 13);
    }

    #[test]
    fn order_of_members() {
        // O4 and O5: unlisted tags stand in the order of a sequence.
        refused("60 0D 6B 0B A0 09 63 07 A9 00 A0 03 02 01 01", GLOW, 8);
        refused("60 0F 6B 0D A0 0B 63 09 A0 03 02 01 01 A9 00 A9 00", GLOW, 15);
        entries("60 0F 6B 0D A0 0B 63 09 A0 03 02 01 01 A8 00 A9 00");
        // In a set they may repeat; a listed one may not.
        entries("60 13 6B 11 A0 0F 63 0D A0 03 02 01 01 A1 06 31 04 A9 00 89 00");
        refused("60 19 6B 17 A0 15 63 13 A0 03 02 01 01 A1 0C 31 0A A2 03 01 01 FF A2 03 01 01 00", GLOW, 22);
        refused("60 10 6B 0E A0 0C 63 0A A0 03 02 01 01 A1 03 30 01 00", GLOW, 15);
    }

    #[test]
    fn contents_and_matrices() {
        let read = entries(
            "60 33 6B 31 A0 2F 71 2D A0 04 0D 02 01 02 A1 14 31 12 A4 03 02 01 02 A5 03 02 01 03 A2 03 02 01 02 BF 64 00 \
             A5 0F 30 0D A0 0B 70 09 A0 03 02 01 00 A1 02 0D 00",
        );
        assert_eq!(read.len(), 2);
        let Body::Matrix(key, contents) = &read[0].body else { panic!() };
        assert_eq!(*key, Key::Path(vec![1, 2]));
        assert_eq!((contents.targets, contents.sources, contents.kind), (Some(2), Some(3), Some(2)));
        assert_eq!(
            read[1],
            Entry { parent: Some(0), body: Body::Connection { target: 0, sources: Some(vec![]), operation: None } }
        );
    }

    #[test]
    fn streams() {
        let read = entries("60 10 65 0E A0 0C 66 0A A0 03 02 01 00 A1 03 02 01 05");
        assert_eq!(read[0].body, Body::StreamEntry { identifier: 0, value: Value::Integer(5) });
        refused("60 0B 65 09 A0 07 66 05 A0 03 02 01 00", GLOW, 13); // value missing
        refused("60 0B 65 09 A0 07 65 05 A0 03 02 01 00", GLOW, 6);
        refused("60 10 65 0E A0 0C 66 0A A0 03 02 01 00 A1 03 05 01 05", GLOW, 15);
    }

    /// Nodes below each other: the 16th would need a 65th container for its number.
    fn nested(levels: usize) -> Vec<u8> {
        let mut inner: Vec<u8> = Vec::new();
        for level in (0..levels).rev() {
            let mut body = of("A0 03 02 01 01");
            if level + 1 < levels {
                body.extend(of("A2 80 64 80"));
                body.extend(&inner);
                body.extend(of("00 00 00 00"));
            }
            inner = [of("A0 80 63 80"), body, of("00 00 00 00")].concat();
        }
        [of("60 80 6B 80"), inner, of("00 00 00 00")].concat()
    }

    #[test]
    fn depth() {
        assert_eq!(read(&nested(15), 256).number(), 0);
        let message = nested(16);
        let place = 4 + 15 * (4 + 5 + 4) + 4; // the number's outer tag of the 16th node
        assert_eq!(message[place], 0xA0);
        assert_eq!(read(&message, 256), Answer::Refused(Refusal { number: DEPTH, place }));
    }

    #[test]
    fn path_over_16() {
        let oid = "01".repeat(16);
        let below = |kind: &str, number: &str| {
            format!("60 27 6B 25 A0 23 6A 21 A0 12 0D 10 {oid} A2 0B 64 09 A0 07 {kind} 05 A0 03 02 01 {number}")
        };
        refused(&below("63", "01"), PATH, 38);
        refused(&below("63", "00"), NUMBER, 38); // O10
        assert_eq!(entries(&below("62", "20")).len(), 2); // O11
    }

    #[test]
    fn room_and_setup() {
        let message = of("60 14 6B 12 A0 07 62 05 A0 03 02 01 20 A0 07 62 05 A0 03 02 01 20");
        assert_eq!(read(&message, 2).number(), 0);
        assert_eq!(read(&message, 1), Answer::Room(2));
        assert_eq!(read(&message, 0), Answer::Room(2));
        assert_eq!(read(&message, 257), Answer::Setup);
        assert_eq!(read(&vec![0; 16_385], 1), Answer::Setup);
        assert_eq!(read(&[message.clone(), vec![5]].concat(), 1), Answer::Refused(Refusal { number: BER, place: 22 }));
    }
}
