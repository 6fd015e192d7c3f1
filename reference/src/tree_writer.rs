//! The tree writer: "The writer uses definite shortest lengths and ascending tags."

use crate::tree::{self, *};
use crate::values::{
    least_real, spell_value, tagged, write_bool, write_int, write_oid, write_real, Spelling, Value, APPLICATION, CONTEXT, OUT,
    UNIVERSAL,
};

pub type Octets = Result<Vec<u8>, u8>;

/// The message of a tree; 46 for "a value or tree that the reader refuses". It is written exactly if reading
/// gives these very entries (W1): so it is read back.
pub fn write(tree: &Tree) -> Octets {
    read_back(tree, write_real)
}

/// A shortest message that is read as this tree; 46 if none of at most 16,384 bytes is. Only reals have a spelling that is
/// shorter than the written one: the indefinite form takes three octets, as many as the longest length here.
pub fn least(tree: &Tree) -> Octets {
    read_back(tree, least_real)
}

/// The message with that spelling of reals, if reading gives these very entries.
fn read_back(tree: &Tree, spelling: Spelling) -> Octets {
    let message = spelt(tree, spelling)?;
    match tree::read(&message, TABLE_MAX) {
        Answer::Tree(read) if read == *tree => Ok(message),
        _ => Err(OUT),
    }
}

/// The entries put into each other by their parents, whatever the reader says of them and however long they are.
pub fn spelt(tree: &Tree, spelling: Spelling) -> Octets {
    if tree.entries.len() > TABLE_MAX {
        return Err(OUT);
    }
    // Parents stand before their children.
    if tree.entries.iter().enumerate().any(|(place, entry)| entry.parent.is_some_and(|parent| parent >= place)) {
        return Err(OUT);
    }
    let number = match tree.kind {
        RootKind::Elements => ROOT_ELEMENT_COLLECTION,
        RootKind::Streams => STREAM_COLLECTION,
    };
    let items = items(tree, spelling, None, |_| true)?;
    container(APPLICATION, ROOT, &container(APPLICATION, number, &items)?)
}

fn container(class: u8, number: u64, content: &[u8]) -> Octets {
    tagged(class, true, number, content)
}

fn primitive(number: u64, content: &[u8]) -> Octets {
    tagged(UNIVERSAL, false, number, content)
}

fn member(number: u64, value: Octets) -> Octets {
    container(CONTEXT, number, &value?)
}

/// The entries with that parent, each in an item's outer tag.
fn items(tree: &Tree, spelling: Spelling, parent: Option<usize>, chosen: fn(&Body) -> bool) -> Octets {
    let mut out = Vec::new();
    for (place, entry) in tree.entries.iter().enumerate() {
        if entry.parent == parent && chosen(&entry.body) {
            out.extend(member(0, element(tree, spelling, place))?);
        }
    }
    Ok(out)
}

fn element(tree: &Tree, spelling: Spelling, place: usize) -> Octets {
    match &tree.entries[place].body {
        Body::Parameter(key, contents) => {
            let contents = parameter_contents(contents, spelling)?;
            with_members(tree, spelling, place, [PARAMETER, QUALIFIED_PARAMETER], key, contents)
        }
        Body::Node(key, contents) => with_members(tree, spelling, place, [NODE, QUALIFIED_NODE], key, node_contents(contents)?),
        Body::Matrix(key, contents) => {
            with_members(tree, spelling, place, [MATRIX, QUALIFIED_MATRIX], key, matrix_contents(contents)?)
        }
        Body::Command { number, mask } => {
            let mut out = member(0, integer(*number))?;
            out.extend(optional(1, mask, |mask| integer(*mask))?);
            container(APPLICATION, COMMAND, &out)
        }
        Body::Connection { target, sources, operation } => {
            let mut out = member(0, integer(*target))?;
            out.extend(optional(1, sources, |sources| primitive(OID_TAG, &write_oid(sources)?))?);
            out.extend(optional(2, operation, |operation| integer(*operation))?);
            container(APPLICATION, CONNECTION, &out)
        }
        Body::StreamEntry { identifier, value } => {
            let mut out = member(0, integer(*identifier))?;
            out.extend(member(1, spell_value(value, spelling))?);
            container(APPLICATION, STREAM_ENTRY, &out)
        }
    }
}

/// Number or path, contents, children, connections; empty ones left out.
fn with_members(tree: &Tree, spelling: Spelling, place: usize, numbers: [u64; 2], key: &Key, contents: Vec<u8>) -> Octets {
    let (number, mut out) = match key {
        Key::Number(value) => (numbers[0], member(0, integer(*value))?),
        Key::Path(path) => (numbers[1], member(0, primitive(OID_TAG, &write_oid(path)?))?),
    };
    if !contents.is_empty() {
        out.extend(member(1, container(UNIVERSAL, SET_TAG, &contents))?);
    }
    let children = items(tree, spelling, Some(place), |body| !matches!(body, Body::Connection { .. }))?;
    if !children.is_empty() {
        out.extend(member(2, container(APPLICATION, ELEMENT_COLLECTION, &children))?);
    }
    let connections = items(tree, spelling, Some(place), |body| matches!(body, Body::Connection { .. }))?;
    if !connections.is_empty() {
        out.extend(member(5, container(UNIVERSAL, SEQUENCE_TAG, &connections))?);
    }
    container(APPLICATION, number, &out)
}

fn parameter_contents(contents: &ParameterContents, spelling: Spelling) -> Octets {
    let any = |value: &Value| spell_value(value, spelling);
    let mut out = Vec::new();
    out.extend(optional(0, &contents.identifier, |text| primitive(TEXT_TAG, text))?);
    out.extend(optional(1, &contents.description, |text| primitive(TEXT_TAG, text))?);
    out.extend(optional(2, &contents.value, any)?);
    out.extend(optional(3, &contents.minimum, any)?);
    out.extend(optional(4, &contents.maximum, any)?);
    out.extend(optional(5, &contents.access, |value| integer(*value))?);
    out.extend(optional(8, &contents.factor, |value| integer(*value))?);
    out.extend(optional(9, &contents.online, |value| boolean(*value))?);
    out.extend(optional(11, &contents.step, |value| integer(*value))?);
    out.extend(optional(14, &contents.stream_identifier, |value| integer(*value))?);
    Ok(out)
}

fn node_contents(contents: &NodeContents) -> Octets {
    let mut out = Vec::new();
    out.extend(optional(0, &contents.identifier, |text| primitive(TEXT_TAG, text))?);
    out.extend(optional(1, &contents.description, |text| primitive(TEXT_TAG, text))?);
    out.extend(optional(2, &contents.root, |value| boolean(*value))?);
    out.extend(optional(3, &contents.online, |value| boolean(*value))?);
    Ok(out)
}

fn matrix_contents(contents: &MatrixContents) -> Octets {
    let mut out = Vec::new();
    out.extend(optional(0, &contents.identifier, |text| primitive(TEXT_TAG, text))?);
    out.extend(optional(1, &contents.description, |text| primitive(TEXT_TAG, text))?);
    let numbers = [contents.kind, contents.mode, contents.targets, contents.sources, contents.total_limit, contents.target_limit];
    for (index, value) in numbers.iter().enumerate() {
        out.extend(optional(2 + index as u64, value, |value| integer(*value))?);
    }
    Ok(out)
}

fn optional<T>(number: u64, value: &Option<T>, write: impl Fn(&T) -> Octets) -> Octets {
    match value {
        None => Ok(Vec::new()),
        Some(value) => member(number, write(value)),
    }
}

fn integer(value: i64) -> Octets {
    primitive(INTEGER_TAG, &write_int(value))
}

fn boolean(value: bool) -> Octets {
    primitive(BOOLEAN_TAG, &write_bool(value))
}

#[cfg(test)]
mod tests {
    use super::*;

    fn command(number: i64) -> Body {
        Body::Command { number, mask: None }
    }

    fn node(number: i64) -> Body {
        Body::Node(Key::Number(number), NodeContents::default())
    }

    fn elements(list: &[(Option<usize>, Body)]) -> Tree {
        let entries = list.iter().map(|(parent, body)| Entry { parent: *parent, body: body.clone() }).collect();
        Tree { kind: RootKind::Elements, entries }
    }

    #[test]
    fn p12() {
        let message = write(&elements(&[(None, command(32))])).unwrap();
        assert_eq!(message, [0x60, 0x0B, 0x6B, 0x09, 0xA0, 0x07, 0x62, 0x05, 0xA0, 0x03, 0x02, 0x01, 0x20]);
    }

    #[test]
    fn no_entries() {
        assert_eq!(write(&elements(&[])).unwrap(), [0x60, 0x02, 0x6B, 0x00]);
        assert_eq!(write(&Tree { kind: RootKind::Streams, entries: vec![] }).unwrap(), [0x60, 0x02, 0x65, 0x00]);
    }

    #[test]
    fn only_message_order() {
        let matrix = Body::Matrix(Key::Path(vec![1]), MatrixContents::default());
        let connection = Body::Connection { target: 0, sources: None, operation: None };
        assert!(write(&elements(&[(None, matrix.clone()), (Some(0), command(1)), (Some(0), connection.clone())])).is_ok());
        assert_eq!(write(&elements(&[(None, matrix.clone()), (Some(0), connection.clone()), (Some(0), command(1))])), Err(OUT));
        assert_eq!(write(&elements(&[(None, node(1)), (Some(0), connection)])), Err(OUT));
        assert_eq!(write(&elements(&[(Some(1), node(1)), (None, node(2))])), Err(OUT));
        assert_eq!(write(&elements(&[(None, node(1)), (None, node(2)), (Some(0), node(3))])), Err(OUT));
        assert_eq!(write(&elements(&[(None, command(1)), (Some(0), node(3))])), Err(OUT));
        assert_eq!(write(&elements(&[(None, node(0))])), Err(OUT));
        assert_eq!(write(&elements(&vec![(None, command(1)); 257])), Err(OUT));
        assert!(write(&elements(&vec![(None, command(1)); 256])).is_ok());
    }

    #[test]
    fn values_that_are_not_written() {
        for value in [Value::Real(-0.0), Value::Real(f64::NAN), Value::Text(vec![0; 17_000])] {
            let contents = ParameterContents { value: Some(value), ..Default::default() };
            assert_eq!(write(&elements(&[(None, Body::Parameter(Key::Number(1), contents))])), Err(OUT));
        }
    }
}
