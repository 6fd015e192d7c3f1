//! Messages: drawn trees in every legal spelling, and changes of them; streams of them for the listing.

pub mod requests;
pub mod rules;
pub mod writes;

use super::{bad_hex_line, chunked, chunked_in, frames, mutate_bytes, Random};
use crate::framing::{packet, write_frame, write_keep_alive, write_message, MESSAGE_MAX};
use crate::lines::hex;
use crate::tree::*;
use crate::values::{
    write_bool, write_identifier, write_int, write_length, write_oid, write_real, Value, APPLICATION, CONTEXT, NUMBER_MAX,
    UNIVERSAL,
};

// ---- Drawn trees ----

fn number(random: &mut Random, range: (i64, i64)) -> i64 {
    let (low, high) = range;
    match random.below(6) {
        0 => low,
        1 => high,
        2 if high > 300 => random.range(120, 300) as i64,
        3 => low + (random.next() % (high - low + 1) as u64) as i64,
        _ => low.max(0) + random.below(4) as i64 % (high - low + 1),
    }
}

fn text(random: &mut Random) -> Vec<u8> {
    let length = random.pick(&[0, 1, 5, 12, 40]);
    if random.one_in(30) {
        let length = random.pick(&LONG);
        return random.bytes(length);
    }
    random.bytes(length)
}

/// Lengths of long texts, names and lists.
const LONG: [usize; 12] = [13, 16, 17, 63, 64, 65, 127, 128, 150, 255, 256, 600];

fn identifier(random: &mut Random) -> Vec<u8> {
    let mut name = vec![random.pick(b"AZaz_mQ")];
    let length = if random.one_in(20) { random.pick(&LONG) } else { random.below(10) };
    for _ in 0..length {
        let byte = random.byte();
        name.push(if byte == b'/' { b'.' } else { byte });
    }
    name
}

pub fn value(random: &mut Random) -> Value {
    match random.below(6) {
        0 => Value::Integer(random.next() as i64 >> random.below(64)),
        1 => Value::Real(real(random)),
        2 => Value::Text(text(random)),
        3 => Value::Boolean(random.one_in(2)),
        4 => Value::Octets(text(random)),
        _ => Value::Integer(random.range(0, 400) as i64 - 200),
    }
}

fn real(random: &mut Random) -> f64 {
    let value = match random.below(4) {
        0 => random.pick(&[0.0, 1.0, -0.5, f64::MAX, f64::INFINITY, f64::NEG_INFINITY, 5e-324, 0.1]),
        1 => random.range(0, 2_000) as f64 - 1_000.0,
        _ => f64::from_bits(random.next()),
    };
    if value.is_nan() || value == 0.0 {
        0.0
    } else {
        value
    }
}

fn maybe<T>(random: &mut Random, draw: impl Fn(&mut Random) -> T) -> Option<T> {
    if random.one_in(3) {
        Some(draw(random))
    } else {
        None
    }
}

fn path(random: &mut Random) -> Vec<u64> {
    let length = random.pick(&[1, 1, 2, 3, 4, 7, 12, 13, 15, 16]);
    if random.one_in(6) {
        // Five octets each.
        return (0..length).map(|_| NUMBER_MAX - random.below(1_000) as u64).collect();
    }
    (0..length).map(|_| number(random, FROM_1) as u64).collect()
}

fn body(random: &mut Random, root_level: bool) -> Body {
    let key = if root_level && random.one_in(2) { Key::Path(path(random)) } else { Key::Number(number(random, FROM_1)) };
    match random.below(4) {
        0 => Body::Command { number: number(random, SIGNED_32), mask: maybe(random, |random| number(random, SIGNED_32)) },
        1 => Body::Parameter(
            key,
            ParameterContents {
                identifier: maybe(random, identifier),
                description: maybe(random, text),
                value: maybe(random, value),
                minimum: maybe(random, value),
                maximum: maybe(random, value),
                access: maybe(random, |random| number(random, TO_3)),
                factor: maybe(random, |random| number(random, SIGNED_32)),
                online: maybe(random, |random| random.one_in(2)),
                step: maybe(random, |random| number(random, SIGNED_32)),
                stream_identifier: maybe(random, |random| number(random, FROM_0)),
            },
        ),
        2 => Body::Node(
            key,
            NodeContents {
                identifier: maybe(random, identifier),
                description: maybe(random, text),
                root: maybe(random, |random| random.one_in(2)),
                online: maybe(random, |random| random.one_in(2)),
            },
        ),
        _ => Body::Matrix(
            key,
            MatrixContents {
                identifier: maybe(random, identifier),
                description: maybe(random, text),
                kind: maybe(random, |random| number(random, TO_2)),
                mode: maybe(random, |random| number(random, TO_1)),
                targets: maybe(random, |random| number(random, FROM_0)),
                sources: maybe(random, |random| number(random, FROM_0)),
                total_limit: maybe(random, |random| number(random, FROM_0)),
                target_limit: maybe(random, |random| number(random, FROM_0)),
            },
        ),
    }
}

pub fn connection(random: &mut Random) -> Body {
    let mut count = random.pick(&[0, 1, 1, 2, 5]);
    if random.one_in(40) {
        count = random.pick(&LONG).max(random.pick(&[0, 0, 0, 1_001]));
    }
    Body::Connection {
        target: number(random, FROM_0),
        sources: if random.one_in(4) { None } else { Some((0..count).map(|_| number(random, FROM_0) as u64).collect()) },
        operation: maybe(random, |random| number(random, TO_2)),
    }
}

/// Adds an element with its children and connections. `level` counts its steps from the root, `steps` those of
/// its parent's full path.
pub fn add_element(
    random: &mut Random,
    entries: &mut Vec<Entry>,
    parent: Option<usize>,
    level: usize,
    steps: usize,
    most: usize,
) {
    let place = entries.len();
    let mut body = body(random, parent.is_none());
    let steps = match &body {
        Body::Parameter(Key::Path(path), _) | Body::Node(Key::Path(path), _) | Body::Matrix(Key::Path(path), _) => path.len(),
        _ => steps + 1,
    };
    // The full path has 16 numbers at most; below that only commands may stand.
    if steps > PATH_MAX {
        body = Body::Command { number: 32, mask: None };
    }
    let is_matrix = matches!(body, Body::Matrix(..));
    let is_command = matches!(body, Body::Command { .. });
    entries.push(Entry { parent, body });
    if is_command {
        return;
    }
    // Contents of a child at level 15 would need more than 64 containers.
    let children = if level < 13 && entries.len() < most { random.pick(&[0, 0, 1, 1, 2, 3]) } else { 0 };
    for _ in 0..children {
        if entries.len() < most {
            add_element(random, entries, Some(place), level + 1, steps, most);
        }
    }
    if is_matrix {
        for _ in 0..random.pick(&[0, 1, 2, 4]) {
            entries.push(Entry { parent: Some(place), body: connection(random) });
        }
    }
}

/// A tree that the reader accepts.
pub fn tree(random: &mut Random, most: usize) -> Tree {
    let mut entries = Vec::new();
    let count = random.below(5);
    if random.one_in(5) {
        for _ in 0..count {
            let body = Body::StreamEntry { identifier: number(random, FROM_0), value: value(random) };
            entries.push(Entry { parent: None, body });
        }
        return Tree { kind: RootKind::Streams, entries };
    }
    for _ in 0..count {
        if entries.len() < most {
            add_element(random, &mut entries, None, 1, 0, most);
        }
    }
    Tree { kind: RootKind::Elements, entries }
}

// ---- Spellings ----

#[derive(Clone)]
enum Content {
    Octets(Vec<u8>),
    Nodes(Vec<Node>),
}

/// A tag, and what stands in it.
#[derive(Clone)]
pub struct Node {
    class: u8,
    constructed: bool,
    number: u64,
    content: Content,
    /// Has the form of the first value inside.
    outer: bool,
}

/// How often, of eight times, the longer way is taken.
#[derive(Clone, Copy)]
pub struct Style {
    indefinite: usize,
    long_tag: usize,
    long_length: usize,
    unlisted: usize,
    shuffle: bool,
}

impl Style {
    /// As the writer writes.
    pub const PLAIN: Style = Style { indefinite: 0, long_tag: 0, long_length: 0, unlisted: 0, shuffle: false };

    pub fn draw(random: &mut Random) -> Style {
        let often = [0, 0, 1, 4, 8];
        Style {
            indefinite: random.pick(&often),
            long_tag: random.pick(&often),
            long_length: random.pick(&often),
            unlisted: random.pick(&[0, 0, 1, 3]),
            shuffle: random.one_in(2),
        }
    }
}

fn primitive(number: u64, octets: Vec<u8>) -> Node {
    Node { class: UNIVERSAL, constructed: false, number, content: Content::Octets(octets), outer: false }
}

fn container(class: u8, number: u64, nodes: Vec<Node>) -> Node {
    Node { class, constructed: true, number, content: Content::Nodes(nodes), outer: false }
}

fn outer(number: u64, value: Node) -> Node {
    Node { class: CONTEXT, constructed: true, number, content: Content::Nodes(vec![value]), outer: true }
}

/// Any value for an unlisted member: no more than `depth` containers.
fn anything(random: &mut Random, depth: usize) -> Node {
    let class = random.below(4) as u8;
    let number = match random.below(3) {
        0 => random.range(1, 30) as u64,
        1 => random.range(31, 300) as u64,
        _ => random.next() >> random.range(36, 60) & 268_435_455 | 1,
    };
    if depth == 0 || random.one_in(2) {
        let octets = text(random);
        return Node { class, constructed: false, number, content: Content::Octets(octets), outer: false };
    }
    let count = random.below(3);
    container(class, number, (0..count).map(|_| anything(random, depth - 1)).collect())
}

/// Puts unlisted members among others; in a sequence by their number.
fn with_unlisted(random: &mut Random, style: Style, mut nodes: Vec<Node>, listed: &[u64], sequence: bool) -> Vec<Node> {
    if style.unlisted > 0 && random.one_in(60) {
        // Many of them.
        let empty =
            |number| Node { class: CONTEXT, constructed: false, number, content: Content::Octets(Vec::new()), outer: false };
        nodes.extend((300..300 + random.range(10, 100) as u64).map(empty));
    }
    while random.below(8) < style.unlisted {
        let number = match random.below(3) {
            0 => random.range(3, 31) as u64,
            1 => random.range(31, 200) as u64,
            _ => 268_435_455 - random.below(3) as u64,
        };
        if listed.contains(&number) || sequence && nodes.iter().any(|node| node.number == number) {
            continue;
        }
        let mut node = anything(random, 2);
        node.class = CONTEXT;
        node.number = number;
        nodes.push(node);
    }
    if sequence {
        nodes.sort_by_key(|node| node.number);
    } else if style.shuffle {
        random.shuffle(&mut nodes);
    }
    nodes
}

fn any(value: &Value) -> Node {
    match value {
        Value::Integer(value) => integer(*value),
        Value::Real(value) => primitive(REAL_TAG, write_real(*value).unwrap()),
        Value::Text(text) => primitive(TEXT_TAG, text.clone()),
        Value::Boolean(value) => primitive(BOOLEAN_TAG, write_bool(*value)),
        Value::Octets(octets) => primitive(OCTETS_TAG, octets.clone()),
    }
}

fn integer(value: i64) -> Node {
    primitive(INTEGER_TAG, write_int(value))
}

/// True is any octet but 0.
fn flag(random: &mut Random, value: bool) -> Node {
    primitive(BOOLEAN_TAG, vec![if value { random.range(1, 255) as u8 } else { 0 }])
}

fn add<T>(nodes: &mut Vec<Node>, number: u64, value: &Option<T>, mut node: impl FnMut(&T) -> Node) {
    if let Some(value) = value {
        nodes.push(outer(number, node(value)));
    }
}

fn items(random: &mut Random, style: Style, tree: &Tree, parent: Option<usize>, connections: bool) -> Vec<Node> {
    let mut nodes = Vec::new();
    for (place, entry) in tree.entries.iter().enumerate() {
        if entry.parent == parent && matches!(entry.body, Body::Connection { .. }) == connections {
            nodes.push(outer(0, element(random, style, tree, place)));
        }
    }
    nodes
}

fn element(random: &mut Random, style: Style, tree: &Tree, place: usize) -> Node {
    let text = |text: &Vec<u8>| primitive(TEXT_TAG, text.clone());
    let int = |value: &i64| integer(*value);
    let mut nodes = Vec::new();
    match &tree.entries[place].body {
        Body::Parameter(key, contents) => {
            add(&mut nodes, 0, &contents.identifier, text);
            add(&mut nodes, 1, &contents.description, text);
            add(&mut nodes, 2, &contents.value, any);
            add(&mut nodes, 3, &contents.minimum, any);
            add(&mut nodes, 4, &contents.maximum, any);
            add(&mut nodes, 5, &contents.access, int);
            add(&mut nodes, 8, &contents.factor, int);
            add(&mut nodes, 9, &contents.online, |value| flag(random, *value));
            add(&mut nodes, 11, &contents.step, int);
            add(&mut nodes, 14, &contents.stream_identifier, int);
            let contents = with_unlisted(random, style, nodes, &[0, 1, 2, 3, 4, 5, 8, 9, 11, 14], false);
            with_members(random, style, tree, place, [PARAMETER, QUALIFIED_PARAMETER], key, contents)
        }
        Body::Node(key, contents) => {
            add(&mut nodes, 0, &contents.identifier, text);
            add(&mut nodes, 1, &contents.description, text);
            add(&mut nodes, 2, &contents.root, |value| flag(random, *value));
            add(&mut nodes, 3, &contents.online, |value| flag(random, *value));
            let contents = with_unlisted(random, style, nodes, &[0, 1, 2, 3], false);
            with_members(random, style, tree, place, [NODE, QUALIFIED_NODE], key, contents)
        }
        Body::Matrix(key, contents) => {
            add(&mut nodes, 0, &contents.identifier, text);
            add(&mut nodes, 1, &contents.description, text);
            add(&mut nodes, 2, &contents.kind, int);
            add(&mut nodes, 3, &contents.mode, int);
            add(&mut nodes, 4, &contents.targets, int);
            add(&mut nodes, 5, &contents.sources, int);
            add(&mut nodes, 6, &contents.total_limit, int);
            add(&mut nodes, 7, &contents.target_limit, int);
            let contents = with_unlisted(random, style, nodes, &[0, 1, 2, 3, 4, 5, 6, 7], false);
            with_members(random, style, tree, place, [MATRIX, QUALIFIED_MATRIX], key, contents)
        }
        Body::Command { number, mask } => {
            nodes.push(outer(0, integer(*number)));
            add(&mut nodes, 1, mask, int);
            container(APPLICATION, COMMAND, with_unlisted(random, style, nodes, &[0, 1], true))
        }
        Body::Connection { target, sources, operation } => {
            nodes.push(outer(0, integer(*target)));
            add(&mut nodes, 1, sources, |sources| primitive(OID_TAG, write_oid(sources).unwrap()));
            add(&mut nodes, 2, operation, int);
            container(APPLICATION, CONNECTION, with_unlisted(random, style, nodes, &[0, 1, 2], true))
        }
        Body::StreamEntry { identifier, value } => {
            nodes.push(outer(0, integer(*identifier)));
            nodes.push(outer(1, any(value)));
            container(APPLICATION, STREAM_ENTRY, with_unlisted(random, style, nodes, &[0, 1], true))
        }
    }
}

fn with_members(
    random: &mut Random,
    style: Style,
    tree: &Tree,
    place: usize,
    numbers: [u64; 2],
    key: &Key,
    contents: Vec<Node>,
) -> Node {
    let (number, key) = match key {
        Key::Number(value) => (numbers[0], integer(*value)),
        Key::Path(path) => (numbers[1], primitive(OID_TAG, write_oid(path).unwrap())),
    };
    let mut nodes = vec![outer(0, key)];
    let empty = |random: &mut Random| random.below(16) < style.unlisted;
    if !contents.is_empty() || empty(random) {
        nodes.push(outer(1, container(UNIVERSAL, SET_TAG, contents)));
    }
    let children = items(random, style, tree, Some(place), false);
    if !children.is_empty() || empty(random) {
        nodes.push(outer(2, container(APPLICATION, ELEMENT_COLLECTION, children)));
    }
    let is_matrix = numbers[0] == MATRIX;
    let connections = items(random, style, tree, Some(place), true);
    if !connections.is_empty() || is_matrix && empty(random) {
        nodes.push(outer(5, container(UNIVERSAL, SEQUENCE_TAG, connections)));
    }
    let listed: &[u64] = if is_matrix { &[0, 1, 2, 5] } else { &[0, 1, 2] };
    container(APPLICATION, number, with_unlisted(random, style, nodes, listed, true))
}

/// Nodes below each other, and in the last an unlisted member down to that many open containers.
fn deep(random: &mut Random, levels: usize, depth: usize) -> Node {
    let mut inner: Option<Node> = None;
    for level in (0..levels).rev() {
        let mut nodes = vec![outer(0, integer(level as i64 + 1))];
        match inner {
            Some(child) => nodes.push(outer(2, container(APPLICATION, ELEMENT_COLLECTION, vec![outer(0, child)]))),
            None => {
                let mut member = anything(random, 0);
                for _ in 4 * levels..depth {
                    member = container(CONTEXT, random.range(6, 40) as u64, vec![member]);
                }
                member.class = CONTEXT;
                member.number = member.number.max(6);
                nodes.push(member);
            }
        }
        inner = Some(container(APPLICATION, NODE, nodes));
    }
    let collection = container(APPLICATION, ROOT_ELEMENT_COLLECTION, vec![outer(0, inner.unwrap())]);
    Node { class: APPLICATION, constructed: true, number: ROOT, content: Content::Nodes(vec![collection]), outer: true }
}

/// Root, as tags.
fn root(random: &mut Random, style: Style, tree: &Tree) -> Node {
    let number = match tree.kind {
        RootKind::Elements => ROOT_ELEMENT_COLLECTION,
        RootKind::Streams => STREAM_COLLECTION,
    };
    let items = items(random, style, tree, None, false);
    let collection = container(APPLICATION, number, items);
    Node { class: APPLICATION, constructed: true, number: ROOT, content: Content::Nodes(vec![collection]), outer: true }
}

/// The octets of a node. `form` (indefinite or not) is given by an outer tag.
fn spelt(random: &mut Random, style: Style, node: &Node, form: Option<bool>) -> Vec<u8> {
    let mut indefinite = node.constructed && form.unwrap_or_else(|| random.below(8) < style.indefinite);
    let content = match &node.content {
        Content::Octets(octets) => octets.clone(),
        Content::Nodes(nodes) => {
            if node.outer && nodes.first().is_some_and(|first| !first.constructed) {
                indefinite = false;
            }
            let inner = if node.outer { Some(indefinite) } else { None };
            nodes.iter().flat_map(|node| spelt(random, style, node, inner)).collect()
        }
    };
    let mut out = if random.below(8) < style.long_tag {
        let first = node.class << 6 | if node.constructed { 0x20 } else { 0 } | 0x1F;
        [vec![first], write_oid(&[node.number]).unwrap()].concat()
    } else {
        write_identifier(node.class, node.constructed, node.number).unwrap()
    };
    if indefinite {
        out.push(0x80);
        out.extend(content);
        out.extend([0x00, 0x00]);
        return out;
    }
    if random.below(8) < style.long_length {
        let fewest = (1..4).find(|&count| content.len() < 1 << (8 * count)).unwrap_or(4);
        let count = random.range(fewest, 4);
        out.push(0x80 + count as u8);
        out.extend(&(content.len() as u32).to_be_bytes()[4 - count..]);
    } else {
        out.extend(write_length(content.len() as u64).unwrap());
    }
    out.extend(content);
    out
}

/// A message of a tree, in a drawn spelling.
pub fn spell(random: &mut Random, style: Style, tree: &Tree) -> Vec<u8> {
    let root = root(random, style, tree);
    spelt(random, style, &root, None)
}

/// A message of a tree with some of its tags changed.
pub fn spell_changed(random: &mut Random, style: Style, tree: &Tree) -> Vec<u8> {
    let mut root = root(random, style, tree);
    for _ in 0..random.range(1, 2) {
        change_nodes(random, &mut root);
    }
    spelt(random, style, &root, None)
}

// ---- Changes ----

fn count_nodes(node: &Node) -> usize {
    match &node.content {
        Content::Octets(_) => 1,
        Content::Nodes(nodes) => 1 + nodes.iter().map(count_nodes).sum::<usize>(),
    }
}

/// The node with that index, in message order.
fn nth(node: &mut Node, index: usize) -> &mut Node {
    if index == 0 {
        return node;
    }
    let mut index = index - 1;
    let Content::Nodes(nodes) = &mut node.content else { unreachable!() };
    for node in nodes {
        let count = count_nodes(node);
        if index < count {
            return nth(node, index);
        }
        index -= count;
    }
    unreachable!()
}

/// Octets at the edges of the rules.
fn edge_octets(random: &mut Random, number: u64) -> Vec<u8> {
    match number {
        INTEGER_TAG => {
            if random.one_in(5) {
                return random.pick(&[vec![], vec![0x00, 0x01], vec![0xFF, 0x80], vec![0x01; 9], vec![0x00, 0x80]]);
            }
            let edges =
                [-1, 0, 1, 2, 3, 4, NUMBER_MAX as i64, NUMBER_MAX as i64 + 1, SIGNED_32.0, SIGNED_32.0 - 1, i64::MAX, i64::MIN];
            write_int(random.pick(&edges))
        }
        REAL_TAG => {
            let octets: [&[u8]; 10] = [
                &[],
                &[0x83, 0, 0, 0, 0, 1],
                &[0x83, 4, 0, 0, 0, 0, 1],
                &[0x40],
                &[0x42],
                &[0x80],
                &[0x80, 0, 0],
                &[0x83, 1, 0, 1],
                &[0x80, 0, 0x20, 0, 0, 0, 0, 0, 1],
                &[0x8C, 0xFF, 0x06],
            ];
            random.pick(&octets).to_vec()
        }
        BOOLEAN_TAG => random.pick(&[vec![], vec![0], vec![1], vec![0xFF, 0]]),
        OID_TAG => {
            if random.one_in(3) {
                // Its fault, if it has one, is the last of many numbers.
                let count = if random.one_in(2) { random.range(1, 17) } else { random.pick(&LONG) };
                let one: &[u8] = random.pick(&[&[1][..], &[1], &[0x87, 0xFF, 0xFF, 0xFF, 0x7F], &[0x81, 0x00]]);
                let last: &[u8] = random.pick(&[&[][..], &[0], &[0x80, 1], &[0x81], &[0x88, 0x80, 0x80, 0x80, 0], &[0x7F]]);
                return [&one.repeat(count)[..], last].concat();
            }
            let octets: [&[u8]; 10] = [
                &[],
                &[0],
                &[1],
                &[0x80, 1],
                &[1, 0x81],
                &[0x87, 0xFF, 0xFF, 0xFF, 0x7F],
                &[0x88, 0x80, 0x80, 0x80, 0],
                &[1; 16],
                &[1; 17],
                &[0x88, 0x80, 0x80, 0x80, 0, 0x80],
            ];
            random.pick(&octets).to_vec()
        }
        _ => {
            if random.one_in(3) {
                let mut name = vec![b'a'; random.pick(&LONG)];
                let at = random.pick(&[0, 1, 2, 3, 4, 11, 12]);
                let place = if random.one_in(2) { name.len() - 1 } else { at };
                name[place] = random.pick(&[b'/', b'/', b'/', b'.', b'0']);
                return name;
            }
            let texts: [&[u8]; 8] = [b"", b"_", b"a/b", b"/", b"1a", b"Z", b"\xC3\xA9", b"a\xFF"];
            random.pick(&texts).to_vec()
        }
    }
}

/// Gives a primitive octets at the edges of its rule, sometimes as another type.
fn change_primitive(random: &mut Random, root: &mut Node) {
    let count = count_nodes(root);
    let primitives: Vec<usize> = (0..count).filter(|&index| !nth(root, index).constructed).collect();
    if primitives.is_empty() {
        return;
    }
    let node = nth(root, random.pick(&primitives));
    if random.one_in(3) {
        node.number = random.pick(&[REAL_TAG, REAL_TAG, INTEGER_TAG, TEXT_TAG, BOOLEAN_TAG, OCTETS_TAG, OID_TAG]);
    }
    node.content = Content::Octets(edge_octets(random, node.number));
}

fn change_nodes(random: &mut Random, root: &mut Node) {
    let index = random.below(count_nodes(root));
    let node = nth(root, index);
    let other = anything(random, 2);
    match random.below(20) {
        0 => node.class = random.below(4) as u8,
        1 => node.number = random.pick(&[0, 1, 2, 3, 4, 5, 6, 9, 10, 11, 13, 16, 17, 30, 31, 128]),
        2 => node.number = (node.number + random.range(0, 2) as u64).saturating_sub(1).min(268_435_455),
        3 => node.outer = !node.outer,
        4 => {
            let inside = node.clone();
            *node = if random.one_in(2) {
                outer(0, inside)
            } else {
                container(random.below(4) as u8, random.below(20) as u64, vec![inside])
            };
        }
        5 => *node = other,
        6 => {
            if let Content::Nodes(nodes) = &mut node.content {
                if !nodes.is_empty() {
                    let at = random.below(nodes.len());
                    nodes.remove(at);
                }
            }
        }
        13..=19 => change_primitive(random, root),
        7..=9 => {
            if let Content::Nodes(nodes) = &mut node.content {
                let at = if random.one_in(3) { nodes.len() } else { random.below(nodes.len() + 1) };
                let copy = if nodes.is_empty() || random.one_in(3) { other } else { random.pick(nodes) };
                nodes.insert(at, copy);
            }
        }
        10 => {
            if let Content::Nodes(nodes) = &mut node.content {
                random.shuffle(nodes);
            }
        }
        11 => {
            if let Content::Nodes(nodes) = &mut node.content {
                nodes.clear();
            }
        }
        _ => {
            // The constructed bit alone: a primitive with tags inside, or a container of octets.
            node.constructed = !node.constructed;
        }
    }
}

pub const KINDS: [&str; 8] =
    ["valid", "changed tags", "changed bytes", "changed tags and bytes", "deep", "many entries", "cut", "noise"];

/// A message and the index of its kind, at most 16,384 bytes long.
pub fn message(random: &mut Random) -> (Vec<u8>, usize) {
    let kind = match random.below(32) {
        0..=9 => 0,
        10..=17 => 1,
        18..=24 => 2,
        25..=27 => 3,
        28 | 29 => 4,
        30 => random.pick(&[5, 6, 6]),
        _ => 7,
    };
    loop {
        let message = of_kind(random, kind);
        if message.len() <= MESSAGE_MAX {
            return (message, kind);
        }
    }
}

fn of_kind(random: &mut Random, kind: usize) -> Vec<u8> {
    let style = Style::draw(random);
    let most = random.pick(&[3, 10, 40]);
    let tree = tree(random, most);
    match kind {
        0 => spell(random, style, &tree),
        1 => spell_changed(random, style, &tree),
        2 | 6 => {
            let mut message = spell(random, style, &tree);
            if kind == 6 {
                message.truncate(random.below(message.len() + 1));
                return message;
            }
            for _ in 0..random.range(1, 3) {
                mutate_bytes(random, &mut message);
            }
            message
        }
        3 => {
            let mut root = root(random, style, &tree);
            change_nodes(random, &mut root);
            let mut message = spelt(random, style, &root, None);
            mutate_bytes(random, &mut message);
            message
        }
        4 => {
            // Around the 64th container.
            let levels = random.range(1, 16);
            let depth = random.range(60, 66);
            let root = deep(random, levels, depth);
            spelt(random, style, &root, None)
        }
        5 => {
            let count = random.pick(&[255, 256, 257, 300, 20, 65, 130]);
            let mut entries = vec![Entry { parent: None, body: Body::Command { number: 1, mask: None } }; count];
            if count < 255 {
                // A fault in the last.
                let body = match random.below(3) {
                    0 => Body::Command { number: SIGNED_32.1 + 1, mask: None },
                    1 => Body::Node(Key::Number(0), NodeContents::default()),
                    _ => Body::Parameter(Key::Path(vec![1; 17]), ParameterContents::default()),
                };
                entries.push(Entry { parent: None, body });
            }
            spell(random, Style { unlisted: 0, ..style }, &Tree { kind: RootKind::Elements, entries })
        }
        _ => {
            let length = random.below(24);
            let mut message = random.bytes(length);
            if random.one_in(2) {
                message.splice(0..0, [0x60, 0x80, 0x6B, 0x80]);
            }
            message
        }
    }
}

/// A message that is read, and the tree that it is read as.
pub fn messages_tree(random: &mut Random) -> (Vec<u8>, Tree) {
    loop {
        let kind = random.pick(&[0, 0, 0, 0, 0, 0, 1, 2, 4]);
        let message = of_kind(random, kind);
        if let Answer::Tree(tree) = read(&message, TABLE_MAX) {
            return (message, tree);
        }
    }
}

/// Lines of messages, `-` for one of no bytes: input of `reference tree`.
pub fn messages(seed: u64, count: usize) -> Vec<u8> {
    let mut random = Random::new(seed);
    let mut text = String::new();
    for _ in 0..count {
        text += &hex(&message(&mut random).0);
        text += "\n";
    }
    text.into_bytes()
}

/// An input of the listing program, and how many messages of each kind it has.
pub fn listing_input(seed: u64, count: usize) -> (Vec<u8>, [usize; KINDS.len()]) {
    let mut random = Random::new(seed);
    let random = &mut random;
    let mut kinds_seen = [0; KINDS.len()];
    let mut stream = Vec::new();
    for _ in 0..count {
        let (message, kind) = message(random);
        kinds_seen[kind] += 1;
        let most = random.pick(&[1_013, 1_013, 100, 7]).max(message.len() / 40 + 1).min(1_013);
        let pieces: Vec<&[u8]> = if message.is_empty() { vec![&[]] } else { message.chunks(most).collect() };
        for (index, piece) in pieces.iter().enumerate() {
            let first = if index == 0 { 0x80 } else { 0 };
            let last = if index + 1 == pieces.len() { 0x40 } else { 0 };
            let empty = if piece.is_empty() { 0x20 } else { 0 };
            stream.extend(write_frame(&packet(first | last | empty, 0x14, piece)).unwrap());
            if random.one_in(20) {
                stream.extend(write_keep_alive(random.one_in(2)));
            }
        }
        if random.one_in(10) {
            stream.push(random.byte());
        }
        if random.one_in(6) {
            stream.extend(frames::fault(random, 20));
        }
    }
    let mut text = chunked(random, &stream).into_bytes();
    if random.one_in(10) {
        text.extend(bad_hex_line(random));
        text.push(b'\n');
    }
    (text, kinds_seen)
}

/// The stored input of the listing program: every event and every answer of the tree reader, in many chunkings, then
/// the sample of document 01, in which nothing is open. No bad line.
pub fn stored_listing() -> Vec<u8> {
    let mut random = Random::new(401);
    let random = &mut random;
    let mut text = String::new();
    for round in 0..12 {
        let mut stream = frames::some_of_each(random, round == 0);
        let mut wanted = vec![0, 30, 31, 32, 33, 34, 35, 36, 37];
        if round == 0 {
            wanted.push(38);
            stream.extend([0xFE, 0x00, 0xFD, 0xFF]); // 14, which is seldom drawn
        }
        while !wanted.is_empty() {
            let (message, _) = message(random);
            let number = read(&message, TABLE_MAX).number();
            if let Some(at) = wanted.iter().position(|one| *one == number) {
                if message.len() <= 400 || number == 38 {
                    wanted.remove(at);
                    stream.extend(write_message(&message).unwrap().concat());
                }
            }
        }
        text += &chunked_in(random, &stream, round % 8);
    }
    text += "FE000E010194E4FF\nFE000E0201FDDCCEFF\nFEFF\n00\n";
    text.into_bytes()
}

#[cfg(test)]
mod tests {
    use super::*;
    use crate::tree_writer;

    #[test]
    fn every_spelling_reads_as_its_tree() {
        let mut random = Random::new(11);
        let mut long = 0;
        for round in 0..3_000 {
            let tree = tree(&mut random, 20);
            let style = Style::draw(&mut random);
            let message = spell(&mut random, style, &tree);
            if message.len() > MESSAGE_MAX {
                long += 1;
                continue;
            }
            assert_eq!(read(&message, TABLE_MAX), Answer::Tree(tree.clone()), "round {round}: {}", hex(&message));
            // What is read is written, and read as the same; the written form is the shortest.
            let written = tree_writer::write(&tree).unwrap();
            assert!(written.len() <= message.len());
        }
        assert!(long < 30, "{long}");
    }

    #[test]
    fn stored_listing_shows_every_number() {
        let input = stored_listing();
        assert!(input.len() < 400_000, "{}", input.len());
        let output = crate::listing::listing(&input);
        let shown = |end: &str| output.lines().filter(|line| line.split_once(' ').is_some_and(|(_, rest)| rest == end)).count();
        for number in [2, 4, 5, 10, 11, 12, 13, 14, 15, 16, 20, 21, 22, 23, 24] {
            assert!(shown(&number.to_string()) > 0, "no event {number}");
        }
        for number in [0, 30, 31, 32, 33, 34, 35, 36, 37, 38] {
            assert!(shown(&format!("3 {number}")) > 0, "no answer {number}");
        }
        // The sample: the last four events.
        let last: Vec<&str> = output.lines().rev().take(5).filter_map(|line| line.split(' ').nth(1)).collect();
        assert_eq!(last[1..], ["10", "15", "5", "4"]);
        assert!(output.lines().all(|line| line != "bad line"));
    }

    #[test]
    fn changes_reach_every_number() {
        let mut random = Random::new(12);
        let mut seen = [0usize; 64];
        for _ in 0..20_000 {
            let (message, _) = message(&mut random);
            let answer = read(&message, TABLE_MAX);
            seen[usize::from(answer.number())] += 1;
            if let Answer::Refused(refusal) = answer {
                assert!(refusal.place <= message.len());
            }
        }
        for number in [0, 30, 31, 32, 33, 34, 35, 36, 37, 38] {
            assert!(seen[number] > 10, "{number}: {}", seen[number]);
        }
    }

    /// A message cut anywhere is refused with 30 or with a fault found before the cut: the same number and
    /// place whatever follows, or the message's end.
    #[test]
    fn cuts() {
        let mut random = Random::new(13);
        for _ in 0..300 {
            let tree = tree(&mut random, 6);
            let style = Style::draw(&mut random);
            let message = spell(&mut random, style, &tree);
            for length in 0..message.len().min(200) {
                match read(&message[..length], TABLE_MAX) {
                    Answer::Refused(refusal) => assert_eq!((refusal.number, refusal.place), (30, length)),
                    other => panic!("{other:?}"),
                }
            }
        }
    }
}
