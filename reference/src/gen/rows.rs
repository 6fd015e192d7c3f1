//! Entries handed in: rows made from messages that were read, from trees at the edges of depth, count and length, and
//! damages of them.

use super::tree::{connection, messages_tree, spell, tree, value, Style};
use super::Random;
use crate::framing::MESSAGE_MAX;
use crate::lines::hex;
use crate::rows::{rows_of, Row, CELLS, CONNECTION, ELEMENTS, STREAMS, WORDS};
use crate::tree::*;
use crate::tree_writer::spelt;
use crate::values::{least_real, write_oid, write_real, Spelling, Value};

/// What is handed in.
#[derive(Clone, Debug)]
pub struct Case {
    pub rows: Vec<Row>,
    pub count: usize,
    pub root: u64,
    pub message: Vec<u8>,
    /// Its kind and its damages, as indices.
    pub kind: usize,
    pub damages: Vec<usize>,
}

pub const KINDS: [&str; 9] = [
    "as read",
    "another message beside",
    "levels",
    "many entries",
    "written length around 16,384",
    "least length around 16,384",
    "lengths around 128 and 256",
    "far too long",
    "noise",
];

pub const DAMAGES: [&str; 19] = [
    "parent",
    "kind",
    "order",
    "connection before a child",
    "number",
    "type",
    "second word",
    "member that the kind has not",
    "absent with words",
    "member left out",
    "part",
    "real",
    "flag",
    "name",
    "path or sources",
    "count",
    "root",
    "message changed",
    "rows after the entries",
];

/// One case.
pub fn case(random: &mut Random) -> Case {
    let kind = match random.below(64) {
        0..=23 => 0,
        24..=38 => 1,
        39..=44 => 2,
        45 => 3,
        46 | 47 => 4,
        48..=50 => 5,
        51..=61 => 6,
        62 if random.one_in(8) => 7,
        62 => 1,
        _ => 8,
    };
    let mut case = of_kind(random, kind);
    case.kind = kind;
    let damages = match kind {
        3..=5 | 7 => random.pick(&[0, 0, 0, 0, 1]),
        _ => random.pick(&[0, 0, 1, 1, 1, 1, 2, 3]),
    };
    for _ in 0..damages {
        let damage = random.below(DAMAGES.len());
        case.damages.push(damage);
        damaged(random, &mut case, damage);
    }
    case
}

fn of_kind(random: &mut Random, kind: usize) -> Case {
    match kind {
        0 => as_read(random),
        2 => {
            let tree = levels(random);
            handed_in(random, &tree)
        }
        3 => {
            let tree = many(random);
            handed_in(random, &tree)
        }
        4 | 5 => {
            let tree = long(random, if kind == 4 { write_real } else { least_real });
            handed_in(random, &tree)
        }
        6 => {
            let tree = lengths(random);
            handed_in(random, &tree)
        }
        7 => far_too_long(random),
        8 => noise(random),
        _ => {
            let most = random.pick(&[3, 10, 40]);
            let tree = tree(random, most);
            handed_in(random, &tree)
        }
    }
}

// ---- Undamaged ----

/// A message as it was read, and its entries with their parts in it.
fn as_read(random: &mut Random) -> Case {
    let (message, tree) = messages_tree(random);
    in_message(random, &tree, message)
}

/// The entries of a tree with their parts in its own message, each at one of the places where its octets stand.
fn in_message(random: &mut Random, tree: &Tree, message: Vec<u8>) -> Case {
    let rows = rows_of(tree, &mut |octets| {
        if octets.is_empty() {
            return random.below(message.len() + 1);
        }
        let mut places = message.windows(octets.len()).enumerate().filter(|(_, window)| *window == octets);
        let first = places.next().unwrap().0;
        if octets.len() < 4 && random.one_in(2) {
            places.last().map_or(first, |(place, _)| place)
        } else {
            first
        }
    });
    case_of(tree, rows, message)
}

fn case_of(tree: &Tree, rows: Vec<Row>, message: Vec<u8>) -> Case {
    let root = match tree.kind {
        RootKind::Elements => ELEMENTS,
        RootKind::Streams => STREAMS,
    };
    Case { count: rows.len(), rows, root, message, kind: 0, damages: Vec::new() }
}

/// The entries of a tree beside a message of octets that holds their parts and else anything; parts may overlap.
fn handed_in(random: &mut Random, tree: &Tree) -> Case {
    if random.one_in(4) {
        let style = Style::draw(random);
        if let Some(message) = spelt_for(random, style, tree) {
            return in_message(random, tree, message);
        }
    }
    let mut message = Vec::new();
    let between = random.pick(&[0, 0, 1, 20]);
    let share = random.one_in(2);
    let rows = rows_of(tree, &mut |octets| {
        if share && !octets.is_empty() && octets.len() < 400 {
            if let Some(place) = message.windows(octets.len()).take(4_000).position(|window| window == octets) {
                return place;
            }
        }
        let count = random.below(between + 1);
        message.extend(random.bytes(count));
        let place = message.len();
        message.extend(octets);
        place
    });
    case_of(tree, rows, message)
}

/// A message of the tree, where its entries can be spelt as they stand.
fn spelt_for(random: &mut Random, style: Style, tree: &Tree) -> Option<Vec<u8>> {
    let message = spell(random, style, tree);
    (message.len() <= 2 * MESSAGE_MAX).then_some(message)
}

fn entry(parent: Option<usize>, body: Body) -> Entry {
    Entry { parent, body }
}

fn command() -> Body {
    Body::Command { number: 32, mask: None }
}

/// An element with contents of few octets.
fn plain(random: &mut Random, key: Key) -> Body {
    let some = random.one_in(2);
    match random.below(3) {
        0 => Body::Node(key, NodeContents { online: some.then_some(true), ..Default::default() }),
        1 => Body::Parameter(key, ParameterContents { access: some.then_some(1), ..Default::default() }),
        _ => Body::Matrix(key, MatrixContents { targets: some.then_some(4), ..Default::default() }),
    }
}

/// Elements below each other on 13 to 17 levels, or from a path of many numbers on; the last a command or with
/// connections.
fn levels(random: &mut Random) -> Tree {
    let levels = if random.one_in(3) { random.range(1, 6) } else { random.range(13, 17) };
    let steps = if random.one_in(2) { 0 } else { random.range(1, 17 - levels.min(16)) + random.below(3) };
    let mut entries: Vec<Entry> = Vec::new();
    for level in 0..levels {
        let key = if level == 0 && steps > 0 { Key::Path((1..=steps as u64).collect()) } else { Key::Number(1 + level as i64) };
        let body = plain(random, key);
        let parent = entries.iter().rposition(|entry| has_children(&entry.body));
        let sister = parent.is_some() && random.one_in(6);
        if sister {
            entries.push(entry(parent, command()));
        }
        entries.push(entry(parent, body));
    }
    let last = entries.len() - 1;
    match random.below(5) {
        0 => entries.push(entry(Some(last), command())),
        1 => {
            to_matrix(&mut entries[last].body);
            for _ in 0..random.range(1, 2) {
                entries.push(entry(Some(last), connection(random)));
            }
        }
        2 => {
            // A connection of the one above.
            if let Some(above) = entries[last].parent {
                to_matrix(&mut entries[above].body);
                entries.push(entry(Some(above), connection(random)));
            }
        }
        _ => {}
    }
    Tree { kind: RootKind::Elements, entries }
}

/// A matrix in an element's place.
fn to_matrix(body: &mut Body) {
    if let Body::Parameter(key, _) | Body::Node(key, _) | Body::Matrix(key, _) = body {
        *body = Body::Matrix(key.clone(), MatrixContents::default());
    }
}

/// 254 to 257 entries, or a few more.
fn many(random: &mut Random) -> Tree {
    let count = random.pick(&[254, 255, 256, 256, 257, 258, 300]);
    if random.one_in(4) {
        let stream = |place: usize| entry(None, Body::StreamEntry { identifier: place as i64, value: Value::Integer(1) });
        return Tree { kind: RootKind::Streams, entries: (0..count).map(stream).collect() };
    }
    let mut entries = Vec::new();
    if random.one_in(2) {
        entries.push(entry(None, Body::Matrix(Key::Path(vec![1, 2]), MatrixContents::default())));
        while entries.len() < count {
            entries.push(entry(Some(0), connection(random)));
        }
    } else {
        entries.resize(count, entry(None, command()));
    }
    Tree { kind: RootKind::Elements, entries }
}

/// Reals whose least form is often shorter than the written one, and their neighbours.
fn near_real(random: &mut Random) -> f64 {
    let bits = random.range(1, 53);
    let mantissa = (random.next() & ((1 << bits) - 1)) | 1;
    let sign = random.pick(&[1.0, -1.0]);
    let power = match random.below(5) {
        0 => random.range(120, 127) as i32,
        1 => -(random.range(125, 132) as i32),
        _ => random.range(128, 140) as i32,
    };
    sign * mantissa as f64 * f64::powi(2.0, power)
}

fn filled(random: &mut Random, length: usize) -> Vec<u8> {
    vec![random.pick(b"aB_z"); length]
}

/// Elements and streams with texts and reals, so that containers end around 127, 128, 255 and 256 octets.
fn lengths(random: &mut Random) -> Tree {
    let streams = random.one_in(6);
    let text = |random: &mut Random| {
        let length = random.pick(&[60usize, 100, 110, 115, 120, 125, 127, 240, 250, 255]);
        let length = (length + random.below(16)).saturating_sub(8);
        filled(random, length)
    };
    let any = |random: &mut Random| match random.below(4) {
        0 => Some(Value::Text(text(random))),
        1 => None,
        2 => Some(value(random)),
        _ => Some(Value::Real(near_real(random))),
    };
    let mut entries: Vec<Entry> = Vec::new();
    for place in 0..random.range(1, 6) {
        if streams {
            let value = any(random).unwrap_or(Value::Octets(text(random)));
            entries.push(entry(None, Body::StreamEntry { identifier: place as i64, value }));
            continue;
        }
        let above = if random.one_in(2) { None } else { entries.iter().rposition(|entry| has_children(&entry.body)) };
        let (key, description) = (Key::Number(1 + place as i64), (!random.one_in(3)).then(|| text(random)));
        let body = match random.below(4) {
            0 | 1 => Body::Parameter(
                key,
                ParameterContents {
                    description,
                    value: any(random),
                    minimum: any(random),
                    maximum: if random.one_in(2) { any(random) } else { None },
                    ..Default::default()
                },
            ),
            2 => Body::Node(key, NodeContents { description, ..Default::default() }),
            _ => Body::Matrix(key, MatrixContents { description, ..Default::default() }),
        };
        let is_matrix = matches!(body, Body::Matrix(..));
        entries.push(entry(above, body));
        if is_matrix && random.one_in(2) {
            let at = entries.len() - 1;
            for _ in 0..random.range(1, 3) {
                let count = random.pick(&[1, 50, 110, 115, 120, 125, 240, 250]);
                let sources = (0..count + random.below(8)).map(|_| random.below(200) as u64).collect();
                let body = Body::Connection { target: 1, sources: Some(sources), operation: None };
                entries.push(entry(Some(at), body));
            }
        }
    }
    Tree { kind: if streams { RootKind::Streams } else { RootKind::Elements }, entries }
}

fn has_children(body: &Body) -> bool {
    matches!(body, Body::Parameter(..) | Body::Node(..) | Body::Matrix(..))
}

/// A tree whose message, with reals in that spelling, has 16,380 to 16,388 bytes; mostly with reals that have a shorter
/// form than the written one.
pub fn long(random: &mut Random, spelling: Spelling) -> Tree {
    let wanted = MESSAGE_MAX + random.pick(&[0, 0, 0, 1, 1, 2, 4]) - random.pick(&[0, 0, 1, 2, 4]);
    let mut tree = match random.below(3) {
        0 => tree(random, 40),
        1 => lengths(random),
        _ => Tree { kind: RootKind::Elements, entries: Vec::new() },
    };
    for _ in 0..random.pick(&[0, 1, 1, 2, 5]) {
        let real = Value::Real(near_real(random));
        tree.entries.push(entry(
            None,
            match tree.kind {
                RootKind::Elements => Body::Parameter(
                    Key::Number(7),
                    ParameterContents { value: Some(real), description: Some(filled(random, 100)), ..Default::default() },
                ),
                RootKind::Streams => Body::StreamEntry { identifier: 7, value: real },
            },
        ));
    }
    // One more entry that is filled up, with others before and after it.
    let filler = match tree.kind {
        RootKind::Elements => Body::Node(Key::Number(9), NodeContents { description: Some(Vec::new()), ..Default::default() }),
        RootKind::Streams => Body::StreamEntry { identifier: 9, value: Value::Octets(Vec::new()) },
    };
    let at = tree.entries.len();
    tree.entries.push(entry(None, filler));
    if random.one_in(2) {
        let last = tree.entries[random.below(tree.entries.len())].clone();
        if last.parent.is_none() && at != 0 && !matches!(last.body, Body::Connection { .. }) {
            tree.entries.push(last);
        }
    }
    let mut length = 0;
    for _ in 0..6 {
        let now = spelt(&tree, spelling).map_or(0, |message| message.len());
        if now == wanted || now > 4 * MESSAGE_MAX {
            break;
        }
        length = (length + wanted).saturating_sub(now);
        let text = filled(random, length);
        match &mut tree.entries[at].body {
            Body::Node(_, contents) => contents.description = Some(text),
            Body::StreamEntry { value, .. } => *value = Value::Octets(text),
            _ => unreachable!(),
        }
    }
    tree
}

/// Many entries whose texts are the same long part: a message of up to some megabytes, or of about 65,536 bytes.
fn far_too_long(random: &mut Random) -> Case {
    let message = random.bytes(MESSAGE_MAX);
    let count = random.pick(&[2, 4, 5, 20, 256]);
    let length = if random.one_in(2) { MESSAGE_MAX } else { 65_536 / count - random.below(40).min(65_536 / count) };
    let below = random.one_in(2);
    let mut rows: Vec<Row> = Vec::new();
    for place in 0..count {
        let mut row = [0; WORDS];
        row[0] = 3;
        row[1] = if below { (place as u64).min(1) } else { 0 };
        row[2..4].copy_from_slice(&[INTEGER_TAG, 1]);
        row[8..11].copy_from_slice(&[TEXT_TAG, 0, length.min(MESSAGE_MAX) as u64]);
        rows.push(row);
    }
    Case { count, rows, root: ELEMENTS, message, kind: 0, damages: Vec::new() }
}

/// Rows of words that are mostly small.
fn noise(random: &mut Random) -> Case {
    let length = random.below(6);
    let rows = (0..length).map(|_| noise_row(random)).collect::<Vec<Row>>();
    let message_length = random.pick(&[0, 1, 30]);
    let message = random.bytes(message_length);
    Case { count: random.below(length + 1), rows, root: random.pick(&[0, 0, 3]), message, kind: 0, damages: Vec::new() }
}

fn noise_row(random: &mut Random) -> Row {
    let mut row = [0; WORDS];
    row[0] = random.below(11) as u64;
    row[1] = random.below(3) as u64;
    for _ in 0..random.below(5) {
        let cell = random.below(CELLS);
        row[2 + 3 * cell] = random.pick(&[1, 2, 4, 9, 12, 13]);
        row[3 + 3 * cell] = random.pick(&[0, 1, 2, random.clone().next()]);
        row[4 + 3 * cell] = random.pick(&[0, 0, 1, 2]);
    }
    if random.one_in(8) {
        row[random.below(WORDS)] = word(random);
    }
    row
}

/// A word, often at an edge.
fn word(random: &mut Random) -> u64 {
    let edges =
        [0, 1, 2, 3, 9, 13, 255, 256, 16_384, 1 << 31, 1 << 32, (1 << 32) + 1, 1 << 63, u64::MAX - 1, u64::MAX, i64::MAX as u64];
    if random.one_in(4) {
        random.next() >> random.below(64)
    } else {
        random.pick(&edges)
    }
}

// ---- Damages ----

/// The cells of the entries with one of these types.
fn cells_of(case: &Case, types: &[u64]) -> Vec<(usize, usize)> {
    let rows = case.count.min(case.rows.len());
    let cells = (0..rows).flat_map(|row| (0..CELLS).map(move |cell| (row, cell)));
    cells.filter(|&(row, cell)| types.contains(&case.rows[row][2 + 3 * cell])).collect()
}

/// The cells of the entries, absent ones too, where a value of any type may stand, and those of flags if asked for.
fn cells_for(case: &Case, flags: bool) -> Vec<(usize, usize)> {
    let mut cells = Vec::new();
    for (place, row) in case.rows.iter().enumerate().take(case.count) {
        let (any, flag): (&[usize], &[usize]) = match row[0] {
            1 | 5 => (&[3, 4, 5], &[10]),
            3 | 6 => (&[], &[3, 4]),
            9 => (&[1], &[]),
            _ => (&[], &[]),
        };
        cells.extend(any.iter().map(|&cell| (place, cell)));
        if flags {
            cells.extend(flag.iter().map(|&cell| (place, cell)));
        }
    }
    cells
}

fn put(case: &mut Case, (row, cell): (usize, usize), words: [u64; 3]) {
    case.rows[row][2 + 3 * cell..5 + 3 * cell].copy_from_slice(&words);
}

/// Octets that are added to the message: where they stand.
fn added(random: &mut Random, case: &mut Case, octets: &[u8]) -> u64 {
    let count = random.below(3);
    case.message.extend(random.bytes(count));
    let start = case.message.len();
    case.message.extend(octets);
    if random.one_in(3) {
        case.message.extend(random.bytes(2));
    }
    start as u64
}

fn damaged(random: &mut Random, case: &mut Case, damage: usize) {
    let rows = case.count.min(case.rows.len());
    let some_cell = |random: &mut Random, case: &Case, types: &[u64]| {
        let cells = cells_of(case, types);
        (!cells.is_empty()).then(|| random.pick(&cells))
    };
    match DAMAGES[damage] {
        "count" => {
            let length = case.rows.len();
            let near = (length + random.below(3)).saturating_sub(1);
            case.count = random.pick(&[0, near, near, length + 1, 255, 256, 257, 1 << 32, usize::MAX, usize::MAX / 50]);
        }
        "root" => case.root = random.pick(&[0, 1, 2, 3, 4, 5, 11, 1 << 32, (1 << 32) + 3, 1 << 63, u64::MAX]),
        "message changed" => change_message(random, case),
        "rows after the entries" => {
            // The table is longer than the entries: of what stands there nothing is looked at.
            let more = random.pick(&[1, 1, 2, 5, 300]);
            for _ in 0..more {
                let row = match random.below(4) {
                    0 => [0; WORDS],
                    1 => [u64::MAX; WORDS],
                    2 if !case.rows.is_empty() => random.pick(&case.rows),
                    _ => noise_row(random),
                };
                case.rows.push(row);
            }
        }
        _ if rows == 0 => {}
        "parent" => {
            let place = random.below(rows);
            let now = case.rows[place][1];
            case.rows[place][1] = random.pick(&[
                0,
                now.wrapping_sub(1),
                now.wrapping_add(1),
                place as u64,
                place as u64 + 1,
                place as u64 + 2,
                rows as u64,
                rows as u64 + 1,
                1 + random.clone().below(rows) as u64,
                1 + random.clone().below(rows) as u64,
                now.wrapping_add(1 << 32),
                now | 1 << 63,
                256,
                257,
                u64::MAX,
            ]);
        }
        "kind" => {
            let place = random.below(rows);
            let now = case.rows[place][0];
            // The qualified kinds are those of the elements and 4, 3 or 3.
            let steps = [1u64, 3, 4].map(|step| [now.wrapping_add(step), now.wrapping_sub(step)]);
            let other = random.pick(&steps.concat());
            case.rows[place][0] = random.pick(&[other, other, other, 0, 10, now.wrapping_add(1 << 32), u64::MAX]);
        }
        "order" => reorder(random, case, rows),
        "connection before a child" => connection_first(random, case, rows),
        "number" => {
            if let Some(cell) = some_cell(random, case, &[INTEGER_TAG]) {
                let edges = [
                    -1,
                    0,
                    1,
                    2,
                    3,
                    4,
                    i64::from(i32::MAX),
                    i64::from(i32::MAX) + 1,
                    i64::from(i32::MIN),
                    i64::from(i32::MIN) - 1,
                    1 << 32,
                    (1 << 32) + 1,
                    i64::MAX,
                    i64::MIN,
                ];
                let value = random.pick(&edges);
                put(case, cell, [INTEGER_TAG, value as u64, 0]);
            }
        }
        "type" => {
            if let Some((row, cell)) = some_cell(random, case, &[1, 2, 4, 9, 12, 13]) {
                let now = case.rows[row][2 + 3 * cell];
                case.rows[row][2 + 3 * cell] =
                    random.pick(&[0, 1, 2, 3, 4, 5, 9, 10, 12, 13, 12, 13, 16, now + 256, now + (1 << 32), u64::MAX]);
                // now is 1 to 13
            }
        }
        "second word" => {
            if let Some((row, cell)) = some_cell(random, case, &[1, 2, 9]) {
                case.rows[row][4 + 3 * cell] = random.pick(&[1, 1, 2, 1 << 32, 1 << 63, u64::MAX]);
            }
        }
        "member that the kind has not" => {
            let (row, cell) = (random.below(rows), random.below(CELLS));
            let words = match random.below(5) {
                0 => [INTEGER_TAG, 1, 0],
                1 => [BOOLEAN_TAG, 1, 0],
                2 => [TEXT_TAG, 0, 0],
                3 => [OID_TAG, 0, 0],
                _ => [REAL_TAG, 0, 0],
            };
            if case.rows[row][2 + 3 * cell] == 0 {
                put(case, (row, cell), words);
            }
        }
        "absent with words" => {
            let (row, cell) = (random.below(rows), random.below(CELLS));
            if case.rows[row][2 + 3 * cell] == 0 || random.one_in(3) {
                case.rows[row][2 + 3 * cell] = 0;
                case.rows[row][3 + 3 * cell + random.below(2)] = random.pick(&[1, 1, 1 << 32, 1 << 63]);
            }
        }
        "member left out" => {
            let types: &[u64] = if random.one_in(2) { &[2, 13] } else { &[1, 2, 4, 9, 12, 13] };
            if let Some(cell) = some_cell(random, case, types) {
                put(case, cell, [0; 3]);
            }
        }
        "part" => {
            if let Some(cell) = some_cell(random, case, &[4, 12, 13]) {
                change_part(random, case, cell);
            }
        }
        "real" => {
            // Where a real may stand, mostly.
            let cells = if random.one_in(8) { cells_of(case, &[1, 2, 9]) } else { cells_for(case, false) };
            if !cells.is_empty() {
                let cell = random.pick(&cells);
                let bits = real_bits(random);
                put(case, cell, [REAL_TAG, bits, 0]);
            }
        }
        "flag" => {
            let cells = cells_for(case, true);
            if !cells.is_empty() {
                let cell = random.pick(&cells);
                let word = random.pick(&[0, 1, 2, 2, 3, 255, 256, 257, 1 << 32, (1 << 32) + 1, 1 << 63, u64::MAX]);
                put(case, cell, [BOOLEAN_TAG, word, 0]);
            }
        }
        "name" => {
            let cells: Vec<(usize, usize)> =
                (0..rows).filter(|&row| matches!(case.rows[row][0], 1 | 3..=7)).map(|row| (row, 1)).collect();
            if !cells.is_empty() {
                let cell = random.pick(&cells);
                let name = name(random);
                let start = added(random, case, &name);
                put(case, cell, [TEXT_TAG, start, name.len() as u64]);
            }
        }
        "path or sources" => {
            if let Some(cell) = some_cell(random, case, &[13]) {
                let octets = identifier(random);
                let start = added(random, case, &octets);
                put(case, cell, [OID_TAG, start, octets.len() as u64]);
            }
        }
        other => unreachable!("{other}"),
    }
}

fn change_message(random: &mut Random, case: &mut Case) {
    let length = case.message.len();
    match random.below(8) {
        0 => case.message.clear(),
        1 => case.message.truncate(length.saturating_sub(1)),
        2 => case.message.truncate(random.below(length + 1)),
        3 => case.message = random.bytes(length),
        4 => {
            let more = random.pick(&[1, 40, 16_384]);
            case.message.extend(random.bytes(more));
        }
        5 if length > 0 => {
            case.message.remove(random.below(length));
        }
        _ if length > 0 => {
            for _ in 0..random.range(1, 4) {
                let at = random.below(length);
                case.message[at] = random.pick(&[b'/', b'a', 0x00, 0x80, 0x81, 0x01, 0xFF]);
            }
        }
        _ => case.message.push(0x80),
    }
}

/// Start and length at and past the message's ends, and where their sum passes 2^64.
fn change_part(random: &mut Random, case: &mut Case, (row, cell): (usize, usize)) {
    let words = case.rows[row];
    let (tag, start, length) = (words[2 + 3 * cell], words[3 + 3 * cell], words[4 + 3 * cell]);
    let end = case.message.len() as u64;
    let (start, length) = match random.below(20) {
        0 => (start.wrapping_add(1), length),
        1 => (start, length.wrapping_add(1)),
        2 => (start, length.saturating_sub(1)),
        3 => (start.saturating_sub(1), length.wrapping_add(1)),
        4 => (end.wrapping_sub(length), length),
        5 => (end.wrapping_sub(length).wrapping_add(1), length),
        6 => (end, 0),
        7 => (end + 1, 0),
        8 => (0, end),
        9 => (0, end + 1),
        10 => (1, end),
        11 => (start | 1 << 63, length),
        12 => (start, length | 1 << 63),
        13 => (start | 1 << 32, length),
        14 => (start, length | 1 << 32),
        // Sums that pass 2^64.
        15 => (0u64.wrapping_sub(length), length),
        16 => (u64::MAX, random.pick(&[1, 2, u64::MAX])),
        17 => (start, 0u64.wrapping_sub(start).wrapping_add(random.below(3) as u64)),
        18 => (1 << 63, 1 << 63),
        _ => (random.below(end as usize + 1) as u64, random.below(6) as u64),
    };
    put(case, (row, cell), [tag, start, length]);
}

fn real_bits(random: &mut Random) -> u64 {
    let edges = [
        0,
        1 << 63,               // minus zero
        0x7FF0_0000_0000_0000, // the infinities
        0xFFF0_0000_0000_0000,
        0x7FF8_0000_0000_0000, // NaNs
        0xFFF8_0000_0000_0000,
        0x7FF0_0000_0000_0001,
        0xFFFF_FFFF_FFFF_FFFF,
        0x7FEF_FFFF_FFFF_FFFF, // the greatest, the least, the least normal one and the one below
        1,
        0x0010_0000_0000_0000,
        0x000F_FFFF_FFFF_FFFF,
        0x8000_0000_0000_0001,
        0x3FF0_0000_0000_0000,
    ];
    match random.below(4) {
        0 | 1 => random.pick(&edges),
        2 => near_real(random).to_bits(),
        _ => random.next(),
    }
}

/// Names at the edges of their rule, right and wrong.
fn name(random: &mut Random) -> Vec<u8> {
    let names: [&[u8]; 22] = [
        b"",
        b"_",
        b"a",
        b"z",
        b"A",
        b"Z",
        b"/",
        b"a/",
        b"a/b",
        b"_/",
        b"1a",
        b"0",
        b"@a",
        b"[a",
        b"`a",
        b"{a",
        b"^",
        b" a",
        b"\xC3\xA9",
        b"a\xFF\x00",
        b"a.b",
        b"-a",
    ];
    let mut name = random.pick(&names).to_vec();
    if random.one_in(10) {
        name.resize(name.len() + 200, random.pick(b"a."));
        if random.one_in(2) {
            name.push(b'/');
        }
    }
    name
}

/// Relative identifiers: right ones, too long ones, numbers out of range, octets that are none.
fn identifier(random: &mut Random) -> Vec<u8> {
    let pieces: [&[u8]; 12] = [
        &[0],
        &[1],
        &[0x7F],
        &[0x81, 0x00],
        &[0x87, 0xFF, 0xFF, 0xFF, 0x7F],
        &[0x88, 0x80, 0x80, 0x80, 0x00],
        &[0x80, 0x01],
        &[0x81],
        &[0xFF, 0xFF, 0xFF, 0xFF, 0xFF, 0x7F],
        &[0x90, 0x80, 0x80, 0x80, 0x00],
        &[0x8F, 0xFF, 0xFF, 0xFF, 0x7F],
        &[0x82, 0x80, 0x80, 0x80, 0x80, 0x80, 0x80, 0x80, 0x80, 0x01],
    ];
    let count = random.pick(&[0, 1, 1, 2, 15, 16, 16, 17, 40, 300]);
    match random.below(3) {
        0 => write_oid(&vec![1; count]).unwrap(),
        1 => {
            let numbers: Vec<u64> = (0..count).map(|_| random.next() >> random.range(33, 63)).collect();
            write_oid(&numbers).unwrap()
        }
        _ => {
            let mut octets = write_oid(&vec![2; count]).unwrap();
            let at = random.below(octets.len() + 1);
            let piece = random.pick(&pieces);
            octets.splice(at..at, piece.iter().copied());
            octets
        }
    }
}

/// Entries in another order, with their parents' places as they were or changed with them; or one more or less.
fn reorder(random: &mut Random, case: &mut Case, rows: usize) {
    let mut order: Vec<usize> = (0..rows).collect();
    match random.below(6) {
        0 if rows > 1 => {
            let at = random.below(rows - 1);
            order.swap(at, at + 1);
        }
        1 => order.swap(random.below(rows), random.below(rows)),
        2 => order.rotate_left(random.below(rows)),
        3 => {
            order.remove(random.below(rows));
        }
        4 => order.insert(random.below(rows + 1), random.below(rows)),
        _ => {
            let taken = order.remove(random.below(rows));
            order.insert(random.below(rows), taken);
        }
    }
    let follow = random.one_in(2);
    permute(case, rows, &order, follow);
}

/// The entries in that order. If `follow`, each parent is where it now first stands.
fn permute(case: &mut Case, rows: usize, order: &[usize], follow: bool) {
    let old = case.rows.clone();
    let mut new: Vec<Row> = order.iter().map(|&place| old[place]).collect();
    if follow {
        for row in &mut new {
            let parent = row[1].wrapping_sub(1);
            if let Some(at) = order.iter().position(|&place| place as u64 == parent) {
                row[1] = at as u64 + 1;
            }
        }
    }
    case.count = new.len();
    new.extend(&old[rows..]);
    case.rows = new;
}

/// A connection put before a child of its matrix, or a child after its connections, all else in order.
fn connection_first(random: &mut Random, case: &mut Case, rows: usize) {
    let parents: Vec<u64> = case.rows[..rows].iter().map(|row| row[1]).collect();
    let connections: Vec<usize> = (0..rows).filter(|&place| case.rows[place][0] == CONNECTION && parents[place] != 0).collect();
    if connections.is_empty() {
        return;
    }
    let connection = random.pick(&connections);
    let parent = parents[connection];
    let mut order: Vec<usize> = (0..rows).collect();
    let child = (0..rows).find(|&place| parents[place] == parent && case.rows[place][0] != CONNECTION);
    match child {
        Some(child) if child < connection => {
            let taken = order.remove(connection);
            order.insert(child, taken);
            permute(case, rows, &order, true);
        }
        _ => {
            // No child yet: one after the connection.
            let mut row = [0; WORDS];
            row[..4].copy_from_slice(&[2, parent, INTEGER_TAG, 32]);
            case.rows.insert(connection + 1, row);
            case.count = rows + 1;
            for row in &mut case.rows[connection + 2..rows + 1] {
                if row[1] > connection as u64 + 1 {
                    row[1] = row[1].wrapping_add(1);
                }
            }
        }
    }
}

// ---- Shown ----

/// Cases as text.
pub fn text(seed: u64, count: usize) -> String {
    let mut random = Random::new(seed);
    (0..count).map(|_| shown(&case(&mut random))).collect()
}

/// A case as text: counts, the message, and of each row the words that are not 0.
pub fn shown(case: &Case) -> String {
    let damages: Vec<&str> = case.damages.iter().map(|&damage| DAMAGES[damage]).collect();
    let mut out = format!(
        "kind \"{}\" damages {damages:?}\nrows {} count {} root {}\nmessage {}\n",
        KINDS[case.kind],
        case.rows.len(),
        case.count,
        case.root,
        hex(&case.message)
    );
    for (place, row) in case.rows.iter().enumerate() {
        out += &format!("row {place}: kind {} parent {}", row[0], row[1]);
        for cell in 0..CELLS {
            let words = &row[2 + 3 * cell..5 + 3 * cell];
            if words != [0, 0, 0] {
                out += &format!(", cell {cell} {} {:#x} {:#x}", words[0], words[1], words[2]);
            }
        }
        out += "\n";
    }
    out
}
