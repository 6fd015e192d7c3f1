use super::*;
use crate::gen::rows::case;
use crate::gen::Random;
use crate::lines::digits;
use crate::tree::read;
use crate::tree::Answer;

/// A row of that kind and parent (0: none) with the given cells.
fn row(kind: u64, parent: u64, cells: &[(usize, [u64; 3])]) -> Row {
    let mut row = [0; WORDS];
    row[0] = kind;
    row[1] = parent;
    for (cell, words) in cells {
        row[2 + 3 * cell..5 + 3 * cell].copy_from_slice(words);
    }
    row
}

fn int(value: i64) -> [u64; 3] {
    [2, value as u64, 0]
}

fn real(value: f64) -> [u64; 3] {
    [9, value.to_bits(), 0]
}

const TRUE: [u64; 3] = [1, 1, 0];
const NUMBER: (usize, [u64; 3]) = (0, [2, 1, 0]);
/// The message beside: a name, a path of one number, a path of two, a zero, and octets that are no identifier.
const BESIDE: &[u8] = b"name\x01\x01\x02\x00\x80/";
const NAME: [u64; 3] = [12, 0, 4];
const PATH: (usize, [u64; 3]) = (0, [13, 4, 1]);

fn command(parent: u64) -> Row {
    row(COMMAND, parent, &[NUMBER])
}

fn node(parent: u64) -> Row {
    row(NODE, parent, &[NUMBER])
}

fn matrix(parent: u64) -> Row {
    row(MATRIX, parent, &[NUMBER])
}

fn connection(parent: u64) -> Row {
    row(CONNECTION, parent, &[(0, int(0))])
}

fn stream(value: [u64; 3]) -> Row {
    row(STREAM_ENTRY, 0, &[(0, int(0)), (1, value)])
}

/// Accepted and written alike; what is written.
#[track_caller]
fn both(rows: &[Row], count: usize, root: u64, message: &[u8]) -> Option<Vec<u8>> {
    let written = written(rows, count, root, message);
    assert_eq!(accepted(rows, count, root, message), written.is_ok());
    written.ok()
}

#[track_caller]
fn yes_beside(rows: &[Row], message: &[u8]) -> String {
    let root = if rows.first().is_some_and(|row| row[0] == STREAM_ENTRY) { STREAMS } else { ELEMENTS };
    digits(&both(rows, rows.len(), root, message).expect("accepted and written"))
}

#[track_caller]
fn no_beside(rows: &[Row], message: &[u8]) {
    for root in [ELEMENTS, STREAMS] {
        assert_eq!(both(rows, rows.len(), root, message), None);
    }
}

#[track_caller]
fn yes(rows: &[Row]) -> String {
    yes_beside(rows, BESIDE)
}

#[track_caller]
fn no(rows: &[Row]) {
    no_beside(rows, BESIDE);
}

/// A cell of an element alone in Root, with a value on each side of its rule.
#[track_caller]
fn cell(kind: u64, cell: usize, right: &[[u64; 3]], wrong: &[[u64; 3]]) {
    let first = match kind {
        QUALIFIED_PARAMETER | QUALIFIED_NODE | QUALIFIED_MATRIX => PATH,
        _ => NUMBER,
    };
    let entries = |words: [u64; 3]| match kind {
        CONNECTION => vec![matrix(0), row(kind, 1, &[first, (cell, words)])],
        STREAM_ENTRY => vec![row(kind, 0, &[first, (1, int(1)), (cell, words)])],
        _ => vec![row(kind, 0, &[first, (cell, words)])],
    };
    for &words in right {
        yes(&entries(words));
    }
    for &words in wrong {
        no(&entries(words));
    }
}

#[test]
fn p12_and_no_entries() {
    assert_eq!(yes(&[row(COMMAND, 0, &[(0, int(32))])]), "600B6B09A0076205A003020120");
    assert_eq!(both(&[], 0, ELEMENTS, &[]), Some(vec![0x60, 0x02, 0x6B, 0x00]));
    assert_eq!(both(&[], 0, STREAMS, &[]), Some(vec![0x60, 0x02, 0x65, 0x00]));
}

#[test]
fn root() {
    for root in [1, 2, 4, 5, 11, 1 << 32, (1 << 32) + 3, u64::MAX] {
        assert_eq!(both(&[], 0, root, &[]), None);
        assert_eq!(both(&[command(0)], 1, root, &[]), None);
        assert_eq!(both(&[stream(int(1))], 1, root, &[]), None);
    }
    assert!(both(&[stream(int(1))], 1, STREAMS, &[]).is_some());
    assert_eq!(both(&[stream(int(1))], 1, ELEMENTS, &[]), None);
    assert_eq!(both(&[command(0)], 1, STREAMS, &[]), None);
    assert_eq!(both(&[stream(int(1)), command(0)], 2, STREAMS, &[]), None);
}

/// H6, and rows after the entries.
#[test]
fn counts() {
    let rows = [command(0); 300];
    assert_eq!(both(&rows[..2], 3, ELEMENTS, &[]), None);
    assert!(both(&rows[..2], 2, ELEMENTS, &[]).is_some());
    assert!(both(&rows, 256, ELEMENTS, &[]).is_some());
    assert_eq!(both(&rows, 257, ELEMENTS, &[]), None);
    assert_eq!(both(&rows, 300, ELEMENTS, &[]), None);
    assert_eq!(both(&rows, usize::MAX, ELEMENTS, &[]), None);
    // Of what stands after the entries nothing counts.
    assert_eq!(both(&[command(0), [u64::MAX; WORDS]], 1, ELEMENTS, &[]), both(&rows, 1, ELEMENTS, &[]));
    assert_eq!(both(&[[u64::MAX; WORDS]], 0, ELEMENTS, &[]), Some(vec![0x60, 0x02, 0x6B, 0x00]));
}

#[test]
fn kinds_and_parents() {
    for kind in [0, 10, 11, 257, 1 << 32, (1 << 32) + 2, u64::MAX] {
        no(&[row(kind, 0, &[NUMBER])]);
    }
    for kind in [PARAMETER, NODE, MATRIX] {
        yes(&[row(kind, 0, &[NUMBER])]);
        no(&[row(kind, 0, &[PATH])]);
        no(&[row(kind, 0, &[])]);
        // Each may have children; "Qualified elements stand only at root level".
        yes(&[row(kind, 0, &[NUMBER]), command(1), row(PARAMETER, 1, &[NUMBER]), node(1), matrix(1)]);
        yes(&[row(kind + 3 + u64::from(kind == PARAMETER), 0, &[PATH]), command(1)]);
    }
    for kind in [QUALIFIED_PARAMETER, QUALIFIED_NODE, QUALIFIED_MATRIX] {
        yes(&[row(kind, 0, &[PATH])]);
        no(&[row(kind, 0, &[NUMBER])]);
        no(&[row(kind, 0, &[])]);
        no(&[node(0), row(kind, 1, &[PATH])]);
    }
    // Nothing below a command, a connection or a stream entry; connections only below a matrix.
    no(&[command(0), command(1)]);
    no(&[command(0), connection(1)]);
    no(&[matrix(0), connection(1), command(2)]);
    no(&[matrix(0), connection(1), connection(2)]);
    no(&[stream(int(1)), row(STREAM_ENTRY, 1, &[(0, int(0)), (1, int(1))])]);
    no(&[node(0), row(STREAM_ENTRY, 1, &[(0, int(0)), (1, int(1))])]);
    no(&[connection(0)]);
    no(&[node(0), connection(1)]);
    no(&[row(PARAMETER, 0, &[NUMBER]), connection(1)]);
    yes(&[matrix(0), connection(1)]);
    yes(&[row(QUALIFIED_MATRIX, 0, &[PATH]), connection(1)]);
    yes(&[node(0), matrix(1), connection(2)]);
    // Required members.
    no(&[row(COMMAND, 0, &[])]);
    no(&[matrix(0), row(CONNECTION, 1, &[])]);
    no(&[row(STREAM_ENTRY, 0, &[(0, int(0))])]);
    no(&[row(STREAM_ENTRY, 0, &[(1, int(0))])]);
}

/// W1: "in message order, with its parent's place".
#[test]
fn order() {
    yes(&[node(0), node(1), node(2), node(2), node(1), node(0), node(6)]);
    for parent in [1, 2, 3, 256, 257, 1 << 32, 1 << 63, u64::MAX] {
        no(&[node(parent)]);
        no(&[node(parent), node(0)]);
    }
    no(&[node(0), node(2)]);
    no(&[node(0), node(3), node(0)]);
    no(&[node(0), node(1 + (1 << 32))]);
    // After a later sister, or one level up and down again.
    no(&[node(0), node(0), node(1)]);
    no(&[node(0), node(1), node(1), node(2)]);
    no(&[node(0), node(1), node(0), node(2)]);
    // Children before connections.
    yes(&[matrix(0), command(1), connection(1)]);
    no(&[matrix(0), connection(1), command(1)]);
    no(&[matrix(0), connection(1), command(1), connection(1)]);
    yes(&[matrix(0), matrix(1), connection(2), connection(1), command(0)]);
    no(&[matrix(0), matrix(1), connection(1), connection(2)]);
}

/// The grammar's ranges.
#[test]
fn numbers() {
    const TOP: i64 = i32::MAX as i64;
    const LOW: i64 = i32::MIN as i64;
    let from =
        |low: i64, high: i64| ([int(low), int(low + 1), int(high)], [int(low - 1), int(high + 1), int(i64::MIN), int(i64::MAX)]);
    let (right, wrong) = from(1, TOP);
    for kind in [PARAMETER, NODE, MATRIX] {
        cell(kind, 0, &right, &wrong);
    }
    let (right, wrong) = from(LOW, TOP);
    for (kind, at) in [(COMMAND, 0), (COMMAND, 1), (PARAMETER, 9), (PARAMETER, 12), (QUALIFIED_PARAMETER, 9)] {
        cell(kind, at, &right, &wrong);
    }
    let (right, wrong) = from(0, TOP);
    for (kind, at) in [(CONNECTION, 0), (STREAM_ENTRY, 0), (PARAMETER, 15), (MATRIX, 5), (MATRIX, 6), (MATRIX, 7), (MATRIX, 8)] {
        cell(kind, at, &right, &wrong);
    }
    cell(MATRIX, 3, &[int(0), int(2)], &[int(-1), int(3)]);
    cell(MATRIX, 4, &[int(0), int(1)], &[int(-1), int(2)]);
    cell(CONNECTION, 2, &[int(0), int(2)], &[int(-1), int(3)]);
    cell(PARAMETER, 6, &[int(0), int(3)], &[int(-1), int(4)]);
    // Values have no range.
    cell(PARAMETER, 3, &[int(i64::MIN), int(i64::MAX), int(0)], &[]);
    // The words of an integer: its bits, and 0.
    no(&[row(NODE, 0, &[(0, [2, 1, 1])])]);
    no(&[row(NODE, 0, &[(0, [2, 1, 1 << 63])])]);
    no(&[row(NODE, 0, &[(0, [2, 1 + (1 << 32), 0])])]);
}

#[test]
fn types_of_cells() {
    let texts = [[12, 0, 4]];
    let others =
        [TRUE, int(1), real(1.0), [4, 0, 4], [13, 4, 1], [3, 0, 0], [5, 0, 0], [10, 1, 0], [258, 1, 0], [u64::MAX, 0, 0]];
    for kind in [PARAMETER, NODE, MATRIX, QUALIFIED_PARAMETER, QUALIFIED_NODE, QUALIFIED_MATRIX] {
        cell(kind, 1, &texts, &others);
        cell(kind, 2, &texts, &others);
    }
    for (kind, at) in [(NODE, 3), (NODE, 4), (PARAMETER, 10)] {
        let flags = [[1, 2, 0], [1, 256, 0], [1, 1 << 32, 0], [1, u64::MAX, 0], [1, 0, 1], [1, 1, 1], int(1), int(0), [12, 0, 4]];
        cell(kind, at, &[TRUE, [1, 0, 0]], &flags);
    }
    for (kind, at) in [(PARAMETER, 3), (PARAMETER, 4), (QUALIFIED_PARAMETER, 5), (STREAM_ENTRY, 1)] {
        let right = [TRUE, int(1), real(1.0), [4, 0, 4], [4, 0, 0], [12, 0, 4], [12, 10, 0]];
        cell(kind, at, &right, &[[13, 4, 1], [3, 0, 0], [5, 0, 0], [10, 1, 0], [16, 0, 0], [1, 2, 0], [9, 0, 1], [2, 0, 1]]);
    }
    cell(CONNECTION, 1, &[[13, 4, 3], [13, 7, 1], [13, 0, 0]], &[[12, 4, 1], [4, 4, 1], int(1)]);
}

/// H5, W3: "a word in a cell that its kind does not have".
#[test]
fn cells_that_the_kind_has_not() {
    let has: [(u64, &[usize]); 9] = [
        (PARAMETER, &[0, 1, 2, 3, 4, 5, 6, 9, 10, 12, 15]),
        (COMMAND, &[0, 1]),
        (NODE, &[0, 1, 2, 3, 4]),
        (MATRIX, &[0, 1, 2, 3, 4, 5, 6, 7, 8]),
        (QUALIFIED_PARAMETER, &[0, 1, 2, 3, 4, 5, 6, 9, 10, 12, 15]),
        (QUALIFIED_NODE, &[0, 1, 2, 3, 4]),
        (QUALIFIED_MATRIX, &[0, 1, 2, 3, 4, 5, 6, 7, 8]),
        (CONNECTION, &[0, 1, 2]),
        (STREAM_ENTRY, &[0, 1]),
    ];
    for (kind, cells) in has {
        for at in 0..CELLS {
            let wrong = [int(1), TRUE, NAME, [13, 4, 1], real(0.0), [4, 0, 0], [1, 0, 0]];
            if cells.contains(&at) {
                // There is a right value for each cell of the kind: every one but for its type.
                let right = wrong.iter().filter(|words| {
                    let first = if matches!(kind, 5..=7) { PATH } else { NUMBER };
                    let entry = row(
                        kind,
                        u64::from(kind == CONNECTION),
                        &[first, (1, if kind == STREAM_ENTRY { int(1) } else { [0; 3] }), (at, **words)],
                    );
                    let entries = if kind == CONNECTION { vec![matrix(0), entry] } else { vec![entry] };
                    let root = if kind == STREAM_ENTRY { STREAMS } else { ELEMENTS };
                    both(&entries, entries.len(), root, BESIDE).is_some()
                });
                assert!(right.count() > 0, "{kind} {at}");
            } else {
                cell(kind, at, &[[0, 0, 0]], &wrong);
            }
            // An absent cell has no words, of whatever kind.
            cell(kind, at, &[], &[[0, 1, 0], [0, 0, 1], [0, 1 << 63, 0], [0, 0, u64::MAX]]);
        }
    }
}

#[test]
fn parts() {
    let end = BESIDE.len() as u64;
    let wrong = [
        [end, 1],
        [end + 1, 0],
        [0, end + 1],
        [1, end],
        [1 << 63, 4],
        [0, 1 << 63],
        [1 << 32, 4],
        [0, (1 << 32) + 4],
        [u64::MAX, 1],
        [u64::MAX, 2],
        [u64::MAX - 3, 4],
        [4, u64::MAX - 3],
        [1 << 63, 1 << 63],
        [u64::MAX, u64::MAX],
    ];
    let right = [[0, end], [end, 0], [end - 1, 1], [0, 0], [3, 2]];
    for tag in [12, 4] {
        let words = |parts: &[[u64; 2]]| parts.iter().map(|part| [tag, part[0], part[1]]).collect::<Vec<_>>();
        cell(PARAMETER, 3, &words(&right), &words(&wrong));
        cell(STREAM_ENTRY, 1, &words(&right), &words(&wrong));
    }
    let words = wrong.map(|part| [13, part[0], part[1]]);
    cell(CONNECTION, 1, &[[13, end, 0]], &words);
    cell(QUALIFIED_NODE, 0, &[[13, 4, 1]], &words);
    cell(NODE, 1, &[[12, 0, 4]], &wrong.map(|part| [12, part[0], part[1]]));
    // H7: another message beside the same rows.
    let rows = [row(NODE, 0, &[NUMBER, (1, [12, 1, 2])])];
    assert_eq!(yes_beside(&rows, b"/ab/"), named("ab"));
    assert_eq!(yes_beside(&rows, b"abc"), named("bc"));
    no_beside(&rows, b"ab");
    no_beside(&rows, b"");
    no_beside(&rows, b"a/b");
    no_beside(&rows, b"a1b");
    // It may be longer than a message.
    assert_eq!(yes_beside(&rows, &[b"Zab".to_vec(), vec![0; 20_000]].concat()), named("ab"));
}

/// What is written for a node with that identifier.
fn named(name: &str) -> String {
    let text = crate::gen::tree::rules::notation(&format!(
        "60{{6B{{A0{{63{{A0{{020101}}A1{{31{{A0{{0C{{{}}}}}}}}}}}}}}}}}",
        digits(name.as_bytes())
    ));
    digits(&text.0)
}

#[test]
fn names() {
    for (name, right) in [
        (&b"a"[..], true),
        (b"z", true),
        (b"A", true),
        (b"Z", true),
        (b"_", true),
        (b"a\xFF\x00 ", true),
        (b"", false),
        (b"/", false),
        (b"a/", false),
        (b"1a", false),
        (b"@", false),
        (b"[", false),
        (b"`", false),
        (b"{", false),
        (b"^", false),
        (b"\xC3\xA9", false),
    ] {
        for kind in [PARAMETER, NODE, MATRIX] {
            let rows = [row(kind, 0, &[NUMBER, (1, [12, 0, name.len() as u64])])];
            assert_eq!(both(&rows, 1, ELEMENTS, name).is_some(), right, "{name:?}");
            // A description is any text.
            yes_beside(&[row(kind, 0, &[NUMBER, (2, [12, 0, name.len() as u64])])], name);
        }
    }
}

#[test]
fn paths_and_sources() {
    for (octets, path, sources) in [
        (&[][..], false, true),
        (&[0], false, true),
        (&[1], true, true),
        (&[1; 16], true, true),
        (&[1; 17], false, true),
        (&[1; 3_000], false, true),
        (&[1, 0], false, true),
        (&[0x87, 0xFF, 0xFF, 0xFF, 0x7F], true, true),
        (&[0x88, 0x80, 0x80, 0x80, 0x00], false, false),
        (&[0x80, 0x01], false, false),
        (&[0x81], false, false),
        (&[0x01, 0x80], false, false),
        (&[0x90, 0x80, 0x80, 0x80, 0x01], false, false),
        (&[0x82, 0x80, 0x80, 0x80, 0x80, 0x80, 0x80, 0x80, 0x80, 0x01], false, false),
    ] {
        let part = [13, 0, octets.len() as u64];
        for kind in [QUALIFIED_PARAMETER, QUALIFIED_NODE, QUALIFIED_MATRIX] {
            assert_eq!(both(&[row(kind, 0, &[(0, part)])], 1, ELEMENTS, octets).is_some(), path, "{octets:02X?}");
        }
        let rows = [matrix(0), row(CONNECTION, 1, &[(0, int(0)), (1, part)])];
        assert_eq!(both(&rows, 2, ELEMENTS, octets).is_some(), sources, "{octets:02X?}");
    }
    // Empty sources are told from absent ones.
    let rows = |part| [matrix(0), row(CONNECTION, 1, &[(0, int(0)), (1, part)])];
    assert_ne!(yes(&rows([13, 0, 0])), yes(&rows([0, 0, 0])));
}

/// "A full path has 1 to 16 numbers", parents counted; a command's number is no step.
#[test]
fn full_paths() {
    let qualified = |steps: u64| row(QUALIFIED_NODE, 0, &[(0, [13, 0, steps])]);
    let message = [1; 20];
    for steps in 1..=16 {
        let mut rows = vec![qualified(steps)];
        for level in 1..=(16 - steps).min(14) {
            rows.push(node(level));
        }
        let last = rows.len() as u64;
        let full = steps + last - 1 == 16;
        yes_beside(&rows, &message);
        if last < 15 {
            yes_beside(&[&rows[..], &[command(last)]].concat(), &message);
        }
        if full {
            no_beside(&[&rows[..], &[node(last)]].concat(), &message);
        }
    }
    no_beside(&[qualified(17)], &message);
}

/// Of 64 containers an element of level 15 is the deepest, and level 14 for a matrix with connections.
#[test]
fn levels() {
    let chain = |levels: u64| (0..levels).map(matrix).collect::<Vec<Row>>();
    for levels in 1..=17 {
        let rows = chain(levels);
        assert_eq!(both(&rows, rows.len(), ELEMENTS, &[]).is_some(), levels <= 15, "{levels}");
        let rows = [chain(levels), vec![connection(levels)]].concat();
        assert_eq!(both(&rows, rows.len(), ELEMENTS, &[]).is_some(), levels <= 14, "{levels}");
        let rows = [chain(levels), vec![command(levels)]].concat();
        assert_eq!(both(&rows, rows.len(), ELEMENTS, &[]).is_some(), levels <= 14, "{levels}");
        // Contents take the two containers that the number has left.
        let mut rows = chain(levels);
        rows[levels as usize - 1][5..8].copy_from_slice(&NAME);
        assert_eq!(both(&rows, rows.len(), ELEMENTS, BESIDE).is_some(), levels <= 15, "{levels}");
    }
    no(&chain(256));
}

#[test]
fn reals() {
    let right = [0.0, 1.0, -1.0, f64::MAX, f64::MIN, f64::INFINITY, f64::NEG_INFINITY, 5e-324, f64::MIN_POSITIVE, 0.1];
    let bits = [1 << 63, 0x7FF8 << 48, 0xFFF8 << 48, (0x7FF0 << 48) + 1, u64::MAX];
    let wrong: Vec<[u64; 3]> = bits.iter().map(|&bits| [9, bits, 0]).chain([[9, 0, 1], [9, 1 << 62, 1 << 63]]).collect();
    for (kind, at) in [(PARAMETER, 3), (PARAMETER, 4), (PARAMETER, 5), (STREAM_ENTRY, 1)] {
        cell(kind, at, &right.map(real), &wrong);
    }
}

/// A node with a description of that length, and a parameter with that value.
fn sized(length: usize, value: f64) -> ([Row; 2], Vec<u8>) {
    let rows = [row(NODE, 0, &[NUMBER, (2, [12, 0, length as u64])]), row(PARAMETER, 0, &[NUMBER, (3, real(value))])];
    (rows, vec![0x41; length])
}

/// H1: "a shortest encoding that fits" is enough to be accepted, and the written one must fit to be written.
#[test]
fn sizes() {
    let judged = |length: usize, value: f64| {
        let (rows, message) = sized(length, value);
        (accepted(&rows, 2, ELEMENTS, &message), written(&rows, 2, ELEMENTS, &message).map(|octets| octets.len()))
    };
    let (_, around) = judged(10_000, 1.0);
    let around = around.unwrap() - 10_000;
    let fits = 16_384 - around;
    assert_eq!(judged(fits, 1.0), (true, Ok(16_384)));
    assert_eq!(judged(fits + 1, 1.0), (false, Err(OUT)));
    // 2^128 is written in one octet more than 1, and read from as many.
    let long = f64::powi(2.0, 128);
    assert_eq!(judged(fits - 1, long), (true, Ok(16_384)));
    assert_eq!(judged(fits, long), (true, Err(OUT)));
    assert_eq!(judged(fits + 1, long), (false, Err(OUT)));
    // 2^138 has no shorter form.
    let longer = f64::powi(2.0, 138);
    assert_eq!(judged(fits - 1, longer), (true, Ok(16_384)));
    assert_eq!(judged(fits, longer), (false, Err(OUT)));
    // Many entries may share one part: what counts is the message, not the rows.
    let rows = [row(NODE, 0, &[NUMBER, (2, [12, 0, 1_600])]); 256];
    let message = vec![0; 1_600];
    assert!(both(&rows, 10, ELEMENTS, &message).is_some());
    assert_eq!(both(&rows, 11, ELEMENTS, &message), None);
    assert_eq!(both(&rows, 256, ELEMENTS, &message), None);
}

/// A length that the least real keeps in one octet: the message is two or more octets shorter by one.
#[test]
fn sizes_of_lengths() {
    let long = f64::powi(2.0, 128);
    let size = |length: usize, spelling: crate::values::Spelling| {
        let rows = [row(PARAMETER, 0, &[NUMBER, (2, [12, 0, length as u64]), (3, real(long))])];
        let tree = tree_of(&rows, 1, ELEMENTS, &vec![0x41; length]).unwrap();
        crate::tree_writer::spelt(&tree, spelling).unwrap().len()
    };
    let gains: Vec<usize> =
        (80..130).map(|length| size(length, crate::values::write_real) - size(length, crate::values::least_real)).collect();
    assert!(gains.contains(&1) && gains.contains(&2), "{gains:?}");
}

/// Rows of messages that were read are accepted and written, and written again alike.
#[test]
fn what_is_read_is_written() {
    let mut random = Random::new(3);
    let mut count = 0;
    while count < 3_000 {
        let case = case(&mut random);
        if case.kind != 0 || !case.damages.is_empty() {
            continue;
        }
        count += 1;
        let octets = both(&case.rows, case.count, case.root, &case.message).unwrap();
        let tree = tree_of(&case.rows, case.count, case.root, &case.message).unwrap();
        assert_eq!(read(&octets, case.count), Answer::Tree(tree.clone()));
        assert_eq!(read(&case.message, case.count), Answer::Tree(tree));
    }
}

// ---- A second opinion: the rules one by one, and sizes without a message ----

/// What the reader would say of these entries but for their length: order, kinds, levels and values.
fn by_rules(tree: &Tree) -> bool {
    use std::ops::RangeInclusive;
    const TOP: i64 = i32::MAX as i64;
    let within = |value: Option<i64>, range: RangeInclusive<i64>| value.is_none_or(|value| range.contains(&value));
    let signed = i64::from(i32::MIN)..=TOP;
    let name = |name: &Option<Vec<u8>>| {
        name.as_ref().is_none_or(|name| {
            let first = name.first().copied().unwrap_or(b'/');
            (first == b'_' || first.is_ascii_alphabetic()) && !name.contains(&b'/')
        })
    };
    let value = |value: Option<&Value>| match value {
        Some(Value::Real(real)) => !real.is_nan() && real.to_bits() != 1 << 63,
        _ => true,
    };
    let is_connection = |entry: &Entry| matches!(entry.body, Body::Connection { .. });
    let is_leaf = |entry: &Entry| matches!(entry.body, Body::Command { .. } | Body::Connection { .. } | Body::StreamEntry { .. });
    let mut levels: Vec<usize> = Vec::new();
    let mut steps: Vec<usize> = Vec::new();
    for (place, entry) in tree.entries.iter().enumerate() {
        // The parent is the entry before or one of its ancestors; the last of them below the parent is its elder sister.
        let (mut at, mut sister) = (place.checked_sub(1), None);
        while at != entry.parent {
            let Some(above) = at else { return false };
            sister = at;
            at = tree.entries[above].parent;
        }
        let parent = entry.parent.map(|parent| &tree.entries[parent]);
        let level = entry.parent.map_or(1, |parent| levels[parent] + 1);
        let above = entry.parent.map_or(0, |parent| steps[parent]);
        let streams = tree.kind == RootKind::Streams;
        let is_stream = matches!(entry.body, Body::StreamEntry { .. });
        if streams != is_stream || is_stream && parent.is_some() || parent.is_some_and(is_leaf) {
            return false;
        }
        if is_connection(entry) {
            if !parent.is_some_and(|parent| matches!(parent.body, Body::Matrix(..))) || level > 15 {
                return false;
            }
        } else if level > 15 || parent.is_some() && sister.is_some_and(|sister| is_connection(&tree.entries[sister])) {
            return false;
        }
        let (key, right) = match &entry.body {
            Body::Parameter(key, contents) => (
                Some(key),
                name(&contents.identifier)
                    && value(contents.value.as_ref())
                    && value(contents.minimum.as_ref())
                    && value(contents.maximum.as_ref())
                    && within(contents.access, 0..=3)
                    && within(contents.factor, signed.clone())
                    && within(contents.step, signed.clone())
                    && within(contents.stream_identifier, 0..=TOP),
            ),
            Body::Node(key, contents) => (Some(key), name(&contents.identifier)),
            Body::Matrix(key, contents) => (
                Some(key),
                name(&contents.identifier)
                    && within(contents.kind, 0..=2)
                    && within(contents.mode, 0..=1)
                    && [contents.targets, contents.sources, contents.total_limit, contents.target_limit]
                        .into_iter()
                        .all(|number| within(number, 0..=TOP)),
            ),
            Body::Command { number, mask } => (None, within(Some(*number), signed.clone()) && within(*mask, signed.clone())),
            Body::Connection { target, operation, .. } => (None, within(Some(*target), 0..=TOP) && within(*operation, 0..=2)),
            Body::StreamEntry { identifier, value: sent } => (None, within(Some(*identifier), 0..=TOP) && value(Some(sent))),
        };
        let (length, key_right) = match key {
            None => (above, true),
            Some(Key::Number(number)) => (above + 1, within(Some(*number), 1..=TOP)),
            Some(Key::Path(path)) => (path.len(), parent.is_none() && !path.is_empty() && !path.contains(&0)),
        };
        if !right || !key_right || key.is_some() && length > 16 {
            return false;
        }
        levels.push(level);
        steps.push(length);
    }
    true
}

/// The length of the tree's message, from the last entry to the first.
fn size(tree: &Tree, real: fn(f64) -> usize) -> usize {
    let whole = |length: usize| {
        length
            + if length < 128 {
                2
            } else if length < 256 {
                3
            } else if length < 65_536 {
                4
            } else {
                5
            }
    };
    let member = |length: usize| whole(whole(length));
    let int = |value: i64| (65 - if value < 0 { !value } else { value }.leading_zeros() as usize).div_ceil(8);
    let ints = |values: &[Option<i64>]| values.iter().flatten().map(|&value| member(int(value))).sum::<usize>();
    let texts = |texts: [&Option<Vec<u8>>; 2]| texts.into_iter().flatten().map(|text| member(text.len())).sum::<usize>();
    let flags = |flags: &[Option<bool>]| member(1) * flags.iter().flatten().count();
    let numbers = |numbers: &[u64]| {
        let octets = |number: u64| (64 - number.max(1).leading_zeros() as usize).div_ceil(7);
        member(numbers.iter().map(|&number| octets(number)).sum())
    };
    let any = |value: &Value| {
        member(match value {
            Value::Integer(value) => int(*value),
            Value::Real(value) => real(*value),
            Value::Text(octets) | Value::Octets(octets) => octets.len(),
            Value::Boolean(_) => 1,
        })
    };
    let mut inside = vec![[0; 2]; tree.entries.len()]; // children and connections
    let mut root = 0;
    for (place, entry) in tree.entries.iter().enumerate().rev() {
        let (key, contents) = match &entry.body {
            Body::Parameter(key, contents) => (
                Some(key),
                texts([&contents.identifier, &contents.description])
                    + [&contents.value, &contents.minimum, &contents.maximum].into_iter().flatten().map(any).sum::<usize>()
                    + ints(&[contents.access, contents.factor, contents.step, contents.stream_identifier])
                    + flags(&[contents.online]),
            ),
            Body::Node(key, contents) => {
                (Some(key), texts([&contents.identifier, &contents.description]) + flags(&[contents.root, contents.online]))
            }
            Body::Matrix(key, contents) => (
                Some(key),
                texts([&contents.identifier, &contents.description])
                    + ints(&[contents.kind, contents.mode, contents.targets, contents.sources])
                    + ints(&[contents.total_limit, contents.target_limit]),
            ),
            Body::Command { number, mask } => (None, ints(&[Some(*number), *mask])),
            Body::Connection { target, sources, operation } => {
                (None, ints(&[Some(*target), *operation]) + sources.as_ref().map_or(0, |sources| numbers(sources)))
            }
            Body::StreamEntry { identifier, value } => (None, ints(&[Some(*identifier)]) + any(value)),
        };
        let own = match key {
            None => contents,
            Some(key) => {
                let key = match key {
                    Key::Number(number) => ints(&[Some(*number)]),
                    Key::Path(path) => numbers(path),
                };
                key + [contents, inside[place][0], inside[place][1]]
                    .into_iter()
                    .filter(|&length| length > 0)
                    .map(member)
                    .sum::<usize>()
            }
        };
        let part = usize::from(matches!(entry.body, Body::Connection { .. }));
        *entry.parent.map_or(&mut root, |parent| &mut inside[parent][part]) += member(own);
    }
    member(root)
}

/// How many octets a double is written in, and the least from which it is read: a scale and the spare bits of the mantissa's
/// first octet can save one of the exponent's.
fn written_octets(value: f64) -> usize {
    if value == 0.0 {
        return 0;
    }
    if value.is_infinite() {
        return 1;
    }
    let odd = crate::values::from_double(value);
    let exponent = if (-128..128).contains(&odd.power) { 1 } else { 2 };
    1 + exponent + (64 - odd.mantissa.leading_zeros() as usize).div_ceil(8)
}

fn least_octets(value: f64) -> usize {
    let octets = written_octets(value);
    if octets < 2 {
        return octets;
    }
    let odd = crate::values::from_double(value);
    let spare = i64::from(odd.mantissa.leading_zeros() % 8);
    octets - usize::from((128..=130 + spare).contains(&odd.power))
}

#[test]
fn both_opinions_agree() {
    let mut random = Random::new(20_261_116);
    let mut seen = [0; 4];
    for _ in 0..30_000 {
        let case = case(&mut random);
        let Some(tree) = tree_of(&case.rows, case.count, case.root, &case.message) else { continue };
        let right = by_rules(&tree);
        let accepts = right && size(&tree, least_octets) <= 16_384;
        let writes = right && size(&tree, written_octets) <= 16_384;
        let octets = written(&case.rows, case.count, case.root, &case.message);
        let shown = || crate::gen::rows::shown(&case);
        assert_eq!(accepted(&case.rows, case.count, case.root, &case.message), accepts, "{}", shown());
        assert_eq!(octets.is_ok(), writes, "{}", shown());
        if let Ok(octets) = octets {
            assert_eq!(octets.len(), size(&tree, written_octets), "{}", shown());
        }
        seen[usize::from(right) + usize::from(accepts) + usize::from(writes)] += 1;
    }
    assert!(seen.iter().all(|&count| count > 50), "{seen:?}");
    println!("against a rule, too long, accepted alone, written: {seen:?}");
}

#[test]
fn octets_of_reals() {
    let mut random = Random::new(9);
    for _ in 0..20_000 {
        let value = match random.below(3) {
            0 => f64::from_bits(random.next()),
            _ => (random.next() >> random.range(11, 63)) as f64 * f64::powi(2.0, random.range(0, 300) as i32 - 150),
        };
        if let Ok(octets) = crate::values::write_real(value) {
            let least = crate::values::least_real(value).unwrap();
            assert_eq!((written_octets(value), least_octets(value)), (octets.len(), least.len()), "{value:e}");
            assert_eq!(crate::values::read_real(&least).map(f64::to_bits), Ok(value.to_bits()));
        }
    }
}
