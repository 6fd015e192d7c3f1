//! The numbers of this crate are those of `ember.h`, and none of the answers and members that it names is left out.
#![forbid(unsafe_code)]

use ember::{member, number, Kind, Operation, Type};
use std::collections::BTreeMap;

/// The numbers that a part of the header defines, by name.
fn defined(header: &str) -> BTreeMap<&str, u64> {
    let mut all = BTreeMap::new();
    for line in header.lines() {
        let words: Vec<&str> = line.split_whitespace().collect();
        // `#define NAME 5`, or of an enum `NAME = 5,`
        let (name, number) = match words[..] {
            ["#define", name, number, ..] | [name, "=", number, ..] => (name, number.trim_end_matches(',')),
            _ => continue,
        };
        if let (Some(name), Ok(number)) = (name.strip_prefix("EMBER_"), number.parse()) {
            all.insert(name, number);
        }
    }
    all
}

/// Constants of a module by name.
macro_rules! numbers {
    ($module:ident: $($name:ident)*) => { BTreeMap::from([$((stringify!($name), $module::$name as u64)),*]) };
}

#[test]
fn as_in_the_header() {
    let header = std::fs::read_to_string(concat!(env!("CARGO_MANIFEST_DIR"), "/../../crates/ember/include/ember.h")).unwrap();
    let part = |from: &str, to: &str| {
        let rest = &header[header.find(from).unwrap()..];
        defined(&rest[..rest.find(to).unwrap()])
    };
    let answers = numbers!(number: DONE SETUP PIECE MESSAGE REQUEST RESPONSE BAD_STRAY BAD_CUT BAD_BYTE BAD_LONG BAD_ESCAPE BAD_SHORT BAD_CRC
        BAD_HEADER BAD_FLAGS BAD_DTD BAD_ORPHAN BAD_BIG BAD_BER BAD_FORM BAD_DEPTH BAD_GLOW BAD_NUMBER BAD_REAL BAD_NAME BAD_PATH NO_ROOM NO_MATRIX
        NO_TARGET NO_SOURCE BAD_MANY BAD_TOTAL BAD_DESK NO_OUT);
    assert_eq!(answers, part("---- The numbers answered", "---- The session"));
    // Each refusal has a name, its number and words of its own; events and 0 have none.
    let mut said = std::collections::BTreeSet::new();
    for (name, &number) in &answers {
        match ember::Error::of(number) {
            Some(error) => {
                assert_eq!(error.number(), number, "{name}");
                assert!(said.insert(error.to_string().split_once(": ").unwrap().1.to_owned()), "{name}");
            }
            None => assert!(number == 0 || (2..=5).contains(&number), "{name}"),
        }
    }
    let members = numbers!(member: NUMBER_OR_PATH IDENTIFIER DESCRIPTION PARAMETER_VALUE PARAMETER_MINIMUM PARAMETER_MAXIMUM PARAMETER_ACCESS
        PARAMETER_FACTOR PARAMETER_ONLINE PARAMETER_STEP PARAMETER_STREAM NODE_ROOT NODE_ONLINE MATRIX_TYPE MATRIX_MODE MATRIX_TARGETS MATRIX_SOURCES
        MATRIX_TOTAL_LIMIT MATRIX_TARGET_LIMIT COMMAND_NUMBER COMMAND_MASK CONNECTION_TARGET CONNECTION_SOURCES CONNECTION_OPERATION STREAM_NUMBER
        STREAM_VALUE);
    assert_eq!(members, part("The members, by their cell", "The commands of Glow"));
    let mut others =
        numbers!(ember: STORE_BYTES MESSAGE_MAX CONTENT_MAX FRAME_MAX FRAMES_MAX ROWS_MAX PATH_MAX SIDE_MAX SHEET_MAX);
    others.extend([
        ("KIND_PARAMETER", Kind::Parameter as u64),
        ("KIND_COMMAND", Kind::Command as u64),
        ("KIND_NODE", Kind::Node as u64),
        ("KIND_MATRIX", Kind::Matrix as u64),
        ("KIND_QUALIFIED_PARAMETER", Kind::QualifiedParameter as u64),
        ("KIND_QUALIFIED_NODE", Kind::QualifiedNode as u64),
        ("KIND_QUALIFIED_MATRIX", Kind::QualifiedMatrix as u64),
        ("KIND_CONNECTION", Kind::Connection as u64),
        ("KIND_STREAM_ENTRY", Kind::StreamEntry as u64),
        ("ONE_TO_N", Type::OneToN as u64),
        ("ONE_TO_ONE", Type::OneToOne as u64),
        ("N_TO_N", Type::NToN as u64),
        ("ABSOLUTE", Operation::Absolute as u64),
        ("CONNECT", Operation::Connect as u64),
        ("DISCONNECT", Operation::Disconnect as u64),
    ]);
    let all = defined(&header);
    for (name, number) in others {
        assert_eq!(all.get(name), Some(&number), "{name}");
    }
}
