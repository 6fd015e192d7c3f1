//! The families of `bench all`: messages, and entries that are written or tested.
use super::growth::{self, fill, node};
use super::inputs::{self, flag, integer, member, members, root, tag, text};
use super::write::{self, Input};
use super::{ENTRIES, MESSAGE};

type Message = (&'static str, Vec<u8>);

/// Messages that are read, and whose entries are written and tested.
fn trees() -> Vec<Message> {
    vec![
        ("announcement", growth::announcement(MESSAGE)),
        ("connections", inputs::connections()),
        ("connections of 50 sources", growth::connections(MESSAGE)),
        ("small parameters", write::smalls(ENTRIES)),
        ("one request", one_request()),
        ("one text", growth::one_text(MESSAGE)),
        ("one octet string", one_octet_string()),
        ("sources", growth::sources(MESSAGE)),
        ("stream entries", stream_entries()),
        ("deep nest", write::chains(16)),
        ("deep nest of short names", inputs::deep()),
        ("deep parameters", write::deep_parameters(MESSAGE)),
        ("deep connections", write::deep_connections(MESSAGE)),
    ]
}

/// What the readers are handed.
pub fn messages() -> Vec<Message> {
    let others = [
        ("indefinite deep nest", growth::deep(MESSAGE)),
        ("unlisted texts", unlisted_texts()),
        ("too many entries", growth::commands(MESSAGE)),
        ("refused value", growth::refused_value(MESSAGE)),
        ("refused text", refused_text()),
        ("refused nest", growth::refused_nest(MESSAGE)),
    ];
    let unlisted = growth::UNLISTED.map(|(name, make)| (name, make(MESSAGE)));
    trees().into_iter().chain(others).chain(unlisted).collect()
}

/// What the writers and the tests of entries are handed.
pub fn entries() -> Vec<(&'static str, Input)> {
    let read = trees().into_iter().map(|(name, message)| (name, Input::read(message)));
    read.chain([("refused value", write::refused(growth::announcement(MESSAGE)))]).collect()
}

/// A matrix and one connection: what a call costs however short the message.
fn one_request() -> Vec<u8> {
    let sent = members(&[(0, integer(3)), (1, tag(0x0D, &[7])), (2, integer(1))]);
    let list = member(5, &tag(0x30, &member(0, &tag(0x70, &sent))));
    root(&member(0, &tag(0x71, &[member(0, &tag(0x0D, &[1, 5])), list].concat())))
}

/// A parameter with these contents, as an item.
fn parameter(number: usize, contents: &[u8]) -> Vec<u8> {
    member(0, &tag(0x61, &[member(0, &integer(1 + number as i32)), member(1, &tag(0x31, contents))].concat()))
}

/// As a parameter's value.
fn one_octet_string() -> Vec<u8> {
    root(&parameter(0, &member(2, &tag(0x04, &vec![0xAB; MESSAGE - 96]))))
}

/// Integers, reals and octets in turn.
fn stream_entries() -> Vec<u8> {
    let entry = |index: usize| {
        let value = match index % 3 {
            0 => integer(index as i32 * 1_000),
            1 => tag(0x09, &[0x80, 0xFD, index as u8 | 1]),
            _ => tag(0x04, &[index as u8; 24]),
        };
        member(0, &tag(0x66, &members(&[(0, integer(index as i32)), (1, value)])))
    };
    tag(0x60, &tag(0x65, &(0..ENTRIES).flat_map(entry).collect::<Vec<u8>>()))
}

/// Parameters as devices send them, with members that are not listed among those that are: format, enumeration, formula, type.
fn unlisted_texts() -> Vec<u8> {
    let contents = |index: usize| {
        let listed = [(0, text("gain")), (2, integer(index as i32)), (5, integer(3))];
        let others = [(6, text("%8.1f dB")), (7, text("off\non\nautomatic")), (10, text("x*10")), (13, integer(2))];
        members(&[&listed[..], &others[..2], &[(9, flag(true))], &others[2..]].concat())
    };
    root(&fill(MESSAGE, |index| parameter(index, &contents(index))))
}

/// A name whose last byte is "/".
fn refused_text() -> Vec<u8> {
    node(&member(0, &text(&("n".repeat(MESSAGE - 96) + "/"))))
}
