//! The messages of the benchmark, each always the same.
use super::{ENTRIES, MESSAGE};

/// A tag with a definite shortest length.
pub fn tag(first: u8, content: &[u8]) -> Vec<u8> {
    let mut out = vec![first];
    match content.len() {
        length @ 0..=0x7F => out.push(length as u8),
        length @ 0x80..=0xFF => out.extend([0x81, length as u8]),
        length => out.extend([0x82, (length >> 8) as u8, length as u8]),
    }
    out.extend(content);
    out
}

/// The same in the indefinite form.
pub fn indefinite(first: u8, content: &[u8]) -> Vec<u8> {
    [&[first, 0x80][..], content, &[0x00, 0x00]].concat()
}

pub fn member(number: u8, value: &[u8]) -> Vec<u8> {
    tag(0xA0 | number, value)
}

pub fn integer(value: i32) -> Vec<u8> {
    let mut octets = value.to_be_bytes().to_vec();
    while octets.len() > 1 && (octets[0] == 0x00 && octets[1] < 0x80 || octets[0] == 0xFF && octets[1] >= 0x80) {
        octets.remove(0);
    }
    tag(0x02, &octets)
}

pub fn text(text: &str) -> Vec<u8> {
    tag(0x0C, text.as_bytes())
}

pub fn flag(value: bool) -> Vec<u8> {
    tag(0x01, &[if value { 0xFF } else { 0x00 }])
}

pub fn members(list: &[(u8, Vec<u8>)]) -> Vec<u8> {
    list.iter().flat_map(|(number, value)| member(*number, value)).collect()
}

pub fn root(items: &[u8]) -> Vec<u8> {
    tag(0x60, &tag(0x6B, items))
}

/// A qualified element with full contents, as an item. Of four, two are parameters, one a node, one a matrix.
pub fn qualified(index: usize) -> Vec<u8> {
    let path = tag(0x0D, &[0x01, 0x02, 0x81, (index % 128) as u8, (index / 128) as u8 + 1]);
    let number = index as i32;
    let (kind, contents) = match index % 4 {
        1 => (0x6A, members(&[(0, text("rack_unit")), (1, text("a unit of the rack")), (2, flag(false)), (3, flag(true))])),
        3 => {
            let counts = [(2, 2), (3, 0), (4, 64), (5, 128), (6, 8192), (7, 128)].map(|(number, value)| (number, integer(value)));
            (0x71, members(&[&[(0, text("router")), (1, text("the studio's router"))][..], &counts[..]].concat()))
        }
        _ => (
            0x69,
            members(&[
                (0, text("gain")),
                (1, text("input gain in dB")),
                (2, tag(0x09, &[0x80, 0xFD, (index as u8) | 1])),
                (3, tag(0x09, &[0xC0, 0x07, 0x01])),
                (4, integer(12 + number)),
                (5, integer(3)),
                (8, integer(64)),
                (9, flag(true)),
                (11, integer(-1)),
                (14, integer(100_000 + number)),
            ]),
        ),
    };
    member(0, &tag(kind, &[member(0, &path), member(1, &tag(0x31, &contents))].concat()))
}

/// As many qualified elements as a message holds.
fn announcement() -> Vec<u8> {
    let mut items = Vec::new();
    for index in 0..ENTRIES {
        let item = qualified(index);
        if items.len() + item.len() > MESSAGE - 8 {
            break;
        }
        items.extend(item);
    }
    root(&items)
}

/// A matrix and 255 connections, which fill the table: target, two or three sources, operation.
pub fn connections() -> Vec<u8> {
    let list: Vec<u8> = (0..ENTRIES as i32 - 1)
        .flat_map(|target| {
            let low = (target % 100) as u8;
            let sources: &[u8] = if target % 2 == 0 { &[low, 0x64, 0x81, 0x00] } else { &[low, 0x65] };
            let sent = members(&[(0, integer(target)), (1, tag(0x0D, sources)), (2, integer(target % 3))]);
            member(0, &tag(0x70, &sent))
        })
        .collect();
    let matrix = [member(0, &tag(0x0D, &[1, 5])), member(5, &tag(0x30, &list))].concat();
    root(&member(0, &tag(0x71, &matrix)))
}

/// Chains of 15 nodes, the deepest that nodes may be, in the indefinite form; each node has a name.
pub fn deep() -> Vec<u8> {
    let mut items = Vec::new();
    for chain in 0..ENTRIES / 15 {
        let mut inner = Vec::new();
        for level in (0..15).rev() {
            let name = indefinite(0xA1, &indefinite(0x31, &member(0, &text("node"))));
            let mut node = [member(0, &integer(1 + (chain + level) as i32)), name].concat();
            if !inner.is_empty() {
                node.extend(indefinite(0xA2, &indefinite(0x64, &inner)));
            }
            inner = indefinite(0xA0, &indefinite(0x63, &node));
        }
        items.extend(inner);
    }
    indefinite(0x60, &indefinite(0x6B, &items))
}

/// A member of contents that we do not list, a nest down to the 64th container.
pub fn unlisted_nest() -> Vec<u8> {
    let mut nest = tag(0x04, &[0xAB; 3]);
    for level in 0..58 {
        nest = if level % 2 == 0 { tag(0x30, &nest) } else { indefinite(0xA3, &nest) };
    }
    nest[0] = 0xB0;
    nest
}

/// One node whose contents are such members.
fn unlisted() -> Vec<u8> {
    let nest = unlisted_nest();
    let mut contents = Vec::new();
    while contents.len() + nest.len() < MESSAGE - 64 {
        contents.extend(&nest);
    }
    root(&member(0, &tag(0x63, &[member(0, &integer(1)), member(1, &tag(0x31, &contents))].concat())))
}

/// The announcement, and one element more whose last byte, the message's last, is out of its range.
fn refused() -> Vec<u8> {
    let mut items = Vec::new();
    for index in 0..ENTRIES - 1 {
        let item = qualified(index);
        if items.len() + item.len() > MESSAGE - 64 {
            break;
        }
        items.extend(item);
    }
    let contents = tag(0x31, &members(&[(5, integer(4))]));
    items.extend(member(0, &tag(0x61, &[member(0, &integer(1)), member(1, &contents)].concat())));
    root(&items)
}

pub fn all() -> [(&'static str, Vec<u8>); 5] {
    [
        ("announcement", announcement()),
        ("connections", connections()),
        ("deep nest", deep()),
        ("unlisted nests", unlisted()),
        ("refused", refused()),
    ]
}
