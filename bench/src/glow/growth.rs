//! That the cost is linear in the bytes: families of messages, each at an eighth, a quarter, a half and the whole of the
//! longest message; nanoseconds a byte at each size.
use super::inputs::{flag, indefinite, integer, member, members, qualified, root, tag, text, unlisted_nest};
use super::{pass, plain, readers, ENTRIES, MESSAGE};

/// Bytes for the tags around what repeats.
const AROUND: usize = 48;

type Family = (&'static str, fn(usize) -> Vec<u8>);

pub const FAMILIES: [Family; 8] = [
    ("announcement", announcement),
    ("connections of 50 sources", connections),
    ("indefinite deep nest", deep),
    ("too many entries", commands),
    ("one text", one_text),
    ("sources", sources),
    ("refused value", refused_value),
    ("refused nest", refused_nest),
];

/// One node whose contents are members that are not listed.
pub const UNLISTED: [Family; 5] = [
    ("unlisted nests", |bytes| unlisted(bytes, &unlisted_nest())),
    ("unlisted long tags", |bytes| unlisted(bytes, &[0x9F, 0xFF, 0xFF, 0xFF, 0x7F, 0x84, 0x00, 0x00, 0x00, 0x00])),
    ("unlisted empty values", |bytes| unlisted(bytes, &[0x90, 0x00])),
    ("unlisted empty containers", |bytes| unlisted(bytes, &[0xB0, 0x00])),
    ("unlisted empty indefinite", |bytes| unlisted(bytes, &[0xB0, 0x80, 0x00, 0x00])),
];

/// As many of the items as fit, made one by one.
pub fn fill(bytes: usize, item: impl Fn(usize) -> Vec<u8>) -> Vec<u8> {
    let mut items = Vec::new();
    for index in 0.. {
        let next = item(index);
        if items.len() + next.len() + AROUND > bytes {
            break;
        }
        items.extend(next);
    }
    items
}

pub fn announcement(bytes: usize) -> Vec<u8> {
    root(&fill(bytes, qualified))
}

/// With 50 sources, as an item.
pub fn connection(index: usize) -> Vec<u8> {
    let sent = members(&[(0, integer(index as i32)), (1, tag(0x0D, &[0x11; 50])), (2, integer(1))]);
    member(0, &tag(0x70, &sent))
}

/// A matrix and connections with 50 sources each: at most 255 of them in the longest message.
pub fn connections(bytes: usize) -> Vec<u8> {
    let list = fill(bytes, connection);
    root(&member(0, &tag(0x71, &[member(0, &tag(0x0D, &[1, 5])), member(5, &tag(0x30, &list))].concat())))
}

/// Chains of 15 nodes in the indefinite form; each node has a name of 40 letters, so that they are at most 255.
pub fn deep(bytes: usize) -> Vec<u8> {
    let chain = (0..15).rev().fold(Vec::new(), |inner, level| {
        let name = indefinite(0xA1, &indefinite(0x31, &member(0, &text(&"n".repeat(40)))));
        let mut node = [member(0, &integer(1 + level)), name].concat();
        if !inner.is_empty() {
            node.extend(indefinite(0xA2, &indefinite(0x64, &inner)));
        }
        indefinite(0xA0, &indefinite(0x63, &node))
    });
    indefinite(0x60, &indefinite(0x6B, &fill(bytes, |_| chain.clone())))
}

/// One node with these contents.
pub fn node(contents: &[u8]) -> Vec<u8> {
    root(&member(0, &tag(0x63, &[member(0, &integer(1)), member(1, &tag(0x31, contents))].concat())))
}

/// One node whose contents are this unlisted member, again and again.
fn unlisted(bytes: usize, one: &[u8]) -> Vec<u8> {
    node(&fill(bytes, |_| one.to_vec()))
}

/// Commands: from a quarter of the longest message on more than a table has rows, so that it is only judged.
pub fn commands(bytes: usize) -> Vec<u8> {
    root(&fill(bytes, |_| member(0, &tag(0x62, &member(0, &integer(32))))))
}

/// A name without "/", looked through to its end.
pub fn one_text(bytes: usize) -> Vec<u8> {
    node(&[member(0, &text(&"n".repeat(bytes - 2 * AROUND))), member(2, &flag(true))].concat())
}

/// One connection with as many sources as fit.
pub fn sources(bytes: usize) -> Vec<u8> {
    let sent = members(&[(0, integer(1)), (1, tag(0x0D, &vec![0x11; bytes - 2 * AROUND]))]);
    let list = member(0, &tag(0x70, &sent));
    root(&member(0, &tag(0x71, &[member(0, &tag(0x0D, &[1, 5])), member(5, &tag(0x30, &list))].concat())))
}

/// The announcement, and an element whose last byte, the message's last, is out of its range.
pub fn refused_value(bytes: usize) -> Vec<u8> {
    let contents = tag(0x31, &members(&[(5, integer(4))]));
    let last = member(0, &tag(0x61, &[member(0, &integer(1)), member(1, &contents)].concat()));
    root(&[fill(bytes - last.len(), qualified), last].concat())
}

/// One unlisted container with nests of eight, and a primitive of indefinite length as its last two bytes: gone through by
/// numbers, and again for the refusal.
pub fn refused_nest(bytes: usize) -> Vec<u8> {
    let nest = (0..8).fold(tag(0x04, &[0xAB; 3]), |inner, level| match level % 2 {
        0 => tag(0x30, &inner),
        _ => indefinite(0xA3, &inner),
    });
    node(&tag(0xB0, &[fill(bytes, |_| nest.clone()), vec![0x04, 0x80]].concat()))
}

pub fn main(rounds: usize) {
    const PASSES: usize = 15;
    let mut readers = readers();
    println!(
        "nanoseconds a byte at each size, {rounds} calls a pass at the full size, the best of {PASSES} passes, taken in turn"
    );
    print!("{:<25} {:>7}", "input", "reader");
    for part in [8, 4, 2, 1] {
        print!(" {:>9}", format!("{} B", MESSAGE / part));
    }
    println!(" {:>9}", "last/first");
    for (name, make) in FAMILIES.into_iter().chain(UNLISTED) {
        let messages = [8, 4, 2, 1].map(|part| make(MESSAGE / part));
        let mut table = vec![[0; 50]; ENTRIES];
        let mut best = vec![[f64::MAX; 4]; readers.len()];
        for message in &messages {
            let expected = plain::read(message, &mut table);
            for (reader, read) in &mut readers {
                assert_eq!(read(message, &mut table), expected, "{name}: {reader} answers otherwise");
            }
        }
        for _ in 0..PASSES {
            for ((_, read), best) in readers.iter_mut().zip(&mut best) {
                for (size, message) in messages.iter().enumerate() {
                    let rounds = rounds << (3 - size);
                    let each = pass(read, message, &mut table, rounds) * 1e9 / (rounds * message.len()) as f64;
                    best[size] = best[size].min(each);
                }
            }
        }
        for ((reader, _), best) in readers.iter().zip(&best) {
            print!("{name:<25} {reader:>7}");
            best.iter().for_each(|each| print!(" {each:>9.2}"));
            println!(" {:>9.2}", best[3] / best[0]);
        }
    }
}
