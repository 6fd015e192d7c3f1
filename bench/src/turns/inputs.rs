//! Streams of connection requests, each always the same.
use super::Figures;
use crate::glow::inputs::{integer, member, members, root, tag};
use crate::inputs::{Random, PAYLOAD};
use crate::plain::checksum;

fn desk(kind: u64, side: u64, total: Option<u64>, per_target: Option<u64>) -> Figures {
    Figures { kind, targets: side, sources: side, total, per_target, path: vec![1, 5] }
}

/// Desks of 64 by 64; N:N with limits that are met.
pub fn desks() -> [(&'static str, Figures); 3] {
    [("1:N", desk(0, 64, None, None)), ("1:1", desk(1, 64, None, None)), ("N:N", desk(2, 64, Some(200), Some(8)))]
}

/// N:N without limits: requests of up to 40 sources, so that the desk holds many connections.
pub fn dense() -> Figures {
    desk(2, 64, None, None)
}

/// A desk of 8 by 8.
pub fn small() -> Figures {
    desk(0, 8, None, None)
}

/// One connection, as an item: mostly right, with sources as the type has them.
fn connection(random: &mut Random, figures: &Figures) -> Vec<u8> {
    let mut below = |count: u64| random.next() % count;
    let target = if below(40) == 0 { figures.targets } else { below(figures.targets) };
    let count = match figures.kind {
        2 if figures.total.is_none() => below(41),
        2 => below(7),
        _ => u64::from(below(12) != 0) + u64::from(below(24) == 0),
    };
    let mut sources: Vec<u8> = (0..count).map(|_| below(figures.sources) as u8).collect();
    if below(40) == 0 {
        sources.push(figures.sources as u8);
    }
    let mut sent = vec![(0, integer(target as i32)), (1, tag(0x0D, &sources))];
    if below(4) != 0 {
        sent.push((2, integer(below(3) as i32)));
    }
    member(0, &tag(0x70, &members(&sent)))
}

/// A message of so many requests to the desk's matrix.
pub fn message(random: &mut Random, figures: &Figures, count: usize) -> Vec<u8> {
    let list: Vec<u8> = (0..count).flat_map(|_| connection(random, figures)).collect();
    let path: Vec<u8> = figures.path.iter().map(|&number| number as u8).collect();
    root(&member(0, &tag(0x71, &[member(0, &tag(0x0D, &path)), member(5, &tag(0x30, &list))].concat())))
}

/// The frames of a message.
pub fn frames(message: &[u8]) -> Vec<u8> {
    let mut out = Vec::new();
    let count = message.chunks(PAYLOAD).count();
    for (index, payload) in message.chunks(PAYLOAD).enumerate() {
        let flags = if index == 0 { 0x80 } else { 0 } | if index + 1 == count { 0x40 } else { 0 };
        let mut content = [&[0x00, 0x0E, 0x00, 0x01, flags, 0x01, 0x02, 0x14, 0x02], payload].concat();
        content.extend(checksum(&content).to_le_bytes());
        out.push(0xFE);
        for byte in content {
            if byte >= 0xF8 {
                out.extend([0xFD, byte ^ 0x20]);
            } else {
                out.push(byte);
            }
        }
        out.push(0xFF);
    }
    out
}

/// So many requests, so many a message.
pub fn stream(figures: &Figures, requests: usize, each: usize) -> Vec<u8> {
    let mut random = Random(7 + figures.kind);
    let mut out = Vec::new();
    let mut left = requests;
    while left > 0 {
        let count = each.min(left);
        out.extend(frames(&message(&mut random, figures, count)));
        left -= count;
    }
    out
}
