//! Request lines of the program `tree`.

use super::{
    count_nodes, edge_octets, message, mutate_bytes, nth, root, rules, spell, spelt, tree, writes, Content, Node, Random, Style,
};
use crate::framing::MESSAGE_MAX;
use crate::gen::{rows, tree};
use crate::lines::{digits, hex};
use crate::tree::{read, Answer, INTEGER_TAG, OID_TAG, REAL_TAG, TABLE_MAX, TEXT_TAG};
use crate::tree_writer;
use crate::values::{least_real, write_real, UNIVERSAL};

/// Those of the messages, then those of the requests around them.
pub const KINDS: [&str; 15] = [
    tree::KINDS[0],
    tree::KINDS[1],
    tree::KINDS[2],
    tree::KINDS[3],
    tree::KINDS[4],
    tree::KINDS[5],
    tree::KINDS[6],
    tree::KINDS[7],
    "a rule, changed",
    "a table named",
    "a message at its longest",
    "malformed",
    "one fault, pointed",
    "to be written",
    "to be written, around 16,384 bytes",
];
const RULE: usize = 8;
const TABLE: usize = 9;
const LONGEST: usize = 10;
const MALFORMED_KIND: usize = 11;
const POINTED: usize = 12;
const WRITTEN: usize = 13;
const WRITTEN_LONG: usize = 14;

/// Requests, drawn. It holds the messages of the rules, so that they are made once.
pub struct Requests {
    random: Random,
    rules: Vec<Vec<u8>>,
    /// What is to be written is drawn apart, so that the other requests do not depend on it.
    writes: Option<Random>,
}

impl Requests {
    pub fn new(seed: u64) -> Requests {
        let short = |case: &rules::Case| case.line.len() < 600;
        let message = |case: rules::Case| crate::tree_text::request(case.line.as_bytes()).map(|(_, message)| message);
        let rules = rules::cases().into_iter().filter(short).filter_map(message).collect();
        Requests { random: Random::new(seed), rules, writes: None }
    }

    /// Requests to write among them, every second one.
    pub fn with_writes(seed: u64) -> Requests {
        Requests { writes: Some(Random::new(!seed)), ..Requests::new(seed) }
    }

    /// One request and the index of its kind.
    pub fn request(&mut self) -> (Vec<u8>, usize) {
        let drawn = self.writes.as_mut().map_or(60, |random| random.below(60));
        if let (0, Some(random)) = (drawn, &mut self.writes) {
            return (longest_write(random), WRITTEN_LONG);
        }
        let (mut line, kind) = self.to_read();
        if drawn < 30 && line.starts_with(b"read ") {
            line.splice(..4, *b"write");
            return (line, WRITTEN);
        }
        (line, kind)
    }

    fn to_read(&mut self) -> (Vec<u8>, usize) {
        let random = &mut self.random;
        let (message, kind) = match random.below(64) {
            0..=39 => message(random),
            40..=47 => (pointed(random), POINTED),
            48..=55 => (changed_rule(random, &self.rules), RULE),
            56..=61 => {
                let (message, table) = for_a_table(random);
                return (line(random, Some(table), &message), TABLE);
            }
            62 if random.one_in(8) => (longest(random), LONGEST),
            62 => message(random),
            _ => return (malformed(random), MALFORMED_KIND),
        };
        (line(random, None, &message), kind)
    }
}

fn line(random: &mut Random, table: Option<usize>, message: &[u8]) -> Vec<u8> {
    let mut word = hex(message);
    match random.below(8) {
        0 => word = word.to_lowercase(),
        1 => word = word.chars().map(|c| if random.one_in(2) { c.to_ascii_lowercase() } else { c }).collect(),
        _ => {}
    }
    table.map_or(format!("read {word}"), |table| format!("read {table} {word}")).into_bytes()
}

/// A literal message of a rule with some bytes changed.
fn changed_rule(random: &mut Random, rules: &[Vec<u8>]) -> Vec<u8> {
    let mut message = random.pick(rules);
    for _ in 0..random.range(1, 2) {
        mutate_bytes(random, &mut message);
    }
    message
}

/// A right message with one fault of a chosen sort: forms unlike, or a number, real, text or identifier at the edges of
/// its rule. What is drawn there may be right too.
fn pointed(random: &mut Random) -> Vec<u8> {
    let wanted = random.pick(&[None, Some(INTEGER_TAG), Some(REAL_TAG), Some(TEXT_TAG), Some(OID_TAG)]);
    loop {
        let tree = tree(random, 6);
        let mut style = Style::draw(random);
        let mut root = root(random, style, &tree);
        let count = count_nodes(&root);
        let fits = |node: &Node| match wanted {
            None => node.outer,
            Some(number) => !node.constructed && node.class == UNIVERSAL && node.number == number,
        };
        let places: Vec<usize> = (0..count).filter(|&index| fits(nth(&mut root, index))).collect();
        if places.is_empty() {
            continue;
        }
        let node = nth(&mut root, random.pick(&places));
        match wanted {
            None => {
                node.outer = false;
                style.indefinite = 4;
            }
            Some(REAL_TAG) => node.content = Content::Octets(real_octets(random)),
            Some(number) => node.content = Content::Octets(edge_octets(random, number)),
        }
        return spelt(random, style, &root, None);
    }
}

/// A real's octets: mostly binary, with the exponent near the ends of the doubles and any mantissa.
fn real_octets(random: &mut Random) -> Vec<u8> {
    if random.one_in(8) {
        let length = random.below(4);
        return random.bytes(length);
    }
    let form = random.below(3) as u8;
    let first = 0x80 | random.pick(&[0x00, 0x40]) | (random.below(4) as u8) << 2 | form;
    let mantissa = random.next() >> random.below(64) << random.below(12);
    let bits = 64 - i64::from(mantissa.leading_zeros());
    let near = random.range(0, 6) as i64 - 3;
    let exponent = match random.below(4) {
        0 => random.range(0, 200) as i64 - 100,
        1 => -1_074 - i64::from(mantissa.trailing_zeros()) + near,
        2 => 1_024 - bits + near,
        _ => near,
    };
    let count = random.range((bits as usize).div_ceil(8), 9).max(1);
    let mut octets = vec![if random.one_in(12) { random.byte() } else { first }];
    octets.extend(&(exponent as i32).to_be_bytes()[3 - usize::from(form)..]);
    octets.extend(&u128::from(mantissa).to_be_bytes()[16 - count..]);
    octets
}

/// A message with a table around its count of entries.
fn for_a_table(random: &mut Random) -> (Vec<u8>, usize) {
    let (message, _) = message(random);
    let count = match read(&message, TABLE_MAX) {
        Answer::Tree(tree) => tree.entries.len(),
        Answer::Room(count) => count,
        _ => random.below(6),
    };
    let near = (count + random.below(3)).saturating_sub(1);
    let table = random.pick(&[near, near, near, near, 0, 255, 256, 257, 300]);
    (message, table.min(300))
}

/// A message of 16,380 to 16,385 bytes: a right one made longer by a passed-over primitive in its last element, or
/// cut, or with bytes after it.
fn longest(random: &mut Random) -> Vec<u8> {
    let length = MESSAGE_MAX + 1 - random.below(6);
    let style = Style { unlisted: 0, ..Style::draw(random) };
    let drawn = tree(random, 40);
    let mut message = spell(random, style, &drawn);
    match random.below(3) {
        0 => {
            // In a node of its own: lengths of two octets throughout.
            let around = rules::notation("60{2:6B{2:A0{2:63{2:A0{020101}89{2:}}}}}").0.len();
            let filling = "FF".repeat(length - around);
            message = rules::notation(&format!("60{{2:6B{{2:A0{{2:63{{2:A0{{020101}}89{{2:{filling}}}}}}}}}}}")).0;
        }
        1 => message.resize(length, 0x00),
        _ => {
            let items = "A0{62{A0{020120}}}".repeat(2_000);
            message = rules::notation(&format!("60[6B[{items}]]")).0;
            message.truncate(length);
        }
    }
    message
}

/// A message whose written form has about 16,384 bytes, in that form or in the least one.
fn longest_write(random: &mut Random) -> Vec<u8> {
    let tree = rows::long(random, random.clone().pick(&[write_real as fn(f64) -> _, least_real]));
    let message = tree_writer::spelt(&tree, random.pick(&[write_real as fn(f64) -> _, least_real])).unwrap_or_default();
    format!("write {}", hex(&message)).into_bytes()
}

/// Lines that are no requests.
const MALFORMED: &[&str] = &[
    "",
    " ",
    "read",
    "read ",
    "read  60026B00",
    "read 60026B00 ",
    " read 60026B00",
    "READ 60026B00",
    "Read 60026B00",
    "rea 60026B00",
    "reads 60026B00",
    "write 60026B00",
    "60026B00",
    "-",
    "read 6",
    "read 60026B0",
    "read 60026B0G",
    "read 60026B0/",
    "read 60026B0:",
    "read 60026B0@",
    "read 60026B0`",
    "read 60026B0g",
    "read 60 02 6B",
    "read 0x60026B00",
    "read --",
    "read -60026B00",
    "read - -",
    "read -1 -",
    "read +1 -",
    "read 00 -",
    "read 01 -",
    "read 0256 -",
    "read 301 -",
    "read 999 -",
    "read 1000 -",
    "read 2560 -",
    "read 18446744073709551616 -",
    "read 18446744073709551872 60026B00",
    "read 4294967296 -",
    "read 65536 -",
    "read A -",
    "read 256",
    "read 1",
    "read 1A -",
    "read 1. -",
    "read 256  -",
    "read  256 -",
    "read 256 - ",
    "read 256 - -",
    "read 256 256 -",
    "read\t-",
    "read -\r",
    "read 60026B00\r",
    "read 256 -\r",
    "\r",
    "bad line",
    "read 1 ",
    "read 1 6",
];

/// Lines that ask for nothing to be written.
const MALFORMED_WRITES: &[&str] = &[
    "write",
    "write ",
    "write  60026B00",
    "write 60026B00 ",
    " write 60026B00",
    "WRITE 60026B00",
    "Write 60026B00",
    "writ 60026B00",
    "writes 60026B00",
    "write60026B00",
    "write 256 60026B00",
    "write 60 02",
    "write 6",
    "write 60026B0G",
    "write --",
    "write - -",
    "write -\r",
    "write\t-",
    "read write -",
    "write read -",
];

/// Lines that look like something else and are requests.
const ODD: &[&str] = &["read 60 02", "read 10", "read 0 -", "read 00", "read 300 -", "read 256 60026b00", "read 6 60026B00"];

fn malformed(random: &mut Random) -> Vec<u8> {
    if random.one_in(2) {
        return random.pick(MALFORMED).as_bytes().to_vec();
    }
    if random.one_in(40) {
        // Longer than any request, with one at its end.
        let digits = 2 * random.pick(&[MESSAGE_MAX + 2, MESSAGE_MAX + 60, 20_000, 32_800, 66_000]);
        return too_long(digits);
    }
    let message = rules::notation("60{6B{A0{62{A0{020120}}}}}").0;
    let mut text = line(random, random.clone().pick(&[None, Some(256), Some(3)]), &message);
    let at = random.below(text.len() + 1);
    let byte = random.pick(&[b' ', b'/', b':', b'@', b'G', b'`', b'g', 0, b'\t', b'-', b'\r', 0x7F, 0x80, 0xFF]);
    if random.one_in(2) || at == text.len() {
        text.insert(at, byte);
    } else {
        text[at] = byte;
    }
    text
}

/// A line of that many digits and then what would be a request of its own.
fn too_long(digits: usize) -> Vec<u8> {
    format!("read 300 {} read 60026B00", "0".repeat(digits)).into_bytes()
}

/// An input of `count` requests, and how many there are of each kind.
pub fn input(seed: u64, count: usize, writes: bool) -> (Vec<u8>, [usize; KINDS.len()]) {
    let mut requests = if writes { Requests::with_writes(seed) } else { Requests::new(seed) };
    let mut kinds = [0; KINDS.len()];
    let mut text = Vec::new();
    for _ in 0..count {
        let (line, kind) = requests.request();
        kinds[kind] += 1;
        text.extend(line);
        text.push(b'\n');
    }
    (text, kinds)
}

/// Two messages with most of the grammar in them, one definite and one indefinite where it may be.
const WHOLE: [&str; 2] = [
    "60{6B{A0{69{A0{0D020102}A1{31{A0{0C{61}}A2{020105}}}}}A0{6D{A0{020101}A5{30{A0{70{A0{020100}A1{0D0101}}}}}}}}}",
    "60[6B[A0[63[A0{020101}A2[64[A0[61[A0{020102}A1[31[A2{09{800001}}A6[0500]]]]]A0[62[A0{020120}]]]]]]]]",
];

/// The stored input: every rule; two messages cut at every byte and with every bit changed; lines that are none; and
/// drawn requests. The last line has no 0A. With `writes` the requests to write follow these: every rule, one of the
/// messages above with every bit changed, lines that are none, and drawn ones.
pub fn stored(writes: bool) -> Vec<u8> {
    let mut list: Vec<Vec<u8>> = rules::cases().into_iter().map(|case| case.line.into_bytes()).collect();
    for text in WHOLE {
        let message = rules::notation(text).0;
        for length in 0..=message.len() {
            list.push(format!("read {}", hex(&message[..length])).into_bytes());
        }
        for bit in 0..8 * message.len() {
            let mut changed = message.clone();
            changed[bit / 8] ^= 0x80 >> (bit % 8);
            list.push(format!("read {}", digits(&changed)).into_bytes());
        }
        for at in 0..message.len() {
            // A byte taken out; 00 or 80 put in.
            let mut shorter = message.clone();
            shorter.remove(at);
            list.push(format!("read {}", digits(&shorter)).into_bytes());
            for octet in [0x00, 0x80] {
                let mut longer = message.clone();
                longer.insert(at, octet);
                list.push(format!("read {}", digits(&longer)).into_bytes());
            }
        }
        list.push(format!("read {}", digits(&message).to_lowercase()).into_bytes());
    }
    list.extend(MALFORMED.iter().chain(ODD).map(|line| line.as_bytes().to_vec()));
    // One byte more than a request may hold.
    list.push(format!("read {}", "00".repeat(MESSAGE_MAX + 2)).into_bytes());
    list.push(too_long(2 * MESSAGE_MAX + 400));
    list.push(b"read 1 60026B00".to_vec());
    let mut requests = Requests::new(301);
    let mut drawn = 0;
    while drawn < 600 {
        let (line, _) = requests.request();
        if line.len() <= 400 {
            list.push(line);
            drawn += 1;
        }
    }
    if writes {
        list.extend(stored_writes());
    }
    list.join(&b'\n')
}

fn stored_writes() -> Vec<Vec<u8>> {
    let mut list: Vec<Vec<u8>> = writes::cases().into_iter().map(|case| case.line.into_bytes()).collect();
    for text in WHOLE {
        let message = rules::notation(text).0;
        list.push(format!("write {}", digits(&message).to_lowercase()).into_bytes());
        for bit in 0..8 * message.len() {
            let mut changed = message.clone();
            changed[bit / 8] ^= 0x80 >> (bit % 8);
            list.push(format!("write {}", digits(&changed)).into_bytes());
        }
    }
    list.extend(MALFORMED_WRITES.iter().map(|line| line.as_bytes().to_vec()));
    list.push(format!("write {}", "00".repeat(MESSAGE_MAX + 2)).into_bytes());
    let mut requests = Requests::with_writes(302);
    let mut drawn = 0;
    while drawn < 400 {
        let (line, kind) = requests.request();
        if line.len() <= 600 && kind == WRITTEN {
            list.push(line);
            drawn += 1;
        }
    }
    list
}

#[cfg(test)]
mod tests {
    use super::*;
    use crate::lines::lines;
    use crate::tree_text::{answer, trees};
    use std::collections::BTreeMap;

    #[test]
    fn malformed_lines_are_bad() {
        for line in MALFORMED.iter().chain(MALFORMED_WRITES) {
            assert_eq!(answer(line.as_bytes(), false), "bad line\n", "{line:?}");
            // One that asks for a reading is one to write too.
            let written = line.strip_prefix("write ").is_some_and(|hex| hex == "60026B00");
            assert_eq!(answer(line.as_bytes(), true) == "bad line\n", !written, "{line:?}");
        }
        for line in ODD {
            assert_ne!(answer(line.as_bytes(), false), "bad line\n", "{line:?}");
        }
    }

    #[test]
    fn whole_messages_are_right() {
        for text in WHOLE {
            let answer = answer(format!("read {}", digits(&rules::notation(text).0)).as_bytes(), false);
            assert!(answer.starts_with("0 elements 3\n"), "{answer}");
        }
    }

    #[test]
    fn stored_requests() {
        let input = stored(false);
        assert!(input.len() < 1_000_000, "{}", input.len());
        let mut seen: BTreeMap<String, usize> = BTreeMap::new();
        for line in lines(&input) {
            let first = answer(line, false).lines().next().unwrap().to_string();
            let word = if first == "bad line" { "bad line" } else { first.split(' ').next().unwrap() };
            *seen.entry(word.to_string()).or_default() += 1;
        }
        for word in ["0", "1", "30", "31", "32", "33", "34", "35", "36", "37", "38", "bad line"] {
            assert!(seen.get(word).is_some_and(|&count| count >= 10), "{word}: {seen:?}");
        }
        println!("{} bytes, {} requests, {seen:?}, {} bytes out", input.len(), lines(&input).len(), trees(&input, false).len());
    }

    /// The requests to read come first and are the same.
    #[test]
    fn stored_requests_to_write() {
        let (before, input) = (stored(false), stored(true));
        assert!(input.starts_with(&before));
        let mut seen: BTreeMap<String, usize> = BTreeMap::new();
        let more = stored_writes();
        for line in &more {
            *seen.entry(answer(line, true).split([' ', '\n']).next().unwrap().to_string()).or_default() += 1;
        }
        for word in ["0", "1", "30", "31", "32", "33", "34", "35", "36", "37", "38", "46", "bad"] {
            assert!(seen.contains_key(word), "{word}: {seen:?}");
        }
        let (bytes, out) = (input.len() - before.len(), trees(&input, true).len() - trees(&before, true).len());
        assert!(bytes < 800_000, "{bytes}");
        println!("{bytes} bytes more, {} requests, {seen:?}, {out} bytes out", more.len());
    }

    #[test]
    fn drawn_requests_reach_every_number() {
        for writes in [false, true] {
            let (text, kinds) = input(7, 4_000, writes);
            let mut seen: BTreeMap<String, usize> = BTreeMap::new();
            for line in lines(&text) {
                *seen.entry(answer(line, writes).split([' ', '\n']).next().unwrap().to_string()).or_default() += 1;
            }
            for word in ["0", "1", "30", "31", "32", "33", "34", "35", "36", "37", "38", "bad"] {
                assert!(seen.contains_key(word), "{word}: {seen:?}");
            }
            assert_eq!(seen.contains_key("46"), writes);
            assert!(kinds[..WRITTEN].iter().all(|&count| count > 0), "{kinds:?}");
            assert!(kinds[WRITTEN..].iter().all(|&count| (count > 0) == writes), "{kinds:?}");
            println!("{} bytes, {kinds:?}, {seen:?}", text.len());
        }
    }
}
