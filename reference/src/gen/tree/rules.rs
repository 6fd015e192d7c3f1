//! The rules of reading one by one: for each a literal message, in a notation that counts lengths and marks the
//! place, with the answer that the rule gives. Quotations are document 01's; O, G, V and R name settled open points.

use crate::framing::MESSAGE_MAX;
use crate::gen::Random;
use crate::lines::{digits, hex_line};
use crate::tree::{read, TABLE_MAX};
use crate::values::write_int;
use std::sync::OnceLock;

/// A request by its rule, with the first line (or the whole) of its answer.
pub struct Case {
    pub rule: String,
    pub line: String,
    pub expected: String,
}

/// The short messages of the rules that the reader refuses, by number from 30 to 37.
fn refusals() -> &'static [Vec<Vec<u8>>] {
    static REFUSALS: OnceLock<Vec<Vec<Vec<u8>>>> = OnceLock::new();
    REFUSALS.get_or_init(|| {
        let mut refusals = vec![Vec::new(); 8];
        for case in cases() {
            let Some((message, false)) = case.line.strip_prefix("read ").map(|word| hex_line(word.as_bytes())) else { continue };
            let number = read(&message, TABLE_MAX).number();
            if (30..=37).contains(&number) && message.len() < 200 {
                refusals[usize::from(number) - 30].push(message);
            }
        }
        refusals
    })
}

/// A message that the reader refuses with that number, 30 to 37.
pub fn refused(random: &mut Random, number: u8) -> Vec<u8> {
    random.pick(&refusals()[usize::from(number) - 30])
}

/// A message in the notation: pairs of hexadecimal digits; `{..}` puts the shortest length before what it holds, `{2:..}`
/// a long one of two octets; `[..]` is the indefinite form; `^` marks a place; at `!` the message is cut, with all
/// lengths as they were. Spaces are free. The place is the mark's, or else the cut's.
pub fn notation(text: &str) -> (Vec<u8>, Option<usize>) {
    let bytes: Vec<u8> = text.bytes().filter(|byte| *byte != b' ').collect();
    let mut at = 0;
    let part = group(&bytes, &mut at, None);
    assert!(at == bytes.len(), "{text}");
    let mut message = part.bytes;
    if let Some(cut) = part.cut {
        message.truncate(cut);
    }
    (message, part.mark.or(part.cut))
}

#[derive(Default)]
struct Part {
    bytes: Vec<u8>,
    mark: Option<usize>,
    cut: Option<usize>,
}

impl Part {
    /// Adds another part after this one.
    fn add(&mut self, other: Part) {
        self.mark = self.mark.or(other.mark.map(|mark| mark + self.bytes.len()));
        self.cut = self.cut.or(other.cut.map(|cut| cut + self.bytes.len()));
        self.bytes.extend(other.bytes);
    }
}

/// Up to `end`, which is taken, or to the text's end.
fn group(text: &[u8], at: &mut usize, end: Option<u8>) -> Part {
    let mut part = Part::default();
    while *at < text.len() {
        let byte = text[*at];
        *at += 1;
        match byte {
            _ if Some(byte) == end => return part,
            b'^' => part.mark = Some(part.bytes.len()),
            b'!' => part.cut = Some(part.bytes.len()),
            b'{' => {
                let long = text.get(*at + 1) == Some(&b':');
                let count = if long { usize::from(text[*at] - b'0') } else { 0 };
                *at += if long { 2 } else { 0 };
                let inside = group(text, at, Some(b'}'));
                part.bytes.extend(length_octets(inside.bytes.len(), count));
                part.add(inside);
            }
            b'[' => {
                part.bytes.push(0x80);
                let inside = group(text, at, Some(b']'));
                part.add(inside);
                part.bytes.extend([0x00, 0x00]);
            }
            _ => {
                let pair = std::str::from_utf8(&text[*at - 1..*at + 1]).unwrap();
                part.bytes.push(u8::from_str_radix(pair, 16).unwrap_or_else(|_| panic!("{pair}")));
                *at += 1;
            }
        }
    }
    assert!(end.is_none(), "{}", String::from_utf8_lossy(text));
    part
}

/// A length in that many long octets; the shortest form for 0.
fn length_octets(length: usize, count: usize) -> Vec<u8> {
    let count = match count {
        0 if length < 0x80 => return vec![length as u8],
        0 => (1..4).find(|count| length < 1 << (8 * count)).unwrap_or(4),
        _ => count,
    };
    let mut octets = vec![0x80 + count as u8];
    octets.extend(&(length as u32).to_be_bytes()[4 - count..]);
    octets
}

/// An element alone in Root.
pub(super) fn item(element: &str) -> String {
    format!("60{{6B{{A0{{{element}}}}}}}")
}

/// Number 1, then the given members, in an element with that tag.
pub(super) fn element(tag: &str, members: &str) -> String {
    item(&format!("{tag}{{A0{{020101}}{members}}}"))
}

/// Contents of an element with that tag.
pub(super) fn contents(tag: &str, members: &str) -> String {
    element(tag, &format!("A1{{31{{{members}}}}}"))
}

/// Children of node 1.
pub(super) fn children(items: &str) -> String {
    element("63", &format!("A2{{64{{{items}}}}}"))
}

/// Connections of matrix 1.
pub(super) fn connections(items: &str) -> String {
    element("6D", &format!("A5{{30{{{items}}}}}"))
}

/// One connection with those members.
pub(super) fn connection(members: &str) -> String {
    connections(&format!("A0{{70{{{members}}}}}"))
}

/// A stream entry alone in Root.
pub(super) fn stream(members: &str) -> String {
    format!("60{{65{{A0{{66{{{members}}}}}}}}}")
}

pub(super) fn integer(value: i64) -> String {
    primitive("02", &digits(&write_int(value)))
}

pub(super) fn primitive(tag: &str, octets: &str) -> String {
    format!("{tag}{{{octets}}}")
}

/// Nodes below each other, all of them indefinite, and `last` in the lowest after its number. The element on level
/// n is the container 4n.
pub(super) fn nest(levels: usize, last: &str) -> String {
    let open = "A0[63[A0{020101}A2[64[".repeat(levels - 1);
    let close = "]".repeat(4 * (levels - 1));
    format!("60[6B[{open}A0[63[A0{{020101}}{last}]]{close}]]")
}

/// Containers in each other, passed over; `last` in the lowest.
fn unlisted(count: usize, last: &str) -> String {
    format!("A9{{{}{last}{}}}", "30{".repeat(count - 1), "}".repeat(count - 1))
}

struct Cases {
    list: Vec<Case>,
}

impl Cases {
    /// The expected line: a number from 30 to 37 gets the message's place.
    fn add(&mut self, rule: &str, expected: &str, message: &str) {
        self.table(rule, expected, None, message);
    }

    fn table(&mut self, rule: &str, expected: &str, table: Option<usize>, message: &str) {
        let (octets, place) = notation(message);
        let word = crate::lines::hex(&octets);
        let line = table.map_or(format!("read {word}"), |table| format!("read {table} {word}"));
        let refused = matches!(expected.parse(), Ok(30..=37));
        let expected = if refused { format!("{expected} {}", place.unwrap_or(octets.len())) } else { expected.to_string() };
        self.list.push(Case { rule: rule.to_string(), line, expected });
    }
}

/// All of them.
pub fn cases() -> Vec<Case> {
    let mut cases = Cases { list: Vec::new() };
    let c = &mut cases;
    tags_and_lengths(c);
    forms_and_depth(c);
    values(c);
    kinds(c);
    members(c);
    ranges(c);
    order_of_faults(c);
    entries(c);
    sizes(c);
    long_lists(c);
    cases.list
}

// ---- 30: "bad tag, length or value octets, a tag 00 that ends nothing, bytes run out or left after Root" ----

fn tags_and_lengths(c: &mut Cases) {
    // "Tag numbers up to 268,435,455"
    c.add("the highest tag number", "0 elements 1", &contents("63", "BFFFFFFF7F{}"));
    c.add("a tag number over the highest", "30", &contents("63", "^BF8180808000{}"));
    c.add("V4: found at the fourth number octet", "30", &contents("63", "^BF81808080!00{}"));
    // "small ones in long form too (001)"
    let long = "7F00{7F0B{BF00{7F02{BF00{1F02{20}}}}}}";
    c.add("small tag numbers in long form", "0 elements 1\n0 - command number=32\n", long);
    c.add("two number octets with 7F", "0 elements 1", &contents("63", "BF7F{}"));
    c.add("two number octets from 80 on", "0 elements 1", &contents("63", "BF8100{}"));
    c.add(
        "G11: Set and Sequence in long form",
        "0 elements 2",
        "60{6B{A0{6D{A0{020101}A1{3F11{}}A5{3F10{A0{70{A0{020100}}}}}}}}}",
    );
    // "A long tag starting with 80 is refused."
    c.add("a long tag starting with 80", "30", &contents("63", "^BF8001{}"));
    c.add("R3: the same, the message ends after the 80", "30", &contents("63", "^BF80!01{}"));
    c.add("the same as Root", "30", "^7F8000{6B{}}");
    // "Lengths: short, long of 1 to 4 octets, indefinite for containers."
    for count in 1..=4 {
        let all = format!("60{{{count}:6B{{{count}:A0{{{count}:62{{{count}:A0{{{count}:02{{{count}:20}}}}}}}}}}}}");
        c.add("long lengths, longer than needed", "0 elements 1\n0 - command number=32\n", &all);
    }
    c.add("indefinite containers", "0 elements 1\n0 - command number=32\n", "60[6B[A0[62[A0{020120}]]]]");
    c.add("definite around indefinite, where no outer tag", "0 elements 1", "60{6B{A0[62[A0{020120}]]}}");
    c.add("indefinite around definite, where no outer tag", "0 elements 1", "60[6B[A0{62{A0{020120}}}]]");
    c.add("indefinite on a primitive", "30", &element("63", "^89 80 0000"));
    c.add("V8: 80 on a primitive, where a value is", "30", "60[6B[A0[63[A0[^0280 01 0000]]]]]");
    for octet in ["85", "86", "8F", "C0", "FE", "FF"] {
        c.add("V8: length octets over 84", "30", &element("63", &format!("^A9{octet} 0000000000")));
        c.add("V8: at once, though the message ends there", "30", &element("63", &format!("^A9{octet}! 0000000000")));
    }
    // "A definite length never passes its container's end (the message is none)."
    c.add("a length that ends where its container does", "0 elements 1", &element("63", "A9{0500}"));
    c.add("a length one past its container's end", "30", &element("63", "^A901"));
    c.add("a primitive's length one past", "30", &element("63", "^8901"));
    c.add("a value's length one past its outer tag's end", "30", &item("63{A0{^020201}}"));
    c.add("an item's length past its collection's end", "30", "60{6B{^A005}}");
    c.add("a collection's length past Root's end", "30", "60{^6B01}");
    c.add("the greatest length", "30", &element("63", "^A984FFFFFFFF"));
    c.add("Root's greatest length, the message is no container", "30", "6084FFFFFFFF 6B84000000FF A0{62{A0{020120}}}");
    c.add("V9: the nearest definite end binds in an indefinite one", "30", "60{6B{A080^6305 A0{0201}}}");
    c.add("V9: in a passed-over nest", "30", &element("63", "A9{30[^0504 00]}"));
    c.add("Root's length past the message: bytes run out", "30", "60 05 6B{}!");
    // Cut off by its container's end, the place is the tag's; where bytes run out first, the message length.
    c.add("R5: a length octet cut off by the container's end", "30", &element("63", "^A9"));
    c.add("R5: at the message's end too", "30", "60{6B{A0{^63}}}");
    c.add("R5: a long length cut off", "30", &element("63", "^A98200"));
    c.add("R5: a long tag's number cut off", "30", &element("63", "^BF81"));
    c.add("R5: a long tag cut off before its number", "30", &element("63", "^BF"));
    c.add("R5: cut off in an indefinite container in a definite one", "30", "60{6B{A0806380A0{020101}^BF81}}");
    c.add("R7: bytes run out in a tag", "30", &element("63", "BF81!0100"));
    c.add("R7: bytes run out before its length", "30", &element("63", "A9!00"));
    c.add("R7: bytes run out in its length", "30", &element("63", "A98200!00"));
    c.add("R7: in an indefinite container", "30", "60806B80A0");
    c.add("no bytes at all", "30", "");
    c.add("bytes run out after Root's tag octet", "30", "60");
    c.add("bytes run out where Root's value should stand", "30", "6002");
    c.add("bytes run out where an item should stand", "30", "60{6B{!A0{62{A0{020120}}}}}");
    c.add("bytes run out in a value", "30", "60{6B{A0{62{A0{0202 01!01}}}}}");
    c.add("bytes run out in a passed-over primitive", "30", &element("63", "89{0102!03}"));
    c.add("bytes run out in a passed-over nest", "30", &element("63", "A9{30{0500!0500}}"));
    c.add("O14: an integer of 9 octets, cut: checked once whole", "30", "60{6B{A0{63{A0{02{01!0101010101010101}}}}}}");
    // Ends.
    c.add("R2: one 00 before the end of a definite container around", "30", &element("63", "A9{30 80 ^00}"));
    c.add("R2: no 00 before it", "30", &element("63", "A9{3080^}"));
    c.add("R2: the 00 00 stands after the definite container's end", "30", "60[6B[A0[63[A0{020101}A9{3080^}]]]]");
    c.add("R2: one 00 before that end and one after", "30", "60[6B[A0[63[A0{020101}A9{3080^00}00]]]]");
    c.add("R2: the same for an element", "30", "60{6B{A0806380A0{020101}^}}");
    c.add("R3: 00 in a definite container", "30", "60{6B{^0000}}");
    c.add("R3: 00 in a definite container, where the message ends", "30", "60{6B{^00!00}}");
    c.add("R4: 00 and another octet in an indefinite container", "30", "60[6B[^0001]]");
    c.add("R4: 00 and a long length", "30", "60[6B[^008100]]");
    c.add("one 00 at the message's end", "30", "60806B8000");
    c.add("no closing 00 at the message's end", "30", "60806B80");
    c.add("closing 00 00 of Root missing", "30", "60[6B[]!]");
    c.add("R9: number missing and closing 00 missing", "30", "60{6B{A0806380^}}");
    c.add("a tag 00 that ends nothing: as Root", "30", "^00");
    c.add("the same with a 00 after it", "30", "^0000");
    c.add("00 00 where an item's definite value should stand", "30", "60{6B{A0{^0000}}}");
    c.add("00 00 after a value in a definite outer tag", "30", "60{6B{A0{62{A0{020120^0000}}}}}");
    c.add("V5: 1F 00 ends nothing and is a tag", "33", "60[6B[^1F00 00]]");
    c.add("V5: 20 00 ends nothing and is a tag", "33", "60[6B[^2000]]");
    c.add("V5: both passed over", "0 elements 1", &element("63", "A9{1F00{} 20{}}"));
    // "left after Root"
    c.add("a byte left after Root", "30", "60{6B{}}^05");
    c.add("00 left after Root", "30", "60{6B{}}^00");
    c.add("left after an indefinite Root", "30", "60[6B[]]^0000");
    c.add("a second Root", "30", "60{6B{}}^60{6B{}}");
}

// ---- 31 and 32 ----

fn forms_and_depth(c: &mut Cases) {
    // "An outer tag around one value (Root, each member, each collection item) has the same form ... as the value inside."
    c.add("R1: Root definite, its value not", "31", "60{^6B[]}");
    c.add("Root indefinite, its value definite", "31", "60[^6B{}]");
    c.add("item definite, element indefinite", "31", "60{6B{A0{^62[A0{020120}]}}}");
    c.add("item indefinite, element definite", "31", "60{6B{A0[^62{A0{020120}}]}}");
    c.add("a number in an indefinite outer tag", "31", "60{6B{A0{62{A0[^020120]}}}}");
    c.add("a path in an indefinite outer tag", "31", "60{6B{A0{6A{A0[^0D0101]}}}}");
    c.add("contents definite, the set not", "31", &element("63", "A1{^31[]}"));
    c.add("contents indefinite, the set definite", "31", &element("63", "A1[^31{}]"));
    c.add("children definite, the collection not", "31", &element("63", "A2{^64[]}"));
    c.add("children indefinite, the collection definite", "31", &element("63", "A2[^64{}]"));
    c.add("connections definite, the sequence not", "31", &element("6D", "A5{^30[]}"));
    c.add("connections indefinite, the sequence definite", "31", &element("6D", "A5[^30{}]"));
    c.add("item of children", "31", &children("A0[^62{A0{020120}}]"));
    c.add("item of connections", "31", &connections("A0[^70{A0{020100}}]"));
    c.add("item of streams", "31", "60{65{A0[^66{A0{020100}A1{020100}}]}}");
    c.add("a text in an indefinite outer tag", "31", &contents("63", "A1[^0C{41}]"));
    c.add("a flag in an indefinite outer tag", "31", &contents("63", "A2[^0101FF]"));
    c.add("a value of any kind in an indefinite outer tag", "31", &contents("61", "A2[^0400]"));
    c.add("sources in an indefinite outer tag", "31", &connection("A0{020100}A1[^0D00]"));
    c.add("a stream's value in an indefinite outer tag", "31", &stream("A0{020100}A1[^020100]"));
    c.add("O1: no rule on forms in what is passed over", "0 elements 1", &element("63", "A9{30[]} AA[30{}]"));
    c.add("O1: nor for a passed-over member and what it holds", "0 elements 1", &contents("63", "A9[020100]"));
    c.add("O2: only the first value is compared", "33", "60{6B{A0{63{A0{020101}}^63[]}}}");
    c.add("O3: an unexpected first value of another form", "31", "60{6B{A0{^65[]}}}");

    // "At most 64 containers, outer tags among them, open at once."
    c.add("60 nodes' containers and 4 passed over", "0 elements 15", &nest(15, &unlisted(4, "")));
    c.add("and a fifth", "32", &nest(15, &unlisted(5, "")).replace("30{}", "^30{}"));
    c.add("a primitive counts not", "0 elements 15", &nest(15, &unlisted(4, "0500")));
    c.add("O8: 60 passed over in an element", "0 elements 1", &element("63", &unlisted(60, "")));
    c.add("O8: 61 passed over", "32", &element("63", &unlisted(61, "")).replace("30{}", "^30{}"));
    c.add("a context tag as the 65th", "32", &element("63", &unlisted(60, "^A0{}")));
    c.add("an indefinite one as the 65th", "32", &element("63", &unlisted(60, "^A0[]")));
    c.add("the 65th, passed over in a set", "32", &contents("63", &unlisted(58, "^2000")));
    c.add("after leaving, containers may be opened again", "0 elements 1", &contents("63", &unlisted(58, "").repeat(3)));
    c.add("the number of a 16th node", "32", &nest(15, "A2[64[A0[63[^A0{020101}]]]]"));
    c.add("O5 there: a member missing at a primitive", "33", &nest(15, "A2[64[A0[63[^8900]]]]"));
    c.add("no member there: missing at its end", "33", &nest(15, "A2[64[A0[63[^]]]]"));
    c.add("a command's number as the 65th", "32", &nest(15, "A2[64[A0[62[^A0{020120}]]]]"));
    c.add("a command one level higher", "0 elements 15", &nest(14, "A2[64[A0[62[A0{020120}]]]]"));
    c.add(
        "a connection's target as the 65th",
        "32",
        &nest(15, "").replace("63[A0{020101}]", "6D[A0{020101}A5[30[A0[70[^A0{020100}]]]]]"),
    );
    c.add(
        "a connection one level higher",
        "0 elements 15",
        &nest(14, "").replace("63[A0{020101}]", "6D[A0{020101}A5[30[A0[70[A0{020100}]]]]]"),
    );
    c.add("contents on the 15th level", "0 elements 15", &nest(15, "A1[31[A0{0C{41}}]]"));
    c.add("an empty collection on the 15th level", "0 elements 15", &nest(15, "A2[64[]]"));
    // "at one tag its own octets (30), then 31 to 33"
    c.add("30 before 32", "30", &element("63", &unlisted(60, "^3085")));
    c.add("32 before 33", "32", &nest(15, "A2[64[A0[63[^60{}]]]]"));
    c.add("32 before a missing member", "32", &nest(15, "A2[64[A0[63[^A1{}]]]]"));
}

// ---- Values ----

fn values(c: &mut Cases) {
    let value = |octets: &str| contents("61", &format!("A2{{^{octets}}}"));
    // "Integers: 1 to 8 octets, two's complement, first nine bits not all equal."
    for (octets, shown) in [
        ("00", "0"),
        ("7F", "127"),
        ("0080", "128"),
        ("80", "-128"),
        ("FF7F", "-129"),
        ("FF", "-1"),
        ("00FF", "255"),
        ("7FFFFFFFFFFFFFFF", "9223372036854775807"),
        ("8000000000000000", "-9223372036854775808"),
        ("00FFFFFFFFFFFFFF", "72057594037927935"),
    ] {
        let expected = format!("0 elements 1\n0 - parameter number=1 value=int:{shown}\n");
        c.add("an integer", &expected, &value(&primitive("02", octets)));
    }
    for octets in ["", "0000", "0001", "007F", "FF80", "FFFF", "010203040506070809", "000000000000000000", "00FFFFFFFFFFFFFFFF"] {
        c.add("an integer's octets are bad", "30", &value(&primitive("02", octets)));
        c.add("a number's octets are bad", "30", &item(&format!("63{{A0{{^{}}}}}", primitive("02", octets))));
    }
    // "Booleans: one octet, non-zero is true"
    for (octets, shown) in [("00", "false"), ("01", "true"), ("80", "true"), ("FF", "true")] {
        let expected = format!("0 elements 1\n0 - node number=1 root={shown}\n");
        c.add("a flag", &expected, &contents("63", &format!("A2{{{}}}", primitive("01", octets))));
        let expected = format!("0 elements 1\n0 - parameter number=1 value=bool:{shown}\n");
        c.add("a boolean", &expected, &value(&primitive("01", octets)));
    }
    for octets in ["", "0000", "FF00", "0001"] {
        c.add("a flag's octets are bad", "30", &contents("63", &format!("A2{{^{}}}", primitive("01", octets))));
        c.add("a boolean's octets are bad", "30", &value(&primitive("01", octets)));
    }
    // Reals. "empty is zero; 40 and 41 are the infinities"
    for (octets, bits) in [
        ("", "0000000000000000"),
        ("40", "7FF0000000000000"),
        ("41", "FFF0000000000000"),
        ("800001", "3FF0000000000000"),
        ("C00001", "BFF0000000000000"),
        ("80012A", "4055000000000000"),
        // "exponent of 1 to 3 octets (forms 00, 01, 10)"
        ("81000001", "3FF0000000000000"),
        ("8200000001", "3FF0000000000000"),
        // "scale 0 to 3"
        ("840001", "4000000000000000"),
        ("880001", "4010000000000000"),
        ("8C0001", "4020000000000000"),
        // "non-zero mantissa of 1 to 8 octets"
        ("80000000000000000001", "3FF0000000000000"),
        // "with the mantissa made odd, it is under 2^53"
        ("80001FFFFFFFFFFFFF", "433FFFFFFFFFFFFF"),
        ("800020000000000000", "4340000000000000"),
        ("8000FFFFFFFFFFFFF800", "43EFFFFFFFFFFFFF"),
        // "its power of two at least -1,074"
        ("81FBCE01", "0000000000000001"),
        ("81FBCD02", "0000000000000001"),
        ("85FBCD01", "0000000000000001"),
        ("C1FBCE01", "8000000000000001"),
        // "its bits plus the power at most 1,024"
        ("8103FF01", "7FE0000000000000"),
        ("8103CB1FFFFFFFFFFFFF", "7FEFFFFFFFFFFFFF"),
        ("8103C0FFFFFFFFFFFFF800", "7FEFFFFFFFFFFFFF"),
    ] {
        let expected = format!("0 elements 1\n0 - parameter number=1 value=real:{bits}\n");
        c.add("a real", &expected, &value(&primitive("09", octets)));
    }
    for octets in [
        // V10: "otherwise binary, base 2"
        "42",
        "43",
        "4000",
        "4100",
        "00",
        "0131",
        "0231",
        "03312E4530",
        "01",
        "900001",
        "A00001",
        "B00001",
        // V12: exponent or mantissa absent, mantissa zero, form 11
        "80",
        "8000",
        "81",
        "8100",
        "810000",
        "82000000",
        "8301000001",
        "83020000 01",
        "800000",
        "C00000",
        "80000000000000000000",
        "8000000000000000000001",
        // no double equals it
        "800020000000000001",
        "8000FFFFFFFFFFFFFC00",
        "81FBCD01",
        "81FBCC02",
        "81FBCD03",
        "81040001",
        "8103CC1FFFFFFFFFFFFF",
        "827FFFFF01",
        "8280000001",
        "C1FBCD01",
        "8503FF01",
    ] {
        c.add("35: a real not accepted", "35", &value(&primitive("09", octets)));
    }
    c.add("35 as a minimum", "35", &contents("61", "A3{^0901 42}"));
    c.add("35 as a maximum", "35", &contents("61", "A4{^0901 42}"));
    c.add("35 as a stream's value", "35", &stream("A0{020100}A1{^0901 42}"));
    // "A value is an integer, a real, a text, a boolean or octets."
    let any =
        [("020105", "int:5"), ("09{800001}", "real:3FF0000000000000"), ("0C{4142}", "text:\"AB\""), ("010101", "bool:true")];
    for (octets, shown) in any.into_iter().chain([("04{00FF}", "octets:00FF"), ("0400", "octets:-"), ("0C00", "text:\"\"")]) {
        for (number, name) in [(2, "value"), (3, "minimum"), (4, "maximum")] {
            let expected = format!("0 elements 1\n0 - parameter number=1 {name}={shown}\n");
            c.add("G10: a value of any kind", &expected, &contents("61", &format!("A{number}{{{octets}}}")));
        }
        let expected = format!("0 streams 1\n0 - stream stream=7 value={shown}\n");
        c.add("a stream's value of any kind", &expected, &stream(&format!("A0{{020107}}A1{{{octets}}}")));
    }
    for octets in [
        "0500", "0A{01}", "0D{01}", "0600", "03{00}", "30{}", "31{}", "2201 01", "2C{}", "24{}", "29{}", "21{}", "4201 05",
        "820105", "C20105",
    ] {
        c.add("V6 and others: no value's tag", "33", &value(octets));
        c.add("no value's tag, in a stream", "33", &stream(&format!("A0{{020100}}A1{{^{octets}}}")));
    }
    // Texts are any octets (V13), and are shown so.
    c.add(
        "V13: a text of any octets",
        "0 elements 1\n0 - node number=1 description=\" ~\\22\\5C\\00\\0A\\1F\\7F\\80\\FF\\C3\\A9/\"\n",
        &contents("63", "A1{0C{207E225C000A1F7F80FFC3A92F}}"),
    );
    c.add("an empty description", "0 elements 1\n0 - node number=1 description=\"\"\n", &contents("63", "A1{0C{}}"));
    // "Identifiers start with a letter or "_" and hold no "/"."
    for (octets, shown) in [
        ("41", "A"),
        ("5A", "Z"),
        ("61", "a"),
        ("7A", "z"),
        ("5F", "_"),
        ("4130", "A0"),
        ("41FF", "A\\FF"),
        ("5F2E", "_."),
        ("4100", "A\\00"),
    ] {
        for tag in ["61", "63", "6D"] {
            let kind = ["parameter", "node", "matrix"][["61", "63", "6D"].iter().position(|other| *other == tag).unwrap()];
            let expected = format!("0 elements 1\n0 - {kind} number=1 identifier=\"{shown}\"\n");
            c.add("an identifier", &expected, &contents(tag, &format!("A0{{{}}}", primitive("0C", octets))));
        }
    }
    for octets in [
        "", "2F", "30", "39", "20", "40", "5B", "5E", "60", "7B", "00", "7F", "80", "C1", "E1", "FF", "412F", "412F41", "5F2F",
        "61622F",
    ] {
        for tag in ["61", "63", "6D"] {
            c.add(
                "V14, 36: an identifier against its rule",
                "36",
                &contents(tag, &format!("A0{{^{}}}", primitive("0C", octets))),
            );
        }
    }
    // "A full path has 1 to 16 numbers."
    let path = |tag: &str, octets: &str| item(&format!("{tag}{{A0{{^{}}}}}", primitive("0D", octets)));
    let kinds = [("69", "qualified-parameter"), ("6A", "qualified-node"), ("71", "qualified-matrix")];
    for (tag, kind) in kinds {
        for (octets, shown) in [
            ("01", "1".to_string()),
            ("7F", "127".to_string()),
            ("8100", "128".to_string()),
            ("87FFFFFF7F", "2147483647".to_string()),
            ("010203", "1.2.3".to_string()),
            (&"01".repeat(16), ["1"; 16].join(".")),
        ] {
            c.add("a path", &format!("0 elements 1\n0 - {kind} path={shown}\n"), &path(tag, octets));
        }
        for octets in
            ["", "00", "0100", "0001", "8880808000", "018880808000", "81808080808080808000", &"01".repeat(17), &"8100".repeat(17)]
        {
            c.add("37: path empty, over 16 or with a number out of range", "37", &path(tag, octets));
        }
        for octets in
            ["80", "8001", "018001", "81", "0181", "888080800080", &format!("{}80", "01".repeat(17)), &format!("00{}", "80")]
        {
            c.add("V2, 30: a path's octets are bad, before 37", "30", &path(tag, octets));
        }
    }
    // "Empty only for the sources of a connection."
    let sources = |octets: &str| connection(&format!("A0{{020100}}A1{{^{}}}", primitive("0D", octets)));
    for (octets, shown) in [
        ("", "-".to_string()),
        ("00", "0".to_string()),
        ("0000", "0.0".to_string()),
        ("87FFFFFF7F00", "2147483647.0".to_string()),
        ("050403", "5.4.3".to_string()),
        (&"01".repeat(17), ["1"; 17].join(".")),
        (&"8100".repeat(70), ["128"; 70].join(".")),
    ] {
        let expected = format!("0 elements 2\n0 - matrix number=1\n1 0 connection target=0 sources={shown}\n");
        c.add("V3, G5: sources", &expected, &sources(octets));
    }
    for octets in ["8880808000", "008880808000", "FFFFFFFF7F", "81808080808080808000"] {
        c.add("V1, 34: a source's number out of its range", "34", &sources(octets));
    }
    for octets in ["80", "8001", "0081", "888080800081"] {
        c.add("30: the sources' octets are bad, before 34", "30", &sources(octets));
    }
}

// ---- Kinds: which tag may stand where ----

fn kinds(c: &mut Cases) {
    // Root, and "The answer names Root's kind."
    c.add("elements", "0 elements 0", "60{6B{}}");
    c.add("W4: streams", "0 streams 0", "60{65{}}");
    c.add("elements, indefinite", "0 elements 0", "60[6B[]]");
    c.add("streams, indefinite", "0 streams 0", "60[65[]]");
    for tag in ["61", "40", "E0", "A0", "20", "30", "02", "6B", "7F01"] {
        c.add("a tag unexpected as Root", "33", &format!("^{tag}{{}}"));
    }
    for number in 0..=20 {
        if number != 5 && number != 11 {
            c.add("a tag unexpected in Root", "33", &format!("60{{^{:02X}{{}}}}", 0x60 + number));
        }
    }
    for tag in ["4B", "45", "AB", "EB", "2B", "A0", "30", "31", "05"] {
        c.add("O6: another class or no container in Root", "33", &format!("60{{^{tag}{{}}}}"));
    }
    c.add("R8: Root's value missing", "33", "60{^}");
    c.add("R8: Root's value missing, indefinite", "33", "60[^]");
    c.add("a second value in Root", "33", "60{6B{}^6B{}}");
    c.add("a second value in Root, indefinite", "33", "60[6B[]^65[]]");
    // "Item of any collection: 0, no other."
    for (around, after) in [
        ("60{6B{", "}}"),
        ("60{65{", "}}"),
        ("60{6B{A0{63{A0{020101}A2{64{", "}}}}}}"),
        ("60{6B{A0{6D{A0{020101}A5{30{", "}}}}}}"),
    ] {
        for tag in ["80", "A1", "A9", "60", "E0", "20", "02", "62", "BF01", "BF20"] {
            c.add("O6: no item's tag", "33", &format!("{around}^{tag}{{}}{after}"));
        }
        c.add("R8: an item's value missing", "33", &format!("{around}A0{{^}}{after}"));
        c.add("R8: an item's value missing, indefinite", "33", &format!("{around}A0[^]{after}"));
        for class in ["4", "A", "E", "2"] {
            for low in ["1", "2", "3", "6"] {
                c.add(
                    "an item's value of another class or no container",
                    "33",
                    &format!("{around}A0{{^{class}{low}{{}}}}{after}"),
                );
            }
        }
        // Application numbers, each where it may stand and where not: by their own required members.
        for number in 0..=20 {
            let key = if [9, 10, 17].contains(&number) { "0D0101" } else { "020101" };
            let value = if number == 6 { "A1{020101}" } else { "" };
            let message = format!("{around}A0{{^{:02X}{{A0{{{key}}}{value}}}}}{after}", 0x60 + number);
            let allowed: &[usize] = match (around, after.len()) {
                ("60{65{", _) => &[6],
                ("60{6B{", _) => &[1, 2, 3, 9, 10, 13, 17],
                (_, _) if around.ends_with("64{") => &[1, 2, 3, 13],
                _ => &[16],
            };
            let count = if after.len() > 2 { 2 } else { 1 };
            let kind = if around == "60{65{" { "streams" } else { "elements" };
            let expected = if allowed.contains(&number) { format!("0 {kind} {count}") } else { "33".to_string() };
            c.add("G1, G3: each application number in each collection", &expected, &message);
        }
        // A second value in an item.
        c.add(
            "an item with two values",
            "33",
            &match around {
                "60{65{" => "60{65{A0{66{A0{020100}A1{020100}}^66{}}}}".to_string(),
                "60{6B{" => "60{6B{A0{62{A0{020120}}^62{}}}}".to_string(),
                _ if around.ends_with("64{") => children("A0{62{A0{020120}}^62{}}"),
                _ => connections("A0{70{A0{020100}}^70{}}"),
            },
        );
    }
    // Children are an ElementCollection, contents a set, connections a sequence.
    for tag in ["6B", "65", "44", "A4", "24", "30", "31", "63", "04"] {
        c.add("no collection of children", "33", &element("63", &format!("A2{{^{tag}{{}}}}")));
    }
    for tag in ["30", "11", "71", "B1", "64", "02"] {
        c.add("no set of contents", "33", &element("63", &format!("A1{{^{tag}{{}}}}")));
    }
    for tag in ["31", "10", "70", "B0", "64"] {
        c.add("no sequence of connections", "33", &element("6D", &format!("A5{{^{tag}{{}}}}")));
    }
    for (number, tag) in [("1", "31"), ("2", "64")] {
        c.add("R8: the value missing", "33", &element("63", &format!("A{number}{{^}}")));
        c.add("R8: the value missing, indefinite", "33", &element("63", &format!("A{number}[^]")));
        c.add("two values", "33", &element("63", &format!("A{number}{{{tag}{{}}^{tag}{{}}}}")));
    }
    c.add("two sequences of connections", "33", &element("6D", "A5{30{}^30{}}"));
    c.add("two numbers in one outer tag", "33", &item("63{A0{020101^020101}}"));
    c.add("two texts in one outer tag", "33", &contents("63", "A0{0C{41}^0C{41}}"));
    c.add("a closing 00 after a value in a definite outer tag", "30", &contents("63", "A0{0C{41}^0000}"));
    c.add("qualified elements below the root level", "33", &children("A0{^6A{A0{0D0101}}}"));
    c.add("G3: a StreamCollection in an item", "33", "60{6B{A0{^65{}}}}");
    c.add("a StreamCollection as children", "33", &element("63", "A2{^65{}}"));
    c.add("connections of a node are unlisted", "0 elements 1", &element("63", "A5{0500}"));
    c.add("connections of a parameter are unlisted", "0 elements 1", &element("61", "8500"));
    c.add("children of a parameter", "0 elements 2", &element("61", "A2{64{A0{62{A0{02011E}}}}}"));
    c.add("children of a matrix", "0 elements 2", &element("6D", "A2{64{A0{61{A0{020102}}}}}"));
}

// ---- Members: order, repetition, required, unlisted ----

fn members(c: &mut Cases) {
    // Every context number in every kind, with a value of every type.
    let values = ["010101", "020101", "04{41}", "0500", "09{800001}", "0C{41}", "0D{01}", "30{}", "31{}", "64{}"];
    for (tag, numbers) in [("61", 16u8), ("63", 8), ("6D", 10)] {
        for number in 0..numbers {
            for value in values {
                let (expected, message) =
                    one_member(contents_rule(tag, number), |mark| contents(tag, &format!("A{number:X}{{{mark}{value}}}")), value);
                c.add("contents: what stands at each context number", &expected, &message);
            }
        }
    }
    for number in 1..7u8 {
        for value in values {
            for (tag, what) in [("61", 'e'), ("6D", 'm'), ("62", 'c')] {
                let rule = match (what, number) {
                    ('c', 1) => Some("02"),
                    ('c', _) => None,
                    (_, 1) => Some("31"),
                    (_, 2) => Some("64"),
                    ('m', 5) => Some("30"),
                    _ => None,
                };
                let (expected, message) = one_member(rule, |mark| element(tag, &format!("A{number}{{{mark}{value}}}")), value);
                c.add("elements and commands: what stands at each context number", &expected, &message);
            }
            let rule = [Some("0D"), Some("02"), None][usize::from(number - 1).min(2)];
            let (expected, message) =
                one_member(rule, |mark| connection(&format!("A0{{020101}}A{number}{{{mark}{value}}}")), value);
            c.add("connections: what stands at each context number", &expected.replace("elements 1", "elements 2"), &message);
        }
    }
    for value in values {
        for tag in ["61", "62", "63", "6D", "69", "6A", "71"] {
            let wanted = if ["69", "6A", "71"].contains(&tag) { "0D" } else { "02" };
            let expected = if value.starts_with(wanted) { "0 elements 1" } else { "33" };
            c.add("what stands as number or path", expected, &item(&format!("{tag}{{A0{{^{value}}}}}")));
        }
        let expected = if value.starts_with("02") { "0 streams 1" } else { "33" };
        c.add("what stands as a stream's identifier", expected, &stream(&format!("A0{{^{value}}}A1{{020100}}")));
        let expected = if value.starts_with("02") { "0 elements 2" } else { "33" };
        c.add("what stands as a target", expected, &connection(&format!("A0{{^{value}}}")));
    }
    // R8: value missing in an outer tag.
    for number in 0..=15 {
        if [6, 7, 10, 12, 13, 15].contains(&number) {
            c.add("an unlisted member holds nothing", "0 elements 1", &contents("61", &format!("A{number:X}{{}}")));
        } else {
            c.add("R8: a value missing", "33", &contents("61", &format!("A{number:X}{{^}}")));
            c.add("R8: a value missing, indefinite", "33", &contents("61", &format!("A{number:X}[^]")));
            c.add("V7: a listed number without the constructed bit", "33", &contents("61", &format!("^8{number:X}{{}}")));
            c.add("a listed number of another class", "33", &contents("61", &format!("^E{number:X}{{020101}}")));
        }
    }
    c.add("V7: a number's tag without the constructed bit", "33", &item("63{^800101}"));
    c.add("V7: contents without the constructed bit", "33", &element("63", "^8100"));
    c.add("V7: children without the constructed bit", "33", &element("63", "^8200"));
    c.add("V7: connections without the constructed bit", "33", &element("6D", "^8500"));
    c.add("R8: number missing in its outer tag", "33", &item("63{A0{^}}"));
    // "Sequence members come in strictly ascending tag order"
    c.add("contents after children", "33", &element("63", "A2{64{}}^A1{31{}}"));
    c.add("children after connections", "33", &element("6D", "A5{30{}}^A2{64{}}"));
    c.add("the number after the contents: missing at the first higher tag", "33", &item("63{^A1{31{}}A0{020101}}"));
    c.add("a number twice", "33", &element("63", "^A0{020101}"));
    c.add("a path twice", "33", &item("6A{A0{0D0101}^A0{0D0101}}"));
    c.add("contents twice", "33", &element("63", "A1{31{}}^A1{31{}}"));
    c.add("children twice", "33", &element("63", "A2{64{}}^A2{64{}}"));
    c.add("connections twice", "33", &element("6D", "A5{30{}}^A5{30{}}"));
    c.add("a command's mask before its number", "33", &item("62{^A1{020101}A0{020120}}"));
    c.add("a command's number twice", "33", &item("62{A0{020120}^A0{020120}}"));
    c.add("a mask twice", "33", &item("62{A0{020120}A1{020101}^A1{020101}}"));
    c.add("operation before sources", "33", &connection("A0{020100}A2{020100}^A1{0D00}"));
    c.add("sources twice", "33", &connection("A0{020100}A1{0D00}^A1{0D00}"));
    c.add("a target twice", "33", &connection("A0{020100}^A0{020100}"));
    c.add("a stream's value before its identifier", "33", &stream("^A1{020100}A0{020100}"));
    c.add("a stream's value twice", "33", &stream("A0{020100}A1{020100}^A1{020100}"));
    c.add("O4: an unlisted tag after a higher one", "33", &element("63", "A9{}^A8{}"));
    c.add("O4: an unlisted tag twice", "33", &element("63", "A9{}^A9{}"));
    c.add("O4: as a primitive too", "33", &element("63", "A9{}^8900"));
    c.add("O4: a listed tag after an unlisted higher one", "33", &element("6D", "A3{}A4{}^A2{64{}}"));
    c.add("O4: unlisted ones in order", "0 elements 1", &element("6D", "A1{31{}}A3{}A5{30{}}A6{}8700BF1F{}9F20{05}"));
    c.add("O4: long and short tags have one order", "33", &element("63", "BF09{}^A9{}"));
    c.add("the highest tag last", "0 elements 1", &element("63", "BF1F{}BFFFFFFF7F{}"));
    c.add("and one lower after it", "33", &element("63", "BFFFFFFF7F{}^BFFFFFFF7E{}"));
    c.add("O5: an unlisted tag before the number", "33", &item("63{^A9{}A0{020101}}"));
    c.add("O5: as a primitive", "33", &item("63{^8900A0{020101}}"));
    c.add("O5: in a command", "33", &item("62{^A2{}A0{020120}}"));
    c.add("O5: in a connection", "33", &connection("^A3{}A0{020100}"));
    c.add("O5: in a stream entry, before its value", "33", &stream("A0{020100}^A2{}A1{020100}"));
    // "set members in any order, no listed one twice"
    c.add(
        "a set in descending order",
        "0 elements 1\n0 - parameter number=1 identifier=\"a\" description=\"\" value=int:1 access=3 factor=2 online=false step=4 stream=5\n",
        &contents("61", "AE{020105}AB{020104}A9{010100}A8{020102}A5{020103}A2{020101}A1{0C00}A0{0C{61}}"),
    );
    for (tag, numbers) in
        [("61", vec![0, 1, 2, 3, 4, 5, 8, 9, 11, 14]), ("63", vec![0, 1, 2, 3]), ("6D", vec![0, 1, 2, 3, 4, 5, 6, 7])]
    {
        for number in numbers {
            let rule = contents_rule(tag, number).unwrap();
            let value =
                ["0C{41}", "010100", "020100"].into_iter().find(|value| rule == "any" || value.starts_with(rule)).unwrap();
            let one = format!("A{number:X}{{{value}}}");
            c.add("no listed one twice", "33", &contents(tag, &format!("{one}^{one}")));
            c.add("nor with others between", "33", &contents(tag, &format!("{one}AF{{}}8F00^{one}")));
            c.add("nor in long form", "33", &contents(tag, &format!("{one}^BF{number:02X}{{{value}}}")));
        }
    }
    c.add("O12: an unlisted one twice in a set", "0 elements 1", &contents("63", "A9{}A9{}8900A8{}A9{0500}"));
    c.add("unlisted numbers of a parameter", "0 elements 1", &contents("61", "A6{}A7{}AA{}AC{}AD{}AF{}B0{}8600"));
    c.add("unlisted numbers of a node", "0 elements 1", &contents("63", "A4{}A5{0500}86{01}BF64{}"));
    c.add("unlisted numbers of a matrix", "0 elements 1", &contents("6D", "A8{}A9{}AA{}8B00"));
    c.add("unlisted members of a command", "0 elements 1", &item("62{A0{020120}A2{0500}8300}"));
    c.add("unlisted members of a connection", "0 elements 2", &connection("A0{020100}A3{}9E{01}"));
    c.add("unlisted members of a stream entry", "0 streams 1", &stream("A0{020100}A1{020100}A2{}"));
    // "its value checked for tags, lengths and depth alone"
    c.add("O9: odd universal tags in it", "0 elements 1", &element("63", "A9{10{}22{}0202 0000 09{42}}"));
    c.add("bad octets of values in it", "0 elements 1", &element("63", "A9{0200 0102FFFF 0D{80} 09{43}}"));
    c.add("a bad tag in it", "30", &element("63", "A9{30{^1F80}}"));
    c.add("a bad length in it", "30", &element("63", "A9{30{^0585}}"));
    c.add("a length past its end in it", "30", &element("63", "A9{30{^0501}0500}"));
    c.add("00 in it", "30", &element("63", "A9{30{^0000}}"));
    c.add("a passed-over primitive holds any octets", "0 elements 1", &element("63", "89{0000FFFF80}"));
    // O6, O7: what is no context tag among members
    for tag in ["C9", "E9", "02", "22", "09", "30", "69", "49", "60", "62"] {
        c.add("O7: another class among an element's members", "33", &element("63", &format!("^{tag}{{}}")));
        c.add("O7: another class in contents", "33", &contents("63", &format!("^{tag}{{}}")));
        c.add("O7: another class in a command", "33", &item(&format!("62{{A0{{020120}}^{tag}{{}}}}")));
        c.add("O7: another class in a connection", "33", &connection(&format!("A0{{020100}}^{tag}{{}}")));
        c.add("O7: another class in a stream entry", "33", &stream(&format!("A0{{020100}}A1{{020100}}^{tag}{{}}")));
    }
    // Required members, "found at the first higher tag or its container's end"
    for tag in ["61", "62", "63", "69", "6A", "6D", "71"] {
        c.add("R6: number or path missing at the end", "33", &item(&format!("{tag}{{^}}")));
        c.add("R6: at its first 00", "33", &format!("60{{6B{{A0[{tag}[^]]}}}}"));
        c.add("R6: at the first higher tag", "33", &item(&format!("{tag}{{^A1{{}}}}")));
        c.add("R6: at an unlisted primitive", "33", &item(&format!("{tag}{{^8A00}}")));
    }
    c.add("a target missing", "33", &connection("^"));
    c.add("a target missing at sources", "33", &connection("^A1{0D00}"));
    c.add("both members of a stream entry missing", "33", &stream("^"));
    c.add("a stream's value missing", "33", &stream("A0{020100}^"));
    c.add("a stream's identifier missing", "33", &stream("^A1{020100}"));
    c.add("a stream's value missing, indefinite", "33", "60{65{A0[66[A0{020100}^]]}}");
    c.add("nothing else is required", "0 elements 2", &connection("A0{020100}"));
    c.add("G4: an empty set of contents", "0 elements 1\n0 - matrix number=1\n", &element("6D", "A1{31{}}"));
    c.add("an empty collection of children counts as absent", "0 elements 1\n0 - node number=1\n", &element("63", "A2{64{}}"));
    c.add("an empty list of connections too", "0 elements 1\n0 - matrix number=1\n", &element("6D", "A5{30{}}"));
}

/// What a contents member must be: the value's tag, or "any".
fn contents_rule(tag: &str, number: u8) -> Option<&'static str> {
    match (tag, number) {
        (_, 0 | 1) => Some("0C"),
        ("61", 2..=4) => Some("any"),
        ("61", 5 | 8 | 11 | 14) => Some("02"),
        ("61", 9) | ("63", 2 | 3) => Some("01"),
        ("6D", 2..=7) => Some("02"),
        _ => None,
    }
}

/// The expected answer, and the message, of one member that holds `value`. `build` takes the mark that stands before the
/// value, or nothing.
fn one_member(rule: Option<&str>, build: impl Fn(&str) -> String, value: &str) -> (String, String) {
    let right = match rule {
        None => true,
        Some("any") => ["01", "02", "04", "09", "0C"].iter().any(|tag| value.starts_with(tag)),
        Some(tag) => value.starts_with(tag),
    };
    if right {
        ("0 elements 1".to_string(), build(""))
    } else {
        ("33".to_string(), build("^"))
    }
}

// ---- 34: "number out of its range" ----

fn ranges(c: &mut Cases) {
    const TOP: i64 = 2_147_483_647;
    const I32: (i64, i64) = (-2_147_483_648, TOP);
    let mut both_ends = |rule: &str, range: (i64, i64), done: &str, message: &dyn Fn(&str) -> String| {
        for value in [i64::MIN, range.0 - 1, range.0, range.0 + 1, range.1 - 1, range.1, range.1 + 1, i64::MAX] {
            let inside = value >= range.0 && value <= range.1;
            let expected = if inside { done } else { "34" };
            c.add(rule, expected, &message(&format!("^{}", integer(value))));
        }
    };
    // "Numbers are 1 to 2,147,483,647"
    for tag in ["61", "63", "6D"] {
        both_ends("a number", (1, TOP), "0 elements 1", &|value| item(&format!("{tag}{{A0{{{value}}}}}")));
        both_ends("a child's number", (1, TOP), "0 elements 2", &|value| children(&format!("A0{{{tag}{{A0{{{value}}}}}}}")));
    }
    // "target, source and stream numbers, counts and limits start at 0"
    both_ends("a target", (0, TOP), "0 elements 2", &|value| connection(&format!("A0{{{value}}}")));
    both_ends("a stream's identifier", (0, TOP), "0 streams 1", &|value| stream(&format!("A0{{{value}}}A1{{020100}}")));
    both_ends("a parameter's stream", (0, TOP), "0 elements 1", &|value| contents("61", &format!("AE{{{value}}}")));
    for number in 4..=7 {
        both_ends("counts and limits", (0, TOP), "0 elements 1", &|value| contents("6D", &format!("A{number}{{{value}}}")));
    }
    // "Type and operation are 0 to 2, mode 0 or 1, access 0 to 3"
    both_ends("a type", (0, 2), "0 elements 1", &|value| contents("6D", &format!("A2{{{value}}}")));
    both_ends("an operation", (0, 2), "0 elements 2", &|value| connection(&format!("A0{{020100}}A2{{{value}}}")));
    both_ends("a mode", (0, 1), "0 elements 1", &|value| contents("6D", &format!("A3{{{value}}}")));
    both_ends("an access", (0, 3), "0 elements 1", &|value| contents("61", &format!("A5{{{value}}}")));
    // "command, mask, factor and step are signed 32-bit"
    both_ends("a command", I32, "0 elements 1", &|value| item(&format!("62{{A0{{{value}}}}}")));
    both_ends("a mask", I32, "0 elements 1", &|value| item(&format!("62{{A0{{020120}}A1{{{value}}}}}")));
    both_ends("a factor", I32, "0 elements 1", &|value| contents("61", &format!("A8{{{value}}}")));
    both_ends("a step", I32, "0 elements 1", &|value| contents("61", &format!("AB{{{value}}}")));
    // 37: "over 16 (parents counted)"
    let qualified = |steps: usize, below: &str| {
        item(&format!("6A{{A0{{{}}}A2{{64{{A0{{{below}}}}}}}}}", primitive("0D", &"01".repeat(steps))))
    };
    for tag in ["61", "63", "6D"] {
        c.add("a path of 16, its last a child", "0 elements 2", &qualified(15, &format!("{tag}{{A0{{^020101}}}}")));
        c.add("a path of 17, its last a child", "37", &qualified(16, &format!("{tag}{{A0{{^020101}}}}")));
        let below = |number: &str| format!("63{{A0{{020102}}A2{{64{{A0{{{tag}{{A0{{^{number}}}}}}}}}}}}}");
        c.add("a path of 16 over two levels", "0 elements 3", &qualified(14, &below("020101")));
        c.add("a path of 17 over two levels", "37", &qualified(15, &below("020101")));
        c.add("O10: 34 before 37", "34", &qualified(16, &format!("{tag}{{A0{{^020100}}}}")));
        c.add("30 before 37", "30", &qualified(16, &format!("{tag}{{A0{{^020200 01}}}}")));
    }
    c.add("O11: a command below a path of 16", "0 elements 2", &qualified(16, "62{A0{020120}}"));
    c.add("parents other than nodes count", "37", &qualified(16, "61{A0{^020101}}").replace("6A{", "69{"));
    c.add("matrices too", "37", &qualified(16, "61{A0{^020101}}").replace("6A{", "71{"));
    c.add("a sibling after a child starts anew", "0 elements 3", &qualified(15, "61{A0{020101}}}A0{61{A0{020102}}"));
    c.add("G9: root-level plain elements have a path of one", "0 elements 15", &nest(15, ""));
}

// ---- "the first fault in reading order wins; at one tag its own octets (30), then 31 to 33, then its value's, by number" ----

fn order_of_faults(c: &mut Cases) {
    c.add("30 before 31 at one tag", "30", "60{6B{A080^6306 A0{020101}}}");
    c.add("31 before 33 at one tag", "31", &element("63", "A1[^30{}]"));
    c.add("O13: 33 before the value runs past the message", "33", "60{6B{A0{63{A0{^04{!01}}}}}}");
    c.add("33 before the value's octets", "33", &item("63{A0{^01020000}}"));
    c.add("a value's 30 before its 34", "30", &item("63{A0{^02020000}}"));
    c.add("a value's fault before the next tag's", "34", &item("63{A0{^020100 C900}}"));
    c.add("the next tag's, the value being right", "33", &item("63{A0{020101^C900}}"));
    c.add("the next tag's own octets", "30", &item("63{A0{020101^1F80}}"));
    c.add("an earlier 36 before a later 30", "36", &contents("63", "A0{^0C{2F}}A2{01020000}"));
    c.add("an earlier 30 before a later 36", "30", &contents("63", "A2{^01020000}A0{0C{2F}}"));
    c.add("an earlier 37 before a later 33", "37", &item("6A{A0{^0D00}E100}"));
    c.add("an earlier 35 before a later 34", "35", &contents("61", "A2{^09{42}}A5{020104}"));
    c.add("an earlier 34 before a later 35", "34", &contents("61", "A5{^020104}A2{09{42}}"));
    c.add("a child's fault before its parent's later one", "34", &element("6D", "A2{64{A0{62{A0{^02050100000000}}}}}A5{31{}}"));
    c.add("a fault before bytes run out", "36", &contents("63", "A0{^0C{30}}A1{0C{41!41}}"));
    c.add("a missing value before a later fault", "33", &contents("63", "A0{}^A1{0C00}"));
    c.add("a fault before bytes left after Root", "34", "60{6B{A0{63{A0{^020100}}}}}0000");
}

// ---- Entries: "in message order, with its parent's place" ----

fn entries(c: &mut Cases) {
    c.add("P12", "0 elements 1\n0 - command number=32\n", "600B6B09A0076205A003020120");
    c.add(
        "every member of a parameter",
        "0 elements 1\n0 - parameter number=1 identifier=\"p\" description=\"d\" value=int:1 minimum=real:3FF0000000000000 \
         maximum=text:\"m\" access=3 factor=-1 online=true step=-2147483648 stream=2147483647\n",
        &contents(
            "61",
            "A0{0C{70}}A1{0C{64}}A2{020101}A3{09{800001}}A4{0C{6D}}A5{020103}A8{0201FF}A9{010101}AB{020480000000}AE{02047FFFFFFF}",
        ),
    );
    c.add(
        "every member of a qualified parameter",
        "0 elements 1\n0 - qualified-parameter path=1.2 identifier=\"p\" description=\"d\" value=bool:false minimum=octets:00 \
         maximum=octets:- access=0 factor=0 online=false step=1 stream=0\n",
        &item(
            "69{A0{0D020102}A1{31{A0{0C{70}}A1{0C{64}}A2{010100}A3{04{00}}A4{0400}A5{020100}A8{020100}A9{010100}AB{020101}AE{020100}}}}",
        ),
    );
    c.add(
        "every member of a node",
        "0 elements 1\n0 - node number=1 identifier=\"n\" description=\"d\" root=true online=false\n",
        &contents("63", "A0{0C{6E}}A1{0C{64}}A2{0101FF}A3{010100}"),
    );
    c.add(
        "every member of a qualified node",
        "0 elements 1\n0 - qualified-node path=9 identifier=\"n\" description=\"d\" root=false online=true\n",
        &item("6A{A0{0D0109}A1{31{A0{0C{6E}}A1{0C{64}}A2{010100}A3{0101FF}}}}"),
    );
    c.add(
        "every member of a matrix",
        "0 elements 1\n0 - matrix number=1 identifier=\"m\" description=\"d\" type=2 mode=1 targets=3 sources=4 total-limit=5 \
         target-limit=6\n",
        &contents("6D", "A0{0C{6D}}A1{0C{64}}A2{020102}A3{020101}A4{020103}A5{020104}A6{020105}A7{020106}"),
    );
    c.add(
        "every member of a qualified matrix",
        "0 elements 1\n0 - qualified-matrix path=1.2.3 identifier=\"m\" description=\"d\" type=0 mode=0 targets=0 sources=0 \
         total-limit=0 target-limit=0\n",
        &item("71{A0{0D03010203}A1{31{A0{0C{6D}}A1{0C{64}}A2{020100}A3{020100}A4{020100}A5{020100}A6{020100}A7{020100}}}}"),
    );
    c.add("every member of a command", "0 elements 1\n0 - command number=32 mask=-1\n", &item("62{A0{020120}A1{0201FF}}"));
    c.add(
        "every member of a connection",
        "0 elements 2\n0 - matrix number=1\n1 0 connection target=1 sources=0.2 operation=2\n",
        &connection("A0{020101}A1{0D020002}A2{020102}"),
    );
    c.add("every member of a stream entry", "0 streams 1\n0 - stream stream=1 value=int:-1\n", &stream("A0{020101}A1{0201FF}"));
    c.add(
        "G6: element, its children, its connections",
        "0 elements 6\n0 - matrix number=1\n1 0 node number=2\n2 1 command number=32\n3 0 command number=33\n\
         4 0 connection target=5\n5 0 connection target=6\n",
        &element(
            "6D",
            "A2{64{A0{63{A0{020102}A2{64{A0{62{A0{020120}}}}}}}A0{62{A0{020121}}}}}A5{30{A0{70{A0{020105}}}A0{70{A0{020106}}}}}",
        ),
    );
    c.add(
        "parents by their place, after a deeper branch",
        "0 elements 7\n0 - node number=1\n1 0 node number=1\n2 1 node number=1\n3 0 node number=2\n4 3 parameter number=1\n\
         5 - qualified-matrix path=1.5\n6 5 connection target=0 sources=1\n",
        "60{6B{A0{63{A0{020101}A2{64{A0{63{A0{020101}A2{64{A0{63{A0{020101}}}}}}}A0{63{A0{020102}A2{64{A0{61{A0{020101}}}}}}}}}}}\
         A0{71{A0{0D020105}A5{30{A0{70{A0{020100}A1{0D0101}}}}}}}}}",
    );
    c.add("the same number twice among siblings (G2)", "0 elements 3", &children("A0{63{A0{020101}}}A0{63{A0{020101}}}"));
    c.add(
        "streams, in order",
        "0 streams 2\n0 - stream stream=2 value=int:1\n1 - stream stream=1 value=int:2\n",
        "60{65{A0{66{A0{020102}A1{020101}}}A0{66{A0{020101}A1{020102}}}}}",
    );
}

// ---- 1 and 38; tables and messages of every size that matters ----

fn sizes(c: &mut Cases) {
    let command = "A0{62{A0{020120}}}";
    let nested = element("6D", &format!("A2{{64{{{command}}}}}A5{{30{{A0{{70{{A0{{020100}}}}}}A0{{70{{A0{{020101}}}}}}}}}}"));
    let streams = "60{65{A0{66{A0{020100}A1{020100}}}A0{66{A0{020101}A1{020101}}}}}";
    for (message, count, kind) in [
        ("60{6B{}}".to_string(), 0, "elements"),
        ("60{65{}}".to_string(), 0, "streams"),
        (item("62{A0{020120}}"), 1, "elements"),
        (streams.to_string(), 2, "streams"),
        (nested.clone(), 4, "elements"),
    ] {
        for table in [0, 1, 2, 3, 4, 5, 255, 256, 257, 258, 299, 300] {
            let expected = match table {
                257.. => "1".to_string(),
                _ if count > table => format!("38 {count}"),
                _ => format!("0 {kind} {count}"),
            };
            c.table("38 and 1, by the table's size", &expected, Some(table), &message);
        }
    }
    for (count, table) in [(255, 255), (256, 256), (256, 255), (257, 256), (257, 257), (300, 256)] {
        let expected = match (count, table) {
            (_, 257) => "1".to_string(),
            _ if count > table => format!("38 {count}"),
            _ => format!("0 elements {count}"),
        };
        c.table("around 256 entries", &expected, Some(table), &format!("60{{6B{{{}}}}}", command.repeat(count)));
    }
    c.add("257 entries, the table not named", "38 257", &format!("60{{6B{{{}}}}}", command.repeat(257)));
    c.add("257 entries, 256 of them connections", "38 257", &connections(&"A0{70{A0{020100}}}".repeat(256)));
    c.add("256 entries, 255 of them connections", "0 elements 256", &connections(&"A0{70{A0{020100}}}".repeat(255)));
    // G7: "message right, table too small": last of all
    c.table("G7: a later fault before 38", "34", Some(1), "60{6B{A0{62{A0{020120}}}A0{62{A0{020120}}}A0{63{A0{^020100}}}}}");
    c.table("G7: a byte left before 38", "30", Some(0), "60{6B{A0{62{A0{020120}}}}}^05");
    c.table("G7: a missing closing 00 before 38", "30", Some(0), "60[6B[A0{62{A0{020120}}}!]]");
    c.table("G8: 1 before every fault", "1", Some(257), "00");
    c.table("a fault with a table of no entries", "33", Some(0), "60{^6A{}}");
    // Messages of 16,384 and 16,385 bytes.
    let filled = |bytes: usize| {
        // Root, collection, item, parameter, contents, set, member, text: long lengths of two octets throughout.
        let around = notation("60{2:6B{2:A0{2:63{2:A0{020101}A1{2:31{2:A1{2:0C{2:}}}}}}}}").0.len();
        format!("60{{2:6B{{2:A0{{2:63{{2:A0{{020101}}A1{{2:31{{2:A1{{2:0C{{2:{}}}}}}}}}}}}}}}}}", "41".repeat(bytes - around))
    };
    c.add("a message of 16,384 bytes", "0 elements 1", &filled(MESSAGE_MAX));
    c.add("G8: a message of 16,385 bytes", "1", &filled(MESSAGE_MAX + 1));
    let most = (MESSAGE_MAX - 8) / 9;
    let rest = MESSAGE_MAX - 8 - 9 * most;
    assert_eq!(rest, 5);
    let items = format!("A0{{2:62{{2:A0{{1:020120}}}}}}{}", command.repeat(most - 1));
    c.add("the most entries that a message can hold", &format!("38 {most}"), &format!("60{{2:6B{{2:{items}}}}}"));
}

// ---- Every rule over a list, the fault last in a long one; what is long and right ----

fn long_lists(c: &mut Cases) {
    let kinds = [("61", "parameter"), ("63", "node"), ("6D", "matrix")];
    // "Identifiers start with a letter or "_" and hold no "/"."
    let name = |tag: &str, octets: &str| contents(tag, &format!("A0{{^{}}}", primitive("0C", octets)));
    for (tag, kind) in kinds {
        for length in [3, 4, 8, 12, 13, 16, 17, 32, 33, 64, 65, 127, 128, 255, 256] {
            c.add("36: \"/\" last in a longer identifier", "36", &name(tag, &format!("{}2F", "61".repeat(length))));
            let expected = format!("0 elements 1\n0 - {kind} number=1 identifier=\"{}\"\n", "a".repeat(length));
            c.add("an identifier of any length", &expected, &name(tag, &"61".repeat(length)));
        }
    }
    for place in 1..=20 {
        let octets = format!("{}2F{}", "5F".repeat(place), "7A".repeat(20 - place));
        c.add("36: \"/\" at each place of an identifier", "36", &name("63", &octets));
    }
    c.add("36: \"/\" as the 1,001st byte", "36", &name("63", &format!("{}2F", "61".repeat(1_000))));
    let expected = format!("0 elements 1\n0 - node number=1 identifier=\"{}\"\n", "a".repeat(1_001));
    c.add("an identifier of 1,001 bytes", &expected, &name("63", &"61".repeat(1_001)));
    // Texts and octets have no length of their own.
    for length in [13, 65, 127, 128, 255, 256, 1_025] {
        let (text, octets) = ("a".repeat(length), "61".repeat(length));
        for (tag, kind) in kinds {
            let expected = format!("0 elements 1\n0 - {kind} number=1 description=\"{text}\"\n");
            c.add("a description of any length", &expected, &contents(tag, &format!("A1{{0C{{{octets}}}}}")));
        }
        for (number, member) in [(2, "value"), (3, "minimum"), (4, "maximum")] {
            let expected = format!("0 elements 1\n0 - parameter number=1 {member}=text:\"{text}\"\n");
            c.add("a text of any length", &expected, &contents("61", &format!("A{number}{{0C{{{octets}}}}}")));
            let expected = format!("0 elements 1\n0 - parameter number=1 {member}=octets:{octets}\n");
            c.add("octets of any length", &expected, &contents("61", &format!("A{number}{{04{{{octets}}}}}")));
        }
        let expected = format!("0 streams 1\n0 - stream stream=7 value=text:\"{text}\"\n");
        c.add("a stream's text of any length", &expected, &stream(&format!("A0{{020107}}A1{{0C{{{octets}}}}}")));
    }
    // "A full path has 1 to 16 numbers", each from 1 to 2,147,483,647, of one to five octets.
    let path = |tag: &str, octets: &str| item(&format!("{tag}{{A0{{^{}}}}}", primitive("0D", octets)));
    let long = "87FFFFFF7F";
    for (tag, kind) in [("69", "qualified-parameter"), ("6A", "qualified-node"), ("71", "qualified-matrix")] {
        for length in [2, 3, 4, 5, 8, 12, 13, 14, 15, 16] {
            let numbers = |last: &str| format!("{}{last}", long.repeat(length - 1));
            let shown = vec!["2147483647"; length].join(".");
            c.add("a path of long numbers", &format!("0 elements 1\n0 - {kind} path={shown}\n"), &path(tag, &numbers(long)));
            c.add("37: 0 as the last number of a path", "37", &path(tag, &format!("{}00", "01".repeat(length - 1))));
            c.add("37: 0 after long numbers", "37", &path(tag, &numbers("00")));
            c.add("37: over the range as the last number", "37", &path(tag, &numbers("8880808000")));
            c.add("30: a number that starts with 80 as the last", "30", &path(tag, &numbers("8001")));
            c.add("30: the last number cut off", "30", &path(tag, &numbers("87FFFFFF")));
        }
        c.add("37: 17 long numbers", "37", &path(tag, &long.repeat(17)));
        c.add("30 before 37: 17 long numbers, the last cut off", "30", &path(tag, &format!("{}87", long.repeat(17))));
        for place in 0..16 {
            let octets = format!("{}00{}", "02".repeat(place), "01".repeat(15 - place));
            c.add("37: 0 at each place of a path", "37", &path(tag, &octets));
            c.add("37: over the range at each place", "37", &path(tag, &octets.replace("00", "8880808000")));
            c.add("30: a number that starts with 80 at each place", "30", &path(tag, &octets.replace("00", "8001")));
        }
    }
    // Sources: any count.
    let sources = |octets: &str| connection(&format!("A0{{020100}}A1{{^{}}}", primitive("0D", octets)));
    for length in [65, 129, 257, 1_001, 2_000] {
        let shown = vec!["1"; length].join(".");
        let expected = format!("0 elements 2\n0 - matrix number=1\n1 0 connection target=0 sources={shown}\n");
        c.add("sources of any count", &expected, &sources(&"01".repeat(length)));
        let last = |octets: &str| format!("{}{octets}", "01".repeat(length));
        c.add("34: the last source over its range", "34", &sources(&last("8880808000")));
        c.add("30: the last source starts with 80", "30", &sources(&last("8001")));
        c.add("30: the last source cut off", "30", &sources(&last("81")));
    }
    for place in 0..20 {
        let octets = |fault: &str| format!("{}{fault}{}", "01".repeat(place), "02".repeat(19 - place));
        c.add("34: a source over its range at each place", "34", &sources(&octets("8880808000")));
        c.add("30: a source that starts with 80 at each place", "30", &sources(&octets("8001")));
    }
    c.add("34: the first of many sources", "34", &sources(&format!("8880808000{}", "01".repeat(1_001))));
    c.add("34: the last of long sources", "34", &sources(&format!("{}8880808000", long.repeat(400))));
    // "no listed one twice", with all the others between, in either order.
    for (tag, numbers) in
        [("61", vec![0u8, 1, 2, 3, 4, 5, 8, 9, 11, 14]), ("63", vec![0, 1, 2, 3]), ("6D", vec![0, 1, 2, 3, 4, 5, 6, 7])]
    {
        let one = |number: u8| {
            let rule = contents_rule(tag, number).unwrap();
            let value = ["0C{41}", "010100", "020100"].into_iter().find(|value| rule == "any" || value.starts_with(rule));
            format!("A{number:X}{{{}}}", value.unwrap())
        };
        let all: String = numbers.iter().map(|&number| one(number)).collect();
        let back: String = numbers.iter().rev().map(|&number| one(number)).collect();
        for &number in &numbers {
            c.add("a listed one repeated after all of them", "33", &contents(tag, &format!("{all}^{}", one(number))));
            c.add("and after all in descending order", "33", &contents(tag, &format!("{back}^{}", one(number))));
            let rest: String = numbers.iter().filter(|&&other| other != number).map(|&other| one(other)).collect();
            let between = format!("{}{rest}{}^{}", one(number), "AF{}9F20{05}".repeat(20), one(number));
            c.add("and after the others and forty unlisted ones", "33", &contents(tag, &between));
            let last = format!("{rest}{}", one(number));
            c.add("each of them last", "0 elements 1", &contents(tag, &last));
            c.add("a listed one without the constructed bit, last", "33", &contents(tag, &format!("{rest}^8{number:X}{{}}")));
        }
        c.add("another class, last in a set", "33", &contents(tag, &format!("{all}^E9{{}}")));
        c.add("a bad tag, last in a set", "30", &contents(tag, &format!("{all}^BF8001{{}}")));
        c.add("unlisted ones after all", "0 elements 1", &contents(tag, &format!("{all}{}", "AF{}AF{}8F00".repeat(20))));
    }
    // "strictly ascending tag order", after many.
    let many: String = (32..=120).map(|number| format!("9F{number:02X}00")).collect();
    let keyed: [(&str, &dyn Fn(&str) -> String); 4] = [
        ("elements", &|rest| element("63", rest)),
        ("elements", &|rest| item(&format!("62{{A0{{020120}}{rest}}}"))),
        ("elements", &|rest| connection(&format!("A0{{020100}}{rest}"))),
        ("streams", &|rest| stream(&format!("A0{{020100}}A1{{020100}}{rest}"))),
    ];
    for (at, (root, built)) in keyed.iter().enumerate() {
        let count = if at == 2 { 2 } else { 1 };
        c.add("many unlisted members", &format!("0 {root} {count}"), &built(&many));
        c.add("the last of many repeated", "33", &built(&format!("{many}^9F7800")));
        c.add("the last of many lower than the one before", "33", &built(&format!("{many}^9F7700")));
        c.add("a listed one after many", "33", &built(&format!("{many}^A0{{020101}}")));
        c.add("another class after many", "33", &built(&format!("{many}^C900")));
        c.add("a bad length after many", "30", &built(&format!("{many}^9F7985")));
    }
    // Items, the last of many.
    let lists: [(&str, &str, &str, usize, &dyn Fn(&str) -> String); 4] = [
        ("A0{62{A0{020120}}}", "A0{62{A0{^0205 0100000000}}}", "elements", 0, &|items| format!("60{{6B{{{items}}}}}")),
        ("A0{62{A0{020120}}}", "A0{61{A0{^020100}}}", "elements", 1, &children),
        ("A0{70{A0{020100}}}", "A0{70{A0{^0201FF}}}", "elements", 1, &connections),
        ("A0{66{A0{020100}A1{020100}}}", "A0{66{A0{^0201FF}A1{020100}}}", "streams", 0, &|items| format!("60{{65{{{items}}}}}")),
    ];
    for (right, number, root, more, built) in lists {
        for count in [17, 65, 200] {
            let all = right.repeat(count);
            c.add("many items", &format!("0 {root} {}", count + more), &built(&all));
            c.add("34 in the last of many items", "34", &built(&format!("{all}{number}")));
            c.add("no item's tag after many", "33", &built(&format!("{all}^A1{{}}")));
            c.add("an item without a value after many", "33", &built(&format!("{all}A0{{^}}")));
            c.add("another form after many", "31", &built(&format!("{all}A0[^{}]", &right[3..right.len() - 1])));
            c.add("an unexpected kind after many", "33", &built(&format!("{all}A0{{^64{{}}}}")));
            c.add("00 after many", "30", &built(&format!("{all}^0000")));
            c.add("a member missing in the last of many", "33", &built(&format!("{all}A0{{{}{{^}}}}", &right[3..5])));
        }
    }
    // Passed over, after many.
    for count in [17, 65, 300] {
        let many = "30{}0500".repeat(count);
        c.add("many passed over", "0 elements 1", &element("63", &format!("A9{{{many}}}")));
        c.add("a bad tag after many passed over", "30", &element("63", &format!("A9{{{many}^1F80}}")));
        c.add("a bad length after many passed over", "30", &element("63", &format!("A9{{{many}^3085}}")));
        c.add("a length past the end after many", "30", &element("63", &format!("A9{{{many}^0501}}")));
        c.add("a tag 00 after many", "30", &element("63", &format!("A9{{{many}^0000}}")));
        c.add("the 65th container after many", "32", &element("63", &unlisted(60, &format!("{}^30{{}}", "0500".repeat(count)))));
        c.add("not the 65th, after many", "0 elements 1", &element("63", &unlisted(59, &many)));
    }
    // An exponent of four octets, with or without a count of them: form 11 (35).
    for octets in [
        "830000000001",
        "830100000001",
        "8304 0000000001",
        "8303 00000001",
        "8302 000001",
        "8301 0001",
        "8300 01",
        "C30000000001",
    ] {
        c.add("35: form 11", "35", &contents("61", &format!("A2{{^{}}}", primitive("09", &octets.replace(' ', "")))));
    }
}

#[cfg(test)]
mod tests {
    use super::*;
    use crate::tree_text::answer;

    #[test]
    fn the_notation() {
        assert_eq!(notation("60{6B[A0]} ^05"), (vec![0x60, 0x05, 0x6B, 0x80, 0xA0, 0x00, 0x00, 0x05], Some(7)));
        assert_eq!(notation("60{2:^6B!{}}"), (vec![0x60, 0x82, 0x00, 0x02, 0x6B], Some(4)));
        assert_eq!(notation("60{6B{!00}}"), (vec![0x60, 0x03, 0x6B, 0x01], Some(4)));
        assert_eq!(notation(&format!("60{{{}^}}", "00".repeat(200))).1, Some(203));
    }

    #[test]
    fn each_rule_gives_its_answer() {
        let mut wrong = 0;
        for case in cases() {
            let answer = answer(case.line.as_bytes(), false);
            let right = if case.expected.ends_with('\n') {
                answer == case.expected
            } else {
                answer.lines().next() == Some(case.expected.as_str())
            };
            if !right {
                let shown = |text: &str| text.chars().take(300).collect::<String>();
                println!(
                    "{}\n  {}\n  expected {}\n  answer   {}",
                    case.rule,
                    shown(&case.line),
                    shown(&case.expected),
                    shown(&answer)
                );
                wrong += 1;
            }
        }
        assert_eq!(wrong, 0);
    }
}
