//! What is written for a message that was read, rule by rule: literal messages in the notation of `rules`, with what is
//! written for them in the same notation, or the number.

use super::rules::{children, connection, connections, contents, element, item, nest, notation, primitive, stream, Case};
use crate::framing::MESSAGE_MAX;
use crate::lines::{digits, hex};

struct Cases {
    list: Vec<Case>,
}

impl Cases {
    /// A message that is written as it stands.
    fn same(&mut self, rule: &str, message: &str) {
        self.gives(rule, message, message);
    }

    fn gives(&mut self, rule: &str, message: &str, written: &str) {
        let expected = format!("0 {}\n", digits(&notation(written).0));
        self.line(rule, message, expected);
    }

    /// A number from 30 to 37 gets the message's place.
    fn number(&mut self, rule: &str, expected: &str, message: &str) {
        let (octets, place) = notation(message);
        let refused = matches!(expected.parse(), Ok(30..=37));
        let place = if refused { format!(" {}", place.unwrap_or(octets.len())) } else { String::new() };
        self.line(rule, message, format!("{expected}{place}\n"));
    }

    fn line(&mut self, rule: &str, message: &str, expected: String) {
        let line = format!("write {}", hex(&notation(message).0));
        self.list.push(Case { rule: rule.to_string(), line, expected });
    }
}

/// All of them.
pub fn cases() -> Vec<Case> {
    let mut cases = Cases { list: Vec::new() };
    let c = &mut cases;
    kinds(c);
    forms(c);
    left_out(c);
    values(c);
    lengths(c);
    edges(c);
    refusals(c);
    cases.list
}

const NUMBER: &str = "A0{020101}";

/// All members of each kind, in their written form.
fn kinds(c: &mut Cases) {
    c.same("W4: no elements", "60{6B{}}");
    c.same("W4: no streams", "60{65{}}");
    let parameter = "A0{0C{6E}}A1{0C{}}A2{020105}A3{0900}A4{0C{00FF2F}}A5{020103}A8{0204 80000000}A9{0101FF}AB{02047FFFFFFF}\
                     AE{020100}";
    let node = "A0{0C{5F}}A1{0C{2F}}A2{010100}A3{0101FF}";
    let matrix = "A0{0C{41}}A1{0C{41}}A2{020102}A3{020101}A4{020140}A5{020100}A6{0204 7FFFFFFF}A7{02020080}";
    for (tag, qualified, members) in [("61", "69", parameter), ("63", "6A", node), ("6D", "71", matrix)] {
        c.same("all members of an element", &contents(tag, members));
        c.same("of a qualified one", &item(&format!("{qualified}{{A0{{0D{{0187FFFFFF7F}}}}A1{{31{{{members}}}}}}}")));
        c.same("an element alone", &element(tag, ""));
        c.same("a qualified one alone", &item(&format!("{qualified}{{A0{{0D{{{}}}}}}}", "01".repeat(16))));
        c.same("a command below it", &element(tag, "A2{64{A0{62{A0{020120}A1{0201FF}}}}}"));
        c.same("contents and children", &element(tag, &format!("A1{{31{{{members}}}}}A2{{64{{A0{{63{{{NUMBER}}}}}}}}}")));
    }
    c.same("a command", &item("62{A0{020120}}"));
    c.same("a command's mask", &item("62{A0{0204 80000000}A1{02047FFFFFFF}}"));
    c.same("a connection", &connection("A0{020100}"));
    c.same("all members of a connection", &connection("A0{0204 7FFFFFFF}A1{0D{00817F01}}A2{020102}"));
    c.same("G5: empty sources are kept", &connection("A0{020100}A1{0D{}}"));
    c.same("children before connections", &element("6D", "A2{64{A0{62{A0{020120}}}}}A5{30{A0{70{A0{020100}}}}}"));
    c.same("a matrix in a matrix, both with connections", &element("6D", &format!(
        "A2{{64{{A0{{6D{{{NUMBER}A5{{30{{A0{{70{{A0{{020101}}}}}}}}}}}}}}}}}}A5{{30{{A0{{70{{A0{{020100}}}}}}A0{{70{{A0{{020102}}}}}}}}}}"
    )));
    for value in
        ["020105", "0900", "0903 800001", "0C{}", "0C{2F}", "0101FF", "010100", "04{}", "04{00}", "0208 8000000000000000"]
    {
        c.same("a stream entry of each type", &stream(&format!("A0{{020100}}A1{{{value}}}")));
        for member in ["A2", "A3", "A4"] {
            c.same("value, minimum and maximum of each type", &contents("61", &format!("{member}{{{value}}}")));
        }
    }
    let many = "60{65{A0{66{A0{020101}A1{020100}}}A0{66{A0{020101}A1{0900}}}A0{66{A0{020100}A1{0C{}}}}}}";
    c.same("streams in message order, not sorted", many);
    c.same(
        "elements in message order, not sorted",
        "60{6B{A0{63{A0{020102}}}A0{61{A0{020101}}}A0{62{A0{020120}}}A0{6A{A0{0D{01}}}}A0{63{A0{020102}}}}}",
    );
}

/// "The writer uses definite shortest lengths and ascending tags."
fn forms(c: &mut Cases) {
    let all = "60[6B[A0[6D[A0{020101}A1[31[A0{0C{61}}]]A2[64[A0[62[A0{020120}]]]]A5[30[A0[70[A0{020100}]]]]]]]]";
    c.gives("indefinite forms", all, &all.replace('[', "{").replace(']', "}"));
    c.gives("an empty collection, indefinite", "60[6B[]]", "60{6B{}}");
    c.gives("streams, indefinite", "60[65[A0[66[A0{020100}A1{0C{61}}]]]]", "60{65{A0{66{A0{020100}A1{0C{61}}}}}}");
    c.gives("some indefinite", "60{6B{A0[62[A0{020120}]]A0{62{A0{020121}}}}}", "60{6B{A0{62{A0{020120}}}A0{62{A0{020121}}}}}");
    for count in 1..=4 {
        let long = format!("60{{{count}:6B{{{count}:A0{{{count}:62{{{count}:A0{{{count}:02{{{count}:20}}}}}}}}}}}}");
        c.gives("long lengths", &long, &item("62{A0{020120}}"));
    }
    c.gives("tags in long form", "7F00{7F0B{BF00{7F02{BF00{1F02{20}}}}}}", &item("62{A0{020120}}"));
    c.gives(
        "Set, Sequence and members in long form",
        "60{6B{A0{6D{A0{1F0201 01}BF01{3F11{BF00{1F0C{61}}}}BF05{3F10{BF00{7F10{BF00{020100}}}}}}}}}",
        &element("6D", "A1{31{A0{0C{61}}}}A5{30{A0{70{A0{020100}}}}}"),
    );
    c.gives(
        "a set in any order",
        &contents("61", "AE{020107}A9{0101FF}A2{04{}}A3{0C{225C}}A0{0C{5F20}}A5{020103}A1{0C{}}"),
        &contents("61", "A0{0C{5F20}}A1{0C{}}A2{04{}}A3{0C{225C}}A5{020103}A9{0101FF}AE{020107}"),
    );
    c.gives("a node's set", &contents("63", "A3{010100}A0{0C{61}}A2{010100}"), &contents("63", "A0{0C{61}}A2{010100}A3{010100}"));
    let (down, up) = (
        "A7{020107}A6{020106}A5{020105}A4{020104}A3{020101}A2{020102}",
        "A2{020102}A3{020101}A4{020104}A5{020105}A6{020106}A7{020107}",
    );
    c.gives("a matrix's set", &contents("6D", down), &contents("6D", up));
}

/// "an empty children or connections collection counts as absent"; what is passed over is not kept.
fn left_out(c: &mut Cases) {
    c.gives("G4: an empty set", &element("63", "A1{31{}}"), &element("63", ""));
    c.gives("a set of unlisted members alone", &element("63", "A1{31{A9{0500}89{}}}"), &element("63", ""));
    c.gives("empty children", &element("63", "A2{64{}}"), &element("63", ""));
    c.gives("empty connections", &element("6D", "A5{30{}}"), &element("6D", ""));
    c.gives("all empty, indefinite", "60[6B[A0[6D[A0{020101}A1[31[]]A2[64[]]A5[30[]]]]]]", &element("6D", ""));
    let command = "A2{64{A0{62{A0{020120}}}}}";
    c.gives("empty connections after children", &element("6D", &format!("{command}A5{{30{{}}}}")), &element("6D", command));
    c.gives("unlisted members of an element", &element("63", "A3{0500}89{00}BF1F{}"), &element("63", ""));
    c.gives("A5 of a node", &element("63", "A5{30{A0{70{A0{020100}}}}}"), &element("63", ""));
    c.gives("unlisted members in a set", &contents("61", "A6{0500}A2{020101}8A{}BFFFFFFF7F{}"), &contents("61", "A2{020101}"));
    c.gives("of a command", &item("62{A0{020120}A2{0500}}"), &item("62{A0{020120}}"));
    c.gives("of a connection", &connection("A0{020100}A2{020101}A3{0500}"), &connection("A0{020100}A2{020101}"));
    c.gives("of a stream entry", &stream("A0{020100}A1{020101}A2[0500]"), &stream("A0{020100}A1{020101}"));
    c.gives(
        "a passed-over element in an unlisted member",
        &children("A0{63{A0{020101}A9{63{A0{020102}}}}}"),
        &children("A0{63{A0{020101}}}"),
    );
}

/// Values, where they have more than one spelling.
fn values(c: &mut Cases) {
    for octet in ["01", "7F", "80", "FE"] {
        c.gives("true is written FF", &contents("63", &format!("A2{{0101{octet}}}")), &contents("63", "A2{0101FF}"));
        c.gives("as a value too", &contents("61", &format!("A2{{0101{octet}}}")), &contents("61", "A2{0101FF}"));
    }
    // "Written with scale 0, odd mantissa, fewest octets."
    for (read, written) in [
        ("81000001", "800001"),
        ("8200000001", "800001"),
        ("80000000000000000001", "800001"),
        ("840001", "800101"),
        ("880001", "800201"),
        ("8C0001", "800301"),
        ("CC0001", "C00301"),
        ("800002", "800101"),
        ("8000000002", "800101"),
        ("80012A", "800215"),
        ("800020000000000000", "803501"),
        ("8000FFFFFFFFFFFFF800", "800B1FFFFFFFFFFFFF"),
        ("81FBCD02", "81FBCE01"),
        ("85FBCD01", "81FBCE01"),
        ("82FFFBCE01", "81FBCE01"),
        ("8103C0FFFFFFFFFFFFF800", "8103CB1FFFFFFFFFFFFF"),
        ("82 FFFF80 01", "808001"),
        // Forms that are shorter than the written one: 2^128 and on, up to where scale and spare bits end.
        ("807F02", "81008001"),
        ("C07F02", "C1008001"),
        ("847F01", "81008001"),
        ("8C7F80", "81008901"),
        ("8C7FFF", "810082FF"),
        ("8C7F7F", "8100827F"),
        ("807FFE", "8100807F"),
        ("8C7FFFFE", "8100837FFF"),
        ("8C7F1FFFFFFFFFFFFF", "8100821FFFFFFFFFFFFF"),
        ("807F01", "807F01"),
        ("", ""),
        ("40", "40"),
        ("41", "41"),
    ] {
        let (read, written) = (primitive("09", read), primitive("09", written));
        c.gives("a real", &contents("61", &format!("A2{{{read}}}")), &contents("61", &format!("A2{{{written}}}")));
        let (read, written) = (format!("A0{{020100}}A1{{{read}}}"), format!("A0{{020100}}A1{{{written}}}"));
        c.gives("a real in a stream", &stream(&read), &stream(&written));
    }
}

/// Where lengths take one more octet, and where what is left out or spelt otherwise moves them.
fn lengths(c: &mut Cases) {
    for length in
        [0, 1, 90, 100, 113, 114, 115, 116, 117, 118, 119, 120, 121, 122, 123, 124, 125, 126, 127, 128, 129, 250, 255, 256, 257]
    {
        let text = primitive("0C", &"41".repeat(length));
        c.same("a text of each length", &contents("63", &format!("A1{{{text}}}")));
        c.gives(
            "its lengths long",
            &format!("60{{2:6B{{2:A0{{2:63{{2:{NUMBER}A1{{2:31{{2:A1{{2:{text}}}}}}}}}}}}}}}"),
            &contents("63", &format!("A1{{{text}}}")),
        );
        let value = |real: &str| contents("61", &format!("A1{{{text}}}A2{{{}}}", primitive("09", real)));
        c.gives("a real that is written longer beside it", &value("807F02"), &value("81008001"));
        c.gives("a real that is written shorter beside it", &value("8200000001"), &value("800001"));
    }
    for count in [100, 110, 119, 120, 121, 122, 123, 124, 125, 126, 127, 128, 250, 255, 256, 300] {
        c.same("sources of each length", &connection(&format!("A0{{020100}}A1{{{}}}", primitive("0D", &"05".repeat(count)))));
    }
    for count in [400, 1_001] {
        c.same("long sources", &connection(&format!("A0{{020100}}A1{{{}}}", primitive("0D", &"87FFFFFF7F".repeat(count)))));
    }
    // Identifiers, texts and octets of any length, in each kind; paths of long numbers.
    for length in [12, 13, 64, 65, 127, 128, 256, 1_025] {
        let octets = "61".repeat(length);
        for tag in ["61", "63", "6D"] {
            c.same("an identifier of any length", &contents(tag, &format!("A0{{0C{{{octets}}}}}")));
            c.same("a description of any length", &contents(tag, &format!("A1{{0C{{{octets}}}}}")));
        }
        for number in 2..=4 {
            c.same("a text of any length", &contents("61", &format!("A{number}{{0C{{{octets}}}}}")));
            c.same("octets of any length", &contents("61", &format!("A{number}{{04{{{octets}}}}}")));
        }
        c.same("a stream's text of any length", &stream(&format!("A0{{020107}}A1{{0C{{{octets}}}}}")));
    }
    for count in 1..=16 {
        for tag in ["69", "6A", "71"] {
            c.same("a path of long numbers", &item(&format!("{tag}{{A0{{{}}}}}", primitive("0D", &"87FFFFFF7F".repeat(count)))));
        }
    }
}

/// 16,384 bytes, 256 entries, and the deepest.
fn edges(c: &mut Cases) {
    let filled = |real: &str, bytes: usize| {
        let text = |length: usize| {
            contents("61", &format!("A1{{{}}}A2{{{}}}", primitive("0C", &"41".repeat(length)), primitive("09", real)))
        };
        let around = notation(&text(1_000)).0.len() - 1_000;
        text(bytes - around)
    };
    c.same("a message of 16,384 bytes", &filled("800001", MESSAGE_MAX));
    // The same text, and a real that is read from one octet less than it is written in.
    let shorter = filled("807F02", MESSAGE_MAX - 1);
    c.gives("16,383 bytes read and 16,384 written", &shorter, &shorter.replace("09{807F02}", "09{81008001}"));
    c.number("16,384 bytes read, and 16,385 to be written", "46", &filled("807F02", MESSAGE_MAX));
    let longer = filled("8200000001", MESSAGE_MAX);
    c.gives("16,384 bytes read and 16,382 written", &longer, &longer.replace("09{8200000001}", "09{800001}"));
    c.number("16,385 bytes", "1", &filled("800001", MESSAGE_MAX + 1));
    let command = "A0{62{A0{020120}}}";
    c.same("256 entries", &format!("60{{6B{{{}}}}}", command.repeat(256)));
    c.number("257 entries", "38 257", &format!("60{{6B{{{}}}}}", command.repeat(257)));
    c.same("255 connections", &connections(&"A0{70{A0{020100}}}".repeat(255)));
    for levels in [1, 2, 14, 15] {
        let deep = nest(levels, "A1[31[A0{0C{61}}]]");
        c.gives("nodes below each other", &deep, &deep.replace('[', "{").replace(']', "}"));
    }
    let matrix = nest(14, "A2[64[]]").replace("63[A0{020101}A2[64[]]", "6D[A0{020101}A5[30[A0[70[A0{020100}]]]]");
    c.gives("connections on the deepest level", &matrix, &matrix.replace('[', "{").replace(']', "}"));
    let path = "01".repeat(16);
    c.same("a command below a path of 16", &item(&format!("6A{{A0{{0D{{{path}}}}}A2{{64{{{command}}}}}}}")));
}

/// "a refusal is printed as for `read`"
fn refusals(c: &mut Cases) {
    c.number("no bytes", "30", "");
    c.number("bytes left", "30", "60{6B{}}^00");
    c.number("unlike forms", "31", "60{6B{A0{^62[A0{020120}]}}}");
    c.number("a 65th container", "32", &nest(16, "").replacen("A0[63[A0{020101}]]", "A0[63[^A0{020101}]]", 1));
    c.number("an unexpected tag", "33", "60{^6A{}}");
    c.number("a number out of range", "34", &item("63{A0{^020100}}"));
    c.number("a real", "35", &contents("61", "A2{^0903 900001}"));
    c.number("minus zero cannot be sent", "35", &contents("61", "A2{^0903 C00000}"));
    c.number("a name", "36", &contents("63", "A0{^0C{612F}}"));
    c.number("a path", "37", &item("6A{A0{^0D{}}}"));
}

#[cfg(test)]
mod tests {
    use super::*;
    use crate::gen::tree::Random;
    use crate::tree_text::answer;

    #[test]
    fn each_gives_its_answer() {
        let mut wrong = 0;
        for case in cases() {
            let answer = answer(case.line.as_bytes(), true);
            if answer != case.expected {
                let shown = |text: &str| text.chars().take(300).collect::<String>();
                println!(
                    "{}\n  {}\n  expected {}  answer   {}",
                    case.rule,
                    shown(&case.line),
                    shown(&case.expected),
                    shown(&answer)
                );
                wrong += 1;
            }
        }
        assert_eq!(wrong, 0);
        println!("{} cases", cases().len());
    }

    /// What is written is written again as it stands, and read as the same tree.
    #[test]
    fn written_once_and_for_all() {
        let mut random = Random::new(17);
        for _ in 0..3_000 {
            let (message, tree) = super::super::messages_tree(&mut random);
            let written = crate::tree_writer::write(&tree).unwrap();
            assert_eq!(answer(format!("write {}", digits(&message)).as_bytes(), true), format!("0 {}\n", digits(&written)));
            assert_eq!(answer(format!("write {}", digits(&written)).as_bytes(), true), format!("0 {}\n", digits(&written)));
        }
    }
}
