//! The listing program (document 01, "Samples").

use crate::framing::{self, Session, STORE_LENGTH};
use crate::lines::{hex_line, lines};
use crate::tree::{self, TABLE_MAX};

/// "reads hexadecimal lines from standard input as one stream, prints event count and number, for 3 also the
/// tree answer (table of 256), one space between, then "end" and the count. At a bad line it takes the pairs
/// before the fault, prints "bad line" and stops."
pub fn listing(input: &[u8]) -> String {
    let mut session = Session::start();
    let mut store = vec![0; STORE_LENGTH];
    let mut offset = 0;
    let mut count = 0;
    let mut out = String::new();
    for line in lines(input) {
        let (chunk, bad) = hex_line(line);
        for (_, event) in framing::run(&mut session, &mut store, &chunk, &mut offset) {
            count += 1;
            out += &format!("{count} {}", event.number);
            // "Only a finished message goes on to the tree reader."
            if let Some(message) = &event.message {
                out += &format!(" {}", tree::read(message, TABLE_MAX).number());
            }
            out += "\n";
        }
        if bad {
            out += "bad line\n";
            return out;
        }
    }
    out += &format!("end {count}\n");
    out
}

#[cfg(test)]
mod tests {
    use super::*;

    #[test]
    fn sample_of_document_01() {
        let input = b"FE000E010194E4FF\nFE000E0201FDDCCEFF\nFEFF\n00\n";
        assert_eq!(listing(input), "1 4\n2 5\n3 15\n4 10\nend 4\n");
    }

    #[test]
    fn trees_and_bad_lines() {
        let p12 = [0x60, 0x0B, 0x6B, 0x09, 0xA0, 0x07, 0x62, 0x05, 0xA0, 0x03, 0x02, 0x01, 0x20];
        let good = crate::lines::digits(&framing::write_message(&p12).unwrap().concat());
        let empty = crate::lines::digits(&framing::write_message(&[]).unwrap().concat());
        assert_eq!(listing(format!("{good}\n{empty}").as_bytes()), "1 3 0\n2 3 30\nend 2\n");
        assert_eq!(listing(format!("{good}x\n{good}").as_bytes()), "1 3 0\nbad line\n");
        assert_eq!(listing(b"\n"), "bad line\n");
        assert_eq!(listing(b""), "end 0\n");
    }
}
