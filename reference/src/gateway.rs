//! What the C example `examples/gateway` must write: the frames that pass, and the counts by number.

use crate::framing::{self, Session, STORE_LENGTH};
use crate::gen;
use crate::lines::{digits, hex_line, lines};

/// A stream with every event in it.
pub fn stream() -> Vec<u8> {
    let inputs = [gen::frames::input(3, 60).0, gen::frames::input(4, 60).0];
    inputs.iter().flat_map(|input| lines(input)).flat_map(|line| hex_line(line).0).collect()
}

/// The bytes that pass, and the text of the counts.
pub fn gateway(stream: &[u8]) -> (Vec<u8>, String) {
    let mut session = Session::start();
    let mut store = vec![0; STORE_LENGTH];
    let mut offset = 0;
    let mut passed = Vec::new();
    let mut counts = [0; 25];
    let mut discarded = 0;
    for (end, event) in framing::run(&mut session, &mut store, stream, &mut offset) {
        counts[usize::from(event.number)] += 1;
        discarded += usize::from(event.discarded);
        if (2..=5).contains(&event.number) {
            // From the last BOF on.
            let start = stream[..end].iter().rposition(|&byte| byte == 0xFE).unwrap();
            passed.extend(&stream[start..end]);
        }
    }
    let mut text = String::new();
    for (number, &count) in counts.iter().enumerate().skip(2).filter(|(_, count)| **count > 0) {
        let word = if number <= 5 { "forwarded" } else { "refused" };
        text += &format!("{number:2} {count} {word}\n");
    }
    text += &format!("messages thrown away: {discarded}\n");
    (passed, text)
}

/// Lines of 64 bytes.
pub fn hex_lines(bytes: &[u8]) -> Vec<u8> {
    bytes.chunks(64).flat_map(|part| (digits(part) + "\n").into_bytes()).collect()
}

#[cfg(test)]
mod tests {
    use super::*;

    #[test]
    fn every_number_is_there() {
        let (passed, text) = gateway(&stream());
        let numbers: Vec<&str> = text.lines().filter_map(|line| line.split_whitespace().next()).collect();
        for number in ["2", "3", "4", "5", "10", "11", "12", "13", "14", "15", "16", "20", "21", "22", "23", "24"] {
            assert!(numbers.contains(&number), "{number}: {text}");
        }
        // What passed passes again, and nothing of it is refused.
        let (again, text) = gateway(&passed);
        assert_eq!(again, passed);
        assert!(text.lines().all(|line| !line.ends_with("refused") || line.contains("23")), "{text}");
    }

    #[test]
    fn one_keep_alive() {
        let stream = [&[0x00, 0xFE, 0x00][..], &framing::write_keep_alive(false)].concat();
        let (passed, text) = gateway(&stream);
        assert_eq!(passed, framing::write_keep_alive(false));
        assert_eq!(text, " 4 1 forwarded\n10 1 refused\n11 1 refused\nmessages thrown away: 0\n");
    }
}
