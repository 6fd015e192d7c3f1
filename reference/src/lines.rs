//! Lines and hexadecimal digits, as every program and the route sheet read them.

/// "A line ends at 0A or the input's end". No line stands after the last 0A (S1).
pub fn lines(input: &[u8]) -> Vec<&[u8]> {
    let mut lines: Vec<&[u8]> = input.split(|&byte| byte == b'\n').collect();
    if lines.last().is_some_and(|line| line.is_empty()) {
        lines.pop();
    }
    lines
}

fn digit(byte: u8) -> Option<u8> {
    match byte {
        b'0'..=b'9' => Some(byte - b'0'),
        b'A'..=b'F' => Some(byte - b'A' + 10),
        b'a'..=b'f' => Some(byte - b'a' + 10),
        _ => None,
    }
}

/// The pairs before the first fault, and whether the line is bad: "bad unless it is one or more pairs
/// of hexadecimal digits of either case".
pub fn hex_line(line: &[u8]) -> (Vec<u8>, bool) {
    let mut pairs = Vec::new();
    for pair in line.chunks(2) {
        match pair {
            [high, low] => match (digit(*high), digit(*low)) {
                (Some(high), Some(low)) => pairs.push(high << 4 | low),
                _ => return (pairs, true),
            },
            _ => return (pairs, true),
        }
    }
    let bad = pairs.is_empty();
    (pairs, bad)
}

/// Upper-case digits; `-` for no octets.
pub fn hex(octets: &[u8]) -> String {
    if octets.is_empty() {
        return "-".to_string();
    }
    digits(octets)
}

/// Upper-case digits alone.
pub fn digits(octets: &[u8]) -> String {
    const DIGITS: &[u8; 16] = b"0123456789ABCDEF";
    let mut out = String::with_capacity(octets.len() * 2);
    for &octet in octets {
        out.push(DIGITS[usize::from(octet >> 4)] as char);
        out.push(DIGITS[usize::from(octet & 0x0F)] as char);
    }
    out
}

#[cfg(test)]
mod tests {
    use super::*;

    #[test]
    fn lines_end_at_0a_or_the_end() {
        assert_eq!(lines(b""), Vec::<&[u8]>::new());
        assert_eq!(lines(b"a"), [b"a"]);
        assert_eq!(lines(b"a\n"), [b"a"]);
        assert_eq!(lines(b"a\n\n"), [&b"a"[..], b""]);
        assert_eq!(lines(b"\n"), [b""]);
    }

    #[test]
    fn pairs_before_the_fault() {
        assert_eq!(hex_line(b"FEff"), (vec![0xFE, 0xFF], false));
        assert_eq!(hex_line(b""), (vec![], true));
        assert_eq!(hex_line(b"FEf"), (vec![0xFE], true));
        assert_eq!(hex_line(b"FE 00"), (vec![0xFE], true));
        assert_eq!(hex_line(b"FE00\r"), (vec![0xFE, 0x00], true));
        assert_eq!(hex_line(b"FEx0"), (vec![0xFE], true));
    }
}
