//! Values (document 01, "Values"; 001, "EmBER"; X.690 clause 8).

pub const BER: u8 = 30;
pub const FORM: u8 = 31;
pub const DEPTH: u8 = 32;
pub const GLOW: u8 = 33;
pub const NUMBER: u8 = 34;
pub const REAL: u8 = 35;
pub const NAME: u8 = 36;
pub const PATH: u8 = 37;
pub const ROOM: u8 = 38;
pub const OUT: u8 = 46;

/// "Tag numbers up to 268,435,455".
pub const TAG_NUMBER_MAX: u64 = 268_435_455;
/// Lengths "long of 1 to 4 octets".
pub const LENGTH_MAX: u64 = 4_294_967_295;
/// "Relative identifiers: each number ... at most 2,147,483,647."
pub const NUMBER_MAX: u64 = 2_147_483_647;

pub const UNIVERSAL: u8 = 0;
pub const APPLICATION: u8 = 1;
pub const CONTEXT: u8 = 2;

// Universal numbers of the values (001, "The tag format").
pub const BOOLEAN_TAG: u64 = 1;
pub const INTEGER_TAG: u64 = 2;
pub const OCTETS_TAG: u64 = 4;
pub const REAL_TAG: u64 = 9;
pub const TEXT_TAG: u64 = 12;

/// A refusal, with its place in the message from 0 (document 02, request 09).
#[derive(Clone, Copy, PartialEq, Eq, Debug)]
pub struct Refusal {
    pub number: u8,
    pub place: usize,
}

pub fn refusal<T>(number: u8, place: usize) -> Result<T, Refusal> {
    Err(Refusal { number, place })
}

/// Identifier and length octets.
#[derive(Clone, Copy, PartialEq, Eq, Debug)]
pub struct Tag {
    /// Its first octet.
    pub place: usize,
    pub class: u8,
    pub constructed: bool,
    pub number: u64,
    /// None: indefinite.
    pub length: Option<u64>,
    /// The first octet after tag and length.
    pub content: usize,
}

/// One octet of the tag that starts at `tag`. The end of the nearest definite container cuts it off
/// (the tag's place, "even at the message's end"), or else the bytes run out (the message length).
fn own_octet(message: &[u8], at: usize, tag: usize, limit: Option<usize>) -> Result<u8, Refusal> {
    match limit {
        Some(limit) if limit <= message.len() && at >= limit => refusal(BER, tag),
        _ if at >= message.len() => refusal(BER, message.len()),
        _ => Ok(message[at]),
    }
}

/// The tag and length at `place`. `limit` is the end of the nearest definite container around it.
pub fn read_tag(message: &[u8], place: usize, limit: Option<usize>) -> Result<Tag, Refusal> {
    let mut at = place;
    let first = own_octet(message, at, place, limit)?;
    at += 1;
    let class = first >> 6;
    let constructed = first & 0x20 != 0;
    let mut number = u64::from(first & 0x1F);
    if number == 0x1F {
        // "small ones in long form too (001)"
        number = 0;
        for index in 0.. {
            let octet = own_octet(message, at, place, limit)?;
            at += 1;
            // "A long tag starting with 80 is refused."
            if index == 0 && octet == 0x80 {
                return refusal(BER, place);
            }
            // Four octets hold 268,435,455; a fourth that is not the last passes it (V4).
            if index == 3 && octet & 0x80 != 0 {
                return refusal(BER, place);
            }
            number = number * 128 + u64::from(octet & 0x7F);
            if octet & 0x80 == 0 {
                break;
            }
        }
    }
    // "Lengths: short, long of 1 to 4 octets, indefinite for containers."
    let octet = own_octet(message, at, place, limit)?;
    at += 1;
    let length = match octet {
        0x00..=0x7F => Some(u64::from(octet)),
        0x80 if constructed => None,
        0x81..=0x84 => {
            let mut length = 0;
            for _ in 0..octet - 0x80 {
                length = length * 256 + u64::from(own_octet(message, at, place, limit)?);
                at += 1;
            }
            Some(length)
        }
        _ => return refusal(BER, place),
    };
    // "A definite length never passes its container's end (the message is none)."
    if let (Some(length), Some(limit)) = (length, limit) {
        if at as u64 + length > limit as u64 {
            return refusal(BER, place);
        }
    }
    Ok(Tag { place, class, constructed, number, length, content: at })
}

/// "the shortest is written"
pub fn write_identifier(class: u8, constructed: bool, number: u64) -> Result<Vec<u8>, u8> {
    if number > TAG_NUMBER_MAX {
        return Err(OUT);
    }
    let first = class << 6 | if constructed { 0x20 } else { 0 };
    if number < 0x1F {
        return Ok(vec![first | number as u8]);
    }
    let mut out = vec![first | 0x1F];
    out.extend(base_128(number));
    Ok(out)
}

/// The shortest length octets.
pub fn write_length(length: u64) -> Result<Vec<u8>, u8> {
    if length > LENGTH_MAX {
        return Err(OUT);
    }
    if length < 0x80 {
        return Ok(vec![length as u8]);
    }
    let octets = fewest_unsigned(length);
    let mut out = vec![0x80 | octets.len() as u8];
    out.extend(octets);
    Ok(out)
}

/// A number in base 128, fewest octets, the top bit set on all but the last.
fn base_128(number: u64) -> Vec<u8> {
    let mut out = vec![(number & 0x7F) as u8];
    let mut rest = number >> 7;
    while rest > 0 {
        out.insert(0, (rest & 0x7F) as u8 | 0x80);
        rest >>= 7;
    }
    out
}

/// A number that is not zero in fewest octets, unsigned.
fn fewest_unsigned(number: u64) -> Vec<u8> {
    number.to_be_bytes().iter().copied().skip_while(|&octet| octet == 0).collect()
}

/// "Integers: 1 to 8 octets, two's complement, first nine bits not all equal."
pub fn read_int(octets: &[u8]) -> Result<i64, u8> {
    if octets.is_empty() || octets.len() > 8 {
        return Err(BER);
    }
    if octets.len() > 1 {
        let nine = u16::from(octets[0]) << 1 | u16::from(octets[1] >> 7);
        if nine == 0 || nine == 0x1FF {
            return Err(BER);
        }
    }
    Ok(signed(octets))
}

/// 1 to 8 octets as two's complement.
fn signed(octets: &[u8]) -> i64 {
    let mut value: i64 = if octets[0] & 0x80 != 0 { -1 } else { 0 };
    for &octet in octets {
        value = value << 8 | i64::from(octet);
    }
    value
}

/// The fewest octets.
pub fn write_int(value: i64) -> Vec<u8> {
    let octets = value.to_be_bytes();
    let mut at = 0;
    while at < 7 && read_int(&octets[at..]).is_err() {
        at += 1;
    }
    octets[at..].to_vec()
}

/// "Booleans: one octet, non-zero is true; written FF."
pub fn read_bool(octets: &[u8]) -> Result<bool, u8> {
    match octets {
        [octet] => Ok(*octet != 0),
        _ => Err(BER),
    }
}

pub fn write_bool(value: bool) -> Vec<u8> {
    vec![if value { 0xFF } else { 0x00 }]
}

/// A finite real that is not zero: minus or plus an odd mantissa times a power of two.
#[derive(Clone, Copy, PartialEq, Eq, Debug)]
pub struct Odd {
    pub negative: bool,
    pub mantissa: u64,
    pub power: i64,
}

/// "Reals: empty is zero; 40 and 41 are the infinities; otherwise binary". Any real not accepted: 35.
pub fn read_real(octets: &[u8]) -> Result<f64, u8> {
    match octets {
        [] => return Ok(0.0),
        [0x40] => return Ok(f64::INFINITY),
        [0x41] => return Ok(f64::NEG_INFINITY),
        _ => {}
    }
    let first = octets[0];
    // Binary has the top bit; base 2 has the two bits 00.
    if first & 0x80 == 0 || first & 0x30 != 0 {
        return Err(REAL);
    }
    let negative = first & 0x40 != 0;
    let scale = i64::from(first >> 2 & 0x03);
    // "exponent of 1 to 3 octets (forms 00, 01, 10), scale 0 to 3, non-zero mantissa of 1 to 8 octets"
    let exponent_length = match first & 0x03 {
        0 => 1,
        1 => 2,
        2 => 3,
        _ => return Err(REAL),
    };
    let rest = &octets[1..];
    if rest.len() < exponent_length + 1 || rest.len() > exponent_length + 8 {
        return Err(REAL);
    }
    let (exponent, mantissa_octets) = rest.split_at(exponent_length);
    let mut mantissa: u64 = 0;
    for &octet in mantissa_octets {
        mantissa = mantissa << 8 | u64::from(octet);
    }
    if mantissa == 0 {
        return Err(REAL);
    }
    let mut power = signed(exponent) + scale;
    while mantissa % 2 == 0 {
        mantissa /= 2;
        power += 1;
    }
    to_double(Odd { negative, mantissa, power }).ok_or(REAL)
}

/// "Accepted exactly if some finite double equals it: with the mantissa made odd, it is under 2^53, its
/// power of two at least -1,074, its bits plus the power at most 1,024."
pub fn to_double(odd: Odd) -> Option<f64> {
    let bits = i64::from(64 - odd.mantissa.leading_zeros());
    if odd.mantissa >= 1 << 53 || odd.power < -1_074 || bits + odd.power > 1_024 {
        return None;
    }
    let sign = if odd.negative { 1u64 << 63 } else { 0 };
    // The leading bit stands for 2^top.
    let top = bits - 1 + odd.power;
    let pattern = if top >= -1_022 {
        // A normal double: 52 bits after the leading one, exponent with bias 1,023.
        let fraction = (odd.mantissa << (53 - bits)) & ((1 << 52) - 1);
        ((top + 1_023) as u64) << 52 | fraction
    } else {
        // A subnormal double counts units of 2^-1074.
        odd.mantissa << (odd.power + 1_074)
    };
    Some(f64::from_bits(sign | pattern))
}

/// The odd form of a finite double that is not zero.
pub fn from_double(value: f64) -> Odd {
    let pattern = value.to_bits();
    let exponent = (pattern >> 52 & 0x7FF) as i64;
    let fraction = pattern & ((1 << 52) - 1);
    let (mut mantissa, mut power) = if exponent == 0 { (fraction, -1_074) } else { (fraction | 1 << 52, exponent - 1_075) };
    while mantissa % 2 == 0 {
        mantissa /= 2;
        power += 1;
    }
    Odd { negative: pattern >> 63 == 1, mantissa, power }
}

/// "Written with scale 0, odd mantissa, fewest octets. Minus zero and NaN aren't written."
pub fn write_real(value: f64) -> Result<Vec<u8>, u8> {
    if value.to_bits() == 0 {
        return Ok(Vec::new());
    }
    if value.is_nan() || value == 0.0 {
        return Err(OUT);
    }
    if value.is_infinite() {
        return Ok(vec![if value > 0.0 { 0x40 } else { 0x41 }]);
    }
    let odd = from_double(value);
    let exponent = write_int(odd.power);
    let sign = if odd.negative { 0x40 } else { 0 };
    let mut out = vec![0x80 | sign | (exponent.len() - 1) as u8];
    out.extend(exponent);
    out.extend(fewest_unsigned(odd.mantissa));
    Ok(out)
}

/// The fewest octets from which that double is read: all scales, lengths of the exponent and even mantissas are tried. The
/// written form comes first, so that it is taken where it is among the shortest.
pub fn least_real(value: f64) -> Result<Vec<u8>, u8> {
    let mut least = write_real(value)?;
    if least.len() < 2 {
        return Ok(least); // zero and the infinities have one form each
    }
    let odd = from_double(value);
    let sign = if odd.negative { 0x40 } else { 0 };
    for shift in 0..=odd.mantissa.leading_zeros() {
        for scale in 0..=3u8 {
            for count in 1..=3u8 {
                let exponent = odd.power - i64::from(shift) - i64::from(scale);
                let room = 8 * i64::from(count) - 1;
                if exponent < -(1 << room) || exponent >= 1 << room {
                    continue;
                }
                let mantissa = odd.mantissa << shift;
                let length = 1 + usize::from(count) + (64 - mantissa.leading_zeros() as usize).div_ceil(8);
                if length < least.len() {
                    least = vec![0x80 | sign | scale << 2 | (count - 1)];
                    least.extend(&exponent.to_be_bytes()[8 - usize::from(count)..]);
                    least.extend(fewest_unsigned(mantissa));
                }
            }
        }
    }
    Ok(least)
}

#[derive(Clone, PartialEq, Eq, Debug)]
pub enum Oid {
    /// A number over 2,147,483,647 stands as `None`.
    Numbers(Vec<Option<u64>>),
    Bad,
}

/// "Relative identifiers: each number in fewest octets, at most 2,147,483,647." Bad octets come before a
/// number out of range, wherever they stand (V2).
pub fn read_oid(octets: &[u8]) -> Oid {
    let mut numbers = Vec::new();
    let mut number: Option<u64> = None; // the number begun
    let mut over = false;
    for &octet in octets {
        if number.is_none() && octet == 0x80 {
            return Oid::Bad;
        }
        let value = number.unwrap_or(0) * 128 + u64::from(octet & 0x7F);
        if value > NUMBER_MAX {
            over = true;
        }
        number = Some(value.min(NUMBER_MAX + 1));
        if octet & 0x80 == 0 {
            numbers.push(if over { None } else { number });
            number = None;
            over = false;
        }
    }
    if number.is_some() {
        return Oid::Bad; // the last octet has its top bit set
    }
    Oid::Numbers(numbers)
}

pub fn write_oid(numbers: &[u64]) -> Result<Vec<u8>, u8> {
    let mut out = Vec::new();
    for &number in numbers {
        if number > NUMBER_MAX {
            return Err(OUT);
        }
        out.extend(base_128(number));
    }
    Ok(out)
}

/// "A value is an integer, a real, a text, a boolean or octets."
#[derive(Clone, Debug)]
pub enum Value {
    Integer(i64),
    Real(f64),
    Text(Vec<u8>),
    Boolean(bool),
    Octets(Vec<u8>),
}

impl PartialEq for Value {
    /// Reals by their bits; texts and octets by content.
    fn eq(&self, other: &Value) -> bool {
        match (self, other) {
            (Value::Integer(a), Value::Integer(b)) => a == b,
            (Value::Real(a), Value::Real(b)) => a.to_bits() == b.to_bits(),
            (Value::Text(a), Value::Text(b)) => a == b,
            (Value::Boolean(a), Value::Boolean(b)) => a == b,
            (Value::Octets(a), Value::Octets(b)) => a == b,
            _ => false,
        }
    }
}

/// The octets of a primitive and the byte after them; "a value is checked once whole", so if bytes run out: the
/// message length.
pub fn content<'a>(message: &'a [u8], tag: &Tag) -> Result<(&'a [u8], usize), Refusal> {
    let end = tag.content as u64 + tag.length.unwrap();
    if end > message.len() as u64 {
        return refusal(BER, message.len());
    }
    Ok((&message[tag.content..end as usize], end as usize))
}

/// The value of a tag and the byte after it; None for a tag that is no value's. A refusal of the value's octets is at
/// the tag.
pub fn value_of(message: &[u8], tag: &Tag) -> Result<Option<(Value, usize)>, Refusal> {
    if tag.class != UNIVERSAL || tag.constructed {
        return Ok(None);
    }
    if ![INTEGER_TAG, REAL_TAG, TEXT_TAG, BOOLEAN_TAG, OCTETS_TAG].contains(&tag.number) {
        return Ok(None);
    }
    let (octets, after) = content(message, tag)?;
    let value = match tag.number {
        INTEGER_TAG => read_int(octets).map(Value::Integer),
        REAL_TAG => read_real(octets).map(Value::Real),
        TEXT_TAG => Ok(Value::Text(octets.to_vec())),
        BOOLEAN_TAG => read_bool(octets).map(Value::Boolean),
        _ => Ok(Value::Octets(octets.to_vec())),
    };
    match value {
        Ok(value) => Ok(Some((value, after))),
        Err(number) => refusal(number, tag.place),
    }
}

/// The value whose tag stands at `place`, in a container that ends at `limit`.
pub fn read_value(message: &[u8], place: usize, limit: Option<usize>) -> Result<Option<(Value, usize)>, Refusal> {
    value_of(message, &read_tag(message, place, limit)?)
}

/// Tag, length and content, each in its shortest form.
pub fn tagged(class: u8, constructed: bool, number: u64, content: &[u8]) -> Result<Vec<u8>, u8> {
    let mut out = write_identifier(class, constructed, number)?;
    out.extend(write_length(content.len() as u64)?);
    out.extend_from_slice(content);
    Ok(out)
}

/// How a real is spelt: `write_real` or `least_real`.
pub type Spelling = fn(f64) -> Result<Vec<u8>, u8>;

pub fn write_value(value: &Value) -> Result<Vec<u8>, u8> {
    spell_value(value, write_real)
}

pub fn spell_value(value: &Value, spelling: Spelling) -> Result<Vec<u8>, u8> {
    let primitive = |number, content: &[u8]| tagged(UNIVERSAL, false, number, content);
    match value {
        Value::Integer(value) => primitive(INTEGER_TAG, &write_int(*value)),
        Value::Real(value) => primitive(REAL_TAG, &spelling(*value)?),
        Value::Text(text) => primitive(TEXT_TAG, text),
        Value::Boolean(value) => primitive(BOOLEAN_TAG, &write_bool(*value)),
        Value::Octets(octets) => primitive(OCTETS_TAG, octets),
    }
}

#[cfg(test)]
mod tests {
    use super::*;

    #[test]
    fn least_reals() {
        let two = |power: i32| f64::powi(2.0, power);
        // 2^128: the exponent takes two octets, but 7F and a mantissa of 2 take one less.
        assert_eq!(write_real(two(128)).unwrap(), [0x81, 0x00, 0x80, 0x01]);
        assert_eq!(least_real(two(128)).unwrap().len(), 3);
        // The scale gives three more, the spare bits of the mantissa's first octet seven.
        assert_eq!(least_real(two(137)).unwrap(), [0x8C, 0x7F, 0x80]);
        assert_eq!(least_real(two(138)).unwrap().len(), 4);
        assert_eq!(least_real(-255.0 * two(130)).unwrap(), [0xCC, 0x7F, 0xFF]);
        assert_eq!(least_real(255.0 * two(131)).unwrap().len(), 4);
        assert_eq!(least_real(two(127)).unwrap(), write_real(two(127)).unwrap());
        for value in [0.0, f64::INFINITY, f64::NEG_INFINITY, two(-129), two(-128), f64::MAX, 5e-324, 0.1] {
            assert_eq!(least_real(value), write_real(value));
        }
        assert_eq!((least_real(-0.0), least_real(f64::NAN)), (Err(OUT), Err(OUT)));
    }

    /// Every spelling of one to three octets: none is shorter than the least one of the double that it is read as.
    #[test]
    fn no_shorter_real() {
        let mut shorter = 0;
        for octets in (0..1u32 << 24).step_by(3) {
            let octets = &octets.to_be_bytes()[1..];
            if let Ok(value) = read_real(octets) {
                let least = least_real(value).unwrap();
                assert_eq!(read_real(&least).map(f64::to_bits), Ok(value.to_bits()));
                assert!(least.len() <= 3, "{octets:02X?}");
                shorter += usize::from(write_real(value).unwrap().len() > 3);
            }
        }
        assert!(shorter > 100);
    }

    /// P1 to P7 and the rest of 001's table.
    #[test]
    fn integers_of_001() {
        let table: [(i64, &[u8]); 10] = [
            (1, &[0x01]),
            (-1, &[0xFF]),
            (255, &[0x00, 0xFF]),
            (127, &[0x7F]),
            (128, &[0x00, 0x80]),
            (-128, &[0x80]),
            (65_535, &[0x00, 0xFF, 0xFF]),
            (32_768, &[0x00, 0x80, 0x00]),
            (-32_768, &[0x80, 0x00]),
            (1_333, &[0x05, 0x35]),
        ];
        for (value, octets) in table {
            assert_eq!(write_int(value), octets);
            assert_eq!(read_int(octets), Ok(value));
        }
    }

    #[test]
    fn integers() {
        for bits in 0..64 {
            for offset in -2..=2 {
                for value in [(1i64 << bits).wrapping_add(offset), (-1i64 << bits).wrapping_add(offset)] {
                    let octets = write_int(value);
                    assert_eq!(read_int(&octets), Ok(value));
                    let mut longer = vec![if value < 0 { 0xFF } else { 0x00 }];
                    longer.extend(&octets);
                    assert_eq!(read_int(&longer), Err(BER));
                }
            }
        }
        assert_eq!(read_int(&[]), Err(BER));
        assert_eq!(read_int(&[1; 9]), Err(BER));
    }

    #[test]
    fn tags() {
        let tag = read_tag(&[0x60, 0x0B], 0, None).unwrap();
        assert_eq!((tag.class, tag.constructed, tag.number, tag.length, tag.content), (1, true, 0, Some(11), 2));
        assert!(read_tag(&[0x1F, 0x80, 0x01, 0x00], 0, None).is_err());
        assert_eq!(read_tag(&[0x1F, 0x00, 0x00], 0, None).unwrap().number, 0);
        assert_eq!(read_tag(&[0x9F, 0xFF, 0xFF, 0xFF, 0x7F, 0x00], 0, None).unwrap().number, TAG_NUMBER_MAX);
        assert_eq!(read_tag(&[0x9F, 0x81, 0x80, 0x80, 0x80, 0x00, 0x00], 0, None), refusal(BER, 0));
        assert_eq!(read_tag(&[0x9F, 0x81, 0x80, 0x80, 0x80], 0, None), refusal(BER, 0)); // V4
        assert_eq!(read_tag(&[0x9F, 0x81, 0x80, 0x80], 0, None), refusal(BER, 4));
        assert!(read_tag(&[0x02, 0x80], 0, None).is_err());
        assert_eq!(read_tag(&[0x22, 0x80], 0, None).unwrap().length, None);
        assert!(read_tag(&[0x22, 0x85, 0, 0, 0, 0, 1], 0, None).is_err());
        assert_eq!(read_tag(&[0x22, 0x84, 0xFF, 0xFF, 0xFF, 0xFF], 0, None).unwrap().length, Some(LENGTH_MAX));
        assert_eq!(read_tag(&[0, 0, 0x22, 0x84, 0, 0], 2, Some(6)), refusal(BER, 2));
        assert_eq!(read_tag(&[0, 0, 0x22, 0x84, 0, 0], 2, Some(7)), refusal(BER, 6)); // R7
        assert_eq!(read_tag(&[0, 0, 0x22, 0x01, 0], 2, Some(4)), refusal(BER, 2)); // passes its container's end
        assert_eq!(read_tag(&[0, 0, 0x22], 3, Some(3)), refusal(BER, 3)); // both ends at once: the tag
        assert_eq!(read_tag(&[0, 0, 0x22], 9, Some(3)), refusal(BER, 9));
        assert_eq!(read_tag(&[0, 0, 0x22], 9, Some(4)), refusal(BER, 3));
        assert_eq!(read_tag(&[0, 0, 0x22], 9, None), refusal(BER, 3));
    }

    #[test]
    fn values_in_containers() {
        let read = |message: &[u8], limit| read_value(message, 1, limit);
        assert_eq!(read(&[0, 0x01, 0x01, 0x05], None), Ok(Some((Value::Boolean(true), 4))));
        assert_eq!(read(&[0, 0x01, 0x02, 0x05, 0x05], None), refusal(BER, 1));
        assert_eq!(read(&[0, 0x01, 0x02, 0x05], None), refusal(BER, 4));
        assert_eq!(read(&[0, 0x01, 0x02, 0x05], Some(4)), refusal(BER, 1));
        assert_eq!(read(&[0, 0x09, 0x01, 0x05], Some(4)), refusal(REAL, 1));
        assert_eq!(read(&[0, 0x0D, 0x01, 0x05], Some(4)), Ok(None));
        assert_eq!(read(&[0, 0x0D, 0x01, 0x05], Some(3)), refusal(BER, 1));
        assert_eq!(write_value(&Value::Text(vec![0x41; 128])).unwrap()[..4], [0x0C, 0x81, 0x80, 0x41]);
        assert_eq!(write_value(&Value::Real(-0.0)), Err(OUT));
    }

    #[test]
    fn written_tags_are_read() {
        for class in 0..4 {
            for constructed in [false, true] {
                for number in [0, 1, 30, 31, 127, 128, 16_383, 16_384, 2_097_151, 2_097_152, TAG_NUMBER_MAX] {
                    for length in [0, 1, 127, 128, 255, 256, 65_535, 65_536, 16_777_215, 16_777_216, LENGTH_MAX] {
                        let mut octets = write_identifier(class, constructed, number).unwrap();
                        octets.extend(write_length(length).unwrap());
                        let tag = read_tag(&octets, 0, None).unwrap();
                        assert_eq!((tag.class, tag.constructed, tag.number), (class, constructed, number));
                        assert_eq!((tag.length, tag.content), (Some(length), octets.len()));
                    }
                }
            }
        }
        assert_eq!(write_identifier(0, false, TAG_NUMBER_MAX + 1), Err(OUT));
        assert_eq!(write_length(LENGTH_MAX + 1), Err(OUT));
    }

    #[test]
    fn reals() {
        assert_eq!(read_real(&[]), Ok(0.0));
        assert_eq!(read_real(&[0x40]), Ok(f64::INFINITY));
        assert_eq!(read_real(&[0x41]), Ok(f64::NEG_INFINITY));
        assert_eq!(read_real(&[0x80, 0x00, 0x01]), Ok(1.0));
        assert_eq!(read_real(&[0xC0, 0xFF, 0x01]), Ok(-0.5));
        assert_eq!(read_real(&[0x8C, 0x00, 0x01]), Ok(8.0));
        assert_eq!(read_real(&[0x82, 0x00, 0x00, 0x01, 0x00, 0x03]), Ok(6.0));
        for refused in [
            &[0x40, 0x00][..],
            &[0x42],
            &[0x43],
            &[0x00],
            &[0x01, 0x31],
            &[0x80],
            &[0x80, 0x00],
            &[0x80, 0x00, 0x00],
            &[0x83, 0x01, 0x00, 0x01],
            &[0x90, 0x00, 0x01],
            &[0xA0, 0x00, 0x01],
            &[0x80, 0, 0, 0, 0, 0, 0, 0, 0, 0, 1],
            &[0x80, 0x00, 0x20, 0, 0, 0, 0, 0, 1], // 2^53 + 1
            &[0x81, 0xFB, 0xCD, 0x01],             // 2^-1075
            &[0x81, 0x04, 0x00, 0x01],             // 2^1024
        ] {
            assert_eq!(read_real(refused), Err(REAL), "{refused:02X?}");
        }
        assert_eq!(read_real(&[0x81, 0xFB, 0xCE, 0x01]).unwrap().to_bits(), 1); // 2^-1074
        assert_eq!(read_real(&[0x81, 0xFB, 0xCD, 0x02]).unwrap().to_bits(), 1); // made odd
        assert_eq!(read_real(&[0x81, 0x03, 0xCB, 0x1F, 0xFF, 0xFF, 0xFF, 0xFF, 0xFF, 0xFF]), Ok(f64::MAX));
        assert_eq!(read_real(&[0x80, 0x00, 0x20, 0, 0, 0, 0, 0, 0]), Ok(9_007_199_254_740_992.0));
        assert_eq!(read_real(&[0x80, 0x00, 0xFF, 0xFF, 0xFF, 0xFF, 0xFF, 0xFF, 0xF8, 0x00]), Ok(18446744073709549568.0));
        assert_eq!(read_real(&[0x80, 0x00, 0xFF, 0xFF, 0xFF, 0xFF, 0xFF, 0xFF, 0xFC, 0x00]), Err(REAL));
    }

    #[test]
    fn reals_written() {
        assert_eq!(write_real(0.0), Ok(vec![]));
        assert_eq!(write_real(-0.0), Err(OUT));
        assert_eq!(write_real(f64::NAN), Err(OUT));
        assert_eq!(write_real(1.0), Ok(vec![0x80, 0x00, 0x01]));
        assert_eq!(write_real(-2.5), Ok(vec![0xC0, 0xFF, 0x05]));
        let mut random = crate::gen::Random::new(1);
        for _ in 0..20_000 {
            let value = f64::from_bits(random.next());
            if let Ok(octets) = write_real(value) {
                assert_eq!(read_real(&octets).unwrap().to_bits(), value.to_bits());
            } else {
                assert!(value.is_nan());
            }
        }
        for bits in [1, 2, 3, 0x000F_FFFF_FFFF_FFFF, 0x0010_0000_0000_0000, 0x7FEF_FFFF_FFFF_FFFF] {
            for sign in [0, 1u64 << 63] {
                let value = f64::from_bits(bits | sign);
                assert_eq!(read_real(&write_real(value).unwrap()).unwrap().to_bits(), value.to_bits());
            }
        }
    }

    #[test]
    fn relative_identifiers() {
        let numbers = |list: &[u64]| Oid::Numbers(list.iter().map(|&number| Some(number)).collect());
        assert_eq!(read_oid(&[]), numbers(&[]));
        assert_eq!(read_oid(&[0x01, 0x00, 0x81, 0x00]), numbers(&[1, 0, 128]));
        assert_eq!(read_oid(&[0x87, 0xFF, 0xFF, 0xFF, 0x7F]), numbers(&[NUMBER_MAX]));
        assert_eq!(read_oid(&[0x88, 0x80, 0x80, 0x80, 0x00, 0x01]), Oid::Numbers(vec![None, Some(1)]));
        assert_eq!(read_oid(&[[0xFF; 30].as_slice(), &[0x00]].concat()), Oid::Numbers(vec![None]));
        assert_eq!(read_oid(&[0x80, 0x01]), Oid::Bad);
        assert_eq!(read_oid(&[0x01, 0x80]), Oid::Bad);
        assert_eq!(read_oid(&[0x88, 0x80, 0x80, 0x80, 0x00, 0x81]), Oid::Bad);
        assert_eq!(write_oid(&[1, 0, 128, NUMBER_MAX]).unwrap(), [1, 0, 0x81, 0, 0x87, 0xFF, 0xFF, 0xFF, 0x7F]);
        assert_eq!(write_oid(&[NUMBER_MAX + 1]), Err(OUT));
    }
}
