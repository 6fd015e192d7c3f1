//! Each function, on what it takes and on what it refuses; with no `unsafe`.
#![forbid(unsafe_code)]

use ember::*;

const P12: [u8; 13] = [0x60, 0x0B, 0x6B, 0x09, 0xA0, 0x07, 0x62, 0x05, 0xA0, 0x03, 0x02, 0x01, 0x20];
const KEEP_ALIVE: [u8; 8] = [0xFE, 0x00, 0x0E, 0x01, 0x01, 0x94, 0xE4, 0xFF];

#[test]
fn session() {
    let mut session = Session::new();
    assert_eq!(session.feed(&KEEP_ALIVE[..3]), Fed { event: Event::More, consumed: 3, discarded: false });
    assert_eq!(session.feed(&KEEP_ALIVE[3..]).event, Event::Request);
    assert_eq!(session.feed(&[0x00, 0x00]), Fed { event: Event::Refused(Error::Stray), consumed: 1, discarded: false });
    let mut frames = [0; FRAME_MAX];
    let length = write_message(&P12, &mut frames).unwrap();
    let fed = session.feed(&frames[..length]);
    assert_eq!((fed.event, fed.consumed), (Event::Message(&P12), length));
}

#[test]
fn frames() {
    let mut out = [0xEE; 16];
    assert_eq!(write_request(&mut out), Ok(8));
    assert_eq!(out[..9], [&KEEP_ALIVE[..], &[0xEE]].concat());
    assert_eq!(write_response(&mut out[..8]), Err(Error::Out));
    assert_eq!(write_response(&mut out), Ok(9));
    // P8
    assert_eq!(write_frame(&[0xFF, 0x00, 0xF9, 0x01], &mut out), Ok(10));
    assert_eq!(out[..10], [0xFE, 0xFD, 0xDF, 0x00, 0xFD, 0xD9, 0x01, 0x95, 0x83, 0xFF]);
    assert_eq!(write_frame(&[0; 1023], &mut [0; 4096]), Err(Error::Out));
}

#[test]
fn trees() {
    let mut table = [Row::default(); 2];
    assert_eq!(read(&P12, &mut table), Ok(Read { root: Root::Elements, count: 1 }));
    assert_eq!((table[0].kind(), table[0].parent()), (Some(Kind::Command), None));
    assert_eq!(table[0].integer(member::COMMAND_NUMBER), Some(32));
    assert_eq!(table[0].value(member::COMMAND_MASK, &P12), Value::Absent);
    assert_eq!(table[0].value(16, &P12), Value::Absent);
    assert_eq!(read(&P12, &mut []), Err(Error::Room(Some(1))));
    assert_eq!(read(&P12[..12], &mut table), Err(Error::Ber(Some(12))));
    assert_eq!(read(&[0; MESSAGE_MAX + 1], &mut table), Err(Error::Setup));
    let mut out = [0; 13];
    assert_eq!(write(&table[..1], Root::Elements, &P12, &mut out), Ok(13));
    assert_eq!(out, P12);
    assert_eq!(write(&table[..1], Root::Elements, &P12, &mut out[..12]), Err(Error::Out));
    assert!(accepts(&table[..1], Root::Elements, &P12));
    assert!(!accepts(&table[..1], Root::Streams, &P12));
}

#[test]
fn members() {
    let parts = b"gain\x07\x81\x48\x01\x02";
    let mut node = Row::new(Kind::QualifiedNode, None);
    node.put_numbers(member::NUMBER_OR_PATH, 4, 3);
    node.put_text(member::IDENTIFIER, 0, 4);
    let mut parameter = Row::new(Kind::Parameter, Some(0));
    parameter.put_integer(member::NUMBER_OR_PATH, 9);
    parameter.put_octets(member::PARAMETER_VALUE, 7, 2);
    assert!(parameter.put_real(member::PARAMETER_MINIMUM, -0.5));
    assert!(parameter.put_real(member::PARAMETER_MAXIMUM, -0.0));
    assert!(!Row::default().put_real(member::PARAMETER_VALUE, f64::NAN));
    parameter.put_boolean(member::PARAMETER_ONLINE, true);
    let mut out = [0; 256];
    let length = write(&[node, parameter], Root::Elements, parts, &mut out).unwrap();
    let message = &out[..length];
    let mut table = [Row::default(); 256];
    assert_eq!(read(message, &mut table), Ok(Read { root: Root::Elements, count: 2 }));
    assert!(table[0].is_node() && table[1].is_parameter() && !table[1].is_matrix());
    assert_eq!(table[0].value(member::IDENTIFIER, message), Value::Text(b"gain"));
    assert_eq!(table[0].value(member::IDENTIFIER, &[]), Value::Absent);
    assert_eq!(table[0].numbers(member::NUMBER_OR_PATH, message).collect::<Vec<_>>(), [7, 200]);
    assert_eq!(table[1].value(member::PARAMETER_VALUE, message), Value::Octets(&[1, 2]));
    assert_eq!(table[1].value(member::PARAMETER_MINIMUM, message), Value::Real(-0.5));
    assert!(matches!(table[1].value(member::PARAMETER_MAXIMUM, message), Value::Real(zero) if zero.to_bits() == 0));
    assert_eq!(table[1].value(member::PARAMETER_ONLINE, message), Value::Boolean(true));
    let mut path = [0; PATH_MAX];
    assert_eq!(full_path(&table[..2], 1, message, &mut path), Some(3));
    assert_eq!(path[..3], [7, 200, 9]);
    table[1] = Row::new(Kind::Node, Some(1));
    table[1].put_integer(member::NUMBER_OR_PATH, 1);
    assert_eq!(full_path(&table[..2], 1, message, &mut path), None);
    table[1] = Row::new(Kind::Node, Some(0));
    table[1].put_integer(member::NUMBER_OR_PATH, 0);
    assert_eq!(full_path(&table[..2], 1, message, &mut path), None);
    assert_eq!(full_path(&table[..1], 0, &[], &mut path), None);
    assert_eq!(full_path(&table[..1], 1, message, &mut path), None);
    let mut five = [0; 5];
    assert_eq!(encode(&[2_147_483_647], &mut five), Some(5));
    assert_eq!(encode(&[0, 127, 128], &mut five), Some(4));
    assert_eq!(five[..4], [0, 0x7F, 0x81, 0x00]);
    assert_eq!(encode(&[2_147_483_648], &mut five), None);
    assert_eq!(encode(&[1; 6], &mut five), None);
}

#[test]
fn desks() {
    let figures = Figures { kind: Type::NToN, targets: 2, sources: 3, total: Some(3), each: Some(2) };
    assert_eq!(Desk::open(figures, &[]), Err(Error::Desk));
    assert_eq!(Desk::open(figures, &[1; 17]), Err(Error::Desk));
    assert_eq!(Desk::open(Figures { targets: 65, ..figures }, &[1]), Err(Error::Desk));
    assert_eq!(Desk::open(Figures { total: Some(0), ..figures }, &[1]), Err(Error::Desk));
    let mut desk = Desk::open(figures, &[1, 2]).unwrap();
    assert_eq!(desk.request(0, &[0, 1, 0], Operation::Connect), Ok(()));
    assert_eq!(desk.request(0, &[2], Operation::Connect), Err(Error::Many));
    assert_eq!(desk.request(1, &[0, 1], Operation::Absolute), Err(Error::Total));
    assert_eq!(desk.request(1, &[3], Operation::Absolute), Err(Error::Source));
    assert_eq!(desk.request(2, &[], Operation::Absolute), Err(Error::Target));
    assert_eq!(desk.request(0, &[0], Operation::Disconnect), Ok(()));
    assert_eq!(desk.sources(0).collect::<Vec<_>>(), [1]);
    assert!(desk.is_legal() && desk.is_connected(0, 1) && !desk.is_connected(64, 64));

    let mut matrix = Row::new(Kind::QualifiedMatrix, None);
    matrix.put_numbers(member::NUMBER_OR_PATH, 0, 2);
    let mut connection = Row::new(Kind::Connection, Some(0));
    connection.put_integer(member::CONNECTION_TARGET, 1);
    connection.put_numbers(member::CONNECTION_SOURCES, 1, 1);
    let rows = [matrix, connection, connection];
    let mut answers = [9; 256];
    assert_eq!(desk.call(&rows, Root::Streams, &[1, 2], &mut answers), Err(Error::Setup));
    assert_eq!(answers, [9; 256]);
    assert_eq!(desk.call(&rows, Root::Elements, &[1, 2], &mut answers), Ok(2));
    assert_eq!(answers, [0; 256]);
    assert!(desk.is_connected(1, 2));
}

#[test]
fn lines() {
    let figures = Figures { kind: Type::OneToN, targets: 2, sources: 3, total: None, each: None };
    let mut line = Box::new(Line::<2>::new(Desk::open(figures, &[1, 2]).unwrap()));
    let mut matrix = Row::new(Kind::QualifiedMatrix, None);
    matrix.put_numbers(member::NUMBER_OR_PATH, 0, 2);
    let mut connection = Row::new(Kind::Connection, Some(0));
    connection.put_integer(member::CONNECTION_TARGET, 1);
    connection.put_numbers(member::CONNECTION_SOURCES, 1, 1);
    let (mut message, mut frames) = ([0; 64], [0; FRAME_MAX]);
    let length = write(&[matrix, connection], Root::Elements, &[1, 2], &mut message).unwrap();
    let length = write_message(&message[..length], &mut frames).unwrap();
    let turn = line.turn(&frames[..5]);
    assert_eq!((turn.event, turn.consumed, turn.tree, turn.rows, turn.answers), (Event::More, 5, None, &[][..], &[][..]));
    // A request of the host's own, with a frame open.
    assert_eq!(line.desk_mut().request(1, &[0], Operation::Connect), Ok(()));
    let turn = line.turn(&frames[5..length]);
    assert_eq!((turn.consumed, turn.tree), (length - 5, Some(Ok(Read { root: Root::Elements, count: 2 }))));
    assert_eq!((turn.rows.len(), turn.answers), (2, &[0][..]));
    assert!(turn.desk.sources(1).eq([2]));
    assert!(line.desk().is_connected(1, 2));
    let mut small = Line::<1>::new(Desk::open(figures, &[1, 2]).unwrap());
    let turn = small.turn(&frames[..length]);
    assert_eq!((turn.tree, turn.rows, turn.answers), (Some(Err(Error::Room(Some(2)))), &[][..], &[][..]));
}

#[test]
fn sheets() {
    let figures = Figures { kind: Type::NToN, targets: 64, sources: 64, total: Some(5000), each: None };
    let mut desk = Desk::open(figures, &[1, 2, 300]).unwrap();
    for target in 0..64 {
        desk.request(target, &(0..=target).collect::<Vec<_>>(), Operation::Absolute).unwrap();
    }
    let mut sheet = [0; SHEET_MAX];
    let length = desk.write_sheet(&mut sheet).unwrap();
    assert_eq!(desk.write_sheet(&mut sheet[..length - 1]), Err(Error::Out));
    let mut scratch = Box::new(Scratch::default());
    assert_eq!(Desk::read_sheet(&sheet[..length], &mut scratch), Ok(desk));
    assert_eq!(Desk::read_sheet(&sheet[..length - 2], &mut scratch), Err(Error::Byte));
    assert_eq!(Desk::read_sheet(b"", &mut scratch), Err(Error::Glow(None)));
    assert_eq!(Desk::read_sheet(b"FE000E010194E4FF\n", &mut scratch), Err(Error::Glow(None)));
}

#[test]
fn errors() {
    let glow = read(&[0x61, 0x00], &mut []).unwrap_err();
    assert_eq!((glow, glow.number(), glow.place()), (Error::Glow(Some(0)), 33, Some(0)));
    assert_eq!(glow.to_string(), "33: a tag unexpected, repeated or out of order, or a member missing, at byte 0");
    assert_eq!(read(&P12, &mut []).unwrap_err().to_string(), "38: more entries than the table has rows, 1 of them");
    assert_eq!(Error::Target.to_string(), "41: no such target");
    assert_eq!((Error::of(0), Error::of(4), Error::of(47), Error::of(46)), (None, None, None, Some(Error::Out)));
    // As any other error of a host's.
    let host: Box<dyn std::error::Error> = Box::new(Error::Crc);
    assert_eq!(host.to_string(), "16: a frame's CRC is wrong");
}
