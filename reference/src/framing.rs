//! Framing (document 01, "Framing"; 001, "Message Framing").

/// "BOF is FE, EOF is FF, CE is FD."
pub const BOF: u8 = 0xFE;
pub const EOF: u8 = 0xFF;
pub const CE: u8 = 0xFD;
/// "Data bytes F8 and above (001's table, not its sentence) are sent as CE and the byte XOR 20."
pub const INVALID: u8 = 0xF8;
pub const XOR: u8 = 0x20;

/// "Its content is the unescaped bytes, CRC included, at most 1,024 (house)."
pub const CONTENT_MAX: usize = 1_024;
/// "A message holds at most 16,384 bytes."
pub const MESSAGE_MAX: usize = 16_384;
/// "The lent store is exactly 17,408 bytes: message bytes from 0, frame content from 16,384."
pub const STORE_LENGTH: usize = 17_408;
pub const FRAME_AT: usize = 16_384;
/// "The writer fills each packet to 1,013 payload bytes before the next, minor version hex 14."
pub const PAYLOAD_MAX: usize = 1_013;
pub const MINOR_VERSION: u8 = 0x14;
/// The bytes before the payload of a packet.
pub const HEADER_LENGTH: usize = 9;

// "Numbers answered".
pub const DONE: u8 = 0;
pub const SETUP: u8 = 1;
pub const PIECE: u8 = 2;
pub const MESSAGE: u8 = 3;
pub const KEEP_ALIVE_REQUEST: u8 = 4;
pub const KEEP_ALIVE_RESPONSE: u8 = 5;
pub const STRAY: u8 = 10;
pub const CUT: u8 = 11;
pub const BYTE: u8 = 12;
pub const LONG: u8 = 13;
pub const ESCAPE: u8 = 14;
pub const SHORT: u8 = 15;
pub const CRC: u8 = 16;
pub const HEADER: u8 = 20;
pub const FLAGS: u8 = 21;
pub const DTD: u8 = 22;
pub const ORPHAN: u8 = 23;
pub const BIG: u8 = 24;
pub const OUT: u8 = 46;

/// 001, "S101 CRC Table".
#[rustfmt::skip]
pub const CRC_TABLE: [u16; 256] = [
    0x0000, 0x1189, 0x2312, 0x329b, 0x4624, 0x57ad, 0x6536, 0x74bf,
    0x8c48, 0x9dc1, 0xaf5a, 0xbed3, 0xca6c, 0xdbe5, 0xe97e, 0xf8f7,
    0x1081, 0x0108, 0x3393, 0x221a, 0x56a5, 0x472c, 0x75b7, 0x643e,
    0x9cc9, 0x8d40, 0xbfdb, 0xae52, 0xdaed, 0xcb64, 0xf9ff, 0xe876,
    0x2102, 0x308b, 0x0210, 0x1399, 0x6726, 0x76af, 0x4434, 0x55bd,
    0xad4a, 0xbcc3, 0x8e58, 0x9fd1, 0xeb6e, 0xfae7, 0xc87c, 0xd9f5,
    0x3183, 0x200a, 0x1291, 0x0318, 0x77a7, 0x662e, 0x54b5, 0x453c,
    0xbdcb, 0xac42, 0x9ed9, 0x8f50, 0xfbef, 0xea66, 0xd8fd, 0xc974,
    0x4204, 0x538d, 0x6116, 0x709f, 0x0420, 0x15a9, 0x2732, 0x36bb,
    0xce4c, 0xdfc5, 0xed5e, 0xfcd7, 0x8868, 0x99e1, 0xab7a, 0xbaf3,
    0x5285, 0x430c, 0x7197, 0x601e, 0x14a1, 0x0528, 0x37b3, 0x263a,
    0xdecd, 0xcf44, 0xfddf, 0xec56, 0x98e9, 0x8960, 0xbbfb, 0xaa72,
    0x6306, 0x728f, 0x4014, 0x519d, 0x2522, 0x34ab, 0x0630, 0x17b9,
    0xef4e, 0xfec7, 0xcc5c, 0xddd5, 0xa96a, 0xb8e3, 0x8a78, 0x9bf1,
    0x7387, 0x620e, 0x5095, 0x411c, 0x35a3, 0x242a, 0x16b1, 0x0738,
    0xffcf, 0xee46, 0xdcdd, 0xcd54, 0xb9eb, 0xa862, 0x9af9, 0x8b70,
    0x8408, 0x9581, 0xa71a, 0xb693, 0xc22c, 0xd3a5, 0xe13e, 0xf0b7,
    0x0840, 0x19c9, 0x2b52, 0x3adb, 0x4e64, 0x5fed, 0x6d76, 0x7cff,
    0x9489, 0x8500, 0xb79b, 0xa612, 0xd2ad, 0xc324, 0xf1bf, 0xe036,
    0x18c1, 0x0948, 0x3bd3, 0x2a5a, 0x5ee5, 0x4f6c, 0x7df7, 0x6c7e,
    0xa50a, 0xb483, 0x8618, 0x9791, 0xe32e, 0xf2a7, 0xc03c, 0xd1b5,
    0x2942, 0x38cb, 0x0a50, 0x1bd9, 0x6f66, 0x7eef, 0x4c74, 0x5dfd,
    0xb58b, 0xa402, 0x9699, 0x8710, 0xf3af, 0xe226, 0xd0bd, 0xc134,
    0x39c3, 0x284a, 0x1ad1, 0x0b58, 0x7fe7, 0x6e6e, 0x5cf5, 0x4d7c,
    0xc60c, 0xd785, 0xe51e, 0xf497, 0x8028, 0x91a1, 0xa33a, 0xb2b3,
    0x4a44, 0x5bcd, 0x6956, 0x78df, 0x0c60, 0x1de9, 0x2f72, 0x3efb,
    0xd68d, 0xc704, 0xf59f, 0xe416, 0x90a9, 0x8120, 0xb3bb, 0xa232,
    0x5ac5, 0x4b4c, 0x79d7, 0x685e, 0x1ce1, 0x0d68, 0x3ff3, 0x2e7a,
    0xe70e, 0xf687, 0xc41c, 0xd595, 0xa12a, 0xb0a3, 0x8238, 0x93b1,
    0x6b46, 0x7acf, 0x4854, 0x59dd, 0x2d62, 0x3ceb, 0x0e70, 0x1ff9,
    0xf78f, 0xe606, 0xd49d, 0xc514, 0xb1ab, 0xa022, 0x92b9, 0x8330,
    0x7bc7, 0x6a4e, 0x58d5, 0x495c, 0x3de3, 0x2c6a, 0x1ef1, 0x0f78,
];

/// "a 16-bit CRC over the unescaped data: start FFFF, reflected polynomial 8408 (by 001's table
/// of 256 numbers), inverted, low byte first".
pub fn crc(data: &[u8]) -> [u8; 2] {
    let mut crc: u16 = 0xFFFF;
    for &byte in data {
        crc = (crc >> 8) ^ CRC_TABLE[((crc ^ u16::from(byte)) & 0xFF) as usize];
    }
    (!crc).to_le_bytes()
}

/// Where the stream stands between two bytes.
#[derive(Clone, Copy, PartialEq, Eq, Debug)]
pub enum Standing {
    /// Outside frames, no stray run begun.
    Outside,
    /// Outside frames, in a stray run whose event has been made.
    StrayRun,
    /// Directly after the BOF that opened the frame.
    Opened,
    /// In a frame, after other bytes.
    Content,
    /// In a frame, after CE.
    Escaped,
    /// In a frame, after its first fault: 12 (BYTE) or 13 (LONG).
    Faulty(u8),
}

/// The session; its bytes are in the lent store.
#[derive(Clone, Copy, PartialEq, Eq, Debug)]
pub struct Session {
    pub standing: Standing,
    /// Content bytes of the open frame, 0 outside frames.
    pub frame_length: usize,
    /// Length of the open message, if one is open.
    pub message: Option<usize>,
}

#[derive(Clone, PartialEq, Eq, Debug)]
pub struct Event {
    pub number: u8,
    /// "each event says whether one [an unfinished message] was [thrown away]".
    pub discarded: bool,
    /// For 3, the message's bytes.
    pub message: Option<Vec<u8>>,
}

impl Event {
    fn plain(number: u8) -> Event {
        Event { number, discarded: false, message: None }
    }
}

impl Session {
    /// "They start outside frames, no message open".
    pub fn start() -> Session {
        Session { standing: Standing::Outside, frame_length: 0, message: None }
    }

    pub fn in_frame(&self) -> bool {
        !matches!(self.standing, Standing::Outside | Standing::StrayRun)
    }

    /// "A call consumes bytes up to and including the one that makes an event, or all of them."
    pub fn call(self, store: &mut [u8], chunk: &[u8]) -> (Event, usize, Session) {
        // "first of all: store not 17,408 bytes, ... a session's frame length over 1,024 or message
        // length over 16,384"; "1 leaves everything as it was, 0 consumed".
        if store.len() != STORE_LENGTH || self.frame_length > CONTENT_MAX || self.message.unwrap_or(0) > MESSAGE_MAX {
            return (Event::plain(SETUP), 0, self);
        }
        let mut session = self;
        for (index, &byte) in chunk.iter().enumerate() {
            if let Some(event) = session.byte(store, byte) {
                return (event, index + 1, session);
            }
        }
        (Event::plain(DONE), chunk.len(), session)
    }

    fn byte(&mut self, store: &mut [u8], byte: u8) -> Option<Event> {
        match self.standing {
            Standing::Outside | Standing::StrayRun => self.outside(byte),
            _ if byte == BOF => self.ended_by_bof(),
            _ if byte == EOF => Some(self.ended_by_eof(store)),
            Standing::Faulty(_) => None, // "later bytes of that frame are neither counted nor stored"
            Standing::Escaped => self.after_escape(store, byte),
            Standing::Opened | Standing::Content => self.inside(store, byte),
        }
    }

    /// "Bytes outside frames give one STRAY event at the first byte of each run, EOF included."
    fn outside(&mut self, byte: u8) -> Option<Event> {
        if byte == BOF {
            self.open_frame();
            return None;
        }
        if self.standing == Standing::StrayRun {
            return None;
        }
        self.standing = Standing::StrayRun;
        Some(self.refuse(STRAY))
    }

    fn open_frame(&mut self) {
        self.standing = Standing::Opened;
        self.frame_length = 0;
    }

    fn inside(&mut self, store: &mut [u8], byte: u8) -> Option<Event> {
        if byte == CE {
            self.standing = Standing::Escaped; // CE itself is no content
        } else if byte >= INVALID {
            self.standing = Standing::Faulty(BYTE); // "F8 to FC unescaped"
        } else {
            self.content(store, byte);
        }
        None
    }

    /// "a byte after CE other than D8 to DF, BOF or EOF, is a fault (house)".
    fn after_escape(&mut self, store: &mut [u8], byte: u8) -> Option<Event> {
        if (0xD8..=0xDF).contains(&byte) {
            self.content(store, byte ^ XOR);
        } else {
            self.standing = Standing::Faulty(BYTE);
        }
        None
    }

    fn content(&mut self, store: &mut [u8], byte: u8) {
        if self.frame_length == CONTENT_MAX {
            self.standing = Standing::Faulty(LONG); // "content over 1,024"
        } else {
            store[FRAME_AT + self.frame_length] = byte;
            self.frame_length += 1;
            self.standing = Standing::Content;
        }
    }

    /// "One ended by BOF without an earlier fault is CUT, or has no event if that BOF directly follows
    /// the opening one. The ending BOF opens the next frame."
    fn ended_by_bof(&mut self) -> Option<Event> {
        let number = match self.standing {
            Standing::Opened => None,
            Standing::Faulty(fault) => Some(fault),
            _ => Some(CUT),
        };
        self.open_frame();
        number.map(|number| self.refuse(number))
    }

    /// "Frame, header and desk checks run in table order, byte faults first."
    fn ended_by_eof(&mut self, store: &mut [u8]) -> Event {
        let standing = self.standing;
        let length = self.frame_length;
        self.standing = Standing::Outside;
        self.frame_length = 0;
        match standing {
            Standing::Faulty(fault) => return self.refuse(fault),
            Standing::Escaped => return self.refuse(ESCAPE), // "EOF after CE"
            _ => {}
        }
        let content = store[FRAME_AT..FRAME_AT + length].to_vec();
        if content.len() < 6 {
            return self.refuse(SHORT); // "content under 6"
        }
        let (data, sent) = content.split_at(content.len() - 2);
        if crc(data) != sent {
            return self.refuse(CRC);
        }
        self.header(store, data)
    }

    /// "Content without CRC: slot 00, type 0E, command, version 01."
    fn header(&mut self, store: &mut [u8], data: &[u8]) -> Event {
        let (slot, kind, command, version) = (data[0], data[1], data[2], data[3]);
        if slot != 0x00 || kind != 0x0E || command > 0x02 || version != 0x01 {
            return self.refuse(HEADER);
        }
        if command != 0x00 {
            // "Commands 01 and 02 are keep-alive request and response, exactly four bytes."
            if data.len() != 4 {
                return self.refuse(HEADER);
            }
            // "A keep-alive disturbs nothing."
            return Event::plain(if command == 0x01 { KEEP_ALIVE_REQUEST } else { KEEP_ALIVE_RESPONSE });
        }
        // "Command 00 goes on with flags, DTD 01, count of application bytes 02, minor version,
        // major version 02, payload."
        if data.len() < HEADER_LENGTH {
            return self.refuse(HEADER);
        }
        let (flags, dtd, count, major) = (data[4], data[5], data[6], data[8]);
        let payload = &data[HEADER_LENGTH..];
        // "Flags: 80 first, 40 last, 20 empty, exactly when there is no payload (house); the low five
        // bits are zero."
        if flags & 0x1F != 0 || (flags & 0x20 != 0) != payload.is_empty() {
            return self.refuse(FLAGS);
        }
        if dtd != 0x01 || count != 0x02 || major != 0x02 {
            return self.refuse(DTD);
        }
        self.piece(store, flags & 0x80 != 0, flags & 0x40 != 0, payload)
    }

    /// "A piece marked first opens a message and throws away an unfinished one. Later pieces add to
    /// it; the one marked last finishes it."
    fn piece(&mut self, store: &mut [u8], first: bool, last: bool, payload: &[u8]) -> Event {
        let before = if first {
            0
        } else {
            match self.message {
                None => return self.refuse(ORPHAN), // "no open message"
                Some(length) => length,
            }
        };
        let after = before + payload.len();
        if after > MESSAGE_MAX {
            return self.refuse(BIG); // "over 16,384"
        }
        let discarded = first && self.message.is_some();
        // "The message is copied there at the valid end of its frame".
        store[before..after].copy_from_slice(payload);
        if last {
            self.message = None;
            Event { number: MESSAGE, discarded, message: Some(store[..after].to_vec()) }
        } else {
            self.message = Some(after);
            Event { number: PIECE, discarded, message: None }
        }
    }

    /// "Events 10 to 24 throw away the unfinished message; each event says whether one was."
    fn refuse(&mut self, number: u8) -> Event {
        let discarded = self.message.is_some();
        self.message = None;
        Event { number, discarded, message: None }
    }
}

/// All events of a stream, each with the count of bytes consumed so far.
pub fn run(session: &mut Session, store: &mut [u8], chunk: &[u8], offset: &mut usize) -> Vec<(usize, Event)> {
    let mut events = Vec::new();
    let mut at = 0;
    loop {
        // F1: an empty chunk is one call; after its last byte a chunk is not offered again.
        let (event, consumed, next) = session.call(store, &chunk[at..]);
        *session = next;
        at += consumed;
        *offset += consumed;
        if event.number != DONE {
            events.push((*offset, event));
        }
        if at == chunk.len() {
            return events;
        }
    }
}

/// A byte as it is sent inside a frame.
fn escaped(out: &mut Vec<u8>, byte: u8) {
    if byte >= INVALID {
        out.push(CE);
        out.push(byte ^ XOR);
    } else {
        out.push(byte);
    }
}

/// A frame around given content, whatever the content is (F18); over 1,022 bytes: 46.
pub fn write_frame(data: &[u8]) -> Result<Vec<u8>, u8> {
    if data.len() + 2 > CONTENT_MAX {
        return Err(OUT);
    }
    let mut out = vec![BOF];
    for &byte in data.iter().chain(crc(data).iter()) {
        escaped(&mut out, byte);
    }
    out.push(EOF);
    Ok(out)
}

pub fn write_keep_alive(response: bool) -> Vec<u8> {
    write_frame(&[0x00, 0x0E, if response { 0x02 } else { 0x01 }, 0x01]).unwrap()
}

/// The content of one packet, without CRC.
pub fn packet(flags: u8, minor: u8, payload: &[u8]) -> Vec<u8> {
    let mut data = vec![0x00, 0x0E, 0x00, 0x01, flags, 0x01, 0x02, minor, 0x02];
    data.extend_from_slice(payload);
    data
}

/// A message as frames, each filled to 1,013 payload bytes before the next.
pub fn write_message(message: &[u8]) -> Result<Vec<Vec<u8>>, u8> {
    if message.len() > MESSAGE_MAX {
        return Err(OUT);
    }
    if message.is_empty() {
        return Ok(vec![write_frame(&packet(0xE0, MINOR_VERSION, &[]))?]);
    }
    let count = message.len().div_ceil(PAYLOAD_MAX);
    let mut frames = Vec::new();
    for (index, payload) in message.chunks(PAYLOAD_MAX).enumerate() {
        let first = if index == 0 { 0x80 } else { 0 };
        let last = if index + 1 == count { 0x40 } else { 0 };
        frames.push(write_frame(&packet(first | last, MINOR_VERSION, payload))?);
    }
    Ok(frames)
}

#[cfg(test)]
mod tests {
    use super::*;

    fn events(stream: &[u8]) -> Vec<(usize, u8, bool)> {
        let mut session = Session::start();
        let mut store = vec![0; STORE_LENGTH];
        let mut offset = 0;
        let events = run(&mut session, &mut store, stream, &mut offset);
        assert_eq!(offset, stream.len());
        events.iter().map(|(at, event)| (*at, event.number, event.discarded)).collect()
    }

    fn numbers(stream: &[u8]) -> Vec<u8> {
        events(stream).iter().map(|event| event.1).collect()
    }

    #[test]
    fn table_is_the_shift_and_fold_rule() {
        for index in 0..256u16 {
            let mut crc = index;
            for _ in 0..8 {
                crc = if crc & 1 == 1 { (crc >> 1) ^ 0x8408 } else { crc >> 1 };
            }
            assert_eq!(crc, CRC_TABLE[index as usize], "index {index}");
        }
    }

    #[test]
    fn p8() {
        let framed = write_frame(&[0xFF, 0x00, 0xF9, 0x01]).unwrap();
        assert_eq!(framed, [0xFE, 0xFD, 0xDF, 0x00, 0xFD, 0xD9, 0x01, 0x95, 0x83, 0xFF]);
        assert_eq!(numbers(&framed), [HEADER]);
    }

    #[test]
    fn p9_p10_p11() {
        assert_eq!(numbers(&[0xFE, 0x00, 0x0E, 0x01, 0x01, 0x94, 0xE4, 0xFF]), [4]);
        assert_eq!(numbers(&[0xFE, 0x00, 0x0E, 0x01, 0x01, 0x94, 0xE5, 0xFF]), [16]);
        assert_eq!(numbers(&[0xFE, 0xFE, 0xFF]), [15]);
        assert_eq!(write_keep_alive(false), [0xFE, 0x00, 0x0E, 0x01, 0x01, 0x94, 0xE4, 0xFF]);
        assert_eq!(write_keep_alive(true), [0xFE, 0x00, 0x0E, 0x02, 0x01, 0xFD, 0xDC, 0xCE, 0xFF]);
    }

    /// 001: "The result of a decoded CRC must always be 0xF0B8."
    #[test]
    fn residue() {
        let data = [0x00, 0x0E, 0x01, 0x01, 0x94, 0xE4];
        assert_eq!(!u16::from_le_bytes(crc(&data)), 0xF0B8);
    }

    #[test]
    fn open_points_of_framing() {
        assert_eq!(numbers(&[BOF, CE, BOF, EOF]), [CUT, SHORT]); // F7
        assert_eq!(numbers(&[BOF, CE, CE, EOF]), [BYTE]); // F6
        assert_eq!(numbers(&[BOF, 0xF8, BOF, EOF]), [BYTE, SHORT]); // F8
        assert_eq!(numbers(&[BOF, 0xF8, CE, EOF]), [BYTE]); // F9
        assert_eq!(numbers(&[BOF, CE, EOF]), [ESCAPE]);
        assert_eq!(numbers(&[EOF, EOF, 0, BOF, EOF, EOF]), [STRAY, SHORT, STRAY]);
        let full = [vec![BOF], vec![0; 1024]].concat();
        let with = |tail: &[u8]| numbers(&[full.as_slice(), tail].concat());
        assert_eq!(with(&[0xF8, 0, EOF]), [BYTE]); // F4
        assert_eq!(with(&[CE, 0xD8, EOF]), [LONG]); // F5
        assert_eq!(with(&[CE, EOF]), [ESCAPE]);
        assert_eq!(with(&[CE, BOF]), [CUT]);
        assert_eq!(with(&[CE, 0x41, EOF]), [BYTE]);
        assert_eq!(with(&[0, 0xF8, EOF]), [LONG]);
        assert_eq!(with(&[EOF]), [CRC]);
    }

    #[test]
    fn messages_and_discards() {
        let piece = |flags: u8, payload: &[u8]| write_frame(&packet(flags, 0x14, payload)).unwrap();
        let first = piece(0x80, &[1, 2]);
        let last = piece(0x40, &[3]);
        let single = piece(0xC0, &[9]);
        let alive = write_keep_alive(false);
        let stream = [&first[..], &alive, &last, &first, &single, &last, &first, &[0], &last].concat();
        let seen: Vec<(u8, bool)> = events(&stream).iter().map(|event| (event.1, event.2)).collect();
        assert_eq!(
            seen,
            [(2, false), (4, false), (3, false), (2, false), (3, true), (23, false), (2, false), (10, true), (23, false)]
        );
        // An open message of no bytes counts as unfinished (F13).
        let stream = [&piece(0xA0, &[])[..], &piece(0x60, &[]), &piece(0xA0, &[]), &piece(0xE0, &[])].concat();
        let seen: Vec<(u8, bool)> = events(&stream).iter().map(|event| (event.1, event.2)).collect();
        assert_eq!(seen, [(2, false), (3, false), (2, false), (3, true)]);
    }

    #[test]
    fn big_messages_in_any_chunks() {
        for (length, last) in [(16_384usize, MESSAGE), (16_385, BIG)] {
            let message: Vec<u8> = (0..length).map(|index| (index * 7) as u8).collect();
            let count = length.div_ceil(PAYLOAD_MAX);
            let mut stream = Vec::new();
            for (index, payload) in message.chunks(PAYLOAD_MAX).enumerate() {
                let flags = if index == 0 {
                    0x80
                } else if index + 1 == count {
                    0x40
                } else {
                    0
                };
                stream.extend(write_frame(&packet(flags, 0x14, payload)).unwrap());
            }
            for size in [1, 7, 1000, stream.len()] {
                let mut session = Session::start();
                let mut store = vec![0xAA; STORE_LENGTH];
                let mut offset = 0;
                let mut all = Vec::new();
                for chunk in stream.chunks(size) {
                    all.extend(run(&mut session, &mut store, chunk, &mut offset));
                }
                assert_eq!(all.len(), 17);
                assert_eq!(all[16].1.number, last);
                if last == MESSAGE {
                    assert_eq!(all[16].1.message.as_deref(), Some(&message[..]));
                    assert_eq!(write_message(&message).unwrap().concat(), stream);
                } else {
                    assert!(all[16].1.discarded);
                    assert_eq!(write_message(&message), Err(OUT));
                }
            }
        }
    }

    #[test]
    fn setup() {
        let mut store = vec![0; STORE_LENGTH];
        let bad = Session { standing: Standing::Content, frame_length: 1_025, message: None };
        assert_eq!(bad.call(&mut store, &[EOF]), (Event::plain(SETUP), 0, bad));
        let bad = Session { standing: Standing::Outside, frame_length: 0, message: Some(16_385) };
        assert_eq!(bad.call(&mut store, &[EOF]), (Event::plain(SETUP), 0, bad));
        let mut short = vec![0; STORE_LENGTH - 1];
        assert_eq!(Session::start().call(&mut short, &[EOF]), (Event::plain(SETUP), 0, Session::start()));
    }

    #[test]
    fn content_too_long() {
        assert!(write_frame(&[0; 1_022]).is_ok());
        assert_eq!(write_frame(&[0; 1_023]), Err(OUT));
    }
}
