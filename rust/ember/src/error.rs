//! Refusals by name.

use crate::number;
use core::fmt;

/// Why a call was refused. Those of the tree carry the place in the message where it is known: [`crate::read`] and
/// [`crate::Line::turn`] know it, a route sheet's reader does not.
#[derive(Clone, Copy, PartialEq, Eq, Debug)]
#[non_exhaustive]
pub enum Error {
    /// 1: a length or a word out of range, a desk that is not legal, or rows that make no tree: nothing was changed.
    Setup,
    /// 10: bytes outside frames.
    Stray,
    /// 11: a frame ended by the start of the next.
    Cut,
    /// 12: a byte that may not stand there; of a sheet also: a bad line.
    Byte,
    /// 13: content over 1,024 bytes, CRC included.
    Long,
    /// 14: the frame's end directly after FD, the escape byte.
    Escape,
    /// 15: content under 6 bytes, CRC included.
    Short,
    /// 16: CRC wrong.
    Crc,
    /// 20: slot, type, command, version or header size wrong.
    Header,
    /// 21: flags wrong.
    Flags,
    /// 22: DTD, count of application bytes or major version wrong.
    Dtd,
    /// 23: a later piece with no message open.
    Orphan,
    /// 24: a message over 16,384 bytes.
    Big,
    /// 30: bad tag, length or value octets, bytes that run out or are left.
    Ber(Option<usize>),
    /// 31: an outer tag and its value, one definite and one indefinite.
    Form(Option<usize>),
    /// 32: a 65th container open at once.
    Depth(Option<usize>),
    /// 33: a tag unexpected, repeated or out of order, a member or value missing.
    Glow(Option<usize>),
    /// 34: a number out of its range.
    Number(Option<usize>),
    /// 35: a real that is not accepted.
    Real(Option<usize>),
    /// 36: an identifier against its rule.
    Name(Option<usize>),
    /// 37: a path that is empty, over 16 numbers (parents counted) or has a number out of range.
    Path(Option<usize>),
    /// 38: the message is right, the table too small: how many entries it has. With a table of 256 no table is long enough.
    Room(Option<usize>),
    /// 40: a connection of another matrix.
    Matrix,
    /// 41: no such target.
    Target,
    /// 42: no such source.
    Source,
    /// 43: more sources than the target may have.
    Many,
    /// 44: more connections than the desk may have.
    Total,
    /// 45: figures, mode or path out of range.
    Desk,
    /// 46: the output is too short, or what is to be written is nothing that the reader accepts.
    Out,
}

impl Error {
    /// The refusal that a number of document 01 is; none for 0, for the events 2 to 5 and for a number that is none.
    /// Never gives a place: the number has none.
    pub fn of(number: u64) -> Option<Error> {
        Some(match number {
            number::SETUP => Error::Setup,
            number::BAD_STRAY => Error::Stray,
            number::BAD_CUT => Error::Cut,
            number::BAD_BYTE => Error::Byte,
            number::BAD_LONG => Error::Long,
            number::BAD_ESCAPE => Error::Escape,
            number::BAD_SHORT => Error::Short,
            number::BAD_CRC => Error::Crc,
            number::BAD_HEADER => Error::Header,
            number::BAD_FLAGS => Error::Flags,
            number::BAD_DTD => Error::Dtd,
            number::BAD_ORPHAN => Error::Orphan,
            number::BAD_BIG => Error::Big,
            number::BAD_BER => Error::Ber(None),
            number::BAD_FORM => Error::Form(None),
            number::BAD_DEPTH => Error::Depth(None),
            number::BAD_GLOW => Error::Glow(None),
            number::BAD_NUMBER => Error::Number(None),
            number::BAD_REAL => Error::Real(None),
            number::BAD_NAME => Error::Name(None),
            number::BAD_PATH => Error::Path(None),
            number::NO_ROOM => Error::Room(None),
            number::NO_MATRIX => Error::Matrix,
            number::NO_TARGET => Error::Target,
            number::NO_SOURCE => Error::Source,
            number::BAD_MANY => Error::Many,
            number::BAD_TOTAL => Error::Total,
            number::BAD_DESK => Error::Desk,
            number::NO_OUT => Error::Out,
            _ => return None,
        })
    }

    /// Its number in document 01 and in `ember.h`.
    /// Never 0.
    pub fn number(&self) -> u64 {
        match self {
            Error::Setup => number::SETUP,
            Error::Stray => number::BAD_STRAY,
            Error::Cut => number::BAD_CUT,
            Error::Byte => number::BAD_BYTE,
            Error::Long => number::BAD_LONG,
            Error::Escape => number::BAD_ESCAPE,
            Error::Short => number::BAD_SHORT,
            Error::Crc => number::BAD_CRC,
            Error::Header => number::BAD_HEADER,
            Error::Flags => number::BAD_FLAGS,
            Error::Dtd => number::BAD_DTD,
            Error::Orphan => number::BAD_ORPHAN,
            Error::Big => number::BAD_BIG,
            Error::Ber(_) => number::BAD_BER,
            Error::Form(_) => number::BAD_FORM,
            Error::Depth(_) => number::BAD_DEPTH,
            Error::Glow(_) => number::BAD_GLOW,
            Error::Number(_) => number::BAD_NUMBER,
            Error::Real(_) => number::BAD_REAL,
            Error::Name(_) => number::BAD_NAME,
            Error::Path(_) => number::BAD_PATH,
            Error::Room(_) => number::NO_ROOM,
            Error::Matrix => number::NO_MATRIX,
            Error::Target => number::NO_TARGET,
            Error::Source => number::NO_SOURCE,
            Error::Many => number::BAD_MANY,
            Error::Total => number::BAD_TOTAL,
            Error::Desk => number::BAD_DESK,
            Error::Out => number::NO_OUT,
        }
    }

    /// The place in the message of a refusal of the tree, where it is known: a position, or the message's length.
    /// Never the count of [`Error::Room`].
    pub fn place(&self) -> Option<usize> {
        match *self {
            Error::Ber(place) | Error::Form(place) | Error::Depth(place) | Error::Glow(place) => place,
            Error::Number(place) | Error::Real(place) | Error::Name(place) | Error::Path(place) => place,
            _ => None,
        }
    }

    /// What the tree reader refused: with the place of 30 to 37, or the count of 38.
    pub(crate) fn in_tree(number: u64, place: u64, count: u64) -> Error {
        let place = Some(place as usize);
        match number {
            number::BAD_BER => Error::Ber(place),
            number::BAD_FORM => Error::Form(place),
            number::BAD_DEPTH => Error::Depth(place),
            number::BAD_GLOW => Error::Glow(place),
            number::BAD_NUMBER => Error::Number(place),
            number::BAD_REAL => Error::Real(place),
            number::BAD_NAME => Error::Name(place),
            number::BAD_PATH => Error::Path(place),
            number::NO_ROOM => Error::Room(Some(count as usize)),
            _ => Error::Setup,
        }
    }

    fn words(&self) -> &'static str {
        match self {
            Error::Setup => "a length or a word out of range, a desk that is not legal, or rows that make no tree",
            Error::Stray => "bytes outside frames",
            Error::Cut => "a frame cut off by the next",
            Error::Byte => "a byte that may not stand there, or a bad line",
            Error::Long => "a frame's content is over 1,024 bytes",
            Error::Escape => "a frame ends in an escape",
            Error::Short => "a frame's content is under 6 bytes",
            Error::Crc => "a frame's CRC is wrong",
            Error::Header => "a frame's slot, type, command, version or header size is wrong",
            Error::Flags => "a frame's flags are wrong",
            Error::Dtd => "a frame's DTD, count of application bytes or major version is wrong",
            Error::Orphan => "a later piece with no message open",
            Error::Big => "a message over 16,384 bytes",
            Error::Ber(_) => "bad tag, length or value octets, or bytes that run out or are left",
            Error::Form(_) => "an outer tag and its value, one definite and one indefinite",
            Error::Depth(_) => "more than 64 containers open at once",
            Error::Glow(_) => "a tag unexpected, repeated or out of order, or a member missing",
            Error::Number(_) => "a number out of its range",
            Error::Real(_) => "a real that is not accepted",
            Error::Name(_) => "an identifier against its rule",
            Error::Path(_) => "a path that is empty, over 16 numbers or has a number out of range",
            Error::Room(_) => "more entries than the table has rows",
            Error::Matrix => "a connection of another matrix",
            Error::Target => "no such target",
            Error::Source => "no such source",
            Error::Many => "more sources than the target may have",
            Error::Total => "more connections than the desk may have",
            Error::Desk => "figures, mode or path out of range",
            Error::Out => "the output is too short, or this is nothing that the reader accepts",
        }
    }
}

/// Its number, and what it says: `33: a tag unexpected, repeated or out of order, or a member missing, at byte 6`.
impl fmt::Display for Error {
    fn fmt(&self, f: &mut fmt::Formatter<'_>) -> fmt::Result {
        write!(f, "{}: {}", self.number(), self.words())?;
        match (self.place(), self) {
            (Some(place), _) => write!(f, ", at byte {place}"),
            (None, Error::Room(Some(count))) => write!(f, ", {count} of them"),
            _ => Ok(()),
        }
    }
}

impl core::error::Error for Error {}

/// Done, or the refusal.
pub(crate) fn told(number: u64) -> Result<(), Error> {
    if number == number::DONE {
        Ok(())
    } else {
        Err(Error::of(number).unwrap_or(Error::Setup))
    }
}
