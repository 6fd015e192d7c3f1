//! The supervisor of a connection (document 02, request 01), over true time in milliseconds, and the program `watch`.

use crate::lines::lines;

#[derive(Clone, Copy, PartialEq, Eq, Debug)]
pub enum Happened {
    Nothing,
    Event,
    Request,
}

/// One connection. It knows no tick: every time is the true one.
#[derive(Clone, Debug)]
pub struct Supervisor {
    /// "counting the start as an event"
    pub last_event: u64,
    /// When a keep-alive request was asked for in this silence.
    pub asked: Option<u64>,
    pub dead: bool,
}

/// "5,000 ms or more"
pub const SILENCE: u64 = 5_000;

impl Supervisor {
    pub fn start(time: u64) -> Supervisor {
        Supervisor { last_event: time, asked: None, dead: false }
    }

    /// What is to be done: `-`, `ask`, `answer` or `dead`.
    pub fn show(&mut self, time: u64, happened: Happened) -> &'static str {
        if happened != Happened::Nothing && !self.dead {
            // "an event shown then counts first"
            self.last_event = time;
            self.asked = None;
        }
        if happened == Happened::Request {
            // "An incoming request always gets its response"
            return "answer";
        }
        if self.dead {
            return "dead";
        }
        match self.asked {
            // "with no event since": an event has taken the asking away.
            Some(asked) if time - asked >= SILENCE => {
                self.dead = true;
                "dead"
            }
            None if time - self.last_event >= SILENCE => {
                self.asked = Some(time);
                "ask"
            }
            _ => "-",
        }
    }
}

/// A whole turn of the tick.
const TURN: u64 = 1 << 32;

/// True time, told from ticks that "run past their top back to zero": the next time that has the tick.
#[derive(Clone, Debug)]
pub struct Clock {
    pub time: u64,
}

impl Clock {
    pub fn start(tick: u32) -> Clock {
        Clock { time: u64::from(tick) }
    }

    pub fn tick(&mut self, tick: u32) -> u64 {
        let (before, now) = (self.time % TURN, u64::from(tick));
        self.time += if now >= before { now - before } else { now + TURN - before };
        self.time
    }
}

/// TICK: 0, or digits that do not start with 0, up to 4,294,967,295.
fn tick(word: &[u8]) -> Option<u32> {
    if word.is_empty() || !word.iter().all(u8::is_ascii_digit) || (word.len() > 1 && word[0] == b'0') {
        return None;
    }
    std::str::from_utf8(word).ok()?.parse().ok()
}

enum Line {
    Start(u32),
    Showing(u32, Happened),
}

/// Words stand one space apart.
fn line(text: &[u8]) -> Option<Line> {
    let words: Vec<&[u8]> = text.split(|&byte| byte == b' ').collect();
    match words.as_slice() {
        [b"start", word] => Some(Line::Start(tick(word)?)),
        [word] => Some(Line::Showing(tick(word)?, Happened::Nothing)),
        [word, b"event"] => Some(Line::Showing(tick(word)?, Happened::Event)),
        [word, b"request"] => Some(Line::Showing(tick(word)?, Happened::Request)),
        _ => None,
    }
}

/// Program `watch`: one answer a line, none for the start; `bad line` for lines before it, for a second start, and for
/// what is no showing.
pub fn watch(input: &[u8]) -> String {
    let mut out = String::new();
    let mut watched: Option<(Clock, Supervisor)> = None;
    for text in lines(input) {
        match (line(text), &mut watched) {
            (Some(Line::Start(tick)), None) => {
                let clock = Clock::start(tick);
                let supervisor = Supervisor::start(clock.time);
                watched = Some((clock, supervisor));
            }
            (Some(Line::Showing(tick, happened)), Some((clock, supervisor))) => {
                out += supervisor.show(clock.tick(tick), happened);
                out.push('\n');
            }
            _ => out += "bad line\n",
        }
    }
    out
}

#[cfg(test)]
mod tests {
    use super::*;

    #[test]
    fn a_silence() {
        assert_eq!(watch(b"start 0\n4999\n5000\n5001\n9999\n10000\n10001\n"), "-\nask\n-\n-\ndead\ndead\n");
    }

    #[test]
    fn over_the_wrap() {
        assert_eq!(
            watch(b"start 4294967295\n0\n4998\n4999\n9998\n9999 request\n14998\n14999\n"),
            "-\n-\nask\n-\nanswer\n-\nask\n"
        );
    }

    #[test]
    fn an_event_counts_first() {
        assert_eq!(watch(b"start 7\n5007 event\n10006\n10007\n15007 event\n20006\n"), "-\n-\nask\n-\n-\n");
    }

    #[test]
    fn dead_for_good() {
        assert_eq!(watch(b"start 0\n6000\n12000\n12001 event\n12002 request\n30000\n"), "ask\ndead\ndead\nanswer\ndead\n");
    }

    #[test]
    fn bad_lines() {
        assert_eq!(
            watch(b"0\nstart 01\nstart 4294967296\nstart 1\nstart 2\n\n1 \n1 event x\n01\n1"),
            "bad line\n".repeat(3) + &"bad line\n".repeat(5) + "-\n"
        );
    }
}
