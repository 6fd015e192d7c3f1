//! Runs of the program `watch`: a start, then showings in the order of true time.

use super::Random;
use crate::watch::{Happened, Supervisor, SILENCE};

pub const KINDS: [&str; 5] = ["start", "nothing", "event", "request", "malformed"];

/// Lines that are none of the program's.
pub const MALFORMED: &[&str] = &[
    "",
    " ",
    "-",
    "start",
    "start ",
    "start  5",
    "start 5 ",
    "start -",
    "start x",
    "start 05",
    "start 00",
    "start 4294967296",
    "start 18446744073709551616",
    "start 5 event",
    "start event",
    "Start 5",
    " start 5",
    "starts 5",
    "star 5",
    "start5",
    "start\t5",
    "4294967296",
    "4294967300 event",
    "18446744073709551616",
    "18446744073709551621 request",
    "99999999999999999999999999999999",
    "00",
    "01",
    "007 event",
    "+5",
    "-5",
    "5.0",
    "0x10",
    "5 ",
    " 5",
    "5  event",
    "5 event ",
    "5 events",
    "5 even",
    "5 Event",
    "5 event event",
    "5 event request",
    "5 requests",
    "5 reques",
    "5 request ",
    "5 request 5",
    "5 start",
    "5 nothing",
    "5 5",
    "5event",
    "5\tevent",
    "5 event\r",
    "5\r",
    "event",
    "event 5",
    "request",
    " event",
    "1234567890123456789012345678901234567890123456789012345678901234",
    "12345678901234567890123456789012345678901234567890123456789012345",
    "5 request                                                                                           ",
];

fn line(tick: u64, happened: Happened) -> String {
    let tick = tick as u32;
    match happened {
        Happened::Nothing => format!("{tick}\n"),
        Happened::Event => format!("{tick} event\n"),
        Happened::Request => format!("{tick} request\n"),
    }
}

/// A tick to start with: often one from which the run passes the top.
fn first(random: &mut Random) -> u64 {
    let top = 1u64 << 32;
    match random.below(8) {
        0 => 0,
        1 => top - 1,
        2 | 3 => top - 1 - random.below(20_000) as u64,
        4 => top - SILENCE + random.below(3) as u64 - 1,
        5 => (1 << 31) - 1 + random.below(3) as u64,
        _ => random.next() % top,
    }
}

/// How far on the next showing is. `since` is how long what is waited for has lasted, less than 5,000 ms.
fn ahead(random: &mut Random, style: usize, since: u64) -> u64 {
    let left = SILENCE - since;
    match style {
        // Shown often, as the promise has it.
        0 => random.range(0, 1_000) as u64,
        1 => random.pick(&[999, 1_000]),
        // At the bound and one beside it.
        2 => match random.below(4) {
            0 => left - 1,
            1 => left,
            2 => left + 1,
            _ => random.range(0, 1_000) as u64,
        },
        3 => random.range(0, 12_000) as u64,
        // So far that only the gap counts: less than a whole turn of the tick in all.
        4 => match random.below(6) {
            0 => (1 << 32) - 1 - since,
            1 => (1 << 31) + random.below(10_000) as u64,
            2 => random.next() % ((1 << 32) - SILENCE),
            _ => random.range(0, 6_000) as u64,
        },
        _ => {
            let style = random.below(5);
            ahead(random, style, since)
        }
    }
}

fn happened(random: &mut Random, lively: usize) -> Happened {
    match random.below(lively) {
        0 => Happened::Event,
        1 => Happened::Request,
        _ => Happened::Nothing,
    }
}

/// A run of so many showings, and how many lines there are of each kind.
pub fn input(seed: u64, count: usize) -> (Vec<u8>, [usize; 5]) {
    let mut random = Random::new(seed);
    let mut out = String::new();
    let mut kinds = [0; 5];
    let malformed = |random: &mut Random, out: &mut String, kinds: &mut [usize; 5]| {
        out.push_str(random.pick(MALFORMED));
        out.push('\n');
        kinds[4] += 1;
    };
    if random.one_in(20) {
        malformed(&mut random, &mut out, &mut kinds);
    }
    if random.one_in(40) {
        let tick = first(&mut random);
        let what = happened(&mut random, 3);
        out += &line(tick, what);
        kinds[4] += 1;
    }
    let style = random.below(6);
    let lively = random.pick(&[3, 5, 8, 20, 1_000]);
    let mut time = first(&mut random);
    let mut supervisor = Supervisor::start(time);
    out += &format!("start {}\n", time as u32);
    kinds[0] += 1;
    for _ in 0..count {
        // Of a dead link a few showings tell all.
        if supervisor.dead && random.one_in(6) {
            break;
        }
        if random.one_in(60) {
            malformed(&mut random, &mut out, &mut kinds);
        }
        if random.one_in(200) {
            out += &format!("start {}\n", first(&mut random));
            kinds[4] += 1;
        }
        let since = if supervisor.dead { 0 } else { time - supervisor.asked.unwrap_or(supervisor.last_event) };
        time += ahead(&mut random, style, since);
        let what = happened(&mut random, lively);
        supervisor.show(time, what);
        out += &line(time, what);
        kinds[1 + what as usize] += 1;
    }
    if random.one_in(10) {
        out.pop();
    }
    (out.into_bytes(), kinds)
}

/// Each bound and one beside it, over the wrap and away from it; bad lines before, between and after. One run has one death.
pub fn stored() -> Vec<u8> {
    let mut out = String::new();
    for bad in MALFORMED {
        out += bad;
        out.push('\n');
    }
    for happened in [Happened::Nothing, Happened::Event, Happened::Request] {
        out += &line(5, happened);
    }
    let mut time = (1u64 << 32) - 12_000;
    out += &format!("start {time}\n");
    let mut show = |out: &mut String, ahead: u64, happened: Happened| {
        time += ahead;
        *out += &line(time, happened);
    };
    use Happened::{Event, Nothing, Request};
    // Asked for at 5,000 and at more, never at less, once a silence; an event at each bound counts first.
    for counted in [Event, Request] {
        for asked in [5_000, 5_001, 5_999, 6_000] {
            for last in [0, 1, 4_999, 5_000, 5_001, 20_000] {
                show(&mut out, 0, Nothing);
                show(&mut out, 4_999, Nothing);
                show(&mut out, asked - 4_999, Nothing);
                show(&mut out, 0, Nothing);
                if last > 4_999 {
                    show(&mut out, 4_999, Nothing);
                    show(&mut out, last - 4_999, counted);
                } else {
                    show(&mut out, last, counted);
                }
            }
        }
        for last in [0, 1, 4_999, 5_000, 5_001] {
            show(&mut out, last, counted);
        }
    }
    // To the last tick before the wrap, to the first after it, and over the wrap in one step, asked and not asked.
    for before in [0, 1, 2, 4_998, 4_999, 5_000, 5_001, 9_999] {
        let left = |time: u64| (1 << 32) - time % (1 << 32);
        let ahead = left(time) - before;
        time += ahead;
        out += &line(time, Event);
        for ahead in [1, 4_998, 1, 4_999] {
            time += ahead;
            out += &line(time, Nothing);
        }
        time += 1;
        out += &line(time, Request);
    }
    // The largest gaps that one showing can have.
    for ahead in [(1 << 32) - 1, 1 << 31, (1 << 31) - 1] {
        time += ahead;
        out += &line(time, Event);
        time += ahead;
        out += &line(time, Nothing);
        time += ahead;
        out += &line(time, Event);
    }
    out += "start 7\n";
    // Shown once in 1,000 ms, with an event in every 4,000 ms, through a wrap. It begins 10,000 ms before a wrap, less than a
    // whole turn of the tick from here.
    time += (2 * (1 << 32) - 10_000 - time % (1 << 32)) % (1 << 32);
    out += &line(time, Event);
    for turn in 1..20 {
        time += 1_000;
        out += &line(time, if turn % 4 == 0 { Event } else { Nothing });
    }
    // Asked as late as can be, at 5,999; 4,999 after that not dead, 5,000 after it dead, and then for good.
    time += 1;
    out += &line(time, Event);
    for ahead in [999, 1_000, 1_000, 1_000, 1_000, 1_000, 999, 1_000, 1_000, 1_000, 1_000, 1, 999] {
        time += ahead;
        out += &line(time, Nothing);
    }
    for _ in 0..3 {
        for (ahead, happened) in
            [(0, Nothing), (1, Event), (4_999, Nothing), (5_000, Nothing), (1, Request), (5_000, Nothing), (6_000, Event)]
        {
            time += ahead;
            out += &line(time, happened);
        }
        time += (1 << 32) - time % (1 << 32);
    }
    for bad in MALFORMED {
        out += bad;
        out.push('\n');
    }
    out += &line(time, Nothing);
    out.into_bytes()
}

#[cfg(test)]
mod tests {
    use super::*;
    use crate::watch::watch;

    #[test]
    fn malformed_lines_are_bad() {
        for bad in MALFORMED {
            let text = format!("start 0\n{bad}\n");
            assert_eq!(watch(text.as_bytes()), "bad line\n", "{bad:?}");
        }
    }

    #[test]
    fn every_answer_is_drawn() {
        let mut all = String::new();
        for seed in 0..200 {
            all += &watch(&input(seed, 40).0);
        }
        for answer in ["-\n", "ask\n", "answer\n", "dead\n", "bad line\n"] {
            assert!(all.contains(answer), "{answer}");
        }
    }

    #[test]
    fn one_death_in_the_stored_run() {
        let answers = watch(&stored());
        let first = answers.lines().position(|line| line == "dead").unwrap();
        assert!(answers.lines().take(first).filter(|line| *line == "ask").count() > 50);
        assert!(answers.lines().skip(first).all(|line| ["dead", "answer", "bad line"].contains(&line)));
    }
}
