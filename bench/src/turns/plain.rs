//! Two hosts in safe Rust, with the plain session and the plain tree reader.
use super::plain_desk::{after, call, request};
use super::{Figures, Host, Turn, SIDE};
use crate::glow::{plain::read, Answer, Row, ENTRIES};
use crate::plain::Session;
use crate::Reader;

/// Session and tree reader: the turn as far as the desk, and Root's kind and the entries' count for it.
fn before_the_desk(session: &mut Session, table: &mut [Row], chunk: &[u8]) -> (Turn, Option<(usize, u64, usize)>) {
    let fed = session.feed(chunk);
    let mut turn = Turn { consumed: fed.consumed, event: fed.number, tree: None, answers: None };
    if fed.number != 3 {
        return (turn, None);
    }
    let answer = read(&session.store[..fed.length], table);
    let (number, entries) = match answer {
        Answer::Setup => (1, None),
        Answer::Refused { number, .. } => (number, None),
        Answer::Room { .. } => (38, None),
        Answer::Read { streams, count } => (0, Some((count, if streams { 3 } else { 0 }, fed.length))),
    };
    turn.tree = Some(number);
    (turn, entries)
}

/// By the same contract as the proved one: lent crosspoints, and what is lent to the desk's call is judged each time.
pub struct Plain {
    session: Session,
    table: Vec<Row>,
    figures: Figures,
    cells: Vec<u8>,
    answers: Vec<u64>,
}

impl Plain {
    pub fn open(figures: &Figures) -> Plain {
        Plain {
            session: Session::start(),
            table: vec![[0; 50]; ENTRIES],
            figures: figures.clone(),
            cells: vec![0; figures.cells()],
            answers: vec![0; ENTRIES],
        }
    }
}

impl Host for Plain {
    fn turn(&mut self, chunk: &[u8]) -> Turn {
        let (mut turn, entries) = before_the_desk(&mut self.session, &mut self.table, chunk);
        if let Some((count, root, length)) = entries {
            let message = &self.session.store[..length];
            let said = call(&self.figures, &mut self.cells, &self.table, count, root, message, &mut self.answers);
            turn.answers = Some(said.expect("the desk is its own, and the entries are as read"));
        }
        turn
    }

    fn answers(&self) -> &[u64] {
        &self.answers
    }

    fn holds(&self, target: usize, source: usize) -> bool {
        self.cells[self.figures.cell(target, source)] == 1
    }
}

/// As one would write it inside one program: the desk is its own, a word of bits for each target, and neither it nor what the
/// reader made is judged again.
pub struct Trusting {
    session: Session,
    table: Vec<Row>,
    figures: Figures,
    rows: [u64; SIDE],
    total: u64,
    answers: Vec<u64>,
}

impl Trusting {
    pub fn open(figures: &Figures) -> Trusting {
        Trusting {
            session: Session::start(),
            table: vec![[0; 50]; ENTRIES],
            figures: figures.clone(),
            rows: [0; SIDE],
            total: 0,
            answers: Vec::with_capacity(ENTRIES),
        }
    }

    fn answer(&mut self, place: usize, length: usize, matrix: &mut (u64, bool)) -> Result<(), u64> {
        let message = &self.session.store[..length];
        let request = request(&self.figures, &self.table, &self.table[place], message, matrix)?;
        let (new, takes) = after(&self.figures, &request, self.rows[request.target], self.total)?;
        if takes {
            for row in &mut self.rows {
                self.total -= u64::from((*row & new).count_ones());
                *row &= !new;
            }
        }
        let row = &mut self.rows[request.target];
        self.total = self.total + u64::from(new.count_ones()) - u64::from(row.count_ones());
        *row = new;
        Ok(())
    }
}

impl Host for Trusting {
    fn turn(&mut self, chunk: &[u8]) -> Turn {
        let (mut turn, entries) = before_the_desk(&mut self.session, &mut self.table, chunk);
        if let Some((count, _, length)) = entries {
            self.answers.clear();
            let mut matrix = (0, false);
            for place in 0..count {
                if self.table[place][0] == 8 {
                    let answer = self.answer(place, length, &mut matrix);
                    self.answers.push(answer.err().unwrap_or(0));
                }
            }
            turn.answers = Some(self.answers.len());
        }
        turn
    }

    fn answers(&self) -> &[u64] {
        &self.answers
    }

    fn holds(&self, target: usize, source: usize) -> bool {
        self.rows[target] >> source & 1 == 1
    }
}
