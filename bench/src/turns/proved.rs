//! The proved turn, through the C library (crates/ember/include/ember.h). Compiled only where build.rs finds it.
use super::{Figures, Host, Turn};
use crate::glow::{Row, ENTRIES};
use crate::STORE;

extern "C" {
    /// One turn. Lent: the session's four words (as `framing_feed` has them), the store, the chunk, the table, the desk (seven
    /// words: type, targets, sources, whether there is a total limit and which, whether there is one per target and which), its
    /// path's numbers, its crosspoints, 256 bytes for the answers of the desk's call, and nine words that say what the calls
    /// answered. Returned is the session's number; of the nine words the benchmark uses the second, the bytes consumed, the fourth,
    /// the tree reader's number (0 if it was not called), the eighth, the desk call's number, and the ninth, the count of its answers.
    fn ember_turn(
        session: *mut u64,
        session_words: usize,
        store: *mut u8,
        store_bytes: usize,
        chunk: *const u8,
        chunk_bytes: usize,
        table: *mut Row,
        rows: usize,
        desk: *const u64,
        desk_words: usize,
        path: *const u64,
        path_numbers: usize,
        cells: *mut u8,
        cell_count: usize,
        answers: *mut [u8; 256],
        said: *mut u64,
        said_words: usize,
    ) -> u64;
    /// The desk's call alone, on entries handed in with the message that their parts lie in; one word says how many answers
    /// there are.
    fn ember_desk_call(
        desk: *const u64,
        desk_words: usize,
        path: *const u64,
        path_numbers: usize,
        table: *const Row,
        rows: usize,
        count: usize,
        root: u64,
        message: *const u8,
        message_bytes: usize,
        cells: *mut u8,
        cell_count: usize,
        answers: *mut [u8; 256],
        said: *mut u64,
        said_words: usize,
    ) -> u64;
}

/// The desk's seven words.
pub fn words(figures: &Figures) -> [u64; 7] {
    let limit = |limit: Option<u64>| [u64::from(limit.is_some()), limit.unwrap_or(0)];
    let ([has_total, total], [has_per_target, per_target]) = (limit(figures.total), limit(figures.per_target));
    [figures.kind, figures.targets, figures.sources, has_total, total, has_per_target, per_target]
}

/// As `plain_desk::call`, with the desk's words beside its figures and answers of a byte.
pub fn call(
    figures: &Figures,
    desk: &[u64; 7],
    cells: &mut [u8],
    rows: &[Row],
    count: usize,
    root: u64,
    message: &[u8],
    answers: &mut [u8; 256],
) -> Result<usize, u64> {
    let mut said = [0];
    let number = unsafe {
        ember_desk_call(
            desk.as_ptr(),
            desk.len(),
            figures.path.as_ptr(),
            figures.path.len(),
            rows.as_ptr(),
            rows.len(),
            count,
            root,
            message.as_ptr(),
            message.len(),
            cells.as_mut_ptr(),
            cells.len(),
            answers,
            said.as_mut_ptr(),
            said.len(),
        )
    };
    match number {
        0 => Ok(said[0] as usize),
        _ => Err(number),
    }
}

pub struct Proved {
    session: [u64; 4],
    store: Vec<u8>,
    table: Vec<Row>,
    figures: Figures,
    desk: [u64; 7],
    cells: Vec<u8>,
    bytes: [u8; 256],
    answers: Vec<u64>,
}

impl Proved {
    pub fn open(figures: &Figures) -> Proved {
        let mut session = [0; 4];
        assert_eq!(crate::proved::start(&mut session), 0);
        Proved {
            session,
            store: vec![0; STORE],
            table: vec![[0; 50]; ENTRIES],
            figures: figures.clone(),
            desk: words(figures),
            cells: vec![0; figures.cells()],
            bytes: [0; 256],
            answers: vec![0; ENTRIES],
        }
    }
}

impl Host for Proved {
    /// The library reads and writes only within the slices, whatever they hold and however long they are.
    fn turn(&mut self, chunk: &[u8]) -> Turn {
        let mut said = [0; 9];
        let event = unsafe {
            ember_turn(
                self.session.as_mut_ptr(),
                self.session.len(),
                self.store.as_mut_ptr(),
                self.store.len(),
                chunk.as_ptr(),
                chunk.len(),
                self.table.as_mut_ptr(),
                self.table.len(),
                self.desk.as_ptr(),
                self.desk.len(),
                self.figures.path.as_ptr(),
                self.figures.path.len(),
                self.cells.as_mut_ptr(),
                self.cells.len(),
                &mut self.bytes,
                said.as_mut_ptr(),
                said.len(),
            )
        };
        let [_, consumed, _, tree, _, _, _, desk, answers] = said;
        assert!(event != 1 && desk == 0);
        let tree = (event == 3).then_some(tree);
        let answers = (tree == Some(0)).then_some(answers as usize);
        for (word, &byte) in self.answers.iter_mut().zip(&self.bytes[..answers.unwrap_or(0)]) {
            *word = u64::from(byte);
        }
        Turn { consumed: consumed as usize, event, tree, answers }
    }

    fn answers(&self) -> &[u64] {
        &self.answers
    }

    fn holds(&self, target: usize, source: usize) -> bool {
        self.cells[self.figures.cell(target, source)] == 1
    }
}
