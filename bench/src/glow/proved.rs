//! The proved reader, writer and test of entries, through their C interface. Compiled only where build.rs finds `libglow_c.a`.
use super::{Answer, Row};

extern "C" {
    fn glow_read(message: *const u8, n: usize, table: *mut Row, rows: usize, answer: *mut u64, words: usize) -> u64;
    fn glow_write(
        rows: *const Row,
        n: usize,
        count: usize,
        root: u64,
        message: *const u8,
        length: usize,
        out: *mut u8,
        out_length: usize,
        answer: *mut u64,
        answer_words: usize,
    ) -> u64;
    fn glow_accepts(rows: *const Row, n: usize, count: usize, root: u64, message: *const u8, length: usize) -> u64;
}

/// The library reads and writes only within the slices, whatever they hold and however long they are.
pub fn read(message: &[u8], table: &mut [Row]) -> Answer {
    let mut words = [0; 3];
    let number =
        unsafe { glow_read(message.as_ptr(), message.len(), table.as_mut_ptr(), table.len(), words.as_mut_ptr(), words.len()) };
    answer(number, words)
}

/// The number, and the answer's words: the place (30 to 37), the count (38 and 0), and Root's kind (0: elements, 3: streams).
fn answer(number: u64, words: [u64; 3]) -> Answer {
    match number {
        0 => Answer::Read { count: words[1] as usize, streams: words[2] == 3 },
        1 => Answer::Setup,
        38 => Answer::Room { count: words[1] as usize },
        _ => Answer::Refused { number, place: words[0] as usize },
    }
}

/// The length written, or the number of the refusal.
pub fn write(rows: &[Row], count: usize, root: u64, message: &[u8], out: &mut [u8]) -> Result<usize, u64> {
    let mut words = [0];
    let number = unsafe {
        glow_write(
            rows.as_ptr(),
            rows.len(),
            count,
            root,
            message.as_ptr(),
            message.len(),
            out.as_mut_ptr(),
            out.len(),
            words.as_mut_ptr(),
            words.len(),
        )
    };
    match number {
        0 => Ok(words[0] as usize),
        _ => Err(number),
    }
}

/// Whether some message is read as the first `count` rows.
pub fn accepts(rows: &[Row], count: usize, root: u64, message: &[u8]) -> bool {
    unsafe { glow_accepts(rows.as_ptr(), rows.len(), count, root, message.as_ptr(), message.len()) == 1 }
}
