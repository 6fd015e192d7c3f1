//! The proved library through its C interface. Compiled only where build.rs finds `libglow_c.a` with these functions.
use reference::compare_rows::Library;
use reference::rows::Row;

#[link(name = "glow_c", kind = "static")]
extern "C" {
    fn glow_accepts(rows: *const Row, n: usize, count: usize, root: u64, message: *const u8, length: usize) -> u64;
    fn glow_write(
        rows: *const Row,
        n: usize,
        count: usize,
        root: u64,
        message: *const u8,
        length: usize,
        out: *mut u8,
        out_length: usize,
        answer: *mut u64,
        answer_words: usize,
    ) -> u64;
    fn glow_read(message: *const u8, length: usize, table: *mut Row, rows: usize, answer: *mut u64, words: usize) -> u64;
}

pub struct Glow;

/// The library reads and writes only within the slices, whatever they hold and however long they are.
impl Library for Glow {
    fn accepts(&self, rows: &[Row], count: usize, root: u64, message: &[u8]) -> u64 {
        unsafe { glow_accepts(rows.as_ptr(), rows.len(), count, root, message.as_ptr(), message.len()) }
    }

    fn write(&self, rows: &[Row], count: usize, root: u64, message: &[u8], out: &mut [u8], answer: &mut [u64]) -> u64 {
        unsafe {
            glow_write(
                rows.as_ptr(),
                rows.len(),
                count,
                root,
                message.as_ptr(),
                message.len(),
                out.as_mut_ptr(),
                out.len(),
                answer.as_mut_ptr(),
                answer.len(),
            )
        }
    }

    fn read(&self, message: &[u8], table: &mut [Row], answer: &mut [u64]) -> u64 {
        unsafe { glow_read(message.as_ptr(), message.len(), table.as_mut_ptr(), table.len(), answer.as_mut_ptr(), answer.len()) }
    }
}
