//! The functions of crates/ember/include/ember.h. A lent slice is a pointer and its length.

use crate::Row;

extern "C" {
    pub fn ember_start(session: *mut u64, words: usize) -> u64;
    pub fn ember_feed(
        session: *mut u64,
        words: usize,
        store: *mut u8,
        store_bytes: usize,
        chunk: *const u8,
        chunk_bytes: usize,
        answer: *mut u64,
        answer_words: usize,
    ) -> u64;
    pub fn ember_write_frame(content: *const u8, content_bytes: usize, out: *mut u8, out_bytes: usize, count: *mut u64) -> u64;
    pub fn ember_write_request(out: *mut u8, out_bytes: usize, count: *mut u64) -> u64;
    pub fn ember_write_response(out: *mut u8, out_bytes: usize, count: *mut u64) -> u64;
    pub fn ember_write_message(message: *const u8, bytes: usize, out: *mut u8, out_bytes: usize, count: *mut u64) -> u64;
    pub fn ember_read(
        message: *const u8,
        bytes: usize,
        table: *mut Row,
        rows: usize,
        answer: *mut u64,
        answer_words: usize,
    ) -> u64;
    pub fn ember_write(
        table: *const Row,
        rows: usize,
        count: usize,
        root: u64,
        message: *const u8,
        bytes: usize,
        out: *mut u8,
        out_bytes: usize,
        answer: *mut u64,
        answer_words: usize,
    ) -> u64;
    pub fn ember_accepts(table: *const Row, rows: usize, count: usize, root: u64, message: *const u8, bytes: usize) -> u64;
    pub fn ember_desk_size(figures: *const u64, words: usize) -> u64;
    pub fn ember_desk_open(
        figures: *const u64,
        words: usize,
        mode: u64,
        path: *const u64,
        path_words: usize,
        crosspoints: *mut u8,
        crosspoint_bytes: usize,
    ) -> u64;
    pub fn ember_desk_is_legal(
        figures: *const u64,
        words: usize,
        path: *const u64,
        path_words: usize,
        crosspoints: *const u8,
        crosspoint_bytes: usize,
    ) -> u64;
    pub fn ember_desk_request(
        figures: *const u64,
        words: usize,
        target: u64,
        sources: *const u64,
        sources_words: usize,
        operation: u64,
        crosspoints: *mut u8,
        crosspoint_bytes: usize,
    ) -> u64;
    pub fn ember_desk_call(
        figures: *const u64,
        words: usize,
        path: *const u64,
        path_words: usize,
        table: *const Row,
        rows: usize,
        count: usize,
        root: u64,
        message: *const u8,
        bytes: usize,
        crosspoints: *mut u8,
        crosspoint_bytes: usize,
        answers: *mut [u8; 256],
        answer: *mut u64,
        answer_words: usize,
    ) -> u64;
    pub fn ember_turn(
        session: *mut u64,
        words: usize,
        store: *mut u8,
        store_bytes: usize,
        chunk: *const u8,
        chunk_bytes: usize,
        table: *mut Row,
        rows: usize,
        figures: *const u64,
        figures_words: usize,
        path: *const u64,
        path_words: usize,
        crosspoints: *mut u8,
        crosspoint_bytes: usize,
        answers: *mut [u8; 256],
        answer: *mut u64,
        answer_words: usize,
    ) -> u64;
    pub fn ember_sheet_write(
        figures: *const u64,
        words: usize,
        path: *const u64,
        path_words: usize,
        crosspoints: *const u8,
        crosspoint_bytes: usize,
        out: *mut u8,
        out_bytes: usize,
        answer: *mut u64,
        answer_words: usize,
    ) -> u64;
    pub fn ember_sheet_read(
        text: *const u8,
        bytes: usize,
        store: *mut u8,
        store_bytes: usize,
        figures: *mut u64,
        figures_words: usize,
        path: *mut u64,
        path_words: usize,
        crosspoints: *mut u8,
        crosspoint_bytes: usize,
        answer: *mut u64,
        answer_words: usize,
    ) -> u64;
}
