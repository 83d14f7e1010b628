//! The C entries of libflorinwick.a over bytes, as include/florinwick.h declares them.

#![allow(dead_code)]

extern "C" {
    pub fn florinwick_scratch_need(page_size: u64) -> u64;
    pub fn florinwick_initialise(
        store: *mut u8, store_length: usize, heap: *const u8, heap_length: usize, record: *const u8, record_length: usize,
        batch: *const u8, batch_length: usize, scratch: *mut u8, scratch_length: usize,
        answer: *mut u8, answer_length: usize,
    ) -> u64;
    pub fn florinwick_insert(
        store: *mut u8, store_length: usize, heap: *const u8, heap_length: usize, record: *const u8, record_length: usize, root: u64,
        batch: *const u8, batch_length: usize, scratch: *mut u8, scratch_length: usize,
        answer: *mut u8, answer_length: usize,
    ) -> u64;
    pub fn florinwick_insert_named(
        store: *mut u8, store_length: usize, heap: *const u8, heap_length: usize, record: *const u8, record_length: usize, root: u64,
        batch: *const u8, batch_length: usize, scratch: *mut u8, scratch_length: usize,
        answer: *mut u8, answer_length: usize,
    ) -> u64;
    pub fn florinwick_held(
        store: *const u8, store_length: usize, heap: *const u8, heap_length: usize, record: *const u8, record_length: usize, root: u64,
        batch: *const u8, batch_length: usize, answer: *mut u8, answer_length: usize,
    ) -> u64;
    pub fn florinwick_fetch(
        store: *const u8, store_length: usize, record: *const u8, record_length: usize, page: u64,
        answer: *mut u8, answer_length: usize,
    ) -> u64;
    pub fn florinwick_check(
        store: *const u8, store_length: usize, heap: *const u8, heap_length: usize, record: *const u8, record_length: usize, root: u64,
        answer: *mut u8, answer_length: usize,
    ) -> u64;
    pub fn florinwick_list_start(
        store: *const u8, store_length: usize, heap: *const u8, heap_length: usize, record: *const u8, record_length: usize, root: u64,
        lower: *const u8, lower_length: usize, upper: *const u8, upper_length: usize,
        cursor: *mut u8, cursor_length: usize, answer: *mut u8, answer_length: usize,
    ) -> u64;
    pub fn florinwick_list_step(
        store: *const u8, store_length: usize, heap: *const u8, heap_length: usize, record: *const u8, record_length: usize,
        cursor: *mut u8, cursor_length: usize, datom: *mut u8, datom_length: usize,
        answer: *mut u8, answer_length: usize,
    ) -> u64;
    pub fn florinwick_append_u64(
        heap: *mut u8, heap_slice_length: usize, heap_length: u64, value: u64, answer: *mut u8, answer_length: usize,
    ) -> u64;
    pub fn florinwick_append_bytes(
        heap: *mut u8, heap_slice_length: usize, heap_length: u64, bytes: *const u8, bytes_length: usize,
        answer: *mut u8, answer_length: usize,
    ) -> u64;
}
