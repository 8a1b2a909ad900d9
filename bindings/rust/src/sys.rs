//! What `tambyulo.h` declares. `tests/bindings` compares the two.

/// The memory of a map: as many bytes as a `tambyulo_map` and a `tambyulo_texts` have.
pub type Room = [u64; 16];

#[repr(C)]
#[derive(Clone, Copy)]
pub struct Answer {
    pub status: u64,
    pub value: u64,
}

#[repr(C)]
#[derive(Clone, Copy)]
pub struct Page {
    pub pairs: u64,
    pub bytes: u64,
}

pub const ABSENT: u64 = 0;
pub const FOUND: u64 = 1;
pub const FULL: u64 = 2;

extern "C" {
    pub fn tambyulo_size() -> usize;
    pub fn tambyulo_init(map: *mut Room);
    pub fn tambyulo_drop(map: *mut Room);
    pub fn tambyulo_len(map: *mut Room) -> u64;
    pub fn tambyulo_limit(map: *mut Room, most: u64) -> u64;
    pub fn tambyulo_get(map: *mut Room, key: *const u8, key_len: usize) -> Answer;
    pub fn tambyulo_put(map: *mut Room, key: *const u8, key_len: usize, value: u64) -> Answer;
    pub fn tambyulo_put_if_absent(map: *mut Room, key: *const u8, key_len: usize, value: u64) -> Answer;
    pub fn tambyulo_replace(map: *mut Room, key: *const u8, key_len: usize, value: u64) -> Answer;
    pub fn tambyulo_replace_if(map: *mut Room, key: *const u8, key_len: usize, old: u64, value: u64) -> Answer;
    pub fn tambyulo_remove(map: *mut Room, key: *const u8, key_len: usize) -> Answer;
    pub fn tambyulo_remove_if(map: *mut Room, key: *const u8, key_len: usize, value: u64) -> Answer;
    pub fn tambyulo_clear(map: *mut Room) -> u64;
    pub fn tambyulo_fork(source: *mut Room, target: *mut Room) -> u64;
    pub fn tambyulo_page_from(map: *mut Room, from: u64, buffer: *mut u8, room: usize) -> Page;
    pub fn tambyulo_count_prefix(map: *mut Room, prefix: *const u8, prefix_len: usize) -> u64;

    pub fn tambyulo_texts_size() -> usize;
    pub fn tambyulo_texts_init(map: *mut Room);
    pub fn tambyulo_texts_drop(map: *mut Room);
    pub fn tambyulo_texts_len(map: *mut Room) -> u64;
    pub fn tambyulo_texts_limit(map: *mut Room, most: u64) -> u64;
    pub fn tambyulo_texts_get(map: *mut Room, key: *const u8, key_len: usize, buffer: *mut u8, room: usize) -> Answer;
    pub fn tambyulo_texts_put(
        map: *mut Room,
        key: *const u8,
        key_len: usize,
        value: *const u8,
        value_len: usize,
    ) -> Answer;
    pub fn tambyulo_texts_put_if_absent(
        map: *mut Room,
        key: *const u8,
        key_len: usize,
        value: *const u8,
        value_len: usize,
    ) -> Answer;
    pub fn tambyulo_texts_replace(
        map: *mut Room,
        key: *const u8,
        key_len: usize,
        value: *const u8,
        value_len: usize,
    ) -> Answer;
    pub fn tambyulo_texts_replace_if(
        map: *mut Room,
        key: *const u8,
        key_len: usize,
        old: *const u8,
        old_len: usize,
        value: *const u8,
        value_len: usize,
    ) -> Answer;
    pub fn tambyulo_texts_remove(map: *mut Room, key: *const u8, key_len: usize) -> Answer;
    pub fn tambyulo_texts_remove_if(
        map: *mut Room,
        key: *const u8,
        key_len: usize,
        value: *const u8,
        value_len: usize,
    ) -> Answer;
    pub fn tambyulo_texts_clear(map: *mut Room) -> u64;
    pub fn tambyulo_texts_fork(source: *mut Room, target: *mut Room) -> u64;
    pub fn tambyulo_texts_page_from(map: *mut Room, from: u64, buffer: *mut u8, room: usize) -> Page;
    pub fn tambyulo_texts_count_prefix(map: *mut Room, prefix: *const u8, prefix_len: usize) -> u64;
}
