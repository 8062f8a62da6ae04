//! The functions of `jcache.h`, as they stand there, and the statuses that are told apart here.

pub const TRUE: u32 = 2;
pub const FOUND: u32 = 3;
pub const LISTED: u32 = 5;
pub const LOADER_FAILED: u32 = 8;
pub const WRITER_FAILED: u32 = 9;
pub const PROCESSOR_FAILED: u32 = 10;
pub const NEED_LOAD: u32 = 16;
pub const NEED_WRITE: u32 = 17;
pub const NEED_DELETE: u32 = 18;
pub const NEED_PROCESS: u32 = 19;
pub const NEED_TELL: u32 = 20;
pub const NO_SUCH_CACHE: u32 = 32;
pub const SHORT_BUFFER: u32 = 73;
pub const BAD_SAVE: u32 = 74;
pub const OTHER_VERSION: u32 = 75;

/// A manager, or none where it is null.
#[repr(C)]
pub struct Handle {
    pub at: *mut u8,
}

// The library has no thread of its own, and a handle may go from thread to thread.
unsafe impl Send for Handle {}

#[repr(C)]
#[derive(Default)]
pub struct Settings {
    pub duration: u64,
    pub capacity: u32,
    pub policy: u32,
    pub loader: u8,
    pub writer: u8,
    pub listeners: u8,
    pub max_value: u32,
    pub reserved: u64,
}

#[repr(C)]
pub struct PairLengths {
    pub key: u32,
    pub value: u32,
}

pub type Whole = unsafe extern "C" fn(*mut Handle, u32, u64) -> u32;
pub type One = unsafe extern "C" fn(*mut Handle, u32, u64, *const u8, usize) -> u32;
pub type Two = unsafe extern "C" fn(*mut Handle, u32, u64, *const u8, usize, *const u8, usize) -> u32;
pub type Many = unsafe extern "C" fn(*mut Handle, u32, u64, *const u32, usize, *const u8, usize) -> u32;
pub type Part = unsafe extern "C" fn(*mut Handle, u32, usize, *mut u8, usize, *mut usize) -> u32;

#[rustfmt::skip]
extern "C" {
    pub fn jc_version() -> u32;
    pub fn jc_open(m: *mut Handle, seed: u64) -> u32;
    pub fn jc_open_secret(m: *mut Handle, secret: *const u8) -> u32;
    pub fn jc_close(m: *mut Handle) -> u32;
    pub fn jc_create(m: *mut Handle, name: *const u8, name_len: usize, settings: *const Settings, wants: *const u8, wants_len: usize, id: *mut u32) -> u32;
    pub fn jc_destroy(m: *mut Handle, id: u32) -> u32;
    pub fn jc_find(m: *mut Handle, name: *const u8, name_len: usize, id: *mut u32) -> u32;
    pub fn jc_get_into(m: *mut Handle, id: u32, now: u64, key: *const u8, key_len: usize, out: *mut u8, room: usize, len: *mut usize) -> u32;
    pub fn jc_contains(m: *mut Handle, id: u32, now: u64, key: *const u8, key_len: usize) -> u32;
    pub fn jc_put(m: *mut Handle, id: u32, now: u64, key: *const u8, key_len: usize, value: *const u8, value_len: usize) -> u32;
    pub fn jc_get_and_put(m: *mut Handle, id: u32, now: u64, key: *const u8, key_len: usize, value: *const u8, value_len: usize) -> u32;
    pub fn jc_put_if_absent(m: *mut Handle, id: u32, now: u64, key: *const u8, key_len: usize, value: *const u8, value_len: usize) -> u32;
    pub fn jc_replace(m: *mut Handle, id: u32, now: u64, key: *const u8, key_len: usize, value: *const u8, value_len: usize) -> u32;
    pub fn jc_replace_if(m: *mut Handle, id: u32, now: u64, key: *const u8, key_len: usize, expected: *const u8, expected_len: usize, value: *const u8, value_len: usize) -> u32;
    pub fn jc_get_and_replace(m: *mut Handle, id: u32, now: u64, key: *const u8, key_len: usize, value: *const u8, value_len: usize) -> u32;
    pub fn jc_remove(m: *mut Handle, id: u32, now: u64, key: *const u8, key_len: usize) -> u32;
    pub fn jc_remove_if(m: *mut Handle, id: u32, now: u64, key: *const u8, key_len: usize, expected: *const u8, expected_len: usize) -> u32;
    pub fn jc_get_and_remove(m: *mut Handle, id: u32, now: u64, key: *const u8, key_len: usize) -> u32;
    pub fn jc_invoke(m: *mut Handle, id: u32, now: u64, key: *const u8, key_len: usize, processor: u8, argument: *const u8, argument_len: usize) -> u32;
    pub fn jc_get_all(m: *mut Handle, id: u32, now: u64, lengths: *const u32, count: usize, keys: *const u8, keys_len: usize) -> u32;
    pub fn jc_put_all(m: *mut Handle, id: u32, now: u64, lengths: *const PairLengths, count: usize, pairs: *const u8, pairs_len: usize) -> u32;
    pub fn jc_remove_keys(m: *mut Handle, id: u32, now: u64, lengths: *const u32, count: usize, keys: *const u8, keys_len: usize) -> u32;
    pub fn jc_load_all(m: *mut Handle, id: u32, now: u64, lengths: *const u32, count: usize, keys: *const u8, keys_len: usize, replace: u32) -> u32;
    pub fn jc_invoke_all(m: *mut Handle, id: u32, now: u64, lengths: *const u32, count: usize, keys: *const u8, keys_len: usize, processor: u8, argument: *const u8, argument_len: usize) -> u32;
    pub fn jc_remove_all(m: *mut Handle, id: u32, now: u64) -> u32;
    pub fn jc_clear(m: *mut Handle, id: u32, now: u64) -> u32;
    pub fn jc_entries(m: *mut Handle, id: u32, now: u64) -> u32;
    pub fn jc_stats(m: *mut Handle, id: u32, now: u64) -> u32;
    pub fn jc_clear_stats(m: *mut Handle, id: u32, now: u64) -> u32;
    pub fn jc_loaded(m: *mut Handle, id: u32, value: *const u8, value_len: usize) -> u32;
    pub fn jc_loaded_nothing(m: *mut Handle, id: u32) -> u32;
    pub fn jc_load_failed(m: *mut Handle, id: u32) -> u32;
    pub fn jc_written(m: *mut Handle, id: u32) -> u32;
    pub fn jc_write_failed(m: *mut Handle, id: u32) -> u32;
    pub fn jc_processed(m: *mut Handle, id: u32, action: u32, value: *const u8, value_len: usize, answers: u32, answer: *const u8, answer_len: usize) -> u32;
    pub fn jc_process_failed(m: *mut Handle, id: u32) -> u32;
    pub fn jc_told(m: *mut Handle, id: u32) -> u32;
    pub fn jc_give_up(m: *mut Handle, id: u32) -> u32;
    pub fn jc_items(m: *mut Handle, id: u32, count: *mut usize) -> u32;
    pub fn jc_key(m: *mut Handle, id: u32, item: usize, out: *mut u8, room: usize, len: *mut usize) -> u32;
    pub fn jc_value(m: *mut Handle, id: u32, item: usize, out: *mut u8, room: usize, len: *mut usize) -> u32;
    pub fn jc_before(m: *mut Handle, id: u32, item: usize, out: *mut u8, room: usize, len: *mut usize) -> u32;
    pub fn jc_number(m: *mut Handle, id: u32, place: usize, number: *mut u64) -> u32;
    pub fn jc_peek(m: *mut Handle, id: u32, now: u64, key: *const u8, key_len: usize, expires: *mut u64, out: *mut u8, room: usize, len: *mut usize) -> u32;
    pub fn jc_rows(m: *mut Handle, id: u32, rows: *mut usize) -> u32;
    pub fn jc_bytes(m: *mut Handle, id: u32, bytes: *mut u64) -> u32;
    pub fn jc_save(m: *mut Handle, id: u32, out: *mut u8, room: usize, len: *mut usize) -> u32;
    pub fn jc_restore(m: *mut Handle, name: *const u8, name_len: usize, bytes: *const u8, len: usize, max_value: u32, id: *mut u32, place: *mut usize) -> u32;
    pub fn jc_settings_of(m: *mut Handle, id: u32, settings: *mut Settings, wants: *mut u8, room: usize, len: *mut usize) -> u32;
    pub fn jc_names(m: *mut Handle, out: *mut u8, room: usize, len: *mut usize) -> u32;
    pub fn jc_walk(m: *mut Handle, id: u32, from: u32, out: *mut u8, room: usize, len: *mut usize, next: *mut u32) -> u32;
}
