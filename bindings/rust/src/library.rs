//! The functions of the header behind a lock, which is held for each call.
use crate::sys::{self, Handle, Many, One, PairLengths, Part, Settings, Two, Whole};
use crate::sys::{BAD_SAVE, FOUND, LISTED, NEED_TELL, NO_SUCH_CACHE, OTHER_VERSION, SHORT_BUFFER};
use crate::Error;
use std::hash::{BuildHasher, Hasher, RandomState};
use std::sync::{Mutex, PoisonError};

/// So many bytes of a value are read at once; longer ones are asked for twice.
const ROOM: usize = 256;
/// Room for a step of a walk, whose longest row has 65,609 bytes.
pub(crate) const WALK_ROOM: usize = 1 << 17;

/// A cache has at most so many processors.
const PROCESSORS: usize = 16;

/// A handle, which is closed where it is dropped.
pub(crate) struct Library(Mutex<Handle>);

impl Drop for Library {
    fn drop(&mut self) {
        self.close();
    }
}

/// A refusing status as an error; any other as it is.
pub(crate) fn accepted(status: u32) -> Result<u32, Error> {
    if status > NEED_TELL {
        Err(Error::of(status))
    } else {
        Ok(status)
    }
}

impl Library {
    /// Keys are placed by the seed, or under a secret where there is none.
    pub(crate) fn open(seed: Option<u64>) -> Result<Library, Error> {
        let mut handle = Handle { at: std::ptr::null_mut() };
        accepted(match seed {
            Some(seed) => unsafe { sys::jc_open(&mut handle, seed) },
            None => unsafe { sys::jc_open_secret(&mut handle, secret().as_ptr()) },
        })?;
        Ok(Library(Mutex::new(handle)))
    }

    pub(crate) fn close(&self) {
        self.ask(|h| unsafe { sys::jc_close(h) });
    }

    fn ask(&self, call: impl FnOnce(&mut Handle) -> u32) -> u32 {
        call(&mut self.0.lock().unwrap_or_else(PoisonError::into_inner))
    }

    pub(crate) fn create(&self, name: &str, settings: &Settings, wants: &[u8]) -> Result<u32, Error> {
        let (n, w, mut id) = (name.as_ptr(), wants.as_ptr(), 0);
        let status = self.ask(|h| unsafe { sys::jc_create(h, n, name.len(), settings, w, wants.len(), &mut id) });
        accepted(status).map(|_| id)
    }

    pub(crate) fn destroy(&self, id: u32) -> u32 {
        self.ask(|h| unsafe { sys::jc_destroy(h, id) })
    }

    /// The id of a live cache; none where there is none of this name.
    pub(crate) fn find(&self, name: &str) -> Result<Option<u32>, Error> {
        let mut id = 0;
        match self.ask(|h| unsafe { sys::jc_find(h, name.as_ptr(), name.len(), &mut id) }) {
            NO_SUCH_CACHE => Ok(None),
            status => accepted(status).map(|_| Some(id)),
        }
    }

    /// The names of the live caches in order of id, each behind 4 bytes of its id and 1 for its length.
    pub(crate) fn names(&self) -> Result<Vec<u8>, Error> {
        let (status, names) = self.read(|h, out, room, len| unsafe { sys::jc_names(h, out, room, len) });
        accepted(status).map(|_| names)
    }

    /// All by which a cache will ever answer.
    pub(crate) fn save(&self, id: u32) -> Result<Vec<u8>, Error> {
        let (status, saved) = self.read(|h, out, room, len| unsafe { sys::jc_save(h, id, out, room, len) });
        accepted(status).map(|_| saved)
    }

    /// Reads bytes of any length under one lock.
    fn read(&self, read: impl Fn(&mut Handle, *mut u8, usize, &mut usize) -> u32) -> (u32, Vec<u8>) {
        let (mut room, mut len) = (vec![0; ROOM], 0);
        let status = self.ask(|h| loop {
            match read(h, room.as_mut_ptr(), room.len(), &mut len) {
                SHORT_BUFFER => room.resize(len, 0),
                status => break status,
            }
        });
        room.truncate(len);
        (status, room)
    }

    /// Makes a cache of what was saved: its id, its settings, and of each processor whether it wants the value.
    pub(crate) fn restore(&self, name: &str, saved: &[u8], max_value: u32) -> Result<(u32, Settings, Vec<u8>), Error> {
        let (n, s, mut id, mut place) = (name.as_ptr(), saved.as_ptr(), 0, 0);
        let (mut settings, mut wants, mut len) = (Settings::default(), [0; PROCESSORS], 0);
        let status = self.ask(|h| unsafe {
            match sys::jc_restore(h, n, name.len(), s, saved.len(), max_value, &mut id, &mut place) {
                0 => sys::jc_settings_of(h, id, &mut settings, wants.as_mut_ptr(), PROCESSORS, &mut len),
                refusal => refusal,
            }
        });
        match status {
            BAD_SAVE => Err(Error::BadSave { place }),
            OTHER_VERSION => Err(Error::OtherVersion { place }),
            status => accepted(status).map(|_| (id, settings, wants[..len.min(PROCESSORS)].to_vec())),
        }
    }

    pub(crate) fn whole(&self, call: Whole, id: u32, now: u64) -> u32 {
        self.ask(|h| unsafe { call(h, id, now) })
    }

    pub(crate) fn one(&self, call: One, id: u32, now: u64, key: &str) -> u32 {
        self.ask(|h| unsafe { call(h, id, now, key.as_ptr(), key.len()) })
    }

    pub(crate) fn two(&self, call: Two, id: u32, now: u64, key: &str, value: &[u8]) -> u32 {
        self.ask(|h| unsafe { call(h, id, now, key.as_ptr(), key.len(), value.as_ptr(), value.len()) })
    }

    pub(crate) fn replace_if(&self, id: u32, now: u64, key: &str, old: &[u8], value: &[u8]) -> u32 {
        let (k, o, v) = (key.as_ptr(), old.as_ptr(), value.as_ptr());
        self.ask(|h| unsafe { sys::jc_replace_if(h, id, now, k, key.len(), o, old.len(), v, value.len()) })
    }

    /// As `jc_get`; what was found comes with the status.
    pub(crate) fn get(&self, id: u32, now: u64, key: &str) -> (u32, Option<Vec<u8>>) {
        let (mut room, mut len, mut found) = ([0; ROOM], 0, None);
        let status = self.ask(|h| unsafe {
            let status = sys::jc_get_into(h, id, now, key.as_ptr(), key.len(), room.as_mut_ptr(), ROOM, &mut len);
            if status == FOUND && len > ROOM {
                let mut whole = vec![0; len];
                sys::jc_value(h, id, 0, whole.as_mut_ptr(), len, &mut len);
                found = Some(whole);
            }
            status
        });
        if status == FOUND && found.is_none() {
            found = Some(room[..len].to_vec());
        }
        (status, found)
    }

    /// Runs the function of a place among the cache's processors.
    pub(crate) fn invoke(&self, id: u32, now: u64, key: &str, place: u8) -> u32 {
        let (k, empty) = (key.as_ptr(), [].as_ptr());
        self.ask(|h| unsafe { sys::jc_invoke(h, id, now, k, key.len(), place, empty, 0) })
    }

    pub(crate) fn many(&self, call: Many, id: u32, now: u64, keys: &[&str]) -> u32 {
        let (lengths, all) = joined(keys);
        let (l, k) = (lengths.as_ptr(), all.as_ptr());
        self.ask(|h| unsafe { call(h, id, now, l, lengths.len(), k, all.len()) })
    }

    pub(crate) fn load_all(&self, id: u32, now: u64, keys: &[&str], replace: bool) -> u32 {
        let (lengths, all) = joined(keys);
        let (l, k) = (lengths.as_ptr(), all.as_ptr());
        self.ask(|h| unsafe { sys::jc_load_all(h, id, now, l, lengths.len(), k, all.len(), replace.into()) })
    }

    pub(crate) fn invoke_all(&self, id: u32, now: u64, keys: &[&str], place: u8) -> u32 {
        let (lengths, all) = joined(keys);
        let (l, k, empty) = (lengths.as_ptr(), all.as_ptr(), [].as_ptr());
        self.ask(|h| unsafe { sys::jc_invoke_all(h, id, now, l, lengths.len(), k, all.len(), place, empty, 0) })
    }

    pub(crate) fn put_all(&self, id: u32, now: u64, pairs: &[(&str, &[u8])]) -> u32 {
        let pair = |(key, value): &(&str, &[u8])| PairLengths { key: length(key.len()), value: length(value.len()) };
        let lengths: Vec<_> = pairs.iter().map(pair).collect();
        let all: Vec<u8> = pairs.iter().flat_map(|(key, value)| [key.as_bytes(), value].concat()).collect();
        let (l, p) = (lengths.as_ptr(), all.as_ptr());
        self.ask(|h| unsafe { sys::jc_put_all(h, id, now, l, lengths.len(), p, all.len()) })
    }

    /// Answers a request: with a function that takes the cache alone.
    pub(crate) fn answer(&self, call: unsafe extern "C" fn(*mut Handle, u32) -> u32, id: u32) -> u32 {
        self.ask(|h| unsafe { call(h, id) })
    }

    pub(crate) fn loaded(&self, id: u32, value: &[u8]) -> u32 {
        self.ask(|h| unsafe { sys::jc_loaded(h, id, value.as_ptr(), value.len()) })
    }

    pub(crate) fn processed(&self, id: u32, (action, value): (u32, &[u8])) -> u32 {
        let empty = [].as_ptr();
        self.ask(|h| unsafe { sys::jc_processed(h, id, action, value.as_ptr(), value.len(), 0, empty, 0) })
    }

    pub(crate) fn items(&self, id: u32) -> usize {
        let mut count = 0;
        self.ask(|h| unsafe { sys::jc_items(h, id, &mut count) });
        count
    }

    pub(crate) fn number(&self, id: u32, place: usize) -> Option<u64> {
        let mut number = 0;
        (self.ask(|h| unsafe { sys::jc_number(h, id, place, &mut number) }) == 0).then_some(number)
    }

    pub(crate) fn key(&self, id: u32, item: usize) -> String {
        String::from_utf8(self.part(sys::jc_key, id, item).unwrap_or_default()).unwrap_or_default()
    }

    pub(crate) fn value(&self, id: u32, item: usize) -> Option<Vec<u8>> {
        self.part(sys::jc_value, id, item)
    }

    pub(crate) fn before(&self, id: u32, item: usize) -> Option<Vec<u8>> {
        self.part(sys::jc_before, id, item)
    }

    fn part(&self, part: Part, id: u32, item: usize) -> Option<Vec<u8>> {
        let (status, bytes) = self.read(|h, out, room, len| unsafe { part(h, id, item, out, room, len) });
        (status == 0).then_some(bytes)
    }

    /// A live row's value, and the moment at which it expires.
    pub(crate) fn peek(&self, id: u32, now: u64, key: &str) -> Result<Option<(Vec<u8>, u64)>, Error> {
        let (mut room, mut len, mut expires) = (vec![0; ROOM], 0, 0);
        let k = key.as_ptr();
        let status = self.ask(|h| loop {
            let (out, most) = (room.as_mut_ptr(), room.len());
            let status = unsafe { sys::jc_peek(h, id, now, k, key.len(), &mut expires, out, most, &mut len) };
            if status != FOUND || len <= most {
                break status;
            }
            room.resize(len, 0);
        });
        room.truncate(len);
        Ok((accepted(status)? == FOUND).then_some((room, expires)))
    }

    pub(crate) fn rows(&self, id: u32) -> Result<usize, Error> {
        let mut rows = 0;
        accepted(self.ask(|h| unsafe { sys::jc_rows(h, id, &mut rows) })).map(|_| rows)
    }

    pub(crate) fn byte_count(&self, id: u32) -> Result<u64, Error> {
        let mut bytes = 0;
        accepted(self.ask(|h| unsafe { sys::jc_bytes(h, id, &mut bytes) })).map(|_| bytes)
    }

    /// Whether the handle is closed.
    pub(crate) fn is_closed(&self) -> bool {
        matches!(self.find("?"), Err(Error::Closed))
    }

    /// A step of a walk: its bytes, and the number to go on from; none behind the last row.
    pub(crate) fn walk(&self, id: u32, from: u32, room: &mut [u8]) -> Option<(usize, u32)> {
        let (mut len, mut next) = (0, 0);
        let (out, most) = (room.as_mut_ptr(), room.len());
        let status = self.ask(|h| unsafe { sys::jc_walk(h, id, from, out, most, &mut len, &mut next) });
        (status == LISTED).then_some((len, next))
    }
}

/// Bytes that nobody else knows: hashes under keys that std draws from the system.
fn secret() -> [u8; 16] {
    let mut secret = [0; 16];
    for half in secret.chunks_exact_mut(8) {
        half.copy_from_slice(&RandomState::new().build_hasher().finish().to_ne_bytes());
    }
    secret
}

/// A length that no key and no value has is refused whatever it is.
fn length(len: usize) -> u32 {
    u32::try_from(len).unwrap_or(u32::MAX)
}

/// How many bytes each key has, and the keys one after the other.
fn joined(keys: &[&str]) -> (Vec<u32>, Vec<u8>) {
    (keys.iter().map(|key| length(key.len())).collect(), keys.concat().into_bytes())
}
