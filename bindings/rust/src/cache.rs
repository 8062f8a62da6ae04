//! A cache.
use crate::asking::{Asking, Process};
use crate::sys::{self, Two, Whole, FOUND, TRUE};
use crate::walk::{moment, Iter};
use crate::{BoxError, Configuration, Entry, Error, Results, Row, Statistics};
use std::fmt;
use std::sync::Arc;

type Clock = dyn Fn() -> u64 + Send + Sync;

/// A cache of a manager, with the methods of JSR 107's `Cache` in snake case. Its clones are the same cache.
///
/// A whole call holds the cache's turn, hooks too: other threads wait, and the hook's own calls on the cache are refused
/// as [`Error::Busy`]. Each call may be refused, and may fail where it asks a hook.
#[derive(Clone)]
pub struct Cache {
    pub(crate) asking: Arc<Asking>,
    name: Arc<str>,
    clock: Arc<Clock>,
    now: Option<u64>,
}

/// A process for calls that run no function.
fn none(_: &mut Entry) -> Result<(), Option<BoxError>> {
    Ok(())
}

impl Cache {
    pub(crate) fn new(asking: Asking, name: &str, clock: Arc<Clock>) -> Cache {
        Cache { asking: Arc::new(asking), name: name.into(), clock, now: None }
    }

    /// The same cache, called at this moment, in milliseconds, and not at the clock's.
    pub fn at(&self, now: u64) -> Cache {
        Cache { now: Some(now), ..self.clone() }
    }

    /// The cache's name (`getName`).
    pub fn name(&self) -> &str {
        &self.name
    }

    /// What the cache was made or restored with (`getConfiguration`).
    pub fn configuration(&self) -> &Configuration {
        &self.asking.hooks
    }

    /// The value; a missing key is loaded (`get`).
    pub fn get(&self, key: &str) -> Result<Option<Vec<u8>>, Error> {
        let _turn = self.asking.turn.take()?;
        let (status, found) = self.asking.library.get(self.asking.id, self.now(), key);
        match found {
            Some(value) => Ok(Some(value)),
            None => self.asking.finish(status, &mut none).map(|status| self.shown(status)),
        }
    }

    /// Whether there is a value. Nothing is loaded, counted or renewed (`containsKey`).
    pub fn contains_key(&self, key: &str) -> Result<bool, Error> {
        self.truth(|id, now| self.asking.library.one(sys::jc_contains, id, now, key))
    }

    /// Stores a value (`put`).
    pub fn put(&self, key: &str, value: impl AsRef<[u8]>) -> Result<(), Error> {
        self.call(|id, now| self.asking.library.two(sys::jc_put, id, now, key, value.as_ref()), &mut none, |_| ())
    }

    /// Stores a value, and gives the one before (`getAndPut`).
    pub fn get_and_put(&self, key: &str, value: impl AsRef<[u8]>) -> Result<Option<Vec<u8>>, Error> {
        self.value_before(sys::jc_get_and_put, key, value.as_ref())
    }

    /// Stores a value where there is none. Whether it did (`putIfAbsent`).
    pub fn put_if_absent(&self, key: &str, value: impl AsRef<[u8]>) -> Result<bool, Error> {
        self.truth(|id, now| self.asking.library.two(sys::jc_put_if_absent, id, now, key, value.as_ref()))
    }

    /// Stores a value where there is one. Whether it did (`replace`).
    pub fn replace(&self, key: &str, value: impl AsRef<[u8]>) -> Result<bool, Error> {
        self.truth(|id, now| self.asking.library.two(sys::jc_replace, id, now, key, value.as_ref()))
    }

    /// Stores a value where there is the expected one. Whether it did (`replace`).
    pub fn replace_if(&self, key: &str, expected: impl AsRef<[u8]>, value: impl AsRef<[u8]>) -> Result<bool, Error> {
        self.truth(|id, now| self.asking.library.replace_if(id, now, key, expected.as_ref(), value.as_ref()))
    }

    /// Stores a value where there is one, and gives that (`getAndReplace`).
    pub fn get_and_replace(&self, key: &str, value: impl AsRef<[u8]>) -> Result<Option<Vec<u8>>, Error> {
        self.value_before(sys::jc_get_and_replace, key, value.as_ref())
    }

    /// Removes the value. Whether there was one (`remove`).
    pub fn remove(&self, key: &str) -> Result<bool, Error> {
        self.truth(|id, now| self.asking.library.one(sys::jc_remove, id, now, key))
    }

    /// Removes the value where it is the expected one. Whether it did (`remove`).
    pub fn remove_if(&self, key: &str, expected: impl AsRef<[u8]>) -> Result<bool, Error> {
        self.truth(|id, now| self.asking.library.two(sys::jc_remove_if, id, now, key, expected.as_ref()))
    }

    /// Removes the value, and gives it (`getAndRemove`).
    pub fn get_and_remove(&self, key: &str) -> Result<Option<Vec<u8>>, Error> {
        let begin = |id, now| self.asking.library.one(sys::jc_get_and_remove, id, now, key);
        self.call(begin, &mut none, |status| self.shown(status))
    }

    /// The values of at most 64 keys; missing ones are loaded (`getAll`).
    pub fn get_all(&self, keys: &[&str]) -> Result<Vec<(String, Vec<u8>)>, Error> {
        let begin = |id, now| self.asking.library.many(sys::jc_get_all, id, now, keys);
        self.call(begin, &mut none, |_| self.asking.pairs())
    }

    /// Stores at most 64 values (`putAll`).
    pub fn put_all(&self, pairs: &[(&str, &[u8])]) -> Result<(), Error> {
        self.call(|id, now| self.asking.library.put_all(id, now, pairs), &mut none, |_| ())
    }

    /// Loads at most 64 keys, those that have a value only with `replace` (`loadAll`).
    pub fn load_all(&self, keys: &[&str], replace: bool) -> Result<(), Error> {
        self.call(|id, now| self.asking.library.load_all(id, now, keys, replace), &mut none, |_| ())
    }

    /// Removes at most 64 keys (`removeAll`).
    pub fn remove_keys(&self, keys: &[&str]) -> Result<(), Error> {
        self.call(|id, now| self.asking.library.many(sys::jc_remove_keys, id, now, keys), &mut none, |_| ())
    }

    /// Removes all, by the writer and with events (`removeAll`).
    pub fn remove_all(&self) -> Result<(), Error> {
        self.whole(sys::jc_remove_all, |_| ())
    }

    /// Drops all, and tells nobody (`clear`).
    pub fn clear(&self) -> Result<(), Error> {
        self.whole(sys::jc_clear, |_| ())
    }

    /// All entries, each with an access and a hit (`iterator`). [`Cache::iter`] counts nothing.
    pub fn entries(&self) -> Result<Vec<(String, Vec<u8>)>, Error> {
        self.whole(sys::jc_entries, |_| self.asking.pairs())
    }

    /// The counters (`CacheStatisticsMXBean`).
    pub fn statistics(&self) -> Result<Statistics, Error> {
        let number = |place| self.asking.library.number(self.asking.id, place).unwrap_or_default();
        self.whole(sys::jc_stats, |_| Statistics {
            hits: number(0),
            misses: number(1),
            puts: number(2),
            removals: number(3),
            evictions: number(4),
        })
    }

    /// Sets the counters to zero.
    pub fn clear_statistics(&self) -> Result<(), Error> {
        self.whole(sys::jc_clear_stats, |_| ())
    }

    /// Hands the key's entry to a function, and gives what that returns; a missing key is loaded for it (`invoke`). What
    /// it sets or removes happens when it returns.
    pub fn invoke<R>(&self, key: &str, function: impl FnOnce(&mut Entry) -> Result<R, BoxError>) -> Result<R, Error> {
        self.invoked(key, 1, function)
    }

    /// As [`Cache::invoke`], but a missing key is not loaded.
    pub fn invoke_without_load<R>(
        &self,
        key: &str,
        function: impl FnOnce(&mut Entry) -> Result<R, BoxError>,
    ) -> Result<R, Error> {
        self.invoked(key, 0, function)
    }

    /// As [`Cache::invoke`] for at most 64 keys: by key what the function returned or failed with (`invokeAll`).
    pub fn invoke_all<R>(
        &self,
        keys: &[&str],
        mut function: impl FnMut(&mut Entry) -> Result<R, BoxError>,
    ) -> Result<Results<R>, Error> {
        let mut results = Vec::new();
        let mut process = |entry: &mut Entry| {
            let result = function(entry);
            let ends = if result.is_ok() { Ok(()) } else { Err(None) };
            results.push((entry.key().to_owned(), result));
            ends
        };
        self.call(|id, now| self.asking.library.invoke_all(id, now, keys, 1), &mut process, |_| ())?;
        Ok(results)
    }

    /// The value; where there is none, and the loader gives none, what `init` gives, which is stored. It is evaluated
    /// once, whoever calls together (moka's `get_with`).
    pub fn get_with<V: Into<Vec<u8>>>(&self, key: &str, init: impl FnOnce() -> V) -> Result<Vec<u8>, Error> {
        self.try_get_with(key, || Ok(init()))
    }

    /// As [`Cache::get_with`]; where `init` fails nothing is stored (moka's `try_get_with`).
    pub fn try_get_with<V: Into<Vec<u8>>>(
        &self,
        key: &str,
        init: impl FnOnce() -> Result<V, BoxError>,
    ) -> Result<Vec<u8>, Error> {
        self.invoke(key, |entry| {
            if let Some(value) = entry.value() {
                return Ok(value.to_vec());
            }
            let value = init()?.into();
            entry.set(value.clone());
            Ok(value)
        })
    }

    /// [`Cache::put`] (moka's `insert`).
    pub fn insert(&self, key: &str, value: impl AsRef<[u8]>) -> Result<(), Error> {
        self.put(key, value)
    }

    /// [`Cache::remove`], without its answer (moka's `invalidate`).
    pub fn invalidate(&self, key: &str) -> Result<(), Error> {
        self.remove(key).map(|_| ())
    }

    /// How many entries lie in the cache, also those that expired and were met by no call since (moka's `entry_count`).
    pub fn entry_count(&self) -> Result<usize, Error> {
        self.asking.library.rows(self.asking.id)
    }

    /// How many bytes the keys and the values of these entries have.
    pub fn byte_count(&self) -> Result<u64, Error> {
        self.asking.library.byte_count(self.asking.id)
    }

    /// The cache as bytes, from which [`Manager::restore`](crate::Manager::restore) makes it anew: all by which it will ever
    /// answer, but for its name and its hooks. Nothing is changed or counted. It waits for an open call.
    pub fn save(&self) -> Result<Vec<u8>, Error> {
        let _turn = self.asking.turn.take()?;
        self.asking.library.save(self.asking.id)
    }

    /// The entry as it stands. Nothing is loaded, counted or renewed, and no open call is waited for.
    pub fn peek(&self, key: &str) -> Result<Option<Row>, Error> {
        let found = self.asking.library.peek(self.asking.id, self.now(), key)?;
        Ok(found.map(|(value, expires)| Row { key: key.to_owned(), value, expires: moment(expires) }))
    }

    /// The live entries one after the other, in no order. Nothing is loaded, counted or renewed. Other calls may go on
    /// meanwhile: an entry that stays is given once. It ends where the cache is destroyed.
    pub fn iter(&self) -> Iter {
        Iter::new(self.clone())
    }

    pub(crate) fn now(&self) -> u64 {
        self.now.unwrap_or_else(|| (self.clock)())
    }

    fn invoked<R>(
        &self,
        key: &str,
        place: u8,
        function: impl FnOnce(&mut Entry) -> Result<R, BoxError>,
    ) -> Result<R, Error> {
        let (mut function, mut returned) = (Some(function), None);
        let mut process = |entry: &mut Entry| {
            if let Some(function) = function.take() {
                returned = Some(function(entry)?);
            }
            Ok(())
        };
        let status =
            self.call(|id, now| self.asking.library.invoke(id, now, key, place), &mut process, |status| status)?;
        returned.ok_or(Error::Unforeseen(status))
    }

    /// Makes a whole call, and reads what it shows.
    fn call<T>(
        &self,
        begin: impl FnOnce(u32, u64) -> u32,
        process: Process<'_>,
        read: impl FnOnce(u32) -> T,
    ) -> Result<T, Error> {
        let _turn = self.asking.turn.take()?;
        self.asking.finish(begin(self.asking.id, self.now()), process).map(read)
    }

    fn whole<T>(&self, function: Whole, read: impl FnOnce(u32) -> T) -> Result<T, Error> {
        self.call(|id, now| self.asking.library.whole(function, id, now), &mut none, read)
    }

    fn truth(&self, begin: impl FnOnce(u32, u64) -> u32) -> Result<bool, Error> {
        self.call(begin, &mut none, |status| status == TRUE)
    }

    fn value_before(&self, function: Two, key: &str, value: &[u8]) -> Result<Option<Vec<u8>>, Error> {
        let begin = |id, now| self.asking.library.two(function, id, now, key, value);
        self.call(begin, &mut none, |status| self.shown(status))
    }

    /// The value that a call has found.
    fn shown(&self, status: u32) -> Option<Vec<u8>> {
        if status == FOUND {
            self.asking.library.value(self.asking.id, 0)
        } else {
            None
        }
    }
}

impl fmt::Debug for Cache {
    fn fmt(&self, to: &mut fmt::Formatter<'_>) -> fmt::Result {
        to.debug_struct("Cache").field("name", &self.name).field("now", &self.now).finish_non_exhaustive()
    }
}

impl IntoIterator for &Cache {
    type Item = Row;
    type IntoIter = Iter;

    fn into_iter(self) -> Iter {
        self.iter()
    }
}
