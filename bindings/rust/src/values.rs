//! What caches give.
use crate::BoxError;

/// What happened to an entry (JSR 107, `EventType`).
#[derive(Clone, Copy, Debug, PartialEq, Eq, Hash)]
pub enum EventKind {
    /// It was created.
    Created,
    /// Its value was set anew.
    Updated,
    /// It was removed.
    Removed,
    /// It was met expired.
    Expired,
}

/// What a listener is told (JSR 107, `CacheEntryEvent`).
#[derive(Clone, Debug, PartialEq, Eq)]
pub struct Event {
    /// What happened.
    pub kind: EventKind,
    /// The entry's key.
    pub key: String,
    /// The value, where it was created or updated.
    pub value: Option<Vec<u8>>,
    /// The value before, where it was updated, removed or expired.
    pub before: Option<Vec<u8>>,
}

/// An entry that was looked at.
#[derive(Clone, Debug, PartialEq, Eq)]
pub struct Row {
    /// Its key.
    pub key: String,
    /// Its value.
    pub value: Vec<u8>,
    /// The moment at which it expires; nothing: never.
    pub expires: Option<u64>,
}

/// The counters of a cache (JSR 107, `CacheStatisticsMXBean`).
#[derive(Clone, Copy, Debug, Default, PartialEq, Eq)]
pub struct Statistics {
    /// Calls that found a value.
    pub hits: u64,
    /// Calls that found none.
    pub misses: u64,
    /// Values that were stored.
    pub puts: u64,
    /// Entries that were removed.
    pub removals: u64,
    /// Entries that made room for others.
    pub evictions: u64,
}

/// By key what an invoked function has returned or failed with (JSR 107, `EntryProcessorResult`).
pub type Results<R> = Vec<(String, Result<R, BoxError>)>;

/// What an invoked function does to its entry.
#[derive(Clone, Copy, Debug, PartialEq, Eq)]
pub(crate) enum Action {
    Keep,
    Set,
    Remove,
}

/// What an invoked function is given (JSR 107, `MutableEntry`). Of several changes the last one holds.
#[derive(Clone, Debug)]
pub struct Entry {
    key: String,
    value: Option<Vec<u8>>,
    action: Action,
}

impl Entry {
    pub(crate) fn new(key: String, value: Option<Vec<u8>>) -> Entry {
        Entry { key, value, action: Action::Keep }
    }

    /// The key.
    pub fn key(&self) -> &str {
        &self.key
    }

    /// The value, if there is one.
    pub fn value(&self) -> Option<&[u8]> {
        self.value.as_deref()
    }

    /// Whether there is a value.
    pub fn exists(&self) -> bool {
        self.value.is_some()
    }

    /// Stores a value.
    pub fn set(&mut self, value: impl Into<Vec<u8>>) {
        self.value = Some(value.into());
        self.action = Action::Set;
    }

    /// Removes the entry.
    pub fn remove(&mut self) {
        self.value = None;
        self.action = Action::Remove;
    }

    /// The action's number in the header, and the new value.
    pub(crate) fn change(&self) -> (u32, &[u8]) {
        match self.action {
            Action::Keep => (0, &[]),
            Action::Set => (1, self.value.as_deref().unwrap_or_default()),
            Action::Remove => (2, &[]),
        }
    }
}
