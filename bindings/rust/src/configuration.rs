//! What caches are made with.
use crate::clock::milliseconds;
use crate::{sys, BoxError, Event};
use std::fmt;
use std::time::Duration;

/// When an entry expires (JSR 107, `ExpiryPolicy`). Whole milliseconds count.
#[derive(Clone, Copy, Debug, Default, PartialEq, Eq)]
pub enum Expiry {
    /// Never.
    #[default]
    Eternal,
    /// So long after its creation.
    Created(Duration),
    /// So long after its creation, and anew from each access.
    Accessed(Duration),
    /// So long after its creation, and anew from each update.
    Modified(Duration),
    /// So long after its creation, and anew from each access and each update.
    Touched(Duration),
}

impl Expiry {
    /// The expiry of these numbers.
    pub(crate) fn of((policy, duration): (u32, u64)) -> Expiry {
        let after = Duration::from_millis(duration);
        match policy {
            1 => Expiry::Created(after),
            2 => Expiry::Accessed(after),
            3 => Expiry::Modified(after),
            4 => Expiry::Touched(after),
            _ => Expiry::Eternal,
        }
    }

    /// The policy's number in the header, and its duration.
    pub(crate) fn numbers(self) -> (u32, u64) {
        match self {
            Expiry::Eternal => (0, 0),
            Expiry::Created(after) => (1, milliseconds(after)),
            Expiry::Accessed(after) => (2, milliseconds(after)),
            Expiry::Modified(after) => (3, milliseconds(after)),
            Expiry::Touched(after) => (4, milliseconds(after)),
        }
    }
}

type Loader = dyn Fn(&str) -> Result<Option<Vec<u8>>, BoxError> + Send + Sync;
type Writer = dyn Fn(&str, Option<&[u8]>) -> Result<(), BoxError> + Send + Sync;
type Listener = dyn Fn(&Event) + Send + Sync;

/// What a cache is made with (JSR 107, `MutableConfiguration`).
#[derive(Default)]
pub struct Configuration {
    /// The most entries.
    pub capacity: u32,
    /// When they expire.
    pub expiry: Expiry,
    /// The most bytes of a value; 0 is as 65,535.
    pub max_value: u32,
    pub(crate) loader: Option<Box<Loader>>,
    pub(crate) writer: Option<Box<Writer>>,
    pub(crate) listeners: Vec<Box<Listener>>,
}

impl Configuration {
    /// A cache of at most so many entries, which never expire, without hooks.
    pub fn new(capacity: u32) -> Configuration {
        Configuration { capacity, max_value: 65_535, ..Configuration::default() }
    }

    /// When entries expire.
    pub fn expiry(self, expiry: Expiry) -> Configuration {
        Configuration { expiry, ..self }
    }

    /// The most bytes of a value.
    pub fn max_value(self, max_value: u32) -> Configuration {
        Configuration { max_value, ..self }
    }

    /// What gives a missing key's value, or nothing (JSR 107, `CacheLoader`).
    pub fn loader(
        self,
        load: impl Fn(&str) -> Result<Option<Vec<u8>>, BoxError> + Send + Sync + 'static,
    ) -> Configuration {
        Configuration { loader: Some(Box::new(load)), ..self }
    }

    /// What is given a key with its new value, or with nothing where it is removed (JSR 107, `CacheWriter`).
    pub fn writer(
        self,
        write: impl Fn(&str, Option<&[u8]>) -> Result<(), BoxError> + Send + Sync + 'static,
    ) -> Configuration {
        Configuration { writer: Some(Box::new(write)), ..self }
    }

    /// What is told each event (JSR 107, `CacheEntryListener`). At most 8 are.
    pub fn listener(mut self, tell: impl Fn(&Event) + Send + Sync + 'static) -> Configuration {
        self.listeners.push(Box::new(tell));
        self
    }
}

impl Configuration {
    /// What the library is told of it.
    pub(crate) fn settings(&self) -> sys::Settings {
        let (policy, duration) = self.expiry.numbers();
        sys::Settings {
            duration,
            capacity: self.capacity,
            policy,
            loader: self.loader.is_some().into(),
            writer: self.writer.is_some().into(),
            listeners: u8::try_from(self.listeners.len()).unwrap_or(u8::MAX),
            max_value: self.max_value,
            reserved: 0,
        }
    }
}

impl fmt::Debug for Configuration {
    fn fmt(&self, to: &mut fmt::Formatter<'_>) -> fmt::Result {
        to.debug_struct("Configuration")
            .field("capacity", &self.capacity)
            .field("expiry", &self.expiry)
            .field("max_value", &self.max_value)
            .field("loader", &self.loader.is_some())
            .field("writer", &self.writer.is_some())
            .field("listeners", &self.listeners.len())
            .finish()
    }
}
