//! Why a call has not done what it should.
use std::fmt;

/// What a hook failed with.
pub type BoxError = Box<dyn std::error::Error + Send + Sync>;

/// Why a call has not done what it should. But for the last three it was refused, and has changed nothing.
#[derive(Debug)]
#[non_exhaustive]
pub enum Error {
    /// The cache was destroyed.
    NoSuchCache,
    /// A hook has called the cache that it is asked by.
    Busy,
    /// Memory was wanting.
    OutOfMemory,
    /// 1,024 caches are live.
    TooManyCaches,
    /// A capacity is not from 1 to 65,536.
    BadCapacity,
    /// A cache has more than 8 listeners.
    TooManyListeners,
    /// A live cache has this name.
    DuplicateName,
    /// All live caches have more than 262,144 entries.
    TotalCapacity,
    /// The last id was given.
    IdsSpent,
    /// The manager was closed (JSR 107, `IllegalStateException`).
    Closed,
    /// A key or a name has not from 1 to 63 bytes.
    BadKey,
    /// A value has more bytes than the cache takes, or than 65,535.
    BadValue,
    /// A call has more than 64 keys.
    TooManyKeys,
    /// A key stands twice.
    DuplicateKey,
    /// The bytes are no saved cache, or more than 268,435,456.
    BadSave {
        /// How many of them stand before the first flaw.
        place: usize,
    },
    /// The bytes say that another version of their format has written them.
    OtherVersion {
        /// How many of them stand before the version.
        place: usize,
    },
    /// The saved cache had other hooks: a loader, a writer, not as many listeners, or processors that are no binding's.
    HooksDiffer,
    /// The library gave a status that it should not give here: its number in `jcache.h`.
    Unforeseen(u32),
    /// The loader failed (JSR 107, `CacheLoaderException`).
    LoaderFailed {
        /// What it failed with.
        source: BoxError,
        /// Of a call on many keys, how many were done before.
        done: Option<u64>,
    },
    /// The writer failed (JSR 107, `CacheWriterException`). The entry is as it was.
    WriterFailed {
        /// What it failed with.
        source: BoxError,
        /// Of a call on many keys, how many were done before.
        done: Option<u64>,
    },
    /// The function that was invoked failed (JSR 107, `EntryProcessorException`). The entry is as it was.
    ProcessorFailed {
        /// What it failed with.
        source: BoxError,
    },
}

impl Error {
    /// The error of a refusing status.
    pub(crate) fn of(status: u32) -> Error {
        match status {
            32 => Error::NoSuchCache,
            33 => Error::Busy,
            37 => Error::OutOfMemory,
            48 => Error::TooManyCaches,
            49 => Error::BadCapacity,
            50 => Error::TooManyListeners,
            52 => Error::DuplicateName,
            53 => Error::TotalCapacity,
            54 => Error::IdsSpent,
            64 => Error::Closed,
            66 => Error::BadKey,
            67 => Error::BadValue,
            69 => Error::TooManyKeys,
            70 => Error::DuplicateKey,
            other => Error::Unforeseen(other),
        }
    }
}

impl fmt::Display for Error {
    fn fmt(&self, to: &mut fmt::Formatter<'_>) -> fmt::Result {
        to.write_str(match self {
            Error::NoSuchCache => "the cache was destroyed",
            Error::Busy => "a call on the cache is open",
            Error::OutOfMemory => "out of memory",
            Error::TooManyCaches => "more than 1,024 caches",
            Error::BadCapacity => "the capacity is not from 1 to 65,536",
            Error::TooManyListeners => "more than 8 listeners",
            Error::DuplicateName => "a live cache has this name",
            Error::TotalCapacity => "more than 262,144 entries in all caches",
            Error::IdsSpent => "no id is left",
            Error::Closed => "the manager is closed",
            Error::BadKey => "a key or a name has not from 1 to 63 bytes",
            Error::BadValue => "a value has more bytes than the cache takes",
            Error::TooManyKeys => "more than 64 keys",
            Error::DuplicateKey => "a key stands twice",
            Error::BadSave { place } => return write!(to, "the bytes are no saved cache, from byte {place} on"),
            Error::OtherVersion { .. } => "the bytes are of another version",
            Error::HooksDiffer => "the saved cache had other hooks",
            Error::Unforeseen(status) => return write!(to, "status {status}"),
            Error::LoaderFailed { .. } => "the loader failed",
            Error::WriterFailed { .. } => "the writer failed",
            Error::ProcessorFailed { .. } => "the function failed",
        })
    }
}

impl std::error::Error for Error {
    fn source(&self) -> Option<&(dyn std::error::Error + 'static)> {
        match self {
            Error::LoaderFailed { source, .. }
            | Error::WriterFailed { source, .. }
            | Error::ProcessorFailed { source } => Some(source.as_ref()),
            _ => None,
        }
    }
}
