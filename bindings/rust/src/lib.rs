//! Named caches with the behaviour of JSR 107 (JCache 1.1), over the C library of `jcache.h`.
//!
//! A [`Manager`] makes [`Cache`]s. Both are used by `&self`, from any thread. Keys are texts of 1 to 63 bytes, values are
//! bytes, at most 65,535. Each call has a moment in milliseconds, which the manager's clock gives, or [`Cache::at`].
#![deny(unsafe_op_in_unsafe_fn)]

mod asking;
mod cache;
mod clock;
mod configuration;
mod error;
mod library;
mod manager;
mod sys;
mod values;
mod walk;

pub use cache::Cache;
pub use clock::{FixedClock, WallClock};
pub use configuration::{Configuration, Expiry};
pub use error::{BoxError, Error};
pub use manager::{version, Manager};
pub use values::{Entry, Event, EventKind, Results, Row, Statistics};
pub use walk::Iter;
