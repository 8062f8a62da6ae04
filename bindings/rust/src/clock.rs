//! Clocks: they give the moment, in milliseconds, of a call that is given none.
use std::sync::atomic::{AtomicU64, Ordering};
use std::sync::Arc;
use std::time::{Duration, Instant, SystemTime};

/// Milliseconds since 1970: read from the system's clock once, and from then on counted by one that nobody sets. So it
/// never falls.
#[derive(Clone, Copy, Debug)]
pub struct WallClock {
    start: Duration,
    since: Instant,
}

impl WallClock {
    /// A clock that starts at the system's time.
    pub fn new() -> WallClock {
        let start = SystemTime::now().duration_since(SystemTime::UNIX_EPOCH).unwrap_or_default();
        WallClock { start, since: Instant::now() }
    }

    /// The time.
    pub fn now(&self) -> u64 {
        milliseconds(self.start + self.since.elapsed())
    }
}

impl Default for WallClock {
    fn default() -> WallClock {
        WallClock::new()
    }
}

/// A clock for tests, which moves where it is told to. Its clones are the same clock.
#[derive(Clone, Debug, Default)]
pub struct FixedClock(Arc<AtomicU64>);

impl FixedClock {
    /// A clock that stands here.
    pub fn new(now: u64) -> FixedClock {
        FixedClock(Arc::new(AtomicU64::new(now)))
    }

    /// The time.
    pub fn now(&self) -> u64 {
        self.0.load(Ordering::SeqCst)
    }

    /// The clock as a manager takes it.
    pub fn reader(&self) -> impl Fn() -> u64 + Send + Sync + 'static {
        let clock = self.clone();
        move || clock.now()
    }

    /// Puts the clock to this time.
    pub fn set(&self, now: u64) {
        self.0.store(now, Ordering::SeqCst);
    }

    /// Moves the clock by so much.
    pub fn advance(&self, by: Duration) {
        self.0.fetch_add(milliseconds(by), Ordering::SeqCst);
    }
}

/// The whole milliseconds of a duration.
pub(crate) fn milliseconds(duration: Duration) -> u64 {
    u64::try_from(duration.as_millis()).unwrap_or(u64::MAX)
}
