//! A manager of caches.
use crate::asking::{Asking, Turn};
use crate::library::{accepted, Library};
use crate::{sys, Cache, Configuration, Error, Expiry, WallClock};
use std::fmt;
use std::sync::{Arc, Mutex, PoisonError};

/// Each cache has two processors in the library: they run the function that was invoked. The second one wants the value.
const WANTS: [u8; 2] = [0, 1];

/// A manager of named caches, with the methods of JSR 107's `CacheManager` in snake case. It is closed by
/// [`Manager::close`], or when it and its caches are gone.
pub struct Manager {
    library: Arc<Library>,
    clock: Arc<dyn Fn() -> u64 + Send + Sync>,
    caches: Mutex<Vec<Cache>>,
}

/// The library's version: 10,000 times its first number, 100 times its second, and its third.
pub fn version() -> u32 {
    unsafe { sys::jc_version() }
}

impl Manager {
    /// A manager without caches, by the wall clock. Keys are placed under a secret that the system draws, so that nobody
    /// can choose keys that share their places.
    pub fn new() -> Result<Manager, Error> {
        let clock = WallClock::new();
        Manager::with_clock(move || clock.now())
    }

    /// As [`Manager::new`], and the clock gives the moment, in milliseconds, of a call that is given none.
    pub fn with_clock(clock: impl Fn() -> u64 + Send + Sync + 'static) -> Result<Manager, Error> {
        Manager::open(None, clock)
    }

    /// As [`Manager::with_clock`], but keys are placed by a seed, which anybody may know.
    pub fn with_seed(seed: u64, clock: impl Fn() -> u64 + Send + Sync + 'static) -> Result<Manager, Error> {
        Manager::open(Some(seed), clock)
    }

    fn open(seed: Option<u64>, clock: impl Fn() -> u64 + Send + Sync + 'static) -> Result<Manager, Error> {
        let library = Arc::new(Library::open(seed)?);
        Ok(Manager { library, clock: Arc::new(clock), caches: Mutex::default() })
    }

    /// Makes a cache (`createCache`).
    pub fn create_cache(&self, name: &str, configuration: Configuration) -> Result<Cache, Error> {
        let mut caches = self.caches.lock().unwrap_or_else(PoisonError::into_inner);
        let id = self.library.create(name, &configuration.settings(), &WANTS)?;
        Ok(self.made(&mut caches, id, name, configuration))
    }

    /// Makes a cache of this name from what [`Cache::save`] gave, in this process or another. From here on it answers as the
    /// saved one would have. Of the configuration the hooks and `max_value` count: hooks are to be of the kinds of those that
    /// the saved cache had. Moments are absolute: after a restart the clock has to go on from where it was, as [`WallClock`]
    /// does.
    pub fn restore(&self, name: &str, saved: impl AsRef<[u8]>, configuration: Configuration) -> Result<Cache, Error> {
        let mut caches = self.caches.lock().unwrap_or_else(PoisonError::into_inner);
        let (id, settings, wants) = self.library.restore(name, saved.as_ref(), configuration.max_value)?;
        let given = configuration.settings();
        let hooks = |of: &sys::Settings| (of.loader, of.writer, of.listeners);
        if hooks(&settings) != hooks(&given) || wants != WANTS {
            self.library.destroy(id);
            return Err(Error::HooksDiffer);
        }
        let expiry = Expiry::of((settings.policy, settings.duration));
        Ok(self.made(&mut caches, id, name, Configuration { capacity: settings.capacity, expiry, ..configuration }))
    }

    fn made(&self, caches: &mut Vec<Cache>, id: u32, name: &str, hooks: Configuration) -> Cache {
        let asking = Asking { library: self.library.clone(), id, hooks, turn: Turn::default() };
        let cache = Cache::new(asking, name, self.clock.clone());
        caches.push(cache.clone());
        cache
    }

    /// The live cache of this name, if there is one (`getCache`).
    pub fn get_cache(&self, name: &str) -> Result<Option<Cache>, Error> {
        let caches = self.caches.lock().unwrap_or_else(PoisonError::into_inner);
        let found = self.library.find(name)?;
        Ok(caches.iter().find(|cache| Some(cache.asking.id) == found).cloned())
    }

    /// Ends the cache of this name, if there is one; tells nobody (`destroyCache`). It waits for the cache's open call.
    pub fn destroy_cache(&self, name: &str) -> Result<(), Error> {
        let Some(cache) = self.get_cache(name)? else {
            return Ok(());
        };
        let _turn = cache.asking.turn.take()?;
        let mut caches = self.caches.lock().unwrap_or_else(PoisonError::into_inner);
        match self.library.destroy(cache.asking.id) {
            sys::NO_SUCH_CACHE => 0,
            status => accepted(status)?,
        };
        caches.retain(|other| other.asking.id != cache.asking.id);
        Ok(())
    }

    /// The names of the live caches, as they were made (`getCacheNames`).
    pub fn cache_names(&self) -> Result<Vec<String>, Error> {
        let (listed, mut names) = (self.library.names()?, Vec::new());
        let mut left = listed.as_slice();
        while let [_, _, _, _, len, rest @ ..] = left {
            let (name, behind) = rest.split_at(usize::from(*len).min(rest.len()));
            names.push(String::from_utf8_lossy(name).into_owned());
            left = behind;
        }
        Ok(names)
    }

    /// Ends all caches and frees their memory (`close`). Again, it does nothing.
    pub fn close(&self) {
        self.library.close();
    }

    /// Whether it was closed (`isClosed`).
    pub fn is_closed(&self) -> bool {
        self.library.is_closed()
    }
}

impl fmt::Debug for Manager {
    fn fmt(&self, to: &mut fmt::Formatter<'_>) -> fmt::Result {
        to.debug_struct("Manager").field("cache_names", &self.cache_names()).finish_non_exhaustive()
    }
}
