//! How a call goes: it begins, its hooks are asked, and it replies.
use crate::library::{accepted, Library};
use crate::sys::{self, NEED_LOAD};
use crate::values::{Entry, Event, EventKind};
use crate::{BoxError, Configuration, Error};
use std::sync::{Arc, Condvar, Mutex, MutexGuard, PoisonError};
use std::thread::{self, ThreadId};

/// What runs the function that was invoked: it gives what that failed with, or nothing where the caller keeps it.
pub(crate) type Process<'a> = &'a mut dyn FnMut(&mut Entry) -> Result<(), Option<BoxError>>;

/// Whose turn it is to call a cache: one thread's, for a whole call.
#[derive(Default)]
pub(crate) struct Turn {
    state: Mutex<TurnState>,
    free: Condvar,
}

/// Who has the turn, and how many threads wait for it.
#[derive(Default)]
struct TurnState {
    owner: Option<ThreadId>,
    waiting: usize,
}

/// A turn that was taken.
pub(crate) struct Taken<'a>(&'a Turn);

impl Turn {
    /// Waits for the turn. A thread that has it is refused.
    pub(crate) fn take(&self) -> Result<Taken<'_>, Error> {
        let me = Some(thread::current().id());
        let mut state = self.lock();
        if state.owner == me {
            return Err(Error::Busy);
        }
        while state.owner.is_some() {
            state.waiting += 1;
            state = self.free.wait(state).unwrap_or_else(PoisonError::into_inner);
            state.waiting -= 1;
        }
        state.owner = me;
        Ok(Taken(self))
    }

    fn lock(&self) -> MutexGuard<'_, TurnState> {
        self.state.lock().unwrap_or_else(PoisonError::into_inner)
    }
}

impl Drop for Taken<'_> {
    fn drop(&mut self) {
        let mut state = self.0.lock();
        state.owner = None;
        if state.waiting > 0 {
            self.0.free.notify_one();
        }
    }
}

/// A cache with its hooks.
pub(crate) struct Asking {
    pub(crate) library: Arc<Library>,
    pub(crate) id: u32,
    pub(crate) hooks: Configuration,
    pub(crate) turn: Turn,
}

/// An open call, which is given up where a hook panics or an answer is refused.
struct Open<'a>(&'a Asking);

impl Drop for Open<'_> {
    fn drop(&mut self) {
        self.0.library.answer(sys::jc_give_up, self.0.id);
    }
}

impl Asking {
    /// Makes a whole call, whose turn is taken, from the status that it began with.
    pub(crate) fn finish(&self, began: u32, process: Process<'_>) -> Result<u32, Error> {
        let (mut status, mut source) = (accepted(began)?, None);
        if status >= NEED_LOAD {
            let open = Open(self);
            while status >= NEED_LOAD {
                status = accepted(self.answer(status, process, &mut source))?;
            }
            std::mem::forget(open);
        }
        let source = || source.unwrap_or_else(|| "a hook failed".into());
        match status {
            sys::LOADER_FAILED => Err(Error::LoaderFailed { source: source(), done: self.library.number(self.id, 0) }),
            sys::WRITER_FAILED => Err(Error::WriterFailed { source: source(), done: self.library.number(self.id, 0) }),
            sys::PROCESSOR_FAILED => Err(Error::ProcessorFailed { source: source() }),
            _ => Ok(status),
        }
    }

    /// Does what an open call asks for, and answers.
    fn answer(&self, status: u32, process: Process<'_>, source: &mut Option<BoxError>) -> u32 {
        let key = || self.library.key(self.id, 0);
        match status {
            NEED_LOAD => self.load(&key(), source),
            sys::NEED_WRITE | sys::NEED_DELETE => self.write(&key(), source),
            sys::NEED_PROCESS => self.process(Entry::new(key(), self.library.value(self.id, 0)), process, source),
            _ => self.tell(),
        }
    }

    fn load(&self, key: &str, source: &mut Option<BoxError>) -> u32 {
        match self.hooks.loader.as_ref().map_or(Ok(None), |load| load(key)) {
            Ok(Some(value)) => self.library.loaded(self.id, &value),
            Ok(None) => self.library.answer(sys::jc_loaded_nothing, self.id),
            Err(error) => {
                *source = Some(error);
                self.library.answer(sys::jc_load_failed, self.id)
            }
        }
    }

    fn write(&self, key: &str, source: &mut Option<BoxError>) -> u32 {
        let value = self.library.value(self.id, 0);
        match self.hooks.writer.as_ref().map_or(Ok(()), |write| write(key, value.as_deref())) {
            Ok(()) => self.library.answer(sys::jc_written, self.id),
            Err(error) => {
                *source = Some(error);
                self.library.answer(sys::jc_write_failed, self.id)
            }
        }
    }

    fn process(&self, mut entry: Entry, process: Process<'_>, source: &mut Option<BoxError>) -> u32 {
        match process(&mut entry) {
            Ok(()) => self.library.processed(self.id, entry.change()),
            Err(error) => {
                *source = error;
                self.library.answer(sys::jc_process_failed, self.id)
            }
        }
    }

    fn tell(&self) -> u32 {
        for item in 0..self.library.items(self.id) {
            let kind = match self.library.number(self.id, item) {
                Some(0) => EventKind::Created,
                Some(1) => EventKind::Updated,
                Some(2) => EventKind::Removed,
                _ => EventKind::Expired,
            };
            let (value, before) = (self.library.value(self.id, item), self.library.before(self.id, item));
            let event = Event { kind, key: self.library.key(self.id, item), value, before };
            self.hooks.listeners.iter().for_each(|tell| tell(&event));
        }
        self.library.answer(sys::jc_told, self.id)
    }

    /// The pairs that the last call has shown.
    pub(crate) fn pairs(&self) -> Vec<(String, Vec<u8>)> {
        let pair = |item| (self.library.key(self.id, item), self.library.value(self.id, item).unwrap_or_default());
        (0..self.library.items(self.id)).map(pair).collect()
    }
}
