//! The open handles of one program, so that calls of several threads run at once.

use crate::raw::Handle;
use crate::Error;
use std::sync::{Mutex, MutexGuard, PoisonError};

/// The handles that are in no call.
#[derive(Debug)]
struct Free {
    /// It is only shared, so there is always one to share.
    first: Handle,
    others: Vec<Handle>,
}

#[derive(Debug)]
pub(crate) struct Handles {
    free: Mutex<Free>,
}

impl Handles {
    pub fn of(first: Handle) -> Handles {
        Handles { free: Mutex::new(Free { first, others: Vec::new() }) }
    }

    fn free(&self) -> MutexGuard<'_, Free> {
        self.free.lock().unwrap_or_else(PoisonError::into_inner)
    }

    fn take(&self) -> Result<Handle, Error> {
        let mut free = self.free();
        match free.others.pop() {
            Some(handle) => Ok(handle),
            None => free.first.share(),
        }
    }

    /// Asks by a handle that no other call has meanwhile. There come to be as many as there are calls at once, and the first one.
    pub fn ask<T>(&self, ask: impl FnOnce(&mut Handle) -> Result<T, Error>) -> Result<T, Error> {
        let mut handle = self.take()?;
        let answer = ask(&mut handle);
        self.free().others.push(handle);
        answer
    }
}
