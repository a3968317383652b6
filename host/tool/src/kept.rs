//! A session in a store.

use std::cell::RefCell;
use std::path::{Path, PathBuf};

use ceromby_session::{Call, Session};
use ceromby_store::{Options, Outcome, Store, StoreError};

use crate::backend::{Answered, Backend, Delivery, Failure};
use crate::files;
use crate::status::Status;

/// A store. The session is looked at to be shown; calls are made on what the
/// store has.
pub struct Kept {
    store: RefCell<Store>,
    path: PathBuf,
    seen: Session,
}

impl Kept {
    /// Opens a store, or makes one where there is no file; whether it is new.
    pub fn open(path: &Path) -> Result<(Kept, bool), Failure> {
        let (mut store, new) = Options::new().open_or_create(path).map_err(failure)?;
        let seen = store.session().map_err(failure)?;
        let kept = Kept {
            store: RefCell::new(store),
            path: path.to_owned(),
            seen,
        };
        Ok((kept, new))
    }

    fn make(&mut self, call: &Call, key: Option<&str>) -> Result<(Answered, Option<u64>), Failure> {
        let made = self.store.get_mut().call(call, key, &call.to_string());
        let Outcome {
            sequence,
            result,
            repeated,
            session,
            ..
        } = made.map_err(failure)?;
        self.seen = session;
        Ok((result, repeated.then_some(sequence)))
    }
}

/// What a store's error means to the lines after it.
pub fn failure(error: StoreError) -> Failure {
    match error {
        StoreError::Busy(_) => Failure::passing(Status::File, error),
        StoreError::KeyUsed(_) | StoreError::BadKey => Failure::passing(Status::Refused, error),
        other => Failure::new(other),
    }
}

impl Backend for Kept {
    fn call(&mut self, call: &Call) -> Result<Answered, Failure> {
        self.make(call, None).map(|(answered, _)| answered)
    }

    fn call_keyed(&mut self, call: &Call, key: &str) -> Result<(Answered, Option<u64>), Failure> {
        self.make(call, Some(key))
    }

    fn refresh(&mut self) -> Result<(), Failure> {
        let seen = self.store.get_mut().session();
        self.seen = seen.map_err(failure)?;
        Ok(())
    }

    fn keeps(&self, file: &Path) -> bool {
        let mut journal = self.path.clone().into_os_string();
        journal.push("-journal");
        files::are_same(&self.path, file) || files::are_same(journal.as_ref(), file)
    }

    fn session(&self) -> &Session {
        &self.seen
    }

    fn store(&mut self) -> Result<&mut Store, Failure> {
        Ok(self.store.get_mut())
    }

    fn delivered(&self, run: u64, number: u32) -> Result<Option<Delivery>, Failure> {
        let found = self.store.borrow_mut().delivery(run, number);
        let found = found.map_err(failure)?;
        Ok(found.map(|delivery| Delivery {
            round: delivery.round,
            hopper: delivery.hopper,
            floor: delivery.floor,
        }))
    }
}
