//! A session that the library keeps.
use crate::{filled, raw, run, Fault, Link, Name, Program};

/// Objects that are added and withdrawn, and linked as they are at any time. An edit costs what its object is, and not what is there. An
/// error leaves the session as it was. It can be moved, to another thread too, and not copied; its memory is given back at its end.
#[derive(Debug)]
pub struct Session {
    kept: raw::Session,
    forced: usize,
    /// The sizes of what was added and not withdrawn.
    sizes: Vec<usize>,
}

// SAFETY: what it points to is its own, and each call that uses it borrows it as `&mut`
unsafe impl Send for Session {}

impl Session {
    /// Begins a session of no objects; these names are mentioned before all objects.
    pub fn new(forced: &[Name]) -> Result<Session, Fault> {
        let mut session = Session { kept: raw::Session::default(), forced: forced.len(), sizes: Vec::new() };
        let names = raw::Slice::of(forced);
        session.call(|session, answer| unsafe { raw::v7_session_new(session, names.bytes, names.size, answer) })?;
        Ok(session)
    }

    /// Adds the object that the bytes begin with after those that are there.
    pub fn add(&mut self, object: &[u8]) -> Result<(), Fault> {
        self.call(|session, answer| unsafe { raw::v7_session_add(session, object.as_ptr(), object.len(), answer) })?;
        self.sizes.push(object.len());
        Ok(())
    }

    /// Withdraws the object that was added last. If there is none, the fault is `raw::V7_NOTHING`.
    pub fn withdraw(&mut self) -> Result<(), Fault> {
        self.call(|session, answer| unsafe { raw::v7_session_withdraw(session, answer) })?;
        self.sizes.pop();
        Ok(())
    }

    /// Links what is there with these options and this entry point, if it is not empty. The program has no places.
    pub fn link(&mut self, options: u32, entry: &[u8]) -> Result<Program, Fault> {
        let link = Link { options, entry: entry.to_vec(), forced: Vec::new() };
        let (wants, size) = (raw::V7_REPORT | raw::V7_FINDINGS, self.sizes.iter().sum());
        let (kept, forced) = (&mut self.kept, self.forced);
        // SAFETY: as in `call`; the request is of `ask`
        let linked = link.ask(wants, &[] as &[&[u8]], |request| {
            run(request, size, forced, |result| unsafe { raw::v7_session_link(kept, request, result) })
        });
        Ok(linked?.0)
    }

    /// What the session shows, as one JSON object.
    pub fn state(&mut self) -> Result<Vec<u8>, Fault> {
        // SAFETY: as in `call`
        filled(|room, size, answer| unsafe { raw::v7_session_state(&mut self.kept, room, size, answer) })
    }

    /// Makes a call. SAFETY: the struct is 0 at first, only calls change it, and it is never copied.
    fn call(&mut self, call: impl FnOnce(&mut raw::Session, &mut raw::Answer) -> u32) -> Result<(), Fault> {
        let mut answer = raw::Answer::default();
        match call(&mut self.kept, &mut answer) {
            0 => Ok(()),
            _ => Err(Fault::from(&answer)),
        }
    }
}

impl Drop for Session {
    fn drop(&mut self) {
        // SAFETY: as in `call`
        unsafe { raw::v7_session_free(&mut self.kept) };
    }
}
