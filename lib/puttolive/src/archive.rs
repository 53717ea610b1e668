//! The proved archive's calls, as `lib/include/pcml_cells.h` declares them. This is the one file with `unsafe` in it.
//!
//! A call is unsafe for three duties alone, which its header lists first. A pass is never copied: [`Pass`] owns its
//! handle, which is neither `Copy` nor `Clone`. One pass is in one call at a time: each call takes it by `&mut`. Pointers
//! and counts are of memory that is there: they are of slices and values that are borrowed for the call.
#![allow(unsafe_code)]

use crate::table::{Answer, Commit, Found, Grant, Message, Offer, Refused, Row};
use std::ffi::c_void;

/// The address of what a pass keeps, or null.
#[repr(C)]
struct Handle {
    at: *mut c_void,
}

/// How a row was committed.
#[repr(C)]
#[derive(Clone, Copy, Default)]
struct Joined {
    own: u32,
    stamp: u32,
    paired: u32,
    partner: Row,
    theirs: u32,
}

unsafe extern "C" {
    fn pcml_cells_new_short(threads: u32, rows: u32, offers: u32, later: u64, passes: *mut Handle, count: usize)
    -> u32;
    fn pcml_pass_free(pass: *mut Handle);
    fn pcml_close(pass: *mut Handle) -> u32;
    fn pcml_commits(pass: *mut Handle, commits: *mut Commit, room: usize, count: *mut usize) -> u32;
    fn pcml_begin_from(
        pass: *mut Handle,
        row: Row,
        offers: *const Offer,
        count: usize,
        first: u32,
        alone: bool,
        met: *mut Row,
    ) -> u32;
    fn pcml_search(pass: *mut Handle, row: Row, alone: bool, met: *mut Row) -> u32;
    fn pcml_grant(pass: *mut Handle, row: Row, offer: u32) -> u32;
    fn pcml_look(pass: *mut Handle, row: Row) -> u32;
    fn pcml_answer(pass: *mut Handle, row: Row, joined: *mut Joined, message: *mut Message) -> u32;
}

/// What the header means by a thread that is none.
const NO_THREAD: u32 = u32::MAX;

fn told(answer: u32) -> Result<u32, Refused> {
    if answer < 16 { Ok(answer) } else { Err(Refused(answer)) }
}

fn found(answer: u32, met: Row) -> Result<Found, Refused> {
    told(answer).map(|number| match number {
        0 => Found::Met(met),
        1 | 2 => Found::Already,
        3 => Found::Left,
        _ => Found::Again,
    })
}

/// A place at a table. It holds rows, and is used by one thread at a time.
pub(crate) struct Pass {
    handle: Handle,
}

// SAFETY: the archive proves it of what the handle keeps (`Send` of `pcml_cells`' `Handle`).
unsafe impl Send for Pass {}

/// A table of 1 to 64 threads of 1 to 1,024 rows, whose rows have room for 1 to 8 offers, with 1 to 16 passes. Pass p
/// holds row 0 of each thread t with `t % count == p`.
pub(crate) fn table(threads: u32, rows: u32, offers: u32, count: usize) -> Result<Vec<Pass>, Refused> {
    let mut handles: Vec<Handle> = (0..count).map(|_| Handle { at: std::ptr::null_mut() }).collect();
    // SAFETY: so many empty handles lie there.
    told(unsafe { pcml_cells_new_short(threads, rows, offers, 0, handles.as_mut_ptr(), count) })?;
    Ok(handles.into_iter().map(|handle| Pass { handle }).collect())
}

/// Ends a table by all its passes: its commits in the order of their stamps.
pub(crate) fn close(mut passes: Vec<Pass>) -> Result<Vec<Commit>, Refused> {
    let Some(mut last) = passes.pop() else {
        return Ok(Vec::new());
    };
    drop(passes);
    // SAFETY: the pass is nobody else's.
    told(unsafe { pcml_close(&mut last.handle) })?;
    let mut commits: Vec<Commit> = Vec::new();
    loop {
        let mut count = 0;
        // SAFETY: as many commits lie there as the length says.
        told(unsafe { pcml_commits(&mut last.handle, commits.as_mut_ptr(), commits.len(), &mut count) })?;
        if count <= commits.len() {
            return Ok(commits);
        }
        commits.resize(count, Commit::default());
    }
}

// SAFETY of the calls below: `self` is a pass that nobody else uses, rows and numbers are tested by the archive, and all
// pointers are of values and slices that are borrowed for the call.
impl Pass {
    /// Takes the row before where this pass does not hold this one yet, drafts and opens it, and looks for a row that it
    /// can meet: first the newest row of that thread.
    pub(crate) fn begin(&mut self, row: Row, offers: &[Offer], first: Option<u32>) -> Result<Found, Refused> {
        let first = first.unwrap_or(NO_THREAD);
        let mut met = Row::default();
        let answer =
            unsafe { pcml_begin_from(&mut self.handle, row, offers.as_ptr(), offers.len(), first, false, &mut met) };
        found(answer, met)
    }

    /// Looks for a row that this held opened row can meet.
    pub(crate) fn search(&mut self, row: Row) -> Result<Found, Refused> {
        let mut met = Row::default();
        let answer = unsafe { pcml_search(&mut self.handle, row, false, &mut met) };
        found(answer, met)
    }

    /// Commits the row alone by this offer, an always.
    pub(crate) fn grant(&mut self, row: Row, offer: u32) -> Result<Grant, Refused> {
        told(unsafe { pcml_grant(&mut self.handle, row, offer) }).map(|number| match number {
            0 => Grant::Given,
            1 => Grant::NotEnabled,
            _ => Grant::Late,
        })
    }

    /// Whether the row is committed.
    pub(crate) fn is_committed(&mut self, row: Row) -> Result<bool, Refused> {
        told(unsafe { pcml_look(&mut self.handle, row) }).map(|state| state >= 3)
    }

    /// How the row was committed, and what its thread gets.
    pub(crate) fn answer(&mut self, row: Row) -> Result<Option<Answer>, Refused> {
        let (mut joined, mut message) = (Joined::default(), Message::default());
        let answer = told(unsafe { pcml_answer(&mut self.handle, row, &mut joined, &mut message) })?;
        Ok((answer == 0).then_some(Answer { own: joined.own, number: message.atoms[0].value }))
    }
}

impl Drop for Pass {
    fn drop(&mut self) {
        // SAFETY: nobody uses the pass any more. It is empty behind this.
        unsafe { pcml_pass_free(&mut self.handle) }
    }
}

/// The calls that `begin` is made of: for the test that plays archive and stand-in side by side.
#[cfg(test)]
mod parts {
    use super::{Handle, Pass, told};
    use crate::table::{Offer, Refused, Row};

    unsafe extern "C" {
        fn pcml_holds(pass: *mut Handle, row: Row) -> bool;
        fn pcml_draft(pass: *mut Handle, row: Row, offers: *const Offer, count: usize) -> u32;
        fn pcml_open(pass: *mut Handle, row: Row) -> u32;
        fn pcml_attempt(pass: *mut Handle, mine: Row, own: u32, other: Row, partner: u32) -> u32;
        fn pcml_take(pass: *mut Handle, row: Row) -> u32;
    }

    // SAFETY of the calls below: as above.
    impl Pass {
        pub(crate) fn holds(&mut self, row: Row) -> bool {
            unsafe { pcml_holds(&mut self.handle, row) }
        }

        pub(crate) fn draft(&mut self, row: Row, offers: &[Offer]) -> Result<(), Refused> {
            told(unsafe { pcml_draft(&mut self.handle, row, offers.as_ptr(), offers.len()) }).map(drop)
        }

        pub(crate) fn open(&mut self, row: Row) -> Result<(), Refused> {
            told(unsafe { pcml_open(&mut self.handle, row) }).map(drop)
        }

        pub(crate) fn attempt(&mut self, mine: Row, own: u32, other: Row, partner: u32) -> Result<u32, Refused> {
            told(unsafe { pcml_attempt(&mut self.handle, mine, own, other, partner) })
        }

        pub(crate) fn take(&mut self, row: Row) -> Result<bool, Refused> {
            told(unsafe { pcml_take(&mut self.handle, row) }).map(|answer| answer == 0)
        }
    }
}
