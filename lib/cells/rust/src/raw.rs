//! The archive's calls, as `lib/include/pcml_cells.h` declares them.
use crate::{Commit, Joined, Message, Offer, Row};
use std::ffi::c_void;

/// Its address on the heap, or null. Not `Sync` and not `Clone`: that is what the calls ask and cannot test.
#[repr(C)]
pub struct Raw {
    pub at: *mut c_void,
}

extern "C" {
    pub fn pcml_cells_new_short(threads: u32, rows: u32, offers: u32, later: u64, passes: *mut Raw, count: usize) -> u32;
    pub fn pcml_pass_free(pass: *mut Raw);
    pub fn pcml_close(pass: *mut Raw) -> u32;
    pub fn pcml_commits(pass: *mut Raw, commits: *mut Commit, room: usize, count: *mut usize) -> u32;
    pub fn pcml_holds(pass: *mut Raw, row: Row) -> bool;
    pub fn pcml_draft(pass: *mut Raw, row: Row, offers: *const Offer, count: usize) -> u32;
    pub fn pcml_bind(pass: *mut Raw, nack: u32, row: Row, scope: u32) -> u32;
    pub fn pcml_open(pass: *mut Raw, row: Row) -> u32;
    pub fn pcml_look(pass: *mut Raw, row: Row) -> u32;
    pub fn pcml_course(pass: *mut Raw, thread: u32) -> u32;
    pub fn pcml_answer(pass: *mut Raw, row: Row, joined: *mut Joined, message: *mut Message) -> u32;
    pub fn pcml_attempt(pass: *mut Raw, mine: Row, own: u32, other: Row, partner: u32) -> u32;
    pub fn pcml_grant(pass: *mut Raw, row: Row, offer: u32) -> u32;
    pub fn pcml_search_from(pass: *mut Raw, row: Row, first: u32, alone: bool, met: *mut Row) -> u32;
    pub fn pcml_wake(pass: *mut Raw, row: Row) -> u32;
    pub fn pcml_take(pass: *mut Raw, row: Row) -> u32;
    pub fn pcml_begin_from(pass: *mut Raw, row: Row, offers: *const Offer, count: usize, first: u32, alone: bool, met: *mut Row) -> u32;
    pub fn pcml_start(pass: *mut Raw, row: Row, thread: u32) -> u32;
    pub fn pcml_finish(pass: *mut Raw, row: Row) -> u32;
}
