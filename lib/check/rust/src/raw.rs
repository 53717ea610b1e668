//! The calls of `pcml_check.h`. All code that is not safe stands here: each call hands over slices as they are.
#![allow(unsafe_code)]

#[repr(C)]
pub(crate) struct Answer {
    pub(crate) code: u32,
    pub(crate) fault: u32,
    pub(crate) line: usize,
    pub(crate) text_len: usize,
}

mod c {
    use super::Answer;
    extern "C" {
        pub(super) fn pcml_check_version() -> u32;
        pub(super) fn pcml_check(
            script: *const u8,
            script_len: usize,
            text: *mut u8,
            room: usize,
        ) -> Answer;
        pub(super) fn pcml_why_script(
            script: *const u8,
            script_len: usize,
            text: *mut u8,
            room: usize,
        ) -> Answer;
        pub(super) fn pcml_check_journal(
            script: *const u8,
            script_len: usize,
            journal: *const u8,
            journal_len: usize,
            rows: u32,
            text: *mut u8,
            room: usize,
        ) -> Answer;
        pub(super) fn pcml_outcomes(
            script: *const u8,
            script_len: usize,
            rows: u32,
            limit: u32,
            need: *const u8,
            need_len: usize,
            only: *const u8,
            only_len: usize,
            text: *mut u8,
            room: usize,
        ) -> Answer;
        pub(super) fn pcml_left(
            script: *const u8,
            script_len: usize,
            limit: u32,
            names: *const u8,
            names_len: usize,
            text: *mut u8,
            room: usize,
        ) -> Answer;
        pub(super) fn pcml_faults(
            script: *const u8,
            script_len: usize,
            limit: u32,
            text: *mut u8,
            room: usize,
        ) -> Answer;
        pub(super) fn pcml_never(
            script: *const u8,
            script_len: usize,
            limit: u32,
            print: *const u8,
            print_len: usize,
            text: *mut u8,
            room: usize,
        ) -> Answer;
        pub(super) fn pcml_chart(
            script: *const u8,
            script_len: usize,
            journal: *const u8,
            journal_len: usize,
            rows: u32,
            only: *const u8,
            only_len: usize,
            from: u32,
            to: u32,
            form: u32,
            text: *mut u8,
            room: usize,
        ) -> Answer;
    }
}

// SAFETY of all: a slice's pointer is not null and describes its bytes; `text` is borrowed alone, so nothing overlaps
// it and nobody else touches it; Rust's programs use the C library's malloc, realloc and free unchanged, and a call
// from a signal handler or a forked child is not safe code either.

pub(crate) fn version() -> u32 {
    unsafe { c::pcml_check_version() }
}

pub(crate) fn check(script: &[u8], text: &mut [u8]) -> Answer {
    unsafe { c::pcml_check(script.as_ptr(), script.len(), text.as_mut_ptr(), text.len()) }
}

pub(crate) fn why_script(script: &[u8], text: &mut [u8]) -> Answer {
    unsafe { c::pcml_why_script(script.as_ptr(), script.len(), text.as_mut_ptr(), text.len()) }
}

pub(crate) fn check_journal(script: &[u8], journal: &[u8], rows: u32, text: &mut [u8]) -> Answer {
    let (s, j) = (script, journal);
    unsafe {
        c::pcml_check_journal(
            s.as_ptr(),
            s.len(),
            j.as_ptr(),
            j.len(),
            rows,
            text.as_mut_ptr(),
            text.len(),
        )
    }
}

pub(crate) fn outcomes(
    script: &[u8],
    rows: u32,
    limit: u32,
    need: &[u8],
    only: &[u8],
    text: &mut [u8],
) -> Answer {
    let (s, n, o) = (script, need, only);
    unsafe {
        c::pcml_outcomes(
            s.as_ptr(),
            s.len(),
            rows,
            limit,
            n.as_ptr(),
            n.len(),
            o.as_ptr(),
            o.len(),
            text.as_mut_ptr(),
            text.len(),
        )
    }
}

pub(crate) fn left(script: &[u8], limit: u32, names: &[u8], text: &mut [u8]) -> Answer {
    let (s, n) = (script, names);
    unsafe {
        c::pcml_left(
            s.as_ptr(),
            s.len(),
            limit,
            n.as_ptr(),
            n.len(),
            text.as_mut_ptr(),
            text.len(),
        )
    }
}

pub(crate) fn faults(script: &[u8], limit: u32, text: &mut [u8]) -> Answer {
    let s = script;
    unsafe { c::pcml_faults(s.as_ptr(), s.len(), limit, text.as_mut_ptr(), text.len()) }
}

pub(crate) fn never(script: &[u8], limit: u32, print: &[u8], text: &mut [u8]) -> Answer {
    let (s, p) = (script, print);
    unsafe {
        c::pcml_never(
            s.as_ptr(),
            s.len(),
            limit,
            p.as_ptr(),
            p.len(),
            text.as_mut_ptr(),
            text.len(),
        )
    }
}

#[allow(clippy::too_many_arguments)]
pub(crate) fn chart(
    script: &[u8],
    journal: &[u8],
    rows: u32,
    only: &[u8],
    from: u32,
    to: u32,
    form: u32,
    text: &mut [u8],
) -> Answer {
    let (s, j, o) = (script, journal, only);
    unsafe {
        c::pcml_chart(
            s.as_ptr(),
            s.len(),
            j.as_ptr(),
            j.len(),
            rows,
            o.as_ptr(),
            o.len(),
            from,
            to,
            form,
            text.as_mut_ptr(),
            text.len(),
        )
    }
}
