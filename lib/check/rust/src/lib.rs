//! Proved checkers for scripts of Concurrent ML's events and for journals of their runs.
//!
//! A *script* says what processes may do, a *journal* which rendezvous there were. [`check_journal`] judges whether a
//! journal is a run of a script: write one in a test of a program of your own, and have it judged. [`outcomes`] tells
//! all that a script can come to, and whether some process can be left waiting; [`left`], [`faults`] and [`never`] ask of
//! runs that go on for ever too.
//!
//! The answers are those of the program `pcml`, whose library this calls. What is proved of it says `docs/LIBRARY.md`;
//! of the Rust code here nothing is.
//!
//! ```
//! use puttolive_check::{check_journal, Verdict};
//!
//! let script = "channel c; process a { sync send c (42); } process b { x <- sync recv c; print x; }";
//! let judged = check_journal(script, "1 a.0.0 -> b.0.0 c (42)\n", 256)?;
//! assert_eq!(judged.verdict, Verdict::Maximal);
//! assert_eq!(judged.text, "a ended\nb ended 42\nlawful 1 maximal\n");
//! # Ok::<(), puttolive_check::Refusal>(())
//! ```
#![deny(unsafe_code)]
#![warn(missing_docs)]

mod raw;

use raw::Answer;
use std::fmt;

/// Why there is no answer.
#[derive(Clone, Debug, PartialEq, Eq)]
#[non_exhaustive]
pub enum Refusal {
    /// Memory ran out.
    OutOfMemory,
    /// The script is none: the number of its first fault, 11 to 16, and the line, from 1. Fault 16, a text of more
    /// than 65,536 bytes, has none.
    BadScript {
        /// The number, which `pcml explain` knows.
        fault: u32,
        /// Where it stands.
        line: Option<usize>,
    },
    /// The first line, from 1, that is no line of a journal.
    BadJournal {
        /// That line.
        line: usize,
    },
    /// The number of rows is out of range.
    BadRows,
    /// The number of configurations is out of range.
    BadLimit,
    /// No process has this name, the first such of those that were given.
    NoProcess(String),
    /// This text, which was given, names no process and value.
    NoPrint(String),
}

impl fmt::Display for Refusal {
    fn fmt(&self, f: &mut fmt::Formatter<'_>) -> fmt::Result {
        match self {
            Refusal::OutOfMemory => write!(f, "out of memory"),
            Refusal::BadScript {
                fault,
                line: Some(line),
            } => write!(f, "fault {fault} line {line} of the script"),
            Refusal::BadScript { fault, line: None } => write!(f, "fault {fault} of the script"),
            Refusal::BadJournal { line } => write!(f, "line {line} of the journal is of no form"),
            Refusal::BadRows => write!(f, "the number of rows is out of range"),
            Refusal::BadLimit => write!(f, "the number of configurations is out of range"),
            Refusal::NoProcess(name) => write!(f, "no process is named '{name}'"),
            Refusal::NoPrint(text) => write!(f, "'{text}' names no process and value"),
        }
    }
}

impl std::error::Error for Refusal {}

/// What a journal is.
#[derive(Clone, Copy, Debug, PartialEq, Eq)]
pub enum Verdict {
    /// A run that no commit may follow.
    Maximal,
    /// A run that some commit may follow.
    Open,
    /// No run.
    Unlawful {
        /// The first line, from 1, with which it is none.
        line: usize,
    },
}

/// A judged journal.
#[derive(Clone, Debug, PartialEq, Eq)]
pub struct Judged {
    /// What it is.
    pub verdict: Verdict,
    /// What `pcml replay` prints: how each process stands, and the verdict.
    pub text: String,
}

/// What is asked of all that a script can come to.
#[derive(Clone, Copy, Debug, PartialEq, Eq)]
pub struct Search<'a> {
    /// The most syncs of a process, 1 to 1024; 0 is any number.
    pub rows: u32,
    /// The most configurations, or with 0 rows states, that are looked at, 1 to 4,194,304.
    pub limit: u32,
    /// The processes that have to end: names with commas between, or `all`; an empty text is nobody.
    pub need: &'a str,
    /// The only processes that make one outcome another; an empty text stands for all.
    pub only: &'a str,
}

impl Default for Search<'_> {
    fn default() -> Self {
        Search {
            rows: 0,
            limit: 1_048_576,
            need: "",
            only: "",
        }
    }
}

/// What was found of what was asked for.
#[derive(Clone, Copy, Debug, PartialEq, Eq)]
pub enum Finding {
    /// No process that has to end is ever stranded, or with rows each ends in every outcome; so too where none has to.
    Clear,
    /// Some outcome leaves a process that has to end waiting, faulted or never started.
    Stuck,
    /// No outcome that was found does, but some run leads to where one is stranded: no commit of it may come any more,
    /// nor its end, whatever others do. Who could move and is never chosen is not stranded. Only with 0 rows.
    Stranded,
    /// Neither is known.
    Unknown,
}

/// All that a script can come to.
#[derive(Clone, Debug, PartialEq, Eq)]
pub struct Outcomes {
    /// What that says of what was asked for.
    pub finding: Finding,
    /// What `pcml outcomes` prints.
    pub text: String,
}

/// Whether some run leads to what was asked about, whether it ends or goes on for ever.
#[derive(Clone, Copy, Debug, PartialEq, Eq)]
pub enum Answered {
    /// No run does: all states were seen.
    Never,
    /// Some run does.
    Found,
    /// It is not known: there are more states than may be seen.
    Unknown,
}

/// What is told of a question about all runs.
#[derive(Clone, Debug, PartialEq, Eq)]
pub struct Reached {
    /// What that says.
    pub answered: Answered,
    /// What `pcml outcomes` prints with `--left`, `--faults` or `--never`.
    pub text: String,
}

/// As what a chart is drawn.
#[derive(Clone, Copy, Debug, PartialEq, Eq)]
pub enum Form {
    /// A picture.
    Svg,
    /// The text of a Mermaid sequence diagram.
    Mermaid,
}

/// What comes of drawing a journal.
#[derive(Clone, Debug, PartialEq, Eq)]
pub enum Chart {
    /// What `pcml chart` prints.
    Drawn(String),
    /// The journal is no run, and there is nothing to draw.
    Unlawful {
        /// The first line, from 1, with which it is none.
        line: usize,
    },
}

/// Whether the library that is linked is of this crate's version.
pub fn is_same_version() -> bool {
    raw::version() == 10_300
}

/// Tells how many processes and channels the script has.
///
/// # Errors
/// [`Refusal::BadScript`], [`Refusal::OutOfMemory`].
pub fn check(script: impl AsRef<[u8]>) -> Result<String, Refusal> {
    let (answer, text) = whole(|text| raw::check(script.as_ref(), text));
    refused(&answer, &text).map_or(Ok(text), Err)
}

/// Tells why the text is no script; nothing, where it is one.
///
/// # Errors
/// [`Refusal::OutOfMemory`].
pub fn why_no_script(text: impl AsRef<[u8]>) -> Result<Option<String>, Refusal> {
    let (answer, told) = whole(|room| raw::why_script(text.as_ref(), room));
    match refused(&answer, &told) {
        Some(refusal) => Err(refusal),
        None => Ok((answer.code == NOT_A_SCRIPT).then_some(told)),
    }
}

/// Judges whether the journal is a run of the script, whose processes make at most `rows` syncs each, 1 to 67,107,840.
///
/// # Errors
/// [`Refusal::BadRows`], [`Refusal::BadScript`], [`Refusal::BadJournal`], [`Refusal::OutOfMemory`].
pub fn check_journal(
    script: impl AsRef<[u8]>,
    journal: impl AsRef<[u8]>,
    rows: u32,
) -> Result<Judged, Refusal> {
    let (answer, text) =
        whole(|text| raw::check_journal(script.as_ref(), journal.as_ref(), rows, text));
    if let Some(refusal) = refused(&answer, &text) {
        return Err(refusal);
    }
    let verdict = match answer.code {
        DONE => Verdict::Maximal,
        OPEN => Verdict::Open,
        _ => Verdict::Unlawful { line: answer.line },
    };
    Ok(Judged { verdict, text })
}

/// Tells all that the script can come to.
///
/// # Errors
/// [`Refusal::BadRows`], [`Refusal::BadLimit`], [`Refusal::BadScript`], [`Refusal::NoProcess`],
/// [`Refusal::OutOfMemory`].
pub fn outcomes(script: impl AsRef<[u8]>, asked: &Search<'_>) -> Result<Outcomes, Refusal> {
    let (need, only) = (asked.need.as_bytes(), asked.only.as_bytes());
    let (answer, text) =
        whole(|text| raw::outcomes(script.as_ref(), asked.rows, asked.limit, need, only, text));
    if let Some(refusal) = refused(&answer, &text) {
        return Err(refusal);
    }
    let finding = match answer.code {
        DONE => Finding::Clear,
        STUCK => Finding::Stuck,
        STRANDED => Finding::Stranded,
        _ => Finding::Unknown,
    };
    Ok(Outcomes { finding, text })
}

/// Tells whether a process of these names (with commas between, or `all`) may come to where it can never end any more, by
/// at most `limit` states, 1 to 4,194,304. Who never ends by itself is always left behind.
///
/// # Errors
/// [`Refusal::BadLimit`], [`Refusal::BadScript`], [`Refusal::NoProcess`], [`Refusal::OutOfMemory`].
pub fn left(script: impl AsRef<[u8]>, limit: u32, names: &str) -> Result<Reached, Refusal> {
    reached(|text| raw::left(script.as_ref(), limit, names.as_bytes(), text))
}

/// Tells whether a process may fault.
///
/// # Errors
/// [`Refusal::BadLimit`], [`Refusal::BadScript`], [`Refusal::OutOfMemory`].
pub fn faults(script: impl AsRef<[u8]>, limit: u32) -> Result<Reached, Refusal> {
    reached(|text| raw::faults(script.as_ref(), limit, text))
}

/// Tells whether a process may print a value: `print` is `NAME=VALUE`, with the value as `print` writes it.
///
/// # Errors
/// [`Refusal::BadLimit`], [`Refusal::BadScript`], [`Refusal::NoPrint`], [`Refusal::OutOfMemory`].
pub fn never(script: impl AsRef<[u8]>, limit: u32, print: &str) -> Result<Reached, Refusal> {
    reached(|text| raw::never(script.as_ref(), limit, print.as_bytes(), text))
}

/// Draws the journal's commits with a stamp in the range. Where `only` is not empty, only its processes have columns of
/// their own.
///
/// # Errors
/// [`Refusal::BadRows`], [`Refusal::BadScript`], [`Refusal::BadJournal`], [`Refusal::NoProcess`],
/// [`Refusal::OutOfMemory`].
pub fn chart(
    script: impl AsRef<[u8]>,
    journal: impl AsRef<[u8]>,
    rows: u32,
    only: &str,
    stamps: std::ops::RangeInclusive<u32>,
    form: Form,
) -> Result<Chart, Refusal> {
    let (from, to, form) = (*stamps.start(), *stamps.end(), form as u32);
    let (script, journal, only) = (script.as_ref(), journal.as_ref(), only.as_bytes());
    let (answer, text) =
        whole(|text| raw::chart(script, journal, rows, only, from, to, form, text));
    match refused(&answer, &text) {
        Some(refusal) => Err(refusal),
        None if answer.code == DONE => Ok(Chart::Drawn(text)),
        None => Ok(Chart::Unlawful { line: answer.line }),
    }
}

const DONE: u32 = 0;
const OPEN: u32 = 1;
const STUCK: u32 = 3;
const NOT_A_SCRIPT: u32 = 4;
const STRANDED: u32 = 5;
const FOUND: u32 = 6;

/// What a call that asks about all runs tells.
fn reached(call: impl Fn(&mut [u8]) -> Answer) -> Result<Reached, Refusal> {
    let (answer, text) = whole(call);
    if let Some(refusal) = refused(&answer, &text) {
        return Err(refusal);
    }
    let answered = match answer.code {
        DONE => Answered::Never,
        FOUND => Answered::Found,
        _ => Answered::Unknown,
    };
    Ok(Reached { answered, text })
}

/// The answer with its whole text: where a first buffer is too small, the call is made again.
fn whole(call: impl Fn(&mut [u8]) -> Answer) -> (Answer, String) {
    let mut text = vec![0; 4096];
    let mut answer = call(&mut text);
    if answer.text_len >= text.len() {
        text.resize(answer.text_len + 1, 0);
        answer = call(&mut text);
    }
    text.truncate(answer.text_len);
    (answer, String::from_utf8_lossy(&text).into_owned())
}

fn refused(answer: &Answer, text: &str) -> Option<Refusal> {
    Some(match answer.code {
        0..=15 => return None,
        17 => Refusal::BadScript {
            fault: answer.fault,
            line: (answer.line != 0).then_some(answer.line),
        },
        18 => Refusal::BadJournal { line: answer.line },
        19 => Refusal::BadRows,
        20 => Refusal::BadLimit,
        23 => Refusal::NoProcess(text.to_string()),
        24 => Refusal::NoPrint(text.to_string()),
        _ => Refusal::OutOfMemory,
    })
}
