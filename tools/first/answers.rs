//! What is printed.

use crate::words::Asked;
use journal::Record;
use journal_replay::{ReplayFault, State, replay};
use journal_text::{push_atom, read_journal, write_journal};
use protocol_values::Atom;
use runtime_run::{OpenGate, run};
use script::{Script, parse};
use std::alloc::{AllocError, Global};
use std::fs;
use std::rt::Files;
use std::sync::Wait;
use std::thread::Threads;
use thread::End;

/// No file is read that has more bytes.
const MOST: u64 = 16_777_216;

/// A text on the output, and the status.
#[derive(Drop)]
pub(crate) struct Answer {
    pub(crate) text: String,
    pub(crate) status: u8,
}

/// Leaves to the whole program what lacks memory.
fn or_left<T>(made: Result<T, AllocError>) -> Option<T> {
    match made {
        Ok(value) => Some(value),
        Err(_) => None,
    }
}

/// The bytes of a regular file that is not too large. All others are left to the whole program.
fn read<R: Files + AllocGlobal>(rt: &R, name: &str) -> Option<Vec<u8>> {
    match fs::metadata(rt, name) {
        Ok(found) if found.is_file() && found.len() <= MOST => {}
        _ => return None,
    }
    match fs::read(rt, name) {
        Ok(bytes) => Some(bytes),
        Err(_) => None,
    }
}

/// The script in a file. What is none is left to the whole program, which tells why.
fn read_script<R: Files + AllocGlobal>(rt: &R, name: &str) -> Option<Script> {
    let bytes = read(rt, name)?;
    match parse(rt.alloc(), bytes.as_slice()) {
        Ok(script) => Some(script),
        Err(_) => None,
    }
}

/// The line of a process: its name, how it ended, and what it printed.
fn push_process(
    out: &mut String,
    script: &Script,
    thread: usize,
    end: End,
    printed: &[Atom],
) -> Result<(), AllocError> {
    out.push_str(script.process_name(thread))?;
    out.push_str(" ")?;
    out.push_str(end.text())?;
    for atom in printed {
        out.push_str(" ")?;
        push_atom(out, script, *atom)?;
    }
    out.push_str("\n")
}

fn run_text(
    alloc: Global,
    script: &Script,
    ran: &Record,
    quiet: bool,
) -> Result<String, AllocError> {
    let mut text = String::new(alloc);
    if !quiet {
        let journal = write_journal(alloc, script, ran.journal.as_slice())?;
        text.push_str(str::from_utf8(journal.as_slice()).unwrap_or(""))?;
    }
    for thread in 0..ran.ends.len() {
        let printed = ran.outputs[thread].as_slice();
        push_process(&mut text, script, thread, ran.ends[thread], printed)?;
    }
    let (commits, tail) = (ran.journal.len(), ran.tail);
    write!(text, "commits {commits} tail {tail}\n")?;
    Ok(text)
}

fn replay_text(
    alloc: Global,
    script: &Script,
    state: &State,
    commits: usize,
) -> Result<String, AllocError> {
    let mut text = String::new(alloc);
    for thread in 0..state.threads() {
        push_process(
            &mut text,
            script,
            thread,
            state.end(thread),
            state.output(thread),
        )?;
    }
    let how = match state.enabled(alloc)? {
        None => "maximal",
        Some(_) => "open",
    };
    write!(text, "lawful {commits} {how}\n")?;
    Ok(text)
}

fn answer_replay(alloc: Global, script: &Script, bytes: &[u8], rows: u16) -> Option<Answer> {
    let commits = match read_journal(alloc, script, bytes) {
        Ok(commits) => commits,
        Err(_) => return None,
    };
    match replay(
        alloc,
        script.processes(),
        u32::from(rows),
        commits.as_slice(),
    ) {
        Ok(state) => {
            let text = or_left(replay_text(alloc, script, &state, commits.len()))?;
            Some(Answer { text, status: 0 })
        }
        Err(ReplayFault::Memory) => None,
        Err(ReplayFault::Unlawful(index)) => {
            let line = index.saturating_add(1);
            let text = or_left(format!(in alloc; "unlawful at line {line}\n"))?;
            Some(Answer { text, status: 1 })
        }
    }
}

/// Whether more is to be told of a process that came to this end than its line.
fn is_told_of(end: End) -> bool {
    matches!(end, End::Spent | End::Faulted(_))
}

/// What comes of what was asked; none where it is left to the whole program.
pub(crate) fn answer_to<R: Files + AllocGlobal + Threads + Wait + Sync>(
    rt: &R,
    asked: Asked<'_>,
) -> Option<Answer> {
    let alloc = rt.alloc();
    match asked {
        Asked::Check { script } => {
            let script = read_script(rt, script)?;
            let (processes, channels) = (script.processes().len(), script.channels());
            let text = or_left(format!(in alloc; "processes {processes} channels {channels}\n"))?;
            Some(Answer { text, status: 0 })
        }
        Asked::Run {
            script,
            workers,
            rows,
            quiet,
        } => {
            let script = read_script(rt, script)?;
            let Ok(ran) = run(rt, alloc, &script, workers, rows, &OpenGate) else {
                return None;
            };
            for thread in 0..ran.ends.len() {
                if is_told_of(ran.ends[thread]) {
                    return None;
                }
            }
            let text = or_left(run_text(alloc, &script, &ran, quiet))?;
            Some(Answer { text, status: 0 })
        }
        Asked::Replay {
            script,
            journal,
            rows,
        } => {
            let script = read_script(rt, script)?;
            let bytes = read(rt, journal)?;
            answer_replay(alloc, &script, bytes.as_slice(), rows)
        }
    }
}
