//! Answers `run`, `check` and `replay` until the whole program is built.
#![tactic(auto)]

mod answers;
mod words;

use crate::answers::{Answer, answer_to};
use crate::words::read_words;
use std::io::Write;
use std::process::ExitCode;
use std::rt::{Env, Files};
use std::sync::Wait;
use std::thread::Threads;
use std::{env, io};

/// The status of what is left to the whole program.
const LEFT: u8 = 99;

/// The answer to the words of the process; none where it is left to the whole program.
fn answered<R: Env + Files + AllocGlobal + Threads + Wait + Sync>(
    rt: &R,
) -> io::Result<Option<Answer>> {
    let words: Vec<String> = env::args(rt)?.skip(1).collect(rt.alloc())?;
    let words: Vec<&str> = words.iter().map(|word| word.as_str()).collect(rt.alloc())?;
    match read_words(words.as_slice()) {
        Some(asked) => Ok(answer_to(rt, asked)),
        None => Ok(None),
    }
}

/// Writes the answer, and gives its status.
fn tell<O: Write, E: Write>(answer: &Answer, out: &mut O, err: &mut E) -> u8 {
    match out.write_all(answer.text.as_bytes()) {
        Ok(()) => answer.status,
        Err(_) => {
            let _ = writeln!(err, "fault 32");
            1
        }
    }
}

fn main(rt: HostRuntime) -> ExitCode {
    let errors = rt.stderr();
    match answered(&rt) {
        Ok(Some(answer)) => {
            let status = tell(&answer, &mut io::writer(&rt), &mut io::writer(&errors));
            ExitCode::from(status)
        }
        Ok(None) | Err(_) => ExitCode::from(LEFT),
    }
}
