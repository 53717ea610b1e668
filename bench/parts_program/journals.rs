//! A journal's text: made (`make`), read too (`read`), and what was read written too (`write`). What a part
//! costs is the difference to the part before it.

use anyhow::{Result, bail};
use journal_text::{read_journal, write_journal};
use script::parse;
use std::alloc::Global;

const PAIRS: u32 = 32;

const ROWS: u32 = 1024;

/// Pairs of processes, each with a channel of its own.
fn script_text(alloc: Global) -> Result<String> {
    let mut text = String::new(alloc);
    for pair in 0..PAIRS {
        write!(&mut text, "channel c{pair};\n")?;
    }
    for pair in 0..PAIRS {
        write!(
            &mut text,
            "process sender{pair} {{ }} process receiver{pair} {{ }}\n"
        )?;
    }
    Ok(text)
}

/// Lines in which each pair meets in turn.
fn journal_text(alloc: Global, lines: u32) -> Result<String> {
    let mut text = String::new(alloc);
    for line in 0..lines {
        let pair = line % PAIRS;
        let sync = line / PAIRS % ROWS;
        write!(
            &mut text,
            "{} sender{pair}.{sync}.0 -> receiver{pair}.{sync}.0 c{pair} (1)\n",
            sync + 1
        )?;
    }
    Ok(text)
}

/// The number of bytes or of commits that the part leads to.
pub(crate) fn exercise(alloc: Global, part: &str, lines: u32) -> Result<usize> {
    let script = parse(alloc, script_text(alloc)?.as_bytes())?;
    let text = journal_text(alloc, lines)?;
    if part == "make" {
        return Ok(text.len());
    }
    let commits = read_journal(alloc, &script, text.as_bytes())?;
    if part == "read" {
        return Ok(commits.len());
    }
    if part == "write" {
        let text = write_journal(alloc, &script, commits.as_slice())?;
        return Ok(text.len());
    }
    bail!("make, read or write?")
}
