//! `bench/parts machine PART N`: a process without end, resumed N times by its first offer.
//! `bench/parts machine code N FILE`: the first process of a script, made into N machines.
//! `bench/parts settle ROWS`: 32 pairs of processes, led on until each made so many syncs.
//! `bench/parts journal PART N`: a journal's text of N lines, made, read or written.
//! `bench/parts all`: a little of each.
#![tactic(auto)]

mod journals;
mod machines;
mod settling;

use crate::journals::exercise;
use crate::machines::{compile, resume_often};
use crate::settling::settle_pairs;
use anyhow::{Context, Result, bail};
use std::env;
use std::rt::{Env, Files};

/// The most rows of a thread in a journal.
const MOST_ROWS: u32 = 67_107_840;

fn time_machine<R: Files + Print + AllocGlobal>(rt: &R, words: &[String]) -> Result<()> {
    let part = words.first().context("which part?")?;
    let count: u32 = words.get(1).context("how often?")?.as_str().parse()?;
    if part.as_str() == "code" {
        let file = words.get(2).context("which file?")?;
        let machines = compile(rt, file.as_str(), count)?;
        println!(rt; "{machines} machines")?;
        return Ok(());
    }
    let printed = resume_often(rt.alloc(), part.as_str(), count)?;
    println!(rt; "{count} resumes, {printed} numbers printed")?;
    Ok(())
}

fn time_settle<R: Print + AllocGlobal>(rt: &R, words: &[String]) -> Result<()> {
    let rows: u32 = words.first().context("how many rows?")?.as_str().parse()?;
    if rows > MOST_ROWS {
        bail!("at most {MOST_ROWS} rows");
    }
    let commits = settle_pairs(rt.alloc(), rows)?;
    println!(rt; "{commits} commits")?;
    Ok(())
}

fn time_journal<R: Print + AllocGlobal>(rt: &R, words: &[String]) -> Result<()> {
    let part = words.first().context("which part?")?;
    let lines: u32 = words.get(1).context("how many lines?")?.as_str().parse()?;
    let count = exercise(rt.alloc(), part.as_str(), lines)?;
    println!(rt; "{count}")?;
    Ok(())
}

fn time_all<R: Print + AllocGlobal>(rt: &R) -> Result<()> {
    let printed = resume_often(rt.alloc(), "guard", 1000)?;
    let commits = settle_pairs(rt.alloc(), 100)?;
    let bytes = exercise(rt.alloc(), "write", 100)?;
    println!(rt; "{printed} numbers printed, {commits} commits, {bytes} bytes")?;
    Ok(())
}

fn run<R: Env + Files + Print + AllocGlobal>(rt: &R) -> Result<()> {
    let words: Vec<String> = env::args(rt)?.skip(1).collect(rt.alloc())?;
    let [what, words @ ..] = words.as_slice() else {
        bail!("machine, settle, journal or all?");
    };
    match what.as_str() {
        "machine" => time_machine(rt, words),
        "settle" => time_settle(rt, words),
        "journal" => time_journal(rt, words),
        "all" => time_all(rt),
        _ => bail!("machine, settle, journal or all?"),
    }
}

fn main(rt: HostRuntime) -> Result<()> {
    run(&rt)
}
