//! Processes without end, resumed, and machines that are made.

ghost use Rattle.std.specs.Prelude.{◌≡◌, IfOk};
ghost use Rattle.thread.specs.Machines.{Ready};

use anyhow::{Context, Result, bail};
use protocol_values::{Atom, Message};
use script::parse;
use std::alloc::Global;
use std::fs;
use std::rt::Files;
use thread::{Machine, Turn};

/// The process of a part, which has no end.
fn process_text(part: &str) -> Result<&'static str> {
    match part {
        "guard" => Ok(
            "process a { let x = 0; forever { x <- sync guard { print x; } always (x + 1); } }",
        ),
        "send" => Ok("channel c; process a { let i = 7; forever { sync send c (i); } }"),
        "choose" => Ok(
            "channel c; channel d; process a { let i = 7; forever { sync choose [wrap send c (i) to (1), wrap recv d as x to (x), wrap send c (i) to (2), wrap recv d as x to (x), wrap send c (i) to (3), wrap recv d as x to (x), wrap send c (i) to (4), guard { let i = i; } wrap recv d as x to (x)]; } }",
        ),
        "turn" => Ok("process a { let x = 0; forever { sync always (); let x = 0; } }"),
        "lets" => Ok(
            "process a { let x = 0; forever { sync always (); let x = 0; let x = x + 1; let x = x + 1; let x = x + 1; let x = x + 1; let x = x + 1; let x = x + 1; let x = x + 1; let x = x + 1; let x = x + 1; let x = x + 1; } }",
        ),
        _ => bail!("guard, send, choose, turn, lets or code?"),
    }
}

fn start(alloc: Global, text: &str) -> Result<Machine>
    ensures { IfOk result (λ m. m.phase ≡ Ready) }
{
    let script = parse(alloc, text.as_bytes())?;
    let process = script.processes().first().context("no process")?;
    let machine = Machine::new(alloc, process, 0)?;
    Ok(machine)
}

/// Takes the first offer, with the number as its message, if there is one and memory does not run out.
fn resume(machine: &mut Machine, number: u32) -> Option<Turn> {
    if machine.offers().is_empty() {
        return None;
    }
    machine.resume(0, Message::One(Atom::Num(number))).ok()
}

/// Resumes the process of a part so often, and counts what it printed.
pub(crate) fn resume_often(alloc: Global, part: &str, count: u32) -> Result<usize> {
    let mut machine = start(alloc, process_text(part)?)?;
    let _first = machine.begin()?;
    for number in 0..count {
        if resume(&mut machine, number).is_none() {
            bail!("it does not go on");
        }
    }
    Ok(machine.output().len())
}

/// Makes as many machines of a script's first process.
pub(crate) fn compile<R: Files + AllocGlobal>(rt: &R, name: &str, count: u32) -> Result<usize> {
    let alloc = rt.alloc();
    let text = fs::read(rt, name)?;
    let script = parse(alloc, text.as_slice())?;
    let process = script.processes().first().context("no process")?;
    let mut machines = Vec::new(alloc);
    for _ in 0..count {
        machines.push(Machine::new(alloc, process, 0)?)?;
    }
    Ok(machines.len())
}
