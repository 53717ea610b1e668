//! 32 pairs of processes, of which one sends to the other without end.

ghost use Rattle.std.specs.Prelude.{◌≤◌};

use anyhow::{Result, bail};
use journal_replay::{replay, settle};
use script::parse;
use std::alloc::Global;

const PAIRS: usize = 32;

fn script_text(alloc: Global) -> Result<String> {
    let mut text = String::new(alloc);
    for pair in 0..PAIRS {
        write!(&mut text, "channel c{pair};\n")?;
    }
    for pair in 0..PAIRS {
        write!(
            &mut text,
            "process sender{pair} {{ forever {{ sync send c{pair} (1); }} }}\n"
        )?;
        write!(
            &mut text,
            "process receiver{pair} {{ forever {{ sync recv c{pair}; }} }}\n"
        )?;
    }
    Ok(text)
}

/// Leads the pairs on from their beginning until each process made so many syncs, and counts the commits.
pub(crate) fn settle_pairs(alloc: Global, rows: u32) -> Result<usize>
    requires { rows ≤ 67107840 }
{
    let text = script_text(alloc)?;
    let script = parse(alloc, text.as_bytes())?;
    let Ok(state) = replay(alloc, script.processes(), rows, &[]) else {
        bail!("not replayed");
    };
    let (_state, added) = settle(alloc, state)?;
    Ok(added.len())
}
