//! The table of cells: its rows, what they offer, and what its calls answer. The calls are those of the proved archive
//! (`archive.rs`). Under drawn schedules a stand-in takes its place (`stand_in.rs`), whose words the scheduler sees.

#[cfg(not(schedules))]
pub(crate) use crate::archive::{Pass, close, table};
#[cfg(schedules)]
pub(crate) use crate::stand_in::{Pass, close, table};

/// The most offers of a row.
pub(crate) const OFFERS: usize = 8;

/// One sync of one thread of the table.
#[repr(C)]
#[derive(Clone, Copy, Debug, Default, PartialEq, Eq, Hash)]
pub(crate) struct Row {
    pub(crate) thread: u32,
    pub(crate) sync: u32,
}

#[repr(C)]
#[derive(Clone, Copy, Debug, Default, PartialEq, Eq)]
pub(crate) struct Atom {
    pub(crate) kind: u32,
    pub(crate) value: u32,
}

#[repr(C)]
#[derive(Clone, Copy, Debug, Default, PartialEq, Eq)]
pub(crate) struct Message {
    pub(crate) count: u32,
    pub(crate) atoms: [Atom; 3],
}

/// A base event, by the kinds of `pcml_cells.h`. `of` is the channel's number in the table.
#[repr(C)]
#[derive(Clone, Copy, Debug, Default, PartialEq, Eq)]
pub(crate) struct Offer {
    pub(crate) kind: u32,
    pub(crate) of: u32,
    pub(crate) scopes: u32,
    pub(crate) message: Message,
}

impl Offer {
    pub(crate) const SEND: u32 = 1;
    pub(crate) const RECV: u32 = 2;
    pub(crate) const ALWAYS: u32 = 3;

    /// The message is one number.
    pub(crate) fn send(channel: u32, number: u32) -> Offer {
        let mut atoms = [Atom::default(); 3];
        atoms[0].value = number;
        Offer { kind: Offer::SEND, of: channel, scopes: 0, message: Message { count: 1, atoms } }
    }

    pub(crate) fn recv(channel: u32) -> Offer {
        Offer { kind: Offer::RECV, of: channel, ..Offer::default() }
    }

    pub(crate) fn always() -> Offer {
        Offer { kind: Offer::ALWAYS, ..Offer::default() }
    }
}

/// What a search came to.
#[derive(Clone, Copy, Debug, PartialEq, Eq)]
pub(crate) enum Found {
    /// It was committed with this row by this call.
    Met(Row),
    /// It was committed before, by another call.
    Already,
    /// It waits. Whoever offers to meet it later finds it.
    Left,
    /// Another row was claimed for a moment: search again.
    Again,
}

/// What came of committing a row alone.
#[derive(Clone, Copy, Debug, PartialEq, Eq)]
pub(crate) enum Grant {
    Given,
    /// The row is not open yet.
    NotEnabled,
    /// The row is claimed or committed.
    Late,
}

/// How a row was committed: by its offer `own`, and the number that its thread gets.
#[derive(Clone, Copy, Debug, PartialEq, Eq)]
pub(crate) struct Answer {
    pub(crate) own: u32,
    pub(crate) number: u32,
}

/// Why a call did nothing: a number from 16 on, as `pcml_cells.h` lists them.
#[derive(Clone, Copy, Debug, PartialEq, Eq)]
pub(crate) struct Refused(pub(crate) u32);

impl Refused {
    pub(crate) const MEMORY: Refused = Refused(17);
}

/// A commit: kind 0 a pair, 1 a row alone, which then stands in both places.
#[repr(C)]
#[derive(Clone, Copy, Debug, Default, PartialEq, Eq)]
pub(crate) struct Commit {
    pub(crate) kind: u32,
    pub(crate) stamp: u32,
    pub(crate) sender: Row,
    pub(crate) receiver: Row,
    pub(crate) sent: u32,
    pub(crate) received: u32,
    pub(crate) of: u32,
    pub(crate) message: Message,
}

/// How many rows a ledger commits, where each is committed once and stamps grow along each thread; else the first
/// commit that is not lawful.
pub(crate) fn audit(commits: &[Commit]) -> Result<usize, Commit> {
    let mut last = std::collections::HashMap::new();
    let mut rows = 0;
    for commit in commits {
        let ends: &[Row] = if commit.kind == 0 { &[commit.sender, commit.receiver] } else { &[commit.sender] };
        for row in ends {
            let (sync, stamp) = last.insert(row.thread, (row.sync, commit.stamp)).unwrap_or((u32::MAX, 0));
            if row.sync != sync.wrapping_add(1) || stamp >= commit.stamp {
                return Err(*commit);
            }
            rows += 1;
        }
        if commit.kind == 0 && commit.sender.thread == commit.receiver.thread {
            return Err(*commit);
        }
    }
    Ok(rows)
}
