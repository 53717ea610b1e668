//! Safe Rust over the proved cells of `lib/cells`. A [`Pass`] is owned, may go to another thread, and is used by `&mut`:
//! so the compiler keeps what C's callers have to keep by themselves.
mod raw;

use raw::Raw;

#[repr(C)]
#[derive(Clone, Copy, Default, Debug, PartialEq, Eq)]
pub struct Row {
    pub thread: u32,
    pub sync: u32,
}

/// A number (kind 0), a channel (1), or a nack (2): 64 times its thread plus its number there.
#[repr(C)]
#[derive(Clone, Copy, Default, Debug, PartialEq, Eq)]
pub struct Atom {
    pub kind: u32,
    pub value: u32,
}

#[repr(C)]
#[derive(Clone, Copy, Default, Debug, PartialEq, Eq)]
pub struct Message {
    pub count: u32,
    pub atoms: [Atom; 3],
}

/// Kind 0 never, 1 send, 2 receive, 3 always, 4 a nack, 5 a thread's end. `of` is the channel, the nack or the thread.
#[repr(C)]
#[derive(Clone, Copy, Default, Debug, PartialEq, Eq)]
pub struct Offer {
    pub kind: u32,
    pub of: u32,
    pub scopes: u32,
    pub message: Message,
}

/// How a row was committed: by which offer, and where `paired` is 1 with which offer of which row.
#[repr(C)]
#[derive(Clone, Copy, Default, Debug, PartialEq, Eq)]
pub struct Joined {
    pub own: u32,
    pub stamp: u32,
    pub paired: u32,
    pub partner: Row,
    pub theirs: u32,
}

/// Kind 0 a pair, 1 an always, 2 a nack, 3 an end.
#[repr(C)]
#[derive(Clone, Copy, Default, Debug, PartialEq, Eq)]
pub struct Commit {
    pub kind: u32,
    pub stamp: u32,
    pub sender: Row,
    pub receiver: Row,
    pub sent: u32,
    pub received: u32,
    pub of: u32,
    pub message: Message,
}

/// What a search, or a wake, came to.
#[derive(Clone, Copy, Debug, PartialEq, Eq)]
pub enum Found {
    Met(Row),
    Alone,
    Already,
    Left,
    /// A row was claimed by another thread for a moment: call again.
    Again,
}

/// A thread that no table has: a search that begins with it begins with none.
const NO_THREAD: u32 = u32::MAX;

/// Why a call did nothing: a number from 16 on, as the header lists them.
#[derive(Clone, Copy, Debug, PartialEq, Eq)]
pub struct Refused(pub u32);

fn told(answer: u32) -> Result<u32, Refused> {
    (answer < 16).then_some(answer).ok_or(Refused(answer))
}

fn found(answer: u32, met: Row) -> Result<Found, Refused> {
    told(answer).map(|number| match number {
        0 => Found::Met(met),
        1 => Found::Alone,
        2 => Found::Already,
        3 => Found::Left,
        _ => Found::Again,
    })
}

impl Message {
    pub fn number(value: u32) -> Message {
        Message { count: 1, atoms: [Atom { kind: 0, value }, Atom::default(), Atom::default()] }
    }
}

impl Offer {
    pub fn send(channel: u32, message: Message) -> Offer {
        Offer { kind: 1, of: channel, scopes: 0, message }
    }

    pub fn recv(channel: u32) -> Offer {
        Offer { kind: 2, of: channel, ..Offer::default() }
    }

    pub fn always(message: Message) -> Offer {
        Offer { kind: 3, message, ..Offer::default() }
    }
}

/// A place at a table. It goes to another thread, and one thread uses it at a time.
pub struct Pass(Raw);

// The library proves it of what the pass keeps.
unsafe impl Send for Pass {}

/// A table of 1 to 64 threads of 1 to 1,024 rows with room for 8 offers each, with 1 to 16 passes.
pub fn table(threads: u32, rows: u32, passes: usize) -> Result<Vec<Pass>, Refused> {
    short_table(threads, rows, 8, passes)
}

/// The same of rows that have room for 1 to 8 offers: it begins and ends the faster.
pub fn short_table(threads: u32, rows: u32, offers: u32, passes: usize) -> Result<Vec<Pass>, Refused> {
    let mut raw: Vec<Raw> = (0..passes).map(|_| Raw { at: std::ptr::null_mut() }).collect();
    // SAFETY: so many empty handles lie there
    told(unsafe { raw::pcml_cells_new_short(threads, rows, offers, 0, raw.as_mut_ptr(), raw.len()) })?;
    Ok(raw.into_iter().map(Pass).collect())
}

// SAFETY of all calls below: `self` is a handle that nobody else uses, and other pointers are of values or slices
// that are borrowed for the call.
impl Pass {
    pub fn holds(&mut self, row: Row) -> bool {
        unsafe { raw::pcml_holds(&mut self.0, row) }
    }

    pub fn draft(&mut self, row: Row, offers: &[Offer]) -> Result<(), Refused> {
        told(unsafe { raw::pcml_draft(&mut self.0, row, offers.as_ptr(), offers.len()) }).map(|_| ())
    }

    /// Whether this call bound the nack, and none before.
    pub fn bind(&mut self, nack: u32, row: Row, scope: u32) -> Result<bool, Refused> {
        told(unsafe { raw::pcml_bind(&mut self.0, nack, row, scope) }).map(|number| number == 0)
    }

    pub fn open(&mut self, row: Row) -> Result<(), Refused> {
        told(unsafe { raw::pcml_open(&mut self.0, row) }).map(|_| ())
    }

    /// Takes the row before where it is not held yet, drafts, opens and searches.
    pub fn begin(&mut self, row: Row, offers: &[Offer], alone: bool) -> Result<Found, Refused> {
        self.begin_from(row, offers, NO_THREAD, alone)
    }

    /// The same, but the newest row of thread `first` is tried before all others.
    pub fn begin_from(&mut self, row: Row, offers: &[Offer], first: u32, alone: bool) -> Result<Found, Refused> {
        let mut met = Row::default();
        let answer = unsafe { raw::pcml_begin_from(&mut self.0, row, offers.as_ptr(), offers.len(), first, alone, &mut met) };
        found(answer, met)
    }

    /// An offer that needs no partner is granted only where `alone` is true.
    pub fn search(&mut self, row: Row, alone: bool) -> Result<Found, Refused> {
        self.search_from(row, NO_THREAD, alone)
    }

    /// The same, but the newest row of thread `first` is tried before all others.
    pub fn search_from(&mut self, row: Row, first: u32, alone: bool) -> Result<Found, Refused> {
        let mut met = Row::default();
        let answer = unsafe { raw::pcml_search_from(&mut self.0, row, first, alone, &mut met) };
        found(answer, met)
    }

    pub fn wake(&mut self, row: Row) -> Result<Found, Refused> {
        found(unsafe { raw::pcml_wake(&mut self.0, row) }, Row::default())
    }

    /// 0 met, 1 gone, 2 mine, 3 busy, 4 unfit.
    pub fn attempt(&mut self, mine: Row, own: u32, other: Row, partner: u32) -> Result<u32, Refused> {
        told(unsafe { raw::pcml_attempt(&mut self.0, mine, own, other, partner) })
    }

    /// 0 given, 1 not enabled, 2 late.
    pub fn grant(&mut self, row: Row, offer: u32) -> Result<u32, Refused> {
        told(unsafe { raw::pcml_grant(&mut self.0, row, offer) })
    }

    pub fn take(&mut self, row: Row) -> Result<bool, Refused> {
        told(unsafe { raw::pcml_take(&mut self.0, row) }).map(|number| number == 0)
    }

    /// 0 fresh, 1 waiting, 2 claimed, 3 synched, 4 taken.
    pub fn look(&mut self, row: Row) -> Result<u32, Refused> {
        told(unsafe { raw::pcml_look(&mut self.0, row) })
    }

    /// 0 not started, 1 running, 2 ended.
    pub fn course(&mut self, thread: u32) -> Result<u32, Refused> {
        told(unsafe { raw::pcml_course(&mut self.0, thread) })
    }

    /// What came of a committed row, and what its thread gets.
    pub fn answer(&mut self, row: Row) -> Result<Option<(Joined, Message)>, Refused> {
        let (mut joined, mut message) = (Joined::default(), Message::default());
        told(unsafe { raw::pcml_answer(&mut self.0, row, &mut joined, &mut message) })
            .map(|number| (number == 0).then_some((joined, message)))
    }

    pub fn start(&mut self, row: Row, thread: u32) -> Result<bool, Refused> {
        told(unsafe { raw::pcml_start(&mut self.0, row, thread) }).map(|number| number == 0)
    }

    pub fn finish(&mut self, row: Row) -> Result<(), Refused> {
        told(unsafe { raw::pcml_finish(&mut self.0, row) }).map(|_| ())
    }

    /// Ends the table, where this is its last pass: its commits in their order. Else the pass comes back.
    pub fn close(mut self) -> Result<Vec<Commit>, (Refused, Pass)> {
        if let Err(refused) = told(unsafe { raw::pcml_close(&mut self.0) }) {
            return Err((refused, self));
        }
        self.commits().map_err(|refused| (refused, self))
    }

    /// The commits of a table that this pass has ended.
    fn commits(&mut self) -> Result<Vec<Commit>, Refused> {
        let mut commits = Vec::new();
        loop {
            let mut count = 0;
            told(unsafe { raw::pcml_commits(&mut self.0, commits.as_mut_ptr(), commits.len(), &mut count) })?;
            if count <= commits.len() {
                return Ok(commits);
            }
            commits.resize(count, Commit::default());
        }
    }
}

impl Drop for Pass {
    fn drop(&mut self) {
        unsafe { raw::pcml_pass_free(&mut self.0) }
    }
}
