//! The archive and its stand-in side by side: random calls of one thread, which both answer the same, refusals too.

use crate::table::{Answer, Commit, Found, Grant, Offer, Refused, Row};
use crate::{archive, stand_in};
use std::collections::BTreeMap;
use std::fmt::Debug;

/// Numbers that look random.
struct Dice(u64);

impl Dice {
    fn below(&mut self, count: u32) -> u32 {
        self.0 ^= self.0 << 13;
        self.0 ^= self.0 >> 7;
        self.0 ^= self.0 << 17;
        ((self.0 >> 11) % u64::from(count)) as u32
    }

    fn one_in(&mut self, count: u32) -> bool {
        self.below(count) == 0
    }
}

/// A call, by pass.
#[derive(Clone, Debug)]
enum Call {
    Begin(Row, Vec<Offer>, Option<u32>),
    Draft(Row, Vec<Offer>),
    Open(Row),
    Search(Row),
    Attempt(Row, u32, Row, u32),
    Grant(Row, u32),
    Take(Row),
    IsCommitted(Row),
    Answer(Row),
    Holds(Row),
}

/// What a call came to.
#[derive(Clone, Copy, PartialEq, Debug)]
enum Told {
    Done,
    Is(bool),
    Found(Found),
    Attempt(u32),
    Grant(Grant),
    Answer(Option<Answer>),
}

fn told<T>(result: Result<T, Refused>, told: impl Fn(T) -> Told) -> Result<Told, Refused> {
    result.map(told)
}

macro_rules! call {
    ($pass:expr, $call:expr, $attempt:expr) => {
        match $call {
            Call::Begin(row, offers, first) => told($pass.begin(*row, offers, *first), Told::Found),
            Call::Draft(row, offers) => told($pass.draft(*row, offers), |()| Told::Done),
            Call::Open(row) => told($pass.open(*row), |()| Told::Done),
            Call::Search(row) => told($pass.search(*row), Told::Found),
            Call::Attempt(mine, own, other, partner) => told($pass.attempt(*mine, *own, *other, *partner), $attempt),
            Call::Grant(row, offer) => told($pass.grant(*row, *offer), Told::Grant),
            Call::Take(row) => told($pass.take(*row), Told::Is),
            Call::IsCommitted(row) => told($pass.is_committed(*row), Told::Is),
            Call::Answer(row) => told($pass.answer(*row), Told::Answer),
            Call::Holds(row) => Ok(Told::Is($pass.holds(*row))),
        }
    };
}

/// A table of both.
struct Tables {
    archive: Vec<archive::Pass>,
    stand_in: Vec<stand_in::Pass>,
    threads: u32,
    rows: u32,
    offers: u32,
    /// Of each thread the newest row, and the pass that holds it.
    newest: Vec<(u32, usize)>,
}

impl Tables {
    fn drawn(dice: &mut Dice) -> Tables {
        let (threads, rows, offers) = (1 + dice.below(6), 1 + dice.below(6), 1 + dice.below(8));
        let passes = 1 + dice.below(4) as usize;
        Tables {
            archive: archive::table(threads, rows, offers, passes).expect("memory"),
            stand_in: stand_in::table(threads, rows, offers, passes).expect("memory"),
            threads,
            rows,
            offers,
            newest: (0..threads as usize).map(|thread| (0, thread % passes)).collect(),
        }
    }

    /// A row near the newest of a thread, and seldom one that is not there.
    fn row(&self, dice: &mut Dice) -> Row {
        if dice.one_in(30) {
            return Row { thread: dice.below(self.threads + 2), sync: dice.below(self.rows + 2) };
        }
        let thread = dice.below(self.threads);
        let (newest, _) = self.newest[thread as usize];
        let sync = match dice.below(12) {
            0 => newest.saturating_sub(1),
            1 => newest + 1,
            _ => newest,
        };
        Row { thread, sync }
    }

    /// The pass that holds the thread's newest row, and seldom another.
    fn pass(&self, dice: &mut Dice, row: Row) -> usize {
        let holder = self.newest.get(row.thread as usize).filter(|_| !dice.one_in(10));
        holder.map_or_else(|| dice.below(self.archive.len() as u32) as usize, |(_, pass)| *pass)
    }

    fn offers(&self, dice: &mut Dice) -> Vec<Offer> {
        let most = if dice.one_in(20) { self.offers + 1 } else { self.offers };
        let offer = |dice: &mut Dice| match dice.below(8) {
            0 => Offer::always(),
            1 => Offer { kind: 0, ..Offer::always() },
            2..5 => Offer::send([0, 1, 255][dice.below(3) as usize], dice.below(1000)),
            _ => Offer::recv([0, 1, 255][dice.below(3) as usize]),
        };
        (0..dice.below(most.min(8) + 1)).map(|_| offer(dice)).collect()
    }

    fn call(&self, dice: &mut Dice, row: Row) -> Call {
        let offer = |dice: &mut Dice| {
            let below = if dice.one_in(10) { 9 } else { self.offers.min(3) };
            dice.below(below)
        };
        match dice.below(20) {
            0..3 => {
                let first = (!dice.one_in(3)).then(|| dice.below(self.threads + 2));
                Call::Begin(row, self.offers(dice), first)
            }
            3 | 4 => Call::Draft(row, self.offers(dice)),
            5 | 6 => Call::Open(row),
            7 => Call::Search(row),
            8..12 => Call::Attempt(row, offer(dice), self.row(dice), offer(dice)),
            12 => Call::Grant(row, offer(dice)),
            13..16 => Call::Take(row),
            16 | 17 => Call::IsCommitted(row),
            18 => Call::Answer(row),
            _ => Call::Holds(row),
        }
    }

    /// Makes one call of both: of which kind it was, and its answer.
    fn play(&mut self, dice: &mut Dice, number: u64) -> String {
        let row = self.row(dice);
        let (pass, call) = (self.pass(dice, row), self.call(dice, row));
        let real = call!(self.archive[pass], &call, Told::Attempt);
        let stands = call!(self.stand_in[pass], &call, |attempt| Told::Attempt(attempt as u32));
        assert_eq!(
            real, stands,
            "table {number}: {call:?} of pass {pass}, where the stand-in has the right-hand answer"
        );
        match (&call, real) {
            (Call::Take(row), Ok(Told::Is(true))) => self.newest[row.thread as usize] = (row.sync + 1, pass),
            (Call::Begin(row, ..), Ok(_)) => self.newest[row.thread as usize] = (row.sync, pass),
            _ => {}
        }
        kind(&call, &real)
    }
}

/// The kind of a call and of its answer: no numbers.
fn kind(call: &Call, answer: &Result<Told, Refused>) -> String {
    let name = |value: &dyn Debug| format!("{value:?}").split(['(', ' ', '{']).next().unwrap_or_default().to_string();
    let call = name(call);
    match answer {
        Ok(Told::Found(found)) => format!("{call} {}", name(found)),
        Ok(Told::Answer(answer)) => format!("{call} {}", name(answer)),
        Ok(told) => format!("{call} {told:?}"),
        Err(refused) => format!("{call} {refused:?}"),
    }
}

#[test]
fn both_answer_the_same() {
    let mut dice = Dice(0x9e37_79b9_7f4a_7c15);
    let mut seen: BTreeMap<String, u32> = BTreeMap::new();
    for number in 0..20_000 {
        let mut tables = Tables::drawn(&mut dice);
        for _ in 0..dice.below(120) {
            *seen.entry(tables.play(&mut dice, number)).or_default() += 1;
        }
        // the ledgers of both, when the table ends
        let of = |closed: Result<Vec<Commit>, Refused>| closed.expect("all passes");
        assert_eq!(of(archive::close(tables.archive)), of(stand_in::close(tables.stand_in)), "table {number}");
    }
    println!("{seen:#?}");
    for call in [
        "Begin Met",
        "Begin Left",
        "Begin Refused(18)",
        "Begin Refused(19)",
        "Begin Refused(20)",
        "Begin Refused(21)",
        "Draft Done",
        "Draft Refused(21)",
        "Open Done",
        "Search Met",
        "Search Already",
        "Search Left",
        "Search Refused(22)",
        "Attempt Attempt(0)",
        "Attempt Attempt(1)",
        "Attempt Attempt(2)",
        "Attempt Attempt(4)",
        "Attempt Refused(22)",
        "Grant Grant(Given)",
        "Grant Grant(NotEnabled)",
        "Grant Grant(Late)",
        "Take Is(true)",
        "Take Is(false)",
        "Take Refused(19)",
        "IsCommitted Is(true)",
        "Answer Some",
        "Answer None",
        "Holds Is(true)",
    ] {
        assert!(seen.get(call).is_some_and(|count| *count > 20), "{call}: {:?}", seen.get(call));
    }
}

#[test]
fn both_refuse_the_same_tables() {
    for (threads, rows, offers, passes) in [
        (0, 1, 8, 1),
        (65, 1, 8, 1),
        (1, 0, 8, 1),
        (1, 1025, 8, 1),
        (1, 1, 0, 1),
        (1, 1, 9, 1),
        (1, 1, 8, 0),
        (1, 1, 8, 17),
    ] {
        let real = archive::table(threads, rows, offers, passes).map(drop);
        let stands = stand_in::table(threads, rows, offers, passes).map(drop);
        assert_eq!((real, stands), (Err(Refused(18)), Err(Refused(18))), "{threads} {rows} {offers} {passes}");
    }
}
