//! Random calls of a channel with room beside plain lists, in which requests for memory are refused.

use erased::engine::channels::{Buffered, HoldFault, Side, StandFault, TakeFault, Waiting, Who};
use erased::memory::watched;
use erased::numbers::Numbers;

/// The channel as plain lists.
#[derive(Default)]
struct Lists {
    sends: Vec<Waiting>,
    receives: Vec<Waiting>,
    held: Vec<u64>,
    room: usize,
    pulls: Vec<(Waiting, bool)>,
    closed: bool,
}

impl Lists {
    fn line(&mut self, side: Side) -> &mut Vec<Waiting> {
        match side {
            Side::Send => &mut self.sends,
            Side::Receive => &mut self.receives,
        }
    }

    fn is_ready(&self, side: Side, ticket: u64) -> bool {
        match side {
            Side::Send => self.held.len() < self.room || self.receives.iter().any(|it| it.ticket != ticket),
            Side::Receive => !self.held.is_empty() || self.sends.iter().any(|it| it.ticket != ticket),
        }
    }

    /// Why nobody stands on the side, but for want of memory.
    fn refuses(&self, side: Side, ticket: u64) -> Option<StandFault> {
        match () {
            () if self.closed => Some(StandFault::Closed),
            () if self.is_ready(side, ticket) => Some(StandFault::Ready),
            () => None,
        }
    }

    /// Whom to tell: nobody if one was told for whom something is there.
    fn to_tell(&self) -> Option<usize> {
        let there = |it: &(Waiting, bool)| self.is_ready(Side::Receive, it.0.ticket);
        match self.pulls.iter().any(|it| it.1 && there(it)) {
            true => None,
            false => self.pulls.iter().position(|it| !it.1 && there(it)),
        }
    }
}

struct Run {
    channel: Buffered,
    lists: Lists,
    numbers: Numbers,
    chance: u64,
    told: u64,
    moved: u64,
    out_of_memory: u64,
}

impl Run {
    fn new(seed: u64) -> Run {
        let mut numbers = Numbers::new(seed);
        let room = [0, 1, 2, 5, usize::MAX][numbers.below(5)];
        let chance = if seed.is_multiple_of(2) { 0 } else { 2 + numbers.below(20) as u64 };
        let lists = Lists { room, ..Lists::default() };
        Run { channel: Buffered::new(room), lists, numbers, chance, told: 0, moved: 0, out_of_memory: 0 }
    }

    fn some_side(&mut self) -> Side {
        if self.numbers.below(2) == 0 { Side::Send } else { Side::Receive }
    }

    fn somebody(&mut self) -> Waiting {
        let who = Who { place: self.numbers.below(9) as u32, own: self.numbers.below(3) as u32 };
        Waiting { ticket: self.numbers.below(6) as u64, who }
    }

    /// Makes a call in which memory may be refused. Says whether it was done as is wanted.
    fn is_done<E: PartialEq + std::fmt::Debug>(
        &mut self,
        call: impl FnOnce(&mut Buffered) -> Result<(), E>,
        wanted: Option<E>,
        want: E,
    ) -> bool {
        let (result, refused) = watched(self.chance, || call(&mut self.channel));
        match (result, wanted) {
            (Err(fault), None) if fault == want => {
                assert!(refused, "want of memory, and none was refused");
                self.out_of_memory += 1;
                false
            }
            (result, Some(fault)) => {
                assert_eq!(result, Err(fault));
                false
            }
            (result, None) => {
                assert_eq!(result, Ok(()));
                true
            }
        }
    }

    fn stand(&mut self) {
        let (side, waiting) = (self.some_side(), self.somebody());
        let wanted = self.lists.refuses(side, waiting.ticket);
        if self.is_done(|it| it.stand(side, waiting), wanted, StandFault::Memory) {
            self.lists.line(side).push(waiting);
        }
    }

    fn pull(&mut self) {
        let waiting = self.somebody();
        let wanted = self.lists.refuses(Side::Receive, waiting.ticket);
        if self.is_done(|it| it.pull(waiting), wanted, StandFault::Memory) {
            self.lists.pulls.push((waiting, false));
        }
    }

    fn hold(&mut self) {
        let value = self.numbers.any();
        let wanted = match () {
            () if self.lists.closed => Some(HoldFault::Closed),
            () if !self.lists.receives.is_empty() => Some(HoldFault::Ready),
            () if self.lists.held.len() >= self.lists.room => Some(HoldFault::Full),
            () => None,
        };
        if self.is_done(|it| it.hold(value), wanted, HoldFault::Memory) {
            self.lists.held.push(value);
        }
    }

    fn oldest(&mut self) {
        let side = self.some_side();
        let line = self.lists.line(side);
        let wanted = if line.is_empty() { None } else { Some(line.remove(0)) };
        assert_eq!(self.channel.oldest(side), wanted);
    }

    /// Takes a message; that of the sender who stood longest is held next.
    fn take(&mut self) {
        let next = self.lists.sends.first().map(|it| it.ticket);
        let next = if self.numbers.below(4) == 0 { None } else { next };
        let wanted = match () {
            () if self.lists.held.is_empty() => Err(TakeFault::Empty),
            () if next.is_none() && !self.lists.sends.is_empty() => Err(TakeFault::Ready),
            () => Ok(self.lists.held.remove(0)),
        };
        assert_eq!(self.channel.take(next), wanted);
        if let (Ok(_), Some(value)) = (wanted, next) {
            self.lists.held.push(value);
            assert_eq!(self.channel.oldest(Side::Send), Some(self.lists.sends.remove(0)));
            self.moved += 1;
        }
    }

    fn go(&mut self) {
        let ticket = self.numbers.below(6) as u64;
        if self.numbers.below(2) == 0 {
            self.channel.forget(ticket);
            self.lists.pulls.retain(|it| it.0.ticket != ticket);
        } else {
            self.channel.wait_on(ticket);
            self.lists.pulls.iter_mut().filter(|it| it.0.ticket == ticket).for_each(|it| it.1 = false);
        }
    }

    fn sift(&mut self) {
        let (side, ticket) = (self.some_side(), self.numbers.below(6) as u64);
        self.channel.sift(side, |it| it.ticket != ticket);
        self.lists.line(side).retain(|it| it.ticket != ticket);
    }

    fn tell(&mut self) {
        let index = self.lists.to_tell();
        assert_eq!(self.channel.tell(), index.map(|it| self.lists.pulls[it].0));
        if let Some(index) = index {
            self.lists.pulls[index].1 = true;
            self.told += 1;
        }
        assert_eq!(self.channel.tell(), None, "one is told at a time");
    }

    fn step(&mut self) {
        match self.numbers.below(40) {
            0..=9 => self.stand(),
            10..=15 => self.hold(),
            16..=21 => self.take(),
            22..=27 => self.oldest(),
            28..=32 => self.pull(),
            33..=36 => self.go(),
            37 => self.sift(),
            _ => {}
        }
        if self.numbers.below(600) == 0 {
            self.channel.close();
            self.lists.closed = true;
        }
        self.tell();
        assert_eq!(self.channel.len(Side::Send), self.lists.sends.len());
        assert_eq!(self.channel.len(Side::Receive), self.lists.receives.len());
        assert_eq!(self.channel.held(), self.lists.held.len());
        assert_eq!(self.channel.pulls(), self.lists.pulls.len());
        assert_eq!(self.channel.is_closed(), self.lists.closed);
    }
}

#[test]
fn calls_do_as_lists() {
    let steps: u64 = std::env::var("STEPS").ok().and_then(|it| it.parse().ok()).unwrap_or(100_000);
    let (mut told, mut moved, mut out_of_memory) = (0, 0, 0);
    for seed in 0..steps / 1_000 {
        let mut run = Run::new(seed);
        (0..1_000).for_each(|_| run.step());
        told += run.told;
        moved += run.moved;
        out_of_memory += run.out_of_memory;
    }
    println!("rooms: {steps} calls, {told} told, {moved} moved up, {out_of_memory} out of memory");
    assert!(told > 0 && moved > 0);
}
