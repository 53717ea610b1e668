// Made by tools/erase of crates/engine/src/order.rt, and not to be edited.

//! In which order offers are tried: drawn by a number, each offer once.
//!
//! Time after time the place moves on by one step, around the end. The step has no divisor in common with the count, so
//! each place comes once. It is drawn too, so that of two neighbours neither is first more often.

/// How many steps are drawn, until one serves.
const TRIES: u32 = 8;

/// In which order so many are tried, each once.
#[derive(Clone, Copy, Debug)]
pub(crate) struct Order {
    count: u32,
    step: u32,
    at: u32,
}

/// As far below the limit as the drawn number is below 2^32.
#[inline]
fn below(limit: u32, drawn: u32) -> u32 {
    ((u64::from(drawn) * u64::from(limit)) >> 32) as u32
}

/// Whether no number but 1 divides both, by Euclid's algorithm.
fn are_coprime(step: u32, count: u32) -> bool {
    let mut greater = count;
    let mut less = step;
    while less > 0 {
        let rest = greater % less;
        greater = less;
        less = rest;
    }
    greater == 1
}

/// The first drawn step that has no divisor in common with the count, or else one place on or back.
fn step_of(count: u32, number: u32) -> u32 {
    let mut drawn = number;
    for _ in 0..TRIES {
        let step = 1 + below(count - 1, drawn);
        if are_coprime(step, count) {
            return step;
        }
        drawn = drawn.wrapping_mul(1_664_525).wrapping_add(1_013_904_223);
    }
    if drawn & 1 == 0 { 1 } else { count - 1 }
}

impl Order {
    /// Drawn by a number: its upper half says where it begins, its lower half how far it goes each time.
    pub(crate) fn drawn(count: u32, number: u64) -> Order {
        let step = if count > 2 { step_of(count, (number & 0xffff_ffff) as u32) } else { 1 };
        let at = below(count, (number >> 32) as u32);
        Order { count, step, at }
    }

    /// Which is next.
    #[inline]
    pub(crate) fn next(&mut self) -> u32 {
        let now = self.at;
        let left = self.count - now;
        self.at = if self.step < left { now + self.step } else { self.step - left };
        now
    }
}
