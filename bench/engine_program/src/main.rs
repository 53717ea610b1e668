//! What bench/engine counts: so many rounds of one kind of work.

use erased::engine::{Engine, Entered, Kind, Offer};
use std::hint::black_box;

/// A number for each round, which draws the order of the offers.
fn number(round: u64) -> u64 {
    round.wrapping_mul(0x9e37_79b9_7f4a_7c15)
}

fn channels(engine: &mut Engine, count: usize) -> Vec<erased::engine::ChannelKey> {
    (0..count).map(|_| engine.open_channel().expect("there is memory")).collect()
}

/// Gives whether the sync waits.
fn waits(engine: &mut Engine, offers: &[Offer], round: u64) -> bool {
    matches!(engine.enter(black_box(offers), number(round)), Ok(Entered::Waits(_)))
}

/// Gives by which of its offers the partner was met.
fn meets(engine: &mut Engine, offers: &[Offer], round: u64) -> Option<usize> {
    match engine.enter(black_box(offers), number(round)) {
        Ok(Entered::Now(answer)) => match answer.kind {
            Kind::Partner { other, .. } => Some(other),
            _ => None,
        },
        _ => None,
    }
}

/// A send waits, a receive meets it.
fn rendezvous(rounds: u64) -> u64 {
    let mut engine = Engine::new();
    let key = channels(&mut engine, 1)[0];
    let round = |round| {
        waits(&mut engine, &[Offer::Send(key)], round) && meets(&mut engine, &[Offer::Receive(key)], round) == Some(0)
    };
    (0..rounds).map(round).filter(|done| *done).count() as u64
}

/// The same with four offers each, of which the last meet.
fn choice(rounds: u64) -> u64 {
    let mut engine = Engine::new();
    let keys = channels(&mut engine, 8);
    let give: Vec<_> = keys[..4].iter().map(|key| Offer::Send(*key)).collect();
    let mut take: Vec<_> = keys[4..].iter().map(|key| Offer::Receive(*key)).collect();
    take[3] = Offer::Receive(keys[3]);
    let round = |round| waits(&mut engine, &give, round) && meets(&mut engine, &take, round) == Some(3);
    (0..rounds).map(round).filter(|done| *done).count() as u64
}

/// A sync waits and is withdrawn.
fn withdrawal(rounds: u64) -> u64 {
    let mut engine = Engine::new();
    let key = channels(&mut engine, 1)[0];
    let round = |round| match engine.enter(black_box(&[Offer::Send(key)]), number(round)) {
        Ok(Entered::Waits(sync)) => engine.withdraw(sync),
        _ => false,
    };
    (0..rounds).map(round).filter(|done| *done).count() as u64
}

/// A thousand sends wait on one channel. A receive takes the oldest, and a send comes.
fn crowd(rounds: u64) -> u64 {
    let mut engine = Engine::new();
    let key = channels(&mut engine, 1)[0];
    assert!((0..1000).all(|round| waits(&mut engine, &[Offer::Send(key)], round)));
    let round = |round| {
        meets(&mut engine, &[Offer::Receive(key)], round) == Some(0) && waits(&mut engine, &[Offer::Send(key)], round)
    };
    (0..rounds).map(round).filter(|done| *done).count() as u64
}

/// A poll of so many offers finds nobody.
fn poll(rounds: u64, offers: usize) -> u64 {
    let mut engine = Engine::new();
    let offers: Vec<_> = channels(&mut engine, offers).into_iter().map(Offer::Send).collect();
    (0..rounds).filter(|round| engine.poll(black_box(&offers), number(*round)) == Ok(None)).count() as u64
}

fn main() {
    let words: Vec<String> = std::env::args().collect();
    let rounds: u64 = words[2].parse().expect("a number of rounds");
    let done = match words[1].as_str() {
        "rendezvous" => rendezvous(rounds),
        "choice" => choice(rounds),
        "withdrawal" => withdrawal(rounds),
        "crowd" => crowd(rounds),
        "poll_64" => poll(rounds, 64),
        "poll_4000" => poll(rounds, 4000),
        other => panic!("no work is called {other}"),
    };
    assert_eq!(done, rounds);
}
