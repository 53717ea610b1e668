//! Of offers that are ready, none is answered much more often than its neighbours.

use erased::engine::{Engine, LatchKey, Offer};
use erased::numbers::Numbers;

const LATCHES: usize = 64;
const TURNS: u32 = 20_000;

/// Of so many neighbours, from this latch on, how often each is answered if all are ready.
fn answered(
    engine: &mut Engine,
    latches: &[LatchKey],
    from: usize,
    neighbours: usize,
    numbers: &mut Numbers,
) -> Vec<u32> {
    let offers: Vec<Offer> = latches.iter().copied().map(Offer::Latch).collect();
    let ready = &latches[from..from + neighbours];
    for latch in ready {
        assert_eq!(engine.fire(*latch), Ok(None));
    }
    let mut counts = vec![0; neighbours];
    for _ in 0..TURNS {
        let answer = engine.poll(&offers, numbers.any()).expect("all are open").expect("some are ready");
        counts[answer.own - from] += 1;
    }
    for latch in ready {
        assert_eq!(engine.renew(*latch), Ok(()));
    }
    counts
}

/// The least and the greatest share of any neighbour, in per cent.
fn shares(neighbours: usize) -> (f64, f64) {
    let mut engine = Engine::new();
    let latches: Vec<_> = (0..LATCHES).map(|_| engine.open_latch().expect("there is memory")).collect();
    let mut numbers = Numbers::new(neighbours as u64);
    let counts =
        (0..=LATCHES - neighbours).flat_map(|from| answered(&mut engine, &latches, from, neighbours, &mut numbers));
    let shares: Vec<f64> = counts.map(|count| 100.0 * f64::from(count) / f64::from(TURNS)).collect();
    (shares.iter().copied().fold(100.0, f64::min), shares.iter().copied().fold(0.0, f64::max))
}

#[test]
fn of_two_neighbours_each_has_its_half() {
    let (least, greatest) = shares(2);
    println!("of two neighbours each has {least:.1} to {greatest:.1} of 100");
    assert!(least >= 47.0 && greatest <= 53.0);
}

#[test]
fn of_three_neighbours_none_is_forgotten() {
    let (least, greatest) = shares(3);
    println!("of three neighbours each has {least:.1} to {greatest:.1} of 100");
    assert!(least >= 20.0);
}
