//! Places are used again: memory does not grow with what was opened, closed, waited and left.

use erased::engine::{Engine, Entered, Offer};
use erased::memory::{live, watched};

/// How many bytes the engine has after 1,000 turns of a kind, and after a million.
fn bytes_after(turn: fn(&mut Engine, u64)) -> (isize, isize) {
    let many: u64 = std::env::var("TURNS").map_or(1_000_000, |it| it.parse().expect("a number"));
    let before = live();
    let mut engine = Engine::new();
    let (mut few_bytes, mut done) = (0, 0);
    for upto in [1_000.min(many), many] {
        few_bytes = live() - before;
        while done < upto {
            watched(0, || turn(&mut engine, done));
            done += 1;
        }
    }
    (few_bytes, live() - before)
}

fn tell(what: &str, (few, many): (isize, isize)) {
    println!("{what}: {few} bytes, and {many} after all");
    assert!(few > 0 && many * 10 <= few * 11);
}

/// Opens a channel on which some wait, answers those, and closes it.
fn use_channel(engine: &mut Engine, turn: u64) {
    let key = engine.open_channel().expect("there is memory");
    for _ in 0..turn % 5 {
        assert!(matches!(engine.enter(&[Offer::Send(key)], turn), Ok(Entered::Waits(_))));
    }
    for _ in 0..turn % 5 {
        assert!(matches!(engine.close_channel(key), Ok(Some(_))));
    }
    assert_eq!(engine.close_channel(key), Ok(None));
    assert!(!engine.knows(Offer::Send(key)));
}

/// Opens a latch for which one waits, fires and closes it.
fn use_latch(engine: &mut Engine, turn: u64) {
    let key = engine.open_latch().expect("there is memory");
    assert!(matches!(engine.enter(&[Offer::Latch(key)], turn), Ok(Entered::Waits(_))));
    assert!(matches!(engine.fire(key), Ok(Some(_))));
    assert_eq!(engine.fire(key), Ok(None));
    assert_eq!(engine.close_latch(key), Ok(None));
}

/// Lets syncs wait on one channel that stays open, and withdraws all of them.
fn wait_in_vain(engine: &mut Engine, turn: u64) {
    thread_local!(static KEY: std::cell::Cell<Option<Offer>> = const { std::cell::Cell::new(None) });
    if turn == 0 {
        KEY.set(Some(Offer::Send(engine.open_channel().expect("there is memory"))));
    }
    let offer = KEY.get().expect("it is open");
    let Ok(Entered::Waits(first)) = engine.enter(&[offer], turn) else { panic!("answered") };
    let Ok(Entered::Waits(second)) = engine.enter(&[offer, offer], turn) else { panic!("answered") };
    assert!(engine.withdraw(first) && engine.withdraw(second));
}

#[test]
fn memory_does_not_grow() {
    tell("channels", bytes_after(use_channel));
    tell("latches", bytes_after(use_latch));
    tell("syncs in vain", bytes_after(wait_in_vain));
}
