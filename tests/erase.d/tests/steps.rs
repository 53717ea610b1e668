//! Random calls of the engine beside the model, in which requests for memory are refused.

use erased::engine::{Engine, Entered, LatchKey, Offer, Refusal};
use erased::memory::watched;
use erased::model::Model;
use erased::numbers::Numbers;

/// What came of the calls, so that no kind of answer is missed.
#[derive(Default, Debug)]
struct Counts {
    met: u64,
    waited: u64,
    unknown: u64,
    out_of_memory: u64,
    withdrawn: u64,
    taken: u64,
    closed: u64,
}

struct Run {
    engine: Engine,
    model: Model,
    numbers: Numbers,
    /// One of so many requests for memory is refused.
    chance: u64,
    /// Offers of what is open no longer.
    gone: Vec<Offer>,
    counts: Counts,
}

impl Run {
    fn new(seed: u64) -> Run {
        let mut numbers = Numbers::new(seed);
        let chance = if seed.is_multiple_of(2) { 0 } else { 2 + numbers.below(20) as u64 };
        let (engine, model, counts) = (Engine::new(), Model::default(), Counts::default());
        Run { engine, model, numbers, chance, gone: Vec::new(), counts }
    }

    /// Makes a call. Its answer may be want of memory only if a request was refused.
    fn call<T>(&mut self, call: impl FnOnce(&mut Engine) -> T, is_want: impl FnOnce(&T) -> bool) -> T {
        let (result, refused) = watched(self.chance, || call(&mut self.engine));
        if is_want(&result) {
            assert!(refused, "want of memory, and none was refused");
            self.counts.out_of_memory += 1;
        }
        result
    }

    fn some_offer(&mut self) -> Offer {
        let channel = self.numbers.one_of(&self.model.channels);
        let latch = self.numbers.one_of(&self.model.latches);
        let offer = match (self.numbers.below(30), channel, latch) {
            (0, ..) => Some(Offer::Always),
            (1, ..) => self.numbers.one_of(&self.gone),
            (2..=6, _, Some(latch)) => Some(Offer::Latch(latch)),
            (7..=17, Some(channel), _) => Some(Offer::Send(channel)),
            (_, Some(channel), _) => Some(Offer::Receive(channel)),
            _ => None,
        };
        offer.unwrap_or(Offer::Latch(LatchKey { index: self.numbers.below(9) as u32, generation: 1 << 40 }))
    }

    fn some_offers(&mut self) -> Vec<Offer> {
        let most = if self.numbers.below(50) == 0 { 40 } else { 5 };
        (0..self.numbers.below(most)).map(|_| self.some_offer()).collect()
    }

    fn open(&mut self) {
        if self.numbers.below(3) > 0 {
            if let Ok(key) = self.call(Engine::open_channel, Result::is_err) {
                self.model.channel_opened(key);
            }
        } else if let Ok(key) = self.call(Engine::open_latch, Result::is_err) {
            self.model.latch_opened(key);
        }
    }

    fn poll(&mut self) {
        let (offers, number) = (self.some_offers(), self.numbers.any());
        let known = offers.iter().all(|offer| self.model.knows(*offer));
        match self.call(|engine| engine.poll(&offers, number), |it| *it == Err(Refusal::Memory)) {
            Ok(answer) => {
                assert!(known);
                self.model.polled(&offers, answer);
            }
            Err(refusal) => {
                assert!(!known && refusal == Refusal::Unknown);
                self.counts.unknown += 1;
            }
        }
    }

    fn enter(&mut self) {
        let (offers, number) = (self.some_offers(), self.numbers.any());
        let known = offers.iter().all(|offer| self.model.knows(*offer));
        let entered = self.call(|engine| engine.enter(&offers, number), |it| *it == Err(Refusal::Memory));
        assert_eq!(entered == Err(Refusal::Unknown), !known);
        match entered {
            Ok(Entered::Now(answer)) => {
                self.model.polled(&offers, Some(answer));
                self.counts.met += 1;
            }
            Ok(Entered::Waits(key)) => {
                self.model.came(key, &offers);
                self.counts.waited += 1;
            }
            Err(Refusal::Memory) => self.model.polled(&offers, None),
            Err(_) => self.counts.unknown += 1,
        }
    }

    fn withdraw(&mut self) {
        let keys: Vec<_> = self.model.syncs.iter().map(|sync| sync.key).collect();
        let Some(mut key) = self.numbers.one_of(&keys) else { return };
        if self.numbers.below(8) == 0 {
            key.index = self.numbers.below(40) as u32;
        }
        assert_eq!(self.engine.waits(key), self.model.waits(key));
        let withdrew = self.call(|engine| engine.withdraw(key), |_| false);
        assert_eq!(withdrew, self.model.withdrew(key));
        assert!(!self.engine.waits(key));
        self.counts.withdrawn += u64::from(withdrew);
    }

    fn change_latch(&mut self, act: usize) {
        let Offer::Latch(key) = self.some_offer() else { return };
        let known = self.model.knows(Offer::Latch(key));
        assert_eq!(self.engine.knows(Offer::Latch(key)), known);
        if act == 0 {
            let renewed = self.call(|engine| engine.renew(key), |_| false);
            assert_eq!(renewed, if known { Ok(()) } else { Err(Refusal::Unknown) });
            self.model.fired.retain(|fired| *fired != key);
            return;
        }
        let closes = act == 1;
        let answer = self.call(|engine| if closes { engine.close_latch(key) } else { engine.fire(key) }, |_| false);
        assert_eq!(answer.is_ok(), known);
        let Ok(taken) = answer else { return };
        if self.model.taken(&[Offer::Latch(key)], taken) {
            self.counts.taken += 1;
        } else if closes {
            self.model.latches.retain(|latch| *latch != key);
            self.model.fired.retain(|latch| *latch != key);
            self.gone.push(Offer::Latch(key));
            self.counts.closed += 1;
        } else {
            self.model.fired.push(key);
        }
    }

    fn close_channel(&mut self) {
        let Offer::Send(key) = self.some_offer() else { return };
        let answer = self.call(|engine| engine.close_channel(key), |_| false);
        assert_eq!(answer.is_ok(), self.model.knows(Offer::Send(key)));
        let Ok(taken) = answer else { return };
        if self.model.taken(&[Offer::Send(key), Offer::Receive(key)], taken) {
            self.counts.taken += 1;
            return;
        }
        self.model.channels.retain(|channel| *channel != key);
        self.gone.extend([Offer::Send(key), Offer::Receive(key)]);
        self.counts.closed += 1;
    }

    fn step(&mut self) {
        let room = self.model.channels.len() + self.model.latches.len() < 12;
        match self.numbers.below(60) {
            0..=1 if room => self.open(),
            2..=4 => self.change_latch(2),
            5 => self.change_latch(0),
            6 => self.change_latch(1),
            7..=8 => self.close_channel(),
            9..=17 => self.withdraw(),
            18..=23 => self.poll(),
            _ => self.enter(),
        }
    }
}

#[test]
fn the_engine_does_as_the_model() {
    let steps: u64 = std::env::var("STEPS").map_or(100_000, |it| it.parse().expect("a number"));
    let each = 5_000.min(steps);
    let mut total = Counts::default();
    for seed in 1..=steps / each {
        let mut run = Run::new(seed);
        for _ in 0..each {
            run.step();
        }
        let it = run.counts;
        total.met += it.met;
        total.waited += it.waited;
        total.unknown += it.unknown;
        total.out_of_memory += it.out_of_memory;
        total.withdrawn += it.withdrawn;
        total.taken += it.taken;
        total.closed += it.closed;
    }
    println!("{} steps: {total:?}", steps / each * each);
    for count in [total.met, total.waited, total.unknown, total.withdrawn, total.taken, total.closed] {
        assert!(count > steps / 1000, "{total:?}");
    }
    assert!(total.out_of_memory > steps / 10_000, "{total:?}");
}
