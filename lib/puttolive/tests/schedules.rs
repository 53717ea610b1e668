//! Drawn schedules: small programs, each played under many of them. Nothing here waits for a clock, and a hang is seen at
//! once. To play:
//!
//! ```text
//! RUSTFLAGS='--cfg schedules' CARGO_TARGET_DIR=target/schedules cargo test --release --test schedules
//! ```
//!
//! `SCHEDULES=N` plays N schedules in all (20,000 where it is not set) from seed `FROM=n` on, `SCENARIO=name` one program
//! alone, and `SEED=n` with `SWITCH=k` one schedule again; `TRACE=1` tells each step of it. Here the hub has windows of 2
//! offers and 9 channel numbers to lend, so that few steps reach what is rare.
#![cfg(schedules)]

use puttolive::schedule::{self, Body, Plan, holds_no_lock, pass_on, wait_for_quiet};
use puttolive::*;
use std::cell::RefCell;
use std::io::Write;
use std::panic::{AssertUnwindSafe, catch_unwind, resume_unwind};
use std::pin::Pin;
use std::process::Command;
use std::sync::atomic::{AtomicI64, AtomicU64, AtomicUsize, Ordering::SeqCst};
use std::sync::mpsc::{RecvTimeoutError, TryRecvError, TrySendError};
use std::sync::{Arc, Mutex, mpsc};
use std::task::{Context, Poll, Wake, Waker};
use std::time::Duration;

/// How many steps a thread goes on for, in the mean.
const SWITCHES: [u64; 3] = [3, 10, 40];

/// Schedules that failed once: the scenario, its seed, its switch.
const ONCE_FAILED: &[(&str, u64, u64)] = &[
    ("first_come", 1, 3),
    ("first_come", 66, 3),
    ("tasks", 5854, 3),
    ("tasks_dropped", 156, 3),
    ("task_timeouts", 2, 3),
    ("wakers_sync", 811, 40),
    ("storm_tasks", 564, 3),
];

#[test]
fn schedules() {
    let only = asked("SCENARIO");
    let is_meant = |scenario: &&Scenario| only.as_ref().is_none_or(|name| name == scenario.name);
    let mut scenarios: Vec<&Scenario> = SCENARIOS.iter().filter(is_meant).collect();
    assert!(!scenarios.is_empty(), "no such scenario");
    if let Some(seed) = number("SEED") {
        for scenario in scenarios {
            for switch in number("SWITCH").map_or(SWITCHES.to_vec(), |switch| vec![switch]) {
                let steps = scenario.play(seed, switch);
                tell(&format!("{}: seed {seed} switch {switch}: {steps} steps", scenario.name));
            }
        }
        return;
    }
    let each = number("SCHEDULES").unwrap_or(20_000).div_ceil((scenarios.len() * SWITCHES.len()) as u64);
    match (number("PART"), number("PARTS")) {
        // one of several processes, each on a core of its own
        (Some(part), Some(parts)) => {
            let mut number = 0..;
            scenarios.retain(|_| number.next().is_some_and(|number| number % parts == part));
        }
        _ => {
            if let Some(is_well) = play_in_parts(scenarios.len(), each) {
                return assert!(is_well, "a scenario fails");
            }
        }
    }
    for (name, seed, switch) in ONCE_FAILED {
        if let Some(scenario) = scenarios.iter().find(|scenario| scenario.name == *name) {
            scenario.play(*seed, *switch);
        }
    }
    for scenario in scenarios {
        scenario.play_many(number("FROM").unwrap_or(1), each);
    }
}

/// What the scheduler itself has to see: programs that are broken, each played in a process of its own, which it ends.
#[test]
fn broken_programs_are_seen() {
    const KINDS: [(&str, &str); 5] = [
        ("parks", "a hang"),
        ("locks", "a hang"),
        ("spins", "no end"),
        ("panics", "a panic of thread 1: on purpose"),
        ("spawns", "a panic that nobody joined: on purpose"),
    ];
    if let Some(kind) = asked("BROKEN") {
        Plan { name: &kind, limit: 10_000, ..Plan::default() }.run(broken(&kind));
        return;
    }
    for (kind, why) in KINDS {
        let mut program = Command::new(std::env::current_exe().unwrap());
        program.args(["--exact", "broken_programs_are_seen", "--nocapture"]).env("BROKEN", kind);
        let output = program.output().unwrap();
        let told = String::from_utf8_lossy(&output.stderr);
        assert!(!output.status.success() && told.contains(&format!("FAILS: {why}")), "{kind}: {told}");
        assert!(told.contains(&format!("scenario {kind} seed 1 switch 3")), "{kind}: {told}");
    }
}

/// Two threads of which one parks for ever, two that lock each other out, one that spins, one that panics, and one that
/// spawns one that panics.
fn broken(kind: &str) -> Vec<Body> {
    let locks = Arc::new([(); 2].map(|()| schedule::Mutex::new(())));
    let kind: Arc<str> = kind.into();
    let body = |number: usize| -> Body {
        let (kind, locks) = (kind.clone(), locks.clone());
        Box::new(move || match (&*kind, number) {
            ("parks", 0) => schedule::park(),
            ("locks", _) => {
                for _ in 0..100 {
                    let first = schedule::lock(&locks[number]);
                    let second = schedule::lock(&locks[1 - number]);
                    assert!(!holds_no_lock());
                    drop((first, second));
                    assert!(holds_no_lock());
                }
            }
            ("spins", 0) => loop {
                schedule::spin_hint();
            },
            ("panics", 1) => resume_unwind(Box::new("on purpose")),
            ("spawns", 0) => drop(schedule::spawn(|| resume_unwind(Box::new("on purpose")))),
            _ => pass_on(),
        })
    };
    vec![body(0), body(1)]
}

fn asked(name: &str) -> Option<String> {
    std::env::var(name).ok()
}

fn number(name: &str) -> Option<u64> {
    asked(name).map(|text| text.parse().expect("a number"))
}

/// Plays the scenarios in processes that stay on one core each: threads that go on one at a time go on ten times as fast
/// there. None where no process can be kept on a core. `WORKERS` of them run at once, or 2.
fn play_in_parts(scenarios: usize, each: u64) -> Option<bool> {
    let cores = cores()?;
    let parts = (number("WORKERS").unwrap_or(2) as usize).clamp(1, scenarios.min(cores.len()));
    let program = std::env::current_exe().ok()?;
    let all = (scenarios * SWITCHES.len()) as u64 * each;
    let start = |part: usize| {
        let core = cores[(std::process::id() as usize + part) % cores.len()];
        let mut taskset = Command::new("taskset");
        taskset.args(["-c", &core.to_string()]).arg(&program).args(["--exact", "schedules", "--nocapture", "-q"]);
        taskset.env("PART", part.to_string()).env("PARTS", parts.to_string()).env("SCHEDULES", all.to_string()).spawn()
    };
    let started: Result<Vec<_>, _> = (0..parts).map(start).collect();
    // each is waited for, also behind one that fails
    let ended: Vec<bool> = started.ok()?.iter_mut().map(|part| part.wait().is_ok_and(|code| code.success())).collect();
    Some(ended.into_iter().all(|is_well| is_well))
}

/// The cores on which this process may run.
fn cores() -> Option<Vec<usize>> {
    let status = std::fs::read_to_string("/proc/self/status").ok()?;
    let list = status.lines().find_map(|line| line.strip_prefix("Cpus_allowed_list:"))?;
    let mut cores = Vec::new();
    for range in list.trim().split(',') {
        let (first, last) = range.split_once('-').unwrap_or((range, range));
        cores.extend(first.parse::<usize>().ok()?..=last.parse().ok()?);
    }
    Some(cores)
}

/// Not by a macro, whose text the test harness keeps to itself.
fn tell(text: &str) {
    let _ = writeln!(std::io::stdout(), "{text}");
}

struct Scenario {
    name: &'static str,
    /// The most steps that it takes in the trial of this crate, where it is of the trial.
    trial: Option<u64>,
    build: fn(&mut Play),
}

impl Scenario {
    fn play(&self, seed: u64, switch: u64) -> u64 {
        let mut play = Play { seed, bodies: Vec::new(), checks: Vec::new() };
        (self.build)(&mut play);
        let trace = std::env::var_os("TRACE").is_some();
        let stall = if seed % 2 == 0 { 400 } else { 0 };
        let steps = Plan { name: self.name, seed, switch, stall, trace, ..Plan::default() }.run(play.bodies);
        let checks = play.checks;
        if catch_unwind(AssertUnwindSafe(|| checks.into_iter().for_each(|check| check()))).is_err() {
            let _ = writeln!(std::io::stderr(), "FAILS at its end: scenario {} seed {seed} switch {switch}", self.name);
            std::process::abort();
        }
        steps
    }

    fn play_many(&self, first: u64, each: u64) {
        let again = self.play(first, SWITCHES[0]);
        let (mut sum, mut most) = (0, (0, 0, 0));
        for switch in SWITCHES {
            for seed in first..first + each {
                let steps = self.play(seed, switch);
                assert!((seed, switch) != (first, SWITCHES[0]) || steps == again, "{}: a seed plays again", self.name);
                sum += steps;
                most = most.max((steps, seed, switch));
            }
        }
        let (most, seed, switch) = most;
        let trial = self.trial.map_or(String::new(), |trial| format!(", in the trial {trial}"));
        tell(&format!(
            "{:16} {:6} schedules, {:5} steps in the mean, at most {most:5} (seed {seed} switch {switch}{trial})",
            self.name,
            3 * each,
            sum / (3 * each),
        ));
        if let Some(trial) = self.trial {
            assert!(most <= 2 * trial, "{}: more than twice the steps of the trial", self.name);
        }
    }
}

/// What a scenario is made of: its threads, and what is checked when they are over.
struct Play {
    seed: u64,
    bodies: Vec<Body>,
    checks: Vec<Box<dyn FnOnce()>>,
}

impl Play {
    fn thread(&mut self, body: impl FnOnce() + Send + 'static) {
        self.bodies.push(Box::new(body));
    }

    fn check(&mut self, check: impl FnOnce() + 'static) {
        self.checks.push(Box::new(check));
    }

    /// One of these, by the seed.
    fn one_of<T: Copy>(&self, of: &[T]) -> T {
        of[self.seed as usize % of.len()]
    }

    /// A ledger whose values have all been received at the end, once, or dropped.
    fn ledger(&mut self) -> Ledger {
        let ledger = Ledger::default();
        let known = ledger.clone();
        self.check(move || known.close());
        ledger
    }
}

fn hub(slots: u8, rows: u16, passes: u8) -> Hub {
    Hub::audited(Config { slots, rows, passes, spin: 0 })
}

fn channels(hub: &Hub, count: usize) -> Vec<Channel<usize>> {
    (0..count).map(|_| hub.channel()).collect()
}

fn recv_any(channels: &[Channel<usize>]) -> usize {
    choose(channels.iter().map(|channel| channel.recv_evt())).sync()
}

fn send_any(channels: &[Channel<usize>]) {
    choose(channels.iter().enumerate().map(|(n, channel)| channel.send_evt(n))).sync()
}

fn both<T: Clone>(value: T) -> (T, T) {
    (value.clone(), value)
}

/// Lets others go on for a drawn while, so that what follows comes at any time of theirs.
fn dawdle(most: u64) {
    for _ in 0..schedule::draw(most) {
        pass_on();
    }
}

/// Fails where a lock of the crate is in hand: asked wherever the crate calls the code of a user.
fn in_no_lock() {
    if !holds_no_lock() {
        schedule::fail("the code of a user is called with a lock in hand");
    }
}

// ---- values that are counted

/// Which values were sent and which received. No value of it is lost, and none comes twice.
#[derive(Clone, Default)]
struct Ledger(Arc<Counts>);

#[derive(Default)]
struct Counts {
    made: AtomicU64,
    alive: AtomicI64,
    sent: Mutex<Vec<u64>>,
    received: Mutex<Vec<u64>>,
}

struct Value {
    number: u64,
    ledger: Ledger,
}

impl Drop for Value {
    fn drop(&mut self) {
        in_no_lock();
        self.ledger.0.alive.fetch_sub(1, SeqCst);
    }
}

impl Ledger {
    fn value(&self) -> Value {
        self.0.alive.fetch_add(1, SeqCst);
        Value { number: self.0.made.fetch_add(1, SeqCst), ledger: self.clone() }
    }

    fn sent(&self, number: u64) {
        self.0.sent.lock().unwrap().push(number);
    }

    fn received(&self, value: Value) {
        self.0.received.lock().unwrap().push(value.number);
    }

    fn send(&self, channel: &Channel<Value>) {
        let value = self.value();
        let number = value.number;
        channel.send(value);
        self.sent(number);
    }

    fn send_evt<'a>(&self, channel: &'a Channel<Value>) -> BoxedEvent<'a, bool> {
        let (value, ledger) = (self.value(), self.clone());
        let number = value.number;
        let event = channel.send_evt(value).wrap(move |()| {
            in_no_lock();
            ledger.sent(number);
            true
        });
        event.boxed()
    }

    fn recv_evt<'a>(&self, channel: &'a Channel<Value>) -> BoxedEvent<'a, bool> {
        let ledger = self.clone();
        let event = channel.recv_evt().wrap(move |value| {
            in_no_lock();
            ledger.received(value);
            true
        });
        event.boxed()
    }

    fn close(&self) {
        let (mut sent, mut received) = (self.0.sent.lock().unwrap(), self.0.received.lock().unwrap());
        sent.sort();
        received.sort();
        assert_eq!(*sent, *received, "what was sent was received");
        assert!(sent.windows(2).all(|two| two[0] < two[1]), "each value once");
        assert_eq!(self.0.alive.load(SeqCst), 0, "no value is kept");
    }
}

// ---- tasks

/// Wakes a task by unparking its thread.
struct Unparks(schedule::Thread);

impl Wake for Unparks {
    fn wake(self: Arc<Self>) {
        in_no_lock();
        self.0.unpark();
    }
}

impl Drop for Unparks {
    fn drop(&mut self) {
        in_no_lock();
    }
}

/// Runs one task in this thread.
fn block_on<F: Future>(task: F) -> F::Output {
    let mut task = std::pin::pin!(task);
    let waker = Waker::from(Arc::new(Unparks(schedule::current())));
    loop {
        if let Poll::Ready(output) = task.as_mut().poll(&mut Context::from_waker(&waker)) {
            return output;
        }
        schedule::park();
    }
}

/// Polls a task so often, at most, and then drops it.
fn poll_and_drop<F: Future>(task: F, times: u64) -> Option<F::Output> {
    let mut task = Box::pin(task);
    let waker = Waker::from(Arc::new(Unparks(schedule::current())));
    for _ in 0..times {
        if let Poll::Ready(output) = task.as_mut().poll(&mut Context::from_waker(&waker)) {
            return Some(output);
        }
        dawdle(8);
    }
    None
}

/// A task whose waker polls it at once, in whatever thread calls it.
struct Eager {
    future: schedule::Mutex<Option<Pin<Box<dyn Future<Output = ()> + Send>>>>,
    /// How many wakes are not yet followed by a poll.
    wakes: schedule::atomic::AtomicUsize,
}

impl Eager {
    fn start(task: impl Future<Output = ()> + Send + 'static) {
        let future = schedule::Mutex::new(Some(Box::pin(task) as Pin<Box<dyn Future<Output = ()> + Send>>));
        Arc::new(Eager { future, wakes: Default::default() }).wake();
    }
}

impl Drop for Eager {
    fn drop(&mut self) {
        in_no_lock();
    }
}

impl Wake for Eager {
    fn wake(self: Arc<Self>) {
        in_no_lock();
        // whoever comes first polls, for those also who come meanwhile
        if self.wakes.fetch_add(1, SeqCst) > 0 {
            return;
        }
        let mut seen = 1;
        loop {
            let taken = schedule::lock(&self.future).take();
            if let Some(mut future) = taken {
                let waker = Waker::from(self.clone());
                if future.as_mut().poll(&mut Context::from_waker(&waker)).is_pending() {
                    *schedule::lock(&self.future) = Some(future);
                }
            }
            let wakes = self.wakes.fetch_sub(seen, SeqCst);
            if wakes == seen {
                return;
            }
            seen = wakes - seen;
        }
    }
}

// ---- the scenarios

const SCENARIOS: &[Scenario] = &[
    Scenario { name: "wide", trial: Some(1573), build: wide },
    Scenario { name: "wide2", trial: Some(1946), build: wide2 },
    Scenario { name: "both", trial: Some(1659), build: both_wide },
    Scenario { name: "crowd_wide", trial: Some(2299), build: crowd_wide },
    Scenario { name: "crowd", trial: Some(2414), build: crowd },
    Scenario { name: "crowd3", trial: Some(5234), build: crowd3 },
    Scenario { name: "mix", trial: Some(1708), build: mix },
    Scenario { name: "lent", trial: Some(4016), build: lent },
    Scenario { name: "signal", trial: Some(1161), build: signal },
    Scenario { name: "signal_crowd", trial: Some(3280), build: signal_crowd },
    Scenario { name: "nack", trial: Some(1023), build: nack },
    Scenario { name: "poll", trial: Some(2833), build: poll },
    Scenario { name: "alarm", trial: None, build: alarm },
    Scenario { name: "seasons", trial: None, build: seasons },
    Scenario { name: "single_rows", trial: None, build: single_rows },
    Scenario { name: "widens", trial: None, build: widens },
    Scenario { name: "narrows", trial: None, build: narrows },
    Scenario { name: "idle_crowd", trial: None, build: idle_crowd },
    Scenario { name: "lent_out", trial: None, build: lent_out },
    Scenario { name: "lent_tasks", trial: None, build: lent_tasks },
    Scenario { name: "lent_drops", trial: None, build: lent_drops },
    Scenario { name: "first_come", trial: None, build: first_come },
    Scenario { name: "late", trial: None, build: late },
    Scenario { name: "triangle", trial: None, build: triangle },
    Scenario { name: "storm", trial: None, build: storm },
    Scenario { name: "spins", trial: None, build: spins },
    Scenario { name: "two_hubs", trial: None, build: two_hubs },
    Scenario { name: "nested_nacks", trial: None, build: nested_nacks },
    Scenario { name: "many_latches", trial: None, build: many_latches },
    Scenario { name: "two_fire", trial: None, build: two_fire },
    Scenario { name: "timeouts", trial: None, build: timeouts },
    Scenario { name: "deadlines", trial: None, build: deadlines },
    Scenario { name: "polls_find", trial: None, build: polls_find },
    Scenario { name: "polls", trial: None, build: polls },
    Scenario { name: "guards_sync", trial: None, build: guards_sync },
    Scenario { name: "drops_sync", trial: None, build: drops_sync },
    Scenario { name: "swap", trial: None, build: swap },
    Scenario { name: "client_server", trial: None, build: client_server },
    Scenario { name: "panics", trial: None, build: panics },
    Scenario { name: "spawned", trial: None, build: spawned },
    Scenario { name: "halves_close", trial: None, build: halves_close },
    Scenario { name: "halves_back", trial: None, build: halves_back },
    Scenario { name: "halves_choice", trial: None, build: halves_choice },
    Scenario { name: "tasks", trial: None, build: tasks },
    Scenario { name: "tasks_dropped", trial: None, build: tasks_dropped },
    Scenario { name: "tasks_move", trial: None, build: tasks_move },
    Scenario { name: "task_timeouts", trial: None, build: task_timeouts },
    Scenario { name: "eager_tasks", trial: None, build: eager_tasks },
    Scenario { name: "wakers_sync", trial: None, build: wakers_sync },
    Scenario { name: "threads_end", trial: None, build: threads_end },
    Scenario { name: "storm_tasks", trial: None, build: storm_tasks },
];

/// One wide receiver, and a sender on one channel at a time.
fn wide(play: &mut Play) {
    let hub = hub(4, 4, 2);
    let (ours, theirs) = both(channels(&hub, 6));
    play.thread(move || {
        for _ in 0..3 {
            recv_any(&ours);
        }
    });
    play.thread(move || {
        for n in [1, 3, 5] {
            theirs[n].send(n)
        }
    });
}

/// One wide receiver, and two senders.
fn wide2(play: &mut Play) {
    let hub = hub(4, 4, 2);
    let channels = channels(&hub, 6);
    let ours = channels.clone();
    play.thread(move || {
        for _ in 0..4 {
            recv_any(&ours);
        }
    });
    for numbers in [[0, 3], [5, 2]] {
        let theirs = channels.clone();
        play.thread(move || {
            for n in numbers {
                theirs[n].send(n)
            }
        });
    }
}

/// A wide sender and a wide receiver.
fn both_wide(play: &mut Play) {
    let hub = hub(4, 3, 2);
    let (ours, theirs) = both(channels(&hub, 5));
    play.thread(move || {
        for _ in 0..3 {
            recv_any(&ours);
        }
    });
    play.thread(move || {
        for _ in 0..3 {
            send_any(&theirs);
        }
    });
}

/// Wide ones and two slots.
fn crowd_wide(play: &mut Play) {
    let hub = hub(2, 2, 2);
    let ours = channels(&hub, 5);
    let (theirs, others) = both(ours.clone());
    play.thread(move || {
        for _ in 0..4 {
            recv_any(&ours);
        }
    });
    play.thread(move || {
        for n in [0, 4] {
            theirs[n].send(n)
        }
    });
    play.thread(move || {
        for _ in 0..2 {
            send_any(&others);
        }
    });
}

/// Pairs, and two slots.
fn crowd(play: &mut Play) {
    let hub = hub(2, 2, 2);
    for _ in 0..2 {
        let (ours, theirs) = both(hub.channel::<usize>());
        play.thread(move || {
            for n in 0..3 {
                ours.send(n)
            }
        });
        play.thread(move || {
            for n in 0..3 {
                assert_eq!(theirs.recv(), n)
            }
        });
    }
}

/// Pairs, three slots, one row and one pass.
fn crowd3(play: &mut Play) {
    let hub = hub(3, 1, 1);
    for _ in 0..3 {
        let (ours, theirs) = both(channels(&hub, 2));
        play.thread(move || {
            for n in 0..2 {
                ours[0].send(n);
                assert_eq!(ours[1].recv(), n + 1)
            }
        });
        play.thread(move || {
            for n in 0..2 {
                assert_eq!(theirs[0].recv(), n);
                theirs[1].send(n + 1)
            }
        });
    }
}

/// All choose to send and to receive on one channel.
fn mix(play: &mut Play) {
    let hub = hub(2, 3, 2);
    let channel = hub.channel::<usize>();
    let stop = Signal::new();
    for _ in 0..4 {
        let (channel, stop) = (channel.clone(), stop.clone());
        play.thread(move || {
            for _ in 0..2 {
                let goes_on = choose![
                    channel.send_evt(1).wrap(|()| true),
                    channel.recv_evt().wrap(|_| true),
                    stop.evt().wrap(|()| false)
                ];
                if !goes_on.sync() {
                    break;
                }
            }
            stop.fire()
        });
    }
}

/// Channels whose numbers are lent: 246 keep theirs.
fn lent(play: &mut Play) {
    let hub = hub(4, 3, 2);
    let kept = channels(&hub, 246);
    play.check(move || drop(kept));
    let channels = channels(&hub, 14);
    let ours = channels.clone();
    play.thread(move || {
        for _ in 0..4 {
            recv_any(&ours);
        }
    });
    for numbers in [[0, 12], [13, 7]] {
        let theirs = channels.clone();
        play.thread(move || {
            for n in numbers {
                theirs[n].send(n)
            }
        });
    }
}

/// A signal in a choice.
fn signal(play: &mut Play) {
    let hub = hub(2, 2, 2);
    let (ours, theirs) = both(channels(&hub, 3));
    let stop = Signal::new();
    let (stop_ours, stop_other) = both(stop.clone());
    play.thread(move || {
        let mut count = 0;
        while choose![
            choose(ours.iter().map(|channel| channel.recv_evt())).wrap(|_| true),
            stop_ours.evt().wrap(|()| false)
        ]
        .sync()
        {
            count += 1;
        }
        assert!(count <= 2);
    });
    play.thread(move || {
        for n in [2, 0] {
            theirs[n].send(n)
        }
        stop.fire()
    });
    play.thread(move || stop_other.evt().sync());
}

/// A signal that fires while others bring the sync in and try it.
fn signal_crowd(play: &mut Play) {
    let hub = hub(2, 3, 2);
    let channel = hub.channel::<usize>();
    let (stop, stop_ours) = both(Signal::new());
    let ours = channel.clone();
    play.thread(move || while choose![ours.recv_evt().wrap(|_| true), stop_ours.evt().wrap(|()| false)].sync() {});
    for _ in 0..2 {
        let channel = channel.clone();
        play.thread(move || {
            for _ in 0..2 {
                channel.send_evt(1).poll();
                choose![channel.send_evt(2).wrap(|()| 0), channel.recv_evt()].poll();
            }
        });
    }
    let (there, there_too) = both(hub.channel::<usize>());
    let (back, back_too) = both(hub.channel::<usize>());
    play.thread(move || {
        for _ in 0..2 {
            there.send(1);
            back.recv();
        }
    });
    play.thread(move || {
        for _ in 0..2 {
            there_too.recv();
            back_too.send(1);
        }
        stop.fire()
    });
}

/// Nacks between a client and a server.
fn nack(play: &mut Play) {
    let hub = hub(3, 2, 2);
    let (requests, requests_too): (Channel<(Channel<usize>, Nack)>, _) = both(hub.channel());
    let reply = hub.channel::<usize>();
    let (go, go_too) = both(hub.channel::<usize>());
    play.thread(move || {
        for _ in 0..2 {
            choose![
                with_nack(|gone| {
                    requests.send((reply.clone(), gone));
                    reply.recv_evt()
                }),
                go.recv_evt()
            ]
            .sync();
        }
    });
    play.thread(move || {
        for _ in 0..2 {
            let (reply, gone) = requests_too.recv();
            choose![reply.send_evt(1), gone].sync();
        }
    });
    play.thread(move || {
        go_too.send_evt(1).poll();
    });
}

/// Polls meet nobody or somebody, and lose nothing.
fn poll(play: &mut Play) {
    let hub = hub(2, 2, 1);
    let (ours, theirs) = both(channels(&hub, 5));
    play.thread(move || {
        let mut count = 0;
        while count < 2 {
            match choose(ours.iter().map(|channel| channel.recv_evt())).poll() {
                Some(_) => count += 1,
                None => pass_on(),
            }
        }
    });
    play.thread(move || {
        for n in [4, 1] {
            theirs[n].send(n)
        }
    });
    let (sender, receiver) = both(hub.channel::<usize>());
    play.thread(move || sender.send(1));
    play.thread(move || {
        receiver.recv();
    });
}

/// Signals fire while a third thread tries the waiting row in vain: it brings the sync in for its own row, which another
/// meets meanwhile. Each round has channels of its own, so that none helps the one before it.
fn alarm(play: &mut Play) {
    const ROUNDS: usize = 4;
    let hub = hub(4, 6, 4);
    let near: Vec<_> = (0..ROUNDS).map(|_| channels(&hub, 3)).collect();
    let (other, other_too) = both(hub.channel::<usize>());
    let over: Vec<Signal> = (0..ROUNDS).map(|_| Signal::new()).collect();
    let last = Arc::new(AtomicUsize::new(0));
    // it shows one of two windows at a time: who offers on the other brings it in
    let (near_ours, over_ours) = (near.clone(), over.clone());
    play.thread(move || {
        for (near, over) in near_ours.iter().zip(over_ours) {
            let any = || choose(near.iter().map(|channel| channel.recv_evt())).wrap(|_| true);
            while choose![any(), over.evt().wrap(|()| false)].sync() {}
        }
    });
    let (round, over_theirs) = (last.clone(), over.clone());
    play.thread(move || {
        for (number, near) in near.iter().enumerate() {
            while round.load(SeqCst) <= number {
                let either = choose![near[0].send_evt(1), other.send_evt(1)];
                choose![either, over_theirs[number].evt()].sync();
            }
        }
    });
    let round = last.clone();
    play.thread(move || {
        while round.load(SeqCst) < ROUNDS {
            other_too.recv_evt().poll();
            dawdle(8);
        }
    });
    play.thread(move || {
        for over in over {
            dawdle(60);
            last.fetch_add(1, SeqCst);
            over.fire();
        }
    });
}

/// Tables that end all the time, with one who waits through them.
fn seasons(play: &mut Play) {
    let hub = hub(play.one_of(&[3, 4, 6]), 2, 2);
    let ledger = play.ledger();
    let stop = Signal::new();
    let (idle, ended) = (hub.channel::<usize>(), stop.clone());
    play.thread(move || assert_eq!(choose![idle.recv_evt().wrap(Some), ended.evt().wrap(|()| None)].sync(), None));
    let (ours, theirs) = both(hub.channel::<Value>());
    let (sender, receiver) = both(ledger);
    play.thread(move || {
        for _ in 0..6 {
            sender.send(&ours);
        }
        stop.fire();
    });
    play.thread(move || {
        for _ in 0..6 {
            receiver.recv_evt(&theirs).sync();
        }
    });
}

/// Tables of one row for each slot, in which all choose.
fn single_rows(play: &mut Play) {
    let hub = hub(play.one_of(&[2, 3, 5]), 1, play.one_of(&[1, 2]));
    let ledger = play.ledger();
    let channels: Vec<Channel<Value>> = (0..2).map(|_| hub.channel()).collect();
    for _ in 0..2 {
        let (channels, ledger) = (channels.clone(), ledger.clone());
        play.thread(move || {
            for _ in 0..3 {
                choose(channels.iter().map(|channel| ledger.send_evt(channel))).sync();
            }
        });
    }
    for n in 0..2 {
        let (channels, ledger) = (channels.clone(), ledger.clone());
        play.thread(move || {
            for _ in 0..3 {
                match n {
                    0 => choose![ledger.recv_evt(&channels[0]), ledger.recv_evt(&channels[1])].sync(),
                    _ => choose![ledger.recv_evt(&channels[1]), ledger.recv_evt(&channels[0])].sync(),
                };
            }
        });
    }
}

/// More and more wait, in a hub with room for all of them, and then fewer.
fn widens(play: &mut Play) {
    let hub = hub(16, play.one_of(&[1, 2, 3]), 3);
    let ledger = play.ledger();
    for _ in 0..4 {
        let (ours, theirs) = both((hub.channel::<Value>(), hub.channel::<Value>()));
        let (sender, receiver) = both(ledger.clone());
        play.thread(move || {
            for _ in 0..3 {
                sender.send(&ours.0);
                sender.recv_evt(&ours.1).sync();
            }
        });
        play.thread(move || {
            for _ in 0..3 {
                choose![receiver.recv_evt(&theirs.0), receiver.recv_evt(&theirs.1)].sync();
                receiver.send(&theirs.1);
            }
        });
    }
}

/// Many wait, and then few: the table is made wider, and after some seasons narrower, while others ask for its slots.
fn narrows(play: &mut Play) {
    let hub = hub(8, 1, 2);
    let ledger = play.ledger();
    let stop = Signal::new();
    for _ in 0..5 {
        let (idle, ended) = (hub.channel::<usize>(), stop.clone());
        play.thread(move || assert_eq!(choose![idle.recv_evt().wrap(Some), ended.evt().wrap(|()| None)].sync(), None));
    }
    let (ours, theirs) = both(hub.channel::<Value>());
    let (sender, receiver) = both(ledger);
    play.thread(move || {
        for n in 0..50 {
            sender.send(&ours);
            if n == 3 {
                stop.fire();
            }
        }
    });
    play.thread(move || {
        for _ in 0..50 {
            receiver.recv_evt(&theirs).sync();
        }
    });
    let known = hub.clone();
    play.thread(move || {
        let idle = channels(&hub, 2);
        for _ in 0..12 {
            choose(idle.iter().map(|channel| channel.recv_evt())).poll();
            dawdle(20);
        }
    });
    play.check(move || assert!(known.stats().turns > 10));
}

/// Pairs that can meet each other only, beside some who wait for what never comes.
fn idle_crowd(play: &mut Play) {
    let hub = hub(play.one_of(&[2, 3]), 2, 2);
    let (stop, done) = (Signal::new(), Arc::new(AtomicUsize::new(0)));
    for n in 0..3 {
        let (idle, ended) = (channels(&hub, 1 + 2 * n), stop.clone());
        play.thread(move || {
            let idle = choose(idle.iter().map(|channel| channel.recv_evt())).wrap(Some);
            assert_eq!(choose![idle, ended.evt().wrap(|()| None)].sync(), None);
        });
    }
    for _ in 0..2 {
        let (ours, theirs) = both(hub.channel::<usize>());
        let (stop, done) = (stop.clone(), done.clone());
        play.thread(move || (0..2).for_each(|n| ours.send(n)));
        play.thread(move || {
            for n in 0..2 {
                assert_eq!(theirs.recv(), n);
            }
            if done.fetch_add(1, SeqCst) == 1 {
                stop.fire();
            }
        });
    }
}

/// A hub whose channels have no number for life.
fn lending_hub(play: &mut Play, slots: u8, rows: u16, passes: u8) -> Hub {
    let hub = hub(slots, rows, passes);
    let kept = channels(&hub, 246);
    play.check(move || drop(kept));
    hub
}

/// More channels are waited for at once than numbers can be lent.
fn lent_out(play: &mut Play) {
    let hub = lending_hub(play, 8, 3, 2);
    let ledger = play.ledger();
    let (stop, done) = (Signal::new(), Arc::new(AtomicUsize::new(0)));
    for _ in 0..4 {
        let (idle, ended) = (channels(&hub, 2), stop.clone());
        play.thread(move || {
            let idle = choose(idle.iter().map(|channel| channel.recv_evt())).wrap(Some);
            assert_eq!(choose![idle, ended.evt().wrap(|()| None)].sync(), None);
        });
    }
    for _ in 0..2 {
        let channels: Vec<Channel<Value>> = (0..4).map(|_| hub.channel()).collect();
        let (ours, theirs) = both(channels);
        let (sender, receiver) = both(ledger.clone());
        let (stop, done) = (stop.clone(), done.clone());
        play.thread(move || {
            for _ in 0..3 {
                choose![sender.send_evt(&ours[0]), sender.send_evt(&ours[1])].sync();
                choose![sender.recv_evt(&ours[2]), sender.recv_evt(&ours[3])].sync();
            }
            if done.fetch_add(1, SeqCst) == 1 {
                stop.fire();
            }
        });
        play.thread(move || {
            for _ in 0..3 {
                choose![receiver.recv_evt(&theirs[1]), receiver.recv_evt(&theirs[0])].sync();
                choose![receiver.send_evt(&theirs[3]), receiver.send_evt(&theirs[2])].sync();
            }
        });
    }
}

/// Tasks that wait need one number more than can be lent, again and again: none stays lent that nobody needs.
fn lent_tasks(play: &mut Play) {
    let hub = lending_hub(play, 8, 3, 2);
    let channels = channels(&hub, 12);
    play.thread(move || {
        let waker = Waker::from(Arc::new(Unparks(schedule::current())));
        for round in 0..12 {
            let channel = |n: usize| &channels[(round + n) % channels.len()];
            let start = |n: usize| {
                let mut task = Box::pin(choose![channel(2 * n).recv_evt(), channel(2 * n + 1).recv_evt()].wait());
                assert!(task.as_mut().poll(&mut Context::from_waker(&waker)).is_pending());
                task
            };
            let mut tasks: Vec<_> = (0..5).map(start).collect();
            for (n, task) in tasks.iter_mut().enumerate().skip(1) {
                assert_eq!(channel(2 * n + 1).try_send(n), Ok(()), "a task waits");
                assert_eq!(task.as_mut().poll(&mut Context::from_waker(&waker)), Poll::Ready(n));
            }
        }
    });
}

/// Channels are made and dropped all the time, and their numbers are lent to others.
fn lent_drops(play: &mut Play) {
    let hub = lending_hub(play, 4, 3, 2);
    let ledger = play.ledger();
    let (requests, requests_too) = both(hub.channel::<Channel<Value>>());
    for _ in 0..2 {
        let (hub, ledger, requests) = (hub.clone(), ledger.clone(), requests.clone());
        play.thread(move || {
            for _ in 0..3 {
                let reply = hub.channel();
                requests.send(reply.clone());
                ledger.recv_evt(&reply).sync();
            }
        });
    }
    let others: Vec<Channel<usize>> = channels(&hub, 12);
    play.thread(move || {
        for n in 0..6 {
            let reply = requests_too.recv();
            assert_eq!(others[2 * n].recv_evt().poll(), None);
            assert_eq!(others[2 * n + 1].send_evt(n).poll(), None);
            ledger.send(&reply);
        }
    });
}

/// Who waits longest on a channel is met first, in the table and on the bench.
fn first_come(play: &mut Play) {
    const WAITING: usize = 5;
    let hub = hub(play.one_of(&[2, 3, 4, 8]), 3, 2);
    let (sends, kind, meets) = (play.seed / 4 % 2 == 0, play.seed / 8 % 4, play.seed / 32 % 4);
    let channel = hub.channel::<usize>();
    let turn = Arc::new(AtomicUsize::new(0));
    // each begins when those before it wait
    let my_turn = move |turn: &AtomicUsize, number: usize| {
        while turn.load(SeqCst) != number {
            wait_for_quiet();
        }
        wait_for_quiet();
        turn.store(number + 1, SeqCst);
    };
    for number in 0..WAITING {
        let (channel, turn, others) = (channel.clone(), turn.clone(), channels(&hub, 3));
        play.thread(move || {
            my_turn(&turn, number);
            let waits = match sends {
                true => channel.send_evt(number).wrap(move |()| number).boxed(),
                false => channel.recv_evt().boxed(),
            };
            let other = |n: usize| others[n].recv_evt().wrap(|_| usize::MAX);
            let got = match (kind, number % 2) {
                (0, _) | (2, 0) => waits.sync(),
                (1, _) | (2, _) => choose![other(0), waits].sync(),
                _ => choose![other(0), waits, other(1), other(2)].sync(),
            };
            assert_eq!(got, number, "who waits longest is met first");
        });
    }
    let others = channels(&hub, 3);
    play.thread(move || {
        my_turn(&turn, WAITING);
        for number in 0..WAITING {
            let other = |n: usize| others[n].recv_evt().wrap(|_| None);
            let meeting = match sends {
                true => channel.recv_evt().wrap(Some).boxed(),
                false => channel.send_evt(number).wrap(move |()| Some(number)).boxed(),
            };
            // somebody waits: so a poll meets him too
            let met = match meets {
                0 => meeting.sync(),
                1 => meeting.poll().flatten(),
                2 => choose![other(0), meeting].poll().flatten(),
                _ => choose![other(0), other(1), meeting, other(2)].poll().flatten(),
            };
            assert_eq!(met, Some(number), "who waits longest is met first");
            wait_for_quiet();
        }
    });
}

/// Two send to one who waits. Whoever of them is late waits longer than a third who comes behind them.
fn late(play: &mut Play) {
    let hub = hub(play.one_of(&[4, 8]), 3, 2);
    let channel = hub.channel::<usize>();
    let waits = channel.clone();
    play.thread(move || assert!(waits.recv() < 2));
    play.thread(move || {
        let sends = |number| {
            let channel = channel.clone();
            spawn(move || channel.send(number))
        };
        wait_for_quiet();
        let two = [sends(0), sends(1)];
        wait_for_quiet();
        let third = sends(2);
        wait_for_quiet();
        assert!(channel.recv() < 2, "who waits longest is met first");
        assert_eq!(channel.recv(), 2);
        two.into_iter().chain([third]).for_each(|thread| thread.join().unwrap());
    });
}

/// Three choose among sends and receives on three channels.
fn triangle(play: &mut Play) {
    let hub = hub(play.one_of(&[2, 3, 4]), 2, 2);
    let ledger = play.ledger();
    let channels: Vec<Channel<Value>> = (0..3).map(|_| hub.channel()).collect();
    let stop = Signal::new();
    for n in 0..3 {
        let (channels, ledger, stop) = (channels.clone(), ledger.clone(), stop.clone());
        play.thread(move || {
            for _ in 0..2 {
                let goes_on = choose![
                    ledger.send_evt(&channels[n]),
                    ledger.recv_evt(&channels[(n + 1) % 3]),
                    ledger.recv_evt(&channels[(n + 2) % 3]),
                    stop.evt().wrap(|()| false)
                ];
                if !goes_on.sync() {
                    break;
                }
            }
            stop.fire();
        });
    }
}

/// What one thread of a storm does once: a drawn choice, in which any two of them can meet.
fn any_choice<'a>(
    channels: &'a [Channel<Value>],
    ledger: &Ledger,
    stop: &Signal,
    nacks: &mut Vec<(u64, mpsc::Receiver<Nack>)>,
    chosen: &Arc<AtomicU64>,
) -> BoxedEvent<'a, bool> {
    let mut events = Vec::new();
    for number in 0..2 + schedule::draw(4) {
        let channel = if number < 2 { 0 } else { schedule::draw(channels.len() as u64) as usize };
        let event = match if number < 2 { number } else { schedule::draw(2) } {
            0 => ledger.send_evt(&channels[channel]),
            _ => ledger.recv_evt(&channels[channel]),
        };
        let mark = chosen.clone();
        let event = event.wrap(move |goes_on| {
            mark.store(number, SeqCst);
            goes_on
        });
        if schedule::draw(3) > 0 {
            events.push(event.boxed());
            continue;
        }
        let (give, take) = mpsc::channel();
        nacks.push((number, take));
        let enclosed = with_nack(move |nack| {
            in_no_lock();
            give.send(nack).unwrap();
            event
        });
        events.push(enclosed.boxed());
    }
    choose(events).or(stop.evt().wrap(|()| false)).boxed()
}

/// The rounds of one thread of a storm: each synced as `sync` says, and its nacks looked at.
fn rounds(
    channels: &[Channel<Value>],
    ledger: &Ledger,
    stop: &Signal,
    sync: impl for<'a> Fn(BoxedEvent<'a, bool>) -> Option<bool>,
) {
    for _ in 0..4 {
        let (mut nacks, chosen) = (Vec::new(), Arc::new(AtomicU64::new(u64::MAX)));
        let goes_on = sync(any_choice(channels, ledger, stop, &mut nacks, &chosen));
        for (number, nack) in nacks {
            // a task that was dropped before its first poll has run no guard
            if let Ok(nack) = nack.recv() {
                let chosen = chosen.load(SeqCst);
                assert_eq!(nack.poll().is_some(), number != chosen, "the nack of {number} where {chosen} was chosen");
            }
        }
        if goes_on == Some(false) {
            break;
        }
    }
    stop.fire();
}

fn stormy_hub(play: &Play) -> Hub {
    let seed = play.seed;
    hub([2, 3, 4, 6][seed as usize % 4], [1, 2, 3][seed as usize / 4 % 3], [1, 2, 4][seed as usize / 12 % 3])
}

/// Drawn choices, polls and time-outs.
fn storm(play: &mut Play) {
    let hub = stormy_hub(play);
    let ledger = play.ledger();
    let channels: Vec<Channel<Value>> = (0..play.one_of(&[1, 2, 3, 5, 7])).map(|_| hub.channel()).collect();
    let stop = Signal::new();
    for _ in 0..4 {
        let (channels, ledger, stop) = (channels.clone(), ledger.clone(), stop.clone());
        play.thread(move || {
            rounds(&channels, &ledger, &stop, |event| match schedule::draw(5) {
                0 => event.poll(),
                1 => event.sync_within(Duration::from_micros(schedule::draw(200))),
                _ => Some(event.sync()),
            });
        });
    }
}

/// Who waits looks some times before it parks.
fn spins(play: &mut Play) {
    let hub = Hub::audited(Config { slots: 2, rows: 3, passes: 2, spin: play.one_of(&[1, 3, 8]) });
    let ledger = play.ledger();
    for _ in 0..2 {
        let (ours, theirs) = both(hub.channel::<Value>());
        let (sender, receiver) = both(ledger.clone());
        play.thread(move || (0..3).for_each(|_| sender.send(&ours)));
        play.thread(move || {
            for _ in 0..3 {
                receiver.recv_evt(&theirs).sync();
            }
        });
    }
}

/// Threads that wait now in one hub and now in the other, and a signal in both.
fn two_hubs(play: &mut Play) {
    let hubs = [hub(2, 2, 1), hub(3, 1, 2)];
    let ledger = play.ledger();
    let (stop, ended) = both(Signal::new());
    let (ours, theirs) = both(hubs.clone().map(|hub| hub.channel::<Value>()));
    let (sender, receiver) = both(ledger.clone());
    play.thread(move || {
        for n in [0, 1, 1, 0] {
            sender.send(&ours[n]);
        }
        stop.fire();
    });
    play.thread(move || {
        for n in [0, 1, 1, 0] {
            receiver.recv_evt(&theirs[n]).sync();
        }
    });
    let idle = hubs.map(|hub| hub.channel::<usize>());
    play.thread(move || {
        for idle in idle {
            assert_eq!(choose![idle.recv_evt().wrap(Some), ended.evt().wrap(|()| None)].sync(), None);
        }
    });
}

/// Nacks within nacks: those fire that do not enclose what was chosen.
fn nested_nacks(play: &mut Play) {
    let hub = hub(play.one_of(&[2, 3, 4]), 2, 2);
    let (ours, theirs) = both(channels(&hub, 4));
    play.thread(move || {
        for _ in 0..2 {
            let mut told: Vec<Nack> = Vec::new();
            let (give, take) = mpsc::channel();
            let nack = |event, give: &mpsc::Sender<Nack>| {
                let give = give.clone();
                with_nack(move |nack| {
                    in_no_lock();
                    give.send(nack).unwrap();
                    event
                })
            };
            let recv = |n: usize| ours[n].recv_evt().wrap(move |_| n).boxed();
            let inner = choose![nack(recv(1), &give), recv(2)].boxed();
            let chosen = choose![nack(recv(0), &give), nack(inner, &give), recv(3)].sync();
            told.extend(take.try_iter());
            // in the order in which they were forced: of the first, of the two behind it, of the first of those
            let fired: Vec<bool> = told.into_iter().map(|nack| nack.poll().is_some()).collect();
            assert_eq!(fired, [chosen != 0, chosen != 1 && chosen != 2, chosen != 1]);
        }
    });
    for n in 0..2 {
        let theirs = theirs.clone();
        play.thread(move || choose![theirs[n].send_evt(1), theirs[2 + n].send_evt(1)].sync());
    }
}

/// A nack that many wait for: in the table, on the bench, and in no hub.
fn many_latches(play: &mut Play) {
    let hub = hub(2, 2, 2);
    let (go, go_too) = both(hub.channel::<()>());
    let (never_comes, nacks) = (hub.channel::<()>(), Signal::new());
    let told = Arc::new(Mutex::new(None));
    for n in 0..4 {
        let (told, idle, there) = (told.clone(), channels(&hub, n), nacks.clone());
        play.thread(move || {
            there.evt().sync();
            let nack: Nack = told.lock().unwrap().clone().unwrap();
            let idle = choose(idle.iter().map(|channel| channel.recv_evt())).wrap(|_| false);
            assert!(choose![idle, nack.wrap(|()| true)].sync());
        });
    }
    play.thread(move || {
        let event = with_nack(|nack| {
            *told.lock().unwrap() = Some(nack);
            nacks.fire();
            never_comes.recv_evt().wrap(|()| false)
        });
        assert!(choose![event, go.recv_evt().wrap(|()| true)].sync());
    });
    play.thread(move || go_too.send(()));
}

/// Two fire one signal, while others look, wait, and begin to wait.
fn two_fire(play: &mut Play) {
    let hub = hub(2, 2, 2);
    let signal = Signal::new();
    for _ in 0..2 {
        let signal = signal.clone();
        play.thread(move || {
            dawdle(6);
            signal.fire();
        });
    }
    for n in 0..3 {
        let (signal, idle) = (signal.clone(), channels(&hub, n));
        play.thread(move || {
            for _ in 0..2 {
                let idle = choose(idle.iter().map(|channel| channel.recv_evt())).wrap(|_| false);
                choose![idle, signal.evt().wrap(|()| true)].poll();
            }
            let idle = choose(idle.iter().map(|channel| channel.send_evt(1))).wrap(|_| false);
            assert!(choose![idle, signal.evt().wrap(|()| true)].sync());
            assert!(signal.evt().poll().is_some());
        });
    }
}

/// Time-outs on both sides: a value is received or kept, as both agree.
fn timeouts(play: &mut Play) {
    let hub = hub(play.one_of(&[2, 3, 4]), 2, 2);
    let ledger = play.ledger();
    let channels: Vec<Channel<Value>> = (0..3).map(|_| hub.channel()).collect();
    for n in 0..4 {
        let (channels, ledger) = (channels.clone(), ledger.clone());
        play.thread(move || {
            for _ in 0..2 {
                let begun = schedule::now();
                let time = Duration::from_micros(schedule::draw(400));
                let wide = choose(channels.iter().map(|channel| match n % 2 {
                    0 => ledger.send_evt(channel),
                    _ => ledger.recv_evt(channel),
                }));
                if wide.sync_within(time).is_none() {
                    assert!(schedule::now() >= begun + time, "not before its time");
                }
            }
        });
    }
}

/// Of several times the first comes, and none before its time.
fn deadlines(play: &mut Play) {
    let hub = hub(2, 2, 2);
    for _ in 0..3 {
        let idle = hub.channel::<usize>();
        play.thread(move || {
            let begun = schedule::now();
            let time = |micros| begun + Duration::from_micros(micros);
            let first = choose![
                at(time(900)).wrap(|()| 900),
                at(time(300)).wrap(|()| 300),
                timeout(Duration::from_micros(600)).wrap(|()| 600),
                idle.recv_evt().wrap(|_| 0)
            ];
            assert_eq!(first.sync(), 300);
            assert!(schedule::now() >= time(300));
            assert_eq!(choose![at(begun).wrap(|()| 1), idle.recv_evt()].sync(), 1);
            timeout(Duration::from_micros(100)).sync();
            assert!(schedule::now() >= time(400));
        });
    }
}

/// A poll meets who has waited all the time, whoever else comes and goes.
fn polls_find(play: &mut Play) {
    let hub = hub(play.one_of(&[2, 3]), 2, 2);
    let go = Signal::new();
    let (waits, there) = both(hub.channel::<usize>());
    play.thread(move || waits.send(1));
    let begins = go.clone();
    play.thread(move || {
        wait_for_quiet();
        begins.fire();
    });
    let others = channels(&hub, 2);
    for n in 0..3 {
        let (others, go) = (others.clone(), go.clone());
        play.thread(move || {
            go.evt().sync();
            for round in 0..3 {
                let time = Duration::from_micros(schedule::draw(200));
                match n {
                    0 => drop(others[round % 2].recv_evt().sync_within(time)),
                    1 => drop(others[0].send_evt(0).sync_within(time)),
                    _ => drop(others[1].send_evt(0).sync_within(time)),
                }
            }
        });
    }
    play.thread(move || {
        go.evt().sync();
        dawdle(20);
        let poll = || choose![others[0].recv_evt(), there.recv_evt(), others[1].recv_evt()].poll();
        while poll().expect("somebody waits all the time") == 0 {
            dawdle(3);
        }
    });
}

/// Sends and receives that do not wait.
fn polls(play: &mut Play) {
    let hub = hub(play.one_of(&[2, 3]), 2, 2);
    let ledger = play.ledger();
    let (ours, theirs) = both(hub.channel::<Value>());
    let (sender, receiver) = both(ledger);
    play.thread(move || {
        let mut sent = 0;
        while sent < 3 {
            let value = sender.value();
            let number = value.number;
            match ours.try_send(value) {
                Ok(()) => {
                    sender.sent(number);
                    sent += 1;
                }
                Err(value) => {
                    assert_eq!(value.number, number);
                    pass_on();
                }
            }
        }
    });
    play.thread(move || {
        for _ in 0..2 {
            receiver.recv_evt(&theirs).sync();
        }
        loop {
            if let Some(value) = theirs.try_recv() {
                break receiver.received(value);
            }
            pass_on();
        }
    });
}

/// Guards, nack functions and wrap functions that sync themselves.
fn guards_sync(play: &mut Play) {
    let hub = hub(play.one_of(&[2, 3]), 2, 2);
    let (ours, theirs) = both(channels(&hub, 4));
    play.thread(move || {
        for _ in 0..2 {
            let got = choose![
                guard(|| {
                    in_no_lock();
                    let more = ours[0].recv();
                    ours[1].recv_evt().wrap(move |got| got + more)
                }),
                with_nack(|_| {
                    ours[2].send(7);
                    ours[3].recv_evt().wrap(|got| {
                        in_no_lock();
                        ours[2].send(8);
                        got + 100
                    })
                })
            ]
            .sync();
            assert!(got == 3 || got == 104, "{got}");
        }
    });
    play.thread(move || {
        for _ in 0..2 {
            theirs[0].send(1);
            assert_eq!(theirs[2].recv(), 7);
            let sent = choose![theirs[1].send_evt(2).wrap(|()| false), theirs[3].send_evt(4).wrap(|()| true)].sync();
            if sent {
                assert_eq!(theirs[2].recv(), 8);
            }
        }
    });
}

/// Values that sync when they are dropped.
fn drops_sync(play: &mut Play) {
    struct Polls(Channel<usize>);
    impl Drop for Polls {
        fn drop(&mut self) {
            in_no_lock();
            self.0.try_recv();
        }
    }
    let hub = hub(play.one_of(&[2, 3]), 2, 1);
    let (log, log_too) = both(hub.channel::<usize>());
    let (ours, theirs) = both((hub.channel::<Polls>(), hub.channel::<Polls>()));
    let (done, ended) = both(Signal::new());
    play.thread(move || {
        for _ in 0..2 {
            choose![ours.0.send_evt(Polls(log.clone())), ours.1.send_evt(Polls(log.clone()))].sync();
            ours.0.send_evt(Polls(log.clone())).poll();
        }
        done.fire();
    });
    play.thread(move || {
        while ended.evt().poll().is_none() {
            theirs.0.recv_evt().sync_within(Duration::from_micros(300));
            theirs.1.recv_evt().poll();
        }
    });
    play.thread(move || {
        for n in 0..3 {
            log_too.send_evt(n).poll();
        }
    });
}

/// Two exchange values over one channel: each offers both sides at once.
fn swap(play: &mut Play) {
    let hub = hub(play.one_of(&[2, 3, 4]), 2, 2);
    let swaps = hub.channel::<(usize, Channel<usize>)>();
    let sum = Arc::new(AtomicUsize::new(0));
    for n in 0..2 {
        let (hub, swaps, sum) = (hub.clone(), swaps.clone(), sum.clone());
        play.thread(move || {
            for round in 0..3 {
                let mine = 10 * n + round;
                let back = hub.channel::<usize>();
                let theirs = choose![
                    swaps.recv_evt().wrap(|(theirs, back)| {
                        back.send(mine);
                        theirs
                    }),
                    swaps.send_evt((mine, back.clone())).wrap(|()| back.recv()),
                ]
                .sync();
                assert_eq!(theirs, 10 * (1 - n) + round);
                sum.fetch_add(theirs, SeqCst);
            }
        });
    }
    play.check(move || assert_eq!(sum.load(SeqCst), 36));
}

/// A server that learns by a nack whether its client has gone, and clients that wait for some time alone.
fn client_server(play: &mut Play) {
    let hub = hub(play.one_of(&[2, 3, 4]), 2, 2);
    let (requests, requests_too) = both(hub.channel::<(usize, Channel<usize>, Nack)>());
    let (stop, ended) = both(Signal::new());
    let (left, gone, served) =
        (Arc::new(AtomicUsize::new(2)), Arc::<AtomicUsize>::default(), Arc::<AtomicUsize>::default());
    for client in 0..2 {
        let (hub, requests, left, stop, gone, served) =
            (hub.clone(), requests.clone(), left.clone(), stop.clone(), gone.clone(), served.clone());
        play.thread(move || {
            for n in 0..2 {
                let call = with_nack(|nack| {
                    let reply = hub.channel();
                    requests.send((10 * client + n, reply.clone(), nack));
                    reply.into_recv_evt()
                });
                match call.sync_within(Duration::from_micros(schedule::draw(200))) {
                    Some(answer) => {
                        assert_eq!(answer, 10 * client + n + 1);
                        served.fetch_sub(1, SeqCst);
                    }
                    None => {
                        gone.fetch_sub(1, SeqCst);
                    }
                }
            }
            if left.fetch_sub(1, SeqCst) == 1 {
                stop.fire();
            }
        });
    }
    let (gone_too, served_too) = (gone.clone(), served.clone());
    play.thread(move || {
        while let Some((number, reply, nack)) =
            choose![requests_too.recv_evt().wrap(Some), ended.evt().wrap(|()| None)].sync()
        {
            dawdle(6);
            if choose![reply.send_evt(number + 1).wrap(|()| true), nack.wrap(|()| false)].sync() {
                served_too.fetch_add(1, SeqCst);
            } else {
                gone_too.fetch_add(1, SeqCst);
            }
        }
    });
    play.check(move || assert_eq!((gone.load(SeqCst), served.load(SeqCst)), (0, 0)));
}

/// A panic that no hook tells of.
fn panics_here() -> ! {
    resume_unwind(Box::new("on purpose"))
}

/// Panics in guards and wrap functions: nacks fire, what was received is received, and nothing is offered any more.
fn panics(play: &mut Play) {
    let hub = hub(play.one_of(&[2, 3]), 2, 2);
    let ledger = play.ledger();
    let (ours, theirs) = both(hub.channel::<Value>());
    let (sender, receiver) = both(ledger);
    play.thread(move || {
        for n in 0..4 {
            let mut told = None;
            let event = choose![
                receiver.recv_evt(&theirs).wrap(|_| if n % 2 == 0 {
                    panics_here()
                }),
                with_nack(|nack| {
                    told = Some(nack);
                    guard(|| {
                        in_no_lock();
                        if n == 1 { panics_here() } else { never() }
                    })
                }),
            ];
            let ended = catch_unwind(AssertUnwindSafe(|| event.sync()));
            assert_eq!(ended.is_err(), n < 3);
            assert!(told.unwrap().poll().is_some());
        }
    });
    play.thread(move || {
        for _ in 0..3 {
            sender.send(&ours);
        }
    });
}

/// Ends of threads that were spawned, by a panic too, in choices.
fn spawned(play: &mut Play) {
    let hub = hub(2, 2, 2);
    let (ours, theirs) = both(hub.channel::<usize>());
    play.thread(move || {
        let first = spawn(move || ours.send(3));
        let second = spawn(|| {
            dawdle(9);
            panics_here()
        });
        let (mut received, mut joined) = (0, 0);
        while received == 0 || joined == 0 {
            select! {
                got = theirs.recv_evt() => { received = got },
                _ = second.joined() => { joined = 1; dawdle(3) },
            }
        }
        first.joined().sync();
        assert_eq!(received, 3);
        assert!(first.join().is_ok());
        assert!(second.join().is_err());
    });
    play.thread(|| {
        let thread = spawn(|| 7);
        assert_eq!(thread.join().unwrap(), 7);
    });
}

/// All senders go while others wait to receive, each in a choice of its own.
fn halves_close(play: &mut Play) {
    let hub = hub(play.one_of(&[2, 3, 4]), 2, 2);
    let ledger = play.ledger();
    let (sender, receiver) = hub.halves::<Value>();
    for n in 0..2 {
        let (sender, ledger) = (sender.clone(), ledger.clone());
        play.thread(move || {
            for _ in 0..n {
                let value = ledger.value();
                let number = value.number;
                sender.send(value).map_err(|_| "receivers are there").unwrap();
                ledger.sent(number);
            }
            dawdle(9);
        });
    }
    drop(sender);
    for n in 0..4 {
        let (receiver, ledger, idle) = (receiver.clone(), ledger.clone(), channels(&hub, 3));
        play.thread(move || match n {
            0 => receiver.iter().for_each(|value| ledger.received(value)),
            1 => loop {
                match receiver.recv_timeout(Duration::from_micros(200)) {
                    Ok(value) => ledger.received(value),
                    Err(RecvTimeoutError::Timeout) => dawdle(3),
                    Err(RecvTimeoutError::Disconnected) => break,
                }
            },
            2 => loop {
                let idle = choose(idle.iter().map(|channel| channel.recv_evt())).wrap(|_| unreachable!());
                match choose![idle, receiver.recv_evt()].sync() {
                    Ok(value) => ledger.received(value),
                    Err(RecvError) => break,
                }
            },
            _ => loop {
                match receiver.try_recv() {
                    Ok(value) => ledger.received(value),
                    Err(TryRecvError::Empty) => pass_on(),
                    Err(TryRecvError::Disconnected) => break,
                }
            },
        });
    }
}

/// All receivers go while others wait to send: each value is received, or comes back.
fn halves_back(play: &mut Play) {
    let hub = hub(play.one_of(&[2, 3, 4]), 2, 2);
    let ledger = play.ledger();
    let (sender, receiver) = hub.halves::<Value>();
    for n in 0..4 {
        let (sender, ledger) = (sender.clone(), ledger.clone());
        play.thread(move || {
            loop {
                let value = ledger.value();
                let number = value.number;
                let time = Duration::from_micros(200);
                let (back, ends) = match n {
                    0 => sender.send(value).map_err(|error| (error.0, true)),
                    1 => sender.send_evt(value).sync().map_err(|error| (error.0, true)),
                    2 => sender.try_send(value).map_err(|error| match error {
                        TrySendError::Full(value) => (value, false),
                        TrySendError::Disconnected(value) => (value, true),
                    }),
                    _ => sender.send_timeout(value, time).map_err(|error| match error {
                        SendTimeoutError::Timeout(value) => (value, false),
                        SendTimeoutError::Disconnected(value) => (value, true),
                    }),
                }
                .err()
                .map_or((None, false), |(value, ends)| (Some(value), ends));
                match back {
                    Some(back) => assert_eq!(back.number, number),
                    None => ledger.sent(number),
                }
                if ends {
                    break;
                }
                pass_on();
            }
        });
    }
    for _ in 0..2 {
        let (receiver, ledger) = (receiver.clone(), ledger.clone());
        play.thread(move || ledger.received(receiver.recv().unwrap()));
    }
}

/// A wide choice between halves of which some close.
fn halves_choice(play: &mut Play) {
    let hub = hub(play.one_of(&[2, 3, 4]), 2, 2);
    let ledger = play.ledger();
    let halves: Vec<_> = (0..3).map(|_| hub.halves::<Value>()).collect();
    let (senders, receivers): (Vec<_>, Vec<_>) = halves.into_iter().unzip();
    for (n, sender) in senders.into_iter().enumerate() {
        let ledger = ledger.clone();
        play.thread(move || {
            for _ in 0..n {
                let value = ledger.value();
                let number = value.number;
                if sender.send(value).is_ok() {
                    ledger.sent(number);
                }
            }
        });
    }
    play.thread(move || {
        let mut open: Vec<Receiver<Value>> = receivers;
        while !open.is_empty() {
            let (at, got) =
                choose(open.iter().enumerate().map(|(at, half)| half.recv_evt().wrap(move |got| (at, got)))).sync();
            match got {
                Ok(value) => ledger.received(value),
                Err(RecvError) => drop(open.swap_remove(at)),
            }
        }
    });
}

/// Tasks, each on a thread of its own, beside a thread that syncs.
fn tasks(play: &mut Play) {
    let hub = hub(play.one_of(&[2, 3]), 2, 2);
    let ledger = play.ledger();
    let channels: Vec<Channel<Value>> = (0..3).map(|_| hub.channel()).collect();
    let (ours, theirs) = both(channels.clone());
    let (first, second) = both(ledger.clone());
    play.thread(move || {
        block_on(async move {
            for _ in 0..2 {
                first.send_evt(&ours[0]).wait().await;
                choose(ours.iter().skip(1).map(|channel| first.recv_evt(channel))).wait().await;
            }
        });
    });
    play.thread(move || {
        block_on(async move {
            for _ in 0..2 {
                choose(theirs.iter().take(2).map(|channel| second.recv_evt(channel))).wait().await;
                second.send_evt(&theirs[2]).wait().await;
            }
        });
    });
    let (idle, stop) = (hub.channel::<usize>(), Signal::new());
    let ended = stop.clone();
    play.thread(move || {
        dawdle(30);
        stop.fire()
    });
    play.thread(move || block_on(choose![idle.recv_evt().wrap(drop), ended.evt()].wait()));
}

/// Tasks that are dropped while they wait: each takes part in nothing, or was committed before.
fn tasks_dropped(play: &mut Play) {
    let hub = hub(play.one_of(&[2, 3, 4]), 2, 2);
    let sent = Arc::new(AtomicI64::new(0));
    let channels = channels(&hub, play.one_of(&[1, 3]));
    let stop = Signal::new();
    let left = Arc::new(AtomicUsize::new(2));
    for _ in 0..2 {
        let (channels, sent, stop, left) = (channels.clone(), sent.clone(), stop.clone(), left.clone());
        play.thread(move || {
            for _ in 0..3 {
                let mut told = None;
                let event = with_nack(|nack| {
                    in_no_lock();
                    told = Some(nack);
                    choose(channels.iter().map(|channel| channel.send_evt(1)))
                });
                let done = poll_and_drop(event.wait(), 1 + schedule::draw(2));
                let is_given_up = told.expect("its guard has run").poll().is_some();
                assert!(!is_given_up || done.is_none());
                // it may have been committed before it was dropped
                sent.fetch_add(i64::from(!is_given_up), SeqCst);
            }
            if left.fetch_sub(1, SeqCst) == 1 {
                stop.fire();
            }
        });
    }
    let received = sent.clone();
    play.thread(move || {
        let any = || choose(channels.iter().map(|channel| channel.recv_evt())).wrap(|_| true);
        while block_on(choose![any(), stop.evt().wrap(|()| false)].wait()) {
            received.fetch_sub(1, SeqCst);
        }
    });
    play.check(move || assert_eq!(sent.load(SeqCst), 0));
}

/// A task that waits goes to another thread, and is polled there with another waker.
fn tasks_move(play: &mut Play) {
    let hub = hub(2, 2, 2);
    let (ours, theirs) = both(hub.channel::<usize>());
    type Moved = Pin<Box<dyn Future<Output = usize> + Send>>;
    let (give, take) = (Arc::new(Mutex::new(None::<Moved>)), Signal::new());
    let (given, taken) = (give.clone(), take.clone());
    play.thread(move || {
        let mut task: Moved = Box::pin(ours.into_recv_evt().wait());
        let waker = Waker::from(Arc::new(Unparks(schedule::current())));
        match task.as_mut().poll(&mut Context::from_waker(&waker)) {
            Poll::Ready(got) => task = Box::pin(async move { got }),
            Poll::Pending => dawdle(5),
        }
        *give.lock().unwrap() = Some(task);
        take.fire();
    });
    play.thread(move || {
        taken.evt().sync();
        let task = given.lock().unwrap().take().unwrap();
        assert_eq!(block_on(task), 5);
    });
    play.thread(move || theirs.send(5));
}

/// Tasks that wait for some time alone.
fn task_timeouts(play: &mut Play) {
    let hub = hub(play.one_of(&[2, 3]), 2, 2);
    let ledger = play.ledger();
    let channel = hub.channel::<Value>();
    for n in 0..4 {
        let (channel, ledger) = (channel.clone(), ledger.clone());
        play.thread(move || {
            for _ in 0..2 {
                let begun = schedule::now();
                let time = Duration::from_micros(schedule::draw(300));
                let event = match n % 2 {
                    0 => ledger.send_evt(&channel),
                    _ => ledger.recv_evt(&channel),
                };
                if !block_on(choose![event, timeout(time).wrap(|()| false)].wait()) {
                    assert!(schedule::now() >= begun + time, "not before its time");
                }
            }
        });
    }
    let idle = hub.channel::<usize>();
    play.thread(move || {
        for _ in 0..2 {
            let late = timeout(Duration::from_micros(100)).wrap(|()| 1);
            assert_ne!(poll_and_drop(choose![idle.recv_evt(), late].wait(), 2), Some(0));
        }
    });
}

/// Tasks that are polled within their wakers: whoever commits them runs what follows, with no lock in hand.
fn eager_tasks(play: &mut Play) {
    let hub = hub(play.one_of(&[2, 3, 4]), 2, play.one_of(&[1, 2]));
    let ledger = play.ledger();
    let channels: Vec<Channel<Value>> = (0..4).map(|_| hub.channel()).collect();
    let done = Signal::new();
    // from each channel to the next
    for n in 0..3 {
        let (channels, ledger, done) = (channels.clone(), ledger.clone(), done.clone());
        play.thread(move || {
            Eager::start(async move {
                for _ in 0..2 {
                    match n % 2 {
                        0 => ledger.recv_evt(&channels[n]).wait().await,
                        _ => choose![ledger.recv_evt(&channels[n]), never(), never()].wait().await,
                    };
                    ledger.send_evt(&channels[n + 1]).wait().await;
                }
                if n == 2 {
                    done.fire();
                }
            });
        });
    }
    let (first, last) = both(channels);
    let (sender, receiver) = both(ledger);
    play.thread(move || (0..2).for_each(|_| sender.send(&first[0])));
    play.thread(move || {
        for _ in 0..2 {
            receiver.recv_evt(&last[3]).sync();
        }
        done.evt().sync();
    });
}

/// Wakers that sync, and such that panic: they take part in what the thread that calls them is taking part in.
fn wakers_sync(play: &mut Play) {
    struct Sends {
        log: Channel<usize>,
        thread: schedule::Thread,
        kind: usize,
    }
    impl Wake for Sends {
        fn wake(self: Arc<Self>) {
            in_no_lock();
            if self.kind == 0 {
                self.log.send(1);
            } else if self.kind == 1 {
                let _ = self.log.try_send(1);
            }
            self.thread.unpark();
            if self.kind == 2 {
                panics_here();
            }
        }
    }
    impl Drop for Sends {
        fn drop(&mut self) {
            in_no_lock();
        }
    }
    let hub = hub(play.one_of(&[2, 3, 4]), 2, play.one_of(&[1, 2]));
    let ledger = play.ledger();
    let channels: Vec<Channel<Value>> = (0..3).map(|_| hub.channel()).collect();
    let (log, log_too) = both(hub.channel::<usize>());
    let (stop, ended) = both(Signal::new());
    let left = Arc::new(AtomicUsize::new(3));
    for kind in 0..3 {
        let (channels, ledger, log, left, stop) =
            (channels.clone(), ledger.clone(), log.clone(), left.clone(), stop.clone());
        play.thread(move || {
            for _ in 0..2 {
                let wide = choose(channels.iter().map(|channel| ledger.recv_evt(channel)));
                let mut task = std::pin::pin!(wide.wait());
                let waker = Waker::from(Arc::new(Sends { log: log.clone(), thread: schedule::current(), kind }));
                while task.as_mut().poll(&mut Context::from_waker(&waker)).is_pending() {
                    schedule::park();
                }
            }
            if left.fetch_sub(1, SeqCst) == 1 {
                stop.fire();
            }
        });
    }
    let (ours, sender) = (channels.clone(), ledger.clone());
    play.thread(move || {
        for n in [0, 2, 1] {
            sender.send(&ours[n]);
        }
    });
    play.thread(move || {
        for _ in 0..3 {
            choose(channels.iter().map(|channel| ledger.send_evt(channel))).sync();
        }
    });
    play.thread(move || while choose![log_too.recv_evt().wrap(|_| true), ended.evt().wrap(|()| false)].sync() {});
}

/// Threads that sync while their thread-locals are dropped, those of the crate too.
fn threads_end(play: &mut Play) {
    struct Syncs(Channel<usize>);
    impl Drop for Syncs {
        fn drop(&mut self) {
            self.0.send(7);
            timeout(Duration::ZERO).sync();
        }
    }
    thread_local!(static AT_END: RefCell<Option<Syncs>> = const { RefCell::new(None) });
    let hub = hub(play.one_of(&[2, 3]), 2, 2);
    let ledger = play.ledger();
    let (values, ends) = (hub.channel::<Value>(), hub.channel::<usize>());
    for n in 0..2 {
        let (values, ends, ledger) = (values.clone(), ends.clone(), ledger.clone());
        play.thread(move || {
            let at_end = || AT_END.set(Some(Syncs(ends.clone())));
            // before the crate's own thread-locals, or behind them
            if n == 0 {
                at_end();
            }
            ledger.send(&values);
            block_on(ledger.send_evt(&values).wait());
            if n == 1 {
                at_end();
            }
        });
    }
    play.thread(move || {
        for _ in 0..4 {
            ledger.recv_evt(&values).sync();
        }
        for _ in 0..2 {
            assert_eq!(ends.recv(), 7);
        }
    });
}

/// A storm of threads, tasks, and tasks that are dropped.
fn storm_tasks(play: &mut Play) {
    let hub = stormy_hub(play);
    let ledger = play.ledger();
    let channels: Vec<Channel<Value>> = (0..play.one_of(&[1, 2, 3, 5, 7])).map(|_| hub.channel()).collect();
    let stop = Signal::new();
    for n in 0..4 {
        let (channels, ledger, stop) = (channels.clone(), ledger.clone(), stop.clone());
        play.thread(move || {
            rounds(&channels, &ledger, &stop, |event| match (n, schedule::draw(4)) {
                (0, 0) => event.poll(),
                (0, _) => Some(event.sync()),
                (_, 0) => {
                    block_on(choose![event.wrap(Some), timeout(Duration::from_micros(100)).wrap(|()| None)].wait())
                }
                _ => Some(block_on(event.wait())),
            });
        });
    }
}
