//! A channel of the standard library, whose threads write what they did as a journal, and have it judged.
use puttolive_check::{check_journal, outcomes, Finding, Search, Verdict};
use std::sync::mpsc::sync_channel;
use std::thread;

const SCRIPT: &str = "channel c;
process producer { let i = 1; loop 3 { sync send c (i); let i = i + 1; } }
process consumer { loop 3 { x <- sync recv c; print x; } }";

/// What three rendezvous of `sync_channel(0)` were, as the receiver saw them.
fn journal() -> String {
    let (sender, receiver) = sync_channel::<u32>(0);
    let producer =
        thread::spawn(move || (1..=3).for_each(|i| sender.send(i).expect("somebody receives")));
    let lines = receiver
        .iter()
        .enumerate()
        .map(|(i, x)| format!("{} producer.{i}.0 -> consumer.{i}.0 c ({x})\n", i + 1));
    let journal = lines.collect();
    producer.join().expect("the producer ends");
    journal
}

#[test]
fn a_rendezvous_of_the_standard_library_is_lawful() {
    let judged = check_journal(SCRIPT, journal(), 256).expect("a script and a journal");
    assert_eq!(judged.verdict, Verdict::Maximal);
    assert_eq!(
        judged.text,
        "producer ended\nconsumer ended 1 2 3\nlawful 3 maximal\n"
    );
}

#[test]
fn a_message_of_another_value_is_not() {
    let judged = check_journal(SCRIPT, journal().replace("(2)", "(7)"), 256)
        .expect("a script and a journal");
    assert_eq!(judged.verdict, Verdict::Unlawful { line: 2 });
}

#[test]
fn and_nobody_is_ever_stuck() {
    let found = outcomes(
        SCRIPT,
        &Search {
            need: "all",
            ..Search::default()
        },
    )
    .expect("a script");
    assert_eq!(found.finding, Finding::Clear);
}
