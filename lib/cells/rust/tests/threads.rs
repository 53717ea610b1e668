//! Two threads meet, in safe Rust alone; and a pass that is not the last one comes back.
use puttolive_cells::{short_table, table, Found, Message, Offer, Pass, Refused, Row};
use std::thread;

const ROUNDS: u32 = 1_000;

fn meet(pass: &mut Pass, row: Row, offer: Offer) -> Message {
    let mut found = pass.begin(row, &[offer], true).unwrap();
    while found == Found::Again {
        found = pass.search(row, true).unwrap();
    }
    loop {
        if let Some((_, message)) = pass.answer(row).unwrap() {
            return message;
        }
        thread::yield_now();
    }
}

#[test]
fn two_threads() {
    let mut passes = table(2, ROUNDS, 2).unwrap();
    let (mut second, mut first) = (passes.pop().unwrap(), passes.pop().unwrap());
    let sender = thread::spawn(move || {
        for sync in 0..ROUNDS {
            meet(&mut first, Row { thread: 0, sync }, Offer::send(7, Message::number(sync)));
        }
        first
    });
    let receiver = thread::spawn(move || {
        let sum = (0..ROUNDS).map(|sync| meet(&mut second, Row { thread: 1, sync }, Offer::recv(7)).atoms[0].value).sum::<u32>();
        (second, sum)
    });
    let first = sender.join().unwrap();
    let (second, sum) = receiver.join().unwrap();
    assert_eq!(sum, ROUNDS * (ROUNDS - 1) / 2);
    let Err((refused, second)) = second.close() else { panic!("another pass was left") };
    assert_eq!(refused, Refused(24));
    drop(first);
    let Ok(commits) = second.close() else { panic!("the last pass closes") };
    assert_eq!(commits.len(), ROUNDS as usize);
    for (n, commit) in (0..).zip(&commits) {
        assert_eq!((commit.stamp, commit.sender.sync, commit.receiver.sync, commit.of), (n + 1, n, n, 7));
    }
}

#[test]
fn refusals() {
    let mut pass = table(1, 1, 1).unwrap().pop().unwrap();
    assert_eq!(pass.open(Row { thread: 1, sync: 0 }), Err(Refused(19)));
    assert_eq!(pass.search(Row::default(), true), Err(Refused(22)));
    assert!(pass.holds(Row::default()));
    assert_eq!(pass.begin(Row::default(), &[Offer::always(Message::default())], true), Ok(Found::Alone));
    assert_eq!(table(0, 1, 1).err(), Some(Refused(18)));
}

#[test]
fn first() {
    let mut pass = short_table(3, 1, 1, 1).unwrap().pop().unwrap();
    let row = |thread| Row { thread, sync: 0 };
    assert_eq!(pass.draft(row(0), &[Offer::recv(7), Offer::recv(8)]), Err(Refused(18)));
    for thread in 0..2 {
        assert_eq!(pass.begin(row(thread), &[Offer::recv(7)], true), Ok(Found::Left));
    }
    assert_eq!(pass.begin_from(row(2), &[Offer::send(7, Message::number(1))], 1, true), Ok(Found::Met(row(1))));
}
