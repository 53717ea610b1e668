//! A server with eight clients in a hundred lines: accounts kept by one thread, transfers that wait until there is money, and
//! clients that give up.
use puttolive::*;
use std::collections::BTreeMap;
use std::time::Duration;

/// A transfer, and where its client waits for it.
struct Transfer {
    from: u32,
    to: u32,
    amount: u64,
    done: Channel<()>,
    gone: Nack,
}

#[derive(Clone)]
struct Bank {
    transfers: Channel<Transfer>,
    totals: Channel<Channel<u64>>,
    closing: Signal,
}

impl Bank {
    /// A bank with accounts 0 to 7, and so much money on each.
    fn open(each: u64) -> (Bank, Spawned<BTreeMap<u32, u64>>) {
        let bank = Bank { transfers: Channel::new(), totals: Channel::new(), closing: Signal::new() };
        let own = bank.clone();
        let accounts = (0..8).map(|account| (account, each)).collect();
        (bank, spawn(move || own.serve(accounts)))
    }

    /// An event: the money has gone over. It waits until there is enough.
    fn transfer(&self, from: u32, to: u32, amount: u64) -> impl Event<Output = ()> {
        with_nack(move |gone| {
            let done = Channel::new();
            self.transfers.send(Transfer { from, to, amount, done: done.clone(), gone });
            done.into_recv_evt()
        })
    }

    /// All the money there is.
    fn total(&self) -> u64 {
        let answer = Channel::new();
        self.totals.send(answer.clone());
        answer.recv()
    }

    fn serve(&self, mut accounts: BTreeMap<u32, u64>) -> BTreeMap<u32, u64> {
        let mut waiting: Vec<Transfer> = Vec::new();
        loop {
            select! {
                transfer = self.transfers.recv_evt() => waiting.push(transfer),
                answer = self.totals.recv_evt() => answer.send(accounts.values().sum()),
                at = choose(waiting.iter().enumerate().map(|(at, transfer)| transfer.gone.clone().wrap(move |()| at))) => {
                    waiting.swap_remove(at);
                },
                _ = self.closing.evt() => return accounts,
            }
            while let Some(at) = waiting.iter().position(|transfer| accounts[&transfer.from] >= transfer.amount) {
                let Transfer { from, to, amount, done, gone } = waiting.swap_remove(at);
                // the money moves just when its client hears of it
                if choose![done.send_evt(()).wrap(|()| true), gone.wrap(|()| false)].sync() {
                    *accounts.entry(from).or_default() -= amount;
                    *accounts.entry(to).or_default() += amount;
                }
            }
        }
    }
}

/// Sends money round, now and then more than there is: how much has left this client's account, and how much has come to others.
fn client(bank: &Bank, own: u32, rounds: u64) -> BTreeMap<u32, i64> {
    let mut moved = BTreeMap::new();
    for round in 0..rounds {
        let (to, amount) = ((own + 1 + round as u32 % 7) % 8, round * 37 % 160);
        if bank.transfer(own, to, amount).sync_within(Duration::from_millis(1)).is_some() {
            *moved.entry(own).or_default() -= amount as i64;
            *moved.entry(to).or_default() += amount as i64;
        }
    }
    moved
}

/// Eight clients: what is on each account, by the bank and by what the clients were told.
fn run(rounds: u64) -> (BTreeMap<u32, i64>, BTreeMap<u32, i64>) {
    let (bank, server) = Bank::open(100);
    let clients: Vec<_> =
        (0..8).map(|own| (own, bank.clone())).map(|(own, bank)| spawn(move || client(&bank, own, rounds))).collect();
    let mut told: BTreeMap<u32, i64> = (0..8).map(|account| (account, 100)).collect();
    for (account, amount) in clients.into_iter().flat_map(|client| client.join().expect("no panic")) {
        *told.entry(account).or_default() += amount;
    }
    assert_eq!(bank.total(), 800);
    bank.closing.fire();
    let kept = server.join().expect("no panic");
    (kept.into_iter().map(|(account, amount)| (account, amount as i64)).collect(), told)
}

fn main() {
    let (kept, told) = run(100);
    println!("by the bank:    {kept:?}\nby its clients: {told:?}");
}

#[test]
fn the_bank_and_its_clients_agree() {
    let (kept, told) = run(200);
    assert_eq!(kept, told);
}
