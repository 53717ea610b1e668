//! A server that lends out seats, and clients that give up: a seat is taken just when a client was told so.
use puttolive::*;
use std::time::Duration;

/// A request, with the place of its answer. `gone` comes if the client takes another event.
struct Request {
    reply: Channel<u32>,
    gone: Nack,
}

/// An event: the server's answer. The request is made when this is synced.
fn seat(server: &Channel<Request>) -> impl Event<Output = u32> {
    with_nack(move |gone| {
        let reply = Channel::new();
        server.send(Request { reply: reply.clone(), gone });
        reply.into_recv_evt()
    })
}

/// Answers requests until it is stopped: how many seats were taken.
fn serve(requests: &Channel<Request>, stop: &Signal) -> u32 {
    let mut taken = 0;
    loop {
        let request = select! {
            request = requests.recv_evt() => request,
            _ = stop.evt() => return taken,
        };
        select! {
            _ = request.reply.send_evt(taken) => taken += 1,
            _ = request.gone => {}
        }
    }
}

/// So many clients, of which each second one gives up at once: the seats that they were told, and those that were taken.
fn run(clients: u32) -> (Vec<u32>, u32) {
    let (requests, stop) = (Channel::new(), Signal::new());
    let server = spawn({
        let (requests, stop) = (requests.clone(), stop.clone());
        move || serve(&requests, &stop)
    });
    let ask = |number: u32| {
        let requests = requests.clone();
        spawn(move || match number % 2 {
            0 => Some(seat(&requests).sync()),
            _ => seat(&requests).sync_within(Duration::ZERO),
        })
    };
    let asked: Vec<_> = (0..clients).map(ask).collect();
    let mut told: Vec<u32> = asked.into_iter().filter_map(|client| client.join().expect("no panic")).collect();
    stop.fire();
    told.sort();
    (told, server.join().expect("no panic"))
}

fn main() {
    let (told, taken) = run(20);
    println!("{} clients have a seat, {taken} seats are taken", told.len());
}

#[test]
fn a_seat_is_taken_just_when_a_client_was_told() {
    for _ in 0..50 {
        let (told, taken) = run(20);
        assert!(taken >= 10);
        assert_eq!(told, (0..taken).collect::<Vec<_>>());
    }
}
