// PAIRS ROUNDS: Rust's channel without a buffer.
use std::sync::mpsc::sync_channel;
use std::thread;
use std::time::Instant;
fn main() {
    let a: Vec<usize> = std::env::args().skip(1).map(|x| x.parse().unwrap()).collect();
    let (pairs, n) = (a[0], a[1]);
    let start = Instant::now();
    let mut all = vec![];
    for _ in 0..pairs {
        let (tx, rx) = sync_channel::<u64>(0);
        all.push(thread::spawn(move || { for i in 0..n { tx.send(i as u64).unwrap(); } 0 }));
        all.push(thread::spawn(move || { let mut s = 0u64; for _ in 0..n { s = s.wrapping_add(rx.recv().unwrap()); } s }));
    }
    for t in all { t.join().unwrap(); }
    println!("{:.0}", start.elapsed().as_nanos() as f64 / (n * pairs) as f64);
}
