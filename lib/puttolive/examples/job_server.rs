//! A job server on TCP. A client sends `job NUMBER WORK PATIENCE`, times in milliseconds, and gets `done NUMBER` or
//! `late NUMBER`. A client that leaves takes its request with it: a nack frees its place in the queue, or the worker that was
//! busy with it.
//!
//! ```text
//! job_server serve ADDRESS WORKERS             serves until standard input ends, and then tells what it has done
//! job_server load ADDRESS CLIENTS SECONDS      so many clients, of whom a tenth leave while they wait
//! job_server both CLIENTS SECONDS              both in one process, on a free port
//! ```
use puttolive::*;
use std::collections::VecDeque;
use std::io::{self, BufRead, BufReader, Read, Write};
use std::net::{Shutdown, SocketAddr, TcpListener, TcpStream};
use std::sync::Arc;
use std::sync::atomic::{AtomicU64, Ordering::SeqCst};
use std::time::{Duration, Instant};
use std::{env, thread};

// ---- the server

/// What the server has done.
#[derive(Debug, Default)]
struct Counts {
    asked: AtomicU64,
    done: AtomicU64,
    /// Taken out of the queue, or from a worker, since their clients chose otherwise.
    cancelled: AtomicU64,
}

/// Work that is asked for, with the place of its answer. `gone` comes if nobody wants it any more.
struct Job {
    work: Duration,
    done: Channel<()>,
    gone: Nack,
}

/// An event: the work is done. It is asked for when this is synced.
fn ask(jobs: &Sender<Job>, work: Duration) -> impl Event<Output = ()> {
    with_nack(move |gone| {
        let done = Channel::new();
        jobs.send(Job { work, done: done.clone(), gone }).expect("the foreman is there");
        done.into_recv_evt()
    })
}

/// Holds the queue between those who ask and the workers, until nobody asks any more.
fn foreman(inbox: Receiver<Job>, workers: Sender<Job>, counts: &Counts) {
    let mut queue: VecDeque<Job> = VecDeque::new();
    let mut is_open = true;
    while is_open || !queue.is_empty() {
        let mut first = queue.pop_front();
        let gone = first.as_ref().map(|job| job.gone.clone().wrap(|()| None));
        let given = first.is_some().then(|| workers.send_from(&mut first).wrap(|()| None));
        let asked = is_open.then(|| inbox.recv_evt().wrap(Some));
        let came = choose(asked).or(choose(given)).or(choose(gone)).sync();
        match came {
            Some(Ok(job)) => {
                queue.extend(first.take());
                // who came first is the first again
                queue.rotate_right(usize::from(!queue.is_empty()));
                queue.push_back(job);
                counts.asked.fetch_add(1, SeqCst);
            }
            Some(Err(RecvError)) => {
                is_open = false;
                queue.extend(first.take());
                queue.rotate_right(usize::from(!queue.is_empty()));
            }
            // its client has gone, if it was not given to a worker
            None => _ = first.map(|_| counts.cancelled.fetch_add(1, SeqCst)),
        }
    }
}

/// Works, a millisecond at a time, and looks in between whether the work is still wanted.
fn worker(jobs: &Receiver<Job>, counts: &Counts) {
    for Job { work, done, gone } in jobs {
        let end = Instant::now() + work;
        let is_wanted = loop {
            let left = end.saturating_duration_since(Instant::now());
            if left.is_zero() {
                break choose![done.send_evt(()).wrap(|()| true), gone.wrap(|()| false)].sync();
            }
            if gone.clone().sync_within(left).is_some() {
                break false;
            }
        };
        if is_wanted { &counts.done } else { &counts.cancelled }.fetch_add(1, SeqCst);
    }
}

/// What came of a request.
enum Answer {
    Done,
    Late,
    Left,
}

/// Serves one client, until it leaves.
fn connection(stream: &TcpStream, jobs: &Sender<Job>) -> io::Result<()> {
    stream.set_nodelay(true)?;
    let (to, lines) = channel::<String>();
    let reader = BufReader::new(stream.try_clone()?);
    let reading = small_thread(move || {
        // whoever has left sends no more, and this half goes
        reader.lines().map_while(Result::ok).try_for_each(|line| to.send(line)).ok();
    });
    for line in &lines {
        let numbers: Option<Vec<u64>> =
            line.strip_prefix("job ").map(|text| text.split(' ').flat_map(str::parse).collect());
        let Some(&[number, work, patience]) = numbers.as_deref() else {
            tell(stream, &format!("what is {line:?}?\n"))?;
            continue;
        };
        let (work, patience) = (Duration::from_millis(work), Duration::from_millis(patience));
        let answer = choose![
            ask(jobs, work).wrap(|()| Answer::Done),
            timeout(patience).wrap(|()| Answer::Late),
            lines.closed().wrap(|()| Answer::Left),
        ];
        match answer.sync() {
            Answer::Done => tell(stream, &format!("done {number}\n"))?,
            Answer::Late => tell(stream, &format!("late {number}\n"))?,
            Answer::Left => break,
        }
    }
    drop(lines);
    stream.shutdown(Shutdown::Both).ok();
    reading.join().expect("no panic");
    Ok(())
}

/// Sends a line at once.
fn tell(mut stream: &TcpStream, line: &str) -> io::Result<()> {
    stream.write_all(line.as_bytes())
}

fn small_thread(body: impl FnOnce() + Send + 'static) -> thread::JoinHandle<()> {
    thread::Builder::new().stack_size(128 * 1024).spawn(body).expect("a thread")
}

/// A server, until it is stopped and all its clients have left.
struct Server {
    address: SocketAddr,
    counts: Arc<Counts>,
    stop: Signal,
    all: Spawned<()>,
}

impl Server {
    fn start(address: &str, workers: usize) -> io::Result<Server> {
        let listener = TcpListener::bind(address)?;
        let (address, counts, stop) = (listener.local_addr()?, Arc::<Counts>::default(), Signal::new());
        let (own, stopped) = (counts.clone(), stop.clone());
        Ok(Server { address, counts, stop, all: spawn(move || Server::run(&listener, workers, &own, &stopped)) })
    }

    fn run(listener: &TcpListener, workers: usize, counts: &Counts, stop: &Signal) {
        let ((jobs, inbox), (to_workers, of_foreman)) = (channel(), channel());
        thread::scope(|scope| {
            scope.spawn(|| foreman(inbox, to_workers, counts));
            (0..workers).for_each(|_| drop(scope.spawn(|| worker(&of_foreman, counts))));
            for stream in listener.incoming().map_while(Result::ok) {
                if stop.evt().poll().is_some() {
                    break;
                }
                let jobs = jobs.clone();
                small_thread(move || _ = connection(&stream, &jobs));
            }
            drop(jobs);
        });
    }

    /// Takes no more clients, and waits until those that there are have left.
    fn end(self) -> Arc<Counts> {
        self.stop.fire();
        TcpStream::connect(self.address).expect("the server listens");
        self.all.join().expect("no panic");
        self.counts
    }
}

// ---- the load

/// What came of one client's requests.
#[derive(Debug, Default)]
struct Told {
    done: Vec<Duration>,
    late: u64,
    left: u64,
}

/// Asks until the time is over, one request after another. Now and then it leaves, and comes again.
fn client(address: SocketAddr, number: u64, end: Instant, is_restless: bool) -> io::Result<Told> {
    let mut told = Told::default();
    let mut draw = Draw(number + 1);
    let mut stream = connect(address)?;
    for request in 0.. {
        if Instant::now() >= end {
            break;
        }
        let (work, patience) = (draw.below(5), 20 + draw.below(50));
        let asked = Instant::now();
        tell(stream.get_ref(), &format!("job {request} {work} {patience}\n"))?;
        if is_restless && draw.below(4) == 0 {
            thread::sleep(Duration::from_millis(draw.below(4)));
            told.left += 1;
            stream = connect(address)?;
            continue;
        }
        let mut line = String::new();
        stream.read_line(&mut line)?;
        match line.trim_end().split_once(' ') {
            Some(("done", of)) if of == request.to_string() => {
                told.done.push(asked.elapsed().saturating_sub(Duration::from_millis(work)))
            }
            Some(("late", of)) if of == request.to_string() => told.late += 1,
            _ => panic!("request {request} of client {number} is answered by {line:?}"),
        }
        thread::sleep(Duration::from_millis(100 + draw.below(200)));
    }
    // no request has a second answer
    stream.get_ref().shutdown(Shutdown::Write)?;
    let mut rest = String::new();
    stream.read_to_string(&mut rest)?;
    assert_eq!(rest, "", "client {number} is told more than it asked");
    Ok(told)
}

fn connect(address: SocketAddr) -> io::Result<BufReader<TcpStream>> {
    let stream = TcpStream::connect(address)?;
    stream.set_nodelay(true)?;
    Ok(BufReader::new(stream))
}

/// Numbers that look random.
struct Draw(u64);

impl Draw {
    fn below(&mut self, end: u64) -> u64 {
        self.0 = self.0.wrapping_mul(6364136223846793005).wrapping_add(1442695040888963407);
        (self.0 >> 33) % end
    }
}

/// So many clients at once, of whom each tenth leaves now and then: what all of them were told.
fn load(address: SocketAddr, clients: u64, time: Duration) -> Told {
    let (to, told) = channel();
    let end = Instant::now() + time;
    for number in 0..clients {
        let to = to.clone();
        // the system takes some hundred connections at once
        thread::sleep(Duration::from_millis(1));
        small_thread(move || {
            let came = client(address, number, end, number % 10 == 0).expect("the server listens");
            to.send(came).expect("the load waits for all");
        });
    }
    drop(to);
    let mut sum = Told::default();
    for one in told {
        sum.done.extend(one.done);
        (sum.late, sum.left) = (sum.late + one.late, sum.left + one.left);
    }
    sum.done.sort();
    sum
}

impl Told {
    fn tell(&self) {
        let at = |part: f64| self.done.get((self.done.len() as f64 * part) as usize).copied().unwrap_or_default();
        println!("clients: {} done, {} late, {} left", self.done.len(), self.late, self.left);
        println!(
            "beyond the work: half within {:?}, 99 of 100 within {:?}, all within {:?}",
            at(0.5),
            at(0.99),
            self.done.last()
        );
    }
}

/// Both: each request has one answer, or none that was wanted, and nothing is left of it.
fn both(clients: u64, time: Duration) {
    let server = Server::start("127.0.0.1:0", 32).expect("a port");
    let told = load(server.address, clients, time);
    told.tell();
    let counts = server.end();
    println!("server: {counts:?}");
    let (asked, done, cancelled) = (counts.asked.load(SeqCst), counts.done.load(SeqCst), counts.cancelled.load(SeqCst));
    assert_eq!(asked, done + cancelled, "each job is done or cancelled");
    // who left may have been answered at that moment
    let answered = told.done.len() as u64;
    assert!(answered <= done && done <= answered + told.left, "{answered} were told of {done}");
    println!("{:?}", Hub::global().stats());
}

fn main() -> io::Result<()> {
    let words: Vec<String> = env::args().skip(1).collect();
    let words: Vec<&str> = words.iter().map(String::as_str).collect();
    let number = |text: &str| text.parse::<u64>().map_err(io::Error::other);
    match words[..] {
        ["serve", address, workers] => {
            let server = Server::start(address, number(workers)? as usize)?;
            println!("serving on {}", server.address);
            io::stdin().read_to_end(&mut Vec::new())?;
            println!("{:?}", server.end());
        }
        ["load", address, clients, seconds] => {
            let address = address.parse().map_err(io::Error::other)?;
            load(address, number(clients)?, Duration::from_secs(number(seconds)?)).tell();
        }
        ["both", clients, seconds] => both(number(clients)?, Duration::from_secs(number(seconds)?)),
        _ => println!("job_server serve ADDRESS WORKERS | load ADDRESS CLIENTS SECONDS | both CLIENTS SECONDS"),
    }
    Ok(())
}

#[test]
fn a_hundred_clients_for_two_seconds() {
    both(100, Duration::from_secs(2));
}
