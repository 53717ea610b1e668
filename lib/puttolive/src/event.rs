//! Events: what a thread may take part in, as values. An event does nothing until it is synced.

use crate::forcing::Forcing;
use crate::latch::Latch;
use crate::record::Pick;
use crate::sync;
use crate::task::Synced;
use std::marker::PhantomData;
use std::sync::Arc;
use std::time::{Duration, Instant};

/// Something that a thread may take part in: a send, a receive, a moment, or a choice among them, and what is made of
/// it. [`sync`](Event::sync) waits until one base event of it is committed, and no other.
///
/// ```
/// use puttolive::*;
/// let (left, right) = (Channel::new(), Channel::new());
/// let sender = spawn({
///     let right = right.clone();
///     move || right.send(2)
/// });
/// let either = choose![left.recv_evt(), right.recv_evt().wrap(|n| n * 10)];
/// assert_eq!(either.sync(), 20);
/// sender.join().unwrap();
/// ```
pub trait Event: Sized {
    /// What the sync answers.
    type Output;
    #[doc(hidden)]
    type Ready: Ready<Output = Self::Output>;

    /// Runs what a sync runs before it waits (guards), and says what is offered.
    #[doc(hidden)]
    fn force(self, to: &mut Forcing) -> Self::Ready;

    /// Waits until the event is committed, and answers what is made of it.
    ///
    /// # Panics
    /// Where a guard or a wrap function of it panics, and where channels of two hubs are in one choice.
    ///
    /// ```
    /// use puttolive::*;
    /// assert_eq!(always(3).sync(), 3);
    /// ```
    fn sync(self) -> Self::Output {
        let mut forcing = Forcing::new();
        let mut ready = self.force(&mut forcing);
        let (record, answered) = forcing.perform();
        let pick = answered.pick;
        ready.settle(pick);
        forcing.end_here(record, answered);
        ready.finish(pick)
    }

    /// The same for a task of an executor: a future. Guards run at its first poll, and may not wait there. A future that
    /// is dropped before it has its answer takes part in nothing, and its nacks fire.
    ///
    /// ```
    /// use puttolive::*;
    /// use std::task::{Context, Poll, Waker};
    /// let mut future = std::pin::pin!(always(3).wait());
    /// let mut context = Context::from_waker(Waker::noop());
    /// assert_eq!(future.as_mut().poll(&mut context), Poll::Ready(3));
    /// ```
    fn wait(self) -> Synced<Self> {
        Synced::new(self)
    }

    /// The event if it can be committed at once, else none.
    ///
    /// ```
    /// use puttolive::*;
    /// assert_eq!(Channel::<u32>::new().recv_evt().poll(), None);
    /// ```
    fn poll(self) -> Option<Self::Output> {
        self.wrap(Some).or(always(()).wrap(|()| None)).sync()
    }

    /// The event if it is committed within this time, else none.
    ///
    /// ```
    /// use puttolive::*;
    /// let soon = std::time::Duration::from_millis(1);
    /// assert_eq!(Channel::<u32>::new().recv_evt().sync_within(soon), None);
    /// ```
    fn sync_within(self, time: Duration) -> Option<Self::Output> {
        self.wrap(Some).or(timeout(time).wrap(|()| None)).sync()
    }

    /// The same event: when it is committed, its thread applies `f` to what it gets. `f` may sync.
    ///
    /// ```
    /// use puttolive::*;
    /// assert_eq!(always(3).wrap(|n| n + 1).sync(), 4);
    /// ```
    fn wrap<U, F: FnOnce(Self::Output) -> U>(self, f: F) -> Wrap<Self, F> {
        Wrap { event: self, f }
    }

    /// One of the two. [`choose!`](crate::choose!) is this for several.
    ///
    /// ```
    /// use puttolive::*;
    /// assert_eq!(never().or(always(1)).sync(), 1);
    /// ```
    fn or<E: Event<Output = Self::Output>>(self, other: E) -> Or<Self, E> {
        Or { left: self, right: other }
    }

    /// One of the two, of different types. [`select!`](crate::select!) is this for several.
    ///
    /// ```
    /// use puttolive::*;
    /// assert_eq!(never::<u8>().either(always("now")).sync(), Either::Right("now"));
    /// ```
    fn either<E: Event>(self, other: E) -> EitherOr<Self, E> {
        EitherOr { left: self, right: other }
    }

    /// As a value of a type that does not tell how it was made: to be put into a list, a message or a struct. What a
    /// function gives as `impl Event` does not tell that it may go to another thread: let the function box it.
    ///
    /// ```
    /// use puttolive::*;
    /// let events = vec![never().boxed(), always(1).boxed()];
    /// assert_eq!(choose(events).sync(), 1);
    /// ```
    fn boxed<'a>(self) -> BoxedEvent<'a, Self::Output>
    where
        Self: Send + 'a,
        Self::Ready: Send,
    {
        BoxedEvent { event: Box::new(Some(self)) }
    }
}

/// What is left of an event when it was forced: it turns the pick into the answer.
#[doc(hidden)]
pub trait Ready {
    type Output;
    /// Takes what the base event got that was picked, which is one of this event. No code of a user runs.
    fn settle(&mut self, pick: Pick);
    /// The answer, when it was settled. Wrap functions run.
    fn finish(self, pick: Pick) -> Self::Output;
}

// ---- base events

/// An event that is there at once. In a choice it is taken where no other event finds a partner at that moment.
///
/// ```
/// use puttolive::*;
/// let channel = Channel::<u32>::new();
/// assert_eq!(choose![channel.recv_evt(), always(7)].sync(), 7);
/// ```
pub fn always<T>(value: T) -> Always<T> {
    Always { value }
}

/// An event that never comes.
///
/// ```
/// use puttolive::*;
/// assert_eq!(choose![never(), always(1)].sync(), 1);
/// ```
pub fn never<T>() -> Never<T> {
    Never { none: PhantomData }
}

/// An event that comes when so much time has passed since it was synced. A time that no clock reaches never comes.
///
/// ```
/// use puttolive::*;
/// use std::time::Duration;
/// let first = select! {
///     _ = timeout(Duration::from_secs(60)) => "late",
///     _ = timeout(Duration::from_millis(1)) => "early",
/// };
/// assert_eq!(first, "early");
/// ```
pub fn timeout(time: Duration) -> Guard<impl FnOnce() -> At + Clone> {
    guard(move || At { time: sync::now().checked_add(time) })
}

/// An event that comes at this time, and at once where it has passed.
///
/// ```
/// use puttolive::*;
/// at(std::time::Instant::now()).sync();
/// ```
pub fn at(time: Instant) -> At {
    At { time: Some(time) }
}

/// See [`always`].
#[derive(Clone, Debug)]
pub struct Always<T> {
    value: T,
}

/// See [`never()`].
pub struct Never<T> {
    none: PhantomData<fn() -> T>,
}

/// See [`at`].
#[derive(Clone, Copy, Debug)]
pub struct At {
    time: Option<Instant>,
}

impl<T> Clone for Never<T> {
    fn clone(&self) -> Never<T> {
        never()
    }
}

impl<T> std::fmt::Debug for Never<T> {
    fn fmt(&self, formatter: &mut std::fmt::Formatter<'_>) -> std::fmt::Result {
        formatter.write_str("Never")
    }
}

impl<T> Event for Always<T> {
    type Output = T;
    type Ready = Always<T>;

    fn force(self, to: &mut Forcing) -> Always<T> {
        to.always();
        self
    }
}

impl<T> Ready for Always<T> {
    type Output = T;

    fn settle(&mut self, _: Pick) {}

    fn finish(self, _: Pick) -> T {
        self.value
    }
}

impl<T> Event for Never<T> {
    type Output = T;
    type Ready = Never<T>;

    fn force(self, _: &mut Forcing) -> Never<T> {
        self
    }
}

impl<T> Ready for Never<T> {
    type Output = T;

    fn settle(&mut self, _: Pick) {}

    fn finish(self, _: Pick) -> T {
        unreachable!("it never comes")
    }
}

/// What is left of an event that answers nothing.
#[doc(hidden)]
pub struct Moment;

impl Ready for Moment {
    type Output = ();

    fn settle(&mut self, _: Pick) {}

    fn finish(self, _: Pick) {}
}

impl Event for At {
    type Output = ();
    type Ready = Moment;

    fn force(self, to: &mut Forcing) -> Moment {
        if let Some(time) = self.time {
            to.deadline(time);
        }
        Moment
    }
}

// ---- what is made of events

/// The event that `f` makes, anew each time that this is synced. `f` may sync, and where it panics nothing is offered.
///
/// ```
/// use puttolive::*;
/// let made = guard(|| always(String::from("made when it is synced")));
/// assert_eq!(made.sync(), "made when it is synced");
/// ```
pub fn guard<E: Event, F: FnOnce() -> E>(f: F) -> Guard<F> {
    Guard { f }
}

/// The event that `f` makes of its nack: an event that comes if the sync commits to another event than this one. It comes
/// too where a guard of the sync panics, and where a task that waits for it is dropped.
///
/// A server learns by it that its client has gone:
///
/// ```
/// use puttolive::*;
/// use std::time::Duration;
/// let requests = Channel::<(Channel<u32>, Nack)>::new();
/// let server = spawn({
///     let requests = requests.clone();
///     move || {
///         let (reply, gone) = requests.recv();
///         // the client takes neither answer nor anything else for a while
///         std::thread::sleep(Duration::from_millis(20));
///         select! {
///             _ = reply.send_evt(42) => "served",
///             _ = gone => "cancelled",
///         }
///     }
/// });
/// let asked = with_nack(|gone| {
///     let reply = Channel::new();
///     requests.send((reply.clone(), gone));
///     reply.into_recv_evt()
/// });
/// assert_eq!(asked.sync_within(Duration::from_millis(1)), None);
/// assert_eq!(server.join().unwrap(), "cancelled");
/// ```
pub fn with_nack<E: Event, F: FnOnce(Nack) -> E>(f: F) -> WithNack<F> {
    WithNack { f }
}

/// One of these, as many as there are. Of none it is [`never()`].
///
/// ```
/// use puttolive::*;
/// let channels: Vec<Channel<u32>> = (0..40).map(|_| Channel::new()).collect();
/// let any = choose(channels.iter().map(|channel| channel.recv_evt()));
/// assert_eq!(any.poll(), None);
/// ```
pub fn choose<E: Event, I: IntoIterator<Item = E>>(events: I) -> Choose<I> {
    Choose { events }
}

/// See [`Event::wrap`].
#[derive(Clone, Debug)]
pub struct Wrap<E, F> {
    event: E,
    f: F,
}

/// See [`guard`].
#[derive(Clone, Debug)]
pub struct Guard<F> {
    f: F,
}

/// See [`with_nack`].
#[derive(Clone, Debug)]
pub struct WithNack<F> {
    f: F,
}

/// See [`Event::or`].
#[derive(Clone, Debug)]
pub struct Or<A, B> {
    left: A,
    right: B,
}

/// See [`Event::either`].
#[derive(Clone, Debug)]
pub struct EitherOr<A, B> {
    left: A,
    right: B,
}

/// Which of two events was committed: see [`Event::either`].
#[derive(Clone, Copy, Debug, PartialEq, Eq)]
pub enum Either<A, B> {
    /// The first.
    Left(A),
    /// The second.
    Right(B),
}

/// See [`choose`].
#[derive(Clone, Debug)]
pub struct Choose<I> {
    events: I,
}

/// An event that comes when a sync has chosen another: see [`with_nack`]. It comes to all who wait for it, then or later.
#[derive(Clone, Debug)]
pub struct Nack {
    latch: Arc<Latch>,
}

impl Event for Nack {
    type Output = ();
    type Ready = Moment;

    fn force(self, to: &mut Forcing) -> Moment {
        to.latch(self.latch);
        Moment
    }
}

impl<E: Event, U, F: FnOnce(E::Output) -> U> Event for Wrap<E, F> {
    type Output = U;
    type Ready = Wrap<E::Ready, F>;

    fn force(self, to: &mut Forcing) -> Self::Ready {
        Wrap { event: self.event.force(to), f: self.f }
    }
}

impl<R: Ready, U, F: FnOnce(R::Output) -> U> Ready for Wrap<R, F> {
    type Output = U;

    fn settle(&mut self, pick: Pick) {
        self.event.settle(pick)
    }

    fn finish(self, pick: Pick) -> U {
        (self.f)(self.event.finish(pick))
    }
}

impl<E: Event, F: FnOnce() -> E> Event for Guard<F> {
    type Output = E::Output;
    type Ready = E::Ready;

    fn force(self, to: &mut Forcing) -> E::Ready {
        (self.f)().force(to)
    }
}

impl<E: Event, F: FnOnce(Nack) -> E> Event for WithNack<F> {
    type Output = E::Output;
    type Ready = E::Ready;

    fn force(self, to: &mut Forcing) -> E::Ready {
        let latch = Arc::new(Latch::default());
        let nack = to.nack(latch.clone());
        let event = (self.f)(Nack { latch });
        let from = to.bases();
        let ready = event.force(to);
        to.enclose(nack, from);
        ready
    }
}

/// What is left of a choice between two: the first has the base events below `split`.
#[doc(hidden)]
pub struct Split<A, B> {
    left: A,
    right: B,
    split: u32,
}

impl<A, B> Split<A, B> {
    fn force<E: Event<Ready = A>, F: Event<Ready = B>>(left: E, right: F, to: &mut Forcing) -> Split<A, B> {
        let left = left.force(to);
        let split = to.bases();
        Split { left, right: right.force(to), split }
    }
}

impl<A: Ready, B: Ready> Ready for Split<A, B> {
    type Output = Either<A::Output, B::Output>;

    fn settle(&mut self, pick: Pick) {
        if pick.base < self.split { self.left.settle(pick) } else { self.right.settle(pick) }
    }

    fn finish(self, pick: Pick) -> Self::Output {
        // what was not chosen goes before any wrap function runs
        if pick.base < self.split {
            drop(self.right);
            Either::Left(self.left.finish(pick))
        } else {
            drop(self.left);
            Either::Right(self.right.finish(pick))
        }
    }
}

impl<A: Event, B: Event> Event for EitherOr<A, B> {
    type Output = Either<A::Output, B::Output>;
    type Ready = Split<A::Ready, B::Ready>;

    fn force(self, to: &mut Forcing) -> Self::Ready {
        Split::force(self.left, self.right, to)
    }
}

/// The same where both answer one type.
#[doc(hidden)]
pub struct Alike<A, B>(Split<A, B>);

impl<A: Ready, B: Ready<Output = A::Output>> Ready for Alike<A, B> {
    type Output = A::Output;

    fn settle(&mut self, pick: Pick) {
        self.0.settle(pick)
    }

    fn finish(self, pick: Pick) -> A::Output {
        match self.0.finish(pick) {
            Either::Left(output) | Either::Right(output) => output,
        }
    }
}

impl<A: Event, B: Event<Output = A::Output>> Event for Or<A, B> {
    type Output = A::Output;
    type Ready = Alike<A::Ready, B::Ready>;

    fn force(self, to: &mut Forcing) -> Self::Ready {
        Alike(Split::force(self.left, self.right, to))
    }
}

/// What is left of a choice of many: each with the number behind its last base event.
#[doc(hidden)]
pub struct Listed<R>(Vec<(u32, R)>);

impl<E: Event, I: IntoIterator<Item = E>> Event for Choose<I> {
    type Output = E::Output;
    type Ready = Listed<E::Ready>;

    fn force(self, to: &mut Forcing) -> Self::Ready {
        let forced = self.events.into_iter().map(|event| {
            let ready = event.force(to);
            (to.bases(), ready)
        });
        Listed(forced.collect())
    }
}

impl<R> Listed<R> {
    fn find(&self, pick: Pick) -> usize {
        self.0.partition_point(|(end, _)| *end <= pick.base)
    }
}

impl<R: Ready> Ready for Listed<R> {
    type Output = R::Output;

    fn settle(&mut self, pick: Pick) {
        let at = self.find(pick);
        self.0[at].1.settle(pick)
    }

    fn finish(mut self, pick: Pick) -> R::Output {
        let at = self.find(pick);
        let (_, ready) = self.0.swap_remove(at);
        drop(self);
        ready.finish(pick)
    }
}

// ---- boxes

/// Any event that answers a `T`: see [`Event::boxed`].
pub struct BoxedEvent<'a, T> {
    event: Box<dyn AnyEvent<T> + Send + 'a>,
}

impl<T> std::fmt::Debug for BoxedEvent<'_, T> {
    fn fmt(&self, formatter: &mut std::fmt::Formatter<'_>) -> std::fmt::Result {
        formatter.write_str("BoxedEvent")
    }
}

trait AnyEvent<T> {
    fn force_box<'b>(&mut self, to: &mut Forcing) -> BoxedReady<'b, T>
    where
        Self: 'b;
}

trait AnyReady<T> {
    fn settle_box(&mut self, pick: Pick);
    fn finish_box(&mut self, pick: Pick) -> T;
}

/// What is left of a boxed event.
#[doc(hidden)]
pub struct BoxedReady<'a, T>(Box<dyn AnyReady<T> + Send + 'a>);

impl<E: Event> AnyEvent<E::Output> for Option<E>
where
    E::Ready: Send,
{
    fn force_box<'b>(&mut self, to: &mut Forcing) -> BoxedReady<'b, E::Output>
    where
        Self: 'b,
    {
        BoxedReady(Box::new(Some(self.take().expect("an event is forced once").force(to))))
    }
}

impl<R: Ready> AnyReady<R::Output> for Option<R> {
    fn settle_box(&mut self, pick: Pick) {
        self.as_mut().expect("an event is finished once").settle(pick)
    }

    fn finish_box(&mut self, pick: Pick) -> R::Output {
        self.take().expect("an event is finished once").finish(pick)
    }
}

impl<'a, T: 'a> Event for BoxedEvent<'a, T> {
    type Output = T;
    type Ready = BoxedReady<'a, T>;

    fn force(mut self, to: &mut Forcing) -> Self::Ready {
        self.event.force_box(to)
    }
}

impl<T> Ready for BoxedReady<'_, T> {
    type Output = T;

    fn settle(&mut self, pick: Pick) {
        self.0.settle_box(pick)
    }

    fn finish(mut self, pick: Pick) -> T {
        self.0.finish_box(pick)
    }
}
