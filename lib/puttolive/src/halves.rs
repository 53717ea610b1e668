//! Channels of two halves, as `std::sync::mpsc` has them: when all senders are gone a receive answers so, and when all
//! receivers are gone a send gives its value back.

use crate::channel::{Channel, Place, SendFrom};
use crate::event::{Event, Ready, always, timeout};
use crate::forcing::Forcing;
use crate::hub::Hub;
use crate::record::Pick;
use crate::signal::{Signal, SignalEvt};
use std::borrow::Borrow;
use std::marker::PhantomData;
use std::sync::Arc;
use std::sync::mpsc::{RecvError, RecvTimeoutError, SendError, TryRecvError, TrySendError};
use std::time::Duration;
use std::{error, fmt};

/// A channel without a buffer, closed when all clones of one half are dropped. Who waits for the other half is told, in
/// whatever choice. An event that keeps a half keeps the channel open.
///
/// ```
/// let (sender, receiver) = puttolive::channel();
/// let thread = puttolive::spawn(move || (0..3).try_for_each(|n| sender.send(n)));
/// assert_eq!(receiver.iter().collect::<Vec<_>>(), [0, 1, 2]);
/// assert!(thread.join().unwrap().is_ok());
/// ```
pub fn channel<T: Send>() -> (Sender<T>, Receiver<T>) {
    Hub::global().halves()
}

pub(crate) fn of<T: Send>(channel: Channel<T>) -> (Sender<T>, Receiver<T>) {
    let (senders, receivers) = (Arc::new(Alive::default()), Arc::new(Alive::default()));
    let receivers_gone = receivers.gone.clone();
    let senders_gone = senders.gone.clone();
    let sender = Sender { channel: channel.clone(), receivers_gone, _alive: senders };
    (sender, Receiver { channel, senders_gone, _alive: receivers })
}

/// What all clones of a half have in common.
#[derive(Default)]
struct Alive {
    gone: Signal,
}

impl Drop for Alive {
    fn drop(&mut self) {
        self.gone.fire();
    }
}

/// The half that sends: see [`channel`].
pub struct Sender<T> {
    channel: Channel<T>,
    receivers_gone: Signal,
    _alive: Arc<Alive>,
}

/// The half that receives: see [`channel`].
pub struct Receiver<T> {
    channel: Channel<T>,
    senders_gone: Signal,
    _alive: Arc<Alive>,
}

/// Why [`Sender::send_timeout`] did not send, with the value.
#[derive(Clone, Copy, PartialEq, Eq)]
pub enum SendTimeoutError<T> {
    /// Nobody received it in time.
    Timeout(T),
    /// All receivers are gone.
    Disconnected(T),
}

impl<T> fmt::Debug for SendTimeoutError<T> {
    fn fmt(&self, formatter: &mut fmt::Formatter<'_>) -> fmt::Result {
        formatter.write_str(match self {
            SendTimeoutError::Timeout(_) => "Timeout(..)",
            SendTimeoutError::Disconnected(_) => "Disconnected(..)",
        })
    }
}

impl<T> fmt::Display for SendTimeoutError<T> {
    fn fmt(&self, formatter: &mut fmt::Formatter<'_>) -> fmt::Result {
        formatter.write_str(match self {
            SendTimeoutError::Timeout(_) => "nobody received the value in time",
            SendTimeoutError::Disconnected(_) => "sending on a closed channel",
        })
    }
}

impl<T> error::Error for SendTimeoutError<T> {}

impl<T> Clone for Sender<T> {
    fn clone(&self) -> Sender<T> {
        let (channel, receivers_gone) = (self.channel.clone(), self.receivers_gone.clone());
        Sender { channel, receivers_gone, _alive: self._alive.clone() }
    }
}

impl<T> Clone for Receiver<T> {
    fn clone(&self) -> Receiver<T> {
        let (channel, senders_gone) = (self.channel.clone(), self.senders_gone.clone());
        Receiver { channel, senders_gone, _alive: self._alive.clone() }
    }
}

impl<T> fmt::Debug for Sender<T> {
    fn fmt(&self, formatter: &mut fmt::Formatter<'_>) -> fmt::Result {
        formatter.debug_tuple("Sender").field(&self.channel).finish()
    }
}

impl<T> fmt::Debug for Receiver<T> {
    fn fmt(&self, formatter: &mut fmt::Formatter<'_>) -> fmt::Result {
        formatter.debug_tuple("Receiver").field(&self.channel).finish()
    }
}

/// Why a value came back.
enum Unsent {
    Late,
    Closed,
}

impl<T: Send> Sender<T> {
    /// Sends the value, and waits until somebody receives it. Where all receivers are gone it comes back.
    ///
    /// ```
    /// let (sender, receiver) = puttolive::channel();
    /// drop(receiver);
    /// assert_eq!(sender.send(3).unwrap_err().0, 3);
    /// ```
    pub fn send(&self, value: T) -> Result<(), SendError<T>> {
        self.send_evt(value).sync()
    }

    /// Sends the value if somebody receives it at once. Else it comes back.
    ///
    /// ```
    /// use puttolive::TrySendError;
    /// let (sender, receiver) = puttolive::channel();
    /// assert!(matches!(sender.try_send(3), Err(TrySendError::Full(3))));
    /// drop(receiver);
    /// assert!(matches!(sender.try_send(3), Err(TrySendError::Disconnected(3))));
    /// ```
    pub fn try_send(&self, value: T) -> Result<(), TrySendError<T>> {
        self.send_or(value, always(())).map_err(|(value, why)| match why {
            Unsent::Late => TrySendError::Full(value),
            Unsent::Closed => TrySendError::Disconnected(value),
        })
    }

    /// Sends the value if somebody receives it within this time. Else it comes back.
    ///
    /// ```
    /// use puttolive::SendTimeoutError;
    /// let (sender, _receiver) = puttolive::channel();
    /// let soon = std::time::Duration::from_millis(1);
    /// assert_eq!(sender.send_timeout(3, soon), Err(SendTimeoutError::Timeout(3)));
    /// ```
    pub fn send_timeout(&self, value: T, time: Duration) -> Result<(), SendTimeoutError<T>> {
        self.send_or(value, timeout(time)).map_err(|(value, why)| match why {
            Unsent::Late => SendTimeoutError::Timeout(value),
            Unsent::Closed => SendTimeoutError::Disconnected(value),
        })
    }

    fn send_or(&self, value: T, late: impl Event<Output = ()>) -> Result<(), (T, Unsent)> {
        let mut value = Some(value);
        let sent = self.channel.send_from(&mut value).wrap(Ok);
        let closed = self.receivers_gone.evt().wrap(|()| Err(Unsent::Closed));
        let told = sent.or(closed).or(late.wrap(|()| Err(Unsent::Late))).sync();
        told.map_err(|why| (value.expect("a value that is not sent lies there again"), why))
    }

    /// Sends the value, when somebody receives it. It comes back where all receivers are gone, and is dropped where another
    /// event is chosen.
    ///
    /// ```
    /// use puttolive::*;
    /// let (sender, _receiver) = channel();
    /// assert!(sender.send_evt(3).poll().is_none());
    /// ```
    pub fn send_evt(&self, value: T) -> SenderEvt<&Sender<T>, T> {
        SenderEvt { sender: self, value }
    }

    /// [`send_evt`](Sender::send_evt) as an event that keeps the half itself.
    pub fn into_send_evt(self, value: T) -> SenderEvt<Sender<T>, T> {
        SenderEvt { sender: self, value }
    }

    /// Sends the value that lies there, when somebody receives it. Where it is not sent it lies there again. That all
    /// receivers are gone is told by [`closed`](Sender::closed) alone: choose between the two.
    ///
    /// # Panics
    /// Where it is synced and none lies there.
    ///
    /// ```
    /// use puttolive::*;
    /// let (sender, receiver) = channel();
    /// let mut kept = Some(3);
    /// drop(receiver);
    /// choose![sender.send_from(&mut kept), sender.closed()].sync();
    /// assert_eq!(kept, Some(3));
    /// ```
    pub fn send_from<'a>(&'a self, from: &'a mut Option<T>) -> SendFrom<'a, T> {
        self.channel.send_from(from)
    }

    /// Comes when all receivers are gone.
    ///
    /// ```
    /// use puttolive::*;
    /// let (sender, receiver) = channel::<u32>();
    /// drop(receiver);
    /// sender.closed().sync();
    /// ```
    pub fn closed(&self) -> SignalEvt {
        self.receivers_gone.evt()
    }
}

impl<T: Send> Receiver<T> {
    /// Waits until somebody sends a value, or until all senders are gone.
    pub fn recv(&self) -> Result<T, RecvError> {
        self.recv_evt().sync()
    }

    /// A value that somebody sends at this moment.
    ///
    /// ```
    /// use puttolive::TryRecvError;
    /// let (sender, receiver) = puttolive::channel::<u32>();
    /// assert_eq!(receiver.try_recv(), Err(TryRecvError::Empty));
    /// drop(sender);
    /// assert_eq!(receiver.try_recv(), Err(TryRecvError::Disconnected));
    /// ```
    pub fn try_recv(&self) -> Result<T, TryRecvError> {
        let told = self.recv_evt().wrap(|told| told.map_err(|_| TryRecvError::Disconnected));
        told.or(always(()).wrap(|()| Err(TryRecvError::Empty))).sync()
    }

    /// A value that somebody sends within this time.
    ///
    /// ```
    /// use puttolive::RecvTimeoutError;
    /// let (_sender, receiver) = puttolive::channel::<u32>();
    /// let soon = std::time::Duration::from_millis(1);
    /// assert_eq!(receiver.recv_timeout(soon), Err(RecvTimeoutError::Timeout));
    /// ```
    pub fn recv_timeout(&self, time: Duration) -> Result<T, RecvTimeoutError> {
        let told = self.recv_evt().wrap(|told| told.map_err(|_| RecvTimeoutError::Disconnected));
        told.or(timeout(time).wrap(|()| Err(RecvTimeoutError::Timeout))).sync()
    }

    /// Receives what somebody sends, or tells that all senders are gone.
    ///
    /// ```
    /// use puttolive::*;
    /// let (sender, receiver) = channel::<u32>();
    /// drop(sender);
    /// assert_eq!(receiver.recv_evt().sync(), Err(RecvError));
    /// ```
    pub fn recv_evt(&self) -> ReceiverEvt<&Receiver<T>, T> {
        ReceiverEvt { receiver: self, value: PhantomData }
    }

    /// [`recv_evt`](Receiver::recv_evt) as an event that keeps the half itself.
    pub fn into_recv_evt(self) -> ReceiverEvt<Receiver<T>, T> {
        ReceiverEvt { receiver: self, value: PhantomData }
    }

    /// Comes when all senders are gone.
    pub fn closed(&self) -> SignalEvt {
        self.senders_gone.evt()
    }

    /// What is received until all senders are gone. `for value in &receiver` is the same.
    pub fn iter(&self) -> Iter<'_, T> {
        Iter { receiver: self }
    }

    /// What is received until nobody sends at once.
    ///
    /// ```
    /// let (_sender, receiver) = puttolive::channel::<u32>();
    /// assert_eq!(receiver.try_iter().next(), None);
    /// ```
    pub fn try_iter(&self) -> TryIter<'_, T> {
        TryIter { receiver: self }
    }
}

/// See [`Receiver::iter`].
#[derive(Debug)]
pub struct Iter<'a, T> {
    receiver: &'a Receiver<T>,
}

/// See [`Receiver::try_iter`].
#[derive(Debug)]
pub struct TryIter<'a, T> {
    receiver: &'a Receiver<T>,
}

/// What is received until all senders are gone, by an iterator that keeps the half itself.
#[derive(Debug)]
pub struct IntoIter<T> {
    receiver: Receiver<T>,
}

impl<T: Send> Iterator for Iter<'_, T> {
    type Item = T;

    fn next(&mut self) -> Option<T> {
        self.receiver.recv().ok()
    }
}

impl<T: Send> Iterator for TryIter<'_, T> {
    type Item = T;

    fn next(&mut self) -> Option<T> {
        self.receiver.try_recv().ok()
    }
}

impl<T: Send> Iterator for IntoIter<T> {
    type Item = T;

    fn next(&mut self) -> Option<T> {
        self.receiver.recv().ok()
    }
}

impl<'a, T: Send> IntoIterator for &'a Receiver<T> {
    type Item = T;
    type IntoIter = Iter<'a, T>;

    fn into_iter(self) -> Iter<'a, T> {
        self.iter()
    }
}

impl<T: Send> IntoIterator for Receiver<T> {
    type Item = T;
    type IntoIter = IntoIter<T>;

    fn into_iter(self) -> IntoIter<T> {
        IntoIter { receiver: self }
    }
}

// ---- events

/// See [`Sender::send_evt`].
#[derive(Clone, Debug)]
pub struct SenderEvt<S, T> {
    sender: S,
    value: T,
}

/// A value that is offered, with the close that is watched.
#[doc(hidden)]
pub struct Offered<S: Borrow<Sender<T>>, T> {
    sender: S,
    place: Place<T>,
    base: u32,
}

impl<S: Borrow<Sender<T>>, T: Send> Event for SenderEvt<S, T> {
    type Output = Result<(), SendError<T>>;
    type Ready = Offered<S, T>;

    fn force(self, to: &mut Forcing) -> Offered<S, T> {
        let sender = self.sender.borrow();
        let (base, place) = sender.channel.offer(self.value, to);
        to.latch(sender.receivers_gone.latch());
        Offered { sender: self.sender, place, base }
    }
}

impl<S: Borrow<Sender<T>>, T> Ready for Offered<S, T> {
    type Output = Result<(), SendError<T>>;

    fn settle(&mut self, pick: Pick) {
        if pick.base == self.base {
            self.place.give();
        }
    }

    fn finish(mut self, _: Pick) -> Self::Output {
        match self.place.take_back(&self.sender.borrow().channel) {
            None => Ok(()),
            Some(value) => Err(SendError(value)),
        }
    }
}

impl<S: Borrow<Sender<T>>, T> Drop for Offered<S, T> {
    fn drop(&mut self) {
        drop(self.place.take_back(&self.sender.borrow().channel));
    }
}

/// See [`Receiver::recv_evt`].
#[derive(Clone, Debug)]
pub struct ReceiverEvt<R, T> {
    receiver: R,
    value: PhantomData<fn() -> T>,
}

/// A receive that is offered, with the close that is watched.
#[doc(hidden)]
pub struct Receiving<R, T> {
    receiver: R,
    base: u32,
    received: Option<T>,
}

impl<R: Borrow<Receiver<T>>, T: Send> Event for ReceiverEvt<R, T> {
    type Output = Result<T, RecvError>;
    type Ready = Receiving<R, T>;

    fn force(self, to: &mut Forcing) -> Receiving<R, T> {
        let receiver = self.receiver.borrow();
        let base = receiver.channel.ask(to);
        to.latch(receiver.senders_gone.latch());
        Receiving { receiver: self.receiver, base, received: None }
    }
}

impl<R: Borrow<Receiver<T>>, T> Ready for Receiving<R, T> {
    type Output = Result<T, RecvError>;

    fn settle(&mut self, pick: Pick) {
        if pick.base == self.base {
            self.received = Some(self.receiver.borrow().channel.take(pick.number));
        }
    }

    fn finish(self, _: Pick) -> Self::Output {
        self.received.ok_or(RecvError)
    }
}
