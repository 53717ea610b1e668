//! Channels: values meet here, and lie beside the table until their receivers take them.

use crate::event::{Event, Ready, always};
use crate::forcing::Forcing;
use crate::hub::{Hub, Port};
use crate::record::Pick;
use crate::sync::{Mutex, lock};
use std::borrow::Borrow;
use std::fmt;
use std::marker::PhantomData;
use std::sync::Arc;

/// A channel without a buffer: a send and a receive are committed together, or not at all. It is cloned as one likes, and
/// each clone may send and receive. It is never closed: [`channel`](crate::channel()) makes one that is.
///
/// Who waits longest is met first.
///
/// ```
/// use puttolive::*;
/// let channel = Channel::new();
/// let sender = spawn({
///     let channel = channel.clone();
///     move || channel.send("hello")
/// });
/// assert_eq!(channel.recv(), "hello");
/// sender.join().unwrap();
/// ```
pub struct Channel<T> {
    inner: Arc<Inner<T>>,
}

struct Inner<T> {
    port: Arc<Port>,
    values: Mutex<Values<T>>,
}

/// The values of the sends that are offered, or committed and not yet taken by their receivers.
struct Values<T> {
    places: Vec<Option<T>>,
    free: Vec<u32>,
}

impl<T> Clone for Channel<T> {
    fn clone(&self) -> Channel<T> {
        Channel { inner: self.inner.clone() }
    }
}

/// Clones of one channel are equal.
impl<T> PartialEq for Channel<T> {
    fn eq(&self, other: &Channel<T>) -> bool {
        Arc::ptr_eq(&self.inner, &other.inner)
    }
}

impl<T> Eq for Channel<T> {}

impl<T> fmt::Debug for Channel<T> {
    fn fmt(&self, formatter: &mut fmt::Formatter<'_>) -> fmt::Result {
        formatter.debug_tuple("Channel").field(&self.inner.port.id).finish()
    }
}

impl<T: Send> Default for Channel<T> {
    fn default() -> Channel<T> {
        Channel::new()
    }
}

impl<T: Send> Channel<T> {
    /// A channel in the hub of the program.
    pub fn new() -> Channel<T> {
        Hub::global().channel()
    }

    pub(crate) fn at(port: Arc<Port>) -> Channel<T> {
        let values = Mutex::new(Values { places: Vec::new(), free: Vec::new() });
        Channel { inner: Arc::new(Inner { port, values }) }
    }

    /// Sends the value, and waits until somebody receives it.
    pub fn send(&self, value: T) {
        self.send_evt(value).sync()
    }

    /// Waits until somebody sends a value.
    pub fn recv(&self) -> T {
        self.recv_evt().sync()
    }

    /// Sends the value if somebody receives it at once. Else it comes back.
    ///
    /// ```
    /// assert_eq!(puttolive::Channel::new().try_send(3), Err(3));
    /// ```
    pub fn try_send(&self, value: T) -> Result<(), T> {
        let mut value = Some(value);
        let is_sent = self.send_from(&mut value).wrap(|()| true).or(always(false)).sync();
        if is_sent { Ok(()) } else { Err(value.expect("a value that is not sent lies there again")) }
    }

    /// A value that somebody sends at this moment, if there is one.
    pub fn try_recv(&self) -> Option<T> {
        self.recv_evt().poll()
    }

    /// Sends the value, when somebody receives it. Where it is not sent it is dropped.
    pub fn send_evt(&self, value: T) -> SendEvt<&Channel<T>, T> {
        SendEvt { channel: self, value }
    }

    /// Sends the value that lies there, when somebody receives it. Where it is not sent it lies there again.
    ///
    /// # Panics
    /// Where it is synced and none lies there.
    ///
    /// ```
    /// use puttolive::*;
    /// let mut kept = Some(String::from("kept"));
    /// assert_eq!(Channel::new().send_from(&mut kept).poll(), None);
    /// assert_eq!(kept.as_deref(), Some("kept"));
    /// ```
    pub fn send_from<'a>(&'a self, from: &'a mut Option<T>) -> SendFrom<'a, T> {
        SendFrom { channel: self, from }
    }

    /// Receives what somebody sends.
    pub fn recv_evt(&self) -> RecvEvt<&Channel<T>, T> {
        RecvEvt { channel: self, value: PhantomData }
    }

    /// [`send_evt`](Channel::send_evt) as an event that keeps the channel itself.
    pub fn into_send_evt(self, value: T) -> SendEvt<Channel<T>, T> {
        SendEvt { channel: self, value }
    }

    /// [`recv_evt`](Channel::recv_evt) as an event that keeps the channel itself.
    ///
    /// ```
    /// use puttolive::*;
    /// fn answers(channel: Channel<u32>) -> BoxedEvent<'static, String> {
    ///     channel.into_recv_evt().wrap(|n| n.to_string()).boxed()
    /// }
    /// assert_eq!(answers(Channel::new()).poll(), None);
    /// ```
    pub fn into_recv_evt(self) -> RecvEvt<Channel<T>, T> {
        RecvEvt { channel: self, value: PhantomData }
    }
}

impl<T> Channel<T> {
    /// Offers to send the value, which lies there from here on.
    pub(crate) fn offer(&self, value: T, to: &mut Forcing) -> (u32, Place<T>) {
        let place = Place { at: Some(self.put(value)), value: PhantomData };
        let base = to.want(&self.inner.port, true, place.at.unwrap_or_default());
        (base, place)
    }

    /// Offers to receive: the number of the base event.
    pub(crate) fn ask(&self, to: &mut Forcing) -> u32 {
        to.want(&self.inner.port, false, 0)
    }

    fn put(&self, value: T) -> u32 {
        let mut values = lock(&self.inner.values);
        match values.free.pop() {
            Some(at) => {
                values.places[at as usize] = Some(value);
                at
            }
            None => {
                values.places.push(Some(value));
                values.places.len() as u32 - 1
            }
        }
    }

    /// Takes what lies there, which the sender or the receiver alone does.
    pub(crate) fn take(&self, at: u32) -> T {
        let mut values = lock(&self.inner.values);
        values.free.push(at);
        values.places[at as usize].take().expect("a value is taken once")
    }
}

/// Where a value lies that is offered, while it is the sender's.
pub(crate) struct Place<T> {
    at: Option<u32>,
    value: PhantomData<fn() -> T>,
}

impl<T> Place<T> {
    /// The value is the receiver's now.
    pub(crate) fn give(&mut self) {
        self.at = None;
    }

    /// The value, if it was not sent.
    pub(crate) fn take_back(&mut self, channel: &Channel<T>) -> Option<T> {
        self.at.take().map(|at| channel.take(at))
    }
}

/// See [`Channel::send_evt`].
#[derive(Clone, Debug)]
pub struct SendEvt<C, T> {
    channel: C,
    value: T,
}

/// A value that is offered. Where it is not sent, it is dropped with this.
#[doc(hidden)]
pub struct Offered<C: Borrow<Channel<T>>, T> {
    channel: C,
    place: Place<T>,
}

impl<C: Borrow<Channel<T>>, T: Send> Event for SendEvt<C, T> {
    type Output = ();
    type Ready = Offered<C, T>;

    fn force(self, to: &mut Forcing) -> Offered<C, T> {
        let (_, place) = self.channel.borrow().offer(self.value, to);
        Offered { channel: self.channel, place }
    }
}

impl<C: Borrow<Channel<T>>, T> Ready for Offered<C, T> {
    type Output = ();

    fn settle(&mut self, _: Pick) {
        self.place.give();
    }

    fn finish(self, _: Pick) {}
}

impl<C: Borrow<Channel<T>>, T> Drop for Offered<C, T> {
    fn drop(&mut self) {
        drop(self.place.take_back(self.channel.borrow()));
    }
}

/// See [`Channel::send_from`].
#[derive(Debug)]
pub struct SendFrom<'a, T> {
    channel: &'a Channel<T>,
    from: &'a mut Option<T>,
}

/// The same, when it is offered.
#[doc(hidden)]
pub struct Lent<'a, T> {
    event: SendFrom<'a, T>,
    place: Place<T>,
}

impl<'a, T: Send> Event for SendFrom<'a, T> {
    type Output = ();
    type Ready = Lent<'a, T>;

    fn force(self, to: &mut Forcing) -> Lent<'a, T> {
        let value = self.from.take().expect("a value to send lies there");
        let (_, place) = self.channel.offer(value, to);
        Lent { event: self, place }
    }
}

impl<T> Ready for Lent<'_, T> {
    type Output = ();

    fn settle(&mut self, _: Pick) {
        self.place.give();
    }

    fn finish(self, _: Pick) {}
}

impl<T> Drop for Lent<'_, T> {
    fn drop(&mut self) {
        if let Some(value) = self.place.take_back(self.event.channel) {
            *self.event.from = Some(value);
        }
    }
}

/// See [`Channel::recv_evt`].
#[derive(Clone, Debug)]
pub struct RecvEvt<C, T> {
    channel: C,
    value: PhantomData<fn() -> T>,
}

/// A receive that is offered.
#[doc(hidden)]
pub struct Receiving<C, T> {
    channel: C,
    received: Option<T>,
}

impl<C: Borrow<Channel<T>>, T: Send> Event for RecvEvt<C, T> {
    type Output = T;
    type Ready = Receiving<C, T>;

    fn force(self, to: &mut Forcing) -> Receiving<C, T> {
        self.channel.borrow().ask(to);
        Receiving { channel: self.channel, received: None }
    }
}

impl<C: Borrow<Channel<T>>, T> Ready for Receiving<C, T> {
    type Output = T;

    fn settle(&mut self, pick: Pick) {
        self.received = Some(self.channel.borrow().take(pick.number));
    }

    fn finish(self, _: Pick) -> T {
        self.received.expect("what was picked was settled")
    }
}
