//! The macros [`choose!`](crate::choose!) and [`select!`](crate::select!).

/// One of several events that answer the same type.
///
/// ```
/// use puttolive::*;
/// let (left, right) = (Channel::<u32>::new(), Channel::<u32>::new());
/// assert_eq!(choose![left.recv_evt(), right.recv_evt(), always(0)].sync(), 0);
/// ```
#[macro_export]
macro_rules! choose {
    ($event:expr $(,)?) => { $event };
    ($event:expr, $($more:expr),+ $(,)?) => { $crate::Event::or($event, $crate::choose!($($more),+)) };
}

/// Syncs on one of several events of any types, and goes on in the arm of the one that was committed. `return`, `break`
/// and `?` in an arm mean what they mean around it. `else => ..`, the last arm, is taken where no event can be committed
/// at once.
///
/// ```
/// use puttolive::*;
/// let (numbers, words) = (Channel::<u32>::new(), Channel::<&str>::new());
/// let told = select! {
///     number = numbers.recv_evt() => number.to_string(),
///     word = words.recv_evt() => word.to_owned(),
///     else => String::from("nobody"),
/// };
/// assert_eq!(told, "nobody");
/// ```
#[macro_export]
macro_rules! select {
    // the arms one after another, into a list
    (@arms [$($arm:tt)*]) => { $crate::select!(@sync $($arm)*) };
    (@arms [$($arm:tt)*] else => $other:expr $(,)?) => {
        $crate::select!(@sync $($arm)* (_, $crate::always(()), $other))
    };
    (@arms [$($arm:tt)*] $name:pat = $event:expr => $body:block, $($rest:tt)*) => {
        $crate::select!(@arms [$($arm)* ($name, $event, $body)] $($rest)*)
    };
    (@arms [$($arm:tt)*] $name:pat = $event:expr => $body:block $($rest:tt)*) => {
        $crate::select!(@arms [$($arm)* ($name, $event, $body)] $($rest)*)
    };
    (@arms [$($arm:tt)*] $name:pat = $event:expr => $body:expr) => {
        $crate::select!(@arms [$($arm)* ($name, $event, $body)])
    };
    (@arms [$($arm:tt)*] $name:pat = $event:expr => $body:expr, $($rest:tt)*) => {
        $crate::select!(@arms [$($arm)* ($name, $event, $body)] $($rest)*)
    };
    // their events to one event, and its answer to the arms
    (@sync $(($name:pat, $event:expr, $body:expr))+) => {
        $crate::select!(@match $crate::Event::sync($crate::select!(@event $($event,)+)); $(($name, $body))+)
    };
    (@event $event:expr,) => { $event };
    (@event $event:expr, $($more:expr,)+) => { $crate::Event::either($event, $crate::select!(@event $($more,)+)) };
    (@match $got:expr; ($name:pat, $body:expr)) => { { let $name = $got; $body } };
    (@match $got:expr; ($name:pat, $body:expr) $($rest:tt)+) => {
        match $got {
            $crate::Either::Left($name) => $body,
            $crate::Either::Right(more) => $crate::select!(@match more; $($rest)+),
        }
    };
    ($($arms:tt)+) => { $crate::select!(@arms [] $($arms)+) };
}
