// Made by tools/erase of crates/engine/src/lines.rt, and not to be edited.

//! Who stands in the lines, and whether he still waits.

use crate::engine::channels::{Channel, Side, StandFault, Waiting};
use crate::engine::held::Offered;
use crate::engine::places::Places;

/// Whether the sync waits of which somebody stands in a line.
#[inline]
fn is_live(syncs: &Places<Offered>, waiting: Waiting) -> bool {
    syncs.holds(waiting.who.place, waiting.ticket)
}

/// Takes the oldest of a side whose sync waits. Those before him are dropped.
#[inline]
pub(crate) fn take_live(channel: &mut Channel, side: Side, syncs: &Places<Offered>) -> Option<Waiting> {
    while let Some(waiting) = channel.oldest(side) {
        if is_live(syncs, waiting) {
            return Some(waiting);
        }
    }
    None
}

/// Sifts the line of a side that is at its limit.
#[inline]
fn make_room(channel: &mut Channel, side: Side, syncs: &Places<Offered>) {
    if channel.is_full(side) {
        channel.sift(side, |waiting| is_live(syncs, *waiting));
    }
}

/// Lets somebody stand behind all of his side.
#[inline]
pub(crate) fn stand(
    channel: &mut Channel,
    side: Side,
    waiting: Waiting,
    syncs: &Places<Offered>,
) -> Result<(), StandFault> {
    make_room(channel, side, syncs);
    channel.stand(side, waiting)
}
