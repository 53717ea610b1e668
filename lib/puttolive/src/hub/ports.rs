//! Ports: channels without their values, and the numbers by which the table knows them. A channel has a number for
//! its life, where one is left when it is made. All others are lent one while a row that offers on them stands in the
//! table.

use super::lines::NUMBERS;
use super::{HubCore, HubRef};
use crate::record::{Job, Want};
use crate::sync::atomic::{AtomicU32, AtomicU64, Ordering::SeqCst};
use crate::sync::{Mutex, lock};
use std::sync::{Arc, Weak};

/// Numbers that a channel keeps for its life. Those from here on are lent. Drawn schedules have few to lend.
#[cfg(not(schedules))]
const KEPT: usize = 192;
#[cfg(schedules)]
const KEPT: usize = 246;

pub(crate) struct Port {
    pub(crate) hub: HubRef,
    /// Its number among all channels of the hub.
    pub(crate) id: u64,
    /// Its number in the table for life, if it has one.
    kept: Option<u8>,
    /// Else 256 times how many rows offer on it, and the number that it is lent; 0 where it has none.
    lent: AtomicU32,
}

pub(super) struct Numbers {
    ids: AtomicU64,
    kept: Mutex<Vec<u8>>,
    /// Who has each number that is lent.
    lent: Mutex<Vec<Option<Weak<Port>>>>,
}

impl Numbers {
    pub(super) fn new() -> Numbers {
        Numbers {
            ids: AtomicU64::new(0),
            kept: Mutex::new((0..KEPT as u8).rev().collect()),
            lent: Mutex::new(vec![None; NUMBERS - KEPT]),
        }
    }

    /// A number for one more row that offers on the channel, if one is free.
    fn lend(&self, port: &Arc<Port>) -> Option<u8> {
        loop {
            let word = port.lent.load(SeqCst);
            if word != 0 {
                if port.lent.compare_exchange(word, word + 256, SeqCst, SeqCst).is_ok() {
                    return Some(word as u8);
                }
                continue;
            }
            let mut lent = lock(&self.lent);
            if port.lent.load(SeqCst) != 0 {
                continue;
            }
            let number = lent.iter().enumerate().find_map(|(at, holder)| {
                let number = (KEPT + at) as u8;
                is_free(holder.as_ref(), number).then_some(number)
            })?;
            lent[usize::from(number) - KEPT] = Some(Arc::downgrade(port));
            port.lent.store(256 + u32::from(number), SeqCst);
            return Some(number);
        }
    }
}

/// Whether nobody has the number, or a channel on which no row offers, which then loses it.
fn is_free(holder: Option<&Weak<Port>>, number: u8) -> bool {
    match holder.and_then(Weak::upgrade) {
        None => true,
        Some(other) => other.lent.compare_exchange(u32::from(number), 0, SeqCst, SeqCst).is_ok(),
    }
}

impl HubRef {
    /// A new channel.
    pub(crate) fn port(&self) -> Arc<Port> {
        let kept = lock(&self.numbers.kept).pop();
        let id = self.numbers.ids.fetch_add(1, SeqCst);
        Arc::new(Port { hub: self.clone(), id, kept, lent: AtomicU32::new(0) })
    }
}

impl HubCore {
    /// Gives a number to each want from there on that a row shows. Where none is left for one, no number was lent.
    pub(super) fn lend(&self, job: &mut Job, from: usize) -> bool {
        let to = from + job.count(from);
        for at in from..to {
            let want = &mut job.wants[at];
            let Some(borrower) = &want.borrower else {
                continue;
            };
            want.number = self.numbers.lend(borrower);
            if want.number.is_none() {
                job.wants[from..at].iter_mut().for_each(Want::give_back);
                return false;
            }
        }
        true
    }
}

/// The numbers that were lent to the wants are free for others again.
pub(super) fn give_back(job: &mut Job) {
    job.wants.iter_mut().for_each(Want::give_back);
}

impl Want {
    fn give_back(&mut self) {
        if let Some(borrower) = &self.borrower
            && self.number.take().is_some()
        {
            borrower.lent.fetch_sub(256, SeqCst);
        }
    }
}

impl Port {
    pub(crate) fn want(self: &Arc<Self>, base: u32, is_send: bool, value: u32) -> Want {
        let borrower = self.kept.is_none().then(|| self.clone());
        Want { base, is_send, value, channel: self.id, number: self.kept, borrower }
    }
}

impl Drop for Port {
    fn drop(&mut self) {
        if let Some(number) = self.kept {
            lock(&self.hub.numbers.kept).push(number);
        }
    }
}
