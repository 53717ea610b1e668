//! An allocator that counts, and refuses now and then, what a call asks it for.

use std::alloc::{GlobalAlloc, Layout, System};
use std::cell::Cell;

struct Counting;

#[global_allocator]
static COUNTING: Counting = Counting;

thread_local! {
    static IS_WATCHED: Cell<bool> = const { Cell::new(false) };
    static LIVE: Cell<isize> = const { Cell::new(0) };
    static CHANCE: Cell<u64> = const { Cell::new(0) };
    static DRAWN: Cell<u64> = const { Cell::new(1) };
    static REFUSED: Cell<u64> = const { Cell::new(0) };
}

/// Whether this request is refused.
fn is_refused() -> bool {
    if !IS_WATCHED.get() || CHANCE.get() == 0 {
        return false;
    }
    DRAWN.set(DRAWN.get().wrapping_mul(6_364_136_223_846_793_005).wrapping_add(1_442_695_040_888_963_407));
    let refused = (DRAWN.get() >> 33).is_multiple_of(CHANCE.get());
    REFUSED.set(REFUSED.get() + u64::from(refused));
    refused
}

fn count(bytes: isize) {
    if IS_WATCHED.get() {
        LIVE.set(LIVE.get() + bytes);
    }
}

unsafe impl GlobalAlloc for Counting {
    unsafe fn alloc(&self, layout: Layout) -> *mut u8 {
        if is_refused() {
            return std::ptr::null_mut();
        }
        count(layout.size() as isize);
        unsafe { System.alloc(layout) }
    }

    unsafe fn dealloc(&self, place: *mut u8, layout: Layout) {
        count(-(layout.size() as isize));
        unsafe { System.dealloc(place, layout) }
    }

    unsafe fn realloc(&self, place: *mut u8, layout: Layout, size: usize) -> *mut u8 {
        if is_refused() {
            return std::ptr::null_mut();
        }
        count(size as isize - layout.size() as isize);
        unsafe { System.realloc(place, layout, size) }
    }
}

/// Makes the call. One of so many of its requests for memory is refused, none with a chance of 0. Says whether any was.
pub fn watched<T>(chance: u64, call: impl FnOnce() -> T) -> (T, bool) {
    let before = REFUSED.get();
    CHANCE.set(chance);
    IS_WATCHED.set(true);
    let result = call();
    IS_WATCHED.set(false);
    (result, REFUSED.get() > before)
}

/// How many bytes the watched calls have taken and not given back.
pub fn live() -> isize {
    LIVE.get()
}
