//! How deep a call reaches into the stack, by painting it: the stack below the caller is filled with
//! one byte ahead of the call, and what has another one afterwards was used.

use std::hint::black_box;
use std::ptr;
use std::thread;

const PAINT: u8 = 0xa5;

/// How far below the caller the stack is painted. The thread's stack is larger by far.
const PAINTED: usize = 64 * 1024;
const THREAD: usize = 1024 * 1024;

/// What is left out right below the caller, where the painting function itself stands. A call that
/// takes less is told as this.
const LEFT_OUT: usize = 512;

/// The bytes of stack that a call takes.
pub fn depth(call: impl FnOnce() + Send) -> usize {
    thread::scope(|scope| {
        let painted = thread::Builder::new().stack_size(THREAD);
        let measured = painted.spawn_scoped(scope, || measured(call));
        let measured = measured.expect("a thread starts").join();
        measured.expect("the call returns")
    })
}

#[inline(never)]
fn measured(call: impl FnOnce()) -> usize {
    let here = 0u8;
    let top = black_box(ptr::addr_of!(here)) as usize;
    paint(top);
    call();
    top - lowest_used(top)
}

/// Fills the stack from PAINTED to LEFT_OUT bytes below a place of the caller's frame.
#[inline(never)]
fn paint(top: usize) {
    for place in top - PAINTED..top - LEFT_OUT {
        // SAFETY: the place is in this thread's stack, and below every frame that is in use.
        unsafe { ptr::write_volatile(place as *mut u8, PAINT) };
    }
}

#[inline(never)]
fn lowest_used(top: usize) -> usize {
    let places = top - PAINTED..top - LEFT_OUT;
    // SAFETY: the place is in this thread's stack, and was painted.
    let used = |&place: &usize| unsafe { ptr::read_volatile(place as *const u8) } != PAINT;
    places.clone().find(used).unwrap_or(places.end)
}

#[cfg(test)]
mod tests {
    use super::*;

    /// Touches every byte of an array on its stack.
    #[inline(never)]
    fn uses<const N: usize>() {
        black_box([1u8; N]);
    }

    #[test]
    fn sees_what_a_call_takes() {
        for (measured, taken) in [
            (depth(uses::<3_000>), 3_000),
            (depth(uses::<20_000>), 20_000),
        ] {
            assert!(
                (taken..taken + 600).contains(&measured),
                "{measured} for {taken}"
            );
        }
        assert_eq!(depth(|| ()), LEFT_OUT);
    }
}
