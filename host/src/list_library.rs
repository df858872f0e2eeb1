//! The calls of the proved library of the block list, as include/vorruda_list.h declares them. An
//! empty slice goes over as NULL.

use crate::library::lent_mut;

#[link(name = "vorruda_list", kind = "static")]
extern "C" {
    fn vorruda_list_insert(
        heap: *mut u8,
        heap_len: usize,
        values: *mut u32,
        values_len: usize,
        n: u32,
    ) -> u32;
    fn vorruda_list_remove(
        heap: *mut u8,
        heap_len: usize,
        values: *mut u32,
        values_len: usize,
        n: u32,
    ) -> u32;
    fn vorruda_list_count(
        heap: *mut u8,
        heap_len: usize,
        values: *mut u32,
        values_len: usize,
        out: *mut u64,
        out_len: usize,
    ) -> u32;
}

/// An insert or a remove: heap, values and n.
pub type Edit = fn(&mut [u8], &mut [u32], u32) -> u32;

/// The three calls, of this library or another. A count has heap, values and out.
#[derive(Clone, Copy)]
pub struct Calls {
    pub insert: Edit,
    pub remove: Edit,
    pub count: fn(&mut [u8], &mut [u32], &mut [u64]) -> u32,
}

pub const CALLS: Calls = Calls {
    insert,
    remove,
    count,
};

/// The two calls that change the list at n.
type EditInC = unsafe extern "C" fn(*mut u8, usize, *mut u32, usize, u32) -> u32;

fn edit(call: EditInC, heap: &mut [u8], values: &mut [u32], n: u32) -> u32 {
    // SAFETY: each pointer goes with the length of the slice that it came from.
    unsafe {
        call(
            lent_mut(heap),
            heap.len(),
            lent_mut(values),
            values.len(),
            n,
        )
    }
}

/// Puts a cell into the list after the n-th.
pub fn insert(heap: &mut [u8], values: &mut [u32], n: u32) -> u32 {
    edit(vorruda_list_insert, heap, values, n)
}

/// Takes the n-th cell out of the list.
pub fn remove(heap: &mut [u8], values: &mut [u32], n: u32) -> u32 {
    edit(vorruda_list_remove, heap, values, n)
}

/// How many cells the list has.
pub fn count(heap: &mut [u8], values: &mut [u32], out: &mut [u64]) -> u32 {
    // SAFETY: each pointer goes with the length of the slice that it came from.
    unsafe {
        vorruda_list_count(
            lent_mut(heap),
            heap.len(),
            lent_mut(values),
            values.len(),
            lent_mut(out),
            out.len(),
        )
    }
}
