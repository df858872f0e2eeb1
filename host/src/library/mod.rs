//! The proved library's calls, as include/vorruda.h declares them. An empty slice goes over as
//! NULL.

#[cfg(feature = "carrying")]
pub mod carry;

use std::ptr;

use crate::verdict::Files;

#[link(name = "vorruda", kind = "static")]
extern "C" {
    fn vorruda_read_number(
        bytes: *const u8,
        len: usize,
        at: usize,
        out: *mut u64,
        out_len: usize,
    ) -> u32;
    fn vorruda_write_numbers(
        numbers: *const u64,
        count: usize,
        bytes: *mut u8,
        len: usize,
        out: *mut u64,
        out_len: usize,
    ) -> u32;
    fn vorruda_step(heap: *mut u8, heap_len: usize, kind: u32, a: u32, b: u32) -> u32;
    fn vorruda_step_values(
        heap: *mut u8,
        heap_len: usize,
        values: *mut u32,
        values_len: usize,
        kind: u32,
        a: u32,
        b: u32,
        value: u16,
    ) -> u32;
    fn vorruda_check(job: *const u8, job_len: usize, cert: *const u8, cert_len: usize) -> u32;
    fn vorruda_verdict(
        job: *const u8,
        job_len: usize,
        cert: *const u8,
        cert_len: usize,
        out: *mut u64,
        out_len: usize,
    ) -> u32;
    fn vorruda_tally_verdict(
        job: *const u8,
        job_len: usize,
        cert: *const u8,
        cert_len: usize,
        tally: *mut u32,
        tally_len: usize,
        out: *mut u64,
        out_len: usize,
    ) -> u32;
    fn vorruda_tally_report(
        tally: *const u32,
        tally_len: usize,
        text: *mut u8,
        len: usize,
        out: *mut u64,
        out_len: usize,
    ) -> u32;
    fn vorruda_join(
        job1: *const u8,
        job1_len: usize,
        cert1: *const u8,
        cert1_len: usize,
        job2: *const u8,
        job2_len: usize,
        cert2: *const u8,
        cert2_len: usize,
        state: u32,
        out: *mut u64,
        out_len: usize,
    ) -> u32;
    fn vorruda_forbid_not_list(
        job: *const u8,
        job_len: usize,
        variable: u32,
        state: u32,
        bytes: *mut u8,
        len: usize,
        out: *mut u64,
        out_len: usize,
    ) -> u32;
    fn vorruda_forbid_lost_block(
        job: *const u8,
        job_len: usize,
        variable: u32,
        state: u32,
        bytes: *mut u8,
        len: usize,
        out: *mut u64,
        out_len: usize,
    ) -> u32;
    fn vorruda_forbid_bad_steps(
        job: *const u8,
        job_len: usize,
        bytes: *mut u8,
        len: usize,
        out: *mut u64,
        out_len: usize,
    ) -> u32;
    fn vorruda_translate(
        text: *const u8,
        text_len: usize,
        bytes: *mut u8,
        len: usize,
        marks: *mut u8,
        marks_len: usize,
        out: *mut u64,
        out_len: usize,
    ) -> u32;
}

fn lent<T>(slice: &[T]) -> *const T {
    match slice {
        [] => ptr::null(),
        _ => slice.as_ptr(),
    }
}

/// The pointer that a call in C gets for a slice that it may change.
pub(crate) fn lent_mut<T>(slice: &mut [T]) -> *mut T {
    match slice {
        [] => ptr::null_mut(),
        _ => slice.as_mut_ptr(),
    }
}

pub fn read_number(bytes: &[u8], at: usize, out: &mut [u64]) -> u32 {
    // SAFETY: each pointer goes with the length of the slice that it came from.
    unsafe { vorruda_read_number(lent(bytes), bytes.len(), at, lent_mut(out), out.len()) }
}

pub fn write_numbers(numbers: &[u64], bytes: &mut [u8], out: &mut [u64]) -> u32 {
    // SAFETY: each pointer goes with the length of the slice that it came from.
    unsafe {
        vorruda_write_numbers(
            lent(numbers),
            numbers.len(),
            lent_mut(bytes),
            bytes.len(),
            lent_mut(out),
            out.len(),
        )
    }
}

pub fn step(heap: &mut [u8], kind: u32, a: u32, b: u32) -> u32 {
    // SAFETY: the pointer goes with the length of the slice that it came from.
    unsafe { vorruda_step(lent_mut(heap), heap.len(), kind, a, b) }
}

/// A step of a kind with its operands, on a heap with values.
pub fn step_values(
    heap: &mut [u8],
    values: &mut [u32],
    (kind, a, b): (u32, u32, u32),
    value: u16,
) -> u32 {
    // SAFETY: each pointer goes with the length of the slice that it came from.
    unsafe {
        vorruda_step_values(
            lent_mut(heap),
            heap.len(),
            lent_mut(values),
            values.len(),
            kind,
            a,
            b,
            value,
        )
    }
}

pub fn check(job: &[u8], certificate: &[u8]) -> u32 {
    // SAFETY: each pointer goes with the length of the slice that it came from.
    unsafe { vorruda_check(lent(job), job.len(), lent(certificate), certificate.len()) }
}

pub fn verdict(job: &[u8], certificate: &[u8], out: &mut [u64]) -> u32 {
    // SAFETY: each pointer goes with the length of the slice that it came from.
    unsafe {
        vorruda_verdict(
            lent(job),
            job.len(),
            lent(certificate),
            certificate.len(),
            lent_mut(out),
            out.len(),
        )
    }
}

/// Two pairs joined: the first, the second, the state of the first, and out.
pub type Join = fn(Files, Files, u32, &mut [u64]) -> u32;

/// Joins two pairs at a state of the first.
pub fn join(
    (job1, certificate1): Files,
    (job2, certificate2): Files,
    state: u32,
    out: &mut [u64],
) -> u32 {
    // SAFETY: each pointer goes with the length of the slice that it came from.
    unsafe {
        vorruda_join(
            lent(job1),
            job1.len(),
            lent(certificate1),
            certificate1.len(),
            lent(job2),
            job2.len(),
            lent(certificate2),
            certificate2.len(),
            state,
            lent_mut(out),
            out.len(),
        )
    }
}

/// A verdict that is taken in: job, certificate, tally and out.
pub type TallyVerdict = fn(&[u8], &[u8], &mut [u32], &mut [u64]) -> u32;

/// The two calls of the tally, of this library or another. A report has tally, text and out.
#[derive(Clone, Copy)]
pub struct TallyCalls {
    pub verdict: TallyVerdict,
    pub report: fn(&[u32], &mut [u8], &mut [u64]) -> u32,
}

pub const TALLY_CALLS: TallyCalls = TallyCalls {
    verdict: tally_verdict,
    report: tally_report,
};

/// Judges a pair and takes the verdict into a tally.
pub fn tally_verdict(job: &[u8], certificate: &[u8], tally: &mut [u32], out: &mut [u64]) -> u32 {
    // SAFETY: each pointer goes with the length of the slice that it came from.
    unsafe {
        vorruda_tally_verdict(
            lent(job),
            job.len(),
            lent(certificate),
            certificate.len(),
            lent_mut(tally),
            tally.len(),
            lent_mut(out),
            out.len(),
        )
    }
}

/// Reports a tally as text.
pub fn tally_report(tally: &[u32], text: &mut [u8], out: &mut [u64]) -> u32 {
    // SAFETY: each pointer goes with the length of the slice that it came from.
    unsafe {
        vorruda_tally_report(
            lent(tally),
            tally.len(),
            lent_mut(text),
            text.len(),
            lent_mut(out),
            out.len(),
        )
    }
}

/// The two calls that forbid shapes of a variable at a state.
type ForbidAt =
    unsafe extern "C" fn(*const u8, usize, u32, u32, *mut u8, usize, *mut u64, usize) -> u32;

fn forbid_at(
    call: ForbidAt,
    job: &[u8],
    (variable, state): (u32, u32),
    bytes: &mut [u8],
    out: &mut [u64],
) -> u32 {
    // SAFETY: each pointer goes with the length of the slice that it came from.
    unsafe {
        call(
            lent(job),
            job.len(),
            variable,
            state,
            lent_mut(bytes),
            bytes.len(),
            lent_mut(out),
            out.len(),
        )
    }
}

pub fn forbid_not_list(
    job: &[u8],
    variable: u32,
    state: u32,
    bytes: &mut [u8],
    out: &mut [u64],
) -> u32 {
    forbid_at(vorruda_forbid_not_list, job, (variable, state), bytes, out)
}

pub fn forbid_lost_block(
    job: &[u8],
    variable: u32,
    state: u32,
    bytes: &mut [u8],
    out: &mut [u64],
) -> u32 {
    forbid_at(
        vorruda_forbid_lost_block,
        job,
        (variable, state),
        bytes,
        out,
    )
}

pub fn forbid_bad_steps(job: &[u8], bytes: &mut [u8], out: &mut [u64]) -> u32 {
    // SAFETY: each pointer goes with the length of the slice that it came from.
    unsafe {
        vorruda_forbid_bad_steps(
            lent(job),
            job.len(),
            lent_mut(bytes),
            bytes.len(),
            lent_mut(out),
            out.len(),
        )
    }
}

pub fn translate(text: &[u8], bytes: &mut [u8], marks: &mut [u8], out: &mut [u64]) -> u32 {
    // SAFETY: each pointer goes with the length of the slice that it came from.
    unsafe {
        vorruda_translate(
            lent(text),
            text.len(),
            lent_mut(bytes),
            bytes.len(),
            lent_mut(marks),
            marks.len(),
            lent_mut(out),
            out.len(),
        )
    }
}
