//! The calls that carry files between the versions.

use super::{lent, lent_mut};
use crate::reference::version::Direction;
use crate::verdict::Files;

/// The two calls for a job, and the two for a certificate.
type JobCall = unsafe extern "C" fn(*const u8, usize, *mut u8, usize, *mut u64, usize) -> u32;
type CertificateCall = unsafe extern "C" fn(
    *const u8,
    usize,
    *const u8,
    usize,
    *mut u8,
    usize,
    *mut u64,
    usize,
) -> u32;

#[link(name = "vorruda", kind = "static")]
extern "C" {
    fn vorruda_job_up(
        job: *const u8,
        job_len: usize,
        bytes: *mut u8,
        len: usize,
        out: *mut u64,
        out_len: usize,
    ) -> u32;
    fn vorruda_job_down(
        job: *const u8,
        job_len: usize,
        bytes: *mut u8,
        len: usize,
        out: *mut u64,
        out_len: usize,
    ) -> u32;
    fn vorruda_certificate_up(
        job: *const u8,
        job_len: usize,
        cert: *const u8,
        cert_len: usize,
        bytes: *mut u8,
        len: usize,
        out: *mut u64,
        out_len: usize,
    ) -> u32;
    fn vorruda_certificate_down(
        job: *const u8,
        job_len: usize,
        cert: *const u8,
        cert_len: usize,
        bytes: *mut u8,
        len: usize,
        out: *mut u64,
        out_len: usize,
    ) -> u32;
}

/// The calls of this library or another, each for both directions: the file, or the certificate with its
/// job, then the room for what is written, and out.
#[derive(Clone, Copy)]
pub struct CarryCalls {
    pub job: fn(Direction, &[u8], &mut [u8], &mut [u64]) -> u32,
    pub certificate: fn(Direction, Files, &mut [u8], &mut [u64]) -> u32,
}

pub const CARRY_CALLS: CarryCalls = CarryCalls { job, certificate };

/// Carries a job to the other version.
pub fn job(direction: Direction, job: &[u8], bytes: &mut [u8], out: &mut [u64]) -> u32 {
    let call: JobCall = match direction {
        Direction::Up => vorruda_job_up,
        Direction::Down => vorruda_job_down,
    };
    // SAFETY: each pointer goes with the length of the slice that it came from.
    unsafe {
        call(
            lent(job),
            job.len(),
            lent_mut(bytes),
            bytes.len(),
            lent_mut(out),
            out.len(),
        )
    }
}

/// Carries a certificate, whose job is of the same version, to the other one.
pub fn certificate(
    direction: Direction,
    (job, certificate): Files,
    bytes: &mut [u8],
    out: &mut [u64],
) -> u32 {
    let call: CertificateCall = match direction {
        Direction::Up => vorruda_certificate_up,
        Direction::Down => vorruda_certificate_down,
    };
    // SAFETY: each pointer goes with the length of the slice that it came from.
    unsafe {
        call(
            lent(job),
            job.len(),
            lent(certificate),
            certificate.len(),
            lent_mut(bytes),
            bytes.len(),
            lent_mut(out),
            out.len(),
        )
    }
}
