//! The proved library, by the entries of include/quabnester.h.
use crate::bounds::{certificate_bytes, Way};
use crate::families::Labels;
use crate::request::{answered, Answer, Lent};

extern "C" {
    fn quabnester_solve(
        job: *const u8,
        job_len: usize,
        cells: *mut u32,
        cells_len: usize,
        words: *mut u64,
        words_len: usize,
        picks: *mut u32,
        picks_len: usize,
        first: *mut u64,
        second: *mut u64,
    ) -> u32;
    fn quabnester_solve_full(
        job: *const u8,
        job_len: usize,
        cells: *mut u32,
        cells_len: usize,
        words: *mut u64,
        words_len: usize,
        picks: *mut u32,
        picks_len: usize,
        first: *mut u64,
        second: *mut u64,
    ) -> u32;
    fn quabnester_write(
        job: *const u8,
        job_len: usize,
        picks: *const u32,
        picks_len: usize,
        cells: *const u32,
        cells_len: usize,
        out: *mut u8,
        out_len: usize,
        written: *mut u64,
    ) -> u32;
    fn quabnester_quick(
        budget: u32,
        weights: *const u32,
        weights_len: usize,
        values: *const u32,
        values_len: usize,
        first: *mut u32,
        first_len: usize,
        second: *mut u32,
        second_len: usize,
        which: *mut u32,
        value: *mut u64,
    ) -> u32;
    fn quabnester_check(job: *const u8, job_len: usize, certificate: *const u8, certificate_len: usize) -> u32;
    fn quabnester_check_detail(job: *const u8, job_len: usize, certificate: *const u8, certificate_len: usize) -> u64;
}

type Solve = unsafe extern "C" fn(*const u8, usize, *mut u32, usize, *mut u64, usize, *mut u32, usize, *mut u64, *mut u64) -> u32;

pub fn solve(job: &[u8], lent: Lent, way: Way) -> Answer {
    let Lent { cells, words, picks } = lent;
    let (mut first, mut second) = (0, 0);
    let entry: Solve = match way {
        Way::Light => quabnester_solve,
        Way::Full => quabnester_solve_full,
    };
    let refusal = unsafe {
        entry(
            job.as_ptr(),
            job.len(),
            cells.as_mut_ptr(),
            cells.len(),
            words.as_mut_ptr(),
            words.len(),
            picks.as_mut_ptr(),
            picks.len(),
            &mut first,
            &mut second,
        )
    };
    answered(refusal, first, second)
}

/// A quick answer: which list it is, and its worth.
pub fn quick(job: &Labels, first: &mut [u32], second: &mut [u32]) -> Answer {
    let Labels { budget, weights, values } = job;
    let (mut which, mut value) = (0, 0);
    let refusal = unsafe {
        quabnester_quick(
            *budget,
            weights.as_ptr(),
            weights.len(),
            values.as_ptr(),
            values.len(),
            first.as_mut_ptr(),
            first.len(),
            second.as_mut_ptr(),
            second.len(),
            &mut which,
            &mut value,
        )
    };
    answered(refusal, which.into(), value)
}

/// The certificate of what an answer left; none where it is refused.
pub fn write(job: &[u8], picks: &[u32], cells: &[u32]) -> Option<Vec<u8>> {
    let mut out = vec![0; certificate_bytes(picks.len(), cells.len())];
    let mut written = 0;
    let refusal = unsafe {
        quabnester_write(job.as_ptr(), job.len(), picks.as_ptr(), picks.len(), cells.as_ptr(), cells.len(), out.as_mut_ptr(), out.len(), &mut written)
    };
    out.truncate(written as usize);
    (refusal == 0).then_some(out)
}

pub fn check(job: &[u8], certificate: &[u8]) -> u32 {
    unsafe { quabnester_check(job.as_ptr(), job.len(), certificate.as_ptr(), certificate.len()) }
}

/// The value, or the place.
pub fn check_detail(job: &[u8], certificate: &[u8]) -> u64 {
    unsafe { quabnester_check_detail(job.as_ptr(), job.len(), certificate.as_ptr(), certificate.len()) }
}
