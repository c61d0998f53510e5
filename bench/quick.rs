//! A quick answer in plain Rust, with the contract of include/quabnester.h: the greedy list and the single one, and which of them is worth more.
use crate::bounds::{most_of, MOST_VALUE, ONCE};
use crate::families::Labels;
use crate::request::{answered, refused, Answer};
use std::iter::zip;

/// The answer's numbers are which list it is, and its worth. The second list holds the labels in order on the way, so nothing is allocated.
pub fn answer(job: &Labels, first: &mut [u32], second: &mut [u32]) -> Answer {
    if let Some(refusal) = turned_down(job, first, second) {
        return refused(refusal);
    }
    let n = job.weights.len();
    let (first, second) = (&mut first[..n], &mut second[..n]);
    put_in_order(job, second);
    let many = keep_in_order(job, second, first);
    let one = keep_one(job, second);
    if many < one {
        answered(0, 2, one)
    } else {
        answered(0, 1, many)
    }
}

/// The lowest refusal that applies.
fn turned_down(job: &Labels, first: &[u32], second: &[u32]) -> Option<u32> {
    let n = job.weights.len();
    if job.values.len() != n {
        return Some(3);
    }
    let (most_labels, most_budget) = most_of(ONCE);
    if n > most_labels || job.budget > most_budget {
        return Some(4);
    }
    if job.weights.contains(&0) || job.values.iter().any(|&v| v > MOST_VALUE) {
        return Some(5);
    }
    (first.len().min(second.len()) < n).then_some(6)
}

/// The labels by what they are worth for their weight, and by number where that is equal. Products, since no division is exact.
fn put_in_order(job: &Labels, order: &mut [u32]) {
    let (weights, values) = (&job.weights[..], &job.values[..]);
    let product = |of: u32, with: u32| u64::from(values[of as usize]) * u64::from(weights[with as usize]);
    for (place, label) in zip(order.iter_mut(), 0..) {
        *place = label;
    }
    order.sort_unstable_by(|&a, &b| product(b, a).cmp(&product(a, b)).then(a.cmp(&b)));
}

/// Keeps each label, as they stand in order, that is worth something and fits into what is left; gives what they are worth.
fn keep_in_order(job: &Labels, order: &[u32], picks: &mut [u32]) -> u64 {
    let mut left = job.budget;
    let mut worth = 0;
    picks.fill(0);
    for &label in order {
        let label = label as usize;
        let (w, v) = (job.weights[label], job.values[label]);
        if v > 0 && w <= left {
            picks[label] = 1;
            left -= w;
            worth += u64::from(v);
        }
    }
    worth
}

/// Keeps the label of the highest value of those that fit, the first of several; none where it is 0. Gives the value.
fn keep_one(job: &Labels, picks: &mut [u32]) -> u64 {
    let (mut highest, mut best) = (0, 0);
    for (label, (&w, &v)) in zip(&job.weights, &job.values).enumerate() {
        if w <= job.budget && v > highest {
            (highest, best) = (v, label);
        }
    }
    picks.fill(0);
    if highest > 0 {
        picks[best] = 1;
    }
    u64::from(highest)
}
