//! The planner in plain Rust, from job bytes to answer, with the contract of include/quabnester.h.
use crate::bounds::{
    words_of_bits, Way, ANY, COPIES, FEWEST, FULL, LABELS_BEHIND, LAST_KIND, NOT_REACHED, NO_WAY, ONCE, SHARES, STATED_SHARE, SUMS, WAYS,
};
use crate::request::{answered, refused, Answer, Job, Lent};
use std::cmp::Reverse;
use std::iter::zip;

/// What is kept from call to call, so that a call allocates nothing.
#[derive(Default)]
pub struct Scratch {
    pub job: Job,
    remainders: Vec<u64>,
    order: Vec<u32>,
}

pub fn solve(bytes: &[u8], lent: Lent, scratch: &mut Scratch, way: Way) -> Answer {
    unless_refused(bytes, lent, scratch, way, |scratch, lent| match scratch.job.kind {
        ONCE if way == Way::Light => once(&scratch.job, lent, keep),
        ONCE => once_in_full(&scratch.job, lent),
        COPIES => copies(&scratch.job, lent, add_one),
        ANY => any_number(&scratch.job, lent),
        SUMS => totals(&scratch.job, lent.words),
        FEWEST => fewest_blocks(&scratch.job, lent),
        WAYS => ways(&scratch.job, lent.words),
        LABELS_BEHIND => labels_behind(&scratch.job, lent, reach),
        STATED_SHARE => stated_share(&scratch.job, lent, lighten),
        _ => shares(scratch, lent.picks, |order, remainders, _| {
            order.sort_unstable_by_key(|&i| (Reverse(remainders[i as usize]), i));
        }),
    })
}

/// Reads the job, and has it solved where nothing refuses it before.
pub fn unless_refused(bytes: &[u8], lent: Lent, scratch: &mut Scratch, way: Way, solve: impl FnOnce(&mut Scratch, Lent) -> Answer) -> Answer {
    match turned_down(bytes, &lent, &mut scratch.job, way) {
        Some(refusal) => refused(refusal),
        None => solve(scratch, lent),
    }
}

/// Reads the job; the lowest refusal that applies before anything is written.
fn turned_down(bytes: &[u8], lent: &Lent, job: &mut Job, way: Way) -> Option<u32> {
    if job.read(bytes).is_none() {
        return Some(1);
    }
    if !(1..=LAST_KIND).contains(&job.kind) {
        return Some(2);
    }
    match job.rule_broken() {
        0 if job.lacks_room(lent, way) => Some(6),
        0 if job.kind == SHARES && job.weights.iter().all(|&claim| claim == 0) => Some(9),
        0 => None,
        refusal => Some(refusal),
    }
}

/// One of a label over the row before. The row is split at the weight, so that no cell asks whether the label fits.
fn next_row(before: &[u32], after: &mut [u32], w: u32, v: u32) {
    let fits = (w as usize).min(before.len());
    after[..fits].copy_from_slice(&before[..fits]);
    for ((cell, &without), &with) in zip(zip(&mut after[fits..], &before[fits..]), before) {
        *cell = without.max(with + v);
    }
}

/// Kind 1 in the light way: one row, which the pass that is given takes a label further, and the label's bits, in words of its own.
pub fn once(job: &Job, lent: Lent, keep: impl Fn(&mut [u32], &mut [u64], usize, u32)) -> Answer {
    let row = &mut lent.cells[..job.width()];
    let each = words_of_bits(job.budget);
    row.fill(0);
    for (words, (&w, &v)) in zip(lent.words.chunks_exact_mut(each), zip(&job.weights, &job.values)) {
        if w <= job.budget {
            keep(row, words, w as usize, v);
        } else {
            words.fill(0);
        }
    }
    let value = row[row.len() - 1];
    let weight = once_by_bits(job, lent.words, each, lent.picks);
    answered(0, value.into(), weight)
}

/// The row with the label, from the greatest budget down, so that it is kept once; and a bit where that makes it worth more.
pub fn keep(row: &mut [u32], words: &mut [u64], w: usize, v: u32) {
    words.fill(0);
    for c in (w..row.len()).rev() {
        let with = row[c - w] + v;
        if with > row[c] {
            row[c] = with;
            words[c / 64] |= 1 << (c % 64);
        }
    }
}

/// The picks of the light way, and what they weigh: a label is kept, from the last on, where its bit is set.
fn once_by_bits(job: &Job, words: &[u64], each: usize, picks: &mut [u32]) -> u64 {
    let mut c = job.budget as usize;
    for (i, &w) in job.weights.iter().enumerate().rev() {
        let kept = words[i * each + c / 64] >> (c % 64) & 1;
        picks[i] = kept as u32;
        if kept == 1 {
            c -= w as usize;
        }
    }
    (job.budget as usize - c) as u64
}

/// Kind 1 in the full way.
fn once_in_full(job: &Job, lent: Lent) -> Answer {
    let width = job.width();
    lent.cells[..width].fill(0);
    for (i, (&w, &v)) in zip(&job.weights, &job.values).enumerate() {
        let (before, after) = lent.cells[i * width..(i + 2) * width].split_at_mut(width);
        next_row(before, after, w, v);
    }
    once_back(job, lent)
}

/// Its picks: a label is kept, from the last on, where its row is worth more than the row before.
fn once_back(job: &Job, lent: Lent) -> Answer {
    let width = job.width();
    let mut c = width - 1;
    for (i, &w) in job.weights.iter().enumerate().rev() {
        let at = i * width + c;
        let kept = lent.cells[at] != lent.cells[at + width];
        lent.picks[i] = u32::from(kept);
        if kept {
            c -= w as usize;
        }
    }
    answered(0, lent.cells[job.weights.len() * width + width - 1].into(), (width - 1 - c) as u64)
}

/// One more of a label, in place, from the greatest budget down. Inlined into the loop over parts it takes a quarter more.
#[inline(never)]
fn add_one(row: &mut [u32], w: usize, v: u32) {
    for c in (w..row.len()).rev() {
        row[c] = row[c].max(row[c - w] + v);
    }
}

/// Kind 2: the first copy from row to row, the others in parts of 2, 4, 8 and so on, in place, by the pass that is given.
pub fn copies(job: &Job, lent: Lent, add: impl Fn(&mut [u32], usize, u32)) -> Answer {
    let width = job.width();
    lent.cells[..width].fill(0);
    for (i, &limit) in job.copies.iter().enumerate() {
        let (w, v) = (job.weights[i], job.values[i]);
        let (before, after) = lent.cells[i * width..(i + 2) * width].split_at_mut(width);
        let most = limit.min(job.budget / w);
        if most == 0 {
            after.copy_from_slice(before);
            continue;
        }
        next_row(before, after, w, v);
        let mut held = 1;
        while held < most {
            let part = (held + 1).min(most - held);
            add(after, (w * part) as usize, v * part);
            held += part;
        }
    }
    copies_back(job, lent)
}

/// The picks of kind 2: of each label, from the last on, the least count that the row before explains.
fn copies_back(job: &Job, lent: Lent) -> Answer {
    let width = job.width();
    let n = job.weights.len();
    let mut c = width - 1;
    for i in (0..n).rev() {
        let before = &lent.cells[i * width..];
        let mut goal = lent.cells[(i + 1) * width + c];
        let mut count = 0;
        while before[c] != goal {
            c -= job.weights[i] as usize;
            goal -= job.values[i];
            count += 1;
        }
        lent.picks[i] = count;
    }
    answered(0, lent.cells[n * width + width - 1].into(), (width - 1 - c) as u64)
}

/// Kind 3: one row, from small budgets up.
fn any_number(job: &Job, lent: Lent) -> Answer {
    let row = &mut lent.cells[..job.width()];
    row.fill(0);
    for (&w, &v) in zip(&job.weights, &job.values) {
        add_any_number(row, w as usize, v);
    }
    any_along(job, row, lent.picks)
}

/// Any number of a label, in place.
#[inline(always)]
fn add_any_number(row: &mut [u32], w: usize, v: u32) {
    for c in w..row.len() {
        row[c] = row[c].max(row[c - w] + v);
    }
}

/// The picks of kind 3: of each label, from the first on, as many as lead on.
pub fn any_along(job: &Job, row: &[u32], picks: &mut [u32]) -> Answer {
    let mut c = row.len() - 1;
    for (pick, (&w, &v)) in zip(picks, zip(&job.weights, &job.values)) {
        let w = w as usize;
        *pick = 0;
        while c >= w && row[c - w] + v == row[c] {
            c -= w;
            *pick += 1;
        }
    }
    answered(0, row[row.len() - 1].into(), (row.len() - 1 - c) as u64)
}

/// Kind 4: the totals as bits, a label by shifts of whole words and of bits.
fn totals(job: &Job, words: &mut [u64]) -> Answer {
    let last = job.budget as usize;
    let words = &mut words[..words_of_bits(job.budget)];
    words.fill(0);
    words[0] = 1;
    for &w in &job.weights {
        add_label(words, w as usize);
    }
    words[last / 64] &= u64::MAX >> (63 - last % 64);
    let yes = words[last / 64] >> (last % 64) & 1;
    answered(0, yes, words.iter().map(|word| u64::from(word.count_ones())).sum())
}

fn add_label(words: &mut [u64], w: usize) {
    let (whole, bits) = (w / 64, w % 64);
    if whole >= words.len() {
        return;
    }
    if bits == 0 {
        for m in (whole..words.len()).rev() {
            words[m] |= words[m - whole];
        }
        return;
    }
    for m in (whole + 1..words.len()).rev() {
        words[m] |= words[m - whole] << bits | words[m - whole - 1] >> (64 - bits);
    }
    words[whole] |= words[0] << bits;
}

/// Kind 5: one row in place.
fn fewest_blocks(job: &Job, lent: Lent) -> Answer {
    let row = &mut lent.cells[..job.width()];
    row.fill(NO_WAY);
    row[0] = 0;
    for &w in &job.weights {
        let w = w as usize;
        for a in w..row.len() {
            row[a] = row[a].min(row[a - w].saturating_add(1));
        }
    }
    blocks_back(job, row, lent.picks)
}

/// The picks of kind 5: of each size, from the last on, as many as leave fewer blocks.
pub fn blocks_back(job: &Job, row: &[u32], picks: &mut [u32]) -> Answer {
    let mut a = row.len() - 1;
    let blocks = row[a];
    if blocks == NO_WAY {
        return refused(7);
    }
    for (pick, &w) in zip(&mut picks[..job.weights.len()], &job.weights).rev() {
        let w = w as usize;
        *pick = 0;
        while a >= w && row[a - w] < row[a] {
            a -= w;
            *pick += 1;
        }
    }
    answered(0, blocks.into(), 0)
}

/// Kind 6: one row in place.
fn ways(job: &Job, words: &mut [u64]) -> Answer {
    let row = &mut words[..job.width()];
    row.fill(0);
    row[0] = 1;
    for &w in &job.weights {
        let w = w as usize;
        for a in w..row.len() {
            row[a] = row[a].saturating_add(row[a - w]);
        }
    }
    match row[row.len() - 1] {
        FULL => refused(8),
        ways => answered(0, ways, 0),
    }
}

/// Kind 7: the starts, then a unit each to the largest remainders, which `arrange` brings to the front.
pub fn shares(scratch: &mut Scratch, picks: &mut [u32], arrange: impl Fn(&mut [u32], &[u64], usize)) -> Answer {
    let Scratch { job, remainders, order } = scratch;
    let sum: u64 = job.weights.iter().map(|&claim| u64::from(claim)).sum();
    let mut spare = job.budget;
    remainders.clear();
    for (pick, &claim) in zip(&mut *picks, &job.weights) {
        let product = u64::from(job.budget) * u64::from(claim);
        *pick = (product / sum) as u32;
        spare -= *pick;
        remainders.push(product % sum);
    }
    order.clear();
    order.extend(0..job.weights.len() as u32);
    arrange(order, remainders, spare as usize);
    for &i in &order[..spare as usize] {
        picks[i as usize] += 1;
    }
    answered(0, spare.into(), 0)
}

/// Kind 8: one row, in which the pass that is given marks what each label is the first to reach.
pub fn labels_behind(job: &Job, lent: Lent, reach: impl Fn(&mut [u32], usize, u32)) -> Answer {
    let row = &mut lent.cells[..job.width()];
    row.fill(NOT_REACHED);
    row[0] = 0;
    for (&w, labels) in zip(&job.weights, 1..) {
        if w <= job.budget {
            reach(row, w as usize, labels);
        }
    }
    behind_back(job, row, lent.picks)
}

/// What the last of so many labels is the first to reach, from the greatest total down, so that it is used once.
fn reach(row: &mut [u32], w: usize, labels: u32) {
    for t in (w..row.len()).rev() {
        if row[t] == NOT_REACHED && row[t - w] != NOT_REACHED {
            row[t] = labels;
        }
    }
}

/// The picks of kind 8: the label that was the first to reach what is left, until nothing is.
fn behind_back(job: &Job, row: &[u32], picks: &mut [u32]) -> Answer {
    let mut t = row.len() - 1;
    if row[t] == NOT_REACHED {
        return refused(7);
    }
    picks[..job.weights.len()].fill(0);
    while t > 0 {
        let label = row[t] as usize - 1;
        picks[label] = 1;
        t -= job.weights[label] as usize;
    }
    answered(0, job.budget.into(), 0)
}

/// Kind 9: a row for each label that remains, with the least weight for each total of cut values, by the pass that is given.
pub fn stated_share(job: &Job, lent: Lent, lighten: impl Fn(&[u32], &mut [u32], usize, u32, u32)) -> Answer {
    let cuts = job.cuts();
    let width = cuts.width();
    lent.cells[..width].fill(NO_WAY);
    lent.cells[0] = 0;
    let mut from = 0;
    for (&w, &v) in zip(&job.weights, &job.values) {
        if w <= job.budget {
            let (before, after) = lent.cells[from..from + 2 * width].split_at_mut(width);
            lighten(before, after, (v / cuts.divisor) as usize, w, job.budget - w);
            from += width;
        }
    }
    stated_back(job, &lent.cells[..from + width], width, cuts.divisor, lent.picks)
}

/// A label of cut value a and weight w over the row before, where `room` is left of the budget beside it: what weighs more is kept without it, and
/// so is the mark, which is greater than any weight.
fn lighten(before: &[u32], after: &mut [u32], a: usize, w: u32, room: u32) {
    after[..a].copy_from_slice(&before[..a]);
    for ((cell, &without), &less) in zip(zip(&mut after[a..], &before[a..]), before) {
        *cell = if less <= room { without.min(less + w) } else { without };
    }
}

/// The picks of kind 9, from the last label on: it is kept where its row differs from the row before. Their worth is in values that aren't cut.
fn stated_back(job: &Job, cells: &[u32], width: usize, divisor: u32, picks: &mut [u32]) -> Answer {
    let mut row = cells.len() - width;
    let mut t = cells[row..].iter().rposition(|&weight| weight != NO_WAY).unwrap();
    let weight = cells[row + t];
    let mut value = 0;
    for (i, (&w, &v)) in zip(&job.weights, &job.values).enumerate().rev() {
        picks[i] = 0;
        if w > job.budget {
            continue;
        }
        let before = row - width;
        if cells[before + t] != cells[row + t] {
            picks[i] = 1;
            value += u64::from(v);
            t -= (v / divisor) as usize;
        }
        row = before;
    }
    answered(0, value, weight.into())
}
