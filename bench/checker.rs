//! The checker in Rust, from job bytes and certificate bytes to a verdict, with two ways to look for a cell that breaks rule 14.
use crate::bounds::{self, ANY, LAST_CHECKED_KIND};
use crate::request::{number, section, Job};
use std::iter::zip;
use std::mem::swap;

/// 0 or the refusal number; and the value, or the place that the refusal names.
pub type Verdict = (u32, u64);

/// One row of claims and the row before it, each four bytes a cell, with the label that stands between them.
#[derive(Clone, Copy)]
pub struct Rows<'a> {
    before: &'a [u8],
    row: &'a [u8],
    /// The label's weight in bytes of cells, or the row's length where that is less or none of the label may be picked.
    fits: usize,
    value: u32,
    /// How often the label may be picked, whether that fits or not.
    most: usize,
}

/// How a side looks for the first cell that breaks rule 14.
pub trait Way {
    /// In a row, by the row before it: kinds 1 and 2.
    fn low_by_row_before(&mut self, rows: &Rows) -> Option<usize>;

    /// In the one row of kind 3, by all labels.
    fn low_by_itself(&mut self, job: &Job, row: &[u8]) -> Option<usize>;
}

/// Judges a certificate.
pub fn check(bytes: &[u8], certificate: &[u8], job: &mut Job, way: &mut impl Way) -> Verdict {
    if job.read(bytes).is_none() {
        return (1, 0);
    }
    if !(1..=LAST_CHECKED_KIND).contains(&job.kind) {
        return (2, 0);
    }
    match job.rule_broken() {
        0 => judge(job, certificate, way).unwrap_or((11, 0)),
        refusal => (refusal, 0),
    }
}

/// 12 to 15 or the value; none for 11.
fn judge(job: &Job, mut certificate: &[u8], way: &mut impl Way) -> Option<Verdict> {
    let [cells_needed, _, picks_needed] = job.room(bounds::Way::Full);
    let picks = section(&mut certificate)?;
    let cells = section(&mut certificate)?;
    if !certificate.is_empty() || picks.len() != 4 * picks_needed || cells.len() != 4 * cells_needed {
        return None;
    }
    let picked = |each: &[u32]| -> u64 { zip(each, numbers(picks)).map(|(&x, pick)| u64::from(x) * u64::from(pick)).sum() };
    if let Some(label) = zip(0.., numbers(picks)).position(|(label, pick)| pick > job.most_picked(label)) {
        return Some((12, label as u64));
    }
    if picked(&job.weights) > job.budget.into() {
        return Some((13, 0));
    }
    if let Some(cell) = low_cell(job, cells, way) {
        return Some((14, cell as u64));
    }
    let value = u64::from(number(&cells[cells.len() - 4..]));
    Some(if value == picked(&job.values) { (0, value) } else { (15, 0) })
}

fn low_cell(job: &Job, cells: &[u8], way: &mut impl Way) -> Option<usize> {
    if job.kind == ANY {
        return way.low_by_itself(job, cells);
    }
    let length = 4 * job.width();
    for (i, (&w, &value)) in zip(&job.weights, &job.values).enumerate() {
        let (before, row) = cells[i * length..(i + 2) * length].split_at(length);
        let most = job.most_picked(i) as usize;
        let fits = if most == 0 { length } else { length.min(4 * w as usize) };
        if let Some(c) = way.low_by_row_before(&Rows { before, row, fits, value, most }) {
            return Some((i + 1) * job.width() + c);
        }
    }
    None
}

fn numbers(bytes: &[u8]) -> impl ExactSizeIterator<Item = u32> + '_ {
    bytes.chunks_exact(4).map(number)
}

/// Plain: cell by cell, left at the first that breaks the rule.
pub struct Plain;

impl Way for Plain {
    fn low_by_row_before(&mut self, rows: &Rows) -> Option<usize> {
        if rows.most > 1 {
            low_by_counts(rows)
        } else {
            low_by_one(rows)
        }
    }

    fn low_by_itself(&mut self, job: &Job, row: &[u8]) -> Option<usize> {
        let (cells, _) = row.as_chunks::<4>();
        (0..cells.len()).find(|&c| {
            let mut fitting = zip(&job.weights, &job.values).filter(|(&w, _)| w as usize <= c);
            fitting.any(|(&w, &value)| falls_short(cells[c], cells[c - w as usize], value.into()))
        })
    }
}

/// Whether a claim is below another cell plus a worth.
fn falls_short(claim: [u8; 4], with: [u8; 4], worth: u64) -> bool {
    u64::from(u32::from_le_bytes(claim)) < u64::from(u32::from_le_bytes(with)) + worth
}

/// With none or one of the label. Inlined it takes a sixth more.
#[inline(never)]
fn low_by_one(rows: &Rows) -> Option<usize> {
    let Rows { before, row, fits, value, .. } = *rows;
    let light = zip(numbers(&row[..fits]), numbers(before)).position(|(claim, without)| claim < without);
    light.or_else(|| {
        zip(zip(numbers(&row[fits..]), numbers(&before[fits..])), numbers(before))
            .position(|((claim, without), with)| claim < without || u64::from(claim) < u64::from(with) + u64::from(value))
            .map(|c| fits / 4 + c)
    })
}

/// With every count that may be picked and fits.
fn low_by_counts(rows: &Rows) -> Option<usize> {
    let ((before, _), (row, _)) = (rows.before.as_chunks::<4>(), rows.row.as_chunks::<4>());
    let (w, value, most) = (rows.fits / 4, u64::from(rows.value), rows.most);
    (0..row.len()).find(|&c| (0..=most.min(c / w)).any(|count| falls_short(row[c], before[c - count * w], count as u64 * value)))
}

/// Strong: rows are passed with no way out, which runs in vectors, and searched only where the rule is broken. The two rows of its own are kept from
/// call to call.
#[derive(Default)]
pub struct Strong {
    window: Vec<u8>,
    next: Vec<u8>,
}

impl Way for Strong {
    /// In parts of 1, 2, 4 and so on, as the planner adds copies: all parts but the last are joined into a window, the row of least claims for the
    /// counts so far, and the last is asked of the claims themselves.
    fn low_by_row_before(&mut self, rows: &Rows) -> Option<usize> {
        let Strong { window, next } = self;
        let length = rows.row.len();
        let most = rows.most.min((length - 4) / rows.fits);
        let (mut held, mut part, mut end) = (0, 1, length);
        while held + part < most {
            end = join(&rows.part(held, part, window, end), next);
            swap(window, next);
            held += part;
            part = (held + 1).min(most - held);
        }
        let last = rows.part(held, part, window, end);
        let low = if breaks(&last) { low_by_one(&last) } else { None };
        low.or((end < length).then_some(end / 4))
    }

    /// Label by label, each over the cells before the first that is known to be low.
    fn low_by_itself(&mut self, job: &Job, row: &[u8]) -> Option<usize> {
        let mut end = row.len();
        for (&w, &value) in zip(&job.weights, &job.values) {
            let fits = end.min(4 * w as usize);
            let pairs = || zip(numbers(&row[fits..end]), numbers(row));
            if pairs().fold(false, |low, (claim, with)| low | is_below(claim, with, value)) {
                end = fits + 4 * pairs().position(|(claim, with)| is_below(claim, with, value)).unwrap();
            }
        }
        (end < row.len()).then_some(end / 4)
    }
}

impl<'a> Rows<'a> {
    /// So many of the label as one, in the first bytes of the row, over the row before or, once some counts are held, over the window.
    fn part(&self, held: usize, part: usize, window: &'a [u8], end: usize) -> Rows<'a> {
        let before = if held == 0 { self.before } else { window };
        Rows { before: &before[..end], row: &self.row[..end], fits: end.min(part * self.fits), value: part as u32 * self.value, most: 1 }
    }
}

/// Whether a claim is below another cell plus a value. No sum is made.
fn is_below(claim: u32, with: u32, value: u32) -> bool {
    (claim < value) | (claim.wrapping_sub(value) < with)
}

/// Whether a row breaks the rule with none or one of the label.
fn breaks(rows: &Rows) -> bool {
    let Rows { before, row, fits, value, .. } = *rows;
    let light = zip(numbers(&row[..fits]), numbers(before)).fold(false, |low, (claim, without)| low | (claim < without));
    let heavy = zip(zip(numbers(&row[fits..]), numbers(&before[fits..])), numbers(before))
        .fold(false, |low, ((claim, without), with)| low | (claim < without) | is_below(claim, with, value));
    light | heavy
}

/// The least row that keeps the rule with none or one of the label. Gives where it ends: before the first cell with a sum that leaves 32 bits, which
/// no claim reaches.
fn join(rows: &Rows, next: &mut Vec<u8>) -> usize {
    let Rows { before, fits, value, .. } = *rows;
    let too_great = |with| with > u32::MAX - value;
    next.resize(before.len(), 0);
    next[..fits].copy_from_slice(&before[..fits]);
    let mut leaves = false;
    for (cell, (without, with)) in zip(next[fits..].chunks_exact_mut(4), zip(numbers(&before[fits..]), numbers(before))) {
        cell.copy_from_slice(&without.max(with.wrapping_add(value)).to_le_bytes());
        leaves |= too_great(with);
    }
    if leaves {
        fits + 4 * numbers(before).position(too_great).unwrap()
    } else {
        before.len()
    }
}
