//! What the documents say in numbers, each once: the kinds, their bounds and the room that each needs. Rust's own, as tests/bounds.h is C's.
use std::iter::zip;

pub const ONCE: u32 = 1;
pub const COPIES: u32 = 2;
pub const ANY: u32 = 3;
pub const SUMS: u32 = 4;
pub const FEWEST: u32 = 5;
pub const WAYS: u32 = 6;
pub const SHARES: u32 = 7;
pub const LABELS_BEHIND: u32 = 8;
pub const STATED_SHARE: u32 = 9;
/// The kinds to solve are 1 to this one.
pub const LAST_KIND: u32 = STATED_SHARE;
/// Those with certificates are 1 to this one.
pub const LAST_CHECKED_KIND: u32 = ANY;

/// n in kinds 1 to 4, 8 and 9, in 5 and 6, and in 7.
pub const MOST_LABELS: usize = 4_096;
pub const MOST_SIZES: usize = 64;
pub const MOST_CLAIMS: usize = 1_024;
/// C in all kinds but 7, where it is any number.
pub const MOST_BUDGET: u32 = 65_535;
/// In kind 9.
pub const LEAST_Q: u32 = 2;
pub const MOST_Q: u32 = 100;
pub const LEAST_VALUE: u32 = 0;
/// In kind 3.
pub const LEAST_VALUE_ANY: u32 = 1;
pub const MOST_VALUE: u32 = 65_535;
pub const LEAST_COPIES: u32 = 0;
pub const MOST_COPIES: u32 = 65_535;
/// The most of a label that a certificate may pick in kinds 1 and 3; in kind 2 it is the label's copies number.
pub const MOST_PICKED_ONCE: u32 = 1;
pub const MOST_PICKED_ANY: u32 = 65_535;

/// A cell of kinds 5 and 9 for which there is no way, one of kind 8 that isn't reached, and a word of kind 6 for so many ways or more.
pub const NO_WAY: u32 = u32::MAX;
pub const NOT_REACHED: u32 = u32::MAX;
pub const FULL: u64 = u64::MAX;

/// The certificate's own refusals are from this one to the last.
pub const FIRST_CERTIFICATE_REFUSAL: usize = 11;
pub const LAST_REFUSAL: usize = 15;

/// Whether a kind's weights are labels, and no sizes or claims.
pub fn are_labels(kind: u32) -> bool {
    matches!(kind, ONCE | COPIES | ANY | SUMS | LABELS_BEHIND | STATED_SHARE)
}

pub fn are_sizes(kind: u32) -> bool {
    matches!(kind, FEWEST | WAYS)
}

/// How many budgets a job has: C alone, or C and q. Any other number counts as a kind with one.
pub fn budgets_used(kind: u32) -> usize {
    if kind == STATED_SHARE {
        2
    } else {
        1
    }
}

/// How many values and copies numbers a job with n labels has.
pub fn values_used(kind: u32, n: usize) -> usize {
    if matches!(kind, ONCE | COPIES | ANY | STATED_SHARE) {
        n
    } else {
        0
    }
}

pub fn copies_used(kind: u32, n: usize) -> usize {
    if kind == COPIES {
        n
    } else {
        0
    }
}

/// The most labels, sizes or claims, and the greatest budget, of a kind that there is.
pub fn most_of(kind: u32) -> (usize, u32) {
    match kind {
        FEWEST | WAYS => (MOST_SIZES, MOST_BUDGET),
        SHARES => (MOST_CLAIMS, u32::MAX),
        _ => (MOST_LABELS, MOST_BUDGET),
    }
}

pub fn least_value(kind: u32) -> u32 {
    if kind == ANY {
        LEAST_VALUE_ANY
    } else {
        LEAST_VALUE
    }
}

/// The cells of a row: one for each budget from 0 to C.
pub fn row(budget: u32) -> usize {
    budget as usize + 1
}

/// The cells of a row for each number of labels from 0 to n.
pub fn full_table(n: usize, budget: u32) -> usize {
    (n + 1) * row(budget)
}

/// The two ways of kind 1: a row and a bit for each label and budget, or the whole table. Other kinds have one, whichever is named.
#[derive(Clone, Copy, PartialEq)]
pub enum Way {
    Light,
    Full,
}

/// How many cells, words and picks are needed in a way, for a kind that there is; but kind 9's cells go by more, and `Cuts` has them.
pub fn room(kind: u32, n: usize, budget: u32, way: Way) -> [usize; 3] {
    match kind {
        ONCE if way == Way::Light => [row(budget), n * words_of_bits(budget), n],
        ONCE | COPIES => [full_table(n, budget), 0, n],
        ANY | FEWEST | LABELS_BEHIND => [row(budget), 0, n],
        SUMS => [0, words_of_bits(budget), 0],
        WAYS => [0, row(budget), 0],
        _ => [0, 0, n],
    }
}

/// What kind 9 makes of the labels that remain, which are those within the budget: how many they are, what their values are divided by, and the sum
/// of what that leaves of them.
pub struct Cuts {
    remaining: usize,
    pub divisor: u32,
    sum: usize,
}

impl Cuts {
    pub fn new(budget: u32, q: u32, weights: &[u32], values: &[u32]) -> Cuts {
        let remaining = || zip(weights, values).filter(|(&w, _)| w <= budget).map(|(_, &v)| v);
        let count = remaining().count();
        let greatest = remaining().max().unwrap_or(0);
        let divisor = greatest.checked_div(count as u32 * q).unwrap_or(0).max(1);
        Cuts { remaining: count, divisor, sum: remaining().map(|v| (v / divisor) as usize).sum() }
    }

    /// The cells of a row: one for each total of cut values.
    pub fn width(&self) -> usize {
        self.sum + 1
    }

    /// The cells of a row for each number of remaining labels.
    pub fn cells(&self) -> usize {
        (self.remaining + 1) * self.width()
    }
}

/// The words that hold a bit for each number from 0 to C.
pub fn words_of_bits(budget: u32) -> usize {
    budget as usize / 64 + 1
}

/// The bytes of a certificate with so many picks and cells.
pub fn certificate_bytes(picks: usize, cells: usize) -> usize {
    8 + 4 * picks + 4 * cells
}
