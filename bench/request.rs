//! A job as a good engineer reads it: bytes decoded once a call, and the refusals that come before anything is written.
use crate::bounds;

/// The slices that a call is lent.
pub struct Lent<'a> {
    pub cells: &'a mut [u32],
    pub words: &'a mut [u64],
    pub picks: &'a mut [u32],
}

/// What a call returns: 0 or the refusal number, and the two numbers of the answer.
#[derive(Clone, Copy, Debug, PartialEq)]
pub struct Answer {
    pub refusal: u32,
    pub first: u64,
    pub second: u64,
}

pub fn refused(refusal: u32) -> Answer {
    answered(refusal, 0, 0)
}

pub fn answered(refusal: u32, first: u64, second: u64) -> Answer {
    Answer { refusal, first, second }
}

/// A job's numbers, in vectors that are kept from call to call.
#[derive(Default)]
pub struct Job {
    pub kind: u32,
    pub budget: u32,
    /// In kind 9; others have none, and it is 0.
    pub q: u32,
    pub weights: Vec<u32>,
    pub values: Vec<u32>,
    pub copies: Vec<u32>,
}

/// The next section of the bytes, without its count.
pub fn section<'a>(bytes: &mut &'a [u8]) -> Option<&'a [u8]> {
    let (count, rest) = bytes.split_first_chunk::<4>()?;
    let length = 4 * u64::from(u32::from_le_bytes(*count));
    let (part, rest) = rest.split_at_checked(usize::try_from(length).ok()?)?;
    *bytes = rest;
    Some(part)
}

/// A section of one number.
fn single(bytes: &mut &[u8]) -> Option<u32> {
    Some(u32::from_le_bytes(section(bytes)?.try_into().ok()?))
}

/// Four bytes as a number.
pub fn number(bytes: &[u8]) -> u32 {
    u32::from_le_bytes(bytes.try_into().unwrap())
}

fn decode(bytes: &mut &[u8], list: &mut Vec<u32>) -> Option<()> {
    list.clear();
    list.extend(section(bytes)?.chunks_exact(4).map(number));
    Some(())
}

impl Job {
    /// Reads job bytes; none where they can't be read.
    pub fn read(&mut self, mut bytes: &[u8]) -> Option<()> {
        self.kind = single(&mut bytes)?;
        let budgets = section(&mut bytes)?;
        if budgets.len() != 4 * bounds::budgets_used(self.kind) {
            return None;
        }
        let (budget, q) = budgets.split_at(4);
        self.budget = number(budget);
        self.q = if q.is_empty() { 0 } else { number(q) };
        decode(&mut bytes, &mut self.weights)?;
        decode(&mut bytes, &mut self.values)?;
        decode(&mut bytes, &mut self.copies)?;
        bytes.is_empty().then_some(())
    }

    /// The cells of a row.
    pub fn width(&self) -> usize {
        bounds::row(self.budget)
    }

    /// The lowest of 3 to 5 that applies, or 0, for a kind that there is.
    pub fn rule_broken(&self) -> u32 {
        let n = self.weights.len();
        if self.values.len() != bounds::values_used(self.kind, n) || self.copies.len() != bounds::copies_used(self.kind, n) {
            return 3;
        }
        let (most_labels, most_budget) = bounds::most_of(self.kind);
        if n > most_labels || self.budget > most_budget {
            return 4;
        }
        let weights_right = match self.kind {
            kind if bounds::are_labels(kind) => !self.weights.contains(&0),
            kind if bounds::are_sizes(kind) => self.weights.first() != Some(&0) && self.weights.is_sorted_by(|a, b| a < b),
            _ => true,
        };
        let least_value = bounds::least_value(self.kind);
        let values_right = self.values.iter().all(|v| (least_value..=bounds::MOST_VALUE).contains(v));
        let copies_right = self.copies.iter().all(|k| (bounds::LEAST_COPIES..=bounds::MOST_COPIES).contains(k));
        let q_right = self.kind != bounds::STATED_SHARE || (bounds::LEAST_Q..=bounds::MOST_Q).contains(&self.q);
        if weights_right && values_right && copies_right && q_right {
            0
        } else {
            5
        }
    }

    /// The most of a label that a certificate may pick.
    pub fn most_picked(&self, label: usize) -> u32 {
        match self.kind {
            bounds::ONCE => bounds::MOST_PICKED_ONCE,
            bounds::COPIES => self.copies[label],
            _ => bounds::MOST_PICKED_ANY,
        }
    }

    /// Kind 9: the divisor, and how large the table is.
    pub fn cuts(&self) -> bounds::Cuts {
        bounds::Cuts::new(self.budget, self.q, &self.weights, &self.values)
    }

    /// How many cells, words and picks are needed in a way, for a job that breaks no rule.
    pub fn room(&self, way: bounds::Way) -> [usize; 3] {
        match self.kind {
            bounds::STATED_SHARE => [self.cuts().cells(), 0, self.weights.len()],
            _ => bounds::room(self.kind, self.weights.len(), self.budget, way),
        }
    }

    /// Whether a slice that is needed is too short.
    pub fn lacks_room(&self, lent: &Lent, way: bounds::Way) -> bool {
        let [cells, words, picks] = self.room(way);
        lent.cells.len() < cells || lent.words.len() < words || lent.picks.len() < picks
    }
}
