//! Kinds 1 (in the light way), 2, 3, 5, 8 and 9 in Rust that is written for vectors, as the proved code is, so that a ratio doesn't speak of a missed
//! vector loop; and kind 7 by a selection in place of a sort.
use crate::bounds::{Way, ANY, COPIES, FEWEST, LABELS_BEHIND, NOT_REACHED, NO_WAY, ONCE, SHARES, STATED_SHARE};
use crate::plain::{self, any_along, blocks_back, copies, labels_behind, once, shares, stated_share, unless_refused, Scratch};
use crate::request::{Answer, Job, Lent};
use std::cell::Cell;
use std::cmp::Reverse;
use std::iter::zip;

/// The kinds that have a second Rust.
pub const KINDS: [u32; 7] = [ONCE, COPIES, ANY, FEWEST, SHARES, LABELS_BEHIND, STATED_SHARE];

/// One of these kinds.
pub fn solve(bytes: &[u8], lent: Lent, scratch: &mut Scratch) -> Answer {
    unless_refused(bytes, lent, scratch, Way::Light, |scratch, lent| match scratch.job.kind {
        ONCE => once(&scratch.job, lent, keep),
        COPIES => copies(&scratch.job, lent, |row, w, v| add_one(row, w as u16, v)),
        ANY => any_number(&scratch.job, lent),
        FEWEST => fewest_blocks(&scratch.job, lent),
        LABELS_BEHIND => labels_behind(&scratch.job, lent, |row, w, labels| reach(row, w as u16, labels)),
        STATED_SHARE => stated_share(&scratch.job, lent, lighten),
        _ => shares(scratch, lent.picks, |order, remainders, spare| {
            if spare > 0 {
                order.select_nth_unstable_by_key(spare - 1, |&i| (Reverse(remainders[i as usize]), i));
            }
        }),
    })
}

/// Each cell from w on by what it holds and by the cell w before it, in stretches of w cells: none of a stretch depends on another.
fn in_stretches(row: &mut [u32], w: usize, rule: impl Fn(u32, u32) -> u32) {
    let mut start = w;
    while start < row.len() {
        let end = row.len().min(start + w);
        let (low, high) = row.split_at_mut(start);
        for (cell, &before) in zip(&mut high[..end - start], &low[start - w..]) {
            *cell = rule(*cell, before);
        }
        start = end;
    }
}

/// One more of a label, in place, from the greatest budget down. Over cells, and with a weight of 16 bits, the compiler sees that what is read
/// lies below what is written, and the loop runs in vectors.
fn add_one(row: &mut [u32], w: u16, v: u32) {
    let row = Cell::from_mut(row).as_slice_of_cells();
    let Some(high) = row.get(usize::from(w)..) else { return };
    for (cell, with) in zip(high, row).rev() {
        cell.set(cell.get().max(with.get() + v));
    }
}

/// Kind 3. Fewer than a bundle of a light label by parts, then any number of bundles.
fn any_number(job: &Job, lent: Lent) -> Answer {
    let row = &mut lent.cells[..job.width()];
    row.fill(0);
    for (&w, &v) in zip(&job.weights, &job.values) {
        let (mut w, mut v) = (w as usize, v);
        while w < 16 {
            add_one(row, w as u16, v);
            (w, v) = (2 * w, 2 * v);
        }
        in_stretches(row, w, |cell, before| cell.max(before + v));
    }
    any_along(job, row, lent.picks)
}

/// Kind 5, in stretches of one size; light sizes in one go.
fn fewest_blocks(job: &Job, lent: Lent) -> Answer {
    let row = &mut lent.cells[..job.width()];
    row.fill(NO_WAY);
    row[0] = 0;
    for &w in &job.weights {
        let w = w as usize;
        if w < 16 {
            (w..row.len()).for_each(|a| row[a] = row[a].min(row[a - w].saturating_add(1)));
        } else {
            in_stretches(row, w, |cell, before| if before < cell { before + 1 } else { cell });
        }
    }
    blocks_back(job, row, lent.picks)
}

/// What the last of so many labels is the first to reach, by the same means as `add_one`: every cell is stored, and none asks.
fn reach(row: &mut [u32], w: u16, labels: u32) {
    let row = Cell::from_mut(row).as_slice_of_cells();
    let Some(high) = row.get(usize::from(w)..) else { return };
    for (cell, with) in zip(high, row).rev() {
        let first = (cell.get() == NOT_REACHED) & (with.get() != NOT_REACHED);
        cell.set(if first { labels } else { cell.get() });
    }
}

/// As `plain::lighten`, with comparisons that have a sign: plain x86-64 has no others in vectors. Without its highest bit the mark is still greater
/// than any weight.
fn lighten(before: &[u32], after: &mut [u32], a: usize, w: u32, room: u32) {
    let signed = |cell: u32| (cell & 0x7fff_ffff) as i32;
    after[..a].copy_from_slice(&before[..a]);
    for ((cell, &without), &less) in zip(zip(&mut after[a..], &before[a..]), before) {
        let with = less.wrapping_add(w);
        let lighter = (signed(less) <= room as i32) & ((with as i32) < signed(without));
        *cell = if lighter { with } else { without };
    }
}

/// The cells that are passed at once in the light way of kind 1, and whose bits are a word.
const BLOCK: usize = 64;
/// Eight bytes of 0 or 1, times this, have them as the bits of the highest byte.
const EIGHT_BITS: u64 = 0x0102_0408_1020_4080;

/// The greater of each cell and its sum, and a bit for each that rose.
#[inline(always)]
fn raise(cells: &mut [u32; BLOCK], sums: &[u32; BLOCK]) -> u64 {
    let mut rises = [0_u8; BLOCK];
    for ((cell, &sum), rise) in zip(zip(cells, sums), &mut rises) {
        *rise = u8::from(sum > *cell);
        *cell = sum.max(*cell);
    }
    let eight = |bytes: &[u8]| u64::from_le_bytes(bytes.try_into().unwrap()).wrapping_mul(EIGHT_BITS) >> 56;
    zip(rises.chunks_exact(8), 0..).fold(0, |word, (bytes, k)| word | eight(bytes) << (8 * k))
}

/// A block from `at`, of which the cells from `from` to before `to` count, and others have a sum of 0. The sums are made first, since they may be
/// of cells of the same block.
#[inline(always)]
fn raise_part(row: &mut [u32], at: usize, from: usize, to: usize, w: usize, v: u32) -> u64 {
    let mut sums = [0; BLOCK];
    for (sum, &before) in zip(&mut sums[from - at..to - at], &row[from - w..to - w]) {
        *sum = before + v;
    }
    raise((&mut row[at..at + BLOCK]).try_into().unwrap(), &sums)
}

/// A block that counts in full, with a weight of a block or more: what is read lies apart from what is written.
#[inline(always)]
fn raise_apart(row: &mut [u32], at: usize, w: usize, v: u32) -> u64 {
    let (low, high) = row.split_at_mut(at);
    let before: &[u32; BLOCK] = low[at - w..at - w + BLOCK].try_into().unwrap();
    raise((&mut high[..BLOCK]).try_into().unwrap(), &before.map(|cell| cell + v))
}

/// The words of some blocks, from the last on, each of two blocks, since every block starts at bit `shift` of a word; gives the first block's bits.
/// The words are gone through, not indexed: with a check between cells and word the compiler keeps all sums until after it.
#[inline(always)]
fn join(words: &mut [u64], shift: usize, mut block: impl FnMut(usize) -> u64) -> u64 {
    let mut above = 0;
    for (k, word) in words.iter_mut().enumerate().rev() {
        let rises = block(k);
        *word = if shift == 0 { rises } else { above << shift | rises >> (BLOCK - shift) };
        above = rises;
    }
    above
}

/// As `plain::keep`, in blocks from the row's end, so that one end is short; that is a block, too, of which a part counts.
fn keep(row: &mut [u32], words: &mut [u64], w: usize, v: u32) {
    let (width, shift) = (row.len(), row.len() % BLOCK);
    if width < BLOCK {
        return plain::keep(row, words, w, v);
    }
    let count = (width - w) / BLOCK;
    let end = width - BLOCK * count;
    let (rest, joined) = words.split_at_mut(end.div_ceil(BLOCK));
    let above = if w >= BLOCK {
        join(joined, shift, |k| raise_apart(row, end + BLOCK * k, w, v))
    } else {
        join(joined, shift, |k| raise_part(row, end + BLOCK * k, end + BLOCK * k, end + BLOCK * (k + 1), w, v))
    };
    let rises = match end {
        _ if end == w => 0,
        BLOCK.. => raise_part(row, end - BLOCK, w, end, w, v),
        _ => raise_part(row, 0, w, end, w, v) << (BLOCK - end),
    };
    rest.fill(0);
    join_end(rest, shift, above, rises);
}

/// The words below the blocks: the rest of the first block, and the short end, which lies below it.
fn join_end(words: &mut [u64], shift: usize, above: u64, rises: u64) {
    let last = words.len() - 1;
    if shift == 0 {
        words[last] = rises;
        return;
    }
    words[last] = above << shift | rises >> (BLOCK - shift);
    if last > 0 {
        words[last - 1] = rises << shift;
    }
}
