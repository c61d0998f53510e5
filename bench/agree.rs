//! Before anything is timed: the Rust gives the library's answers and verdicts, on small jobs and certificates of which many are refused.
use crate::bounds::{
    are_sizes, copies_used, full_table, most_of, row, values_used, Way, FIRST_CERTIFICATE_REFUSAL, LAST_CHECKED_KIND, LAST_KIND, LAST_REFUSAL,
    LEAST_COPIES, LEAST_Q, MOST_BUDGET, MOST_Q, MOST_VALUE, ONCE, STATED_SHARE,
};
use crate::checker::{check, Plain, Strong, Verdict};
use crate::families::Labels;
use crate::jobs::{budgets_of, bytes_of, said, Draw};
use crate::ours;
use crate::plain;
use crate::quick;
use crate::request::Job;
use crate::strong;
use crate::timing::Table;

const JOBS: usize = 200_000;
/// How large a small job is: the bits of a label are of up to four words.
const MOST_N: u32 = 6;
const MOST_C: u32 = 200;
/// The same of quick answers, half of which have labels enough for runs of many lengths.
const MOST_N_QUICK: u32 = 40;

/// A small job, with a fault in about every second one; in one of a hundred it has as many labels as are allowed, or one more.
fn small_job(draw: &mut Draw) -> Vec<u8> {
    let kind = draw.number(1, LAST_KIND);
    let budget = draw.number(0, MOST_C);
    let most = most_of(kind).0 as u32;
    let mut weights = match draw.number(0, 99) {
        0 => (1..=draw.number(most, most + 1)).collect(),
        _ => {
            let n = draw.number(0, MOST_N) as usize;
            let heaviest = [3, 30][draw.number(0, 1) as usize];
            draw.list(n, 1, heaviest)
        }
    };
    if are_sizes(kind) {
        weights.sort_unstable();
        weights.dedup();
    }
    let n = weights.len();
    let mut values = small_values(draw, kind, n);
    let most_copies = [4, MOST_C + 9][draw.number(0, 1) as usize];
    let copies = draw.list(copies_used(kind, n), LEAST_COPIES, most_copies);
    let q = small_q(draw);
    let mut budgets = budgets_of(kind, budget, q);
    match draw.number(0, 10) {
        0 => values.push(1),
        1 => weights.iter_mut().for_each(|w| *w -= 1),
        2 => values.iter_mut().for_each(|v| *v *= 10_000),
        3 => {
            let other = draw.number(0, LAST_KIND + 2);
            return bytes_of(other, &budgets_of(other, budget * 1_000, q), &weights, &values, &copies);
        }
        4 => return with_a_byte_changed(draw, bytes_of(kind, &budgets, &weights, &values, &copies)),
        5 => budgets.resize(draw.number(0, 3) as usize, LEAST_Q),
        _ => {}
    }
    bytes_of(kind, &budgets, &weights, &values, &copies)
}

fn with_a_byte_changed(draw: &mut Draw, mut bytes: Vec<u8>) -> Vec<u8> {
    let at = draw.number(0, bytes.len() as u32 - 1) as usize;
    bytes[at] = draw.number(0, 255) as u8;
    bytes
}

/// In kind 9 of three sizes, so that they are cut by 1, by 2 and by more.
fn small_values(draw: &mut Draw, kind: u32, n: usize) -> Vec<u32> {
    let greatest = if kind == STATED_SHARE { [9, 60, MOST_VALUE][draw.number(0, 2) as usize] } else { 9 };
    draw.list(values_used(kind, n), 1, greatest)
}

/// Mostly small, so that a table that isn't short is long enough; now and then past its bounds.
fn small_q(draw: &mut Draw) -> u32 {
    match draw.number(0, 4) {
        0 => draw.number(0, MOST_Q + 2),
        _ => draw.number(LEAST_Q, 5),
    }
}

/// The cells that a job needs in the light way, if it isn't refused for another reason.
fn cells_needed(bytes: &[u8], job: &mut Job) -> Option<usize> {
    let is_valid = job.read(bytes).is_some() && (1..=LAST_KIND).contains(&job.kind) && job.rule_broken() == 0;
    is_valid.then(|| job.room(Way::Light)[0])
}

/// Like tables, full of dirt and now and then too short, by much or by one cell.
fn dirty<const COUNT: usize>(draw: &mut Draw, needed: Option<usize>) -> [Table; COUNT] {
    let most = MOST_N as usize;
    let longest = full_table(most, MOST_C) + 9;
    let just = needed.map_or(longest, |cells| (cells + 1).saturating_sub(draw.number(1, 2) as usize).min(longest));
    let cells = [longest, longest, row(MOST_C) + 9, 20, just][draw.number(0, 4) as usize];
    let words = [row(MOST_C) + 9, 1][draw.number(0, 1) as usize];
    [(); COUNT].map(|()| Table { cells: vec![7; cells], words: vec![7; words], picks: vec![7; most + 1] })
}

/// The library's certificate of a job, with a fault in about three of four.
fn small_certificate(draw: &mut Draw, table: &Table, bytes: &[u8], n: usize) -> Vec<u8> {
    let mut certificate = ours::write(bytes, &table.picks, &table.cells).unwrap_or_default();
    if certificate.is_empty() {
        return certificate;
    }
    let length = certificate.len();
    let cells = 8 + 4 * n;
    match draw.number(0, 7) {
        0 => change(draw, &mut certificate),
        1 => change(draw, &mut certificate[4..cells - 4]),
        2 => certificate[4] = 1,
        3 => change(draw, &mut certificate[length - 4..length - 3]),
        4 => certificate.resize(draw.number(0, length as u32 + 4) as usize, 0),
        5 => raise(&mut certificate[cells..]),
        _ => {}
    }
    certificate
}

/// Another number in one of these bytes, if there are any.
fn change(draw: &mut Draw, bytes: &mut [u8]) {
    if !bytes.is_empty() {
        let at = draw.number(0, bytes.len() as u32 - 1) as usize;
        bytes[at] = draw.number(0, 10) as u8;
    }
}

/// Claims near the greatest number, where a sum leaves 32 bits.
fn raise(cells: &mut [u8]) {
    for cell in cells.chunks_exact_mut(4) {
        cell[0] |= 0xf0;
        cell[1..].fill(0xff);
    }
}

fn same(what: &str, bytes: &[u8], equal: bool) {
    if !equal {
        eprintln!("{what} differs on the job {bytes:?}");
        std::process::exit(1);
    }
}

/// The library's verdict, which is that of the Rust too.
fn same_verdict(bytes: &[u8], certificate: &[u8], job: &mut Job, strong: &mut Strong) -> Verdict {
    let ours = (ours::check(bytes, certificate), ours::check_detail(bytes, certificate));
    let by_rust = [check(bytes, certificate, job, &mut Plain), check(bytes, certificate, job, strong)];
    if by_rust != [ours; 2] {
        eprintln!("verdicts: ours {ours:?}, plain and strong Rust {by_rust:?}, on the job {bytes:?} with the certificate {certificate:?}");
        std::process::exit(1);
    }
    ours
}

/// Ends the program at the first difference; prints how often each refusal came up.
pub fn compare() {
    let mut draw = Draw::new(0xa95e_e0a9_5ee0_a95e);
    let mut scratch = plain::Scratch::default();
    let (mut job, mut strong) = (Job::default(), Strong::default());
    let mut seen = [0; LAST_REFUSAL + 1];
    let mut divisors = [0; 4];
    let mut judged = [[0; LAST_REFUSAL + 1]; LAST_CHECKED_KIND as usize + 1];
    for _ in 0..JOBS {
        let bytes = small_job(&mut draw);
        let needed = cells_needed(&bytes, &mut job);
        let [mut one, mut other, mut third, mut full, mut other_full] = dirty(&mut draw, needed);
        let answer = ours::solve(&bytes, one.lend(), Way::Light);
        same("plain Rust", &bytes, plain::solve(&bytes, other.lend(), &mut scratch, Way::Light) == answer && one == other);
        if strong::KINDS.contains(&scratch.job.kind) {
            same("strong Rust", &bytes, strong::solve(&bytes, third.lend(), &mut scratch) == answer && one == third);
        }
        let in_full = ours::solve(&bytes, full.lend(), Way::Full);
        same("plain Rust in full", &bytes, plain::solve(&bytes, other_full.lend(), &mut scratch, Way::Full) == in_full && full == other_full);
        same("the full way", &bytes, answer.refusal == 6 || in_full.refusal == 6 || (answer == in_full && one.picks == full.picks));
        let certificate = small_certificate(&mut draw, &full, &bytes, scratch.job.weights.len());
        let (verdict, _) = same_verdict(&bytes, &certificate, &mut job, &mut strong);
        seen[answer.refusal as usize] += 1;
        if job.kind == STATED_SHARE && answer.refusal == 0 {
            divisors[job.cuts().divisor.min(3) as usize] += 1;
        }
        if let Some(of_kind) = judged.get_mut(job.kind as usize) {
            of_kind[verdict as usize] += 1;
        }
    }
    println!("{} small jobs and their certificates: no difference. Refusals that came up: {}.", said(JOBS), times(&seen, 1));
    let [_, one, two, more] = divisors;
    assert!(one > 0 && two > 0 && more > 0, "a divisor of kind 9 never came up");
    println!("Kind 9 answered: by the divisor 1 {} times, by 2 {} times, by more {} times.", said(one), said(two), said(more));
    for (kind, of_kind) in judged.iter().enumerate().skip(1) {
        assert!(of_kind[0] > 0 && !of_kind[FIRST_CERTIFICATE_REFUSAL..].contains(&0), "a verdict on kind {kind} never came up");
        println!("Certificates of kind {kind}: accepted {} times; refused with {}.", said(of_kind[0]), times(of_kind, FIRST_CERTIFICATE_REFUSAL));
    }
}

/// Labels for a quick answer, many of them equal, with a fault in about every second job; in one of a hundred they are as many as are allowed, or one
/// more.
fn small_labels(draw: &mut Draw) -> Labels {
    let most = most_of(ONCE).0 as u32;
    let n = match draw.number(0, 99) {
        0 => draw.number(most, most + 1),
        1..50 => draw.number(0, MOST_N),
        _ => draw.number(0, MOST_N_QUICK),
    } as usize;
    let budget = [draw.number(0, MOST_C), draw.number(MOST_BUDGET - MOST_C, MOST_BUDGET)][draw.number(0, 1) as usize];
    let heaviest = [3, 30, MOST_C + 9, u32::MAX][draw.number(0, 3) as usize];
    let greatest = [0, 3, MOST_VALUE][draw.number(0, 2) as usize];
    let mut job = Labels { budget, weights: draw.list(n, 1, heaviest), values: draw.list(n, 0, greatest) };
    match draw.number(0, 9) {
        0 => job.values.push(1),
        1 => job.values.truncate(n / 2),
        2 => job.budget = draw.number(MOST_BUDGET, MOST_BUDGET + 1),
        3 => put(draw, &mut job.weights, 0),
        4 => {
            let value = draw.number(MOST_VALUE, MOST_VALUE + 1);
            put(draw, &mut job.values, value);
        }
        // no fault: the first label fits, but nothing beside it
        5 | 6 => job.budget = job.weights.first().map_or(0, |&w| w.min(MOST_BUDGET)),
        _ => {}
    }
    job
}

/// A number in one of the places, if there are any.
fn put(draw: &mut Draw, list: &mut [u32], x: u32) {
    if !list.is_empty() {
        let at = draw.number(0, list.len() as u32 - 1) as usize;
        list[at] = x;
    }
}

/// Two lists full of dirt, with places to spare, and now and then one that is too short.
fn dirty_lists(draw: &mut Draw, n: usize) -> [Vec<u32>; 2] {
    [(); 2].map(|()| vec![7; (n + draw.number(0, 9) as usize).saturating_sub(1)])
}

/// The same of quick answers.
pub fn compare_quick() {
    let mut draw = Draw::new(0x0a95_ee0a_95ee_0a95);
    let mut seen = [0; LAST_REFUSAL + 1];
    let mut single = 0;
    for _ in 0..JOBS {
        let job = small_labels(&mut draw);
        let [mut first, mut second] = dirty_lists(&mut draw, job.weights.len());
        let [mut first_plain, mut second_plain] = [first.clone(), second.clone()];
        let answer = ours::quick(&job, &mut first, &mut second);
        let by_rust = quick::answer(&job, &mut first_plain, &mut second_plain);
        if by_rust != answer || first_plain != first || second_plain != second {
            eprintln!("quick: ours {answer:?}, plain Rust {by_rust:?}, on the labels {job:?}");
            std::process::exit(1);
        }
        seen[answer.refusal as usize] += 1;
        single += usize::from(answer.refusal == 0 && answer.first == 2);
    }
    assert!(!seen[3..=6].contains(&0) && single > 0, "an end of a quick answer never came up");
    println!(
        "{} small quick answers: no difference. The single list {} times; refusals that came up: {}.",
        said(JOBS),
        said(single),
        times(&seen, 1)
    );
}

/// The refusals from the first one on that came up, with how often.
fn times(seen: &[usize], first: usize) -> String {
    let refusals: Vec<String> = (first..seen.len()).filter(|&r| seen[r] > 0).map(|r| format!("{r} ({} times)", said(seen[r]))).collect();
    refusals.join(", ")
}
