//! The jobs that are timed, drawn from a fixed seed, so that a run can be repeated.
use crate::bounds::{budgets_used, copies_used, values_used, Way, COPIES, LEAST_VALUE_ANY, MOST_VALUE, SHARES, STATED_SHARE};
use crate::request;

/// Numbers from a small xorshift.
pub struct Draw(u64);

impl Draw {
    pub fn new(seed: u64) -> Draw {
        Draw(seed)
    }

    /// A number from `least` to `most`.
    pub fn number(&mut self, least: u32, most: u32) -> u32 {
        self.0 ^= self.0 << 13;
        self.0 ^= self.0 >> 7;
        self.0 ^= self.0 << 17;
        least + ((self.0 >> 16) % (u64::from(most - least) + 1)) as u32
    }

    pub fn list(&mut self, n: usize, least: u32, most: u32) -> Vec<u32> {
        (0..n).map(|_| self.number(least, most)).collect()
    }

    /// Different sizes up to `most`, ascending.
    fn sizes(&mut self, n: usize, most: u32) -> Vec<u32> {
        let mut sizes = Vec::new();
        while sizes.len() < n {
            sizes.push(self.number(1, most));
            sizes.sort_unstable();
            sizes.dedup();
        }
        sizes
    }
}

/// Job bytes, with how many cells, words and picks such a job needs, in the light way and in the full one.
pub struct Job {
    pub name: String,
    pub bytes: Vec<u8>,
    rooms: [[usize; 3]; 2],
}

/// A number with commas.
pub fn said(x: usize) -> String {
    if x < 1_000 {
        x.to_string()
    } else {
        format!("{},{:03}", said(x / 1_000), x % 1_000)
    }
}

/// The budgets of a kind: C, and where it has a second one, q.
pub fn budgets_of(kind: u32, budget: u32, q: u32) -> Vec<u32> {
    [budget, q][..budgets_used(kind)].to_vec()
}

/// The lists as the five sections of a job.
pub fn bytes_of(kind: u32, budgets: &[u32], weights: &[u32], values: &[u32], copies: &[u32]) -> Vec<u8> {
    let mut bytes = Vec::new();
    for list in [&[kind], budgets, weights, values, copies] {
        for x in [&[list.len() as u32], list].concat() {
            bytes.extend(x.to_le_bytes());
        }
    }
    bytes
}

impl Job {
    fn new(name: &str, kind: u32, budgets: &[u32], weights: &[u32], values: &[u32], copies: &[u32]) -> Job {
        let bytes = bytes_of(kind, budgets, weights, values, copies);
        let mut job = request::Job::default();
        job.read(&bytes).expect("job bytes");
        Job { name: format!("kind {kind}, {} {name}", said(weights.len())), bytes, rooms: [Way::Light, Way::Full].map(|way| job.room(way)) }
    }

    pub fn room(&self, way: Way) -> [usize; 3] {
        self.rooms[way as usize]
    }
}

/// Kinds 1 to 4 and 8: labels of weight 1 to `heaviest`.
pub fn labels(kind: u32, n: usize, budget: u32, heaviest: u32) -> Job {
    let copied = if kind == COPIES { ", copies to 20" } else { "" };
    drawn(kind, n, &[budget], heaviest, copied)
}

/// Kind 9: the labels of kind 1, for a share of the best.
pub fn stated(n: usize, budget: u32, heaviest: u32, q: u32) -> Job {
    drawn(STATED_SHARE, n, &[budget, q], heaviest, &format!(", q {q}"))
}

/// Labels with as many numbers each as the kind has; two kinds that have the same numbers get the same ones.
fn drawn(kind: u32, n: usize, budgets: &[u32], heaviest: u32, more: &str) -> Job {
    let mut draw = Draw::new(0x5eed_1a8e_15ca_1e5d);
    let weights = draw.list(n, 1, heaviest);
    let values = draw.list(values_used(kind, n), LEAST_VALUE_ANY, MOST_VALUE);
    let copies = draw.list(copies_used(kind, n), 1, 20);
    let name = format!("labels, C {}, weights to {}{more}", said(budgets[0] as usize), said(heaviest as usize));
    Job::new(&name, kind, budgets, &weights, &values, &copies)
}

/// Kind 2: one label, of the greatest value.
pub fn one_label(budget: u32, weight: u32, copies: u32) -> Job {
    let [c, w, most] = [budget, weight, copies].map(|x| said(x as usize));
    Job::new(&format!("label, C {c}, weight {w}, {most} copies"), COPIES, &[budget], &[weight], &[MOST_VALUE], &[copies])
}

/// Kinds 5 and 6: three sets of sizes.
pub fn sizes(kind: u32, n: usize, budget: u32, greatest: u32) -> [Job; 3] {
    let steps = |step: u32| -> Vec<u32> { (1..=n as u32).map(|k| step * k).collect() };
    let drawn = Draw::new(0x0b10_c5ed_5a3e_d17e).sizes(n, greatest);
    let c = said(budget as usize);
    let job = |name: String, sizes: &[u32]| Job::new(&format!("sizes, C {c}, {name}"), kind, &[budget], sizes, &[], &[]);
    [
        job(format!("1 to {n}"), &steps(1)),
        job(format!("random to {}", said(greatest as usize)), &drawn),
        job(format!("16, 32 .. {}", said(16 * n)), &steps(16)),
    ]
}

/// Kind 7: three sets of claims.
pub fn claims(n: usize) -> [Job; 3] {
    const BUDGET: u32 = 2_718_281_828;
    let mut draw = Draw::new(0xc1a1_3ed0_5a7e_b0a7);
    let job = |name: &str, claims: &[u32]| Job::new(&format!("claims, {name}"), SHARES, &[BUDGET], claims, &[], &[]);
    [job("random of 32 bits", &draw.list(n, 0, u32::MAX)), job("1 to 10", &draw.list(n, 1, 10)), job("all equal", &vec![10; n])]
}
