//! The labels that quick answers are timed on: families of one sort, each drawn so often that no job of it is learnt by heart from call to call.
use crate::bounds::MOST_VALUE;
use crate::jobs::{said, Draw};
use std::cmp::Ordering;

/// What a quick answer is asked of.
#[derive(Debug)]
pub struct Labels {
    pub budget: u32,
    pub weights: Vec<u32>,
    pub values: Vec<u32>,
}

pub struct Family {
    pub name: String,
    pub jobs: Vec<Labels>,
}

/// The labels of all jobs of a family.
const LABELS: usize = 50_000;

/// The weight and the value of a label.
type Label = (u32, u32);

/// The order of quick answers, but for the labels' numbers: what is worth more for its weight comes first.
fn by_ratio(one: &Label, other: &Label) -> Ordering {
    let product = |w: u32, v: u32| u64::from(w) * u64::from(v);
    product(one.0, other.1).cmp(&product(other.0, one.1))
}

fn random(draw: &mut Draw, heaviest: u32) -> Label {
    (draw.number(1, heaviest), draw.number(1, MOST_VALUE))
}

/// In order, no two of the same ratio.
fn in_order(draw: &mut Draw, n: usize, heaviest: u32) -> Vec<Label> {
    let mut labels = Vec::new();
    while labels.len() < n {
        labels.resize_with(n, || random(draw, heaviest));
        labels.sort_unstable_by(by_ratio);
        labels.dedup_by(|one, other| by_ratio(one, other).is_eq());
    }
    labels
}

/// In order, but for about one of ten: these have changed places.
fn nearly_in_order(draw: &mut Draw, n: usize, heaviest: u32) -> Vec<Label> {
    let mut labels = in_order(draw, n, heaviest);
    for _ in 0..n / 20 {
        let [one, other] = [(); 2].map(|()| draw.number(0, n as u32 - 1) as usize);
        labels.swap(one, other);
    }
    labels
}

/// Runs in order, each of labels from all over the order.
fn in_runs(draw: &mut Draw, n: usize, heaviest: u32, runs: usize) -> Vec<Label> {
    let labels = in_order(draw, n, heaviest);
    (0..runs).flat_map(|run| labels.iter().copied().skip(run).step_by(runs)).collect()
}

/// Each worth 1 to `ratios` times its weight.
fn of_ratios(draw: &mut Draw, n: usize, heaviest: u32, ratios: u32) -> Vec<Label> {
    let mut label = || {
        let weight = draw.number(1, heaviest);
        (weight, weight * draw.number(1, ratios))
    };
    (0..n).map(|_| label()).collect()
}

/// n labels of weight 1 to `heaviest`, of which four times are still a value.
pub fn families(n: usize, budget: u32, heaviest: u32) -> [Family; 7] {
    let family = |name: &str, labels: &dyn Fn(&mut Draw) -> Vec<Label>| {
        let mut draw = Draw::new(0x09d1_c4a5_3ad0_11e5);
        let lists = (0..LABELS / n).map(|_| labels(&mut draw).into_iter().unzip());
        let jobs = lists.map(|(weights, values)| Labels { budget, weights, values }).collect();
        Family { name: format!("{} labels, C {}, weights to {}, {name}", said(n), said(budget as usize), said(heaviest as usize)), jobs }
    };
    [
        family("random", &|draw| (0..n).map(|_| random(draw, heaviest)).collect()),
        family("in order", &|draw| in_order(draw, n, heaviest)),
        family("reversed", &|draw| in_order(draw, n, heaviest).into_iter().rev().collect()),
        family("of one ratio", &|draw| of_ratios(draw, n, heaviest, 1)),
        family("of four ratios", &|draw| of_ratios(draw, n, heaviest, 4)),
        family("nearly in order", &|draw| nearly_in_order(draw, n, heaviest)),
        family("in eight runs", &|draw| in_runs(draw, n, heaviest, 8)),
    ]
}
