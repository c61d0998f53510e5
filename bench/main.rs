//! Times the proved library beside Rust, and prints Markdown tables. bench/README.md says what is measured and how to read it.
mod agree;
mod bounds;
mod certificates;
mod checker;
mod families;
mod jobs;
mod ours;
mod plain;
mod quick;
mod request;
mod strong;
mod timing;

use bounds::{
    Way, ANY, COPIES, FEWEST, LABELS_BEHIND, LAST_CHECKED_KIND, LAST_KIND, MOST_BUDGET, MOST_COPIES, MOST_LABELS, MOST_SIZES, ONCE, STATED_SHARE,
    SUMS, WAYS,
};
use certificates::Case;
use checker::{Plain, Strong};
use families::{families, Family, Labels};
use jobs::{said, Job};
use request::{answered, Answer};
use timing::{race, race_apart, Alone, Side, Table, Times, LEAST_ROUNDS};

/// No kind is to take more than this of plain Rust's time.
const GOAL: f64 = 1.05;
/// And no quick answer more than this, with 1,000 labels and with 50.
const GOAL_OF_MANY: f64 = 1.3;
const GOAL_OF_FEW: f64 = 1.1;

fn main() {
    let part = std::env::args().nth(1);
    if !part.as_deref().is_none_or(is_part) {
        eprintln!("usage: bench/run [1..{LAST_KIND} | check | quick | growth]");
        std::process::exit(2);
    }
    agree::compare();
    agree::compare_quick();
    let asked = |name: &str| part.as_deref().is_none_or(|part| part == name);
    if !matches!(part.as_deref(), Some("quick" | "growth")) {
        ratios(part.as_deref());
    }
    if asked("quick") {
        quick_ratios();
    }
    if asked("growth") {
        growth();
    }
}

/// A kind, the checker, the quick answers or the growth.
fn is_part(part: &str) -> bool {
    matches!(part, "check" | "quick" | "growth") || part.parse().is_ok_and(|kind| (1..=LAST_KIND).contains(&kind))
}

/// The library against Rust: all kinds and the checker, or one of them.
fn ratios(part: Option<&str>) {
    println!("\n| Job | Ours | Plain Rust | Ratio | Strong Rust | Ratio |\n|---|---|---|---|---|---|");
    let asked = |name: &str| part.is_none_or(|part| part == name);
    let mut ratios = Vec::new();
    for kind in 1..=LAST_KIND {
        if asked(&kind.to_string()) {
            let sides = if strong::KINDS.contains(&kind) { 3 } else { 2 };
            ratios.extend(jobs_of(kind).iter().map(|job| line(&job.name, &solved(job, Way::Light, sides))));
        }
    }
    if asked("1") {
        ratios.extend(labels_jobs(ONCE).iter().map(|job| line(&format!("{}, full table", job.name), &solved(job, Way::Full, 2))));
    }
    if asked("check") {
        ratios.extend(cases().map(|case| line(&format!("checker, {}", case.name), &checked(&case, 3))));
    }
    let above = ratios.iter().filter(|&&ratio| ratio > GOAL).count();
    println!("\n{above} of {} ratios to plain Rust are above {GOAL}.", ratios.len());
    if asked("1") {
        ways();
    }
}

/// Kind 1: the light way beside the full one, and the Rust for the light way, on tables that are warm and on such as nobody has touched.
fn ways() {
    println!(
        "\n| Kind 1 | Light | Full | Light to full | Plain Rust, light | Ratio | Strong Rust, light | Ratio |\n|---|---|---|---|---|---|---|---|"
    );
    for job in labels_jobs(ONCE) {
        for (fresh, said) in [(false, "a cleared table"), (true, "a table not touched before")] {
            let (mut plain_scratch, mut strong_scratch) = (plain::Scratch::default(), plain::Scratch::default());
            let [light, full] = [Way::Light, Way::Full].map(|way| job.room(way));
            let sides: Vec<Alone> = vec![
                (light, Box::new(|lent| ours::solve(&job.bytes, lent, Way::Light))),
                (full, Box::new(|lent| ours::solve(&job.bytes, lent, Way::Full))),
                (light, Box::new(|lent| plain::solve(&job.bytes, lent, &mut plain_scratch, Way::Light))),
                (light, Box::new(|lent| strong::solve(&job.bytes, lent, &mut strong_scratch))),
            ];
            let best = race_apart(&job.name, sides, fresh);
            let others: Vec<String> = best[1..].iter().map(|&other| format!("{} | {:.2}", time(other), best[0] / other)).collect();
            println!("| {}, {said} | {} | {} |", job.name.trim_start_matches("kind 1, "), time(best[0]), others.join(" | "));
        }
    }
}

/// Quick answers: the library against Rust.
fn quick_ratios() {
    println!("\n| Quick answer | Ours | Plain Rust | Ratio |\n|---|---|---|---|");
    let sizes = [(1_000, 60_000, 3_000, GOAL_OF_MANY), (50, 500, 100, GOAL_OF_FEW)];
    let lines = sizes.into_iter().flat_map(|(n, c, heaviest, goal)| families(n, c, heaviest).map(|family| is_line_above(&family, goal)));
    let above: Vec<bool> = lines.collect();
    let count = above.iter().filter(|&&above| above).count();
    println!("\n{count} of {} ratios are above their goal, {GOAL_OF_MANY} with 1,000 labels and {GOAL_OF_FEW} with 50.", above.len());
}

/// Prints a line of that table, and says whether the ratio is above its goal.
fn is_line_above(family: &Family, goal: f64) -> bool {
    let best = answered_quickly(family, 2).best;
    let ratio = best[0] / best[1];
    println!("| {} | {} | {} | {} |", family.name, time(best[0]), time(best[1]), marked(ratio, goal));
    ratio > goal
}

/// The jobs of a family answered quickly by the first `count` of the library and plain Rust. The times are of one job, as an average of all.
fn answered_quickly(family: &Family, count: usize) -> Times {
    let n = family.jobs[0].weights.len();
    let mut sides = vec![by_turns(&family.jobs, ours::quick), by_turns(&family.jobs, quick::answer)];
    sides.truncate(count);
    let mut times = race(&family.name, [Table::new([n, 0, n]), Table::new([n, 0, n])], sides);
    assert!(times.answer.refusal == 0, "{}: refused", family.name);
    times.best.iter_mut().for_each(|best| *best /= family.jobs.len() as f64);
    times
}

/// A side that answers job after job, with the cells and the picks as its lists. Each call ends with another job, so that the lists of all are compared.
fn by_turns<'a>(jobs: &'a [Labels], answer: impl Fn(&Labels, &mut [u32], &mut [u32]) -> Answer + 'a) -> Side<'a> {
    let mut end = 0;
    Box::new(move |table| {
        end = end % jobs.len() + 1;
        let (last, first) = jobs.split_at(end);
        let answers = first.iter().chain(last).map(|job| answer(job, &mut table.cells, &mut table.picks));
        answers.fold(answered(0, 0, 0), |all, one| answered(all.refusal.max(one.refusal), all.first + one.first, all.second + one.second))
    })
}

/// The two sizes of kinds 1 to 4 and 8.
fn labels_jobs(kind: u32) -> Vec<Job> {
    vec![jobs::labels(kind, 1_000, 60_000, 3_000), jobs::labels(kind, 50, 500, 100)]
}

/// The kinds that are timed with the most labels: kind 1 in the light way, and those with one row or none.
const WITH_MOST: [u32; 4] = [ONCE, ANY, SUMS, LABELS_BEHIND];

/// So many labels of them.
fn many_labels(kind: u32, n: usize) -> Job {
    jobs::labels(kind, n, 60_000, 3_000)
}

fn jobs_of(kind: u32) -> Vec<Job> {
    let more = match kind {
        ANY => vec![jobs::labels(ANY, 1_000, 60_000, 16), jobs::labels(ANY, 50, 500, 16)],
        // with so few labels the count of the totals is a large part of the call
        SUMS => vec![jobs::labels(SUMS, 2, 60_000, 3_000)],
        // light labels leave most of the row as it was filled, and with so few that filling is a large part of the call
        LABELS_BEHIND => vec![jobs::labels(LABELS_BEHIND, 1_000, 60_000, 16), jobs::labels(LABELS_BEHIND, 2, 60_000, 3_000)],
        _ => vec![],
    };
    let most = WITH_MOST.contains(&kind).then(|| many_labels(kind, MOST_LABELS));
    sizes_of(kind).into_iter().chain(most).chain(more).collect()
}

/// The sizes that fit a kind.
fn sizes_of(kind: u32) -> Vec<Job> {
    match kind {
        ONCE | COPIES | ANY | SUMS | LABELS_BEHIND => labels_jobs(kind),
        STATED_SHARE => vec![jobs::stated(200, 60_000, 3_000, 10), jobs::stated(50, 500, 100, 4)],
        FEWEST | WAYS => jobs::sizes(kind, MOST_SIZES, 60_000, 3_000).into_iter().chain(jobs::sizes(kind, MOST_SIZES, 500, 400)).collect(),
        _ => jobs::claims(1_000).into_iter().chain(jobs::claims(50)).collect(),
    }
}

/// A job solved in a way by the first `count` of the library, plain Rust and strong Rust, which knows the light way alone.
fn solved(job: &Job, way: Way, count: usize) -> Times {
    let (mut plain_scratch, mut strong_scratch) = (plain::Scratch::default(), plain::Scratch::default());
    let mut sides: Vec<Side> = vec![
        Box::new(|table| ours::solve(&job.bytes, table.lend(), way)),
        Box::new(|table| plain::solve(&job.bytes, table.lend(), &mut plain_scratch, way)),
        Box::new(|table| strong::solve(&job.bytes, table.lend(), &mut strong_scratch)),
    ];
    sides.truncate(count);
    race(&job.name, [Table::new(job.room(way)), Table::new(job.room(way))], sides)
}

/// The certificates that are judged, each made when it is asked for, since some are large.
fn cases() -> impl Iterator<Item = Case> {
    let sizes = (1..=LAST_CHECKED_KIND).flat_map(labels_jobs).map(|job| Case::of_answer(&job));
    let of_kind_3 = labels_jobs(ANY).into_iter().take(1).map(|job| Case::of_answer(&job).with_last_cell_low());
    let all_copies = || Case::of_answer(&jobs::one_label(MOST_BUDGET, 1, MOST_COPIES));
    let one_label = [jobs::one_label(MOST_BUDGET, 1_024, 63), jobs::one_label(60_000, 7, 1_000)];
    let of_one_label = one_label.into_iter().flat_map(|job| [Case::of_answer(&job), Case::with_drawn_claims(&job)]);
    sizes.chain(of_kind_3).chain(of_one_label).chain([all_copies(), all_copies().with_last_cell_low()])
}

/// A certificate judged by the first `count` of them.
fn checked(case: &Case, count: usize) -> Times {
    let Case { name, bytes, certificate } = case;
    let (mut plain_job, mut strong_job, mut strong) = (request::Job::default(), request::Job::default(), Strong::default());
    let mut sides: Vec<Side> = vec![
        Box::new(|_| answered(ours::check(bytes, certificate), 0, 0)),
        Box::new(|_| answered(checker::check(bytes, certificate, &mut plain_job, &mut Plain).0, 0, 0)),
        Box::new(|_| answered(checker::check(bytes, certificate, &mut strong_job, &mut strong).0, 0, 0)),
    ];
    sides.truncate(count);
    race(name, [Table::none(), Table::none()], sides)
}

/// Nanoseconds in a unit that leaves three digits.
fn time(nanoseconds: f64) -> String {
    let (number, unit) = match nanoseconds {
        t if t >= 1e9 => (t / 1e9, "s"),
        t if t >= 1e6 => (t / 1e6, "ms"),
        t if t >= 1e3 => (t / 1e3, "us"),
        t => return format!("{t:.0} ns"),
    };
    let digits = 2_usize.saturating_sub(number.log10() as usize);
    format!("{number:.digits$} {unit}")
}

/// A ratio, bold where it is above its goal.
fn marked(ratio: f64, goal: f64) -> String {
    let mark = if ratio > goal { "**" } else { "" };
    format!("{mark}{ratio:.2}{mark}")
}

/// Prints a line of the table, and gives the ratio to plain Rust.
fn line(name: &str, times: &Times) -> f64 {
    let ours = times.best[0];
    let ratio = ours / times.best[1];
    let refused = if times.answer.refusal > 0 { format!(" (refused {})", times.answer.refusal) } else { String::new() };
    let few = if times.calls[1] < LEAST_ROUNDS { format!(" (plain Rust: best of {})", times.calls[1]) } else { String::new() };
    let strong = times.best.get(2).map_or("|".to_string(), |&strong| format!("{} | {:.2}", time(strong), ours / strong));
    println!("| {name}{refused}{few} | {} | {} | {} | {strong} |", time(ours), time(times.best[1]), marked(ratio, GOAL));
    ratio
}

/// How the library's own time grows as n and C double.
fn growth() {
    println!("\n| Job | half n, half C | n doubled | C doubled | both |\n|---|---|---|---|---|");
    let sizes = [(1, 1), (2, 1), (1, 2), (2, 2)];
    let alone_in = |way, job: &Job| time(solved(job, way, 1).best[0]);
    let alone = |job: &Job| alone_in(Way::Light, job);
    let judged = |job: &Job| time(checked(&Case::of_answer(job), 1).best[0]);
    let row = |name: &str, times: [String; 4]| println!("| {name} | {} |", times.join(" | "));
    for kind in [ONCE, COPIES, ANY, SUMS, LABELS_BEHIND] {
        row(&format!("kind {kind}, to 1,000 labels and C 60,000"), sizes.map(|(n, c)| alone(&jobs::labels(kind, 500 * n, 30_000 * c, 3_000))));
    }
    let in_full = |(n, c)| alone_in(Way::Full, &jobs::labels(ONCE, 500 * n, 30_000 * c, 3_000));
    row("kind 1, full table, to 1,000 labels and C 60,000", sizes.map(in_full));
    for kind in [FEWEST, WAYS] {
        let random = |n, c| {
            let [_, random, _] = jobs::sizes(kind, MOST_SIZES / 2 * n, 30_000 * c, 3_000);
            alone(&random)
        };
        row(&format!("kind {kind}, to {MOST_SIZES} sizes and C 60,000"), sizes.map(|(n, c)| random(n, c)));
    }
    for kind in 1..=LAST_CHECKED_KIND {
        let name = format!("checker, kind {kind}, to 1,000 labels and C 60,000");
        row(&name, sizes.map(|(n, c)| judged(&jobs::labels(kind, 500 * n, 30_000 * c, 3_000))));
    }
    let shared = |n| {
        let [random, ..] = jobs::claims(n);
        alone(&random)
    };
    println!("\nKind 7, random claims: {} for 500, {} for 1,000; it doesn't grow with C.", shared(500), shared(1_000));
    let quick = |n| {
        let [random, ..] = families(n, 60_000, 3_000);
        time(answered_quickly(&random, 1).best[0])
    };
    let most = said(MOST_LABELS);
    println!("\nQuick answers, random labels: {} for 500, {} for 1,000, {} for {most}.", quick(500), quick(1_000), quick(MOST_LABELS));
    growth_with_labels();
    growth_with_counts();
    growth_of_stated();
    stated_beside_once();
}

/// What a label costs the library as they become four thousand.
fn growth_with_labels() {
    let counts = [MOST_LABELS / 4, MOST_LABELS / 2, MOST_LABELS];
    println!("\n| C 60,000, weights to 3,000 | {} |", counts.map(|n| format!("{} labels | us a label", said(n))).join(" | "));
    println!("|---{}|", "|---|---".repeat(counts.len()));
    for kind in WITH_MOST {
        let taken = counts.map(|n| (n, solved(&many_labels(kind, n), Way::Light, 1).best[0]));
        let times = taken.map(|(n, best)| format!("{} | {:.2}", time(best), best / 1e3 / n as f64));
        println!("| kind {kind} | {} |", times.join(" | "));
    }
}

/// What a cell costs the library's checker of kind 2 as more counts of a label fit.
fn growth_with_counts() {
    const COUNTS: [u32; 9] = [1, 4, 8, 16, 17, 32, 64, 1_000, MOST_COPIES];
    println!("\n| Checker, kind 2, ns a cell by fitting counts | {} |", COUNTS.map(|count| said(count as usize)).join(" | "));
    println!("|---{}|", "|---".repeat(COUNTS.len()));
    for weight in [1, 64] {
        let judged = |count| checked(&Case::of_answer(&jobs::one_label(MOST_BUDGET, weight, count)), 1).best[0] / bounds::row(MOST_BUDGET) as f64;
        let of_cell = |count| if count * weight > MOST_BUDGET { String::new() } else { format!("{:.2}", judged(count)) };
        println!("| 1 label, C {}, weight {weight} | {} |", said(MOST_BUDGET as usize), COUNTS.map(of_cell).join(" | "));
    }
}

/// What kind 9 costs the library as labels become more, and as q does.
fn growth_of_stated() {
    println!("\n| Job | Cells | Time | ns a cell |\n|---|---|---|---|");
    let by_labels = [25, 50, 100, 200].map(|n| jobs::stated(n, 60_000, 3_000, 10));
    let by_q = [2, 5, 10, 20].map(|q| jobs::stated(100, 60_000, 3_000, q));
    for job in by_labels.iter().chain(&by_q) {
        let [cells, ..] = job.room(Way::Light);
        let best = solved(job, Way::Light, 1).best[0];
        println!("| {} | {} | {} | {:.2} |", job.name, said(cells), time(best), best / cells as f64);
    }
}

/// The same labels and C as kind 1 and as kind 9, each by the library alone, with numbers of labels on both sides of where the two take as long.
fn stated_beside_once() {
    const QS: [u32; 3] = [2, 10, 100];
    println!("\n| The same labels | Kind 1 | {} |", QS.map(|q| format!("Kind 9, q {q} | To kind 1")).join(" | "));
    println!("|---|---{}|", "|---|---".repeat(QS.len()));
    for (budget, heaviest, counts) in [(MOST_BUDGET, 3_000, [10, 25, 50, 100, 200, 300]), (500, 100, [3, 5, 10, 15, 30, 50])] {
        for n in counts {
            let once = jobs::labels(ONCE, n, budget, heaviest);
            let by_once = solved(&once, Way::Light, 1).best[0];
            let beside = QS.map(|q| beside(by_once, &jobs::stated(n, budget, heaviest, q)));
            println!("| {} | {} | {} |", once.name.trim_start_matches("kind 1, "), time(by_once), beside.join(" | "));
        }
    }
}

/// A job's time, and its ratio to another time; nothing where the table is larger than that of the longest line of kind 1 in full.
fn beside(other: f64, job: &Job) -> String {
    const MOST_CELLS: usize = 1_001 * 60_001;
    if job.room(Way::Light)[0] > MOST_CELLS {
        return " | ".to_string();
    }
    let best = solved(job, Way::Light, 1).best[0];
    format!("{} | {:.2}", time(best), best / other)
}
