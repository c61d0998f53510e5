//! The method: in one process, the sides by turns, on cleared tables that go from side to side, the best of many rounds.
use crate::request::{Answer, Lent};
use std::hint::black_box;
use std::time::{Duration, Instant};

/// Of so many rounds the best counts, or of more where they fit into the least time; a side that has taken the most time in all isn't called again.
pub const LEAST_ROUNDS: usize = 25;
const LEAST_TIME: Duration = Duration::from_secs(1);
const MOST_TIME: Duration = Duration::from_secs(4);
const LONG: Duration = Duration::from_millis(1);

/// The slices that a side is lent.
#[derive(PartialEq)]
pub struct Table {
    pub cells: Vec<u32>,
    pub words: Vec<u64>,
    pub picks: Vec<u32>,
}

impl Table {
    pub fn new([cells, words, picks]: [usize; 3]) -> Table {
        Table { cells: vec![0; cells], words: vec![0; words], picks: vec![0; picks] }
    }

    pub fn none() -> Table {
        Table::new([0; 3])
    }

    fn clear(&mut self) {
        self.cells.fill(0);
        self.words.fill(0);
        self.picks.fill(0);
    }

    pub fn lend(&mut self) -> Lent<'_> {
        Lent { cells: &mut self.cells, words: &mut self.words, picks: &mut self.picks }
    }
}

/// A side: the whole call that is timed.
pub type Side<'a> = Box<dyn FnMut(&mut Table) -> Answer + 'a>;

/// What a race gives: the answer of all sides, each side's best time in nanoseconds, and how many calls it is the best of.
pub struct Times {
    pub answer: Answer,
    pub best: Vec<f64>,
    pub calls: Vec<usize>,
}

/// The thread's processor time, in which a neighbour's turn on the core has no part.
fn processor_time() -> Duration {
    #[repr(C)]
    struct Timespec {
        seconds: i64,
        nanoseconds: i64,
    }
    extern "C" {
        fn clock_gettime(clock: i32, time: *mut Timespec) -> i32;
    }
    const OF_THE_THREAD: i32 = 3;
    let mut time = Timespec { seconds: 0, nanoseconds: 0 };
    let failed = unsafe { clock_gettime(OF_THE_THREAD, &mut time) };
    assert!(failed == 0, "no clock of the thread's processor time");
    Duration::new(time.seconds as u64, time.nanoseconds as u32)
}

/// What a call gives and how long it takes by the clock. A long call is likely to be interrupted, and then the processor's time is less and counts;
/// a short one isn't in thousands of rounds, and the processor's time doesn't move on with every one of them.
fn timed<T>(call: impl FnOnce() -> T) -> (T, Duration) {
    let before = processor_time();
    let start = Instant::now();
    let result = black_box(call());
    let time = start.elapsed();
    let spent = processor_time() - before;
    (result, if time < LONG { time } else { time.min(spent) })
}

/// The least time that nothing takes: every measured time has it in it.
fn clock() -> Duration {
    (0..10_000).map(|_| timed(|| ()).1).min().unwrap()
}

/// Runs the sides in turn. Who begins changes from round to round, and the two tables change hands; what comes first in a round is kept in
/// one table, and each other side's answer and table are compared with it. A difference ends the program.
pub fn race(name: &str, mut tables: [Table; 2], mut sides: Vec<Side>) -> Times {
    let clock = clock();
    let count = sides.len();
    let mut best = vec![Duration::MAX; count];
    let mut taken = vec![Duration::ZERO; count];
    let mut calls = vec![0; count];
    let mut expected = None;
    let mut round = 0;
    let begun = Instant::now();
    while round < LEAST_ROUNDS || begun.elapsed() < LEAST_TIME {
        let in_turn: Vec<usize> = (0..count).map(|turn| (turn + round) % count).filter(|&side| taken[side] < MOST_TIME).collect();
        for (turn, side) in in_turn.into_iter().enumerate() {
            let table = &mut tables[(turn.min(1) + round / count) % 2];
            table.clear();
            let (answer, time) = timed(|| sides[side](black_box(table)));
            best[side] = best[side].min(time.saturating_sub(clock));
            taken[side] += time;
            calls[side] += 1;
            if *expected.get_or_insert(answer) != answer || (turn > 0 && tables[0] != tables[1]) {
                eprintln!("{name}: side {side} differs in round {round}");
                std::process::exit(1);
            }
        }
        round += 1;
    }
    Times { answer: expected.unwrap(), best: best.iter().map(|time| time.as_nanos() as f64).collect(), calls }
}

/// Pages of the system that nobody has touched yet: what is written first in each of them, the call waits for.
struct Pages {
    at: *mut u8,
    bytes: usize,
}

extern "C" {
    fn mmap(at: *mut u8, bytes: usize, access: i32, flags: i32, file: i32, offset: i64) -> *mut u8;
    fn munmap(at: *mut u8, bytes: usize) -> i32;
}

impl Pages {
    fn new(bytes: usize) -> Pages {
        const READ_AND_WRITE: i32 = 3;
        const PRIVATE_AND_ANONYMOUS: i32 = 0x22;
        let bytes = bytes.max(1);
        let at = unsafe { mmap(std::ptr::null_mut(), bytes, READ_AND_WRITE, PRIVATE_AND_ANONYMOUS, -1, 0) };
        assert!(at as isize != -1, "no memory for {bytes} bytes");
        Pages { at, bytes }
    }

    /// So many numbers, all 0.
    fn lend<T>(&mut self, count: usize) -> &mut [T] {
        assert!(count * size_of::<T>() <= self.bytes);
        unsafe { std::slice::from_raw_parts_mut(self.at.cast(), count) }
    }
}

impl Drop for Pages {
    fn drop(&mut self) {
        unsafe { munmap(self.at, self.bytes) };
    }
}

/// A side that needs room of its own.
pub type Alone<'a> = ([usize; 3], Box<dyn FnMut(Lent) -> Answer + 'a>);

/// Runs sides that need other rooms in turn, each on tables of its own: two by turns, which are cleared before each call, or one of fresh pages for
/// each. Gives the best times. The answers are compared, the tables can't be.
pub fn race_apart(name: &str, mut sides: Vec<Alone>, fresh: bool) -> Vec<f64> {
    let clock = clock();
    let count = sides.len();
    let mut best = vec![Duration::MAX; count];
    let mut tables: Vec<_> = sides.iter().map(|(room, _)| [(); 2].map(|()| Table::new(if fresh { [0; 3] } else { *room }))).collect();
    let mut expected = None;
    let mut round = 0;
    let begun = Instant::now();
    while round < LEAST_ROUNDS || begun.elapsed() < LEAST_TIME {
        for turn in 0..count {
            let side = (turn + round) % count;
            let (room, call) = &mut sides[side];
            let [cells, words, picks] = *room;
            let mut pages = fresh.then(|| [4 * cells, 8 * words, 4 * picks].map(Pages::new));
            let table = &mut tables[side][round / count % 2];
            table.clear();
            let lent = match &mut pages {
                Some([of_cells, of_words, of_picks]) => {
                    Lent { cells: of_cells.lend(cells), words: of_words.lend(words), picks: of_picks.lend(picks) }
                }
                None => table.lend(),
            };
            let (answer, time) = timed(|| call(black_box(lent)));
            best[side] = best[side].min(time.saturating_sub(clock));
            if *expected.get_or_insert(answer) != answer {
                eprintln!("{name}: side {side} differs in round {round}");
                std::process::exit(1);
            }
        }
        round += 1;
    }
    best.iter().map(|time| time.as_nanos() as f64).collect()
}
