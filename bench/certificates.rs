//! The certificates that are judged: of a job's own answer, with claims drawn at random, and with a cell at fault.
use crate::bounds::{row, Way};
use crate::jobs::{Draw, Job};
use crate::ours;
use crate::request;
use crate::timing::Table;

/// Job bytes with a certificate.
pub struct Case {
    pub name: String,
    pub bytes: Vec<u8>,
    pub certificate: Vec<u8>,
}

impl Case {
    fn new(name: String, job: &Job, table: &Table) -> Case {
        let certificate = ours::write(&job.bytes, &table.picks, &table.cells).expect("a certificate");
        Case { name, bytes: job.bytes.clone(), certificate }
    }

    /// The certificate of a job's own answer.
    pub fn of_answer(job: &Job) -> Case {
        Case::new(job.name.clone(), job, &solved(job))
    }

    /// For a job of one label, with copies: the picks of its answer, a first row that is drawn, save for the cells to which the last one is held, and
    /// the least claims that keep the rule.
    pub fn with_drawn_claims(job: &Job) -> Case {
        let mut table = solved(job);
        let mut lists = request::Job::default();
        lists.read(&job.bytes).expect("job bytes");
        let (w, v, most) = (lists.weights[0] as usize, lists.values[0], lists.copies[0] as usize);
        let (before, claims) = table.cells.split_at_mut(row(lists.budget));
        let mut draw = Draw::new(0xc1a1_3500_d7a3_4a7e);
        before.fill_with(|| draw.number(0, most as u32 * v));
        before.iter_mut().rev().step_by(w).take(most + 1).for_each(|cell| *cell = 0);
        for (c, claim) in claims.iter_mut().enumerate() {
            *claim = (0..=most.min(c / w)).map(|count| before[c - count * w] + count as u32 * v).max().unwrap();
        }
        Case::new(format!("{}, claims at random", job.name), job, &table)
    }

    /// The last cell one lower.
    pub fn with_last_cell_low(mut self) -> Case {
        let last = self.certificate.last_chunk_mut().expect("a cell");
        *last = (u32::from_le_bytes(*last) - 1).to_le_bytes();
        Case { name: format!("{}, last cell low", self.name), ..self }
    }
}

/// What the library leaves of a job, with the table that a certificate is written from.
fn solved(job: &Job) -> Table {
    let mut table = Table::new(job.room(Way::Full));
    ours::solve(&job.bytes, table.lend(), Way::Full);
    table
}
