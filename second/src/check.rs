//! Schedules held against the rules.

use crate::bits::Reader;
use crate::plan::{Form, Plan};
use crate::refusal;
use crate::schedule;
use crate::work::MAX_WORKERS;

/// Checks a schedule against a plan.
pub fn check(plan: &[u8], schedule: &[u8]) -> Result<(), u32> {
    let (form, plan) = Plan::read(plan)?;
    let (workers, rows) = read_schedule(form, &plan, schedule)?;
    obeys(&plan, workers, &rows)
}

#[derive(Clone, Copy)]
struct Row {
    /// The last round of the action's span.
    round: u16,
    worker: u16,
}

impl Row {
    /// The round before the span of an action of this cost, which is round 0
    /// or later if the span begins in round 1 or later.
    fn before(self, cost: u8) -> Option<u16> {
        self.round.checked_sub(u16::from(cost))
    }
}

fn read_schedule(form: Form, plan: &Plan, schedule: &[u8]) -> Result<(u16, Vec<Row>), u32> {
    if schedule.len() != schedule::length(form, plan) {
        return Err(refusal::SCHEDULE);
    }
    let [a, b, c, d, ref rows @ ..] = *schedule else {
        return Err(refusal::SCHEDULE);
    };
    let fields = u32::from_be_bytes([a, b, c, d]);
    let workers = fields >> 19 & 31;
    if fields >> 24 != form as u32
        || !(1..=MAX_WORKERS as u32).contains(&workers)
        || (fields >> 7 & 0xFFF) as usize != plan.actions.len()
        || fields & 0x7F != 0
    {
        return Err(refusal::SCHEDULE);
    }
    let rows = match form {
        Form::One => short_rows(rows),
        Form::Two => long_rows(rows, plan.actions.len()).ok_or(refusal::SCHEDULE)?,
    };
    if rows.iter().map(|row| row.round).min() == Some(0) {
        return Err(refusal::SCHEDULE);
    }
    Ok((workers as u16, rows))
}

fn short_rows(bytes: &[u8]) -> Vec<Row> {
    bytes
        .chunks_exact(2)
        .map(|pair| {
            let row = u16::from_be_bytes([pair[0], pair[1]]);
            Row {
                round: row >> 4,
                worker: row & 15,
            }
        })
        .collect()
}

/// Nothing if a fill bit is not 0.
fn long_rows(bytes: &[u8], count: usize) -> Option<Vec<Row>> {
    let mut reader = Reader::new(bytes);
    let mut rows = Vec::with_capacity(count);
    for _ in 0..count {
        let row = reader.take(20)?;
        rows.push(Row {
            round: (row >> 4) as u16,
            worker: (row & 15) as u16,
        });
    }
    reader.at_clean_end().then_some(rows)
}

/// The rounds in which each worker is busy, as bits from round 1 on. A span is
/// shorter than a word, so it never touches more than two.
struct Busy(Vec<[u32; MAX_WORKERS]>);

impl Busy {
    fn new(rounds: u16) -> Self {
        let words = usize::from(rounds).div_ceil(32);
        Busy(vec![[0; MAX_WORKERS]; words + 1])
    }

    /// Makes a worker busy in as many rounds after this one. Gives whether it
    /// was free in all of them.
    #[inline]
    fn take(&mut self, worker: u16, before: u16, rounds: u8) -> bool {
        let worker = usize::from(worker) % MAX_WORKERS;
        let at = usize::from(before / 32);
        let span = ((1u64 << rounds) - 1) << (before % 32);
        let (first, second) = (span as u32, (span >> 32) as u32);
        let taken = self.0[at][worker] & first | self.0[at + 1][worker] & second;
        self.0[at][worker] |= first;
        self.0[at + 1][worker] |= second;
        taken == 0
    }
}

fn obeys(plan: &Plan, workers: u16, rows: &[Row]) -> Result<(), u32> {
    let keep = |kept: bool| if kept { Ok(()) } else { Err(refusal::RULE) };
    let rounds = rows.iter().map(|row| row.round).max();
    let mut busy = Busy::new(rounds.unwrap_or(0));
    for job in &plan.jobs {
        let parent = plan.jobs[usize::from(job.parent)].range().start;
        let mut last = match job.first {
            0 => 0,
            _ => rows[parent + usize::from(job.spawned_at)].round,
        };
        for (action, row) in plan.actions[job.range()].iter().zip(&rows[job.range()]) {
            let before = row.before(action.cost).ok_or(refusal::RULE)?;
            keep(row.worker < workers)?;
            keep(before >= last)?;
            last = row.round;
            keep(busy.take(row.worker, before, action.cost))?;
            if let Some(target) = action.target {
                let into = parent + usize::from(target);
                let before = rows[into].before(plan.actions[into].cost);
                keep(before.is_some_and(|before| before >= last))?;
            }
        }
    }
    Ok(())
}
