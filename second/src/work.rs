//! What both ways to run a plan have in common: workers, how far the plan is
//! done, and the tally.

use crate::plan::{Action, Job, Plan, MAX_JOBS};
use crate::refusal;
use crate::schedule::Rows;

pub const MAX_WORKERS: usize = 16;

pub fn check_workers(workers: u32) -> Result<(), u32> {
    if (1..=MAX_WORKERS as u32).contains(&workers) {
        Ok(())
    } else {
        Err(refusal::WORKERS)
    }
}

/// The counts of a run.
#[derive(Clone, Copy, Debug, Default, PartialEq, Eq)]
pub struct Tally {
    /// Rounds, the last one with them.
    pub rounds: u32,
    /// Turns in which a worker worked on an action.
    pub actions: u32,
    /// Turns of workers that held nothing when the round began or, from a pool,
    /// when the taking was over.
    pub idle: u32,
    /// Requests laid.
    pub requests: u32,
    /// Requests that got a job.
    pub steals: u32,
    /// Requests that got none, from a victim that held a job right then.
    pub bare: u32,
    /// Requests that got none, from a victim that held none.
    pub idle_victim: u32,
    /// The largest weight of living frames at the start or after a turn.
    pub peak: u32,
}

/// Worker numbers as bits: a round then costs nothing for those who wait.
#[derive(Clone, Copy, Default)]
pub struct Crew(pub u32);

impl Crew {
    pub fn with(&mut self, worker: usize) {
        self.0 |= 1 << worker;
    }

    pub fn without(&mut self, worker: usize) {
        self.0 &= !(1 << worker);
    }

    pub fn merge(&mut self, others: Crew) {
        self.0 |= others.0;
    }

    pub fn has(self, worker: usize) -> bool {
        self.0 >> worker & 1 == 1
    }

    pub fn is_empty(self) -> bool {
        self.0 == 0
    }
}

impl Iterator for Crew {
    type Item = usize;

    /// Takes the lowest number.
    fn next(&mut self) -> Option<usize> {
        if self.0 == 0 {
            return None;
        }
        let worker = self.0.trailing_zeros() as usize % MAX_WORKERS;
        self.0 &= self.0 - 1;
        Some(worker)
    }
}

/// How far a plan is done.
pub struct Progress<'a, R> {
    plan: &'a Plan,
    rows: R,
    /// Each job's next action, as its place in the plan.
    next: [u16; MAX_JOBS],
    /// Where job 0 ends.
    end: u16,
    /// The joins still missing to each action.
    missing: Vec<u8>,
    /// The costs of all actions that are done.
    worked: u32,
    weight: u32,
    peak: u32,
}

/// The next action of a job.
pub struct Next<'a> {
    number: u8,
    job: &'a Job,
    place: usize,
    action: Action,
}

impl Next<'_> {
    pub fn cost(&self) -> u8 {
        self.action.cost
    }
}

/// How a job goes on, with an action of it just done.
pub enum Then {
    /// The action spawned this job. The next action is ready.
    Spawned(u8),
    /// The next action is ready.
    Ready,
    /// The next action is not ready.
    Stalled,
    /// There is no next action. The job's parent is this one.
    Ended(u8),
}

impl<'a, R: Rows> Progress<'a, R> {
    pub fn new(plan: &'a Plan, rows: R) -> Self {
        let mut next = [0; MAX_JOBS];
        for (place, job) in next.iter_mut().zip(&plan.jobs) {
            *place = job.first;
        }
        let root = &plan.jobs[0];
        let weight = u32::from(root.frame);
        Progress {
            plan,
            rows,
            next,
            end: root.range().end as u16,
            missing: plan.entering.clone(),
            worked: 0,
            weight,
            peak: weight,
        }
    }

    /// The next action of a job that has not ended.
    #[inline]
    pub fn next(&self, number: u8) -> Next<'a> {
        let place = usize::from(self.next[usize::from(number)]);
        Next {
            number,
            job: &self.plan.jobs[usize::from(number)],
            place,
            action: self.plan.actions[place],
        }
    }

    /// Its cost alone.
    #[inline]
    pub fn next_cost(&self, number: u8) -> u8 {
        self.plan.actions[usize::from(self.next[usize::from(number)])].cost
    }

    /// Does an action, of which this is the last round. If its join is the last
    /// one missing to a stalled parent, `enable` gets that.
    #[inline]
    pub fn finish(
        &mut self,
        next: Next,
        round: u32,
        worker: usize,
        enable: impl FnOnce(u8),
    ) -> Then {
        let Next {
            number,
            job,
            place,
            action,
        } = next;
        self.worked += u32::from(action.cost);
        self.rows.put(place, round, worker);
        self.next[usize::from(number)] += 1;

        if let Some(target) = action.target {
            let into = self.plan.jobs[usize::from(job.parent)].first + u16::from(target);
            let missing = &mut self.missing[usize::from(into)];
            *missing -= 1;
            // A job whose next action still missed a join was stalled.
            if *missing == 0 && self.next[usize::from(job.parent)] == into {
                enable(job.parent);
            }
        }

        if let Some(child) = action.child {
            // The spawner's next action exists, and no join enters it.
            self.weight += u32::from(self.plan.jobs[usize::from(child)].frame);
            self.peak = self.peak.max(self.weight);
            Then::Spawned(child)
        } else if place + 1 == job.range().end {
            self.weight -= u32::from(job.frame);
            Then::Ended(job.parent)
        } else if self.missing[place + 1] > 0 {
            Then::Stalled
        } else {
            Then::Ready
        }
    }

    /// Whether job 0 has ended. All actions are done then.
    #[inline]
    pub fn is_over(&self) -> bool {
        self.next[0] == self.end
    }

    /// Fills in the counts of turns and the peak when the run is over.
    pub fn counted(&self, workers: u32, tally: Tally) -> Tally {
        Tally {
            actions: self.worked,
            // Whoever did not work had an idle turn.
            idle: workers * tally.rounds - self.worked,
            peak: self.peak,
            ..tally
        }
    }
}
