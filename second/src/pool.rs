//! Runs from a central pool, by the Busy-Leaves Algorithm.

use crate::plan::{Form, Plan, MAX_JOBS};
use crate::refusal;
use crate::schedule::{self, Behind, Rows};
use crate::work::{check_workers, Crew, Progress, Tally, Then, MAX_WORKERS};
use std::mem;

/// Runs a plan from a central pool, writes its schedule and gives the tally.
/// Nobody asks anybody there, so requests, steals and both kinds of miss are 0.
pub fn pool(plan: &[u8], workers: u32, schedule: &mut [u8]) -> Result<Tally, u32> {
    let (form, plan) = Plan::read(plan)?;
    check_workers(workers)?;
    let schedule = schedule
        .get_mut(..schedule::length(form, &plan))
        .ok_or(refusal::ROOM)?;
    Ok(write_pool(form, &plan, workers, schedule))
}

/// Runs an accepted plan into a schedule of just its length.
pub fn write_pool(form: Form, plan: &Plan, workers: u32, schedule: &mut [u8]) -> Tally {
    match schedule::begin(form, plan, workers, schedule) {
        Behind::Short(rows) => State::new(plan, workers, rows).run(),
        Behind::Long(rows) => State::new(plan, workers, rows).run(),
    }
}

/// Job numbers as bits.
struct Jobs([u64; MAX_JOBS / 64]);

impl Jobs {
    fn insert(&mut self, job: u8) {
        self.0[usize::from(job / 64)] |= 1 << (job % 64);
    }

    /// Gives whether the job was there.
    fn remove(&mut self, job: u8) -> bool {
        let word = &mut self.0[usize::from(job / 64)];
        let bit = 1 << (job % 64);
        let there = *word & bit != 0;
        *word &= !bit;
        there
    }

    fn pop_lowest(&mut self) -> Option<u8> {
        let place = self.0.iter().position(|&word| word != 0)?;
        let word = &mut self.0[place];
        let job = 64 * place as u8 + word.trailing_zeros() as u8;
        *word &= *word - 1;
        Some(job)
    }
}

/// Who is done with an action in which of the rounds to come. A turn that is not
/// an action's last changes nothing, so rounds with no other turns are left out.
#[derive(Default)]
struct Calendar {
    /// The round that has come.
    round: u32,
    /// Those who are done in the one after it.
    next: Crew,
    /// Those who are done later, by their round modulo 16: no cost is above 15.
    later: [Crew; 16],
    /// The places in there that are not empty, as bits.
    marks: u16,
}

impl Calendar {
    /// A worker begins, in the next round, an action of this cost.
    #[inline]
    fn enter(&mut self, worker: usize, cost: u8) {
        if cost == 1 {
            self.next.with(worker);
        } else {
            let place = (self.round + u32::from(cost)) % 16;
            self.later[place as usize].with(worker);
            self.marks |= 1 << place;
        }
    }

    /// Goes on to the next round in which somebody is done, and gives who is.
    #[inline]
    fn advance(&mut self) -> Crew {
        let mut crew = mem::take(&mut self.next);
        self.round += 1;
        if self.marks != 0 {
            if crew.is_empty() {
                self.round += self.marks.rotate_right(self.round % 16).trailing_zeros();
            }
            let place = self.round % 16;
            crew.merge(mem::take(&mut self.later[place as usize]));
            self.marks &= !(1 << place);
        }
        // Somebody works on something until job 0 has ended.
        debug_assert!(!crew.is_empty());
        crew
    }
}

struct State<'a, R> {
    progress: Progress<'a, R>,
    workers: u32,
    calendar: Calendar,
    /// Those who hold nothing, and what the others hold.
    idle: Crew,
    held: [u8; MAX_WORKERS],
    /// The jobs of the pool that are ready. All others that live and are not
    /// held are stalled.
    ready: Jobs,
    /// How many children of each job live.
    children: [u8; MAX_JOBS],
}

impl<'a, R: Rows> State<'a, R> {
    fn new(plan: &'a Plan, workers: u32, rows: R) -> Self {
        State {
            progress: Progress::new(plan, rows),
            workers,
            calendar: Calendar::default(),
            idle: Crew((1 << workers) - 1),
            held: [0; MAX_WORKERS],
            ready: Jobs([1, 0, 0, 0]),
            children: [0; MAX_JOBS],
        }
    }

    fn run(mut self) -> Tally {
        while !self.progress.is_over() {
            self.take();
            // Until somebody is done with an action there is nothing more to
            // take: either nobody is idle now, or no job in the pool is ready.
            for worker in self.calendar.advance() {
                self.turn(worker);
            }
        }
        let tally = Tally {
            rounds: self.calendar.round,
            ..Tally::default()
        };
        self.progress.counted(self.workers, tally)
    }

    fn take(&mut self) {
        for worker in self.idle {
            let Some(job) = self.ready.pop_lowest() else {
                break;
            };
            self.idle.without(worker);
            self.hold(worker, job);
        }
    }

    /// The last turn of an action.
    fn turn(&mut self, worker: usize) {
        let number = self.held[worker];
        let next = self.progress.next(number);
        let round = self.calendar.round;
        let ready = &mut self.ready;
        let enable = |parent| ready.insert(parent);
        match self.progress.finish(next, round, worker, enable) {
            Then::Spawned(child) => {
                self.ready.insert(number);
                self.children[usize::from(number)] += 1;
                self.hold(worker, child);
            }
            Then::Ready => self.work_on(worker, number),
            Then::Stalled => self.idle.with(worker),
            Then::Ended(parent) => {
                if number > 0 && self.take_parent(parent) {
                    self.hold(worker, parent);
                } else {
                    self.idle.with(worker);
                }
            }
        }
    }

    /// Takes the parent of a job that ended out of the pool, if no child of it
    /// lives and nobody holds it. All joins of its children have come then, so
    /// it is not stalled.
    #[inline]
    fn take_parent(&mut self, parent: u8) -> bool {
        let children = &mut self.children[usize::from(parent)];
        *children -= 1;
        *children == 0 && self.ready.remove(parent)
    }

    #[inline]
    fn hold(&mut self, worker: usize, job: u8) {
        self.held[worker] = job;
        self.work_on(worker, job);
    }

    #[inline]
    fn work_on(&mut self, worker: usize, job: u8) {
        self.calendar.enter(worker, self.progress.next_cost(job));
    }
}

#[cfg(test)]
mod tests {
    use super::*;

    #[test]
    fn jobs_come_lowest_first() {
        let mut jobs = Jobs([0; 4]);
        for job in [200, 64, 255, 0, 63, 128, 127, 64] {
            jobs.insert(job);
        }
        assert!(jobs.remove(127));
        assert!(!jobs.remove(127) && !jobs.remove(1));
        for job in [0, 63, 64, 128, 200, 255] {
            assert_eq!(jobs.pop_lowest(), Some(job));
        }
        assert_eq!(jobs.pop_lowest(), None);
    }

    /// Two workers that begin in one round, whatever it is and whatever their
    /// costs are.
    #[test]
    fn actions_are_done_in_time() {
        for start in 0..40 {
            for first in 1..=15 {
                for second in 1..=15 {
                    let mut calendar = Calendar {
                        round: start,
                        ..Calendar::default()
                    };
                    calendar.enter(3, first);
                    calendar.enter(5, second);
                    let mut done = vec![];
                    for _ in 0..1 + u32::from(first != second) {
                        let crew = calendar.advance();
                        done.extend(crew.map(|worker| (calendar.round, worker)));
                    }
                    let mut wanted = [(first, 3), (second, 5)]
                        .map(|(cost, worker)| (start + u32::from(cost), worker));
                    wanted.sort();
                    assert_eq!(done, wanted);
                    assert_eq!(calendar.marks, 0);
                }
            }
        }
    }
}
