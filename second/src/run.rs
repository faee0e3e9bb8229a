//! Runs by work stealing.

use crate::plan::{Form, Plan};
use crate::refusal;
use crate::schedule::{self, Behind, Rows};
use crate::work::{check_workers, Crew, Progress, Tally, Then, MAX_WORKERS};

pub const MAX_CHOICES: usize = 4096;

/// Runs a plan by work stealing, writes its schedule and gives the tally.
pub fn run(plan: &[u8], workers: u32, choices: &[u8], schedule: &mut [u8]) -> Result<Tally, u32> {
    let (form, plan) = Plan::read(plan)?;
    check_workers(workers)?;
    check_choices(workers, choices)?;
    let schedule = schedule
        .get_mut(..schedule::length(form, &plan))
        .ok_or(refusal::ROOM)?;
    Ok(write_run(form, &plan, workers, choices, schedule))
}

pub fn check_choices(workers: u32, choices: &[u8]) -> Result<(), u32> {
    if choices.len() > MAX_CHOICES
        || choices.is_empty() && workers > 1
        || choices.iter().any(|&choice| u32::from(choice) >= workers)
    {
        return Err(refusal::CHOICES);
    }
    Ok(())
}

/// Runs an accepted plan into a schedule of just its length.
pub fn write_run(
    form: Form,
    plan: &Plan,
    workers: u32,
    choices: &[u8],
    schedule: &mut [u8],
) -> Tally {
    match schedule::begin(form, plan, workers, schedule) {
        Behind::Short(rows) => State::new(plan, workers, rows).run(choices),
        Behind::Long(rows) => State::new(plan, workers, rows).run(choices),
    }
}

/// A ring of 256 places. Its owner holds a job whenever others are in here, so
/// it never fills up and equal ends mean that it is empty.
#[derive(Clone, Copy)]
struct Deque {
    places: [u8; 256],
    top: u8,
    bottom: u8,
}

impl Deque {
    fn push_bottom(&mut self, job: u8) {
        self.places[usize::from(self.bottom)] = job;
        self.bottom = self.bottom.wrapping_add(1);
    }

    fn pop_bottom(&mut self) -> Option<u8> {
        if self.top == self.bottom {
            return None;
        }
        self.bottom = self.bottom.wrapping_sub(1);
        Some(self.places[usize::from(self.bottom)])
    }

    fn pop_top(&mut self) -> Option<u8> {
        if self.top == self.bottom {
            return None;
        }
        let job = self.places[usize::from(self.top)];
        self.top = self.top.wrapping_add(1);
        Some(job)
    }
}

/// The requests on a victim. They are laid by round and then by worker, so the
/// one to serve is always the first.
#[derive(Clone, Copy)]
struct Queue {
    workers: [u8; MAX_WORKERS],
    head: usize,
    len: usize,
}

impl Queue {
    fn push(&mut self, worker: usize) {
        self.workers[(self.head + self.len) % MAX_WORKERS] = worker as u8;
        self.len += 1;
    }

    fn pop(&mut self) -> usize {
        let worker = self.workers[self.head % MAX_WORKERS];
        self.head = (self.head + 1) % MAX_WORKERS;
        self.len -= 1;
        usize::from(worker) % MAX_WORKERS
    }
}

struct State<'a, R> {
    progress: Progress<'a, R>,
    workers: u32,
    /// Those who hold a job, and those who neither hold nor wait.
    holding: Crew,
    idle: Crew,
    held: [u8; MAX_WORKERS],
    /// The rounds each holder has spent on its job's next action. A job that is
    /// held is never taken away, so no other place is needed for them.
    spent: [u8; MAX_WORKERS],
    deques: [Deque; MAX_WORKERS],
    /// Victims with requests, and the requests.
    asked: Crew,
    queues: [Queue; MAX_WORKERS],
    tally: Tally,
}

impl<'a, R: Rows> State<'a, R> {
    fn new(plan: &'a Plan, workers: u32, rows: R) -> Self {
        State {
            progress: Progress::new(plan, rows),
            workers,
            holding: Crew(1),
            idle: Crew((1 << workers) - 2),
            held: [0; MAX_WORKERS],
            spent: [0; MAX_WORKERS],
            deques: [Deque {
                places: [0; 256],
                top: 0,
                bottom: 0,
            }; MAX_WORKERS],
            asked: Crew(0),
            queues: [Queue {
                workers: [0; MAX_WORKERS],
                head: 0,
                len: 0,
            }; MAX_WORKERS],
            tally: Tally::default(),
        }
    }

    fn run(mut self, choices: &[u8]) -> Tally {
        // Where the next request's choice stands.
        let mut entry = 0;
        loop {
            self.tally.rounds += 1;
            let without = self.idle;
            for worker in self.holding {
                self.turn(worker);
            }
            if self.progress.is_over() {
                return self.progress.counted(self.workers, self.tally);
            }
            for worker in without {
                // One worker alone is never without a job, so a list that may
                // be empty is not read.
                if let Some(&victim) = choices.get(entry) {
                    entry += 1;
                    if entry == choices.len() {
                        entry = 0;
                    }
                    self.lay(worker, usize::from(victim) % MAX_WORKERS);
                }
            }
            for victim in self.asked {
                self.serve(victim);
            }
        }
    }

    fn turn(&mut self, worker: usize) {
        let number = self.held[worker];
        let next = self.progress.next(number);
        let spent = &mut self.spent[worker];
        *spent += 1;
        if *spent < next.cost() {
            return;
        }
        *spent = 0;
        let round = self.tally.rounds;
        let deques = &mut self.deques;
        let enable = |parent| deques[worker].push_bottom(parent);
        match self.progress.finish(next, round, worker, enable) {
            Then::Spawned(child) => {
                self.deques[worker].push_bottom(number);
                self.held[worker] = child;
            }
            Then::Ready => {}
            Then::Stalled | Then::Ended(_) => match self.deques[worker].pop_bottom() {
                Some(bottom) => self.held[worker] = bottom,
                None => {
                    self.holding.without(worker);
                    self.idle.with(worker);
                }
            },
        }
    }

    fn lay(&mut self, worker: usize, victim: usize) {
        self.tally.requests += 1;
        self.idle.without(worker);
        self.queues[victim].push(worker);
        self.asked.with(victim);
    }

    fn serve(&mut self, victim: usize) {
        let worker = self.queues[victim].pop();
        if self.queues[victim].len == 0 {
            self.asked.without(victim);
        }
        match self.deques[victim].pop_top() {
            Some(job) => {
                self.tally.steals += 1;
                self.held[worker] = job;
                self.holding.with(worker);
            }
            None => {
                let bare = u32::from(self.holding.has(victim));
                self.tally.bare += bare;
                self.tally.idle_victim += 1 - bare;
                self.idle.with(worker);
            }
        }
    }
}
