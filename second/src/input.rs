//! One input of a whole run, and what is printed of it.

use crate::measure::Measures;
use crate::plan::Plan;
use crate::run::{check_choices, write_run, MAX_CHOICES};
use crate::work::{check_workers, Tally};
use crate::{measure, refusal, schedule};
use std::fmt;

const MAX_INPUT: usize = 16_384;

/// The counts of a run and the measures of its plan, in the printed order.
#[derive(Clone, Copy, Debug, PartialEq, Eq)]
#[allow(missing_docs)]
pub struct Counts {
    pub rounds: u32,
    pub actions: u32,
    pub longest: u32,
    pub path: u32,
    pub parallel: u32,
    pub rest: u32,
    pub peak: u32,
    pub idle: u32,
    pub requests: u32,
    pub steals: u32,
    pub bare: u32,
    pub idle_victim: u32,
}

impl Counts {
    /// The counts of a run of the plan that has these measures.
    pub fn of(tally: Tally, measures: Measures) -> Counts {
        Counts {
            rounds: tally.rounds,
            actions: tally.actions,
            longest: measures.longest,
            path: measures.path,
            parallel: measures.parallel,
            rest: measures.rest,
            peak: tally.peak,
            idle: tally.idle,
            requests: tally.requests,
            steals: tally.steals,
            bare: tally.bare,
            idle_victim: tally.idle_victim,
        }
    }

    /// Names and values, in the printed order.
    pub fn named(&self) -> [(&'static str, u32); 12] {
        [
            ("rounds", self.rounds),
            ("actions", self.actions),
            ("longest", self.longest),
            ("path", self.path),
            ("parallel", self.parallel),
            ("rest", self.rest),
            ("peak", self.peak),
            ("idle", self.idle),
            ("requests", self.requests),
            ("steals", self.steals),
            ("bare", self.bare),
            ("idle-victim", self.idle_victim),
        ]
    }
}

impl fmt::Display for Counts {
    fn fmt(&self, f: &mut fmt::Formatter<'_>) -> fmt::Result {
        self.named()
            .iter()
            .try_for_each(|(name, value)| writeln!(f, "{name} {value}"))
    }
}

/// Runs an input of a worker count, a choice count, choices and a plan.
pub fn build(input: &[u8]) -> Result<Counts, u32> {
    let input = &input[..input.len().min(MAX_INPUT)];
    let [workers, high, low, ref rest @ ..] = *input else {
        return Err(refusal::BITS);
    };
    let count = usize::from(u16::from_be_bytes([high, low]));
    if count > MAX_CHOICES {
        return Err(refusal::CHOICES);
    }
    let (choices, plan) = rest.split_at_checked(count).ok_or(refusal::BITS)?;

    let (form, plan) = Plan::read(plan)?;
    let workers = u32::from(workers);
    check_workers(workers)?;
    check_choices(workers, choices)?;
    let measures = measure::of(&plan);
    let mut schedule = vec![0; schedule::length(form, &plan)];
    let tally = write_run(form, &plan, workers, choices, &mut schedule);
    Ok(Counts::of(tally, measures))
}
