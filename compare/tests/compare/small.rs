//! All inputs up to a small size.

use crate::both::Both;
use compare::inputs::{small_lists, small_plans, Action, Job, Sketch};

/// Of at most five actions in all only 11 plans keep the rules, none of them
/// with three jobs, so the sizes go beyond: 13,404 plans of at most ten, 9,610
/// with three jobs. Frames are fixed; each plan gets the 59 lists of at most
/// three choices for one to three workers.
const MOST_ACTIONS: usize = 10;

type Lists = Vec<(u32, Vec<Vec<u8>>)>;

fn all_lists() -> Lists {
    (1..=3)
        .map(|workers| (workers, small_lists(workers as usize, 3)))
        .collect()
}

fn run_all(both: &mut Both, sketch: &Sketch, lists: &Lists) {
    let plan = sketch.bytes();
    let facts = both.facts(&plan, &sketch.rows());
    for (workers, lists) in lists {
        for choices in lists {
            if choices.is_empty() && *workers > 1 {
                let refused = both.run(&plan, *workers, choices, 64);
                assert_eq!(refused, Err(8));
            } else {
                both.run_claimed(&plan, &facts, *workers, choices);
            }
        }
    }
}

pub fn plans(both: &mut Both) {
    let lists = all_lists();
    small_plans(MOST_ACTIONS, |sketch| run_all(both, sketch, &lists));
}

/// Costs from 1 to 3, as the digits of a number. The numbers go through all
/// lists of ten costs, by a step without a digit 0.
struct Digits(usize);

impl Digits {
    fn costs(&mut self, sketch: &Sketch) -> Sketch {
        self.0 = (self.0 + 36_898) % 3usize.pow(10);
        let digit = |at| self.0 / 3usize.pow(at as u32) % 3;
        sketch.clone().costed(|at| 1 + digit(at) as u8)
    }
}

/// The same plans in form 2, each with one list of costs from 1 to 3, and up to
/// seven actions with all lists of costs 1 and 2.
pub fn costed_plans(both: &mut Both) {
    let lists = all_lists();
    let mut digits = Digits(0);
    small_plans(MOST_ACTIONS, |sketch| {
        run_all(both, &digits.costs(sketch), &lists);
        let actions = sketch.actions();
        if actions <= 7 {
            for twos in 0..1usize << actions {
                let sketch = sketch.clone().costed(|at| 1 + (twos >> at & 1) as u8);
                run_all(both, &sketch, &lists);
            }
        }
    });
}

/// Plans of at most three jobs and five actions with any children from 1 to 2
/// and any targets from 0 to 4; beyond four actions job 0 sends no join.
/// Up to four actions also in form 2. Nearly all break a rule, so only what
/// the reader says is compared. Up to three in form 1 and all in form 2 are
/// turned into each form.
pub fn any_numbers(both: &mut Both) {
    for total in 1..=5 {
        for jobs in 1..=total.min(3) {
            for first in 1..=total {
                for second in 0..=total - first {
                    let third = total - first - second;
                    let counts = [first, second, third];
                    let shaped = counts.iter().take_while(|&&count| count > 0).count();
                    if shaped == jobs && counts[jobs..].iter().all(|&count| count == 0) {
                        fill(both, &counts[..jobs], total > 4);
                    }
                }
            }
        }
    }
}

fn fill(both: &mut Both, counts: &[usize], root_silent: bool) {
    let mut digits = Digits(0);
    let mut sketch = Sketch {
        form: 1,
        jobs: counts
            .iter()
            .map(|&count| Job {
                frame: 7,
                actions: vec![Action::default(); count],
            })
            .collect(),
    };
    loop {
        let answer = both.measure(&sketch.bytes());
        if let Err(refused) = answer {
            assert!(refused == 4 || refused == 5);
        }
        if sketch.actions() <= 3 {
            assert_eq!(both.read(&sketch.bytes()), answer);
        }
        if sketch.actions() <= 4 {
            let costed = both.read(&digits.costs(&sketch).bytes());
            assert_eq!(costed.err(), answer.err());
        }
        if !advance(&mut sketch, root_silent) {
            return;
        }
    }
}

/// Counts up: each action is a digit.
fn advance(sketch: &mut Sketch, root_silent: bool) -> bool {
    for (number, job) in sketch.jobs.iter_mut().enumerate() {
        for action in &mut job.actions {
            let targets = if number == 0 && root_silent { 0 } else { 5 };
            action.target = match action.target {
                None if targets > 0 => Some(0),
                Some(target) if target + 1 < targets => Some(target + 1),
                _ => None,
            };
            if action.target.is_some() {
                return true;
            }
            action.child = match action.child {
                None => Some(1),
                Some(1) => Some(2),
                _ => None,
            };
            if action.child.is_some() {
                return true;
            }
        }
    }
    false
}
