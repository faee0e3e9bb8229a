//! What a plan measures before it is run.

use crate::plan::Plan;

/// The size of a plan, T1, T∞, S1, and T1 divided by T∞.
#[derive(Clone, Copy, Debug, PartialEq, Eq)]
pub struct Measures {
    /// The number of actions.
    pub total: u32,
    /// T1, the sum of their costs.
    pub work: u32,
    /// T∞, the largest cost of a chain.
    pub longest: u32,
    /// S1, the largest path weight.
    pub path: u32,
    /// T1 divided by T∞, the whole quotient.
    pub parallel: u32,
    /// What remains of T1, less than T∞.
    pub rest: u32,
}

/// Measures a plan.
pub fn measure(plan: &[u8]) -> Result<Measures, u32> {
    Plan::read(plan).map(|(_, plan)| of(&plan))
}

pub fn of(plan: &Plan) -> Measures {
    let costs = plan.actions.iter().map(|action| u32::from(action.cost));
    let work: u32 = costs.sum();
    // At least 1: an action is a chain by itself.
    let longest = longest(plan);
    Measures {
        total: plan.actions.len() as u32,
        work,
        longest,
        path: path(plan),
        parallel: work / longest,
        rest: work % longest,
    }
}

/// A job's family is entered by its spawn alone, so the costliest chain to one
/// of its actions is that to the spawn and one that starts at its position 0.
/// Children have the larger numbers: going down, theirs are known.
fn longest(plan: &Plan) -> u32 {
    // Chains from position 0 of the action's own job, by their cost. Before an
    // action's turn comes, its place holds the costliest that enters it by a
    // join. None costs more than 15 for each of 2,048 actions.
    let mut chains = vec![0u16; plan.actions.len()];
    for job in plan.jobs.iter().rev() {
        let mut chain = 0;
        for here in job.range() {
            let action = &plan.actions[here];
            chain = chains[here].max(chain) + u16::from(action.cost);
            chains[here] = chain;
            let Some(child) = action.child else {
                continue;
            };
            for there in plan.jobs[usize::from(child)].range() {
                if let Some(target) = plan.actions[there].target {
                    let into = usize::from(job.first) + usize::from(target);
                    chains[into] = chains[into].max(chain + chains[there]);
                }
            }
        }
    }
    // Every other action comes before job 0's last.
    u32::from(chains[plan.jobs[0].range().end - 1])
}

fn path(plan: &Plan) -> u32 {
    let mut weights = [0; 256];
    let mut largest = 0;
    for (number, job) in plan.jobs.iter().enumerate() {
        let above = match number {
            0 => 0,
            _ => weights[usize::from(job.parent)],
        };
        let weight = above + u32::from(job.frame);
        weights[number] = weight;
        largest = largest.max(weight);
    }
    largest
}
