//! Two plans in one build.

use crate::plan::{Action, Form, Job, Plan, MAX_ACTIONS, MAX_JOBS};
use crate::refusal;

/// The new root's number of actions, and the position at which it waits.
const ROOT_ACTIONS: usize = 5;
const WAIT: u8 = 4;

/// Writes one plan of two, under a new root with this frame, and gives how many
/// bytes it takes.
pub fn pair(first: &[u8], second: &[u8], frame: u32, bytes: &mut [u8]) -> Result<usize, u32> {
    let (first_form, first) = Plan::read(first)?;
    let (second_form, second) = Plan::read(second)?;
    let frame = u16::try_from(frame).map_err(|_| refusal::PAIR)?;
    let jobs = 1 + first.jobs.len() + second.jobs.len();
    let actions = ROOT_ACTIONS + first.actions.len() + second.actions.len();
    if frame == 0 || jobs > MAX_JOBS || actions > MAX_ACTIONS {
        return Err(refusal::PAIR);
    }

    let mut whole = new_root(frame, jobs, actions);
    add(&mut whole, 0, &first);
    add(&mut whole, 2, &second);
    let form = match (first_form, second_form) {
        (Form::One, Form::One) => Form::One,
        _ => Form::Two,
    };
    whole.write(form, bytes)
}

/// The new root alone, with room for so many jobs and actions in all.
fn new_root(frame: u16, jobs: usize, actions: usize) -> Plan {
    let mut root = Plan {
        jobs: Vec::with_capacity(jobs),
        actions: Vec::with_capacity(actions),
        entering: Vec::with_capacity(actions),
    };
    root.jobs.push(Job {
        frame,
        first: 0,
        count: ROOT_ACTIONS as u16,
        parent: 0,
        spawned_at: 0,
    });
    let plain = Action {
        child: None,
        target: None,
        cost: 1,
    };
    root.actions.extend([plain; ROOT_ACTIONS]);
    root.entering.extend([0; ROOT_ACTIONS]);
    root
}

/// Puts a plan behind the jobs that are there. Job 0 spawns its root at this
/// position, and waits for it. The limits hold, so all numbers fit.
fn add(whole: &mut Plan, position: u8, plan: &Plan) {
    let number = whole.jobs.len() as u8;
    let first = whole.actions.len() as u16;

    let jobs = plan.jobs.iter().map(|job| Job {
        first: first + job.first,
        parent: number + job.parent,
        ..*job
    });
    let actions = plan.actions.iter().map(|action| Action {
        child: action.child.map(|child| number + child),
        ..*action
    });
    whole.jobs.extend(jobs);
    whole.actions.extend(actions);
    whole.entering.extend_from_slice(&plan.entering);

    let root = &mut whole.jobs[usize::from(number)];
    root.parent = 0;
    root.spawned_at = position;
    whole.actions[root.range().end - 1].target = Some(WAIT);
    whole.actions[usize::from(position)].child = Some(number);
    whole.entering[usize::from(WAIT)] += 1;
}

#[cfg(test)]
mod tests {
    use super::*;

    /// Parents, spawns and entering joins, of which the bytes show little, are as
    /// if the whole had been read from its bytes.
    #[test]
    fn the_whole_is_linked() {
        // Job 0 spawns job 1 at 0, which spawns job 2 at 1; each waits two
        // actions later.
        let bytes = [
            0x01, 0x01, 0x80, 0x00, 0x81, 0xC0, 0x40, 0x00, 0x02, 0x08, 0x40, 0x82, 0x04, 0x00,
            0x02, 0x02, 0x81, 0x80,
        ];
        let (form, plan) = Plan::read(&bytes).unwrap();
        let mut whole = new_root(1, 7, 21);
        add(&mut whole, 0, &plan);
        add(&mut whole, 2, &plan);
        let mut bytes = [0; 64];
        let length = whole.write(form, &mut bytes).unwrap();
        let (_, read) = Plan::read(&bytes[..length]).unwrap();
        let links = |plan: &Plan| -> Vec<(u8, u8)> {
            let jobs = plan.jobs.iter();
            jobs.map(|job| (job.parent, job.spawned_at)).collect()
        };
        assert_eq!(links(&whole), links(&read));
        assert_eq!(whole.entering, read.entering);
    }
}
