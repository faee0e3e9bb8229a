//! Plans for all cases: jobs, their actions, and their bytes in both forms (document 01, "Plan"; document 02, L5); and the inputs of
//! `buildrun`.

/// An action: the child's number plus 1 or 0, the join's target plus 1 or 0, and the cost.
pub type Action = (u32, u32, u32);
/// A frame and the actions.
pub type Job = (u32, Vec<Action>);

pub const NONE: Action = (0, 0, 1);
pub fn spawn(child: u32) -> Action {
    (child + 1, 0, 1)
}
pub fn join(target: u32) -> Action {
    (0, target + 1, 1)
}

/// The jobs with other costs, which are given in job then position order and begin anew where they end.
pub fn costed(mut jobs: Vec<Job>, costs: &[u32]) -> Vec<Job> {
    let actions = jobs.iter_mut().flat_map(|job| &mut job.1);
    for (action, cost) in actions.zip(costs.iter().cycle()) {
        action.2 = *cost;
    }
    jobs
}

/// T1 divided by T∞, as `parallel` and `rest` (document 02, L7): T∞ is taken away for as long as it can be.
pub fn quotient(work: u32, longest: u32) -> (u32, u32) {
    let mut left = (0, work);
    while left.1 >= longest {
        left = (left.0 + 1, left.1 - longest);
    }
    left
}

pub struct Bits(pub Vec<bool>);

impl Bits {
    pub fn put(&mut self, width: u32, value: u32) {
        for i in (0..width).rev() {
            self.0.push(value >> i & 1 == 1);
        }
    }
    fn number(&mut self, x: u32) {
        if x == 0 {
            self.put(1, 0);
        } else {
            self.put(1, 1);
            self.put(8, x - 1);
        }
    }
    pub fn bytes(&self) -> Vec<u8> {
        self.0.chunks(8).map(|c| (0..8).fold(0, |b, i| b * 2 + *c.get(i).unwrap_or(&false) as u8)).collect()
    }
}

/// In form 1, where every cost is 1.
pub fn plan(jobs: &[Job]) -> Vec<u8> {
    plan_of(1, jobs)
}

/// In form 2.
pub fn plan_2(jobs: &[Job]) -> Vec<u8> {
    plan_of(2, jobs)
}

pub fn plan_of(form: u32, jobs: &[Job]) -> Vec<u8> {
    assert!(form == 2 || jobs.iter().all(|job| job.1.iter().all(|action| action.2 == 1)), "form 1 has no costs");
    with_header(form, jobs.len() as u32, jobs)
}

/// Costs are written in form 2 alone.
pub fn with_header(form: u32, count: u32, jobs: &[Job]) -> Vec<u8> {
    let mut b = Bits(vec![]);
    b.put(8, form);
    b.put(9, count);
    for (frame, actions) in jobs {
        b.put(16, *frame);
        b.put(8, actions.len() as u32);
        for &(spawn, join, cost) in actions {
            b.number(spawn);
            b.number(join);
            if form == 2 {
                b.put(4, cost);
            }
        }
    }
    b.bytes()
}

/// An input of `buildrun`: P, the number of choices in two bytes, the choices, and the plan.
pub fn input(workers: u8, choices: &[u8], plan: &[u8]) -> Vec<u8> {
    [&[workers, (choices.len() >> 8) as u8, choices.len() as u8], choices, plan].concat()
}

/// Document 01's plan E. Its actions stand in rows 0 to 4, 5 to 6, and 7.
pub fn e() -> Vec<Job> {
    vec![(4, vec![spawn(1), NONE, spawn(2), NONE, NONE]), (3, vec![NONE, join(4)]), (2, vec![join(4)])]
}

/// Plan E with costs: E2 of docs/RULES.md.
pub fn e2() -> Vec<Job> {
    costed(e(), &[2, 1, 3, 1, 2, 4, 1, 5])
}

/// Document 01's plan F. Its actions stand in rows 0 to 2 and 3 to 6.
pub fn f() -> Vec<Job> {
    vec![(1, vec![spawn(1), NONE, NONE]), (1, vec![NONE, NONE, NONE, join(2)])]
}

/// Plan F with costs.
pub fn f2() -> Vec<Job> {
    costed(f(), &[2, 3, 1, 1, 2, 1, 3])
}

/// One job, one action.
pub fn one() -> Vec<Job> {
    vec![(1, vec![NONE])]
}

/// n jobs: each spawns the next at 0, and the next one's last action joins position 2.
pub fn chain(n: u32) -> Vec<Job> {
    (0..n)
        .map(|j| {
            let last = if j == 0 { NONE } else { join(2) };
            (1, if j + 1 < n { vec![spawn(j + 1), NONE, last] } else { vec![last] })
        })
        .collect()
}

/// Nine jobs: the first eight have 255 actions, the last `last`. Job 0 spawns the others, and they join its position `target`.
pub fn large(frame: u32, last: usize, target: u32) -> Vec<Job> {
    let mut root: Vec<Action> = (1..=8).map(spawn).collect();
    root.resize(255, NONE);
    let mut jobs = vec![(frame, root)];
    for c in 1..=8 {
        let mut actions = vec![NONE; if c < 8 { 255 } else { last }];
        *actions.last_mut().unwrap() = join(target);
        jobs.push((frame, actions));
    }
    jobs
}

/// 256 jobs of eight actions: each but the last spawns the next at 0, and all actions of the next one join position 2.
pub fn deep() -> Vec<Job> {
    let action = |j: u32, i: u32| (if i == 0 && j < 255 { j + 2 } else { 0 }, if j > 0 { 3 } else { 0 }, 1);
    (0..256).map(|j| (1, (0..8).map(|i| action(j, i)).collect())).collect()
}
