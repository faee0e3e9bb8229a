//! Plans and choice lists to try.

use crate::bits::Bits;
use crate::random::Random;

pub const MAX_JOBS: usize = 256;
pub const MAX_JOB_ACTIONS: usize = 255;
pub const MAX_ACTIONS: usize = 2048;
pub const MAX_CHOICES: usize = 4096;
pub const MAX_COST: u8 = 15;
pub const FORMS: [u32; 2] = [1, 2];

/// The most children that one job can have: of its 255 actions one cannot be
/// entered and 29 must be, each by 8 joins at the most.
pub const MAX_CHILDREN: usize = 225;

#[derive(Clone, Copy, Debug, PartialEq)]
pub struct Action {
    pub child: Option<u8>,
    pub target: Option<u8>,
    pub cost: u8,
}

impl Default for Action {
    fn default() -> Action {
        Action {
            child: None,
            target: None,
            cost: 1,
        }
    }
}

#[derive(Clone, Debug, Default)]
pub struct Job {
    pub frame: u16,
    pub actions: Vec<Action>,
}

/// A plan that need not keep any rule.
#[derive(Clone, Debug)]
pub struct Sketch {
    pub form: u32,
    pub jobs: Vec<Job>,
}

impl Sketch {
    pub fn actions(&self) -> usize {
        self.jobs.iter().map(|job| job.actions.len()).sum()
    }

    /// The same plan in this form.
    pub fn in_form(&self, form: u32) -> Sketch {
        Sketch {
            form,
            ..self.clone()
        }
    }

    /// The same plan in form 2, with costs by the action's number in the plan.
    pub fn costed(mut self, mut cost: impl FnMut(usize) -> u8) -> Sketch {
        self.form = 2;
        let actions = self.jobs.iter_mut().flat_map(|job| &mut job.actions);
        for (at, action) in actions.enumerate() {
            action.cost = cost(at);
        }
        self
    }

    /// This plan and another under a new root with a frame. Its numbers must
    /// fit, and each plan's root have an action.
    pub fn paired(&self, other: &Sketch, frame: u16) -> Sketch {
        let mut jobs = vec![Job {
            frame,
            actions: vec![Action::default(); 5],
        }];
        for (position, plan) in [(0, self), (2, other)] {
            let root = jobs.len();
            jobs[0].actions[position].child = Some(root as u8);
            jobs.extend(plan.jobs.iter().cloned());
            for action in jobs[root..].iter_mut().flat_map(|job| &mut job.actions) {
                action.child = action.child.map(|child| child + root as u8);
            }
            let last = jobs[root].actions.last_mut();
            last.expect("a root has an action").target = Some(4);
        }
        Sketch {
            form: self.form.max(other.form),
            jobs,
        }
    }

    /// The plan's bytes, with numbers too large for their field cut.
    pub fn bytes(&self) -> Vec<u8> {
        let mut bits = Bits::default();
        bits.put(8, self.form as usize);
        bits.put(9, self.jobs.len());
        for job in &self.jobs {
            bits.put(16, usize::from(job.frame));
            bits.put(8, job.actions.len());
            for action in &job.actions {
                for number in [action.child, action.target] {
                    bits.put(1, usize::from(number.is_some()));
                    if let Some(number) = number {
                        bits.put(8, usize::from(number));
                    }
                }
                if self.form == 2 {
                    bits.put(4, usize::from(action.cost));
                }
            }
        }
        bits.bytes
    }

    /// The plan's open table.
    pub fn rows(&self) -> Vec<u16> {
        let plus_one = |number: Option<u8>| number.map_or(0, |n| u16::from(n) + 1);
        let mut rows = Vec::with_capacity(5 * self.actions());
        for (number, job) in self.jobs.iter().enumerate() {
            for action in &job.actions {
                rows.extend([
                    number as u16,
                    job.frame,
                    plus_one(action.child),
                    plus_one(action.target),
                    action.cost.into(),
                ]);
            }
        }
        rows
    }
}

#[derive(Clone, Copy, Debug)]
pub enum Shape {
    /// Each job spawns the next.
    Chain,
    /// One job spawns as many as it can.
    Fan,
    /// Each job spawns two.
    Pairs,
    /// Each job but the last few spawns one that spawns and one that does not.
    Comb,
    /// Parents are any jobs.
    Any,
    /// Parents are one of the last four jobs.
    Recent,
}

pub const SHAPES: [Shape; 6] = [
    Shape::Chain,
    Shape::Fan,
    Shape::Pairs,
    Shape::Comb,
    Shape::Any,
    Shape::Recent,
];

#[derive(Clone, Copy, Debug)]
pub enum Aim {
    Any,
    Early,
    Late,
}

/// How the costs of a plan of form 2 are chosen.
#[derive(Clone, Copy, Debug)]
pub enum Costs {
    Ones,
    Largest,
    Any,
    /// Mostly 1, and a few large ones.
    Few,
    /// Equal within each job.
    ByJob,
}

pub const COSTS: [Costs; 5] = [
    Costs::Ones,
    Costs::Largest,
    Costs::Any,
    Costs::Few,
    Costs::ByJob,
];

impl Costs {
    fn lay(self, random: &mut Random, jobs: &mut [Job]) {
        let most = usize::from(MAX_COST);
        for job in jobs {
            let of_job = random.within(1, most);
            for action in &mut job.actions {
                let cost = match self {
                    Costs::Ones => 1,
                    Costs::Largest => most,
                    Costs::Any => random.within(1, most),
                    Costs::Few if random.chance(90) => 1,
                    Costs::Few => random.within(most / 2, most),
                    Costs::ByJob => of_job,
                };
                action.cost = cost as u8;
            }
        }
    }
}

/// What a plan is to look like.
#[derive(Clone, Copy, Debug)]
pub struct Wish {
    pub shape: Shape,
    pub jobs: usize,
    /// As near as the rules let it come.
    pub actions: usize,
    /// Extra actions go to few jobs instead of to all.
    pub lumped: bool,
    /// Spawns stand before everything else.
    pub spawns_first: bool,
    pub aim: Aim,
    /// Percent of the actions that send a join without having to.
    pub joins: usize,
    /// The largest frame.
    pub frame: u16,
    /// The costs of a plan of form 2; without them the form is 1.
    pub costs: Option<Costs>,
}

impl Wish {
    pub fn any(random: &mut Random, jobs: usize, actions: usize) -> Wish {
        Wish {
            shape: random.pick(&SHAPES),
            jobs,
            actions,
            lumped: random.chance(30),
            spawns_first: random.chance(30),
            aim: random.pick(&[Aim::Any, Aim::Any, Aim::Early, Aim::Late]),
            joins: random.pick(&[0, 10, 30, 100]),
            frame: random.pick(&[1, 2, 9, 1000, u16::MAX]),
            costs: random.chance(50).then(|| random.pick(&COSTS)),
        }
    }

    /// A plan that keeps every rule.
    pub fn grant(&self, random: &mut Random) -> Sketch {
        let parents = self.parents(random);
        let mut children = vec![Vec::new(); self.jobs];
        for (before, &parent) in parents.iter().enumerate() {
            children[parent].push(before + 1);
        }
        let counts = self.counts(random, &children);
        let mut sketch = Sketch {
            form: if self.costs.is_some() { 2 } else { 1 },
            jobs: counts
                .iter()
                .map(|&count| Job {
                    frame: random.within(1, usize::from(self.frame)) as u16,
                    actions: vec![Action::default(); count],
                })
                .collect(),
        };
        for (job, own) in children.iter_mut().enumerate() {
            random.shuffle(own);
            if !own.is_empty()
                && (self.spawns_first || !self.tie(random, &mut sketch, job, own, false))
            {
                let tied = self.tie(random, &mut sketch, job, own, true);
                assert!(tied, "spawns first always leave room");
            }
        }
        if let Some(costs) = self.costs {
            costs.lay(random, &mut sketch.jobs);
        }
        sketch
    }

    /// The parents of jobs 1, 2 and so on.
    fn parents(&self, random: &mut Random) -> Vec<usize> {
        let mut children = vec![0; self.jobs];
        (1..self.jobs)
            .map(|job| {
                let wanted = match self.shape {
                    Shape::Chain => job - 1,
                    Shape::Fan => 0,
                    Shape::Pairs => (job - 1) / 2,
                    Shape::Comb => (job - 1) / 2 * 2,
                    Shape::Any => random.below(job),
                    Shape::Recent => job - random.within(1, job.min(4)),
                };
                let parent = (wanted..job)
                    .find(|&parent| children[parent] < MAX_CHILDREN)
                    .expect("the job before has no children");
                children[parent] += 1;
                parent
            })
            .collect()
    }

    fn counts(&self, random: &mut Random, children: &[Vec<usize>]) -> Vec<usize> {
        let mut counts: Vec<usize> = children
            .iter()
            .map(|own| match own.len() {
                0 => 1,
                count => count + 1 + count.div_ceil(8),
            })
            .collect();
        let most = self
            .actions
            .min(MAX_ACTIONS)
            .min(MAX_JOB_ACTIONS * self.jobs);
        let mut extra = most.saturating_sub(counts.iter().sum());
        while extra > 0 {
            let job = random.below(self.jobs);
            let room = extra.min(MAX_JOB_ACTIONS - counts[job]);
            let more = if self.lumped { room } else { room.min(1) };
            counts[job] += more;
            extra -= more;
        }
        counts
    }

    /// Gives a job its spawns and its children their joins, if they fit.
    fn tie(
        &self,
        random: &mut Random,
        sketch: &mut Sketch,
        job: usize,
        children: &[usize],
        spawns_first: bool,
    ) -> bool {
        let count = sketch.jobs[job].actions.len();
        let mut places: Vec<usize> = (0..count - 2).collect();
        if !spawns_first {
            random.shuffle(&mut places);
        }
        places.truncate(children.len());
        places.sort_unstable();

        let mut entering = vec![0; count];
        let mut aim = |random: &mut Random, spawn: usize| {
            let open: Vec<usize> = (spawn + 2..count)
                .filter(|&t| entering[t] < 8 && places.binary_search(&(t - 1)).is_err())
                .collect();
            let target = match self.aim {
                Aim::Any if !open.is_empty() => random.pick(&open),
                Aim::Early => *open.first()?,
                _ => *open.last()?,
            };
            entering[target] += 1;
            Some(target as u8)
        };

        // The last spawn has the fewest targets to go to.
        let mut needed = Vec::new();
        for &spawn in places.iter().rev() {
            match aim(random, spawn) {
                Some(target) => needed.push(target),
                None => return false,
            }
        }
        needed.reverse();
        for ((&child, &spawn), &target) in children.iter().zip(&places).zip(&needed) {
            sketch.jobs[job].actions[spawn].child = Some(child as u8);
            let (last, others) = sketch.jobs[child]
                .actions
                .split_last_mut()
                .expect("a job has an action");
            last.target = Some(target);
            for action in others {
                if random.chance(self.joins) {
                    action.target = aim(random, spawn);
                }
            }
        }
        true
    }
}

/// A plan of a size that is mostly small.
pub fn any_plan(random: &mut Random) -> Sketch {
    let (jobs, actions) = match random.below(100) {
        0..=39 => (random.within(1, 5), random.within(1, 20)),
        40..=79 => (random.within(1, 16), random.within(1, 80)),
        80..=96 => (random.within(1, 64), random.within(1, 400)),
        _ => (random.within(1, MAX_JOBS), random.within(1, MAX_ACTIONS)),
    };
    let wish = Wish::any(random, jobs, actions);
    wish.grant(random)
}

/// A list of choices that is accepted for the worker count.
pub fn any_choices(random: &mut Random, workers: usize) -> Vec<u8> {
    let one = random.below(workers) as u8;
    let length = match random.below(100) {
        0..=19 => 1,
        20..=59 => random.within(1, 8),
        60..=96 => random.within(9, 200),
        97 => random.within(201, MAX_CHOICES),
        _ => MAX_CHOICES,
    };
    match random.below(10) {
        0 if workers == 1 => Vec::new(),
        0 | 1 => vec![one; length],
        2 => (0..length).map(|k| (k % workers) as u8).collect(),
        3 => (0..length)
            .map(|_| random.pick(&[0, one, workers as u8 - 1]))
            .collect(),
        _ => (0..length).map(|_| random.below(workers) as u8).collect(),
    }
}

/// What is read from one input: worker count, choice count, choices, plan.
pub fn whole_input(workers: u8, choices: &[u8], plan: &[u8]) -> Vec<u8> {
    let count = (choices.len() as u16).to_be_bytes();
    [&[workers], &count[..], choices, plan].concat()
}

/// Every plan of form 1, at most three jobs and `most` actions that keeps the
/// rules, all with the same three frames.
pub fn small_plans(most: usize, mut each: impl FnMut(&Sketch)) {
    let frames = [5, 3, 9];
    let lists = |total: usize| {
        let mut lists = vec![vec![total]];
        for first in 1..total {
            lists.push(vec![first, total - first]);
            for second in 1..total - first {
                lists.push(vec![first, second, total - first - second]);
            }
        }
        lists
    };
    for counts in (1..=most).flat_map(lists) {
        let empty = Sketch {
            form: 1,
            jobs: counts
                .iter()
                .zip(frames)
                .map(|(&count, frame)| Job {
                    frame,
                    actions: vec![Action::default(); count],
                })
                .collect(),
        };
        place_spawns(&empty, 1, &mut vec![(0, 0)], &mut each);
    }
}

fn place_spawns(
    sketch: &Sketch,
    child: usize,
    spawns: &mut Vec<(usize, usize)>,
    each: &mut impl FnMut(&Sketch),
) {
    if child == sketch.jobs.len() {
        place_joins(sketch, 1, 0, spawns, each);
        return;
    }
    for parent in 0..child {
        for place in 0..sketch.jobs[parent].actions.len() {
            if sketch.jobs[parent].actions[place].child.is_some() {
                continue;
            }
            let mut next = sketch.clone();
            next.jobs[parent].actions[place].child = Some(child as u8);
            spawns.push((parent, place));
            place_spawns(&next, child + 1, spawns, each);
            spawns.pop();
        }
    }
}

fn place_joins(
    sketch: &Sketch,
    job: usize,
    place: usize,
    spawns: &[(usize, usize)],
    each: &mut impl FnMut(&Sketch),
) {
    if job == sketch.jobs.len() {
        each(sketch);
        return;
    }
    let last = place + 1 == sketch.jobs[job].actions.len();
    let (next_job, next_place) = if last { (job + 1, 0) } else { (job, place + 1) };
    if !last {
        place_joins(sketch, next_job, next_place, spawns, each);
    }
    let (parent, spawn) = spawns[job];
    for target in spawn + 2..sketch.jobs[parent].actions.len() {
        if sketch.jobs[parent].actions[target - 1].child.is_none() {
            let mut next = sketch.clone();
            next.jobs[job].actions[place].target = Some(target as u8);
            place_joins(&next, next_job, next_place, spawns, each);
        }
    }
}

/// Every list of at most `most` choices below `workers`.
pub fn small_lists(workers: usize, most: usize) -> Vec<Vec<u8>> {
    let mut lists = vec![Vec::new()];
    let mut from = 0;
    for _ in 0..most {
        let upto = lists.len();
        for at in from..upto {
            for choice in 0..workers {
                let mut list = lists[at].clone();
                list.push(choice as u8);
                lists.push(list);
            }
        }
        from = upto;
    }
    lists
}
