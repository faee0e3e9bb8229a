//! The largest sizes, and one step beyond them.

use crate::both::{Both, NO_FORMS, PLAN_ROOM};
use compare::inputs::{
    any_choices, Action, Aim, Costs, Job, Shape, Sketch, Wish, COSTS, FORMS, MAX_ACTIONS,
    MAX_CHILDREN, MAX_CHOICES, MAX_COST, MAX_JOBS, MAX_JOB_ACTIONS, SHAPES,
};
use compare::random::Random;
use compare::schedules::{last_round, Schedule};

const CHAIN: Wish = Wish {
    shape: Shape::Chain,
    jobs: MAX_JOBS,
    actions: 0,
    lumped: false,
    spawns_first: true,
    aim: Aim::Any,
    joins: 0,
    frame: u16::MAX,
    costs: None,
};

/// The most work that a plan can have, in rounds of one worker.
const MAX_WORK: u32 = 30_720;

pub fn all(both: &mut Both) {
    let mut random = Random(0x5EED_0003);
    largest(both, &mut random);
    costed(both, &mut random);
    longest(both, &mut random);
    fans(both, &mut random);
    joins(both);
    sizes(both);
    forms_and_costs(both);
    loops(both);
}

/// A plan in form 1, and in form 2 with costs that are all of 1 to 15.
fn in_forms(jobs: Vec<Job>) -> [Sketch; 2] {
    let one = Sketch { form: 1, jobs };
    let costs = |at| 1 + (at * 4 % 15) as u8;
    [one.clone(), one.costed(costs)]
}

/// Runs with every worker count and the lists that ask the most.
fn run_all(both: &mut Both, random: &mut Random, sketch: &Sketch) {
    let plan = sketch.bytes();
    let facts = both.facts(&plan, &sketch.rows());
    both.run_claimed(&plan, &facts, 1, &[]);
    for workers in 1..=16 {
        let last = workers as u8 - 1;
        for choices in [
            vec![0],
            vec![last],
            vec![last / 2; MAX_CHOICES],
            (0..=last).collect(),
            (0..=last).rev().collect(),
            any_choices(random, workers),
            most_choices(random, workers),
        ] {
            both.run_claimed(&plan, &facts, workers as u32, &choices);
            both.generated += 1;
        }
    }
}

/// As many choices as a list may have.
fn most_choices(random: &mut Random, workers: usize) -> Vec<u8> {
    (0..MAX_CHOICES)
        .map(|_| random.below(workers) as u8)
        .collect()
}

fn heavy(mut sketch: Sketch) -> Sketch {
    for job in &mut sketch.jobs {
        job.frame = u16::MAX;
    }
    sketch
}

fn largest(both: &mut Both, random: &mut Random) {
    for shape in SHAPES {
        for actions in [0, MAX_ACTIONS] {
            for aim in [Aim::Any, Aim::Early, Aim::Late] {
                let wish = Wish {
                    shape,
                    actions,
                    aim,
                    spawns_first: random.chance(50),
                    lumped: random.chance(50),
                    joins: random.pick(&[0, 100]),
                    ..CHAIN
                };
                let sketch = heavy(wish.grant(random));
                assert!(actions == 0 || sketch.actions() == MAX_ACTIONS);
                run_all(both, random, &sketch);
            }
        }
    }
}

/// The largest plans of form 2, every shape with every kind of costs.
fn costed(both: &mut Both, random: &mut Random) {
    for shape in SHAPES {
        for costs in COSTS {
            let wish = Wish {
                shape,
                actions: MAX_ACTIONS,
                aim: random.pick(&[Aim::Any, Aim::Early, Aim::Late]),
                spawns_first: random.chance(50),
                lumped: random.chance(50),
                joins: random.pick(&[0, 100]),
                costs: Some(costs),
                ..CHAIN
            };
            let sketch = heavy(wish.grant(random));
            assert_eq!(sketch.actions(), MAX_ACTIONS);
            run_some(both, random, &sketch);
        }
    }
}

/// Runs that take up to as many rounds as there can be.
fn longest(both: &mut Both, random: &mut Random) {
    for jobs in [9, 64, MAX_JOBS] {
        let wish = Wish {
            jobs,
            actions: MAX_ACTIONS,
            lumped: jobs == 9,
            aim: Aim::Early,
            costs: Some(Costs::Largest),
            ..CHAIN
        };
        let sketch = wish.grant(random);
        let plan = sketch.bytes();
        let facts = both.facts(&plan, &sketch.rows());
        assert_eq!(facts.measures.work, MAX_WORK);
        // Alone, or beside fifteen who ask one another in vain.
        for (workers, choices) in [(1, &[][..]), (16, &[15]), (16, &[15, 14, 13])] {
            let (tally, schedule) = both.run_claimed(&plan, &facts, workers, choices);
            assert_eq!(tally.rounds, MAX_WORK);
            assert_eq!(tally.idle, (workers - 1) * MAX_WORK);
            last_rounds(both, &plan, &schedule);
        }
        run_some(both, random, &sketch);
        // As slow as can be but for one action of each cost.
        for cost in 1..=MAX_COST {
            let sketch = sketch
                .clone()
                .costed(|at| if at == 1 { cost } else { MAX_COST });
            let plan = sketch.bytes();
            let facts = both.facts(&plan, &sketch.rows());
            both.run_claimed(&plan, &facts, 16, &[0]);
        }
    }
}

/// The schedule as late as its bits allow, and one round later.
fn last_rounds(both: &mut Both, plan: &[u8], schedule: &[u8]) {
    let mut schedule = Schedule::read(schedule).expect("a run wrote it");
    for row in &mut schedule.rows {
        row.round += last_round(2) - MAX_WORK;
    }
    assert_eq!(both.check(plan, &schedule.bytes()), Ok(()));
    // The last round comes round to 0.
    schedule.rows.iter_mut().for_each(|row| row.round += 1);
    assert_eq!(both.check(plan, &schedule.bytes()), Err(11));
}

/// Runs with the fewest and the most workers, and some lists.
fn run_some(both: &mut Both, random: &mut Random, sketch: &Sketch) {
    let plan = sketch.bytes();
    let facts = both.facts(&plan, &sketch.rows());
    for workers in [1, 2, 3, 8, 15, 16] {
        let last = workers as u8 - 1;
        for choices in [
            vec![0],
            vec![last; MAX_CHOICES],
            any_choices(random, workers),
            most_choices(random, workers),
        ] {
            both.run_claimed(&plan, &facts, workers as u32, &choices);
            both.generated += 1;
        }
    }
}

fn fans(both: &mut Both, random: &mut Random) {
    for jobs in [2, 8, 9, 10, 100, MAX_CHILDREN, MAX_CHILDREN + 1] {
        let wish = Wish {
            shape: Shape::Fan,
            jobs,
            ..CHAIN
        };
        let sketch = wish.grant(random);
        assert_eq!(children(&sketch.jobs[0]), jobs - 1);
        run_all(both, random, &sketch);
        // Children that run for as long as can be.
        let long = Wish {
            actions: MAX_ACTIONS,
            lumped: true,
            ..wish
        };
        let sketch = long.grant(random);
        run_all(both, random, &sketch);
        let slow = Wish {
            costs: Some(random.pick(&COSTS)),
            ..long
        };
        let sketch = slow.grant(random);
        run_some(both, random, &sketch);
    }
    // More children of one job than the rules of joins have room for.
    for count in [MAX_CHILDREN + 1, MAX_JOB_ACTIONS] {
        let mut jobs = vec![job(MAX_JOB_ACTIONS)];
        for child in 1..=count {
            jobs[0].actions[child - 1].child = Some(child as u8);
            let mut own = job(1);
            own.actions[0].target = Some(MAX_JOB_ACTIONS as u8 - 1);
            jobs.push(own);
        }
        for sketch in in_forms(jobs) {
            turned_down(both, &sketch, 5);
        }
    }
}

fn children(job: &Job) -> usize {
    job.actions
        .iter()
        .filter(|action| action.child.is_some())
        .count()
}

fn job(actions: usize) -> Job {
    Job {
        frame: 1,
        actions: vec![Action::default(); actions],
    }
}

fn turned_down(both: &mut Both, sketch: &Sketch, refusal: u32) {
    let plan = sketch.bytes();
    both.all_of_plan(&plan, &[]);
    assert_eq!(both.measure(&plan), Err(refusal));
    let rows = sketch.rows();
    for room in [0, plan.len(), plan.len() + 3] {
        assert_eq!(both.table_to_plan(sketch.form, &rows, room), Err(refusal));
    }
}

/// Up to eight joins into one action from one child or many, then nine.
fn joins(both: &mut Both) {
    for per_child in [1, 2, 3, 4, 8, 9] {
        for total in per_child..=9 {
            let count = total / per_child;
            let rest = total % per_child;
            let mut jobs = vec![job(count + 4)];
            for child in 1..=count {
                jobs[0].actions[child - 1].child = Some(child as u8);
                let sends = per_child + if child == 1 { rest } else { 0 };
                let mut own = job(sends);
                for action in &mut own.actions {
                    action.target = Some(count as u8 + 2);
                }
                jobs.push(own);
            }
            for sketch in in_forms(jobs) {
                if total == 9 {
                    turned_down(both, &sketch, 5);
                    continue;
                }
                let plan = sketch.bytes();
                let facts = both.facts(&plan, &sketch.rows());
                for workers in 1..=16u8 {
                    let choices: Vec<u8> = (0..workers).collect();
                    both.run_claimed(&plan, &facts, u32::from(workers), &[0]);
                    both.run_claimed(&plan, &facts, u32::from(workers), &choices);
                }
            }
        }
    }
}

/// Job counts, action counts and sums at and beyond their ends.
fn sizes(both: &mut Both) {
    for count in 1..=MAX_JOB_ACTIONS {
        for sketch in in_forms(vec![job(count)]) {
            let plan = sketch.bytes();
            let facts = both.facts(&plan, &sketch.rows());
            both.run_claimed(&plan, &facts, 16, &[0]);
        }
    }
    for sketch in in_forms(vec![job(256)]) {
        let told = both.table_to_plan(sketch.form, &sketch.rows(), PLAN_ROOM);
        assert_eq!(told, Err(3));
    }
    for sketch in in_forms(vec![job(0)]) {
        assert_eq!(both.read(&sketch.bytes()), Err(3));
    }
    for frame in [0, 1, 2, 255, 256, u16::MAX - 1, u16::MAX] {
        for mut sketch in in_forms(vec![job(1)]) {
            sketch.jobs[0].frame = frame;
            let closed = both.table_to_plan(sketch.form, &sketch.rows(), 99);
            assert_eq!(closed.is_ok(), frame > 0);
            assert_eq!(both.read(&sketch.bytes()).is_ok(), frame > 0);
        }
    }

    // Job counts from 0 to 511 in the header, with jobs enough behind it.
    for jobs in 0..512 {
        let refusal = match jobs {
            1 => 0,
            2..=256 => 4,
            _ => 3,
        };
        for sketch in in_forms(vec![job(1); jobs]) {
            let plan = sketch.bytes();
            assert_eq!(both.read(&plan).err().unwrap_or(0), refusal);
            let told = both.table_to_plan(sketch.form, &sketch.rows(), PLAN_ROOM);
            let wanted = if jobs == 0 { 10 } else { refusal };
            assert_eq!(told.err().unwrap_or(0), wanted);
        }
    }

    // One action too many in all, in a plan whose rules would be broken.
    for (count, refusal) in [(8, 4), (9, 3)] {
        let mut jobs = vec![job(MAX_JOB_ACTIONS); 8];
        jobs.push(job(count));
        for sketch in in_forms(jobs) {
            turned_down(both, &sketch, refusal);
        }
    }
    // The sum is told where it is passed, even if bits run out behind it.
    let mut jobs = vec![job(MAX_JOB_ACTIONS); 8];
    jobs.push(job(9));
    for sketch in in_forms(jobs) {
        let plan = sketch.bytes();
        for length in 0..=plan.len() {
            both.read(&plan[..length]).expect_err("it is too large");
        }
    }

    // A table of far more rows than a plan may have, its last row broken.
    for form in FORMS {
        let mut rows: Vec<u16> = (0..3_000).flat_map(|job| [job, 1, 0, 0, 1]).collect();
        assert_eq!(both.table_to_plan(form, &rows, PLAN_ROOM), Err(3));
        let last = rows.len() - 2;
        rows[last] = 257;
        assert_eq!(both.table_to_plan(form, &rows, PLAN_ROOM), Err(10));
        rows[4] = 0;
        assert_eq!(both.table_to_plan(form, &rows, PLAN_ROOM), Err(10));
        rows[last] = 256;
        assert_eq!(both.table_to_plan(form, &rows, PLAN_ROOM), Err(3));
        let mut rows: Vec<u16> = (0..=u16::MAX).flat_map(|job| [job, 1, 0, 0, 1]).collect();
        assert_eq!(both.table_to_plan(form, &rows, PLAN_ROOM), Err(3));
        rows.extend([0, 1, 0, 0, 1]);
        assert_eq!(both.table_to_plan(form, &rows, PLAN_ROOM), Err(10));
    }
}

/// Every form in the first byte, and every cost.
fn forms_and_costs(both: &mut Both) {
    for mut sketch in in_forms(vec![job(3)]) {
        let good = sketch.form;
        for form in NO_FORMS {
            let told = both.table_to_plan(form, &sketch.rows(), PLAN_ROOM);
            assert_eq!(told, Err(2));
            assert_eq!(both.table_to_plan(form, &[], 0), Err(2));
        }
        let schedule = both.run(&sketch.bytes(), 1, &[], 16).expect("a run").1;
        for form in 0..=255 {
            sketch.form = form;
            let mut plan = sketch.bytes();
            both.all_of_plan(&plan, &schedule);
            // With fields of the other form behind it, or of none.
            plan.resize(16, 0);
            both.all_of_plan(&plan, &schedule);
            assert!(FORMS.contains(&form) || both.measure(&plan) == Err(2));
        }
        sketch.form = good;
        for cost in 0..=u8::MAX {
            sketch.jobs[0].actions[1].cost = cost;
            let fits = if good == 1 {
                cost == 1
            } else {
                (1..=MAX_COST).contains(&cost)
            };
            let rows = sketch.rows();
            let closed = both.table_to_plan(good, &rows, 99);
            assert_eq!(closed.as_ref().err(), (!fits).then_some(&3));
            if fits {
                let plan = sketch.bytes();
                assert_eq!(closed.as_ref(), Ok(&plan));
                let facts = both.facts(&plan, &rows);
                both.run_claimed(&plan, &facts, 1, &[]);
                both.run_claimed(&plan, &facts, 16, &[0, 5]);
            }
        }
    }
}

/// Spawns that go round, twice, to oneself, or nowhere.
fn loops(both: &mut Both) {
    for jobs in 1..=4usize {
        let mut sketch = Sketch {
            form: 1,
            jobs: vec![job(4); jobs],
        };
        for other in &mut sketch.jobs[1..] {
            other.actions[3].target = Some(3);
        }
        // Each job's spawner and the child it names there.
        let all = (jobs * (jobs + 1)).pow(jobs as u32 - 1);
        for mut code in 0..all {
            let mut next = sketch.clone();
            for place in 0..jobs - 1 {
                let spawner = code % jobs;
                code /= jobs;
                let child = code % (jobs + 1);
                code /= jobs + 1;
                next.jobs[spawner].actions[place % 2].child = Some(child as u8);
            }
            for sketch in in_forms(next.jobs) {
                let plan = sketch.bytes();
                both.all_of_plan(&plan, &[]);
                let _ = both.table_to_plan(sketch.form, &sketch.rows(), plan.len());
            }
        }
    }
}
