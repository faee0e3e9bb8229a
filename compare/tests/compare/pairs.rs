//! Two plans under a new root, and runs of what results.

use crate::both::{Both, PLAN_ROOM};
use compare::inputs::{
    any_choices, any_plan, small_plans, Sketch, Wish, FORMS, MAX_ACTIONS, MAX_JOBS,
};
use compare::random::Random;
use second::Measures;

/// Frames that are refused.
const NO_FRAMES: [u32; 6] = [0, 65_536, 65_537, 1 << 17 | 1, 1 << 31, u32::MAX];

/// What is known of a pair by its parts.
fn together(one: &Measures, two: &Measures, frame: u16) -> [u32; 4] {
    [
        one.total + two.total + 5,
        one.work + two.work + 5,
        (one.longest + 2).max(two.longest + 4),
        u32::from(frame) + one.path.max(two.path),
    ]
}

/// Pairs two plans that leave room for a root: what is written is what the
/// sketches give, is accepted, and has the measures that the parts tell.
fn accepted(both: &mut Both, one: &Sketch, two: &Sketch, frame: u16) -> Sketch {
    let sketch = one.paired(two, frame);
    let plan = sketch.bytes();
    let parts = [one.bytes(), two.bytes()];
    let [first, second] = [&parts[0][..], &parts[1][..]];
    let room = plan.len() + both.calls as usize % 3;
    let written = both.pair([first, second], frame.into(), room);
    assert_eq!(written.as_ref(), Ok(&plan), "{first:02x?} {second:02x?}");
    let whole = both.measure(&plan).expect("a pair is accepted");
    let [one, two] = [first, second].map(|part| both.measure(part).expect("a part is accepted"));
    assert_eq!(
        [whole.total, whole.work, whole.longest, whole.path],
        together(&one, &two, frame),
        "{first:02x?} {second:02x?}"
    );
    sketch
}

/// Every two of the plans of at most three jobs and seven actions, in form 1,
/// and in form 2 with all costs 1 and with costs from 1 to 3.
pub fn small(both: &mut Both) {
    let mut plans = Vec::new();
    small_plans(7, |sketch| {
        plans.push(sketch.clone());
        plans.push(sketch.in_form(2));
        plans.push(sketch.clone().costed(|at| 1 + (at * 2 % 3) as u8));
    });
    for one in &plans {
        for two in &plans {
            accepted(both, one, two, 1 + (both.calls % 9) as u16);
        }
    }
}

pub fn generated(both: &mut Both) {
    let mut random = Random(0x5EED_000C);
    let mut pairs = 0;
    while pairs < 4_000 {
        let [one, two] = [any_plan(&mut random), any_plan(&mut random)];
        let frame = random.pick(&[1, 2, 9, 1000, u16::MAX]);
        if !leaves_room(&one, &two) {
            let parts = [&one.bytes()[..], &two.bytes()[..]];
            assert_eq!(both.pair(parts, frame.into(), PLAN_ROOM), Err(17));
            continue;
        }
        pairs += 1;
        let sketch = accepted(both, &one, &two, frame);
        let plan = sketch.bytes();
        let facts = both.facts(&plan, &sketch.rows());
        both.run_claimed(&plan, &facts, 1, &[]);
        for _ in 0..2 {
            let workers = random.within(1, 16);
            let choices = any_choices(&mut random, workers);
            both.run_claimed(&plan, &facts, workers as u32, &choices);
            both.generated += 1;
        }
    }
}

fn leaves_room(one: &Sketch, two: &Sketch) -> bool {
    one.jobs.len() + two.jobs.len() < MAX_JOBS && one.actions() + two.actions() + 5 <= MAX_ACTIONS
}

/// As many jobs and actions as there can be, and one more; frames at both ends;
/// pairs of pairs, as deep as they go.
pub fn limits(both: &mut Both) {
    let mut random = Random(0x5EED_000D);
    for jobs in [1, 2, 100, 127, 128, 200, 253, 254] {
        for (more, refused) in [(255 - jobs, None), (256 - jobs, Some(17))] {
            let plans = [jobs, more].map(|jobs| sized(&mut random, jobs, 3 * jobs));
            at_limit(both, &mut random, &plans, refused);
        }
    }
    for actions in [1, 5, 255, 1000, 1021, 1022, 2000, 2038, 2042] {
        for (more, refused) in [(2043 - actions, None), (2044 - actions, Some(17))] {
            let plans = [actions, more].map(|n: usize| sized(&mut random, n.div_ceil(100), n));
            assert_eq!(plans[0].actions() + plans[1].actions(), actions + more);
            at_limit(both, &mut random, &plans, refused);
        }
    }
    // One plan alone that leaves no room for a root and another plan.
    let small = sized(&mut random, 1, 1);
    for (jobs, actions) in [(255, 1000), (256, 1000), (20, 2043), (20, 2048)] {
        let large = sized(&mut random, jobs, actions);
        at_limit(both, &mut random, &[large.clone(), small.clone()], Some(17));
        at_limit(both, &mut random, &[small.clone(), large.clone()], Some(17));
        at_limit(both, &mut random, &[large.clone(), large], Some(17));
    }
    nested(both, &small);
    // The same bytes lent twice.
    let plan = small.bytes();
    let twice = both.pair([&plan, &plan], 9, PLAN_ROOM);
    assert_eq!(twice, Ok(small.paired(&small, 9).bytes()));
    for frame in [1, 2, 65_534, 65_535] {
        accepted(both, &small, &small, frame);
    }
}

fn sized(random: &mut Random, jobs: usize, actions: usize) -> Sketch {
    let sketch = Wish::any(random, jobs, actions).grant(random);
    assert_eq!(sketch.jobs.len(), jobs);
    sketch
}

fn at_limit(both: &mut Both, random: &mut Random, plans: &[Sketch; 2], refused: Option<u32>) {
    let [one, two] = plans;
    match refused {
        None => {
            let sketch = accepted(both, one, two, u16::MAX);
            let plan = sketch.bytes();
            let facts = both.facts(&plan, &sketch.rows());
            for workers in [1, 4, 16] {
                let choices = any_choices(random, workers);
                both.run_claimed(&plan, &facts, workers as u32, &choices);
            }
        }
        Some(_) => {
            let parts = [&one.bytes()[..], &two.bytes()[..]];
            for frame in [0, 1, 65_535, 65_536] {
                for room in [0, PLAN_ROOM] {
                    assert_eq!(both.pair(parts, frame, room).err(), refused);
                }
            }
        }
    }
}

/// A pair on one side of the next, until the jobs run out.
fn nested(both: &mut Both, small: &Sketch) {
    for first in [true, false] {
        let mut whole = small.clone();
        while leaves_room(&whole, small) {
            whole = match first {
                true => accepted(both, &whole, small, 1),
                false => accepted(both, small, &whole, 1),
            };
        }
        assert_eq!(whole.jobs.len(), 255);
    }
}

/// Each plan damaged, or both, the frame out of range, the room short: the
/// first cause in order is told.
pub fn turned_down(both: &mut Both) {
    let mut random = Random(0x5EED_000E);
    for _ in 0..20_000 {
        let mut plans = [any_plan(&mut random), any_plan(&mut random)].map(|plan| plan.bytes());
        for plan in &mut plans {
            if random.chance(40) {
                damage(&mut random, plan);
            }
        }
        let frame = match random.chance(30) {
            true => random.pick(&NO_FRAMES),
            false => random.within(1, 65_535) as u32,
        };
        let [one, two] = &plans;
        let told = [one, two].map(|plan| both.measure(plan).err());
        let some = random.below(32 + one.len() + two.len());
        let room = random.pick(&[0, some, PLAN_ROOM]);
        let answer = both.pair([one, two], frame, room);
        if let Some(refused) = told[0].or(told[1]) {
            assert_eq!(answer.err(), Some(refused));
        } else if NO_FRAMES.contains(&frame) {
            assert_eq!(answer.err(), Some(17));
        }
        both.generated += 1;
    }
    every_length(both, &mut random);
}

fn damage(random: &mut Random, plan: &mut Vec<u8>) {
    match random.below(4) {
        0 => plan.truncate(random.below(plan.len())),
        1 => plan.push(0),
        _ => {
            let at = random.below(plan.len());
            plan[at] ^= 1 << random.below(8);
        }
    }
}

/// Rooms of every length, in each two forms.
fn every_length(both: &mut Both, random: &mut Random) {
    for form in FORMS {
        for other in FORMS {
            let [one, two] = [(form, 3), (other, 5)]
                .map(|(form, jobs)| sized(random, jobs, 4 * jobs).costed(|_| 1).in_form(form));
            let need = one.paired(&two, 7).bytes().len();
            let parts = [&one.bytes()[..], &two.bytes()[..]];
            for room in 0..need + 20 {
                let answer = both.pair(parts, 7, room);
                assert_eq!(answer.err(), (room < need).then_some(9));
            }
        }
    }
}
