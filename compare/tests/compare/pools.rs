//! Runs from a central pool.

use crate::both::{Both, SCHEDULE_ROOM};
use compare::inputs::{
    any_plan, small_plans, Costs, Sketch, Wish, FORMS, MAX_ACTIONS, MAX_JOBS, SHAPES,
};
use compare::random::Random;
use compare::schedules::{self, Schedule};

/// Numbers that are no worker count.
const NO_COUNTS: [u32; 8] = [0, 17, 18, 255, 256, 257, 1 << 16 | 1, u32::MAX];

fn with_counts(both: &mut Both, sketch: &Sketch, counts: impl Iterator<Item = u32>) {
    let plan = sketch.bytes();
    let facts = both.facts(&plan, &sketch.rows());
    for workers in counts {
        both.pool_claimed(&plan, &facts, workers);
    }
}

/// Each plan of at most three jobs and ten actions by one to four workers, in
/// form 1 and with costs from 1 to 3 that go round.
pub fn small(both: &mut Both) {
    let mut turn = 0;
    small_plans(10, |sketch| {
        with_counts(both, sketch, 1..=4);
        turn += 1;
        let costed = sketch
            .clone()
            .costed(|at| 1 + ((turn * 7 + at * 5) / 3 % 3) as u8);
        with_counts(both, &costed, 1..=4);
    });
}

pub fn generated(both: &mut Both) {
    let mut random = Random(0x5EED_0010);
    for _ in 0..12_000 {
        let sketch = any_plan(&mut random);
        let counts = [1, 2, random.within(3, 8), random.within(9, 16)];
        with_counts(both, &sketch, counts.into_iter().map(|count| count as u32));
        both.generated += counts.len() as u64;
    }
}

/// The largest plans of every shape, with every worker count.
pub fn largest(both: &mut Both) {
    let mut random = Random(0x5EED_0011);
    for shape in SHAPES {
        for costs in [None, Some(Costs::Any), Some(Costs::Largest)] {
            let wish = Wish {
                shape,
                costs,
                ..Wish::any(&mut random, MAX_JOBS, MAX_ACTIONS)
            };
            with_counts(both, &wish.grant(&mut random), 1..=16);
        }
    }
}

/// A plan whose costs are all 1 runs equally in both forms.
pub fn in_both_forms(both: &mut Both) {
    let mut random = Random(0x5EED_0012);
    for _ in 0..400 {
        let sketch = any_plan(&mut random).costed(|_| 1);
        let [one, two] = FORMS.map(|form| {
            let plan = sketch.in_form(form).bytes();
            let facts = both.facts(&plan, &sketch.rows());
            (plan, facts)
        });
        for workers in 1..=16 {
            let [a, b] = [&one, &two].map(|(plan, facts)| {
                let (tally, schedule) = both.pool_claimed(plan, facts, workers);
                (
                    tally,
                    Schedule::read(&schedule).expect("a pool wrote it").rows,
                )
            });
            assert_eq!(a, b, "{:02x?}, {workers} workers", one.0);
        }
    }
}

/// What is told goes by the order of the causes: the plan, the workers, the room.
pub fn turned_down(both: &mut Both) {
    let mut random = Random(0x5EED_0013);
    for _ in 0..4_000 {
        let sketch = any_plan(&mut random);
        let mut plan = sketch.bytes();
        let need = schedules::length(sketch.form, sketch.actions());
        if random.chance(30) {
            let at = random.below(plan.len());
            plan[at] ^= 1 << random.below(8);
        }
        let read = both.measure(&plan);
        let bad = random.chance(40);
        let workers = match bad {
            true => random.pick(&NO_COUNTS),
            false => random.within(1, 16) as u32,
        };
        let room = match random.below(3) {
            0 => random.below(need),
            1 => need,
            _ => need + random.below(9),
        };
        let answer = both.pool(&plan, workers, room);
        match read {
            Err(refused) => assert_eq!(answer.err(), Some(refused)),
            Ok(_) if bad => assert_eq!(answer.err(), Some(7)),
            Ok(_) => {
                let need = schedules::length(plan[0].into(), read.expect("read").total as usize);
                assert_eq!(answer.err(), (room < need).then_some(9));
            }
        }
        both.generated += 1;
    }
    for count in NO_COUNTS {
        assert_eq!(both.pool(&[], count, 0).err(), Some(1));
    }
}

/// Buffers of every length.
pub fn buffers(both: &mut Both) {
    let mut random = Random(0x5EED_0014);
    for _ in 0..60 {
        let sketch = any_plan(&mut random);
        if sketch.actions() > 100 {
            continue;
        }
        let plan = sketch.bytes();
        let need = schedules::length(sketch.form, sketch.actions());
        let workers = random.within(1, 16) as u32;
        for room in (0..=need + 20).chain([SCHEDULE_ROOM]) {
            let answer = both.pool(&plan, workers, room);
            assert_eq!(answer.err(), (room < need).then_some(9));
        }
    }
}
