//! Plans and lists from the generator.

use crate::both::Both;
use compare::inputs::{any_choices, any_plan, MAX_CHOICES};
use compare::random::Random;
use compare::schedules;

const PLANS: usize = 20_000;

pub fn runs(both: &mut Both) {
    let mut random = Random(0x5EED_0001);
    for _ in 0..PLANS {
        let sketch = any_plan(&mut random);
        let plan = sketch.bytes();
        let facts = both.facts(&plan, &sketch.rows());
        both.run_claimed(&plan, &facts, 1, &[]);
        for _ in 0..4 {
            let workers = random.within(1, 16);
            let choices = any_choices(&mut random, workers);
            both.run_claimed(&plan, &facts, workers as u32, &choices);
            both.generated += 1;
        }
    }
}

/// Several causes at once: the first in order must be told.
pub fn turned_down(both: &mut Both) {
    let mut random = Random(0x5EED_0002);
    for _ in 0..4_000 {
        let sketch = any_plan(&mut random);
        let mut plan = sketch.bytes();
        let room = schedules::length(sketch.form, sketch.actions());
        if random.chance(20) {
            let at = random.below(plan.len());
            plan[at] ^= 1 << random.below(8);
        }
        let mut workers = random.within(1, 16) as u32;
        let mut choices = any_choices(&mut random, workers as usize);
        match random.below(6) {
            0 => choices.clear(),
            1 => choices = vec![0; MAX_CHOICES + 1],
            2 => choices.push(workers as u8),
            3 => choices.insert(0, 255),
            4 if !choices.is_empty() => {
                let at = random.below(choices.len());
                choices[at] = random.within(workers as usize, 255) as u8;
            }
            _ => {}
        }
        if random.chance(30) {
            workers = random.pick(&[0, 17, 18, 31, 32, 255, 256, 257, 1 << 16, u32::MAX]);
        }
        let room = match random.below(3) {
            0 => random.below(room),
            1 => room,
            _ => room + random.below(9),
        };
        // The answer may be any; both must give the same.
        let _ = both.run(&plan, workers, &choices, room);
        both.generated += 1;
    }
}
