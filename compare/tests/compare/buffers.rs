//! Buffers that are too short, just right, or longer.

use crate::both::{fits, Both};
use compare::inputs::{any_choices, any_plan, Sketch, FORMS};
use compare::random::Random;
use compare::schedules;

pub fn all(both: &mut Both) {
    let mut random = Random(0x5EED_0007);
    let mut plans = [0; 3];
    while plans[1] < 60 || plans[2] < 60 {
        let sketch = any_plan(&mut random);
        if sketch.actions() <= 100 && plans[sketch.form as usize] < 60 {
            plans[sketch.form as usize] += 1;
            every_length(both, &mut random, &sketch);
        }
    }
}

fn every_length(both: &mut Both, random: &mut Random, sketch: &Sketch) {
    let plan = sketch.bytes();
    let rows = sketch.rows();
    let workers = random.within(1, 16);
    let choices = any_choices(random, workers);
    let need = schedules::length(sketch.form, sketch.actions());
    for room in 0..=need + 20 {
        let answer = both.run(&plan, workers as u32, &choices, room);
        assert_eq!(answer.err(), (room < need).then_some(9));
    }
    for room in 0..=rows.len() + 20 {
        let answer = both.plan_to_table(&plan, room);
        assert_eq!(answer.err(), (room < rows.len()).then_some(9));
    }
    for form in FORMS {
        let need = sketch.in_form(form).bytes().len();
        // What is told of the plan's form or of its costs goes before the room.
        let (closed, converted) = match fits(form, &rows) {
            _ if form == sketch.form => (None, Some(2)),
            true => (None, None),
            false => (Some(3), Some(15)),
        };
        for room in 0..=need + 20 {
            let short = (room < need).then_some(9);
            let answer = both.table_to_plan(form, &rows, room);
            assert_eq!(answer.err(), closed.or(short));
            let answer = both.convert(form, &plan, room);
            assert_eq!(answer.err(), converted.or(short));
        }
    }
}
