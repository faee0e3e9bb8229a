//! Plans turned into the other form, and their runs in both.

use crate::both::Both;
use compare::claims::Facts;
use compare::inputs::{any_choices, any_plan, Sketch, FORMS};
use compare::random::Random;
use compare::schedules::Schedule;

/// One plan in each form, and what is known of it there.
type Pair = [(Vec<u8>, Facts); 2];

/// A plan whose costs are all 1 gives the same run in both forms.
pub fn runs(both: &mut Both) {
    let mut random = Random(0x5EED_000A);
    for _ in 0..400 {
        let plans = converted(both, &any_plan(&mut random).costed(|_| 1));
        assert_eq!(plans[0].1.measures, plans[1].1.measures);
        for workers in (1..=16).chain(1..=16) {
            let choices = any_choices(&mut random, workers);
            equal_runs(both, &plans, workers as u32, &choices);
            both.generated += 2;
        }
        for (plan, _) in &plans {
            assert_eq!(both.run(plan, 17, &[17], 0), Err(7));
            assert_eq!(both.run(plan, 16, &[16], 0), Err(8));
        }
    }
}

/// What each form is turned into, which is how the plan is written in the other.
fn converted(both: &mut Both, sketch: &Sketch) -> Pair {
    FORMS.map(|form| {
        let written = sketch.in_form(form).bytes();
        let other = sketch.in_form(3 - form).bytes();
        let plan = both.convert(form, &other, written.len() + 3);
        assert_eq!(plan.as_ref(), Ok(&written), "{other:02x?}");
        let facts = both.facts(&written, &sketch.rows());
        (written, facts)
    })
}

/// The same tally and rows; the schedule of each form is for its plan alone.
fn equal_runs(both: &mut Both, plans: &Pair, workers: u32, choices: &[u8]) {
    let [one, two] = plans
        .each_ref()
        .map(|(plan, facts)| both.run_claimed(plan, facts, workers, choices));
    let rows = |bytes| Schedule::read(bytes).expect("a run wrote it").rows;
    let runs = [(one.0, rows(&one.1)), (two.0, rows(&two.1))];
    assert_eq!(runs[0], runs[1], "{:02x?} {choices:?}", plans[0].0);
    assert_eq!(both.check(&plans[0].0, &two.1), Err(11));
    assert_eq!(both.check(&plans[1].0, &one.1), Err(11));
}
