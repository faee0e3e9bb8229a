//! Plans turned into the other form.

use crate::plan::{Form, Plan};
use crate::refusal;

/// Writes a plan of form 1 in form 2, with all costs 1, and gives how many
/// bytes it takes.
pub fn to_form_2(plan: &[u8], bytes: &mut [u8]) -> Result<usize, u32> {
    Plan::read_as(Form::One, plan)?.write(Form::Two, bytes)
}

/// Writes a plan of form 2, whose costs must all be 1, in form 1, and gives how
/// many bytes it takes.
pub fn to_form_1(plan: &[u8], bytes: &mut [u8]) -> Result<usize, u32> {
    let plan = Plan::read_as(Form::Two, plan)?;
    if plan.actions.iter().any(|action| action.cost != 1) {
        return Err(refusal::COST);
    }
    plan.write(Form::One, bytes)
}
