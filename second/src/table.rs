//! The open table: five numbers an action.

use crate::plan::{Draft, Form, Plan};
use crate::refusal;

/// The numbers in a row.
const ROW: usize = 5;

fn opened(number: Option<u8>) -> u16 {
    number.map_or(0, |n| u16::from(n) + 1)
}

fn closed(number: u16) -> Option<u8> {
    (number > 0).then_some(number.wrapping_sub(1) as u8)
}

/// Writes a plan's open table and gives how many rows it has.
pub fn plan_to_table(plan: &[u8], rows: &mut [u16]) -> Result<usize, u32> {
    let (_, plan) = Plan::read(plan)?;
    let length = ROW * plan.actions.len();
    let rows = rows.get_mut(..length).ok_or(refusal::ROOM)?;
    let mut rows = rows.chunks_exact_mut(ROW);
    for (number, job) in plan.jobs.iter().enumerate() {
        for (action, row) in plan.actions[job.range()].iter().zip(&mut rows) {
            row.copy_from_slice(&[
                number as u16,
                job.frame,
                opened(action.child),
                opened(action.target),
                u16::from(action.cost),
            ]);
        }
    }
    Ok(plan.actions.len())
}

/// Writes the plan of an open table in this form, 1 or 2, and gives how many
/// bytes it takes.
pub fn table_to_plan(form: u32, rows: &[u16], plan: &mut [u8]) -> Result<usize, u32> {
    let form = Form::of(form)?;
    read_table(form, rows)?.write(form, plan)
}

fn read_table(form: Form, rows: &[u16]) -> Result<Plan, u32> {
    if rows.is_empty() || !rows.len().is_multiple_of(ROW) || rows[0] != 0 {
        return Err(refusal::TABLE);
    }
    // The row rules come first for the whole table, before any range.
    let table = rows.chunks_exact(ROW);
    let mut before = (rows[0], rows[1]);
    for row in table.clone() {
        let (job, frame) = (row[0], row[1]);
        let same_job = job == before.0 && frame == before.1;
        let next_job = before.0.checked_add(1) == Some(job);
        if !(same_job || next_job) || row[2] > 256 || row[3] > 256 {
            return Err(refusal::TABLE);
        }
        before = (job, frame);
    }

    let mut draft = Draft::new(usize::from(before.0) + 1, table.len())?;
    let mut rest = rows;
    while let [job, frame, ..] = *rest {
        let count = rest
            .chunks_exact(ROW)
            .take_while(|row| row[0] == job)
            .count();
        let (own, others) = rest.split_at(ROW * count);
        draft.open_job(frame, count)?;
        for row in own.chunks_exact(ROW) {
            draft.add_action(closed(row[2]), closed(row[3]), form.cost(row[4])?);
        }
        rest = others;
    }
    draft.finish()
}
