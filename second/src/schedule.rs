//! How a schedule is written.

use crate::plan::{Form, Plan};

/// The bytes that the schedule of a plan takes.
pub fn length(form: Form, plan: &Plan) -> usize {
    let width = match form {
        Form::One => 16,
        Form::Two => 20,
    };
    4 + (width * plan.actions.len()).div_ceil(8)
}

/// The part of a schedule that is behind its header, by its form.
pub enum Behind<'a> {
    Short(Short<'a>),
    Long(Long<'a>),
}

/// Writes the header of a schedule of just its length, and gives what is behind
/// it. The rows are to follow, each once and in any order.
pub fn begin<'a>(form: Form, plan: &Plan, workers: u32, schedule: &'a mut [u8]) -> Behind<'a> {
    let (header, rows) = schedule.split_at_mut(4);
    let fields = (form as u32) << 24 | workers << 19 | (plan.actions.len() as u32) << 7;
    header.copy_from_slice(&fields.to_be_bytes());
    match form {
        Form::One => Behind::Short(Short(rows)),
        Form::Two => {
            // Rows share bytes with one another and with the fill.
            rows.fill(0);
            Behind::Long(Long(rows))
        }
    }
}

/// Where the rows of a schedule are written, in its form.
pub trait Rows {
    /// Writes the row of an action that is done, at its place in the plan.
    fn put(&mut self, action: usize, round: u32, worker: usize);
}

/// Rows of 16 bits.
pub struct Short<'a>(&'a mut [u8]);

impl Rows for Short<'_> {
    #[inline]
    fn put(&mut self, action: usize, round: u32, worker: usize) {
        let row = (round << 4 | worker as u32) as u16;
        self.0[2 * action..2 * action + 2].copy_from_slice(&row.to_be_bytes());
    }
}

/// Rows of 20 bits, over bytes of 0.
pub struct Long<'a>(&'a mut [u8]);

impl Rows for Long<'_> {
    /// Two rows take five bytes, and each has a half of the third.
    #[inline]
    fn put(&mut self, action: usize, round: u32, worker: usize) {
        let at = 5 * action / 2;
        let shift = if action.is_multiple_of(2) { 4 } else { 0 };
        let [_, row @ ..] = ((round << 4 | worker as u32) << shift).to_be_bytes();
        for (byte, bits) in self.0[at..at + 3].iter_mut().zip(row) {
            *byte |= bits;
        }
    }
}
