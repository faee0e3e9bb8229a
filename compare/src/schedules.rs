//! Schedules of both forms as numbers.

use crate::bits::{field, Bits};

/// Rows compare as turns do: by round, then by worker.
#[derive(Clone, Copy, Debug, PartialEq, Eq, PartialOrd, Ord)]
pub struct Row {
    /// The last round of the action's span.
    pub round: u32,
    pub worker: u32,
}

#[derive(Clone, Debug, PartialEq)]
pub struct Schedule {
    pub form: u32,
    pub workers: u32,
    pub rows: Vec<Row>,
}

fn round_width(form: u32) -> usize {
    if form == 1 {
        12
    } else {
        16
    }
}

/// The largest round that a schedule of this form has bits for.
pub fn last_round(form: u32) -> u32 {
    (1 << round_width(form)) - 1
}

/// How many bytes a schedule of this many actions takes.
pub fn length(form: u32, actions: usize) -> usize {
    4 + ((round_width(form) + 4) * actions).div_ceil(8)
}

impl Schedule {
    /// The schedule of these bytes, if they are just what it is written as.
    pub fn read(bytes: &[u8]) -> Option<Schedule> {
        let number = |from, width| field(bytes, from, width).map(|value| value as u32);
        let form = number(0, 8)?;
        let width = round_width(form);
        let rows = (0..field(bytes, 13, 12)?).map(|row| {
            let from = 32 + row * (width + 4);
            Some(Row {
                round: number(from, width)?,
                worker: number(from + width, 4)?,
            })
        });
        let schedule = Schedule {
            form,
            workers: number(8, 5)?,
            rows: rows.collect::<Option<_>>()?,
        };
        (schedule.bytes() == bytes).then_some(schedule)
    }

    /// The schedule's bytes, with numbers too large for their field cut.
    pub fn bytes(&self) -> Vec<u8> {
        let mut bits = Bits::default();
        bits.put(8, self.form as usize);
        bits.put(5, self.workers as usize);
        bits.put(12, self.rows.len());
        bits.put(7, 0);
        for row in &self.rows {
            bits.put(round_width(self.form), row.round as usize);
            bits.put(4, row.worker as usize);
        }
        bits.bytes
    }
}
