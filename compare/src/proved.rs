//! The C interface, with the answers of `second`.

use second::{Measures, Tally};
use std::fmt::Debug;

#[repr(C)]
struct RawCount {
    refused: u32,
    count: u32,
}

#[repr(C)]
struct RawMeasures {
    refused: u32,
    total: u32,
    work: u32,
    longest: u32,
    path: u32,
    parallel: u32,
    rest: u32,
}

#[repr(C)]
struct RawTally {
    refused: u32,
    rounds: u32,
    actions: u32,
    idle: u32,
    requests: u32,
    steals: u32,
    bare: u32,
    idle_victim: u32,
    peak: u32,
}

extern "C" {
    fn dw_plan_to_table(
        plan: *const u8,
        plan_len: usize,
        rows: *mut u16,
        rows_len: usize,
    ) -> RawCount;
    fn dw_table_to_plan(
        form: u32,
        rows: *const u16,
        rows_len: usize,
        plan: *mut u8,
        plan_len: usize,
    ) -> RawCount;
    fn dw_to_form_2(plan: *const u8, plan_len: usize, bytes: *mut u8, bytes_len: usize)
        -> RawCount;
    fn dw_to_form_1(plan: *const u8, plan_len: usize, bytes: *mut u8, bytes_len: usize)
        -> RawCount;
    fn dw_pair(
        first: *const u8,
        first_len: usize,
        second: *const u8,
        second_len: usize,
        frame: u32,
        plan: *mut u8,
        plan_len: usize,
    ) -> RawCount;
    fn dw_measure(plan: *const u8, plan_len: usize) -> RawMeasures;
    fn dw_run(
        plan: *const u8,
        plan_len: usize,
        workers: u32,
        choices: *const u8,
        choices_len: usize,
        schedule: *mut u8,
        schedule_len: usize,
    ) -> RawTally;
    fn dw_pool(
        plan: *const u8,
        plan_len: usize,
        workers: u32,
        schedule: *mut u8,
        schedule_len: usize,
    ) -> RawTally;
    fn dw_check(plan: *const u8, plan_len: usize, schedule: *const u8, schedule_len: usize) -> u32;
}

/// A refusal returns its number only, so whatever comes with it must be 0.
fn answer<T: Debug + PartialEq>(refused: u32, found: T, nothing: T) -> Result<T, u32> {
    if refused == 0 {
        return Ok(found);
    }
    assert_eq!(found, nothing, "refusal {refused} came with counts");
    Err(refused)
}

fn tally(raw: RawTally) -> Result<Tally, u32> {
    answer(
        raw.refused,
        Tally {
            rounds: raw.rounds,
            actions: raw.actions,
            idle: raw.idle,
            requests: raw.requests,
            steals: raw.steals,
            bare: raw.bare,
            idle_victim: raw.idle_victim,
            peak: raw.peak,
        },
        Tally::default(),
    )
}

pub fn plan_to_table(plan: &[u8], rows: &mut [u16]) -> Result<usize, u32> {
    // SAFETY: each pointer goes with the length of its own slice.
    let raw = unsafe { dw_plan_to_table(plan.as_ptr(), plan.len(), rows.as_mut_ptr(), rows.len()) };
    answer(raw.refused, raw.count as usize, 0)
}

pub fn table_to_plan(form: u32, rows: &[u16], plan: &mut [u8]) -> Result<usize, u32> {
    // SAFETY: each pointer goes with the length of its own slice.
    let raw = unsafe {
        dw_table_to_plan(
            form,
            rows.as_ptr(),
            rows.len(),
            plan.as_mut_ptr(),
            plan.len(),
        )
    };
    answer(raw.refused, raw.count as usize, 0)
}

pub fn to_form_2(plan: &[u8], bytes: &mut [u8]) -> Result<usize, u32> {
    // SAFETY: each pointer goes with the length of its own slice.
    let raw = unsafe { dw_to_form_2(plan.as_ptr(), plan.len(), bytes.as_mut_ptr(), bytes.len()) };
    answer(raw.refused, raw.count as usize, 0)
}

pub fn to_form_1(plan: &[u8], bytes: &mut [u8]) -> Result<usize, u32> {
    // SAFETY: each pointer goes with the length of its own slice.
    let raw = unsafe { dw_to_form_1(plan.as_ptr(), plan.len(), bytes.as_mut_ptr(), bytes.len()) };
    answer(raw.refused, raw.count as usize, 0)
}

pub fn pair(first: &[u8], second: &[u8], frame: u32, plan: &mut [u8]) -> Result<usize, u32> {
    // SAFETY: each pointer goes with the length of its own slice.
    let raw = unsafe {
        dw_pair(
            first.as_ptr(),
            first.len(),
            second.as_ptr(),
            second.len(),
            frame,
            plan.as_mut_ptr(),
            plan.len(),
        )
    };
    answer(raw.refused, raw.count as usize, 0)
}

pub fn measure(plan: &[u8]) -> Result<Measures, u32> {
    // SAFETY: the pointer goes with the length of its slice.
    let raw = unsafe { dw_measure(plan.as_ptr(), plan.len()) };
    answer(
        raw.refused,
        Measures {
            total: raw.total,
            work: raw.work,
            longest: raw.longest,
            path: raw.path,
            parallel: raw.parallel,
            rest: raw.rest,
        },
        Measures {
            total: 0,
            work: 0,
            longest: 0,
            path: 0,
            parallel: 0,
            rest: 0,
        },
    )
}

pub fn run(plan: &[u8], workers: u32, choices: &[u8], schedule: &mut [u8]) -> Result<Tally, u32> {
    // SAFETY: each pointer goes with the length of its own slice.
    let raw = unsafe {
        dw_run(
            plan.as_ptr(),
            plan.len(),
            workers,
            choices.as_ptr(),
            choices.len(),
            schedule.as_mut_ptr(),
            schedule.len(),
        )
    };
    tally(raw)
}

pub fn pool(plan: &[u8], workers: u32, schedule: &mut [u8]) -> Result<Tally, u32> {
    // SAFETY: each pointer goes with the length of its own slice.
    let raw = unsafe {
        dw_pool(
            plan.as_ptr(),
            plan.len(),
            workers,
            schedule.as_mut_ptr(),
            schedule.len(),
        )
    };
    tally(raw)
}

pub fn check(plan: &[u8], schedule: &[u8]) -> Result<(), u32> {
    // SAFETY: each pointer goes with the length of its own slice.
    let refused = unsafe { dw_check(plan.as_ptr(), plan.len(), schedule.as_ptr(), schedule.len()) };
    answer(refused, (), ())
}
