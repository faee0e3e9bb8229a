//! Plans turned into the other form and back (document 02, L6): the examples of docs/RULES.md, the largest plan, refusal 15, and the order
//! of the refusals. Most of the files are those of `plan_cases.rs`.
use crate::plan_cases::{never, third};
use crate::plans::{costed, deep, e, input, large, one, plan, plan_2, plan_of, Job};
use crate::Cases;

/// A plan that is saved is to be turned into a form. `name` is its file's, with the room behind it where the room is told.
fn into(form: u32, c: &mut Cases, name: &str, answer: &str) {
    c.line(&format!("into{form}"), &format!("plans/{name}"), "", answer);
}

fn refused(form: u32, c: &mut Cases, name: &str, number: u32) {
    into(form, c, name, &format!("refused {number}, kept"));
}

fn turned(form: u32, c: &mut Cases, name: &str, jobs: &[Job]) {
    let (there, back) = (plan_of(form, jobs).len(), plan_of(3 - form, jobs).len());
    into(form, c, name, &format!("bytes {there}, back {back} the same, beyond kept"));
}

/// A plan that is saved in both forms.
fn both(c: &mut Cases, name: &str, jobs: &[Job]) {
    turned(2, c, name, jobs);
    turned(1, c, &format!("{name}_in_form_2"), jobs);
}

/// A plan of form 2 that is not turned into form 1.
fn refused_2(c: &mut Cases, name: &str, jobs: &[Job], number: u32) {
    c.save(&format!("plans/{name}"), plan_2(jobs));
    refused(1, c, name, number);
}

fn examples(c: &mut Cases) {
    let written = [
        0x02, 0x01, 0x80, 0x02, 0x02, 0xC0, 0x42, 0x0C, 0x08, 0x20, 0x82, 0, 0x06, 0x04, 0x0A, 0x08, 0x20, 0, 0x40, 0x28, 0x20, 0x80,
    ];
    assert_eq!(plan_2(&e()), written);
    assert_eq!(plan_2(&one()), [0x02, 0, 0x80, 0, 0x80, 0x82]);
    c.save("plans/one_action_in_form_2", plan_2(&one()));
    both(c, "e", &e());
    both(c, "one_action", &one());
    refused(1, c, "e2", 15);
    refused(2, c, "e2", 2);
    refused(2, c, "e_in_form_2", 2);
    refused(1, c, "e", 2);
    // case 4's lines
    let answer = "rounds 6 actions 8 longest 5 path 7 parallel 1 rest 3 peak 7 idle 4 requests 3 steals 1 bare 1 idle-victim 1";
    c.case("run", "runs/case_4_in_form_2", input(2, &[0, 1], &plan_2(&e())), answer);
}

/// The most jobs and actions, and the most actions of a job.
fn largest(c: &mut Cases) {
    c.save("plans/jobs_256_sum_2048", plan(&deep()));
    c.save("plans/jobs_256_sum_2048_in_form_2", plan_2(&deep()));
    c.save("plans/sum_2048_in_form_2", plan_2(&large(1, 8, 254)));
    both(c, "jobs_256_sum_2048", &deep());
    both(c, "sum_2048", &large(1, 8, 254));
    refused(2, c, "sum_2049", 3);
    refused(1, c, "sum_2049_of_15", 3);
}

fn costs(c: &mut Cases) {
    refused_2(c, "cost_2_last", &costed(e(), &[1, 1, 1, 1, 1, 1, 1, 2]), 15);
    refused_2(c, "cost_15_first", &costed(e(), &[15, 1, 1, 1, 1, 1, 1, 1]), 15);
    let mut last = [1; 2048];
    last[2047] = 2;
    refused_2(c, "cost_2_last_of_2048", &costed(deep(), &last), 15);
    refused(1, c, "one_of_3", 15);
    refused(1, c, "sum_2048_of_15", 15);
}

/// Bits that run out, and then the form, before all that stands behind it.
fn forms(c: &mut Cases) {
    for form in [1, 2] {
        refused(form, c, "case_7_empty", 1);
        for name in ["form_0", "form_3", "form_255_alone", "e2_with_form_0", "e2_with_form_3"] {
            refused(form, c, name, 2);
        }
    }
    refused(2, c, "e_first_1_bytes", 1);
    refused(1, c, "e_first_1_bytes", 2);
    refused(2, c, "e2_first_1_bytes", 2);
    refused(1, c, "e2_first_1_bytes", 1);
    refused(2, c, "e_first_17_bytes", 1);
    refused(1, c, "e_first_17_bytes", 2);
    refused(2, c, "e2_first_21_bytes", 2);
    refused(1, c, "e2_first_21_bytes", 1);
    refused(2, c, "cost_0_first", 2);
    refused(1, c, "never_spawned", 2);
    // the other form in the first byte, and nothing else changed
    refused(1, c, "e_read_in_form_2", 3);
    refused(2, c, "e2_read_in_form_1", 1);
}

/// The other refusals of a plan, of which all go before 15.
fn order(c: &mut Cases) {
    refused(2, c, "frame_0", 3);
    refused(2, c, "case_8_last_byte", 6);
    refused(2, c, "never_spawned", 4);
    refused(2, c, "case_9_position_3", 5);
    refused(1, c, "frame_0_in_form_2", 3);
    // behind a cost of 2
    refused(1, c, "cost_0_last", 3);
    refused(1, c, "last_fill_bit_of_e2", 6);
    refused(1, c, "e2_and_a_byte_more", 6);
    refused_2(c, "never_spawned_of_2", &costed(never(), &[2]), 4);
    refused_2(c, "position_3_of_2", &costed(third(), &[2]), 5);
}

/// 9, which comes last.
fn rooms(c: &mut Cases) {
    turned(2, c, "e 22", &e());
    refused(2, c, "e 21", 9);
    refused(2, c, "e 0", 9);
    turned(1, c, "e_in_form_2 18", &e());
    refused(1, c, "e_in_form_2 17", 9);
    refused(1, c, "e_in_form_2 0", 9);
    // 28,617 and 36,809 bits
    turned(2, c, "jobs_256_sum_2048 4602", &deep());
    refused(2, c, "jobs_256_sum_2048 4601", 9);
    turned(1, c, "jobs_256_sum_2048_in_form_2 3578", &deep());
    refused(1, c, "jobs_256_sum_2048_in_form_2 3577", 9);
    refused(1, c, "e2 0", 15);
    refused(1, c, "cost_2_last 0", 15);
    refused(1, c, "position_3_of_2 0", 5);
    refused(2, c, "case_9_position_3 0", 5);
    refused(2, c, "e2 0", 2);
}

pub fn all(c: &mut Cases) {
    examples(c);
    largest(c);
    costs(c);
    forms(c);
    order(c);
    rooms(c);
}
