//! Plans and tables, and what their entries must give: document 01's plans, its refusals 1 to 6, 9 and 10, and inputs on each side
//! of each limit; the same of form 2 (document 02, L5); and T1 divided by T∞ (L7).
use crate::plans::{
    chain, costed, e, e2, f, f2, join, large, one, plan, plan_2, plan_of, quotient, spawn, with_header, Action, Job, NONE,
};
use crate::Cases;

fn table(jobs: &[Job]) -> Vec<u16> {
    let mut t = vec![];
    for (j, (frame, actions)) in jobs.iter().enumerate() {
        for &(spawn, join, cost) in actions {
            t.extend([j as u16, *frame as u16, spawn as u16, join as u16, cost as u16]);
        }
    }
    t
}

/// Job 0 spawns n children of one action, and each joins position `target`, job 0's last.
fn fan(n: u32, target: u32) -> Vec<Job> {
    let mut root: Vec<Action> = (1..=n).map(spawn).collect();
    root.resize(target as usize + 1, NONE);
    let mut jobs = vec![(1, root)];
    jobs.extend((0..n).map(|_| (1, vec![join(target)])));
    jobs
}

fn alone(frame: u32, actions: Vec<Action>) -> Vec<Job> {
    vec![(frame, actions)]
}

/// Plan E with another action of a job at a position.
fn e_with(job: usize, position: usize, action: Action) -> Vec<Job> {
    let mut jobs = e();
    jobs[job].1[position] = action;
    jobs
}

/// Plan F, where job 1 joins another position.
fn f_joins(target: u32) -> Vec<Job> {
    let mut jobs = f();
    jobs[1].1[3] = join(target);
    jobs
}

/// Plan E with frame 0 in the last job.
fn light() -> Vec<Job> {
    let mut jobs = e();
    jobs[2].0 = 0;
    jobs
}

/// Plan E, where nothing spawns job 2.
pub fn never() -> Vec<Job> {
    e_with(0, 2, NONE)
}

/// Plan E, where job 2 joins position 3, right after its spawn.
pub fn third() -> Vec<Job> {
    e_with(2, 0, join(3))
}

fn longer(plan: Vec<u8>) -> Vec<u8> {
    [&plan[..], &[0]].concat()
}

fn table_with(jobs: &[Job], row: usize, column: usize, number: u16) -> Vec<u16> {
    let mut t = table(jobs);
    t[5 * row + column] = number;
    t
}

fn e_table_with(row: usize, column: usize, number: u16) -> Vec<u16> {
    table_with(&e(), row, column, number)
}

/// Plan E2 with another cost of a job's action at a position.
fn e2_costs(job: usize, position: usize, cost: u32) -> Vec<Job> {
    let mut jobs = e2();
    jobs[job].1[position].2 = cost;
    jobs
}

fn refused(c: &mut Cases, name: &str, bytes: Vec<u8>, number: u32) {
    c.case("plan", &format!("plans/{name}"), bytes, &format!("refused {number}"));
}

fn count(jobs: &[Job]) -> usize {
    jobs.iter().map(|job| job.1.len()).sum()
}

/// An accepted plan in a form, with its T1, T∞ and S1.
fn accepted_in(form: u32, c: &mut Cases, name: &str, jobs: &[Job], (work, longest, path): (u32, u32, u32)) {
    let bytes = plan_of(form, jobs);
    let total = count(jobs);
    let (parallel, rest) = quotient(work, longest);
    let measures = format!("total {total} work {work} longest {longest} path {path} parallel {parallel} rest {rest}");
    let answer = format!("{measures}, rows {total}, bytes {} the same, beyond kept", bytes.len());
    c.case("plan", &format!("plans/{name}"), bytes, &answer);
}

/// An accepted plan of form 1, whose T1 is its number of actions, with its T∞ and S1.
fn accepted(c: &mut Cases, name: &str, jobs: &[Job], longest: u32, path: u32) {
    accepted_in(1, c, name, jobs, (count(jobs) as u32, longest, path));
}

/// An accepted plan of form 2, with its T1, T∞ and S1.
fn accepted_2(c: &mut Cases, name: &str, jobs: &[Job], work: u32, longest: u32, path: u32) {
    accepted_in(2, c, name, jobs, (work, longest, path));
}

/// A table, which is to be closed in a form.
fn save_table(form: u32, c: &mut Cases, name: &str, t: Vec<u16>, answer: &str) {
    c.save(&format!("plans/table_{name}"), t.iter().flat_map(|x| x.to_be_bytes()).collect());
    again(form, c, name, answer);
}

/// The table of an earlier case in another form.
fn again(form: u32, c: &mut Cases, name: &str, answer: &str) {
    c.line("table", &format!("plans/table_{name}"), &format!(" {form}"), answer);
}

fn table_refused(c: &mut Cases, name: &str, t: Vec<u16>, number: u32) {
    save_table(1, c, name, t, &format!("refused {number}"));
}

fn table_refused_2(c: &mut Cases, name: &str, t: Vec<u16>, number: u32) {
    save_table(2, c, name, t, &format!("refused {number}"));
}

fn closed(form: u32, jobs: &[Job]) -> String {
    format!("bytes {}, rows {} the same, beyond kept", plan_of(form, jobs).len(), count(jobs))
}

fn table_accepted(c: &mut Cases, name: &str, jobs: &[Job]) {
    save_table(1, c, name, table(jobs), &closed(1, jobs));
}

fn table_accepted_2(c: &mut Cases, name: &str, jobs: &[Job]) {
    save_table(2, c, name, table(jobs), &closed(2, jobs));
}

/// The plan of an earlier case, with room for so many numbers of its table and for so many of its bytes, and what comes of each.
fn room(c: &mut Cases, name: &str, rows: (usize, &str), bytes: (usize, &str)) {
    let answer = format!("room {} {}, room {} {}", rows.0, rows.1, bytes.0, bytes.1);
    c.line("room", &format!("plans/{name}"), &format!(" {} {}", rows.0, bytes.0), &answer);
}

fn papers(c: &mut Cases) {
    let whole = plan(&e());
    assert_eq!(whole, [0x01, 0x01, 0x80, 0x02, 0x02, 0xC0, 0x44, 0x08, 0, 0, 0x60, 0x42, 0x08, 0, 0x04, 0x02, 0x82, 0]);
    accepted(c, "e", &e(), 5, 7);
    accepted(c, "f", &f(), 6, 2);
    accepted(c, "one_action", &one(), 1, 1);
    refused(c, "case_7_empty", vec![], 1);
    refused(c, "case_8_last_byte", [&whole[..17], &[1]].concat(), 6);
    refused(c, "case_9_position_3", plan(&third()), 5);
    for n in [1, 2, 3, 4, 5, 6, 12, 17] {
        refused(c, &format!("e_first_{n}_bytes"), whole[..n].to_vec(), 1);
    }
}

fn ranges(c: &mut Cases) {
    refused(c, "form_0", with_header(0, 3, &e()), 2);
    refused(c, "form_3", with_header(3, 3, &e()), 2);
    refused(c, "form_255_alone", vec![255], 2);
    refused(c, "jobs_0", with_header(1, 0, &[]), 3);
    accepted(c, "jobs_256", &chain(256), 511, 256);
    refused(c, "jobs_257", with_header(1, 257, &chain(256)), 3);
    refused(c, "jobs_511_alone", with_header(1, 511, &[]), 3);
    refused(c, "frame_0", plan(&alone(0, vec![NONE])), 3);
    refused(c, "frame_0_in_the_last_job", plan(&light()), 3);
    accepted(c, "frame_65535", &alone(65535, vec![NONE]), 1, 65535);
    refused(c, "action_count_0", plan(&alone(1, vec![])), 3);
    accepted(c, "action_count_255", &alone(1, vec![NONE; 255]), 255, 1);
    accepted(c, "sum_2048", &large(1, 8, 254), 263, 2);
    let more = plan(&large(1, 9, 254));
    let before = (17 + 9 * 24 + 2 * (8 * 255) + 8 * 15) / 8;
    refused(c, "sum_2049", more.clone(), 3);
    refused(c, "sum_2049_told_at_the_count", more[..before + 1].to_vec(), 3);
    refused(c, "sum_2049_cut_before_the_count", more[..before - 1].to_vec(), 1);
}

fn spawns(c: &mut Cases) {
    refused(c, "child_0", plan(&alone(1, vec![spawn(0), NONE])), 4);
    refused(c, "child_1_of_1_job", plan(&alone(1, vec![spawn(1), NONE])), 4);
    refused(c, "child_3_of_3_jobs", plan(&e_with(0, 2, spawn(3))), 4);
    let mut by_higher = vec![(1, vec![spawn(2), NONE, NONE]), (1, vec![join(2)]), (1, vec![spawn(1), NONE, join(2)])];
    refused(c, "spawned_by_a_higher_job", plan(&by_higher), 4);
    by_higher[2].1[0] = spawn(2);
    refused(c, "spawns_itself", plan(&by_higher), 4);
    refused(c, "spawned_twice_by_one_job", plan(&e_with(0, 3, spawn(2))), 4);
    refused(c, "spawned_by_two_jobs", plan(&e_with(1, 0, spawn(2))), 4);
    refused(c, "never_spawned", plan(&never()), 4);
}

fn joins(c: &mut Cases) {
    refused(c, "job_0_sends", plan(&e_with(0, 3, join(4))), 5);
    refused(c, "past_the_end", plan(&e_with(1, 1, join(5))), 5);
    let mut last = f_joins(4);
    last[0].1 = vec![spawn(1), NONE, NONE, NONE, NONE];
    accepted(c, "into_the_last_action", &last, 6, 2);
    refused(c, "into_its_own_spawn", plan(&f_joins(0)), 5);
    refused(c, "right_after_its_spawn", plan(&f_joins(1)), 5);
    refused(c, "right_after_another_spawn", plan(&e_with(1, 1, join(3))), 5);
    accepted(c, "into_an_action_that_spawns", &e_with(1, 1, join(2)), 6, 7);
    let mut earlier = vec![(1, vec![NONE, NONE, spawn(1), NONE, NONE]), (1, vec![join(1)])];
    refused(c, "before_its_spawn", plan(&earlier), 5);
    earlier[1].1 = vec![NONE];
    refused(c, "last_action_sends_none", plan(&earlier), 5);
    accepted(c, "eight_joins", &fan(8, 9), 10, 2);
    refused(c, "nine_joins", plan(&fan(9, 10)), 5);
    let mut split = fan(9, 11);
    split[9].1 = vec![join(10)];
    accepted(c, "nine_joins_into_two_actions", &split, 12, 2);
}

/// Fill bits, and the order of the refusals.
fn fill(c: &mut Cases) {
    refused(c, "one_byte_more", longer(plan(&e())), 6);
    let mut last = plan(&f());
    *last.last_mut().unwrap() |= 1;
    refused(c, "last_fill_bit", last, 6);
    refused(c, "frame_0_and_a_byte_more", longer(plan(&light())), 3);
    refused(c, "never_spawned_and_a_byte_more", longer(plan(&never())), 6);
    refused(c, "position_3_and_a_byte_more", longer(plan(&third())), 6);
    let mut both = never();
    both[2].1 = vec![join(3)];
    refused(c, "never_spawned_and_position_3", plan(&both), 4);
}

fn rooms(c: &mut Cases) {
    room(c, "e", (40, "rows 8"), (18, "bytes 18"));
    room(c, "e", (39, "refused 9"), (17, "refused 9"));
    room(c, "e", (0, "refused 9"), (0, "refused 9"));
    room(c, "sum_2048", (10239, "refused 9"), (19, "refused 9"));
    room(c, "case_8_last_byte", (0, "refused 6"), (0, "refused 6"));
    room(c, "nine_joins", (0, "refused 5"), (0, "refused 5"));
}

fn tables(c: &mut Cases) {
    table_accepted(c, "e", &e());
    table_accepted(c, "one_action", &alone(65535, vec![NONE]));
    table_accepted(c, "2048_rows", &large(1, 8, 254));
    table_accepted(c, "256_jobs", &chain(256));
    table_refused(c, "empty", vec![], 10);
    for n in [1, 2, 3, 4, 32, 39] {
        table_refused(c, &format!("{n}_numbers"), table(&e())[..n].to_vec(), 10);
    }
    table_refused(c, "starts_at_job_1", vec![1, 1, 0, 0, 1], 10);
    table_refused(c, "job_rises_by_2", e_table_with(7, 0, 3), 10);
    table_refused(c, "job_falls", e_table_with(7, 0, 0), 10);
    table_refused(c, "frames_differ", e_table_with(6, 1, 9), 10);
    table_refused(c, "third_257", e_table_with(1, 2, 257), 10);
    table_refused(c, "fourth_257", e_table_with(1, 3, 257), 10);
}

/// Refusal 10 before the others, and the others.
fn tables_of_bad_plans(c: &mut Cases) {
    let mut late = e_table_with(0, 1, 0);
    late[38] = 257;
    table_refused(c, "frame_0_and_a_later_257", late, 10);
    table_refused(c, "frame_0", vec![0, 0, 0, 0, 1], 3);
    table_refused(c, "256_rows_of_one_job", table(&alone(1, vec![NONE; 256])), 3);
    table_accepted(c, "255_rows_of_one_job", &alone(1, vec![NONE; 255]));
    table_refused(c, "2049_rows", table(&large(1, 9, 254)), 3);
    table_refused(c, "257_jobs", (0..257).flat_map(|j| [j, 1, 0, 0, 1]).collect(), 3);
    table_refused(c, "third_1", e_table_with(0, 2, 1), 4);
    table_refused(c, "third_256", e_table_with(0, 2, 256), 4);
    table_refused(c, "fourth_256", e_table_with(7, 3, 256), 5);
    table_refused(c, "never_spawned", e_table_with(2, 2, 0), 4);
    table_refused(c, "last_action_sends_none", e_table_with(6, 3, 0), 5);
}

/// The same bytes with another form in front.
fn with_form(form: u8, mut plan: Vec<u8>) -> Vec<u8> {
    plan[0] = form;
    plan
}

/// The bytes, but the last of them other.
fn with_last(mut plan: Vec<u8>, byte: u8) -> Vec<u8> {
    *plan.last_mut().unwrap() = byte;
    plan
}

/// Plans of form 2.
fn papers_2(c: &mut Cases) {
    let whole = plan_2(&e2());
    let written = [
        0x02, 0x01, 0x80, 0x02, 0x02, 0xC0, 0x44, 0x0C, 0x08, 0x60, 0x84, 0, 0x06, 0x04, 0x22, 0x08, 0x20, 0, 0x40, 0x28, 0x22, 0x80,
    ];
    assert_eq!(whole, written);
    assert_eq!(plan_2(&costed(one(), &[3])), [0x02, 0, 0x80, 0, 0x80, 0x86]);
    accepted_2(c, "e2", &e2(), 19, 13, 7);
    accepted_2(c, "f2", &f2(), 13, 10, 2);
    accepted_2(c, "one_of_3", &costed(one(), &[3]), 3, 3, 1);
    accepted_2(c, "e_in_form_2", &e(), 8, 5, 7);
    accepted_2(c, "one_of_15", &costed(one(), &[15]), 15, 15, 1);
    accepted_2(c, "e_of_15", &costed(e(), &[15]), 120, 75, 7);
    // the chain of most actions has 5 of them, the costliest has 3
    let few = vec![(1, vec![spawn(1), NONE, NONE, NONE, NONE]), (1, vec![(0, 5, 9)])];
    accepted_2(c, "costliest_chain_of_few_actions", &few, 14, 11, 2);
    accepted_2(c, "jobs_256_of_15", &costed(chain(256), &[15]), 15 * 766, 15 * 511, 256);
    accepted_2(c, "sum_2048_of_15", &costed(large(1, 8, 254), &[15]), 30720, 15 * 263, 2);
    // document 02, L7: the largest remainder, none, and 1
    for (cost, work, longest, divided) in [(2, 11, 6, (1, 5)), (3, 14, 7, (2, 0)), (4, 17, 8, (2, 1))] {
        assert_eq!(quotient(work, longest), divided);
        let jobs = costed(fan(3, 4), &[1, 1, 1, 1, 1, cost, cost, cost]);
        accepted_2(c, &format!("three_of_{cost}"), &jobs, work, longest, 2);
    }
    refused(c, "sum_2049_of_15", plan_2(&costed(large(1, 9, 254), &[15])), 3);
    // in the jobs; in the child of 0.0; in the costs of 0.2 and of 2.0
    for n in [1, 6, 9, 21] {
        refused(c, &format!("e2_first_{n}_bytes"), whole[..n].to_vec(), 1);
    }
    // read in the other form: of E the third action gets cost 0; of E2 job 1 gets 32 actions, more than there are bits for
    refused(c, "e_read_in_form_2", with_form(2, plan(&e())), 3);
    refused(c, "e2_read_in_form_1", with_form(1, whole.clone()), 1);
    for form in [0, 3, 255] {
        refused(c, &format!("e2_with_form_{form}"), with_form(form, whole.clone()), 2);
    }
}

/// Costs of 0, and the order of the refusals in form 2.
fn costs_of_0(c: &mut Cases) {
    let first = plan_2(&e2_costs(0, 0, 0));
    refused(c, "cost_0_first", first.clone(), 3);
    refused(c, "cost_0_middle", plan_2(&e2_costs(1, 0, 0)), 3);
    refused(c, "cost_0_last", plan_2(&e2_costs(2, 0, 0)), 3);
    refused(c, "cost_0_of_one_action", plan_2(&costed(one(), &[0])), 3);
    // the cost of 0.0 ends with bit 54, that of 0.2 with bit 74
    refused(c, "cost_0_before_bits_run_out", first[..7].to_vec(), 3);
    refused(c, "cost_0_cut_short", plan_2(&e2_costs(0, 2, 0))[..9].to_vec(), 1);
    refused(c, "cost_0_behind_the_end", plan_2(&e2_costs(1, 0, 0))[..9].to_vec(), 1);
    refused(c, "cost_0_and_a_byte_more", longer(plan_2(&e2_costs(2, 0, 0))), 3);
    let mut unspawned = e2_costs(2, 0, 0);
    unspawned[0].1[2] = NONE;
    refused(c, "cost_0_and_never_spawned", plan_2(&unspawned), 3);
    let mut both = e2_costs(0, 4, 0);
    both[1].0 = 0;
    refused(c, "cost_0_before_frame_0", plan_2(&both), 3);

    refused(c, "jobs_0_in_form_2", with_header(2, 0, &[]), 3);
    refused(c, "jobs_257_in_form_2", with_header(2, 257, &chain(256)), 3);
    refused(c, "frame_0_in_form_2", plan_2(&light()), 3);
    refused(c, "action_count_0_in_form_2", plan_2(&alone(1, vec![])), 3);
    refused(c, "never_spawned_in_form_2", plan_2(&never()), 4);
    refused(c, "position_3_in_form_2", plan_2(&third()), 5);
    // seven fill bits, behind the last bit of a cost
    refused(c, "first_fill_bit_of_e2", with_last(plan_2(&e2()), 0x80 + 0x40), 6);
    refused(c, "last_fill_bit_of_e2", with_last(plan_2(&e2()), 0x80 + 1), 6);
    refused(c, "e2_and_a_byte_more", longer(plan_2(&e2())), 6);
    refused(c, "never_spawned_in_form_2_and_a_byte_more", longer(plan_2(&never())), 6);
}

fn rooms_2(c: &mut Cases) {
    room(c, "e2", (40, "rows 8"), (22, "bytes 22"));
    room(c, "e2", (39, "refused 9"), (21, "refused 9"));
    room(c, "sum_2048_of_15", (10240, "rows 2048"), (1582, "bytes 1582"));
    room(c, "sum_2048_of_15", (10239, "refused 9"), (1581, "refused 9"));
    room(c, "cost_0_last", (0, "refused 3"), (0, "refused 3"));
}

/// Tables with costs, and forms asked for.
fn tables_2(c: &mut Cases) {
    again(2, c, "e", &closed(2, &e()));
    table_accepted_2(c, "e2", &e2());
    again(1, c, "e2", "refused 3");
    table_accepted_2(c, "one_of_15", &costed(one(), &[15]));
    table_accepted_2(c, "2048_rows_of_15", &costed(large(1, 8, 254), &[15]));
    table_accepted_2(c, "256_jobs_of_15", &costed(chain(256), &[15]));
    for cost in [0, 16, 65535] {
        table_refused_2(c, &format!("cost_{cost}"), table_with(&e2(), 4, 4, cost), 3);
        again(1, c, &format!("cost_{cost}"), "refused 3");
    }
    table_refused_2(c, "cost_0_first", table_with(&e2(), 0, 4, 0), 3);
    table_refused_2(c, "cost_16_last", table_with(&e2(), 7, 4, 16), 3);
    table_refused(c, "cost_0_in_form_1", e_table_with(4, 4, 0), 3);
    table_refused(c, "cost_2_first_in_form_1", e_table_with(0, 4, 2), 3);
    table_refused(c, "cost_2_last_in_form_1", e_table_with(7, 4, 2), 3);
    again(2, c, "cost_2_last_in_form_1", &closed(2, &e()));

    let mut late = table_with(&e2(), 0, 4, 0);
    late[38] = 257;
    table_refused_2(c, "cost_0_and_a_later_257", late, 10);
    let mut unspawned = table_with(&e2(), 7, 4, 16);
    unspawned[12] = 0;
    table_refused_2(c, "cost_16_and_never_spawned", unspawned, 3);
    again(2, c, "frame_0", "refused 3");
    again(2, c, "empty", "refused 10");
    again(2, c, "frames_differ", "refused 10");
    again(2, c, "never_spawned", "refused 4");
    again(2, c, "last_action_sends_none", "refused 5");

    // the lowest bits of the last two forms are 1 and 2
    for form in [0, 3, 257, 65538] {
        again(form, c, "e", "refused 2");
    }
    for form in [0, 3] {
        again(form, c, "empty", "refused 2");
        again(form, c, "frames_differ", "refused 2");
        again(form, c, "cost_16_last", "refused 2");
    }
}

pub fn all(c: &mut Cases) {
    papers(c);
    ranges(c);
    spawns(c);
    joins(c);
    fill(c);
    rooms(c);
    tables(c);
    tables_of_bad_plans(c);
    papers_2(c);
    costs_of_0(c);
    rooms_2(c);
    tables_2(c);
}
