//! The twelve starred cases, misses by their kind, actions that take longer,
//! plans turned into the other form, how many workers are worth renting, two
//! families in one build, and runs from a central pool.

use second::{build, check, measure, plan_to_table, run, table_to_plan, Counts, Measures, Tally};
use second::{pair, pool, to_form_1, to_form_2};

const E: [u8; 18] = [
    0x01, 0x01, 0x80, 0x02, 0x02, 0xC0, 0x44, 0x08, 0x00, 0x00, 0x60, 0x42, 0x08, 0x00, 0x04, 0x02,
    0x82, 0x00,
];

/// E with costs, in form 2.
const E2: [u8; 22] = [
    0x02, 0x01, 0x80, 0x02, 0x02, 0xC0, 0x44, 0x0C, 0x08, 0x60, 0x84, 0x00, 0x06, 0x04, 0x22, 0x08,
    0x20, 0x00, 0x40, 0x28, 0x22, 0x80,
];

const E2_COSTS: [u16; 8] = [2, 1, 3, 1, 2, 4, 1, 5];

/// The rows of E with these costs, and the position that job 2 joins left open.
fn costed_e_rows(target: u16, costs: [u16; 8]) -> [u16; 40] {
    let [a, b, c, d, e, f, g, h] = costs;
    [
        [0, 4, 2, 0, a],
        [0, 4, 0, 0, b],
        [0, 4, 3, 0, c],
        [0, 4, 0, 0, d],
        [0, 4, 0, 0, e],
        [1, 3, 0, 0, f],
        [1, 3, 0, 5, g],
        [2, 2, 0, target + 1, h],
    ]
    .concat()
    .try_into()
    .unwrap()
}

/// The rows of E, with the position that job 2 joins left open.
fn e_rows(target: u16) -> [u16; 40] {
    costed_e_rows(target, [1; 8])
}

const F_ROWS: [u16; 35] = [
    0, 1, 2, 0, 1, //
    0, 1, 0, 0, 1, //
    0, 1, 0, 0, 1, //
    1, 1, 0, 0, 1, //
    1, 1, 0, 0, 1, //
    1, 1, 0, 0, 1, //
    1, 1, 0, 3, 1, //
];

fn plan_in(form: u32, rows: &[u16]) -> Vec<u8> {
    let mut plan = [0; 6403];
    let length = table_to_plan(form, rows, &mut plan).unwrap();
    plan[..length].to_vec()
}

fn plan_of(rows: &[u16]) -> Vec<u8> {
    plan_in(1, rows)
}

fn one_job() -> Vec<u8> {
    plan_of(&[0, 1, 0, 0, 1])
}

fn tally_of(plan: &[u8], workers: u32, choices: &[u8]) -> Result<Tally, u32> {
    run(plan, workers, choices, &mut [0; 64])
}

/// Both kinds together, as the starred cases give them.
fn misses(tally: &Tally) -> u32 {
    tally.bare + tally.idle_victim
}

const CASE_4_ROWS: [(u16, u16); 8] = [
    (1, 0),
    (2, 1),
    (3, 1),
    (5, 1),
    (6, 1),
    (2, 0),
    (3, 0),
    (4, 1),
];

const CASE_4: [u8; 20] = [
    0x01, 0x10, 0x04, 0x00, 0x00, 0x10, 0x00, 0x21, 0x00, 0x31, 0x00, 0x51, 0x00, 0x61, 0x00, 0x20,
    0x00, 0x30, 0x00, 0x41,
];

/// The last round and the worker of each action, in a schedule of form 1.
fn short_rows(schedule: &[u8]) -> Vec<(u16, u16)> {
    schedule[4..]
        .chunks(2)
        .map(|pair| u16::from_be_bytes([pair[0], pair[1]]))
        .map(|row| (row >> 4, row & 15))
        .collect()
}

/// The counts for an input of these workers, choices and plan.
fn built(workers: u8, choices: &[u8], plan: &[u8]) -> Counts {
    let count = (choices.len() as u16).to_be_bytes();
    build(&[&[workers], &count[..], choices, plan].concat()).unwrap()
}

/// Compares what is printed for such an input.
fn prints(workers: u8, choices: &[u8], plan: &[u8], lines: &str) {
    assert_eq!(built(workers, choices, plan).to_string(), lines);
}

#[test]
fn case_1() {
    let tally = tally_of(&one_job(), 1, &[]).unwrap();
    assert_eq!((tally.rounds, tally.idle), (1, 0));
}

#[test]
fn case_2() {
    let tally = tally_of(&one_job(), 16, &[0]).unwrap();
    assert_eq!((tally.rounds, tally.idle, tally.requests), (1, 15, 0));
}

#[test]
fn case_3() {
    let tally = tally_of(&E, 1, &[]).unwrap();
    assert_eq!((tally.rounds, tally.peak, tally.idle), (8, 7, 0));
}

#[test]
fn case_4() {
    let mut schedule = [0xA5; 24];
    let t = run(&E, 2, &[0, 1], &mut schedule).unwrap();
    assert_eq!((t.rounds, t.actions, t.idle, t.peak), (6, 8, 4, 7));
    assert_eq!((t.requests, t.steals, misses(&t)), (3, 1, 2));
    assert_eq!(schedule[..20], CASE_4);
    assert_eq!(schedule[20..], [0xA5; 4]);
    assert_eq!(short_rows(&schedule[..20]), CASE_4_ROWS);
    assert_eq!(check(&E, &CASE_4), Ok(()));
}

#[test]
fn case_4_printed() {
    prints(
        2,
        &[0, 1],
        &E,
        "rounds 6\nactions 8\nlongest 5\npath 7\nparallel 1\nrest 3\npeak 7\nidle 4\n\
         requests 3\nsteals 1\nbare 1\nidle-victim 1\n",
    );
}

#[test]
fn case_5() {
    let t = tally_of(&plan_of(&F_ROWS), 2, &[0]).unwrap();
    assert_eq!(
        (t.rounds, t.idle, t.requests, t.steals, misses(&t)),
        (6, 5, 4, 1, 3)
    );
}

#[test]
fn case_6() {
    let t = tally_of(&plan_of(&F_ROWS), 3, &[0]).unwrap();
    assert_eq!(
        (t.rounds, t.idle, t.requests, t.steals, misses(&t)),
        (6, 11, 6, 1, 4)
    );
}

#[test]
fn case_7() {
    assert_eq!(measure(&[]), Err(1));
    assert_eq!(tally_of(&[], 1, &[]), Err(1));
    assert_eq!(build(&[1, 0, 0]), Err(1));
}

#[test]
fn case_8() {
    let mut plan = E;
    plan[17] = 0x01;
    assert_eq!(tally_of(&plan, 1, &[]), Err(6));
}

#[test]
fn case_9() {
    assert_eq!(plan_of(&e_rows(4)), E);
    assert_eq!(table_to_plan(1, &e_rows(3), &mut [0; 64]), Err(5));
    // The last field starts at bit 129.
    let mut plan = E;
    plan[16] = 0x81;
    plan[17] = 0x80;
    let mut rows = [0; 40];
    assert_eq!(plan_to_table(&E, &mut rows), Ok(8));
    assert_eq!(rows, e_rows(4));
    assert_eq!(tally_of(&plan, 1, &[]), Err(5));
}

#[test]
fn case_10() {
    assert_eq!(tally_of(&E, 2, &[]), Err(8));
}

#[test]
fn case_11() {
    assert_eq!(tally_of(&E, 0, &[]), Err(7));
}

#[test]
fn case_12() {
    let mut schedule = CASE_4;
    schedule[15] = 0x21;
    assert_eq!(check(&E, &schedule), Err(12));
}

#[test]
fn measures_of_e() {
    assert_eq!(
        measure(&E),
        Ok(Measures {
            total: 8,
            work: 8,
            longest: 5,
            path: 7,
            parallel: 1,
            rest: 3
        })
    );
}

/// Worker 1 takes job 0 in round 1, and does 0.1 and 0.2 in rounds 2 and 3;
/// worker 0 does 1.0 and 1.1 then, and holds nothing. Job 2, spawned by 0.2,
/// ends in round 4, and worker 1 takes job 0 again: the request that worker 0
/// lays on it then is bare. The next one it lays on itself, in round 5.
#[test]
fn kinds_in_case_4() {
    let t = tally_of(&E, 2, &[0, 1]).unwrap();
    assert_eq!((t.bare, t.idle_victim), (1, 1));
}

/// Worker 0, whom all ask, holds job 1 up to round 5 and then job 0, which it
/// enables itself.
#[test]
fn kinds_in_cases_5_and_6() {
    let t = tally_of(&plan_of(&F_ROWS), 2, &[0]).unwrap();
    assert_eq!((t.bare, t.idle_victim), (3, 0));
    let t = tally_of(&plan_of(&F_ROWS), 3, &[0]).unwrap();
    assert_eq!((t.bare, t.idle_victim), (4, 0));
}

/// Rounds, actions, idle turns, requests, steals, bare, idle-victim and peak.
fn counts(rows: &[u16], workers: u32, choices: &[u8]) -> [u32; 8] {
    counts_of(tally_of(&plan_of(rows), workers, choices).unwrap())
}

fn counts_of(t: Tally) -> [u32; 8] {
    [
        t.rounds,
        t.actions,
        t.idle,
        t.requests,
        t.steals,
        t.bare,
        t.idle_victim,
        t.peak,
    ]
}

/// Job 0 spawns job 1 at 0 and waits for its only action at 2.
const G_ROWS: [u16; 20] = [
    0, 1, 2, 0, 1, //
    0, 1, 0, 0, 1, //
    0, 1, 0, 0, 1, //
    1, 1, 0, 3, 1, //
];

/// Round 1: worker 0 spawns. Worker 1 asks worker 0, worker 2 asks worker 1.
/// Worker 0 serves first and gives job 0 to worker 1, which so holds a job
/// when it serves worker 2: bare. Round 2: worker 1 does 0.1 and keeps job 0,
/// since 1.0 came before; worker 2 asks it again: bare. Round 3: 0.2.
#[test]
fn a_victim_given_a_job_in_this_half_is_bare() {
    let wanted = [3, 4, 5, 3, 1, 2, 0, 2];
    assert_eq!(counts(&G_ROWS, 3, &[0, 1, 1]), wanted);
}

/// Round 1: workers 1 and 2 ask worker 0, which gives job 0 to worker 1; the
/// other request waits. Round 2: worker 0 does 1.0, job 1 ends, and its deque
/// is empty. It held a job when the request was laid and when the round began,
/// but holds none as it serves: idle-victim. Round 3: worker 1 does 0.2.
#[test]
fn a_victim_that_lost_its_job_in_this_round_is_idle() {
    let wanted = [3, 4, 5, 2, 1, 0, 1, 2];
    assert_eq!(counts(&G_ROWS, 3, &[0]), wanted);
}

/// Worker 0 does 0.0, 1.0, 0.1 and 0.2, one a round. In each round but the
/// last worker 1 asks itself.
#[test]
fn a_worker_that_asks_itself_finds_an_idle_victim() {
    let wanted = [4, 4, 4, 3, 0, 0, 3, 2];
    assert_eq!(counts(&G_ROWS, 2, &[1]), wanted);
}

/// Job 0 spawns job 1 at 0 and job 2 at 1, and waits for both at 3.
const H_ROWS: [u16; 35] = [
    0, 1, 2, 0, 1, //
    0, 1, 3, 0, 1, //
    0, 1, 0, 0, 1, //
    0, 1, 0, 0, 1, //
    1, 1, 0, 4, 1, //
    2, 1, 0, 0, 1, //
    2, 1, 0, 4, 1, //
];

/// Round 1: workers 1 and 2 ask worker 0, which gives job 0 to worker 1.
/// Round 2: job 1 ends and leaves worker 0 with none: worker 2's request, which
/// waited, finds an idle victim. Worker 1 does 0.1, holds job 2 and has job 0
/// on its deque. Round 3: worker 1 does 2.0. Worker 0 asks worker 1, worker 2
/// asks worker 0. Worker 0 serves first and still holds nothing: idle-victim.
/// Then worker 1 gives it job 0. Round 4: 0.2 stalls job 0; 2.1 enables it and
/// ends job 2, so worker 1 takes it. Worker 2 asks worker 1: bare. Round 5: 0.3.
#[test]
fn a_victim_given_a_job_later_in_this_half_is_idle() {
    let wanted = [5, 7, 8, 5, 2, 1, 2, 2];
    assert_eq!(counts(&H_ROWS, 3, &[0, 0, 1, 0, 1]), wanted);
}

/// One job with one action, in form 2 and of cost 3.
const ONE_OF_3: [u8; 6] = [0x02, 0x00, 0x80, 0x00, 0x80, 0x86];

const E2_ROWS: [(u16, u16); 8] = [
    (2, 0),
    (4, 1),
    (7, 1),
    (9, 0),
    (14, 1),
    (6, 0),
    (7, 0),
    (12, 1),
];

const E2_SCHEDULE: [u8; 24] = [
    0x02, 0x10, 0x04, 0x00, 0x00, 0x02, 0x00, 0x00, 0x41, 0x00, 0x07, 0x10, 0x00, 0x90, 0x00, 0x0E,
    0x10, 0x00, 0x60, 0x00, 0x07, 0x00, 0x00, 0xC1,
];

/// A schedule of form 2, from the last round and the worker of each action.
fn long_schedule(workers: u8, rows: &[(u16, u16)]) -> Vec<u8> {
    let count = rows.len() as u32;
    let header = 2 << 24 | u32::from(workers) << 19 | count << 7;
    let halves: Vec<u8> = rows
        .iter()
        .flat_map(|&(round, worker)| [round >> 12, round >> 8, round >> 4, round, worker])
        .map(|half| half as u8 & 15)
        .collect();
    let bytes = halves
        .chunks(2)
        .map(|pair| pair[0] << 4 | pair.get(1).unwrap_or(&0));
    header.to_be_bytes().into_iter().chain(bytes).collect()
}

#[test]
fn one_of_3() {
    assert_eq!(plan_in(2, &[0, 1, 0, 0, 3]), ONE_OF_3);
    let mut schedule = [0xA5; 8];
    let t = run(&ONE_OF_3, 1, &[], &mut schedule).unwrap();
    assert_eq!((t.rounds, t.actions, t.idle), (3, 3, 0));
    let m = measure(&ONE_OF_3).unwrap();
    assert_eq!((m.longest, m.parallel, m.rest), (3, 1, 0));
    // The last four bits fill the byte.
    assert_eq!(schedule, [2, 0x08, 0, 0x80, 0, 0x03, 0x00, 0xA5]);
    assert_eq!(check(&ONE_OF_3, &schedule[..7]), Ok(()));
    assert_eq!(run(&ONE_OF_3, 1, &[], &mut [0; 6]), Err(9));
}

#[test]
fn e2_in_a_table() {
    let rows = costed_e_rows(4, E2_COSTS);
    assert_eq!(plan_in(2, &rows), E2);
    let mut opened = [0; 40];
    assert_eq!(plan_to_table(&E2, &mut opened), Ok(8));
    assert_eq!(opened, rows);
    assert_eq!(plan_to_table(&E2, &mut [0; 39]), Err(9));
}

#[test]
fn measures_of_e2() {
    assert_eq!(
        measure(&E2),
        Ok(Measures {
            total: 8,
            work: 19,
            longest: 13,
            path: 7,
            parallel: 1,
            rest: 6
        })
    );
}

#[test]
fn e2_alone() {
    let t = tally_of(&E2, 1, &[]).unwrap();
    assert_eq!(counts_of(t), [19, 19, 0, 0, 0, 0, 0, 7]);
}

#[test]
fn e2_alone_printed() {
    prints(
        1,
        &[],
        &E2,
        "rounds 19\nactions 19\nlongest 13\npath 7\nparallel 1\nrest 6\npeak 7\nidle 0\n\
         requests 0\nsteals 0\nbare 0\nidle-victim 0\n",
    );
}

#[test]
fn e2_by_two() {
    let mut schedule = [0xA5; 26];
    let t = run(&E2, 2, &[0, 1], &mut schedule).unwrap();
    assert_eq!(counts_of(t), [14, 19, 9, 8, 2, 3, 3, 7]);
    assert_eq!(schedule[..24], E2_SCHEDULE);
    assert_eq!(schedule[24..], [0xA5; 2]);
    assert_eq!(long_schedule(2, &E2_ROWS), E2_SCHEDULE);
    assert_eq!(check(&E2, &E2_SCHEDULE), Ok(()));
    assert_eq!(run(&E2, 2, &[0, 1], &mut [0; 23]), Err(9));
}

#[test]
fn e2_by_two_printed() {
    prints(
        2,
        &[0, 1],
        &E2,
        "rounds 14\nactions 19\nlongest 13\npath 7\nparallel 1\nrest 6\npeak 7\nidle 9\n\
         requests 8\nsteals 2\nbare 3\nidle-victim 3\n",
    );
}

/// Worker 1, to whom 0.3 is given, works on 2.0 from round 8 to 12.
#[test]
fn e2_with_spans_that_clash() {
    let mut schedule = E2_SCHEDULE;
    schedule[13] = 0x91;
    assert_eq!(check(&E2, &schedule), Err(12));
}

#[test]
fn costs_of_1_run_as_form_1_does() {
    let plan = plan_in(2, &e_rows(4));
    let mut schedule = [0; 24];
    let t = run(&plan, 2, &[0, 1], &mut schedule).unwrap();
    assert_eq!(Ok(t), tally_of(&E, 2, &[0, 1]));
    assert_eq!(schedule[..], long_schedule(2, &CASE_4_ROWS));
}

#[test]
fn a_cost_of_0_is_told_as_it_is_read() {
    // The last byte has the end of the action count, a spawn bit, a join bit,
    // the cost and a fill bit.
    let mut plan = ONE_OF_3;
    plan[5] = 0x80;
    assert_eq!(measure(&plan), Err(3));
    plan[5] = 0x81;
    assert_eq!(measure(&plan), Err(3));
    // With two actions bits run out in the second one.
    assert_eq!(measure(&[0x02, 0x00, 0x80, 0x00, 0x81, 0x06]), Err(1));
    assert_eq!(measure(&[0x02, 0x00, 0x80, 0x00, 0x81, 0x00]), Err(3));
    // Bits run out in a cost itself.
    assert_eq!(measure(&E2[..9]), Err(1));
}

#[test]
fn forms_other_than_1_and_2() {
    for form in [0, 3, 255] {
        let mut plan = E2;
        plan[0] = form;
        assert_eq!(measure(&plan), Err(2));
        assert_eq!(measure(&plan[..1]), Err(2));
    }
    // A form is asked for before the table is looked at.
    for form in [0, 3, 257, u32::MAX] {
        assert_eq!(table_to_plan(form, &e_rows(4), &mut [0; 64]), Err(2));
        assert_eq!(table_to_plan(form, &[], &mut []), Err(2));
    }
    // E2 with the form of E, and E with that of E2.
    assert!(measure(&[&[1], &E2[1..]].concat()).is_err());
    assert!(measure(&[&[2], &E[1..]].concat()).is_err());
}

#[test]
fn costs_in_a_table() {
    let closed = |form, cost| table_to_plan(form, &[0, 1, 0, 0, cost], &mut [0; 64]);
    assert_eq!(closed(1, 1), Ok(6));
    for cost in [0, 2, 15, 16, 257, 65_535] {
        assert_eq!(closed(1, cost), Err(3));
    }
    for cost in 1..=15 {
        assert_eq!(closed(2, cost), Ok(6));
    }
    for cost in [0, 16, 17, 257, 65_535] {
        assert_eq!(closed(2, cost), Err(3));
    }
}

#[test]
fn costs_come_after_row_rules_and_before_spawn_rules() {
    let closed = |rows: &[u16]| table_to_plan(2, rows, &mut [0; 64]);
    assert_eq!(closed(&[0, 1, 0, 0, 16, 2, 1, 0, 0, 1]), Err(10));
    assert_eq!(closed(&[0, 1, 0, 0, 16, 0, 1, 0, 0]), Err(10));
    assert_eq!(closed(&[0, 1, 1, 0, 1, 0, 1, 0, 0, 16]), Err(3));
    assert_eq!(closed(&[0, 1, 1, 0, 1, 0, 1, 0, 0, 15]), Err(4));
}

#[test]
fn a_schedule_of_the_other_form() {
    assert_eq!(check(&E2, &CASE_4), Err(11));
    assert_eq!(check(&E, &E2_SCHEDULE), Err(11));
    // With the length of the plan's form.
    let mut schedule = E2_SCHEDULE;
    schedule[0] = 1;
    assert_eq!(check(&E2, &schedule), Err(11));
    let mut schedule = CASE_4;
    schedule[0] = 2;
    assert_eq!(check(&E, &schedule), Err(11));
}

#[test]
fn fill_bits_of_a_schedule() {
    let schedule = [2, 0x08, 0, 0x80, 0, 0x03, 0x00];
    assert_eq!(check(&ONE_OF_3, &schedule), Ok(()));
    for bit in 0..4 {
        let mut schedule = schedule;
        schedule[6] |= 1 << bit;
        assert_eq!(check(&ONE_OF_3, &schedule), Err(11));
        // It goes before a span that begins too early.
        schedule[5] = 0x02;
        assert_eq!(check(&ONE_OF_3, &schedule), Err(11));
    }
}

#[test]
fn a_span_that_begins_before_round_1() {
    let checked = |round| check(&ONE_OF_3, &long_schedule(1, &[(round, 0)]));
    assert_eq!(checked(0), Err(11));
    assert_eq!(checked(1), Err(12));
    assert_eq!(checked(2), Err(12));
    assert_eq!(checked(3), Ok(()));
    assert_eq!(checked(65_535), Ok(()));
}

/// G with these costs.
fn costed_g(costs: [u16; 4]) -> Vec<u8> {
    let mut rows = G_ROWS;
    for (row, cost) in rows.chunks_exact_mut(5).zip(costs) {
        row[4] = cost;
    }
    plan_in(2, &rows)
}

/// Of G with costs, 0.1 takes five rounds and 1.0 three, and neither must follow
/// the other. Worker 0 does 0.0 in round 1, 0.1 up to some round and 0.2 in
/// round 10. It may go from one span to the next at once, but not earlier.
#[test]
fn spans_that_touch() {
    let plan = costed_g([1, 5, 1, 3]);
    let checked = |long, short, worker| {
        let rows = [(1, 0), (long, 0), (10, 0), (short, worker)];
        check(&plan, &long_schedule(2, &rows))
    };
    for (long, short, kept) in [
        (9, 4, Ok(())),
        (9, 5, Err(12)),
        (8, 4, Err(12)),
        (6, 9, Ok(())),
        (6, 8, Err(12)),
        (7, 9, Err(12)),
        // One within the other, and with the same first or last round.
        (6, 5, Err(12)),
        (6, 4, Err(12)),
        (6, 6, Err(12)),
    ] {
        assert_eq!(checked(long, short, 0), kept);
        assert_eq!(checked(long, short, 1), Ok(()));
    }
}

/// The same with two spans of 15 rounds, wherever they lie.
#[test]
fn longest_spans_that_touch() {
    let plan = costed_g([1, 15, 1, 15]);
    let checked = |first, second| {
        let rows = [(1, 0), (first, 0), (65_535, 0), (second, 0)];
        check(&plan, &long_schedule(1, &rows))
    };
    for round in (16..200).chain(65_400..65_520) {
        assert_eq!(checked(round, round + 15), Ok(()));
        assert_eq!(checked(round + 15, round), Ok(()));
        assert_eq!(checked(round, round + 14), Err(12));
        assert_eq!(checked(round + 14, round), Err(12));
    }
}

/// The join of 2.0 comes in round 12: 0.4, which takes two rounds, may end in
/// round 14, but not in round 13, by whomever it is done.
#[test]
fn a_span_begins_after_what_it_must_follow() {
    for worker in [0, 1] {
        let mut rows = E2_ROWS;
        rows[4] = (14, worker);
        assert_eq!(check(&E2, &long_schedule(2, &rows)), Ok(()));
        rows[4].0 = 13;
        assert_eq!(check(&E2, &long_schedule(2, &rows)), Err(12));
    }
}

/// The header may name more workers than the rows use, but not fewer.
#[test]
fn workers_of_a_long_schedule() {
    assert_eq!(check(&E2, &long_schedule(16, &E2_ROWS)), Ok(()));
    assert_eq!(check(&E2, &long_schedule(1, &E2_ROWS)), Err(12));
    assert_eq!(check(&E2, &long_schedule(0, &E2_ROWS)), Err(11));
    assert_eq!(check(&E2, &long_schedule(17, &E2_ROWS)), Err(11));
}

/// Each of 256 jobs but the last spawns the next one at 0, whose eight actions,
/// all of this cost, join position 2.
fn largest_rows(cost: u16) -> Vec<u16> {
    (0..256 * 8)
        .flat_map(|row| {
            let (job, position) = (row / 8, row % 8);
            let child = if position == 0 && job < 255 {
                job + 2
            } else {
                0
            };
            let target = if job > 0 { 3 } else { 0 };
            [job, 1, child, target, cost]
        })
        .collect()
}

/// With 4,096 choices in front, such a plan ends behind byte 8,192 of its
/// input. The costliest chain goes down through all positions 0, and up again
/// through positions 2 to 7.
#[test]
fn the_largest_run() {
    let plan = plan_in(2, &largest_rows(15));
    let header = [1, 0x10, 0x00];
    let input = [&header[..], &[0; 4096], &plan].concat();
    assert_eq!(input.len(), 8701);
    let counts = build(&input).unwrap();
    assert_eq!((counts.rounds, counts.actions), (30_720, 30_720));
    assert_eq!(counts.longest, 15 * (255 + 8 + 255 * 6));
    // Positions 1 are left out of it, but for that of the last job.
    assert_eq!((counts.parallel, counts.rest), (1, 15 * 255));
    assert_eq!((counts.path, counts.peak), (256, 256));

    let mut schedule = [0; 5124];
    for workers in [1, 2, 16] {
        run(&plan, workers, &[0], &mut schedule).unwrap();
        assert_eq!(check(&plan, &schedule), Ok(()));
    }
    assert_eq!(run(&plan, 1, &[], &mut [0; 5123]), Err(9));
    // Of a longer input the first 16,384 bytes count.
    let longer = [&input[..], &[0; 16_384]].concat();
    assert_eq!(build(&longer), Err(6));
}

/// E in form 2, with all costs 1.
const E_IN_2: [u8; 22] = [
    0x02, 0x01, 0x80, 0x02, 0x02, 0xC0, 0x42, 0x0C, 0x08, 0x20, 0x82, 0x00, 0x06, 0x04, 0x0A, 0x08,
    0x20, 0x00, 0x40, 0x28, 0x20, 0x80,
];

/// Case 4's schedule, in form 2.
const CASE_4_IN_2: [u8; 24] = [
    0x02, 0x10, 0x04, 0x00, 0x00, 0x01, 0x00, 0x00, 0x21, 0x00, 0x03, 0x10, 0x00, 0x51, 0x00, 0x06,
    0x10, 0x00, 0x20, 0x00, 0x03, 0x00, 0x00, 0x41,
];

/// One of the two calls that turn a plan into the other form.
type Turn = fn(&[u8], &mut [u8]) -> Result<usize, u32>;

/// What a call writes into a buffer of this length. All that is not its answer
/// must be kept, so on a refusal the whole buffer.
fn written(
    length: usize,
    call: impl FnOnce(&mut [u8]) -> Result<usize, u32>,
) -> Result<Vec<u8>, u32> {
    let mut bytes = vec![0xA5; length];
    let answer = call(&mut bytes);
    let kept = bytes.split_off(answer.unwrap_or(0));
    assert!(kept.iter().all(|&byte| byte == 0xA5));
    answer.map(|_| bytes)
}

fn turned_into(turn: Turn, plan: &[u8], length: usize) -> Result<Vec<u8>, u32> {
    written(length, |bytes| turn(plan, bytes))
}

fn turned(turn: Turn, plan: &[u8]) -> Result<Vec<u8>, u32> {
    turned_into(turn, plan, 6403)
}

/// A plan with these bytes at a place.
fn with<const N: usize>(plan: &[u8], at: usize, bytes: [u8; N]) -> Vec<u8> {
    let mut plan = plan.to_vec();
    plan[at..at + N].copy_from_slice(&bytes);
    plan
}

/// Tables whose costs are all 1, of one action up to 2,048.
fn plain_tables() -> [Vec<u16>; 6] {
    [
        vec![0, 1, 0, 0, 1],
        e_rows(4).to_vec(),
        F_ROWS.to_vec(),
        G_ROWS.to_vec(),
        H_ROWS.to_vec(),
        largest_rows(1),
    ]
}

#[test]
fn e_turned_into_form_2_and_back() {
    assert_eq!(turned(to_form_2, &E).unwrap(), E_IN_2);
    assert_eq!(turned(to_form_1, &E_IN_2).unwrap(), E);
    let one = [0x02, 0x00, 0x80, 0x00, 0x80, 0x82];
    assert_eq!(turned(to_form_2, &one_job()).unwrap(), one);
    assert_eq!(turned(to_form_1, &one).unwrap(), one_job());
}

#[test]
fn e2_and_plans_that_have_the_form_already() {
    assert_eq!(turned(to_form_1, &E2), Err(15));
    assert_eq!(turned(to_form_2, &E2), Err(2));
    assert_eq!(turned(to_form_1, &E), Err(2));
    assert_eq!(turned(to_form_2, &E_IN_2), Err(2));
}

#[test]
fn there_and_back_from_either_side() {
    for rows in plain_tables() {
        let (old, new) = (plan_in(1, &rows), plan_in(2, &rows));
        assert_eq!(turned(to_form_2, &old).as_ref(), Ok(&new));
        assert_eq!(turned(to_form_1, &new).as_ref(), Ok(&old));
    }
}

#[test]
fn the_form_not_expected() {
    for (turn, plan) in [(to_form_2 as Turn, &E[..]), (to_form_1, &E_IN_2)] {
        // Without any byte bits run out, and they do behind the right form.
        assert_eq!(turned(turn, &[]), Err(1));
        assert_eq!(turned(turn, &plan[..1]), Err(1));
        for form in (0..=255).filter(|&form| form != plan[0]) {
            for rest in [&plan[1..], &[], &[0; 2], &[0xFF; 30]] {
                let other = [&[form], rest].concat();
                assert_eq!(turned(turn, &other), Err(2));
                assert_eq!(turned_into(turn, &other, 0), Err(2));
            }
        }
    }
}

/// E, or E with costs, with more and more rules broken, and with what number each
/// is refused. In these plans the end of the first child's number begins byte 6,
/// and job 2's join has its target in the last two bytes, which this tail lets
/// name position 3.
fn broken(plan: &[u8], tail: [u8; 2]) -> [(Vec<u8>, u32); 4] {
    let join = with(plan, plan.len() - 2, tail);
    let spawn = with(&join, 6, [plan[6] | 0x80]);
    let fill = with(&spawn, plan.len() - 1, [tail[1] | 1]);
    let longer = [&spawn[..], &[0]].concat();
    [(join, 5), (spawn, 4), (fill, 6), (longer, 6)]
}

#[test]
fn refusals_of_reading_come_as_ever() {
    for (turn, plan, tail) in [
        (to_form_2 as Turn, &E[..], [0x81, 0x80]),
        (to_form_1, &E_IN_2, [0x18, 0x80]),
    ] {
        for length in 1..plan.len() {
            assert_eq!(turned(turn, &plan[..length]), Err(1));
        }
        // No jobs, and a frame of 0 behind which bits run out.
        assert_eq!(turned(turn, &[plan[0], 0, 0]), Err(3));
        assert_eq!(turned(turn, &[plan[0], 0, 0x80, 0, 0]), Err(3));

        for (broken, number) in broken(plan, tail) {
            assert_eq!(turned(turn, &broken), Err(number));
            assert_eq!(turned_into(turn, &broken, 0), Err(number));
        }
    }
}

/// The last two bytes of one job with two actions have both costs. The first one
/// is 2, so 15 is due if nothing goes before it.
#[test]
fn a_cost_other_than_1_comes_after_all_of_reading() {
    let of = |tail: &[u8]| turned_into(to_form_1, &[&[2, 0, 0x80, 0, 0x81], tail].concat(), 0);
    assert_eq!(of(&[0x04, 0x08]), Err(15));
    assert_eq!(of(&[0x04]), Err(1));
    assert_eq!(of(&[0x04, 0x00]), Err(3));
    assert_eq!(of(&[0x04, 0x09]), Err(6));
    assert_eq!(of(&[0x04, 0x08, 0x00]), Err(6));
    // With all costs 1 only the buffer is too short.
    assert_eq!(of(&[0x02, 0x08]), Err(9));

    let join = with(&E2, 20, [0x1A]);
    let spawn = with(&join, 6, [0xC4]);
    for (plan, number) in [(&spawn[..], 4), (&join, 5), (&E2, 15)] {
        assert_eq!(turned(to_form_1, plan), Err(number));
        assert_eq!(turned_into(to_form_1, plan, 0), Err(number));
    }
}

/// Wherever the one cost stands that is not 1.
#[test]
fn every_cost_but_1() {
    for action in 0..8 {
        for cost in 2..=15 {
            let mut costs = [1; 8];
            costs[action] = cost;
            let plan = plan_in(2, &costed_e_rows(4, costs));
            assert_eq!(turned(to_form_1, &plan), Err(15));
        }
    }
}

#[test]
fn a_buffer_too_short_for_the_other_form() {
    for (turn, plan, other) in [
        (to_form_2 as Turn, &E[..], &E_IN_2[..]),
        (to_form_1, &E_IN_2, &E),
    ] {
        for length in 0..other.len() {
            assert_eq!(turned_into(turn, plan, length), Err(9));
        }
        for length in other.len()..other.len() + 10 {
            assert_eq!(turned_into(turn, plan, length).unwrap(), other);
        }
    }
}

/// The same by way of the open table, which is refused with 3 if form 1 is asked
/// for and a cost is not 1.
fn turned_by_table(from: u8, to: u32, plan: &[u8]) -> Result<Vec<u8>, u32> {
    if plan[0] != from {
        return Err(2);
    }
    let mut rows = [0; 64];
    let count = plan_to_table(plan, &mut rows)?;
    let mut bytes = [0; 64];
    match table_to_plan(to, &rows[..5 * count], &mut bytes) {
        Ok(length) => Ok(bytes[..length].to_vec()),
        Err(number) => Err(if number == 3 { 15 } else { number }),
    }
}

#[test]
fn plans_that_differ_in_a_byte() {
    for plan in [&E[..], &E2, &E_IN_2, &ONE_OF_3] {
        for at in 0..plan.len() {
            for byte in 0..=255 {
                let plan = with(plan, at, [byte]);
                assert_eq!(
                    turned_into(to_form_2, &plan, 64),
                    turned_by_table(1, 2, &plan)
                );
                assert_eq!(
                    turned_into(to_form_1, &plan, 64),
                    turned_by_table(2, 1, &plan)
                );
            }
        }
    }
}

#[test]
fn case_4_in_either_form() {
    let mut schedule = [0xA5; 26];
    let t = run(&E_IN_2, 2, &[0, 1], &mut schedule).unwrap();
    assert_eq!(counts_of(t), [6, 8, 4, 3, 1, 1, 1, 7]);
    assert_eq!(Ok(t), tally_of(&E, 2, &[0, 1]));
    assert_eq!(schedule[..24], CASE_4_IN_2);
    assert_eq!(schedule[24..], [0xA5; 2]);
    assert_eq!(long_schedule(2, &CASE_4_ROWS), CASE_4_IN_2);
    assert_eq!(check(&E_IN_2, &CASE_4_IN_2), Ok(()));
    // A buffer may have room for the schedule of form 1 alone.
    assert_eq!(run(&E, 2, &[0, 1], &mut [0; 20]), Ok(t));
    assert_eq!(run(&E_IN_2, 2, &[0, 1], &mut [0; 20]), Err(9));
}

/// Lists of choices, most of which are not for every number of workers.
const CHOICES: [&[u8]; 5] = [&[], &[0], &[0, 1], &[1, 0, 2, 1], &[5, 0, 3, 15, 0, 8, 1]];

#[test]
fn both_forms_run_alike() {
    for rows in plain_tables() {
        let old = plan_of(&rows);
        let new = turned(to_form_2, &old).unwrap();
        assert_eq!(measure(&old), measure(&new));
        for workers in 0..=17 {
            for choices in CHOICES {
                run_alike(&old, &new, workers, choices);
            }
        }
    }
}

/// Runs a plan in both forms, to the same refusal or to the same tally and rows.
fn run_alike(old: &[u8], new: &[u8], workers: u32, choices: &[u8]) {
    let actions = measure(old).unwrap().total as usize;
    let mut short = vec![0; 4 + 2 * actions];
    let mut long = vec![0; 4 + (20 * actions).div_ceil(8)];
    let tally = run(old, workers, choices, &mut short);
    assert_eq!(run(new, workers, choices, &mut long), tally);
    if tally.is_ok() {
        assert_eq!(long, long_schedule(workers as u8, &short_rows(&short)));
        assert_eq!(check(old, &short), Ok(()));
        assert_eq!(check(new, &long), Ok(()));
    } else {
        assert!(matches!(tally, Err(7 | 8)));
    }
}

/// A tree of jobs. Each spawns up to so many children, one right after the
/// other, and waits for all in its last action. A job without children is one
/// action of this cost; all other actions cost 1.
fn tree_rows(jobs: u16, children: u16, cost: u16) -> Vec<u16> {
    let spawned = |job| children * job + 1..jobs.min(children * job + children + 1);
    let mut rows = vec![];
    for job in 0..jobs {
        let target = match job {
            0 => 0,
            // No join may enter the position right after the last spawn.
            _ => spawned((job - 1) / children).len() as u16 + 2,
        };
        if spawned(job).is_empty() {
            rows.extend([job, 1, 0, target, cost]);
            continue;
        }
        for child in spawned(job) {
            rows.extend([job, 1, child + 1, 0, 1]);
        }
        rows.extend([job, 1, 0, 0, 1]);
        rows.extend([job, 1, 0, target, 1]);
    }
    rows
}

fn tree(jobs: u16, children: u16, cost: u16) -> Vec<u8> {
    plan_in(2, &tree_rows(jobs, children, cost))
}

/// T1, T∞, their quotient and the rest. Of the last two no others would pass.
fn divided(plan: &[u8]) -> [u32; 4] {
    let m = measure(plan).unwrap();
    assert!(m.longest >= 1 && m.parallel >= 1);
    assert!(m.rest < m.longest);
    assert_eq!(m.parallel * m.longest + m.rest, m.work);
    [m.work, m.longest, m.parallel, m.rest]
}

/// With three children T1 is 5 + 3 × cost, and T∞, by way of the last child,
/// 4 + cost.
#[test]
fn rests_around_a_new_quotient() {
    assert_eq!(divided(&tree(4, 3, 2)), [11, 6, 1, 5]);
    assert_eq!(divided(&tree(4, 3, 3)), [14, 7, 2, 0]);
    assert_eq!(divided(&tree(4, 3, 4)), [17, 8, 2, 1]);
}

#[test]
fn rests_of_0() {
    assert_eq!(divided(&one_job()), [1, 1, 1, 0]);
    assert_eq!(divided(&tree(5, 4, 9)), [42, 14, 3, 0]);
    assert_eq!(divided(&tree(7, 6, 10)), [68, 17, 4, 0]);
    // In form 1. A longest chain goes by way of jobs 1 and 3.
    assert_eq!(divided(&plan_of(&tree_rows(10, 2, 1))), [24, 8, 3, 0]);
}

#[test]
fn more_than_16_worth_renting() {
    assert_eq!(divided(&tree(73, 8, 15)), [1050, 33, 31, 27]);
}

#[test]
fn trees_divided() {
    for jobs in (1..=40).chain([255, 256]) {
        for children in 1..=8 {
            for cost in 1..=15 {
                divided(&tree(jobs, children, cost));
            }
        }
    }
}

/// Plans of both forms, for which 1 to over 16 workers are worth renting.
fn plans() -> Vec<Vec<u8>> {
    let mut plans: Vec<_> = plain_tables().iter().map(|rows| plan_of(rows)).collect();
    plans.extend([E2.to_vec(), ONE_OF_3.to_vec(), costed_g([1, 5, 1, 3])]);
    plans.push(plan_in(2, &largest_rows(15)));
    for (jobs, children) in [(4, 3), (9, 8), (73, 8), (256, 1), (256, 2)] {
        plans.extend([1, 3, 15].map(|cost| tree(jobs, children, cost)));
    }
    plans
}

/// In every run (P − parallel) × T∞ ≤ idle + rest. Here parallel × T∞ stands on
/// the other side, since P may be the smaller number.
#[test]
fn workers_that_cannot_be_kept_busy() {
    for plan in plans() {
        let measures = divided(&plan);
        for workers in 1..=16 {
            for choices in &CHOICES[1..] {
                let choices: Vec<u8> = choices.iter().map(|choice| choice % workers).collect();
                let c = built(workers, &choices, &plan);
                assert_eq!([c.actions, c.longest, c.parallel, c.rest], measures);
                let workers = u32::from(workers);
                assert!(workers * c.longest <= c.idle + c.rest + c.parallel * c.longest);
            }
        }
    }
}

/// No run of F has fewer rounds than T∞, and so with two workers or three none
/// has fewer idle turns than these.
#[test]
fn f_idles_as_little_as_it_can() {
    for workers in [2, 3] {
        let c = built(workers, &[0], &plan_of(&F_ROWS));
        assert_eq!((c.rounds, c.longest), (6, 6));
        assert_eq!((c.parallel, c.rest), (1, 1));
        let least = (u32::from(workers) - c.parallel) * c.longest;
        assert_eq!(c.idle + c.rest, least);
    }
}

/// E and F under a new root of frame 2.
const E_AND_F: [u8; 36] = [
    0x01, 0x03, 0x00, 0x01, 0x02, 0xC0, 0x44, 0x10, 0x00, 0x00, 0x80, 0xB0, 0x21, 0x03, 0x08, 0x20,
    0x00, 0x18, 0x10, 0x82, 0x00, 0x01, 0x00, 0xA0, 0x80, 0x00, 0x20, 0x70, 0x50, 0x82, 0x00, 0x00,
    0x82, 0x00, 0x81, 0x00,
];

/// One job of one action, in form 1, and E2 under a new root of frame 3.
const ONE_AND_E2: [u8; 36] = [
    0x02, 0x02, 0x80, 0x01, 0x82, 0xC0, 0x42, 0x0C, 0x08, 0x20, 0x82, 0x00, 0x02, 0x02, 0x82, 0x08,
    0x00, 0x20, 0x2C, 0x0C, 0x40, 0xC1, 0x06, 0x0A, 0x08, 0x40, 0x00, 0x60, 0x42, 0x20, 0x82, 0x00,
    0x04, 0x02, 0x82, 0x28,
];

/// One job of one action twice, under a new root of frame 1.
const ONE_AND_ONE: [u8; 17] = [
    0x01, 0x01, 0x80, 0x00, 0x82, 0xC0, 0x44, 0x08, 0x00, 0x00, 0x20, 0x28, 0x20, 0x00, 0x08, 0x0A,
    0x08,
];

fn paired_into(first: &[u8], second: &[u8], frame: u32, length: usize) -> Result<Vec<u8>, u32> {
    written(length, |bytes| pair(first, second, frame, bytes))
}

fn paired(first: &[u8], second: &[u8], frame: u32) -> Result<Vec<u8>, u32> {
    paired_into(first, second, frame, 6403)
}

/// T1, T∞ and S1.
fn measured(plan: &[u8]) -> [u32; 3] {
    let m = measure(plan).unwrap();
    [m.work, m.longest, m.path]
}

fn rows_of(plan: &[u8]) -> Result<Vec<u16>, u32> {
    let mut rows = vec![0; 5 * 2048];
    let count = plan_to_table(plan, &mut rows)?;
    rows.truncate(5 * count);
    Ok(rows)
}

#[test]
fn e_and_f_in_one_build() {
    let both = paired(&E, &plan_of(&F_ROWS), 2).unwrap();
    assert_eq!(both, E_AND_F);
    assert_eq!(measured(&both), [20, 10, 9]);
    let rows = [
        [0, 2, 2, 0, 1],
        [0, 2, 0, 0, 1],
        [0, 2, 5, 0, 1],
        [0, 2, 0, 0, 1],
        [0, 2, 0, 0, 1],
        [1, 4, 3, 0, 1],
        [1, 4, 0, 0, 1],
        [1, 4, 4, 0, 1],
        [1, 4, 0, 0, 1],
        [1, 4, 0, 5, 1],
        [2, 3, 0, 0, 1],
        [2, 3, 0, 5, 1],
        [3, 2, 0, 5, 1],
        [4, 1, 6, 0, 1],
        [4, 1, 0, 0, 1],
        [4, 1, 0, 5, 1],
        [5, 1, 0, 0, 1],
        [5, 1, 0, 0, 1],
        [5, 1, 0, 0, 1],
        [5, 1, 0, 3, 1],
    ];
    assert_eq!(rows_of(&both).unwrap(), rows.concat());
}

#[test]
fn one_and_e2_in_one_build() {
    let both = paired(&one_job(), &E2, 3).unwrap();
    assert_eq!(both, ONE_AND_E2);
    assert_eq!(measured(&both), [25, 17, 10]);
}

#[test]
fn one_twice_in_one_build() {
    let both = paired(&one_job(), &one_job(), 1).unwrap();
    assert_eq!(both, ONE_AND_ONE);
    assert_eq!(measured(&both), [7, 5, 2]);
}

/// The longest chain goes by way of the second plan, which is spawned two actions
/// later, unless the first one's T∞ is greater by more than 2.
#[test]
fn the_longest_chain_of_either() {
    let of = |cost| plan_in(2, &[0, 1, 0, 0, cost]);
    for (first, second, longest) in [
        (1, 1, 5),
        (2, 1, 5),
        (3, 1, 5),
        (4, 1, 6),
        (15, 1, 17),
        (1, 2, 6),
        (15, 13, 17),
        (15, 12, 17),
        (15, 14, 18),
        (15, 15, 19),
    ] {
        let both = paired(&of(first), &of(second), 1).unwrap();
        let work = u32::from(first + second) + 5;
        assert_eq!(measured(&both), [work, longest, 2]);
    }
}

/// The form of the result hangs on those of the plans alone, not on costs.
#[test]
fn forms_of_two_plans() {
    let wanted = rows_of(&paired(&E, &E, 2).unwrap()).unwrap();
    for (first, second, form) in [
        (&E[..], &E[..], 1),
        (&E, &E_IN_2, 2),
        (&E_IN_2, &E, 2),
        (&E_IN_2, &E_IN_2, 2),
    ] {
        let both = paired(first, second, 2).unwrap();
        assert_eq!(both, plan_in(form, &wanted));
        assert_eq!(measured(&both), [21, 9, 9]);
    }
    assert_eq!(paired(&E2, &one_job(), 2).unwrap()[0], 2);
    assert_eq!(paired(&E2, &E2, 2).unwrap()[0], 2);
}

#[test]
fn frames_of_the_new_root() {
    for frame in [1, 2, 255, 256, 65_534, 65_535] {
        let both = paired(&E, &E2, frame).unwrap();
        assert_eq!(measured(&both)[2], frame + 7);
        assert_eq!(u32::from(rows_of(&both).unwrap()[1]), frame);
    }
    // 65,537 and 2^31 + 1 end as 1 does.
    for frame in [0, 65_536, 65_537, 131_071, 1 << 31 | 1, u32::MAX] {
        assert_eq!(paired(&E, &E2, frame), Err(17));
        assert_eq!(paired(&one_job(), &one_job(), frame), Err(17));
    }
}

/// Just as many jobs as a plan may have, and one more, wherever they are.
#[test]
fn the_limit_of_jobs() {
    for first in [1, 2, 127, 128, 253, 254] {
        let [one, other] = [first, 255 - first].map(|jobs| plan_of(&tree_rows(jobs, 2, 1)));
        let both = paired(&one, &other, 1).unwrap();
        assert_eq!(rows_of(&both).unwrap().chunks(5).last().unwrap()[0], 255);
        let more = plan_of(&tree_rows(256 - first, 2, 1));
        assert_eq!(paired(&one, &more, 1), Err(17));
    }
    // The second root's number would not fit its 8 bits.
    for (first, second) in [(255, 1), (256, 1), (1, 256), (256, 256)] {
        assert_eq!(paired(&tree(first, 2, 1), &tree(second, 2, 1), 1), Err(17));
    }
}

/// A plan of so many actions, in jobs of 255 and a last one of the rest. Each
/// spawns the next one at 0 and waits for it in its last action.
fn long_rows(actions: u16) -> Vec<u16> {
    (0..actions)
        .flat_map(|place| {
            let (job, position) = (place / 255, place % 255);
            let spawns = position == 0 && (job + 1) * 255 < actions;
            let child = if spawns { job + 2 } else { 0 };
            let last = position == 254 || place + 1 == actions;
            let target = if last && job > 0 { 255 } else { 0 };
            [job, 1, child, target, 1]
        })
        .collect()
}

/// Just as many actions as a plan may have, and one more, wherever they are.
#[test]
fn the_limit_of_actions() {
    for first in [1, 255, 256, 1021, 1022, 2041, 2042] {
        let [one, other] = [first, 2043 - first].map(|actions| plan_of(&long_rows(actions)));
        let both = paired(&one, &other, 1).unwrap();
        assert_eq!(measure(&both).unwrap().total, 2048);
        let more = plan_of(&long_rows(2044 - first));
        assert_eq!(paired(&one, &more, 1), Err(17));
    }
    for (first, second) in [(2043, 1), (2048, 1), (1, 2048), (2048, 2048)] {
        let [one, other] = [first, second].map(|actions| plan_in(2, &long_rows(actions)));
        assert_eq!(paired(&one, &other, 1), Err(17));
    }
}

/// 254 jobs of eight actions each and one of eleven: with the new root both
/// limits are met at once. Passing one of them is enough.
#[test]
fn both_limits_at_once() {
    let mut rows = largest_rows(15);
    rows.truncate(5 * 8 * 254);
    // The last job has no next one to spawn.
    rows[5 * 8 * 253 + 2] = 0;
    let most = plan_in(2, &rows);
    let last = |actions| plan_of(&long_rows(actions));
    for [one, other] in [[most.clone(), last(11)], [last(11), most.clone()]] {
        let both = paired(&one, &other, 65_535).unwrap();
        let m = measure(&both).unwrap();
        assert_eq!((m.total, m.work), (2048, 15 * 2032 + 11 + 5));
        assert_eq!(m.path, 65_535 + 254);
        assert_eq!(rows_of(&both).unwrap()[5 * 2047], 255);
        assert_eq!(tally_in(&both, 1, &[]).0.rounds, m.work);
    }
    // 2,049 actions in 256 jobs, and 257 jobs with 2,041 actions.
    assert_eq!(paired(&most, &last(12), 1), Err(17));
    let two = plan_of(&tree_rows(2, 1, 1));
    assert_eq!(paired(&two, &most, 1), Err(17));
    // 256 jobs with 2,038 actions.
    assert!(paired(&one_job(), &most, 1).is_ok());
}

/// Plans that are refused, in both forms and with each number that a plan can be
/// refused with.
fn broken_plans() -> Vec<(Vec<u8>, u32)> {
    let mut plans = vec![(vec![], 1), (vec![0], 2), (with(&E, 0, [3]), 2)];
    // A cost of 0.
    plans.push((with(&ONE_OF_3, 5, [0x80]), 3));
    for (plan, tail) in [(&E[..], [0x81, 0x80]), (&E2, [0x1A, 0x80])] {
        plans.push((plan[..1].to_vec(), 1));
        plans.push((plan[..plan.len() - 1].to_vec(), 1));
        plans.push((with(plan, 1, [0, 0]), 3));
        plans.extend(broken(plan, tail));
    }
    plans
}

/// All that the first plan is refused with goes before all that the second is,
/// and that before 17 and 9.
#[test]
fn refusals_of_two_plans_in_their_order() {
    let largest = plan_of(&largest_rows(1));
    for (plan, number) in broken_plans() {
        assert_eq!(measure(&plan), Err(number));
        let refused = |first: &[u8], second: &[u8], wanted| {
            for frame in [0, 1, 65_535, 65_536, u32::MAX] {
                for length in [0, 1, 64] {
                    assert_eq!(paired_into(first, second, frame, length), Err(wanted));
                }
            }
        };
        for kept in [&E[..], &E2, &largest] {
            refused(&plan, kept, number);
            refused(kept, &plan, number);
        }
        for (other, _) in broken_plans() {
            refused(&plan, &other, number);
        }
    }
}

#[test]
fn a_frame_and_limits_come_before_a_buffer_too_short() {
    let largest = plan_of(&largest_rows(1));
    for length in [0, 1, 16, 17, 6403] {
        for frame in [0, 65_536, u32::MAX] {
            assert_eq!(paired_into(&E, &E2, frame, length), Err(17));
        }
        assert_eq!(paired_into(&largest, &E, 1, length), Err(17));
        assert_eq!(paired_into(&E, &largest, 1, length), Err(17));
    }
}

#[test]
fn a_buffer_too_short_for_both() {
    let f = plan_of(&F_ROWS);
    for (first, second, frame, both) in [
        (&E[..], &f[..], 2, &E_AND_F[..]),
        (&one_job(), &E2, 3, &ONE_AND_E2),
        (&one_job(), &one_job(), 1, &ONE_AND_ONE),
    ] {
        for length in 0..both.len() {
            assert_eq!(paired_into(first, second, frame, length), Err(9));
        }
        for length in both.len()..both.len() + 10 {
            assert_eq!(paired_into(first, second, frame, length).unwrap(), both);
        }
    }
}

/// The same by way of the open table. A frame outside its range stands there as
/// 0, which is refused with 3. So are too many jobs or actions, but with 10 if a
/// child's number is above 255.
fn paired_by_table(first: &[u8], second: &[u8], frame: u32) -> Result<Vec<u8>, u32> {
    let plans = [rows_of(first)?, rows_of(second)?];
    let behind = plans[0][plans[0].len() - 5] + 2;
    let frame = u16::try_from(frame).unwrap_or(0);
    let mut rows = [2, 0, behind + 1, 0, 0]
        .map(|child| [0, frame, child, 0, 1])
        .concat();
    for (number, plan) in [1, behind].into_iter().zip(&plans) {
        let ends = plan.chunks(5).take_while(|row| row[0] == 0).count();
        for (place, row) in plan.chunks(5).enumerate() {
            let child = if row[2] > 0 { row[2] + number } else { 0 };
            let target = if place + 1 == ends { 5 } else { row[3] };
            rows.extend([row[0] + number, row[1], child, target, row[4]]);
        }
    }
    let form = first[0].max(second[0]);
    let mut bytes = vec![0; 6403];
    match table_to_plan(u32::from(form), &rows, &mut bytes) {
        Ok(length) => Ok(bytes[..length].to_vec()),
        Err(3 | 10) => Err(17),
        Err(number) => panic!("the result is refused with {number}"),
    }
}

#[test]
fn one_of_two_plans_differs_in_a_byte() {
    for plan in [&E[..], &E2, &ONE_OF_3, &ONE_AND_ONE] {
        for at in 0..plan.len() {
            for byte in 0..=255 {
                let plan = with(plan, at, [byte]);
                for kept in [&E[..], &E2] {
                    for [first, second] in [[&plan[..], kept], [kept, &plan]] {
                        let both = paired_into(first, second, 7, 128);
                        assert_eq!(both, paired_by_table(first, second, 7));
                    }
                }
            }
        }
    }
}

/// Numbers that look drawn by chance and are the same at every test.
struct Random(u64);

impl Random {
    /// A number from 1 up to this one.
    fn draw(&mut self, most: u16) -> u16 {
        self.0 = self.0.wrapping_mul(0x5851_F42D_4C95_7F2D).wrapping_add(1);
        (self.0 >> 33) as u16 % most + 1
    }

    /// A place among so many.
    fn place(&mut self, count: usize) -> usize {
        usize::from(self.draw(count as u16)) - 1
    }
}

/// A plan of so many jobs, each spawned by any one of smaller number. A job spawns
/// up to three children one right after the other, then waits for these, then
/// goes on with the next. Some children send two joins, some of them from an
/// action that spawns.
fn random_plan(random: &mut Random, form: u32, jobs: u16) -> Vec<u8> {
    let parents: Vec<u16> = (1..jobs).map(|job| random.draw(job) - 1).collect();
    // The join that each job sends, plus 1.
    let mut targets = vec![0; usize::from(jobs)];
    let mut rows = vec![];
    for job in 0..jobs {
        let mut children: Vec<u16> = (1..jobs)
            .filter(|&child| parents[usize::from(child) - 1] == job)
            .collect();
        let mut spawns = vec![0; usize::from(random.draw(3))];
        while !children.is_empty() {
            let few = children.len().min(usize::from(random.draw(3)));
            let wait = spawns.len() + few + 1;
            for child in children.drain(..few) {
                targets[usize::from(child)] = wait as u16 + 1;
                spawns.push(child + 1);
            }
            spawns.extend([0, 0]);
        }
        let frame = random.draw(65_535);
        let twice = random.draw(2) == 2;
        let last = spawns.len() - 1;
        for (position, spawn) in spawns.into_iter().enumerate() {
            let sends = position == last || twice && position == last / 2;
            let target = if sends { targets[usize::from(job)] } else { 0 };
            let cost = if form == 1 { 1 } else { random.draw(15) };
            rows.extend([job, frame, spawn, target, cost]);
        }
    }
    plan_in(form, &rows)
}

fn random_plans() -> Vec<Vec<u8>> {
    let mut random = Random(9);
    [1, 2, 3, 5, 8, 13, 21, 34, 55, 89, 120, 144]
        .into_iter()
        .flat_map(|jobs| [1, 2].map(|form| random_plan(&mut random, form, jobs)))
        .collect()
}

/// Puts two plans together and holds the result against what request L9 promises
/// of it.
fn together(first: &[u8], second: &[u8], frame: u32) -> Vec<u8> {
    let both = paired(first, second, frame).unwrap();
    let [one, other, all] = [first, second, &both].map(|plan| measure(plan).unwrap());
    assert_eq!(all.total, one.total + other.total + 5);
    assert_eq!(all.work, one.work + other.work + 5);
    assert_eq!(all.longest, (one.longest + 2).max(other.longest + 4));
    assert_eq!(all.path, frame + one.path.max(other.path));
    both
}

/// Every two plans of many shapes, both ways round and each with itself.
#[test]
fn measures_of_two_plans_in_one_build() {
    let plans = [plans(), random_plans()].concat();
    let (mut written, mut refused) = (0, 0);
    for first in &plans {
        for second in &plans {
            for frame in [0, 1, 4711, 65_535, 65_536] {
                let wanted = paired_by_table(first, second, frame);
                assert_eq!(paired(first, second, frame), wanted);
                match wanted {
                    Ok(_) => {
                        together(first, second, frame);
                        written += 1;
                    }
                    Err(_) => refused += 1,
                }
            }
        }
    }
    assert!(written > 1000 && refused > 1000);
}

#[test]
fn pairs_of_pairs() {
    for plans in random_plans().windows(4) {
        let [one, two, three, four] = plans else {
            panic!("four plans");
        };
        let jobs = |plan: &[u8]| rows_of(plan).unwrap().chunks(5).last().unwrap()[0] + 1;
        let sum: u16 = plans.iter().map(|plan| jobs(plan)).sum();
        if sum + 3 > 256 {
            continue;
        }
        let (left, right) = (together(one, two, 5), together(three, four, 6));
        let all = together(&left, &right, 7);
        assert_eq!(jobs(&all), sum + 3);
        assert_eq!(paired_by_table(&left, &right, 7), Ok(all));
    }
    let form_1 = together(&ONE_AND_ONE, &E_AND_F, 1);
    assert_eq!((form_1[0], measured(&form_1)), (1, [32, 14, 10]));
    let form_2 = together(&E_AND_F, &ONE_AND_E2, 1);
    assert_eq!((form_2[0], measured(&form_2)), (2, [50, 21, 11]));
}

/// Each pair has two more jobs and six more actions. The old roots stand one
/// below the other, on the left or on the right, until the jobs are too many.
#[test]
fn pairs_as_deep_as_they_go() {
    let one = one_job();
    let (mut left, mut right) = (one.clone(), one.clone());
    for depth in 1..=127 {
        left = together(&left, &one, 2);
        right = together(&one, &right, 2);
        assert_eq!(
            measured(&left),
            [6 * depth + 1, 2 * depth + 3, 2 * depth + 1]
        );
        assert_eq!(
            measured(&right),
            [6 * depth + 1, 4 * depth + 1, 2 * depth + 1]
        );
    }
    for plan in [left, right] {
        assert_eq!(rows_of(&plan).unwrap().chunks(5).last().unwrap()[0], 254);
        let (t, _) = tally_in(&plan, 1, &[]);
        assert_eq!((t.rounds, t.peak), (763, 255));
        assert_eq!(paired(&plan, &one, 2), Err(17));
        assert_eq!(paired(&one, &plan, 2), Err(17));
    }
}

fn schedule_length(plan: &[u8]) -> usize {
    let total = measure(plan).unwrap().total as usize;
    let width = if plan[0] == 1 { 16 } else { 20 };
    4 + (width * total).div_ceil(8)
}

/// Runs a plan of any size, has its schedule checked and gives both.
fn tally_in(plan: &[u8], workers: u32, choices: &[u8]) -> (Tally, Vec<u8>) {
    let mut schedule = vec![0; schedule_length(plan)];
    let tally = run(plan, workers, choices, &mut schedule).unwrap();
    assert_eq!(check(plan, &schedule), Ok(()));
    (tally, schedule)
}

/// Alone, a worker builds the first plan just as it would without the other, from
/// round 2 on, and then the second.
#[test]
fn one_worker_builds_one_after_the_other() {
    let plans = plain_tables().map(|rows| plan_of(&rows));
    let alone = |plan: &[u8], before: u16| {
        let rows = short_rows(&tally_in(plan, 1, &[]).1).into_iter();
        rows.map(move |(round, worker)| (before + round, worker))
    };
    // All but the largest.
    for first in &plans[..5] {
        for second in &plans[..5] {
            let both = together(first, second, 3);
            let (t, schedule) = tally_in(&both, 1, &[]);
            let [one, other] = [first, second].map(|plan| measured(plan)[0] as u16);
            assert_eq!(t.rounds, u32::from(one + other) + 5);
            let root = [1, one + 2, one + 3, one + other + 4, one + other + 5];
            let mut rows: Vec<_> = root.iter().map(|&round| (round, 0)).collect();
            rows.extend(alone(first, 1));
            rows.extend(alone(second, one + 3));
            assert_eq!(short_rows(&schedule), rows);
        }
    }
}

/// Round 1: worker 0 spawns job 1, and worker 1 steals the new root. Round 2: job 1
/// ends, and worker 1 does 0.1. Round 3: worker 1 spawns job 2, and worker 0
/// steals the new root from it. Round 4: 0.3 stalls the new root; then 2.0
/// enables it and ends job 2, so worker 1 takes it. Round 5: 0.4.
#[test]
fn one_twice_by_two() {
    let (t, schedule) = tally_in(&ONE_AND_ONE, 2, &[0, 1]);
    assert_eq!(counts_of(t), [5, 7, 3, 2, 2, 0, 0, 2]);
    let rows = [(1, 0), (2, 1), (3, 1), (4, 0), (5, 1), (2, 0), (4, 1)];
    assert_eq!(short_rows(&schedule), rows);
}

/// Whoever runs it and whatever the choices, a result keeps the bounds of any
/// accepted plan.
#[test]
fn two_plans_run_in_one_build() {
    let mut plans = random_plans();
    plans.truncate(14);
    plans.extend([E.to_vec(), E2.to_vec(), tree(9, 8, 3), ONE_AND_E2.to_vec()]);
    for first in &plans {
        for second in &plans {
            let both = together(first, second, 4711);
            let [work, longest, path] = measured(&both);
            for workers in [1, 2, 3, 16] {
                for choices in &CHOICES[1..] {
                    let choices: Vec<u8> = choices.iter().map(|choice| choice % workers).collect();
                    let workers = u32::from(workers);
                    let (t, _) = tally_in(&both, workers, &choices);
                    assert_eq!(t.actions, work);
                    assert!((longest..=work).contains(&t.rounds));
                    assert!(t.peak <= workers * path);
                    if workers == 1 {
                        assert_eq!((t.rounds, t.peak), (work, path));
                    }
                }
            }
        }
    }
}

#[test]
fn e_and_f_printed() {
    prints(
        1,
        &[],
        &E_AND_F,
        "rounds 20\nactions 20\nlongest 10\npath 9\nparallel 2\nrest 0\npeak 9\nidle 0\n\
         requests 0\nsteals 0\nbare 0\nidle-victim 0\n",
    );
}

/// The last round and the worker of each action, in a schedule of either form.
fn rows_in(schedule: &[u8]) -> Vec<(u16, u16)> {
    if schedule[0] == 1 {
        return short_rows(schedule);
    }
    let halves: Vec<u16> = schedule[4..]
        .iter()
        .flat_map(|&byte| [byte >> 4, byte & 15].map(u16::from))
        .collect();
    halves
        .chunks_exact(5)
        .map(|row| {
            (
                row[..4].iter().fold(0, |round, half| round << 4 | half),
                row[4],
            )
        })
        .collect()
}

/// Runs a plan from a pool into a buffer of this length, and gives the tally and
/// the schedule.
fn pooled_into(plan: &[u8], workers: u32, length: usize) -> Result<(Tally, Vec<u8>), u32> {
    let mut tally = Tally::default();
    let schedule = written(length, |bytes| {
        tally = pool(plan, workers, bytes)?;
        Ok(schedule_length(plan))
    })?;
    Ok((tally, schedule))
}

/// The same into a buffer that is long enough, and with the rows alone.
fn pooled(plan: &[u8], workers: u32) -> (Tally, Vec<(u16, u16)>) {
    let (tally, schedule) = pooled_into(plan, workers, 5124).unwrap();
    (tally, rows_in(&schedule))
}

/// Compares rounds, actions, idle turns and the peak of a run from a pool, in
/// which the other counts are 0, and its rows.
fn pools(plan: &[u8], workers: u32, counts: [u32; 4], rows: &[(u16, u16)]) {
    let (tally, found) = pooled(plan, workers);
    let [rounds, actions, idle, peak] = counts;
    assert_eq!(counts_of(tally), [rounds, actions, idle, 0, 0, 0, 0, peak]);
    assert_eq!(found, rows);
}

/// Alone, a worker goes down to the first child, and from every child that ends
/// back to its parent.
#[test]
fn e_from_a_pool_alone() {
    let rounds = [1, 4, 5, 7, 8, 2, 3, 6];
    pools(&E, 1, [8, 8, 0, 7], &rounds.map(|round| (round, 0)));
}

const E_POOL_ROWS: [(u16, u16); 8] = [
    (1, 0),
    (2, 1),
    (3, 1),
    (4, 0),
    (5, 1),
    (2, 0),
    (3, 0),
    (4, 1),
];

/// Round 1: worker 0 spawns job 1. Round 2: worker 1 takes job 0. Round 3: job 1
/// ends, but worker 1 holds job 0, and so worker 0 is idle; then 0.2 spawns job 2.
/// Round 4: worker 0 takes job 0, which stalls; then 2.0 ends job 2, and worker 1
/// takes job 0. Round 5: 0.4.
#[test]
fn e_from_a_pool_by_two() {
    pools(&E, 2, [5, 8, 2, 7], &E_POOL_ROWS);
    let schedule = [
        0x01, 0x10, 0x04, 0x00, 0x00, 0x10, 0x00, 0x21, 0x00, 0x31, 0x00, 0x40, 0x00, 0x51, 0x00,
        0x20, 0x00, 0x30, 0x00, 0x41,
    ];
    assert_eq!(pooled_into(&E, 2, 20).unwrap().1, schedule);
    assert_eq!(check(&E, &schedule), Ok(()));
}

/// Worker 2 finds nothing: in round 4 it is worker 0, also idle, that takes job 0.
#[test]
fn e_from_a_pool_by_three() {
    pools(&E, 3, [5, 8, 7, 7], &E_POOL_ROWS);
}

#[test]
fn one_job_from_a_pool() {
    for workers in 1..=16 {
        pools(&one_job(), workers, [1, 1, workers - 1, 1], &[(1, 0)]);
        let idle = 3 * (workers - 1);
        pools(&ONE_OF_3, workers, [3, 3, idle, 1], &[(3, 0)]);
    }
}

/// Job 0 stalls in round 2, by worker 1, and worker 0 takes it as job 1 ends.
#[test]
fn f_from_a_pool() {
    let f = plan_of(&F_ROWS);
    let alone = [1, 6, 7, 2, 3, 4, 5].map(|round| (round, 0));
    pools(&f, 1, [7, 7, 0, 2], &alone);
    let mut rows = [1, 2, 6, 2, 3, 4, 5].map(|round| (round, 0));
    rows[1].1 = 1;
    for workers in 2..=16 {
        pools(&f, workers, [6, 7, 6 * workers - 7, 2], &rows);
    }
}

#[test]
fn e2_from_a_pool_alone() {
    let rounds = [2, 8, 11, 17, 19, 6, 7, 16];
    pools(&E2, 1, [19, 19, 0, 7], &rounds.map(|round| (round, 0)));
}

/// Rounds 1 and 2: worker 0 does 0.0, which spawns job 1. Round 3: worker 1 takes
/// job 0 and does 0.1; up to round 6 it does 0.2, which spawns job 2, and worker
/// 0 does 1.0: all three jobs live. Round 7: 1.1 ends job 1, and worker 0 is
/// idle, since job 2 lives. Round 8: it takes job 0, and 0.3 stalls it. Rounds 9
/// to 11: job 0 is in the pool, but not ready, and worker 0 is idle. In round 11
/// worker 1 is done with 2.0, ends job 2 and takes job 0. Rounds 12 and 13: 0.4.
#[test]
fn e2_from_a_pool_by_two() {
    let rows = [
        (2, 0),
        (3, 1),
        (6, 1),
        (8, 0),
        (13, 1),
        (6, 0),
        (7, 0),
        (11, 1),
    ];
    pools(&E2, 2, [13, 19, 7, 9], &rows);
    let schedule = [
        0x02, 0x10, 0x04, 0x00, 0x00, 0x02, 0x00, 0x00, 0x31, 0x00, 0x06, 0x10, 0x00, 0x80, 0x00,
        0x0D, 0x10, 0x00, 0x60, 0x00, 0x07, 0x00, 0x00, 0xB1,
    ];
    assert_eq!(pooled_into(&E2, 2, 24).unwrap().1, schedule);
    assert_eq!(check(&E2, &schedule), Ok(()));
}

/// The same, but worker 2 is idle in round 7, and takes job 0 then.
#[test]
fn e2_from_a_pool_by_three() {
    let rows = [
        (2, 0),
        (3, 1),
        (6, 1),
        (7, 2),
        (13, 1),
        (6, 0),
        (7, 0),
        (11, 1),
    ];
    pools(&E2, 3, [13, 19, 20, 9], &rows);
}

/// Each job spawns the next one at 0 and waits for it at 2.
const CHAIN_ROWS: [u16; 50] = [
    0, 1, 2, 0, 1, //
    0, 1, 0, 0, 2, //
    0, 1, 0, 0, 1, //
    1, 1, 3, 0, 1, //
    1, 1, 0, 0, 1, //
    1, 1, 0, 3, 1, //
    2, 1, 4, 0, 1, //
    2, 1, 0, 0, 1, //
    2, 1, 0, 3, 1, //
    3, 1, 0, 3, 6, //
];

/// Worker 1 does 0.1 in rounds 2 and 3, in which jobs 1 and 2 go to the pool. In
/// round 4 it takes job 1, the lower one, though job 2 came last, and in round 5
/// job 2. Each of them stalls at once. From round 9 on, worker 0 takes one parent
/// after the other.
#[test]
fn the_ready_job_of_lowest_number() {
    let rows = [
        (1, 0),
        (3, 1),
        (12, 0),
        (2, 0),
        (4, 1),
        (11, 0),
        (3, 0),
        (5, 1),
        (10, 0),
        (9, 0),
    ];
    pools(&plan_in(2, &CHAIN_ROWS), 2, [12, 16, 8, 4], &rows);
}

/// Alone, a worker that ends a job has all those above it in the pool, ready. It
/// takes the parent and not job 0.
#[test]
fn the_parent_before_a_lower_job() {
    let rounds = [1, 15, 16, 2, 12, 13, 3, 10, 11, 9];
    let rows = rounds.map(|round| (round, 0));
    pools(&plan_in(2, &CHAIN_ROWS), 1, [16, 16, 0, 4], &rows);
}

/// Worker 1 holds job 0 when 1.0 ends job 1, in round 2, so worker 0 is idle. The
/// join has come before the turn of worker 1, which so goes on with job 0.
#[test]
fn a_join_that_comes_earlier_in_the_round() {
    let rows = [(1, 0), (2, 1), (3, 1), (2, 0)];
    for workers in 2..=16 {
        let idle = 3 * workers - 4;
        pools(&plan_of(&G_ROWS), workers, [3, 4, idle, 2], &rows);
    }
}

/// H, but 1.0 takes three rounds. In round 3 worker 2 takes job 0, and 0.2 stalls
/// it. In round 4 job 1 ends first, and worker 0 is idle, since job 2 lives. Then
/// job 2 ends, and worker 1 takes job 0: no child lives by then, though both did
/// when the round began.
#[test]
fn two_children_end_in_one_round() {
    let mut rows = H_ROWS;
    rows[5 * 4 + 4] = 3;
    let wanted = [(1, 0), (2, 1), (3, 2), (5, 1), (4, 0), (3, 1), (4, 1)];
    pools(&plan_in(2, &rows), 3, [5, 9, 6, 3], &wanted);
}

/// Job 0 spawns job 1, which spawns jobs 2 and 3; each waits for its children in
/// its last action.
const CHILD_LIVES_ROWS: [u16; 45] = [
    0, 1, 2, 0, 1, //
    0, 1, 0, 0, 3, //
    0, 1, 0, 0, 1, //
    1, 1, 3, 0, 1, //
    1, 1, 4, 0, 1, //
    1, 1, 0, 0, 1, //
    1, 1, 0, 3, 1, //
    2, 1, 0, 4, 3, //
    3, 1, 0, 4, 1, //
];

/// Round 3: worker 0 works on 2.0, worker 1 on 0.1, and worker 2 takes job 1 and
/// spawns job 3. Round 4: 0.1 stalls job 0, and worker 1 is idle. Job 3 ends, and
/// so is worker 2, though job 1 is ready in the pool: job 2 lives. Round 5: the
/// lower of the two takes job 1. Job 2 ends, but job 1 is held.
#[test]
fn a_parent_of_which_a_child_lives() {
    let rows = [
        (1, 0),
        (4, 1),
        (7, 1),
        (2, 0),
        (3, 2),
        (5, 1),
        (6, 1),
        (5, 0),
        (4, 2),
    ];
    pools(&plan_in(2, &CHILD_LIVES_ROWS), 3, [7, 13, 8, 4], &rows);
}

/// Job 0 waits at 2 for the first action of job 1, and at 3 for the last.
const TWO_WAITS_ROWS: [u16; 35] = [
    0, 1, 2, 0, 1, //
    0, 1, 0, 0, 1, //
    0, 1, 0, 0, 1, //
    0, 1, 0, 0, 1, //
    1, 1, 0, 3, 3, //
    1, 1, 0, 0, 1, //
    1, 1, 0, 4, 1, //
];

/// Job 0 stalls in round 2. In round 4 the join of 1.0 comes, which moves no job:
/// worker 0 goes on with job 1, and worker 1 takes job 0 in round 5, though its
/// child lives. It stalls again, and in round 6 worker 0 ends job 1 and takes it.
#[test]
fn a_join_from_the_midst_of_a_job() {
    let rows = [(1, 0), (2, 1), (5, 1), (7, 0), (4, 0), (5, 0), (6, 0)];
    pools(&plan_in(2, &TWO_WAITS_ROWS), 2, [7, 9, 5, 2], &rows);
}

/// A plan of each form, and the length of its schedules.
fn e_and_e2() -> [(&'static [u8], usize); 2] {
    [(&E, 20), (&E2, 24)]
}

/// Plan, then workers, then the buffer.
#[test]
fn refusals_of_a_pool_in_their_order() {
    for (plan, number) in broken_plans() {
        for workers in [0, 1, 2, 16, 17, 256, 257, u32::MAX] {
            for length in [0, 1, 24, 5124] {
                assert_eq!(pooled_into(&plan, workers, length), Err(number));
            }
        }
    }
    for (plan, needed) in e_and_e2() {
        for length in [0, needed - 1, needed, 5124] {
            for workers in [0, 17, 18, 32, 256, 257, 65_537, 1 << 31 | 1, u32::MAX] {
                assert_eq!(pooled_into(plan, workers, length), Err(7));
            }
        }
        for workers in 1..=16 {
            assert_eq!(pooled_into(plan, workers, 0), Err(9));
        }
    }
}

/// One byte too short, and longer than needed by one and more.
#[test]
fn a_buffer_for_the_schedule_of_a_pool() {
    let largest = [1, 2].map(|form| plan_in(form, &largest_rows(1)));
    let mut plans = e_and_e2().to_vec();
    plans.extend([(&largest[0][..], 4100), (&largest[1], 5124)]);
    plans.push((&ONE_OF_3, 7));
    for (plan, needed) in plans {
        for workers in [1, 2, 16] {
            let (tally, schedule) = pooled_into(plan, workers, needed).unwrap();
            assert_eq!(schedule.len(), needed);
            for length in [needed + 1, needed + 2, needed + 100] {
                let longer = pooled_into(plan, workers, length).unwrap();
                assert_eq!(longer, (tally, schedule.clone()));
            }
            assert_eq!(pooled_into(plan, workers, needed - 1), Err(9));
        }
    }
}

/// A plan of up to eight jobs. Children are spawned at any positions and in any
/// order, and any action may send a join, to any position that it may go to.
fn wild_plan(random: &mut Random, form: u32) -> Vec<u8> {
    let jobs = random.draw(8);
    // The child that each action of a job spawns, plus 1.
    let mut spawns: Vec<Vec<u16>> = vec![vec![]; usize::from(jobs)];
    for job in 1..jobs {
        let above = &mut spawns[random.place(usize::from(job))];
        above.insert(random.place(above.len() + 1), job + 1);
    }
    for list in &mut spawns {
        for _ in 1..random.draw(4) {
            list.insert(random.place(list.len() + 1), 0);
        }
        // To the last of two that spawn nothing all children can send joins.
        list.extend([0, 0]);
    }
    let most = if form == 1 {
        1
    } else {
        [2, 4, 15][random.place(3)]
    };

    let mut rows = vec![];
    for (job, list) in (0..jobs).zip(&spawns) {
        let spawner = spawns.iter().find_map(|above| {
            let position = above.iter().position(|&child| child == job + 1)?;
            Some((above, position))
        });
        // A job that spawns nothing may as well be of one action.
        let length = if list.iter().all(|&child| child == 0) {
            1 + random.place(list.len())
        } else {
            list.len()
        };
        let frame = random.draw(9);
        for (position, &child) in list[..length].iter().enumerate() {
            let target = match spawner {
                Some((above, at)) if position + 1 == length || random.draw(3) == 1 => {
                    let targets: Vec<usize> = (at + 1..above.len())
                        .filter(|&to| above[to - 1] == 0)
                        .collect();
                    targets[random.place(targets.len())] as u16 + 1
                }
                _ => 0,
            };
            rows.extend([job, frame, child, target, random.draw(most)]);
        }
    }
    let mut plan = vec![0; 6403];
    match table_to_plan(form, &rows, &mut plan) {
        Ok(length) => {
            plan.truncate(length);
            plan
        }
        // More than eight joins enter an action: another one is drawn.
        Err(number) => {
            assert_eq!(number, 5);
            wild_plan(random, form)
        }
    }
}

fn wild_plans(seed: u64, count: usize) -> Vec<Vec<u8>> {
    let mut random = Random(seed);
    (0..count)
        .flat_map(|_| [1, 2].map(|form| wild_plan(&mut random, form)))
        .collect()
}

/// What is owed of every run from a pool, by any number of workers.
#[test]
fn bounds_of_a_pool() {
    for plan in [plans(), random_plans(), wild_plans(1, 60)].concat() {
        let m = measure(&plan).unwrap();
        for workers in 1..=16 {
            let (t, schedule) = pooled_into(&plan, workers, 5124).unwrap();
            assert_eq!(check(&plan, &schedule), Ok(()));
            assert_eq!(schedule[1] >> 3, workers as u8);
            assert!(workers * t.rounds <= m.work + (workers - 1) * m.longest);
            assert!((m.longest..=m.work).contains(&t.rounds));
            assert!(t.peak <= workers * m.path);
            assert_eq!(t.actions, m.work);
            assert_eq!(workers * t.rounds, t.actions + t.idle);
            assert!(workers * m.longest <= t.idle + m.rest + m.parallel * m.longest);
            assert_eq!((t.requests, t.steals), (0, 0));
            assert_eq!((t.bare, t.idle_victim), (0, 0));
            if workers == 1 {
                assert_eq!((t.rounds, t.peak, t.idle), (m.work, m.path, 0));
            }

            let rows = rows_in(&schedule);
            let last = rows.iter().map(|row| u32::from(row.0)).max();
            assert_eq!(last, Some(t.rounds));
            assert!(rows.iter().all(|row| u32::from(row.1) < workers));
        }
    }
}

/// A plan of form 1 and the same one in form 2.
#[test]
fn both_forms_from_a_pool_alike() {
    let mut plans = [plans(), random_plans(), wild_plans(2, 60)].concat();
    plans.retain(|plan| plan[0] == 1);
    assert!(plans.len() > 70);
    for old in plans {
        let new = turned(to_form_2, &old).unwrap();
        for workers in 1..=16 {
            assert_eq!(pooled(&old, workers), pooled(&new, workers));
        }
        for workers in [0, 17] {
            assert_eq!(pool(&old, workers, &mut []), Err(7));
            assert_eq!(pool(&new, workers, &mut []), Err(7));
        }
    }
}

/// A run from a pool as rules Q1 to Q10 tell it, sentence by sentence. It keeps
/// what each worker holds, the rounds spent on each job's next action and the
/// rows of what is done. Who lives, who is ready and what is in the pool it finds
/// out anew at every step, by going over all jobs, and it takes every turn.
///
/// The library keeps a set of the ready jobs that nobody holds and counts of
/// joins and children as it goes, and leaves out rounds in which no action is
/// done. A slip there might still give runs that keep every bound and pass the
/// checker. It shows if the same run is told without any of that.
struct Model {
    /// The rows of the open table, by job.
    jobs: Vec<Vec<[u16; 5]>>,
    held: Vec<Option<usize>>,
    spent: Vec<u16>,
    done: Vec<Vec<(u16, u16)>>,
    tally: Tally,
}

impl Model {
    fn run(plan: &[u8], workers: usize) -> (Tally, Vec<(u16, u16)>) {
        let mut jobs: Vec<Vec<[u16; 5]>> = vec![];
        for row in rows_of(plan).unwrap().chunks(5) {
            jobs.resize(usize::from(row[0]) + 1, vec![]);
            jobs[usize::from(row[0])].push(row.try_into().unwrap());
        }
        let count = jobs.len();
        let mut model = Model {
            jobs,
            held: vec![None; workers],
            spent: vec![0; count],
            done: vec![vec![]; count],
            tally: Tally::default(),
        };
        model.weigh();
        while model.lives(0) {
            model.round();
        }
        (model.tally, model.done.concat())
    }

    fn all_jobs(&self) -> std::ops::Range<usize> {
        0..self.jobs.len()
    }

    fn is_done(&self, (job, position): (usize, usize)) -> bool {
        position < self.done[job].len()
    }

    fn spawner(&self, child: usize) -> Option<(usize, usize)> {
        self.all_jobs().find_map(|job| {
            let mut rows = self.jobs[job].iter();
            let position = rows.position(|row| usize::from(row[2]) == child + 1)?;
            Some((job, position))
        })
    }

    fn lives(&self, job: usize) -> bool {
        let spawned = job == 0 || self.spawner(job).is_some_and(|at| self.is_done(at));
        spawned && self.done[job].len() < self.jobs[job].len()
    }

    fn children(&self, parent: usize) -> impl Iterator<Item = usize> + '_ {
        self.all_jobs()
            .filter(move |&job| self.spawner(job).is_some_and(|at| at.0 == parent))
    }

    /// Whether all is done that the next action of a job that lives must follow.
    fn is_ready(&self, job: usize) -> bool {
        let next = self.done[job].len();
        self.children(job).all(|child| {
            let mut rows = self.jobs[child].iter().enumerate();
            rows.all(|(at, row)| usize::from(row[3]) != next + 1 || self.is_done((child, at)))
        })
    }

    fn is_held(&self, job: usize) -> bool {
        self.held.contains(&Some(job))
    }

    /// All living jobs that nobody holds.
    fn pool(&self) -> Vec<usize> {
        self.all_jobs()
            .filter(|&job| self.lives(job) && !self.is_held(job))
            .collect()
    }

    fn weigh(&mut self) {
        let living = self.all_jobs().filter(|&job| self.lives(job));
        let weight = living.map(|job| u32::from(self.jobs[job][0][1])).sum();
        self.tally.peak = self.tally.peak.max(weight);
    }

    fn round(&mut self) {
        for worker in 0..self.held.len() {
            if self.held[worker].is_none() {
                let ready = self.pool().into_iter().filter(|&job| self.is_ready(job));
                self.held[worker] = ready.min();
            }
        }
        self.tally.rounds += 1;
        for (worker, job) in self.held.clone().into_iter().enumerate() {
            match job {
                Some(job) => self.turn(worker, job),
                None => self.tally.idle += 1,
            }
        }
    }

    fn turn(&mut self, worker: usize, job: usize) {
        let [_, _, child, _, cost] = self.jobs[job][self.done[job].len()];
        self.tally.actions += 1;
        self.spent[job] += 1;
        if self.spent[job] < cost {
            return;
        }
        self.spent[job] = 0;
        self.done[job].push((self.tally.rounds as u16, worker as u16));
        self.weigh();
        self.held[worker] = if child > 0 {
            Some(usize::from(child) - 1)
        } else if !self.lives(job) {
            let parent = self.spawner(job).map(|at| at.0);
            parent.filter(|&parent| {
                let lone = !self.children(parent).any(|child| self.lives(child));
                lone && !self.is_held(parent)
            })
        } else if !self.is_ready(job) {
            None
        } else {
            Some(job)
        };
    }
}

#[test]
fn a_pool_told_sentence_by_sentence() {
    let mut plans = wild_plans(3, 150);
    plans.extend(random_plans().into_iter().take(10));
    plans.extend([E.to_vec(), E2.to_vec(), tree(9, 8, 3), tree(15, 2, 2)]);
    plans.extend([plan_of(&F_ROWS), plan_of(&H_ROWS), plan_in(2, &CHAIN_ROWS)]);
    for plan in plans {
        for workers in [1, 2, 3, 4, 5, 6, 8, 16] {
            let told = Model::run(&plan, workers);
            assert_eq!(pooled(&plan, workers as u32), told);
        }
    }
}
