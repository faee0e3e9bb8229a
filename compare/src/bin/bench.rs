//! The proved code against the second one, on the same inputs.

use compare::inputs::{Aim, Costs, Shape, Wish, MAX_ACTIONS, MAX_CHOICES, MAX_JOBS};
use compare::proved;
use compare::random::Random;
use compare::schedules;
use std::hint::black_box;
use std::time::Instant;

const REPETITIONS: usize = 201;

/// One call is too short for the clock, so a few go together.
const TOGETHER: usize = 8;

/// A call on one plan again and again would learn its branches by heart.
const PLANS: usize = 64;

const WORKERS: [u32; 3] = [1, 4, 16];

const LARGEST: Wish = Wish {
    shape: Shape::Recent,
    jobs: MAX_JOBS,
    actions: MAX_ACTIONS,
    lumped: false,
    spawns_first: false,
    aim: Aim::Any,
    joins: 30,
    frame: u16::MAX,
    costs: None,
};

fn median(mut times: Vec<f64>) -> f64 {
    times.sort_by(f64::total_cmp);
    times[times.len() / 2]
}

/// Medians of both in microseconds, their calls taken in turn. Calls are given
/// the number of the plan to use.
fn medians<T: PartialEq>(
    mut proved: impl FnMut(usize) -> T,
    mut second: impl FnMut(usize) -> T,
) -> (f64, f64) {
    for plan in 0..PLANS {
        assert!(proved(plan) == second(plan), "the answers differ");
    }
    let times: (Vec<f64>, Vec<f64>) = (0..REPETITIONS)
        .map(|repetition| {
            let first = repetition * TOGETHER;
            (time(first, &mut proved), time(first, &mut second))
        })
        .unzip();
    (median(times.0), median(times.1))
}

fn time<T>(first: usize, call: &mut impl FnMut(usize) -> T) -> f64 {
    let start = Instant::now();
    for k in first..first + TOGETHER {
        black_box(call(black_box(k % PLANS)));
    }
    start.elapsed().as_secs_f64() * 1e6 / TOGETHER as f64
}

fn line(name: &str, (proved, second): (f64, f64)) {
    let ratio = proved / second;
    println!("| {name} | {proved:.2} | {second:.2} | {ratio:.2} |");
}

fn plans_of(random: &mut Random, wish: Wish) -> Vec<Vec<u8>> {
    (0..PLANS).map(|_| wish.grant(random).bytes()).collect()
}

fn any_list(random: &mut Random, workers: u32) -> Vec<u8> {
    (0..MAX_CHOICES)
        .map(|_| random.below(workers as usize) as u8)
        .collect()
}

fn run(plans: &[Vec<u8>], workers: u32, choices: &[u8]) -> (f64, f64) {
    let mut one = vec![0; schedules::length(2, MAX_ACTIONS)];
    let mut other = one.clone();
    let times = medians(
        |k| proved::run(&plans[k], workers, choices, &mut one),
        |k| second::run(&plans[k], workers, choices, &mut other),
    );
    assert!(one == other, "the schedules differ");
    times
}

fn pool(plans: &[Vec<u8>], workers: u32) -> (f64, f64) {
    let mut one = vec![0; schedules::length(2, MAX_ACTIONS)];
    let mut other = one.clone();
    let times = medians(
        |k| proved::pool(&plans[k], workers, &mut one),
        |k| second::pool(&plans[k], workers, &mut other),
    );
    assert!(one == other, "the schedules differ");
    times
}

/// Runs from a pool.
fn pools(plans: &[Vec<u8>], counts: &[u32], which: &str) {
    for &workers in counts {
        line(&format!("pool, P {workers}{which}"), pool(plans, workers));
    }
}

fn schedule_of(plan: &[u8], workers: u32, choices: &[u8]) -> Vec<u8> {
    let mut schedule = vec![0; schedules::length(plan[0].into(), MAX_ACTIONS)];
    second::run(plan, workers, choices, &mut schedule).expect("the plan is good");
    schedule
}

/// The calls that read a plan or a table and run nothing. `which` tells the
/// plans apart behind the name of the call.
fn readings(plans: &[Vec<u8>], which: &str) {
    let form = plans[0][0].into();
    let tables: Vec<Vec<u16>> = plans
        .iter()
        .map(|plan| {
            let mut rows = vec![0; 5 * MAX_ACTIONS];
            let count = second::plan_to_table(plan, &mut rows);
            assert_eq!(count, Ok(MAX_ACTIONS), "the plan is as large as can be");
            rows
        })
        .collect();
    let mut rows = (tables[0].clone(), tables[0].clone());
    let times = medians(
        |k| proved::plan_to_table(&plans[k], &mut rows.0),
        |k| second::plan_to_table(&plans[k], &mut rows.1),
    );
    line(&format!("plan to table{which}"), times);
    let mut bytes = (vec![0; 8 * MAX_ACTIONS], vec![0; 8 * MAX_ACTIONS]);
    let times = medians(
        |k| proved::table_to_plan(form, &tables[k], &mut bytes.0),
        |k| second::table_to_plan(form, &tables[k], &mut bytes.1),
    );
    line(&format!("table to plan{which}"), times);
    let times = medians(
        |k| proved::measure(&plans[k]),
        |k| second::measure(&plans[k]),
    );
    line(&format!("measure{which}"), times);
}

/// Turns plans of form 1 into form 2, and those into form 1 again; gives the plans of form 2.
fn forms(plans: &[Vec<u8>]) -> Vec<Vec<u8>> {
    let turned: Vec<Vec<u8>> = plans
        .iter()
        .map(|plan| {
            let mut bytes = vec![0; 8 * MAX_ACTIONS];
            let count = second::to_form_2(plan, &mut bytes).expect("the plan is of form 1");
            bytes.truncate(count);
            bytes
        })
        .collect();
    let mut bytes = (vec![0; 8 * MAX_ACTIONS], vec![0; 8 * MAX_ACTIONS]);
    let times = medians(
        |k| proved::to_form_2(&plans[k], &mut bytes.0),
        |k| second::to_form_2(&plans[k], &mut bytes.1),
    );
    line("form 1 into form 2", times);
    let times = medians(
        |k| proved::to_form_1(&turned[k], &mut bytes.0),
        |k| second::to_form_1(&turned[k], &mut bytes.1),
    );
    line("form 2 into form 1, all costs 1", times);
    turned
}

/// Puts two plans, each with half of what the limits leave, under a new root.
fn pairs(random: &mut Random, costs: [Option<Costs>; 2], which: &str) {
    let half = |costs| Wish {
        jobs: (MAX_JOBS - 1) / 2,
        actions: (MAX_ACTIONS - 5) / 2,
        costs,
        ..LARGEST
    };
    let [one, two] = costs.map(|costs| plans_of(random, half(costs)));
    let mut bytes = (vec![0; 8 * MAX_ACTIONS], vec![0; 8 * MAX_ACTIONS]);
    let times = medians(
        |k| proved::pair(&one[k], &two[k], 1, &mut bytes.0),
        |k| second::pair(&one[k], &two[k], 1, &mut bytes.1),
    );
    assert!(bytes.0 == bytes.1, "the plans differ");
    line(&format!("pair of two halves{which}"), times);
}

/// Runs with mixed choices, and checks of the schedules that they write.
fn runs(random: &mut Random, plans: &[Vec<u8>], counts: &[u32], which: &str) {
    for &workers in counts {
        let choices = any_list(random, workers);
        let times = run(plans, workers, &choices);
        line(&format!("run, P {workers}, mixed choices{which}"), times);
        let schedules: Vec<Vec<u8>> = plans
            .iter()
            .map(|plan| schedule_of(plan, workers, &choices))
            .collect();
        let times = medians(
            |k| proved::check(&plans[k], &schedules[k]),
            |k| second::check(&plans[k], &schedules[k]),
        );
        line(
            &format!("check of those schedules, P {workers}{which}"),
            times,
        );
    }
}

fn main() {
    let mut random = Random(0x5EED_0008);
    let plans = plans_of(&mut random, LARGEST);

    println!(
        "Medians of {REPETITIONS} repetitions of {TOGETHER} calls, both taken in turn, in \
         microseconds a call.\nBuffers are not cleared between calls. Calls go over {PLANS} plans \
         of {MAX_ACTIONS} actions in {MAX_JOBS} jobs, one after the other, of form 1 where no other \
         is named.\n"
    );
    println!("| Call | proved | second | proved / second |");
    println!("|---|---:|---:|---:|");

    readings(&plans, "");
    runs(&mut random, &plans, &WORKERS, "");
    pools(&plans, &WORKERS, "");
    for victim in [0, 15] {
        let times = run(&plans, 16, &[victim; MAX_CHOICES]);
        line(&format!("run, P 16, all choose worker {victim}"), times);
    }
    // A chain of jobs leaves fifteen workers with nothing but requests.
    let chain = Wish {
        shape: Shape::Chain,
        aim: Aim::Early,
        spawns_first: true,
        ..LARGEST
    };
    let chains = plans_of(&mut random, chain);
    let times = run(&chains, 16, &[0; MAX_CHOICES]);
    line("run of a chain of jobs, P 16, all choose worker 0", times);
    let times = run(&chains, 16, &any_list(&mut random, 16));
    line("run of a chain of jobs, P 16, mixed choices", times);
    pools(&chains, &[16], ", a chain of jobs");

    let mut own = Random(0x5EED_000F);
    pairs(&mut own, [None, None], "");
    let any = Some(Costs::Any);
    pairs(&mut own, [None, any], ", the second in form 2, mixed costs");
    pairs(&mut own, [any, any], ", form 2, mixed costs");

    // The same plans in the other form, with other choices.
    let plans = forms(&plans);
    let mut own = Random(0x5EED_000B);
    runs(&mut own, &plans, &WORKERS[1..], ", form 2, all costs 1");

    let costed = |costs| Wish {
        costs: Some(costs),
        ..LARGEST
    };
    let plans = plans_of(&mut random, costed(Costs::Any));
    readings(&plans, ", form 2, mixed costs");
    runs(&mut random, &plans, &WORKERS, ", form 2, mixed costs");
    pools(&plans, &WORKERS, ", form 2, mixed costs");
    let plans = plans_of(&mut random, costed(Costs::Largest));
    runs(&mut random, &plans, &WORKERS, ", form 2, all costs 15");
    pools(&plans, &WORKERS, ", form 2, all costs 15");

    println!("\nA run with P 4 as plans grow, over {PLANS} of each size:\n");
    println!("| Actions | proved | second | proved / second |");
    println!("|---:|---:|---:|---:|");
    let choices = any_list(&mut random, 4);
    let mut actions = 64;
    while actions <= MAX_ACTIONS {
        let wish = Wish {
            jobs: actions / 8,
            actions,
            ..LARGEST
        };
        let plans = plans_of(&mut random, wish);
        line(&actions.to_string(), run(&plans, 4, &choices));
        actions *= 2;
    }
}
