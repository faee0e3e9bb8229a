//! Inputs that were good until something touched them.

use crate::both::{Both, NO_FORMS, PLAN_ROOM, ROWS_ROOM, SCHEDULE_ROOM};
use compare::claims::Facts;
use compare::inputs::{
    any_choices, any_plan, Aim, Costs, Shape, Sketch, Wish, COSTS, FORMS, MAX_ACTIONS, MAX_COST,
    MAX_JOBS,
};
use compare::random::Random;
use compare::schedules::{last_round, Row, Schedule};

/// A few small plans of both forms, E's shape among them.
fn some_plans(random: &mut Random) -> Vec<Sketch> {
    let mut plans = Vec::new();
    for jobs in 1..=8 {
        for k in 0..6 {
            let actions = random.within(jobs, 5 * jobs);
            let mut wish = Wish::any(random, jobs, actions);
            wish.costs = (k >= 3).then(|| random.pick(&COSTS));
            plans.push(wish.grant(random));
        }
    }
    plans
}

fn large_plan(random: &mut Random, costs: Option<Costs>) -> Sketch {
    Wish {
        shape: Shape::Recent,
        jobs: MAX_JOBS,
        actions: MAX_ACTIONS,
        lumped: false,
        spawns_first: false,
        aim: Aim::Any,
        joins: 100,
        frame: u16::MAX,
        costs,
    }
    .grant(random)
}

fn schedule_of(both: &mut Both, plan: &[u8], workers: u32, choices: &[u8]) -> Vec<u8> {
    both.run(plan, workers, choices, SCHEDULE_ROOM)
        .expect("the plan keeps the rules")
        .1
}

/// Calls with each bit turned, and each byte put to some other values.
fn touched(bytes: &[u8], mut each: impl FnMut(&[u8])) {
    let mut copy = bytes.to_vec();
    for at in 0..bytes.len() {
        let others = [0, 1, 0x7F, 0x80, 0xFF, bytes[at].wrapping_add(1)];
        let turned = (0..8).map(|bit| bytes[at] ^ 1 << bit);
        for value in turned.chain(others) {
            copy[at] = value;
            each(&copy);
        }
        copy[at] = bytes[at];
    }
}

/// Calls with every shorter length, and with bytes behind.
fn cut(bytes: &[u8], mut each: impl FnMut(&[u8])) {
    for length in 0..bytes.len() {
        each(&bytes[..length]);
    }
    let mut longer = bytes.to_vec();
    for byte in [0, 1, 0xFF, 0, 0, 0, 0, 0, 0] {
        longer.push(byte);
        each(&longer);
        let one = [bytes, &[byte]].concat();
        each(&one);
    }
}

pub fn plans(both: &mut Both) {
    let mut random = Random(0x5EED_0004);
    for sketch in some_plans(&mut random) {
        let plan = sketch.bytes();
        let schedule = schedule_of(both, &plan, 2, &[0, 1, 0]);
        touched(&plan, |bytes| both.all_of_plan(bytes, &schedule));
        cut(&plan, |bytes| both.all_of_plan(bytes, &schedule));
    }

    for costs in [None, Some(Costs::Any)] {
        let large = large_plan(&mut random, costs).bytes();
        for at in 0..large.len() {
            let mut copy = large.clone();
            copy[at] ^= 1 << random.below(8);
            let _ = both.read(&copy);
            assert_eq!(both.measure(&large[..at]), Err(1));
        }
    }

    out_of_range(both, &mut random);
    no_cost(both, &mut random);

    // Bytes from nowhere, with a good start so that they get somewhere.
    for _ in 0..20_000 {
        let length = random.within(0, 40);
        let rare = random.pick(&[5, 20, 100]);
        let mut bytes = vec![0; length];
        for byte in &mut bytes {
            if random.chance(rare) {
                *byte = random.number() as u8;
            }
        }
        let form = random.pick(&[1, 2]);
        let start = [form, 0, random.pick(&[0x80, 0, 0x81, 1])];
        let good = random.within(0, 3).min(length);
        bytes[..good].copy_from_slice(&start[..good]);
        let schedule = match form {
            1 => &[1, 8, 0, 0x80, 0, 0x10][..],
            _ => &[2, 8, 0, 0x80, 0, MAX_COST, 0],
        };
        both.all_of_plan(&bytes, schedule);
        both.generated += 1;
    }

    // Children, targets and costs put to other numbers.
    for _ in 0..20_000 {
        let mut sketch = any_plan(&mut random);
        if sketch.actions() > 200 {
            continue;
        }
        for _ in 0..random.within(1, 3) {
            let job = random.below(sketch.jobs.len());
            let actions = &mut sketch.jobs[job].actions;
            let at = random.below(actions.len());
            let near = random.below(20) as u8;
            let number = random.pick(&[None, Some(near), Some(255)]);
            match random.below(5) {
                0 | 1 => actions[at].target = number,
                2 | 3 => actions[at].child = number,
                _ if sketch.form == 2 => actions[at].cost = near % (MAX_COST + 1),
                _ => {}
            }
        }
        let plan = sketch.bytes();
        let opened = both.plan_to_table(&plan, 5 * sketch.actions());
        let closed = both.table_to_plan(sketch.form, &sketch.rows(), plan.len());
        assert_eq!(opened.is_ok(), closed.is_ok());
        assert_eq!(both.read(&plan).err(), opened.err());
        both.generated += 1;
    }
}

/// One field out of its range, cut at every length: what is told first hangs on
/// whether the field was still there.
fn out_of_range(both: &mut Both, random: &mut Random) {
    for sketch in some_plans(random) {
        for number in 0..sketch.jobs.len() {
            for field in 0..3 {
                let mut broken = sketch.clone();
                match field {
                    0 => broken.jobs[number].frame = 0,
                    1 => broken.jobs[number].actions.clear(),
                    _ => broken.jobs.truncate(number),
                }
                let plan = broken.bytes();
                for length in 0..=plan.len() {
                    both.all_of_plan(&plan[..length], &[]);
                }
            }
        }
    }
}

/// One cost of 0, cut at every length: it is told from its last bit on.
fn no_cost(both: &mut Both, random: &mut Random) {
    for sketch in some_plans(random) {
        for at in 0..sketch.actions() {
            let plan = sketch
                .clone()
                .costed(|k| if k == at { 0 } else { 1 + (k * 7 % 15) as u8 })
                .bytes();
            let mut told = 1;
            for length in 0..=plan.len() {
                let answer = both.read(&plan[..length]);
                if answer == Err(3) {
                    told = 3;
                }
                assert_eq!(answer, Err(told));
            }
            assert_eq!(told, 3);
            both.all_of_plan(&plan, &[]);
        }
    }
}

/// Closes a table that may be broken in every form.
fn close(both: &mut Both, rows: &[u16], room: usize) {
    let answers = FORMS.map(|form| both.table_to_plan(form, rows, room));
    // What form 1 takes, form 2 takes too, if there is room.
    if answers[0].is_ok() {
        assert!(answers[1].is_ok() || answers[1] == Err(9));
    }
}

pub fn tables(both: &mut Both) {
    let mut random = Random(0x5EED_0005);
    let mut bases = some_plans(&mut random);
    bases.truncate(32);
    for sketch in bases {
        let rows = sketch.rows();
        let room = sketch.bytes().len();
        let mut copy = rows.clone();
        for at in 0..rows.len() {
            let others = [0, 1, 2, 15, 16, 255, 256, 257, 258, 511, 512, u16::MAX];
            let near = [rows[at].wrapping_add(1), rows[at].wrapping_sub(1)];
            for value in others.into_iter().chain(near) {
                copy[at] = value;
                close(both, &copy, room);
                close(both, &copy, room + 8);
                let form = random.pick(&NO_FORMS);
                assert_eq!(both.table_to_plan(form, &copy, room), Err(2));
            }
            for bit in 0..16 {
                copy[at] = rows[at] ^ 1 << bit;
                close(both, &copy, room + 8);
            }
            copy[at] = rows[at];
        }
        for length in 0..rows.len() {
            close(both, &rows[..length], room);
            let form = random.pick(&NO_FORMS);
            assert_eq!(both.table_to_plan(form, &rows[..length], room), Err(2));
        }
        let mut longer = rows.clone();
        for number in [0, 1, 0, 0, 1, 256, 1, 2, 3, 4] {
            longer.push(number);
            close(both, &longer, room + 8);
        }
        // Rows taken away, doubled and changed for each other.
        for row in 0..rows.len() / 5 {
            let mut fewer = rows.clone();
            fewer.drain(5 * row..5 * row + 5);
            close(both, &fewer, room + 8);
            let mut more = rows.clone();
            for k in 0..5 {
                more.insert(5 * row + k, rows[5 * row + k]);
            }
            close(both, &more, room + 8);
            for other in 0..row {
                let mut swapped = rows.clone();
                for k in 0..5 {
                    swapped.swap(5 * row + k, 5 * other + k);
                }
                close(both, &swapped, room + 8);
            }
        }
    }
    cost_columns(both, &mut random);
}

/// Costs in a table come behind its row rules, and before spawns and joins.
fn cost_columns(both: &mut Both, random: &mut Random) {
    for sketch in some_plans(random) {
        for cost in [
            0,
            1,
            2,
            14,
            15,
            16,
            17,
            31,
            32,
            255,
            256,
            257,
            271,
            u16::MAX,
        ] {
            let mut rows = sketch.rows();
            let at = random.below(rows.len() / 5);
            for row in rows.chunks_exact_mut(5) {
                row[4] = 1;
            }
            rows[5 * at + 4] = cost;
            let one = both.table_to_plan(1, &rows, ROWS_ROOM);
            assert_eq!(one.err(), (cost != 1).then_some(3));
            let two = both.table_to_plan(2, &rows, ROWS_ROOM);
            let fits = (1..=15).contains(&cost);
            assert_eq!(two.err(), (!fits).then_some(3));
            // A spawn by everybody, and a target that is none.
            for (column, number, told) in [(2, 1, 4), (3, 256, 5), (3, 257, 10)] {
                let mut broken = rows.clone();
                broken[column] = number;
                let two = both.table_to_plan(2, &broken, 0);
                assert_eq!(two, Err(if fits || told == 10 { told } else { 3 }));
            }
        }
    }
}

/// Both answers to a schedule are what the rules say.
fn check(both: &mut Both, plan: &[u8], facts: &Facts, schedule: &[u8]) -> Result<(), u32> {
    let answer = both.check(plan, schedule);
    assert_eq!(
        answer,
        facts.verdict(schedule),
        "{plan:02x?} {schedule:02x?}"
    );
    answer
}

pub fn schedules(both: &mut Both) {
    let mut random = Random(0x5EED_0006);
    for sketch in some_plans(&mut random) {
        let plan = sketch.bytes();
        let facts = both.facts(&plan, &sketch.rows());
        let workers = random.within(1, 16);
        let choices = any_choices(&mut random, workers);
        let bytes = schedule_of(both, &plan, workers as u32, &choices);
        touched(&bytes, |bytes| {
            let _ = check(both, &plan, &facts, bytes);
        });
        cut(&bytes, |bytes| {
            assert_eq!(check(both, &plan, &facts, bytes), Err(11));
        });
        let schedule = Schedule::read(&bytes).expect("a run wrote it");
        fill(both, &plan, &bytes);
        other_form(both, &plan, &schedule);
        shifted(both, &plan, &facts, &schedule);
        swapped(both, &plan, &facts, &schedule);
        side_by_side(both, &plan, &facts, &schedule);
        // A round of 0 goes before whatever rule is broken elsewhere.
        let mut broken = schedule.clone();
        broken.rows.fill(Row {
            round: last_round(schedule.form),
            worker: 15,
        });
        broken.rows.last_mut().expect("a row").round = 0;
        assert_eq!(both.check(&plan, &broken.bytes()), Err(11));
    }
    headers(both);
    others(both, &mut random);
}

/// Every fill that is not 0, where the rows leave half a byte.
fn fill(both: &mut Both, plan: &[u8], schedule: &[u8]) {
    let actions = both.measure(plan).expect("the plan is good").total;
    if schedule[0] == 2 && actions % 2 == 1 {
        for bits in 1..16 {
            let mut copy = schedule.to_vec();
            *copy.last_mut().expect("a row") |= bits;
            assert_eq!(both.check(plan, &copy), Err(11));
        }
    }
}

/// The same rows as a schedule of the other form, as it is, with the form of
/// the plan, and with its length too.
fn other_form(both: &mut Both, plan: &[u8], schedule: &Schedule) {
    let length = schedule.bytes().len();
    let mut other = Schedule {
        form: 3 - schedule.form,
        ..schedule.clone()
    }
    .bytes();
    assert_eq!(both.check(plan, &other), Err(11));
    other[0] = schedule.form as u8;
    assert_eq!(both.check(plan, &other), Err(11));
    other.resize(length, 0);
    let _ = both.check(plan, &other);
    other[0] = 3 - other[0];
    assert_eq!(both.check(plan, &other), Err(11));
    // The other form's plan is another plan to the schedule.
    if let Ok(plan) = both.convert(3 - schedule.form, plan, PLAN_ROOM) {
        assert_eq!(both.check(&plan, &schedule.bytes()), Err(11));
    }
}

/// All rounds later, and each one a little earlier or later.
fn shifted(both: &mut Both, plan: &[u8], facts: &Facts, schedule: &Schedule) {
    let last = last_round(schedule.form);
    let rounds = schedule.rows.iter().map(|row| row.round).max();
    for by in [1, 15, last - rounds.expect("a row")] {
        let mut later = schedule.clone();
        later.rows.iter_mut().for_each(|row| row.round += by);
        assert_eq!(check(both, plan, facts, &later.bytes()), Ok(()));
    }
    let mut earlier = schedule.clone();
    earlier.rows.iter_mut().for_each(|row| row.round -= 1);
    assert!(check(both, plan, facts, &earlier.bytes()).is_err());
    for at in 0..schedule.rows.len() {
        let round = schedule.rows[at].round;
        let mut copy = schedule.clone();
        for other in round.saturating_sub(16)..=round + 16 {
            copy.rows[at].round = other;
            let _ = check(both, plan, facts, &copy.bytes());
        }
    }
}

/// Rows, rounds or workers changed for each other.
fn swapped(both: &mut Both, plan: &[u8], facts: &Facts, schedule: &Schedule) {
    for at in 0..schedule.rows.len() {
        for other in 0..at {
            let mut rows = schedule.clone();
            rows.rows.swap(at, other);
            let _ = check(both, plan, facts, &rows.bytes());
            let mut workers = schedule.clone();
            workers.rows[at].worker = schedule.rows[other].worker;
            let _ = check(both, plan, facts, &workers.bytes());
            workers.rows[other].worker = schedule.rows[at].worker;
            let _ = check(both, plan, facts, &workers.bytes());
        }
    }
}

/// Each action brought to the worker of each other one, right before it, right
/// after it, and one round nearer, with room on both sides.
fn side_by_side(both: &mut Both, plan: &[u8], facts: &Facts, schedule: &Schedule) {
    let last = schedule.rows.iter().map(|row| row.round).max();
    let step = (last_round(schedule.form) / last.expect("a row")).min(40);
    let mut apart = schedule.clone();
    apart.rows.iter_mut().for_each(|row| row.round *= step);
    assert_eq!(check(both, plan, facts, &apart.bytes()), Ok(()));
    for at in 0..apart.rows.len() {
        for other in (0..apart.rows.len()).filter(|&other| other != at) {
            let beside = apart.rows[other];
            let begun = beside.round - facts.costs[other];
            let after = beside.round + facts.costs[at];
            let mut copy = apart.clone();
            for round in [begun, begun + 1, after - 1, after] {
                copy.rows[at] = Row { round, ..beside };
                let answer = check(both, plan, facts, &copy.bytes());
                if round == begun + 1 || round == after - 1 {
                    assert!(answer.is_err(), "they share a round");
                }
            }
        }
    }
}

/// Every header of two bytes, and every round and worker with every count.
fn headers(both: &mut Both) {
    let one = Wish {
        shape: Shape::Chain,
        jobs: 1,
        actions: 1,
        lumped: false,
        spawns_first: true,
        aim: Aim::Any,
        joins: 0,
        frame: 1,
        costs: None,
    }
    .grant(&mut Random(0));
    let plan = one.bytes();
    let costed = one.costed(|_| 7).bytes();
    for high in 0..=u16::MAX {
        let [a, b] = high.to_be_bytes();
        let workers = b >> 3;
        let good = |form| a == form && b & 7 == 0 && (1..=16).contains(&workers);
        let told = |good: bool| if good { Ok(()) } else { Err(11) };
        let answer = both.check(&plan, &[a, b, 0, 0x80, 0, 0x10]);
        assert_eq!(answer, told(good(1)));
        let answer = both.check(&costed, &[a, b, 0, 0x80, 0, 7, 0]);
        assert_eq!(answer, told(good(2)));
        let low = both.check(&plan, &[1, 0x80, a, b, 0, 0x10]);
        assert_eq!(low, told(high == 0x80));
        let low = both.check(&costed, &[2, 0x80, a, b, 0, 7, 0]);
        assert_eq!(low, told(high == 0x80));
        let row = both.check(&plan, &[1, 0x40, 0, 0x80, a, b]);
        assert_eq!(row.is_ok(), high >= 16 && high & 15 < 8);
        for worker in [0, 7, 8, 15] {
            let row = both.check(&costed, &[2, 0x40, 0, 0x80, a, b, worker << 4]);
            let told = match high {
                0 => Err(11),
                1..7 => Err(12),
                _ if worker >= 8 => Err(12),
                _ => Ok(()),
            };
            assert_eq!(row, told);
        }
    }
}

/// Schedules that no run writes, many of them good.
fn others(both: &mut Both, random: &mut Random) {
    let (mut accepted, mut refused) = ([0; 3], [0; 3]);
    for _ in 0..20_000 {
        let sketch = any_plan(random);
        if sketch.actions() > 400 {
            continue;
        }
        let plan = sketch.bytes();
        let rows = sketch.rows();
        let measures = both.measure(&plan).expect("the plan is good");
        let facts = Facts::new(sketch.form, &rows, measures);
        let workers = random.within(1, 16);
        let choices = any_choices(random, workers);
        let schedule = schedule_of(both, &plan, workers as u32, &choices);
        let mut schedule = Schedule::read(&schedule).expect("a run wrote it");
        draw_apart(random, &mut schedule);
        if random.chance(50) {
            schedule.workers = random.within(workers, 16) as u32;
        }
        if random.chance(50) {
            let at = random.below(schedule.rows.len());
            let row = &mut schedule.rows[at];
            match random.below(4) {
                0 => row.round += 1,
                1 => row.round -= 1,
                2 => row.round += facts.costs[at],
                _ => row.worker ^= random.below(16) as u32,
            }
        }
        let answer = check(both, &plan, &facts, &schedule.bytes());
        let told = if answer.is_ok() {
            &mut accepted
        } else {
            &mut refused
        };
        told[sketch.form as usize] += 1;
        both.generated += 1;
    }
    for form in [1, 2] {
        assert!(accepted[form] > 1_000, "too few other schedules were good");
        assert!(refused[form] > 1_000, "too many other schedules were good");
    }
}

/// Rounds drawn apart, workers renamed.
fn draw_apart(random: &mut Random, schedule: &mut Schedule) {
    let most = last_round(schedule.form) as usize;
    let rounds = schedule.rows.iter().map(|row| row.round).max();
    let rounds = rounds.expect("a plan has an action") as usize;
    let widest = random.pick(&[1, 2, most / rounds]).min(most / rounds);
    let step = random.within(1, widest);
    let shift = random.within(0, most - rounds * step);
    let mut names: Vec<u32> = (0..16).collect();
    if random.chance(50) {
        random.shuffle(&mut names);
    }
    for row in &mut schedule.rows {
        row.round = row.round * step as u32 + shift as u32;
        row.worker = names[row.worker as usize];
    }
}
