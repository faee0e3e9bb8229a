//! Schedules, and what checking them must give: document 01's case, each part of refusal 11 and each rule of 12 by itself, the
//! order of the refusals, and schedules that runs have written. A second checker, with each slip that it may have, shows that
//! some case tells every slip apart. The same of form 2, where an action takes up a span of rounds (document 02, L5).
use crate::plans::{
    chain, costed, e, e2, f, f2, input, join, large, one, plan, plan_2, plan_of, spawn, Action, Bits, Job, NONE,
};
use crate::Cases;

/// A round, the last of an action's, and a worker.
type Row = (u32, u32);

/// A schedule whose rounds have `width` bits, 12 or 16.
fn laid(width: u32, form: u32, workers: u32, actions: u32, zeros: u32, rows: &[Row]) -> Vec<u8> {
    let mut b = Bits(vec![]);
    b.put(8, form);
    b.put(5, workers);
    b.put(12, actions);
    b.put(7, zeros);
    for &(round, worker) in rows {
        b.put(width, round);
        b.put(4, worker);
    }
    b.bytes()
}

fn headed(form: u32, workers: u32, actions: u32, zeros: u32, rows: &[Row]) -> Vec<u8> {
    laid(12, form, workers, actions, zeros, rows)
}

fn headed_2(form: u32, workers: u32, actions: u32, zeros: u32, rows: &[Row]) -> Vec<u8> {
    laid(16, form, workers, actions, zeros, rows)
}

fn schedule(workers: u32, rows: &[Row]) -> Vec<u8> {
    headed(1, workers, rows.len() as u32, 0, rows)
}

fn schedule_2(workers: u32, rows: &[Row]) -> Vec<u8> {
    headed_2(2, workers, rows.len() as u32, 0, rows)
}

fn with(rows: &[Row], changes: &[(usize, Row)]) -> Vec<Row> {
    let mut changed = rows.to_vec();
    for &(k, row) in changes {
        changed[k] = row;
    }
    changed
}

/// Case 4's rows.
const E4: [Row; 8] = [(1, 0), (2, 1), (3, 1), (5, 1), (6, 1), (2, 0), (3, 0), (4, 1)];

/// The same with a hundred rounds for each.
fn spread() -> Vec<Row> {
    E4.iter().map(|&(r, w)| (100 * r, w)).collect()
}

const F2: [Row; 7] = [(1, 0), (2, 0), (9, 0), (2, 1), (3, 1), (4, 1), (5, 1)];

/// Plan E2 with two workers: 0.0 in rounds 1 to 2, 0.1 in 4, 0.2 in 5 to 7, 0.3 in 9, 0.4 in 13 to 14; 1.0 in 3 to 6, 1.1 in 7; 2.0 in 8
/// to 12.
const E2_ROWS: [Row; 8] = [(2, 0), (4, 1), (7, 1), (9, 0), (14, 1), (6, 0), (7, 0), (12, 1)];

/// Plan F with costs on two workers: 0.0 in rounds 1 to 2, 0.1 in 3 to 5, 0.2 in 10; 1.0 in 3, 1.1 in 4 to 5, 1.2 in 6, 1.3 in 7 to 9.
const F2_ROWS: [Row; 7] = [(2, 0), (5, 1), (10, 0), (3, 0), (5, 0), (6, 0), (9, 0)];

/// Job 0 spawns n jobs of one action, one after the other; then an action that nothing enters, and one for each 8 joins.
pub fn fan(n: u32) -> Vec<Job> {
    let mut root: Vec<Action> = (1..=n).map(spawn).collect();
    root.extend(vec![NONE; 1 + (n as usize + 7) / 8]);
    let mut jobs = vec![(1, root)];
    jobs.extend((0..n).map(|c| (1, vec![join(n + 1 + c / 8)])));
    jobs
}
/// Worker 0 has the root's actions, one a round, and waits until round 20 with the one that 8 joins enter; worker 1 has each
/// child in the round after its spawn. The children stand in rows 10 to 17.
fn fan_8() -> Vec<Row> {
    let mut rows: Vec<Row> = (0..9).map(|i| (i + 1, 0)).collect();
    rows.push((20, 0));
    rows.extend((1..=8).map(|c| (c + 1, 1)));
    rows
}

/// The fifteen children in one round, each by its own worker.
fn fan_15() -> Vec<Row> {
    let mut rows: Vec<Row> = (0..16).map(|i| (i + 1, 0)).collect();
    rows.extend([(20, 0), (21, 0)]);
    rows.extend((1..=15).map(|w| (17, w)));
    rows
}

/// The rows of a chain of three jobs: 0 to 2, 3 to 5, and 6.
const CHAIN_3: [Row; 7] = [(1, 0), (2, 0), (9, 0), (2, 1), (3, 1), (5, 1), (3, 2)];

/// Job 1's first action joins position 2, its last position 4.
fn two_joins() -> Vec<Job> {
    vec![(1, vec![spawn(1), NONE, NONE, NONE, NONE]), (1, vec![join(2), join(4)])]
}
const TWO_JOINS: [Row; 7] = [(1, 0), (2, 0), (3, 0), (4, 0), (5, 0), (2, 1), (3, 1)];

/// 2,048 actions: job 0 and seven jobs of 255 and one of 8.
fn largest() -> Vec<Job> {
    large(65535, 8, 9)
}
/// Worker c has job c, an action a round.
fn largest_rows() -> Vec<Row> {
    let mut rows: Vec<Row> = (0..255).map(|i| (if i < 9 { i + 1 } else { i + 300 }, 0)).collect();
    for c in 1..=8 {
        rows.extend((0..if c < 8 { 255 } else { 8 }).map(|i| (c + 1 + i, c)));
    }
    rows
}

/// What a checker may get wrong.
#[derive(Clone, Copy, PartialEq, Debug)]
enum Slip {
    None,
    LongerPasses,
    ShorterPasses,
    FormPasses,
    NoWorkerPasses,
    ManyWorkersPass,
    FewerActionsPass,
    MoreActionsPass,
    ZeroBitPasses(u32),
    FirstRoundPasses,
    MiddleRoundPasses,
    LastRoundPasses,
    ClashPasses,
    OnlyNeighboursClash,
    NeighboursPass,
    LastRowNeverClashes,
    ClashByRound,
    ClashByWorker,
    OrderPasses,
    SpawnPasses,
    JoinPasses,
    LastJoinOnly,
    FirstJoinOnly,
    JoinTargetsTheRoot,
    SameRoundPasses,
    EarlierRoundPasses,
    WorkerPasses,
    WorkerAtCountPasses,
    FirstWorkerOnly,
    RulesBeforeForm,
    FillBitPasses(u32),
    EitherForm,
    RoundsOf12Bits,
    EarlyBeginPasses,
    ClashByLastRound,
    ClashByFirstRound,
    ClashWithTheLaterRow,
    ClashWithTheEarlierRow,
    NeighbouringSpansClash,
    OrderByLastRound,
    OrderByFirstRound,
    SpansOfOneMore,
}

const SLIPS: [Slip; 50] = [
    Slip::LongerPasses,
    Slip::ShorterPasses,
    Slip::FormPasses,
    Slip::NoWorkerPasses,
    Slip::ManyWorkersPass,
    Slip::FewerActionsPass,
    Slip::MoreActionsPass,
    Slip::ZeroBitPasses(0),
    Slip::ZeroBitPasses(1),
    Slip::ZeroBitPasses(2),
    Slip::ZeroBitPasses(3),
    Slip::ZeroBitPasses(4),
    Slip::ZeroBitPasses(5),
    Slip::ZeroBitPasses(6),
    Slip::FirstRoundPasses,
    Slip::MiddleRoundPasses,
    Slip::LastRoundPasses,
    Slip::ClashPasses,
    Slip::OnlyNeighboursClash,
    Slip::NeighboursPass,
    Slip::LastRowNeverClashes,
    Slip::ClashByRound,
    Slip::ClashByWorker,
    Slip::OrderPasses,
    Slip::SpawnPasses,
    Slip::JoinPasses,
    Slip::LastJoinOnly,
    Slip::FirstJoinOnly,
    Slip::JoinTargetsTheRoot,
    Slip::SameRoundPasses,
    Slip::EarlierRoundPasses,
    Slip::WorkerPasses,
    Slip::WorkerAtCountPasses,
    Slip::FirstWorkerOnly,
    Slip::RulesBeforeForm,
    Slip::FillBitPasses(0),
    Slip::FillBitPasses(1),
    Slip::FillBitPasses(2),
    Slip::FillBitPasses(3),
    Slip::EitherForm,
    Slip::RoundsOf12Bits,
    Slip::EarlyBeginPasses,
    Slip::ClashByLastRound,
    Slip::ClashByFirstRound,
    Slip::ClashWithTheLaterRow,
    Slip::ClashWithTheEarlierRow,
    Slip::NeighbouringSpansClash,
    Slip::OrderByLastRound,
    Slip::OrderByFirstRound,
    Slip::SpansOfOneMore,
];

/// The places of actions, each with that of one that it must follow.
fn pairs(jobs: &[Job], slip: Slip) -> Vec<(usize, usize)> {
    let first: Vec<usize> = jobs.iter().scan(0, |at, (_, a)| Some(std::mem::replace(at, *at + a.len()))).collect();
    let mut parent = vec![0; jobs.len()];
    let (mut orders, mut spawns, mut joins) = (vec![], vec![], vec![]);
    for (j, (_, actions)) in jobs.iter().enumerate() {
        for (i, &(child, target, _)) in actions.iter().enumerate() {
            let here = first[j] + i;
            if i > 0 {
                orders.push((here, here - 1));
            }
            if child > 0 {
                parent[child as usize - 1] = j;
                spawns.push((first[child as usize - 1], here));
            }
            if target > 0 {
                let to = if slip == Slip::JoinTargetsTheRoot { 0 } else { parent[j] };
                joins.push((first[to] + target as usize - 1, here));
            }
        }
    }
    let all = joins.clone();
    match slip {
        Slip::LastJoinOnly => joins.retain(|x| all.iter().all(|y| y.0 != x.0 || y.1 <= x.1)),
        Slip::FirstJoinOnly => joins.retain(|x| all.iter().all(|y| y.0 != x.0 || x.1 <= y.1)),
        _ => {}
    }
    let mut kept = vec![];
    if slip != Slip::OrderPasses {
        kept.extend(orders);
    }
    if slip != Slip::SpawnPasses {
        kept.extend(spawns);
    }
    if slip != Slip::JoinPasses {
        kept.extend(joins);
    }
    kept
}

/// 0 for accepted, 11 or 12.
fn judge(form: u32, jobs: &[Job], s: &[u8], slip: Slip) -> u32 {
    let costs: Vec<u32> = jobs.iter().flat_map(|job| &job.1).map(|action| action.2).collect();
    let n = costs.len();
    let bit = |i: usize| s.get(i / 8).map_or(0, |b| (b >> (7 - i % 8) & 1) as u32);
    let field = |at: usize, width: usize| (at..at + width).fold(0, |x, i| x * 2 + bit(i));
    let form = if slip == Slip::EitherForm { field(0, 8) } else { form };
    let width = if form == 2 { 16 } else { 12 };
    let row = width + 4;
    let end = 32 + row * n;
    let long = (end + 7) / 8;
    let (workers, actions) = (field(8, 5), field(13, 12) as usize);
    let mut rows: Vec<Row> = (0..n).map(|k| (field(32 + row * k, width), field(32 + width + row * k, 4))).collect();
    let no_round = |k: &usize| match slip {
        Slip::FirstRoundPasses if *k == 0 => false,
        Slip::MiddleRoundPasses if 0 < *k && *k + 1 < n => false,
        Slip::LastRoundPasses if *k + 1 == n => false,
        _ => rows[*k].0 == 0,
    };
    let bad = (s.len() > long && slip != Slip::LongerPasses)
        || (s.len() < long && slip != Slip::ShorterPasses)
        || (field(0, 8) != form && slip != Slip::FormPasses)
        || (workers == 0 && slip != Slip::NoWorkerPasses)
        || (workers > 16 && slip != Slip::ManyWorkersPass)
        || (actions < n && slip != Slip::FewerActionsPass)
        || (actions > n && slip != Slip::MoreActionsPass)
        || (0..7).any(|i| field(25 + i, 1) == 1 && slip != Slip::ZeroBitPasses(i as u32))
        || (0..8 * long - end).any(|i| bit(end + i) == 1 && slip != Slip::FillBitPasses(i as u32))
        || (0..n).any(|k| no_round(&k));
    if slip == Slip::RoundsOf12Bits {
        rows.iter_mut().for_each(|row| row.0 %= 4096);
    }
    // The last round of an action and the round before its first.
    let last = |k: usize| rows[k].0 as i32;
    let before = |k: usize| last(k) - costs[k] as i32 - (slip == Slip::SpansOfOneMore && costs[k] > 1) as i32;
    let clash = |a: usize, b: usize| {
        let common = match slip {
            Slip::ClashByLastRound => last(a) == last(b),
            Slip::ClashByFirstRound => before(a) == before(b),
            Slip::ClashWithTheLaterRow => before(b) < last(a) && last(a) <= last(b),
            Slip::ClashWithTheEarlierRow => before(a) < last(b) && last(b) <= last(a),
            Slip::NeighbouringSpansClash => before(a) <= last(b) && before(b) <= last(a),
            _ => before(a) < last(b) && before(b) < last(a),
        };
        let same = match slip {
            Slip::ClashByRound => common,
            Slip::ClashByWorker => rows[a].1 == rows[b].1,
            _ => common && rows[a].1 == rows[b].1,
        };
        same && match slip {
            Slip::ClashPasses => false,
            Slip::OnlyNeighboursClash => b == a + 1,
            Slip::NeighboursPass => b != a + 1,
            Slip::LastRowNeverClashes => b + 1 < n,
            _ => true,
        }
    };
    let early = |later: usize, earlier: usize| match slip {
        Slip::SameRoundPasses => before(later) + 1 < last(earlier),
        Slip::EarlierRoundPasses => before(later) + 1 == last(earlier),
        Slip::OrderByLastRound => last(later) <= last(earlier),
        Slip::OrderByFirstRound => before(later) <= before(earlier),
        _ => before(later) < last(earlier),
    };
    let stranger = |k: usize| match slip {
        Slip::WorkerPasses => false,
        Slip::WorkerAtCountPasses => rows[k].1 > workers,
        Slip::FirstWorkerOnly => k == 0 && rows[k].1 >= workers,
        _ => rows[k].1 >= workers,
    };
    let rule = (0..n).any(|k| before(k) < 0 && slip != Slip::EarlyBeginPasses)
        || (0..n).any(|a| (a + 1..n).any(|b| clash(a, b)))
        || pairs(jobs, slip).iter().any(|&(later, earlier)| early(later, earlier))
        || (0..n).any(stranger);
    match (bad, rule) {
        (true, true) if slip == Slip::RulesBeforeForm => 12,
        (true, _) => 11,
        (_, true) => 12,
        _ => 0,
    }
}

struct Schedules<'a> {
    cases: &'a mut Cases,
    /// By how many cases each slip is told apart.
    told: Vec<usize>,
}

impl Schedules<'_> {
    fn save(&mut self, kind: &str, name: &str, input: Vec<u8>, answer: u32) {
        let answer = if answer == 0 { "accepted".into() } else { format!("refused {answer}") };
        self.cases.case(kind, &format!("schedules/{name}"), input, &answer);
    }

    fn bytes(&mut self, name: &str, plan: &[u8], schedule: &[u8], answer: u32) {
        let input = [&[(plan.len() >> 8) as u8, plan.len() as u8], plan, schedule].concat();
        self.save("check", name, input, answer);
    }

    /// A case whose plan, in a form, is accepted.
    fn judged(&mut self, form: u32, name: &str, jobs: &[Job], schedule: &[u8], answer: u32) {
        assert_eq!(judge(form, jobs, schedule, Slip::None), answer, "{name}");
        for (k, &slip) in SLIPS.iter().enumerate() {
            self.told[k] += (judge(form, jobs, schedule, slip) != answer) as usize;
        }
        self.bytes(name, &plan_of(form, jobs), schedule, answer);
    }

    fn case(&mut self, name: &str, jobs: &[Job], schedule: &[u8], answer: u32) {
        self.judged(1, name, jobs, schedule, answer);
    }

    fn case_2(&mut self, name: &str, jobs: &[Job], schedule: &[u8], answer: u32) {
        self.judged(2, name, jobs, schedule, answer);
    }

    fn keeps(&mut self, name: &str, jobs: &[Job], workers: u32, rows: &[Row]) {
        self.case(name, jobs, &schedule(workers, rows), 0);
    }

    fn breaks(&mut self, name: &str, jobs: &[Job], workers: u32, rows: &[Row]) {
        self.case(name, jobs, &schedule(workers, rows), 12);
    }

    fn keeps_2(&mut self, name: &str, jobs: &[Job], workers: u32, rows: &[Row]) {
        self.case_2(name, jobs, &schedule_2(workers, rows), 0);
    }

    fn breaks_2(&mut self, name: &str, jobs: &[Job], workers: u32, rows: &[Row]) {
        self.case_2(name, jobs, &schedule_2(workers, rows), 12);
    }

    /// A run of a plan, in a form, and the check of the schedule that it writes.
    fn own_in(&mut self, form: u32, name: &str, jobs: &[Job], workers: u8, choices: &[u8]) {
        let chosen = match choices.len() {
            0 => "none".into(),
            16 => "all".into(),
            _ => choices.iter().map(|c| c.to_string()).collect::<Vec<_>>().join("_"),
        };
        let input = input(workers, choices, &plan_of(form, jobs));
        self.save("own", &format!("{name}_with_{workers}_choosing_{chosen}"), input, 0);
    }

    fn own(&mut self, name: &str, jobs: &[Job], workers: u8, choices: &[u8]) {
        self.own_in(1, name, jobs, workers, choices);
    }

    fn own_2(&mut self, name: &str, jobs: &[Job], workers: u8, choices: &[u8]) {
        self.own_in(2, name, jobs, workers, choices);
    }
}

/// Schedules that are accepted, and document 01's case.
fn accepted(c: &mut Schedules) {
    // Document 01's cases 4 and 12.
    c.keeps("case_4_rows", &e(), 2, &E4);
    c.breaks("case_12", &e(), 2, &with(&E4, &[(5, (2, 1))]));

    // Schedules of plan E and of one action.
    c.keeps("rounds_spread_out", &e(), 2, &spread());
    let late: Vec<Row> = E4.iter().map(|&(r, w)| (4089 + r, w)).collect();
    c.keeps("rounds_up_to_4095", &e(), 2, &late);
    c.keeps("header_of_3_workers_2_used", &e(), 3, &E4);
    c.keeps("header_of_16_workers_2_used", &e(), 16, &E4);
    // depth first: 0.0 1.0 1.1 0.1 0.2 2.0 0.3 0.4
    c.keeps("one_worker_depth_first", &e(), 1, &[(1, 0), (4, 0), (5, 0), (7, 0), (8, 0), (2, 0), (3, 0), (6, 0)]);
    c.keeps("worker_0_does_nothing", &e(), 2, &[(1, 1), (4, 1), (5, 1), (7, 1), (8, 1), (2, 1), (3, 1), (6, 1)]);
    c.keeps("each_action_its_own_worker", &e(), 8, &[(1, 7), (2, 6), (3, 5), (4, 4), (5, 3), (2, 2), (3, 1), (4, 0)]);
    c.keeps("one_action", &one(), 1, &[(1, 0)]);
    c.keeps("one_action_by_worker_15_in_round_4095", &one(), 16, &[(4095, 15)]);
    // unequal rows whose rounds are 256 apart for a worker number one less
    c.keeps("rounds_256_apart", &e(), 2, &[(1, 1), (257, 0), (258, 1), (514, 0), (4095, 0), (2, 1), (258, 0), (513, 1)]);

    // Other plans.
    c.keeps("plan_f", &f(), 2, &F2);
    c.keeps("eight_joins", &fan(8), 2, &fan_8());
    c.keeps("chain_of_three", &chain(3), 3, &CHAIN_3);
    c.keeps("two_joins_of_one_job", &two_joins(), 2, &TWO_JOINS);
    c.keeps("fifteen_workers_in_one_round", &fan(15), 16, &fan_15());
    c.keeps("2048_actions", &largest(), 9, &largest_rows());
}

/// Each part of refusal 11 by itself.
fn form(c: &mut Schedules) {
    // Lengths.
    let own = schedule(2, &E4);
    c.case("one_byte_short", &e(), &own[..19], 11);
    c.case("one_byte_short_in_round_400", &e(), &schedule(2, &spread())[..19], 11);
    c.case("one_byte_long", &e(), &[&own[..], &[0]].concat(), 11);
    c.case("empty_schedule", &e(), &[], 11);
    c.case("header_alone", &e(), &own[..4], 11);
    c.case("one_row_more", &e(), &[&own[..], &[0, 0x71]].concat(), 11);
    c.case("empty_schedule_of_one_action", &one(), &[], 11);

    // Form and worker count.
    c.case("form_0", &e(), &headed(0, 2, 8, 0, &E4), 11);
    c.case("form_2", &e(), &headed(2, 2, 8, 0, &E4), 11);
    c.case("workers_0", &e(), &headed(1, 0, 8, 0, &E4), 11);
    c.case("workers_17", &e(), &headed(1, 17, 8, 0, &E4), 11);
    c.case("workers_31", &e(), &headed(1, 31, 8, 0, &E4), 11);

    // Action count.
    c.case("actions_7", &e(), &headed(1, 2, 7, 0, &E4), 11);
    c.case("actions_9", &e(), &headed(1, 2, 9, 0, &E4), 11);
    c.case("actions_0", &e(), &headed(1, 2, 0, 0, &E4), 11);
    c.case("actions_2056", &e(), &headed(1, 2, 2056, 0, &E4), 11);
    c.case("actions_7_in_7_rows", &e(), &schedule(2, &E4[..7]), 11);
    c.case("actions_9_in_9_rows", &e(), &schedule(2, &[&E4[..], &[(7, 1)]].concat()), 11);
    c.case("schedule_of_e_for_f", &f(), &own, 11);
    c.case("schedule_of_f_for_e", &e(), &schedule(2, &F2), 11);

    // Zero bits.
    for bit in 0..7 {
        c.case(&format!("zero_bit_{bit}_set"), &e(), &headed(1, 2, 8, 64 >> bit, &E4), 11);
    }

    // Rounds of 0.
    c.case("round_0_first", &e(), &schedule(2, &with(&E4, &[(0, (0, 0))])), 11);
    c.case("round_0_first_by_worker_1", &e(), &schedule(2, &with(&E4, &[(0, (0, 1))])), 11);
    c.case("round_0_middle", &e(), &schedule(2, &with(&E4, &[(4, (0, 1))])), 11);
    c.case("round_0_last", &e(), &schedule(2, &with(&E4, &[(7, (0, 1))])), 11);
    c.case("round_0_last_of_2048", &largest(), &schedule(9, &with(&largest_rows(), &[(2047, (0, 8))])), 11);
}

/// Each rule of refusal 12 by itself.
fn rules(c: &mut Schedules) {
    // Clashes.
    // every action follows the first, so that its order is broken too
    c.breaks("clash_of_the_first_and_the_last_row", &e(), 2, &with(&E4, &[(7, (1, 0))]));
    c.breaks("clash_of_the_second_and_the_last_row", &f(), 2, &with(&F2, &[(1, (5, 1))]));
    c.breaks("clash_of_neighbours", &fan(8), 2, &with(&fan_8(), &[(12, (5, 1))]));
    c.breaks("clash_of_the_last_two", &e(), 2, &with(&E4, &[(6, (4, 1))]));
    c.breaks("clash_far_apart", &fan(8), 2, &with(&fan_8(), &[(10, (9, 1))]));
    c.breaks("clash_in_job_0_with_the_last_row", &fan(8), 2, &with(&fan_8(), &[(17, (9, 0))]));
    c.breaks("clash_in_round_4094_by_worker_15", &fan(8), 16, &with(&fan_8(), &[(8, (4094, 15)), (17, (4094, 15)), (9, (4095, 0))]));
    c.breaks("clash_of_2048", &largest(), 9, &with(&largest_rows(), &[(2047, (16, 7))]));
    c.breaks("all_in_round_1_by_worker_0", &e(), 2, &[(1, 0); 8]);

    // Order in a job.
    c.breaks("second_in_round_of_first", &e(), 2, &with(&E4, &[(1, (1, 1))]));
    c.breaks("fourth_in_round_of_third", &e(), 3, &with(&E4, &[(3, (3, 2))]));
    c.breaks("fourth_a_round_before_third", &e(), 3, &with(&E4, &[(3, (2, 2))]));
    c.breaks("fifth_in_round_of_fourth", &e(), 2, &with(&E4, &[(4, (5, 0))]));
    c.breaks("fifth_a_round_before_fourth", &e(), 2, &with(&E4, &[(3, (8, 1)), (4, (7, 1))]));
    c.breaks("job_1_second_in_round_of_first", &e(), 3, &with(&E4, &[(6, (2, 2))]));
    c.breaks("job_1_second_a_round_before_first", &e(), 3, &with(&E4, &[(5, (4, 0))]));
    c.breaks("job_1_fourth_in_round_of_third", &f(), 3, &with(&F2, &[(6, (4, 2))]));
    c.breaks("one_job_with_the_rows_of_e", &[(1, vec![NONE; 8])], 2, &E4);
    c.breaks("last_of_2048_in_round_of_one_before", &largest(), 16, &with(&largest_rows(), &[(2047, (15, 15))]));

    // Spawns.
    c.breaks("job_1_in_round_of_its_spawn", &e(), 2, &with(&E4, &[(5, (1, 1))]));
    c.breaks("job_2_in_round_of_its_spawn", &e(), 3, &with(&E4, &[(7, (3, 2))]));
    c.breaks("job_2_a_round_before_its_spawn", &e(), 3, &with(&E4, &[(7, (2, 2))]));
    c.breaks("grandchild_in_round_of_its_spawn", &chain(3), 3, &with(&CHAIN_3, &[(6, (2, 2))]));
    for child in [1, 4, 8] {
        c.breaks(&format!("child_{child}_in_round_of_its_spawn"), &fan(8), 3, &with(&fan_8(), &[(9 + child, (child as u32, 2))]));
    }

    // Joins.
    for child in 1..=8 {
        c.breaks(&format!("join_{child}_in_round_of_its_target"), &fan(8), 2, &with(&fan_8(), &[(9 + child, (20, 1))]));
    }
    c.breaks("join_8_a_round_after_its_target", &fan(8), 2, &with(&fan_8(), &[(17, (21, 1))]));
    c.breaks("job_1_join_in_round_of_its_target", &e(), 2, &with(&E4, &[(6, (6, 0))]));
    c.breaks("job_2_join_in_round_of_its_target", &e(), 2, &with(&E4, &[(7, (6, 0))]));
    c.breaks("join_into_job_1_in_round_of_its_target", &chain(3), 3, &with(&CHAIN_3, &[(6, (5, 2))]));
    c.breaks("first_of_two_joins_in_round_of_its_target", &two_joins(), 2, &with(&TWO_JOINS, &[(5, (3, 1)), (6, (4, 1))]));
    c.breaks("second_of_two_joins_in_round_of_its_target", &two_joins(), 2, &with(&TWO_JOINS, &[(6, (5, 1))]));

    // Worker numbers.
    c.breaks("worker_2_of_2_first", &e(), 2, &with(&E4, &[(0, (1, 2))]));
    c.breaks("worker_2_of_2_middle", &e(), 2, &with(&E4, &[(3, (5, 2))]));
    c.breaks("worker_2_of_2_last", &e(), 2, &with(&E4, &[(7, (4, 2))]));
    c.breaks("worker_1_of_1", &e(), 1, &E4);
    c.breaks("worker_15_of_1", &one(), 1, &[(1, 15)]);
    c.breaks("worker_15_of_15", &e(), 15, &with(&E4, &[(7, (4, 15))]));
    c.keeps("worker_15_of_16", &e(), 16, &with(&E4, &[(7, (4, 15))]));
    c.breaks("fifteen_workers_in_one_round_of_15", &fan(15), 15, &fan_15());
}

/// 11 before 12, and the plan's own refusals before both.
fn order(c: &mut Schedules) {
    // Form before rules.
    let clash = with(&E4, &[(5, (2, 1))]);
    c.case("clash_and_one_byte_long", &e(), &[&schedule(2, &clash)[..], &[0]].concat(), 11);
    c.case("clash_and_form_0", &e(), &headed(0, 2, 8, 0, &clash), 11);
    c.case("clash_and_zero_bit", &e(), &headed(1, 2, 8, 1, &clash), 11);
    c.case("clash_and_round_0_last", &e(), &schedule(2, &with(&clash, &[(7, (0, 1))])), 11);
    c.case("order_and_actions_7", &e(), &headed(1, 2, 7, 0, &with(&E4, &[(1, (1, 1))])), 11);
    c.case("worker_2_of_2_and_round_0_last", &e(), &schedule(2, &with(&E4, &[(0, (1, 2)), (7, (0, 1))])), 11);
    c.case("worker_1_of_0", &e(), &schedule(0, &E4), 11);

    // Plan before schedule.
    let bytes = plan(&e());
    let bad = headed(0, 0, 0, 127, &[(0, 15)]);
    let changed = |at: usize, to: u8| {
        let mut plan = bytes.clone();
        plan[at] = to;
        plan
    };
    let mut no_frame = e();
    no_frame[1].0 = 0;
    let mut no_second = e();
    no_second[0].1[2] = NONE;
    let mut third = e();
    third[2].1[0] = join(3);
    // case 7, a plan cut short, form 3, frame 0, job 2 never spawned, case 9, case 8
    c.bytes("no_plan_and_bad_schedule", &[], &bad, 1);
    c.bytes("plan_cut_short_and_bad_schedule", &bytes[..17], &bad, 1);
    c.bytes("plan_of_form_3_and_bad_schedule", &changed(0, 3), &bad, 2);
    c.bytes("frame_0_and_bad_schedule", &plan(&no_frame), &bad, 3);
    c.bytes("job_never_spawned_and_bad_schedule", &plan(&no_second), &bad, 4);
    c.bytes("join_after_spawn_and_bad_schedule", &plan(&third), &bad, 5);
    c.bytes("fill_bit_and_bad_schedule", &changed(17, 1), &bad, 6);
    c.bytes("fill_bit_and_case_4_rows", &changed(17, 1), &schedule(2, &E4), 6);
}

/// Schedules that runs have written: all are accepted.
fn runs(c: &mut Schedules) {
    // Runs of E.
    let all: Vec<u8> = (0..16).collect();
    for (workers, choices) in
        [(1, &[][..]), (1, &[0]), (2, &[0]), (2, &[0, 1]), (2, &[1, 0, 0]), (3, &[0]), (3, &[2, 1, 0]), (16, &[0]), (16, &all)]
    {
        c.own("e", &e(), workers, choices);
    }
    // Runs of F.
    for (workers, choices) in [(1, &[][..]), (2, &[0]), (2, &[0, 1]), (3, &[0]), (3, &[1, 0]), (16, &[0]), (16, &all)] {
        c.own("f", &f(), workers, choices);
    }
    // Runs of other plans.
    c.own("one_action", &one(), 1, &[]);
    c.own("one_action", &one(), 16, &[0]);
    for (workers, choices) in [(1, &[][..]), (2, &[0, 1]), (16, &[0]), (16, &all)] {
        c.own("wide", &fan(100), workers, choices);
        c.own("deep", &chain(100), workers, choices);
    }
    c.own("2048_actions", &largest(), 16, &[0, 1, 2]);
}

/// Schedules of form 2 that are accepted, and the parts of refusal 11.
fn form_2(c: &mut Schedules) {
    // Accepted: spans that follow each other at once, and spans apart.
    let own = schedule_2(2, &E2_ROWS);
    let written = [
        0x02, 0x10, 0x04, 0, 0, 0x02, 0, 0, 0x41, 0, 0x07, 0x10, 0, 0x90, 0, 0x0E, 0x10, 0, 0x60, 0, 0x07, 0, 0, 0xC1,
    ];
    assert_eq!(own, written);
    c.keeps_2("e2_rows", &e2(), 2, &E2_ROWS);
    c.keeps_2("f2_rows", &f2(), 2, &F2_ROWS);
    c.keeps_2("e_in_form_2", &e(), 2, &E4);
    let apart: Vec<Row> = E2_ROWS.iter().map(|&(r, w)| (100 * r, w)).collect();
    c.keeps_2("e2_spread_out", &e2(), 2, &apart);
    let late: Vec<Row> = E2_ROWS.iter().map(|&(r, w)| (65521 + r, w)).collect();
    c.keeps_2("e2_up_to_round_65535", &e2(), 2, &late);
    c.keeps_2("e2_by_one_worker", &e2(), 1, &[(2, 0), (8, 0), (11, 0), (17, 0), (19, 0), (6, 0), (7, 0), (16, 0)]);
    c.keeps_2("e2_header_of_16_workers", &e2(), 16, &E2_ROWS);
    // two rounds are 4,096 apart
    c.keeps_2("f2_in_round_4101", &f2(), 2, &with(&F2_ROWS, &[(1, (4101, 0)), (2, (4110, 0))]));
    c.keeps_2("one_of_3_in_round_3", &costed(one(), &[3]), 1, &[(3, 0)]);
    c.keeps_2("one_of_15_by_worker_15_in_round_65535", &costed(one(), &[15]), 16, &[(65535, 15)]);
    let all: Vec<Row> = largest_rows().iter().map(|&(r, w)| (15 * r, w)).collect();
    c.keeps_2("2048_actions_of_15", &costed(largest(), &[15]), 9, &all);

    // Lengths, and the other form.
    c.case_2("e2_one_byte_short", &e2(), &own[..23], 11);
    c.case_2("e2_one_byte_long", &e2(), &[&own[..], &[0]].concat(), 11);
    c.case_2("e2_empty_schedule", &e2(), &[], 11);
    c.case_2("e2_header_alone", &e2(), &own[..4], 11);
    c.case_2("f2_one_byte_short", &f2(), &schedule_2(2, &F2_ROWS)[..21], 11);
    c.case_2("e2_schedule_of_form_1", &e2(), &schedule(2, &E2_ROWS), 11);
    c.case_2("e2_form_1_in_the_header", &e2(), &headed_2(1, 2, 8, 0, &E2_ROWS), 11);
    c.case_2("e2_form_2_before_rows_of_form_1", &e2(), &headed(2, 2, 8, 0, &E2_ROWS), 11);
    c.case_2("e2_form_3", &e2(), &headed_2(3, 2, 8, 0, &E2_ROWS), 11);
    c.case("e_schedule_of_form_2", &e(), &schedule_2(2, &E4), 11);

    // The header's counts, where 19 is the number of worked turns, and its zero bits.
    c.case_2("e2_workers_0", &e2(), &headed_2(2, 0, 8, 0, &E2_ROWS), 11);
    c.case_2("e2_workers_17", &e2(), &headed_2(2, 17, 8, 0, &E2_ROWS), 11);
    c.case_2("e2_actions_19", &e2(), &headed_2(2, 2, 19, 0, &E2_ROWS), 11);
    c.case_2("e2_zero_bit_6_set", &e2(), &headed_2(2, 2, 8, 1, &E2_ROWS), 11);

    // Rounds of 0.
    for (place, k) in [("first", 0), ("middle", 5), ("last", 7)] {
        c.case_2(&format!("e2_round_0_{place}"), &e2(), &schedule_2(2, &with(&E2_ROWS, &[(k, (0, 1))])), 11);
    }

    // Fill bits: seven rows leave four.
    for bit in 0..4 {
        let mut filled = schedule_2(2, &F2_ROWS);
        filled[21] |= 8 >> bit;
        c.case_2(&format!("f2_fill_bit_{bit}_set"), &f2(), &filled, 11);
    }
}

/// Each rule of refusal 12 in form 2, and the order of the refusals.
fn spans(c: &mut Schedules) {
    // Spans that begin before round 1.
    c.breaks_2("one_of_3_in_round_2", &costed(one(), &[3]), 1, &[(2, 0)]);
    c.breaks_2("one_of_15_in_round_1", &costed(one(), &[15]), 1, &[(1, 0)]);
    c.breaks_2("e2_begins_in_round_0", &e2(), 2, &with(&E2_ROWS, &[(0, (1, 0))]));

    // Clashes, though no two rows are equal: 2.0 is in rounds 8 to 12, and 0.2 in 5 to 7.
    let clash = with(&E2_ROWS, &[(3, (9, 1))]);
    c.breaks_2("e2_clash_within_a_span", &e2(), 2, &clash);
    c.breaks_2("e2_clash_in_the_first_round_of_a_span", &e2(), 2, &with(&E2_ROWS, &[(3, (8, 1))]));
    c.breaks_2("e2_clash_in_the_last_round_of_a_span", &e2(), 2, &with(&E2_ROWS, &[(3, (12, 1))]));
    c.breaks_2("e2_clash_of_an_earlier_row", &e2(), 2, &with(&E2_ROWS, &[(6, (10, 1))]));
    c.breaks_2("e2_clash_of_spans_that_lap_over", &e2(), 2, &with(&E2_ROWS, &[(5, (6, 1)), (6, (7, 0))]));
    let together = [(2, (8, 0)), (3, (9, 2)), (4, (15, 1)), (5, (9, 0)), (6, (10, 0)), (7, (13, 1))];
    c.breaks_2("e2_clash_of_spans_that_begin_together", &e2(), 3, &with(&E2_ROWS, &together));
    c.breaks_2("f2_clash_of_spans_that_lap_over", &f2(), 2, &with(&F2_ROWS, &[(1, (6, 0))]));
    c.breaks_2("f2_clash_with_the_end_of_a_later_row", &f2(), 2, &with(&F2_ROWS, &[(1, (10, 0)), (2, (11, 1))]));
    c.breaks_2("f2_clash_with_the_beginning_of_a_later_row", &f2(), 2, &with(&F2_ROWS, &[(1, (7, 0)), (4, (5, 1)), (5, (6, 1))]));
    c.keeps_2("f2_no_clash_behind_all_spans", &f2(), 2, &with(&F2_ROWS, &[(1, (12, 0)), (2, (13, 0))]));
    let between = [(1, (6, 0)), (2, (13, 1)), (4, (8, 0)), (5, (9, 0)), (6, (12, 0))];
    c.keeps_2("f2_no_clash_between_two_spans", &f2(), 2, &with(&F2_ROWS, &between));
    let all: Vec<Row> = largest_rows().iter().map(|&(r, w)| (15 * r, w)).collect();
    c.breaks_2("clash_of_2048_of_15", &costed(largest(), &[15]), 9, &with(&all, &[(2047, (247, 7))]));

    // Order: an action begins in the last round of the one before it in its job, of its job's spawner, of one that joins it.
    c.keeps_2("e2_job_0_begins_a_round_later", &e2(), 3, &with(&E2_ROWS, &[(2, (7, 2))]));
    c.breaks_2("e2_begins_in_the_last_round_of_the_one_before", &e2(), 3, &with(&E2_ROWS, &[(2, (6, 2))]));
    c.breaks_2("e2_begins_in_the_last_round_of_its_spawner", &e2(), 3, &with(&E2_ROWS, &[(5, (5, 2))]));
    c.breaks_2("e2_begins_in_the_last_round_of_a_join", &e2(), 3, &with(&E2_ROWS, &[(4, (13, 2))]));
    c.breaks_2("e2_begins_in_the_last_round_of_the_other_join", &e2(), 3, &with(&E2_ROWS, &[(6, (13, 2))]));
    c.breaks_2("e2_begins_within_a_join", &e2(), 3, &with(&E2_ROWS, &[(4, (12, 2)), (7, (12, 1))]));
    c.breaks_2("e2_ends_before_its_spawner", &e2(), 3, &with(&E2_ROWS, &[(7, (6, 2))]));

    // Worker numbers.
    c.breaks_2("e2_worker_1_of_1", &e2(), 1, &E2_ROWS);
    c.breaks_2("e2_worker_2_of_2_last", &e2(), 2, &with(&E2_ROWS, &[(7, (12, 2))]));

    // 11 before 12, and the plan's refusals before both.
    c.case_2("e2_clash_and_one_byte_long", &e2(), &[&schedule_2(2, &clash)[..], &[0]].concat(), 11);
    c.case_2("e2_begins_in_round_0_and_round_0_last", &e2(), &schedule_2(2, &with(&E2_ROWS, &[(0, (1, 0)), (7, (0, 1))])), 11);
    let mut filled = schedule_2(2, &with(&F2_ROWS, &[(1, (6, 0))]));
    filled[21] |= 1;
    c.case_2("f2_clash_and_fill_bit", &f2(), &filled, 11);
    let mut free = e2();
    free[2].1[0].2 = 0;
    c.bytes("cost_0_and_bad_schedule", &plan_2(&free), &headed_2(0, 0, 0, 127, &[(0, 15)]), 3);
    c.bytes("cost_0_and_e2_rows", &plan_2(&free), &schedule_2(2, &E2_ROWS), 3);
}

/// Schedules that runs of form 2 have written: all are accepted.
fn runs_2(c: &mut Schedules) {
    let all: Vec<u8> = (0..16).collect();
    for (workers, choices) in [(1, &[][..]), (2, &[0, 1]), (3, &[2, 1, 0]), (16, &all)] {
        c.own_2("e2", &e2(), workers, choices);
        c.own_2("f2", &f2(), workers, choices);
    }
    c.own_2("e_in_form_2", &e(), 2, &[0, 1]);
    c.own_2("one_of_3", &costed(one(), &[3]), 1, &[]);
    let costs = [3, 1, 15, 2, 7, 1, 4];
    c.own_2("wide_with_costs", &costed(fan(100), &costs), 16, &all);
    c.own_2("deep_with_costs", &costed(chain(100), &costs), 16, &all);
    c.own_2("2048_actions_of_15", &costed(largest(), &[15]), 1, &[]);
    c.own_2("2048_actions_of_15", &costed(largest(), &[15]), 16, &[0, 1, 2]);
}

pub fn all(cases: &mut Cases) {
    let mut c = Schedules { cases, told: vec![0; SLIPS.len()] };
    accepted(&mut c);
    form(&mut c);
    rules(&mut c);
    order(&mut c);
    runs(&mut c);
    form_2(&mut c);
    spans(&mut c);
    runs_2(&mut c);
    for (slip, told) in SLIPS.iter().zip(c.told) {
        println!("{slip:?}: told apart by {told} cases");
        assert!(told > 0, "no case tells {:?} apart", slip);
    }
}
