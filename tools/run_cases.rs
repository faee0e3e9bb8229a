//! A second runner, written from documents 01 and 02 alone, and inputs of `buildrun` with what they must give. It also carries out each
//! tempting error and sees to it that some case tells it apart.
use crate::plans::{chain, costed, deep, e, e2, f, f2, input, join, large, one, plan, plan_2, plan_of, quotient, spawn, Job, NONE};
use crate::Cases;

/// An action: the child's number plus 1 or 0, the join's target plus 1 or 0, and the cost.
type Action = (usize, usize, usize);

#[derive(Clone)]
struct Plan {
    frames: Vec<u32>,
    actions: Vec<Vec<Action>>,
    /// Each job's spawner.
    spawners: Vec<Option<(usize, usize)>>,
}

#[derive(Clone, Copy, PartialEq)]
enum Worker {
    Idle,
    Holding(usize),
    Waiting(usize, usize),
}

/// What a run may get wrong.
#[derive(Clone, Copy, PartialEq, Debug)]
enum Slip {
    None,
    PeakOnceARound,
    StealsTheBottom,
    ActsInTheRoundOfItsSteal,
    ParentToItsFormerWorker,
    StallsThoughTheJoinCame,
    SpawnBeforeJoin,
    LowestWorkerFirst,
    RequestsCountedByWorker,
    LaysAtOnce,
    MissesSwapped,
    BareAsTheRoundBegan,
    BareAsTheServicesBegan,
    BareAsTheServicesEnded,
    BareIfNotIdle,
    CostsPassedOver,
    OneRoundMore,
    ActionsCountedOnce,
    SpawnsInItsFirstRound,
    JoinsInItsFirstRound,
    FreedInItsFirstRound,
    LivesFromTheFirstRound,
    JudgedAsItBegan,
    ServesNothingInTheMidst,
    IdleInTheMidst,
}

const SLIPS: [Slip; 24] = [
    Slip::PeakOnceARound,
    Slip::StealsTheBottom,
    Slip::ActsInTheRoundOfItsSteal,
    Slip::ParentToItsFormerWorker,
    Slip::StallsThoughTheJoinCame,
    Slip::SpawnBeforeJoin,
    Slip::LowestWorkerFirst,
    Slip::RequestsCountedByWorker,
    Slip::LaysAtOnce,
    Slip::MissesSwapped,
    Slip::BareAsTheRoundBegan,
    Slip::BareAsTheServicesBegan,
    Slip::BareAsTheServicesEnded,
    Slip::BareIfNotIdle,
    Slip::CostsPassedOver,
    Slip::OneRoundMore,
    Slip::ActionsCountedOnce,
    Slip::SpawnsInItsFirstRound,
    Slip::JoinsInItsFirstRound,
    Slip::FreedInItsFirstRound,
    Slip::LivesFromTheFirstRound,
    Slip::JudgedAsItBegan,
    Slip::ServesNothingInTheMidst,
    Slip::IdleInTheMidst,
];

#[derive(Default, Clone, PartialEq, Debug)]
struct Tally {
    rounds: usize,
    actions: usize,
    idle: usize,
    requests: usize,
    steals: usize,
    bare: usize,
    idle_victim: usize,
    peak: u32,
}

/// What a run changes. `spent` has the rounds spent on a job's next action. The bottom of a deque is the end of its list; `last` has
/// who did a job's latest action, and `began` the positions of all jobs as a job's next action began.
struct State {
    next: Vec<usize>,
    spent: Vec<usize>,
    workers: Vec<Worker>,
    deques: Vec<Vec<usize>>,
    last: Vec<usize>,
    began: Vec<Vec<usize>>,
    t: Tally,
}

impl State {
    /// How many actions of each job are done or begun.
    fn begun(&self) -> Vec<usize> {
        self.next.iter().zip(&self.spent).map(|(next, &spent)| next + (spent > 0) as usize).collect()
    }

    /// How many actions of each job have sent their joins.
    fn sent(&self, slip: Slip) -> Vec<usize> {
        if slip == Slip::JoinsInItsFirstRound {
            self.begun()
        } else {
            self.next.clone()
        }
    }

    /// Whether a worker has begun an action that is not done yet.
    fn in_the_midst(&self, w: usize) -> bool {
        matches!(self.workers[w], Worker::Holding(j) if self.spent[j] > 0)
    }
}

impl Plan {
    fn of(jobs: &[Job]) -> Plan {
        let indices = |job: &Job| job.1.iter().map(|&(spawn, join, cost)| (spawn as usize, join as usize, cost as usize)).collect();
        Plan::new(jobs.iter().map(|job| job.0).collect(), jobs.iter().map(indices).collect())
    }

    fn new(frames: Vec<u32>, actions: Vec<Vec<Action>>) -> Plan {
        let mut spawners = vec![None; frames.len()];
        for (q, row) in actions.iter().enumerate() {
            for (i, a) in row.iter().enumerate() {
                if a.0 > 0 {
                    spawners[a.0 - 1] = Some((q, i));
                }
            }
        }
        Plan { frames, actions, spawners }
    }

    fn spawner(&self, c: usize) -> Option<(usize, usize)> {
        self.spawners[c]
    }

    fn senders(&self, q: usize, t: usize) -> Vec<(usize, usize)> {
        let mut found = vec![];
        for c in 1..self.frames.len() {
            if self.spawner(c).unwrap().0 == q {
                for (i, a) in self.actions[c].iter().enumerate() {
                    if a.1 == t + 1 {
                        found.push((c, i));
                    }
                }
            }
        }
        found
    }

    fn spawned(&self, next: &[usize], j: usize) -> bool {
        j == 0 || self.spawner(j).map_or(false, |(q, s)| next[q] > s)
    }

    /// `sent` has how many actions of each job have sent their joins.
    fn ready(&self, next: &[usize], sent: &[usize], j: usize) -> bool {
        let i = next[j];
        (i > 0 || self.spawned(next, j)) && self.senders(j, i).iter().all(|&(c, a)| sent[c] > a)
    }

    fn weight(&self, s: &State, slip: Slip) -> u32 {
        let begun = s.begun();
        let (from, to) = match slip {
            Slip::LivesFromTheFirstRound => (&begun, &s.next),
            Slip::FreedInItsFirstRound => (&s.next, &begun),
            _ => (&s.next, &s.next),
        };
        (0..self.frames.len())
            .filter(|&j| self.spawned(from, j) && to[j] < self.actions[j].len())
            .map(|j| self.frames[j])
            .sum()
    }

    fn follows(&self, j: usize, i: usize) -> Vec<(usize, usize)> {
        let mut before = self.senders(j, i);
        if i > 0 {
            before.push((j, i - 1));
        } else if let Some(s) = self.spawner(j) {
            before.push(s);
        }
        before
    }

    /// T1: the costs of all actions.
    fn work(&self) -> usize {
        self.actions.iter().flatten().map(|a| a.2).sum()
    }

    /// T∞: each action's costliest chain, until nothing grows.
    fn longest(&self) -> usize {
        let mut chain: Vec<Vec<usize>> = self.actions.iter().map(|a| vec![0; a.len()]).collect();
        loop {
            let mut grew = false;
            for j in 0..self.frames.len() {
                for i in 0..self.actions[j].len() {
                    let n = self.actions[j][i].2 + self.follows(j, i).iter().map(|&(q, t)| chain[q][t]).max().unwrap_or(0);
                    if n > chain[j][i] {
                        chain[j][i] = n;
                        grew = true;
                    }
                }
            }
            if !grew {
                return chain.iter().flatten().copied().max().unwrap();
            }
        }
    }

    fn path(&self) -> u32 {
        (0..self.frames.len())
            .map(|mut j| {
                let mut sum = self.frames[j];
                while j > 0 {
                    j = self.spawner(j).unwrap().0;
                    sum += self.frames[j];
                }
                sum
            })
            .max()
            .unwrap()
    }

    /// Worker w takes a turn with job j. `next_began` has the jobs' positions as the round began.
    fn turn(&self, s: &mut State, next_began: &[usize], w: usize, j: usize, slip: Slip) {
        let (spawn, join, cost) = self.actions[j][s.next[j]];
        let rounds = match slip {
            Slip::CostsPassedOver => 1,
            Slip::OneRoundMore => cost + 1,
            _ => cost,
        };
        let first = s.spent[j] == 0;
        let done = s.spent[j] + 1 == rounds;
        if first {
            s.began[j] = next_began.to_vec();
        }
        let mut woken = None;
        let parent = self.spawner(j).map(|s| s.0);
        let was = parent.map_or(true, |q| self.ready(&s.next, &s.sent(slip), q));
        if done {
            s.next[j] += 1;
            s.spent[j] = 0;
            s.last[j] = w;
        } else {
            s.spent[j] += 1;
        }
        if done || slip != Slip::ActionsCountedOnce {
            s.t.actions += 1;
        }
        if join > 0 && !was && self.ready(&s.next, &s.sent(slip), parent.unwrap()) {
            woken = parent;
        }
        let spawns = spawn > 0 && if slip == Slip::SpawnsInItsFirstRound { first } else { done };
        let home = woken.map_or(w, |q| if slip == Slip::ParentToItsFormerWorker { s.last[q] } else { w });
        if slip == Slip::SpawnBeforeJoin && spawns {
            s.deques[w].push(j);
            if let Some(q) = woken {
                s.deques[home].push(q);
            }
        } else {
            if let Some(q) = woken {
                s.deques[home].push(q);
            }
            if spawns {
                s.deques[w].push(j);
            }
        }
        let mut judged = s.sent(slip);
        if slip == Slip::StallsThoughTheJoinCame {
            judged = next_began.to_vec();
        } else if slip == Slip::JudgedAsItBegan {
            judged = s.began[j].clone();
        }
        s.workers[w] = if spawns {
            Worker::Holding(spawn - 1)
        } else if !done || s.next[j] < self.actions[j].len() && self.ready(&s.next, &judged, j) {
            Worker::Holding(j)
        } else {
            s.deques[w].pop().map_or(Worker::Idle, Worker::Holding)
        };
        if slip != Slip::PeakOnceARound {
            s.t.peak = s.t.peak.max(self.weight(s, slip));
        }
    }

    fn run(&self, n: usize, choices: &[u8], slip: Slip) -> Tally {
        let mut s = State {
            next: vec![0; self.frames.len()],
            spent: vec![0; self.frames.len()],
            workers: vec![Worker::Idle; n],
            deques: vec![vec![]; n],
            last: vec![0; self.frames.len()],
            began: vec![vec![]; self.frames.len()],
            t: Tally { peak: self.frames[0], ..Tally::default() },
        };
        s.workers[0] = Worker::Holding(0);
        let mut laid_by = vec![0; n];
        let work = self.work();
        while s.next[0] < self.actions[0].len() {
            s.t.rounds += 1;
            if s.t.rounds > 2 * work {
                break;
            }
            let began = s.workers.clone();
            let next_began = s.next.clone();
            for w in 0..n {
                if let Worker::Holding(j) = began[w] {
                    self.turn(&mut s, &next_began, w, j, slip);
                } else {
                    s.t.idle += 1;
                }
            }
            s.t.peak = s.t.peak.max(self.weight(&s, slip));
            if s.next[0] == self.actions[0].len() {
                break;
            }
            for w in 0..n {
                let free = if slip == Slip::LaysAtOnce { s.workers[w] } else { began[w] };
                if free == Worker::Idle {
                    let k = if slip == Slip::RequestsCountedByWorker { laid_by[w] } else { s.t.requests };
                    s.workers[w] = Worker::Waiting(choices[k % choices.len()] as usize, s.t.rounds);
                    laid_by[w] += 1;
                    s.t.requests += 1;
                }
            }
            let mut stolen = vec![];
            let asked = s.workers.clone();
            let mut missed = vec![];
            for v in 0..n {
                if slip == Slip::ServesNothingInTheMidst && s.in_the_midst(v) {
                    continue;
                }
                let waiting = (0..n).filter_map(|w| match s.workers[w] {
                    Worker::Waiting(u, laid) if u == v => Some((laid, w)),
                    _ => None,
                });
                let pick = if slip == Slip::LowestWorkerFirst { waiting.min_by_key(|&(_, w)| w) } else { waiting.min() };
                let Some((_, w)) = pick else { continue };
                let job = if s.deques[v].is_empty() {
                    None
                } else if slip == Slip::StealsTheBottom {
                    s.deques[v].pop()
                } else {
                    Some(s.deques[v].remove(0))
                };
                match job {
                    Some(j) => {
                        s.workers[w] = Worker::Holding(j);
                        s.t.steals += 1;
                        stolen.push((w, j));
                    }
                    None => {
                        missed.push((v, s.workers[v]));
                        s.workers[w] = Worker::Idle;
                    }
                }
            }
            for (v, as_it_served) in missed {
                let victim = match slip {
                    Slip::BareAsTheRoundBegan => began[v],
                    Slip::BareAsTheServicesBegan => asked[v],
                    Slip::BareAsTheServicesEnded => s.workers[v],
                    _ => as_it_served,
                };
                let bare = match slip {
                    Slip::BareIfNotIdle => victim != Worker::Idle,
                    Slip::IdleInTheMidst => matches!(victim, Worker::Holding(_)) && !s.in_the_midst(v),
                    _ => matches!(victim, Worker::Holding(_)),
                };
                if bare != (slip == Slip::MissesSwapped) {
                    s.t.bare += 1;
                } else {
                    s.t.idle_victim += 1;
                }
            }
            if slip == Slip::ActsInTheRoundOfItsSteal {
                stolen.sort();
                for (w, j) in stolen {
                    self.turn(&mut s, &next_began, w, j, slip);
                }
            }
        }
        s.t
    }

    fn jobs(&self) -> Vec<Job> {
        let action = |&(spawn, join, cost): &Action| (spawn as u32, join as u32, cost as u32);
        (0..self.frames.len()).map(|j| (self.frames[j], self.actions[j].iter().map(action).collect())).collect()
    }
}

struct Random(u64);

impl Random {
    fn below(&mut self, n: usize) -> usize {
        self.0 ^= self.0 << 13;
        self.0 ^= self.0 >> 7;
        self.0 ^= self.0 << 17;
        (self.0 >> 11) as usize % n
    }

    /// A plan that keeps the rules: parents below children, every join later than its spawn and not right after one.
    fn plan(&mut self, jobs: usize) -> Plan {
        let parent: Vec<usize> = (0..jobs).map(|c| if c == 0 { 0 } else { c - 1 - self.below(c.min(4)) }).collect();
        let mut actions: Vec<Vec<Action>> = vec![vec![]; jobs];
        let mut spawned = vec![0; jobs];
        for q in 0..jobs {
            for c in q + 1..jobs {
                if parent[c] == q {
                    for _ in 0..self.below(3) {
                        actions[q].push((0, 0, 1));
                    }
                    spawned[c] = actions[q].len();
                    actions[q].push((c + 1, 0, 1));
                }
            }
            for _ in 0..2 + self.below(3) {
                actions[q].push((0, 0, 1));
            }
        }
        let mut entering = vec![vec![0; 64]; jobs];
        for c in 1..jobs {
            let q = parent[c];
            let targets: Vec<usize> = (spawned[c] + 1..actions[q].len()).filter(|&t| actions[q][t - 1].0 == 0).collect();
            let end = actions[c].len() - 1;
            for i in 0..=end {
                if i == end || self.below(4) == 0 {
                    let most = if i == end { 8 } else { 7 };
                    let open: Vec<usize> = targets.iter().copied().filter(|&t| entering[q][t] < most).collect();
                    if !open.is_empty() {
                        let t = open[self.below(open.len())];
                        entering[q][t] += 1;
                        actions[c][i].1 = t + 1;
                    }
                }
            }
        }
        Plan::new((0..jobs).map(|_| 1 + self.below(9) as u32).collect(), actions)
    }

    /// Such a plan with costs, of which more are small than large.
    fn plan_2(&mut self, jobs: usize) -> Plan {
        let mut plan = self.plan(jobs);
        for action in plan.actions.iter_mut().flatten() {
            action.2 = [1, 1, 2, 3, 5, 9, 15][self.below(7)];
        }
        plan
    }
}

/// `count` plans of a form with so many jobs, drawn from a seed.
pub fn some(form: u32, seed: u64, count: usize, jobs: usize) -> Vec<Vec<Job>> {
    let mut random = Random(seed);
    (0..count).map(|_| if form == 1 { random.plan(jobs) } else { random.plan_2(jobs) }.jobs()).collect()
}

/// A run that is not refused.
struct Run {
    form: u32,
    name: String,
    plan: Plan,
    workers: usize,
    choices: Vec<u8>,
}

impl Run {
    fn new(name: &str, jobs: &[Job], workers: usize, choices: &[u8]) -> Run {
        Run { form: 1, name: name.to_string(), plan: Plan::of(jobs), workers, choices: choices.to_vec() }
    }

    fn new_2(name: &str, jobs: &[Job], workers: usize, choices: &[u8]) -> Run {
        Run { form: 2, ..Run::new(name, jobs, workers, choices) }
    }

    fn tally(&self, slip: Slip) -> Tally {
        self.plan.run(self.workers, &self.choices, slip)
    }

    fn input(&self) -> Vec<u8> {
        input(self.workers as u8, &self.choices, &plan_of(self.form, &self.plan.jobs()))
    }

    /// What `buildrun` has to print of it.
    fn answer(&self) -> String {
        let t = self.tally(Slip::None);
        let longest = self.plan.longest();
        let (parallel, rest) = quotient(self.plan.work() as u32, longest as u32);
        format!(
            "rounds {} actions {} longest {longest} path {} parallel {parallel} rest {rest} peak {} idle {} requests {} steals {} bare {} \
             idle-victim {}",
            t.rounds,
            t.actions,
            self.plan.path(),
            t.peak,
            t.idle,
            t.requests,
            t.steals,
            t.bare,
            t.idle_victim
        )
    }
}

/// Document 01's cases.
fn papers() -> Vec<Run> {
    vec![
        Run::new("case_1", &one(), 1, &[]),
        Run::new("case_2", &one(), 16, &[0]),
        Run::new("case_3", &e(), 1, &[]),
        Run::new("case_4", &e(), 2, &[0, 1]),
        Run::new("case_5", &f(), 2, &[0]),
        Run::new("case_6", &f(), 3, &[0]),
    ]
}

/// Where the kind of a miss is easy to mistake (document 02, L2): in the first, worker 0 loses its job in round 2 and then serves; in the
/// second, worker 1 is given job 0 in round 1 and then serves, and is asked again in round 2; in the third, worker 1 asks itself in
/// rounds 1, 2 and 3; in the last, worker 0 serves in round 3 before worker 1 gives it job 0, after a miss as in the first in round 2, and
/// worker 1, which holds job 0, is asked in round 4.
fn kinds_of_miss() -> Vec<Run> {
    let two = chain(2);
    let three = vec![(1, vec![spawn(1), spawn(2), NONE, NONE]), (1, vec![join(3)]), (1, vec![NONE, join(3)])];
    let case = |name: &str, jobs: &[Job], workers: usize, choices: &[u8], kinds: (usize, usize)| {
        let run = Run::new(name, jobs, workers, choices);
        let t = run.tally(Slip::None);
        assert_eq!((t.bare, t.idle_victim), kinds, "{name}");
        run
    };
    vec![
        case("victim_lost_its_job", &two, 3, &[0], (0, 1)),
        case("victim_was_given_a_job", &two, 3, &[0, 1, 1], (2, 0)),
        case("worker_asks_itself", &two, 2, &[1], (0, 3)),
        case("victim_will_be_given_a_job", &three, 3, &[0, 0, 1, 0, 1], (1, 2)),
    ]
}

/// `count` plans of a form, drawn from a seed, with workers and choices.
fn drawn(form: u32, seed: u64, count: usize, word: &str) -> Vec<Run> {
    let mut random = Random(seed);
    (0..count)
        .map(|k| {
            let workers = [2, 3, 4, 5, 8, 16, 1][k % 7];
            let most = [4, 7, 12, 18, 30][k % 5];
            let plan = if form == 1 { random.plan(most) } else { random.plan_2(most) };
            let choices = (0..1 + random.below(9)).map(|_| random.below(workers) as u8).collect();
            Run { form, name: format!("{word}_{k}_with_{workers}_workers"), plan, workers, choices }
        })
        .collect()
}

/// The worked examples of docs/RULES.md with costs, and others of the same plans, whose rounds, actions, idle turns, requests, steals and
/// misses of both kinds were worked out apart.
fn papers_2() -> Vec<Run> {
    let all: Vec<u8> = (0..16).collect();
    let case = |name: &str, jobs: &[Job], workers: usize, choices: &[u8], counts: [usize; 7]| {
        let run = Run::new_2(name, jobs, workers, choices);
        let t = run.tally(Slip::None);
        assert_eq!([t.rounds, t.actions, t.idle, t.requests, t.steals, t.bare, t.idle_victim], counts, "{name}");
        run
    };
    vec![
        case("one_of_3", &costed(one(), &[3]), 1, &[], [3, 3, 0, 0, 0, 0, 0]),
        case("one_of_15_with_16_workers", &costed(one(), &[15]), 16, &[0], [15, 15, 225, 28, 0, 14, 0]),
        case("e2_with_1_worker", &e2(), 1, &[], [19, 19, 0, 0, 0, 0, 0]),
        case("e2_with_2_workers", &e2(), 2, &[0, 1], [14, 19, 9, 8, 2, 3, 3]),
        case("e2_with_3_workers", &e2(), 3, &[0], [14, 19, 23, 14, 1, 5, 7]),
        case("e2_with_16_workers", &e2(), 16, &all, [13, 19, 189, 174, 2, 15, 157]),
        case("f2_with_2_workers", &f2(), 2, &[0], [10, 13, 7, 6, 1, 5, 0]),
        case("f2_with_2_workers_that_ask_themselves", &f2(), 2, &[1, 0], [10, 13, 7, 6, 1, 2, 3]),
        case("f2_with_3_workers", &f2(), 3, &[0], [10, 13, 17, 10, 1, 8, 0]),
    ]
}

fn save(c: &mut Cases, name: &str, input: Vec<u8>, answer: &str) {
    c.case("run", &format!("runs/{name}"), input, answer);
}

fn refusals(c: &mut Cases) {
    let mut refused = |name: &str, input: Vec<u8>, number: u32| save(c, name, input, &format!("refused {number}"));
    let bytes = plan(&e());
    let mut last = bytes.clone();
    last[17] = 1;
    let mut third = e();
    third[2].1[0] = join(3);
    refused("case_7", input(1, &[], &[]), 1);
    refused("case_8", input(1, &[], &last), 6);
    refused("case_9", input(1, &[], &plan(&third)), 5);
    refused("case_10", input(2, &[], &bytes), 8);
    refused("case_11", input(0, &[], &bytes), 7);
    refused("workers_17", input(17, &[0], &bytes), 7);
    refused("choice_2_of_2", input(2, &[0, 2], &bytes), 8);
    refused("one_worker_chooses_1", input(1, &[1], &bytes), 8);
    refused("bad_plan_and_no_worker", input(0, &[], &last), 6);
    refused("nothing", vec![], 1);
    refused("no_count", vec![2, 0], 1);
    refused("count_4097_and_no_choices", vec![2, 16, 1], 8);
    refused("missing_choices", vec![2, 0, 2, 0], 1);
}

fn refusals_2(c: &mut Cases) {
    let mut refused = |name: &str, input: Vec<u8>, number: u32| save(c, name, input, &format!("refused {number}"));
    let bytes = plan_2(&e2());
    let mut free = e2();
    free[2].1[0].2 = 0;
    let mut third = bytes.clone();
    third[0] = 3;
    refused("e2_with_no_worker", input(0, &[], &bytes), 7);
    refused("e2_with_17_workers", input(17, &[0], &bytes), 7);
    refused("e2_with_no_choices", input(2, &[], &bytes), 8);
    refused("e2_with_choice_2_of_2", input(2, &[0, 2], &bytes), 8);
    refused("e2_cut_in_its_last_cost", input(2, &[0, 1], &bytes[..21]), 1);
    refused("cost_0_and_no_worker", input(0, &[], &plan_2(&free)), 3);
    refused("form_3_and_no_worker", input(0, &[], &third), 2);
}

/// The most choices, the most actions, the largest costs, and an input longer than 8,192 bytes.
fn largest() -> Vec<Run> {
    let many: Vec<u8> = (0..4096).map(|k| (k % 2) as u8).collect();
    let wide = costed(large(65535, 8, 254), &[15]);
    vec![
        Run::new("choices_4096", &e(), 2, &many),
        Run::new_2("2048_of_15_with_1_worker", &wide, 1, &[]),
        Run::new_2("2048_of_15_with_16_workers", &wide, 16, &[0, 1, 2]),
        Run::new_2("8701_bytes", &costed(deep(), &[15]), 2, &many),
    ]
}

pub fn all(c: &mut Cases) {
    let mut runs = papers();
    runs.extend(kinds_of_miss());
    runs.extend(drawn(1, 0x9E37_79B9_7F4A_7C15, 42, "plan"));
    runs.extend(papers_2());
    runs.extend(drawn(2, 0xD1B5_4A32_D192_ED03, 14, "costs"));
    for slip in SLIPS {
        let told = runs.iter().filter(|run| run.tally(slip) != run.tally(Slip::None)).count();
        println!("{slip:?}: told apart by {told} cases");
        assert!(told > 0, "no case tells {:?} apart", slip);
    }
    for run in &runs {
        save(c, &run.name, run.input(), &run.answer());
    }
    refusals(c);
    refusals_2(c);
    for run in largest() {
        save(c, &run.name, run.input(), &run.answer());
    }
}
