//! Runs from a central pool (document 02, L1), and what they must give: a runner written from docs/RULES.md, "A central pool", alone, which
//! looks for everything anew at every turn, and states the tally and each byte of the schedule. It also carries out each tempting error and
//! sees to it that some case tells it apart.
use crate::check_cases::fan;
use crate::plan_cases::{never, third};
use crate::plans::{chain, costed, deep, e, e2, f, f2, join, large, one, plan, plan_2, plan_of, spawn, Action, Bits, Job, NONE};
use crate::run_cases::some;
use crate::Cases;

/// A round, the last of an action's, and a worker.
type Row = (u32, usize);

/// What a run from a pool may get wrong.
#[derive(Clone, Copy, PartialEq, Debug)]
enum Slip {
    None,
    TakesTheHighest,
    ParentThoughAChildLives,
    ParentThoughHeld,
    IdleBeforeTheTaking,
    KeepsTheSpawner,
    ChildrenAsTheRoundBegan,
    HoldersAsTheRoundBegan,
    HoldersBeforeTheTaking,
    ParentWhereReady,
    ParentWhereAllChildrenEnded,
    ParentToThePool,
    LowestInsteadOfTheParent,
    TakesAtOnce,
    ActsARoundLater,
    HighestWorkerFirst,
    LowestReadyOrNot,
    StallsThoughTheJoinCame,
    KeepsTheStalled,
    LastRoundCutShort,
    PeakOnceARound,
    CostsPassedOver,
    OneRoundMore,
    ActionsCountedOnce,
}

const SLIPS: [Slip; 23] = [
    Slip::TakesTheHighest,
    Slip::ParentThoughAChildLives,
    Slip::ParentThoughHeld,
    Slip::IdleBeforeTheTaking,
    Slip::KeepsTheSpawner,
    Slip::ChildrenAsTheRoundBegan,
    Slip::HoldersAsTheRoundBegan,
    Slip::HoldersBeforeTheTaking,
    Slip::ParentWhereReady,
    Slip::ParentWhereAllChildrenEnded,
    Slip::ParentToThePool,
    Slip::LowestInsteadOfTheParent,
    Slip::TakesAtOnce,
    Slip::ActsARoundLater,
    Slip::HighestWorkerFirst,
    Slip::LowestReadyOrNot,
    Slip::StallsThoughTheJoinCame,
    Slip::KeepsTheStalled,
    Slip::LastRoundCutShort,
    Slip::PeakOnceARound,
    Slip::CostsPassedOver,
    Slip::OneRoundMore,
    Slip::ActionsCountedOnce,
];

/// What is counted: of the other counts nothing happens in a run from a pool.
#[derive(Clone, Copy, Default, PartialEq, Debug)]
struct Tally {
    rounds: u32,
    actions: u32,
    idle: u32,
    peak: u32,
}

/// Of each job the rows of its actions that are done, in order, and the rounds spent on the next one; of each worker the job that it holds.
#[derive(Clone)]
struct State {
    rows: Vec<Vec<Row>>,
    spent: Vec<u32>,
    hands: Vec<Option<usize>>,
    tally: Tally,
}

/// What a run gives.
#[derive(PartialEq, Debug)]
struct Given {
    tally: Tally,
    rows: Vec<Vec<Row>>,
}

struct Plan<'a> {
    jobs: &'a [Job],
    /// Each job's parent, and the position of its spawner.
    parents: Vec<Option<(usize, usize)>>,
    children: Vec<Vec<usize>>,
}

impl Plan<'_> {
    fn of(jobs: &[Job]) -> Plan<'_> {
        let mut parents = vec![None; jobs.len()];
        let mut children = vec![vec![]; jobs.len()];
        for (q, (_, actions)) in jobs.iter().enumerate() {
            for (i, action) in actions.iter().enumerate().filter(|(_, action)| action.0 > 0) {
                let child = action.0 as usize - 1;
                parents[child] = Some((q, i));
                children[q].push(child);
            }
        }
        Plan { jobs, parents, children }
    }

    fn ended(&self, s: &State, j: usize) -> bool {
        s.rows[j].len() == self.jobs[j].1.len()
    }

    fn lives(&self, s: &State, j: usize) -> bool {
        !self.ended(s, j) && self.parents[j].map_or(true, |(q, i)| s.rows[q].len() > i)
    }

    fn weight(&self, s: &State) -> u32 {
        (0..self.jobs.len()).filter(|&j| self.lives(s, j)).map(|j| self.jobs[j].0).sum()
    }

    /// Every join into the next action of a living job has come.
    fn ready(&self, s: &State, j: usize) -> bool {
        let enters = |action: &Action| action.1 as usize == s.rows[j].len() + 1;
        self.children[j].iter().all(|&c| self.jobs[c].1.iter().skip(s.rows[c].len()).all(|action| !enters(action)))
    }

    /// The job that an idle worker takes.
    fn lowest(&self, s: &State, slip: Slip) -> Option<usize> {
        let mut pool = (0..self.jobs.len()).filter(|&j| self.lives(s, j) && !s.hands.contains(&Some(j)));
        match slip {
            Slip::TakesTheHighest => pool.filter(|&j| self.ready(s, j)).last(),
            Slip::LowestReadyOrNot => pool.next().filter(|&j| self.ready(s, j)),
            _ => pool.find(|&j| self.ready(s, j)),
        }
    }

    /// Whether the worker whose turn ends job j is to hold j's parent q. `marks` are the states before and after the round's taking.
    fn takes_parent(&self, s: &State, marks: &[State; 2], j: usize, q: usize, slip: Slip) -> bool {
        let [before, began] = marks;
        let judged = if slip == Slip::ChildrenAsTheRoundBegan { began } else { s };
        let lone = match slip {
            Slip::ParentThoughAChildLives => true,
            Slip::ParentWhereReady => self.ready(s, q),
            Slip::ParentWhereAllChildrenEnded => self.children[q].iter().all(|&c| self.ended(s, c)),
            _ => self.children[q].iter().all(|&c| c == j || !self.lives(judged, c)),
        };
        let held = match slip {
            Slip::ParentThoughHeld => false,
            Slip::HoldersAsTheRoundBegan => began.hands.contains(&Some(q)),
            Slip::HoldersBeforeTheTaking => before.hands.contains(&Some(q)),
            _ => s.hands.contains(&Some(q)),
        };
        lone && !held && slip != Slip::ParentToThePool
    }

    /// Worker w takes a turn with job j.
    fn turn(&self, s: &mut State, marks: &[State; 2], w: usize, j: usize, slip: Slip) {
        let (spawn, _, cost) = self.jobs[j].1[s.rows[j].len()];
        let rounds = match slip {
            Slip::CostsPassedOver => 1,
            Slip::OneRoundMore => cost + 1,
            _ => cost,
        };
        s.spent[j] += 1;
        let done = s.spent[j] == rounds;
        if done || slip != Slip::ActionsCountedOnce {
            s.tally.actions += 1;
        }
        if !done {
            return;
        }
        s.spent[j] = 0;
        s.rows[j].push((s.tally.rounds, w));
        let mut judged = if slip == Slip::StallsThoughTheJoinCame { marks[1].clone() } else { s.clone() };
        judged.rows[j].clone_from(&s.rows[j]);
        s.hands[w] = if spawn > 0 && slip != Slip::KeepsTheSpawner {
            Some(spawn as usize - 1)
        } else if self.ended(s, j) {
            let parent = self.parents[j].map(|(q, _)| q);
            parent.filter(|&q| self.takes_parent(s, marks, j, q, slip))
        } else if self.ready(&judged, j) || slip == Slip::KeepsTheStalled {
            Some(j)
        } else {
            None
        };
        if slip == Slip::LowestInsteadOfTheParent && self.ended(s, j) || slip == Slip::TakesAtOnce && s.hands[w].is_none() {
            s.hands[w] = None;
            s.hands[w] = self.lowest(s, slip);
        }
        if slip != Slip::PeakOnceARound {
            s.tally.peak = s.tally.peak.max(self.weight(s));
        }
    }

    fn round(&self, s: &mut State, slip: Slip) {
        s.tally.rounds += 1;
        let before = s.clone();
        let n = s.hands.len();
        for k in 0..n {
            let w = if slip == Slip::HighestWorkerFirst { n - 1 - k } else { k };
            if s.hands[w].is_none() {
                s.hands[w] = self.lowest(s, slip);
            }
        }
        let marks = [before, s.clone()];
        let [before, began] = &marks;
        for w in 0..n {
            let acting = if slip == Slip::ActsARoundLater { before } else { began };
            // a slip may leave a worker with a job that another has ended, or that stalls
            let works = acting.hands[w].filter(|&j| !self.ended(s, j) && (slip != Slip::KeepsTheStalled || self.ready(s, j)));
            let idle = if slip == Slip::IdleBeforeTheTaking { before.hands[w].is_none() } else { works.is_none() };
            if idle && !(slip == Slip::LastRoundCutShort && self.ended(s, 0)) {
                s.tally.idle += 1;
            }
            match works {
                Some(j) => self.turn(s, &marks, w, j, slip),
                None if s.hands[w].map_or(false, |j| self.ended(s, j)) => s.hands[w] = None,
                None => {}
            }
        }
        s.tally.peak = s.tally.peak.max(self.weight(s));
    }

    /// A run by n workers; with a slip it may have to be broken off.
    fn run(&self, n: usize, slip: Slip) -> Given {
        let mut s = State {
            rows: vec![vec![]; self.jobs.len()],
            spent: vec![0; self.jobs.len()],
            hands: vec![None; n],
            tally: Tally { peak: self.jobs[0].0, ..Tally::default() },
        };
        let work: u32 = self.jobs.iter().flat_map(|job| &job.1).map(|action| action.2).sum();
        while !self.ended(&s, 0) && s.tally.rounds <= 2 * work {
            self.round(&mut s, slip);
        }
        Given { tally: s.tally, rows: s.rows }
    }
}

/// A run that is not refused.
#[derive(Clone)]
struct Run {
    form: u32,
    name: String,
    jobs: Vec<Job>,
    workers: usize,
}

impl Run {
    fn new(form: u32, name: &str, jobs: &[Job], workers: usize) -> Run {
        let ending = if workers == 1 { "" } else { "s" };
        Run { form, name: format!("{name}_with_{workers}_worker{ending}"), jobs: jobs.to_vec(), workers }
    }

    fn given(&self, slip: Slip) -> Given {
        Plan::of(&self.jobs).run(self.workers, slip)
    }

    fn schedule(&self, rows: &[Vec<Row>]) -> Vec<u8> {
        let mut b = Bits(vec![]);
        b.put(8, self.form);
        b.put(5, self.workers as u32);
        b.put(12, rows.iter().map(|row| row.len() as u32).sum());
        b.put(7, 0);
        for &(round, worker) in rows.iter().flatten() {
            b.put(if self.form == 1 { 12 } else { 16 }, round);
            b.put(4, worker as u32);
        }
        b.bytes()
    }

    /// The file, and its line in the whole buffer.
    fn save(&self, c: &mut Cases) -> (usize, String) {
        let Given { tally, rows } = self.given(Slip::None);
        assert_eq!(self.workers as u32 * tally.rounds, tally.actions + tally.idle, "{}", self.name);
        let schedule = self.schedule(&rows);
        save(c, &self.name, &plan_of(self.form, &self.jobs), &schedule);
        let bytes = schedule.len();
        let answer = format!(
            "rounds {} actions {} peak {} idle {} requests 0 steals 0 bare 0 idle-victim 0, bytes {bytes} the same, beyond kept, accepted",
            tally.rounds, tally.actions, tally.peak, tally.idle
        );
        line(c, &self.name, &self.workers.to_string(), &answer);
        (bytes, answer)
    }

    /// In just the room that the schedule takes too, and in one byte more or less.
    fn save_in_rooms(&self, c: &mut Cases) {
        let (bytes, answer) = self.save(c);
        let workers = self.workers;
        line(c, &self.name, &format!("{workers} {bytes}"), &answer);
        line(c, &self.name, &format!("{workers} {}", bytes + 1), &answer);
        line(c, &self.name, &format!("{workers} {}", bytes - 1), "refused 9, kept");
    }
}

/// A file of a plan and, where it is run, of the schedule that is to be written.
fn save(c: &mut Cases, name: &str, plan: &[u8], schedule: &[u8]) {
    c.save(&format!("pools/{name}"), [&(plan.len() as u16).to_be_bytes()[..], plan, schedule].concat());
}

fn line(c: &mut Cases, name: &str, rest: &str, answer: &str) {
    c.line("pool", &format!("pools/{name}"), &format!(" {rest}"), answer);
}

/// The examples of docs/RULES.md, "One" and "One of 3": rounds, idle turns and peak were worked out apart.
fn examples() -> Vec<Run> {
    let case = |form: u32, name: &str, jobs: &[Job], workers: usize, counts: [u32; 3]| {
        let run = Run::new(form, name, jobs, workers);
        let t = run.given(Slip::None).tally;
        assert_eq!([t.rounds, t.idle, t.peak], counts, "{}", run.name);
        run
    };
    let two = case(1, "e", &e(), 2, [5, 2, 7]);
    let written = [0x01, 0x10, 0x04, 0, 0, 0x10, 0, 0x21, 0, 0x31, 0, 0x40, 0, 0x51, 0, 0x20, 0, 0x30, 0, 0x41];
    assert_eq!(two.schedule(&two.given(Slip::None).rows), written);
    vec![
        case(1, "e", &e(), 1, [8, 0, 7]),
        two,
        case(1, "e", &e(), 3, [5, 7, 7]),
        case(1, "e", &e(), 16, [5, 72, 7]),
        case(1, "one", &one(), 1, [1, 0, 1]),
        case(1, "one", &one(), 16, [1, 15, 1]),
        case(2, "one_of_3", &costed(one(), &[3]), 1, [3, 0, 1]),
        case(2, "one_of_3", &costed(one(), &[3]), 16, [3, 45, 1]),
    ]
}

/// Small plans, each with the error that it is for.
fn contrasts() -> Vec<Run> {
    let case = |name: &str, jobs: &[Job], workers: usize, slips: &[Slip]| {
        let run = Run::new(1, name, jobs, workers);
        for &slip in slips {
            assert!(run.given(slip) != run.given(Slip::None), "{} does not tell {slip:?} apart", run.name);
        }
        run
    };
    // jobs of frame 1
    let jobs = |rows: &[&[Action]]| rows.iter().map(|row| (1, row.to_vec())).collect::<Vec<Job>>();
    let both = |child: u32, target: u32| (child + 1, target + 1, 1);
    let two_ready = jobs(&[&[spawn(1), NONE, NONE, NONE], &[NONE, both(2, 2), NONE, join(3)], &[NONE, join(3)]]);
    let stalls = jobs(&[&[spawn(1), spawn(2), NONE, NONE], &[NONE, NONE, NONE, join(3)], &[NONE, join(3)]]);
    let is_ready =
        jobs(&[&[spawn(1), NONE, NONE, NONE], &[spawn(2), both(3, 2), NONE, join(3)], &[join(3), NONE, join(3)], &[NONE, join(3)]]);
    let held = jobs(&[&[spawn(1), NONE, NONE, NONE, NONE], &[NONE, join(4)]]);
    let taken = jobs(&[&[spawn(1), NONE, NONE], &[NONE, join(2)]]);
    let at_once = jobs(&[&[spawn(1), spawn(2), NONE, NONE], &[NONE, join(3)], &[join(3)]]);
    let in_turn = jobs(&[&[spawn(1), spawn(2), NONE, NONE], &[NONE, join(3)], &[NONE, join(3)]]);
    let to_come = jobs(&[&[spawn(1), NONE, NONE], &[spawn(2), spawn(3), NONE, join(2)], &[join(3)], &[join(3)]]);
    let waits = jobs(&[&[spawn(1), NONE, NONE], &[spawn(2), NONE, join(2)], &[NONE, join(2)]]);
    let enables = jobs(&[&[spawn(1), NONE, NONE, NONE, NONE], &[spawn(2), join(3), join(4)], &[NONE, join(2)]]);
    let came = jobs(&[&[spawn(1), NONE, NONE, NONE], &[NONE, join(3)]]);
    vec![
        // In round 4 jobs 0 and 1 are in the pool, both ready, and two workers are idle: the lower one takes job 0.
        case("two_ready", &two_ready, 3, &[Slip::TakesTheHighest]),
        // Job 2 ends while job 1 lives, and job 0, which waits for job 1, is in the pool.
        case("child_lives_and_parent_stalls", &stalls, 3, &[Slip::ParentThoughAChildLives]),
        // Job 2 ends while job 3 lives, and job 1 is ready and in the pool: the worker is idle, and takes the lower job 0.
        case("child_lives_and_parent_is_ready", &is_ready, 2, &[Slip::ParentThoughAChildLives, Slip::ParentWhereReady]),
        // Job 1 ends while worker 1 holds job 0.
        case("parent_held", &held, 2, &[Slip::ParentThoughHeld]),
        // The same in the round in which worker 1 takes job 0.
        case("parent_taken_in_the_round", &chain(2), 2, &[Slip::ParentThoughHeld, Slip::HoldersBeforeTheTaking]),
        // A worker that takes a job has no idle turn: the one worker in round 1, and worker 1 in round 2.
        case("taken_in_round_1", &[(1, vec![NONE; 2])], 1, &[Slip::IdleBeforeTheTaking]),
        case("taken_in_round_2", &taken, 2, &[Slip::IdleBeforeTheTaking]),
        // The one worker works on job 1 before it goes on with job 0.
        case("spawner_to_the_pool", &chain(2), 1, &[Slip::KeepsTheSpawner]),
        // Jobs 1 and 2 end in round 3, and worker 1, whose turn is the later, takes job 0.
        case("two_end_in_one_round", &at_once, 2, &[Slip::ChildrenAsTheRoundBegan, Slip::ParentToThePool]),
        // In round 4 job 0 stalls at worker 0, and then job 2 ends at worker 1, which takes job 0.
        case("parent_stalls_in_the_round", &in_turn, 2, &[Slip::HoldersAsTheRoundBegan, Slip::KeepsTheStalled]),
        // Job 2 ends, and its worker takes job 1, though job 0 is ready and in the pool.
        case("parent_before_a_lower_job", &chain(3), 1, &[Slip::LowestInsteadOfTheParent, Slip::ParentToThePool]),
        // The same, while job 3, another child of job 1, is not yet spawned.
        case("child_to_come", &to_come, 1, &[Slip::ParentWhereAllChildrenEnded]),
        // Job 0 stalls, and in round 3 worker 1 takes job 1, which is ready.
        case("stalled_job_passed_over", &waits, 2, &[Slip::LowestReadyOrNot]),
        // In round 3 worker 1 loses job 0, and then worker 2 joins it and loses job 1: worker 1 takes job 0 in the next taking.
        case("taken_by_the_lower_worker", &enables, 3, &[Slip::TakesAtOnce]),
        // In round 3 job 1 joins 0.3 at worker 0, and then job 0 goes on at worker 1.
        case("join_came_in_the_round", &came, 2, &[Slip::StallsThoughTheJoinCame]),
        // In round 3 job 3 is spawned at worker 0, and then job 2 ends at worker 1.
        case("peak_within_a_round", &fan(3), 2, &[Slip::PeakOnceARound]),
    ]
}

/// Plans F, E2 and others, chains and fans, and plans that are drawn.
fn others() -> Vec<Run> {
    let mut runs = vec![];
    for workers in [1, 2, 3, 16] {
        runs.push(Run::new(1, "f", &f(), workers));
        runs.push(Run::new(2, "e2", &e2(), workers));
        runs.push(Run::new(2, "f2", &f2(), workers));
        runs.push(Run::new(2, "e_in_form_2", &e(), workers));
    }
    runs.push(Run::new(2, "one_of_15", &costed(one(), &[15]), 2));
    let costs = [3, 1, 15, 2, 7, 1, 4];
    for workers in [2, 3, 16] {
        runs.push(Run::new(1, "chain_of_30", &chain(30), workers));
        runs.push(Run::new(1, "fan_of_30", &fan(30), workers));
        runs.push(Run::new(2, "chain_of_30_with_costs", &costed(chain(30), &costs), workers));
        runs.push(Run::new(2, "fan_of_30_with_costs", &costed(fan(30), &costs), workers));
    }
    for (k, &jobs) in [4, 7, 12, 18, 30].iter().enumerate() {
        for (form, word, seed) in [(1, "plan", 0xA076_1D64_78BD_642F), (2, "costs", 0xE703_7ED1_A0B4_28DB)] {
            for (i, plan) in some(form, seed + jobs as u64, 5, jobs).iter().enumerate() {
                let workers = [2, 3, 4, 5, 8, 16, 1][(k + i) % 7];
                runs.push(Run::new(form, &format!("{word}_{i}_of_{jobs}_jobs"), plan, workers));
            }
        }
    }
    runs
}

/// The most jobs, actions and rounds, and the longest schedules.
fn largest() -> Vec<Run> {
    let wide = costed(large(65535, 8, 254), &[15]);
    let mut runs = vec![];
    for workers in [1, 3, 16] {
        runs.push(Run::new(1, "chain_of_256", &chain(256), workers));
        runs.push(Run::new(1, "fan_of_225", &fan(225), workers));
        runs.push(Run::new(1, "deep", &deep(), workers));
        runs.push(Run::new(1, "2048_actions", &large(65535, 8, 254), workers));
        runs.push(Run::new(2, "2048_actions_of_15", &wide, workers));
    }
    runs.push(Run::new(2, "deep_of_15", &costed(deep(), &[15]), 2));
    runs
}

/// A plan that is refused, whatever the workers and the room are; worker counts that are refused, whatever the room is; and then no room.
fn refusals(c: &mut Cases) {
    let good = plan(&e());
    let costs = plan_2(&e2());
    let form_3 = [&[3], &good[1..]].concat();
    let no_frame = plan(&[(0, vec![NONE])]);
    let mut free = e2();
    free[2].1[0].2 = 0;
    let mut filled = good.clone();
    filled[17] = 1;
    let over = [&good[..], &[0]].concat();
    let bad: [(&str, &[u8], u32); 10] = [
        ("empty", &[], 1),
        ("e_cut_short", &good[..17], 1),
        ("e2_cut_in_its_last_cost", &costs[..21], 1),
        ("form_3", &form_3, 2),
        ("no_frame", &no_frame, 3),
        ("cost_0", &plan_2(&free), 3),
        ("unspawned", &plan(&never()), 4),
        ("after_spawn", &plan(&third()), 5),
        ("fill_bit", &filled, 6),
        ("over", &over, 6),
    ];
    for (name, plan, number) in bad {
        save(c, name, plan, &[]);
        for rest in ["2", "2 0", "0", "17 0", "400 0"] {
            line(c, name, rest, &format!("refused {number}, kept"));
        }
    }
    for (name, plan, short) in [("e", &good, 19), ("e2", &costs, 23)] {
        save(c, name, plan, &[]);
        // of 258 and 65,538 the low byte is 2
        for workers in [0, 17, 400, 258, 65538] {
            line(c, name, &workers.to_string(), "refused 7, kept");
            line(c, name, &format!("{workers} {short}"), "refused 7, kept");
            line(c, name, &format!("{workers} 0"), "refused 7, kept");
        }
        for workers in [1, 2, 16] {
            line(c, name, &format!("{workers} {short}"), "refused 9, kept");
            line(c, name, &format!("{workers} 0"), "refused 9, kept");
        }
    }
}

pub fn all(c: &mut Cases) {
    let examples = examples();
    let others = [contrasts(), others()].concat();
    for slip in SLIPS {
        let told = examples.iter().chain(&others).filter(|run| run.given(slip) != run.given(Slip::None)).count();
        println!("{slip:?}: told apart by {told} cases");
        assert!(told > 0, "no case tells {:?} apart", slip);
    }
    for run in &examples {
        run.save_in_rooms(c);
    }
    for run in &others {
        run.save(c);
    }
    for run in largest() {
        run.save_in_rooms(c);
    }
    refusals(c);
}
