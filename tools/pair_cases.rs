//! Two plans in one build (document 02, L9): the examples of docs/RULES.md, some plans with each other, in each form, the limits of jobs and
//! actions on both sides, frames, and the order of the refusals. What is to be written is put together here, job by job, and T1, S1 and
//! T∞ are told from those of the parts.
use crate::plan_cases::{never, third};
use crate::plans::{chain, costed, e, e2, f, f2, join, large, one, plan, plan_2, plan_of, quotient, Action, Job, NONE};
use crate::Cases;

/// A plan with its form, and what is known of it: T1, T∞ and S1.
struct Part {
    form: u32,
    jobs: Vec<Job>,
    work: u32,
    longest: u32,
    path: u32,
}

fn part(form: u32, jobs: Vec<Job>, work: u32, longest: u32, path: u32) -> Part {
    Part { form, jobs, work, longest, path }
}

/// The jobs with numbers that rise by d, the root's last action joining position 4.
fn below(d: u32, jobs: &[Job]) -> Vec<Job> {
    let risen = |&(child, target, cost): &Action| (if child == 0 { 0 } else { child + d }, target, cost);
    let mut jobs: Vec<Job> = jobs.iter().map(|(frame, actions)| (*frame, actions.iter().map(risen).collect())).collect();
    jobs[0].1.last_mut().unwrap().1 = 4 + 1;
    jobs
}

fn together(frame: u32, first: &[Job], second: &[Job]) -> Vec<Job> {
    let next = 1 + first.len() as u32;
    let root = vec![(1 + 1, 0, 1), NONE, (next + 1, 0, 1), NONE, NONE];
    [vec![(frame, root)], below(1, first), below(next, second)].concat()
}

/// A file of both plans, and of what is to be written where that is something.
fn save(c: &mut Cases, name: &str, plans: [&[u8]; 2], written: &[u8]) {
    let lengths: Vec<u8> = plans.iter().flat_map(|plan| (plan.len() as u16).to_be_bytes()).collect();
    c.save(&format!("pairs/{name}"), [&lengths, plans[0], plans[1], written].concat());
}

fn line(c: &mut Cases, name: &str, rest: &str, answer: &str) {
    c.line("pair", &format!("pairs/{name}"), &format!(" {rest}"), answer);
}

fn refused(c: &mut Cases, name: &str, rest: &str, number: u32) {
    line(c, name, rest, &format!("refused {number}, kept"));
}

/// A pair that is accepted: in just the room that it takes, and not in one byte less. Gives the answer.
fn paired(c: &mut Cases, name: &str, frame: u32, parts: [&Part; 2]) -> String {
    let [a, b] = parts;
    let jobs = together(frame, &a.jobs, &b.jobs);
    let form = if a.form == 1 && b.form == 1 { 1 } else { 2 };
    let written = plan_of(form, &jobs);
    save(c, name, [&plan_of(a.form, &a.jobs), &plan_of(b.form, &b.jobs)], &written);
    let total: usize = jobs.iter().map(|job| job.1.len()).sum();
    let work = a.work + b.work + 5;
    let longest = (a.longest + 2).max(b.longest + 4);
    let path = frame + a.path.max(b.path);
    let (parallel, rest) = quotient(work, longest);
    let bytes = written.len();
    let answer = format!(
        "bytes {bytes} the same, beyond, total {total} work {work} longest {longest} path {path} parallel {parallel} rest {rest}, \
         rows {total}, bytes {bytes} the same, beyond kept"
    );
    line(c, name, &format!("{frame} {bytes}"), &answer);
    refused(c, name, &format!("{frame} {}", bytes - 1), 9);
    answer
}

/// The same, and in the whole buffer too.
fn example(c: &mut Cases, name: &str, frame: u32, parts: [&Part; 2]) {
    let answer = paired(c, name, frame, parts);
    line(c, name, &frame.to_string(), &answer);
}

/// A pair that is refused, in all the buffer and in none of it.
fn turned_down(c: &mut Cases, name: &str, frame: u32, plans: [&[u8]; 2], number: u32) {
    save(c, name, plans, &[]);
    refused(c, name, &frame.to_string(), number);
    refused(c, name, &format!("{frame} 0"), number);
}

fn examples(c: &mut Cases) {
    let e_and_f = [
        0x01, 0x03, 0, 0x01, 0x02, 0xC0, 0x44, 0x10, 0, 0, 0x80, 0xB0, 0x21, 0x03, 0x08, 0x20, 0, 0x18, 0x10, 0x82, 0, 0x01, 0, 0xA0, 0x80, 0,
        0x20, 0x70, 0x50, 0x82, 0, 0, 0x82, 0, 0x81, 0,
    ];
    assert_eq!(plan(&together(2, &e(), &f())), e_and_f);
    let one_and_e2 = [
        0x02, 0x02, 0x80, 0x01, 0x82, 0xC0, 0x42, 0x0C, 0x08, 0x20, 0x82, 0, 0x02, 0x02, 0x82, 0x08, 0, 0x20, 0x2C, 0x0C, 0x40, 0xC1, 0x06,
        0x0A, 0x08, 0x40, 0, 0x60, 0x42, 0x20, 0x82, 0, 0x04, 0x02, 0x82, 0x28,
    ];
    assert_eq!(plan_2(&together(3, &one(), &e2())), one_and_e2);
    let twice = [0x01, 0x01, 0x80, 0, 0x82, 0xC0, 0x44, 0x08, 0, 0, 0x20, 0x28, 0x20, 0, 0x08, 0x0A, 0x08];
    assert_eq!(plan(&together(1, &one(), &one())), twice);
    let [one, e, e2, f] = [part(1, one(), 1, 1, 1), part(1, e(), 8, 5, 7), part(2, e2(), 19, 13, 7), part(1, f(), 7, 6, 2)];
    example(c, "example_e_and_f", 2, [&e, &f]);
    example(c, "example_one_and_e2", 3, [&one, &e2]);
    example(c, "example_one_twice", 1, [&one, &one]);
}

/// Each of some plans with every third of them.
fn some_two(c: &mut Cases) {
    let parts = [
        ("one", part(1, one(), 1, 1, 1)),
        ("one_of_3", part(2, costed(one(), &[3]), 3, 3, 1)),
        ("e", part(1, e(), 8, 5, 7)),
        ("e_in_form_2", part(2, e(), 8, 5, 7)),
        ("e2", part(2, e2(), 19, 13, 7)),
        ("f", part(1, f(), 7, 6, 2)),
        ("f2", part(2, f2(), 13, 10, 2)),
        ("five", part(1, vec![(9, vec![NONE; 5])], 5, 5, 9)),
        ("chain", part(1, chain(4), 10, 7, 4)),
    ];
    for (i, (first, a)) in parts.iter().enumerate() {
        for (second, b) in parts.iter().skip(i % 3).step_by(3) {
            paired(c, &format!("{first}_and_{second}"), 1 + i as u32, [a, b]);
        }
    }
}

/// So many jobs: the root spawns the others one after the other, and behind that waits for eight at a time.
fn fan(jobs: u32) -> Vec<Job> {
    let children = jobs - 1;
    let mut root: Vec<Action> = (0..children).map(|c| (c + 2, 0, 1)).collect();
    root.push(NONE);
    root.extend(vec![NONE; children.div_ceil(8) as usize]);
    let first = children + 1;
    let child = |c: u32| (1, vec![join(first + c / 8)]);
    [vec![(1, root)], (0..children).map(child).collect()].concat()
}

/// So many actions: the root has 255 or all of them, and the jobs that it spawns have the rest and join its last one.
fn long(actions: usize) -> Vec<Job> {
    let jobs = actions.div_ceil(255) as u32;
    if jobs == 1 {
        return vec![(1, vec![NONE; actions])];
    }
    let mut root: Vec<Action> = (1..jobs).map(|c| (c + 1, 0, 1)).collect();
    root.resize(255, NONE);
    let mut left = actions - 255;
    let child = |_| {
        let size = left.min(255);
        left -= size;
        let mut actions = vec![NONE; size];
        *actions.last_mut().unwrap() = join(254);
        (1, actions)
    };
    [vec![(1, root)], (1..jobs).map(child).collect()].concat()
}

/// 255 + 1 jobs and 2,043 + 5 actions, and one more.
fn limits(c: &mut Cases) {
    // no chain through a child is longer than the root
    let fanned = |jobs: u32| {
        let root = jobs + (jobs - 1).div_ceil(8);
        part(1, fan(jobs), root + jobs - 1, root, if jobs == 1 { 1 } else { 2 })
    };
    paired(c, "jobs_128_and_127", 7, [&fanned(128), &fanned(127)]);
    paired(c, "jobs_200_and_55", 7, [&fanned(200), &fanned(55)]);
    // a chain of n jobs has 3 actions a job, its last one 1; of the second actions, which spawn and wait for nothing, none is on
    // the longest chain
    let chained = |n: u32| part(1, chain(n), 3 * n - 2, 2 * n - 1, n);
    paired(c, "jobs_254_and_1", 7, [&chained(254), &chained(1)]);
    paired(c, "jobs_1_and_254", 7, [&chained(1), &chained(254)]);
    turned_down(c, "jobs_255_and_1", 7, [&plan(&chain(255)), &plan(&one())], 17);
    turned_down(c, "jobs_1_and_255", 7, [&plan(&one()), &plan(&chain(255))], 17);
    turned_down(c, "jobs_128_and_128", 7, [&plan(&fan(128)), &plan(&fan(128))], 17);
    turned_down(c, "jobs_200_and_56", 7, [&plan(&fan(200)), &plan(&fan(56))], 17);
    turned_down(c, "jobs_256_and_1", 7, [&plan(&chain(256)), &plan(&one())], 17);
    turned_down(c, "jobs_1_and_256", 7, [&plan(&one()), &plan(&chain(256))], 17);

    let most = plan(&large(1, 8, 254));
    turned_down(c, "actions_2048_and_1", 7, [&most, &plan(&one())], 17);
    turned_down(c, "actions_1_and_2048", 7, [&plan(&one()), &most], 17);
    let sized = |actions: usize| {
        let jobs = long(actions);
        let path = if jobs.len() == 1 { 1 } else { 2 };
        // job j is spawned at position j - 1
        let longest = (1..jobs.len()).map(|j| j + jobs[j].1.len() + 1).chain([jobs[0].1.len()]).max().unwrap();
        part(1, jobs, actions as u32, longest as u32, path)
    };
    for (a, b) in [(1, 2042), (1000, 1043), (1021, 1022), (2042, 1)] {
        paired(c, &format!("actions_{a}_and_{b}"), 65535, [&sized(a), &sized(b)]);
        let more = plan(&long(b + 1));
        turned_down(c, &format!("actions_{a}_and_{}", b + 1), 65535, [&plan(&long(a)), &more], 17);
    }
}

fn frames(c: &mut Cases) {
    let ones = [&part(1, one(), 1, 1, 1), &part(1, one(), 1, 1, 1)];
    example(c, "frame_1", 1, ones);
    example(c, "frame_65535", 65535, ones);
    let two = [&plan(&one())[..], &plan(&one())];
    turned_down(c, "frame_0", 0, two, 17);
    turned_down(c, "frame_65536", 65536, two, 17);
}

/// The first plan's number, the second's, 17, and then 9.
fn order(c: &mut Cases) {
    let (good, empty) = (plan(&e()), vec![]);
    let (unspawned, after_spawn) = (plan(&never()), plan(&third()));
    let mut over = good.clone();
    over.push(0);
    let form_3 = [&[3], &good[1..]].concat();
    let short = &good[..17];
    let no_frame = plan(&[(0, vec![NONE])]);
    let bad: [(&str, &[u8], u32); 7] = [
        ("empty", &empty, 1),
        ("short", short, 1),
        ("form_3", &form_3, 2),
        ("no_frame", &no_frame, 3),
        ("unspawned", &unspawned, 4),
        ("after_spawn", &after_spawn, 5),
        ("over", &over, 6),
    ];
    for (i, (name, plan, number)) in bad.iter().enumerate() {
        // a frame of 0 and no room beside it
        turned_down(c, &format!("first_{name}"), 0, [plan, &good], *number);
        turned_down(c, &format!("second_{name}"), 0, [&good, plan], *number);
        let (other, after, _) = bad[(i + 3) % bad.len()];
        turned_down(c, &format!("first_{name}_second_{other}"), 1, [plan, after], *number);
    }
    // a first plan that leaves no room for another
    turned_down(c, "first_full_second_empty", 1, [&plan(&chain(256)), &empty], 1);
}

pub fn all(c: &mut Cases) {
    examples(c);
    some_two(c);
    limits(c);
    frames(c);
    order(c);
}
