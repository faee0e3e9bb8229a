//! Writes an input of `buildrun` from a text that names jobs and actions.
//!
//!     rustc -O tools/input.rs -o target/input && target/input < examples/family.txt > family.in
//!
//! A line of the text is one of
//!
//!     workers P
//!     choices V V ..                   steal choices, in order; the line may be left out
//!     job NAME frame UNITS             a job and its frame in units of 64 KiB; the first is the root
//!     [LABEL:] act                     an action of the last job
//!     [LABEL:] spawn NAME              an action that spawns a job, which must come later in the text
//!     [LABEL:] join LABEL              an action that sends a join to the action LABEL of the parent
//!     [LABEL:] spawn NAME join LABEL   an action that does both
//!
//! and `#` begins a comment. At the end of an action may stand its cost, the number of rounds that it takes, as in
//!
//!     act x5
//!     spawn NAME x2
//!     join LABEL x3
//!     spawn NAME join LABEL x4
//!
//! and it is 1 where none stands there. If the text gives a cost anywhere, be it `x1`, the plan is written in form 2, else in
//! form 1, which has no costs.
//!
//! Nothing but names, and that a cost is 0 to 15, the numbers that its field holds, is checked here: a plan that breaks a rule, as
//! one with a cost of 0 does, is written as it stands, and `buildrun` refuses it with its number.
use std::collections::HashMap;
use std::io::{Read, Write};

struct Action {
    spawn: Option<String>,
    join: Option<String>,
    cost: Option<usize>,
}

struct Job {
    name: String,
    frame: u16,
    actions: Vec<Action>,
    labels: HashMap<String, usize>,
}

#[derive(Default)]
struct Bits(Vec<u8>, usize);

impl Bits {
    fn put(&mut self, width: usize, value: usize) {
        for k in (0..width).rev() {
            if self.1 % 8 == 0 {
                self.0.push(0);
            }
            self.0[self.1 / 8] |= ((value >> k & 1) as u8) << (7 - self.1 % 8);
            self.1 += 1;
        }
    }

    fn put_number(&mut self, number: Option<usize>) {
        match number {
            None => self.put(1, 0),
            Some(n) => self.put(9, 256 + n),
        }
    }
}

fn fail(line: usize, what: &str) -> ! {
    eprintln!("line {line}: {what}");
    std::process::exit(1)
}

fn number<T: std::str::FromStr>(line: usize, word: Option<&&str>) -> T {
    let Some(value) = word.and_then(|w| w.parse().ok()) else {
        fail(line, "a number is wanted")
    };
    value
}

/// What stands behind an action: its cost, or nothing.
fn cost(line: usize, words: &[&str]) -> Option<usize> {
    match *words {
        [] => None,
        [word] => match word.strip_prefix('x').and_then(|digits| digits.parse().ok()) {
            Some(cost) if cost < 16 => Some(cost),
            _ => fail(line, "a cost from x0 to x15 is wanted behind the action"),
        },
        _ => fail(line, "nothing but a cost is wanted behind the action"),
    }
}

fn action(line: usize, words: &[&str]) -> Action {
    let (spawn, join, rest) = match *words {
        ["act", ref rest @ ..] => (None, None, rest),
        ["spawn", name, "join", label, ref rest @ ..] => (Some(name), Some(label), rest),
        ["spawn", name, ref rest @ ..] => (Some(name), None, rest),
        ["join", label, ref rest @ ..] => (None, Some(label), rest),
        _ => fail(line, "act, spawn NAME, join LABEL or both are wanted"),
    };
    Action { spawn: spawn.map(str::to_string), join: join.map(str::to_string), cost: cost(line, rest) }
}

fn main() {
    let mut text = String::new();
    std::io::stdin().read_to_string(&mut text).expect("text on standard input");
    let mut workers = 1u8;
    let mut choices: Vec<u8> = Vec::new();
    let mut jobs: Vec<Job> = Vec::new();
    for (at, line) in text.lines().enumerate() {
        let line_number = at + 1;
        let words: Vec<&str> = line.split('#').next().unwrap_or("").split_whitespace().collect();
        match words.first() {
            None => {}
            Some(&"workers") => workers = number(line_number, words.get(1)),
            Some(&"choices") => choices = words[1..].iter().map(|w| number(line_number, Some(w))).collect(),
            Some(&"job") => {
                let (Some(&name), Some(&"frame")) = (words.get(1), words.get(2)) else {
                    fail(line_number, "job NAME frame UNITS is wanted")
                };
                jobs.push(Job {
                    name: name.into(),
                    frame: number(line_number, words.get(3)),
                    actions: Vec::new(),
                    labels: HashMap::new(),
                });
            }
            Some(first) => {
                let Some(job) = jobs.last_mut() else {
                    fail(line_number, "an action stands before the first job")
                };
                let rest = match first.strip_suffix(':') {
                    Some(label) => {
                        job.labels.insert(label.into(), job.actions.len());
                        &words[1..]
                    }
                    None => &words[..],
                };
                job.actions.push(action(line_number, rest));
            }
        }
    }
    let numbers: HashMap<&str, usize> = jobs.iter().enumerate().map(|(j, job)| (job.name.as_str(), j)).collect();
    let mut parents = vec![0; jobs.len()];
    for (j, job) in jobs.iter().enumerate() {
        for name in job.actions.iter().filter_map(|a| a.spawn.as_deref()) {
            match numbers.get(name) {
                Some(&child) => parents[child] = j,
                None => fail(0, &format!("no job {name}")),
            }
        }
    }
    let costed = jobs.iter().flat_map(|job| &job.actions).any(|action| action.cost.is_some());
    let mut bits = Bits::default();
    bits.put(8, if costed { 2 } else { 1 });
    bits.put(9, jobs.len());
    for (j, job) in jobs.iter().enumerate() {
        bits.put(16, job.frame.into());
        bits.put(8, job.actions.len());
        for action in &job.actions {
            bits.put_number(action.spawn.as_deref().map(|name| numbers[name]));
            bits.put_number(action.join.as_deref().map(|label| {
                let parent = &jobs[parents[j]];
                *parent.labels.get(label).unwrap_or_else(|| fail(0, &format!("{} has no action {label}", parent.name)))
            }));
            if costed {
                bits.put(4, action.cost.unwrap_or(1));
            }
        }
    }
    let mut out = vec![workers, (choices.len() / 256) as u8, (choices.len() % 256) as u8];
    out.extend(choices);
    out.extend(bits.0);
    std::io::stdout().write_all(&out).expect("standard output");
}
