//! What must hold of every run, read off the plan's rows and the schedule's.

use crate::schedules::{Row, Schedule};
use second::{Measures, Tally};

/// A plan's open table, made ready for questions.
pub struct Facts {
    pub form: u32,
    pub measures: Measures,
    /// Per action: how many rounds it takes.
    pub costs: Vec<u32>,
    /// Per action: the weight that lives more once it is done.
    gains: Vec<i64>,
    /// Per action: the actions that it must follow.
    follows: Vec<Vec<usize>>,
    /// Per action: what its worker goes on with at once, if that is ready.
    onward: Vec<Option<usize>>,
    start: i64,
    /// The last action of job 0.
    end: usize,
}

impl Facts {
    pub fn new(form: u32, rows: &[u16], measures: Measures) -> Facts {
        let rows: Vec<&[u16]> = rows.chunks_exact(5).collect();
        let jobs = usize::from(rows[rows.len() - 1][0]) + 1;
        let mut first = vec![usize::MAX; jobs];
        let mut last = vec![0; jobs];
        for (at, row) in rows.iter().enumerate() {
            let job = usize::from(row[0]);
            first[job] = first[job].min(at);
            last[job] = at;
        }
        let frame = |job: usize| i64::from(rows[first[job]][1]);
        let mut gains = vec![0; rows.len()];
        let mut follows = vec![Vec::new(); rows.len()];
        let mut onward = vec![None; rows.len()];
        let mut parent = vec![0; jobs];
        for (at, row) in rows.iter().enumerate() {
            let job = usize::from(row[0]);
            if at > first[job] {
                follows[at].push(at - 1);
            }
            if at == last[job] {
                gains[at] -= frame(job);
            } else {
                onward[at] = Some(at + 1);
            }
            if row[2] > 0 {
                let child = usize::from(row[2]) - 1;
                gains[at] += frame(child);
                follows[first[child]].push(at);
                onward[at] = Some(first[child]);
                parent[child] = job;
            }
        }
        for (at, row) in rows.iter().enumerate() {
            if row[3] > 0 {
                let target = first[parent[usize::from(row[0])]] + usize::from(row[3]) - 1;
                follows[target].push(at);
            }
        }
        Facts {
            form,
            measures,
            costs: rows.iter().map(|row| row[4].into()).collect(),
            gains,
            follows,
            onward,
            start: frame(0),
            end: last[0],
        }
    }

    /// Says which rule of schedules rows break, if they break one.
    pub fn breach(&self, workers: u32, rows: &[Row]) -> Option<&'static str> {
        for (at, row) in rows.iter().enumerate() {
            if row.worker >= workers {
                return Some("every action is done by one of the workers");
            }
            let Some(before) = row.round.checked_sub(self.costs[at]) else {
                return Some("no span begins before round 1");
            };
            if self.follows[at].iter().any(|&at| rows[at].round > before) {
                return Some("a span begins after all that its action must follow");
            }
        }
        let mut spans: Vec<(u32, u32, u32)> = rows
            .iter()
            .zip(&self.costs)
            .map(|(row, cost)| (row.worker, row.round, row.round - cost))
            .collect();
        // By their ends: if two share a round, so do two neighbours.
        spans.sort_unstable();
        spans
            .windows(2)
            .any(|two| two[0].0 == two[1].0 && two[1].2 < two[0].1)
            .then_some("no two spans of one worker share a round")
    }

    /// What a checker must answer to any bytes for the plan of these facts.
    pub fn verdict(&self, bytes: &[u8]) -> Result<(), u32> {
        let formed = Schedule::read(bytes).filter(|schedule| {
            schedule.form == self.form
                && (1..=16).contains(&schedule.workers)
                && schedule.rows.len() == self.costs.len()
                && schedule.rows.iter().all(|row| row.round > 0)
        });
        let schedule = formed.ok_or(11u32)?;
        match self.breach(schedule.workers, &schedule.rows) {
            None => Ok(()),
            Some(_) => Err(12),
        }
    }

    /// Says which claim a run breaks, if it breaks one.
    pub fn broken(&self, workers: u32, tally: &Tally, schedule: &[u8]) -> Option<&'static str> {
        let Measures {
            total,
            work,
            longest,
            path,
            parallel,
            rest,
        } = self.measures;
        let Some(schedule) = Schedule::read(schedule) else {
            return Some("a schedule is its header and rows, filled with zero bits");
        };
        let rows = &schedule.rows;
        if (schedule.form, schedule.workers, rows.len()) != (self.form, workers, self.costs.len()) {
            return Some("the header tells the form, the workers and the actions");
        }
        if let Some(rule) = self.breach(workers, rows) {
            return Some(rule);
        }
        let mut turns: Vec<(Row, usize)> = rows.iter().copied().zip(0..).collect();
        turns.sort_unstable();

        // In order of turns each action comes after those that it follows.
        let mut chains = vec![0; turns.len()];
        let mut weight = self.start;
        let mut peak = weight;
        for &(row, at) in &turns {
            let before = self.follows[at].iter().map(|&at| chains[at]).max();
            chains[at] = before.unwrap_or(0) + self.costs[at];
            weight += self.gains[at];
            peak = peak.max(weight);
            if weight > i64::from(workers) * i64::from(path) {
                return Some("the living weight is never above P times S1");
            }
            if self.onward[at].is_some_and(|next| !self.goes_on(rows, row, next)) {
                return Some("a worker goes on at once with what is ready");
            }
        }
        let rounds = turns[turns.len() - 1].0.round;
        let answered = tally.steals + tally.bare + tally.idle_victim;
        let waiting = i64::from(tally.requests) - i64::from(answered);
        [
            (
                rows[self.end].round == rounds,
                "the run ends in the round of job 0's last action",
            ),
            (weight == 0, "no frame outlives the run"),
            (
                total as usize == self.costs.len(),
                "the number of actions is the one measured",
            ),
            (
                work == self.costs.iter().sum(),
                "the sum of the costs is the one measured",
            ),
            (
                chains.iter().max() == Some(&longest),
                "the costliest chain is the one measured",
            ),
            (
                parallel * longest + rest == work && rest < longest,
                "the work is the costliest chain so many times, and the rest",
            ),
            (i64::from(tally.peak) == peak, "the peak is the one reached"),
            (
                tally.rounds == rounds,
                "the last round is the number of rounds",
            ),
            (
                tally.actions == work,
                "all actions are worked on to the end",
            ),
            (
                longest <= rounds && rounds <= work,
                "the rounds are from the costliest chain to the work",
            ),
            (
                workers * rounds == work + tally.idle,
                "turns are worked or idle",
            ),
            (
                workers.saturating_sub(parallel) * longest <= tally.idle + rest,
                "more workers than the quotient cannot all be kept busy",
            ),
            (
                (0..i64::from(workers)).contains(&waiting),
                "a request is a steal, a miss or waits",
            ),
            (
                workers > 1 || (tally.peak, rounds) == (path, work),
                "one worker needs S1 and T1",
            ),
        ]
        .iter()
        .find(|claim| !claim.0)
        .map(|claim| claim.1)
    }

    /// Says which claim a run from a pool breaks that other runs need not keep.
    pub fn unpooled(&self, workers: u32, tally: &Tally) -> Option<&'static str> {
        let Measures { work, longest, .. } = self.measures;
        [
            (
                workers * tally.rounds <= work + (workers - 1) * longest,
                "P times the rounds is at most T1 and P - 1 times T-infinity",
            ),
            (
                [tally.requests, tally.steals, tally.bare, tally.idle_victim] == [0; 4],
                "in a pool nobody asks anybody",
            ),
        ]
        .iter()
        .find(|claim| !claim.0)
        .map(|claim| claim.1)
    }

    /// Whether the next action, if it is ready right after the turn of this
    /// row, is worked on by the same worker from the next round on.
    fn goes_on(&self, rows: &[Row], row: Row, next: usize) -> bool {
        let ready = self.follows[next].iter().all(|&at| rows[at] <= row);
        let begun = Row {
            round: row.round + self.costs[next],
            worker: row.worker,
        };
        !ready || rows[next] == begun
    }
}
