//! Plans: their bytes and their rules.

use crate::bits::{Reader, Writer};
use crate::refusal;
use std::ops::Range;

pub const MAX_JOBS: usize = 256;
const MAX_JOB_ACTIONS: usize = 255;
pub const MAX_ACTIONS: usize = 2048;
const MAX_JOINS: u8 = 8;
const MAX_COST: u16 = 15;

/// How plans, and the schedules of their runs, are written. A plan is the same
/// in both.
#[derive(Clone, Copy, PartialEq, Eq)]
pub enum Form {
    /// Every action costs 1.
    One = 1,
    /// Every action has its cost with it.
    Two = 2,
}

impl Form {
    /// The form of this number.
    pub fn of(number: u32) -> Result<Self, u32> {
        match number {
            1 => Ok(Form::One),
            2 => Ok(Form::Two),
            _ => Err(refusal::FORM),
        }
    }

    /// The form of plan bytes, which is their first, and the fields behind it.
    fn split(bytes: &[u8]) -> Result<(Self, &[u8]), u32> {
        let (&form, fields) = bytes.split_first().ok_or(refusal::BITS)?;
        Ok((Form::of(u32::from(form))?, fields))
    }

    /// A cost that an action of this form may have.
    #[inline]
    pub fn cost(self, cost: u16) -> Result<u8, u32> {
        let most = match self {
            Form::One => 1,
            Form::Two => MAX_COST,
        };
        if (1..=most).contains(&cost) {
            Ok(cost as u8)
        } else {
            Err(refusal::RANGE)
        }
    }
}

#[derive(Clone, Copy)]
pub struct Job {
    pub frame: u16,
    /// Where the job's actions start among those of the plan.
    pub first: u16,
    pub count: u16,
    /// Job 0 stands as its own parent; nothing reads it.
    pub parent: u8,
    /// The position of the spawn in the parent.
    pub spawned_at: u8,
}

impl Job {
    pub fn range(&self) -> Range<usize> {
        let first = usize::from(self.first);
        first..first + usize::from(self.count)
    }
}

#[derive(Clone, Copy)]
pub struct Action {
    pub child: Option<u8>,
    pub target: Option<u8>,
    /// How many rounds the action takes.
    pub cost: u8,
}

/// A plan that keeps every rule.
pub struct Plan {
    pub jobs: Vec<Job>,
    /// In job, then position order.
    pub actions: Vec<Action>,
    /// How many joins enter each action.
    pub entering: Vec<u8>,
}

/// Jobs and actions within their ranges, spawns and joins not yet looked at.
pub struct Draft {
    jobs: Vec<Job>,
    actions: Vec<Action>,
}

impl Draft {
    pub fn new(jobs: usize, actions: usize) -> Result<Self, u32> {
        if !(1..=MAX_JOBS).contains(&jobs) {
            return Err(refusal::RANGE);
        }
        Ok(Draft {
            jobs: Vec::with_capacity(jobs),
            actions: Vec::with_capacity(actions.min(MAX_ACTIONS)),
        })
    }

    /// Opens a job; its `count` actions are to follow.
    pub fn open_job(&mut self, frame: u16, count: usize) -> Result<(), u32> {
        let first = self.actions.len();
        if frame == 0 || !(1..=MAX_JOB_ACTIONS).contains(&count) || first + count > MAX_ACTIONS {
            return Err(refusal::RANGE);
        }
        self.jobs.push(Job {
            frame,
            first: first as u16,
            count: count as u16,
            parent: 0,
            spawned_at: 0,
        });
        Ok(())
    }

    #[inline]
    pub fn add_action(&mut self, child: Option<u8>, target: Option<u8>, cost: u8) {
        self.actions.push(Action {
            child,
            target,
            cost,
        });
    }

    /// A plan, if the rules of spawns and then those of joins are kept.
    pub fn finish(mut self) -> Result<Plan, u32> {
        self.link_spawns()?;
        let entering = self.count_joins()?;
        Ok(Plan {
            jobs: self.jobs,
            actions: self.actions,
            entering,
        })
    }

    fn link_spawns(&mut self) -> Result<(), u32> {
        let mut spawned = [false; MAX_JOBS];
        let mut spawns = 0;
        for number in 0..self.jobs.len() {
            let range = self.jobs[number].range();
            for (position, action) in self.actions[range].iter().enumerate() {
                let Some(child) = action.child else { continue };
                let child = usize::from(child);
                if child <= number || child >= self.jobs.len() || spawned[child] {
                    return Err(refusal::SPAWN);
                }
                spawned[child] = true;
                spawns += 1;
                self.jobs[child].parent = number as u8;
                self.jobs[child].spawned_at = position as u8;
            }
        }
        // No child was spawned twice, so the count tells that none was left.
        if spawns + 1 == self.jobs.len() {
            Ok(())
        } else {
            Err(refusal::SPAWN)
        }
    }

    fn count_joins(&self) -> Result<Vec<u8>, u32> {
        let mut entering = vec![0; self.actions.len()];
        for (number, job) in self.jobs.iter().enumerate() {
            let actions = &self.actions[job.range()];
            if number == 0 {
                if actions.iter().any(|action| action.target.is_some()) {
                    return Err(refusal::JOIN);
                }
                continue;
            }
            if actions.last().is_none_or(|last| last.target.is_none()) {
                return Err(refusal::JOIN);
            }
            let parent = self.jobs[usize::from(job.parent)].range();
            let (above, into) = (&self.actions[parent.clone()], &mut entering[parent]);
            for action in actions {
                let Some(target) = action.target else {
                    continue;
                };
                let position = usize::from(target);
                // Later than a spawn means not at 0, so there is one before.
                if target <= job.spawned_at
                    || position >= above.len()
                    || above[position - 1].child.is_some()
                    || into[position] == MAX_JOINS
                {
                    return Err(refusal::JOIN);
                }
                into[position] += 1;
            }
        }
        Ok(entering)
    }
}

impl Plan {
    /// The plan of these bytes, and their form.
    pub fn read(bytes: &[u8]) -> Result<(Form, Plan), u32> {
        let (form, fields) = Form::split(bytes)?;
        Ok((form, Plan::read_fields(form, fields)?))
    }

    /// The plan of these bytes, which must be of this form.
    pub fn read_as(form: Form, bytes: &[u8]) -> Result<Plan, u32> {
        let (found, fields) = Form::split(bytes)?;
        if found != form {
            return Err(refusal::FORM);
        }
        Plan::read_fields(form, fields)
    }

    fn read_fields(form: Form, fields: &[u8]) -> Result<Plan, u32> {
        let mut reader = Reader::new(fields);
        let field = |reader: &mut Reader, width| reader.take(width).ok_or(refusal::BITS);
        let jobs = field(&mut reader, 9)?;
        // An action takes two bits or more.
        let mut draft = Draft::new(jobs as usize, fields.len() * 4)?;
        for _ in 0..jobs {
            let frame = field(&mut reader, 16)?;
            if frame == 0 {
                return Err(refusal::RANGE);
            }
            let count = field(&mut reader, 8)?;
            draft.open_job(frame as u16, count as usize)?;
            for _ in 0..count {
                let child = reader.take_marked().ok_or(refusal::BITS)?;
                let target = reader.take_marked().ok_or(refusal::BITS)?;
                let cost = match form {
                    Form::One => 1,
                    Form::Two => form.cost(field(&mut reader, 4)? as u16)?,
                };
                draft.add_action(child, target, cost);
            }
        }
        if !reader.at_clean_end() {
            return Err(refusal::REST);
        }
        draft.finish()
    }

    /// Writes the plan's bytes and gives their number. In form 1 costs are not
    /// written: all of them are 1.
    pub fn write(&self, form: Form, bytes: &mut [u8]) -> Result<usize, u32> {
        // Every job but 0 is one spawn.
        let spawns = self.jobs.len() - 1;
        let joins: usize = self.entering.iter().map(|&n| usize::from(n)).sum();
        let width = match form {
            Form::One => 2,
            Form::Two => 6,
        };
        let bits = 17 + 24 * self.jobs.len() + width * self.actions.len() + 8 * (spawns + joins);
        let length = bits.div_ceil(8);
        let bytes = bytes.get_mut(..length).ok_or(refusal::ROOM)?;

        let mut writer = Writer::new(bytes);
        writer.put(8, form as u32);
        writer.put(9, self.jobs.len() as u32);
        for job in &self.jobs {
            writer.put(24, u32::from(job.frame) << 8 | u32::from(job.count));
            for action in &self.actions[job.range()] {
                writer.put_marked(action.child);
                writer.put_marked(action.target);
                if form == Form::Two {
                    writer.put(4, u32::from(action.cost));
                }
            }
        }
        writer.finish();
        Ok(length)
    }
}
