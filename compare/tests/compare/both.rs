//! One call of each implementation and what must be equal afterwards.

use compare::claims::Facts;
use compare::inputs::FORMS;
use compare::proved;
use compare::schedules;
use second::{Measures, Tally};
use std::fmt::{Debug, Write};

/// Lengths that suffice for every input, as the C header has them.
pub const ROWS_ROOM: usize = 10_240;
pub const PLAN_ROOM: usize = 6_403;
pub const SCHEDULE_ROOM: usize = 5_124;

/// Numbers that are no form, some of which are one in their low bits.
pub const NO_FORMS: [u32; 9] = [0, 3, 4, 255, 256, 257, 258, 1 << 16 | 1, u32::MAX];

type Convert = fn(&[u8], &mut [u8]) -> Result<usize, u32>;

/// Counts what was compared, and stops at the first difference.
#[derive(Default)]
pub struct Both {
    pub calls: u64,
    pub runs: u64,
    pub generated: u64,
}

fn hex<T: Into<u32> + Copy>(numbers: &[T], width: usize) -> String {
    let mut text = String::new();
    for &number in numbers {
        let number: u32 = number.into();
        write!(text, "{number:0width$x} ").expect("a string takes it");
    }
    text
}

/// What a buffer holds before the call: no two neighbours are equal.
pub fn pattern(length: usize) -> Vec<u8> {
    (0..length).map(|at| (at * 31 + 165) as u8).collect()
}

fn wide_pattern(length: usize) -> Vec<u16> {
    (0..length).map(|at| (at * 8191 + 42405) as u16).collect()
}

fn differ(what: &str, input: &[(&str, String)], proved: &dyn Debug, second: &dyn Debug) -> ! {
    let mut text = format!("\n{what}\n");
    for (name, value) in input {
        writeln!(text, "{name}: {value}").expect("a string takes it");
    }
    panic!("{text}proved: {proved:?}\nsecond: {second:?}\n");
}

/// Whether the costs of these rows can be written in this form.
pub fn fits(form: u32, rows: &[u16]) -> bool {
    form == 2 || rows.chunks_exact(5).all(|row| row[4] == 1)
}

/// What must be told of a plan that is to be turned into a form, if there is
/// room: first of its own form, then of whatever else is read, then of its
/// costs, which are all 1 where the work is the number of actions.
fn refusal(form: u32, plan: &[u8], measures: Result<Measures, u32>) -> Option<u32> {
    match (plan.first(), measures) {
        (None, _) => Some(1),
        (Some(&own), _) if u32::from(own) != 3 - form => Some(2),
        (_, Err(refused)) => Some(refused),
        (_, Ok(measures)) => (form == 1 && measures.work != measures.total).then_some(15),
    }
}

/// Answers and buffers of both calls, held against each other.
struct Outcome<'a, A, N> {
    what: &'a str,
    proved: (Result<A, u32>, &'a [N]),
    second: (Result<A, u32>, &'a [N]),
    before: &'a [N],
    /// How much of the buffer a success may change.
    used: usize,
}

impl<A: Debug + PartialEq, N: Debug + PartialEq> Outcome<'_, A, N> {
    fn settle(&self, input: &dyn Fn() -> Vec<(&'static str, String)>) {
        if self.proved != self.second {
            differ(self.what, &input(), &self.proved, &self.second);
        }
        let kept = if self.second.0.is_ok() { self.used } else { 0 };
        if self.second.1[kept..] != self.before[kept..] {
            let what = format!("{}: a buffer was changed", self.what);
            differ(&what, &input(), &self.proved, &self.second);
        }
    }
}

impl Both {
    /// Runs with a schedule of `room` bytes and gives the schedule back.
    pub fn run(
        &mut self,
        plan: &[u8],
        workers: u32,
        choices: &[u8],
        room: usize,
    ) -> Result<(Tally, Vec<u8>), u32> {
        self.ran(
            "run",
            plan,
            room,
            |schedule| proved::run(plan, workers, choices, schedule),
            |schedule| second::run(plan, workers, choices, schedule),
            &|| {
                vec![
                    ("plan", hex(plan, 2)),
                    ("P", workers.to_string()),
                    ("choices", hex(choices, 2)),
                    ("room", room.to_string()),
                ]
            },
        )
    }

    /// Runs from a pool with a schedule of `room` bytes and gives the schedule back.
    pub fn pool(
        &mut self,
        plan: &[u8],
        workers: u32,
        room: usize,
    ) -> Result<(Tally, Vec<u8>), u32> {
        self.ran(
            "pool",
            plan,
            room,
            |schedule| proved::pool(plan, workers, schedule),
            |schedule| second::pool(plan, workers, schedule),
            &|| {
                vec![
                    ("plan", hex(plan, 2)),
                    ("P", workers.to_string()),
                    ("room", room.to_string()),
                ]
            },
        )
    }

    /// Lets both write a schedule of this plan in `room` bytes.
    fn ran(
        &mut self,
        what: &str,
        plan: &[u8],
        room: usize,
        proved: impl Fn(&mut [u8]) -> Result<Tally, u32>,
        second: impl Fn(&mut [u8]) -> Result<Tally, u32>,
        input: &dyn Fn() -> Vec<(&'static str, String)>,
    ) -> Result<(Tally, Vec<u8>), u32> {
        self.calls += 1;
        let before = pattern(room);
        let mut schedules = (before.clone(), before.clone());
        let proved = proved(&mut schedules.0);
        let second = second(&mut schedules.1);
        let used = match second::measure(plan) {
            Ok(measures) => schedules::length(plan[0].into(), measures.total as usize),
            Err(_) => 0,
        };
        Outcome {
            what,
            proved: (proved, &schedules.0),
            second: (second, &schedules.1),
            before: &before,
            used,
        }
        .settle(input);
        let tally = second?;
        self.runs += 1;
        schedules.1.truncate(used);
        Ok((tally, schedules.1))
    }

    /// Runs an accepted input with room to spare and holds it to the claims.
    pub fn run_claimed(
        &mut self,
        plan: &[u8],
        facts: &Facts,
        workers: u32,
        choices: &[u8],
    ) -> (Tally, Vec<u8>) {
        let room = schedules::length(facts.form, facts.costs.len()) + 3;
        let input = || {
            [
                ("plan", hex(plan, 2)),
                ("P", workers.to_string()),
                ("choices", hex(choices, 2)),
            ]
        };
        match self.run(plan, workers, choices, room) {
            Ok((tally, schedule)) => {
                if let Some(claim) = facts.broken(workers, &tally, &schedule) {
                    differ(claim, &input(), &tally, &schedule);
                }
                if let Err(refused) = self.check(plan, &schedule) {
                    differ("a run's schedule is refused", &input(), &refused, &schedule);
                }
                (tally, schedule)
            }
            Err(refused) => differ("an input of the rules is refused", &input(), &refused, &()),
        }
    }

    /// The same from a pool, whose idle turns are bounded and which asks nobody.
    pub fn pool_claimed(&mut self, plan: &[u8], facts: &Facts, workers: u32) -> (Tally, Vec<u8>) {
        let room = schedules::length(facts.form, facts.costs.len()) + 3;
        let input = || [("plan", hex(plan, 2)), ("P", workers.to_string())];
        match self.pool(plan, workers, room) {
            Ok((tally, schedule)) => {
                let claim = facts.broken(workers, &tally, &schedule);
                if let Some(claim) = claim.or_else(|| facts.unpooled(workers, &tally)) {
                    differ(claim, &input(), &tally, &schedule);
                }
                if let Err(refused) = self.check(plan, &schedule) {
                    differ(
                        "a pool's schedule is refused",
                        &input(),
                        &refused,
                        &schedule,
                    );
                }
                (tally, schedule)
            }
            Err(refused) => differ("an input of the rules is refused", &input(), &refused, &()),
        }
    }

    pub fn check(&mut self, plan: &[u8], schedule: &[u8]) -> Result<(), u32> {
        self.calls += 1;
        let proved = proved::check(plan, schedule);
        let second = second::check(plan, schedule);
        if proved != second {
            let input = [("plan", hex(plan, 2)), ("schedule", hex(schedule, 2))];
            differ("check", &input, &proved, &second);
        }
        second
    }

    pub fn measure(&mut self, plan: &[u8]) -> Result<Measures, u32> {
        self.calls += 1;
        let proved = proved::measure(plan);
        let second = second::measure(plan);
        if proved != second {
            differ("measure", &[("plan", hex(plan, 2))], &proved, &second);
        }
        second
    }

    /// Measures a plan and turns it into each form, with no room and with
    /// enough: form 2 takes at most three times the bits of form 1.
    pub fn read(&mut self, plan: &[u8]) -> Result<Measures, u32> {
        let measures = self.measure(plan);
        for form in FORMS {
            let told = refusal(form, plan, measures);
            let none = self.convert(form, plan, 0).err();
            let converted = self.convert(form, plan, 3 * plan.len());
            if (none, converted.as_ref().err()) != (told.or(Some(9)), told.as_ref()) {
                let input = [("form", form.to_string()), ("plan", hex(plan, 2))];
                differ("a plan in a form", &input, &(none, converted), &told);
            }
            if let Ok(converted) = converted {
                self.back(plan, &converted, measures);
            }
        }
        measures
    }

    /// There and back are the same bytes, with the same measures in between.
    fn back(&mut self, plan: &[u8], converted: &[u8], measures: Result<Measures, u32>) {
        let there = self.measure(converted);
        let back = self.convert(plan[0].into(), converted, plan.len());
        if (there, back.as_deref()) != (measures, Ok(plan)) {
            let input = [("plan", hex(plan, 2)), ("converted", hex(converted, 2))];
            differ("there and back", &input, &there, &back);
        }
    }

    /// Lets both write over `before` and gives back what they wrote: as many
    /// times `width` numbers as their answer says.
    fn written<N: Clone + Debug + PartialEq>(
        &mut self,
        what: &str,
        before: &[N],
        width: usize,
        proved: impl Fn(&mut [N]) -> Result<usize, u32>,
        second: impl Fn(&mut [N]) -> Result<usize, u32>,
        input: &dyn Fn() -> Vec<(&'static str, String)>,
    ) -> Result<Vec<N>, u32> {
        self.calls += 1;
        let mut buffers = (before.to_vec(), before.to_vec());
        let proved = proved(&mut buffers.0);
        let second = second(&mut buffers.1);
        let used = width * second.unwrap_or(0);
        Outcome {
            what,
            proved: (proved, &buffers.0),
            second: (second, &buffers.1),
            before,
            used,
        }
        .settle(input);
        buffers.1.truncate(used);
        second.map(|_| buffers.1)
    }

    /// Opens a plan into a table of `room` numbers and gives the table back.
    pub fn plan_to_table(&mut self, plan: &[u8], room: usize) -> Result<Vec<u16>, u32> {
        self.written(
            "plan to table",
            &wide_pattern(room),
            5,
            |rows| proved::plan_to_table(plan, rows),
            |rows| second::plan_to_table(plan, rows),
            &|| vec![("plan", hex(plan, 2)), ("room", room.to_string())],
        )
    }

    /// Closes a table into a plan of `room` bytes and gives the plan back.
    pub fn table_to_plan(&mut self, form: u32, rows: &[u16], room: usize) -> Result<Vec<u8>, u32> {
        self.written(
            "table to plan",
            &pattern(room),
            1,
            |plan| proved::table_to_plan(form, rows, plan),
            |plan| second::table_to_plan(form, rows, plan),
            &|| {
                vec![
                    ("form", form.to_string()),
                    ("rows", hex(rows, 4)),
                    ("room", room.to_string()),
                ]
            },
        )
    }

    /// Turns a plan into a form in `room` bytes and gives the bytes back.
    pub fn convert(&mut self, form: u32, plan: &[u8], room: usize) -> Result<Vec<u8>, u32> {
        let (proved, second): (Convert, Convert) = match form {
            1 => (proved::to_form_1, second::to_form_1),
            _ => (proved::to_form_2, second::to_form_2),
        };
        self.written(
            "convert",
            &pattern(room),
            1,
            |bytes| proved(plan, bytes),
            |bytes| second(plan, bytes),
            &|| {
                vec![
                    ("form", form.to_string()),
                    ("plan", hex(plan, 2)),
                    ("room", room.to_string()),
                ]
            },
        )
    }

    /// Puts two plans under a new root in `room` bytes and gives the bytes back.
    pub fn pair(&mut self, plans: [&[u8]; 2], frame: u32, room: usize) -> Result<Vec<u8>, u32> {
        let [one, two] = plans;
        self.written(
            "pair",
            &pattern(room),
            1,
            |bytes| proved::pair(one, two, frame, bytes),
            |bytes| second::pair(one, two, frame, bytes),
            &|| {
                vec![
                    ("first", hex(one, 2)),
                    ("second", hex(two, 2)),
                    ("frame", frame.to_string()),
                    ("room", room.to_string()),
                ]
            },
        )
    }

    /// Everything there is to say of plan bytes that may be turned down.
    pub fn all_of_plan(&mut self, plan: &[u8], schedule: &[u8]) {
        let answers = [
            self.read(plan).map(|_| ()),
            self.plan_to_table(plan, ROWS_ROOM).map(|_| ()),
            self.run(plan, 2, &[0, 1, 0], SCHEDULE_ROOM).map(|_| ()),
            self.pool(plan, 2, SCHEDULE_ROOM).map(|_| ()),
        ];
        if answers.iter().any(|answer| *answer != answers[0]) {
            let input = [("plan", hex(plan, 2))];
            differ("one plan, several refusals", &input, &answers, &());
        }
        let checked = self.check(plan, schedule);
        if answers[0].is_err() && answers[0] != checked {
            let input = [("plan", hex(plan, 2))];
            differ("one plan, several refusals", &input, &answers, &checked);
        }
    }

    /// The facts of a plan that keeps the rules, both tables compared.
    pub fn facts(&mut self, plan: &[u8], rows: &[u16]) -> Facts {
        let form = plan[0].into();
        let input = || [("plan", hex(plan, 2)), ("rows", hex(rows, 4))];
        let opened = self.plan_to_table(plan, rows.len() + 5);
        if opened.as_deref() != Ok(rows) {
            differ("a plan opens to its rows", &input(), &opened, &opened);
        }
        let closed = self.table_to_plan(form, rows, plan.len() + 5);
        if closed.as_deref() != Ok(plan) {
            differ("rows close to their plan", &input(), &closed, &closed);
        }
        self.other_forms(form, rows);
        match self.read(plan) {
            Ok(measures) => Facts::new(form, rows, measures),
            Err(refused) => differ("a plan of the rules is refused", &input(), &refused, &()),
        }
    }

    /// Closes rows of a good plan in the other form, which gives the same rows
    /// back where it fits the costs, and in one that is none.
    fn other_forms(&mut self, form: u32, rows: &[u16]) {
        let other = 3 - form;
        let again = self
            .table_to_plan(other, rows, 2 * rows.len())
            .and_then(|plan| self.plan_to_table(&plan, rows.len()));
        let wanted = if fits(other, rows) { Ok(rows) } else { Err(&3) };
        if again.as_deref() != wanted {
            let input = [("form", other.to_string()), ("rows", hex(rows, 4))];
            differ("rows close in another form", &input, &again, &wanted);
        }
        let none = NO_FORMS[self.calls as usize % NO_FORMS.len()];
        assert_eq!(self.table_to_plan(none, rows, 8), Err(2));
    }
}
