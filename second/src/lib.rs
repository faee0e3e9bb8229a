//! A second reading of the build runner's specification, written apart from
//! the first so that the two can be compared. A plan is run by workers that steal
//! jobs from one another, [`run()`], or take them from one pool, [`pool()`].

#![forbid(unsafe_code)]
#![warn(missing_docs)]

mod bits;
mod check;
mod forms;
mod input;
mod measure;
mod pair;
mod plan;
mod pool;
pub mod refusal;
mod run;
mod schedule;
mod table;
mod work;

pub use check::check;
pub use forms::{to_form_1, to_form_2};
pub use input::{build, Counts};
pub use measure::{measure, Measures};
pub use pair::pair;
pub use pool::pool;
pub use run::run;
pub use table::{plan_to_table, table_to_plan};
pub use work::Tally;
