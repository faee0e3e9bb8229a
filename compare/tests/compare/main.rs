//! The proved runner against the second one, on the same inputs.

mod both;
mod buffers;
mod damaged;
mod extreme;
mod forms;
mod generated;
mod pairs;
mod pools;
mod small;

use both::Both;

type Part = fn(&mut Both);

fn main() {
    let parts: [(&str, Part); 21] = [
        ("small plans, all lists", small::plans),
        ("small plans with costs, all lists", small::costed_plans),
        ("small plans, any numbers", small::any_numbers),
        ("generated runs", generated::runs),
        ("runs in both forms", forms::runs),
        ("runs turned down", generated::turned_down),
        ("small plans in pairs", pairs::small),
        ("generated pairs and their runs", pairs::generated),
        ("pairs at the limits", pairs::limits),
        ("pairs turned down", pairs::turned_down),
        ("small plans from a pool", pools::small),
        ("generated plans from a pool", pools::generated),
        ("largest plans from a pool", pools::largest),
        ("pools in both forms", pools::in_both_forms),
        ("pools turned down", pools::turned_down),
        ("buffers of a pool", pools::buffers),
        ("extremes", extreme::all),
        ("damaged plans", damaged::plans),
        ("damaged tables", damaged::tables),
        ("damaged and other schedules", damaged::schedules),
        ("buffers", buffers::all),
    ];
    let mut both = Both::default();
    let mut before = 0;
    for (name, part) in parts {
        part(&mut both);
        println!("{:>9}  {name}", both.calls - before);
        before = both.calls;
    }
    println!("{:>9}  cases in all, no difference", both.calls);
    println!("{:>9}  of them runs that were accepted", both.runs);
    println!("{:>9}  inputs from the generator", both.generated);
    assert!(both.generated >= 20_000, "too few generated cases");
    assert!(both.runs >= 20_000, "too few accepted runs");
}
