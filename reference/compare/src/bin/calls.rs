//! Compares the proved calls with the separately written program.

use compare::calls::{assignments, indexes, measures, prices, readers, solves, spellings, tidies};
use compare::harness::tally::finish;

fn main() {
    let mut results = readers::compare(2_026, 60_000);
    results.extend(spellings::compare(2_031, 400));
    results.extend(measures::compare(2_027, 120_000));
    results.extend(indexes::compare(2_030, 40_000));
    results.extend(solves::compare(2_028, 32_000));
    results.extend(tidies::compare(2_033, 40_000));
    results.extend(assignments::compare(2_035, 60_000));
    results.extend(prices::compare(2_037, 10_000));
    finish(&results);
}
