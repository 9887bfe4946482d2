//! Compares the built programs with the separately written program: `programs BIN_FOLDER [--valgrind]`.

use compare::harness::runs::Built;
use compare::harness::tally::finish;
use compare::programs::{dimacs_runs, plan_runs, price_runs, rewrites, tidy_runs};
use std::io;
use std::path::Path;

fn compare(folder: &Path, valgrind: bool) -> io::Result<Vec<bool>> {
    let built = Built::new(folder, valgrind)?;
    let mut results = plan_runs::compare(2_029, 3_000, &built)?;
    results.extend(rewrites::compare(2_032, 4_000, &built)?);
    results.extend(tidy_runs::compare(2_034, 4_000, &built)?);
    results.extend(dimacs_runs::compare(2_036, 2_000, &built)?);
    results.extend(price_runs::compare(2_038, 1_500, &built)?);
    Ok(results)
}

fn main() {
    let arguments: Vec<String> = std::env::args().skip(1).collect();
    let (folder, valgrind) = match arguments.as_slice() {
        [folder] => (folder, false),
        [folder, word] if word == "--valgrind" => (folder, true),
        _ => {
            eprintln!("programs BIN_FOLDER [--valgrind]");
            std::process::exit(2);
        }
    };
    match compare(Path::new(folder), valgrind) {
        Ok(results) => finish(&results),
        Err(error) => {
            eprintln!("the programs cannot be run: {error}");
            std::process::exit(2);
        }
    }
}
