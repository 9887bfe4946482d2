//! Measures the stack that each exported call takes. One that takes more than the header names ends it with status 1.

use compare::calls::stacks::measured;
use compare::harness::layer::calls::STACK;

fn main() {
    let measured = measured();
    for (call, bytes) in &measured {
        println!(
            "{call:<28} {bytes:7} bytes {:6.1} KiB",
            *bytes as f64 / 1024.0
        );
    }
    if measured.iter().any(|&(_, bytes)| bytes > STACK) {
        eprintln!("the header names {STACK} bytes");
        std::process::exit(1);
    }
}
