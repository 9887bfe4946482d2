//! What LEMON's program may not write when speed is measured. A program of the shell stands in for it.

use std::process::Command;

/// How measuring ends, and what it says then, if LEMON's program reads everything and then runs this.
fn measured(script: &str) -> (Option<i32>, String) {
    let script = format!("cat >/dev/null; {script}");
    let measuring = Command::new(env!("CARGO_BIN_EXE_speed"))
        .args(["--plain", "sh", "-c", &script])
        .output()
        .unwrap();
    let said = String::from_utf8(measuring.stderr).unwrap();
    (measuring.status.code(), said)
}

#[test]
fn a_wrong_total_is_told() {
    let (status, said) = measured("yes '1 2.0 1.0 1 2.0 1.0' | head -n 100");
    assert_eq!(status, Some(1));
    let graph = "64 by 64, 1024 edges, graph 1: the total is 1 by LEMON's circulation, and ";
    assert!(said.starts_with(graph), "{said}");
}

#[test]
fn a_graph_left_out_is_told() {
    for script in [
        "true",
        "yes '1 2.0 1.0 1 2.0 1.0' | head -n 99",
        "yes '1 2.0 1.0 1 2.0' | head -n 100",
        "yes '1 2.0 1.0 1 2.0 1.0' | head -n 100; exit 1",
    ] {
        let (status, said) = measured(script);
        assert_eq!(status, Some(1), "{script}");
        assert_eq!(said, "sh: it did not solve every graph\n", "{script}");
    }
}
