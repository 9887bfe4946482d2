//! The separately written program and the proved calls on the examples of the repository.

use compare::calls::assignments::Assigned;
use compare::calls::tidies::{read, tidy};
use compare::drawing::examples::{assignments, example, file, texts, PARTNER, TIDIED};
use compare::harness::files::{CROSSES, OLD};
use compare::harness::proved;
use reference::programs::Input;
use reference::rewrite::CANNOT_READ;
use reference::{from_dimacs_output, mark_output, price_tanks_output, rewrite};
use reference::{solve_output, tidy_output, to_dimacs_output};

fn solve(name: &str) -> String {
    String::from_utf8(solve_output(&example(name).lend())).unwrap()
}

fn mark(name: &str) -> String {
    String::from_utf8(mark_output(&example(name).lend())).unwrap()
}

#[test]
fn the_worked_example_is_solved_and_marked() {
    let plan = "%%MatrixMarket matrix coordinate pattern general\n2 2 2\n1 2\n2 1\n";
    assert_eq!(solve("examples/worked"), plan);
    assert_eq!(
        mark("examples/worked"),
        "merit 6 total 16 fish 0 groups 0 pairs 0 cover 4 gap 4\n"
    );
}

#[test]
fn the_season_and_the_walk_have_one_best_plan() {
    for (name, merit) in [("examples/season", 2_960), ("examples/walk", 32)] {
        let folder = example(name);
        let plan = folder.lend().subgraph.unwrap();
        assert_eq!(solve_output(&folder.lend()), plan, "{name}");
        let total = 2 * merit;
        let line = format!("merit {merit} total {total} fish 0 groups 0 pairs 0 cover 0 gap 0\n");
        assert_eq!(mark(name), line, "{name}");
    }
}

/// The lines of the manual that show the walk back stand in the code as they are.
#[test]
fn the_manual_shows_the_walk_of_the_code() {
    let text = |name: &str| {
        let root = concat!(env!("CARGO_MANIFEST_DIR"), "/../..");
        std::fs::read_to_string(format!("{root}/{name}")).unwrap()
    };
    let manual = text("docs/MANUAL.md");
    let from = manual.find("    let mut vertex = v;\n").unwrap();
    let shown = &manual[from..];
    let shown = &shown[..shown.find("\n\n").unwrap()];
    assert_eq!(shown.lines().count(), 11);
    assert!(text("crates/augment/src/lib.rt").contains(&format!("{{\n{shown}\n}}\n")));
}

#[test]
fn the_class_is_marked() {
    let lines = [
        (
            "best",
            "merit 2960 total 5920 fish 0 groups 0 pairs 0 cover 0 gap 0\n",
        ),
        (
            "falling-merit",
            "merit 2685 total 5920 fish 550 groups 0 pairs 0 cover 0 gap 550\n",
        ),
        ("over-limit", "refused 12 at 4 in input\n"),
        ("uncovered", "refused 15 at 1 in input\n"),
        ("damaged", "refused 5 at 7 in plan.mtx\n"),
    ];
    for (name, line) in lines {
        assert_eq!(mark(&format!("examples/class/{name}")), line, "{name}");
    }
}

#[test]
fn the_tank_has_gap_0_with_its_group_and_not_without() {
    let tank = example("examples/tank");
    let input = Input::read(&tank.lend()).unwrap();
    let g = input.graph();
    let mut plan = vec![0; g.edges as usize];
    proved::read_subgraph(tank.lend().subgraph.unwrap(), &g, &mut plan).unwrap();
    let edges = [0; 16];
    let group = proved::measure(
        &g,
        input.bound(),
        &plan,
        &[0, 0, 4, 8, 0],
        &[0; 5],
        1,
        &[20],
        &[7, 0],
        &edges,
    );
    let group = group.unwrap();
    assert_eq!((group.weight, group.total, group.gap), (16, 32, 0));
    let halves = proved::measure(
        &g,
        input.bound(),
        &plan,
        &[10, 10, 10, 8, 0],
        &[0; 5],
        0,
        &[],
        &[],
        &[],
    );
    assert_eq!(halves.unwrap().gap, 6);
    assert_eq!(solve("examples/tank"), "refused 16 at 0 in input\n");
}

/// The total of the prices of an example, and the gap of its plan against them, by the proved calls.
fn priced(name: &str) -> (i64, i64) {
    let folder = example(name);
    let input = Input::read(&folder.lend()).unwrap();
    let (g, bound) = (input.graph(), input.bound());
    let (mut vertex, mut edge) = (vec![9; bound.len()], vec![9; g.edges as usize]);
    proved::price_general(&g, bound, &mut vertex, &mut edge).unwrap();
    let mut plan = vec![0; g.edges as usize];
    proved::read_subgraph(folder.lend().subgraph.unwrap(), &g, &mut plan).unwrap();
    let told = proved::measure(&g, bound, &plan, &vertex, &edge, 0, &[], &[], &[]).unwrap();
    (told.total, told.gap)
}

#[test]
fn the_tank_and_the_triangle_are_priced_and_the_others_are_not() {
    assert_eq!(priced("examples/tank"), (38, 6));
    assert_eq!(priced("examples/triangle"), (3, 1));
    let output = |name| String::from_utf8(price_tanks_output(&example(name).lend())).unwrap();
    assert!(output("examples/tank").contains("\n10 1\n"));
    assert!(output("examples/triangle").ends_with("\n6 1\n1\n1\n1\n0\n0\n0\n"));
    for (name, line) in [
        ("examples/season", "refused 24 at 0 in input\n"),
        ("examples/untidy", "refused 2 at 1 in limits.mtx\n"),
    ] {
        assert_eq!(output(name), line, "{name}");
    }
}

#[test]
fn the_triangle_has_a_gap_of_half_a_point() {
    assert_eq!(
        mark("examples/triangle"),
        "merit 1 total 3 fish 1 groups 0 pairs 0 cover 0 gap 1\n"
    );
}

#[test]
fn an_absent_file_is_an_empty_text() {
    assert_eq!(solve("examples/nowhere"), "refused 2 at 1 in sheet.mtx\n");
}

#[test]
fn the_old_example_is_rewritten() {
    let old = file(&format!("examples/old/{OLD}"));
    let written = file("crates/rewrite/stdout");
    let (old, written) = (old.text().unwrap(), written.text().unwrap());
    assert_eq!(rewrite(old), written);
    assert_ne!(old, written);
    let mut out = ([0; 1024], [0; 1024], [0; 1024]);
    assert!(proved::read_graph(old, &mut out.0, &mut out.1, &mut out.2).is_err());
    assert!(proved::read_graph(written, &mut out.0, &mut out.1, &mut out.2).is_ok());
}

#[test]
fn the_other_examples_have_nothing_to_rewrite() {
    for (name, entry) in texts() {
        let text = entry.text().unwrap();
        let expected = match name.as_str() {
            "examples/class/damaged/plan.mtx" => CANNOT_READ,
            _ => text,
        };
        if !name.ends_with(OLD) {
            assert_eq!(rewrite(text), expected, "{name}");
        }
    }
}

#[test]
fn the_untidy_example_is_the_season_and_is_tidied() {
    let untidy = example("examples/untidy");
    let season = example("examples/season");
    let tidied = file(&format!("examples/untidy/{TIDIED}"));
    let tidied = tidied.text().unwrap();
    for folder in [&untidy, &season] {
        assert_ne!(folder.lend().graph, Some(tidied));
        assert_eq!(tidy_output(&folder.lend()), tidied);
        let lent = read(folder.lend().graph.unwrap()).unwrap();
        assert_eq!(tidy(&lent).unwrap(), tidied);
    }
    // With the untidy sheet the season's plan is read, but its prices are for another order of pairs.
    let mut folder = season;
    folder.entries[0] = untidy.entries[0].clone();
    assert_eq!(mark_output(&folder.lend()), b"refused 15 at 1 in input\n");
}

#[test]
fn the_crosses_go_out_and_come_in() {
    let dimacs = example("examples/dimacs");
    let [crosses, partner] =
        [CROSSES, PARTNER].map(|name| file(&format!("examples/dimacs/{name}")));
    let (crosses, partner) = (crosses.text().unwrap(), partner.text().unwrap());
    assert_ne!(crosses, partner);
    assert_eq!(to_dimacs_output(&dimacs.lend()), crosses);
    for text in [crosses, partner] {
        assert_eq!(Some(&from_dimacs_output(text)[..]), dimacs.lend().graph);
        assert_eq!(Assigned::read(text).unwrap().write().unwrap(), crosses);
    }
}

#[test]
fn of_the_other_sheets_only_those_with_limits_of_1_go_out() {
    assert_eq!(assignments().len(), 2);
    for (name, line) in [
        ("examples/season", "refused 19 at 2 in input\n"),
        ("examples/tank", "refused 16 at 0 in input\n"),
        ("examples/untidy", "refused 2 at 1 in limits.mtx\n"),
    ] {
        assert_eq!(to_dimacs_output(&example(name).lend()), line.as_bytes());
    }
    for name in ["examples/worked", "examples/walk"] {
        let out = to_dimacs_output(&example(name).lend());
        assert!(out.starts_with(b"p asn "), "{name}");
    }
}
