//! What `solve`, `mark`, `tidy`, `to_dimacs`, `from_dimacs` and `price_tanks`
//! print.

mod common;
use common::*;
use reference::*;

const SHEET: &[u8] = b"%%MatrixMarket matrix coordinate integer general
2 2 4
1 1 5
1 2 4
2 1 4
2 2 1
";

const PLAN: &[u8] = b"%%MatrixMarket matrix coordinate pattern general
2 2 2
1 2
2 1
";

const LIMITS: &[u8] = b"%%MatrixMarket matrix array integer general
4 1
1
1
1
1
";

/// The files of case 3.
fn case_3(plan: &'static [u8], prices: &'static [u8]) -> Files<'static> {
    Files {
        graph: Some(SHEET),
        bounds: Some(LIMITS),
        subgraph: Some(plan),
        prices: Some(prices),
    }
}

const PLAN_1_4: &[u8] = b"%%MatrixMarket matrix coordinate pattern general
2 2 2
1 1
2 2
";

const PRICES: &[u8] = b"%%MatrixMarket matrix array integer general
8 1
4
2
6
4
0
0
0
0
";

fn solve_prints(files: &Files) -> String {
    String::from_utf8(solve_output(files)).unwrap()
}

fn mark_prints(files: &Files) -> String {
    String::from_utf8(mark_output(files)).unwrap()
}

/// What `tidy` prints for a text of sheet.mtx.
fn tidy_prints(sheet: &[u8]) -> Vec<u8> {
    let files = Files {
        graph: Some(sheet),
        ..Files::default()
    };
    tidy_output(&files)
}

#[test]
fn worked_example_of_solve() {
    let files = Files {
        graph: Some(SHEET),
        bounds: Some(LIMITS),
        ..Files::default()
    };
    assert_eq!(solve_output(&files), PLAN);
}

#[test]
fn worked_example_of_mark() {
    assert_eq!(
        mark_output(&case_3(PLAN_1_4, PRICES)),
        b"merit 6 total 16 fish 0 groups 0 pairs 0 cover 4 gap 4\n"
    );
    // The best plan with the same prices.
    assert_eq!(
        mark_output(&case_3(PLAN, PRICES)),
        b"merit 8 total 16 fish 0 groups 0 pairs 0 cover 0 gap 0\n"
    );
}

#[test]
fn a_general_graph_is_marked_and_not_solved() {
    // Case 7, with merits of -1 on the third pair to show a negative merit.
    let files = Files {
        graph: Some(
            b"%%MatrixMarket matrix coordinate integer symmetric\n3 3 3\n2 1 1\n3 1 1\n3 2 -1\n",
        ),
        bounds: Some(b"%%MatrixMarket matrix array integer general\n3 1\n1\n1\n1\n"),
        subgraph: Some(b"%%MatrixMarket matrix coordinate pattern symmetric\n3 3 1\n3 2\n"),
        prices: Some(b"%%MatrixMarket matrix array integer general\n6 1\n2\n2\n0\n0\n8\n0\n"),
    };
    // total 2 + 2 + 8; fish 1 has price 2 and is unused; pair 2 is not chosen;
    // pair 3 costs 2 and its merit of -1 is worth -2.
    assert_eq!(
        mark_prints(&files),
        "merit -1 total 12 fish 2 groups 0 pairs 8 cover 4 gap 14\n"
    );
    assert_eq!(solve_prints(&files), "refused 16 at 0 in input\n");
}

#[test]
fn absent_files_are_empty_texts() {
    let mut files = Files::default();
    let absent = |name: &str| format!("refused 2 at 1 in {name}\n");
    assert_eq!(solve_prints(&files), absent("sheet.mtx"));
    assert_eq!(mark_prints(&files), absent("sheet.mtx"));
    assert_eq!(tidy_output(&files), absent("sheet.mtx").as_bytes());
    files.graph = Some(SHEET);
    assert_eq!(tidy_output(&files), SHEET);
    assert_eq!(solve_prints(&files), absent("limits.mtx"));
    assert_eq!(mark_prints(&files), absent("limits.mtx"));
    files.bounds = Some(LIMITS);
    assert_eq!(solve_prints(&files).as_bytes(), PLAN);
    assert_eq!(mark_prints(&files), absent("plan.mtx"));
    files.subgraph = Some(PLAN);
    assert_eq!(mark_prints(&files), absent("prices.mtx"));
    files.prices = Some(b"");
    assert_eq!(mark_prints(&files), absent("prices.mtx"));
    files.prices = Some(PRICES);
    assert!(mark_prints(&files).ends_with(" gap 0\n"));
}

#[test]
fn refusals_are_printed_with_their_file() {
    let right = case_3(PLAN_1_4, PRICES);
    let long = vec![b' '; 32_769];
    let bounds = numbers("4 1\n1\n65\n1\n1\n");
    let prices = numbers("8 1\n4\n2\n6\n-1\n0\n0\n0\n0\n");
    let two_edges_of_1 = plan("general", "2 2 2\n1 1\n1 2\n");
    for (files, expected) in [
        (
            Files {
                graph: Some(&long),
                ..right
            },
            "refused 1 at 0 in sheet.mtx\n",
        ),
        (
            Files {
                bounds: Some(&bounds),
                prices: Some(&long),
                ..right
            },
            "refused 10 at 4 in limits.mtx\n",
        ),
        (
            Files {
                subgraph: Some(SHEET),
                prices: Some(&long),
                ..right
            },
            "refused 2 at 1 in plan.mtx\n",
        ),
        (
            // Read before the plan is found over a limit.
            Files {
                subgraph: Some(&two_edges_of_1),
                prices: Some(&prices),
                ..right
            },
            "refused 13 at 6 in prices.mtx\n",
        ),
        (
            Files {
                subgraph: Some(&two_edges_of_1),
                ..right
            },
            "refused 12 at 1 in input\n",
        ),
        (
            Files {
                prices: Some(LIMITS),
                ..right
            },
            "refused 4 at 2 in prices.mtx\n",
        ),
    ] {
        assert_eq!(mark_prints(&files), expected);
    }
    // Prices that leave pair 1 uncovered.
    let prices = numbers("8 1\n4\n2\n5\n4\n0\n0\n0\n0\n");
    let files = Files {
        prices: Some(&prices),
        ..right
    };
    assert_eq!(mark_prints(&files), "refused 15 at 1 in input\n");
    let files = Files {
        bounds: Some(&bounds),
        ..right
    };
    assert_eq!(solve_prints(&files), "refused 10 at 4 in limits.mtx\n");
}

#[test]
fn a_sheet_is_tidied() {
    let header = "%%MatrixMarket  MATRIX\tCoordinate integer General ";
    let untidy = format!("{header}\n% 2 2 9\n\n 2 2\t4 \n2 2 1\n \t\n1 2 4\n2 1  4\n1 1 5");
    assert_eq!(tidy_prints(untidy.as_bytes()), SHEET);
    assert_eq!(tidy_prints(SHEET), SHEET);
    let untidy = sheet("SYMMETRIC", "3 3 2\n3 1 0\n2 1 -7\n\n");
    let tidy = sheet("symmetric", "3 3 2\n2 1 -7\n3 1 0\n");
    assert_eq!(tidy_prints(&untidy), tidy);
    assert_eq!(tidy_prints(&tidy), tidy);
}

#[test]
fn what_is_no_sheet_is_not_tidied() {
    let long = vec![b' '; 32_769];
    let (empty, plan_text) = (&[][..], plan("general", "1 1 0\n"));
    let wrong = |lines: &str| sheet("general", lines);
    for (text, number, place) in [
        (&long[..], 1, 0),
        (empty, 2, 1),
        (&plan_text, 2, 1),
        (&wrong("2 02 0\n"), 3, 2),
        (&wrong("%\n65 2 0\n"), 4, 3),
        (&wrong("2 2 1\n\n1 1 +7\n"), 5, 4),
        (&wrong("2 2 2\n1 1 7\n"), 5, 4),
        (&wrong("2 2 0\n% no comment\n"), 5, 3),
        (&wrong("2 2 2\n2 1 7\n1 3 7\n"), 6, 4),
        (&wrong("2 2 2\n2 1 7\n1 1 1000001\n"), 7, 4),
        (&wrong("2 2 3\n2 1 7\n1 1 5\n2 1 7\n"), 8, 5),
    ] {
        let line = format!("refused {number} at {place} in sheet.mtx\n");
        assert_eq!(tidy_prints(text), line.as_bytes());
    }
}

/// The text that `to_dimacs` prints for the sheet above.
const CROSSES: &[u8] = b"p asn 4 4
n 1
n 2
a 1 3 -5
a 1 4 -4
a 2 3 -4
a 2 4 -1
";

fn to_dimacs_prints(sheet: &[u8], limits: &[u8]) -> String {
    let files = Files {
        graph: Some(sheet),
        bounds: Some(limits),
        ..Files::default()
    };
    String::from_utf8(to_dimacs_output(&files)).unwrap()
}

#[test]
fn a_sheet_goes_out_and_comes_back() {
    assert_eq!(to_dimacs_prints(SHEET, LIMITS).as_bytes(), CROSSES);
    assert_eq!(from_dimacs_output(CROSSES), SHEET);
    // In the order of the arcs.
    let sheet = sheet("general", "2 2 3\n2 2 0\n1 1 -7\n2 1 1000000\n");
    let crosses = "p asn 4 3\nn 1\nn 2\na 2 4 0\na 1 3 7\na 2 3 -1000000\n";
    assert_eq!(to_dimacs_prints(&sheet, LIMITS), crosses);
    assert_eq!(from_dimacs_output(crosses.as_bytes()), sheet);
}

#[test]
fn what_cannot_go_out_is_refused() {
    let one_sided = sheet("symmetric", "4 4 0\n");
    let wrong = sheet("general", "2 2 1\n1 3 5\n");
    let bounds = |lines: &str| numbers(&format!("4 1\n{lines}"));
    for (sheet, limits, line) in [
        (SHEET, &bounds("1\n1\n0\n1\n")[..], "19 at 3 in input"),
        (SHEET, &bounds("2\n64\n0\n1\n"), "19 at 1 in input"),
        (SHEET, &bounds("2\n1\n1\n65\n"), "10 at 6 in limits.mtx"),
        (SHEET, b"", "2 at 1 in limits.mtx"),
        (&one_sided, &bounds("1\n2\n1\n1\n"), "16 at 0 in input"),
        (&one_sided, LIMITS, "16 at 0 in input"),
        (&wrong, b"", "6 at 3 in sheet.mtx"),
        (b"", LIMITS, "2 at 1 in sheet.mtx"),
    ] {
        let line = format!("refused {line}\n");
        assert_eq!(to_dimacs_prints(sheet, limits), line);
    }
}

#[test]
fn what_cannot_come_in_is_refused() {
    let long = vec![b'\n'; 32_769];
    for (text, line) in [
        (&long[..], "1 at 0"),
        (b"", "20 at 1"),
        (b"c\np asn 2 0\nn 2\n", "21 at 3"),
        (b"c\np asn 2 0\n", "4 at 2"),
        (b"p asn 2 1\nn 1\na 2 1 0\n", "6 at 3"),
    ] {
        let line = format!("refused {line} in crosses.asn\n");
        assert_eq!(from_dimacs_output(text), line.as_bytes());
    }
}

/// What `price_tanks` prints for a sheet and limits.
fn price_tanks_prints(sheet: &[u8], limits: &[u8]) -> String {
    let files = Files {
        graph: Some(sheet),
        bounds: Some(limits),
        ..Files::default()
    };
    String::from_utf8(price_tanks_output(&files)).unwrap()
}

#[test]
fn a_tank_sheet_is_priced_and_marked() {
    // A pair of merit 0 costs nothing.
    let tank = sheet("symmetric", "2 2 1\n2 1 0\n");
    let limits = numbers("2 1\n1\n1\n");
    let expected = numbers("3 1\n0\n0\n0\n");
    let printed = price_tanks_prints(&tank, &limits);
    assert_eq!(printed.as_bytes(), expected);

    // Three families and all pairs of merit 1: three half points in all.
    let tank = sheet("symmetric", "3 3 3\n2 1 1\n3 1 1\n3 2 1\n");
    let limits = numbers("3 1\n1\n1\n1\n");
    let printed = price_tanks_prints(&tank, &limits);
    let start = "%%MatrixMarket matrix array integer general\n6 1\n";
    assert!(printed.starts_with(start) && printed.ends_with('\n'));
    assert_eq!(printed.lines().count(), 8);
    let plan = plan("symmetric", "3 3 1\n3 1\n");
    let files = Files {
        graph: Some(&tank),
        bounds: Some(&limits),
        subgraph: Some(&plan),
        prices: Some(printed.as_bytes()),
    };
    let line = mark_prints(&files);
    assert!(line.starts_with("merit 1 total 3 "), "{line}");
    assert!(line.ends_with(" gap 1\n"), "{line}");
}

#[test]
fn what_cannot_be_priced_is_refused() {
    let pairs = |families: u32, count: usize| {
        let all = (2..=families).flat_map(|row| (1..row).map(move |column| (row, column)));
        let lines = all
            .take(count)
            .map(|(row, column)| format!("{row} {column} 1\n"));
        let lines: String = lines.collect();
        sheet(
            "symmetric",
            &format!("{families} {families} {count}\n{lines}"),
        )
    };
    let limits = |count: usize| numbers(&format!("{count} 1\n{}", "1\n".repeat(count)));
    let long = vec![b' '; 32_769];
    for (sheet, limits, line) in [
        (SHEET, LIMITS, "24 at 0 in input"),
        (&pairs(65, 1), &limits(65), "24 at 0 in input"),
        (&pairs(64, 513), &limits(64), "24 at 0 in input"),
        (&pairs(65, 1), &limits(64), "4 at 2 in limits.mtx"),
        (
            &pairs(3, 1),
            &numbers("3 1\n1\n1\n65\n"),
            "10 at 5 in limits.mtx",
        ),
        (SHEET, b"", "2 at 1 in limits.mtx"),
        (b"", LIMITS, "2 at 1 in sheet.mtx"),
        (SHEET, &long, "1 at 0 in limits.mtx"),
        (&long, b"", "1 at 0 in sheet.mtx"),
    ] {
        let line = format!("refused {line}\n");
        assert_eq!(price_tanks_prints(sheet, limits), line);
    }
    // The most that is taken.
    let printed = price_tanks_prints(&pairs(64, 512), &limits(64));
    assert!(printed.starts_with("%%MatrixMarket matrix array integer general\n576 1\n"));
    assert_eq!(printed.lines().count(), 578);
}
