//! What a run of a program may not leave behind.

use compare::drawing::examples::example;
use compare::drawing::old_texts::OldText;
use compare::harness::files::{Entry, Folder};
use compare::harness::runs::{Printed, Program};
use compare::programs::dimacs_runs::{ComingIn, GoingOut};
use compare::programs::plan_runs::Run;
use compare::programs::price_runs::Pricing;
use compare::programs::rewrites::Rewriting;
use compare::programs::tidy_runs::Tidying;
use compare::programs::twice::Twice;

const PLAN: &str = "%%MatrixMarket matrix coordinate pattern general\n2 2 2\n1 2\n2 1\n";
const LINE: &str = "merit 6 total 16 fish 0 groups 0 pairs 0 cover 4 gap 4\n";

fn printed(out: &str) -> Printed {
    Printed {
        out: out.into(),
        err: Vec::new(),
        status: Some(0),
    }
}

/// Whether a program may print this in a folder.
fn may_print(program: Program, folder: &Folder, out: &str) -> bool {
    Run::new(program, folder).judge(&printed(out)).is_ok()
}

/// The worked example with another sheet and other limits.
fn with(pairs: &str, limits: &str) -> Folder {
    let sheet = format!("%%MatrixMarket matrix coordinate integer general\n{pairs}");
    let limits = format!("%%MatrixMarket matrix array integer general\n{limits}");
    let mut folder = example("examples/worked");
    folder.entries[0] = Entry::Text(sheet.into());
    folder.entries[1] = Entry::Text(limits.into());
    folder
}

#[test]
fn the_worked_example_may_be_printed() {
    let worked = example("examples/worked");
    assert!(may_print(Program::Solve, &worked, PLAN));
    assert!(may_print(Program::Mark, &worked, LINE));
}

#[test]
fn a_wrong_line_may_not() {
    let worked = example("examples/worked");
    for wrong in [
        LINE.replace("merit 6", "merit -6"),
        LINE.replace("merit 6", "merit 12"),
        LINE.replace("cover 4", "cover 2"),
        LINE.replace("gap 4", "gap 10"),
        "merit 6 total 8 fish 0 groups 0 pairs 0 cover 2 gap 2\n".into(),
        LINE.trim_end().to_string(),
        LINE.repeat(2),
        String::new(),
    ] {
        assert!(!may_print(Program::Mark, &worked, &wrong), "{wrong:?}");
    }
}

#[test]
fn a_wrong_plan_may_not() {
    let worked = example("examples/worked");
    for wrong in [
        PLAN.replace("1 2\n2 1\n", "1 1\n2 2\n"),
        PLAN.replace("1 2\n2 1\n", "2 1\n1 2\n"),
        PLAN.replace("2 2 2\n", "2 2 3\n1 1\n"),
        PLAN.replace("2 2 2\n1 2\n", "2 2 1\n"),
        PLAN.replace("2 2 2", "2  2 2"),
        PLAN.trim_end().to_string(),
        String::new(),
    ] {
        assert!(!may_print(Program::Solve, &worked, &wrong), "{wrong:?}");
    }
}

#[test]
fn any_of_several_best_plans_may() {
    let folder = with("1 2 2\n1 1 7\n1 2 7\n", "3 1\n1\n1\n1\n");
    let plan =
        |pair: &str| format!("%%MatrixMarket matrix coordinate pattern general\n1 2 1\n{pair}\n");
    assert!(may_print(Program::Solve, &folder, &plan("1 1")));
    assert!(may_print(Program::Solve, &folder, &plan("1 2")));
    assert!(!may_print(Program::Solve, &folder, &plan("1 3")));
}

#[test]
fn a_refusal_is_compared_byte_for_byte() {
    let folder = with("2 2 0\n", "4 1\n1\n1\n65\n1\n");
    for program in [Program::Solve, Program::Mark] {
        let line = "refused 10 at 5 in limits.mtx\n";
        assert!(may_print(program, &folder, line));
        for wrong in [
            "refused 10 at 5 in limits\n",
            "refused 10 at 5 in sheet.mtx\n",
            "refused 10 at 3 in limits.mtx\n",
            "refused 13 at 5 in limits.mtx\n",
            "refused 10 at 5 in limits.mtx",
        ] {
            assert!(!may_print(program, &folder, wrong), "{wrong:?}");
        }
    }
}

#[test]
fn a_long_file_is_refused_whatever_it_begins_with() {
    let mut folder = example("examples/worked");
    let mut text = folder.entries[0].text().unwrap().to_vec();
    text.resize(32_769, b'\n');
    folder.entries[0] = Entry::Text(text);
    let line = "refused 1 at 0 in sheet.mtx\n";
    assert!(may_print(Program::Solve, &folder, line));
    assert!(may_print(Program::Mark, &folder, line));
    assert!(!may_print(Program::Solve, &folder, PLAN));
    assert!(!may_print(Program::Mark, &folder, LINE));
}

#[test]
fn an_exit_status_and_standard_error_are_compared() {
    let worked = example("examples/worked");
    let run = Run::new(Program::Mark, &worked);
    let failed = Printed {
        status: Some(1),
        ..printed(LINE)
    };
    let ended = Printed {
        status: None,
        ..printed(LINE)
    };
    let spoke = Printed {
        err: b"a word".to_vec(),
        ..printed(LINE)
    };
    for left in [failed, ended, spoke] {
        assert!(run.judge(&left).is_err(), "{left:?}");
    }
}

/// Whether `rewrite` may print this for a text, and for what it printed this again.
fn may_rewrite(old: &str, out: &str, again: &str) -> bool {
    let old = OldText::new(old.into(), Entry::Text(old.into()));
    let rewriting = Rewriting::new(&old);
    rewriting.judge(&printed(out), &printed(again)).is_ok()
}

#[test]
fn only_numbers_may_be_rewritten() {
    let old = "%%MatrixMarket matrix Coordinate pattern general\n% 007\n02 2\t02 \n\n1 02\n2 1";
    let new = "%%MatrixMarket matrix Coordinate pattern general\n% 007\n2 2\t2 \n\n1 2\n2 1";
    assert!(may_rewrite(old, new, new));
    assert!(may_rewrite(new, new, new));
    for wrong in [
        old.to_string(),
        new.replace("% 007", "% 7"),
        new.replace("Coordinate", "coordinate"),
        new.replace('\t', " "),
        new.replace("2 \n", "2\n"),
        new.replace("\n\n", "\n"),
        new.replace("1 2\n2 1", "2 1\n1 2"),
        format!("{new}\n"),
        "cannot read\n".into(),
        String::new(),
    ] {
        assert!(!may_rewrite(old, &wrong, &wrong), "{wrong:?}");
        assert!(!may_rewrite(old, new, &wrong), "{wrong:?} again");
    }
}

/// A text of one price.
fn one_price(price: &str) -> String {
    format!("%%MatrixMarket matrix array integer general\n1 1\n{price}\n")
}

#[test]
fn what_the_old_rules_refuse_may_not_be_rewritten() {
    let line = "cannot read\n";
    for price in ["+2000001", "2000001", "4000000", "4000001"] {
        let old = one_price(price);
        assert!(may_rewrite(&old, line, line));
        let plain = one_price(price.trim_start_matches('+'));
        for wrong in [old.as_str(), plain.as_str(), "cannot read", ""] {
            assert!(!may_rewrite(&old, wrong, wrong), "{wrong:?}");
        }
    }
}

#[test]
fn prices_of_the_old_range_must_be_rewritten() {
    let (new, line) = (one_price("2000000"), "cannot read\n");
    for price in ["2000000", "+2000000", "002000000"] {
        let old = one_price(price);
        assert!(may_rewrite(&old, &new, &new), "{price}");
        assert!(!may_rewrite(&old, line, line), "{price}");
    }
}

/// Whether `tidy` may print this for a text, and for what it printed this again.
fn may_tidy(sheet: &str, out: &str, again: &str) -> bool {
    let sheet = (sheet.into(), Entry::Text(sheet.into()));
    let tidying = Tidying::new(&sheet);
    tidying.judge(&printed(out), &printed(again)).is_ok()
}

#[test]
fn only_the_tidy_text_may_be_written() {
    let header = "%%MatrixMarket matrix coordinate integer symmetric";
    let capital = header.replace("coordinate", "Coordinate");
    let untidy = &format!("{capital}\n% 3\n10 10  3\n10 2 0\n\n2 1 7\n10 1 -5");
    let tidy = &format!("{header}\n10 10 3\n2 1 7\n10 1 -5\n10 2 0\n");
    assert!(may_tidy(untidy, tidy, tidy));
    assert!(may_tidy(tidy, tidy, tidy));
    for wrong in [
        untidy.to_string(),
        tidy.replace("coordinate", "Coordinate"),
        tidy.replace("symmetric", "general"),
        tidy.replace("symmetric\n", "symmetric\n% 3\n"),
        tidy.replace("10 10 3", "10 10  3"),
        tidy.replace("10 10 3\n2 1 7", "10 10 2"),
        tidy.replace("2 1 7\n10 1 -5", "10 1 -5\n2 1 7"),
        tidy.replace("10 1 -5\n10 2 0", "10 2 0\n10 1 -5"),
        tidy.replace("10 1 -5\n10 2 0", "10 1 0\n10 2 -5"),
        tidy.replace("-5", "5"),
        tidy.replace("2 0\n", "2 -0\n"),
        tidy.replace(" 7\n", " 07\n"),
        tidy.trim_end().to_string(),
        format!("{tidy}\n"),
        format!("{tidy}\0"),
        "refused 5 at 6 in sheet.mtx\n".into(),
        String::new(),
    ] {
        assert!(!may_tidy(untidy, &wrong, tidy), "{wrong:?}");
        assert!(!may_tidy(untidy, tidy, &wrong), "{wrong:?} again");
    }
}

#[test]
fn what_is_no_sheet_may_not_be_tidied() {
    let sheet = "%%MatrixMarket matrix coordinate integer general\n2 2 2\n2 1 7\n2 1 7\n";
    let line = "refused 8 at 4 in sheet.mtx\n";
    let again = "refused 2 at 1 in sheet.mtx\n";
    assert!(may_tidy(sheet, line, again));
    for wrong in [
        sheet,
        "refused 8 at 2 in sheet.mtx\n",
        "refused 8 at 4 in input\n",
        "refused 8 at 4 in sheet.mtx",
        again,
        "",
    ] {
        assert!(!may_tidy(sheet, wrong, again), "{wrong:?}");
    }
    assert!(!may_tidy(sheet, line, line));
}

#[test]
fn an_exit_status_is_compared_in_both_runs() {
    let tidy = "%%MatrixMarket matrix coordinate integer general\n2 2 0\n";
    let sheet = ("a tidy sheet".into(), Entry::Text(tidy.into()));
    let tidying = Tidying::new(&sheet);
    let failed = Printed {
        status: Some(1),
        ..printed(tidy)
    };
    assert!(tidying.judge(&printed(tidy), &printed(tidy)).is_ok());
    assert!(tidying.judge(&failed, &printed(tidy)).is_err());
    assert!(tidying.judge(&printed(tidy), &failed).is_err());
}

/// Whether `to_dimacs` may print this in a folder, and `from_dimacs` this for what it printed.
fn may_go_out(folder: &Folder, out: &str, back: &str) -> bool {
    let run = GoingOut::new(folder);
    run.judge(&printed(out), &printed(back)).is_ok()
}

/// Whether `from_dimacs` may print this for a text, and `to_dimacs` this for what it printed.
fn may_come_in(crosses: &str, out: &str, back: &str) -> bool {
    let crosses = (crosses.into(), Entry::Text(crosses.into()));
    let run = ComingIn::new(&crosses);
    run.judge(&printed(out), &printed(back)).is_ok()
}

const SHEET: &str =
    "%%MatrixMarket matrix coordinate integer general\n2 2 3\n2 2 0\n1 1 7\n2 1 -5\n";
const CROSSES: &str = "p asn 4 3\nn 1\nn 2\na 2 4 0\na 1 3 -7\na 2 3 5\n";

#[test]
fn only_the_crosses_of_a_sheet_may_be_written() {
    let folder = with("2 2 3\n2 2 0\n1 1 7\n2 1 -5\n", "4 1\n1\n1\n1\n1\n");
    assert!(may_go_out(&folder, CROSSES, SHEET));
    for wrong in [
        CROSSES.replace("p asn 4 3", "p asn 2 3"),
        CROSSES.replace("p asn", "p  asn"),
        CROSSES.replace("n 2\n", ""),
        CROSSES.replace("a 2 4", "a 2 2"),
        CROSSES.replace("-7", "7"),
        CROSSES.replace(" 0\n", " -0\n"),
        CROSSES.replace("a 1 3 -7\na 2 3 5\n", "a 2 3 5\na 1 3 -7\n"),
        CROSSES.trim_end().to_string(),
        format!("c\n{CROSSES}"),
        format!("{CROSSES}\n"),
        "refused 19 at 1 in input\n".into(),
        String::new(),
    ] {
        assert!(!may_go_out(&folder, &wrong, SHEET), "{wrong:?}");
    }
    for wrong in [
        SHEET.replace("2 2 0\n1 1 7\n", "1 1 7\n2 2 0\n"),
        SHEET.replace("general", "symmetric"),
        SHEET.replace("-5", "5"),
        String::new(),
    ] {
        assert!(!may_go_out(&folder, CROSSES, &wrong), "{wrong:?}");
    }
}

#[test]
fn what_cannot_go_out_may_not() {
    let folder = with("2 2 0\n", "4 1\n1\n1\n2\n0\n");
    let line = "refused 19 at 3 in input\n";
    let back = "refused 20 at 1 in crosses.asn\n";
    assert!(may_go_out(&folder, line, back));
    for wrong in [
        "p asn 4 0\nn 1\nn 2\n",
        "refused 19 at 5 in limits.mtx\n",
        "refused 19 at 4 in input\n",
        "refused 10 at 3 in input\n",
        "",
    ] {
        assert!(!may_go_out(&folder, wrong, back), "{wrong:?}");
    }
}

#[test]
fn only_the_sheet_of_crosses_may_be_written() {
    let partner = format!("cat\n\n{}", CROSSES.replace(' ', "\t"));
    for crosses in [CROSSES, &partner] {
        assert!(may_come_in(crosses, SHEET, CROSSES));
        assert!(!may_come_in(crosses, SHEET, &partner));
        for wrong in [
            SHEET.replace("2 2 0\n1 1 7\n", "1 1 7\n2 2 0\n"),
            SHEET.replace("general", "symmetric"),
            SHEET.replace("general", "GENERAL"),
            SHEET.replace(" 7", " -7"),
            SHEET.replace("2 2 0", "2 4 0"),
            SHEET.replace("2 2 3\n", "4 3 3\n"),
            SHEET.trim_end().to_string(),
            String::new(),
        ] {
            assert!(!may_come_in(crosses, &wrong, CROSSES), "{wrong:?}");
        }
    }
    let line = "refused 21 at 2 in crosses.asn\n";
    let back = "refused 2 at 1 in sheet.mtx\n";
    assert!(may_come_in("p asn 4 0\nn 2\n", line, back));
    for wrong in [
        "refused 20 at 2 in crosses.asn\n",
        "refused 21 at 1 in crosses.asn\n",
        "refused 21 at 2 in input\n",
        SHEET,
    ] {
        assert!(!may_come_in("p asn 4 0\nn 2\n", wrong, back), "{wrong:?}");
    }
}

/// Whether `price_tanks` may print this in a folder, and `mark` this with what it printed.
fn may_price(folder: &Folder, out: &str, line: &str) -> bool {
    let run = Pricing::new(folder);
    run.judge(&printed(out), &printed(line)).is_ok()
}

/// A text of prices of three vertices and three edges.
fn six_prices(prices: [i32; 6]) -> String {
    let prices = prices.map(|price| format!("{price}\n")).concat();
    format!("%%MatrixMarket matrix array integer general\n6 1\n{prices}")
}

#[test]
fn only_prices_of_the_least_total_may_be_written() {
    let triangle = example("examples/triangle");
    let prices = &six_prices([1, 1, 1, 0, 0, 0]);
    let line = "merit 1 total 3 fish 1 groups 0 pairs 0 cover 0 gap 1\n";
    assert!(may_price(&triangle, prices, line));
    for wrong in [
        six_prices([2, 2, 0, 0, 0, 0]),
        six_prices([1, 1, 1, 0, 0, 1]),
        six_prices([1, 1, 0, 0, 0, 0]),
        six_prices([0, 0, 0, 1, 1, 1]),
        six_prices([2, 2, 2, -1, -1, -1]),
        prices.replace("6 1", "5 1"),
        prices.replace("6 1", "6  1"),
        prices.replace("6 1\n", "6 1\n\n"),
        prices.replace("6 1\n", "% three\n6 1\n"),
        prices.replace("array", "ARRAY"),
        prices.replace("1\n0\n", "1\n00\n"),
        prices.replace("1\n0\n", "1\n-0\n"),
        prices.replace("1\n0\n", "1\n0 \n"),
        format!("{prices}0\n"),
        format!("{prices}\n"),
        format!("{prices}\0"),
        prices.trim_end().to_string(),
        "refused 24 at 0 in input\n".into(),
        String::new(),
    ] {
        assert!(!may_price(&triangle, &wrong, line), "{wrong:?}");
    }
    for wrong in [
        line.replace("total 3", "total 4"),
        line.replace("gap 1", "gap 0"),
        line.replace("merit 1", "merit 2"),
        line.trim_end().to_string(),
        "refused 15 at 1 in input\n".into(),
        String::new(),
    ] {
        assert!(!may_price(&triangle, prices, &wrong), "{wrong:?}");
    }
}

#[test]
fn any_of_several_prices_may() {
    let mut folder = example("examples/triangle");
    let sheet = "%%MatrixMarket matrix coordinate integer symmetric\n3 3 3\n2 1 1\n3 1 0\n3 2 0\n";
    folder.entries[0] = Entry::Text(sheet.into());
    for prices in [
        [1, 1, 0, 0, 0, 0],
        [2, 0, 0, 0, 0, 0],
        [0, 2, 0, 0, 0, 0],
        [0, 0, 0, 2, 0, 0],
    ] {
        let line = "merit 1 total 2 fish 0 groups 0 pairs 0 cover 0 gap 0\n";
        assert!(may_price(&folder, &six_prices(prices), line), "{prices:?}");
    }
    for wrong in [[0, 0, 2, 0, 0, 0], [0, 0, 0, 0, 2, 0], [1, 0, 1, 0, 0, 0]] {
        let line = "refused 15 at 1 in input\n";
        assert!(!may_price(&folder, &six_prices(wrong), line), "{wrong:?}");
    }
}

#[test]
fn what_cannot_be_doubled_may_not_be_priced() {
    let line = "refused 24 at 0 in input\n";
    let again = "refused 2 at 1 in prices.mtx\n";
    let worked = example("examples/worked");
    assert!(may_price(&worked, line, again));
    for wrong in [
        "refused 16 at 0 in input\n",
        "refused 24 at 1 in input\n",
        "refused 24 at 0 in sheet.mtx\n",
        "refused 24 at 0 in input",
        "",
    ] {
        assert!(!may_price(&worked, wrong, again), "{wrong:?}");
    }
    assert!(!may_price(&worked, line, line));
    let absent = "refused 2 at 1 in limits.mtx\n";
    assert!(may_price(&example("examples/untidy"), absent, absent));
}
