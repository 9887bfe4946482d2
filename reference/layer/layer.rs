//! Tests the layer include/jangoripu.rs, by `rustc --test`: every refusal with its number, place and words, round trips, sheets that are
//! empty or out of range, groups, threads and a small stack.

#[path = "../../include/jangoripu.rs"]
mod jangoripu;

use jangoripu::*;
use std::thread;

const SHEET: &str = "%%MatrixMarket matrix coordinate integer general\n";
const ONE_SIDED: &str = "%%MatrixMarket matrix coordinate integer symmetric\n";
const NUMBERS: &str = "%%MatrixMarket matrix array integer general\n";
const PLAN: &str = "%%MatrixMarket matrix coordinate pattern general\n";

/// Three dams, two sires and four pairs, and limits of 1.
fn small() -> (Sheet, Vec<i32>) {
    let pairs = [(1, 1, 5), (2, 1, 4), (2, 2, 7), (3, 2, -1)];
    (Sheet::two_sided(3, 2, &pairs), vec![1; 5])
}

/// A triangle of families, and limits of 1.
fn triangle() -> (Sheet, Vec<i32>) {
    let pairs = [(2, 1, 1), (3, 1, 1), (3, 2, 1)];
    (Sheet::one_sided(3, &pairs), vec![1; 3])
}

/// Prices without groups, each the same.
fn flat(sheet: &Sheet, price: i32) -> Prices {
    Prices {
        fish: vec![price; sheet.fish() as usize],
        pairs: vec![price; sheet.pairs.len()],
        groups: vec![],
    }
}

fn plan(marks: &[u8]) -> Plan {
    Plan {
        marks: marks.to_vec(),
    }
}

fn group(fish: &[u32], pairs: &[u32], price: i32) -> Group {
    Group {
        fish: fish.to_vec(),
        pairs: pairs.to_vec(),
        price,
    }
}

fn refusal(number: u32, place: u64) -> Refusal {
    Refusal { number, place }
}

fn sheet_text(lines: &str) -> Result<(), Refusal> {
    read_sheet(format!("{SHEET}{lines}")).map(drop)
}

/// Measures the plan of pairs 1 and 3 of the small sheet, with prices of 14, or what they are altered to.
fn measured(alter: impl Fn(&mut Plan, &mut Prices)) -> Result<Measures, Refusal> {
    let (sheet, limits) = small();
    let (mut plan, mut prices) = (plan(&[1, 0, 1, 0]), flat(&sheet, 14));
    alter(&mut plan, &mut prices);
    measure(&sheet, &limits, &plan, &prices)
}

fn none<T>(answer: Result<T, Refusal>) -> Result<(), Refusal> {
    answer.map(drop)
}

/// What was answered to an input that is refused, by rising number of the refusal, with the place and the words.
fn refusals() -> Vec<(Result<(), Refusal>, u64, &'static str)> {
    let (sheet, limits) = small();
    let (families, family_limits) = triangle();
    let long = vec![b' '; calls::LONGEST_TEXT + 1];
    let plan_text = format!("{PLAN}3 3 0\n");
    let limits_text = format!("{NUMBERS}5 1\n1\n1\n1\n1\n65\n");
    let groups = [group(&[1], &[], 0), group(&[1, 2], &[], 0)];
    let mut index = build_index(&sheet).unwrap();
    index[13] = 3;
    vec![
        (none(read_sheet(long)), 0, "the text is too long"),
        (
            none(read_sheet("")),
            1,
            "the first line is absent, too long or no accepted header",
        ),
        (
            sheet_text(""),
            2,
            "the size line is absent, malformed or too long",
        ),
        (
            sheet_text("65 1 0\n"),
            2,
            "sizes out of range, or not the count that is needed",
        ),
        (
            sheet_text("1 2 2\n1 1 1\n1 2\n"),
            4,
            "a later line is malformed, too long, missing or surplus",
        ),
        (
            sheet_text("1 1 1\n2 1 1\n"),
            3,
            "an end out of range or on the wrong side",
        ),
        (
            sheet_text("1 1 1\n1 1 1000001\n"),
            3,
            "a merit out of range",
        ),
        (
            sheet_text("2 1 2\n1 1 1\n1 1 1\n"),
            4,
            "the same ends as an earlier pair",
        ),
        (
            none(solve(&sheet, &limits[1..])),
            0,
            "a list has a wrong length",
        ),
        (
            none(read_limits(limits_text, &sheet)),
            7,
            "a limit out of range",
        ),
        (
            none(measured(|plan, _| plan.marks[1] = 2)),
            2,
            "a mark is neither 0 nor 1",
        ),
        (
            none(measured(|plan, _| plan.marks[1] = 1)),
            2,
            "the plan uses this fish more often than its limit",
        ),
        (
            none(measured(|_, prices| prices.pairs[2] = -1)),
            8,
            "a price out of range",
        ),
        (
            none(measured(|_, prices| prices.groups = groups.to_vec())),
            2,
            "this group breaks a rule, or there are too many groups",
        ),
        (
            none(measured(|_, prices| {
                (prices.fish[1], prices.fish[4], prices.pairs[2]) = (4, 4, 4)
            })),
            3,
            "this pair is not covered by the prices",
        ),
        (
            none(solve(&families, &family_limits)),
            0,
            "a one-sided sheet cannot be solved or go out as a DIMACS assignment",
        ),
        (
            none(read_plan(plan_text, &sheet)),
            2,
            "the plan does not agree with the sheet",
        ),
        (
            none(solve_with_index(&sheet, &limits, &index)),
            14,
            "the index is not the sheet's",
        ),
        (
            none(to_dimacs(&sheet, &[1, 1, 1, 1, 2])),
            5,
            "this fish's limit is not 1",
        ),
        (
            none(from_dimacs("")),
            1,
            "a DIMACS line is malformed, too long, missing, surplus or out of turn",
        ),
        (
            none(from_dimacs("p asn 2 0\nn 2\n")),
            2,
            "the source nodes are not 1 up to their number in rising order",
        ),
        (
            none(price_tanks(&sheet, &limits)),
            0,
            "only a one-sided sheet of at most 64 families and 512 pairs is priced so",
        ),
    ]
}

#[test]
fn every_refusal_is_told_with_number_place_and_words() {
    let all = refusals();
    let numbers = (1..=21).chain([24]);
    assert_eq!(all.len(), numbers.clone().count());
    for ((answer, place, words), number) in all.into_iter().zip(numbers) {
        let told = answer.unwrap_err();
        assert_eq!(told, refusal(number, place), "{words}");
        assert_eq!(told.words(), words);
        let error: Box<dyn std::error::Error> = told.into();
        assert_eq!(
            error.to_string(),
            format!("refused {number} at {place}: {words}")
        );
    }
    assert_eq!(refusal(99, 0).words(), "see the manual");
}

/// What each refusal is made of by one alteration is not refused without it.
#[test]
fn the_right_ones_are_not_refused() {
    let (sheet, limits) = small();
    assert_eq!(sheet_text("1 2 2\n1 1 1\n1 2 1\n"), Ok(()));
    assert!(solve(&sheet, &limits).is_ok());
    let text = format!("{NUMBERS}5 1\n1\n1\n1\n1\n64\n");
    assert_eq!(read_limits(text, &sheet), Ok(vec![1, 1, 1, 1, 64]));
    assert!(measured(|_, _| {}).is_ok());
    assert!(measured(|_, prices| prices.groups = vec![group(&[1], &[], 0)]).is_ok());
    assert_eq!(
        read_plan(format!("{PLAN}3 2 0\n"), &sheet),
        Ok(plan(&[0; 4]))
    );
    assert!(to_dimacs(&sheet, &limits).is_ok());
    assert!(from_dimacs("p asn 2 0\nn 1\n").is_ok());
    let (families, limits) = triangle();
    assert!(price_tanks(&families, &limits).is_ok());
}

#[test]
fn a_sheet_is_read() {
    let text = format!("{SHEET}% a remark\n3 2 4\n1 1 5\n2 1 4\n2 2 7\n3 2 -1\n");
    assert_eq!(read_sheet(&text), Ok(small().0));
    assert_eq!(read_sheet(text.as_bytes()), Ok(small().0));
    assert_eq!(read_sheet(text.into_bytes()), Ok(small().0));
    let text = format!("{ONE_SIDED}3 3 3\n2 1 1\n3 1 1\n3 2 1\n");
    assert_eq!(read_sheet(text), Ok(triangle().0));
    assert_eq!((small().0.fish(), triangle().0.fish()), (5, 3));
}

#[test]
fn numbers_are_read() {
    let (sheet, _) = small();
    let text = format!("{NUMBERS}9 1\n9\n8\n7\n6\n5\n4\n3\n2\n1\n");
    let prices = read_prices(&text, &sheet).unwrap();
    assert_eq!(prices.fish, [9, 8, 7, 6, 5]);
    assert_eq!(prices.pairs, [4, 3, 2, 1]);
    assert_eq!(prices.groups, []);
    assert_eq!(read_limits(text, &sheet), Err(refusal(4, 2)));
    let text = format!("{NUMBERS}3 1\n0\n64\n2\n");
    assert_eq!(read_limits(text, &triangle().0), Ok(vec![0, 64, 2]));
}

#[test]
fn texts_go_round() {
    let (small, limits) = small();
    let mut turned = small.clone();
    turned.pairs.reverse();
    for sheet in [
        &small,
        &turned,
        &triangle().0,
        &Sheet::two_sided(64, 64, &[]),
    ] {
        let text = tidy(sheet).unwrap();
        let tidied = read_sheet(&text).unwrap();
        assert_eq!(tidy(&tidied).unwrap(), text);
        let mut pairs = sheet.pairs.clone();
        pairs.sort_by_key(|pair| (pair.row, pair.column));
        assert_eq!(tidied.pairs, pairs);
        assert_eq!(
            (tidied.one_sided, tidied.rows, tidied.columns),
            (sheet.one_sided, sheet.rows, sheet.columns)
        );
        for bits in 0..1u32 << sheet.pairs.len() {
            let marks = (0..sheet.pairs.len()).map(|at| (bits >> at & 1) as u8);
            let plan = Plan {
                marks: marks.collect(),
            };
            let text = write_plan(sheet, &plan).unwrap();
            assert_eq!(read_plan(text, sheet), Ok(plan));
        }
    }
    let text = to_dimacs(&turned, &limits).unwrap();
    assert!(
        text.starts_with("p asn 5 4\nn 1\nn 2\nn 3\na 3 5 1\n"),
        "{text}"
    );
    assert_eq!(from_dimacs(text), Ok((turned, limits)));
    assert_eq!(plan(&[1, 0, 0, 1]).chosen(), [1, 4]);
}

/// Numbers that look drawn; the same in every run.
struct Drawn(u64);

impl Drawn {
    fn below(&mut self, most: u64) -> u64 {
        self.0 = self
            .0
            .wrapping_mul(6364136223846793005)
            .wrapping_add(1442695040888963407);
        (self.0 >> 33) % most
    }

    /// A two-sided sheet of at most so many dams and sires, each pair with it half of the time; and limits up to 2.
    fn sheet(&mut self, side: u64, merit: u64) -> (Sheet, Vec<i32>) {
        let (rows, columns) = (1 + self.below(side) as u32, 1 + self.below(side) as u32);
        let mut pairs = Vec::new();
        for row in 1..=rows {
            for column in 1..=columns {
                let points = self.below(merit) as i32 - merit as i32 / 4;
                if self.below(2) == 0 {
                    pairs.push((row, column, points));
                }
            }
        }
        let limits = (0..rows + columns).map(|_| self.below(3) as i32);
        (Sheet::two_sided(rows, columns, &pairs), limits.collect())
    }

    /// A one-sided sheet of so many families and at most so many pairs, in any order; and limits up to 2.
    fn tank(&mut self, families: u32, most: usize, merit: u64) -> (Sheet, Vec<i32>) {
        let ends = (2..=families).flat_map(|row| (1..row).map(move |column| (row, column)));
        let mut ends: Vec<_> = ends.collect();
        let mut pairs = Vec::new();
        while pairs.len() < most && !ends.is_empty() {
            let (row, column) = ends.swap_remove(self.below(ends.len() as u64) as usize);
            pairs.push((row, column, self.below(merit) as i32 - merit as i32 / 4));
        }
        let limits = (0..families).map(|_| self.below(3) as i32);
        (Sheet::one_sided(families, &pairs), limits.collect())
    }
}

/// The two-sided sheet with every family of a one-sided one on both sides and each pair once in each direction, and its limits.
fn doubled(sheet: &Sheet, limits: &[i32]) -> (Sheet, Vec<i32>) {
    let turned = sheet.pairs.iter().map(|pair| Pair {
        row: pair.column,
        column: pair.row,
        ..*pair
    });
    let pairs = sheet.pairs.iter().copied().chain(turned).collect();
    let both = Sheet {
        one_sided: false,
        pairs,
        ..*sheet
    };
    (both, [limits, limits].concat())
}

/// The largest merit of a plan, by trying each.
fn largest(sheet: &Sheet, limits: &[i32], from: usize) -> i64 {
    let Some(pair) = sheet.pairs.get(from) else {
        return 0;
    };
    let mut best = largest(sheet, limits, from + 1);
    let before = if sheet.one_sided { 0 } else { sheet.rows };
    let ends = [pair.row as usize - 1, (before + pair.column) as usize - 1];
    if ends.iter().all(|&end| limits[end] > 0) {
        let mut limits = limits.to_vec();
        ends.iter().for_each(|&end| limits[end] -= 1);
        best = best.max(i64::from(pair.merit) + largest(sheet, &limits, from + 1));
    }
    best
}

#[test]
fn solutions_are_best() {
    let mut drawn = Drawn(7);
    for _ in 0..300 {
        let (sheet, limits) = drawn.sheet(4, 40);
        let solution = solve(&sheet, &limits).unwrap();
        let measures = measure(&sheet, &limits, &solution.plan, &solution.prices).unwrap();
        assert_eq!(solution.merit, largest(&sheet, &limits, 0));
        assert_eq!((measures.merit, measures.gap), (solution.merit, 0));
        assert!(measures.best());
        let index = build_index(&sheet).unwrap();
        assert_eq!(test_index(&sheet, &index), Ok(()));
        assert_eq!(solve_with_index(&sheet, &limits, &index), Ok(solution));
    }
}

/// A plan of no pairs against what a call prices: its total, and that every pair is covered and every price in range.
fn total(sheet: &Sheet, limits: &[i32]) -> i64 {
    let prices = price_tanks(sheet, limits).unwrap();
    assert!(prices.groups.is_empty());
    let all = prices.fish.iter().chain(&prices.pairs);
    assert!(all.copied().all(|price| (0..=2_000_000).contains(&price)));
    let nothing = plan(&vec![0; sheet.pairs.len()]);
    measure(sheet, limits, &nothing, &prices).unwrap().total
}

#[test]
fn tanks_are_priced() {
    let (families, limits) = triangle();
    assert_eq!(total(&families, &limits), 3);
    assert_eq!(total(&Sheet::one_sided(1, &[]), &[64]), 0);
    let mut drawn = Drawn(17);
    let mut odd = 0;
    for turn in 0..400 {
        let families = 2 + drawn.below(4) as u32;
        let (sheet, mut limits) = drawn.tank(families, 6, 8);
        if turn % 2 == 0 {
            limits.fill(1);
        }
        let (both, bounds) = doubled(&sheet, &limits);
        let (told, best) = (total(&sheet, &limits), largest(&sheet, &limits, 0));
        assert_eq!(told, largest(&both, &bounds, 0));
        assert!(told >= 2 * best);
        odd += u32::from(told > 2 * best);
    }
    assert!(odd > 10, "{odd}");
}

#[test]
fn tanks_of_every_size() {
    let mut drawn = Drawn(19);
    for (families, pairs) in [(64, 512), (33, 512), (64, 1), (64, 0), (1, 0)] {
        let (sheet, limits) = drawn.tank(families, pairs, 1_333_000);
        assert_eq!(sheet.pairs.len(), pairs);
        let (both, bounds) = doubled(&sheet, &limits);
        assert_eq!(total(&sheet, &limits), solve(&both, &bounds).unwrap().merit);
    }
    for (families, pairs) in [(65, 0), (65, 512), (128, 1024), (64, 513), (33, 513)] {
        let (sheet, mut limits) = drawn.tank(families, pairs, 40);
        assert_eq!(sheet.pairs.len(), pairs);
        assert_eq!(price_tanks(&sheet, &limits), Err(refusal(24, 0)));
        limits[7] = 65;
        assert_eq!(price_tanks(&sheet, &limits), Err(refusal(10, 8)));
    }
}

#[test]
fn a_plan_is_measured() {
    let expected = Measures {
        merit: 12,
        total: 126,
        fish: 14,
        groups: 0,
        pairs: 28,
        cover: 60,
        gap: 102,
    };
    assert_eq!(measured(|_, _| {}), Ok(expected));
    assert!(!expected.best());
    let (sheet, limits) = triangle();
    let mut halves = Prices {
        fish: vec![1; 3],
        pairs: vec![0; 3],
        groups: vec![],
    };
    let told = measure(&sheet, &limits, &plan(&[1, 0, 0]), &halves).unwrap();
    assert_eq!(
        (told.merit, told.total, told.gap, told.best()),
        (1, 3, 1, true)
    );
    halves.fish[2] = 2;
    let told = measure(&sheet, &limits, &plan(&[1, 0, 0]), &halves).unwrap();
    assert_eq!((told.gap, told.best()), (2, false));
    let grouped = Prices {
        fish: vec![0; 3],
        pairs: vec![0; 3],
        groups: vec![group(&[1, 2, 3], &[], 2)],
    };
    let told = measure(&sheet, &limits, &plan(&[1, 0, 0]), &grouped).unwrap();
    assert_eq!(
        (told.merit, told.total, told.gap, told.best()),
        (1, 2, 0, true)
    );
}

/// What every function answers to a sheet, with limits and an index of these lengths, and else what the sheet's pairs ask for.
fn answers(sheet: &Sheet, limits: &[i32], index: &[u32]) -> Vec<(&'static str, u32)> {
    let plan = Plan {
        marks: vec![0; sheet.pairs.len()],
    };
    let prices = Prices {
        fish: vec![0; limits.len()],
        pairs: vec![0; sheet.pairs.len()],
        groups: vec![],
    };
    fn number<T>(answer: Result<T, Refusal>) -> u32 {
        answer.map_or_else(|refusal| refusal.number, |_| 0)
    }
    vec![
        ("read_limits", number(read_limits("", sheet))),
        ("read_prices", number(read_prices("", sheet))),
        ("read_plan", number(read_plan("", sheet))),
        ("write_plan", number(write_plan(sheet, &plan))),
        ("tidy", number(tidy(sheet))),
        ("build_index", number(build_index(sheet))),
        ("test_index", number(test_index(sheet, index))),
        ("to_dimacs", number(to_dimacs(sheet, limits))),
        ("solve", number(solve(sheet, limits))),
        (
            "solve_with_index",
            number(solve_with_index(sheet, limits, index)),
        ),
        ("price_tanks", number(price_tanks(sheet, limits))),
        ("measure", number(measure(sheet, limits, &plan, &prices))),
    ]
}

/// Which functions do not answer so.
fn others(answers: &[(&'static str, u32)], number: u32) -> Vec<(&'static str, u32)> {
    answers
        .iter()
        .copied()
        .filter(|answer| answer.1 != number)
        .collect()
}

#[test]
fn sheets_without_pairs() {
    let sheet = Sheet::two_sided(1, 1, &[]);
    let solution = solve(&sheet, &[1, 1]).unwrap();
    assert_eq!((&solution.plan, solution.merit), (&plan(&[]), 0));
    assert_eq!(solution.prices, flat(&sheet, 0));
    assert_eq!(write_plan(&sheet, &plan(&[])), Ok(format!("{PLAN}1 1 0\n")));
    assert_eq!(build_index(&sheet), Ok(vec![0; 3]));
    let refused = [
        ("read_limits", 2),
        ("read_prices", 2),
        ("read_plan", 2),
        ("price_tanks", 24),
    ];
    assert_eq!(others(&answers(&sheet, &[1, 1], &[0; 3]), 0), refused);
    assert_eq!(others(&answers(&Sheet::default(), &[], &[0]), 4), []);
    assert_eq!(
        others(&answers(&Sheet::one_sided(0, &[]), &[], &[0]), 4),
        []
    );
}

/// A sheet that is out of range is refused, and nothing is made as large as it says.
#[test]
fn sheets_out_of_range() {
    let most = 4_000_000_000;
    let huge = [
        Sheet::two_sided(most, 1, &[]),
        Sheet::two_sided(1, most, &[(1, 1, 1)]),
        Sheet::two_sided(u32::MAX, u32::MAX, &[]),
        Sheet::one_sided(most, &[(2, 1, 1)]),
    ];
    for sheet in &huge {
        let told = answers(sheet, &[1, 1], &[0; 5]);
        let lengths = [
            "test_index",
            "to_dimacs",
            "solve",
            "solve_with_index",
            "price_tanks",
            "measure",
        ]
        .map(|name| (name, 9));
        assert_eq!(others(&told, 4), lengths, "{sheet:?}");
    }
    let many: Vec<_> = (0..2000).map(|at| (at % 64 + 1, at / 64 + 1, 1)).collect();
    for (rows, pairs) in [(65, 0), (64, 1025), (64, 2000), (1000, 2000)] {
        let sheet = Sheet::two_sided(rows, 64, &many[..pairs]);
        let fish = rows as usize + 64;
        let told = answers(&sheet, &vec![1; fish], &vec![0; fish + 1 + 2 * pairs]);
        let mut told = others(&told, 4);
        told.retain(|answer| !answer.0.starts_with("read_"));
        assert_eq!(told, [], "{rows} {pairs}");
    }
    let uneven = Sheet {
        columns: 2,
        ..triangle().0
    };
    assert_eq!(tidy(&uneven), Err(refusal(4, 0)));
    assert!(most_memory() < 8_000_000, "{} KiB", most_memory());
}

/// The most memory that was ever asked for, in KiB, touched or not.
fn most_memory() -> u64 {
    let status = std::fs::read_to_string("/proc/self/status").unwrap();
    let line = status.lines().find(|line| line.starts_with("VmPeak:"));
    let number = line.and_then(|line| line.split_whitespace().nth(1));
    number.unwrap().parse().unwrap()
}

#[test]
fn wrong_lengths_are_refused() {
    let (sheet, limits) = small();
    let length = Err(refusal(9, 0));
    let longer = [1; 6];
    for wrong in [&[], &longer[..4], &longer[..]] {
        assert_eq!(solve(&sheet, wrong).map(drop), length);
        assert_eq!(to_dimacs(&sheet, wrong).map(drop), length);
        assert_eq!(price_tanks(&triangle().0, wrong).map(drop), length);
        assert_eq!(
            measured(|_, prices| prices.fish = wrong.to_vec()).map(drop),
            length
        );
        let answer = measure(&sheet, wrong, &plan(&[0; 4]), &flat(&sheet, 14));
        assert_eq!(answer.map(drop), length);
    }
    for wrong in [0, 3, 5] {
        assert_eq!(
            measured(|plan, _| plan.marks.resize(wrong, 0)).map(drop),
            length
        );
        assert_eq!(
            measured(|_, prices| prices.pairs.resize(wrong, 0)).map(drop),
            length
        );
        assert_eq!(
            write_plan(&sheet, &plan(&[0; 5][..wrong])).map(drop),
            length
        );
    }
    for wrong in [0, 13, 15] {
        assert_eq!(test_index(&sheet, &vec![0; wrong]), length);
        assert_eq!(
            solve_with_index(&sheet, &limits, &vec![0; wrong]).map(drop),
            length
        );
    }
}

/// A group that names what the sheet does not have is refused at its place.
#[test]
fn groups_out_of_range_are_refused() {
    let right = group(&[1, 1], &[], 0);
    let far = [0, 5, 6, 64, 65, 128, 129, 1024, 1025, 1 << 31, u32::MAX];
    let fish = far
        .iter()
        .filter(|&&number| number != 5)
        .map(|&number| group(&[1, number], &[], 0));
    let pairs = far.iter().map(|&number| group(&[1, 2, 3], &[number], 0));
    for wrong in fish
        .chain(pairs)
        .chain([group(&[], &[], 0), group(&[], &[1], 0)])
    {
        for before in [0, 1, 15] {
            let mut groups = vec![right.clone(); before];
            groups.push(wrong.clone());
            let told = measured(|_, prices| prices.groups = groups.clone());
            assert_eq!(told, Err(refusal(14, before as u64 + 1)), "{wrong:?}");
        }
    }
    assert!(measured(|_, prices| prices.groups = vec![right.clone(); 16]).is_ok());
    for many in [17, 1000] {
        let told = measured(|_, prices| prices.groups = vec![right.clone(); many]);
        assert_eq!(told, Err(refusal(14, 17)));
    }
    let high = measured(|_, prices| prices.groups = vec![group(&[1], &[], -1)]);
    assert_eq!(high, Err(refusal(13, 10)));
}

/// The bits of the first and the last fish and pair, in every word.
#[test]
fn groups_on_the_largest_sheet() {
    let mut pairs = Vec::new();
    for row in 2..=128 {
        for column in 1..row {
            if (row > 100 || column == 1) && pairs.len() < 1023 {
                pairs.push((row, column, 0));
            }
        }
    }
    pairs.push((128, 127, 0));
    let sheet = Sheet::one_sided(128, &pairs);
    assert_eq!(sheet.pairs.len(), 1024);
    let (limits, empty) = (vec![1; 128], plan(&[0; 1024]));
    let total = |groups: Vec<Group>| {
        let prices = Prices {
            groups,
            ..flat(&sheet, 0)
        };
        measure(&sheet, &limits, &empty, &prices).map(|told| told.total)
    };
    assert_eq!(total(vec![group(&[1, 64, 65, 127, 128], &[], 10)]), Ok(20));
    assert_eq!(
        total(vec![group(&[1, 64, 65, 128], &[], 10)]),
        Err(refusal(14, 1))
    );
    assert_eq!(
        total(vec![group(&[127], &[], 10), group(&[1, 128], &[1024], 10)]),
        Ok(10)
    );
    // The first pairs are those of fish 1 with fish 2 to 99.
    let first: Vec<u32> = (1..=98).collect();
    assert_eq!(total(vec![group(&[1], &first, 2)]), Ok(2 * 49));
    assert_eq!(total(vec![group(&[2], &first, 2)]), Err(refusal(14, 1)));
    for number in 1..=1024 {
        let ends = sheet.pairs[number as usize - 1];
        let third = (5..)
            .find(|fish| ![ends.row, ends.column].contains(fish))
            .unwrap();
        assert_eq!(
            total(vec![group(&[ends.row, third], &[number], 10)]),
            Ok(10),
            "{number}"
        );
        assert_eq!(
            total(vec![group(&[ends.row, ends.column], &[number], 10)]),
            Err(refusal(14, 1))
        );
    }
}

/// Whatever is passed, a function returns.
#[test]
fn drawn_inputs_are_answered() {
    let mut drawn = Drawn(11);
    let (mut results, mut refused) = (0, 0);
    for _ in 0..3000 {
        let (mut sheet, mut limits) = drawn.sheet(6, 1_340_000);
        let wild = [0, 1, 63, 64, 65, 127, 128, 129, 1 << 31, u32::MAX];
        let odd = wild[drawn.below(10) as usize];
        let at = drawn.below(1 + sheet.pairs.len() as u64) as usize;
        match drawn.below(8) {
            0 => sheet.rows = odd,
            1 => sheet.columns = odd,
            2 => sheet.one_sided = true,
            3 => limits.resize(odd.min(300) as usize, 1),
            4 => sheet.pairs.insert(at, Pair::from((odd, 1, 1))),
            5 => sheet.pairs.insert(at, Pair::from((1, odd, odd as i32))),
            _ => {}
        }
        let mut marks: Vec<u8> = sheet
            .pairs
            .iter()
            .map(|_| drawn.below(20) as u8 / 18)
            .collect();
        let mut prices = flat(&sheet_of(limits.len(), &sheet), 4_000_000);
        match drawn.below(8) {
            0 => marks.resize(odd.min(300) as usize, 1),
            1 => prices.fish.push(odd as i32),
            2 => prices
                .pairs
                .iter_mut()
                .for_each(|price| *price = odd as i32),
            3 => {
                prices.groups =
                    vec![group(&[odd, 1, 2], &[odd], odd as i32); 1 + drawn.below(20) as usize]
            }
            _ => {}
        }
        let plan = Plan { marks };
        let text = tidy(&sheet);
        assert_eq!(text.is_ok(), build_index(&sheet).is_ok());
        assert!(text.is_ok() || write_plan(&sheet, &plan).is_err());
        let solved = solve(&sheet, &limits);
        let measured = measure(&sheet, &limits, &plan, &prices);
        let priced = price_tanks(&sheet, &limits);
        assert!(text.is_ok() || solved.is_err() && measured.is_err() && priced.is_err());
        assert!(solved.is_err() || priced == Err(refusal(24, 0)));
        if let (Ok(solution), Ok(measures)) = (&solved, &measured) {
            assert!(
                measures.merit <= solution.merit
                    && measures.gap >= 2 * (solution.merit - measures.merit)
            );
        }
        results += u32::from(solved.is_ok()) + u32::from(measured.is_ok());
        refused += u32::from(solved.is_err()) + u32::from(measured.is_err());
    }
    assert!(results > 500 && refused > 500, "{results} and {refused}");
}

/// A sheet with so many fish and the same number of pairs.
fn sheet_of(fish: usize, sheet: &Sheet) -> Sheet {
    Sheet {
        one_sided: true,
        rows: fish as u32,
        columns: fish as u32,
        pairs: sheet.pairs.clone(),
    }
}

/// The largest sheet, or nearly.
fn large() -> (Sheet, Vec<i32>) {
    let mut drawn = Drawn(3);
    let pairs: Vec<_> = (0..1024)
        .map(|at| (at % 64 + 1, at / 64 + 1, drawn.below(1000) as i32))
        .collect();
    (Sheet::two_sided(64, 64, &pairs), vec![3; 128])
}

#[test]
fn threads_solve_at_once() {
    let (sheet, limits) = large();
    let expected = solve(&sheet, &limits).unwrap();
    thread::scope(|scope| {
        let solved = || (0..5).all(|_| solve(&sheet, &limits).as_ref() == Ok(&expected));
        let threads: Vec<_> = (0..8).map(|_| scope.spawn(solved)).collect();
        for one in threads {
            assert!(one.join().unwrap());
        }
    });
}

#[test]
fn a_small_stack_is_enough() {
    let thread = thread::Builder::new().stack_size(calls::STACK + 32 * 1024);
    let ran = thread.spawn(|| {
        let (sheet, limits) = large();
        let solution = solve(&sheet, &limits).unwrap();
        let told = measure(&sheet, &limits, &solution.plan, &solution.prices);
        assert_eq!(told.unwrap().gap, 0);
        assert_eq!(
            read_plan(write_plan(&sheet, &solution.plan).unwrap(), &sheet),
            Ok(solution.plan)
        );
        assert_eq!(read_sheet(tidy(&sheet).unwrap()).unwrap().pairs.len(), 1024);
        let ones = vec![1; 128];
        assert_eq!(
            from_dimacs(to_dimacs(&sheet, &ones).unwrap()),
            Ok((sheet.clone(), ones))
        );
        assert_eq!(test_index(&sheet, &build_index(&sheet).unwrap()), Ok(()));
        let (tank, limits) = Drawn(5).tank(64, 512, 1000);
        assert!(price_tanks(&tank, &limits).is_ok());
    });
    ran.unwrap().join().unwrap();
}
