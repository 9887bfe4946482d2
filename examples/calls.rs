//! The calls from Rust, through jangoripu.rs: draws up the plan of the season, marks it against the season's prices, and measures the
//! tank's plan against prices with a group and against those that a call gives; builds and tests the index of both sheets; tidies the
//! untidy sheet; and takes a partner's crosses in, and out again. Run in this folder; what it writes is in calls.out, as with calls.c.

#[path = "../include/jangoripu.rs"]
mod jangoripu;

use jangoripu::{calls, Group, Measures, Plan, Prices, Refusal, Sheet};
use std::fs::File;
use std::io::Read;
use std::process::exit;

/// A text, at most one byte longer than a text may be; an empty one where there is no file.
fn load(path: &str) -> Vec<u8> {
    let mut text = Vec::new();
    let most = calls::LONGEST_TEXT as u64 + 1;
    let read = File::open(path).and_then(|file| file.take(most).read_to_end(&mut text));
    read.map_or(Vec::new(), |_| text)
}

/// The line of a refusal.
fn refused(refusal: Refusal, what: &str) {
    println!("refused {} at {} in {what}", refusal.number, refusal.place);
}

/// A result; ends the program where a call refused.
fn expect<T>(answer: Result<T, Refusal>, what: &str) -> T {
    answer.unwrap_or_else(|refusal| {
        refused(refusal, what);
        exit(1)
    })
}

fn sheet(path: &str) -> Sheet {
    expect(jangoripu::read_sheet(load(path)), path)
}

fn sheet_with_limits(path: &str, limits: &str) -> (Sheet, Vec<i32>) {
    let sheet = sheet(path);
    let limits = expect(jangoripu::read_limits(load(limits), &sheet), limits);
    (sheet, limits)
}

/// Builds the sheet's index, and tests it as it is and with its last number changed.
fn build_index(sheet: &Sheet) -> Vec<u32> {
    let index = expect(jangoripu::build_index(sheet), "input");
    expect(jangoripu::test_index(sheet, &index), "index");
    let mut changed = index.clone();
    if let Some(last) = changed.last_mut() {
        *last += 1;
    }
    if let Err(refusal) = jangoripu::test_index(sheet, &changed) {
        refused(refusal, "index");
    }
    index
}

/// Writes the pairs of a fish, as the sheet's index lists them.
fn write_pairs(sheet: &Sheet, index: &[u32], fish: usize) {
    let (offsets, pairs) = index.split_at(sheet.fish() as usize + 1);
    let pairs = &pairs[offsets[fish - 1] as usize..offsets[fish] as usize];
    let pairs: Vec<_> = pairs.iter().map(u32::to_string).collect();
    println!("fish {fish} is in pairs {}", pairs.join(" "));
}

fn measured(sheet: &Sheet, limits: &[i32], plan: &Plan, prices: &Prices) -> Measures {
    expect(jangoripu::measure(sheet, limits, plan, prices), "input")
}

fn mark(sheet: &Sheet, limits: &[i32], plan: &Plan, prices: &Prices) {
    let m = measured(sheet, limits, plan, prices);
    println!(
        "merit {} total {} fish {} groups {} pairs {} cover {} gap {}",
        m.merit, m.total, m.fish, m.groups, m.pairs, m.cover, m.gap
    );
}

fn season() {
    let (sheet, limits) = sheet_with_limits("season/sheet.mtx", "season/limits.mtx");
    let index = build_index(&sheet);
    write_pairs(&sheet, &index, 6);
    let solution = expect(
        jangoripu::solve_with_index(&sheet, &limits, &index),
        "input",
    );
    print!(
        "{}",
        expect(jangoripu::write_plan(&sheet, &solution.plan), "input")
    );
    let path = "season/prices.mtx";
    let prices = expect(jangoripu::read_prices(load(path), &sheet), path);
    mark(&sheet, &limits, &solution.plan, &prices);
}

/// Prices the sheet without groups. Which prices come out is free, but their total is not, and so neither is the plan's gap.
fn price(sheet: &Sheet, limits: &[i32], plan: &Plan) {
    let prices = expect(jangoripu::price_tanks(sheet, limits), "input");
    let m = measured(sheet, limits, plan, &prices);
    println!("priced: total {} gap {}", m.total, m.gap);
}

/// The prices and the group of tank/README.md.
fn tank() {
    let (sheet, limits) = sheet_with_limits("tank/sheet.mtx", "tank/limits.mtx");
    let index = build_index(&sheet);
    write_pairs(&sheet, &index, 3);
    let path = "tank/plan.mtx";
    let plan = expect(jangoripu::read_plan(load(path), &sheet), path);
    let group = Group {
        fish: vec![1, 2, 3],
        pairs: vec![],
        price: 20,
    };
    let prices = Prices {
        fish: vec![0, 0, 4, 8, 0],
        pairs: vec![0; 5],
        groups: vec![group],
    };
    mark(&sheet, &limits, &plan, &prices);
    price(&sheet, &limits, &plan);
}

/// Writes the tidy form of a sheet whose pairs stand in any order.
fn untidy() {
    print!(
        "{}",
        expect(jangoripu::tidy(&sheet("untidy/sheet.mtx")), "input")
    );
}

/// Reads the partner's crosses as a sheet with limits of 1, writes them as they are written here, and tries it with another limit.
fn crosses() {
    let path = "dimacs/partner.asn";
    let (sheet, mut limits) = expect(jangoripu::from_dimacs(load(path)), path);
    println!(
        "{} dams, {} sires, {} pairs",
        sheet.rows,
        sheet.columns,
        sheet.pairs.len()
    );
    print!("{}", expect(jangoripu::to_dimacs(&sheet, &limits), "input"));
    limits[6] = 2;
    if let Err(refusal) = jangoripu::to_dimacs(&sheet, &limits) {
        refused(refusal, "input");
    }
}

fn main() {
    season();
    tank();
    untidy();
    crosses();
}
