//! A safe layer over the calls of Jangoripu, in the users' words: sheets, limits, plans, prices and groups.
//!
//! Take this file into a program by `#[path = "PREFIX/include/jangoripu.rs"] mod jangoripu;`, or copy it beside the program and write
//! `mod jangoripu;`. It needs nothing but std, and rustc 1.82 or later with any edition from 2018 on. To build and link:
//!
//! - with the shared library: `rustc --edition 2021 -L PREFIX/lib -l jangoripu program.rs`
//! - with the static library: `rustc --edition 2021 -L PREFIX/lib -l static=jangoripu program.rs`
//!
//! Fish: on a two-sided sheet dam i is fish i and sire j is fish rows + j; on a one-sided sheet family i is fish i. Pairs are numbered in
//! the order of the sheet. Both count from 1, so fish v and pair e stand at `[v - 1]` and `[e - 1]` of their lists. Merits are in points;
//! prices, totals, leftovers and gaps are in half points.
//!
//! Every function hands what it is given to a proved call, whatever it is, and returns a result or the call's refusal; only counts that no
//! sheet has are refused before, as the call would (4 at place 0). No function keeps anything, so threads may call at once. A call needs at most `calls::STACK` bytes of stack; lists are on the heap.
#![allow(dead_code, unsafe_code)]

use std::error::Error;
use std::fmt;

/// The exported calls and the constants of jangoripu.h, which says what they ask for and tell. These names are the header's without the
/// prefix; the numbers of the refusals are constants of `Refusal`.
pub mod calls {
    /// What a call returns with a result.
    pub const OK: u32 = 0;

    /// Rows, and columns, of a two-sided sheet, from 1; families of a one-sided sheet that is priced.
    pub const MOST_SIDE: u32 = 64;
    /// Fish; families of a one-sided sheet.
    pub const MOST_VERTICES: usize = 128;
    /// Pairs; the length of a sheet or assignment reader's outputs of pairs.
    pub const MOST_EDGES: usize = 1024;
    /// Pairs of a one-sided sheet that is priced.
    pub const MOST_DOUBLED_EDGES: usize = 512;
    /// The length of an assignment reader's output of limits.
    pub const ASSIGNMENT_BOUNDS: usize = 128;
    /// Numbers in a text of limits or prices.
    pub const MOST_NUMBERS: usize = 1152;
    /// Numbers of an index: 128 + 1 + 2 * 1,024.
    pub const LONGEST_INDEX: usize = 2177;
    /// A merit is from -1,000,000 to 1,000,000 points.
    pub const GREATEST_WEIGHT: i32 = 1_000_000;
    /// A limit is from 0 to 64.
    pub const GREATEST_BOUND: i32 = 64;
    /// A price is from 0 to 4,000,000 half points, one that a call gives to 2,000,000.
    pub const GREATEST_PRICE: i32 = 4_000_000;
    /// Groups.
    pub const MOST_SETS: usize = 16;
    /// 64-bit words of a group that mark fish.
    pub const VERTEX_WORDS: usize = 2;
    /// 64-bit words of a group that mark pairs.
    pub const EDGE_WORDS: usize = 16;
    /// Bytes of a text.
    pub const LONGEST_TEXT: usize = 32768;
    /// Bytes of a line.
    pub const LONGEST_LINE: usize = 1024;
    /// The length of a plan writer's output.
    pub const SUBGRAPH_BYTES: usize = 16384;
    /// The length of a tidy sheet's output, and of an assignment writer's.
    pub const GRAPH_BYTES: usize = 32768;
    /// The length of the solver's workspace.
    pub const WORKSPACE_NUMBERS: usize = 4096;
    /// Bytes of stack that are enough for a call, as measured.
    pub const STACK: usize = 65536;

    /// Where a reader of sheets tells the place of a refusal.
    pub const GRAPH_PLACE: usize = 0;
    /// The kind: 0 two-sided, 1 one-sided.
    pub const GRAPH_KIND: usize = 1;
    /// The rows.
    pub const GRAPH_ROWS: usize = 2;
    /// The columns.
    pub const GRAPH_COLUMNS: usize = 3;
    /// The number of pairs.
    pub const GRAPH_EDGES: usize = 4;
    /// How many numbers a reader of sheets tells.
    pub const GRAPH_TOLD: usize = 5;
    /// Where a writer tells the place of a refusal.
    pub const TEXT_PLACE: usize = 0;
    /// The length of the text.
    pub const TEXT_BYTES: usize = 1;
    /// How many numbers a writer tells.
    pub const TEXT_TOLD: usize = 2;
    /// Where the measuring call tells the merit, in points.
    pub const MEASURED_WEIGHT: usize = 0;
    /// The prices' total, in half points as all that follows.
    pub const MEASURED_TOTAL: usize = 1;
    /// The leftover of fish.
    pub const MEASURED_VERTICES: usize = 2;
    /// The leftover of groups.
    pub const MEASURED_SETS: usize = 3;
    /// The leftover of pairs.
    pub const MEASURED_EDGES: usize = 4;
    /// The leftover of cover.
    pub const MEASURED_COVER: usize = 5;
    /// The gap.
    pub const MEASURED_GAP: usize = 6;
    /// How many numbers the measuring call tells.
    pub const MEASURED_TOLD: usize = 7;

    unsafe extern "C" {
        /// Reads a sheet.
        pub fn jangoripu_read_graph(
            text: *const u8,
            text_len: usize,
            row: *mut u32,
            row_len: usize,
            column: *mut u32,
            column_len: usize,
            weight: *mut i32,
            weight_len: usize,
            answer: *mut [u64; 5],
        ) -> u32;
        /// Reads limits or prices.
        pub fn jangoripu_read_numbers(
            text: *const u8,
            text_len: usize,
            prices: bool,
            count: u32,
            out: *mut i32,
            out_len: usize,
            place: *mut u64,
        ) -> u32;
        /// Reads a plan of a sheet.
        pub fn jangoripu_read_subgraph(
            text: *const u8,
            text_len: usize,
            general: bool,
            rows: u32,
            columns: u32,
            edges: u32,
            row: *const u32,
            row_len: usize,
            column: *const u32,
            column_len: usize,
            weight: *const i32,
            weight_len: usize,
            chosen: *mut u8,
            chosen_len: usize,
            place: *mut u64,
        ) -> u32;
        /// Writes a plan.
        pub fn jangoripu_write_subgraph(
            general: bool,
            rows: u32,
            columns: u32,
            edges: u32,
            row: *const u32,
            row_len: usize,
            column: *const u32,
            column_len: usize,
            weight: *const i32,
            weight_len: usize,
            chosen: *const u8,
            chosen_len: usize,
            out: *mut u8,
            out_len: usize,
            answer: *mut [u64; 2],
        ) -> u32;
        /// Writes a sheet in its tidy form.
        pub fn jangoripu_tidy_graph(
            general: bool,
            rows: u32,
            columns: u32,
            edges: u32,
            row: *const u32,
            row_len: usize,
            column: *const u32,
            column_len: usize,
            weight: *const i32,
            weight_len: usize,
            out: *mut u8,
            out_len: usize,
            answer: *mut [u64; 2],
        ) -> u32;
        /// Writes a two-sided sheet whose limits are all 1 as an assignment.
        pub fn jangoripu_write_assignment(
            general: bool,
            rows: u32,
            columns: u32,
            edges: u32,
            row: *const u32,
            row_len: usize,
            column: *const u32,
            column_len: usize,
            weight: *const i32,
            weight_len: usize,
            bound: *const i32,
            bound_len: usize,
            out: *mut u8,
            out_len: usize,
            answer: *mut [u64; 2],
        ) -> u32;
        /// Reads an assignment as a two-sided sheet and its limits.
        pub fn jangoripu_read_assignment(
            text: *const u8,
            text_len: usize,
            row: *mut u32,
            row_len: usize,
            column: *mut u32,
            column_len: usize,
            weight: *mut i32,
            weight_len: usize,
            bound: *mut i32,
            bound_len: usize,
            answer: *mut [u64; 5],
        ) -> u32;
        /// Builds the index of a sheet.
        pub fn jangoripu_build_index(
            general: bool,
            rows: u32,
            columns: u32,
            edges: u32,
            row: *const u32,
            row_len: usize,
            column: *const u32,
            column_len: usize,
            weight: *const i32,
            weight_len: usize,
            index: *mut u32,
            index_len: usize,
            place: *mut u64,
        ) -> u32;
        /// Tests whether an index is the sheet's.
        pub fn jangoripu_test_index(
            general: bool,
            rows: u32,
            columns: u32,
            edges: u32,
            row: *const u32,
            row_len: usize,
            column: *const u32,
            column_len: usize,
            weight: *const i32,
            weight_len: usize,
            index: *const u32,
            index_len: usize,
            place: *mut u64,
        ) -> u32;
        /// Solves a two-sided sheet.
        pub fn jangoripu_solve(
            general: bool,
            rows: u32,
            columns: u32,
            edges: u32,
            row: *const u32,
            row_len: usize,
            column: *const u32,
            column_len: usize,
            weight: *const i32,
            weight_len: usize,
            bound: *const i32,
            bound_len: usize,
            index: *const u32,
            index_len: usize,
            chosen: *mut u8,
            chosen_len: usize,
            vertex_price: *mut i32,
            vertex_price_len: usize,
            edge_price: *mut i32,
            edge_price_len: usize,
            workspace: *mut i32,
            workspace_len: usize,
            place: *mut u64,
        ) -> u32;
        /// Prices a one-sided sheet.
        pub fn jangoripu_price_general(
            general: bool,
            rows: u32,
            columns: u32,
            edges: u32,
            row: *const u32,
            row_len: usize,
            column: *const u32,
            column_len: usize,
            weight: *const i32,
            weight_len: usize,
            bound: *const i32,
            bound_len: usize,
            vertex_price: *mut i32,
            vertex_price_len: usize,
            edge_price: *mut i32,
            edge_price_len: usize,
            place: *mut u64,
        ) -> u32;
        /// Measures a plan against prices.
        pub fn jangoripu_measure(
            general: bool,
            rows: u32,
            columns: u32,
            edges: u32,
            row: *const u32,
            row_len: usize,
            column: *const u32,
            column_len: usize,
            weight: *const i32,
            weight_len: usize,
            bound: *const i32,
            bound_len: usize,
            chosen: *const u8,
            chosen_len: usize,
            vertex_price: *const i32,
            vertex_price_len: usize,
            edge_price: *const i32,
            edge_price_len: usize,
            sets: u32,
            set_price: *const i32,
            set_price_len: usize,
            set_vertices: *const u64,
            set_vertices_len: usize,
            set_edges: *const u64,
            set_edges_len: usize,
            numbers: *mut [i64; 7],
            place: *mut u64,
        ) -> u32;
    }
}

/// What a call refused: the number of the refusal, and its place: the line of a text, or the number of a pair, a fish, a price, a group or
/// an index's number, from 1; or 0.
#[derive(Debug, Clone, Copy, PartialEq, Eq, Hash)]
pub struct Refusal {
    /// One of the constants below.
    pub number: u32,
    /// Where it is wrong, or 0.
    pub place: u64,
}

impl Refusal {
    /// The text is too long; place 0.
    pub const TEXT_LENGTH: u32 = 1;
    /// The first line is absent, too long or no accepted header; place 1.
    pub const HEADER: u32 = 2;
    /// The size line is absent, malformed or too long; line.
    pub const SIZE_LINE: u32 = 3;
    /// Sizes out of range, or not the count asked for; line, or 0 for numbers that are passed.
    pub const SIZES: u32 = 4;
    /// A later line is malformed, too long, missing or surplus; line.
    pub const LATER_LINE: u32 = 5;
    /// An end out of range or on the wrong side; line or pair.
    pub const ENDS: u32 = 6;
    /// A merit out of range; line or pair.
    pub const WEIGHT: u32 = 7;
    /// The same ends as an earlier pair; the later line or pair.
    pub const SAME_ENDS: u32 = 8;
    /// A list has a wrong length; place 0.
    pub const LENT_LENGTH: u32 = 9;
    /// A limit out of range; line or fish.
    pub const BOUND: u32 = 10;
    /// A mark is neither 0 nor 1; pair.
    pub const MARK: u32 = 11;
    /// A fish is used more often than its limit; fish.
    pub const DEGREE: u32 = 12;
    /// A price out of range; line, or position in the prices of fish, then of pairs, then of groups.
    pub const PRICE: u32 = 13;
    /// A group breaks a rule, or there are too many; group, or 17.
    pub const ODD_SET: u32 = 14;
    /// A pair is not covered; pair.
    pub const UNCOVERED: u32 = 15;
    /// A one-sided sheet is to be solved or written as an assignment; place 0.
    pub const NOT_BIPARTITE: u32 = 16;
    /// A plan's kind, rows, columns or count disagree with the sheet, or its pair is not on it; line.
    pub const DISAGREEMENT: u32 = 17;
    /// The index is not the sheet's; position of the first number that differs.
    pub const INDEX: u32 = 18;
    /// A limit of an assignment is not 1; fish.
    pub const BOUND_NOT_ONE: u32 = 19;
    /// A line of an assignment is malformed, too long, missing, surplus or out of turn; line.
    pub const ASSIGNMENT_LINE: u32 = 20;
    /// An assignment's source nodes are not 1 up to their number in rising order; line of the first wrong one.
    pub const SOURCES: u32 = 21;
    /// A sheet to be priced is two-sided, or has over 64 families or over 512 pairs; place 0.
    pub const NOT_DOUBLED: u32 = 24;

    /// The refusal in words, without its place.
    pub fn words(&self) -> &'static str {
        match self.number {
            Refusal::TEXT_LENGTH => "the text is too long",
            Refusal::HEADER => "the first line is absent, too long or no accepted header",
            Refusal::SIZE_LINE => "the size line is absent, malformed or too long",
            Refusal::SIZES => "sizes out of range, or not the count that is needed",
            Refusal::LATER_LINE => "a later line is malformed, too long, missing or surplus",
            Refusal::ENDS => "an end out of range or on the wrong side",
            Refusal::WEIGHT => "a merit out of range",
            Refusal::SAME_ENDS => "the same ends as an earlier pair",
            Refusal::LENT_LENGTH => "a list has a wrong length",
            Refusal::BOUND => "a limit out of range",
            Refusal::MARK => "a mark is neither 0 nor 1",
            Refusal::DEGREE => "the plan uses this fish more often than its limit",
            Refusal::PRICE => "a price out of range",
            Refusal::ODD_SET => "this group breaks a rule, or there are too many groups",
            Refusal::UNCOVERED => "this pair is not covered by the prices",
            Refusal::NOT_BIPARTITE => {
                "a one-sided sheet cannot be solved or go out as a DIMACS assignment"
            }
            Refusal::DISAGREEMENT => "the plan does not agree with the sheet",
            Refusal::INDEX => "the index is not the sheet's",
            Refusal::BOUND_NOT_ONE => "this fish's limit is not 1",
            Refusal::ASSIGNMENT_LINE => {
                "a DIMACS line is malformed, too long, missing, surplus or out of turn"
            }
            Refusal::SOURCES => "the source nodes are not 1 up to their number in rising order",
            Refusal::NOT_DOUBLED => {
                "only a one-sided sheet of at most 64 families and 512 pairs is priced so"
            }
            _ => "see the manual",
        }
    }
}

impl fmt::Display for Refusal {
    fn fmt(&self, out: &mut fmt::Formatter<'_>) -> fmt::Result {
        let words = self.words();
        write!(out, "refused {} at {}: {}", self.number, self.place, words)
    }
}

impl Error for Refusal {}

/// A pair on a sheet: its row and column, from 1, and its merit in points. On a one-sided sheet the row is the greater family.
#[derive(Debug, Clone, Copy, PartialEq, Eq, Hash, Default)]
pub struct Pair {
    /// The dam, or the greater family.
    pub row: u32,
    /// The sire, or the smaller family.
    pub column: u32,
    /// In points, from -1,000,000 to 1,000,000.
    pub merit: i32,
}

/// A sheet: the dams are its rows and the sires its columns, or, if it is one-sided, rows and columns are both the number of families.
#[derive(Debug, Clone, PartialEq, Eq, Hash, Default)]
pub struct Sheet {
    /// Whether it is one-sided.
    pub one_sided: bool,
    /// Dams, 1 to 64; or families, 1 to 128.
    pub rows: u32,
    /// Sires, 1 to 64; or families.
    pub columns: u32,
    /// At most 1,024.
    pub pairs: Vec<Pair>,
}

/// A plan: a mark for each pair of the sheet, 1 if it is chosen and else 0.
#[derive(Debug, Clone, PartialEq, Eq, Hash, Default)]
pub struct Plan {
    /// One for each pair.
    pub marks: Vec<u8>,
}

/// A group with its price: an odd set of fish, and pairs with just one end in it.
#[derive(Debug, Clone, PartialEq, Eq, Hash, Default)]
pub struct Group {
    /// The numbers of its fish, from 1; one that is named twice counts once.
    pub fish: Vec<u32>,
    /// The numbers of its pairs, from 1; one that is named twice counts once.
    pub pairs: Vec<u32>,
    /// In half points.
    pub price: i32,
}

/// A price sheet, in half points.
#[derive(Debug, Clone, PartialEq, Eq, Hash, Default)]
pub struct Prices {
    /// One for each fish.
    pub fish: Vec<i32>,
    /// One for each pair.
    pub pairs: Vec<i32>,
    /// At most 16; prices that a call gives have none.
    pub groups: Vec<Group>,
}

/// What a plan and prices measure: the merit in points, the rest in half points.
#[derive(Debug, Clone, Copy, PartialEq, Eq, Hash, Default)]
pub struct Measures {
    /// The plan's merit, in points.
    pub merit: i64,
    /// The prices' total.
    pub total: i64,
    /// The leftover of fish.
    pub fish: i64,
    /// The leftover of groups.
    pub groups: i64,
    /// The leftover of pairs.
    pub pairs: i64,
    /// The leftover of cover.
    pub cover: i64,
    /// The total minus twice the merit, which is the leftovers added up.
    pub gap: i64,
}

/// A plan of largest merit, prices that prove it, and its merit in points.
#[derive(Debug, Clone, PartialEq, Eq, Hash, Default)]
pub struct Solution {
    /// No plan has more merit.
    pub plan: Plan,
    /// With these the plan has gap 0. They are even.
    pub prices: Prices,
    /// In points.
    pub merit: i64,
}

impl Sheet {
    /// A two-sided sheet of pairs (dam, sire, merit).
    pub fn two_sided(dams: u32, sires: u32, pairs: &[(u32, u32, i32)]) -> Sheet {
        let pairs = pairs.iter().map(|&pair| pair.into()).collect();
        Sheet {
            one_sided: false,
            rows: dams,
            columns: sires,
            pairs,
        }
    }

    /// A one-sided sheet of pairs (greater family, smaller family, merit).
    pub fn one_sided(families: u32, pairs: &[(u32, u32, i32)]) -> Sheet {
        Sheet {
            one_sided: true,
            ..Sheet::two_sided(families, families, pairs)
        }
    }

    /// The number of fish: dams and sires, or families.
    pub fn fish(&self) -> u64 {
        if self.one_sided {
            self.rows.into()
        } else {
            u64::from(self.rows) + u64::from(self.columns)
        }
    }

    fn numbers(&self) -> Numbers {
        Numbers {
            general: self.one_sided,
            rows: self.rows,
            columns: self.columns,
            edges: held(self.pairs.len()),
            row: self.pairs.iter().map(|pair| pair.row).collect(),
            column: self.pairs.iter().map(|pair| pair.column).collect(),
            weight: self.pairs.iter().map(|pair| pair.merit).collect(),
        }
    }
}

impl From<(u32, u32, i32)> for Pair {
    fn from((row, column, merit): (u32, u32, i32)) -> Pair {
        Pair { row, column, merit }
    }
}

impl Plan {
    /// The numbers of the chosen pairs, from 1.
    pub fn chosen(&self) -> Vec<usize> {
        let numbered = self.marks.iter().zip(1..);
        numbered
            .filter(|(mark, _)| **mark == 1)
            .map(|(_, number)| number)
            .collect()
    }
}

impl Measures {
    /// Whether the prices prove the plan best: a gap of 0 does, and a gap of 1.
    pub fn best(&self) -> bool {
        self.gap <= 1
    }
}

impl Group {
    /// The bits of its fish and of its pairs; no bit of a fish, which is refused, where it names one that no bit is for. Bits of what the
    /// sheet does not have are refused as well.
    fn bits(&self) -> ([u64; calls::VERTEX_WORDS], [u64; calls::EDGE_WORDS]) {
        let mut fish = [0; calls::VERTEX_WORDS];
        let mut pairs = [0; calls::EDGE_WORDS];
        if !set(&mut fish, &self.fish) || !set(&mut pairs, &self.pairs) {
            fish = [0; calls::VERTEX_WORDS];
        }
        (fish, pairs)
    }
}

/// Sets the bits of numbers from 1; false if one has no bit.
fn set(words: &mut [u64], numbers: &[u32]) -> bool {
    numbers.iter().all(|&number| {
        let at = (number as usize).wrapping_sub(1);
        match words.get_mut(at / 64) {
            Some(word) => {
                *word |= 1 << (at % 64);
                true
            }
            None => false,
        }
    })
}

/// How a sheet is refused whose sizes are out of range.
const OUT_OF_RANGE: Refusal = Refusal {
    number: Refusal::SIZES,
    place: 0,
};

/// A count, or the greatest that is held, which is out of range as well.
fn held(count: usize) -> u32 {
    if count < u32::MAX as usize {
        count as u32
    } else {
        u32::MAX
    }
}

/// A sheet's numbers as the calls take them.
struct Numbers {
    general: bool,
    rows: u32,
    columns: u32,
    edges: u32,
    row: Vec<u32>,
    column: Vec<u32>,
    weight: Vec<i32>,
}

/// Makes a call with some parameters, a sheet's numbers and then others.
///
/// SAFETY, here and where a call is made without a sheet: a call tests the numbers and the lengths that it is passed, whatever they are.
/// So it is enough that each pointer is a slice's, which is never null, followed by that slice's length, or points at the numbers told,
/// and that what is written is owned here, so that it overlaps nothing else.
macro_rules! call {
    ($call:ident, [$($before:expr),*], $numbers:expr, [$($after:expr),* $(,)?]) => {
        unsafe {
            calls::$call(
                $($before,)*
                $numbers.general,
                $numbers.rows,
                $numbers.columns,
                $numbers.edges,
                $numbers.row.as_ptr(),
                $numbers.row.len(),
                $numbers.column.as_ptr(),
                $numbers.column.len(),
                $numbers.weight.as_ptr(),
                $numbers.weight.len(),
                $($after),*
            )
        }
    };
}

fn answered(number: u32, place: u64) -> Result<(), Refusal> {
    match number {
        calls::OK => Ok(()),
        _ => Err(Refusal { number, place }),
    }
}

/// What a writer wrote.
fn written(
    number: u32,
    told: [u64; calls::TEXT_TOLD],
    mut out: Vec<u8>,
) -> Result<String, Refusal> {
    answered(number, told[calls::TEXT_PLACE])?;
    out.truncate(told[calls::TEXT_BYTES] as usize);
    Ok(String::from_utf8_lossy(&out).into_owned())
}

/// The outputs of a reader of sheets.
struct Read {
    row: Vec<u32>,
    column: Vec<u32>,
    weight: Vec<i32>,
    told: [u64; calls::GRAPH_TOLD],
}

impl Read {
    fn new() -> Read {
        Read {
            row: vec![0; calls::MOST_EDGES],
            column: vec![0; calls::MOST_EDGES],
            weight: vec![0; calls::MOST_EDGES],
            told: [0; calls::GRAPH_TOLD],
        }
    }

    fn sheet(&self, number: u32) -> Result<Sheet, Refusal> {
        answered(number, self.told[calls::GRAPH_PLACE])?;
        let ends = self.row.iter().zip(&self.column);
        let pairs = ends
            .zip(&self.weight)
            .take(self.told[calls::GRAPH_EDGES] as usize);
        let pairs = pairs.map(|((&row, &column), &merit)| Pair { row, column, merit });
        Ok(Sheet {
            one_sided: self.told[calls::GRAPH_KIND] == 1,
            rows: self.told[calls::GRAPH_ROWS] as u32,
            columns: self.told[calls::GRAPH_COLUMNS] as u32,
            pairs: pairs.collect(),
        })
    }
}

/// Reads a sheet.
pub fn read_sheet(text: impl AsRef<[u8]>) -> Result<Sheet, Refusal> {
    let text = text.as_ref();
    let mut read = Read::new();
    // SAFETY: as in `call!`.
    let number = unsafe {
        calls::jangoripu_read_graph(
            text.as_ptr(),
            text.len(),
            read.row.as_mut_ptr(),
            read.row.len(),
            read.column.as_mut_ptr(),
            read.column.len(),
            read.weight.as_mut_ptr(),
            read.weight.len(),
            &mut read.told,
        )
    };
    read.sheet(number)
}

/// Reads a DIMACS assignment as a two-sided sheet and its limits, which are 1.
pub fn from_dimacs(text: impl AsRef<[u8]>) -> Result<(Sheet, Vec<i32>), Refusal> {
    let text = text.as_ref();
    let mut read = Read::new();
    let mut limits = vec![0; calls::ASSIGNMENT_BOUNDS];
    // SAFETY: as in `call!`.
    let number = unsafe {
        calls::jangoripu_read_assignment(
            text.as_ptr(),
            text.len(),
            read.row.as_mut_ptr(),
            read.row.len(),
            read.column.as_mut_ptr(),
            read.column.len(),
            read.weight.as_mut_ptr(),
            read.weight.len(),
            limits.as_mut_ptr(),
            limits.len(),
            &mut read.told,
        )
    };
    let sheet = read.sheet(number)?;
    limits.truncate(sheet.fish() as usize);
    Ok((sheet, limits))
}

/// Reads so many limits or prices. More than any text has are refused as the call would.
fn read_numbers(text: &[u8], prices: bool, count: u64) -> Result<Vec<i32>, Refusal> {
    if count > calls::MOST_NUMBERS as u64 {
        return Err(OUT_OF_RANGE);
    }
    let mut out = vec![0; count as usize];
    let mut place = 0;
    // SAFETY: as in `call!`.
    let number = unsafe {
        calls::jangoripu_read_numbers(
            text.as_ptr(),
            text.len(),
            prices,
            count as u32,
            out.as_mut_ptr(),
            out.len(),
            &mut place,
        )
    };
    answered(number, place).map(|()| out)
}

/// Reads the sheet's limits: a number for each fish.
pub fn read_limits(text: impl AsRef<[u8]>, sheet: &Sheet) -> Result<Vec<i32>, Refusal> {
    read_numbers(text.as_ref(), false, sheet.fish())
}

/// Reads a price sheet of the sheet, which has no groups.
pub fn read_prices(text: impl AsRef<[u8]>, sheet: &Sheet) -> Result<Prices, Refusal> {
    let mut fish = read_numbers(text.as_ref(), true, sheet.fish() + sheet.pairs.len() as u64)?;
    let pairs = fish.split_off(sheet.fish() as usize);
    Ok(Prices {
        fish,
        pairs,
        groups: Vec::new(),
    })
}

/// Reads a plan of the sheet.
pub fn read_plan(text: impl AsRef<[u8]>, sheet: &Sheet) -> Result<Plan, Refusal> {
    let text = text.as_ref();
    let numbers = sheet.numbers();
    let mut marks = vec![0; sheet.pairs.len()];
    let mut place = 0;
    let number = call!(
        jangoripu_read_subgraph,
        [text.as_ptr(), text.len()],
        numbers,
        [marks.as_mut_ptr(), marks.len(), &mut place]
    );
    answered(number, place).map(|()| Plan { marks })
}

/// Writes a plan of the sheet.
pub fn write_plan(sheet: &Sheet, plan: &Plan) -> Result<String, Refusal> {
    let numbers = sheet.numbers();
    let marks = &plan.marks;
    let mut out = vec![0; calls::SUBGRAPH_BYTES];
    let mut told = [0; calls::TEXT_TOLD];
    let number = call!(
        jangoripu_write_subgraph,
        [],
        numbers,
        [
            marks.as_ptr(),
            marks.len(),
            out.as_mut_ptr(),
            out.len(),
            &mut told
        ]
    );
    written(number, told, out)
}

/// Writes the sheet in its tidy form.
pub fn tidy(sheet: &Sheet) -> Result<String, Refusal> {
    let numbers = sheet.numbers();
    let mut out = vec![0; calls::GRAPH_BYTES];
    let mut told = [0; calls::TEXT_TOLD];
    let number = call!(
        jangoripu_tidy_graph,
        [],
        numbers,
        [out.as_mut_ptr(), out.len(), &mut told]
    );
    written(number, told, out)
}

/// Writes a two-sided sheet whose limits are all 1 as a DIMACS assignment.
pub fn to_dimacs(sheet: &Sheet, limits: &[i32]) -> Result<String, Refusal> {
    let numbers = sheet.numbers();
    let mut out = vec![0; calls::GRAPH_BYTES];
    let mut told = [0; calls::TEXT_TOLD];
    let number = call!(
        jangoripu_write_assignment,
        [],
        numbers,
        [
            limits.as_ptr(),
            limits.len(),
            out.as_mut_ptr(),
            out.len(),
            &mut told
        ]
    );
    written(number, told, out)
}

/// Builds an index of this length.
fn index_of(numbers: &Numbers, length: usize) -> Result<Vec<u32>, Refusal> {
    let mut index = vec![0; length];
    let mut place = 0;
    let number = call!(
        jangoripu_build_index,
        [],
        numbers,
        [index.as_mut_ptr(), index.len(), &mut place]
    );
    answered(number, place).map(|()| index)
}

/// Builds the sheet's index, which lists the pairs of each fish: for n fish and m pairs n + 1 offsets and then 2m pair numbers; fish v has
/// those at `[n + 1 + index[v - 1]]` up to, not including, `[n + 1 + index[v]]`. Where it would be longer than any sheet's, the sheet is
/// out of range and refused so.
pub fn build_index(sheet: &Sheet) -> Result<Vec<u32>, Refusal> {
    let length = sheet.fish() + 1 + 2 * sheet.pairs.len() as u64;
    if length > calls::LONGEST_INDEX as u64 {
        return Err(OUT_OF_RANGE);
    }
    index_of(&sheet.numbers(), length as usize)
}

/// Tests whether an index is the sheet's.
pub fn test_index(sheet: &Sheet, index: &[u32]) -> Result<(), Refusal> {
    let numbers = sheet.numbers();
    let mut place = 0;
    let number = call!(
        jangoripu_test_index,
        [],
        numbers,
        [index.as_ptr(), index.len(), &mut place]
    );
    answered(number, place)
}

/// Solves a two-sided sheet: a plan of largest merit, prices that prove it, and its merit.
pub fn solve(sheet: &Sheet, limits: &[i32]) -> Result<Solution, Refusal> {
    // The index is as long as the limits say: if these are not one for each fish, that is refused. What is refused here, the solver
    // refuses too.
    let length = limits.len() + 1 + 2 * sheet.pairs.len();
    let index = index_of(&sheet.numbers(), length).unwrap_or_else(|_| vec![0; length]);
    solve_with_index(sheet, limits, &index)
}

/// Solves a two-sided sheet with its index, which is tested.
pub fn solve_with_index(sheet: &Sheet, limits: &[i32], index: &[u32]) -> Result<Solution, Refusal> {
    let numbers = sheet.numbers();
    let mut marks = vec![0; sheet.pairs.len()];
    let mut fish = vec![0; limits.len()];
    let mut pairs = vec![0; sheet.pairs.len()];
    let mut workspace = vec![0; calls::WORKSPACE_NUMBERS];
    let mut place = 0;
    let number = call!(
        jangoripu_solve,
        [],
        numbers,
        [
            limits.as_ptr(),
            limits.len(),
            index.as_ptr(),
            index.len(),
            marks.as_mut_ptr(),
            marks.len(),
            fish.as_mut_ptr(),
            fish.len(),
            pairs.as_mut_ptr(),
            pairs.len(),
            workspace.as_mut_ptr(),
            workspace.len(),
            &mut place
        ]
    );
    answered(number, place)?;
    let plan = Plan { marks };
    let prices = Prices {
        fish,
        pairs,
        groups: Vec::new(),
    };
    let merit = measure(sheet, limits, &plan, &prices)?.merit;
    Ok(Solution {
        plan,
        prices,
        merit,
    })
}

/// Prices a one-sided sheet of at most 64 families and 512 pairs, without groups: every pair is covered, and no valid plan has more merit than
/// half the total. A best plan can have a gap above 1 against them, where pairs form an odd ring.
pub fn price_tanks(sheet: &Sheet, limits: &[i32]) -> Result<Prices, Refusal> {
    let numbers = sheet.numbers();
    let mut prices = Prices {
        fish: vec![0; limits.len()],
        pairs: vec![0; sheet.pairs.len()],
        groups: Vec::new(),
    };
    let mut place = 0;
    let number = call!(
        jangoripu_price_general,
        [],
        numbers,
        [
            limits.as_ptr(),
            limits.len(),
            prices.fish.as_mut_ptr(),
            prices.fish.len(),
            prices.pairs.as_mut_ptr(),
            prices.pairs.len(),
            &mut place
        ]
    );
    answered(number, place).map(|()| prices)
}

/// Measures a plan against prices, on a sheet of either sort.
pub fn measure(
    sheet: &Sheet,
    limits: &[i32],
    plan: &Plan,
    prices: &Prices,
) -> Result<Measures, Refusal> {
    let numbers = sheet.numbers();
    let groups = &prices.groups;
    let group_prices: Vec<i32> = groups.iter().map(|group| group.price).collect();
    let mut of_fish = Vec::with_capacity(calls::VERTEX_WORDS * groups.len());
    let mut of_pairs = Vec::with_capacity(calls::EDGE_WORDS * groups.len());
    for group in groups {
        let (fish, pairs) = group.bits();
        of_fish.extend_from_slice(&fish);
        of_pairs.extend_from_slice(&pairs);
    }
    let mut told = [0; calls::MEASURED_TOLD];
    let mut place = 0;
    let number = call!(
        jangoripu_measure,
        [],
        numbers,
        [
            limits.as_ptr(),
            limits.len(),
            plan.marks.as_ptr(),
            plan.marks.len(),
            prices.fish.as_ptr(),
            prices.fish.len(),
            prices.pairs.as_ptr(),
            prices.pairs.len(),
            held(groups.len()),
            group_prices.as_ptr(),
            group_prices.len(),
            of_fish.as_ptr(),
            of_fish.len(),
            of_pairs.as_ptr(),
            of_pairs.len(),
            &mut told,
            &mut place
        ]
    );
    answered(number, place)?;
    Ok(Measures {
        merit: told[calls::MEASURED_WEIGHT],
        total: told[calls::MEASURED_TOTAL],
        fish: told[calls::MEASURED_VERTICES],
        groups: told[calls::MEASURED_SETS],
        pairs: told[calls::MEASURED_EDGES],
        cover: told[calls::MEASURED_COVER],
        gap: told[calls::MEASURED_GAP],
    })
}
