//! Texts of graphs, numbers and subgraphs, valid and damaged.

use crate::drawing::forms::{Form, Role};
use reference::{Graph, Kind, Random};

const SPECIAL: &[u8] = &[0, 9, 10, 13, 32, 37, 43, 45, 48, 57, 65, 97, 255];
const TOKENS: &[&str] = &[
    "0",
    "1",
    "2",
    "3",
    "63",
    "64",
    "65",
    "127",
    "128",
    "129",
    "1023",
    "1024",
    "1025",
    "1152",
    "1153",
    "1000000",
    "1000001",
    "-1000000",
    "-1000001",
    "2000000",
    "2000001",
    "4000000",
    "4000001",
    "-1",
    "-0",
    "+0",
    "+5",
    "-000",
    "000000001",
    "0000000001",
    "999999999",
    "1000000000",
    "-",
    "+",
    "--1",
    "1e3",
    "1.0",
    "x7",
    "%",
];

/// What a damaged text of a layout may get: words, and lines.
pub struct Stock {
    pub tokens: &'static [&'static str],
    pub comment: &'static str,
    /// A comment, but for the blank before it.
    pub no_comment: &'static str,
    /// A line that may be surplus.
    pub later: &'static str,
}

/// What Matrix Market texts may get.
const MATRIX_MARKET: Stock = Stock {
    tokens: TOKENS,
    comment: "% a comment",
    no_comment: " % no comment",
    later: "1 1 1",
};

const SYMMETRIC: &str = "symmetric";
const GENERAL: &str = "general";

/// Words with blanks between them, and perhaps after them, or around them.
pub fn spaced(random: &mut Random, words: &[String], leading: bool) -> Vec<u8> {
    let mut line = Vec::new();
    let blanks = |random: &mut Random, line: &mut Vec<u8>, least: u64| {
        let more = if random.below(8) == 0 {
            random.below(4)
        } else {
            0
        };
        for _ in 0..least + more {
            line.push(if random.below(6) == 0 { b'\t' } else { b' ' });
        }
    };
    if leading {
        blanks(random, &mut line, 0);
    }
    for (at, word) in words.iter().enumerate() {
        if at > 0 {
            blanks(random, &mut line, 1);
        }
        line.extend(word.as_bytes());
    }
    blanks(random, &mut line, 0);
    line
}

/// A header line; the words after the first in either case.
fn header(random: &mut Random, words: &str) -> Vec<u8> {
    let mut all = vec!["%%MatrixMarket".to_string()];
    for word in words.split(' ') {
        all.push(match random.below(5) {
            0 => word.to_uppercase(),
            1 => word
                .chars()
                .enumerate()
                .map(|(k, c)| {
                    if k % 2 == 0 {
                        c.to_ascii_uppercase()
                    } else {
                        c
                    }
                })
                .collect(),
            _ => word.to_string(),
        });
    }
    spaced(random, &all, false)
}

/// A number of a text.
#[derive(Clone, Copy, Debug)]
struct Cell {
    value: i64,
    role: Role,
    form: Form,
}

impl Cell {
    /// A number of at most nine digits in the one way.
    fn new(value: impl Into<i64>, role: Role) -> Cell {
        Cell {
            value: value.into().clamp(-999_999_999, 999_999_999),
            role,
            form: Form::Plain,
        }
    }
}

/// A text before it is written: the header's words after the first, and the numbers of the size line and of each later line.
#[derive(Clone, Debug)]
pub struct Draft {
    header: String,
    lines: Vec<Vec<Cell>>,
}

impl Draft {
    fn new(header: String, sizes: &[u32], later: impl Iterator<Item = Vec<Cell>>) -> Draft {
        let sizes = sizes.iter().map(|&size| Cell::new(size, Role::Size));
        let mut lines = vec![sizes.collect()];
        lines.extend(later);
        Draft { header, lines }
    }

    /// The text of a graph: valid for a right graph.
    pub fn of_graph(g: &Graph) -> Draft {
        let ends = g.row.iter().zip(g.column);
        let later = ends.zip(g.weight).map(|((&row, &column), &weight)| {
            vec![
                Cell::new(row, Role::Index),
                Cell::new(column, Role::Index),
                Cell::new(weight, Role::Signed),
            ]
        });
        let header = format!("matrix coordinate integer {}", last_word(g.kind));
        Draft::new(header, &[g.rows, g.columns, g.edges], later)
    }

    /// The text of bounds or prices: valid for numbers in range.
    pub fn of_numbers(numbers: &[i32]) -> Draft {
        let later = numbers
            .iter()
            .map(|&number| vec![Cell::new(number, Role::Signed)]);
        let header = "matrix array integer general".into();
        Draft::new(header, &[numbers.len() as u32, 1], later)
    }

    /// The text of a subgraph with this kind in its header: valid for a right graph of this kind and different edges of it.
    pub fn of_subgraph(kind: Kind, g: &Graph, chosen: &[usize]) -> Draft {
        let later = chosen.iter().map(|&e| {
            let column = g.column.get(e).copied().unwrap_or(1);
            vec![
                Cell::new(g.row[e], Role::Index),
                Cell::new(column, Role::Index),
            ]
        });
        let header = format!("matrix coordinate pattern {}", last_word(kind));
        Draft::new(header, &[g.rows, g.columns, chosen.len() as u32], later)
    }

    fn cells(&mut self) -> impl Iterator<Item = &mut Cell> {
        self.lines.iter_mut().flatten()
    }

    /// Any number of a role.
    fn any_cell(&mut self, random: &mut Random, role: Role) -> Option<&mut Cell> {
        let mut cells: Vec<_> = self.cells().filter(|cell| cell.role == role).collect();
        match cells.len() {
            0 => None,
            count => Some(cells.swap_remove(random.below(count as u64) as usize)),
        }
    }

    /// One number in so many gets another form that the old rules take.
    pub fn in_old_forms(mut self, random: &mut Random, one_in: u64) -> Draft {
        for cell in self.cells() {
            if random.below(one_in) == 0 {
                cell.form = Form::old(random, cell.value, cell.role);
            }
        }
        self
    }

    /// A number of a role gets a form; false if the text has none of this role.
    pub fn put(&mut self, random: &mut Random, role: Role, form: Form) -> bool {
        let cell = self.any_cell(random, role);
        cell.map(|cell| cell.form = form).is_some()
    }

    /// A number of a role gets another value; false if the text has none of this role.
    pub fn set(&mut self, random: &mut Random, role: Role, value: i64) -> bool {
        let cell = self.any_cell(random, role);
        cell.map(|cell| cell.value = value).is_some()
    }

    /// A later line gets the ends of another; nothing if there are not two.
    pub fn repeat_ends(&mut self, random: &mut Random) {
        let later = &mut self.lines[1..];
        if later.len() > 1 {
            let from = random.below(later.len() as u64 - 1) as usize;
            let ends = [later[from][0], later[from][1]];
            later[from + 1][..2].copy_from_slice(&ends);
        }
    }

    /// In one text of so many one to three numbers get any form.
    pub fn with_other_forms(mut self, random: &mut Random, one_in: u64) -> Draft {
        if random.below(one_in) == 0 {
            for _ in 0..1 + random.below(3) {
                let (role, form) = (random.pick(&Role::ALL), random.pick(&Form::ALL));
                self.put(random, role, form);
            }
        }
        self
    }

    /// The lines of the text: header, comments and blank lines, size line, later lines.
    pub fn lines(&self, random: &mut Random) -> Vec<Vec<u8>> {
        let mut lines = vec![header(random, &self.header)];
        for _ in 0..random.below(3) {
            lines.push(match random.below(4) {
                0 => b"% a comment".to_vec(),
                1 => b"%\t007 +7 -0  ".to_vec(),
                2 => b" \t ".to_vec(),
                _ => Vec::new(),
            });
        }
        for (at, line) in self.lines.iter().enumerate() {
            if at > 0 && random.below(12) == 0 {
                lines.push(random.pick(&[b"".as_slice(), b" \t"]).to_vec());
            }
            let words: Vec<_> = line
                .iter()
                .map(|cell| cell.form.write(random, cell.value))
                .collect();
            lines.push(spaced(random, &words, true));
        }
        if random.below(12) == 0 {
            lines.push(b"\t".to_vec());
        }
        lines
    }
}

/// The lines as one text; the last may lack its byte 10.
pub fn joined(random: &mut Random, lines: &[Vec<u8>]) -> Vec<u8> {
    let mut text = lines.join(&b'\n');
    if random.below(5) > 0 {
        text.push(b'\n');
    }
    text
}

fn damage_line(random: &mut Random, stock: &Stock, lines: &mut Vec<Vec<u8>>) {
    let at = random.below(lines.len() as u64) as usize;
    let other = random.below(lines.len() as u64) as usize;
    match random.below(9) {
        0 => drop(lines.remove(at)),
        1 => lines.insert(at, lines[other].clone()),
        2 => lines.swap(at, other),
        3 => lines.insert(at, Vec::new()),
        4 => lines.insert(at, stock.comment.into()),
        5 => lines.insert(at, stock.no_comment.into()),
        6 => lines.push(stock.later.into()),
        7 => lines.push(b"\t ".to_vec()),
        _ => lines.truncate(at),
    }
}

fn damage_token(random: &mut Random, stock: &Stock, line: &mut Vec<u8>) {
    let words: Vec<Vec<u8>> = line
        .split(|&b| b == b' ' || b == b'\t')
        .map(|w| w.to_vec())
        .collect();
    let mut words: Vec<_> = words.into_iter().filter(|w| !w.is_empty()).collect();
    let token = random.pick(stock.tokens).as_bytes().to_vec();
    if words.is_empty() {
        *line = token;
        return;
    }
    let at = random.below(words.len() as u64) as usize;
    match random.below(4) {
        0 => words.insert(at, token),
        1 => drop(words.remove(at)),
        _ => words[at] = token,
    }
    *line = words.join(&b' ');
}

/// Makes a line just as long as a line may be, or one byte longer.
fn stretch(random: &mut Random, line: &mut Vec<u8>) {
    let length = 1024 + random.below(2) as usize;
    let fill = random.pick(&[b' ', b'\t', b'x']);
    if line.len() < length {
        line.resize(length, fill);
    }
}

fn damage_byte(random: &mut Random, text: &mut Vec<u8>) {
    let byte = if random.below(4) == 0 {
        random.bits() as u8
    } else {
        random.pick(SPECIAL)
    };
    if text.is_empty() {
        text.push(byte);
        return;
    }
    let at = random.below(text.len() as u64) as usize;
    match random.below(3) {
        0 => text[at] = byte,
        1 => text.insert(at, byte),
        _ => drop(text.remove(at)),
    }
}

/// The text with blank lines after it until it has this length: empty ones, or long ones and then empty ones.
pub fn padded(random: &mut Random, mut text: Vec<u8>, length: usize) -> Vec<u8> {
    let fill = random.pick(&[b'\n', b' ']);
    if fill == b' ' {
        while text.len() + 1000 < length {
            text.push(b'\n');
            text.extend([b' '; 900]);
        }
    }
    if text.len() < length {
        text.resize(length, b'\n');
    }
    text
}

/// The Matrix Market text of some lines, damaged now and then.
pub fn damaged(random: &mut Random, lines: Vec<Vec<u8>>) -> Vec<u8> {
    damaged_with(random, &MATRIX_MARKET, lines)
}

/// The text of some lines, damaged now and then.
pub fn damaged_with(random: &mut Random, stock: &Stock, mut lines: Vec<Vec<u8>>) -> Vec<u8> {
    for _ in 0..random.below(3) {
        if lines.is_empty() {
            break;
        }
        let at = random.below(lines.len() as u64) as usize;
        match random.below(8) {
            0 | 1 => damage_line(random, stock, &mut lines),
            2 | 3 | 4 => damage_token(random, stock, &mut lines[at]),
            5 => stretch(random, &mut lines[at]),
            _ => {}
        }
    }
    let mut text = joined(random, &lines);
    if random.below(5) == 0 {
        damage_byte(random, &mut text);
    }
    if random.below(200) == 0 {
        let length = 32_768 + random.below(2) as usize;
        text = padded(random, text, length);
    }
    text
}

fn last_word(kind: Kind) -> &'static str {
    match kind {
        Kind::Bipartite => GENERAL,
        Kind::General => SYMMETRIC,
    }
}
