//! Texts of assignments: right ones, damaged ones, and ones with a single flaw that leads to what is known.

use crate::drawing::forms::{Form, Role};
use crate::drawing::graphs::Lent;
use crate::drawing::texts::{damaged_with, joined, padded, spaced, Stock};
use reference::{Graph, Kind, Random};

/// What damaged texts may get.
const STOCK: Stock = Stock {
    tokens: &[
        "p",
        "asn",
        "n",
        "a",
        "c",
        "P",
        "ASN",
        "N",
        "A",
        "C",
        "cat",
        "0",
        "1",
        "2",
        "3",
        "4",
        "5",
        "6",
        "7",
        "64",
        "65",
        "66",
        "128",
        "129",
        "1024",
        "1025",
        "1000000",
        "1000001",
        "-1000000",
        "-1000001",
        "-1",
        "-0",
        "+5",
        "07",
        "999999999",
        "1000000000",
        "x",
        "%",
    ],
    comment: "cat 1 2",
    no_comment: " c no comment",
    later: "a 1 4 1",
};

/// A text before it is written: the words of its lines that are no comments and not blank.
#[derive(Clone, Debug)]
pub struct Draft {
    lines: Vec<Vec<String>>,
}

fn line(words: &str) -> Vec<String> {
    words.split(' ').map(String::from).collect()
}

fn source(node: usize) -> Vec<String> {
    line(&format!("n {node}"))
}

impl Draft {
    /// The text of a bipartite graph, right for a right one.
    pub fn of(g: &Graph) -> Draft {
        let nodes = g.vertices();
        let mut lines = vec![line(&format!("p asn {nodes} {}", g.edges))];
        lines.extend((1..=g.rows as usize).map(source));
        let ends = g.row.iter().zip(g.column);
        lines.extend(ends.zip(g.weight).map(|((row, column), weight)| {
            let (target, cost) = (g.rows + column, -weight);
            line(&format!("a {row} {target} {cost}"))
        }));
        Draft { lines }
    }

    /// The text of a right graph of at least 2 rows, columns and edges, and of fewer than the most: mostly small.
    pub fn any(random: &mut Random) -> Draft {
        let (side, edges) = random.pick(&[(4, 11), (4, 11), (4, 11), (4, 11), (59, 400)]);
        let (rows, columns) = (2 + random.below(side) as u32, 2 + random.below(side) as u32);
        let most = 2 + random.below(edges) as usize;
        Draft::sized(random, rows, columns, most)
    }

    /// The text of a right graph of these sizes.
    fn sized(random: &mut Random, rows: u32, columns: u32, most: usize) -> Draft {
        Draft::of(&Lent::right(random, Kind::Bipartite, rows, columns, most).lend())
    }

    /// Where the lines stand that begin with a word.
    fn places(&self, word: &str) -> Vec<usize> {
        let places = 0..self.lines.len();
        places.filter(|&at| self.lines[at][0] == word).collect()
    }

    /// Where some line stands that begins with a word.
    fn place(&self, random: &mut Random, word: &str) -> usize {
        random.pick(&self.places(word))
    }

    /// How many lines begin with a word.
    fn count(&self, word: &str) -> usize {
        self.places(word).len()
    }

    /// The number that a word of a line is.
    fn number(&self, at: usize, word: usize) -> usize {
        self.lines[at][word].parse().expect("a number")
    }

    /// The count of nodes in the `p` line.
    fn nodes(&self) -> usize {
        self.number(0, 2)
    }

    fn set(&mut self, at: usize, word: usize, value: impl ToString) {
        self.lines[at][word] = value.to_string();
    }

    /// The sizes become bad: no column is left, or there are too many columns or arcs.
    fn spoil_sizes(&mut self, random: &mut Random) {
        let rows = self.count("n");
        match random.below(3) {
            0 => self.set(0, 2, rows),
            1 => self.set(0, 2, rows + 65 + random.below(1000) as usize),
            _ => self.set(0, 3, 1025 + random.below(1000)),
        }
    }

    /// Lines of source nodes are added after the last, in turn, up to this count.
    fn add_sources(&mut self, count: usize) {
        let next = self.count("n") + 1;
        self.lines.splice(next..next, (next..=count).map(source));
    }

    /// A number of a role gets a form.
    pub fn put(&mut self, random: &mut Random, role: Role, form: Form) {
        let (at, word) = match role {
            Role::Size => (0, 2 + random.below(2) as usize),
            Role::Index if random.below(2) == 0 => (self.place(random, "n"), 1),
            Role::Index => (self.place(random, "a"), 1 + random.below(2) as usize),
            Role::Signed => (self.place(random, "a"), 3),
        };
        let value = self.lines[at][word].parse().expect("a number");
        self.lines[at][word] = form.write(random, value);
    }

    /// The lines as they are written, with comments and blank lines anywhere.
    pub fn lines(&self, random: &mut Random) -> Vec<Vec<u8>> {
        let mut lines = Vec::new();
        let one_in = random.pick(&[4, 12, 100]);
        for words in &self.lines {
            while random.below(one_in) == 0 {
                lines.push(between(random));
            }
            lines.push(spaced(random, words, false));
        }
        while random.below(one_in) == 0 {
            lines.push(between(random));
        }
        lines
    }

    /// The text, perhaps without its last byte 10.
    pub fn text(&self, random: &mut Random) -> Vec<u8> {
        let lines = self.lines(random);
        joined(random, &lines)
    }

    /// The text, damaged now and then, with numbers in other forms now and then.
    pub fn damaged_text(mut self, random: &mut Random) -> Vec<u8> {
        if random.below(12) == 0 && self.count("a") > 0 {
            let (role, form) = (random.pick(&Role::ALL), random.pick(&Form::ALL));
            self.put(random, role, form);
        }
        let lines = self.lines(random);
        damaged_with(random, &STOCK, lines)
    }
}

/// A comment or a blank line.
fn between(random: &mut Random) -> Vec<u8> {
    let lines: [&[u8]; 7] = [
        b"",
        b" \t ",
        b"c",
        b"c a comment",
        b"cat",
        b"c\tp asn 1 1 \r",
        b"c +7 \xff\0",
    ];
    random.pick(&lines).to_vec()
}

/// Where some line stands that begins with one of these bytes.
fn place_of(random: &mut Random, lines: &[Vec<u8>], first: &[u8]) -> usize {
    let is_such = |at: &usize| lines[*at].first().is_some_and(|byte| first.contains(byte));
    let places: Vec<_> = (0..lines.len()).filter(is_such).collect();
    random.pick(&places)
}

/// Some line that begins with `p`, `n` or `a`.
fn any_line<'a>(random: &mut Random, lines: &'a mut [Vec<u8>]) -> &'a mut Vec<u8> {
    let first = random.pick(&[b"p", b"n", b"a"]);
    let at = place_of(random, lines, first);
    &mut lines[at]
}

/// Puts a line anywhere.
fn insert(random: &mut Random, lines: &mut Vec<Vec<u8>>, line: &[u8]) {
    let at = random.below(lines.len() as u64 + 1) as usize;
    lines.insert(at, line.to_vec());
}

/// Some line gets this length by blanks after it.
fn stretch(random: &mut Random, lines: &mut [Vec<u8>], length: usize) {
    let blank = random.pick(b" \t");
    any_line(random, lines).resize(length, blank);
}

/// A flaw, or something that is none.
pub struct Flaw {
    pub words: &'static str,
    /// What texts with it lead to: the numbers of refusals, or 0 for a result.
    pub leads_to: &'static [u32],
    change: Change,
}

/// What is done to a text.
enum Change {
    /// To the words of a draft.
    Draft(fn(&mut Random, &mut Draft)),
    /// To its lines as they are written.
    Lines(fn(&mut Random, &mut Vec<Vec<u8>>)),
    /// The text is drawn anew.
    Text(fn(&mut Random) -> Vec<u8>),
}

impl Flaw {
    /// A text with this flaw and no other.
    pub fn text(&self, random: &mut Random) -> Vec<u8> {
        let mut draft = Draft::any(random);
        match self.change {
            Change::Text(make) => return make(random),
            Change::Draft(change) => change(random, &mut draft),
            Change::Lines(_) => {}
        }
        let mut lines = draft.lines(random);
        if let Change::Lines(change) = self.change {
            change(random, &mut lines);
        }
        joined(random, &lines)
    }
}

const fn on_draft(
    words: &'static str,
    leads_to: &'static [u32],
    change: fn(&mut Random, &mut Draft),
) -> Flaw {
    Flaw {
        words,
        leads_to,
        change: Change::Draft(change),
    }
}

const fn on_lines(
    words: &'static str,
    leads_to: &'static [u32],
    change: fn(&mut Random, &mut Vec<Vec<u8>>),
) -> Flaw {
    Flaw {
        words,
        leads_to,
        change: Change::Lines(change),
    }
}

const fn on_text(
    words: &'static str,
    leads_to: &'static [u32],
    change: fn(&mut Random) -> Vec<u8>,
) -> Flaw {
    Flaw {
        words,
        leads_to,
        change: Change::Text(change),
    }
}

/// Lines out of turn, missing and surplus.
const TURNS: [Flaw; 15] = [
    on_draft("no flaw", &[0], |_, _| {}),
    on_draft("p line left out", &[20], |_, d| drop(d.lines.remove(0))),
    on_draft("p line twice", &[20], |_, d| {
        d.lines.insert(1, d.lines[0].clone())
    }),
    on_draft("p line again at the end", &[20], |_, d| {
        d.lines.push(d.lines[0].clone())
    }),
    on_draft("p line after n lines", &[20], |random, d| {
        let (at, first) = (d.place(random, "n"), d.lines.remove(0));
        d.lines.insert(at, first);
    }),
    on_draft("n line before the p line", &[20], |random, d| {
        d.lines.insert(0, source(random.pick(&[0, 1, 2])))
    }),
    on_draft("a line before the p line", &[20], |random, d| {
        let at = d.place(random, "a");
        let arc = d.lines.remove(at);
        d.lines.insert(0, arc);
    }),
    on_draft("n line after an a line", &[20], |random, d| {
        let at = d.place(random, "a") + 1;
        let node = random.pick(&[0, 1, d.count("n") + 1, d.nodes() + 1]);
        d.lines.insert(at, source(node));
    }),
    on_draft("a line before the n lines", &[4], |random, d| {
        let at = d.place(random, "a");
        let arc = d.lines.remove(at);
        d.lines.insert(1, arc);
    }),
    on_draft("a line missing", &[20], |random, d| {
        let at = d.place(random, "a");
        d.lines.remove(at);
    }),
    on_draft("all a lines missing", &[20], |_, d| {
        d.lines.retain(|words| words[0] != "a")
    }),
    on_draft("a line surplus", &[20], |random, d| {
        let another = random.pick(&["a 1 4 0", "a 0 0 0", "a 1 2 1000001"]);
        let at = d.place(random, "a");
        let again = d.lines[at].clone();
        d.lines.push(random.pick(&[&line(another), &again]).clone());
    }),
    on_draft("a lines where there are 0 arcs", &[20], |random, d| {
        d.set(0, 3, 0);
        if random.below(2) == 0 {
            let rows = d.count("n");
            d.set(0, 2, random.pick(&[rows, rows + 65]));
        }
    }),
    on_text("empty texts", &[20], |_| Vec::new()),
    on_text("comments and blank lines alone", &[20], |random| {
        let lines: Vec<_> = (0..1 + random.below(4)).map(|_| between(random)).collect();
        joined(random, &lines)
    }),
];

/// Source nodes.
const SOURCES: [Flaw; 9] = [
    on_draft("first n line left out", &[21], |_, d| {
        drop(d.lines.remove(1))
    }),
    on_draft("last n line left out", &[0, 6], |_, d| {
        drop(d.lines.remove(d.count("n")))
    }),
    on_draft("all n lines left out", &[4], |_, d| {
        d.lines.retain(|words| words[0] != "n")
    }),
    on_draft("n lines exchanged", &[21], |random, d| {
        let at = 1 + random.below(d.count("n") as u64 - 1) as usize;
        d.lines.swap(at, at + 1);
    }),
    on_draft("n line twice", &[21], |random, d| {
        let at = d.place(random, "n");
        d.lines.insert(at, d.lines[at].clone());
    }),
    on_draft("node 0 in an n line", &[21], |random, d| {
        let at = d.place(random, "n");
        d.set(at, 1, 0);
    }),
    on_draft("node beyond all in an n line", &[21], |random, d| {
        let at = d.place(random, "n");
        d.set(at, 1, random.pick(&[d.nodes() + 1, 129, 999_999_999]));
    }),
    on_draft("n line more, in turn", &[0, 6], |_, d| {
        d.add_sources(d.count("n") + 1)
    }),
    on_draft("wrong node where sizes are bad", &[21], |random, d| {
        d.spoil_sizes(random);
        let at = d.place(random, "n");
        d.set(at, 1, random.pick(&[0, d.nodes() + 1]));
    }),
];

/// Sizes.
const SIZES: [Flaw; 16] = [
    on_draft("as many n lines as nodes", &[4], |_, d| {
        d.add_sources(d.nodes())
    }),
    on_draft("more n lines than nodes", &[4], |random, d| {
        d.add_sources(d.nodes() + 1 + random.below(80) as usize)
    }),
    on_draft(
        "more n lines than nodes, without arcs",
        &[4],
        |random, d| {
            d.lines.retain(|words| words[0] != "a");
            d.set(0, 3, 0);
            d.add_sources(d.nodes() + 1 + random.below(80) as usize)
        },
    ),
    on_draft("999,999,999 nodes", &[4], |_, d| d.set(0, 2, 999_999_999)),
    on_draft("999,999,999 arcs", &[4], |_, d| d.set(0, 3, 999_999_999)),
    on_draft("0 nodes", &[4], |_, d| d.set(0, 2, 0)),
    on_draft("bad sizes without a lines", &[4], |random, d| {
        d.spoil_sizes(random);
        d.lines.retain(|words| words[0] != "a");
    }),
    on_draft(
        "bad sizes and a malformed first a line",
        &[20],
        |random, d| {
            d.spoil_sizes(random);
            let at = d.places("a")[0];
            d.set(
                at,
                1 + random.below(3) as usize,
                random.pick(&["-0", "x", "01"]),
            );
        },
    ),
    on_draft("bad sizes and a wrong first a line", &[4], |random, d| {
        d.spoil_sizes(random);
        let at = d.places("a")[0];
        d.set(at, 1 + random.below(3) as usize, 2_000_000);
    }),
    on_text("64 sources", &[0], |random| {
        Draft::sized(random, 64, 2, 70).text(random)
    }),
    on_text("65 sources", &[4], |random| {
        Draft::sized(random, 65, 2, 70).text(random)
    }),
    on_text("64 targets", &[0], |random| {
        Draft::sized(random, 2, 64, 70).text(random)
    }),
    on_text("65 targets", &[4], |random| {
        Draft::sized(random, 2, 65, 70).text(random)
    }),
    on_text("1,024 arcs", &[0], |random| {
        Draft::sized(random, 33, 64, 1024).text(random)
    }),
    on_text("1,025 arcs", &[4], |random| {
        Draft::sized(random, 33, 64, 1025).text(random)
    }),
    on_text("1,024 arcs of 1,025", &[4], |random| {
        let mut draft = Draft::sized(random, 33, 64, 1024);
        draft.set(0, 3, 1025);
        draft.text(random)
    }),
];

/// Arcs.
const ARCS: [Flaw; 12] = [
    on_draft("arc turned round", &[6], |random, d| {
        let at = d.place(random, "a");
        d.lines[at].swap(1, 2);
    }),
    on_draft("source 0", &[6], |random, d| {
        let at = d.place(random, "a");
        d.set(at, 1, 0);
    }),
    on_draft("source that is a target node", &[6], |random, d| {
        let at = d.place(random, "a");
        d.set(at, 1, d.count("n") + 1);
    }),
    on_draft("target 0", &[6], |random, d| {
        let at = d.place(random, "a");
        d.set(at, 2, 0);
    }),
    on_draft("target that is a source node", &[6], |random, d| {
        let at = d.place(random, "a");
        d.set(at, 2, d.count("n"));
    }),
    on_draft("target beyond the nodes", &[6], |random, d| {
        let at = d.place(random, "a");
        d.set(at, 2, random.pick(&[d.nodes() + 1, 999_999_999]));
    }),
    on_draft("costs at the ends of their range", &[0], |random, d| {
        let at = d.place(random, "a");
        d.set(at, 3, random.pick(&["1000000", "-1000000", "0"]));
    }),
    on_draft("cost out of range", &[7], |random, d| {
        let at = d.place(random, "a");
        d.set(
            at,
            3,
            random.pick(&["1000001", "-1000001", "999999999", "-999999999"]),
        );
    }),
    on_draft("same ends twice", &[8], repeat_ends),
    on_draft("ends and cost out of range", &[6], |random, d| {
        let at = d.place(random, "a");
        d.lines[at].swap(1, 2);
        d.set(at, 3, "-1000001");
    }),
    on_draft("same ends and cost out of range", &[7], |random, d| {
        repeat_ends(random, d);
        let last = d.lines.len() - 1;
        d.set(last, 3, "1000001");
    }),
    on_draft(
        "ends and cost out of range, malformed",
        &[20],
        |random, d| {
            let at = d.place(random, "a");
            d.lines[at] = line(random.pick(&["a 9 1 1000001 0", "a 9 01 1000001", "a 9 1"]));
        },
    ),
];

/// The last arc gets the ends of another.
fn repeat_ends(random: &mut Random, d: &mut Draft) {
    let arcs = d.places("a");
    let (&last, others) = arcs.split_last().expect("two arcs");
    let at = random.pick(others);
    let ends = [d.lines[at][1].clone(), d.lines[at][2].clone()];
    d.lines[last][1..3].clone_from_slice(&ends);
}

/// Bytes of lines, and lengths.
const BYTES: [Flaw; 26] = [
    on_lines("blank before p, n or a", &[20], |random, lines| {
        let blank = random.pick(b" \t");
        any_line(random, lines).insert(0, blank);
    }),
    on_lines("blank before c", &[20], |random, lines| {
        insert(random, lines, b" c")
    }),
    on_lines("P, N or A", &[20], |random, lines| {
        any_line(random, lines)[0].make_ascii_uppercase()
    }),
    on_draft("ASN", &[20], |random, d| {
        d.set(0, 1, random.pick(&["ASN", "Asn", "asN"]))
    }),
    on_draft("another word than asn", &[20], |random, d| {
        d.set(0, 1, random.pick(&["max", "as", "asnx"]))
    }),
    on_lines("C", &[20], |random, lines| {
        insert(random, lines, b"C a comment")
    }),
    on_lines("cat", &[0], |random, lines| {
        insert(random, lines, b"cat 1 2 3")
    }),
    on_lines("c followed by any byte", &[0], |random, lines| {
        let bytes = random
            .bits()
            .to_le_bytes()
            .map(|byte| if byte == b'\n' { b'c' } else { byte });
        insert(random, lines, &[b"c", &bytes[..]].concat())
    }),
    on_lines("%", &[20], |random, lines| {
        insert(random, lines, b"% a comment")
    }),
    on_lines("another letter", &[20], |random, lines| {
        any_line(random, lines)[0] = random.pick(b"bemqxz01")
    }),
    on_lines("letter and number joined", &[20], |random, lines| {
        let line = any_line(random, lines);
        line.retain(|byte| !b" \t".contains(byte));
    }),
    on_lines("word more", &[20], |random, lines| {
        any_line(random, lines).extend(b" 1")
    }),
    on_draft("word less", &[20], |random, d| {
        let word = random.pick(&["p", "n", "a"]);
        let at = d.place(random, word);
        d.lines[at].pop();
    }),
    on_lines("byte 13 at a line's end", &[20], |random, lines| {
        any_line(random, lines).push(b'\r')
    }),
    on_lines("byte 13 as a line", &[20], |random, lines| {
        insert(random, lines, b"\r")
    }),
    on_lines("blanks at a line's end", &[0], |random, lines| {
        any_line(random, lines).extend(b" \t ")
    }),
    on_lines("tabs for blanks", &[0], |_, lines| {
        for line in lines.iter_mut().filter(|line| line.first() != Some(&b'c')) {
            for byte in line.iter_mut().filter(|byte| **byte == b' ') {
                *byte = b'\t';
            }
        }
    }),
    on_lines("comment of 1,024 bytes", &[0], |random, lines| {
        insert(random, lines, &[b'c'; 1024])
    }),
    on_lines("comment of 1,025 bytes", &[20], |random, lines| {
        insert(random, lines, &[b'c'; 1025])
    }),
    on_lines("blank line of 1,024 bytes", &[0], |random, lines| {
        insert(random, lines, &[b' '; 1024])
    }),
    on_lines("blank line of 1,025 bytes", &[20], |random, lines| {
        insert(random, lines, &[b'\t'; 1025])
    }),
    on_lines("other line of 1,024 bytes", &[0], |random, lines| {
        stretch(random, lines, 1024)
    }),
    on_lines("other line of 1,025 bytes", &[20], |random, lines| {
        stretch(random, lines, 1025)
    }),
    on_text("text of 32,768 bytes", &[0], |random| {
        let text = Draft::any(random).text(random);
        padded(random, text, 32_768)
    }),
    on_text("text of 32,769 bytes", &[1], |random| {
        let text = Draft::any(random).text(random);
        padded(random, text, 32_769)
    }),
    on_text("32,769 spaces", &[1], |_| vec![b' '; 32_769]),
];

/// All flaws.
pub fn flaws() -> impl Iterator<Item = &'static Flaw> {
    let all: [&'static [Flaw]; 5] = [&TURNS, &SOURCES, &SIZES, &ARCS, &BYTES];
    all.into_iter().flatten()
}
