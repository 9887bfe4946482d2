//! What a text has besides its numbers.

use crate::harness::tally::{other, Seen};

const COMMENT: &str = "numbers in comments";
const CAPITALS: &str = "capitals in headers";
const HEADER_END: &str = "blanks at a header's end";
const TABS: &str = "tabs";
const LINE_START: &str = "blanks at a line's start";
const LINE_END: &str = "blanks at a line's end";
const EMPTY_LINE: &str = "empty lines";
const BLANK_LINE: &str = "lines of blanks";
const LONGEST_LINE: &str = "lines of 1,024 bytes";
const NO_LAST: &str = "no byte 10 at the end";

/// All that a text may have besides its numbers.
pub const BESIDES: [&str; 10] = [
    COMMENT,
    CAPITALS,
    HEADER_END,
    TABS,
    LINE_START,
    LINE_END,
    EMPTY_LINE,
    BLANK_LINE,
    LONGEST_LINE,
    NO_LAST,
];

fn is_blank(byte: u8) -> bool {
    byte == b' ' || byte == b'\t'
}

/// The words of a line, or of all lines.
pub fn words(text: &[u8]) -> impl Iterator<Item = &[u8]> {
    text.split(|&byte| is_blank(byte) || byte == b'\n')
        .filter(|word| !word.is_empty())
}

/// What a text with an accepted header has besides its numbers.
pub fn besides_numbers(text: &[u8]) -> Vec<Seen> {
    let mut lines = text.split(|&byte| byte == b'\n');
    let header = lines.next().unwrap_or_default();
    let mut lines: Vec<_> = lines.collect();
    let ends = |line: &[u8]| line.last().is_some_and(|&byte| is_blank(byte));
    let lacks_last = lines.last().is_some_and(|line| !line.is_empty());
    if !lacks_last {
        lines.pop();
    }
    let any = |has: &dyn Fn(&[u8]) -> bool| lines.iter().any(|line| has(line));
    let is_numeric = |line: &[u8]| !line.starts_with(b"%") && words(line).count() > 0;
    let is_comment = |line: &[u8]| line.starts_with(b"%") && words(line).any(|word| word == b"+7");
    let has = [
        (COMMENT, any(&is_comment)),
        (CAPITALS, header[14..].iter().any(u8::is_ascii_uppercase)),
        (HEADER_END, ends(header)),
        (TABS, any(&|line| is_numeric(line) && line.contains(&b'\t'))),
        (
            LINE_START,
            any(&|line| is_numeric(line) && is_blank(line[0])),
        ),
        (LINE_END, any(&|line| is_numeric(line) && ends(line))),
        (EMPTY_LINE, any(&|line| line.is_empty())),
        (
            BLANK_LINE,
            any(&|line| !line.is_empty() && words(line).count() == 0),
        ),
        (LONGEST_LINE, any(&|line| line.len() == 1024)),
        (NO_LAST, lacks_last),
    ];
    let has = has.into_iter().filter(|&(_, is_there)| is_there);
    has.map(|(words, _)| other(words)).collect()
}
