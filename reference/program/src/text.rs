//! Lines, words and numbers of texts, and headers of Matrix Market texts.

use crate::graph::{Kind, MOST_OLD_PRICE, MOST_PRICE};
use crate::refusal::Refusal;

/// The most bytes of a text.
pub const MOST_TEXT: usize = 32_768;
/// The most bytes of a line before its byte 10.
pub const MOST_LINE: usize = 1_024;

/// The rules by which numbers are written, and how large a price may be.
#[derive(Clone, Copy, Debug, PartialEq, Eq)]
pub enum Rules {
    /// Document 01's: leading zeros are taken, and a + before a signed number.
    /// A price is at most 2,000,000.
    Old,
    /// Document 02's request for one way: no leading zero unless the number is
    /// the single digit 0, no + and no -0. A price is at most 4,000,000 half
    /// points.
    New,
}

impl Rules {
    /// A size or an index: 1 to 9 digits.
    pub(crate) fn natural(self, word: &[u8]) -> Option<u32> {
        let has_leading_zero = word.len() > 1 && word.starts_with(b"0");
        if self == Rules::New && has_leading_zero {
            return None;
        }
        if word.is_empty() || word.len() > 9 {
            return None;
        }
        let mut value = 0;
        for &byte in word {
            if !byte.is_ascii_digit() {
                return None;
            }
            value = 10 * value + u32::from(byte - b'0');
        }
        Some(value)
    }

    /// Sizes or indices.
    pub(crate) fn naturals<const COUNT: usize>(
        self,
        words: [&[u8]; COUNT],
    ) -> Option<[u32; COUNT]> {
        let mut out = [0; COUNT];
        for (value, word) in out.iter_mut().zip(words) {
            *value = self.natural(word)?;
        }
        Some(out)
    }

    /// A whole number as a weight is written: an optional - and 1 to 9 digits,
    /// by the old rules an optional + too.
    pub(crate) fn integer(self, word: &[u8]) -> Option<i32> {
        match word {
            [b'-', digits @ ..] => match self.natural(digits)? {
                0 if self == Rules::New => None,
                value => Some(-(value as i32)),
            },
            [b'+', digits @ ..] if self == Rules::Old => Some(self.natural(digits)? as i32),
            digits => Some(self.natural(digits)? as i32),
        }
    }

    /// The largest price in a text.
    pub(crate) fn most_price(self) -> i32 {
        match self {
            Rules::Old => MOST_OLD_PRICE,
            Rules::New => MOST_PRICE,
        }
    }
}

/// The lines of a text from the top. A line ends at byte 10; the last may lack
/// it, and nothing after a final byte 10 is no line.
pub(crate) struct Lines<'a> {
    rest: &'a [u8],
    number: u64,
    rules: Rules,
}

impl<'a> Lines<'a> {
    /// All lines of a text, with its numbers by these rules.
    pub(crate) fn new(text: &'a [u8], rules: Rules) -> Lines<'a> {
        Lines {
            rest: text,
            number: 0,
            rules,
        }
    }

    /// The next line without its byte 10, or nothing after the last.
    pub(crate) fn next_line(&mut self) -> Option<&'a [u8]> {
        if self.rest.is_empty() {
            return None;
        }
        self.number += 1;
        match self.rest.iter().position(|&byte| byte == b'\n') {
            Some(end) => {
                let line = &self.rest[..end];
                self.rest = &self.rest[end + 1..];
                Some(line)
            }
            None => Some(std::mem::take(&mut self.rest)),
        }
    }

    /// A refusal at the line last handed out.
    pub(crate) fn refuse(&self, number: u32) -> Refusal {
        Refusal::new(number, self.number)
    }

    /// A refusal at the line after the last, for a missing line.
    pub(crate) fn refuse_missing(&self, number: u32) -> Refusal {
        Refusal::new(number, self.number + 1)
    }

    /// The header in the first line (refusal 2).
    pub(crate) fn header(&mut self) -> Result<Header, Refusal> {
        match self.next_line() {
            Some(line) if line.len() <= MOST_LINE => header(line).ok_or(self.refuse(2)),
            _ => Err(Refusal::new(2, 1)),
        }
    }

    /// The sizes in the size line, past comments and blank lines (refusal 3).
    pub(crate) fn sizes<const COUNT: usize>(&mut self) -> Result<[u32; COUNT], Refusal> {
        while let Some(line) = self.next_line() {
            if line.len() > MOST_LINE {
                return Err(self.refuse(3));
            }
            if !is_blank_line(line) && !line.starts_with(b"%") {
                let sizes = words(line).and_then(|words| self.rules.naturals(words));
                return sizes.ok_or(self.refuse(3));
            }
        }
        Err(self.refuse_missing(3))
    }

    /// The words of the next line after the size line that is not blank
    /// (refusal 5).
    pub(crate) fn entry<const COUNT: usize>(&mut self) -> Result<[&'a [u8]; COUNT], Refusal> {
        while let Some(line) = self.next_line() {
            if line.len() > MOST_LINE {
                return Err(self.refuse(5));
            }
            if !is_blank_line(line) {
                return words(line).ok_or(self.refuse(5));
            }
        }
        Err(self.refuse_missing(5))
    }

    /// Tests that only blank lines are left (refusal 5).
    pub(crate) fn end(&mut self) -> Result<(), Refusal> {
        while let Some(line) = self.next_line() {
            if line.len() > MOST_LINE || !is_blank_line(line) {
                return Err(self.refuse(5));
            }
        }
        Ok(())
    }
}

/// An accepted header of some sort of text.
#[derive(Clone, Copy, Debug, PartialEq, Eq)]
pub(crate) enum Header {
    /// A graph of this kind (sheet).
    Graph(Kind),
    /// Bounds or prices (limits or prices).
    Numbers,
    /// A subgraph of a graph of this kind (plan).
    Subgraph(Kind),
}

/// The first word of every header.
const FIRST_WORD: &[u8] = b"%%MatrixMarket";

/// The header that a line holds, if it holds one.
fn header(line: &[u8]) -> Option<Header> {
    if !line.starts_with(FIRST_WORD) {
        return None;
    }
    let [first, object, format, field, symmetry] = words::<5>(line)?;
    let is = |word: &[u8], name: &str| word.eq_ignore_ascii_case(name.as_bytes());
    if first != FIRST_WORD || !is(object, "matrix") {
        return None;
    }
    let kind = if is(symmetry, "general") {
        Kind::Bipartite
    } else if is(symmetry, "symmetric") {
        Kind::General
    } else {
        return None;
    };
    if is(format, "coordinate") && is(field, "integer") {
        Some(Header::Graph(kind))
    } else if is(format, "coordinate") && is(field, "pattern") {
        Some(Header::Subgraph(kind))
    } else if is(format, "array") && is(field, "integer") && kind == Kind::Bipartite {
        Some(Header::Numbers)
    } else {
        None
    }
}

/// Whether a byte is a blank: a space or a tab.
pub(crate) fn is_blank(byte: u8) -> bool {
    byte == b' ' || byte == b'\t'
}

/// Whether a line is empty or of blanks only.
pub(crate) fn is_blank_line(line: &[u8]) -> bool {
    line.iter().all(|&byte| is_blank(byte))
}

/// The words of a line, if it has just as many as asked for.
pub(crate) fn words<const COUNT: usize>(line: &[u8]) -> Option<[&[u8]; COUNT]> {
    let mut found = line
        .split(|&byte| is_blank(byte))
        .filter(|word| !word.is_empty());
    let mut out: [&[u8]; COUNT] = [&[]; COUNT];
    for word in &mut out {
        *word = found.next()?;
    }
    match found.next() {
        Some(_) => None,
        None => Some(out),
    }
}
