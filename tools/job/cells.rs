// One cell of a row: a word of the text to marks, and back.

use crate::fields::{number, Field};
use crate::job::{BLOCKED, CUT_BELOW, CUT_RIGHT, MARKS, TAP};
use crate::words::shown;

const LETTERS: [(char, u32); 4] = [('x', BLOCKED), ('t', TAP), ('|', CUT_RIGHT), ('_', CUT_BELOW)];

pub fn read(word: &str) -> Field<u32> {
    if word.starts_with(|c: char| c.is_ascii_digit()) {
        return number(word);
    }
    if word == "." {
        return Ok(0);
    }
    let wrong = |what: String| Err(format!("cell '{}': {what}", shown(word)));
    let mut marks = 0;
    for c in word.strip_prefix('.').unwrap_or(word).chars() {
        let Some((_, mark)) = LETTERS.iter().find(|letter| letter.0 == c) else {
            return wrong(match c {
                '.' => "'.' stands only at the start of a cell; cells are set apart by spaces".to_string(),
                _ => format!("'{}' is none of . x t | _", shown(&c.to_string())),
            });
        };
        if marks & mark != 0 {
            return wrong(format!("'{c}' stands twice; cells are set apart by spaces"));
        }
        marks |= mark;
    }
    if word.starts_with('.') && marks & (BLOCKED | TAP) != 0 {
        return wrong("'.' is an open cell without a tap; leave the '.' out".to_string());
    }
    Ok(marks)
}

pub fn word(marks: u32) -> String {
    if marks > MARKS {
        return marks.to_string();
    }
    let letters: String = LETTERS.iter().filter(|letter| marks & letter.1 != 0).map(|letter| letter.0).collect();
    if marks & (BLOCKED | TAP) == 0 {
        format!(".{letters}")
    } else {
        letters
    }
}

// Whether a comment after a row's cells is itself drawn as cells: '#' was meant for one.
pub fn drawn(comment: &str) -> bool {
    comment
        .split_whitespace()
        .all(|word| word.chars().all(|c| c == '.' || c == '#' || LETTERS.iter().any(|l| l.0 == c)))
}
