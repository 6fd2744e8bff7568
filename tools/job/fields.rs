// The words of one line of a plan text.

use crate::job::{Job, LARGEST};
use crate::words::shown;

// What is read, or a message about it.
pub type Field<T> = Result<T, String>;

pub fn number(word: &str) -> Field<u32> {
    let digits = !word.is_empty() && word.bytes().all(|b| b.is_ascii_digit());
    if !digits {
        return Err(format!("'{}' is not a whole number", shown(word)));
    }
    match word.parse::<u64>() {
        Ok(value) if value <= LARGEST as u64 => Ok(value as u32),
        _ => Err(format!("{} is above {LARGEST}, the largest number taken", shown(word))),
    }
}

pub fn one_number(words: &[&str]) -> Field<u32> {
    match words {
        [word] => number(word),
        _ => Err(format!("one number is expected here, not {}", words.len())),
    }
}

// Named numbers, each name once, in any order.
pub fn named(words: &[&str], names: &[&str]) -> Field<Vec<u32>> {
    let form = || names.iter().map(|n| format!("{n} NUMBER")).collect::<Vec<_>>().join(" ");
    let mut values: Vec<Option<u32>> = vec![None; names.len()];
    for pair in words.chunks(2) {
        let at = names.iter().position(|name| *name == pair[0]);
        let at = at.ok_or_else(|| format!("'{}' is not expected here; the form is: {}", shown(pair[0]), form()))?;
        let word = pair.get(1).ok_or_else(|| format!("{} has no number; the form is: {}", pair[0], form()))?;
        if values[at].replace(number(word)?).is_some() {
            return Err(format!("{} is given twice", pair[0]));
        }
    }
    let missing = values.iter().position(|value| value.is_none());
    match missing {
        Some(at) => Err(format!("{} is missing; the form is: {}", names[at], form())),
        None => Ok(values.into_iter().flatten().collect()),
    }
}

// What an end's line gives: the cell, or its row and column.
pub enum End {
    Cell(u32),
    At(u32, u32),
}

pub fn end(words: &[&str]) -> Field<End> {
    match words {
        [word] => Ok(End::Cell(number(word)?)),
        [row, column] => Ok(End::At(number(row)?, number(column)?)),
        _ => Err("an end is a row and a column, or one cell number".to_string()),
    }
}

impl End {
    pub fn cell(&self, job: &Job) -> Field<u32> {
        match *self {
            End::Cell(cell) => Ok(cell),
            End::At(row, column) if row < job.height && column < job.width => Ok(row * job.width + column),
            End::At(row, column) => Err(format!(
                "row {row}, column {column} is outside the plan; its rows are 0 to {}, its columns 0 to {}",
                job.height.saturating_sub(1),
                job.width.saturating_sub(1)
            )),
        }
    }
}
