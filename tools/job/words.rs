// Words of the input as messages show them: short, and without control characters.

use std::ffi::OsStr;

const LONGEST: usize = 40; // characters

// A control character, or one that cannot be seen, is written as an escape.
fn seen(c: char) -> String {
    match c {
        '\'' | '"' | '\\' => c.to_string(),
        _ => c.escape_debug().to_string(),
    }
}

// A long word ends with two dots.
pub fn shown(word: &str) -> String {
    let cut = if word.chars().nth(LONGEST).is_some() { ".." } else { "" };
    word.chars().take(LONGEST).map(seen).collect::<String>() + cut
}

pub fn counted(n: usize, what: &str) -> String {
    let ending = if n == 1 { "" } else { "s" };
    format!("{n} {what}{ending}")
}

// A file's name is shown whole.
pub fn shown_name(name: &OsStr) -> String {
    name.to_string_lossy().chars().map(seen).collect()
}
