// Scripts of questions with the lines that are expected of them, played and compared.

use crate::program::printed;

pub const LONGEST: usize = 65_000; // bytes of a script; the program reads fewer than 65,536
const SHORT: usize = 2_000; // bytes of a script that is shown whole

pub struct Entry {
    pub command: String,
    pub lines: Vec<String>, // what is printed for it
    before: usize,          // the place of its block's first command
    lays: bool,             // later commands of the block rest on it
}

#[derive(Default)]
pub struct Script {
    pub entries: Vec<Entry>,
    pub bytes: usize,
}

impl Script {
    pub fn push(&mut self, command: String, lines: Vec<String>, before: usize, lays: bool) {
        self.bytes += command.len() + 1;
        self.entries.push(Entry { command, lines, before, lays });
    }

    // Adds a block of commands with their lines; gives the script that is full.
    pub fn add(&mut self, block: &[(String, Vec<String>)]) -> Option<Script> {
        let size: usize = block.iter().map(|(command, _)| command.len() + 1).sum();
        let full = (self.bytes + size > LONGEST).then(|| std::mem::take(self));
        let start = self.entries.len();
        for (command, lines) in block {
            self.push(command.clone(), lines.clone(), start, true);
        }
        full
    }

    pub fn text(&self) -> String {
        self.entries.iter().map(|entry| format!("{}\n", entry.command)).collect()
    }

    // The shortest script that shows a question.
    fn showing(&self, at: usize) -> String {
        let entry = &self.entries[at];
        let laid = self.entries[entry.before..at].iter().filter(|other| other.lays && other.before == entry.before);
        laid.chain([entry]).map(|entry| format!("{}\n", entry.command)).collect()
    }
}

// A folder of `target` keeps the script.
pub fn complain(folder: &str, name: &str, script: &str, expected: &str, given: &str) {
    let path = format!("target/{folder}/{name}.script");
    let saved = std::fs::create_dir_all(format!("target/{folder}")).and_then(|_| std::fs::write(&path, script));
    println!("MISMATCH, {}", if saved.is_ok() { &path } else { "not saved" });
    if script.len() <= SHORT {
        print!("{script}");
    }
    let clip = |line: &str| line.chars().take(SHORT).collect::<String>();
    println!("  expected {}\n  given    {}", clip(expected), clip(given));
}

// Plays a script; true when all its lines are as expected.
pub fn plays(player: &str, script: &Script, folder: &str, name: &str) -> bool {
    let text = script.text();
    let given = match printed(player, &text) {
        Ok(given) => given,
        Err(failure) => {
            complain(folder, name, &text, "lines", &format!("the program fails: {failure}"));
            return false;
        }
    };
    let mut lines = given.lines();
    for (at, entry) in script.entries.iter().enumerate() {
        for expected in &entry.lines {
            let got = lines.next().unwrap_or("(nothing)");
            if expected != got {
                complain(folder, name, &script.showing(at), expected, got);
                return false;
            }
        }
    }
    let more = lines.next();
    if let Some(more) = more {
        complain(folder, name, &text, "(no more lines)", more);
    }
    more.is_none()
}
