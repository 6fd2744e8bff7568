// A job as a plan text.

use crate::cells;
use crate::job::{Job, BUFFER, REGISTER, WIRE};

fn named_line(name: &str, names: &[&str], values: &[u32]) -> String {
    let pairs: Vec<String> = names.iter().zip(values).map(|(n, v)| format!(" {n} {v}")).collect();
    format!("{name}{}\n", pairs.concat())
}

fn end_line(name: &str, cell: u32, job: &Job) -> String {
    if cell as u64 >= job.cells() {
        return format!("{name} {cell}\n");
    }
    format!("{name} {} {}\n", cell / job.width, cell % job.width)
}

pub fn text(job: &Job) -> String {
    let mut out = String::new();
    if job.marks.is_empty() {
        out += &format!("size {} {}\n", job.width, job.height);
    }
    let words: Vec<String> = job.marks.iter().map(|&marks| cells::word(marks)).collect();
    let widest = words.iter().map(|word| word.len()).max().unwrap_or(0);
    for row in words.chunks(job.width.max(1) as usize) {
        let line: String = row.iter().map(|word| format!(" {word:widest$}")).collect();
        out += &format!("row{}\n", line.trim_end());
    }
    out += &named_line("register", &REGISTER, &job.register);
    out += &named_line("horizontal", &WIRE, &job.horizontal);
    out += &named_line("vertical", &WIRE, &job.vertical);
    out += &format!("period {}\n", job.period);
    if job.skew > 0 {
        out += &format!("skew {}\n", job.skew);
    }
    out += &format!("limit {}\n", job.limit);
    out += &end_line("source", job.source, job);
    out += &end_line("sink", job.sink, job);
    for b in &job.buffers {
        out += &named_line("buffer", &BUFFER, b);
    }
    out
}
