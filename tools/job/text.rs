// A plan text to a job; examples/README.md tells the format.
// It checks the form only: numbers outside their ranges pass, so that the planner's own refusals can be tried.

use crate::cells;
use crate::fields::{end, named, number, one_number, End, Field};
use crate::job::{Clocks, Job, BUFFER, BUFFERS, LARGEST, REGISTER, WIRE};
use crate::words::{counted, shown};
use std::collections::BTreeMap;

// A message about a line of the text.
pub struct Wrong {
    pub line: usize,
    pub message: String,
}

// The lines in which the parts of a text stand.
#[derive(Default)]
pub struct Lines {
    pub rows: Vec<usize>,
    pub buffers: Vec<usize>,
    named: BTreeMap<String, usize>,
    last: usize,
}

impl Lines {
    // A line that is given once; the last one if it is missing.
    pub fn of(&self, name: &str) -> usize {
        *self.named.get(name).unwrap_or(&self.last)
    }

    // The row at this place, or the size where no rows are drawn.
    pub fn row(&self, place: usize) -> usize {
        self.rows.get(place).copied().unwrap_or_else(|| self.of("size"))
    }
}

// Given at most once. A text has `period`, or `clocks` and `fifo`, it may have `skew`, and has all the others.
const ONCE: [&str; 10] =
    ["register", "horizontal", "vertical", "period", "clocks", "fifo", "skew", "limit", "source", "sink"];

const HASH: &str = "'#' starts a comment; a blocked cell is drawn x";

// All that the text has given so far.
#[derive(Default)]
struct Parts {
    job: Job,
    lines: Lines,
    hash: bool, // whether the first row has a comment
    size: Option<(u32, u32)>,
    source: Option<End>,
    sink: Option<End>,
}

impl Parts {
    fn row(&mut self, line: usize, words: &[&str], comment: Option<&str>) -> Field<()> {
        let marks = words.iter().map(|word| cells::read(word)).collect::<Field<Vec<u32>>>()?;
        if comment.is_some_and(cells::drawn) {
            return Err(HASH.to_string());
        }
        let (here, there) = (marks.len(), self.job.width as usize);
        match self.lines.rows.first() {
            None => {
                self.job.width = here as u32;
                self.hash = comment.is_some();
            }
            Some(first) if here != there => {
                let hint = if comment.is_some() || self.hash { format!(" ({HASH})") } else { String::new() };
                let here = counted(here, "cell");
                return Err(format!("this row has {here}, the first row (line {first}) has {there}{hint}"));
            }
            _ => {}
        }
        self.lines.rows.push(line);
        self.job.height += 1;
        self.job.marks.extend(marks);
        Ok(())
    }

    fn line(&mut self, line: usize, name: &str, words: &[&str], comment: Option<&str>) -> Field<()> {
        if name == "row" {
            return self.row(line, words, comment);
        }
        if name == "buffer" {
            self.job.buffers.push(named(words, &BUFFER)?);
            self.lines.buffers.push(line);
            return Ok(());
        }
        if name != "size" && !ONCE.contains(&name) {
            let (name, names) = (shown(name), ONCE.join(", "));
            return Err(format!("'{name}' is not the name of a line; the names are row, size, {names}, buffer"));
        }
        if let Some(before) = self.lines.named.insert(name.to_string(), line) {
            return Err(format!("{name} is given already in line {before}"));
        }
        if let Some((other, before)) = self.other_clock(name) {
            let both = format!("{name} is given, and {other} already in line {before}");
            return Err(format!("{both}; clocks stands in place of period"));
        }
        match name {
            "register" => self.job.register = named(words, &REGISTER)?,
            "horizontal" => self.job.horizontal = named(words, &WIRE)?,
            "vertical" => self.job.vertical = named(words, &WIRE)?,
            "period" => self.job.period = one_number(words)?,
            "clocks" => match words {
                [source, sink] => (self.clocks().source_period, self.job.period) = (number(source)?, number(sink)?),
                _ => return Err("the form is: clocks SOURCE-PERIOD SINK-PERIOD".to_string()),
            },
            "fifo" => self.clocks().fifo = named(words, &REGISTER)?,
            "skew" => self.job.skew = one_number(words)?,
            "limit" => self.job.limit = one_number(words)?,
            "source" => self.source = Some(end(words)?),
            "sink" => self.sink = Some(end(words)?),
            _ => match words {
                [width, height] => self.size = Some((number(width)?, number(height)?)),
                _ => return Err("the form is: size WIDTH HEIGHT".to_string()),
            },
        }
        Ok(())
    }

    fn given(&self, name: &str) -> bool {
        self.lines.named.contains_key(name)
    }

    fn clocks(&mut self) -> &mut Clocks {
        self.job.clocks.get_or_insert_with(Clocks::default)
    }

    // Of `period` and `clocks` the one that is not this line, and where it stands.
    fn other_clock(&self, name: &str) -> Option<(&'static str, usize)> {
        let other = match name {
            "period" => "clocks",
            "clocks" => "period",
            _ => return None,
        };
        self.given(other).then(|| (other, self.lines.of(other)))
    }

    // `clocks` and `fifo` go together.
    fn check_clocks(&self) -> Result<(), Wrong> {
        for (name, needed) in [("clocks", "fifo"), ("fifo", "clocks")] {
            if self.given(name) && !self.given(needed) {
                let message = format!("{name} needs the line '{needed}', which the text does not have");
                return Err(Wrong { line: self.lines.of(name), message });
            }
        }
        Ok(())
    }

    // Whether the text must have a line that it does not have.
    fn misses(&self, name: &str) -> bool {
        let needed = match name {
            "period" => self.job.clocks.is_none(),
            "clocks" | "fifo" | "skew" => false,
            _ => true,
        };
        needed && !self.given(name)
    }

    // The plan's size is the rows'; without rows it is the line's, and every cell is open.
    fn settle_size(&mut self) -> Result<(), Wrong> {
        let job = &mut self.job;
        let wrong = |line: usize, message: String| Err(Wrong { line, message });
        match self.size {
            None if self.lines.rows.is_empty() => {
                let message = "the text ends without a row of the plan, and without its size";
                return wrong(self.lines.last, message.to_string());
            }
            Some((width, height)) if self.lines.rows.is_empty() => (job.width, job.height) = (width, height),
            Some((width, height)) if (width, height) != (job.width, job.height) => {
                let drawn = format!("the rows are {} wide and {} high", job.width, job.height);
                let message = format!("the size is {width} wide and {height} high, but {drawn}");
                return wrong(self.lines.of("size"), message);
            }
            _ => {}
        }
        let large = LARGEST as u64;
        if job.cells() > large || job.width as u64 > large || job.height as u64 > large {
            return wrong(self.lines.row(0), job.sides());
        }
        job.marks.resize(job.cells() as usize, 0);
        Ok(())
    }

    // A cell outside a plan whose sides do not fit is the plan's fault.
    fn end_cell(&self, name: &str, end: &Option<End>) -> Result<u32, Wrong> {
        let found = end.as_ref().unwrap().cell(&self.job);
        found.map_err(|message| match self.job.sides_fit() {
            true => Wrong { line: self.lines.of(name), message },
            false => Wrong { line: self.lines.row(0), message: self.job.sides() },
        })
    }

    // The whole job; what is missing is told at the text's last line.
    fn finish(mut self) -> Result<(Job, Lines), Wrong> {
        self.settle_size()?;
        self.check_clocks()?;
        if let Some(name) = ONCE.iter().find(|name| self.misses(name)) {
            return Err(Wrong { line: self.lines.last, message: format!("the text ends without the line '{name}'") });
        }
        if self.job.buffers.len() > LARGEST as usize {
            let message = format!("{} buffers are given, over {BUFFERS}", self.job.buffers.len());
            return Err(Wrong { line: self.lines.buffers[BUFFERS], message });
        }
        self.job.source = self.end_cell("source", &self.source)?;
        self.job.sink = self.end_cell("sink", &self.sink)?;
        Ok((self.job, self.lines))
    }
}

const LONE_RETURN: &str = "a carriage return stands within the line; save the text with a line feed at each line's end";
const IS_JOB: &str = "(is it a job? 'job read' prints one)";

// The first character that no plan text has.
fn check_characters(line: &str) -> Field<()> {
    match line.chars().find(|c| c.is_control() && *c != '\t') {
        None => Ok(()),
        Some('\r') => Err(LONE_RETURN.to_string()),
        Some(c) => Err(format!("a control character ({}) is no text {IS_JOB}", shown(&c.to_string()))),
    }
}

pub fn parse(text: &str) -> Result<(Job, Lines), Wrong> {
    let mut parts = Parts::default();
    for (i, line) in text.split('\n').enumerate() {
        let line = line.strip_suffix('\r').unwrap_or(line);
        let at = i + 1;
        let mut read = || {
            check_characters(line)?;
            let (code, comment) = line.split_once('#').map_or((line, None), |(code, rest)| (code, Some(rest)));
            let words: Vec<&str> = code.split_whitespace().collect();
            match &words[..] {
                [name, rest @ ..] => parts.line(at, name, rest, comment),
                [] => Ok(()),
            }
        };
        read().map_err(|message| Wrong { line: at, message })?;
        if !line.is_empty() || at == 1 {
            parts.lines.last = at;
        }
    }
    parts.finish()
}

// The text of a file's bytes.
pub fn decode(bytes: Vec<u8>) -> Result<String, Wrong> {
    let at_start = |message: &str| Err(Wrong { line: 1, message: message.to_string() });
    if bytes.starts_with(b"\xef\xbb\xbf") {
        return at_start("the text starts with a byte order mark; save it as UTF-8 without one");
    }
    if bytes.starts_with(b"\xff\xfe") || bytes.starts_with(b"\xfe\xff") {
        return at_start("the text is in UTF-16; save it as UTF-8 without a byte order mark");
    }
    String::from_utf8(bytes).map_err(|e| {
        let before = &e.as_bytes()[..e.utf8_error().valid_up_to()];
        let line = before.iter().filter(|&&b| b == b'\n').count() + 1;
        Wrong { line, message: format!("this is no text {IS_JOB}") }
    })
}
