// The table of a route's spans, a line for each, from the sink on. Its lines are comments of the sheet.

use crate::answer::Visit;
use crate::job::{Clocks, Job};
use crate::spans::Span;

// Steps of a span, and buffers on it.
fn counts(visits: &[Visit], span: &Span) -> (usize, usize) {
    let between = &visits[span.to + 1..span.from];
    (span.from - span.to, between.iter().filter(|visit| visit.code != 0).count())
}

// What is taken off 2T, if anything.
fn skew(job: &Job) -> String {
    match job.skew {
        0 => String::new(),
        skew => format!(", twice the skew {}", 2 * skew),
    }
}

fn one_clock(job: &Job, visits: &[Visit], spans: &[Span]) -> String {
    let allowed = format!("2T = {}{}", 2 * job.period, skew(job));
    let mut out = format!("# from   to  steps  gates  delay  spare  (half-ticks; {allowed})\n");
    for span in spans {
        let (driver, end) = (visits[span.from].cell, visits[span.to].cell);
        let (steps, gates) = counts(visits, span);
        out += &format!("# {driver:>4} {end:>4} {steps:>6} {gates:>6} {:>6} {:>6}\n", span.delay, span.slack);
    }
    out
}

// Each end with its gate code, and each span with its own 2T.
fn two_clocks(job: &Job, clocks: &Clocks, visits: &[Visit], spans: &[Span]) -> String {
    let both = format!("2T = {} source, {} sink{}", 2 * clocks.source_period, 2 * job.period, skew(job));
    let mut out = format!("# from code   to code  steps  gates     2T  delay  spare  (half-ticks; {both})\n");
    for span in spans {
        let (driver, end) = (visits[span.from], visits[span.to]);
        let (steps, gates) = counts(visits, span);
        out += &format!("# {:>4} {:>4} {:>4} {:>4}", driver.cell, driver.code, end.cell, end.code);
        out += &format!(" {steps:>6} {gates:>6} {:>6} {:>6} {:>6}\n", 2 * span.period, span.delay, span.slack);
    }
    out
}

pub fn table(job: &Job, visits: &[Visit], spans: &[Span]) -> String {
    match &job.clocks {
        None => one_clock(job, visits, spans),
        Some(clocks) => two_clocks(job, clocks, visits, spans),
    }
}
