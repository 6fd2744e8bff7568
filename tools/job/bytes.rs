// The bytes of a job: groups of seven bits, lowest first (document 01, "The job and its printed sheet"; document 02, C-16:
// the skew after the period).

use crate::job::{Job, BUFFER, LARGEST, REGISTER, WIRE};
use crate::words::counted;

pub fn encode(job: &Job) -> Vec<u8> {
    let mut numbers = vec![job.width, job.height];
    numbers.extend(&job.marks);
    numbers.extend(job.register.iter().chain(&job.horizontal).chain(&job.vertical));
    numbers.extend([job.period, job.skew, job.limit, job.source, job.sink, job.buffers.len() as u32]);
    numbers.extend(job.buffers.iter().flatten());
    let mut bytes = Vec::new();
    for mut n in numbers {
        while n > 127 {
            bytes.push(n as u8 | 128);
            n >>= 7;
        }
        bytes.push(n as u8);
    }
    bytes
}

struct Cursor<'a> {
    bytes: &'a [u8],
    at: usize,
}

impl Cursor<'_> {
    // The next number; `what` names it in messages. Bytes are counted from 1 there.
    fn number(&mut self, what: &str) -> Result<u32, String> {
        let start = self.at;
        let mut value = 0;
        for place in 0..3 {
            let Some(byte) = self.bytes.get(self.at) else {
                return Err(format!("the job ends after {}, at {what}", counted(self.bytes.len(), "byte")));
            };
            self.at += 1;
            value |= (*byte as u32 & 127) << (7 * place);
            if *byte < 128 {
                if *byte == 0 && place > 0 {
                    return Err(format!("byte {}, {what}: a last byte of zero after another", self.at));
                }
                if value > LARGEST {
                    return Err(format!("byte {}, {what}: {value} is above {LARGEST}", start + 1));
                }
                return Ok(value);
            }
        }
        Err(format!("byte {}, {what}: the number has a fourth byte", start + 1))
    }

    fn numbers(&mut self, what: &str, names: &[&str]) -> Result<Vec<u32>, String> {
        names.iter().map(|name| self.number(&format!("{what} {name}"))).collect()
    }
}

pub fn decode(bytes: &[u8]) -> Result<Job, String> {
    let mut from = Cursor { bytes, at: 0 };
    let mut job = Job { width: from.number("the width")?, height: from.number("the height")?, ..Job::default() };
    for cell in 0..job.cells() {
        job.marks.push(from.number(&format!("the marks of cell {cell}"))?);
    }
    job.register = from.numbers("register", &REGISTER)?;
    job.horizontal = from.numbers("horizontal", &WIRE)?;
    job.vertical = from.numbers("vertical", &WIRE)?;
    job.period = from.number("the period")?;
    job.skew = from.number("the skew")?;
    job.limit = from.number("the load limit")?;
    job.source = from.number("the source")?;
    job.sink = from.number("the sink")?;
    for place in 1..=from.number("the buffer count")? {
        job.buffers.push(from.numbers(&format!("buffer {place}"), &BUFFER)?);
    }
    if from.at < bytes.len() {
        return Err(format!("{} left over after byte {}", counted(bytes.len() - from.at, "byte"), from.at));
    }
    Ok(job)
}
