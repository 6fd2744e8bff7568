// Job bytes: document 01's "The job and its printed sheet", its own reader, and a writer for the generator.

use crate::rules::{Buffer, Problem, Register, Wire};

pub const CELLS: u32 = 128; // refusal 16: the program's most

struct Cursor<'a> {
    bytes: &'a [u8],
    at: usize,
}

impl Cursor<'_> {
    // One number, or refusal 15.
    fn number(&mut self) -> Result<u32, u32> {
        let mut value = 0u32;
        for place in 0..3 {
            let byte = *self.bytes.get(self.at).ok_or(15u32)?;
            self.at += 1;
            value += u32::from(byte & 127) << (7 * place);
            if byte < 128 {
                let trailing_zero = place > 0 && byte == 0;
                return if trailing_zero || value > 65_535 { Err(15) } else { Ok(value) };
            }
        }
        Err(15) // a fourth byte
    }

    fn wire(&mut self) -> Result<Wire, u32> {
        Ok(Wire { r: self.number()?, c: self.number()? })
    }

    fn buffer(&mut self) -> Result<Buffer, u32> {
        Ok(Buffer { r: self.number()?, k: self.number()?, c: self.number()? })
    }
}

// The job's numbers, or the number of the first fault met.
pub fn read(bytes: &[u8]) -> Result<Problem, u32> {
    let mut cursor = Cursor { bytes, at: 0 };
    let mut p = Problem { width: cursor.number()?, height: cursor.number()?, ..Problem::default() };
    if p.width == 0 || p.width > 32 || p.height == 0 || p.height > 32 {
        return Err(1);
    }
    if p.width * p.height > CELLS {
        return Err(16);
    }
    for _ in 0..p.width * p.height {
        let marks = cursor.number()?;
        if marks > 15 {
            return Err(3);
        }
        p.marks.push(marks);
    }
    p.register = Register { r: cursor.number()?, k: cursor.number()?, c: cursor.number()?, setup: cursor.number()? };
    p.horizontal = cursor.wire()?;
    p.vertical = cursor.wire()?;
    p.period = cursor.number()?;
    p.skew = cursor.number()?;
    p.limit = cursor.number()?;
    p.source = cursor.number()?;
    p.sink = cursor.number()?;
    let count = cursor.number()?;
    if count > 6 {
        return Err(4);
    }
    for _ in 0..count {
        p.buffers.push(cursor.buffer()?);
    }
    if cursor.at < bytes.len() {
        return Err(15);
    }
    Ok(p)
}

// The job's numbers in their order.
pub fn numbers(p: &Problem) -> Vec<u32> {
    let mut out = vec![p.width, p.height];
    out.extend(&p.marks);
    out.extend([p.register.r, p.register.k, p.register.c, p.register.setup]);
    out.extend([p.horizontal.r, p.horizontal.c, p.vertical.r, p.vertical.c]);
    out.extend([p.period, p.skew, p.limit, p.source, p.sink, p.buffers.len() as u32]);
    for b in &p.buffers {
        out.extend([b.r, b.k, b.c]);
    }
    out
}

// A number in groups of seven bits, lowest first.
pub fn encode(mut value: u32) -> Vec<u8> {
    let mut out = Vec::new();
    while value > 127 {
        out.push(128 | (value & 127) as u8);
        value >>= 7;
    }
    out.push(value as u8);
    out
}

pub fn write(numbers: &[u32]) -> Vec<u8> {
    numbers.iter().flat_map(|&n| encode(n)).collect()
}
