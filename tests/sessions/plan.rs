// Marks that may not stand in a plan.

pub const RIGHT: u8 = 4;
pub const BELOW: u8 = 8;

// A byte above 15, a 4 in the last column, an 8 in the last row.
pub fn invalid_mark(width: u32, height: u32, cell: u32, marks: u8) -> bool {
    let last_column = width > 0 && cell % width == width - 1;
    let last_row = width > 0 && cell / width == height.wrapping_sub(1);
    marks > 15 || (last_column && marks & RIGHT != 0) || (last_row && marks & BELOW != 0)
}

pub type Fault = (u32, &'static str); // document 01's number, and what is at fault

// The faults of a plan with these sides, in order.
pub fn faults(width: u32, height: u32, plan: &[u8]) -> Vec<Fault> {
    let mut out = Vec::new();
    let side = 1..=32;
    if !side.contains(&width) || !side.contains(&height) {
        out.push((1, "grid"));
    }
    if plan.len() as u64 != width as u64 * height as u64 {
        out.push((2, "length"));
    }
    if plan.iter().enumerate().any(|(cell, &marks)| invalid_mark(width, height, cell as u32, marks)) {
        out.push((3, "plan"));
    }
    out
}
