// The better of two lists: the ranking of demand 2, where both are legal.

use crate::rules::Visit;
use std::cmp::Ordering;

#[derive(Clone, Copy, Debug, PartialEq)]
pub enum Why {
    Equal,
    OnlyLegal,
    Registers,
    Steps,
    Cell, // the first difference in written order
    Code,
}

pub enum Choice {
    First(Why),
    Second(Why),
    Neither,
}

pub fn registers(route: &[Visit]) -> usize {
    route[1..route.len() - 1].iter().filter(|visit| visit.1 == 7).count()
}

// How the first of two legal lists ranks to the second, and by what.
fn rank(a: &[Visit], b: &[Visit]) -> (Ordering, Why) {
    let by_registers = registers(a).cmp(&registers(b));
    if by_registers.is_ne() {
        return (by_registers, Why::Registers);
    }
    let by_steps = a.len().cmp(&b.len());
    if by_steps.is_ne() {
        return (by_steps, Why::Steps);
    }
    match a.iter().zip(b).find(|(x, y)| x != y) {
        None => (Ordering::Equal, Why::Equal),
        Some((x, y)) if x.0 != y.0 => (x.0.cmp(&y.0), Why::Cell),
        Some((x, y)) => (x.1.cmp(&y.1), Why::Code),
    }
}

// Two lists, each with whether it is legal.
pub fn compare(a_legal: bool, a: &[Visit], b_legal: bool, b: &[Visit]) -> Choice {
    match (a_legal, b_legal) {
        (true, true) => match rank(a, b) {
            (Ordering::Greater, why) => Choice::Second(why),
            (_, why) => Choice::First(why),
        },
        (true, false) => Choice::First(Why::OnlyLegal),
        (false, true) => Choice::Second(Why::OnlyLegal),
        (false, false) => Choice::Neither,
    }
}
