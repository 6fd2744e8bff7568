// The questions as scripts: crates/session_player/src/main.rt tells the format.

use crate::blocks::Block;
use crate::commands::Command;
use crate::mix::Mix;
use crate::plan;
use crate::played::{Script, LONGEST};
use crate::question::Tables;
use crate::random::Random;
use crate::rules::Problem;

// The plan and the tables, and no session.
pub fn as_it_is(p: &Problem) -> String {
    let plan = Command::Plan(p.marks.iter().map(|&marks| marks as u8).collect());
    format!("{}\n{}\n", plan.text(), Command::Tables(Tables::from(p)).text())
}

type Laid = (Command, Vec<String>);

// The plan as a session's moves lay it, or as it is, with any depth in the record; the depth then.
fn laid(r: &mut Random, p: &Problem) -> (Vec<Laid>, u32) {
    let marks: Vec<u8> = p.marks.iter().map(|&marks| marks as u8).collect();
    let tables = Command::Tables(Tables::from(p));
    if r.chance(50) || !plan::faults(p.width, p.height, &marks).is_empty() {
        let depth = r.pick(&[0, 0, 1, 256, 257, 65_535]);
        let plan = Command::Plan(marks);
        return (vec![(plan, vec![]), (Command::Depth(depth), vec![]), (tables, vec![])], depth);
    }
    let mut opened = marks.clone();
    let mut moves = Vec::new();
    for depth in 1..=r.below(4) {
        let cell = r.below(p.cells());
        opened[cell as usize] ^= r.below(4) as u8;
        let line = format!("move 0 depth {depth}");
        moves.push((Command::Move(cell, marks[cell as usize] as u32), vec![line]));
    }
    let depth = moves.len() as u32;
    let mut out = vec![(Command::Plan(opened), vec![])];
    out.push((Command::Open(p.width, p.height), vec!["open 0 depth 0".to_string()]));
    out.extend(moves);
    out.push((tables, vec![]));
    (out, depth)
}

// Adds a block's questions, and gives the scripts that are full.
pub fn add(script: &mut Script, block: &Block, r: &mut Random, mix: &mut Mix) -> Vec<Script> {
    let p = &block.problem;
    let (laying, depth) = laid(r, p);
    let laying: Vec<(String, Vec<String>)> = laying.into_iter().map(|(c, lines)| (c.text(), lines)).collect();
    let size: usize = laying.iter().map(|(command, _)| command.len() + 1).sum();
    let (mut full, mut before) = (Vec::new(), None);
    for asked in &block.asked {
        let (command, line) = (asked.command(p), asked.line(p, depth, mix));
        let needs = command.len() + 1 + if before.is_none() { size } else { 0 };
        if script.bytes + needs > LONGEST {
            full.push(std::mem::take(script));
            before = None;
        }
        let start = *before.get_or_insert_with(|| {
            let start = script.entries.len();
            for (command, lines) in &laying {
                script.push(command.clone(), lines.clone(), start, true);
            }
            start
        });
        script.push(command, vec![line], start, false);
    }
    full
}
