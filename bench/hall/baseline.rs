//! The yardstick of `auction hall [FILE]`: the same job in plain Rust, with no contract and no proof.
//!
//! It reads the file whole, looks for the same faults in the same order, searches in the same order, and gives the same texts
//! and statuses, but for want of memory, which ends it, and too many reads, which it does not count. Built by
//! `rustc --edition 2021 -O`.

#[path = "../arc_file.rs"]
mod arc_file;
#[path = "../command.rs"]
mod command;
#[path = "../lines.rs"]
mod lines;
#[path = "../matching.rs"]
mod matching;
#[path = "../rows.rs"]
mod rows;

use command::Answer;
use lines::push_line;
use matching::Matching;
use rows::{RowArc, Rows};
use std::process::ExitCode;

fn assignment(rows: &Rows, choice: &[u32]) -> Vec<u8> {
    let mut out = Vec::new();
    push_line(&mut out, "full", [choice.len() as i64]);
    for (person, arc) in choice.iter().enumerate() {
        let RowArc { cost, object } = rows.arcs[*arc as usize];
        push_line(&mut out, "assign", [person as i64 + 1, i64::from(object) + 1, cost]);
    }
    out
}

fn answer_to(rows: &Rows) -> Answer {
    let mut matching = Matching::new(rows);
    if matching.complete() {
        Answer { text: assignment(rows, &matching.choice), status: 0 }
    } else {
        Answer { text: matching.hall_set(), status: 3 }
    }
}

fn main() -> ExitCode {
    command::run("hall", answer_to)
}
