//! The yardstick of `auction solve [FILE]`: the same method in plain Rust, with no letters, no contract and no proof.
//!
//! It reads the file whole, looks for the same faults in the same order, and looks for a Hall set by the same search. Then it
//! runs the auction of Bertsekas in the Gauss-Seidel form, by the same phases: the persons who are free stand in a queue; the
//! first one bids at the prices of the moment and has his object at once, and who had it before goes to the end of the queue.
//! The certificate is looked at before it is written. There is no budget of bids, so there is no bracket either; want of
//! memory ends it. Where the environment has `AUCTION_COUNT`, it tells on standard error how many bids were made. Built by
//! `rustc --edition 2021 -O`.

#[path = "../arc_file.rs"]
mod arc_file;
mod bids;
mod certificate;
#[path = "../command.rs"]
mod command;
#[path = "../lines.rs"]
mod lines;
#[path = "../matching.rs"]
mod matching;
#[path = "../rows.rs"]
mod rows;

use bids::Costs;
use command::Answer;
use matching::{Matching, NONE};
use rows::Rows;
use std::collections::VecDeque;
use std::mem::replace;
use std::process::ExitCode;

struct Market<'a> {
    costs: Costs<'a>,
    /// Of each object, in scaled costs.
    prices: Vec<i64>,
    /// Of each object, the person who has it.
    holders: Vec<u32>,
    /// Of each person, the place of the arc of his last bid.
    choice: Vec<u32>,
    /// The persons who have no object, the one first who has had none for longest.
    free: VecDeque<u32>,
    bids: u64,
}

impl Market<'_> {
    fn new(rows: &Rows) -> Market<'_> {
        let persons = rows.persons();
        Market {
            costs: Costs::of(rows),
            prices: vec![0; persons],
            holders: vec![NONE; persons],
            choice: vec![NONE; persons],
            free: VecDeque::with_capacity(persons),
            bids: 0,
        }
    }

    /// Sells all objects anew, from the prices as they are.
    fn run_phase(&mut self, eps: i64) {
        self.holders.fill(NONE);
        self.free.extend(0..self.choice.len() as u32);
        while let Some(person) = self.free.pop_front() {
            let bid = self.costs.bid(person, &self.prices, eps);
            self.bids += 1;
            self.choice[person as usize] = bid.arc;
            self.prices[bid.object as usize] = bid.amount;
            let before = replace(&mut self.holders[bid.object as usize], person);
            if before != NONE {
                self.free.push_back(before);
            }
        }
    }
}

fn answer_to(rows: &Rows) -> Answer {
    {
        let mut matching = Matching::new(rows);
        if !matching.complete() {
            return Answer { text: matching.hall_set(), status: 3 };
        }
    }
    let mut market = Market::new(rows);
    for eps in market.costs.phases() {
        market.run_phase(eps);
    }
    if std::env::var_os("AUCTION_COUNT").is_some() {
        eprintln!("{}", market.bids);
    }
    certificate::optimal(&market.costs, &market.choice, &market.prices)
}

fn main() -> ExitCode {
    command::run("solve", answer_to)
}
