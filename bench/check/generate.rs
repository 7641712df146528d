//! Writes a sparse assignment problem and a certificate of its least cost.
//!
//!     generate PERSONS SHARE LEAST MOST SEED FILE CERTIFICATE
//!
//! SHARE is the part of all pairs that are arcs, in percent; LEAST and MOST are the bounds of the costs. The layout is that of
//! the OR-Library's sparse assignment files: the count, and then a line `person object cost` for each arc.
//!
//! An assignment is planted that is least by construction, so nothing has to be solved. Each person gets a level, each object
//! a price, and the cost of an arc is the level less the price and plus what the arc is worse than the person's best. The
//! planted arcs are worse by nothing. So cost and price together are, for each person, least at the planted arc.

#[allow(dead_code)]
#[path = "../random.rs"]
mod random;

use random::Random;
use std::fs::File;
use std::io::{BufWriter, Result, Write};

const MOST_PERSONS: u64 = 10_000;
const MOST_ARCS: u64 = 33_554_432;
const MOST_COST: i64 = 1_000_000_000;

struct Plan {
    /// The object of each person.
    planted: Vec<usize>,
    /// Of each person, the cost and the price of the planted arc together.
    levels: Vec<i64>,
    /// Of each object, on the scale of the costs.
    prices: Vec<i64>,
}

impl Plan {
    fn make(persons: usize, least: i64, most: i64, random: &mut Random) -> Plan {
        let mut planted: Vec<usize> = (0..persons).collect();
        for last in (1..persons).rev() {
            planted.swap(last, random.below(last as u64 + 1) as usize);
        }
        // A level less a price stays from least to most.
        let middle = (most - least) / 2;
        let levels = (0..persons).map(|_| random.between(least + middle, most)).collect();
        let prices = (0..persons).map(|_| random.between(0, middle)).collect();
        Plan { planted, levels, prices }
    }

    fn least_cost(&self, person: usize, object: usize) -> i64 {
        self.levels[person] - self.prices[object]
    }
}

/// Writes the problem, and gives its number of arcs.
fn write_problem(plan: &Plan, share: u64, most: i64, random: &mut Random, out: &mut impl Write) -> Result<u64> {
    let persons = plan.planted.len();
    let mut arcs = 0;
    writeln!(out, "{persons}")?;
    for person in 0..persons {
        for object in 0..persons {
            let is_planted = plan.planted[person] == object;
            if !is_planted && random.below(100) >= share {
                continue;
            }
            let least = plan.least_cost(person, object);
            let cost = if is_planted { least } else { random.between(least, most) };
            writeln!(out, "{} {} {cost}", person + 1, object + 1)?;
            arcs += 1;
        }
    }
    out.flush()?;
    Ok(arcs)
}

fn write_certificate(plan: &Plan, out: &mut impl Write) -> Result<()> {
    let persons = plan.planted.len();
    let costs: Vec<i64> = (0..persons).map(|person| plan.least_cost(person, plan.planted[person])).collect();
    writeln!(out, "auction 1\noptimal {persons} {}", costs.iter().sum::<i64>())?;
    for person in 0..persons {
        writeln!(out, "assign {} {} {}", person + 1, plan.planted[person] + 1, costs[person])?;
    }
    // A certificate has its prices on the scale of the costs times one more than the persons.
    let scale = persons as i64 + 1;
    for object in 0..persons {
        writeln!(out, "price {} {}", object + 1, scale * plan.prices[object])?;
    }
    out.flush()
}

fn main() -> Result<()> {
    let words: Vec<String> = std::env::args().skip(1).collect();
    let [persons, share, least, most, seed, file, certificate] = &words[..] else {
        panic!("usage: generate PERSONS SHARE LEAST MOST SEED FILE CERTIFICATE");
    };
    let number = |word: &String| word.parse::<i64>().expect("a number");
    let (persons, share, least, most) = (number(persons) as u64, number(share) as u64, number(least), number(most));
    assert!((1..=MOST_PERSONS).contains(&persons), "PERSONS go from 1 to {MOST_PERSONS}");
    assert!(share <= 100, "SHARE goes from 0 to 100");
    assert!(-MOST_COST <= least && least <= most && most <= MOST_COST, "costs go from -{MOST_COST} to {MOST_COST}");

    let mut random = Random(number(seed) as u64);
    let plan = Plan::make(persons as usize, least, most, &mut random);
    let arcs = write_problem(&plan, share, most, &mut random, &mut BufWriter::new(File::create(file)?))?;
    assert!(arcs <= MOST_ARCS, "more than {MOST_ARCS} arcs: {arcs}");
    write_certificate(&plan, &mut BufWriter::new(File::create(certificate)?))?;
    println!("{arcs}");
    Ok(())
}
