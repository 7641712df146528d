//! Writes a problem for the Hall search.
//!
//!     generate full PERSONS DEGREE SEED FILE          an assignment is planted
//!     generate hall PERSONS DEGREE SET SEED FILE      a Hall set of SET persons is planted
//!     generate random PERSONS DEGREE SEED FILE        nothing is planted
//!     generate complete PERSONS SEED FILE             each person knows all objects, in rising order
//!     generate halves PERSONS SEED FILE               the searches of half of the persons are long ones
//!
//! DEGREE is the number of arcs of each person. Those that aren't planted lead to any object, and a person's arcs stand in any
//! order.
//!
//! To a Hall set belong the last person and others that are drawn, and they know one object fewer than they number. Each but
//! the last has a planted object there, and knows his neighbour's too, round to the first one's: so no part of the set is a
//! Hall set. Each person outside has a planted object outside. So the search finds the whole set, and at the last person.
//!
//! Of halves, the first half of the persons knows the first half of the objects, in rising order, and after them each one an
//! object of his own. The second half knows the first half of the objects alone. Each of these persons sets one of the first
//! half to his own object, and the search for it walks over all those of the second half who came before.

#[allow(dead_code)]
#[path = "../random.rs"]
mod random;

use random::Random;
use std::fs::File;
use std::io::{BufWriter, Result, Write};
use std::iter::once;

const USAGE: &str = "usage: generate full|hall|random|complete|halves PERSONS [DEGREE [SET]] SEED FILE";
const MOST_PERSONS: usize = 10_000;
const MOST_COST: usize = 100;

/// The objects of each person, in the order of the file.
type Rows = Vec<Vec<usize>>;

/// Adds arcs to any of these objects until each person of the rows has as many as the degree.
fn fill<'a>(rows: impl Iterator<Item = &'a mut Vec<usize>>, degree: usize, objects: &[usize], random: &mut Random) {
    for row in rows {
        while row.len() < degree {
            row.push(objects[random.index(objects.len())]);
        }
        random.shuffle(row);
    }
}

fn full(persons: usize, degree: usize, random: &mut Random) -> Rows {
    let objects = random.order(persons);
    let mut rows: Rows = objects.iter().map(|object| vec![*object]).collect();
    fill(rows.iter_mut(), degree, &objects, random);
    rows
}

fn hall(persons: usize, degree: usize, set: usize, random: &mut Random) -> Rows {
    assert!((3..=persons).contains(&set) && degree >= 2, "SET goes from 3 to PERSONS, DEGREE from 2");
    let mut order = random.order(persons - 1);
    let objects = random.order(persons);
    let (known, others) = objects.split_at(set - 1);
    let mut rows: Rows = vec![Vec::new(); persons];
    for (place, object) in known.iter().enumerate() {
        rows[order[place]].extend([*object, known[(place + 1) % known.len()]]);
    }
    for (place, object) in order[set - 1..].iter().zip(others) {
        rows[*place].push(*object);
    }
    order.truncate(set - 1);
    for person in order.into_iter().chain(once(persons - 1)) {
        fill(once(&mut rows[person]), degree, known, random);
    }
    fill(rows.iter_mut().filter(|row| row.len() < degree), degree, &objects, random);
    rows
}

fn random_rows(persons: usize, degree: usize, random: &mut Random) -> Rows {
    let objects: Vec<usize> = (0..persons).collect();
    let mut rows: Rows = vec![Vec::new(); persons];
    fill(rows.iter_mut(), degree, &objects, random);
    rows
}

fn complete(persons: usize) -> Rows {
    vec![(0..persons).collect(); persons]
}

fn halves(persons: usize) -> Rows {
    assert!(persons % 2 == 0, "PERSONS are even");
    let half = persons / 2;
    let own = (0..half).map(|person| (0..half).chain(once(half + person)).collect());
    own.chain((0..half).map(|_| (0..half).collect())).collect()
}

fn write_problem(rows: &Rows, random: &mut Random, out: &mut impl Write) -> Result<()> {
    writeln!(out, "{}", rows.len())?;
    for (person, row) in rows.iter().enumerate() {
        for object in row {
            writeln!(out, "{} {} {}", person + 1, object + 1, random.index(MOST_COST) + 1)?;
        }
    }
    out.flush()
}

fn main() -> Result<()> {
    let words: Vec<String> = std::env::args().skip(1).collect();
    let [shape, numbers @ .., seed, file] = &words[..] else {
        panic!("{USAGE}");
    };
    let numbers: Vec<usize> = numbers.iter().map(|word| word.parse().expect("a number")).collect();
    let mut random = Random(seed.parse().expect("a number"));
    assert!(numbers.first().is_some_and(|persons| (1..=MOST_PERSONS).contains(persons)), "PERSONS go from 1 to {MOST_PERSONS}");
    let rows = match (shape.as_str(), &numbers[..]) {
        ("full", &[persons, degree]) => full(persons, degree, &mut random),
        ("hall", &[persons, degree, set]) => hall(persons, degree, set, &mut random),
        ("random", &[persons, degree]) => random_rows(persons, degree, &mut random),
        ("complete", &[persons]) => complete(persons),
        ("halves", &[persons]) => halves(persons),
        _ => panic!("{USAGE}"),
    };
    write_problem(&rows, &mut random, &mut BufWriter::new(File::create(file)?))?;
    println!("{}", rows.iter().map(Vec::len).sum::<usize>());
    Ok(())
}
