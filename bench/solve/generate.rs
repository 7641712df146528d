//! Writes a problem for the solver, with a full assignment planted in it.
//!
//!     generate share PERSONS PERCENT MOST SEED FILE      so many in a hundred of all pairs, and the planted ones
//!     generate uniform PERSONS DEGREE MOST SEED FILE     objects drawn from all
//!     generate shuffled PERSONS DEGREE MOST SEED FILE    the same, and the arcs of a person stand in any order
//!     generate mixed PERSONS LEAST GREATEST MOST SEED FILE    from LEAST to GREATEST objects of a person
//!     generate lone PERSONS DEGREE LONG MOST SEED FILE   DEGREE objects of each person, and LONG of one
//!     generate plane PERSONS NEAREST SEED FILE           the nearest of points in a square
//!     generate few PERSONS CHEAP DEGREE SEED FILE        a price war: all persons want the same few cheap objects
//!     generate levels PERSONS DEGREE MOST SEED FILE      a price war: each arc costs 1 or MOST
//!     generate products PERSONS SEED FILE                each person knows all objects; an arc costs the product of the two numbers
//!     generate chain PERSONS MOST SEED FILE              each person knows his own object and the next one's: one assignment alone
//!
//! There are as many objects as persons. No person knows an object twice, and the planted arcs have costs like the others: they
//! see to it that there is a full assignment, and say nothing of a least one. The arcs stand in the order of the persons, and
//! those of a person, but of shuffled, in the order of the objects, as in the sparse files of the OR-Library.
//!
//! Of share, uniform, shuffled, mixed, lone and chain, costs are drawn from 1 to MOST; of levels, a coin falls for each arc. Of uniform, shuffled
//! and levels, each person knows DEGREE objects, the planted one among them. Of mixed, the number of his objects is drawn; of lone, the
//! person in the middle has LONG.
//!
//! Of plane, persons and objects are points of a square with sides of `SIDE`, drawn one by one; the cost of an arc is the
//! distance, rounded. A person knows the NEAREST objects and the planted one. That one may be anywhere, so its arc is
//! a long one, by which a person leaves a crowd.
//!
//! Of products, nothing is drawn: the arc of person i to object j costs i * j, so all persons want the same objects in the same order.
//!
//! Of chain, persons and objects have an order, which is drawn; each person knows the object of his place and the one after it, and the
//! last one his own alone. So he has that, and each one before him his own too.
//!
//! Of few, each person knows DEGREE of the CHEAP first objects, at costs from 1 to `MOST_CHEAP`, and one dear object, at costs
//! from `LEAST_DEAR` to `MOST_DEAR`. Those whose planted object is a cheap one have a dear one that is drawn. So the
//! prices of the cheap objects rise until most persons prefer their dear one.

#[allow(dead_code)]
#[path = "../random.rs"]
mod random;

use random::Random;
use std::fs::File;
use std::io::{BufWriter, Result, Write};

const USAGE: &str = "usage: generate share|uniform|shuffled|mixed|lone|plane|few|levels|products|chain PERSONS [NUMBER].. SEED FILE";
const MOST_PERSONS: usize = 10_000;
const MOST_COST: usize = 1_000_000_000;
const MOST_ARCS: usize = 33_554_432;

const SIDE: usize = 10_000;
const MOST_CHEAP: usize = 10;
const LEAST_DEAR: usize = 9_000;
const MOST_DEAR: usize = 10_000;

/// A number from the first to the second.
fn number_from(random: &mut Random, least: usize, most: usize) -> usize {
    least + random.index(most - least + 1)
}

/// An arc of a person.
struct Arc {
    object: usize,
    cost: usize,
}

/// The arcs of each person, in the order of the file.
type Rows = Vec<Vec<Arc>>;

fn require_cost(most: usize) {
    assert!((1..=MOST_COST).contains(&most), "MOST goes from 1 to {MOST_COST}");
}

fn share(persons: usize, percent: usize, most: usize, random: &mut Random) -> Rows {
    require_cost(most);
    assert!(percent <= 100, "PERCENT goes from 0 to 100");
    let planted = random.order(persons);
    let mut row_of = |planted: usize| {
        let mut row = Vec::new();
        for object in 0..persons {
            if object == planted || random.index(100) < percent {
                row.push(Arc { object, cost: number_from(random, 1, most) });
            }
        }
        row
    };
    planted.into_iter().map(|object| row_of(object)).collect()
}

/// So many objects for each person, by person, the planted one among them, in rising order; the cost of each arc is drawn.
fn drawn(degrees: &[usize], random: &mut Random, cost: impl Fn(&mut Random) -> usize) -> Rows {
    let persons = degrees.len();
    assert!(degrees.iter().all(|degree| (1..=persons).contains(degree)), "a person knows 1 to PERSONS objects");
    let planted = random.order(persons);
    let mut known_to = vec![usize::MAX; persons];
    let mut row_of = |person: usize, planted: usize| {
        let degree = degrees[person];
        let mut objects = vec![planted];
        known_to[planted] = person;
        while objects.len() < degree {
            let object = random.index(persons);
            if known_to[object] != person {
                known_to[object] = person;
                objects.push(object);
            }
        }
        objects.sort_unstable();
        objects.into_iter().map(|object| Arc { object, cost: cost(random) }).collect()
    };
    planted.into_iter().enumerate().map(|(person, object)| row_of(person, object)).collect()
}

fn uniform(persons: usize, degree: usize, most: usize, random: &mut Random) -> Rows {
    require_cost(most);
    drawn(&vec![degree; persons], random, |random| number_from(random, 1, most))
}

fn shuffled(persons: usize, degree: usize, most: usize, random: &mut Random) -> Rows {
    let mut rows = uniform(persons, degree, most, random);
    for row in &mut rows {
        for last in (1..row.len()).rev() {
            row.swap(last, random.index(last + 1));
        }
    }
    rows
}

fn mixed(persons: usize, least: usize, greatest: usize, most: usize, random: &mut Random) -> Rows {
    require_cost(most);
    assert!(least <= greatest, "LEAST is at most GREATEST");
    let degrees: Vec<usize> = (0..persons).map(|_| number_from(random, least, greatest)).collect();
    drawn(&degrees, random, |random| number_from(random, 1, most))
}

fn lone(persons: usize, degree: usize, long: usize, most: usize, random: &mut Random) -> Rows {
    require_cost(most);
    let mut degrees = vec![degree; persons];
    degrees[persons / 2] = long;
    drawn(&degrees, random, |random| number_from(random, 1, most))
}

fn levels(persons: usize, degree: usize, most: usize, random: &mut Random) -> Rows {
    require_cost(most);
    drawn(&vec![degree; persons], random, |random| if random.index(2) == 0 { 1 } else { most })
}

fn distance((x, y): (usize, usize), (u, v): (usize, usize)) -> usize {
    (x.abs_diff(u) as f64).hypot(y.abs_diff(v) as f64).round() as usize
}

fn plane(persons: usize, nearest: usize, random: &mut Random) -> Rows {
    assert!((1..=persons).contains(&nearest), "NEAREST goes from 1 to PERSONS");
    let mut points = || -> Vec<(usize, usize)> { (0..persons).map(|_| (random.index(SIDE), random.index(SIDE))).collect() };
    let (places, objects) = (points(), points());
    let planted = random.order(persons);
    let row_of = |place: (usize, usize), planted: usize| {
        let costs = objects.iter().map(|point| distance(place, *point));
        let mut arcs: Vec<Arc> = costs.enumerate().map(|(object, cost)| Arc { object, cost }).collect();
        arcs.select_nth_unstable_by_key(nearest - 1, |arc| (arc.cost, arc.object));
        arcs.truncate(nearest);
        if arcs.iter().all(|arc| arc.object != planted) {
            arcs.push(Arc { object: planted, cost: distance(place, objects[planted]) });
        }
        arcs.sort_unstable_by_key(|arc| arc.object);
        arcs
    };
    places.into_iter().zip(planted).map(|(place, object)| row_of(place, object)).collect()
}

fn few(persons: usize, cheap: usize, degree: usize, random: &mut Random) -> Rows {
    assert!((1..=cheap).contains(&degree) && cheap < persons, "DEGREE goes from 1 to CHEAP, and CHEAP are fewer than PERSONS");
    let planted = random.order(persons);
    let mut objects: Vec<usize> = (0..cheap).collect();
    let mut row_of = |planted: usize| {
        // The planted object is the first one drawn, where it is a cheap one.
        if let Some(place) = objects.iter().position(|object| *object == planted) {
            objects.swap(0, place);
        }
        for place in usize::from(planted < cheap)..degree {
            objects.swap(place, number_from(random, place, cheap - 1));
        }
        let mut known = objects[..degree].to_vec();
        known.sort_unstable();
        let mut row: Vec<Arc> = known.into_iter().map(|object| Arc { object, cost: number_from(random, 1, MOST_CHEAP) }).collect();
        let object = if planted < cheap { number_from(random, cheap, persons - 1) } else { planted };
        row.push(Arc { object, cost: number_from(random, LEAST_DEAR, MOST_DEAR) });
        row
    };
    planted.into_iter().map(|object| row_of(object)).collect()
}

fn products(persons: usize) -> Rows {
    (1..=persons).map(|person| (0..persons).map(|object| Arc { object, cost: person * (object + 1) }).collect()).collect()
}

fn chain(persons: usize, most: usize, random: &mut Random) -> Rows {
    require_cost(most);
    let (order, objects) = (random.order(persons), random.order(persons));
    let mut rows: Rows = (0..persons).map(|_| Vec::new()).collect();
    for (place, person) in order.into_iter().enumerate() {
        let mut known = objects[place..persons.min(place + 2)].to_vec();
        known.sort_unstable();
        rows[person] = known.into_iter().map(|object| Arc { object, cost: number_from(random, 1, most) }).collect();
    }
    rows
}

fn write_problem(rows: &Rows, out: &mut impl Write) -> Result<()> {
    writeln!(out, "{}", rows.len())?;
    for (person, row) in rows.iter().enumerate() {
        for Arc { object, cost } in row {
            writeln!(out, "{} {} {cost}", person + 1, object + 1)?;
        }
    }
    out.flush()
}

fn main() -> Result<()> {
    let words: Vec<String> = std::env::args().skip(1).collect();
    let [shape, numbers @ .., seed, file] = &words[..] else {
        panic!("{USAGE}");
    };
    let numbers: Vec<usize> = numbers.iter().map(|word| word.parse().expect("a number")).collect();
    let mut random = Random(seed.parse().expect("a number"));
    assert!(numbers.first().is_some_and(|persons| (1..=MOST_PERSONS).contains(persons)), "PERSONS go from 1 to {MOST_PERSONS}");
    let rows = match (shape.as_str(), &numbers[..]) {
        ("share", &[persons, percent, most]) => share(persons, percent, most, &mut random),
        ("uniform", &[persons, degree, most]) => uniform(persons, degree, most, &mut random),
        ("shuffled", &[persons, degree, most]) => shuffled(persons, degree, most, &mut random),
        ("mixed", &[persons, least, greatest, most]) => mixed(persons, least, greatest, most, &mut random),
        ("lone", &[persons, degree, long, most]) => lone(persons, degree, long, most, &mut random),
        ("plane", &[persons, nearest]) => plane(persons, nearest, &mut random),
        ("few", &[persons, cheap, degree]) => few(persons, cheap, degree, &mut random),
        ("levels", &[persons, degree, most]) => levels(persons, degree, most, &mut random),
        ("products", &[persons]) => products(persons),
        ("chain", &[persons, most]) => chain(persons, most, &mut random),
        _ => panic!("{USAGE}"),
    };
    let arcs: usize = rows.iter().map(Vec::len).sum();
    assert!(arcs <= MOST_ARCS, "more than {MOST_ARCS} arcs: {arcs}");
    write_problem(&rows, &mut BufWriter::new(File::create(file)?))?;
    println!("{arcs}");
    Ok(())
}
