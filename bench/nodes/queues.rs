//! Pushes and pops over many lists, in plain Rust: queues KIND LISTS STEPS, where KIND is deques or slab.
//!
//! The steps are those of the program that `run` makes over `auc_nodes`: a list is drawn; where it has fewer than four items one is
//! put after it, else its first one is taken. The sum of what was taken is printed.
use std::collections::VecDeque;

const DEPTH: usize = 4;

/// Lists that a step may ask.
trait Lists {
    fn len(&self, list: usize) -> usize;
    fn push_back(&mut self, list: usize, item: u64);
    fn pop_front(&mut self, list: usize) -> u64;
}

/// A deque for each list.
struct Deques(Vec<VecDeque<u64>>);

impl Lists for Deques {
    fn len(&self, list: usize) -> usize {
        self.0[list].len()
    }

    fn push_back(&mut self, list: usize, item: u64) {
        self.0[list].push_back(item);
    }

    fn pop_front(&mut self, list: usize) -> u64 {
        self.0[list].pop_front().unwrap()
    }
}

/// What a place of a slab holds.
enum Place {
    Free { next: u32 },
    Used { item: u64, next: u32 },
}

#[derive(Clone)]
struct Ends {
    first: u32,
    last: u32,
    len: u32,
}

/// Linked lists over a slab: a vector of places, the free ones linked, as the crate `slab` has it.
struct Slab {
    places: Vec<Place>,
    free: u32,
    ends: Vec<Ends>,
}

impl Lists for Slab {
    fn len(&self, list: usize) -> usize {
        self.ends[list].len as usize
    }

    fn push_back(&mut self, list: usize, item: u64) {
        let place = self.free;
        if let Place::Free { next } = self.places[place as usize] {
            self.free = next;
        }
        self.places[place as usize] = Place::Used { item, next: 0 };
        let ends = &mut self.ends[list];
        if ends.len == 0 {
            ends.first = place;
        } else if let Place::Used { next, .. } = &mut self.places[ends.last as usize] {
            *next = place;
        }
        ends.last = place;
        ends.len += 1;
    }

    fn pop_front(&mut self, list: usize) -> u64 {
        let ends = &mut self.ends[list];
        let place = ends.first;
        let Place::Used { item, next } = self.places[place as usize] else { unreachable!() };
        self.places[place as usize] = Place::Free { next: self.free };
        self.free = place;
        ends.first = next;
        ends.len -= 1;
        item
    }
}

fn play(lists: &mut impl Lists, count: u64, steps: u64) -> u64 {
    let mut drawn = 1u64;
    let mut sum = 0u64;
    for step in 0..steps {
        drawn = drawn.wrapping_mul(6364136223846793005).wrapping_add(1442695040888963407);
        let list = ((drawn >> 33) % count) as usize;
        if lists.len(list) < DEPTH {
            lists.push_back(list, step);
        } else {
            sum = sum.wrapping_add(lists.pop_front(list));
        }
    }
    sum
}

fn main() {
    let words: Vec<String> = std::env::args().collect();
    let count: u64 = words[2].parse().unwrap();
    let steps: u64 = words[3].parse().unwrap();
    let sum = if words[1] == "deques" {
        play(&mut Deques(vec![VecDeque::with_capacity(DEPTH); count as usize]), count, steps)
    } else {
        let nodes = count as u32 * DEPTH as u32;
        let places = (0..nodes).map(|place| Place::Free { next: place + 1 }).collect();
        play(&mut Slab { places, free: 0, ends: vec![Ends { first: 0, last: 0, len: 0 }; count as usize] }, count, steps)
    };
    println!("{sum}");
}
