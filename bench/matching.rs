//! An assignment of all persons or a Hall set, by augmenting paths, for the yardsticks of the commands that look for one.

use crate::lines::push_line;
use crate::rows::{RowArc, Rows};

/// Stands for no arc, no person and no object.
pub const NONE: u32 = u32::MAX;

/// How an object was reached.
#[derive(Clone, Copy)]
struct Mark {
    person: u32,
    /// The place of the person's arc among all arcs.
    arc: u32,
}

/// An assignment of some persons, and what a search needs. All of it is made once.
pub struct Matching<'a> {
    rows: &'a Rows,
    /// Of each person, the place of his arc among all arcs.
    pub choice: Vec<u32>,
    /// Of each object, the person who has it.
    holder: Vec<u32>,
    /// Of each object, the last search that reached it: so nothing has to be cleared.
    seen: Vec<u32>,
    marks: Vec<Mark>,
    /// The persons whom the search reached, in the order in which it walks their rows.
    queue: Vec<u32>,
    searches: u32,
}

impl Matching<'_> {
    pub fn new(rows: &Rows) -> Matching<'_> {
        let persons = rows.persons();
        Matching {
            rows,
            choice: vec![NONE; persons],
            holder: vec![NONE; persons],
            seen: vec![0; persons],
            marks: vec![Mark { person: NONE, arc: NONE }; persons],
            queue: Vec::with_capacity(persons),
            searches: 0,
        }
    }

    /// The first free object that is met from this person on, breadth first.
    fn search(&mut self, start: u32) -> Option<u32> {
        self.searches += 1;
        self.queue.clear();
        self.queue.push(start);
        let mut walked = 0;
        while let Some(&person) = self.queue.get(walked) {
            walked += 1;
            let (from, to) = self.rows.row(person);
            for (arc, RowArc { object, .. }) in (from..).zip(&self.rows.arcs[from as usize..to as usize]) {
                let seen = &mut self.seen[*object as usize];
                if *seen == self.searches {
                    continue;
                }
                *seen = self.searches;
                self.marks[*object as usize] = Mark { person, arc };
                match self.holder[*object as usize] {
                    NONE => return Some(*object),
                    partner => self.queue.push(partner),
                }
            }
        }
        None
    }

    /// Gives each person on the path to a free object the object by which the path leaves him.
    fn exchange(&mut self, free: u32) {
        let mut object = free;
        loop {
            let Mark { person, arc } = self.marks[object as usize];
            self.holder[object as usize] = person;
            let before = std::mem::replace(&mut self.choice[person as usize], arc);
            if before == NONE {
                return;
            }
            object = self.rows.arcs[before as usize].object;
        }
    }

    /// Whether each person has an arc now. Where not, the last search is that of a person who can't have one.
    pub fn complete(&mut self) -> bool {
        (0..self.choice.len() as u32).all(|person| self.search(person).map(|free| self.exchange(free)).is_some())
    }

    /// The certificate of the persons whom the last search reached, and of the objects, one fewer than they.
    pub fn hall_set(&mut self) -> Vec<u8> {
        self.queue.sort_unstable();
        let mut out = Vec::new();
        push_line(&mut out, "auction", [1]);
        push_line(&mut out, "infeasible", [self.queue.len() as i64, self.queue.len() as i64 - 1]);
        for person in &self.queue {
            push_line(&mut out, "person", [i64::from(*person) + 1]);
        }
        for (object, search) in self.seen.iter().enumerate() {
            if *search == self.searches {
                push_line(&mut out, "object", [object as i64 + 1]);
            }
        }
        out
    }
}
