//! What both plain solvers share: the eps of the phases, and what a person bids.

use crate::rows::{RowArc, Rows};

/// The greatest amount of a bid.
const MOST_AMOUNT: i64 = 1 << 61;

/// A bid of a person for the object of one of his arcs.
#[derive(Clone, Copy)]
pub struct Bid {
    /// The place of the arc among all arcs.
    pub arc: u32,
    pub object: u32,
    pub amount: i64,
}

/// The rows of a problem, and what costs are scaled by.
pub struct Costs<'a> {
    pub rows: &'a Rows,
    /// One more than the persons.
    pub scale: i64,
    /// The greatest less the least cost, scaled.
    spread: i64,
}

impl Costs<'_> {
    /// The rows have an arc.
    pub fn of(rows: &Rows) -> Costs<'_> {
        let scale = rows.persons() as i64 + 1;
        let costs = || rows.arcs.iter().map(|arc| arc.cost);
        let spread = costs().max().unwrap_or(0) - costs().min().unwrap_or(0);
        Costs { rows, scale, spread: scale * spread }
    }

    /// The eps of each phase: an eighth of the spread at first, then a fifth of the last, down to 1.
    pub fn phases(&self) -> impl Iterator<Item = i64> {
        let first = (self.spread / 8).max(1);
        std::iter::successors(Some(first), |eps| (*eps > 1).then(|| (eps / 5).max(1)))
    }

    /// The value of an arc: its scaled cost and the price of its object.
    pub fn value(&self, arc: &RowArc, prices: &[i64]) -> i64 {
        self.scale * arc.cost + prices[arc.object as usize]
    }

    /// What a person, who has an arc, bids at these prices.
    ///
    /// His best arc has the least value; of several it is one to the lowest object, and of these the first. He bids what the
    /// best arc to another object is worse, and eps, above the price.
    pub fn bid(&self, person: u32, prices: &[i64], eps: i64) -> Bid {
        let (from, to) = self.rows.row(person);
        let row = &self.rows.arcs[from as usize..to as usize];
        let mut best = 0;
        let mut object = row[0].object;
        let mut value = self.value(&row[0], prices);
        let mut second = i64::MAX;
        for (place, arc) in row.iter().enumerate().skip(1) {
            let other = self.value(arc, prices);
            if other < value || other == value && arc.object < object {
                if arc.object != object {
                    second = value;
                }
                (best, object, value) = (place, arc.object, other);
            } else if other < second && arc.object != object {
                second = other;
            }
        }
        let more = if second == i64::MAX { self.spread } else { second - value };
        let amount = prices[object as usize] + more + eps;
        assert!(amount <= MOST_AMOUNT, "a bid above the greatest price");
        Bid { arc: from + best as u32, object, amount }
    }
}
