//! The certificate of an assignment and its prices, once it was looked at that it is a least one.

use crate::bids::Costs;
use crate::command::Answer;
use crate::lines::push_line;
use std::mem::replace;

/// Whether no two persons have one object, and no arc is better than its person's choice by more than 1.
fn is_least(costs: &Costs, choice: &[u32], prices: &[i64]) -> bool {
    let rows = costs.rows;
    let mut taken = vec![false; prices.len()];
    (0..).zip(choice).all(|(person, place)| {
        let (from, to) = rows.row(person);
        let chosen = &rows.arcs[*place as usize];
        let bound = costs.value(chosen, prices) - 1;
        !replace(&mut taken[chosen.object as usize], true)
            && (from..to).contains(place)
            && rows.arcs[from as usize..to as usize].iter().all(|arc| bound <= costs.value(arc, prices))
    })
}

/// The answer of a solver that has chosen an arc for each person, told by its place among all arcs.
pub fn optimal(costs: &Costs, choice: &[u32], prices: &[i64]) -> Answer {
    if !is_least(costs, choice, prices) {
        return Answer { text: b"broken check\n".to_vec(), status: 7 };
    }
    let chosen = || choice.iter().map(|place| &costs.rows.arcs[*place as usize]);
    let mut text = Vec::new();
    push_line(&mut text, "auction", [1]);
    push_line(&mut text, "optimal", [choice.len() as i64, chosen().map(|arc| arc.cost).sum()]);
    for (person, arc) in (1..).zip(chosen()) {
        push_line(&mut text, "assign", [person, i64::from(arc.object) + 1, arc.cost]);
    }
    for (object, price) in (1..).zip(prices) {
        push_line(&mut text, "price", [object, *price]);
    }
    Answer { text, status: 0 }
}
