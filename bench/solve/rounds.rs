//! The method of `auction solve [FILE]` in plain Rust with its letters: it tells how many bids and rounds the proved program makes.
//!
//! One shard of all persons bids by its copies of the prices, one shard of all objects answers, and a hub counts the objects
//! that have found a holder. They write to each other by three mails, in which letters wait in the order in which they were
//! posted. A round gives each of them its turns in a fixed order, so nothing is left to chance: the certificate is that of
//! the proved program to the last byte. All else is as in `baseline.rs`.
//!
//! Where the environment has `AUCTION_COUNT`, it tells on standard error the bids, the rounds, the bids that were refused, and
//! the most letters that waited for the persons at a time. Built by `rustc --edition 2021 -O`.

#[path = "../arc_file.rs"]
mod arc_file;
mod bids;
mod certificate;
#[path = "../command.rs"]
mod command;
#[path = "../lines.rs"]
mod lines;
#[path = "../matching.rs"]
mod matching;
#[path = "../rows.rs"]
mod rows;

use bids::{Bid, Costs};
use command::Answer;
use matching::{Matching, NONE};
use rows::Rows;
use std::collections::VecDeque;
use std::process::ExitCode;

/// A person bids for an object.
#[derive(Clone, Copy)]
struct Offer {
    person: u32,
    bid: Bid,
}

/// What a person hears of an object.
#[derive(Clone, Copy)]
enum News {
    /// He has it: his bid was accepted.
    Award,
    /// He doesn't have it: his bid was too low.
    Refused,
    /// He has it no more.
    Outbid,
}

/// A letter to the persons, with the price of the object.
#[derive(Clone, Copy)]
struct Letter {
    news: News,
    person: u32,
    object: u32,
    price: i64,
}

/// How a person stands.
#[derive(Clone, Copy, PartialEq, Debug)]
enum State {
    Free,
    Waits(u32),
    Holds(u32),
}

struct Persons {
    /// Of each object, the last price that was heard.
    copies: Vec<i64>,
    states: Vec<State>,
    free: VecDeque<u32>,
}

impl Persons {
    fn next_offer(&mut self, costs: &Costs, eps: i64) -> Option<Offer> {
        let person = self.free.pop_front()?;
        let bid = costs.bid(person, &self.copies, eps);
        self.states[person as usize] = State::Waits(bid.object);
        Some(Offer { person, bid })
    }

    fn hear(&mut self, letter: Letter) {
        let Letter { news, person, object, price } = letter;
        let (from, to) = match news {
            News::Award => (State::Waits(object), State::Holds(object)),
            News::Refused => (State::Waits(object), State::Free),
            News::Outbid => (State::Holds(object), State::Free),
        };
        assert_eq!(self.states[person as usize], from, "a letter that doesn't fit");
        assert!(self.copies[object as usize] <= price, "a price that fell");
        self.copies[object as usize] = price;
        self.states[person as usize] = to;
        if to == State::Free {
            self.free.push_back(person);
        }
    }
}

/// A letter of the objects.
#[derive(Clone, Copy)]
enum Out {
    ToPerson(Letter),
    /// To the hub: the object has its first holder.
    First,
}

#[derive(Clone, Copy)]
struct Held {
    person: u32,
    arc: u32,
}

struct Objects {
    prices: Vec<i64>,
    holders: Vec<Held>,
}

impl Objects {
    /// Answers into the empty outbox.
    fn answer(&mut self, offer: Offer, eps: i64, outbox: &mut VecDeque<Out>) {
        let Offer { person, bid: Bid { arc, object, amount } } = offer;
        let price = self.prices[object as usize];
        if amount < price + eps {
            outbox.push_back(Out::ToPerson(Letter { news: News::Refused, person, object, price }));
            return;
        }
        self.prices[object as usize] = amount;
        let before = std::mem::replace(&mut self.holders[object as usize], Held { person, arc });
        let award = Out::ToPerson(Letter { news: News::Award, person, object, price: amount });
        if before.person == NONE {
            outbox.extend([award, Out::First]);
        } else {
            let outbid = Letter { news: News::Outbid, person: before.person, object, price: amount };
            outbox.extend([Out::ToPerson(outbid), award]);
        }
    }
}

#[derive(Default)]
struct Counts {
    bids: u64,
    rounds: u64,
    refused: u64,
    /// The most letters that waited for the persons at a time.
    waiting: usize,
}

/// The world of a phase.
struct World<'a> {
    costs: &'a Costs<'a>,
    eps: i64,
    persons: Persons,
    objects: Objects,
    person_outbox: Option<Offer>,
    object_outbox: VecDeque<Out>,
    objects_mail: VecDeque<Offer>,
    persons_mail: VecDeque<Letter>,
    /// First letters that wait.
    hub_mail: usize,
    /// First letters that the hub has counted.
    count: usize,
}

impl World<'_> {
    fn new<'a>(costs: &'a Costs<'a>, eps: i64, prices: Vec<i64>) -> World<'a> {
        let persons = prices.len();
        World {
            costs,
            eps,
            persons: Persons {
                copies: prices.clone(),
                states: vec![State::Free; persons],
                free: (0..persons as u32).collect(),
            },
            objects: Objects { prices, holders: vec![Held { person: NONE, arc: NONE }; persons] },
            person_outbox: None,
            object_outbox: VecDeque::with_capacity(4),
            objects_mail: VecDeque::with_capacity(persons),
            persons_mail: VecDeque::with_capacity(4 * persons),
            hub_mail: 0,
            count: 0,
        }
    }

    fn round(&mut self, counts: &mut Counts) {
        counts.rounds += 1;
        self.bid(counts);
        self.post_offer();
        self.answer(counts);
        self.post_answer();
        self.post_answer();
        counts.waiting = counts.waiting.max(self.persons_mail.len());
        if let Some(letter) = self.persons_mail.pop_front() {
            self.persons.hear(letter);
        }
        if self.hub_mail > 0 {
            self.hub_mail -= 1;
            self.count += 1;
        }
    }

    fn bid(&mut self, counts: &mut Counts) {
        if self.person_outbox.is_none() {
            self.person_outbox = self.persons.next_offer(self.costs, self.eps);
            counts.bids += u64::from(self.person_outbox.is_some());
        }
    }

    fn post_offer(&mut self) {
        if let Some(offer) = self.person_outbox.take() {
            self.objects_mail.push_back(offer);
        }
    }

    fn answer(&mut self, counts: &mut Counts) {
        if !self.object_outbox.is_empty() {
            return;
        }
        if let Some(offer) = self.objects_mail.pop_front() {
            self.objects.answer(offer, self.eps, &mut self.object_outbox);
            counts.refused += u64::from(self.object_outbox.len() == 1);
        }
    }

    fn post_answer(&mut self) {
        match self.object_outbox.pop_front() {
            Some(Out::ToPerson(letter)) => self.persons_mail.push_back(letter),
            Some(Out::First) => self.hub_mail += 1,
            None => {}
        }
    }

    fn is_done(&self) -> bool {
        self.count == self.persons.states.len()
    }
}

fn answer_to(rows: &Rows) -> Answer {
    {
        let mut matching = Matching::new(rows);
        if !matching.complete() {
            return Answer { text: matching.hall_set(), status: 3 };
        }
    }
    let costs = Costs::of(rows);
    let mut counts = Counts::default();
    let mut prices = vec![0; rows.persons()];
    let mut holders = Vec::new();
    for eps in costs.phases() {
        let mut world = World::new(&costs, eps, prices);
        while !world.is_done() {
            world.round(&mut counts);
        }
        (prices, holders) = (world.objects.prices, world.objects.holders);
    }
    if std::env::var_os("AUCTION_COUNT").is_some() {
        eprintln!("{} {} {} {}", counts.bids, counts.rounds, counts.refused, counts.waiting);
    }
    let mut choice = vec![NONE; rows.persons()];
    for Held { person, arc } in holders {
        choice[person as usize] = arc;
    }
    certificate::optimal(&costs, &choice, &prices)
}

fn main() -> ExitCode {
    command::run("solve", answer_to)
}
