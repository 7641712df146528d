//! Writes a script of a mail: `mail` and its calls, posts and takes.
//!
//!     generate BOXES SENDERS BACKLOG CALLS SEED FILE
//!
//! Three of four calls are posts until BACKLOG letters wait; from then on their number goes up and down below BACKLOG. A sender
//! and a box are drawn for each post; a take goes to a box that has a letter, so each take gives one. BACKLOG is the mail's
//! room too, so no post is refused.

#[allow(dead_code)]
#[path = "../random.rs"]
mod random;

use random::Random;
use std::fs::File;
use std::io::{BufWriter, Result, Write};

const MOST_ITEM: u64 = 1_000_000_000;

struct Shape {
    boxes: u64,
    senders: u64,
    backlog: usize,
    calls: u64,
}

fn write_script(shape: &Shape, random: &mut Random, out: &mut impl Write) -> Result<()> {
    writeln!(out, "mail {} {} {} 1000000000000", shape.boxes, shape.senders, shape.backlog)?;
    // The box of each letter that waits.
    let mut waiting = Vec::with_capacity(shape.backlog);
    for _ in 0..shape.calls {
        if waiting.is_empty() || waiting.len() < shape.backlog && random.below(4) > 0 {
            let (sender, to) = (random.below(shape.senders) + 1, random.below(shape.boxes) + 1);
            writeln!(out, "post {sender} {to} {} 0", random.below(MOST_ITEM))?;
            waiting.push(to);
        } else {
            let place = random.below(waiting.len() as u64) as usize;
            writeln!(out, "take {}", waiting.swap_remove(place))?;
        }
    }
    out.flush()
}

fn main() -> Result<()> {
    let words: Vec<String> = std::env::args().skip(1).collect();
    let [numbers @ .., file] = &words[..] else {
        panic!("usage: generate BOXES SENDERS BACKLOG CALLS SEED FILE");
    };
    let numbers: Vec<u64> = numbers.iter().map(|word| word.parse().expect("a number")).collect();
    let &[boxes, senders, backlog, calls, seed] = &numbers[..] else {
        panic!("usage: generate BOXES SENDERS BACKLOG CALLS SEED FILE");
    };
    assert!(boxes > 0 && senders > 0 && backlog > 0, "boxes, senders and the backlog are not 0");
    let shape = Shape { boxes, senders, backlog: backlog as usize, calls };
    write_script(&shape, &mut Random(seed), &mut BufWriter::new(File::create(file)?))
}
