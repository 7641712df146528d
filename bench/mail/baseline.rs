//! The yardstick of `auction mail [SCRIPT]`: the same job in plain Rust, with no contract and no proof.
//!
//! It reads the script whole, looks for the same faults in the same order, keeps a queue for each lane, and
//! gives the same texts and statuses, but for want of memory, which ends it, and too many reads, which it does not count.
//! Built by `rustc --edition 2021 -O`.

use std::collections::VecDeque;
use std::fs::File;
use std::io::{self, BufWriter, Read, Write};
use std::process::ExitCode;

const MOST_BOXES: i64 = 1_000;
const MOST_NODES: i64 = 1_000_000;
const MOST_POSTS: i64 = 1_000_000_000_000;
const MOST_ITEM: i64 = 1_000_000_000_000_000_000;
const MOST_CALLS: usize = 1_000_000;

/// What a number beyond every limit counts as. Ten times as much is no i64, so more digits leave it as it is.
const HUGE: i64 = i64::MAX;

const USAGE: &str = "usage: auction mail [SCRIPT]";

/// Why a script is refused, in the words of the line that tells it.
type Refusal = String;

#[cold]
fn refused<T>(what: impl std::fmt::Display) -> Result<T, Refusal> {
    Err(format!("refused {what}"))
}

// ---- the script ----

#[derive(Clone, Copy)]
enum Call {
    Post { sender: u32, to: u32, item: i64, reserve: u32 },
    Take { at: u32 },
    Close { at: u32 },
}

struct Script {
    boxes: usize,
    senders: usize,
    nodes: usize,
    most: u64,
    calls: Vec<Call>,
}

fn is_separator(byte: u8) -> bool {
    matches!(byte, 9..=13 | 26 | 32)
}

/// The tokens of a text, read from front to end.
struct Tokens<'a> {
    rest: &'a [u8],
    /// How many tokens were read.
    count: usize,
}

impl<'a> Tokens<'a> {
    #[inline]
    fn next(&mut self) -> Option<&'a [u8]> {
        let start = self.rest.iter().position(|byte| !is_separator(*byte))?;
        let from = &self.rest[start..];
        let (token, rest) = from.split_at(from.iter().position(|byte| is_separator(*byte)).unwrap_or(from.len()));
        self.rest = rest;
        self.count += 1;
        Some(token)
    }

    /// The next operand, from the first number to the second.
    #[inline]
    fn operand(&mut self, least: i64, most: i64) -> Result<i64, Refusal> {
        let Some(token) = self.next() else {
            return refused(format_args!("cut {}", self.count));
        };
        match value_of(token) {
            None => refused(format_args!("word {}", self.count)),
            Some(value) if value < least || most < value => refused(format_args!("range {}", self.count)),
            Some(value) => Ok(value),
        }
    }

    /// The next operand, from 1 to this number, as a number from 0.
    #[inline]
    fn index(&mut self, most: usize) -> Result<u32, Refusal> {
        Ok(self.operand(1, most as i64)? as u32 - 1)
    }
}

/// The value of a token, up to `HUGE`.
#[inline]
fn value_of(token: &[u8]) -> Option<i64> {
    // Nearly all tokens are a few digits and nothing else.
    if (1..=18).contains(&token.len()) && token.iter().all(u8::is_ascii_digit) {
        return Some(token.iter().fold(0, |value, digit| value * 10 + i64::from(digit - b'0')));
    }
    unusual_value_of(token)
}

/// The value of a token with a sign, a point or many digits: digits, and a point with zeros after.
#[inline(never)]
fn unusual_value_of(token: &[u8]) -> Option<i64> {
    let (negative, unsigned) = match token {
        [b'-', rest @ ..] => (true, rest),
        [b'+', rest @ ..] => (false, rest),
        _ => (false, token),
    };
    let digits = unsigned.iter().take_while(|byte| byte.is_ascii_digit()).count();
    let is_whole = match &unsigned[digits..] {
        [] => true,
        [b'.', zeros @ ..] => zeros.iter().all(|byte| *byte == b'0'),
        _ => false,
    };
    if digits == 0 || !is_whole {
        return None;
    }
    let value = unsigned[..digits].iter().fold(0, |value: i64, digit| {
        value.checked_mul(10).and_then(|value| value.checked_add(i64::from(digit - b'0'))).unwrap_or(HUGE)
    });
    Some(if negative { -value } else { value })
}

fn read_script(text: &[u8]) -> Result<Script, Refusal> {
    let mut tokens = Tokens { rest: text, count: 0 };
    match tokens.next() {
        None => return refused("cut 0"),
        Some(b"mail") => {}
        Some(_) => return refused("word 1"),
    }
    let boxes = tokens.operand(1, MOST_BOXES)? as usize;
    let senders = tokens.operand(1, MOST_BOXES)? as usize;
    let nodes = tokens.operand(0, MOST_NODES)? as usize;
    let most = tokens.operand(0, MOST_POSTS)? as u64;
    let mut calls = Vec::new();
    while let Some(word) = tokens.next() {
        if calls.len() == MOST_CALLS {
            return refused("calls");
        }
        calls.push(read_call(&mut tokens, word, boxes, senders)?);
    }
    Ok(Script { boxes, senders, nodes, most, calls })
}

#[inline]
fn read_call(tokens: &mut Tokens, word: &[u8], boxes: usize, senders: usize) -> Result<Call, Refusal> {
    match word {
        b"post" => Ok(Call::Post {
            sender: tokens.index(senders)?,
            to: tokens.index(boxes)?,
            item: tokens.operand(-MOST_ITEM, MOST_ITEM)?,
            reserve: tokens.operand(0, MOST_NODES)? as u32,
        }),
        b"take" => Ok(Call::Take { at: tokens.index(boxes)? }),
        b"close" => Ok(Call::Close { at: tokens.index(boxes)? }),
        _ => refused(format_args!("word {}", tokens.count)),
    }
}

// ---- the mail ----

/// The letters of a lane that wait, the earliest first, and how many were posted and taken.
#[derive(Default)]
struct Lane {
    letters: VecDeque<i64>,
    posted: u64,
    taken: u64,
}

/// How many letters wait in a box, and the sender who is looked at first.
#[derive(Clone, Copy)]
struct MailBox {
    waiting: usize,
    turn: usize,
    accepting: bool,
}

#[derive(Clone, Copy)]
enum Reply {
    Posted(u64),
    Closed,
    Spent,
    Full,
    Letter { sender: u32, number: u64, item: i64 },
    Empty,
    Over,
    WasOpen(bool),
}

struct Mail {
    lanes: Vec<Lane>,
    boxes: Vec<MailBox>,
    senders: usize,
    free: usize,
    most: u64,
}

impl Mail {
    fn new(script: &Script) -> Mail {
        let empty = MailBox { waiting: 0, turn: 0, accepting: true };
        Mail {
            lanes: (0..script.boxes * script.senders).map(|_| Lane::default()).collect(),
            boxes: vec![empty; script.boxes],
            senders: script.senders,
            free: script.nodes,
            most: script.most,
        }
    }

    fn post(&mut self, sender: u32, to: u32, item: i64, reserve: u32) -> Reply {
        let state = &mut self.boxes[to as usize];
        if !state.accepting {
            return Reply::Closed;
        }
        let lane = &mut self.lanes[to as usize * self.senders + sender as usize];
        if lane.posted == self.most {
            return Reply::Spent;
        }
        if self.free <= reserve as usize {
            return Reply::Full;
        }
        self.free -= 1;
        state.waiting += 1;
        lane.posted += 1;
        lane.letters.push_back(item);
        Reply::Posted(lane.posted)
    }

    /// The box looks at its senders in rotating order, from the one after the last giver.
    fn take(&mut self, at: u32) -> Reply {
        let state = &mut self.boxes[at as usize];
        if state.waiting == 0 {
            return if state.accepting { Reply::Empty } else { Reply::Over };
        }
        let lanes = &mut self.lanes[at as usize * self.senders..][..self.senders];
        for sender in (state.turn..self.senders).chain(0..state.turn) {
            let lane = &mut lanes[sender];
            if let Some(item) = lane.letters.pop_front() {
                self.free += 1;
                state.waiting -= 1;
                state.turn = sender + 1;
                lane.taken += 1;
                return Reply::Letter { sender: sender as u32, number: lane.taken, item };
            }
        }
        unreachable!("a letter waits")
    }

    fn answer(&mut self, call: Call) -> Reply {
        match call {
            Call::Post { sender, to, item, reserve } => self.post(sender, to, item, reserve),
            Call::Take { at } => self.take(at),
            Call::Close { at } => Reply::WasOpen(std::mem::replace(&mut self.boxes[at as usize].accepting, false)),
        }
    }
}

fn write_reply(out: &mut impl Write, reply: Reply) -> io::Result<()> {
    match reply {
        Reply::Posted(number) => writeln!(out, "ok {number}"),
        Reply::Closed => out.write_all(b"closed\n"),
        Reply::Spent => out.write_all(b"spent\n"),
        Reply::Full => out.write_all(b"full\n"),
        Reply::Letter { sender, number, item } => writeln!(out, "letter {} {number} {item}", sender + 1),
        Reply::Empty => out.write_all(b"empty\n"),
        Reply::Over => out.write_all(b"over\n"),
        Reply::WasOpen(true) => out.write_all(b"was open\n"),
        Reply::WasOpen(false) => out.write_all(b"was closed\n"),
    }
}

// ---- the program ----

/// The name of the script, if any; `None` where the words are no command. After `--` a word is a name, whatever it is.
fn name(words: &[String]) -> Option<Option<&String>> {
    if words.first()? != "mail" {
        return None;
    }
    let mut names = Vec::new();
    let mut options_end = false;
    for word in &words[1..] {
        if !options_end && word == "--" {
            options_end = true;
        } else if !options_end && word.len() > 1 && word.starts_with('-') {
            return None;
        } else {
            names.push(word);
        }
    }
    match names[..] {
        [] => Some(None),
        [script] => Some(Some(script)),
        _ => None,
    }
}

/// Each reply is kept before the first one is written, as in the program that this is the yardstick of.
fn replies_to(reader: &mut dyn Read, size: usize) -> Result<Vec<Reply>, Refusal> {
    let script = {
        let mut text = Vec::with_capacity(size);
        if reader.read_to_end(&mut text).is_err() {
            return refused("read");
        }
        read_script(&text)?
    };
    let mut mail = Mail::new(&script);
    Ok(script.calls.iter().map(|call| mail.answer(*call)).collect())
}

fn tell(replies: Result<Vec<Reply>, Refusal>) -> io::Result<u8> {
    let mut out = BufWriter::new(io::stdout().lock());
    let status = match replies {
        Ok(replies) => {
            replies.iter().try_for_each(|reply| write_reply(&mut out, *reply))?;
            0
        }
        Err(refusal) => {
            writeln!(out, "{refusal}")?;
            5
        }
    };
    out.flush()?;
    Ok(status)
}

fn main() -> ExitCode {
    let words: Option<Vec<String>> = std::env::args_os().skip(1).map(|word| word.into_string().ok()).collect();
    let Some(name) = words.as_deref().and_then(name) else {
        eprintln!("{USAGE}");
        return ExitCode::from(2);
    };
    let replies = match name {
        None => replies_to(&mut io::stdin(), 0),
        Some(name) => match File::open(name) {
            Ok(mut file) => {
                let size = file.metadata().map_or(0, |data| data.len() as usize + 1);
                replies_to(&mut file, size)
            }
            Err(error) => {
                eprintln!("auction: {name}: {error}");
                return ExitCode::from(5);
            }
        },
    };
    ExitCode::from(tell(replies).unwrap_or(8))
}
