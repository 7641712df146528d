//! The yardstick of `auction check FILE [CERT]`: the same job in plain Rust, with no contract and no proof.
//!
//! It reads each file whole, looks for the same faults in the same order, and gives the same texts and statuses, but for
//! want of memory, which ends it, and too many reads, which it does not count. Built by `rustc --edition 2021 -O`.

#[path = "../arc_file.rs"]
mod arc_file;

use arc_file::{read_problem, refused, Problem, Refusal, MOST_COST, MOST_PERSONS};
use std::fs::File;
use std::io::{self, Read, Write};
use std::process::ExitCode;

const MOST_PRICE: i64 = 1 << 61;

const USAGE: &str = "usage: auction check FILE [CERT]";

#[cold]
fn invalid(what: impl std::fmt::Display) -> Refusal {
    Refusal { line: format!("invalid {what}"), status: 3 }
}

// ---- the certificate ----

#[derive(Clone, Copy)]
struct Pick {
    cost: i64,
    object: u32,
}

struct Optimal {
    cost: i64,
    choice: Vec<Pick>,
    prices: Vec<i64>,
}

/// Both rise.
struct Infeasible {
    persons: Vec<u32>,
    objects: Vec<u32>,
}

enum Certificate {
    Optimal(Optimal),
    Infeasible(Infeasible),
}

/// The words of the next line: what stands before its line end, parted by single spaces.
struct Lines<'a> {
    rest: &'a [u8],
    /// How many lines were asked for.
    count: usize,
}

impl<'a> Lines<'a> {
    fn fault(&self) -> Refusal {
        refused(format_args!("certificate {}", self.count))
    }

    /// The numbers of the next line, which begins with these words. `wanted` says from where to where each may go.
    fn numbers<const N: usize>(&mut self, front: &[u8], wanted: [(i64, i64); N]) -> Result<[i64; N], Refusal> {
        self.count += 1;
        let mut rest = self.rest.strip_prefix(front).ok_or_else(|| self.fault())?;
        let mut values = [0; N];
        for (place, (least, most)) in wanted.into_iter().enumerate() {
            let (value, used) = plain_number(rest).ok_or_else(|| self.fault())?;
            let stop = if place + 1 == N { b'\n' } else { b' ' };
            if rest.get(used) != Some(&stop) || value < least || most < value {
                return Err(self.fault());
            }
            values[place] = value;
            rest = &rest[used + 1..];
        }
        self.rest = rest;
        Ok(values)
    }
}

/// The number in front, in its one spelling, and how many bytes it has.
fn plain_number(bytes: &[u8]) -> Option<(i64, usize)> {
    let sign = usize::from(bytes.first() == Some(&b'-'));
    let digits = bytes[sign..].iter().take(20).take_while(|byte| byte.is_ascii_digit()).count();
    let spelled = &bytes[..sign + digits];
    if digits == 0 || spelled[sign] == b'0' && (digits > 1 || sign == 1) {
        return None;
    }
    let value = std::str::from_utf8(spelled).ok()?.parse().ok()?;
    Some((value, spelled.len()))
}

fn read_certificate(text: &[u8]) -> Result<Certificate, Refusal> {
    let mut lines = Lines { rest: text, count: 0 };
    lines.numbers(b"auction ", [(1, 1)])?;
    let certificate = if lines.rest.starts_with(b"infeasible ") {
        Certificate::Infeasible(read_infeasible(&mut lines)?)
    } else {
        Certificate::Optimal(read_optimal(&mut lines)?)
    };
    if !lines.rest.is_empty() {
        lines.count += 1;
        return Err(lines.fault());
    }
    Ok(certificate)
}

fn read_optimal(lines: &mut Lines) -> Result<Optimal, Refusal> {
    let [persons, cost] = lines.numbers(b"optimal ", [(1, MOST_PERSONS), (i64::MIN, i64::MAX)])?;
    let mut choice = Vec::with_capacity(persons as usize);
    for person in 1..=persons {
        let wanted = [(person, person), (1, MOST_PERSONS), (-MOST_COST, MOST_COST)];
        let [_, object, cost] = lines.numbers(b"assign ", wanted)?;
        choice.push(Pick { cost, object: object as u32 - 1 });
    }
    let mut prices = Vec::with_capacity(persons as usize);
    for object in 1..=persons {
        let [_, price] = lines.numbers(b"price ", [(object, object), (0, MOST_PRICE)])?;
        prices.push(price);
    }
    Ok(Optimal { cost, choice, prices })
}

fn read_infeasible(lines: &mut Lines) -> Result<Infeasible, Refusal> {
    let [persons, objects] = lines.numbers(b"infeasible ", [(1, MOST_PERSONS), (0, MOST_PERSONS)])?;
    Ok(Infeasible { persons: read_rising(lines, b"person ", persons)?, objects: read_rising(lines, b"object ", objects)? })
}

/// So many numbers, a line each. Each one is above the one before it, and leaves room for those after it.
fn read_rising(lines: &mut Lines, front: &[u8], count: i64) -> Result<Vec<u32>, Refusal> {
    let mut numbers = Vec::with_capacity(count as usize);
    let mut least = 1;
    for behind in (0..count).rev() {
        let [number] = lines.numbers(front, [(least, MOST_PERSONS - behind)])?;
        numbers.push(number as u32 - 1);
        least = number + 1;
    }
    Ok(numbers)
}

// ---- the claim ----

/// What the claim says, where all of it holds.
fn check(problem: &Problem, certificate: &Certificate) -> Result<String, Refusal> {
    match certificate {
        Certificate::Optimal(claim) => check_optimal(problem, claim),
        Certificate::Infeasible(claim) => check_infeasible(problem, claim),
    }
}

fn check_optimal(problem: &Problem, claim: &Optimal) -> Result<String, Refusal> {
    if claim.choice.len() != problem.persons {
        return Err(invalid("size"));
    }
    let picks_found = find_picks(problem, claim);
    if let Some(person) = picks_found.iter().position(|found| !found) {
        return Err(invalid(format_args!("arc {}", person + 1)));
    }
    if let Some(object) = repeated_object(claim) {
        return Err(invalid(format_args!("twice {}", object + 1)));
    }
    let cost: i128 = claim.choice.iter().map(|pick| i128::from(pick.cost)).sum();
    if cost != i128::from(claim.cost) {
        return Err(invalid("cost"));
    }
    if let Some(person) = find_bettered(problem, claim).iter().position(|bettered| *bettered) {
        return Err(invalid(format_args!("slack {}", person + 1)));
    }
    Ok(format!("optimal {}", claim.cost))
}

fn check_infeasible(problem: &Problem, claim: &Infeasible) -> Result<String, Refusal> {
    let (persons, objects) = (claim.persons.len(), claim.objects.len());
    match (flags_of(&claim.persons, problem.persons), flags_of(&claim.objects, problem.persons)) {
        (Some(blamed), Some(known)) if objects < persons && know_only(problem, &blamed, &known) => {
            Ok(format!("infeasible {persons} {objects}"))
        }
        _ => Err(invalid("hall")),
    }
}

/// Of each number below this one, whether it is listed; `None` where another one is.
fn flags_of(numbers: &[u32], count: usize) -> Option<Vec<bool>> {
    let mut flags = vec![false; count];
    for number in numbers {
        *flags.get_mut(*number as usize)? = true;
    }
    Some(flags)
}

/// Whether these persons' arcs lead to these objects alone.
fn know_only(problem: &Problem, persons: &[bool], objects: &[bool]) -> bool {
    problem.arcs.iter().all(|arc| !persons[arc.person as usize] || objects[arc.object as usize])
}

/// Of each person, whether the pick is one of the person's arcs.
fn find_picks(problem: &Problem, claim: &Optimal) -> Vec<bool> {
    let mut found = vec![false; problem.persons];
    for arc in &problem.arcs {
        let pick = claim.choice[arc.person as usize];
        if pick.object == arc.object && pick.cost == arc.cost {
            found[arc.person as usize] = true;
        }
    }
    found
}

/// The object of the first person whose object an earlier one has.
fn repeated_object(claim: &Optimal) -> Option<u32> {
    let mut taken = vec![false; claim.choice.len()];
    let objects = claim.choice.iter().map(|pick| pick.object);
    objects.into_iter().find(|object| std::mem::replace(&mut taken[*object as usize], true))
}

/// Of each person, whether an arc is better than the pick by more than one unit of the scaled cost.
fn find_bettered(problem: &Problem, claim: &Optimal) -> Vec<bool> {
    let scale = problem.persons as i64 + 1;
    let value = |cost: i64, object: u32| scale * cost + claim.prices[object as usize];
    let picked: Vec<i64> = claim.choice.iter().map(|pick| value(pick.cost, pick.object)).collect();
    let mut bettered = vec![false; problem.persons];
    for arc in &problem.arcs {
        if picked[arc.person as usize] > value(arc.cost, arc.object) + 1 {
            bettered[arc.person as usize] = true;
        }
    }
    bettered
}

// ---- the program ----

/// The names of the two files; `None` where the words are no command. After `--` a word is a name, whatever it is.
fn names(words: &[String]) -> Option<(&String, Option<&String>)> {
    if words.first()? != "check" {
        return None;
    }
    let mut names = Vec::new();
    let mut options_end = false;
    for word in &words[1..] {
        if !options_end && word == "--" {
            options_end = true;
        } else if !options_end && word.len() > 1 && word.starts_with('-') {
            return None;
        } else {
            names.push(word);
        }
    }
    match names[..] {
        [first] => Some((first, None)),
        [first, second] => Some((first, Some(second))),
        _ => None,
    }
}

fn open(name: &str) -> Option<File> {
    File::open(name).map_err(|error| eprintln!("auction: {name}: {error}")).ok()
}

fn read_whole(reader: &mut dyn Read) -> Result<Vec<u8>, Refusal> {
    let mut bytes = Vec::new();
    reader.read_to_end(&mut bytes).map_err(|_| refused("read"))?;
    Ok(bytes)
}

fn check_files(first: &mut File, second: &mut dyn Read) -> Result<String, Refusal> {
    // A block, so that the text is given back before the certificate is read.
    let problem = {
        let mut text = Vec::with_capacity(first.metadata().map_or(0, |data| data.len() as usize + 1));
        first.read_to_end(&mut text).map_err(|_| refused("read"))?;
        read_problem(&text)?
    };
    let certificate = read_certificate(&read_whole(second)?)?;
    check(&problem, &certificate)
}

fn main() -> ExitCode {
    let words: Option<Vec<String>> = std::env::args_os().skip(1).map(|word| word.into_string().ok()).collect();
    let Some((first, second)) = words.as_deref().and_then(names) else {
        eprintln!("{USAGE}");
        return ExitCode::from(2);
    };
    let Some(mut file) = open(first) else {
        return ExitCode::from(5);
    };
    let mut certificate: Box<dyn Read> = match second.map(|name| open(name)) {
        None => Box::new(io::stdin()),
        Some(Some(file)) => Box::new(file),
        Some(None) => return ExitCode::from(5),
    };
    let (line, status) = match check_files(&mut file, &mut certificate) {
        Ok(claim) => (format!("valid {claim}"), 0),
        Err(refusal) => (refusal.line, refusal.status),
    };
    match io::stdout().write_all(format!("{line}\n").as_bytes()).and_then(|()| io::stdout().flush()) {
        Ok(()) => ExitCode::from(status),
        Err(_) => ExitCode::from(8),
    }
}
