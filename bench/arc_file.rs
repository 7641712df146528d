//! The arc file, read in plain Rust by the yardsticks of the commands that read one.

/// What a number beyond every limit counts as. Ten times as much is an i64 too.
const HUGE: i64 = 100_000_000_000_000_000;

pub const MOST_PERSONS: i64 = 10_000;
pub const MOST_COST: i64 = 1_000_000_000;
const MOST_ARCS: usize = 33_554_432;

/// An answer in place of the wanted one: its line and its status.
pub struct Refusal {
    pub line: String,
    pub status: u8,
}

#[cold]
pub fn refused(what: impl std::fmt::Display) -> Refusal {
    Refusal { line: format!("refused {what}"), status: 5 }
}

/// Sixteen bytes: the cost first, so that nothing is padded.
#[derive(Clone, Copy)]
pub struct Arc {
    pub cost: i64,
    pub object: u32,
    pub person: u32,
}

pub struct Problem {
    pub persons: usize,
    pub arcs: Vec<Arc>,
}

fn is_separator(byte: u8) -> bool {
    matches!(byte, 9..=13 | 26 | 32)
}

/// The tokens of a text, read from front to end.
struct Tokens<'a> {
    text: &'a [u8],
    at: usize,
    /// How many tokens were read.
    count: usize,
}

impl Tokens<'_> {
    /// Whether another token stands here; what parts tokens is passed over.
    #[inline]
    fn has_next(&mut self) -> bool {
        while let Some(byte) = self.text.get(self.at) {
            if !is_separator(*byte) {
                return true;
            }
            self.at += 1;
        }
        false
    }

    /// The number at this place, up to `HUGE`. The caller has asked for a token.
    #[inline(always)]
    fn number(&mut self) -> Result<i64, Refusal> {
        let rest = &self.text[self.at..];
        let mut value = 0u64;
        let mut digits = 0;
        while let Some(byte @ b'0'..=b'9') = rest.get(digits) {
            value = value.wrapping_mul(10).wrapping_add(u64::from(byte - b'0'));
            digits += 1;
        }
        // Nearly all tokens are a few digits and nothing else.
        if (1..=18).contains(&digits) && rest.get(digits).is_none_or(|byte| is_separator(*byte)) {
            self.at += digits;
            self.count += 1;
            return Ok(value as i64);
        }
        self.unusual_number()
    }

    /// A number with a sign, a point or many digits, or a token that is no number.
    #[inline(never)]
    fn unusual_number(&mut self) -> Result<i64, Refusal> {
        let rest = &self.text[self.at..];
        let token = &rest[..rest.iter().position(|byte| is_separator(*byte)).unwrap_or(rest.len())];
        self.at += token.len();
        self.count += 1;
        value_of(token).ok_or_else(|| refused(format_args!("number {}", self.count)))
    }
}

/// The value of a token, up to `HUGE`: a sign, digits, and a point with zeros after.
fn value_of(token: &[u8]) -> Option<i64> {
    let (negative, unsigned) = match token {
        [b'-', rest @ ..] => (true, rest),
        [b'+', rest @ ..] => (false, rest),
        _ => (false, token),
    };
    let digits = unsigned.iter().take_while(|byte| byte.is_ascii_digit()).count();
    let is_whole = match &unsigned[digits..] {
        [] => true,
        [b'.', zeros @ ..] => zeros.iter().all(|byte| *byte == b'0'),
        _ => false,
    };
    if digits == 0 || !is_whole {
        return None;
    }
    let value = unsigned[..digits].iter().fold(0, |value: i64, digit| (value * 10 + i64::from(digit - b'0')).min(HUGE));
    Some(if negative { -value } else { value })
}

/// The problem that the text is, or its first fault.
pub fn read_problem(text: &[u8]) -> Result<Problem, Refusal> {
    let mut tokens = Tokens { text, at: 0, count: 0 };
    if !tokens.has_next() {
        return Err(refused("empty"));
    }
    let persons = tokens.number()?;
    if !(1..=MOST_PERSONS).contains(&persons) {
        return Err(refused("count"));
    }
    let mut arcs = Vec::new();
    while tokens.has_next() {
        if arcs.len() == MOST_ARCS {
            return Err(refused("arcs"));
        }
        arcs.push(read_arc(&mut tokens, persons, arcs.len() + 1)?);
    }
    Ok(Problem { persons: persons as usize, arcs })
}

/// The arc of this place among all arcs, from 1.
#[inline(always)]
fn read_arc(tokens: &mut Tokens, persons: i64, place: usize) -> Result<Arc, Refusal> {
    let person = tokens.number()?;
    if !(1..=persons).contains(&person) {
        return Err(refused(format_args!("person {place}")));
    }
    if !tokens.has_next() {
        return Err(refused(format_args!("cut {}", tokens.count)));
    }
    let object = tokens.number()?;
    if !(1..=persons).contains(&object) {
        return Err(refused(format_args!("object {place}")));
    }
    if !tokens.has_next() {
        return Err(refused(format_args!("cut {}", tokens.count)));
    }
    let cost = tokens.number()?;
    if !(-MOST_COST..=MOST_COST).contains(&cost) {
        return Err(refused(format_args!("cost {place}")));
    }
    Ok(Arc { cost, object: object as u32 - 1, person: person as u32 - 1 })
}
