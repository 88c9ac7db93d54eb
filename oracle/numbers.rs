//! Case lines and answer lines as numbers.

use std::io::{self, Write};

/// The most numbers that a line may hold.
const MOST: usize = 1024;

/// The numbers of a line; nothing where the line is not of the form, or a number is past every place's range.
pub fn parse(line: &[u8]) -> Option<Vec<u64>> {
    let numbers: Option<Vec<u64>> = line.split(|&byte| byte == b' ').map(number).collect();
    numbers.filter(|numbers| numbers.len() <= MOST)
}

fn number(digits: &[u8]) -> Option<u64> {
    if digits.is_empty() {
        return None;
    }
    digits.iter().try_fold(0_u64, |value, byte| match byte {
        b'0'..=b'9' => value.checked_mul(10)?.checked_add((byte - b'0').into()),
        _ => None,
    })
}

/// Writes an answer line; `-` where there is no answer to compare with.
pub fn emit(out: &mut impl Write, answer: Option<&[u64]>) -> io::Result<()> {
    match answer {
        Some([first, rest @ ..]) => {
            write!(out, "{first}")?;
            for number in rest {
                write!(out, " {number}")?;
            }
            writeln!(out)
        }
        _ => writeln!(out, "-"),
    }
}
