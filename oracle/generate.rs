//! generate N SEED: writes N case lines, all in document 01's shared domain: two fifths about sets of squares, two fifths
//! about positions, the rest about texts and games. The same N and SEED give the same lines.

mod generate_positions;
mod generate_sets;
mod generate_texts;
mod names;
mod position;
mod positions;

use std::io::{self, BufWriter, StdoutLock, Write};

fn main() -> io::Result<()> {
    let arguments: Result<Vec<u64>, _> =
        std::env::args().skip(1).map(|text| text.parse()).collect();
    let Ok([count, seed]) = arguments.as_deref() else {
        eprintln!("usage: generate N SEED");
        std::process::exit(2);
    };
    let mut chance = Chance(*seed);
    let fifth = count / 5;
    let mut lines = Lines {
        left: count - 3 * fifth,
        out: BufWriter::new(io::stdout().lock()),
    };
    generate_sets::write(&mut lines, &mut chance)?;
    lines.left = 2 * fifth;
    generate_positions::write(&mut lines, &mut chance)?;
    lines.left = fifth;
    generate_texts::write(&mut lines, &mut chance)?;
    lines.out.flush()
}

/// The output, with the number of lines still to be written. Further ones are dropped.
struct Lines {
    left: u64,
    out: BufWriter<StdoutLock<'static>>,
}

impl Lines {
    fn put(&mut self, case: &[u64]) -> io::Result<()> {
        if self.left == 0 {
            return Ok(());
        }
        self.left -= 1;
        write!(self.out, "{}", case[0])?;
        for number in &case[1..] {
            write!(self.out, " {number}")?;
        }
        writeln!(self.out)
    }
}

/// The generator splitmix64.
struct Chance(u64);

impl Chance {
    fn next(&mut self) -> u64 {
        self.0 = self.0.wrapping_add(0x9e37_79b9_7f4a_7c15);
        let x = (self.0 ^ self.0 >> 30).wrapping_mul(0xbf58_476d_1ce4_e5b9);
        let x = (x ^ x >> 27).wrapping_mul(0x94d0_49bb_1331_11eb);
        x ^ x >> 31
    }

    /// A number below `bound`, which is small against 2^64, so that what is left over does not matter.
    fn below(&mut self, bound: u64) -> u64 {
        self.next() % bound
    }
}
