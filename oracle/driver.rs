//! The Rust side: answers each case line on standard input by shogi_core, in the form that CASES.md gives.
//! A line outside document 01's shared domain is answered by `-`. With `--any` the crate is asked there too,
//! except where the call would be undefined behaviour.

mod names;
mod numbers;
mod position;
mod positions;
mod sets;

use std::io::{self, BufRead, BufWriter, Write};

fn main() -> io::Result<()> {
    let any = match std::env::args().skip(1).collect::<Vec<_>>().as_slice() {
        [] => false,
        [flag] if flag == "--any" => true,
        _ => {
            eprintln!("usage: driver [--any]");
            std::process::exit(2);
        }
    };
    let mut input = io::stdin().lock();
    let mut out = BufWriter::new(io::stdout().lock());
    let mut line = Vec::new();
    while input.read_until(b'\n', &mut line)? > 0 {
        let end = line.strip_suffix(b"\n").unwrap_or(&line);
        let answer = numbers::parse(end).and_then(|case| answer(&case, any));
        numbers::emit(&mut out, answer.as_deref())?;
        line.clear();
    }
    out.flush()
}

fn answer(case: &[u64], any: bool) -> Option<Vec<u64>> {
    match case[0] {
        1..=17 => sets::answer(case, any),
        20..=39 | 49 | 90 => positions::answer(case, any),
        _ => None,
    }
}
