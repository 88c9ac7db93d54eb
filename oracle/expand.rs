//! expand: copies standard input, but writes each word that begins with `@` as the 135 numbers of a position (CASES.md's
//! `P`), and each that begins with `$` as the bytes of a buffer. Lines that begin with `#` stay as they are.
//! The first is `@BOARD` and then changes, each after a comma. The second is `$LEN:TEXT`, a buffer of LEN bytes that begins
//! with a text, where `_` stands for a space; the bytes after it are as CASES.md has them before a text is written.
//!
//! BOARD is the board of an SFEN text, or a name: `start`, `empty`, or one that an earlier line `@NAME = BOARD,CHANGE..`
//! has given. Black is to move, the ply is 1, hands and last move are empty, unless changed:
//! `41=5` puts cell 5 on square 41. The sets and king squares follow the cells; nothing follows the other changes:
//! `b4=2`, `w4=2` Black's, White's hand count of kind 4; `side=2`; `ply=7`; `last=1:61:60:0` the last move;
//! `bk=45`, `wk=0` the king squares; `b^41`, `w^41`, `k4^41` square 41 in or out of Black's, White's, kind 4's set,
//! where 82 to 127 are the stray bits of the second word and 0 that of the first.
//!
//! It knows nothing of shogi_core, so that words.txt rests on document 01 only.

use std::collections::HashMap;
use std::io::{self, BufRead};

const START: &str = "@start = lnsgkgsnl/1r5b1/ppppppppp/9/9/9/PPPPPPPPP/1B5R1/LNSGKGSNL";
const EMPTY: &str = "@empty = 9/9/9/9/9/9/9/9/9";

/// The places in `P`, from 0 on.
const SETS: usize = 81;
const KINGS: usize = 113;
const HANDS: usize = 115;
const SIDE: usize = 129;
const PLY: usize = 130;
const LAST: usize = 131;

type Numbers = [u64; 135];

fn main() -> io::Result<()> {
    let mut names = Names::new();
    define(&mut names, START);
    define(&mut names, EMPTY);
    for line in io::stdin().lock().lines() {
        let line = line?;
        if line.starts_with('#') {
            println!("{line}");
        } else if !define(&mut names, &line) {
            let words = line.split(' ').map(|word| expanded(&names, word));
            println!("{}", words.collect::<Vec<_>>().join(" "));
        }
    }
    Ok(())
}

/// The text that each name stands for.
type Names = HashMap<String, String>;

/// Takes a line as a definition, and says whether it is one.
fn define(names: &mut Names, line: &str) -> bool {
    let definition = line
        .strip_prefix('@')
        .and_then(|line| line.split_once(" = "));
    if let Some((name, text)) = definition {
        names.insert(name.to_string(), resolved(names, text));
    }
    definition.is_some()
}

/// The text with its board in place of a name.
fn resolved(names: &Names, text: &str) -> String {
    let (board, changes) = text.split_at(text.find(',').unwrap_or(text.len()));
    names.get(board).map_or(board, String::as_str).to_string() + changes
}

fn expanded(names: &Names, word: &str) -> String {
    let numbers = if let Some(text) = word.strip_prefix('@') {
        position(&resolved(names, text)).map(Vec::from)
    } else if let Some(text) = word.strip_prefix('$') {
        buffer(text)
    } else {
        return word.to_string();
    };
    let Some(numbers) = numbers else {
        eprintln!("expand: not a position or buffer: {word}");
        std::process::exit(1);
    };
    let digits: Vec<String> = numbers.iter().map(u64::to_string).collect();
    digits.join(" ")
}

/// The bytes of a buffer; nothing where the text is longer.
fn buffer(word: &str) -> Option<Vec<u64>> {
    let (len, text) = word.split_once(':')?;
    let mut bytes: Vec<u64> = (0..len.parse().ok()?)
        .map(|i: u64| (7 * i + 13) % 256)
        .collect();
    for (place, byte) in bytes.get_mut(..text.len())?.iter_mut().zip(text.bytes()) {
        *place = if byte == b'_' { b' ' } else { byte }.into();
    }
    Some(bytes)
}

fn position(text: &str) -> Option<Numbers> {
    let mut parts = text.split(',');
    let mut p = board(parts.next()?)?;
    let (cells, others): (Vec<_>, Vec<_>) =
        parts.partition(|change| change.starts_with(|first: char| first.is_ascii_digit()));
    for change in cells {
        let (n, cell) = change.split_once('=')?;
        let place = n.parse::<usize>().ok()?.checked_sub(1)?;
        *p[..SETS].get_mut(place)? = cell.parse().ok()?;
    }
    follow(&mut p);
    for change in others {
        if let Some((set, n)) = change.split_once('^') {
            let n = n.parse().ok().filter(|&n| n < 128)?;
            flip(&mut p, set_number(set)?, n);
        } else {
            let (name, values) = change.split_once('=')?;
            for (place, value) in (place(name)?..).zip(values.split(':')) {
                *p.get_mut(place)? = value.parse().ok()?;
            }
        }
    }
    Some(p)
}

/// The position with these cells; its sets and king squares are still empty.
fn board(text: &str) -> Option<Numbers> {
    let mut p = [0; 135];
    p[SIDE] = 1;
    p[PLY] = 1;
    for (rank, row) in (1..).zip(text.split('/')) {
        let (mut file, mut promoted) = (9, false);
        for letter in row.chars() {
            if let Some(run) = letter.to_digit(10) {
                file -= run as usize;
            } else if letter == '+' {
                promoted = true;
            } else {
                let letters = if promoted { "PLNS.BR" } else { "PLNSGBRK" };
                let kind = 1 + letters.find(letter.to_ascii_uppercase())? as u64;
                // There is no promoted gold, so the numbers close up after the silver.
                let kind = match (promoted, kind) {
                    (true, ..=4) => kind + 8,
                    (true, _) => kind + 7,
                    _ => kind,
                };
                p[9 * file - 9 + rank - 1] = kind + if letter.is_lowercase() { 16 } else { 0 };
                (file, promoted) = (file - 1, false);
            }
        }
    }
    Some(p)
}

/// Has the sets and king squares follow the cells.
fn follow(p: &mut Numbers) {
    for n in (1..=81).rev() {
        let cell = p[n - 1];
        if let 1..=14 | 17..=30 = cell {
            let (color, kind) = (cell as usize / 16, cell as usize % 16);
            flip(p, color, n);
            flip(p, 1 + kind, n);
            if kind == 8 {
                p[KINGS + color] = n as u64;
            }
        }
    }
}

/// Puts a square into a set or takes it out; sets 0 and 1 are the colours', 2 to 15 the kinds'.
fn flip(p: &mut Numbers, set: usize, n: usize) {
    let bit = match n {
        0 => 63,
        ..=63 => n - 1,
        _ => n,
    };
    p[SETS + 2 * set + bit / 64] ^= 1 << (bit % 64);
}

fn set_number(name: &str) -> Option<usize> {
    match name {
        "b" => Some(0),
        "w" => Some(1),
        _ => {
            let kind: usize = name.strip_prefix('k')?.parse().ok()?;
            (1..=14).contains(&kind).then_some(1 + kind)
        }
    }
}

fn place(name: &str) -> Option<usize> {
    match name {
        "bk" => Some(KINGS),
        "wk" => Some(KINGS + 1),
        "side" => Some(SIDE),
        "ply" => Some(PLY),
        "last" => Some(LAST),
        _ => {
            let (hand, kind) = name.split_at_checked(1)?;
            let kind: usize = kind.parse().ok()?;
            let first = match hand {
                "b" => HANDS,
                "w" => HANDS + 7,
                _ => return None,
            };
            (1..=7).contains(&kind).then_some(first + kind - 1)
        }
    }
}
