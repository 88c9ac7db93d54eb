//! Cases about sets of squares, squares and kinds: ops 1 to 17.

use crate::{Chance, Lines};
use std::io;

/// The two words of a set.
type Words = (u64, u64);

/// The bits of each word that are squares.
const FULL: Words = ((1 << 63) - 1, (1 << 18) - 1);

/// First every case of the small families, then cases over words drawn by chance.
pub fn write(lines: &mut Lines, chance: &mut Chance) -> io::Result<()> {
    small_numbers(lines)?;
    single_squares(lines)?;
    edge_words(lines)?;
    while lines.left > 0 {
        drawn_words(lines, chance)?;
    }
    Ok(())
}

impl Lines {
    /// Count, not, flip and pop.
    fn put_alone(&mut self, (a, b): Words) -> io::Result<()> {
        [3, 9, 12, 13]
            .into_iter()
            .try_for_each(|op| self.put(&[op, a, b]))
    }

    /// Or, and, xor and andnot.
    fn put_both(&mut self, (a, b): Words, (c, d): Words) -> io::Result<()> {
        (5..=8).try_for_each(|op| self.put(&[op, a, b, c, d]))
    }

    /// A shift, unless it is one of document 01's two exceptions: right by 0 with 8A, right by 1 with 9A.
    fn put_shift(&mut self, (a, b): Words, direction: u64, distance: u64) -> io::Result<()> {
        if direction == 4 && distance <= 1 && b & 1 << (9 * distance) != 0 {
            return Ok(());
        }
        self.put(&[14, a, b, direction, distance])
    }

    fn put_all_shifts(&mut self, set: Words) -> io::Result<()> {
        for direction in 1..=4 {
            for distance in 0..=9 {
                self.put_shift(set, direction, distance)?;
            }
        }
        Ok(())
    }
}

/// The set that holds the squares of which `holds` is true.
fn set(holds: impl Fn(u64) -> bool) -> Words {
    (1..=81)
        .filter(|&n| holds(n))
        .fold((0, 0), |(a, b), n| match n {
            ..=63 => (a | 1 << (n - 1), b),
            _ => (a, b | 1 << (n - 64)),
        })
}

fn single(n: u64) -> Words {
    set(|m| m == n)
}

/// Every case of the calls that take small numbers only, and each file's pattern read back.
fn small_numbers(lines: &mut Lines) -> io::Result<()> {
    lines.put(&[1])?;
    for n in 0..=255 {
        lines.put(&[2, n])?;
        lines.put(&[16, n])?;
        lines.put(&[17, n])?;
    }
    for file in (0..=12).chain([255]) {
        for rank in (0..=12).chain([255]) {
            lines.put(&[15, file, rank])?;
        }
    }
    for file in 1..=9 {
        for pattern in 0..512 {
            lines.put(&[10, file, pattern])?;
            let (a, b) = set(|n| (n - 1) / 9 + 1 == file && pattern >> ((n - 1) % 9) & 1 == 1);
            lines.put(&[11, a, b, file])?;
        }
    }
    Ok(())
}

/// Every call on every single square, and on every pair of them.
fn single_squares(lines: &mut Lines) -> io::Result<()> {
    for n in 1..=81 {
        let one = single(n);
        lines.put_alone(one)?;
        lines.put_all_shifts(one)?;
        for file in 1..=9 {
            lines.put(&[11, one.0, one.1, file])?;
        }
        for m in 1..=81 {
            lines.put(&[4, one.0, one.1, m])?;
            lines.put_both(one, single(m))?;
        }
    }
    Ok(())
}

/// Every call on words at the edges: none, all but a few, every other square, ranks, files, the seam between the words.
fn edge_words(lines: &mut Lines) -> io::Result<()> {
    let (first, second) = FULL;
    let mut edges = vec![
        (0, 0),
        FULL,
        (first, 0),
        (0, second),
        (first - 1, second),
        (first, second - 1),
    ];
    edges.extend((0..2).map(|odd| set(|n| n % 2 == odd)));
    edges.extend((0..9).map(|rank| set(|n| (n - 1) % 9 == rank)));
    edges.extend((0..9).map(|file| set(|n| (n - 1) / 9 == file)));
    edges.extend((1..16).map(|seam| set(|n| (62..=65).contains(&n) && seam >> (n - 62) & 1 == 1)));
    for &edge in &edges {
        lines.put_alone(edge)?;
        lines.put_all_shifts(edge)?;
        for file in 1..=9 {
            lines.put(&[11, edge.0, edge.1, file])?;
        }
        for n in 0..=255 {
            lines.put(&[4, edge.0, edge.1, n])?;
        }
        for &other in &edges {
            lines.put_both(edge, other)?;
        }
    }
    Ok(())
}

/// Every call that takes a set, once, on words drawn by chance.
fn drawn_words(lines: &mut Lines, chance: &mut Chance) -> io::Result<()> {
    lines.put_alone(chance.words())?;
    lines.put_both(chance.words(), chance.words())?;
    let (a, b) = chance.words();
    lines.put(&[4, a, b, chance.below(83)])?;
    let (a, b) = chance.words();
    lines.put(&[11, a, b, 1 + chance.below(9)])?;
    // Shifts have most ways to go wrong, so each direction gets its own words.
    for direction in 1..=4 {
        lines.put_shift(chance.words(), direction, chance.below(10))?;
    }
    Ok(())
}

impl Chance {
    /// Words of one of five kinds: even, dense, sparse, a few squares, files 7 and 8 only (on both sides of the seam).
    fn words(&mut self) -> Words {
        let (a, b) = (self.next(), self.next());
        let (c, d) = (self.next(), self.next());
        let (a, b) = match self.below(5) {
            0 => (a, b),
            1 => (a | c, b | d),
            2 => (a & c, b & d),
            3 => {
                let few = [a % 81 + 1, b % 81 + 1, c % 81 + 1];
                set(|n| few.contains(&n))
            }
            _ => (a & 0x1ff << 54, b & 0x1ff),
        };
        (a & FULL.0, b & FULL.1)
    }
}
