//! Cases about texts and games: ops 39 and 90. Every position comes from the crate, as in generate_positions.rs.

use crate::generate_positions::{after, empty, set_up, start};
use crate::position::{build, CELLS, LIMITS};
use crate::positions::text;
use crate::{Chance, Lines};
use std::io;

/// The most moves that a line of 1,024 numbers holds after the op and the first position.
const MOST_MOVES: u64 = 255;

/// First the positions that stand at an edge, then by turns positions and games drawn by chance.
pub fn write(lines: &mut Lines, chance: &mut Chance) -> io::Result<()> {
    for position in [start(), empty()] {
        for len in 0..=512 {
            lines.put_call(39, &position, &[len])?;
        }
        every_ply(lines, &position)?;
    }
    for first in 0..2 {
        for moves in [0, 1, MOST_MOVES] {
            game(lines, chance, first, moves)?;
        }
    }
    while lines.left > 0 {
        let moves = chance.below(1 + MOST_MOVES);
        let reached = game(lines, chance, 1, moves)?;
        texts(lines, chance, &reached)?;
        let position = set_up(chance);
        texts(lines, chance, &position)?;
        for _ in 0..4 {
            let position = dealt(chance);
            texts(lines, chance, &position)?;
        }
        let moves = chance.below(4);
        game(lines, chance, 0, moves)?;
    }
    Ok(())
}

/// The text in buffers of about its length, in none, in the largest, and in one drawn by chance.
fn texts(lines: &mut Lines, chance: &mut Chance, position: &[u64]) -> io::Result<()> {
    let length = text(&build(position).unwrap()).len() as u64;
    for len in [length - 1, length, length + 1, 0, 512, chance.below(513)] {
        lines.put_call(39, position, &[len])?;
    }
    Ok(())
}

/// The text at plies of every length, at each length the first and the last.
fn every_ply(lines: &mut Lines, position: &[u64]) -> io::Result<()> {
    for ply in [
        1, 2, 9, 10, 11, 99, 100, 101, 255, 256, 999, 1000, 9999, 10000, 65533, 65534,
    ] {
        let position = after(38, position, &[ply]).unwrap();
        lines.put_call(39, &position, &[80])?;
    }
    Ok(())
}

/// Plays a game as one line, and gives the position that it reaches; refused moves are among its moves.
fn game(lines: &mut Lines, chance: &mut Chance, first: u64, moves: u64) -> io::Result<Vec<u64>> {
    let mut position = if first == 0 { empty() } else { start() };
    let mut case = vec![90, first];
    for _ in 0..moves {
        let mv = chance.mv(&position);
        case.extend(mv);
        position = after(34, &position, &mv).unwrap_or(position);
    }
    lines.put(&case)?;
    Ok(position)
}

/// A position to which a full set is dealt: each piece is left out, held by Black or White, or stands on a square, promoted
/// or not. How often each happens is drawn first, and may be never: so some boards are empty, some hands hold all of a kind,
/// and on some boards every piece is promoted.
fn dealt(chance: &mut Chance) -> Vec<u64> {
    let mut position = empty();
    let mut places = vec![chance.below(5)];
    for place in 0..5 {
        let times = chance.among(&[0, 0, 1, 4]);
        places.extend((0..times).map(|_| place));
    }
    for (kind, limit) in (1..).zip(LIMITS) {
        let mut held = [0, 0];
        for _ in 0..limit {
            match chance.among(&places) {
                0 => {}
                color @ 1..=2 => held[color as usize - 1] += 1,
                3 => position = with_piece(chance, &position, kind),
                _ => position = with_piece(chance, &position, promoted(kind)),
            }
        }
        for (color, count) in (1..).zip(held) {
            position = after(36, &position, &[color, kind, count]).unwrap();
        }
    }
    for king in [8, 24] {
        if chance.below(3) > 0 {
            position = with_cell(chance, &position, king);
        }
    }
    position = after(37, &position, &[chance.color()]).unwrap();
    let digits = chance.among(&[10, 100, 1000, 10000, 65535]);
    after(38, &position, &[1 + chance.below(digits - 1)]).unwrap()
}

/// The promoted kind, or the kind itself where it has none.
fn promoted(kind: u64) -> u64 {
    match kind {
        1..=4 => kind + 8,
        6..=7 => kind + 7,
        _ => kind,
    }
}

/// The position with one more piece of a kind, of either colour.
fn with_piece(chance: &mut Chance, position: &[u64], kind: u64) -> Vec<u64> {
    let cell = kind + 16 * chance.below(2);
    with_cell(chance, position, cell)
}

/// The position with a cell on some vacant square.
fn with_cell(chance: &mut Chance, position: &[u64], cell: u64) -> Vec<u64> {
    let vacant: Vec<u64> = (1..)
        .zip(&position[CELLS])
        .filter(|(_, &cell)| cell == 0)
        .map(|(n, _)| n)
        .collect();
    after(35, position, &[chance.among(&vacant), cell]).unwrap()
}
