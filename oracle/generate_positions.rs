//! Cases about positions: ops 20 to 38 and 49. Every position comes from the crate, by calls that start from op 20 or 21.

use crate::position::{color_of, CELLS, HANDS, PLY, SIDE};
use crate::positions::answer;
use crate::{Chance, Lines};
use std::io;

/// The numbers below these are for a cell, a kind and a kind in hand, bad ones next to the good ones among them.
const CELL_NUMBERS: u64 = 33;
const KIND_NUMBERS: u64 = 16;
const HAND_KIND_NUMBERS: u64 = 9;

/// First every call on three positions, then calls on positions drawn by chance.
pub fn write(lines: &mut Lines, chance: &mut Chance) -> io::Result<()> {
    lines.put(&[20])?;
    lines.put(&[21])?;
    every_call(lines, &start())?;
    let reached = game(lines, chance)?;
    every_call(lines, &reached)?;
    every_call(lines, &set_up(chance))?;
    while lines.left > 0 {
        let reached = game(lines, chance)?;
        every_query(lines, &reached)?;
        drawn_calls(lines, chance, &reached)?;
        let position = set_up(chance);
        every_query(lines, &position)?;
        drawn_calls(lines, chance, &position)?;
        for _ in 0..5 {
            let position = set_up(chance);
            drawn_calls(lines, chance, &position)?;
        }
    }
    Ok(())
}

pub fn start() -> Vec<u64> {
    answer(&[20], false).unwrap()
}

pub fn empty() -> Vec<u64> {
    answer(&[21], false).unwrap()
}

fn case(op: u64, position: &[u64], arguments: &[u64]) -> Vec<u64> {
    [&[op], position, arguments].concat()
}

/// The position after a move or an edit, unless it is refused or leaves the shared domain.
pub fn after(op: u64, position: &[u64], arguments: &[u64]) -> Option<Vec<u64>> {
    let answer = answer(&case(op, position, arguments), false)?;
    (answer[0] == 0 && answer[2 + PLY] < 65535).then(|| answer[2..].to_vec())
}

impl Lines {
    pub fn put_call(&mut self, op: u64, position: &[u64], arguments: &[u64]) -> io::Result<()> {
        self.put(&case(op, position, arguments))
    }

    /// A move, by value and through a lent position.
    fn put_move(&mut self, position: &[u64], mv: &[u64]) -> io::Result<()> {
        self.put_call(34, position, mv)?;
        self.put_call(49, position, mv)
    }

    /// An edit, unless its result leaves the shared domain.
    fn put_edit(&mut self, op: u64, position: &[u64], arguments: &[u64]) -> io::Result<()> {
        let case = case(op, position, arguments);
        match answer(&case, false) {
            Some(_) => self.put(&case),
            None => Ok(()),
        }
    }
}

fn every_call(lines: &mut Lines, position: &[u64]) -> io::Result<()> {
    every_query(lines, position)?;
    every_move(lines, position)?;
    every_edit(lines, position)
}

/// Every query with every argument; bad colours are not the crate's to refuse.
fn every_query(lines: &mut Lines, position: &[u64]) -> io::Result<()> {
    for op in [22, 27, 28, 29, 30, 33] {
        lines.put_call(op, position, &[])?;
    }
    for n in (0..=82).chain([255]) {
        lines.put_call(23, position, &[n])?;
    }
    for kind in (0..KIND_NUMBERS).chain([255]) {
        lines.put_call(25, position, &[kind])?;
    }
    for piece in (0..CELL_NUMBERS).chain([255]) {
        lines.put_call(26, position, &[piece])?;
    }
    for color in 1..=2 {
        lines.put_call(24, position, &[color])?;
        lines.put_call(32, position, &[color])?;
        for kind in (0..KIND_NUMBERS).chain([255]) {
            lines.put_call(31, position, &[color, kind])?;
        }
    }
    Ok(())
}

fn every_move(lines: &mut Lines, position: &[u64]) -> io::Result<()> {
    for to in 0..=82 {
        for from in 0..=82 {
            lines.put_call(34, position, &[1, from, to, 0])?;
            lines.put_call(34, position, &[1, from, to, 1])?;
        }
        for piece in (0..CELL_NUMBERS).chain([255]) {
            lines.put_call(34, position, &[2, piece, to, 0])?;
        }
    }
    Ok(())
}

fn every_edit(lines: &mut Lines, position: &[u64]) -> io::Result<()> {
    for n in 0..=82 {
        for cell in (0..CELL_NUMBERS).chain([255]) {
            lines.put_edit(35, position, &[n, cell])?;
        }
    }
    for color in 1..=2 {
        for kind in 0..HAND_KIND_NUMBERS {
            for count in 0..=18 {
                lines.put_edit(36, position, &[color, kind, count])?;
            }
        }
        lines.put_edit(37, position, &[color])?;
    }
    for ply in [0, 1, 2, 255, 256, 257, 32767, 32768, 65534, 65535] {
        lines.put_edit(38, position, &[ply])?;
    }
    Ok(())
}

/// Each call a few times, with arguments drawn by chance.
fn drawn_calls(lines: &mut Lines, chance: &mut Chance, position: &[u64]) -> io::Result<()> {
    for op in [22, 27, 28, 29, 30, 33] {
        lines.put_call(op, position, &[])?;
    }
    lines.put_call(23, position, &[chance.below(83)])?;
    lines.put_call(24, position, &[chance.color()])?;
    lines.put_call(25, position, &[chance.below(KIND_NUMBERS)])?;
    lines.put_call(26, position, &[chance.below(CELL_NUMBERS)])?;
    let arguments = [chance.color(), chance.below(KIND_NUMBERS)];
    lines.put_call(31, position, &arguments)?;
    lines.put_call(32, position, &[chance.color()])?;
    for _ in 0..12 {
        lines.put_move(position, &chance.mv(position))?;
        let (op, arguments) = chance.edit();
        lines.put_edit(op, position, &arguments)?;
    }
    Ok(())
}

/// Plays a game from the start, and gives the position that it reaches. The refused moves are cases as well.
fn game(lines: &mut Lines, chance: &mut Chance) -> io::Result<Vec<u64>> {
    let mut position = start();
    for _ in 0..chance.below(200) {
        let mv = chance.mv(&position);
        lines.put_move(&position, &mv)?;
        position = after(34, &position, &mv).unwrap_or(position);
    }
    Ok(position)
}

/// A position made by edits, then perhaps some moves, so that there is a last move, then perhaps some edits more.
pub fn set_up(chance: &mut Chance) -> Vec<u64> {
    let mut position = empty();
    let edits = chance.below(100);
    let moves = chance.below(4);
    let more = chance.below(4);
    for _ in 0..edits {
        let (op, arguments) = chance.edit();
        position = after(op, &position, &arguments).unwrap_or(position);
    }
    for _ in 0..moves {
        let mv = chance.mv(&position);
        position = after(34, &position, &mv).unwrap_or(position);
    }
    for _ in 0..more {
        let (op, arguments) = chance.edit();
        position = after(op, &position, &arguments).unwrap_or(position);
    }
    position
}

impl Chance {
    pub fn color(&mut self) -> u64 {
        1 + self.below(2)
    }

    pub fn among(&mut self, numbers: &[u64]) -> u64 {
        numbers[self.below(numbers.len() as u64) as usize]
    }

    /// Mostly a square whose cell is as wanted; else any number from 0 to 82.
    fn square(&mut self, position: &[u64], wanted: impl Fn(u64) -> bool) -> u64 {
        let squares: Vec<u64> = (1..)
            .zip(&position[CELLS])
            .filter(|(_, &cell)| wanted(cell))
            .map(|(n, _)| n)
            .collect();
        match self.below(8) {
            1.. if !squares.is_empty() => self.among(&squares),
            _ => self.below(83),
        }
    }

    /// A move, as often as not one that is made: a capture, another normal move, or a drop.
    pub fn mv(&mut self, position: &[u64]) -> [u64; 4] {
        let side = position[SIDE];
        let own = |cell| color_of(cell) == side;
        let others = |cell| color_of(cell) == 3 - side;
        let vacant = |cell| cell == 0;
        match self.below(6) {
            0 | 1 => {
                let from = self.square(position, own);
                [1, from, self.square(position, others), self.below(2)]
            }
            2 | 3 => {
                let from = self.square(position, own);
                [1, from, self.square(position, vacant), self.below(2)]
            }
            4 => {
                let counts = &position[HANDS][7 * (side as usize - 1)..][..7];
                let held: Vec<u64> = (1..)
                    .zip(counts)
                    .filter(|(_, &count)| count > 0)
                    .map(|(kind, _)| kind + 16 * (side - 1))
                    .collect();
                let piece = match held.as_slice() {
                    [] => self.below(CELL_NUMBERS),
                    _ => self.among(&held),
                };
                [2, piece, self.square(position, vacant), 0]
            }
            _ => {
                let piece = self.below(CELL_NUMBERS);
                [2, piece, self.below(83), 0]
            }
        }
    }

    /// An edit of any sort, its result sound or not.
    fn edit(&mut self) -> (u64, Vec<u64>) {
        match self.below(16) {
            0..=9 => {
                let cell = self.below(CELL_NUMBERS);
                (35, vec![self.below(83), cell])
            }
            10..=13 => {
                let most = 1 + self.below(19);
                let count = self.below(most);
                let kind = self.below(HAND_KIND_NUMBERS);
                (36, vec![self.color(), kind, count])
            }
            14 => (37, vec![self.color()]),
            _ => {
                let drawn = self.below(65536);
                let ply = [0, 1, 2, 255, 256, 65533, 65534, 65535, drawn, drawn, drawn];
                (38, vec![self.among(&ply)])
            }
        }
    }
}
