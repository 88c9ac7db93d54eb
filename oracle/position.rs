//! A position as the numbers of a line, CASES.md's `P`: whether it is sound, and the crate's position for it and back.

use crate::names::{
    byte, cell, color, color_number, holding, move_numbers, mv, standing, words, KINDS,
};
use shogi_core::{Color, Move, PartialPosition, Piece, PieceKind, Square};
use std::ops::Range;

/// The places of the numbers.
pub const CELLS: Range<usize> = 0..81;
const SETS: Range<usize> = 81..113;
const KINGS: Range<usize> = 113..115;
pub const HANDS: Range<usize> = 115..129;
pub const SIDE: usize = 129;
pub const PLY: usize = 130;
const LAST: Range<usize> = 131..135;
pub const LENGTH: usize = 135;

/// Document 01's full set, kinds 1 to 7.
pub const LIMITS: [u64; 7] = [18, 4, 4, 4, 4, 2, 2];

/// The colour of a cell; 0 for an empty one.
pub fn color_of(cell: u64) -> u64 {
    match cell {
        0 => 0,
        ..=15 => 1,
        _ => 2,
    }
}

/// The kind of a cell; 0 for an empty one.
pub fn kind_of(cell: u64) -> u64 {
    cell % 16
}

/// Document 01, "A sound position", in plain numbers, since the crate has no such test.
pub fn sound(p: &[u64]) -> bool {
    let cells = &p[CELLS];
    let marked = |mark: fn(u64) -> u64, value: u64| {
        let bits = (1..=81).filter(|&n| mark(cells[n - 1]) == value);
        bits.fold([0, 0], |[a, b]: [u64; 2], n| match n {
            ..=63 => [a | 1 << (n - 1), b],
            _ => [a, b | 1 << (n - 64)],
        })
    };
    let sets = (1..=2)
        .map(|color| marked(color_of, color))
        .chain((1..=14).map(|kind| marked(kind_of, kind)));
    let king_named = |color: u64| {
        let king = 8 + 16 * (color - 1);
        let mut squares = (1..=81).filter(|&n| cells[n as usize - 1] == king);
        squares.next().unwrap_or(0) == p[KINGS][color as usize - 1] && squares.next().is_none()
    };
    let within_limit = |kind: u64| {
        let unpromoted = |cell| match kind_of(cell) {
            kind @ 9..=12 => kind - 8,
            kind @ 13..=14 => kind - 7,
            kind => kind,
        };
        let board = cells.iter().filter(|&&cell| unpromoted(cell) == kind);
        let place = kind as usize - 1;
        board.count() as u64 + p[HANDS][place] + p[HANDS][7 + place] <= LIMITS[place]
    };
    let square = |n| (1..=81).contains(&n);
    cells.iter().all(|cell| matches!(cell, 0..=14 | 17..=30))
        && sets.flatten().eq(p[SETS].iter().copied())
        && (1..=2).all(king_named)
        && (1..=7).all(within_limit)
        && matches!(p[SIDE], 1 | 2)
        && matches!(p[PLY], 1..=65535)
        && match p[LAST] {
            [0, 0, 0, 0] => true,
            [1, from, to, 0 | 1] => square(from) && square(to),
            [2, 1..=14 | 17..=30, to, 0] => square(to),
            _ => false,
        }
}

/// The crate's position with these numbers; nothing where the calls below do not lead to one.
pub fn build(p: &[u64]) -> Option<PartialPosition> {
    let mut position = PartialPosition::empty();
    if p[LAST] != [0; 4] {
        record(&mut position, mv(&p[LAST])??)?;
    }
    for (square, &cell) in Square::all().zip(&p[CELLS]) {
        position.piece_set(square, standing(byte(cell)?)?);
    }
    // A king square stays where a king was put last, so one that is stale can be had as well.
    for (color, &n) in Color::all().into_iter().zip(&p[KINGS]) {
        if let Some(square) = Square::from_u8(byte(n)?) {
            let standing = position.piece_at(square);
            position.piece_set(square, Some(Piece::new(PieceKind::King, color)));
            position.piece_set(square, standing);
        }
    }
    for (color, counts) in Color::all().into_iter().zip(p[HANDS].chunks(7)) {
        let hand = position.hand_of_a_player_mut(color);
        for (kind, &count) in KINDS.into_iter().zip(counts) {
            *hand = holding(*hand, kind, byte(count)?)?;
        }
    }
    position.side_to_move_set(color(p[SIDE])?);
    let ply_taken = position.ply_set(p[PLY].try_into().ok()?);
    // The sets, which follow from the cells, are compared here.
    (ply_taken && read(&position) == p).then_some(position)
}

/// Has `make_move`, the only call that stores a last move, make it on the empty board, and clears the board again.
fn record(position: &mut PartialPosition, mv: Move) -> Option<()> {
    match mv {
        Move::Normal { from, .. } => position.piece_set(from, Some(Piece::B_P)),
        Move::Drop { piece, .. } => {
            position.side_to_move_set(piece.color());
            let hand = position.hand_of_a_player_mut(piece.color());
            *hand = hand.added(piece.piece_kind())?;
        }
    }
    position.make_move(mv)?;
    position.piece_set(mv.to(), None);
    Some(())
}

/// The numbers of the crate's position.
pub fn read(position: &PartialPosition) -> Vec<u64> {
    let mut p = Vec::with_capacity(LENGTH);
    p.extend(Square::all().map(|square| cell(position.piece_at(square))));
    for color in Color::all() {
        p.extend(words(position.player_bitboard(color)));
    }
    for kind in KINDS {
        p.extend(words(position.piece_kind_bitboard(kind)));
    }
    for color in Color::all() {
        p.push(king_square(position, color));
    }
    for color in Color::all() {
        let hand = position.hand_of_a_player(color);
        p.extend(
            KINDS
                .iter()
                .filter_map(|&kind| hand.count(kind))
                .map(u64::from),
        );
    }
    p.push(color_number(position.side_to_move()));
    p.push(position.ply().into());
    p.extend(move_numbers(position.last_move()));
    p
}

pub fn king_square(position: &PartialPosition, color: Color) -> u64 {
    position
        .king_position(color)
        .map_or(0, |square| square.index().into())
}
