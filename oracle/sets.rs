//! Ops 1 to 17: sets of squares, squares and kinds.

use crate::names::{byte, kind, kind_number, words};
use shogi_core::{Bitboard, Color, PartialPosition, Piece, PieceKind, Square, ToUsi};

/// The bits of each word that are squares; the others are stray.
const FIRST: u64 = (1 << 63) - 1;
const SECOND: u64 = (1 << 18) - 1;

/// The crate's answer to a case; nothing where it is not shared.
/// With `any`, it is nothing only where the crate has no such call or the call is undefined behaviour.
pub fn answer(case: &[u64], any: bool) -> Option<Vec<u64>> {
    let set = |first, second| set(first, second, any);
    Some(match *case {
        [1] => given(Bitboard::empty()),
        [2, n] => match Square::from_u8(byte(n)?) {
            Some(square) => given(Bitboard::single(square)),
            None => vec![2, 0, 0],
        },
        [3, a, b] => vec![0, set(a, b)?.count().into()],
        [4, a, b, n] => {
            let set = set(a, b)?;
            match Square::from_u8(byte(n)?) {
                Some(square) => vec![0, set.contains(square).into()],
                None => vec![2, 0],
            }
        }
        [5, a, b, c, d] => given(set(a, b)?.or(set(c, d)?)),
        [6, a, b, c, d] => given(set(a, b)?.and(set(c, d)?)),
        [7, a, b, c, d] => given(set(a, b)?.xor(set(c, d)?)),
        [8, a, b, c, d] => given(set(a, b)?.andnot(set(c, d)?)),
        [9, a, b] => given(!set(a, b)?),
        // Safety: the file is in 1..=9 and the pattern below 512.
        [10, file @ 1..=9, pattern @ 0..=511] => {
            given(unsafe { Bitboard::from_file_unchecked(file as u8, pattern as u16) })
        }
        // Safety: the file is in 1..=9.
        [11, a, b, file @ 1..=9] => {
            vec![
                0,
                unsafe { set(a, b)?.get_file_unchecked(file as u8) }.into(),
            ]
        }
        [12, a, b] => given(set(a, b)?.flip()),
        [13, a, b] => {
            let mut rest = set(a, b)?;
            if a == 0 && b != 0 && b & SECOND == 0 {
                return None; // The lowest bit lies past 9I: the crate would make a square of it, which is undefined.
            }
            let square = rest.pop().map_or(0, |square| square.index().into());
            let [first, second] = words(rest);
            vec![0, square, first, second]
        }
        [14, a, b, direction @ 1..=4, distance @ 0..=9] => {
            let set = set(a, b)?;
            let exception =
                matches!((direction, distance), (4, 0 | 1)) && b & 1 << (9 * distance) != 0;
            if exception && !any {
                return None;
            }
            let distance = distance as u8;
            // Safety: the distance is in 0..=9.
            given(unsafe {
                match direction {
                    1 => set.shift_down(distance),
                    2 => set.shift_up(distance),
                    3 => set.shift_left(distance),
                    _ => set.shift_right(distance),
                }
            })
        }
        [15, file, rank] => match Square::new(byte(file)?, byte(rank)?) {
            Some(square) => vec![0, square.index().into()],
            None => vec![2, 0],
        },
        [16, n] => match Square::from_u8(byte(n)?) {
            Some(square) => vec![0, square.file().into(), square.rank().into()],
            None => vec![2, 0, 0],
        },
        [17, n] => match kind(byte(n)?) {
            Some(kind) => {
                let unpromoted = kind.unpromote().unwrap_or(kind);
                let promoted = kind.promote().map_or(0, kind_number);
                vec![
                    0,
                    kind_number(unpromoted),
                    promoted,
                    limit(unpromoted),
                    letter(kind),
                ]
            }
            None => vec![2, 0, 0, 0, 0],
        },
        _ => return None,
    })
}

/// The set of two words; nothing where stray bits take it out of the shared domain.
fn set(first: u64, second: u64, any: bool) -> Option<Bitboard> {
    if !any && (first & !FIRST != 0 || second & !SECOND != 0) {
        return None;
    }
    // Stray bits break the rule of this call; yet a set is two plain words, so nothing is undefined before `pop`.
    Some(unsafe { Bitboard::from_u128_unchecked(u128::from(second) << 64 | u128::from(first)) })
}

fn given(set: Bitboard) -> Vec<u64> {
    let [first, second] = words(set);
    vec![0, first, second]
}

/// The crate knows no full set, but its start position holds one. A king's limit is for one colour.
fn limit(unpromoted: PieceKind) -> u64 {
    let start = PartialPosition::startpos();
    let set = match unpromoted {
        PieceKind::King => start.piece_bitboard(Piece::new(unpromoted, Color::Black)),
        _ => start.piece_kind_bitboard(unpromoted),
    };
    set.count().into()
}

/// The last byte of the USI text, since a `+` may come before it.
fn letter(kind: PieceKind) -> u64 {
    let mut text = String::new();
    kind.to_usi(&mut text).unwrap();
    text.into_bytes().pop().unwrap().into()
}
