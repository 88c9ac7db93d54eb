//! Ops 20 to 39, 49 and 90: positions, their queries, moves and edits, their texts, and games.

use crate::names::{
    byte, cell, color, color_number, holding, kind, move_numbers, mv, piece, standing, words,
};
use crate::position::{
    build, color_of, kind_of, king_square, read, sound, CELLS, HANDS, LENGTH, PLY, SIDE,
};
use shogi_core::{PartialPosition, Square};

/// The crate's answer to a case; nothing where it is not shared.
/// With `any`, it is nothing only where the crate has no such call or `build` does not reach the position.
pub fn answer(case: &[u64], any: bool) -> Option<Vec<u64>> {
    match case {
        [20] => return Some(read(&PartialPosition::startpos())),
        [21] => return Some(read(&PartialPosition::empty())),
        [90, first, moves @ ..] => return game(*first, moves),
        _ => {}
    }
    let (op, rest) = case.split_first()?;
    let (p, arguments) = rest.split_at_checked(LENGTH)?;
    let position = build(p)?;
    if !any && !(sound(p) && p[PLY] < 65535) {
        return None;
    }
    Some(match (op, arguments) {
        // The crate has no soundness test: this answer is document 01's, for what is shared.
        (22, []) if sound(p) => vec![0, 0],
        (23, &[n]) => told(square(n)?.map(|square| [cell(position.piece_at(square))])),
        (24, &[n]) => told(Some(words(position.player_bitboard(color(n)?)))),
        (25, &[n]) => told(kind(byte(n)?).map(|kind| words(position.piece_kind_bitboard(kind)))),
        (26, &[n]) => told(piece(byte(n)?).map(|piece| words(position.piece_bitboard(piece)))),
        (27, []) => told(Some(words(position.occupied_bitboard()))),
        (28, []) => told(Some(words(position.vacant_bitboard()))),
        (29, []) => told(Some([color_number(position.side_to_move())])),
        (30, []) => told(Some([position.ply().into()])),
        (31, &[side, n]) => {
            let hand = position.hand_of_a_player(color(side)?);
            let count = kind(byte(n)?).and_then(|kind| hand.count(kind));
            told(count.map(|count| [count.into()]))
        }
        (32, &[n]) => told(Some([king_square(&position, color(n)?)])),
        (33, []) => told(Some(move_numbers(position.last_move()))),
        // The crate has one call, which changes the position in place.
        (34 | 49, numbers) => moved(position, numbers)?,
        (35..=38, numbers) => {
            let mut edited = position;
            let number = match edit(&mut edited, *op, numbers)? {
                Some(()) => 0,
                None => 2,
            };
            let after = read(&edited);
            // A king square left stale makes the result unsound, so this leaves out the removed and replaced kings too.
            if !any && !sound(&after) {
                return None;
            }
            [&[number, 0], &after[..]].concat()
        }
        (39, &[len]) => written(&position, len)?,
        _ => return None,
    })
}

fn square(n: u64) -> Option<Option<Square>> {
    byte(n).map(|n| Square::from_u8(n))
}

/// The answer of a query; number 2 where the crate gives nothing.
fn told<const N: usize>(values: Option<[u64; N]>) -> Vec<u64> {
    let number = if values.is_some() { 0 } else { 2 };
    [&[number, 0], &values.unwrap_or([0; N])[..]].concat()
}

/// The answer of `make_move`.
fn moved(mut position: PartialPosition, numbers: &[u64]) -> Option<Vec<u64>> {
    let number = make(&mut position, numbers)?;
    Some([&[number, 0], &read(&position)[..]].concat())
}

/// Makes a move, and gives its number; nothing where the crate refuses what document 01 allows, or allows what it refuses.
/// Document 01 leaves a taken king out of the shared domain, but the crate refuses it, as does number 7.
fn make(position: &mut PartialPosition, numbers: &[u64]) -> Option<u64> {
    let Some(mv) = mv(numbers)? else {
        return Some(2);
    };
    let number = refusal(&read(position), numbers);
    let made = position.make_move(mv).is_some();
    (made == (number == 0)).then_some(number)
}

/// A game from the empty or the start position: the number of each move, then where it ends and that position's text.
fn game(first: u64, moves: &[u64]) -> Option<Vec<u64>> {
    let mut position = match first {
        0 => PartialPosition::empty(),
        1 => PartialPosition::startpos(),
        _ => return None,
    };
    let mut answer = Vec::new();
    for numbers in moves.chunks(4) {
        answer.push(make(&mut position, numbers)?);
    }
    let text = text(&position);
    answer.extend(read(&position));
    answer.push(text.len() as u64);
    answer.extend(text.bytes().map(u64::from));
    Some(answer)
}

/// The SFEN text, all of it written by the crate.
pub fn text(position: &PartialPosition) -> String {
    let mut text = String::new();
    position.to_sfen(&mut text).unwrap(); // a String takes every byte
    text
}

/// The text in a buffer of that many bytes. The crate writes into a sink that has room for all, so the buffer, and with it
/// number 12, is document 01's.
fn written(position: &PartialPosition, len: u64) -> Option<Vec<u64>> {
    if len > 512 {
        return None;
    }
    let mut buffer: Vec<u64> = (0..len).map(|i| (7 * i + 13) % 256).collect();
    let text = text(position);
    let (number, length) = match buffer.get_mut(..text.len()) {
        Some(start) => {
            for (place, byte) in start.iter_mut().zip(text.bytes()) {
                *place = byte.into();
            }
            (0, text.len() as u64)
        }
        None => (12, 0),
    };
    Some([&[number, 0, length], &buffer[..]].concat())
}

/// The number of document 01's first fact against a move, 0 for none. The crate refuses without saying why.
fn refusal(p: &[u64], numbers: &[u64]) -> u64 {
    let cell = |n: u64| p[CELLS][n as usize - 1];
    let [tag, first, to, promote] = numbers.try_into().unwrap();
    let target = cell(to);
    let facts = if tag == 1 {
        let piece = cell(first);
        let promotes = matches!(kind_of(piece), 1..=4 | 6 | 7);
        vec![
            (3, piece == 0),
            (4, color_of(piece) != p[SIDE]),
            (5, promote == 1 && !promotes),
            (6, color_of(target) == p[SIDE]),
            (7, kind_of(target) == 8),
        ]
    } else {
        let kind = kind_of(first) as usize;
        let hand = &p[HANDS][7 * (p[SIDE] as usize - 1)..][..7];
        vec![
            (4, color_of(first) != p[SIDE]),
            (8, kind >= 9),
            (9, target != 0),
            (10, hand.get(kind - 1).is_none_or(|&count| count == 0)),
        ]
    };
    let first = facts.iter().find(|(_, holds)| *holds);
    first.map_or(0, |(number, _)| *number)
}

/// Makes an edit: nothing at all where the numbers are not of the form, no edit where one of them is bad.
fn edit(position: &mut PartialPosition, op: u64, numbers: &[u64]) -> Option<Option<()>> {
    Some(match (op, numbers) {
        (35, &[n, cell]) => square(n)?
            .zip(standing(byte(cell)?))
            .map(|(square, piece)| position.piece_set(square, piece)),
        (36, &[side, n, count]) => {
            let hand = position.hand_of_a_player_mut(color(side)?);
            let count = byte(count)?;
            kind(byte(n)?)
                .and_then(|kind| holding(*hand, kind, count))
                .map(|changed| *hand = changed)
        }
        (37, &[side]) => Some(position.side_to_move_set(color(side)?)),
        (38, &[ply]) => position.ply_set(ply.try_into().ok()?).then_some(()),
        _ => return None,
    })
}
