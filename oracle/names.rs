//! Document 01's numbers and what they stand for in the crate. Kinds and colours are matched by name.

use shogi_core::{Bitboard, Color, Hand, Move, Piece, PieceKind, Square};

/// Document 01's kinds from number 1 on; the first seven are those that a hand holds.
pub const KINDS: [PieceKind; 14] = [
    PieceKind::Pawn,
    PieceKind::Lance,
    PieceKind::Knight,
    PieceKind::Silver,
    PieceKind::Gold,
    PieceKind::Bishop,
    PieceKind::Rook,
    PieceKind::King,
    PieceKind::ProPawn,
    PieceKind::ProLance,
    PieceKind::ProKnight,
    PieceKind::ProSilver,
    PieceKind::ProBishop,
    PieceKind::ProRook,
];

/// A number of a place that takes 0..255; nothing where it is past that range.
pub fn byte(number: u64) -> Option<u8> {
    number.try_into().ok()
}

/// Document 01 has its own numbers for kinds, so they are matched by name, but refused as the crate refuses.
pub fn kind(number: u8) -> Option<PieceKind> {
    let named = KINDS.get(usize::from(number).wrapping_sub(1)).copied();
    assert_eq!(named, PieceKind::from_u8(number));
    named
}

pub fn kind_number(kind: PieceKind) -> u64 {
    (1..)
        .zip(KINDS)
        .find(|&(_, named)| named == kind)
        .unwrap()
        .0
}

/// The crate makes no colour from a number, so a bad one has nothing to be compared with.
pub fn color(number: u64) -> Option<Color> {
    match number {
        1 => Some(Color::Black),
        2 => Some(Color::White),
        _ => None,
    }
}

pub fn color_number(color: Color) -> u64 {
    match color {
        Color::Black => 1,
        Color::White => 2,
    }
}

/// The piece of a cell that is not empty; nothing where the crate has no such kind.
pub fn piece(cell: u8) -> Option<Piece> {
    match cell {
        ..=15 => Some(Piece::new(kind(cell)?, Color::Black)),
        _ => Some(Piece::new(kind(cell - 16)?, Color::White)),
    }
}

/// What stands in a cell of any number; nothing at all where the number is bad.
pub fn standing(cell: u8) -> Option<Option<Piece>> {
    match cell {
        0 => Some(None),
        _ => piece(cell).map(Some),
    }
}

pub fn cell(piece: Option<Piece>) -> u64 {
    piece.map_or(0, |piece| {
        kind_number(piece.piece_kind()) + 16 * (color_number(piece.color()) - 1)
    })
}

/// The two words of a set.
pub fn words(set: Bitboard) -> [u64; 2] {
    [set.to_u128() as u64, (set.to_u128() >> 64) as u64]
}

/// The move of four numbers: nothing at all where they are not of the form, no move where one of them is bad.
pub fn mv(numbers: &[u64]) -> Option<Option<Move>> {
    let [tag, a, to, promote] = *numbers else {
        return None;
    };
    let (a, to) = (byte(a)?, Square::from_u8(byte(to)?));
    Some(match (tag, promote) {
        (1, 0 | 1) => Square::from_u8(a).zip(to).map(|(from, to)| Move::Normal {
            from,
            to,
            promote: promote == 1,
        }),
        (2, 0) => piece(a).zip(to).map(|(piece, to)| Move::Drop { piece, to }),
        _ => return None,
    })
}

pub fn move_numbers(mv: Option<Move>) -> [u64; 4] {
    match mv {
        None => [0; 4],
        Some(Move::Normal { from, to, promote }) => {
            [1, from.index().into(), to.index().into(), promote.into()]
        }
        Some(Move::Drop { piece, to }) => [2, cell(Some(piece)), to.index().into(), 0],
    }
}

/// The hand with that many of a kind; nothing for a kind that no hand holds.
pub fn holding(mut hand: Hand, kind: PieceKind, count: u8) -> Option<Hand> {
    while hand.count(kind)? < count {
        hand = hand.added(kind)?;
    }
    while hand.count(kind)? > count {
        hand = hand.removed(kind)?;
    }
    Some(hand)
}
