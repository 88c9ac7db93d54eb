//! Squares, colours, kinds and pieces by number. A call refuses bad numbers with 2, and nothing else.
#![allow(clippy::new_ret_no_self, reason = "the names are shogi_core's; squares and pieces are numbers here")]
use crate::c;
use crate::refused::{numbered, Refused};

fn number(r: c::NumberResult) -> Result<u8, Refused> {
    numbered(r.number, r.value)
}

/// No kind and no piece is 0.
pub(crate) fn unless_0(value: u8) -> Option<u8> {
    (value != 0).then_some(value)
}

fn form(r: c::NumberResult) -> Result<Option<u8>, Refused> {
    number(r).map(unless_0)
}

/// The square of a file and a rank, for constants: a bad number does not compile there, and panics elsewhere. For numbers that come from
/// outside there is `Square::new`.
#[must_use]
pub const fn square(file: u8, rank: u8) -> u8 {
    assert!(matches!((file, rank), (1..=9, 1..=9)), "files and ranks are 1 to 9");
    9 * file - 9 + rank
}

/// The black piece of a kind, for constants like `square`; for numbers that come from outside there is `Piece::new`.
#[must_use]
pub const fn black(kind: u8) -> u8 {
    assert!(matches!(kind, Kind::PAWN..=Kind::PRO_ROOK), "kinds are 1 to 14");
    kind
}

/// The white piece of a kind, likewise.
#[must_use]
pub const fn white(kind: u8) -> u8 {
    16 + black(kind)
}

/// 1 to 81: nine times the file less nine, plus the rank.
pub struct Square;

impl Square {
    pub fn new(file: u8, rank: u8) -> Result<u8, Refused> {
        number(c::pulfredan_square_new(file, rank))
    }

    pub fn file(square: u8) -> Result<u8, Refused> {
        number(c::pulfredan_square_file(square))
    }

    pub fn rank(square: u8) -> Result<u8, Refused> {
        number(c::pulfredan_square_rank(square))
    }

    /// The square that the other player sees in its place.
    pub fn flip(square: u8) -> Result<u8, Refused> {
        number(c::pulfredan_square_flip(square))
    }
}

pub struct Color;

impl Color {
    pub const BLACK: u8 = 1;
    pub const WHITE: u8 = 2;

    /// The other colour.
    pub fn flip(color: u8) -> Result<u8, Refused> {
        number(c::pulfredan_color_flip(color))
    }
}

pub struct Kind;

impl Kind {
    pub const PAWN: u8 = 1;
    pub const LANCE: u8 = 2;
    pub const KNIGHT: u8 = 3;
    pub const SILVER: u8 = 4;
    pub const GOLD: u8 = 5;
    pub const BISHOP: u8 = 6;
    pub const ROOK: u8 = 7;
    pub const KING: u8 = 8;
    pub const PRO_PAWN: u8 = 9;
    pub const PRO_LANCE: u8 = 10;
    pub const PRO_KNIGHT: u8 = 11;
    pub const PRO_SILVER: u8 = 12;
    pub const PRO_BISHOP: u8 = 13;
    pub const PRO_ROOK: u8 = 14;

    /// None for gold, king and promoted kinds.
    pub fn promote(kind: u8) -> Result<Option<u8>, Refused> {
        form(c::pulfredan_kind_promote(kind))
    }

    /// Of an unpromoted kind itself.
    pub fn unpromote(kind: u8) -> Result<u8, Refused> {
        number(c::pulfredan_kind_unpromote(kind))
    }

    /// How many a full set has, promoted and unpromoted together; of kings 1, for each colour.
    pub fn limit(kind: u8) -> Result<u8, Refused> {
        number(c::pulfredan_kind_limit(kind))
    }

    /// The capital letter of the text; of a promoted kind its unpromoted kind's.
    pub fn letter(kind: u8) -> Result<char, Refused> {
        number(c::pulfredan_kind_letter(kind)).map(char::from)
    }

    /// The kind as which it is held in hand; none for a king.
    pub fn hand_kind(kind: u8) -> Result<Option<u8>, Refused> {
        form(c::pulfredan_kind_hand_kind(kind))
    }
}

/// k for a black piece of kind k, 16 + k for a white one.
pub struct Piece;

impl Piece {
    pub fn new(kind: u8, color: u8) -> Result<u8, Refused> {
        number(c::pulfredan_piece_new(kind, color))
    }

    pub fn kind(piece: u8) -> Result<u8, Refused> {
        number(c::pulfredan_piece_kind(piece))
    }

    pub fn color(piece: u8) -> Result<u8, Refused> {
        number(c::pulfredan_piece_color(piece))
    }

    /// None for gold, king and promoted pieces.
    pub fn promote(piece: u8) -> Result<Option<u8>, Refused> {
        form(c::pulfredan_piece_promote(piece))
    }

    /// Of an unpromoted piece itself.
    pub fn unpromote(piece: u8) -> Result<u8, Refused> {
        number(c::pulfredan_piece_unpromote(piece))
    }
}
