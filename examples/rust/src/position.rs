//! Positions.
use core::mem::offset_of;

use crate::c;
use crate::numbers::unless_0;
use crate::refused::{done, Refused};
use crate::set::Set;

#[derive(Clone, Copy, PartialEq, Eq, Debug)]
pub enum Move {
    Normal { from: u8, to: u8, promote: bool },
    Drop { piece: u8, to: u8 },
}

/// A move as a position stores it: 0 0 0 0 none; 1 from to promote (0 or 1); 2 piece to 0, a drop.
#[repr(C)]
#[derive(Clone, Copy, PartialEq, Eq, Debug, Default)]
pub struct MoveNumbers {
    pub tag: u8,
    pub a: u8,
    pub b: u8,
    pub promote: u8,
}

impl MoveNumbers {
    fn read(self) -> Option<Move> {
        match self {
            Self { tag: 1, a: from, b: to, promote } => Some(Move::Normal { from, to, promote: promote == 1 }),
            Self { tag: 2, a: piece, b: to, .. } => Some(Move::Drop { piece, to }),
            _ => None,
        }
    }
}

/// A position. Any bytes may stand in it: what is not sound is refused with 1. Positions are equal when all their bytes are, since a stray
/// bit in a set makes a position unsound. Every call looks for 2 first, then for 1, then for the other numbers in the order given.
#[repr(C)]
#[must_use]
#[derive(Clone, Copy, Debug)]
pub struct Position {
    pub board: [u8; 81],
    pub hands: [u8; 14],
    pub bking: u8,
    pub wking: u8,
    pub side: u8,
    pub last: MoveNumbers,
    pub ply: u16,
    pub players: [Set; 2],
    pub kinds: [Set; 14],
}

const _: () = assert!(
    size_of::<Position>() == 360
        && offset_of!(Position, hands) == 81
        && offset_of!(Position, bking) == 95
        && offset_of!(Position, wking) == 96
        && offset_of!(Position, side) == 97
        && offset_of!(Position, last) == 98
        && offset_of!(Position, ply) == 102
        && offset_of!(Position, players) == 104
        && offset_of!(Position, kinds) == 136
);

impl Position {
    fn bytes(&self) -> &[u8; size_of::<Self>()] {
        // SAFETY: the fields fill the struct without a gap, as asserted above, so that every byte of it is set.
        unsafe { &*core::ptr::from_ref(self).cast() }
    }
}

impl PartialEq for Position {
    fn eq(&self, other: &Self) -> bool {
        self.bytes() == other.bytes()
    }
}

impl Eq for Position {}

fn set(r: c::ToldSet) -> Result<Set, Refused> {
    done(r.told, r.set)
}

fn number(r: c::ToldNumber) -> Result<u8, Refused> {
    done(r.told, r.value)
}

impl Position {
    /// The start position.
    pub fn startpos() -> Self {
        c::pulfredan_startpos()
    }

    /// No piece, Black to move, ply 1.
    pub fn empty() -> Self {
        c::pulfredan_empty()
    }

    /// Is the position sound? Refused with 1, and the first faulty square in reading order, or 0.
    pub fn soundness(&self) -> Result<(), Refused> {
        done(c::pulfredan_soundness(self), ())
    }

    /// The piece on a square, if there is one. Refused with 2, 1.
    pub fn piece_at(&self, square: u8) -> Result<Option<u8>, Refused> {
        number(c::pulfredan_piece_at(self, square)).map(unless_0)
    }

    /// The squares of a colour's pieces. Refused with 2, 1.
    pub fn player_bitboard(&self, color: u8) -> Result<Set, Refused> {
        set(c::pulfredan_player_bitboard(self, color))
    }

    /// The squares of a kind's pieces, of both colours. Refused with 2, 1.
    pub fn piece_kind_bitboard(&self, kind: u8) -> Result<Set, Refused> {
        set(c::pulfredan_piece_kind_bitboard(self, kind))
    }

    /// The squares of a piece. Refused with 2, 1.
    pub fn piece_bitboard(&self, piece: u8) -> Result<Set, Refused> {
        set(c::pulfredan_piece_bitboard(self, piece))
    }

    /// The squares with a piece. Refused with 1.
    pub fn occupied_bitboard(&self) -> Result<Set, Refused> {
        set(c::pulfredan_occupied_bitboard(self))
    }

    /// The squares without one. Refused with 1.
    pub fn vacant_bitboard(&self) -> Result<Set, Refused> {
        set(c::pulfredan_vacant_bitboard(self))
    }

    /// The colour to move. Refused with 1.
    pub fn side_to_move(&self) -> Result<u8, Refused> {
        number(c::pulfredan_side_to_move(self))
    }

    /// The number of the next move. Refused with 1.
    pub fn ply(&self) -> Result<u16, Refused> {
        let r = c::pulfredan_ply(self);
        done(r.told, r.ply)
    }

    /// How many of a kind, 1 to 7, a colour has in hand. Refused with 2, 1.
    pub fn hand(&self, color: u8, kind: u8) -> Result<u8, Refused> {
        number(c::pulfredan_hand(self, color, kind))
    }

    /// The square of a colour's king, if it has one. Refused with 2, 1.
    pub fn king_position(&self, color: u8) -> Result<Option<u8>, Refused> {
        number(c::pulfredan_king_position(self, color)).map(unless_0)
    }

    /// The last move, if there is one. Refused with 1.
    pub fn last_move(&self) -> Result<Option<Move>, Refused> {
        let r = c::pulfredan_last_move(self);
        done(r.told, r.last.read())
    }

    /// Plays a move in place. A normal one is refused with 2, 1, 3, 4, 5, 6, 7, 11; a drop with 2, 1, 4, 8, 9, 10, 11.
    pub fn make_move(&mut self, m: Move) -> Result<(), Refused> {
        match m {
            Move::Normal { from, to, promote } => done(c::pulfredan_make_normal(self, from, to, promote), ()),
            Move::Drop { piece, to } => done(c::pulfredan_make_drop(self, piece, to), ()),
        }
    }

    /// Edits one cell; 0 empties it. The sets and king squares follow, the last move stays. Refused with 2, 1, 13.
    pub fn piece_set(&mut self, square: u8, cell: u8) -> Result<(), Refused> {
        done(c::pulfredan_piece_set(self, square, cell), ())
    }

    /// Edits one count of a hand; the last move stays. Refused with 2, 1, 13.
    pub fn hand_set(&mut self, color: u8, kind: u8, count: u8) -> Result<(), Refused> {
        done(c::pulfredan_hand_set(self, color, kind, count), ())
    }

    /// Edits the side to move; the last move stays. Refused with 2, 1.
    pub fn side_to_move_set(&mut self, color: u8) -> Result<(), Refused> {
        done(c::pulfredan_side_to_move_set(self, color), ())
    }

    /// Edits the ply; the last move stays. Refused with 2, 1.
    pub fn ply_set(&mut self, ply: u16) -> Result<(), Refused> {
        done(c::pulfredan_ply_set(self, ply), ())
    }

    /// The SFEN text in the first bytes of `out`, and its length. `TEXT_MAX` bytes are always enough. Refused with 1, 12.
    pub fn write_sfen(&self, out: &mut [u8]) -> Result<usize, Refused> {
        // SAFETY: the pointer and the length are those of one lent slice.
        let r = unsafe { c::pulfredan_write_sfen(self, out.as_mut_ptr(), out.len()) };
        done(r.told, r.length)
    }
}
