// The published file, made by a build script, names each piece by a constant. Ours holds those that the given files use.
// A constant's name says its colour and kind, and the crate's own `new` makes it, so there is no other value to give.

use crate::{Color, Piece, PieceKind};

impl Piece {
    pub const B_P: Self = Self::new(PieceKind::Pawn, Color::Black);
    pub const W_P: Self = Self::new(PieceKind::Pawn, Color::White);
    pub const B_B: Self = Self::new(PieceKind::Bishop, Color::Black);
    pub const W_B: Self = Self::new(PieceKind::Bishop, Color::White);
    pub const B_R: Self = Self::new(PieceKind::Rook, Color::Black);
    pub const W_R: Self = Self::new(PieceKind::Rook, Color::White);
    pub const B_K: Self = Self::new(PieceKind::King, Color::Black);
    pub const W_K: Self = Self::new(PieceKind::King, Color::White);
}
