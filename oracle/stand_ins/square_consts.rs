// The published file, made by a build script, names each square by a constant. Ours holds those that the given files use.
// A constant's name says its file and rank, and the crate's own `new` makes it, so there is no other value to give.

use crate::Square;

impl Square {
    pub const SQ_2B: Self = Self::new(2, 2).unwrap();
    pub const SQ_2H: Self = Self::new(2, 8).unwrap();
    pub const SQ_5A: Self = Self::new(5, 1).unwrap();
    pub const SQ_5I: Self = Self::new(5, 9).unwrap();
    pub const SQ_8B: Self = Self::new(8, 2).unwrap();
    pub const SQ_8H: Self = Self::new(8, 8).unwrap();
}
