//! Sets of squares. A call that can be refused refuses bad numbers with 2, and nothing else.
use core::hash::{Hash, Hasher};
use core::iter::FusedIterator;
use core::ops::{BitAnd, BitAndAssign, BitOr, BitOrAssign, BitXor, BitXorAssign, Not, Sub, SubAssign};

use crate::c;
use crate::refused::{numbered, Refused};

/// A set of squares: square n is bit n - 1 of `lo` for n up to 63, else bit n - 64 of `hi`. The other bits are ignored on entry, and zero
/// in every result. Sets are equal when they have the same squares, whatever their other bits.
#[repr(C)]
#[must_use]
#[derive(Clone, Copy, Debug, Default)]
pub struct Set {
    pub lo: u64,
    pub hi: u64,
}

fn set(r: c::SetResult) -> Result<Set, Refused> {
    numbered(r.number, r.set)
}

impl Set {
    pub fn empty() -> Self {
        c::pulfredan_set_empty()
    }

    pub fn single(square: u8) -> Result<Self, Refused> {
        set(c::pulfredan_set_single(square))
    }

    /// The squares of one file by a pattern below 512, whose bit 0 is rank A.
    pub fn from_file(file: u8, pattern: u16) -> Result<Self, Refused> {
        set(c::pulfredan_set_from_file(file, pattern))
    }

    pub fn get_file(self, file: u8) -> Result<u16, Refused> {
        let r = c::pulfredan_set_get_file(self, file);
        numbered(r.number, r.pattern)
    }

    #[must_use]
    pub fn count(self) -> u8 {
        c::pulfredan_set_count(self)
    }

    #[must_use]
    pub fn is_empty(self) -> bool {
        c::pulfredan_set_is_empty(self)
    }

    pub fn contains(self, square: u8) -> Result<bool, Refused> {
        let r = c::pulfredan_set_contains(self, square);
        numbered(r.number, r.truth)
    }

    /// The squares, ascending.
    pub fn iter(&self) -> Squares {
        Squares(*self)
    }

    /// Square n goes to 82 - n.
    pub fn flip(self) -> Self {
        c::pulfredan_set_flip(self)
    }

    /// The smallest square, and the set without it.
    #[must_use]
    pub fn pop(self) -> Option<(u8, Self)> {
        let popped = c::pulfredan_set_pop(self);
        (popped.square != 0).then_some((popped.square, popped.set))
    }

    /// Every square moved by 0 to 9; squares that leave the board vanish. Down adds to the rank.
    pub fn shift_down(self, delta: u8) -> Result<Self, Refused> {
        set(c::pulfredan_set_shift_down(self, delta))
    }

    /// Up subtracts from the rank.
    pub fn shift_up(self, delta: u8) -> Result<Self, Refused> {
        set(c::pulfredan_set_shift_up(self, delta))
    }

    /// Left adds to the file.
    pub fn shift_left(self, delta: u8) -> Result<Self, Refused> {
        set(c::pulfredan_set_shift_left(self, delta))
    }

    /// Right subtracts from the file.
    pub fn shift_right(self, delta: u8) -> Result<Self, Refused> {
        set(c::pulfredan_set_shift_right(self, delta))
    }
}

impl PartialEq for Set {
    fn eq(&self, other: &Self) -> bool {
        (*self ^ *other).is_empty()
    }
}

impl Eq for Set {}

impl Hash for Set {
    fn hash<H: Hasher>(&self, state: &mut H) {
        let Self { lo, hi } = *self | Self::empty();
        (lo, hi).hash(state);
    }
}

/// In either.
impl BitOr for Set {
    type Output = Self;

    fn bitor(self, other: Self) -> Self {
        c::pulfredan_set_or(self, other)
    }
}

impl BitOrAssign for Set {
    fn bitor_assign(&mut self, other: Self) {
        *self = *self | other;
    }
}

/// In both.
impl BitAnd for Set {
    type Output = Self;

    fn bitand(self, other: Self) -> Self {
        c::pulfredan_set_and(self, other)
    }
}

impl BitAndAssign for Set {
    fn bitand_assign(&mut self, other: Self) {
        *self = *self & other;
    }
}

/// In just one.
impl BitXor for Set {
    type Output = Self;

    fn bitxor(self, other: Self) -> Self {
        c::pulfredan_set_xor(self, other)
    }
}

impl BitXorAssign for Set {
    fn bitxor_assign(&mut self, other: Self) {
        *self = *self ^ other;
    }
}

/// In the first and not in the second: `pulfredan_set_andnot` with the second first.
impl Sub for Set {
    type Output = Self;

    fn sub(self, other: Self) -> Self {
        c::pulfredan_set_andnot(other, self)
    }
}

impl SubAssign for Set {
    fn sub_assign(&mut self, other: Self) {
        *self = *self - other;
    }
}

/// Every other square of the 81.
impl Not for Set {
    type Output = Self;

    fn not(self) -> Self {
        c::pulfredan_set_not(self)
    }
}

/// The squares of a set, ascending.
#[must_use]
#[derive(Clone, Debug)]
pub struct Squares(Set);

impl Iterator for Squares {
    type Item = u8;

    fn next(&mut self) -> Option<u8> {
        let (square, rest) = self.0.pop()?;
        self.0 = rest;
        Some(square)
    }

    fn size_hint(&self) -> (usize, Option<usize>) {
        let left = usize::from(self.0.count());
        (left, Some(left))
    }
}

impl ExactSizeIterator for Squares {}

impl FusedIterator for Squares {}

impl IntoIterator for Set {
    type Item = u8;
    type IntoIter = Squares;

    fn into_iter(self) -> Squares {
        self.iter()
    }
}

impl IntoIterator for &Set {
    type Item = u8;
    type IntoIter = Squares;

    fn into_iter(self) -> Squares {
        self.iter()
    }
}

/// A number that is no square is left out: whoever must know of it asks `Set::single`.
impl Extend<u8> for Set {
    fn extend<I: IntoIterator<Item = u8>>(&mut self, squares: I) {
        for square in squares {
            *self |= Self::single(square).unwrap_or_default();
        }
    }
}

/// A number that is no square is left out, as by `extend`.
impl FromIterator<u8> for Set {
    fn from_iter<I: IntoIterator<Item = u8>>(squares: I) -> Self {
        let mut set = Self::empty();
        set.extend(squares);
        set
    }
}
