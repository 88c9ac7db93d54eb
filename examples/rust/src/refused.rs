//! Why a call was refused.
use core::fmt;

use crate::c::Told;

/// Why a call was refused, one case for each answer number. What was lent is as it was. More cases come with more calls.
#[derive(Clone, Copy, PartialEq, Eq)]
#[non_exhaustive]
pub enum Refused {
    /// With the first faulty square in reading order, or 0 where no cell is at fault.
    NotSound {
        square: u8,
    },
    BadNumber,
    NothingThere,
    OtherSide,
    NoPromotion,
    OwnPiece,
    TakesKing,
    DropPromoted,
    DropOccupied,
    NotInHand,
    LastPly,
    ShortBuffer,
    EditUnsound,
}

impl Refused {
    /// The answer number, 1 to 13.
    #[must_use]
    pub const fn number(self) -> u8 {
        self.told().0
    }

    #[must_use]
    pub const fn meaning(self) -> &'static str {
        self.told().1
    }

    /// The square that goes with 1, 0 with every other number.
    #[must_use]
    pub const fn square(self) -> u8 {
        match self {
            Self::NotSound { square } => square,
            _ => 0,
        }
    }

    const fn told(self) -> (u8, &'static str) {
        match self {
            Self::NotSound { .. } => (1, "the position is not sound"),
            Self::BadNumber => (2, "a number is out of range"),
            Self::NothingThere => (3, "nothing on the from square"),
            Self::OtherSide => (4, "the piece is the other side's"),
            Self::NoPromotion => (5, "the piece has no promoted form"),
            Self::OwnPiece => (6, "own piece on the to square"),
            Self::TakesKing => (7, "the move would take a king"),
            Self::DropPromoted => (8, "drop of a promoted piece"),
            Self::DropOccupied => (9, "drop on an occupied square"),
            Self::NotInHand => (10, "that kind is not in hand"),
            Self::LastPly => (11, "the ply is already 65535"),
            Self::ShortBuffer => (12, "the buffer is shorter than the text"),
            Self::EditUnsound => (13, "the edit would make the position unsound"),
        }
    }

    fn by(number: u8, square: u8) -> Self {
        match number {
            1 => Self::NotSound { square },
            2 => Self::BadNumber,
            3 => Self::NothingThere,
            4 => Self::OtherSide,
            5 => Self::NoPromotion,
            6 => Self::OwnPiece,
            7 => Self::TakesKing,
            8 => Self::DropPromoted,
            9 => Self::DropOccupied,
            10 => Self::NotInHand,
            11 => Self::LastPly,
            12 => Self::ShortBuffer,
            13 => Self::EditUnsound,
            _ => unreachable!("the archive is of another version: number {number}"),
        }
    }
}

impl fmt::Display for Refused {
    fn fmt(&self, f: &mut fmt::Formatter<'_>) -> fmt::Result {
        write!(f, "{}: {}", self.number(), self.meaning())?;
        if self.square() != 0 {
            write!(f, ", first at square {}", self.square())?;
        }
        Ok(())
    }
}

/// The same text, so that `unwrap` and a `main` that returns a refusal say it in words.
impl fmt::Debug for Refused {
    fn fmt(&self, f: &mut fmt::Formatter<'_>) -> fmt::Result {
        fmt::Display::fmt(self, f)
    }
}

impl core::error::Error for Refused {}

/// The value where the call was done.
pub(crate) fn done<T>(told: Told, value: T) -> Result<T, Refused> {
    match told.number {
        0 => Ok(value),
        number => Err(Refused::by(number, told.square)),
    }
}

/// The same, of a call without a position.
pub(crate) fn numbered<T>(number: u8, value: T) -> Result<T, Refused> {
    done(Told { number, square: 0 }, value)
}
