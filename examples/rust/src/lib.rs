//! Pulfredan for a Rust host: a thin safe wrapper over the calls of `include/pulfredan.h`, whose comments give each call's numbers and
//! promise. A call that is refused is an `Err` with its number; any numbers may go in.
//!
//! ```
//! use pulfredan::{square, Move, Position, Refused};
//!
//! let mut board = Position::startpos();
//! board.make_move(Move::Normal { from: square(7, 7), to: square(7, 6), promote: false })?;
//! let mut text = [0; pulfredan::TEXT_MAX];
//! let length = board.write_sfen(&mut text)?;
//! assert_eq!(&text[..length], b"lnsgkgsnl/1r5b1/ppppppppp/9/9/2P6/PP1PPPPPP/1B5R1/LNSGKGSNL w - 2");
//! # Ok::<(), Refused>(())
//! ```
#![no_std]

#[cfg(not(target_arch = "x86_64"))]
compile_error!("Pulfredan's archive is code for x86-64: compile for that target");
#[cfg(any(windows, target_os = "uefi"))]
compile_error!("Pulfredan's archive has the calling convention of Linux: Windows and UEFI call otherwise, so compile for another target");

mod c;
mod numbers;
mod position;
mod refused;
mod set;

pub use numbers::{black, square, white, Color, Kind, Piece, Square};
pub use position::{Move, MoveNumbers, Position};
pub use refused::Refused;
pub use set::{Set, Squares};

/// Room for every text.
pub const TEXT_MAX: usize = 168;
