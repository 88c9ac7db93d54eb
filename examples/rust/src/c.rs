//! The calls of `include/pulfredan.h` as they are declared there, and the structs in which they answer.
use crate::{MoveNumbers, Position, Set};

macro_rules! answers {
    ($($name:ident { $($field:ident: $kind:ty),* } of $size:literal)*) => {
        $(#[repr(C)]
        pub struct $name { $(pub $field: $kind),* }
        const _: () = assert!(size_of::<$name>() == $size);)*
    };
}

answers! {
    Told { number: u8, square: u8 } of 2
    ToldSet { told: Told, set: Set } of 24
    ToldNumber { told: Told, value: u8 } of 3
    ToldPly { told: Told, ply: u16 } of 4
    ToldMove { told: Told, last: MoveNumbers } of 6
    ToldLength { told: Told, length: usize } of 16
    NumberResult { number: u8, value: u8 } of 2
    SetResult { number: u8, set: Set } of 24
    TruthResult { number: u8, truth: bool } of 2
    PatternResult { number: u8, pattern: u16 } of 4
    Popped { square: u8, set: Set } of 24
}

// SAFETY: a call takes any numbers and any bytes as a position, writes only what it is lent as `&mut`, and keeps no pointer. A reference is
// what the header asks of a pointer: not null, aligned, to a whole value, and not shared while it is changed.
unsafe extern "C" {
    pub safe fn pulfredan_startpos() -> Position;
    pub safe fn pulfredan_empty() -> Position;
    pub safe fn pulfredan_soundness(p: &Position) -> Told;
    pub safe fn pulfredan_piece_at(p: &Position, square: u8) -> ToldNumber;
    pub safe fn pulfredan_player_bitboard(p: &Position, color: u8) -> ToldSet;
    pub safe fn pulfredan_piece_kind_bitboard(p: &Position, kind: u8) -> ToldSet;
    pub safe fn pulfredan_piece_bitboard(p: &Position, piece: u8) -> ToldSet;
    pub safe fn pulfredan_occupied_bitboard(p: &Position) -> ToldSet;
    pub safe fn pulfredan_vacant_bitboard(p: &Position) -> ToldSet;
    pub safe fn pulfredan_side_to_move(p: &Position) -> ToldNumber;
    pub safe fn pulfredan_ply(p: &Position) -> ToldPly;
    pub safe fn pulfredan_hand(p: &Position, color: u8, kind: u8) -> ToldNumber;
    pub safe fn pulfredan_king_position(p: &Position, color: u8) -> ToldNumber;
    pub safe fn pulfredan_last_move(p: &Position) -> ToldMove;
    pub safe fn pulfredan_make_normal(p: &mut Position, from: u8, to: u8, promote: bool) -> Told;
    pub safe fn pulfredan_make_drop(p: &mut Position, piece: u8, to: u8) -> Told;
    pub safe fn pulfredan_piece_set(p: &mut Position, square: u8, cell: u8) -> Told;
    pub safe fn pulfredan_hand_set(p: &mut Position, color: u8, kind: u8, count: u8) -> Told;
    pub safe fn pulfredan_side_to_move_set(p: &mut Position, color: u8) -> Told;
    pub safe fn pulfredan_ply_set(p: &mut Position, ply: u16) -> Told;
    pub safe fn pulfredan_square_new(file: u8, rank: u8) -> NumberResult;
    pub safe fn pulfredan_square_file(square: u8) -> NumberResult;
    pub safe fn pulfredan_square_rank(square: u8) -> NumberResult;
    pub safe fn pulfredan_square_flip(square: u8) -> NumberResult;
    pub safe fn pulfredan_color_flip(color: u8) -> NumberResult;
    pub safe fn pulfredan_kind_promote(kind: u8) -> NumberResult;
    pub safe fn pulfredan_kind_unpromote(kind: u8) -> NumberResult;
    pub safe fn pulfredan_kind_limit(kind: u8) -> NumberResult;
    pub safe fn pulfredan_kind_letter(kind: u8) -> NumberResult;
    pub safe fn pulfredan_kind_hand_kind(kind: u8) -> NumberResult;
    pub safe fn pulfredan_piece_new(kind: u8, color: u8) -> NumberResult;
    pub safe fn pulfredan_piece_kind(piece: u8) -> NumberResult;
    pub safe fn pulfredan_piece_color(piece: u8) -> NumberResult;
    pub safe fn pulfredan_piece_promote(piece: u8) -> NumberResult;
    pub safe fn pulfredan_piece_unpromote(piece: u8) -> NumberResult;
    pub safe fn pulfredan_set_empty() -> Set;
    pub safe fn pulfredan_set_single(square: u8) -> SetResult;
    pub safe fn pulfredan_set_count(s: Set) -> u8;
    pub safe fn pulfredan_set_is_empty(s: Set) -> bool;
    pub safe fn pulfredan_set_contains(s: Set, square: u8) -> TruthResult;
    pub safe fn pulfredan_set_or(a: Set, b: Set) -> Set;
    pub safe fn pulfredan_set_and(a: Set, b: Set) -> Set;
    pub safe fn pulfredan_set_xor(a: Set, b: Set) -> Set;
    pub safe fn pulfredan_set_andnot(a: Set, b: Set) -> Set;
    pub safe fn pulfredan_set_not(s: Set) -> Set;
    pub safe fn pulfredan_set_from_file(file: u8, pattern: u16) -> SetResult;
    pub safe fn pulfredan_set_get_file(s: Set, file: u8) -> PatternResult;
    pub safe fn pulfredan_set_flip(s: Set) -> Set;
    pub safe fn pulfredan_set_pop(s: Set) -> Popped;
    pub safe fn pulfredan_set_shift_down(s: Set, delta: u8) -> SetResult;
    pub safe fn pulfredan_set_shift_up(s: Set, delta: u8) -> SetResult;
    pub safe fn pulfredan_set_shift_left(s: Set, delta: u8) -> SetResult;
    pub safe fn pulfredan_set_shift_right(s: Set, delta: u8) -> SetResult;

    // A pointer and a length go in: whoever calls it owes that they belong together.
    pub fn pulfredan_write_sfen(p: &Position, out: *mut u8, room: usize) -> ToldLength;
}
