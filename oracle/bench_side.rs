//! The Rust's side of the benchmark: shogi_core's own functions behind signatures like those of include/pulfredan.h.
#![no_std]
use shogi_core::{Bitboard, Move, PartialPosition, Piece, Square};

#[panic_handler]
fn stop(_: &core::panic::PanicInfo) -> ! {
    loop {}
}

#[repr(C)]
pub struct SetResult {
    number: u8,
    set: Bitboard,
}

#[repr(C)]
pub struct Popped {
    square: u8,
    set: Bitboard,
}

#[no_mangle]
pub extern "C" fn rust_set_and(a: Bitboard, b: Bitboard) -> Bitboard {
    a & b
}

#[no_mangle]
pub extern "C" fn rust_set_or(a: Bitboard, b: Bitboard) -> Bitboard {
    a | b
}

#[no_mangle]
pub extern "C" fn rust_set_xor(a: Bitboard, b: Bitboard) -> Bitboard {
    a ^ b
}

#[no_mangle]
pub extern "C" fn rust_set_andnot(a: Bitboard, b: Bitboard) -> Bitboard {
    a.andnot(b)
}

#[no_mangle]
pub extern "C" fn rust_set_not(s: Bitboard) -> Bitboard {
    !s
}

#[no_mangle]
pub extern "C" fn rust_set_flip(s: Bitboard) -> Bitboard {
    s.flip()
}

#[no_mangle]
pub extern "C" fn rust_set_count(s: Bitboard) -> u8 {
    s.count()
}

#[no_mangle]
pub extern "C" fn rust_set_contains(s: Bitboard, square: Square) -> bool {
    s.contains(square)
}

#[no_mangle]
pub extern "C" fn rust_set_pop(s: Bitboard) -> Popped {
    let mut set = s;
    let square = set.pop().map_or(0, |square| square.index());
    Popped { square, set }
}

fn done(set: Bitboard) -> SetResult {
    SetResult { number: 0, set }
}

// Safety of the shifts: the driver's distances are 0 to 9.
#[no_mangle]
pub extern "C" fn rust_set_shift_down(s: Bitboard, delta: u8) -> SetResult {
    done(unsafe { s.shift_down(delta) })
}

#[no_mangle]
pub extern "C" fn rust_set_shift_up(s: Bitboard, delta: u8) -> SetResult {
    done(unsafe { s.shift_up(delta) })
}

#[no_mangle]
pub extern "C" fn rust_set_shift_left(s: Bitboard, delta: u8) -> SetResult {
    done(unsafe { s.shift_left(delta) })
}

#[no_mangle]
pub extern "C" fn rust_set_shift_right(s: Bitboard, delta: u8) -> SetResult {
    done(unsafe { s.shift_right(delta) })
}

#[no_mangle]
pub extern "C" fn rust_size() -> usize {
    core::mem::size_of::<PartialPosition>()
}

/// # Safety
/// `p` has room for a position.
#[no_mangle]
pub unsafe extern "C" fn rust_startpos(p: *mut PartialPosition) {
    core::ptr::write(p, PartialPosition::startpos())
}

// Our numbers of squares and pieces are the crate's own, so they are passed as they are.
#[no_mangle]
pub extern "C" fn rust_piece_at(p: &PartialPosition, square: Square) -> Option<Piece> {
    p.piece_at(square)
}

#[no_mangle]
pub extern "C" fn rust_hand(p: &PartialPosition, piece: Piece) -> u8 {
    p.hand(piece).unwrap_or(0)
}

#[no_mangle]
pub extern "C" fn rust_make_normal(p: &mut PartialPosition, from: Square, to: Square, promote: bool) -> bool {
    p.make_move(Move::Normal { from, to, promote }).is_some()
}

#[no_mangle]
pub extern "C" fn rust_make_drop(p: &mut PartialPosition, piece: Piece, to: Square) -> bool {
    p.make_move(Move::Drop { piece, to }).is_some()
}

/// # Safety
/// `out` has room for 139 bytes.
#[no_mangle]
pub unsafe extern "C" fn rust_write_sfen(p: &PartialPosition, out: *mut u8) {
    p.to_sfen_c(out)
}
