//! What the wrapper adds to the calls. The programs in src/bin make the calls themselves.
use std::collections::HashSet;

use pulfredan::{black, square, white, Kind, Move, Piece, Position, Refused, Set, Square};

const STRAY: Set = Set { lo: 1 << 63, hi: 1 << 18 };

fn of(squares: &[u8]) -> Set {
    squares.iter().copied().collect()
}

fn with_stray_bits(set: Set) -> Set {
    Set { lo: set.lo | STRAY.lo, hi: set.hi | STRAY.hi }
}

#[test]
fn equal_sets_have_the_same_squares() {
    let set = of(&[1, 63, 64, 81]);
    assert_eq!(with_stray_bits(set), set);
    assert_ne!(of(&[1, 63, 64]), set);
    assert_eq!(HashSet::from([set, with_stray_bits(set), of(&[1])]).len(), 2);
}

#[test]
fn positions_that_differ_in_a_stray_bit_differ() {
    let board = Position::startpos();
    let mut unsound = board;
    unsound.players[0] = with_stray_bits(board.players[0]);
    assert_eq!(board.soundness(), Ok(()));
    assert_eq!(unsound.soundness(), Err(Refused::NotSound { square: 0 }));
    assert!(unsound != board);
}

#[test]
fn sets_are_collected_and_gone_through() {
    let mut set = of(&[64, 0, 3, 82, 3, 255]);
    set.extend([81]);
    assert_eq!(set.iter().collect::<Vec<u8>>(), [3, 64, 81]);
    assert_eq!(set.iter().len(), 3);
    let mut sum = 0;
    for square in &set {
        sum += u32::from(square);
    }
    assert_eq!(sum, 3 + 64 + 81);
}

#[test]
fn operators_that_assign() {
    let (a, b) = (of(&[1, 2, 64]), of(&[2, 64, 81]));
    let mut set = a;
    set |= b;
    assert_eq!(set, of(&[1, 2, 64, 81]));
    set &= b;
    assert_eq!(set, b);
    set ^= a;
    assert_eq!(set, of(&[1, 81]));
    set -= b;
    assert_eq!(set, of(&[1]));
}

#[test]
fn constants_are_what_the_calls_answer() {
    for (file, rank) in (1..=9).flat_map(|file| (1..=9).map(move |rank| (file, rank))) {
        assert_eq!(Square::new(file, rank), Ok(square(file, rank)));
    }
    for kind in Kind::PAWN..=Kind::PRO_ROOK {
        assert_eq!(Piece::new(kind, 1), Ok(black(kind)));
        assert_eq!(Piece::new(kind, 2), Ok(white(kind)));
    }
}

#[test]
#[should_panic(expected = "files and ranks are 1 to 9")]
fn no_constant_for_a_tenth_rank() {
    let _ = square(1, 10);
}

#[test]
#[should_panic(expected = "kinds are 1 to 14")]
fn no_constant_for_kind_0() {
    let _ = white(0);
}

#[test]
fn a_refusal_says_why() {
    let mut board = Position::startpos();
    let refused = board.make_move(Move::Normal { from: square(5, 5), to: square(5, 4), promote: false }).unwrap_err();
    assert_eq!(refused.to_string(), "3: nothing on the from square");
    board.board[usize::from(square(5, 5)) - 1] = 15;
    assert_eq!(format!("{:?}", board.soundness().unwrap_err()), "1: the position is not sound, first at square 41");
}
