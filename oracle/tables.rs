//! What the program `tables` must print, by shogi_core: calls that no case line reaches, for every number. Where the crate
//! has no value for a number, ours answers 2 with 0.

use shogi_core::{Bitboard, Color, Hand, PartialPosition, Piece, PieceKind, Square};

fn main() {
    for n in 0..=255 {
        let piece = piece(n);
        let fields = [
            truth(Square::from_u8(n).is_some()),
            number(Square::from_u8(n).map(|square| square.flip().index())),
            truth(color(n).is_some()),
            number(color(n).map(|color| color_number(color.flip()))),
            truth(PieceKind::from_u8(n).is_some()),
            form(PieceKind::from_u8(n).map(hand_kind)),
            truth(n == 0 || piece.is_some()),
            truth(piece.is_some()),
            number(piece.map(|piece| piece.piece_kind() as u8)),
            number(piece.map(|piece| color_number(piece.color()))),
            form(piece.map(|piece| piece.promote().map(Piece::as_u8))),
            // The crate says None of a piece that is not promoted; ours is then the piece itself.
            number(piece.map(|piece| piece.unpromote().unwrap_or(piece).as_u8())),
            covered(n, piece),
        ];
        println!("{n} {}", fields.join(" "));
    }
    for kind in 0..16 {
        for colour in 0..4 {
            let made = PieceKind::from_u8(kind).zip(color(colour));
            let made = made.map(|(kind, color)| Piece::new(kind, color).as_u8());
            println!("{kind} {colour} {}", number(made));
        }
    }
    for bit in 0..64 {
        // The stray bits are dropped, as document 01 says; the crate would count them.
        let first = (1_u128 << bit) & ((1 << 63) - 1);
        let second = (1_u128 << bit & ((1 << 18) - 1)) << 64;
        // By document 01 a set is exactly itself unless its one bit was dropped; the empty set is it where nothing is left.
        let [first, second] = [first, second].map(is_empty);
        println!("{bit} {first} {second} {} {} {first} {second}", 1 - first, 1 - second);
    }
}

fn truth(value: bool) -> String {
    u8::from(value).to_string()
}

/// A board with one cell everywhere: the answer number, and how many squares are Black's and White's.
fn covered(cell: u8, piece: Option<Piece>) -> String {
    let mut position = PartialPosition::empty();
    for square in Square::all() {
        position.piece_set(square, piece);
    }
    let bad = cell != 0 && piece.is_none();
    let [black, white] = Color::all().map(|color| position.player_bitboard(color).count());
    format!("{} {black} {white}", if bad { 2 } else { 0 })
}

fn number(value: Option<u8>) -> String {
    form(value.map(Some))
}

/// The answer number and the value, which is 0 for nothing.
fn form(value: Option<Option<u8>>) -> String {
    match value {
        Some(form) => format!("0 {}", form.unwrap_or(0)),
        None => "2 0".to_string(),
    }
}

fn color(number: u8) -> Option<Color> {
    Color::all()
        .into_iter()
        .find(|&color| color_number(color) == number)
}

fn color_number(color: Color) -> u8 {
    match color {
        Color::Black => 1,
        Color::White => 2,
    }
}

fn piece(number: u8) -> Option<Piece> {
    Piece::all()
        .into_iter()
        .find(|piece| piece.as_u8() == number)
}

/// The kind that a hand counts after a piece of this kind was taken; a hand takes no king.
fn hand_kind(kind: PieceKind) -> Option<u8> {
    let taken = kind.unpromote().unwrap_or(kind);
    let hand = Hand::new().added(taken)?;
    let held = Hand::all_hand_pieces().find(|&held| hand.count(held) == Some(1));
    held.map(|held| held as u8)
}

fn is_empty(words: u128) -> u8 {
    // Safety: the words have no stray bit.
    unsafe { Bitboard::from_u128_unchecked(words) }
        .is_empty()
        .into()
}
