//! The same as examples/c/calls.c: the calls that play does not make, with document 01's marked examples of sets.
use pulfredan::{black, square, white, Color, Kind, Move, Piece, Position, Refused, Set, Square};

fn set(name: &str, s: Set) {
    squares(name, 0, s);
}

fn squares(name: &str, number: u8, s: Set) {
    print!("{name}: {number}, {} squares:", s.count());
    for square in s {
        print!(" {square}");
    }
    println!();
}

fn number_of<T>(answer: &Result<T, Refused>) -> u8 {
    answer.as_ref().err().map_or(0, |refused| refused.number())
}

fn square_of<T>(answer: &Result<T, Refused>) -> u8 {
    answer.as_ref().err().map_or(0, |refused| refused.square())
}

fn result(name: &str, r: Result<Set, Refused>) {
    squares(name, number_of(&r), r.unwrap_or_default());
}

fn number(name: &str, r: Result<u8, Refused>) {
    println!("{name}: {}, {}", number_of(&r), r.unwrap_or(0));
}

fn form(name: &str, r: Result<Option<u8>, Refused>) {
    number(name, r.map(Option::unwrap_or_default));
}

fn told(name: &str, r: Result<(), Refused>) {
    println!("{name}: {}, square {}", number_of(&r), square_of(&r));
}

fn told_number(name: &str, r: Result<u8, Refused>) {
    println!("{name}: {}, square {}, {}", number_of(&r), square_of(&r), r.unwrap_or(0));
}

fn told_form(name: &str, r: Result<Option<u8>, Refused>) {
    told_number(name, r.map(Option::unwrap_or_default));
}

fn sets() -> Result<(), Refused> {
    let (a1, a2, i5, i7, a8, a9) = (1, 10, 45, 63, 64, 73);
    let one = Set::single;
    let full = !Set::empty();
    let stray = Set { lo: 1 << 63, hi: 1 << 18 };
    set("M1", one(a8)?.flip());
    result("M2", one(a8)?.shift_right(0));
    result("M3", one(a9)?.shift_right(1));
    result("M4", one(i7)?.shift_left(1));
    result("M5", (one(a1)? | one(a2)?).shift_left(8));
    result("M6", one(i5)?.shift_down(1));
    result("full down 9", full.shift_down(9));
    result("full up 9", full.shift_up(9));
    result("full left 9", full.shift_left(9));
    result("full right 9", full.shift_right(9));
    result("up 10", full.shift_up(10));
    if let Some((square, rest)) = (one(i7)? | one(a8)?).pop() {
        print!("M7: {square}, ");
        set("leaving", rest);
    }
    result("single 82", one(82));
    set("stray bits", stray);
    set("both", full & one(a9)?);
    set("either alone", one(a9)? ^ one(a8)?);
    set("in the second alone", (one(a8)? | one(a9)?) - one(a9)?);
    let file = Set::from_file(8, 257)?;
    set("file", file);
    result("pattern 512", Set::from_file(8, 512));
    let none_such = file.get_file(10);
    println!("pattern: 0, {}; {}, {}", file.get_file(8)?, number_of(&none_such), none_such.unwrap_or(0));
    let bad = file.contains(0);
    let [a, b] = [file.contains(a8)?, file.contains(a9)?].map(u8::from);
    println!("contains: 0, {a}; 0, {b}; {}, {}", number_of(&bad), u8::from(bad.unwrap_or(false)));
    number("square", Square::new(8, 1));
    number("no square", Square::new(8, 10));
    number("file", Square::file(a8));
    number("rank", Square::rank(i7));
    number("file of 82", Square::file(82));
    number("flipped", Square::flip(a8));
    number("flipped 82", Square::flip(82));
    println!("empty: {}, {}", u8::from(stray.is_empty()), u8::from(full.is_empty()));
    Ok(())
}

fn kinds() -> Result<(), Refused> {
    for kind in Kind::PAWN..=Kind::PRO_ROOK {
        let (letter, limit) = (Kind::letter(kind)?, Kind::limit(kind)?);
        let promoted = Kind::promote(kind)?.unwrap_or(0);
        let (unpromoted, held) = (Kind::unpromote(kind)?, Kind::hand_kind(kind)?.unwrap_or(0));
        println!("kind {kind}: {letter}, limit {limit}, promoted {promoted}, unpromoted {unpromoted}, in hand {held}");
    }
    number("letter of 15", Kind::letter(15).map(|letter| letter as u8));
    number("limit of 0", Kind::limit(0));
    form("15 promoted", Kind::promote(15));
    number("15 unpromoted", Kind::unpromote(15));
    form("15 in hand", Kind::hand_kind(15));
    number("other colour", Color::flip(Color::BLACK));
    number("other than 3", Color::flip(3));
    let rook = white(Kind::ROOK);
    number("white rook", Piece::new(Kind::ROOK, Color::WHITE));
    number("rook of 3", Piece::new(Kind::ROOK, 3));
    number("its kind", Piece::kind(rook));
    number("its colour", Piece::color(rook));
    form("promoted", Piece::promote(rook));
    form("gold promoted", Piece::promote(black(Kind::GOLD)));
    number("unpromoted", Piece::unpromote(white(Kind::PRO_ROOK)));
    number("kind of 0", Piece::kind(0));
    number("colour of 16", Piece::color(16));
    form("31 promoted", Piece::promote(31));
    number("0 unpromoted", Piece::unpromote(0));
    Ok(())
}

fn positions() -> Result<(), Refused> {
    let (mut board, bare) = (Position::startpos(), Position::empty());
    told_form("piece on 5I", board.piece_at(square(5, 9)));
    told_form("piece on 5E", board.piece_at(square(5, 5)));
    told_form("piece on 82", board.piece_at(82));
    result("white", board.player_bitboard(Color::WHITE));
    result("white king", board.piece_bitboard(white(Kind::KING)));
    result("piece 0", board.piece_bitboard(0));
    result("vacant", board.vacant_bitboard());
    told_form("king", board.king_position(Color::WHITE));
    told_form("no king", bare.king_position(Color::WHITE));
    told_number("hand of kings", board.hand(Color::BLACK, Kind::KING));
    if board.last_move()?.is_none() {
        println!("last move: 0, 0 0 0 0");
    }
    told("side", board.side_to_move_set(Color::WHITE));
    told_number("side", board.side_to_move());
    told("ply 0", board.ply_set(0));
    told("ply", board.ply_set(65535));
    println!("ply: 0, {}", board.ply()?);
    told("last ply", board.make_move(Move::Normal { from: 21, to: 22, promote: false }));
    board.hands[0] = 19;
    told("too many pawns", board.ply_set(1));
    let ply = board.ply();
    println!("ply: {}, {}", number_of(&ply), ply.unwrap_or(0));
    Ok(())
}

fn main() -> Result<(), Refused> {
    sets()?;
    kinds()?;
    positions()
}
