//! The same as examples/c/play.c: a lent position is changed in place, lamps are lit for a set of squares, the text is sent.
use pulfredan::{black, Color, Kind, Move, Position, Refused, Set, Square, TEXT_MAX};

fn lamps(name: &str, set: Set) {
    print!("{name}:");
    for square in set {
        print!(" {square}");
    }
    println!();
}

/// 0, or the number of the refusal.
fn number<T>(answer: Result<T, Refused>) -> u8 {
    answer.err().map_or(0, |refused| refused.number())
}

fn send(board: &Position, room: usize) {
    let mut line = [0; TEXT_MAX];
    line[0] = b'-';
    let wrote = board.write_sfen(&mut line[..room]);
    let length = wrote.unwrap_or(0);
    let text = String::from_utf8_lossy(&line[..length.max(1)]);
    println!("text in {room} bytes: {}, {length} bytes, {text}", number(wrote));
}

fn square(file: u8, rank: u8) -> Result<u8, Refused> {
    Square::new(file, rank - b'A' + 1)
}

/// Plays a move, and lights the squares whose occupation changed.
fn play(board: &mut Position, from: u8, to: u8, promote: bool) -> Result<(), Refused> {
    let given = *board;
    let played = board.make_move(Move::Normal { from, to, promote });
    let same = if given == *board { ", nothing changed" } else { "" };
    println!("{from} to {to}: {}{same}", number(played));
    lamps("lamps", given.occupied_bitboard()? ^ board.occupied_bitboard()?);
    Ok(())
}

/// A game begins: two pawns make way, Black's bishop takes White's and promotes, a silver takes it, a bishop is dropped.
fn game() -> Result<(), Refused> {
    let mut board = Position::startpos();
    send(&board, TEXT_MAX);
    play(&mut board, square(7, b'G')?, square(7, b'F')?, false)?;
    send(&board, TEXT_MAX);
    play(&mut board, square(3, b'C')?, square(3, b'D')?, false)?;
    play(&mut board, square(8, b'H')?, square(2, b'B')?, true)?;
    send(&board, TEXT_MAX);
    println!("in hand: {}", board.hand(Color::BLACK, Kind::BISHOP)?);
    lamps("promoted bishops", board.piece_kind_bitboard(Kind::PRO_BISHOP)?);
    if let Some(Move::Normal { from, to, promote }) = board.last_move()? {
        println!("last move: 1 {from} {to} {}", u8::from(promote));
    }

    // Refused: the square is empty, the piece is Black's.
    play(&mut board, square(5, b'E')?, square(5, b'D')?, false)?;
    play(&mut board, square(5, b'I')?, square(5, b'H')?, false)?;

    play(&mut board, square(3, b'A')?, square(2, b'B')?, false)?;
    println!("drop: {}", number(board.make_move(Move::Drop { piece: black(Kind::BISHOP), to: square(5, b'E')? })));
    send(&board, TEXT_MAX);
    Ok(())
}

fn edits() -> Result<(), Refused> {
    // A buffer that just fits, and one that is a byte short.
    let mut board = Position::startpos();
    send(&board, 63);
    send(&board, 62);

    // A pawn goes from the board to the hand by edits; a full set has no second one. It is dropped, in a file that has none.
    let emptied = number(board.piece_set(square(7, b'G')?, 0));
    let held = number(board.hand_set(Color::BLACK, Kind::PAWN, 1));
    let too_many = number(board.hand_set(Color::BLACK, Kind::PAWN, 2));
    println!("edits: {emptied} {held} {too_many}");
    println!("drop: {}", number(board.make_move(Move::Drop { piece: black(Kind::PAWN), to: square(7, b'E')? })));
    send(&board, TEXT_MAX);

    // A byte that no call wrote.
    board.board[usize::from(square(5, b'E')?) - 1] = 15;
    if let Err(refused) = board.soundness() {
        println!("soundness: {}, square {}", refused.number(), refused.square());
    }
    send(&board, TEXT_MAX);
    Ok(())
}

fn main() -> Result<(), Refused> {
    game()?;
    edits()
}
