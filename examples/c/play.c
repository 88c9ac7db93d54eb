/* What a board's firmware does: lends its position to a call, finds it changed, lights the lamps of a set of squares, sends the text.
 * Build it with any C11 compiler for x86-64:
 *     (cd crates/firmware && rt lib --cpu x86-64) && cc -std=c11 -Iinclude examples/c/play.c crates/firmware/out/libfirmware.a -o play */
#include "pulfredan.h"

/* All that is used of the C library, declared here so that no other header is needed. */
int printf(const char *format, ...);
int memcmp(const void *a, const void *b, size_t length);

static void lamps(const char *name, pulfredan_set set) {
    printf("%s:", name);
    for (;;) {
        pulfredan_popped next = pulfredan_set_pop(set);
        if (next.square == 0)
            break;
        printf(" %u", next.square);
        set = next.set;
    }
    printf("\n");
}

static void send(const pulfredan_position *board, size_t room) {
    uint8_t line[PULFREDAN_TEXT_MAX] = "-";
    pulfredan_told_length wrote = pulfredan_write_sfen(board, line, room);
    printf("text in %u bytes: %u, %u bytes, %.*s\n", (unsigned)room, wrote.told.number, (unsigned)wrote.length,
           wrote.length == 0 ? 1 : (int)wrote.length, (const char *)line);
}

static uint8_t square(uint8_t file, char rank) {
    return pulfredan_square_new(file, (uint8_t)(rank - 'A' + 1)).value;
}

/* Plays a move, and lights the squares whose occupation changed. */
static void play(pulfredan_position *board, uint8_t from, uint8_t to, bool promote) {
    pulfredan_set before = pulfredan_occupied_bitboard(board).set;
    pulfredan_position given = *board;
    pulfredan_told told = pulfredan_make_normal(board, from, to, promote);
    printf("%u to %u: %u%s\n", from, to, told.number, memcmp(&given, board, sizeof given) == 0 ? ", nothing changed" : "");
    lamps("lamps", pulfredan_set_xor(before, pulfredan_occupied_bitboard(board).set));
}

int main(void) {
    pulfredan_position board = pulfredan_startpos();
    send(&board, PULFREDAN_TEXT_MAX);

    /* A game begins: two pawns make way, Black's bishop takes White's and promotes, a silver takes it, a bishop is dropped. */
    play(&board, square(7, 'G'), square(7, 'F'), false);
    send(&board, PULFREDAN_TEXT_MAX);
    play(&board, square(3, 'C'), square(3, 'D'), false);
    play(&board, square(8, 'H'), square(2, 'B'), true);
    send(&board, PULFREDAN_TEXT_MAX);
    printf("in hand: %u\n", pulfredan_hand(&board, PULFREDAN_COLOR_BLACK, PULFREDAN_BISHOP).value);
    lamps("promoted bishops", pulfredan_piece_kind_bitboard(&board, PULFREDAN_PRO_BISHOP).set);
    pulfredan_move last = pulfredan_last_move(&board).last;
    printf("last move: %u %u %u %u\n", last.tag, last.a, last.b, last.promote);

    /* Refused: the square is empty, the piece is Black's. */
    play(&board, square(5, 'E'), square(5, 'D'), false);
    play(&board, square(5, 'I'), square(5, 'H'), false);

    play(&board, square(3, 'A'), square(2, 'B'), false);
    printf("drop: %u\n", pulfredan_make_drop(&board, PULFREDAN_BLACK(PULFREDAN_BISHOP), square(5, 'E')).number);
    send(&board, PULFREDAN_TEXT_MAX);

    /* A buffer that just fits, and one that is a byte short. */
    board = pulfredan_startpos();
    send(&board, 63);
    send(&board, 62);

    /* A pawn goes from the board to the hand by edits; a full set has no second one. It is dropped, in a file that has none. */
    printf("edits: %u", pulfredan_piece_set(&board, square(7, 'G'), 0).number);
    printf(" %u", pulfredan_hand_set(&board, PULFREDAN_COLOR_BLACK, PULFREDAN_PAWN, 1).number);
    printf(" %u\n", pulfredan_hand_set(&board, PULFREDAN_COLOR_BLACK, PULFREDAN_PAWN, 2).number);
    printf("drop: %u\n", pulfredan_make_drop(&board, PULFREDAN_BLACK(PULFREDAN_PAWN), square(7, 'E')).number);
    send(&board, PULFREDAN_TEXT_MAX);

    /* A byte that no call wrote. */
    board.board[square(5, 'E') - 1] = 15;
    pulfredan_told found = pulfredan_soundness(&board);
    printf("soundness: %u, square %u\n", found.number, found.square);
    send(&board, PULFREDAN_TEXT_MAX);
    return 0;
}
