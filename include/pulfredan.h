/* Pulfredan: the core of an electronic shogi board. The calls of crate `firmware`, for C11 and C++11.
 *
 * Every call below is proved to meet the promise in its comment, for every number and every position that goes in, good or bad, and
 * to end. In this layer nothing asks how a piece moves, the promotion zone, two pawns in a file or check: a move is a piece that goes from
 * one square to another, or from a hand to a square.
 *
 * The archive (`rt lib --cpu x86-64` in crates/firmware) is code for x86-64, with the calling convention of Linux there. It needs two
 * functions of its host, memcpy and memset, keeps nothing between calls, and may run freestanding. Of stack a call takes up to 2.7 kB, as
 * measured: keep 4 kB free. It uses the SSE registers: a kernel or an interrupt handler that makes a call must have SSE enabled, and save
 * and restore those registers.
 *
 * What the host owes, and nothing can check: a pointer to a position is not null, is aligned as its type, and points to a whole
 * position that no other part of the program writes during the call (nor reads, where the call changes it). The same holds of a lent buffer
 * and its length. No call keeps a pointer.
 *
 * Numbers. Files 1..9 and ranks 1..9 (rank A is 1). Squares 1..81: nine times the file less nine, plus the rank. Colours: Black 1,
 * White 2. Kinds 1..14, as named below. Cells: 0 empty, k a black piece of kind k, 16 + k a white one. A piece is a cell other than 0. */
#ifndef PULFREDAN_H
#define PULFREDAN_H

#if defined(_WIN32) || defined(__CYGWIN__)
#error "Pulfredan's archive has the calling convention of Linux: Windows calls otherwise, so compile for another target"
#elif !defined(__x86_64__)
#error "Pulfredan's archive is code for x86-64: compile for that target"
#endif

#include <stdbool.h>
#include <stddef.h>
#include <stdint.h>

#ifdef __cplusplus
#define PULFREDAN_LAYOUT(fact) static_assert(fact, #fact)
extern "C" {
#else
#define PULFREDAN_LAYOUT(fact) _Static_assert(fact, #fact)
#endif

/* Answer numbers. Each is given exactly when its fact holds and no earlier one does; the order is 2, then 1, then the others as a
 * call lists them. Every number but 0 leaves a lent position and a lent buffer as they were. */
enum {
    PULFREDAN_DONE = 0,
    PULFREDAN_NOT_SOUND = 1,      /* with the first faulty square in reading order, or 0 */
    PULFREDAN_BAD_NUMBER = 2,
    PULFREDAN_NOTHING_THERE = 3,  /* nothing on the from square */
    PULFREDAN_OTHER_SIDE = 4,     /* the piece is the other side's */
    PULFREDAN_NO_PROMOTION = 5,   /* the piece has no promoted form */
    PULFREDAN_OWN_PIECE = 6,      /* own piece on the to square, or from and to are one */
    PULFREDAN_TAKES_KING = 7,
    PULFREDAN_DROP_PROMOTED = 8,
    PULFREDAN_DROP_OCCUPIED = 9,
    PULFREDAN_NOT_IN_HAND = 10,
    PULFREDAN_LAST_PLY = 11,      /* ply is already 65535 */
    PULFREDAN_SHORT_BUFFER = 12,  /* lent buffer shorter than the text */
    PULFREDAN_EDIT_UNSOUND = 13   /* the edit would make the position unsound */
};

enum { PULFREDAN_COLOR_BLACK = 1, PULFREDAN_COLOR_WHITE = 2 };

enum {
    PULFREDAN_PAWN = 1,
    PULFREDAN_LANCE = 2,
    PULFREDAN_KNIGHT = 3,
    PULFREDAN_SILVER = 4,
    PULFREDAN_GOLD = 5,
    PULFREDAN_BISHOP = 6,
    PULFREDAN_ROOK = 7,
    PULFREDAN_KING = 8,
    PULFREDAN_PRO_PAWN = 9,
    PULFREDAN_PRO_LANCE = 10,
    PULFREDAN_PRO_KNIGHT = 11,
    PULFREDAN_PRO_SILVER = 12,
    PULFREDAN_PRO_BISHOP = 13,
    PULFREDAN_PRO_ROOK = 14
};

/* The piece of a kind, and the square of a file and a rank, as constants. They test nothing: for numbers that come from outside there are
 * pulfredan_piece_new and pulfredan_square_new. */
#define PULFREDAN_BLACK(kind) ((uint8_t)(kind))
#define PULFREDAN_WHITE(kind) ((uint8_t)(16 + (kind)))
#define PULFREDAN_SQUARE(file, rank) ((uint8_t)(9 * (file) - 9 + (rank)))

/* Room for every text. In fact no text has more than 136 bytes. */
#define PULFREDAN_TEXT_MAX 168

/* A set of squares: square n is bit n - 1 of lo for n up to 63, else bit n - 64 of hi. Bit 63 of lo and bits 18 and up of hi are
 * ignored on entry and zero in every result. */
typedef struct {
    uint64_t lo;
    uint64_t hi;
} pulfredan_set;

/* A move: 0 0 0 0 none; 1 from to promote (0 or 1); 2 piece to 0, a drop. */
typedef struct {
    uint8_t tag;
    uint8_t a;
    uint8_t b;
    uint8_t promote;
} pulfredan_move;

/* A position. Any bytes may be lent as one: what is not sound is answered by 1. It is sound when
 *   - every cell is 0, 1 to 14 or 17 to 30;
 *   - the two colour sets and the fourteen kind sets are the squares of the cells that have that colour or kind, with no stray bits;
 *   - bking and wking are the squares of the kings, 0 for a king that is not there, and no colour has two;
 *   - of each kind, promoted or not, board and both hands together have no more than a full set: 18 pawns, 4 lances, knights, silvers
 *     and golds each, 2 bishops, 2 rooks (fewer is sound, and so is a board without a king);
 *   - the side to move is 1 or 2, and the ply 1 to 65535;
 *   - the last move is none, or has good numbers: squares 1 to 81, a promote of 0 or 1, a piece.
 * The square that goes with 1 is the first faulty cell in reading order, rank 1 from file 9 to file 1, then rank 2, and so on: a cell is
 * faulty if its number is bad or one of the sets disagrees with it there. It is 0 where the fault lies elsewhere only. */
typedef struct {
    uint8_t board[81];  /* the cell of square n is board[n - 1] */
    uint8_t hands[14];  /* Black's counts of kinds 1 to 7, then White's */
    uint8_t bking;      /* the square of Black's king, 0: none */
    uint8_t wking;
    uint8_t side;
    pulfredan_move last;
    uint16_t ply;
    pulfredan_set players[2];
    pulfredan_set kinds[14];
} pulfredan_position;

PULFREDAN_LAYOUT(sizeof(pulfredan_set) == 16);
PULFREDAN_LAYOUT(sizeof(pulfredan_move) == 4);
PULFREDAN_LAYOUT(offsetof(pulfredan_position, board) == 0);
PULFREDAN_LAYOUT(offsetof(pulfredan_position, hands) == 81);
PULFREDAN_LAYOUT(offsetof(pulfredan_position, bking) == 95);
PULFREDAN_LAYOUT(offsetof(pulfredan_position, wking) == 96);
PULFREDAN_LAYOUT(offsetof(pulfredan_position, side) == 97);
PULFREDAN_LAYOUT(offsetof(pulfredan_position, last) == 98);
PULFREDAN_LAYOUT(offsetof(pulfredan_position, ply) == 102);
PULFREDAN_LAYOUT(offsetof(pulfredan_position, players) == 104);
PULFREDAN_LAYOUT(offsetof(pulfredan_position, kinds) == 136);
PULFREDAN_LAYOUT(sizeof(pulfredan_position) == 360);

/* ---- Answers. A refused call carries the empty set, 0, false, or the move 0 0 0 0. */

/* Of a call on a position: its number, and the square that goes with 1 (0 with every other number). */
typedef struct {
    uint8_t number;
    uint8_t square;
} pulfredan_told;

typedef struct {
    pulfredan_told told;
    pulfredan_set set;
} pulfredan_told_set;

typedef struct {
    pulfredan_told told;
    uint8_t value;
} pulfredan_told_number;

typedef struct {
    pulfredan_told told;
    uint16_t ply;
} pulfredan_told_ply;

typedef struct {
    pulfredan_told told;
    pulfredan_move last;
} pulfredan_told_move;

typedef struct {
    pulfredan_told told;
    size_t length;
} pulfredan_told_length;

/* Of a call without a position: number is 0 or 2. */
typedef struct {
    uint8_t number;
    uint8_t value;
} pulfredan_number_result;

typedef struct {
    uint8_t number;
    pulfredan_set set;
} pulfredan_set_result;

typedef struct {
    uint8_t number;
    bool truth;
} pulfredan_truth_result;

typedef struct {
    uint8_t number;
    uint16_t pattern;
} pulfredan_pattern_result;

typedef struct {
    uint8_t square;
    pulfredan_set set;
} pulfredan_popped;

PULFREDAN_LAYOUT(sizeof(pulfredan_told) == 2);
PULFREDAN_LAYOUT(sizeof(pulfredan_told_set) == 24);
PULFREDAN_LAYOUT(sizeof(pulfredan_told_number) == 3);
PULFREDAN_LAYOUT(sizeof(pulfredan_told_ply) == 4);
PULFREDAN_LAYOUT(sizeof(pulfredan_told_move) == 6);
PULFREDAN_LAYOUT(sizeof(pulfredan_told_length) == 16);
PULFREDAN_LAYOUT(sizeof(pulfredan_number_result) == 2);
PULFREDAN_LAYOUT(sizeof(pulfredan_set_result) == 24);
PULFREDAN_LAYOUT(sizeof(pulfredan_truth_result) == 2);
PULFREDAN_LAYOUT(sizeof(pulfredan_pattern_result) == 4);
PULFREDAN_LAYOUT(sizeof(pulfredan_popped) == 24);

/* ---- Positions */

/* The start position. */
pulfredan_position pulfredan_startpos(void);

/* No piece, Black to move, ply 1. */
pulfredan_position pulfredan_empty(void);

/* Is the position sound? 0, 1. */
pulfredan_told pulfredan_soundness(const pulfredan_position *p);

/* Queries. They leave the position as it is. Each tests first whether the position is sound, which takes about 1,700 instructions; of a
 * position that is known to be sound, the fields may be read as well: board[n - 1] is the cell of square n. */

/* The piece on a square; 0: nothing stands there. 0, 2, 1. */
pulfredan_told_number pulfredan_piece_at(const pulfredan_position *p, uint8_t square);

/* The squares of a colour's pieces, of a kind, of a piece: 0, 2, 1. */
pulfredan_told_set pulfredan_player_bitboard(const pulfredan_position *p, uint8_t color);
pulfredan_told_set pulfredan_piece_kind_bitboard(const pulfredan_position *p, uint8_t kind);
pulfredan_told_set pulfredan_piece_bitboard(const pulfredan_position *p, uint8_t piece);

/* The occupied squares; the others: 0, 1. */
pulfredan_told_set pulfredan_occupied_bitboard(const pulfredan_position *p);
pulfredan_told_set pulfredan_vacant_bitboard(const pulfredan_position *p);

/* The colour to move; the ply: 0, 1. */
pulfredan_told_number pulfredan_side_to_move(const pulfredan_position *p);
pulfredan_told_ply pulfredan_ply(const pulfredan_position *p);

/* How many of a kind, 1 to 7, a colour has in hand: 0, 2, 1. */
pulfredan_told_number pulfredan_hand(const pulfredan_position *p, uint8_t color, uint8_t kind);

/* The square of a colour's king; 0: it has none. 0, 2, 1. */
pulfredan_told_number pulfredan_king_position(const pulfredan_position *p, uint8_t color);

/* The last move; 0 0 0 0: there is none. 0, 1. */
pulfredan_told_move pulfredan_last_move(const pulfredan_position *p);

/* ---- Changes in place. With 0 the position is the one after the move or edit; with every other number it is as it was. */

/* A normal move: 0, 2, 1, 3, 4, 5, 6, 7, 11. Empties from, puts the piece, promoted if asked, on to, and adds what it took, unpromoted,
 * to the mover's hand; records the move, switches sides and adds 1 to ply. */
pulfredan_told pulfredan_make_normal(pulfredan_position *p, uint8_t from, uint8_t to, bool promote);

/* A drop: 0, 2, 1, 4, 8, 9, 10, 11. Takes one from the hand and places it; records, switches and adds as above. */
pulfredan_told pulfredan_make_drop(pulfredan_position *p, uint8_t piece, uint8_t to);

/* Edits of one cell (0 empties it; the sets and king squares follow) and of one hand count: 0, 2, 1, 13. The last move stays. */
pulfredan_told pulfredan_piece_set(pulfredan_position *p, uint8_t square, uint8_t cell);
pulfredan_told pulfredan_hand_set(pulfredan_position *p, uint8_t color, uint8_t kind, uint8_t count);

/* Edits of the side to move and of the ply: 0, 2, 1. The last move stays. */
pulfredan_told pulfredan_side_to_move_set(pulfredan_position *p, uint8_t color);
pulfredan_told pulfredan_ply_set(pulfredan_position *p, uint16_t ply);

/* ---- Text */

/* The SFEN text of the position in the first bytes of a lent buffer of the given room, and its length; no other byte is changed: 0, 1, 12.
 * PULFREDAN_TEXT_MAX bytes are always enough. There is no zero byte after the text. */
pulfredan_told_length pulfredan_write_sfen(const pulfredan_position *p, uint8_t *out, size_t room);

/* ---- Squares, colours, kinds and pieces: 0, 2. No kind and no piece is 0, so that a value of 0 beside the number 0 says "nothing". */

/* The square of a file and a rank, and back; the square that the other player sees in its place, 82 - n. */
pulfredan_number_result pulfredan_square_new(uint8_t file, uint8_t rank);
pulfredan_number_result pulfredan_square_file(uint8_t square);
pulfredan_number_result pulfredan_square_rank(uint8_t square);
pulfredan_number_result pulfredan_square_flip(uint8_t square);

/* The other colour. */
pulfredan_number_result pulfredan_color_flip(uint8_t color);

/* The promoted kind, nothing for gold, king and promoted kinds; the unpromoted kind, of an unpromoted kind itself. */
pulfredan_number_result pulfredan_kind_promote(uint8_t kind);
pulfredan_number_result pulfredan_kind_unpromote(uint8_t kind);

/* How many a full set has, promoted and unpromoted together (of kings 1, for each colour); the byte of the capital letter of the text, P L
 * N S G B R K, of a promoted kind its unpromoted kind's; the kind as which it is held in hand, nothing for a king. */
pulfredan_number_result pulfredan_kind_limit(uint8_t kind);
pulfredan_number_result pulfredan_kind_letter(uint8_t kind);
pulfredan_number_result pulfredan_kind_hand_kind(uint8_t kind);

/* The piece of a kind and a colour, and back; the piece promoted or unpromoted, as of kinds. */
pulfredan_number_result pulfredan_piece_new(uint8_t kind, uint8_t color);
pulfredan_number_result pulfredan_piece_kind(uint8_t piece);
pulfredan_number_result pulfredan_piece_color(uint8_t piece);
pulfredan_number_result pulfredan_piece_promote(uint8_t piece);
pulfredan_number_result pulfredan_piece_unpromote(uint8_t piece);

/* ---- Sets of squares. Where no number is named, the call always succeeds. */

/* No square; one square: 0, 2. */
pulfredan_set pulfredan_set_empty(void);
pulfredan_set_result pulfredan_set_single(uint8_t square);

/* How many squares; whether there is none; whether a square is in the set: 0, 2. */
uint8_t pulfredan_set_count(pulfredan_set s);
bool pulfredan_set_is_empty(pulfredan_set s);
pulfredan_truth_result pulfredan_set_contains(pulfredan_set s, uint8_t square);

/* In either, in both, in just one; in b and not in a; every other square of the 81. */
pulfredan_set pulfredan_set_or(pulfredan_set a, pulfredan_set b);
pulfredan_set pulfredan_set_and(pulfredan_set a, pulfredan_set b);
pulfredan_set pulfredan_set_xor(pulfredan_set a, pulfredan_set b);
pulfredan_set pulfredan_set_andnot(pulfredan_set a, pulfredan_set b);
pulfredan_set pulfredan_set_not(pulfredan_set s);

/* One file from a pattern below 512, whose bit 0 is rank A, and back: 0, 2. */
pulfredan_set_result pulfredan_set_from_file(uint8_t file, uint16_t pattern);
pulfredan_pattern_result pulfredan_set_get_file(pulfredan_set s, uint8_t file);

/* Square n goes to 82 - n. */
pulfredan_set pulfredan_set_flip(pulfredan_set s);

/* The smallest square, and the set without it; of the empty set 0 and the empty set. */
pulfredan_popped pulfredan_set_pop(pulfredan_set s);

/* Every square moved by delta, 0 to 9; squares that leave the board vanish: 0, 2. Down adds to the rank, up subtracts, left adds to the
 * file, right subtracts. */
pulfredan_set_result pulfredan_set_shift_down(pulfredan_set s, uint8_t delta);
pulfredan_set_result pulfredan_set_shift_up(pulfredan_set s, uint8_t delta);
pulfredan_set_result pulfredan_set_shift_left(pulfredan_set s, uint8_t delta);
pulfredan_set_result pulfredan_set_shift_right(pulfredan_set s, uint8_t delta);

#ifdef __cplusplus
}
#endif

#endif
