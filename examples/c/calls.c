/* The calls that play.c does not make, with document 01's marked examples of sets, M1 to M7: each answer's struct is read in full. */
#include "pulfredan.h"

int printf(const char *format, ...);

static void set(const char *name, unsigned number, pulfredan_set s) {
    printf("%s: %u, %u squares:", name, number, pulfredan_set_count(s));
    for (pulfredan_popped next = pulfredan_set_pop(s); next.square != 0; next = pulfredan_set_pop(next.set))
        printf(" %u", next.square);
    printf("\n");
}

static void result(const char *name, pulfredan_set_result r) { set(name, r.number, r.set); }

static void told_set(const char *name, pulfredan_told_set r) { set(name, r.told.number, r.set); }

static void number(const char *name, pulfredan_number_result r) { printf("%s: %u, %u\n", name, r.number, r.value); }

static void told(const char *name, pulfredan_told t) { printf("%s: %u, square %u\n", name, t.number, t.square); }

static void told_number(const char *name, pulfredan_told_number r) { printf("%s: %u, square %u, %u\n", name, r.told.number, r.told.square, r.value); }

static pulfredan_set one(uint8_t square) { return pulfredan_set_single(square).set; }

static void sets(void) {
    const uint8_t A1 = 1, A2 = 10, I5 = 45, I7 = 63, A8 = 64, A9 = 73;
    pulfredan_set none = pulfredan_set_empty(), full = pulfredan_set_not(none), stray = {(uint64_t)1 << 63, (uint64_t)1 << 18};
    set("M1", 0, pulfredan_set_flip(one(A8)));
    result("M2", pulfredan_set_shift_right(one(A8), 0));
    result("M3", pulfredan_set_shift_right(one(A9), 1));
    result("M4", pulfredan_set_shift_left(one(I7), 1));
    result("M5", pulfredan_set_shift_left(pulfredan_set_or(one(A1), one(A2)), 8));
    result("M6", pulfredan_set_shift_down(one(I5), 1));
    result("full down 9", pulfredan_set_shift_down(full, 9));
    result("full up 9", pulfredan_set_shift_up(full, 9));
    result("full left 9", pulfredan_set_shift_left(full, 9));
    result("full right 9", pulfredan_set_shift_right(full, 9));
    result("up 10", pulfredan_set_shift_up(full, 10));
    pulfredan_popped popped = pulfredan_set_pop(pulfredan_set_or(one(I7), one(A8)));
    printf("M7: %u, ", popped.square);
    set("leaving", 0, popped.set);
    result("single 82", pulfredan_set_single(82));
    set("stray bits", 0, stray);
    set("both", 0, pulfredan_set_and(full, one(A9)));
    set("either alone", 0, pulfredan_set_xor(one(A9), one(A8)));
    set("in the second alone", 0, pulfredan_set_andnot(one(A9), pulfredan_set_or(one(A8), one(A9))));
    pulfredan_set file = pulfredan_set_from_file(8, 257).set;
    set("file", 0, file);
    result("pattern 512", pulfredan_set_from_file(8, 512));
    pulfredan_pattern_result pattern = pulfredan_set_get_file(file, 8), none_such = pulfredan_set_get_file(file, 10);
    printf("pattern: %u, %u; %u, %u\n", pattern.number, pattern.pattern, none_such.number, none_such.pattern);
    pulfredan_truth_result in = pulfredan_set_contains(file, A8), out = pulfredan_set_contains(file, A9), bad = pulfredan_set_contains(file, 0);
    printf("contains: %u, %d; %u, %d; %u, %d\n", in.number, in.truth, out.number, out.truth, bad.number, bad.truth);
    number("square", pulfredan_square_new(8, 1));
    number("no square", pulfredan_square_new(8, 10));
    number("file", pulfredan_square_file(A8));
    number("rank", pulfredan_square_rank(I7));
    number("file of 82", pulfredan_square_file(82));
    number("flipped", pulfredan_square_flip(A8));
    number("flipped 82", pulfredan_square_flip(82));
    printf("empty: %d, %d\n", pulfredan_set_is_empty(stray), pulfredan_set_is_empty(full));
}

static void kinds(void) {
    for (uint8_t kind = PULFREDAN_PAWN; kind <= PULFREDAN_PRO_ROOK; kind++)
        printf("kind %u: %c, limit %u, promoted %u, unpromoted %u, in hand %u\n", kind, pulfredan_kind_letter(kind).value,
               pulfredan_kind_limit(kind).value, pulfredan_kind_promote(kind).value, pulfredan_kind_unpromote(kind).value,
               pulfredan_kind_hand_kind(kind).value);
    number("letter of 15", pulfredan_kind_letter(15));
    number("limit of 0", pulfredan_kind_limit(0));
    number("15 promoted", pulfredan_kind_promote(15));
    number("15 unpromoted", pulfredan_kind_unpromote(15));
    number("15 in hand", pulfredan_kind_hand_kind(15));
    number("other colour", pulfredan_color_flip(PULFREDAN_COLOR_BLACK));
    number("other than 3", pulfredan_color_flip(3));
    number("white rook", pulfredan_piece_new(PULFREDAN_ROOK, PULFREDAN_COLOR_WHITE));
    number("rook of 3", pulfredan_piece_new(PULFREDAN_ROOK, 3));
    number("its kind", pulfredan_piece_kind(PULFREDAN_WHITE(PULFREDAN_ROOK)));
    number("its colour", pulfredan_piece_color(PULFREDAN_WHITE(PULFREDAN_ROOK)));
    number("promoted", pulfredan_piece_promote(PULFREDAN_WHITE(PULFREDAN_ROOK)));
    number("gold promoted", pulfredan_piece_promote(PULFREDAN_BLACK(PULFREDAN_GOLD)));
    number("unpromoted", pulfredan_piece_unpromote(PULFREDAN_WHITE(PULFREDAN_PRO_ROOK)));
    number("kind of 0", pulfredan_piece_kind(0));
    number("colour of 16", pulfredan_piece_color(16));
    number("31 promoted", pulfredan_piece_promote(31));
    number("0 unpromoted", pulfredan_piece_unpromote(0));
}

static void positions(void) {
    pulfredan_position board = pulfredan_startpos(), bare = pulfredan_empty();
    told_number("piece on 5I", pulfredan_piece_at(&board, PULFREDAN_SQUARE(5, 9)));
    told_number("piece on 5E", pulfredan_piece_at(&board, PULFREDAN_SQUARE(5, 5)));
    told_number("piece on 82", pulfredan_piece_at(&board, 82));
    told_set("white", pulfredan_player_bitboard(&board, PULFREDAN_COLOR_WHITE));
    told_set("white king", pulfredan_piece_bitboard(&board, PULFREDAN_WHITE(PULFREDAN_KING)));
    told_set("piece 0", pulfredan_piece_bitboard(&board, 0));
    told_set("vacant", pulfredan_vacant_bitboard(&board));
    told_number("king", pulfredan_king_position(&board, 2));
    told_number("no king", pulfredan_king_position(&bare, 2));
    told_number("hand of kings", pulfredan_hand(&board, 1, 8));
    pulfredan_told_move last = pulfredan_last_move(&board);
    printf("last move: %u, %u %u %u %u\n", last.told.number, last.last.tag, last.last.a, last.last.b, last.last.promote);
    told("side", pulfredan_side_to_move_set(&board, 2));
    told_number("side", pulfredan_side_to_move(&board));
    told("ply 0", pulfredan_ply_set(&board, 0));
    told("ply", pulfredan_ply_set(&board, 65535));
    pulfredan_told_ply ply = pulfredan_ply(&board);
    printf("ply: %u, %u\n", ply.told.number, ply.ply);
    told("last ply", pulfredan_make_normal(&board, 21, 22, false));
    board.hands[0] = 19;
    told("too many pawns", pulfredan_ply_set(&board, 1));
    ply = pulfredan_ply(&board);
    printf("ply: %u, %u\n", ply.told.number, ply.ply);
}

int main(void) {
    sets();
    kinds();
    positions();
    return 0;
}
