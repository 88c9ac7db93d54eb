/* bench [ROUNDS | stack]: the same calls on the same inputs through our archive and through the Rust (bench_side.rs); the answers are
 * compared first. Without a word each loop runs once between two calls of `mark`, for whoever counts instructions; with ROUNDS the
 * loops are timed in turn, and the ratio of the least times is printed; with `stack` the bytes of stack that our calls take are printed.
 * The loops are named run_.., so that a counter can leave their own instructions out. No header of a C library is used: a compiler for
 * another machine than this has none. */
#include "pulfredan.h"

int printf(const char *, ...);
int atoi(const char *);
void *memcpy(void *, const void *, size_t);
int memcmp(const void *, const void *, size_t);
struct timespec { long seconds, nanoseconds; };
int clock_gettime(int, struct timespec *);
void rust_eh_personality(void) {} /* named by Rust's core; nothing here unwinds */

/* one instruction, so that it shows as one line of a log */
void mark(void);
__asm__(".globl mark\n.type mark,@function\nmark: ret\n.size mark,.-mark");

/* ---- the Rust's side: bench_side.rs */

pulfredan_set rust_set_and(pulfredan_set, pulfredan_set), rust_set_or(pulfredan_set, pulfredan_set);
pulfredan_set rust_set_xor(pulfredan_set, pulfredan_set), rust_set_andnot(pulfredan_set, pulfredan_set);
pulfredan_set rust_set_not(pulfredan_set), rust_set_flip(pulfredan_set);
uint8_t rust_set_count(pulfredan_set);
bool rust_set_contains(pulfredan_set, uint8_t);
pulfredan_popped rust_set_pop(pulfredan_set);
pulfredan_set_result rust_set_shift_down(pulfredan_set, uint8_t), rust_set_shift_up(pulfredan_set, uint8_t);
pulfredan_set_result rust_set_shift_left(pulfredan_set, uint8_t), rust_set_shift_right(pulfredan_set, uint8_t);

typedef struct { uint64_t words[64]; } rust_position; /* room for it */
size_t rust_size(void);
void rust_startpos(rust_position *);
uint8_t rust_piece_at(const rust_position *, uint8_t), rust_hand(const rust_position *, uint8_t);
bool rust_make_normal(rust_position *, uint8_t, uint8_t, bool), rust_make_drop(rust_position *, uint8_t, uint8_t);
void rust_write_sfen(const rust_position *, uint8_t *);

/* ---- the inputs */

enum { SETS = 256, MOVES = 256, TEXTS = 64, ROOM = 168 };

static pulfredan_set a[SETS], b[SETS];
static uint8_t square[SETS], distance[SETS];

typedef struct { bool drop, promote; uint8_t from, to; } move; /* from: the piece of a drop */
static move moves[MOVES];

static pulfredan_position ours, ours_at[TEXTS];
static rust_position theirs, theirs_at[TEXTS];
static uint8_t text[ROOM];

static uint64_t state = 88172645463325252u;

static uint64_t next_random(void)
{
    state ^= state << 13;
    state ^= state >> 7;
    state ^= state << 17;
    return state;
}

static void make_sets(void)
{
    for (int i = 0; i < SETS; i++) {
        a[i].lo = next_random() & next_random() & ~((uint64_t)1 << 63);
        a[i].hi = next_random() & next_random() & 0x3ffff;
        b[i].lo = next_random() & ~((uint64_t)1 << 63);
        b[i].hi = next_random() & 0x3ffff;
        square[i] = 1 + next_random() % 81;
        distance[i] = next_random() % 10;
        if (distance[i] < 2)
            a[i].hi &= ~(uint64_t)0x201; /* shifts to the right by 0 with 8A and by 1 with 9A differ: docs/DIFFERENCES.md */
    }
}

static inline __attribute__((always_inline)) bool play_ours(pulfredan_position *p, move m)
{
    if (m.drop)
        return pulfredan_make_drop(p, m.from, m.to).number == 0;
    return pulfredan_make_normal(p, m.from, m.to, m.promote).number == 0;
}

static inline __attribute__((always_inline)) bool play_theirs(rust_position *p, move m)
{
    return m.drop ? rust_make_drop(p, m.from, m.to) : rust_make_normal(p, m.from, m.to, m.promote);
}

/* A random move of the side, not yet known to be accepted: every third a drop. */
static move random_move(bool white)
{
    move m = {next_random() % 3 == 0, next_random() % 4 == 0, 1 + next_random() % 81, 1 + next_random() % 81};
    if (m.drop)
        m.from = (white ? 17 : 1) + next_random() % 7;
    return m;
}

/* A game whose moves both accept, with positions on the way. */
static bool record_moves(void)
{
    for (int i = 0; i < MOVES;) {
        move m = random_move(i % 2);
        if (!play_ours(&ours, m))
            continue;
        if (!play_theirs(&theirs, m))
            return false;
        moves[i++] = m;
        if (i % (MOVES / TEXTS) == 0) {
            ours_at[i / (MOVES / TEXTS) - 1] = ours;
            theirs_at[i / (MOVES / TEXTS) - 1] = theirs;
        }
    }
    return true;
}

static void set_out(void)
{
    ours = pulfredan_startpos();
    rust_startpos(&theirs);
}

static bool same_positions(void)
{
    for (int n = 1; n <= 81; n++)
        if (pulfredan_piece_at(&ours, n).value != rust_piece_at(&theirs, n))
            return false;
    for (int k = 1; k <= 7; k++)
        if (pulfredan_hand(&ours, 1, k).value != rust_hand(&theirs, k) || pulfredan_hand(&ours, 2, k).value != rust_hand(&theirs, 16 + k))
            return false;
    return true;
}

/* ---- the loops: each gives a sum of its answers */

#define LOOP(name, count, body) \
    __attribute__((noinline)) static uint64_t run_##name(void) \
    { \
        uint64_t sum = 0; \
        for (int i = 0; i < count; i++) \
            body; \
        return sum; \
    }
#define ADD(x) (sum = sum * 31 + (x))
#define ADD_SET(s) (ADD(s.lo), ADD(s.hi))

#define SET_LOOPS(name, type, call, add) \
    LOOP(ours_##name, SETS, { type r = pulfredan_set_##call; add; }) \
    LOOP(rust_##name, SETS, { type r = rust_set_##call; add; })

SET_LOOPS(and, pulfredan_set, and(a[i], b[i]), ADD_SET(r))
SET_LOOPS(or, pulfredan_set, or(a[i], b[i]), ADD_SET(r))
SET_LOOPS(xor, pulfredan_set, xor(a[i], b[i]), ADD_SET(r))
SET_LOOPS(andnot, pulfredan_set, andnot(a[i], b[i]), ADD_SET(r))
SET_LOOPS(not, pulfredan_set, not(a[i]), ADD_SET(r))
SET_LOOPS(flip, pulfredan_set, flip(a[i]), ADD_SET(r))
SET_LOOPS(count, uint8_t, count(a[i]), ADD(r))
SET_LOOPS(down, pulfredan_set_result, shift_down(a[i], distance[i]), (ADD(r.number), ADD_SET(r.set)))
SET_LOOPS(up, pulfredan_set_result, shift_up(a[i], distance[i]), (ADD(r.number), ADD_SET(r.set)))
SET_LOOPS(left, pulfredan_set_result, shift_left(a[i], distance[i]), (ADD(r.number), ADD_SET(r.set)))
SET_LOOPS(right, pulfredan_set_result, shift_right(a[i], distance[i]), (ADD(r.number), ADD_SET(r.set)))
#undef SET_LOOPS

LOOP(ours_contains, SETS, ADD(pulfredan_set_contains(a[i], square[i]).truth))
LOOP(rust_contains, SETS, ADD(rust_set_contains(a[i], square[i])))
LOOP(ours_pop_all, SETS, for (pulfredan_popped r = pulfredan_set_pop(a[i]); r.square; r = pulfredan_set_pop(r.set)) ADD(r.square))
LOOP(rust_pop_all, SETS, for (pulfredan_popped r = rust_set_pop(a[i]); r.square; r = rust_set_pop(r.set)) ADD(r.square))
LOOP(ours_move, MOVES, ADD(play_ours(&ours, moves[i])))
LOOP(rust_move, MOVES, ADD(play_theirs(&theirs, moves[i])))
LOOP(ours_soundness, TEXTS, ADD(pulfredan_soundness(&ours_at[i]).number))
LOOP(ours_piece_at, TEXTS, ADD(pulfredan_piece_at(&ours_at[i], square[i]).value))
LOOP(ours_king, TEXTS, ADD(pulfredan_king_position(&ours_at[i], 1 + i % 2).value))
LOOP(ours_last, TEXTS, ADD(pulfredan_last_move(&ours_at[i]).last.a))
LOOP(ours_piece_set, TEXTS, ADD(pulfredan_piece_set(&ours_at[i], square[i], ours_at[i].board[square[i] - 1]).number))
LOOP(ours_hand_set, TEXTS, ADD(pulfredan_hand_set(&ours_at[i], 1, 1, ours_at[i].hands[0]).number))
LOOP(ours_text, TEXTS, { pulfredan_write_sfen(&ours_at[i], text, ROOM); ADD(text[i]); })
LOOP(rust_text, TEXTS, { rust_write_sfen(&theirs_at[i], text); ADD(text[i]); })

static uint64_t run_nothing(void)
{
    return 0;
}

typedef struct { const char *name; int calls; uint64_t (*ours)(void), (*rust)(void); } row;

#define ROW(name) {#name, SETS, run_ours_##name, run_rust_##name}
static const row rows[] = {
    ROW(and), ROW(or), ROW(xor), ROW(andnot), ROW(not), ROW(count), ROW(contains), ROW(flip), ROW(down), ROW(up), ROW(left), ROW(right),
    {"pop until empty", SETS, run_ours_pop_all, run_rust_pop_all},
    {"make_move, lent", MOVES, run_ours_move, run_rust_move},
    {"soundness test", TEXTS, run_ours_soundness, run_nothing},
    {"piece_at, lent", TEXTS, run_ours_piece_at, run_nothing},
    {"king_position, lent", TEXTS, run_ours_king, run_nothing},
    {"last_move, lent", TEXTS, run_ours_last, run_nothing},
    {"piece_set, lent", TEXTS, run_ours_piece_set, run_nothing},
    {"hand_set, lent", TEXTS, run_ours_hand_set, run_nothing},
    {"text", TEXTS, run_ours_text, run_rust_text},
};
enum { ROWS = sizeof rows / sizeof *rows };

/* ---- the answers */

static bool same_texts(void)
{
    for (int i = 0; i < TEXTS; i++) {
        uint8_t other[ROOM];
        pulfredan_told_length r = pulfredan_write_sfen(&ours_at[i], text, ROOM);
        rust_write_sfen(&theirs_at[i], other);
        if (r.told.number || other[r.length] || memcmp(text, other, r.length))
            return false;
    }
    return true;
}

static bool compare(void)
{
    for (int k = 0; k < ROWS; k++) {
        set_out();
        uint64_t x = rows[k].ours(), y = rows[k].rust();
        if (rows[k].rust != run_nothing && (x != y || !same_positions())) {
            printf("%s: the answers differ\n", rows[k].name);
            return false;
        }
    }
    return same_texts();
}

/* ---- the three ways to measure */

static void run_marked(uint64_t (*loop)(void))
{
    set_out();
    mark();
    loop();
    mark();
}

static uint64_t now(void)
{
    struct timespec t;
    clock_gettime(1, &t);
    return t.seconds * (uint64_t)1000000000 + t.nanoseconds;
}

static uint64_t timed(uint64_t (*loop)(void), int times)
{
    uint64_t start = now();
    for (int i = 0; i < times; i++) {
        set_out();
        loop();
    }
    return now() - start;
}

static void time_row(const row *r, int rounds)
{
    enum { TIMES = 200 };
    uint64_t least[2] = {-1, -1};
    for (int i = 0; i < rounds; i++)
        for (int side = 0; side < 2; side++) {
            uint64_t t = timed(side ? r->rust : r->ours, TIMES);
            least[side] = t < least[side] ? t : least[side];
        }
    double calls = (double)TIMES * r->calls;
    printf("%-20s %8.2f ns", r->name, least[0] / calls);
    if (r->rust != run_nothing)
        printf(" %8.2f ns %6.2f", least[1] / calls, (double)least[0] / least[1]);
    printf("\n");
}

/* The bytes below this frame that a loop and its calls use: they are painted, and the lowest that lost its paint is looked for. */
__attribute__((noinline)) static int stack_of(uint64_t (*loop)(void))
{
    enum { OWN = 128, DEEP = 65536, PAINT = 0xa5 };
    volatile uint8_t *top = __builtin_frame_address(0);
    int depth;
    for (depth = OWN; depth < DEEP; depth++)
        top[-depth] = PAINT;
    loop();
    do
        depth--;
    while (depth > OWN && top[-depth] == PAINT);
    return depth;
}

int main(int argc, char **argv)
{
    make_sets();
    set_out();
    if (rust_size() > sizeof theirs || !record_moves() || !compare())
        return 1;
    for (int k = 0; k < ROWS; k++) {
        if (argc > 1 && *argv[1] == 's') {
            set_out();
            printf("%-20s %6d\n", rows[k].name, stack_of(rows[k].ours));
            continue;
        }
        if (argc > 1) {
            time_row(&rows[k], atoi(argv[1]));
            continue;
        }
        run_marked(rows[k].ours);
        run_marked(rows[k].rust);
        printf("%d %s\n", rows[k].calls, rows[k].name);
    }
    return 0;
}
