/* fuzz SECONDS SEED: random bytes as positions, numbers and buffers through the exported calls. Position and buffer end where a page
 * begins that may not be touched, and begin behind bytes that must stay; so a byte read or written past them stops the program. Fails
 * where a refusal or a query changes a byte, where an answer has no such number, where an accepted change gives what is not sound, or
 * where kinds and pieces taken apart do not go together again.
 * No header of a C library is used: a compiler for another machine than this has none. */
#include "pulfredan.h"

int printf(const char *, ...);
int atoi(const char *);
long time(long *);
void *memcpy(void *, const void *, size_t);
void *memset(void *, int, size_t);
int memcmp(const void *, const void *, size_t);
void *mmap(void *, size_t, int, int, int, long);
int mprotect(void *, size_t, int);
void exit(int);

enum { PAGE = 4096, ROOM = 256, BEFORE = 64 };

static uint64_t state;

static uint64_t next_random(void)
{
    state ^= state << 13;
    state ^= state >> 7;
    state ^= state << 17;
    return state;
}

/* Mostly small numbers and numbers about the bounds, sometimes any. */
static uint8_t any_number(void)
{
    static const uint8_t bounds[] = {0, 1, 2, 7, 8, 9, 14, 15, 16, 17, 30, 31, 63, 64, 81, 82, 255};
    switch (next_random() % 4) {
    case 0: return next_random();
    case 1: return bounds[next_random() % sizeof bounds];
    default: return next_random() % 82;
    }
}

/* The last byte of the room lies before a page that may not be touched. */
static uint8_t *guarded(size_t room)
{
    enum { READ_WRITE = 3, PRIVATE_ANONYMOUS = 0x22 };
    uint8_t *pages = mmap(0, 2 * PAGE, READ_WRITE, PRIVATE_ANONYMOUS, -1, 0);
    mprotect(pages + PAGE, PAGE, 0);
    return pages + PAGE - room;
}

static void fail(const char *what, int call)
{
    printf("call %d: %s\n", call, what);
    exit(1);
}

static pulfredan_position *p;
static uint8_t *end_of_buffer;

static void scramble(uint8_t *bytes, size_t count)
{
    for (size_t i = 0; i < count; i++)
        bytes[i] = next_random();
}

/* Any bytes; or the position as the last call left it, with a few bytes changed, or with none. */
static void next_position(void)
{
    uint8_t *bytes = (uint8_t *)p;
    switch (next_random() % 8) {
    case 0: scramble(bytes, sizeof *p); break;
    case 1: *p = next_random() % 4 ? pulfredan_startpos() : pulfredan_empty(); break;
    case 2:
        for (int n = next_random() % 4; n >= 0; n--)
            bytes[next_random() % sizeof *p] = any_number();
        break;
    }
}

/* ---- calls that leave the position: the number that each answers */

static uint8_t query(int call)
{
    uint8_t x = any_number(), y = any_number();
    switch (call) {
    case 0: return pulfredan_soundness(p).number;
    case 1: return pulfredan_piece_at(p, x).told.number;
    case 2: return pulfredan_player_bitboard(p, x % 4).told.number;
    case 3: return pulfredan_piece_kind_bitboard(p, x).told.number;
    case 4: return pulfredan_piece_bitboard(p, x).told.number;
    case 5: return pulfredan_occupied_bitboard(p).told.number;
    case 6: return pulfredan_vacant_bitboard(p).told.number;
    case 7: return pulfredan_side_to_move(p).told.number;
    case 8: return pulfredan_ply(p).told.number;
    case 9: return pulfredan_hand(p, x % 4, y).told.number;
    case 10: return pulfredan_king_position(p, x % 4).told.number;
    default: return pulfredan_last_move(p).told.number;
    }
}

enum { QUERIES = 12, CHANGES = 6 };

static uint8_t change(int call)
{
    uint8_t x = any_number(), y = any_number(), z = any_number();
    switch (call) {
    case 0: return pulfredan_make_normal(p, x, y, z % 2).number;
    case 1: return pulfredan_make_drop(p, x, y).number;
    case 2: return pulfredan_piece_set(p, x, y).number;
    case 3: return pulfredan_hand_set(p, x % 4, y, z % 8).number;
    case 4: return pulfredan_side_to_move_set(p, x % 4).number;
    default: return pulfredan_ply_set(p, next_random() % 4 ? x : next_random()).number;
    }
}

static void try_query(int call)
{
    pulfredan_position before = *p;
    uint8_t number = query(call);
    if (number > 2)
        fail("a query has no such number", call);
    if (memcmp(&before, p, sizeof before))
        fail("a query changed the position", call);
}

static void try_change(int call)
{
    pulfredan_position before = *p;
    uint8_t number = change(call);
    if (number > 13)
        fail("there is no such number", QUERIES + call);
    if (number && memcmp(&before, p, sizeof before))
        fail("a refused change changed the position", QUERIES + call);
    if (!number && pulfredan_soundness(p).number)
        fail("an accepted change gave what is not sound", QUERIES + call);
}

/* What is taken apart goes together again, and what goes up comes down; a refused call carries 0. */
static void try_kinds(void)
{
    uint8_t x = any_number();
    pulfredan_number_result kind = pulfredan_piece_kind(x), color = pulfredan_piece_color(x), up = pulfredan_kind_promote(x);
    pulfredan_number_result other = pulfredan_color_flip(x), seen = pulfredan_square_flip(x), letter = pulfredan_kind_letter(x);
    pulfredan_number_result limit = pulfredan_kind_limit(x), held = pulfredan_kind_hand_kind(x), promoted = pulfredan_piece_promote(x);
    if (kind.number == 0 ? pulfredan_piece_new(kind.value, color.value).value != x : color.number != 2 || kind.value || color.value)
        fail("a piece is not of its kind and colour", 300);
    if (up.value && pulfredan_kind_unpromote(up.value).value != x)
        fail("a kind does not come down again", 301);
    if (promoted.value && pulfredan_piece_unpromote(promoted.value).value != x)
        fail("a piece does not come down again", 302);
    if (other.number == 0 ? pulfredan_color_flip(other.value).value != x : other.value)
        fail("a colour's other colour has another", 303);
    if (seen.number == 0 ? pulfredan_square_flip(seen.value).value != x : seen.value)
        fail("a flipped square does not flip back", 304);
    if (limit.value > 18 || held.value > 7 || (letter.number == 0) != (x >= 1 && x <= 14) || limit.number != letter.number)
        fail("a kind's answer", 305);
}

static void try_text(void)
{
    uint8_t before[BEFORE + ROOM];
    pulfredan_position as_was = *p;
    size_t room = next_random() % (ROOM + 1), used = 0;
    uint8_t *out = end_of_buffer - room;
    scramble(out - BEFORE, BEFORE + room);
    memcpy(before, out - BEFORE, BEFORE + room);
    pulfredan_told_length r = pulfredan_write_sfen(p, out, room);
    if (r.told.number == 0)
        used = r.length;
    else if (r.length || (r.told.number != 1 && r.told.number != 12))
        fail("a refused text has a length, or no such number", 99);
    if (used > room || memcmp(before, out - BEFORE, BEFORE) || memcmp(before + BEFORE + used, out + used, room - used))
        fail("a byte outside the text was changed", 99);
    if (memcmp(&as_was, p, sizeof as_was))
        fail("the text changed the position", 99);
}

static void try_sets(void)
{
    pulfredan_set a = {next_random(), next_random()}, b = {next_random(), next_random()};
    pulfredan_set all[] = {
        pulfredan_set_or(a, b), pulfredan_set_and(a, b), pulfredan_set_xor(a, b), pulfredan_set_andnot(a, b), pulfredan_set_not(a),
        pulfredan_set_flip(a), pulfredan_set_pop(a).set, pulfredan_set_single(any_number()).set,
        pulfredan_set_from_file(any_number(), next_random() % 600).set, pulfredan_set_shift_down(a, any_number()).set,
        pulfredan_set_shift_up(a, any_number()).set, pulfredan_set_shift_left(a, any_number()).set,
        pulfredan_set_shift_right(a, any_number()).set,
    };
    for (size_t i = 0; i < sizeof all / sizeof *all; i++)
        if (all[i].lo >> 63 || all[i].hi >> 18)
            fail("a set has stray bits", 200 + (int)i);
    if (pulfredan_set_count(a) > 81 || pulfredan_set_is_empty(a) != (pulfredan_set_count(a) == 0) ||
        pulfredan_set_contains(a, any_number()).number > 2 || pulfredan_set_get_file(a, any_number()).pattern > 511)
        fail("a set's answer", 220);
    if (pulfredan_square_new(any_number(), any_number()).value > 81 || pulfredan_square_file(any_number()).value > 9 ||
        pulfredan_square_rank(any_number()).value > 9)
        fail("a square's answer", 221);
}

int main(int argc, char **argv)
{
    if (argc < 3)
        return 2;
    long end = time(0) + atoi(argv[1]);
    uint64_t calls = 0, accepted = 0;
    state = 88172645463325252u ^ (uint64_t)atoi(argv[2]) * 0x9e3779b97f4a7c15u;
    p = (pulfredan_position *)guarded(sizeof *p);
    end_of_buffer = guarded(0);
    *p = pulfredan_startpos();
    while (time(0) < end)
        for (int i = 0; i < 1000; i++, calls++) {
            next_position();
            accepted += pulfredan_soundness(p).number == 0;
            switch (next_random() % 5) {
            case 0: try_query(next_random() % QUERIES); break;
            case 1: try_text(); break;
            case 2: try_sets(); break;
            case 3: try_kinds(); break;
            default: try_change(next_random() % CHANGES); break;
            }
        }
    printf("%lu calls, %lu of them on sound positions: nothing wrong\n", calls, accepted);
    return 0;
}
