/* Makes every call of what is asked for, on an arena that passes the check and on two that rule 11 refuses, one for each side, and prints every word that it
 * answers and leaves. A call without an arena is made with three words, the last of which it refuses. A call that writes an arena is made where it finds one,
 * where it finds none, with a column that is shorter than the others, and with columns that are too short.
 *
 * A call that is lent columns is then made on the same arenas, raised by so many slots that their numbers need more than 16 bits. Of each column it prints how
 * many words below these slots have changed, and then the words of these slots. Last come columns of other lengths, the longest that there may be and one
 * longer among them, of which the reply alone is printed.
 *
 * With the words CALL KIND I J it makes that call alone, and only on the first arenas, with its arguments I and J of a kind exchanged: as if the archive had
 * these two parameters the other way round. The kinds: 0 slices, 1 words. It ends with status 2 if the call has no such arguments. */
#include "chain_arena.h"
#include <stdio.h>
#include <stdlib.h>
#include <string.h>

/* How far the arenas are raised: slot 2 becomes 65,538, which is 2 where it is cut to 16 bits. */
#define RAISED 65536u

typedef struct { uint32_t *at; size_t len; } slice;

/* The arguments of a call: prev, next, generation, payload and header, then what else is lent; and its words, both in their order. */
typedef struct { slice slices[7]; uint32_t word[6]; } arguments;

#define SLICE(k) a->slices[k].at, a->slices[k].len
#define ARENA SLICE(0), SLICE(1), SLICE(2), SLICE(3), SLICE(4)
#define WORD(k) a->word[k]
#define POINTER(k) WORD(k), WORD(k + 1)

#define ANSWER(r) printf(" number %u broken %u side %u", (r).number, (r).broken, (r).side)
#define FIELD(r, name) printf(" " #name " %u", (r).name)
#define PLAIN(call) do { chain_arena_plain_result r = call; ANSWER(r); } while (0)

#ifdef LEVEL_ONE
static void check(arguments *a) { PLAIN(chain_arena_check(ARENA)); }

static void get_link(arguments *a) {
    chain_arena_link_result r = chain_arena_get_link(ARENA, POINTER(0));
    ANSWER(r); FIELD(r, prev); FIELD(r, prev_generation); FIELD(r, next); FIELD(r, next_generation); FIELD(r, payload);
}

static void get_link_no_gen(arguments *a) {
    chain_arena_link_no_gen_result r = chain_arena_get_link_no_gen(ARENA, POINTER(0));
    ANSWER(r); FIELD(r, prev); FIELD(r, next); FIELD(r, payload);
}

static void are_neighbors(arguments *a) {
    chain_arena_neighbors_result r = chain_arena_are_neighbors(ARENA, POINTER(0), POINTER(2));
    ANSWER(r); FIELD(r, yes);
}

static void walk_start(arguments *a) {
    chain_arena_walk_result r = chain_arena_walk_start(ARENA, POINTER(0));
    ANSWER(r); FIELD(r, start); FIELD(r, position); FIELD(r, direction); FIELD(r, left);
}

static void walk_step(arguments *a) {
    chain_arena_step_result r = chain_arena_walk_step(ARENA, WORD(0), WORD(1), WORD(2), WORD(3));
    ANSWER(r); FIELD(r, slot); FIELD(r, generation); FIELD(r, start); FIELD(r, position); FIELD(r, direction); FIELD(r, left);
}

static void line_of_dot(arguments *a) {
    chain_arena_line_result r = chain_arena_line_of_dot(WORD(0));
    FIELD(r, number); FIELD(r, line);
}

static void line_dots(arguments *a) {
    chain_arena_line_dots_result r = chain_arena_line_dots(WORD(0));
    FIELD(r, number); FIELD(r, first); FIELD(r, last);
}

static void due_count(arguments *a) {
    chain_arena_due_result r = chain_arena_due_count(ARENA, POINTER(0), WORD(2), WORD(3));
    ANSWER(r); FIELD(r, count);
}

static void due_events(arguments *a) {
    chain_arena_due_result r = chain_arena_due_events(ARENA, POINTER(0), WORD(2), WORD(3), SLICE(5));
    ANSWER(r); FIELD(r, count);
}
#endif

#ifdef LEVEL_TWO
static void connect(arguments *a) { PLAIN(chain_arena_connect(ARENA, POINTER(0), POINTER(2))); }
static void break_prev(arguments *a) { PLAIN(chain_arena_break_prev(ARENA, POINTER(0))); }
static void break_next(arguments *a) { PLAIN(chain_arena_break_next(ARENA, POINTER(0))); }
static void exchange_next(arguments *a) { PLAIN(chain_arena_exchange_next(ARENA, POINTER(0), POINTER(2))); }

static void insert(arguments *a) {
    chain_arena_insert_result r = chain_arena_insert(ARENA, WORD(0), POINTER(1), POINTER(3), WORD(5));
    ANSWER(r); FIELD(r, slot); FIELD(r, generation);
}

static void remove_link(arguments *a) {
    chain_arena_link_no_gen_result r = chain_arena_remove(ARENA, POINTER(0));
    ANSWER(r); FIELD(r, prev); FIELD(r, next); FIELD(r, payload);
}

static void drain(arguments *a) {
    chain_arena_drain_result r = chain_arena_drain(ARENA, POINTER(0), SLICE(5));
    ANSWER(r); FIELD(r, items); FIELD(r, overflowed);
}

static void set_generation(arguments *a) { PLAIN(chain_arena_set_generation(ARENA, WORD(0))); }
static void inc_generation(arguments *a) { PLAIN(chain_arena_inc_generation(ARENA)); }
static void canonicalize_freelist(arguments *a) { PLAIN(chain_arena_canonicalize_freelist(ARENA)); }
static void run(arguments *a) { PLAIN(chain_arena_run(ARENA, SLICE(5), SLICE(6))); }
#endif

#ifdef LEVEL_THREE
static void compress_with(arguments *a) { PLAIN(chain_arena_compress_with(ARENA, WORD(0), SLICE(5))); }
static void compress_canonical(arguments *a) { PLAIN(chain_arena_compress_canonical(ARENA, WORD(0), SLICE(5))); }
#endif

#ifdef SMALL_ARENAS
static void small_arena(arguments *a) {
    chain_arena_small_arena_result r = chain_arena_small_arena(ARENA, WORD(0));
    FIELD(r, number); FIELD(r, found); FIELD(r, length);
}
#endif

/* A call: its name, how many arguments of each kind it has, the words among them, and which of these are slots, the first one by the lowest bit. What it is
 * lent first beside the arena is where-from, or a slice of so many words, with these in front, and of so many more for each further link. A call without an
 * arena, and one that writes an arena, has one word, which is each of those that are given, in turn. */
typedef struct {
    const char *name;
    void (*make)(arguments *);
    int count[2];
    uint32_t word[6];
    unsigned slots;
    size_t lent, for_each;
    uint32_t first[18];
} call;

static const call calls[] = {
#ifdef LEVEL_ONE
    {"check", check, {5, 0}, {0}, 0, 0, 0, {0}},
    {"get_link", get_link, {5, 2}, {2, 6}, 1, 0, 0, {0}},
    {"get_link_no_gen", get_link_no_gen, {5, 2}, {2, 6}, 1, 0, 0, {0}},
    {"are_neighbors", are_neighbors, {5, 4}, {1, 5, 2, 6}, 1 | 4, 0, 0, {0}},
    {"walk_start", walk_start, {5, 2}, {2, 6}, 1, 0, 0, {0}},
    {"walk_step", walk_step, {5, 4}, {2, 4, 0, 3}, 1 | 2, 0, 0, {0}},
    {"line_of_dot", line_of_dot, {0, 1}, {1000, CHAIN_ARENA_FRAME_DOTS - 1, CHAIN_ARENA_FRAME_DOTS}, 0, 0, 0, {0}},
    {"line_dots", line_dots, {0, 1}, {2, CHAIN_ARENA_FRAME_LINES - 1, CHAIN_ARENA_FRAME_LINES}, 0, 0, 0, {0}},
    {"due_count", due_count, {5, 4}, {2, 6, 35, 15}, 1, 0, 0, {0}},
    {"due_events", due_events, {6, 4}, {2, 6, 35, 15}, 1, 6, 0, {77, 77, 77, 77, 77, 77}},
#endif
#ifdef LEVEL_TWO
    {"connect", connect, {5, 4}, {4, 7, 5, 9}, 1 | 4, 0, 0, {0}},
    {"break_prev", break_prev, {5, 2}, {4, 7}, 1, 0, 0, {0}},
    {"break_next", break_next, {5, 2}, {1, 5}, 1, 0, 0, {0}},
    {"exchange_next", exchange_next, {5, 4}, {1, 5, 2, 6}, 1 | 4, 0, 0, {0}},
    {"insert", insert, {5, 6}, {CHAIN_ARENA_INSERT_AT_INTERLINK, 1, 5, 2, 6, 60}, 2 | 8, 0, 0, {0}},
    {"remove", remove_link, {5, 2}, {2, 6}, 1, 0, 0, {0}},
    {"drain", drain, {6, 2}, {2, 6}, 1, 16, 0, {0}},
    {"set_generation", set_generation, {5, 1}, {12}, 0, 0, 0, {0}},
    {"inc_generation", inc_generation, {5, 0}, {0}, 0, 0, 0, {0}},
    {"canonicalize_freelist", canonicalize_freelist, {5, 0}, {0}, 0, 0, 0, {0}},
    {"run", run, {7, 0}, {0}, 0, 18, 0, {1, 4, 7, 5, 9, 0, 5, 2, 6, 0, 0, 0, 18, 5, 9, 1, 5, 60}},
#endif
#ifdef LEVEL_THREE
    {"compress_with", compress_with, {6, 1}, {1}, 0, 16, CHAIN_ARENA_COMPRESS_WORDS, {0}},
    {"compress_canonical", compress_canonical, {6, 1}, {1}, 0, 0, 0, {0}},
#endif
#ifdef SMALL_ARENAS
    {"small_arena", small_arena, {5, 1}, {75, 90, 75, 75}, 0, 0, 0, {0}},
#endif
};

/* Whether a call takes no arena. */
static int without_arena(const call *c) { return c->count[0] == 0; }

/* Whether a call writes an arena into what it is lent, and looks at the lengths alone. */
static int writes_arena(const call *c) { return strcmp(c->name, "small_arena") == 0; }

/* Exchanges the arguments i and j of a kind. */
static void exchange(arguments *a, int kind, int i, int j) {
    if (kind == 0) {
        slice kept = a->slices[i];
        a->slices[i] = a->slices[j], a->slices[j] = kept;
    } else {
        uint32_t kept = a->word[i];
        a->word[i] = a->word[j], a->word[j] = kept;
    }
}

/* prev, next, generation, payload and where-from; and what stands in each below the raised slots, which are lone links there. */
static uint32_t columns[5][CHAIN_ARENA_CAPACITY_LIMIT + 1];
static const uint32_t below[5] = {0, 0, 5, 35, 77};

/* What else is lent. */
static uint32_t header[4], lent_first[18 + CHAIN_ARENA_COMPRESS_WORDS * RAISED], answers[3];

/* A slot of the arena that is raised by so many slots. 0 is none. */
static uint32_t raised(uint32_t slot, uint32_t by) { return slot == 0 ? 0 : slot + by; }

/* Lays out the chain 1 -> 2 -> 4, the lone link 5 and the free slot 3, raised; with a side an arena in which rule 11 fails there. For a prev, both neighbours
 * of slot 5 are slot 1, which has other ones. For a next, the next of slot 4 is slot 5 besides, which is the lower fault. */
static void lay(uint32_t side, uint32_t by) {
    static const uint32_t words[5][6] = {
        {0, 1, 99, 2, 0, 99}, {2, 4, 3, 0, 0, 99}, {5, 6, 0, 7, 9, 99}, {10, 20, 99, 40, 50, 99}, {77, 77, 77, 77, 77, 77}};
    for (int k = 0; k < 5; k++) {
        for (uint32_t n = 0; n < by; n++) columns[k][n] = below[k];
        for (int n = 0; n < 6; n++) columns[k][by + n] = k < 2 ? raised(words[k][n], by) : words[k][n];
    }
    if (side != 0) columns[0][by + 4] = columns[1][by + 4] = raised(1, by);
    if (side == CHAIN_ARENA_SIDE_NEXT) columns[1][by + 3] = raised(5, by);
    header[0] = by + 5, header[1] = by + 4, header[2] = raised(3, by), header[3] = 11;
    for (int k = 0; k < 3; k++) answers[k] = 88;
}

/* Whether a word of the slice that is lent first is a slot: of commands, for each of which an answer is lent, those behind the code and the first pointer. */
static int is_slot(const call *c, int k) { return c->count[0] == 7 && (k % 6 == 1 || k % 6 == 3); }

/* The arguments of a call on an arena that is raised, with columns of a length. */
static arguments arguments_of(const call *c, uint32_t by, size_t length) {
    arguments a;
    for (int k = 0; k < 4; k++) a.slices[k].at = columns[k], a.slices[k].len = length;
    a.slices[4].at = header, a.slices[4].len = 4;
    a.slices[5].at = c->lent == 0 ? columns[4] : lent_first, a.slices[5].len = c->lent == 0 ? length : c->lent + c->for_each * by;
    a.slices[6].at = answers, a.slices[6].len = 3;
    memset(lent_first, 0, sizeof lent_first);
    for (int k = 0; k < 18; k++) lent_first[k] = is_slot(c, k) ? raised(c->first[k], by) : c->first[k];
    for (int k = 0; k < 6; k++) a.word[k] = c->slots >> k & 1 ? raised(c->word[k], by) : c->word[k];
    return a;
}

/* Prints the last words of a slice, so many or all; of a column that is raised first how many of those below have changed. */
static void print(const slice *lent, size_t words, uint32_t by) {
    size_t from = lent->len > words ? lent->len - words : 0, changed = 0;
    for (int k = 0; k < 5; k++) {
        for (uint32_t n = 0; lent->at == columns[k] && n < by; n++) changed += columns[k][n] != below[k];
        if (lent->at == columns[k] && by > 0) printf(" %u:", (unsigned)changed);
    }
    for (size_t n = from; n < lent->len; n++) printf(" %u", lent->at[n]);
}

/* Makes the call with two arguments exchanged (the same one twice: with none), in the first turn on a whole arena, then where rule 11 fails, and the turn is
 * the side. A call that writes an arena is lent the same words in every turn, in the third with a payload column that is one shorter, and in the fourth two
 * words of each column. */
static void make(const call *c, uint32_t turn, uint32_t by, int kind, int i, int j) {
    lay(writes_arena(c) ? 0 : turn, by);
    arguments a = arguments_of(c, by, by + 6), lent = a;
    if (without_arena(c) || writes_arena(c)) lent.word[0] = c->word[turn];
    if (writes_arena(c) && turn == 2) lent.slices[3].len -= 1;
    for (int k = 0; writes_arena(c) && turn == 3 && k < 4; k++) lent.slices[k].len = 2;
    exchange(&lent, kind, i, j);
    printf("%s", c->name);
    c->make(&lent);
    printf("\n");
    for (int k = 0; k < c->count[0]; k++) {
        print(&a.slices[k], k < 4 || c->lent == 0 ? 6 : c->lent, by);
        printf(k + 1 < c->count[0] ? " |" : "\n");
    }
}

/* Makes the call on a whole arena with columns of a length. */
static void make_long(const call *c, size_t length) {
    lay(0, 0);
    arguments lent = arguments_of(c, 0, length);
    printf("%s", c->name);
    c->make(&lent);
    printf("\n columns of %u\n", (unsigned)length);
}

int main(int argc, char **argv) {
    static const size_t lengths[] = {65535, 65536, CHAIN_ARENA_CAPACITY_LIMIT, CHAIN_ARENA_CAPACITY_LIMIT + 1};
    for (size_t k = 0; k < sizeof calls / sizeof *calls; k++) {
        const call *c = &calls[k];
        int kind = 0, i = 0, j = 0;
        if (argc == 5) {
            if (strcmp(argv[1], c->name) != 0) continue;
            kind = atoi(argv[2]), i = atoi(argv[3]), j = atoi(argv[4]);
            if (kind > 1 || i >= c->count[kind] || j >= c->count[kind]) return 2;
        }
        int more = argc != 5 && !without_arena(c);
        for (uint32_t by = 0; by <= (more ? RAISED : 0); by += RAISED) {
            for (uint32_t turn = 0; turn < (writes_arena(c) ? 4u : 3u); turn++) make(c, turn, by, kind, i, j);
        }
        for (size_t n = 0; more && n < sizeof lengths / sizeof *lengths; n++) make_long(c, lengths[n]);
    }
    return 0;
}
