/* The header as a C or C++ program uses it: every function once, preserve, write, restore, a cut and its opening, an advance of changed and of
 * unchanged cells, an inner advance that keeps the outer point, cells that follow a rule, several ranges in one add, refusals, and buffers that are
 * not the store's or not there at all. */

#include "domain_store.h"

#include <stdio.h>
#include <string.h>

enum { M = 4, E = 8, B = 8 };

static uint8_t memory[64 * M];
static uint8_t bodies[64 * B];
static uint32_t table[36 + 6 * E];

#define BUFFERS_LENT memory, sizeof memory, bodies, sizeof bodies, table, sizeof table / sizeof table[0]

static int failures = 0;

static void expect(const char *what, uint64_t found, uint64_t wanted) {
    if (found != wanted) {
        printf("%s: %llu and not %llu\n", what, (unsigned long long)found, (unsigned long long)wanted);
        failures++;
    }
}

/* Every function with these buffers is refused for their lengths, and sets its out parameters all the same. */
#define EXPECT_NO_BUFFERS(...)                                                                                    \
    do {                                                                                                          \
        uint64_t s[9], o = 77;                                                                                    \
        uint32_t h = 77, c = 77, p = 77, r = 77, hs[8];                                                           \
        int i;                                                                                                    \
        memset(s, 77, sizeof s);                                                                                  \
        memset(hs, 77, sizeof hs);                                                                                \
        expect("make, no buffer", ds_make(__VA_ARGS__, UINT64_MAX, &s[0]), DS_REFUSED_LENGTHS);                   \
        expect("open, no buffer", ds_open(__VA_ARGS__, UINT64_MAX, &s[1]), DS_REFUSED_LENGTHS);                   \
        expect("create, no buffer", ds_create(__VA_ARGS__, UINT64_MAX, &s[2], &h), DS_REFUSED_LENGTHS);           \
        expect("add, no buffer", ds_add(__VA_ARGS__, 0, 0, 1, 0, 0, 0, UINT64_MAX, &s[3]), DS_REFUSED_LENGTHS);   \
        expect("ranges, no buffer", ds_add_ranges(__VA_ARGS__, 0, NULL, 0, UINT64_MAX, &s[8]),                    \
               DS_REFUSED_LENGTHS);                                                                               \
        expect("delete, no buffer", ds_delete(__VA_ARGS__, 0, 0, 1, UINT64_MAX, &s[4]), DS_REFUSED_LENGTHS);      \
        expect("commit, no buffer", ds_commit(__VA_ARGS__, 0, UINT64_MAX, &s[5]), DS_REFUSED_LENGTHS);            \
        expect("advance, no buffer", ds_advance(__VA_ARGS__, 0, UINT64_MAX, &s[6]), DS_REFUSED_LENGTHS);          \
        expect("restore, no buffer", ds_restore(__VA_ARGS__, 0, UINT64_MAX, &s[7]), DS_REFUSED_LENGTHS);          \
        expect("list, no buffer", ds_list(__VA_ARGS__, hs, &c), DS_REFUSED_LENGTHS);                              \
        expect("look, no buffer", ds_look(__VA_ARGS__, 0, 0, &p, &o, &r), DS_REFUSED_LENGTHS);                    \
        for (i = 0; i < 8; i++) expect("steps and handles, no buffer", s[i] + hs[i], 0);                          \
        expect("steps of ranges, no buffer", s[8], 0);                                                            \
        expect("handle, count, place, offset, rule, no buffer", h + c + p + o + r, 0);                            \
    } while (0)

/* The bytes of each rule, by the header's words. */
static uint8_t pattern(uint32_t rule, int place) {
    static const uint8_t scale[4] = {0, 0, 128, 63};
    switch (rule) {
    case DS_RULE_ZEROS: return 0;
    case DS_RULE_ONES: return 255;
    case DS_RULE_INDEX: return (uint8_t)place;
    default: return scale[place % 4];
    }
}

/* Cells that are held by rules: each added, looked at, written over and brought back. */
static void expect_rules(void) {
    uint64_t steps = 77, offset = 77;
    uint32_t handle = 77, place = 77, rule = 77, held;
    int i;

    expect("create, for rules", ds_create(BUFFERS_LENT, UINT64_MAX, &steps, &handle), DS_DONE);
    for (held = DS_RULE_ZEROS; held <= DS_RULE_SCALE; held++) {
        for (i = 0; i < 64; i++) memory[64 * held + i] = pattern(held, i);
        expect("add by rule", ds_add(BUFFERS_LENT, handle, held, 1, DS_PATTERN, held, DS_READ_WRITE, UINT64_MAX, &steps), DS_DONE);
        expect("its steps", steps, 3 * 2 + 2);
        offset = 77;
        expect("look, by rule", ds_look(BUFFERS_LENT, handle, held, &place, &offset, &rule), DS_DONE);
        expect("its place", place, DS_BY_RULE);
        expect("its offset", offset, 0);
        expect("its rule", rule, held);
    }
    memset(memory, 200, sizeof memory);
    expect("restore, by rules", ds_restore(BUFFERS_LENT, handle, UINT64_MAX, &steps), DS_DONE);
    expect("its steps", steps, 4 * 64);
    for (held = DS_RULE_ZEROS; held <= DS_RULE_SCALE; held++)
        for (i = 0; i < 64; i++) expect("a byte by rule", memory[64 * held + i], pattern(held, i));

    /* An advance copies what has changed: nothing, and then one byte of one cell. */
    expect("advance, by rules", ds_advance(BUFFERS_LENT, handle, 0, &steps), DS_DONE);
    expect("its steps", steps, 0);
    memory[64 * DS_RULE_ONES + 63] = 9;
    expect("advance, one byte", ds_advance(BUFFERS_LENT, handle, 72, &steps), DS_DONE);
    expect("its steps", steps, 72);
    for (held = DS_RULE_ZEROS; held <= DS_RULE_SCALE; held++) {
        expect("look, advanced", ds_look(BUFFERS_LENT, handle, held, &place, &offset, &rule), DS_DONE);
        expect("its place", place, held == DS_RULE_ONES ? DS_IN_BODIES : DS_BY_RULE);
    }

    expect("delete", ds_delete(BUFFERS_LENT, handle, 0, 1, UINT64_MAX, &steps), DS_DONE);
    expect("add, rule 4", ds_add(BUFFERS_LENT, handle, 0, 1, DS_PATTERN, 4, DS_READ_ONLY, UINT64_MAX, &steps), DS_REFUSED_PATTERN_DIFFERS);
    expect("add, another rule", ds_add(BUFFERS_LENT, handle, 0, 1, DS_PATTERN, DS_RULE_ONES, DS_READ_ONLY, UINT64_MAX, &steps),
           DS_REFUSED_PATTERN_DIFFERS);
    expect("add, kind 3", ds_add(BUFFERS_LENT, handle, 0, 1, 3, 0, DS_READ_ONLY, UINT64_MAX, &steps), DS_REFUSED_KIND_OR_LABEL);
    expect("create inside", ds_create(BUFFERS_LENT, UINT64_MAX, &steps, &handle), DS_DONE);
    expect("add via parent on a rule", ds_add(BUFFERS_LENT, handle, 3, 1, DS_VIA_PARENT, 0, DS_READ_ONLY, UINT64_MAX, &steps),
           DS_REFUSED_PARENT_HOLDS_BY_RULE);
    expect("its steps", steps, 0);
    expect("commit inside", ds_commit(BUFFERS_LENT, 0, UINT64_MAX, &steps), DS_DONE);
    expect("commit, by rules", ds_commit(BUFFERS_LENT, 0, UINT64_MAX, &steps), DS_DONE);
}

/* Several ranges in one add: all of them or none. The domain around holds cells 0 and 1; the list takes 0 via it, 1 by a copy,
 * 2 and 3 by a rule, in no order, and its last range makes cell 2 read-write. */
static void expect_ranges(void) {
    static const struct ds_range ranges[5] = {
        {3, 1, DS_PATTERN, DS_RULE_ONES, DS_READ_ONLY},
        {1, 1, DS_COPY, 0, DS_READ_WRITE},
        {0, 1, DS_VIA_PARENT, 0, DS_READ_WRITE},
        {2, 2, DS_PATTERN, DS_RULE_ONES, DS_READ_ONLY},
        {2, 1, DS_COPY, 0, DS_READ_WRITE},
    };
    struct ds_range many[65], wrong[3];
    uint64_t steps = 77, offset = 77, need = 64 + 4 * 6 + 2, budget;
    uint32_t outer = 77, handle = 77, place = 77, rule = 77, held, cell;
    int i;

    memset(memory, 7, 128);
    memset(memory + 128, 255, 128);
    expect("create, for ranges", ds_create(BUFFERS_LENT, UINT64_MAX, &steps, &outer), DS_DONE);
    expect("add", ds_add(BUFFERS_LENT, outer, 0, 2, DS_COPY, 0, DS_READ_WRITE, UINT64_MAX, &steps), DS_DONE);
    expect("create inside", ds_create(BUFFERS_LENT, UINT64_MAX, &steps, &handle), DS_DONE);

    /* Cut at every store and opened: before word 6 is stored nothing is held, and from there on everything. */
    for (budget = 0; budget <= need; budget++) {
        expect("ranges, with a budget", ds_add_ranges(BUFFERS_LENT, handle, ranges, 5, budget, &steps),
               budget < need ? DS_STOPPED : DS_DONE);
        expect("its steps", steps, budget);
        expect("open", ds_open(BUFFERS_LENT, UINT64_MAX, &steps), DS_DONE);
        held = 0;
        for (cell = 0; cell < M; cell++)
            held += ds_delete(BUFFERS_LENT, handle, cell, 1, UINT64_MAX, &steps) == DS_DONE;
        expect("ranges held", held, budget > 64 + 2 * 8 ? M : 0);
    }

    expect("ranges", ds_add_ranges(BUFFERS_LENT, 0, ranges, 5, UINT64_MAX, &steps), DS_DONE);
    expect("its steps", steps, need);
    expect("ranges again", ds_add_ranges(BUFFERS_LENT, handle, ranges, 5, 0, &steps), DS_DONE);
    expect("its steps", steps, 0);
    for (cell = 0; cell < M; cell++) {
        expect("look, ranges", ds_look(BUFFERS_LENT, handle, cell, &place, &offset, &rule), DS_DONE);
        expect("its place", place, cell < 2 ? DS_IN_BODIES : DS_BY_RULE);
        expect("its rule", rule, cell < 2 ? 0 : DS_RULE_ONES);
    }
    memset(memory, 9, sizeof memory);
    expect("restore, ranges", ds_restore(BUFFERS_LENT, handle, UINT64_MAX, &steps), DS_DONE);
    expect("memory's first byte", memory[0], 7);
    expect("memory's last byte", memory[sizeof memory - 1], 255);

    /* No range and too many are refused, and so is a list of which one range is; nothing is held then. */
    expect("delete", ds_delete(BUFFERS_LENT, handle, 0, M, UINT64_MAX, &steps), DS_DONE);
    expect("ranges, none", ds_add_ranges(BUFFERS_LENT, handle, NULL, 0, UINT64_MAX, &steps), DS_REFUSED_NUMBER_OF_RANGES);
    for (i = 0; i < 65; i++) many[i] = ranges[1];
    steps = 77;
    expect("ranges, 65", ds_add_ranges(BUFFERS_LENT, handle, many, 65, UINT64_MAX, &steps), DS_REFUSED_NUMBER_OF_RANGES);
    expect("its steps", steps, 0);
    expect("ranges, a dead handle", ds_add_ranges(BUFFERS_LENT, 77, NULL, 0, UINT64_MAX, &steps), DS_REFUSED_NO_SUCH_DOMAIN);
    expect("ranges, an outer domain", ds_add_ranges(BUFFERS_LENT, outer, many, 65, UINT64_MAX, &steps), DS_REFUSED_NOT_INNERMOST);
    wrong[0] = ranges[1];
    wrong[1] = ranges[2];
    wrong[2] = ranges[3];
    wrong[2].kind = 3;
    expect("ranges, kind 3", ds_add_ranges(BUFFERS_LENT, handle, wrong, 3, UINT64_MAX, &steps), DS_REFUSED_KIND_OR_LABEL);
    wrong[2] = ranges[3];
    wrong[2].count = 3;
    expect("ranges, past memory", ds_add_ranges(BUFFERS_LENT, handle, wrong, 3, UINT64_MAX, &steps), DS_REFUSED_RANGE);
    wrong[2] = ranges[3];
    wrong[2].rule = DS_RULE_ZEROS;
    expect("ranges, another rule", ds_add_ranges(BUFFERS_LENT, handle, wrong, 3, UINT64_MAX, &steps), DS_REFUSED_PATTERN_DIFFERS);
    expect("delete, nothing held", ds_delete(BUFFERS_LENT, handle, 1, 1, UINT64_MAX, &steps), DS_REFUSED_NOT_HELD);
    expect("ranges, 64", ds_add_ranges(BUFFERS_LENT, handle, many, 64, UINT64_MAX, &steps), DS_DONE);
    expect("its steps", steps, 72);
    expect("commit inside", ds_commit(BUFFERS_LENT, 0, UINT64_MAX, &steps), DS_DONE);
    expect("commit, ranges", ds_commit(BUFFERS_LENT, 0, UINT64_MAX, &steps), DS_DONE);
}

/* An inner advance keeps the outer point: the cycle holds nothing, the tile copies cell 0 = 7 and has written 9. Cut at every store and opened, the cycle
 * goes back to 7, and the tile to 7 or, once word 6 is stored, to 9. */
static void expect_inner_advance(void) {
    uint64_t steps = 77, budget, need = 64 + 3 * 4 + 2;
    uint32_t cycle = 77, tile = 77;

    for (budget = 0; budget <= need; budget++) {
        memset(memory, 7, sizeof memory);
        expect("create, a cycle", ds_create(BUFFERS_LENT, UINT64_MAX, &steps, &cycle), DS_DONE);
        expect("create, a tile", ds_create(BUFFERS_LENT, UINT64_MAX, &steps, &tile), DS_DONE);
        expect("add to the tile", ds_add(BUFFERS_LENT, tile, 0, 1, DS_COPY, 0, DS_READ_WRITE, UINT64_MAX, &steps), DS_DONE);
        expect("advance, unchanged", ds_advance(BUFFERS_LENT, tile, 0, &steps), DS_DONE);
        memset(memory, 9, 64);
        expect("advance, with a budget", ds_advance(BUFFERS_LENT, tile, budget, &steps), budget < need ? DS_STOPPED : DS_DONE);
        expect("its steps", steps, budget);
        expect("open", ds_open(BUFFERS_LENT, UINT64_MAX, &steps), DS_DONE);
        memset(memory, 11, 64);
        expect("restore the tile", ds_restore(BUFFERS_LENT, tile, UINT64_MAX, &steps), DS_DONE);
        expect("the tile's byte", memory[0], budget > 64 + 2 * 4 ? 9 : 7);
        expect("restore the cycle", ds_restore(BUFFERS_LENT, cycle, UINT64_MAX, &steps), DS_DONE);
        expect("the cycle's byte", memory[63], 7);
        expect("commit the cycle", ds_commit(BUFFERS_LENT, cycle, UINT64_MAX, &steps), DS_DONE);
    }
}

int main(void) {
    uint64_t steps = 77, offset = 77;
    uint32_t handle = 77, count = 77, place = 77, rule = 77, handles[8];

    expect("open, no store", ds_open(BUFFERS_LENT, UINT64_MAX, &steps), DS_REFUSED_NO_STORE);
    expect("its steps", steps, 0);
    expect("make", ds_make(BUFFERS_LENT, UINT64_MAX, &steps), DS_DONE);
    expect("its steps", steps, 2 * E + 17);

    memset(memory, 7, sizeof memory);
    expect("create", ds_create(BUFFERS_LENT, UINT64_MAX, &steps, &handle), DS_DONE);
    expect("its handle", handle, 1);
    expect("add", ds_add(BUFFERS_LENT, handle, 0, 2, DS_COPY, 0, DS_READ_WRITE, UINT64_MAX, &steps), DS_DONE);
    expect("its steps", steps, 2 * 64 + 3 * 4 + 2);
    expect("delete", ds_delete(BUFFERS_LENT, handle, 1, 1, UINT64_MAX, &steps), DS_DONE);
    memset(memory, 9, 64);

    expect("look", ds_look(BUFFERS_LENT, handle, 0, &place, &offset, &rule), DS_DONE);
    expect("its place", place, DS_IN_BODIES);
    expect("its byte", bodies[offset], 7);
    expect("its rule", rule, 0);
    rule = 77;
    expect("look, past memory", ds_look(BUFFERS_LENT, handle, M, &place, &offset, &rule), DS_REFUSED_RANGE);
    expect("its place and rule", place + rule, 0);

    /* Cut inside the journal: other calls have to wait for the opening, which finishes the advance. */
    expect("advance, cut", ds_advance(BUFFERS_LENT, handle, 70, &steps), DS_STOPPED);
    expect("its steps", steps, 70);
    expect("list, pending", ds_list(BUFFERS_LENT, handles, &count), DS_REFUSED_PENDING);
    expect("its count", count, 0);
    expect("open", ds_open(BUFFERS_LENT, UINT64_MAX, &steps), DS_DONE);
    expect("its steps", steps, 3);
    expect("list", ds_list(BUFFERS_LENT, handles, &count), DS_DONE);
    expect("its count", count, 1);
    expect("its handle", handles[0], handle);

    /* Nothing has changed since, so that an advance needs no step: it is done with every budget. */
    expect("advance, unchanged", ds_advance(BUFFERS_LENT, handle, 0, &steps), DS_DONE);
    expect("its steps", steps, 0);
    memory[63] = 5;
    expect("advance, changed", ds_advance(BUFFERS_LENT, handle, 0, &steps), DS_STOPPED);
    memory[63] = 9;
    expect("advance, changed back", ds_advance(BUFFERS_LENT, handle, UINT64_MAX, &steps), DS_DONE);
    expect("its steps", steps, 0);

    /* Other lengths, which some store may have: not this one. It is still there for its own. */
    expect("open, half of memory", ds_open(memory, sizeof memory / 2, bodies, sizeof bodies, table, sizeof table / sizeof table[0], UINT64_MAX, &steps),
           DS_REFUSED_NO_STORE);
    expect("open again", ds_open(BUFFERS_LENT, UINT64_MAX, &steps), DS_DONE);

    /* A buffer that is not there has length 0. */
    EXPECT_NO_BUFFERS(NULL, 0, bodies, sizeof bodies, table, sizeof table / sizeof table[0]);
    EXPECT_NO_BUFFERS(memory, sizeof memory, NULL, 0, table, sizeof table / sizeof table[0]);
    EXPECT_NO_BUFFERS(memory, sizeof memory, bodies, sizeof bodies, NULL, 0);

    memset(memory, 0, 64);
    expect("restore", ds_restore(BUFFERS_LENT, handle, UINT64_MAX, &steps), DS_DONE);
    expect("memory's first byte", memory[0], 9);
    expect("memory's last byte", memory[sizeof memory - 1], 7);
    expect("commit", ds_commit(BUFFERS_LENT, 0, UINT64_MAX, &steps), DS_DONE);
    expect("restore, nobody live", ds_restore(BUFFERS_LENT, 0, UINT64_MAX, &steps), DS_REFUSED_NO_SUCH_DOMAIN);
    expect_rules();
    expect_ranges();
    expect_inner_advance();

    return failures != 0;
}
