/* The question of README.md: is every run from a failed guard back in the interpreter within 42 instructions? And within 41? And is that so
 * whichever guard fails?
 * bindings/check.sh builds and runs it, and compares what it writes with life.txt.
 *
 * The bytes are those of
 *   tools/otz compile examples/formula_life.otz 'A[true U<=42 interpreted]' -o - | od -An -v -tu1 */
#include "otzarvim.h"

#include <inttypes.h>
#include <stdio.h>

enum { COLD, HOT, SPECULATED, GUARD_FAILED, INTERPRETED, RETIRED };

static const char *const names[] = {"cold", "hot", "speculated", "guard_failed", "interpreted", "retired"};

static const uint8_t model[] = {
    0, 0, 0, 147, 2, 2, 0, 6, 2, 0, 0, 0, 11,        /* 147 bytes, version 2, kind 2; 6 states, 2 propositions, 11 transitions */
    0, 0, 0, 0, 0, 0, 0, 0, 0, 0, 0, 1,              /* p0 is compiled, and holds in speculated */
    0, 0, 0, 0, 0, 0, 0, 2,                          /* p1 is interpreted, and holds there */
    0, 0, 0, 0,                                      /* nothing holds in retired, and no transition leaves it */
    0, 0, 0, 0, 0, 30, 0, 1, 0, 4,                   /* cold to interpreted, 30 instructions: load */
    0, 1, 0, 0, 0, 90, 0, 5, 0, 2,                   /* hot to speculated: compile */
    0, 1, 0, 0, 0, 25, 0, 6, 0, 4,                   /* hot to interpreted: give_up */
    0, 1, 0, 0, 0, 6, 0, 7, 0, 5,                    /* hot to retired: retire */
    0, 2, 0, 0, 0, 4, 0, 8, 0, 2,                    /* speculated to itself: stay */
    0, 2, 0, 0, 0, 7, 0, 9, 0, 3,                    /* speculated to guard_failed: fail */
    0, 3, 0, 0, 0, 35, 0, 10, 0, 4,                  /* guard_failed to interpreted: rebuild */
    0, 3, 0, 0, 0, 12, 0, 11, 0, 0,                  /* guard_failed to cold: discard */
    0, 4, 0, 0, 0, 20, 0, 2, 0, 4,                   /* interpreted to itself: interpret */
    0, 4, 0, 0, 0, 1, 0, 3, 0, 0,                    /* interpreted to cold: put_away */
    0, 4, 0, 0, 0, 2, 0, 4, 0, 1                     /* interpreted to hot: heat */
};

static uint8_t formula[] = {
    0, 0, 0, 31, 1, 3, 3,                            /* 31 bytes, version 1, kind 3; 3 rows */
    0, 0, 0, 0, 0, 0, 0, 0,                          /* true */
    2, 1, 0, 0, 0, 0, 0, 0,                          /* p1 */
    9, 0, 1, 0, 0, 0, 0, 42                          /* A[row 0 U<=42 row 1] */
};

/* The same under an AX that looks at the steps of one event alone. */
static const uint8_t recovers[] = {
    0, 0, 0, 39, 1, 3, 4,                            /* 39 bytes, version 1, kind 3; 4 rows */
    0, 0, 0, 0, 0, 0, 0, 0,                          /* true */
    2, 1, 0, 0, 0, 0, 0, 0,                          /* p1 */
    9, 0, 1, 0, 0, 0, 0, 42,                         /* A[row 0 U<=42 row 1] */
    11, 2, 9, 0, 255, 255, 255, 255                  /* AX#9 row 2: action 9 is fail, and there is no bound */
};

/* Rooms that suffice for any question. */
static uint8_t bytes[OTZARVIM_MOST_GRAPH];
static uint64_t values[OTZARVIM_MOST_VALUES];

static uint8_t ask(const char *words, const uint8_t *asked, size_t asked_length, uint32_t state)
{
    uint8_t verdict;
    uint32_t count;
    size_t length, offset;
    uint8_t number = otzarvim_verdict(model, sizeof model, asked, asked_length, state, OTZARVIM_MOST_NODES, bytes, sizeof bytes, values,
                                      OTZARVIM_MOST_VALUES, &verdict, &count, &length, &offset);
    printf("%s from %s: ", words, names[state]);
    if (number == OTZARVIM_OK)
        printf("%s, after %" PRIu32 " rounds on a graph of %zu bytes\n", verdict == OTZARVIM_YES ? "yes" : "no", count, length);
    else
        printf("refused %u at %zu\n", number, offset);
    return number;
}

int main(void)
{
    if (ask("A[true U<=42 interpreted]", formula, sizeof formula, GUARD_FAILED))
        return 1;
    formula[sizeof formula - 1] = 41;
    if (ask("A[true U<=41 interpreted]", formula, sizeof formula, GUARD_FAILED))
        return 1;
    if (ask("AX#fail A[true U<=42 interpreted]", recovers, sizeof recovers, SPECULATED))
        return 1;

    /* All states at once, within 41. */
    uint32_t count, states[2];
    size_t length, offset;
    uint8_t number = otzarvim_settle(model, sizeof model, formula, sizeof formula, OTZARVIM_MOST_NODES, bytes, sizeof bytes, values,
                                     OTZARVIM_MOST_VALUES, &count, &length, states, &offset);
    if (number != OTZARVIM_OK)
        return 1;
    for (uint32_t a = 0; a < states[1]; a++)
        printf("%s %s\n", names[a], values[states[0] + a] == 0 ? "yes" : "no");
    return 0;
}
