/* A tour of the library: the paper's graph G, its model M, and the formula E[p0 U<=2 p1].
 * bindings/check.sh builds and runs it, and compares what it writes with tour.txt. */
#include "otzarvim.h"

#include <inttypes.h>
#include <stdio.h>

static const uint8_t graph[] = {
    0, 0, 0, 62, 1, 1, 0, 4, 0, 0, 0, 4, 0, 1,       /* 62 bytes, version 1, kind 1; 4 nodes, 4 hyperedges, 1 cover edge */
    0, 1, 0, 2, 0, 0, 0, 3, 0, 2, 0, 0, 0, 1, 0, 3,  /* 1 has {(3,2),(1,3)} */
    0, 1, 0, 1, 0, 0, 0, 7, 0, 3,                    /* and {(7,3)} */
    0, 2, 0, 1, 0, 0, 0, 1, 0, 3,                    /* 2 has {(1,3)} */
    0, 3, 0, 0,                                      /* 3 has {} */
    0, 0, 0, 0, 0, 5, 0, 1                           /* 0 covers 1 with bound 5 */
};

static uint8_t model[] = {
    0, 0, 0, 51, 2, 2, 0, 2, 2, 0, 0, 0, 3,          /* 51 bytes, version 2, kind 2; 2 states, 2 propositions, 3 transitions */
    0, 0, 0, 1, 0, 0, 0, 2,                          /* state 0 has p0, state 1 has p1 */
    0, 0, 0, 0, 0, 3, 0, 0, 0, 0,                    /* 0 to 0, weight 3, action 0 */
    0, 0, 0, 0, 0, 2, 0, 0, 0, 1,                    /* 0 to 1, weight 2, action 0 */
    0, 1, 0, 0, 0, 0, 0, 0, 0, 1                     /* 1 to 1, weight 0, action 0 */
};

static const uint8_t formula[] = {
    0, 0, 0, 31, 1, 3, 3,                            /* 31 bytes, version 1, kind 3; 3 rows */
    2, 0, 0, 0, 0, 0, 0, 0,                          /* p0 */
    2, 1, 0, 0, 0, 0, 0, 0,                          /* p1 */
    8, 0, 1, 0, 0, 0, 0, 2                           /* E[row 0 U<=2 row 1] */
};

/* The name of a number, and where the fault is if a field is wrong. */
static const char *told(uint8_t number, size_t offset)
{
    static const char *const names[] = {
        "OK", "BUDGET", "LENGTH", "VERSION", "LIMIT", "ORDER", "NAME", "DEAD", "SIZE", "ROOM", "FORM", "PROFILE"};
    static char words[40];
    const char *name = number <= OTZARVIM_PROFILE ? names[number] : "?";
    if (offset == 0)
        return name;
    snprintf(words, sizeof words, "%s at %zu", name, offset);
    return words;
}

static void values(const uint64_t *room, uint32_t n)
{
    for (uint32_t i = 0; i < n; i++)
        if (room[i] == OTZARVIM_INFINITE)
            printf(" inf");
        else
            printf(" %" PRIu64, room[i]);
    printf("\n");
}

int main(void)
{
    uint32_t counts[3];
    size_t offset;
    uint8_t number = otzarvim_graph_check(graph, sizeof graph, counts, &offset);
    printf("graph    %s: %" PRIu32 " nodes, %" PRIu32 " hyperedges, %" PRIu32 " cover edge\n", told(number, offset), counts[0],
           counts[1], counts[2]);

    uint32_t n = counts[0];
    uint64_t room[2 * 4];
    uint32_t count;
    for (uint32_t budget = 3; budget <= 4; budget++) {
        number = otzarvim_rounds_solve(graph, sizeof graph, budget, room, 2 * n, &count, &offset);
        printf("budget %" PRIu32 " %s after %" PRIu32 " rounds:", budget, told(number, offset), count);
        values(room, n);
    }

    number = otzarvim_rounds_solve(graph, sizeof graph, 4, room, 2 * n - 1, &count, &offset);
    printf("rounds   %s: a room of %" PRIu32 " numbers\n", told(number, offset), 2 * n - 1);

    number = otzarvim_graph_check(graph, sizeof graph - 1, counts, &offset);
    printf("graph    %s: the last byte is missing\n", told(number, offset));

    number = otzarvim_graph_check(NULL, 0, counts, &offset);
    printf("graph    %s: no bytes at all\n", told(number, offset));

    number = otzarvim_model_check(model, sizeof model, counts, &offset);
    printf("model    %s: %" PRIu32 " states, %" PRIu32 " propositions, %" PRIu32 " transitions\n", told(number, offset), counts[0],
           counts[1], counts[2]);

    uint32_t rows;
    number = otzarvim_formula_check(formula, sizeof formula, counts[1], &rows, &offset);
    printf("formula  %s: %" PRIu32 " rows\n", told(number, offset), rows);

    uint8_t text[OTZARVIM_MOST_TEXT];
    size_t length;
    number = otzarvim_formula_text(formula, sizeof formula, counts[1], text, sizeof text, &length, &offset);
    printf("text     %s: %.*s\n", told(number, offset), (int)length, (const char *)text);

    number = otzarvim_formula_text(formula, sizeof formula, counts[1], text, 12, &length, &offset);
    printf("text     %s: a room of 12 bytes\n", told(number, offset));

    number = otzarvim_formula_check(formula, sizeof formula, 1, &rows, &offset);
    printf("formula  %s: p1, where only p0 exists\n", told(number, offset));

    uint8_t built[106];
    number = otzarvim_graph(model, sizeof model, formula, sizeof formula, built, sizeof built, &length, &offset);
    printf("built    %s: %zu bytes\n", told(number, offset), length);

    number = otzarvim_graph_check(built, length, counts, &offset);
    printf("graph    %s: %" PRIu32 " nodes, %" PRIu32 " hyperedges, %" PRIu32 " cover edges\n", told(number, offset), counts[0], counts[1],
           counts[2]);

    number = otzarvim_graph(model, sizeof model, formula, sizeof formula, built, sizeof built - 1, &length, &offset);
    printf("built    %s: a room of %zu bytes\n", told(number, offset), sizeof built - 1);

    model[40] = 2;
    number = otzarvim_graph(model, sizeof model, formula, sizeof formula, built, sizeof built, &length, &offset);
    printf("built    %s: the second transition leads to state 2 of 2\n", told(number, offset));
    return 0;
}
