/* The order of every parameter in C. A contract names parameters, so the proofs hold in any order of them: this program calls every
 * exported function with values of which no two are alike, so that any two that change places change what it writes.
 * bindings/check.sh builds and runs it, and compares what it writes with order.txt. */
#include "otzarvim.h"

#include <inttypes.h>
#include <stdio.h>
#include <string.h>

/* 3 nodes, 2 hyperedges, 1 cover edge: 0 covers 1 with bound 5; 1 has {(4,2)}; 2 has {} */
static uint8_t graph[] = {
    0, 0, 0, 36, 1, 1, 0, 3, 0, 0, 0, 2, 0, 1,
    0, 1, 0, 1, 0, 0, 0, 4, 0, 2,
    0, 2, 0, 0,
    0, 0, 0, 0, 0, 5, 0, 1};

/* 3 states, 5 propositions, 4 transitions */
static uint8_t model[] = {
    0, 0, 0, 65, 2, 2, 0, 3, 5, 0, 0, 0, 4,
    0, 0, 0, 1, 0, 0, 0, 2, 0, 0, 0, 0,
    0, 0, 0, 0, 0, 3, 0, 7, 0, 0,
    0, 0, 0, 0, 0, 2, 1, 7, 0, 1,
    0, 1, 0, 0, 0, 0, 0, 0, 0, 1,
    0, 2, 0, 0, 0, 1, 0, 7, 0, 2};

/* E[p0 U<=2 p1] */
static uint8_t formula[] = {
    0, 0, 0, 31, 1, 3, 3,
    2, 0, 0, 0, 0, 0, 0, 0,
    2, 1, 0, 0, 0, 0, 0, 0,
    8, 0, 1, 0, 0, 0, 0, 2};

/* 3 nodes, 3 hyperedges, no weight and no cover edge: 0 has {1} and {2}; 2 has {} */
static uint8_t plain[] = {
    0, 0, 0, 38, 1, 1, 0, 3, 0, 0, 0, 3, 0, 0,
    0, 0, 0, 1, 0, 0, 0, 0, 0, 1,
    0, 0, 0, 1, 0, 0, 0, 0, 0, 2,
    0, 2, 0, 0};

static uint8_t bytes[256];
static uint64_t values[32];
static uint32_t counts[3], states[2], words[50], count, rows;
static uint64_t taken;
static size_t length, offset;
static uint8_t verdict;

/* Everything lent holds something else before each call. */
static void lend(void)
{
    memset(bytes, 0xee, sizeof bytes);
    memset(values, 0xee, sizeof values);
    counts[0] = 901, counts[1] = 902, counts[2] = 903, states[0] = 904, states[1] = 905, count = 906, rows = 907, length = 908, verdict = 99, taken = 909,
    offset = 910;
    memset(words, 0xee, sizeof words);
}

static void sums(void)
{
    uint64_t b = 1, v = 1;
    for (size_t i = 0; i < sizeof bytes; i++)
        b = b * 31 + bytes[i];
    for (size_t i = 0; i < sizeof values / sizeof *values; i++)
        v = v * 31 + values[i];
    printf(" rooms %016" PRIx64 " %016" PRIx64 "\n", b, v);
}

static void decide(uint32_t state, uint32_t budget)
{
    lend();
    unsigned number = otzarvim_verdict(model, sizeof model, formula, sizeof formula, state, budget, bytes, 200, values, 30, &verdict, &count, &length,
                                       &offset);
    printf("verdict on %" PRIu32 " with %" PRIu32 ": %u at %zu, verdict %u, count %" PRIu32 ", length %zu,", state, budget, number, offset, verdict, count,
           length);
    sums();
}

static void settle(uint32_t budget)
{
    lend();
    unsigned number = otzarvim_settle(model, sizeof model, formula, sizeof formula, budget, bytes, 200, values, 30, &count, &length, states, &offset);
    printf("settle with %" PRIu32 ": %u at %zu, count %" PRIu32 ", length %zu, states %" PRIu32 " %" PRIu32 ",", budget, number, offset, count, length,
           states[0], states[1]);
    sums();
}

static void search(uint32_t root)
{
    lend();
    unsigned number = otzarvim_search(plain, sizeof plain, root, words, 45, &verdict, &taken, &offset);
    uint64_t sum = 1;
    for (size_t i = 0; i < sizeof words / sizeof *words; i++)
        sum = sum * 31 + words[i];
    printf("search from %" PRIu32 ": %u at %zu, verdict %u, count %" PRIu64 ", words %016" PRIx64 "\n", root, number, offset, verdict, taken, sum);
}

static void checks(void)
{
    lend();
    unsigned number = otzarvim_graph_check(graph, sizeof graph, counts, &offset);
    printf("graph: %u at %zu, %" PRIu32 " %" PRIu32 " %" PRIu32 "\n", number, offset, counts[0], counts[1], counts[2]);
    lend();
    number = otzarvim_model_check(model, sizeof model, counts, &offset);
    printf("model: %u at %zu, %" PRIu32 " %" PRIu32 " %" PRIu32 "\n", number, offset, counts[0], counts[1], counts[2]);
    for (uint32_t p = 1; p <= 2; p++) {
        lend();
        number = otzarvim_formula_check(formula, sizeof formula, p, &rows, &offset);
        printf("formula with %" PRIu32 ": %u at %zu, %" PRIu32 "\n", p, number, offset, rows);
    }
}

static void rounds(uint32_t budget)
{
    lend();
    unsigned number = otzarvim_rounds_solve(graph, sizeof graph, budget, values, 7, &count, &offset);
    printf("rounds with %" PRIu32 ": %u at %zu, count %" PRIu32 ",", budget, number, offset, count);
    sums();
}

static void text(void)
{
    lend();
    unsigned number = otzarvim_formula_text(formula, sizeof formula, 2, bytes, 100, &length, &offset);
    printf("text: %u at %zu, length %zu,", number, offset, length);
    sums();
}

static void build(void)
{
    lend();
    unsigned number = otzarvim_graph(model, sizeof model, formula, sizeof formula, bytes, 200, &length, &offset);
    printf("built: %u at %zu, length %zu,", number, offset, length);
    sums();
}

/* What the writer writes of the graph, in rooms that are longer, and what the checker says of it: with the two messages in each other's
 * place it would refuse the claims as a graph. */
static void claims(size_t room, size_t lent)
{
    lend();
    unsigned number = otzarvim_claims_write(graph, sizeof graph, bytes, room, values, lent, &offset);
    printf("claims in %zu and %zu: %u at %zu,", room, lent, number, offset);
    sums();
    number = otzarvim_claims_check(graph, sizeof graph, bytes, 48, &verdict, &offset);
    printf("claims checked: %u at %zu, verdict %u\n", number, offset, verdict);
}

static void enter(otzarvim_tally *tally, uint8_t first, uint8_t second, uint32_t rounds)
{
    unsigned number = otzarvim_tally_enter(tally, first, second, rounds);
    lend();
    unsigned written = otzarvim_tally_report(tally, bytes, 200, &length);
    printf("entered %u %u %" PRIu32 ": %u, report %u, length %zu:", first, second, rounds, number, written, length);
    for (size_t i = 0; i < length; i++)
        putchar(bytes[i] == '\n' ? ' ' : bytes[i]);
    sums();
}

/* Every number has a field of its own; then a tally at its end, and a room that is too small. */
static void tallies(void)
{
    otzarvim_tally tally = {0};
    enter(&tally, 0, 1, 5), enter(&tally, 0, 2, 3), enter(&tally, 0, 2, 4), enter(&tally, 1, 0, 9);
    for (uint8_t i = 2; i <= 12; i++)
        enter(&tally, i, 0, 1000);
    enter(&tally, 0, 0, 6), enter(&tally, 0, 3, 7), enter(&tally, 2, 1, 8);
    otzarvim_tally last = {4294967280, 5, {1, 2, 0, 0, 0, 0, 0, 0, 0, 0, 6}, UINT64_MAX - 8, 3};
    enter(&last, 0, 1, 9), enter(&last, 0, 1, 8), enter(&last, 0, 2, 0), enter(&last, 12, 0, 0);
    lend();
    unsigned number = otzarvim_tally_report(&last, bytes, 57, &length);
    printf("report in 57 bytes: %u, length %zu,", number, length);
    sums();
}

int main(void)
{
    checks();
    rounds(1), rounds(9);
    search(0), search(1), search(3);
    claims(47, 24), claims(50, 23), claims(49, 25);
    text(), build();
    decide(0, 9), decide(2, 9), decide(1, 2), decide(2, 1), decide(9, 4);
    settle(9), settle(2);
    tallies();

    /* A wrong field of each message: a name of each graph, the last row's zero, and then the third transition's start. */
    graph[sizeof graph - 1] = 3, plain[23] = 3, formula[26] = 1;
    checks(), rounds(9), search(0), claims(49, 25), text(), build(), decide(0, 9), settle(9);
    model[46] = 3;
    checks(), build(), decide(0, 9), settle(9);
    return 0;
}
