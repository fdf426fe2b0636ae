/* Measures the library's checker of claims (a) beside the same in C, which doesn't check the graph (b), and beside that behind a check of
 * the graph in C; beside the library's rounds on the same graph, which it must beat by far; and the library's writer of claims. In one
 * run, on the same graphs, with the claims that the writer wrote; all answers are compared, on right claims and on damaged ones. */
#include "inputs.h"
#include "measure.h"
#include "otzarvim.h"
#include "plain.h"

#include <stdio.h>
#include <stdlib.h>
#include <string.h>

DECLARE(gcc_)
DECLARE(clang_)
uint32_t gcc_claim(const uint8_t *s, const uint8_t *claims);
uint32_t clang_claim(const uint8_t *s, const uint8_t *claims);

enum { MESSAGE = 4 << 20, WORDS = 8, MOST_WORDS = WORDS * OTZARVIM_MOST_NODES, DAMAGES = 64, RANK_AT = 8 };

static uint8_t *message, *claims;
static uint64_t length, *room;
static uint32_t nodes;

/* ---- graphs where no cycle passes through a cover edge; but for one, all edges lead to nodes further on */

static void graph_start(uint32_t n, uint32_t h, uint32_t c)
{
    start(message, 1);
    put(n, 2), put(h, 4), put(c, 2);
}

/* As many rounds as nodes. */
static void chain(uint32_t n)
{
    graph_start(n, n, 0);
    for (uint32_t i = 0; i + 1 < n; i++)
        put(i, 2), put(1, 2), put(i % 7, 4), put(i + 1, 2);
    put(n - 1, 2), put(0, 2);
    length = finish(message);
}

/* The same the other way round: the first node has the hyperedge without targets, and one pass ranks all. */
static void chain_back(uint32_t n)
{
    graph_start(n, n, 0);
    put(0, 2), put(0, 2);
    for (uint32_t i = 1; i < n; i++)
        put(i, 2), put(1, 2), put(i % 7, 4), put(i - 1, 2);
    length = finish(message);
}

/* A chain of cover edges. */
static void covers(uint32_t n)
{
    graph_start(n, 1, n - 1);
    put(n - 1, 2), put(0, 2);
    for (uint32_t i = 0; i + 1 < n; i++)
        put(i, 2), put(i % 2 ? UINT32_MAX : i, 4), put(i + 1, 2);
    length = finish(message);
}

/* Any node behind v, so far at most. */
static uint32_t further(uint32_t v, uint32_t n, uint32_t reach)
{
    uint32_t left = n - 1 - v;
    return v + 1 + draw(left < reach ? left : reach);
}

/* 15 hyperedges of four targets to a node but the last, of nodes so far on at most; every eighth node has a cover edge as far on, without
 * bound or with one that some values are within. */
static void full(uint32_t n, uint32_t reach)
{
    graph_start(n, 15 * (n - 1) + 1, n / 8);
    for (uint32_t v = 0; v + 1 < n; v++)
        for (uint32_t k = 0; k < 15; k++) {
            put(v, 2), put(4, 2);
            for (uint32_t j = 0; j < 4; j++)
                put(draw(1000), 4), put(further(v, n, reach), 2);
        }
    put(n - 1, 2), put(0, 2);
    for (uint32_t i = 0; i < n / 8; i++)
        put(8 * i, 2), put(i % 4 ? draw(2000) : UINT32_MAX, 4), put(further(8 * i, n, reach), 2);
    length = finish(message);
}

/* Far targets: few rounds. */
static void wide(uint32_t n)
{
    seed = 1;
    full(n, n);
}

/* Near targets: many rounds. */
static void ladder(uint32_t n)
{
    seed = 2;
    full(n, 4);
}

/* 24 hyperedges of node 0 to all others, and a chain. */
static void longs(uint32_t n)
{
    graph_start(n, 24 + n - 1, 0);
    for (uint32_t k = 0; k < 24; k++) {
        put(0, 2), put(n - 1, 2);
        for (uint32_t j = 1; j < n; j++)
            put(k + j, 4), put(n - j, 2);
    }
    for (uint32_t i = 1; i + 1 < n; i++)
        put(i, 2), put(1, 2), put(1, 4), put(i + 1, 2);
    put(n - 1, 2), put(0, 2);
    length = finish(message);
}

/* ---- graphs of questions: the models of inputs.h cut after so many states */

static uint8_t model[1 << 20], formula[1024];

static void built(uint64_t model_length, uint64_t formula_length)
{
    size_t written, offset;
    if (otzarvim_graph(model, model_length, formula, formula_length, message, MESSAGE, &written, &offset) != OTZARVIM_OK) {
        fprintf(stderr, "no graph of the question\n");
        exit(1);
    }
    length = written;
}

static void one_leader(uint32_t s)
{
    built(explore(&leader, model, s), reached(formula, 0, 200));
}

static void delivered(uint32_t s)
{
    built(explore(&bit, model, s), reached(formula, 0, 10));
}

static void schedule(uint32_t s)
{
    built(explore(&task, model, s), planned(formula, 90, 80));
}

static const struct {
    const char *name;
    uint32_t most; /* nodes or states; the other sizes are a half, a quarter and an eighth */
    void (*make)(uint32_t);
} table[] = {
    {"claims: a chain", 4096, chain},
    {"claims: a chain, backwards", 4096, chain_back},
    {"claims: cover edges", 4096, covers},
    {"claims: wide", 4096, wide},
    {"claims: a ladder", 4096, ladder},
    {"claims: long hyperedges", 4096, longs},
    {"claims: leader election", 256, one_leader},
    {"claims: alternating bit", 256, delivered},
    {"claims: task graph", 256, schedule},
};

/* ---- versions */

enum { A, B_GCC, B_CLANG, CHECKED_GCC, CHECKED_CLANG, ROUNDS, VERSIONS };
enum { NO, YES, REFUSED };

static uint32_t rounds;
static uint64_t values[OTZARVIM_MOST_VALUES];

/* Whether the claims are accepted; of the rounds, whether they settled. */
static uint32_t run(int version)
{
    uint8_t verdict;
    size_t offset;
    switch (version) {
    case A:
        if (otzarvim_claims_check(message, length, claims, OTZARVIM_CLAIM * nodes, &verdict, &offset) != OTZARVIM_OK)
            return REFUSED;
        return verdict == OTZARVIM_YES;
    case B_GCC: return gcc_claim(message, claims);
    case B_CLANG: return clang_claim(message, claims);
    case CHECKED_GCC: return gcc_graph_check(message, length) == OTZARVIM_OK ? gcc_claim(message, claims) : REFUSED;
    case CHECKED_CLANG: return clang_graph_check(message, length) == OTZARVIM_OK ? clang_claim(message, claims) : REFUSED;
    default:
        return otzarvim_rounds_solve(message, length, UINT32_MAX, values, OTZARVIM_MOST_VALUES, &rounds, &offset) == OTZARVIM_OK;
    }
}

static uint32_t write_claims(void)
{
    size_t offset;
    return otzarvim_claims_write(message, length, claims, OTZARVIM_CLAIM * nodes, room, WORDS * nodes, &offset) == OTZARVIM_OK;
}

/* ---- comparing */

static void differ(const char *name, const char *what)
{
    fprintf(stderr, "%s: %s\n", name, what);
    exit(1);
}

static uint64_t eight(const uint8_t *p)
{
    uint64_t v;
    memcpy(&v, p, 8);
    return __builtin_bswap64(v);
}

static void store(uint8_t *p, uint64_t v)
{
    v = __builtin_bswap64(v);
    memcpy(p, &v, 8);
}

static void same(const char *name, uint32_t answer)
{
    for (int v = A; v < ROUNDS; v++)
        if (run(v) != answer || answer == REFUSED)
            differ(name, answer == YES ? "not accepted" : "not a no");
}

/* Claims that are right are accepted, and hold what the rounds say. */
static void compare_right(const char *name)
{
    if (!write_claims())
        differ(name, "no claims");
    same(name, YES);
    if (!run(ROUNDS))
        differ(name, "no rounds");
    for (uint32_t v = 0; v < nodes; v++)
        if (eight(claims + OTZARVIM_CLAIM * v) != values[v])
            differ(name, "another value");
    for (uint32_t i = 0; i < WORDS * nodes; i++)
        if (room[i] != 0)
            differ(name, "a word is left");
}

/* How often all said no. Of each node drawn: a value that is less, more or near the end, which no version accepts; and another rank, on
 * which all agree. */
static uint32_t compare_damaged(const char *name)
{
    uint32_t no = 0;
    for (uint32_t i = 0; i < DAMAGES; i++) {
        uint8_t *claim = claims + OTZARVIM_CLAIM * draw(nodes);
        uint64_t value = eight(claim), rank = eight(claim + RANK_AT);
        const uint64_t wrong[] = {value - 1, value + 1, value ^ 1ull << 63, UINT64_MAX - 1 - i}, ranks[] = {0, rank + 1, UINT64_MAX};
        for (int k = 0; k < 4; k++)
            store(claim, wrong[k]), same(name, NO), no++;
        store(claim, value);
        for (int k = 0; k < 3; k++) {
            store(claim + RANK_AT, ranks[k]);
            uint32_t answer = run(A);
            same(name, answer), no += answer == NO;
        }
        store(claim + RANK_AT, rank);
    }
    return no;
}

/* ---- measuring */

static void call(int version)
{
    run(version);
}

static void call_writer(int version)
{
    (void)version;
    write_claims();
}

int main(int argc, char **argv)
{
    double turn = argc > 1 ? atof(argv[1]) : 0.02;
    int turns = argc > 2 ? atoi(argv[2]) : 7;
    const char *only = argc > 3 ? argv[3] : "";
    uint64_t no = 0;
    message = malloc(MESSAGE), claims = malloc(OTZARVIM_CLAIM * OTZARVIM_MOST_NODES), room = malloc(MOST_WORDS * sizeof *room);
    printf("| workload | nodes | bytes | rounds | (a) µs | (b) µs | (b) behind a check, µs | rounds, µs | writer, µs ");
    printf("| a/b | a/(b behind a check) | a/rounds | writer/rounds |\n");
    printf("|---|---|---|---|---|---|---|---|---|---|---|---|---|\n");
    for (size_t i = 0; i < sizeof table / sizeof *table; i++) {
        if (!strstr(table[i].name, only))
            continue;
        for (uint32_t part = 8; part >= 1; part /= 2) {
            double best[VERSIONS], writer;
            table[i].make(table[i].most / part);
            nodes = message[6] * 256u + message[7];
            compare_right(table[i].name);
            no += compare_damaged(table[i].name);
            least(VERSIONS, call, turn, turns, best);
            least(1, call_writer, turn, turns < 2 ? turns : 2, &writer); /* a call may take seconds */
            int gcc = best[B_GCC] < best[B_CLANG];
            double b = best[gcc ? B_GCC : B_CLANG];
            double checked = best[best[CHECKED_GCC] < best[CHECKED_CLANG] ? CHECKED_GCC : CHECKED_CLANG];
            printf("| %s | %u | %llu | %u |", part == 8 ? table[i].name : "", nodes, (unsigned long long)length, rounds);
            printf(" %.2f | %.2f (%s) | %.2f |", best[A] * 1e6, b * 1e6, gcc ? "gcc" : "clang", checked * 1e6);
            printf(" %.2f | %.2f | %.2f | %.2f |", best[ROUNDS] * 1e6, writer * 1e6, best[A] / b, best[A] / checked);
            printf(" %.2f | %.2f |\n", best[A] / best[ROUNDS], writer / best[ROUNDS]);
            fflush(stdout);
        }
    }
    printf("\nAll versions accepted the claims that the writer wrote, and said no of %llu damaged ones.\n", (unsigned long long)no);
    return 0;
}
