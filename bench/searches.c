/* Measures the library's search (a) beside the same algorithm in C on allocated arrays (b) and beside the library's rounds, in one run,
 * on the same graphs; answers and counts are compared, and the words that must be zero afterwards. */
#include "inputs.h"
#include "measure.h"
#include "otzarvim.h"

#include <stdio.h>
#include <stdlib.h>
#include <string.h>

uint32_t gcc_search(const uint8_t *s, uint64_t length, uint32_t root, uint64_t *count);
uint32_t clang_search(const uint8_t *s, uint64_t length, uint32_t root, uint64_t *count);

enum { MESSAGE = 4 << 20, WORDS = 2 << 20, ROOT = 0 };

static uint8_t *message;
static uint64_t length;
static uint32_t *words;
static uint64_t *room;

/* ---- graphs; the root is node 0 */

static void graph_start(uint32_t n, uint32_t h)
{
    start(message, 1);
    put(n, 2), put(h, 4), put(0, 2);
}

static void edge(uint32_t source, uint32_t targets)
{
    put(source, 2), put(targets, 2);
}

static void target(uint32_t node)
{
    put(0, 4), put(node, 2);
}

static void graph_end(void)
{
    length = finish(message);
}

/* 15 hyperedges to each node from the first on but the last, of four targets at most so far on. */
static void layers(uint32_t n, uint32_t first, uint32_t reach)
{
    seed = 4;
    for (uint32_t v = first; v + 1 < n; v++)
        for (uint32_t k = 0; k < 15; k++) {
            edge(v, 4);
            for (uint32_t j = 0; j < 4; j++)
                target(v + 1 + draw(n - 1 - v < reach ? n - 1 - v : reach));
        }
}

/* The root's one target has a hyperedge without targets, or none; beside it stands a ladder that the answer doesn't ask for. */
static void near_yes(uint32_t n)
{
    graph_start(n, 2 + 15 * (n - 2));
    edge(0, 1), target(n - 1);
    layers(n, 1, 4);
    edge(n - 1, 0);
    graph_end();
}

static void near_no(uint32_t n)
{
    graph_start(n, 2 + 15 * (n - 3));
    edge(0, 1), target(n - 1);
    layers(n - 1, 1, 4);
    edge(n - 2, 0);
    graph_end();
}

/* A chain, where the search goes to the end and comes back. */
static void chain(uint32_t n)
{
    graph_start(n, n);
    for (uint32_t v = 0; v + 1 < n; v++)
        edge(v, 1), target(v + 1);
    edge(n - 1, 0);
    graph_end();
}

/* The same without the end: all is lost. */
static void broken_chain(uint32_t n)
{
    graph_start(n, n - 1);
    for (uint32_t v = 0; v + 1 < n; v++)
        edge(v, 1), target(v + 1);
    graph_end();
}

/* The ladder from its first node; far targets; and these without an end, where nothing is found. */
static void ladder(uint32_t n)
{
    graph_start(n, 15 * (n - 1) + 1);
    layers(n, 0, 4);
    edge(n - 1, 0);
    graph_end();
}

static void wide(uint32_t n)
{
    graph_start(n, 15 * (n - 1) + 1);
    layers(n, 0, n);
    edge(n - 1, 0);
    graph_end();
}

static void wide_lost(uint32_t n)
{
    graph_start(n, 15 * (n - 1));
    layers(n, 0, n);
    graph_end();
}

/* One hyperedge to all other nodes, each of which has one without targets: two rounds, while the search takes the long one again and
 * again. */
static void fan(uint32_t n)
{
    graph_start(n, n);
    edge(0, n - 1);
    for (uint32_t v = 1; v < n; v++)
        target(v);
    for (uint32_t v = 1; v < n; v++)
        edge(v, 0);
    graph_end();
}

static const struct {
    const char *name;
    uint32_t most; /* nodes; the other sizes are a half, a quarter and an eighth */
    void (*make)(uint32_t);
} table[] = {
    {"yes, near the root", 4000, near_yes}, {"no, near the root", 4000, near_no},
    {"a chain", 4000, chain},               {"a chain of 2^k nodes", 4096, chain},
    {"a chain without its end", 4000, broken_chain},
    {"a ladder", 4000, ladder},             {"wide", 4000, wide},
    {"wide, nothing found", 4000, wide_lost}, {"a fan of one hyperedge", 4000, fan},
};

/* How many edges the search takes at most: the root's, and for every target place of every hyperedge one more than the target has. */
static uint64_t limit(uint32_t n)
{
    uint64_t most = 0;
    uint32_t *degrees = calloc(n, sizeof *degrees);
    for (int pass = 0; pass < 2; pass++)
        for (const uint8_t *p = message + 14; p < message + length;) {
            uint32_t targets = p[2] * 256u + p[3];
            if (pass == 0)
                degrees[p[0] * 256u + p[1]]++;
            p += 4;
            for (uint32_t i = 0; i < targets; i++, p += 6)
                most += pass ? degrees[p[4] * 256u + p[5]] + 1 : 0;
        }
    most += degrees[ROOT];
    free(degrees);
    return most;
}

/* ---- versions */

enum { A, B_GCC, B_CLANG, ROUNDS, VERSIONS };

struct answer {
    uint32_t number, yes;
    uint64_t count;
};

static void run(int version, struct answer *out)
{
    uint8_t verdict;
    uint32_t rounds;
    size_t offset;
    switch (version) {
    case A:
        out->number = otzarvim_search(message, length, ROOT, words, WORDS, &verdict, &out->count, &offset);
        out->yes = verdict == OTZARVIM_YES;
        break;
    case B_GCC: out->yes = gcc_search(message, length, ROOT, &out->count); break;
    case B_CLANG: out->yes = clang_search(message, length, ROOT, &out->count); break;
    case ROUNDS:
        out->number = otzarvim_rounds_solve(message, length, UINT32_MAX, room, OTZARVIM_MOST_VALUES, &rounds, &offset);
        out->yes = room[ROOT] == 0;
        out->count = rounds;
    }
}

static void differ(const char *name, const char *what)
{
    fprintf(stderr, "%s: %s\n", name, what);
    exit(1);
}

static void compare(const char *name, struct answer *answers)
{
    memset(answers, 0, VERSIONS * sizeof *answers);
    for (int v = A; v < VERSIONS; v++) {
        run(v, &answers[v]);
        if (answers[v].number != 0)
            differ(name, "refused");
        if (answers[v].yes != answers[A].yes)
            differ(name, "another answer");
        if (v != ROUNDS && answers[v].count != answers[A].count)
            differ(name, "another count");
    }
    for (uint32_t i = 0; i < WORDS; i++)
        if (words[i] != 0)
            differ(name, "a word is left");
}

/* ---- measuring */

static void call(int version)
{
    struct answer answer;
    run(version, &answer);
}

int main(int argc, char **argv)
{
    double turn = argc > 1 ? atof(argv[1]) : 0.02;
    int turns = argc > 2 ? atoi(argv[2]) : 7;
    const char *only = argc > 3 ? argv[3] : "";
    message = malloc(MESSAGE), words = calloc(WORDS, sizeof *words), room = malloc(OTZARVIM_MOST_VALUES * sizeof *room);
    printf("| search | nodes | bytes | answer | edges taken | at most | rounds | (a) µs | (b) µs | rounds, µs | a/b | a/rounds |\n");
    printf("|---|---|---|---|---|---|---|---|---|---|---|---|\n");
    for (size_t i = 0; i < sizeof table / sizeof *table; i++) {
        if (!strstr(table[i].name, only))
            continue;
        for (uint32_t part = 8; part >= 1; part /= 2) {
            struct answer answers[VERSIONS];
            double best[VERSIONS];
            uint32_t size = table[i].most / part;
            table[i].make(size);
            compare(table[i].name, answers);
            if (answers[A].count > limit(size))
                differ(table[i].name, "a count above its limit");
            least(VERSIONS, call, turn, turns, best);
            int gcc = best[B_GCC] < best[B_CLANG];
            double b = best[gcc ? B_GCC : B_CLANG];
            printf("| %s | %u | %llu | %s | %llu | %llu | %llu | %.2f | %.2f (%s) | %.2f | %.2f | %.2f |\n", part == 8 ? table[i].name : "", size,
                   (unsigned long long)length, answers[A].yes ? "yes" : "no", (unsigned long long)answers[A].count,
                   (unsigned long long)limit(size), (unsigned long long)answers[ROUNDS].count, best[A] * 1e6, b * 1e6, gcc ? "gcc" : "clang", best[ROUNDS] * 1e6, best[A] / b,
                   best[A] / best[ROUNDS]);
            fflush(stdout);
        }
    }
    return 0;
}
