/* How much stack each exported function touches: it is run on a stack of its own that was painted before, on the inputs that need
 * the most, and the lowest byte that changed is looked for. What an empty function touches there is taken off. */
#include "inputs.h"
#include "otzarvim.h"

#include <stdio.h>
#include <stdlib.h>
#include <string.h>
#include <ucontext.h>

enum { STACK = 1 << 18, PAINT = 0xa5 };

static _Alignas(64) uint8_t stack[STACK];
static ucontext_t home, away;

/* Runs a function on the painted stack; returns how many bytes of it changed, from the top to the lowest. */
static size_t touched(void (*f)(void))
{
    memset(stack, PAINT, STACK);
    getcontext(&away);
    away.uc_stack.ss_sp = stack;
    away.uc_stack.ss_size = STACK;
    away.uc_link = &home;
    makecontext(&away, f, 0);
    swapcontext(&home, &away);
    size_t low = 0;
    while (low < STACK && stack[low] == PAINT)
        low++;
    if (low == 0) {
        fprintf(stderr, "the stack is too small\n");
        exit(1);
    }
    return STACK - low;
}

static uint8_t graph[1 << 20], plain[1 << 20], deep[1 << 20], linked[1 << 20], model[1 << 20], ring[1 << 13], formula[1024], asked[1024], text[4096];
static uint8_t built[OTZARVIM_MOST_GRAPH], claims[OTZARVIM_CLAIM * OTZARVIM_MOST_NODES];
static size_t graph_length, plain_length, deep_length, linked_length, model_length, ring_length, formula_length, asked_length, length, offset;
static uint64_t room[8 * OTZARVIM_MOST_NODES], taken;
static otzarvim_tally tally, longest;
static uint32_t words[1 << 17];
static uint32_t counts[3], count, states[2];
static uint8_t number, verdict;

/* A chain of so many nodes, of which the first ones have cover edges that lie on no cycle. */
static size_t acyclic(uint8_t *message, uint32_t nodes, uint32_t covers)
{
    start(message, 1);
    put(nodes, 2), put(nodes, 4), put(covers, 2);
    for (uint32_t i = 0; i + 1 < nodes; i++)
        put(i, 2), put(1, 2), put(i, 4), put(i + 1, 2);
    put(nodes - 1, 2), put(0, 2);
    for (uint32_t i = 0; i < covers; i++)
        put(i, 2), put(i, 4), put(i + 1, 2);
    return finish(message);
}

/* A chain of nodes with cover edges, one for the search that ends, one whose cover edges lie on no cycle and a
 * shorter one, small enough to be linked; a model with every count at its limit and a ring of states, whose graph is linked; 64 rows, each an operand of the next, with actions of three digits and bounds of ten, and a formula with untils within an until, EX and AX, whose
 * graph is large; and a tally whose report is the longest. */
static void inputs(void)
{
    start(graph, 1);
    put(4096, 2), put(4096, 4), put(4096, 2);
    for (uint32_t i = 0; i < 4096; i++)
        put(i, 2), put(1, 2), put(i, 4), put((i + 1) % 4096, 2);
    for (uint32_t i = 0; i < 4096; i++)
        put(i, 2), put(i, 4), put(i, 2);
    graph_length = finish(graph);
    start(plain, 1);
    put(4096, 2), put(4096, 4), put(0, 2);
    for (uint32_t i = 0; i < 4095; i++)
        put(i, 2), put(1, 2), put(0, 4), put(i + 1, 2);
    put(4095, 2), put(0, 2);
    plain_length = finish(plain);
    deep_length = acyclic(deep, 4096, 4095);
    linked_length = acyclic(linked, 3000, 1000);
    start(model, 2);
    put(256, 2), put(32, 1), put(65535, 4);
    for (uint32_t i = 0; i < 256; i++)
        put(i, 4);
    for (uint32_t i = 0; i < 65535; i++)
        transition(i / 256, i, i % 512, i % 256);
    model_length = finish(model);
    start(ring, 2);
    put(256, 2), put(32, 1), put(256, 4);
    for (uint32_t i = 0; i < 256; i++)
        put(i, 4);
    for (uint32_t i = 0; i < 256; i++)
        transition(i, 1, 7, (i + 1) % 256);
    ring_length = finish(ring);
    start(formula, 3);
    put(64, 1);
    row(2, 31, 0, 0);
    for (uint32_t i = 1; i < 64; i++)
        row(10 + i % 2, i - 1, 255, 4294967294u);
    formula_length = finish(formula);
    start(asked, 3);
    put(9, 1);
    row(2, 0, 0, 0), row(7, 0, 0, UINT32_MAX), row(2, 1, 0, 0), row(10, 2, 7, 200), row(5, 1, 3, 0), row(3, 2, 0, 0);
    row(9, 4, 5, 1000), row(2, 3, 0, 0), row(9, 6, 7, UINT32_MAX);
    asked_length = finish(asked);
    memset(&longest, 0xff, sizeof longest);
}

static void nothing(void)
{
}

static void graph_check(void)
{
    number = otzarvim_graph_check(graph, graph_length, counts, &offset);
}

static void model_check(void)
{
    number = otzarvim_model_check(model, model_length, counts, &offset);
}

static void formula_check(void)
{
    number = otzarvim_formula_check(formula, formula_length, 32, &count, &offset);
}

static void rounds_solve(void)
{
    number = otzarvim_rounds_solve(graph, graph_length, 5, room, OTZARVIM_MOST_VALUES, &count, &offset);
    number |= otzarvim_rounds_solve(linked, linked_length, UINT32_MAX, room, OTZARVIM_MOST_VALUES, &count, &offset);
}

static void search(void)
{
    number = otzarvim_search(plain, plain_length, 0, words, sizeof words / sizeof *words, &verdict, &taken, &offset);
}

static void claims_write(void)
{
    number = otzarvim_claims_write(linked, linked_length, claims, sizeof claims, room, sizeof room / sizeof *room, &offset);
    number |= otzarvim_claims_write(deep, deep_length, claims, sizeof claims, room, sizeof room / sizeof *room, &offset);
}

/* Of the claims that were just written. */
static void claims_check(void)
{
    number = otzarvim_claims_check(deep, deep_length, claims, sizeof claims, &verdict, &offset);
}

static void tally_enter(void)
{
    number = otzarvim_tally_enter(&tally, OTZARVIM_OK, OTZARVIM_YES, UINT32_MAX);
}

/* All numbers at their end: the longest report. */
static void tally_report(void)
{
    number = otzarvim_tally_report(&longest, text, sizeof text, &length);
}

static void formula_text(void)
{
    number = otzarvim_formula_text(formula, formula_length, 32, text, sizeof text, &length, &offset);
}

static void decide(void)
{
    number = otzarvim_verdict(ring, ring_length, asked, asked_length, 255, 4096, built, sizeof built, room, OTZARVIM_MOST_VALUES, &verdict,
                              &count, &length, &offset);
    number |= otzarvim_verdict(model, model_length, asked, asked_length, 255, 5, built, sizeof built, room, OTZARVIM_MOST_VALUES, &verdict,
                              &count, &length, &offset);
}

static void build(void)
{
    number = otzarvim_graph(model, model_length, asked, asked_length, built, sizeof built, &length, &offset);
}

static void settle(void)
{
    number = otzarvim_settle(ring, ring_length, asked, asked_length, 4096, built, sizeof built, room, OTZARVIM_MOST_VALUES, &count, &length,
                             states, &offset);
    number |= otzarvim_settle(model, model_length, asked, asked_length, 5, built, sizeof built, room, OTZARVIM_MOST_VALUES, &count, &length,
                             states, &offset);
}

static const struct {
    const char *name;
    void (*run)(void);
} table[] = {
    {"otzarvim_graph_check", graph_check},
    {"otzarvim_model_check", model_check},
    {"otzarvim_formula_check", formula_check},
    {"otzarvim_rounds_solve", rounds_solve},
    {"otzarvim_search", search},
    {"otzarvim_claims_write", claims_write},
    {"otzarvim_claims_check", claims_check},
    {"otzarvim_formula_text", formula_text},
    {"otzarvim_verdict", decide},
    {"otzarvim_graph", build},
    {"otzarvim_settle", settle},
    {"otzarvim_tally_enter", tally_enter},
    {"otzarvim_tally_report", tally_report},
};

int main(void)
{
    inputs();
    size_t empty = touched(nothing);
    printf("| function | answer | bytes of stack |\n|---|---|---|\n");
    for (size_t i = 0; i < sizeof table / sizeof *table; i++) {
        table[i].run(); /* the linker binds memset and memcpy at their first call, which takes stack too */
        size_t all = touched(table[i].run);
        printf("| `%s` | %u | %zu |\n", table[i].name, number, all - empty);
    }
    return 0;
}
