/* Measures the library (a) beside plain C (b), plain Rust (c), C that decodes first (d), plain C that skips as the library's rounds do (e),
 * and plain C and Rust that check a question as the library does (f, g), in one run, on the same inputs; all answers are compared, so that
 * no version is fast by being wrong. A workload is a row of the table below. */
#include "inputs.h"
#include "measure.h"
#include "otzarvim.h"
#include "plain.h"

#include <stdio.h>
#include <stdlib.h>
#include <string.h>

DECLARE(gcc_)
DECLARE(clang_)
DECLARE(rust_)
DECLARE(dgcc_)
DECLARE(dclang_)
DECLARE(sgcc_)
DECLARE(sclang_)

/* ---- inputs */

enum { MESSAGE = 4 << 20, ROOM = 2 * 4096 };

struct input {
    uint8_t *message, *formula; /* a graph; or a model and a formula; or a formula alone in message */
    uint64_t length, formula_length;
    uint32_t budget, propositions, state;
};

static void graph_start(struct input *in, uint32_t n, uint32_t h, uint32_t c)
{
    start(in->message, 1);
    put(n, 2), put(h, 4), put(c, 2);
}

/* Node i has one hyperedge, to i + 1, and the last has one without targets: as many rounds as nodes. */
static void chain(struct input *in, uint32_t n)
{
    graph_start(in, n, n, 0);
    for (uint32_t i = 0; i + 1 < n; i++)
        put(i, 2), put(1, 2), put(i % 7, 4), put(i + 1, 2);
    put(n - 1, 2), put(0, 2);
    in->length = finish(in->message);
    in->budget = n;
}

/* The same with cover edges without bound. */
static void covers(struct input *in, uint32_t n)
{
    graph_start(in, n, 1, n - 1);
    put(n - 1, 2), put(0, 2);
    for (uint32_t i = 0; i + 1 < n; i++)
        put(i, 2), put(i % 2 ? UINT32_MAX : i, 4), put(i + 1, 2);
    in->length = finish(in->message);
    in->budget = n;
}

/* 16 hyperedges to a node but one, 4 targets to a hyperedge, of nodes a little further on; as many cover edges as nodes. */
static void full(struct input *in, uint32_t n, uint32_t reach)
{
    uint32_t h = 16 * n - 1;
    graph_start(in, n, h, n);
    for (uint32_t k = 0; k < h; k++) {
        uint32_t source = k / 16, left = n - 1 - source;
        if (left == 0) {
            put(source, 2), put(0, 2);
            continue;
        }
        uint32_t targets = k + 1 < 16 && n > 1 ? 5 : 4; /* the last node's hyperedges have none: their targets go to the first */
        put(source, 2), put(targets, 2);
        for (uint32_t j = 0; j < targets; j++)
            put(draw(1000), 4), put(source + 1 + draw(left < reach ? left : reach), 2);
    }
    for (uint32_t i = 0; i < n; i++)
        put(i, 2), put(draw(3), 4), put(draw(n), 2);
    in->length = finish(in->message);
}

/* Far targets: few rounds. */
static void wide(struct input *in, uint32_t n)
{
    seed = 1;
    full(in, n, n);
    in->budget = 1u << 20;
}

/* Near targets: many rounds, of which the budget allows 48. */
static void ladder(struct input *in, uint32_t n)
{
    seed = 2;
    full(in, n, 4);
    in->budget = 48;
}

/* 24 hyperedges of node 0 whose targets are the last node and then all others, and a chain that changes a node in each round. Lost: the
 * last node has nothing, so each of the long ones is lost at its first target. Found: it has 0, and every node is heavy at first, so
 * that no target is infinite after round 2. The budget allows 48 rounds. */
static void longs(struct input *in, uint32_t n, int lost)
{
    graph_start(in, n, 24 + (n - 2) * (lost ? 1 : 2) + 1, 0);
    for (uint32_t k = 0; k < 24; k++) {
        put(0, 2), put(n - 1, 2);
        for (uint32_t j = 1; j < n; j++)
            put(k + j, 4), put(n - j, 2);
    }
    for (uint32_t i = 1; i + 1 < n; i++) {
        if (!lost)
            put(i, 2), put(1, 2), put(1000 * (n - i), 4), put(n - 1, 2);
        uint32_t ends = lost && i + 2 == n;
        put(i, 2), put(ends ? 0 : 1, 2);
        if (!ends)
            put(1, 4), put(i + 1, 2);
    }
    put(n - 1, 2), put(lost ? 1 : 0, 2);
    if (lost)
        put(0, 4), put(n - 1, 2);
    in->length = finish(in->message);
    in->budget = 48;
}

static void lost(struct input *in, uint32_t n)
{
    longs(in, n, 1);
}

static void never_lost(struct input *in, uint32_t n)
{
    longs(in, n, 0);
}

/* Where a model's labels, weights and successors are drawn from. */
static uint32_t model_seed = 3;

static void model(struct input *in, uint32_t s, uint32_t t)
{
    start(in->message, 2);
    put(s, 2), put(32, 1), put(t, 4);
    seed = model_seed;
    for (uint32_t i = 0; i < s; i++)
        put(draw(1u << 24) * 256 + draw(256), 4);
    for (uint32_t i = 0; i < t; i++)
        put((uint32_t)((uint64_t)i * s / t), 2), put(draw(100), 4), put(i % 4, 2), put(draw(s), 2);
    in->length = finish(in->message);
}

static void models(struct input *in, uint32_t t)
{
    model(in, 256, t);
}

/* A comb of untils, nexts and, or. */
static void formulas(struct input *in, uint32_t f)
{
    start(in->message, 3);
    put(f, 1);
    rows = 0;
    row(2, 0, 0, 0);
    while (rows + 2 <= f) {
        uint32_t operator = 4 + rows % 8, left = rows - 1;
        if (operator == 6 || operator == 7 || operator >= 10) {
            row(operator, left, operator < 10 ? 0 : 100 + rows, rows);
            continue;
        }
        row(2 + rows % 2, rows % 32, 0, 0);
        row(operator, left, rows - 1, operator < 6 ? 0 : UINT32_MAX);
    }
    if (rows < f)
        row(6, rows - 1, 0, 7);
    in->length = finish(in->message);
    in->propositions = 32;
}

/* A model, and A[AX<=50 p0 U<=500 A[p1 U p2]], whose graph has three targets to a transition. */
static void question(struct input *in, uint32_t t)
{
    model(in, 256, t);
    start(in->formula, 3);
    put(6, 1);
    row(2, 0, 0, 0), row(7, 0, 0, 50), row(2, 1, 0, 0), row(2, 2, 0, 0), row(9, 2, 3, UINT32_MAX), row(9, 1, 4, 500);
    in->formula_length = finish(in->formula);
    in->budget = 1u << 20;
    in->propositions = 32;
    in->state = 7;
}

/* The same with AX and EX of actions, each of which a fourth of the transitions has: A[AX#1<=50 p0 U<=500 EX#2 A[p1 U p2]]. */
static void question_of_actions(struct input *in, uint32_t t)
{
    question(in, t);
    start(in->formula, 3);
    put(7, 1);
    row(2, 0, 0, 0), row(11, 0, 1, 50), row(2, 1, 0, 0), row(2, 2, 0, 0), row(9, 2, 3, UINT32_MAX), row(10, 4, 2, UINT32_MAX), row(9, 1, 5, 500);
    in->formula_length = finish(in->formula);
}

/* Examples like those of the paper's source, cut after so many states, and its formulas. */
static void asked(struct input *in, const struct system *system, uint32_t s)
{
    in->length = explore(system, in->message, s);
    in->budget = UINT32_MAX;
    in->propositions = system->propositions;
}

static void one_leader(struct input *in, uint32_t s)
{
    asked(in, &leader, s);
    in->formula_length = reached(in->formula, 0, 200);
}

static void two_leaders(struct input *in, uint32_t s)
{
    asked(in, &leader, s);
    in->formula_length = reached(in->formula, 1, 200);
}

static void delivered(struct input *in, uint32_t s)
{
    asked(in, &bit, s);
    in->formula_length = reached(in->formula, 0, 10);
}

static void two_bits(struct input *in, uint32_t s)
{
    asked(in, &bit, s);
    in->formula_length = out_of_step(in->formula, 20);
}

static void schedule(struct input *in, uint32_t s)
{
    asked(in, &task, s);
    in->formula_length = planned(in->formula, 90, 80);
}

static void short_schedule(struct input *in, uint32_t s)
{
    asked(in, &task, s);
    in->formula_length = planned(in->formula, 5, 10);
}

/* ---- answers */

struct answer {
    uint32_t number, count, yes;
    uint64_t length;
    uint64_t *room;
    uint8_t *graph;
};

static uint32_t counts[3];
static size_t offset;

enum { A, B_GCC, B_CLANG, C, D_GCC, D_CLANG, E_GCC, E_CLANG, F_GCC, F_CLANG, G, VERSIONS };

/* What a workload is measured with: the first so many versions. (e) has rounds of its own, (f) and (g) are verdicts. */
enum { CHECKS = D_CLANG + 1, ROUNDS = E_CLANG + 1, VERDICTS = VERSIONS };

#define VERSIONED(call)                     \
    switch (v) {                            \
    case B_GCC: { call(gcc_) } break;       \
    case B_CLANG: { call(clang_) } break;   \
    case C: { call(rust_) } break;          \
    case D_GCC: { call(dgcc_) } break;      \
    case D_CLANG: { call(dclang_) } break;  \
    case E_GCC: { call(sgcc_) } break;      \
    case E_CLANG: { call(sclang_) } break;  \
    }

static void run_rounds(int v, const struct input *in, struct answer *out)
{
    if (v == A)
        out->number = otzarvim_rounds_solve(in->message, in->length, in->budget, out->room, ROOM, &out->count, &offset);
#define CALL(p) out->number = PASTE(p, rounds)(in->message, in->length, in->budget, out->room, &out->count);
    VERSIONED(CALL)
#undef CALL
}

static void run_graph(int v, const struct input *in, struct answer *out)
{
    if (v == A)
        out->number = otzarvim_graph_check(in->message, in->length, counts, &offset);
#define CALL(p) out->number = PASTE(p, graph_check)(in->message, in->length);
    VERSIONED(CALL)
#undef CALL
}

static void run_model(int v, const struct input *in, struct answer *out)
{
    if (v == A)
        out->number = otzarvim_model_check(in->message, in->length, counts, &offset);
#define CALL(p) out->number = PASTE(p, model_check)(in->message, in->length);
    VERSIONED(CALL)
#undef CALL
}

static void run_formula(int v, const struct input *in, struct answer *out)
{
    if (v == A)
        out->number = otzarvim_formula_check(in->message, in->length, in->propositions, counts, &offset);
#define CALL(p) out->number = PASTE(p, formula_check)(in->message, in->length, in->propositions);
    VERSIONED(CALL)
#undef CALL
}

static void build(int v, const struct input *in, struct answer *out)
{
    if (v == A) {
        size_t length;
        out->number = otzarvim_graph(in->message, in->length, in->formula, in->formula_length, out->graph, MESSAGE, &length, &offset);
        out->length = length;
        return;
    }
#define CALL(p) out->length = PASTE(p, build)(in->message, in->length, in->formula, in->formula_length, out->graph);
    VERSIONED(CALL)
#undef CALL
}

static void run_build(int v, const struct input *in, struct answer *out) { build(v, in, out); }

/* The library always checks both messages; here the others do so too. */
static void run_checked_build(int v, const struct input *in, struct answer *out)
{
#define CALL(p)                                                                                          \
    out->number = PASTE(p, model_check)(in->message, in->length);                                        \
    if (out->number == 0)                                                                                \
        out->number = PASTE(p, formula_check)(in->formula, in->formula_length, in->propositions);
    VERSIONED(CALL)
#undef CALL
    if (out->number == 0)
        build(v, in, out);
}

static void run_verdict(int v, const struct input *in, struct answer *out)
{
    if (v == A) {
        uint8_t verdict = 0;
        size_t length = 0;
        out->number = otzarvim_verdict(in->message, in->length, in->formula, in->formula_length, in->state, in->budget, out->graph,
                                       MESSAGE, out->room, ROOM, &verdict, &out->count, &length, &offset);
        out->yes = verdict == OTZARVIM_YES;
        out->length = length;
        return;
    }
#define CALL(p)                                                                                                          \
    out->number = PASTE(p, verdict)(in->message, in->length, in->formula, in->formula_length, in->state, in->budget,     \
                                    out->graph, out->room, &out->count, &out->yes);
    VERSIONED(CALL)
#undef CALL
#define CALL(p)                                                                                                          \
    out->number = PASTE(p, checked_verdict)(in->message, in->length, in->formula, in->formula_length, in->state, in->budget, \
                                            out->graph, MESSAGE, out->room, ROOM, &out->count, &out->yes);
    switch (v) {
    case F_GCC: CALL(gcc_) break;
    case F_CLANG: CALL(clang_) break;
    case G: CALL(rust_) break;
    }
#undef CALL
    uint32_t length;
    memcpy(&length, out->graph, 4);
    out->length = __builtin_bswap32(length);
}

/* ---- the table */

static const struct workload {
    const char *name;
    const char *unit;                        /* what the size counts */
    uint32_t most;                           /* the largest size; the others are a half, a quarter and an eighth */
    void (*make)(struct input *, uint32_t);
    void (*run)(int version, const struct input *, struct answer *);
    int versions;                            /* how many */
    int faults;                              /* some versions answer for messages with a fault too */
    int others;                              /* each call has another model than the one before */
} table[] = {
    {"rounds: a chain", "nodes", 4096, chain, run_rounds, ROUNDS, 0, 0},
    {"rounds: cover edges", "nodes", 4096, covers, run_rounds, ROUNDS, 0, 0},
    {"rounds: wide", "nodes", 4096, wide, run_rounds, ROUNDS, 0, 0},
    {"rounds: a ladder, 48 rounds", "nodes", 4096, ladder, run_rounds, ROUNDS, 0, 0},
    {"rounds: long hyperedges, lost", "nodes", 4096, lost, run_rounds, ROUNDS, 0, 0},
    {"rounds: long hyperedges, never lost", "nodes", 4096, never_lost, run_rounds, ROUNDS, 0, 0},
    {"check of a graph", "nodes", 4096, wide, run_graph, CHECKS, 1, 0},
    {"check of a model", "transitions", 65535, models, run_model, CHECKS, 1, 0},
    {"check of a formula", "rows", 64, formulas, run_formula, CHECKS, 1, 0},
    {"the graph of a model", "transitions", 65535, question, run_build, CHECKS, 0, 0},
    {"the graph of a model, messages checked", "transitions", 65535, question, run_checked_build, CHECKS, 0, 0},
    {"the graph of a model, of actions", "transitions", 65535, question_of_actions, run_build, CHECKS, 0, 0},
    {"the graph of a model, another in each call", "transitions", 65535, question, run_build, CHECKS, 0, 1},
    {"the graph of a model, of actions, another in each call", "transitions", 65535, question_of_actions, run_build, CHECKS, 0, 1},
    {"verdict: a large model", "transitions", 65535, question, run_verdict, VERDICTS, 1, 0},
    {"verdict: a large model, another in each call", "transitions", 65535, question, run_verdict, VERDICTS, 0, 1},
    {"verdict: leader election", "states", 256, one_leader, run_verdict, VERDICTS, 1, 0},
    {"verdict: two leaders", "states", 256, two_leaders, run_verdict, VERDICTS, 1, 0},
    {"verdict: alternating bit", "states", 256, delivered, run_verdict, VERDICTS, 1, 0},
    {"verdict: alternating bit, out of step", "states", 256, two_bits, run_verdict, VERDICTS, 1, 0},
    {"verdict: task graph", "states", 256, schedule, run_verdict, VERDICTS, 1, 0},
    {"verdict: task graph, too soon", "states", 256, short_schedule, run_verdict, VERDICTS, 1, 0},
};

/* ---- measuring */

static struct input in;
static struct answer answers[VERSIONS];

/* Models that are asked by turns, as many as have so many transitions together: a processor that sees one message again and again learns by
 * heart which of its weights are too large, and jumps as if it knew. */
enum { BY_TURNS = 131072, MOST_BY_TURNS = 16 };

static struct input by_turns[MOST_BY_TURNS];
static uint32_t many_by_turns, next_by_turns;

static void make_others(const struct workload *w, uint32_t size)
{
    many_by_turns = w->others ? BY_TURNS / size : 1;
    next_by_turns = 0;
    for (uint32_t k = 1; k < many_by_turns; k++) {
        struct input *other = &by_turns[k];
        memset(&other->length, 0, sizeof *other - offsetof(struct input, length));
        model_seed = 3 + k;
        w->make(other, size);
    }
    model_seed = 3;
    by_turns[0] = in;
}

/* Runs every version once on a message, and compares. */
static void compare(const struct workload *w, const struct input *one)
{
    for (int v = A; v < w->versions; v++) {
        memset(answers[v].room, 0xa5, ROOM * sizeof(uint64_t));
        memset(answers[v].graph, 0xa5, MESSAGE);
        answers[v].number = answers[v].count = answers[v].yes = 0;
        answers[v].length = 0;
        w->run(v, one, &answers[v]);
        const struct answer *x = &answers[A], *y = &answers[v];
        if (x->number != y->number || x->count != y->count || x->yes != y->yes || x->length != y->length ||
            memcmp(x->room, y->room, ROOM * sizeof(uint64_t)) || memcmp(x->graph, y->graph, MESSAGE)) {
            fprintf(stderr, "%s: version %d answers something else: %u %u %u %llu, and not %u %u %u %llu\n", w->name, v, y->number,
                    y->count, y->yes, (unsigned long long)y->length, x->number, x->count, x->yes, (unsigned long long)x->length);
            exit(1);
        }
    }
}

/* Of messages that may have a fault the library answers, and of the others (b) and (c) in checks, (f) and (g) in verdicts. (d) decodes
 * before it checks, and may find another fault first. */
static int finds_faults(const struct workload *w, int v)
{
    return v == A || (w->versions == VERDICTS ? v >= F_GCC : v <= C);
}

/* A byte of the messages, the first ones more often. */
static uint8_t *drawn_byte(uint32_t i)
{
    uint8_t *message = in.formula_length && i % 5 == 0 ? in.formula : in.message;
    uint64_t length = message == in.formula ? in.formula_length : in.length;
    return message + (i % 2 ? draw((uint32_t)length) : draw(16));
}

/* Spoils small messages in a thousand ways, one byte at a time, and compares the answers of the versions that find faults. */
static long spoil(const struct workload *w)
{
    long refused = 0;
    w->make(&in, w->most / 64 > 8 ? w->most / 64 : 8);
    for (uint32_t i = 0; i < 1000; i++) {
        uint8_t *byte = drawn_byte(i), kept = *byte;
        *byte = (uint8_t)(i % 3 ? draw(256) : kept + 1u);
        for (int v = A; v < w->versions; v++) {
            if (!finds_faults(w, v))
                continue;
            const struct answer *x = &answers[A], *y = &answers[v];
            answers[v].number = 99, answers[v].count = answers[v].yes = 0;
            w->run(v, &in, &answers[v]);
            if (y->number != x->number || y->count != x->count || y->yes != x->yes) {
                fprintf(stderr, "%s: version %d answers %u %u %u, and not %u %u %u, spoiled in way %u\n", w->name, v, y->number, y->count, y->yes,
                        x->number, x->count, x->yes, i);
                exit(1);
            }
        }
        refused += answers[A].number > 1;
        *byte = kept;
    }
    return refused;
}

static const struct workload *measured;

static void call(int version)
{
    if (++next_by_turns >= many_by_turns)
        next_by_turns = 0;
    measured->run(version, &by_turns[next_by_turns], &answers[version]);
}

/* ---- the columns: a version by both compilers, of which the better counts, or by one */

enum { COLUMNS = 7 };

static const int by_gcc[COLUMNS] = {A, B_GCC, C, D_GCC, E_GCC, F_GCC, G}, by_clang[COLUMNS] = {A, B_CLANG, C, D_CLANG, E_CLANG, F_CLANG, G};

/* The time of a column; 0 where the workload has none. */
static double column(const struct workload *w, const double *best, int k)
{
    if (by_gcc[k] >= w->versions)
        return 0;
    return best[by_gcc[k]] < best[by_clang[k]] ? best[by_gcc[k]] : best[by_clang[k]];
}

/* The most that the library's time may be of a column's; 0 where there is no goal. What plain versions that check nothing do in one round is
 * another job; beside decoded arrays there is no goal for verdicts. */
static double goal(const struct workload *w, uint32_t rounds, int k)
{
    int verdict = w->versions == VERDICTS, one = verdict && rounds <= 1;
    const double goals[COLUMNS] = {0, one ? 0 : 1, one ? 0 : 1, verdict ? 0 : 1.2, 1.1, one ? 1.2 : 0, one ? 1.2 : 0};
    return goals[k];
}

static void print_row(const struct workload *w, int first, uint32_t size, const double *best)
{
    printf("| %s | %u %s | %llu | %u |", first ? w->name : "", size, w->unit, (unsigned long long)in.length, answers[A].count);
    for (int k = 0; k < COLUMNS; k++) {
        double time = column(w, best, k);
        const char *compiler = by_gcc[k] == by_clang[k] ? "" : best[by_gcc[k]] < best[by_clang[k]] ? " (gcc)" : " (clang)";
        if (time == 0)
            printf(" |");
        else
            printf(" %.2f%s |", time * 1e6, compiler);
    }
    for (int k = 1; k < COLUMNS; k++)
        if (column(w, best, k) == 0)
            printf(" |");
        else
            printf(" %.2f |", best[A] / column(w, best, k));
}

/* Measures a workload at its sizes, and keeps the largest ratio to each column that is above its goal. */
static void measure(const struct workload *w, double turn, int turns, double *above)
{
    double last[COLUMNS] = {0};
    measured = w;
    for (uint32_t part = 8; part >= 1; part /= 2) {
        uint32_t size = (w->most + part - 1) / part;
        double best[VERSIONS];
        memset(&in.length, 0, sizeof in - offsetof(struct input, length));
        w->make(&in, size);
        make_others(w, size);
        for (uint32_t k = many_by_turns; k-- > 0;)
            compare(w, &by_turns[k]);
        least(w->versions, call, turn, turns, best);
        print_row(w, part == 8, size, best);
        if (last[0] == 0)
            printf(" |\n");
        else
            printf(" %.2f, %.2f, %.2f |\n", best[A] / last[0], column(w, best, 1) / last[1], column(w, best, 3) / last[3]);
        fflush(stdout);
        for (int k = 0; k < COLUMNS; k++) {
            last[k] = column(w, best, k);
            double most = goal(w, answers[A].count, k), ratio = last[k] > 0 ? best[A] / last[k] : 0;
            if (most > 0 && ratio > most && ratio > above[k])
                above[k] = ratio;
        }
    }
}

/* The workloads with a ratio above its goal, with the largest. */
static void list_above(const struct workload *w, const double *above, char *list, size_t room)
{
    int any = 0;
    for (int k = 1; k < COLUMNS; k++) {
        size_t used = strlen(list);
        if (above[k] > 0)
            snprintf(list + used, room - used, "%s%s%sa/%c %.2f", any ? ", " : *list ? "; " : "", any ? "" : w->name, any ? "" : ", ", 'a' + k, above[k]), any = 1;
    }
}

/* How long the first calls on a model take, one after another, each the mean over some models: what a processor learns of a message that it
 * sees again. Before them the version builds another model as often, and the new one is read through once. */
enum { NEW_MODELS = 20, CALLS_ON_ONE = 20, LEARNT_SIZE = 32768 };

static void print_learning(void)
{
    static const int versions[] = {A, B_GCC, B_CLANG, C}, shown[] = {1, 2, 3, 5, 10, 20};
    static const char *names[] = {"(a)", "(b), gcc", "(b), clang", "(c)"};
    struct input *known = &by_turns[1], *unseen = &by_turns[2];
    printf("\nThe graph of a model of %d transitions, the n-th call on it, in microseconds:\n\n| version | 1 | 2 | 3 | 5 | 10 | 20 |\n|---|---|---|---|---|---|---|\n", LEARNT_SIZE);
    for (int k = 0; k < 4; k++) {
        double spent[CALLS_ON_ONE] = {0};
        for (uint32_t i = 0; i < NEW_MODELS; i++) {
            model_seed = 100 + 2 * i, question(known, LEARNT_SIZE);
            model_seed = 101 + 2 * i, question(unseen, LEARNT_SIZE);
            for (int n = 0; n < CALLS_ON_ONE; n++)
                run_build(versions[k], known, &answers[0]);
            run_model(A, unseen, &answers[0]);
            for (int n = 0; n < CALLS_ON_ONE; n++) {
                double from = seconds();
                run_build(versions[k], unseen, &answers[0]);
                spent[n] += seconds() - from;
            }
        }
        printf("| %s |", names[k]);
        for (size_t n = 0; n < sizeof shown / sizeof *shown; n++)
            printf(" %.1f |", spent[shown[n] - 1] / NEW_MODELS * 1e6);
        printf("\n");
    }
    model_seed = 3;
}

int main(int argc, char **argv)
{
    double turn = argc > 1 ? atof(argv[1]) : 0.02;
    int turns = argc > 2 ? atoi(argv[2]) : 7;
    const char *only = argc > 3 ? argv[3] : "";
    in.message = malloc(MESSAGE);
    in.formula = malloc(1024);
    for (int k = 1; k < MOST_BY_TURNS; k++)
        by_turns[k].message = malloc(MESSAGE), by_turns[k].formula = malloc(1024);
    for (int v = 0; v < VERSIONS; v++) {
        answers[v].room = malloc(ROOM * sizeof(uint64_t));
        answers[v].graph = malloc(MESSAGE);
    }
    printf("| workload | size | bytes | rounds | (a) µs | (b) µs | (c) µs | (d) µs | (e) µs | (f) µs | (g) µs ");
    printf("| a/b | a/c | a/d | a/e | a/f | a/g | growth of a, b, d |\n|---|---|---|---|---|---|---|---|---|---|---|---|---|---|---|---|---|---|\n");
    static char list[8192];
    long refused = 0;
    for (size_t i = 0; i < sizeof table / sizeof *table; i++) {
        const struct workload *w = &table[i];
        if (!strstr(w->name, only))
            continue;
        double above[COLUMNS] = {0};
        memset(&in.length, 0, sizeof in - offsetof(struct input, length));
        if (w->faults)
            refused += spoil(w);
        measure(w, turn, turns, above);
        list_above(w, above, list, sizeof list);
    }
    printf("\nAll versions gave the same answers; (a), (b) and (c), and of verdicts (a), (f) and (g), also on %ld messages with a fault.\n\n", refused);
    printf("Goals, at every size: rounds, checks and the builder at most 1.00 of (b) and (c) and 1.20 of (d); verdicts of more than one round 1.00 of (b) "
           "and (c), of one round 1.20 of (f) and (g); 1.10 of (e). Above, with the largest ratio: %s.\n", *list ? list : "none");
    if (strstr("the graph of a model, another in each call", only))
        print_learning();
    return 0;
}
