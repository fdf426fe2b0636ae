/* Measures whole programs, start and end included: the proved one (a) beside plain ones (b), (c) and (d), on the same inputs; what they
 * write is compared. Words: how many turns, a part of a workload's name to run only that, a folder for inputs and outputs, a file
 * with a question, the words that run a program (an emulator, or none) up to `--`, and the programs: a, b by gcc, b by clang, c, d by gcc, d by clang. */
#include "inputs.h"

#include <fcntl.h>
#include <spawn.h>
#include <stdio.h>
#include <stdlib.h>
#include <string.h>
#include <sys/resource.h>
#include <sys/wait.h>
#include <unistd.h>

extern char **environ;

enum { PROGRAMS = 6, INPUT = 1 << 16 };

static uint8_t input[INPUT];
static size_t input_length;
static char in_path[4096], out_path[4096];

static void die(const char *what)
{
    fprintf(stderr, "start: %s\n", what);
    exit(1);
}

/* Runs a program on the input once; returns the processor time of it, in microseconds. */
static double once(char **words)
{
    posix_spawn_file_actions_t files;
    pid_t child;
    int status;
    struct rusage used;
    posix_spawn_file_actions_init(&files);
    posix_spawn_file_actions_addopen(&files, 0, in_path, O_RDONLY, 0);
    posix_spawn_file_actions_addopen(&files, 1, out_path, O_WRONLY | O_CREAT | O_TRUNC, 0600);
    if (posix_spawn(&child, words[0], &files, NULL, words, environ))
        die("a program can't be run");
    posix_spawn_file_actions_destroy(&files);
    if (wait4(child, &status, 0, &used) != child || status != 0)
        die("a program ended badly");
    return (double)(used.ru_utime.tv_sec + used.ru_stime.tv_sec) * 1e6 + (double)(used.ru_utime.tv_usec + used.ru_stime.tv_usec);
}

static size_t slurp(const char *path, uint8_t *to, size_t most)
{
    FILE *f = fopen(path, "rb");
    if (!f)
        die("a file can't be read");
    size_t n = fread(to, 1, most, f);
    fclose(f);
    return n;
}

/* A model, with its formula behind it. */
static void asked(const struct system *system, uint32_t states, uint64_t (*formula)(uint8_t *))
{
    input_length = explore(system, input, states);
    input_length += formula(input + input_length);
}

static uint64_t ask_leader(uint8_t *to) { return reached(to, 0, 200); }
static uint64_t ask_bits(uint8_t *to) { return out_of_step(to, 20); }
static uint64_t ask_plan(uint8_t *to) { return planned(to, 90, 80); }

static const struct workload {
    const char *name;
    const struct system *system; /* none: the file */
    uint32_t states;
    uint64_t (*formula)(uint8_t *);
} table[] = {
    {"program: the question of README.md", NULL, 5, NULL},
    {"program: leader election", &leader, 128, ask_leader},
    {"program: alternating bit, out of step", &bit, 128, ask_bits},
    {"program: task graph", &task, 256, ask_plan},
};

static double better(double x, double y)
{
    return x < y ? x : y;
}

int main(int argc, char **argv)
{
    int prefix = 5;
    while (prefix < argc && strcmp(argv[prefix], "--"))
        prefix++;
    if (argc - prefix - 1 != PROGRAMS)
        die("wrong words");
    int turns = atoi(argv[1]);
    snprintf(in_path, sizeof in_path, "%s/input", argv[3]);
    snprintf(out_path, sizeof out_path, "%s/output", argv[3]);

    char **words[PROGRAMS];
    for (int v = 0; v < PROGRAMS; v++) {
        words[v] = calloc((size_t)prefix, sizeof(char *));
        memcpy(words[v], argv + 5, (size_t)(prefix - 5) * sizeof(char *));
        words[v][prefix - 5] = argv[prefix + 1 + v];
    }

    printf("| workload | states | bytes | (a) µs | (b) µs | (c) µs | (d) µs | a/b | a/c | a/d |\n|---|---|---|---|---|---|---|---|---|---|\n");
    for (size_t i = 0; i < sizeof table / sizeof *table; i++) {
        const struct workload *w = &table[i];
        if (!strstr(w->name, argv[2]))
            continue;
        if (w->system)
            asked(w->system, w->states, w->formula);
        else
            input_length = slurp(argv[4], input, INPUT);
        FILE *f = fopen(in_path, "wb");
        if (!f || fwrite(input, 1, input_length, f) != input_length || fclose(f))
            die("the input can't be written");

        static uint8_t wrote[PROGRAMS][INPUT];
        size_t length[PROGRAMS];
        double best[PROGRAMS];
        for (int v = 0; v < PROGRAMS; v++) {
            best[v] = once(words[v]);
            length[v] = slurp(out_path, wrote[v], INPUT);
            if (length[v] != length[0] || memcmp(wrote[v], wrote[0], length[v]) || length[v] == 0 || !memcmp(wrote[v], "refused", 7)) {
                fprintf(stderr, "%s: program %d writes something else, or refuses\n", w->name, v);
                exit(1);
            }
        }
        for (int k = 0; k < turns; k++)
            for (int v = 0; v < PROGRAMS; v++)
                best[v] = better(best[v], once(words[v]));
        double b = better(best[1], best[2]), d = better(best[4], best[5]);
        printf("| %s | %u | %zu | %.0f | %.0f (%s) | %.0f | %.0f (%s) | %.2f | %.2f | %.2f |\n", w->name, w->states, input_length, best[0], b,
               best[1] < best[2] ? "gcc" : "clang", best[3], d, best[4] < best[5] ? "gcc" : "clang", best[0] / b, best[0] / best[3],
               best[0] / d);
        fflush(stdout);
    }
    return 0;
}
