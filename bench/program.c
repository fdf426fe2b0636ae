/* The program in plain C: what `otzarvim` does, by the functions of a plain version. P is the prefix of that version. Reads a model
 * and a formula from standard input, writes the formula's text, the count of rounds and each state's answer, or the
 * refusal's number alone: a plain version tells no offset. */
#include "plain.h"

#include <stdio.h>
#include <unistd.h>

DECLARE(P)

enum { INPUT = 8192, GRAPH = 65536 };

static u8 input[INPUT + 1], graph[4 << 20];
static u64 room[2 * 4096];
static char out[8192], *to = out;

static void put(const char *word)
{
    while (*word)
        *to++ = *word++;
}

static void put_number(u32 v)
{
    char digits[10];
    int k = 0;
    do
        digits[k++] = (char)('0' + v % 10);
    while (v /= 10);
    while (k)
        *to++ = digits[--k];
}

static void put_bound(u32 bound)
{
    if (bound != 0xffffffffu)
        put("<="), put_number(bound);
    put(" ");
}

static void put_row(const u8 *formula, u32 r)
{
    const u8 *row = formula + 7 + 8 * r;
    switch (row[0]) {
    case 0:
        put("true");
        break;
    case 1:
        put("false");
        break;
    case 3:
        put("!");
        /* fallthrough */
    case 2:
        put("p"), put_number(row[1]);
        break;
    case 4:
    case 5:
        put("("), put_row(formula, row[1]), put(row[0] == 4 ? " & " : " | "), put_row(formula, row[2]), put(")");
        break;
    case 6:
    case 7:
        put(row[0] == 6 ? "EX" : "AX"), put_bound(four(row + 4)), put_row(formula, row[1]);
        break;
    case 10:
    case 11:
        put(row[0] == 10 ? "EX#" : "AX#"), put_number(row[2]), put_bound(four(row + 4)), put_row(formula, row[1]);
        break;
    default:
        put(row[0] == 8 ? "E[" : "A["), put_row(formula, row[1]), put(" U"), put_bound(four(row + 4)), put_row(formula, row[2]), put("]");
    }
}

/* Answers; the number of a refusal. The input is so short that the graph fits into 4 MiB, and its nodes into 2 bytes. */
static u32 answer(u64 got)
{
    if (got > INPUT || got < 4 || four(input) > got)
        return 2;
    u64 length = four(input), rest = got - length;
    const u8 *formula = input + length;
    u32 e = PASTE(P, model_check)(input, length);
    if (e || (e = PASTE(P, formula_check)(formula, rest, input[8])))
        return e;
    u32 s = (u32)input[6] << 8 | input[7], f = formula[6], u = 0, m;
    for (u32 r = 0; r < f; r++)
        u += formula[7 + 8 * r] == 8 || formula[7 + 8 * r] == 9;
    if (s * (f + u) > 4096)
        return 8;
    u64 size = PASTE(P, build)(input, length, formula, rest, graph), h = four(graph + 8);
    if (h > 65535 || (size - 14 - 4 * h - 8 * (u64)(s * u)) / 6 > 262144)
        return 8;
    if (size > GRAPH)
        return 9;
    PASTE(P, rounds)(graph, size, 0xffffffffu, room, &m);
    put_row(formula, f - 1), put("\nrounds "), put_number(m), put("\n");
    for (u32 a = 0; a < s; a++)
        put_number(a), put(room[s * (f - 1) + a] == 0 ? " yes\n" : " no\n");
    return 0;
}

int main(void)
{
    u64 got = 0;
    for (ssize_t n; got <= INPUT && (n = read(0, input + got, INPUT + 1 - got)) > 0; got += (u64)n)
        ;
    u32 e = answer(got);
    if (e)
        put("refused "), put_number(e), put("\n");
    for (char *from = out; from < to;) {
        ssize_t n = write(1, from, (size_t)(to - from));
        if (n <= 0)
            return 1;
        from += n;
    }
    return 0;
}
