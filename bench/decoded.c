/* (d): C that first decodes a message into arrays, and then works on those. The decoding is part of what is measured. P is the
 * prefix of this build. The builder writes bytes in any case: it decodes the model first, and writes as (b) does. */
#include "plain.h"

DECLARE(P)

static u32 first[65536], weight[262144], bound[4096];
static u16 source[65536], node[262144], cover[4096], covered[4096];

/* The arrays of a graph message, as far as its bytes go; the number of what stops the decoding. */
static u32 decode(const u8 *s, u64 length, u32 n, u32 h, u32 c)
{
    const u8 *p = s + 14, *end = s + length;
    u32 total = 0;
    for (u32 i = 0; i < h; i++) {
        if (end - p < 4)
            return 2;
        u32 count = two(p + 2);
        source[i] = (u16)two(p);
        first[i] = total;
        p += 4;
        if (source[i] >= n)
            return 6;
        if (total + count > 262144)
            return 4;
        if (end - p < (__INT64_TYPE__)(count * 6u))
            return 2;
        for (u32 k = 0; k < count; k++, p += 6) {
            weight[total + k] = four(p);
            node[total + k] = (u16)two(p + 4);
        }
        total += count;
    }
    first[h] = total;
    for (u32 i = 0; i < c; i++, p += 8) {
        if (end - p < 8)
            return 2;
        cover[i] = (u16)two(p);
        bound[i] = four(p + 2);
        covered[i] = (u16)two(p + 6);
    }
    return p == end ? 0 : 2;
}

/* On messages with a fault the first one is not always what this finds: the measured messages have none. */
u32 PASTE(P, graph_check)(const u8 *s, u64 length)
{
    u32 e = started(s, length, 14, 1, 1);
    if (e)
        return e;
    u32 n = two(s + 6), h = four(s + 8), c = two(s + 12);
    if (n < 1 || n > 4096 || h > 65535 || c > 4096)
        return 4;
    e = decode(s, length, n, h, c);
    if (e)
        return e;
    for (u32 i = 1; i < h; i++)
        if (source[i] < source[i - 1])
            return 5;
    for (u32 i = 0; i < first[h]; i++)
        if (node[i] >= n)
            return 6;
    for (u32 i = 0; i < c; i++)
        if (cover[i] >= n || covered[i] >= n)
            return 6;
    for (u32 i = 1; i < c; i++)
        if (cover[i] < cover[i - 1])
            return 5;
    return 0;
}

u32 PASTE(P, rounds)(const u8 *s, u64 length, u32 budget, u64 *room, u32 *count)
{
    u32 n = two(s + 6), h = four(s + 8), c = two(s + 12);
    decode(s, length, n, h, c);
    u64 *x = room, *y = room + n;
    for (u32 v = 0; v < n; v++)
        x[v] = INFINITE;
    for (u32 i = 0;; i++) {
        for (u32 v = 0; v < n; v++)
            y[v] = INFINITE;
        for (u32 k = 0; k < h; k++) {
            u64 worst = 0;
            for (u32 j = first[k]; j < first[k + 1]; j++) {
                u64 value = x[node[j]];
                if (value == INFINITE) { /* lost */
                    worst = INFINITE;
                    break;
                }
                u64 sum = value + weight[j];
                worst = worst < sum ? sum : worst;
            }
            y[source[k]] = worst < y[source[k]] ? worst : y[source[k]];
        }
        for (u32 k = 0; k < c; k++) {
            u64 value = x[covered[k]];
            if (bound[k] == 0xffffffffu ? value != INFINITE : value <= bound[k])
                y[cover[k]] = 0;
        }
        int settled = __builtin_memcmp(x, y, n * sizeof *x) == 0;
        if (settled || i == budget) {
            in_place(room, n, x);
            *count = i;
            return settled ? 0 : 1;
        }
        u64 *t = x;
        x = y;
        y = t;
    }
}

static u32 label[256];
static u16 from[65536], action[65536], to[65536];
static u32 step[65536];

static void decode_model(const u8 *s, u32 n, u32 t)
{
    for (u32 i = 0; i < n; i++)
        label[i] = four(s + 13 + 4 * i);
    const u8 *p = s + 13 + 4 * n;
    for (u32 i = 0; i < t; i++, p += 10) {
        from[i] = (u16)two(p);
        step[i] = four(p + 2);
        action[i] = (u16)two(p + 6);
        to[i] = (u16)two(p + 8);
    }
}

u32 PASTE(P, model_check)(const u8 *s, u64 length)
{
    u32 e = started(s, length, 13, 2, 2);
    if (e)
        return e;
    u32 n = two(s + 6), props = s[8], t = four(s + 9);
    if (n < 1 || n > 256 || props > 32 || t > 65535)
        return 4;
    if (length != 13 + 4 * (u64)n + 10 * (u64)t)
        return 2;
    decode_model(s, n, t);
    u64 limit = (u64)1 << props;
    for (u32 i = 0; i < n; i++)
        if (label[i] >= limit)
            return 10;
    u32 before = 0;
    for (u32 i = 0; i < t; i++) {
        if (from[i] >= n)
            return 6;
        if (from[i] < before)
            return 5;
        if (to[i] >= n)
            return 6;
        before = from[i];
    }
    return 0;
}

u32 PASTE(P, formula_check)(const u8 *s, u64 length, u32 propositions)
{
    struct {
        u8 operator, left, right, zero;
        u32 bound;
    } row[64];
    if (propositions > 32)
        return 4;
    u32 e = started(s, length, 7, 1, 3);
    if (e)
        return e;
    u32 f = s[6];
    if (f < 1 || f > 64)
        return 4;
    if (length != 7 + 8 * (u64)f)
        return 2;
    for (u32 i = 0; i < f; i++) {
        const u8 *p = s + 7 + 8 * i;
        row[i].operator= p[0], row[i].left = p[1], row[i].right = p[2], row[i].zero = p[3], row[i].bound = four(p + 4);
    }
    u8 uses[64] = {0};
    for (u32 i = 0; i < f; i++) {
        u32 op = row[i].operator, left = row[i].left, right = row[i].right;
        if (op > 11 || row[i].zero)
            return 10;
        if ((op < 2 && left) || ((op < 4 || op == 6 || op == 7) && right) || (op < 6 && row[i].bound))
            return 10;
        if (op == 2 || op == 3) {
            if (left >= propositions)
                return 6;
        } else if (op >= 4) {
            if (left >= i)
                return 6;
            uses[left]++;
            if (op != 6 && op != 7 && op < 10) {
                if (right >= i)
                    return 6;
                uses[right]++;
            }
        }
    }
    for (u32 i = 0; i + 1 < f; i++)
        if (uses[i] != 1)
            return 10;
    return 0;
}

#define DECODE(model, s, steps) decode_model(model, s, steps)
#define OPEN(model, s)
#define LABEL(a) label[a]
#define FROM(t) from[t]
#define WEIGHT(t) step[t]
#define ACTION(t) action[t]
#define TO(t) to[t]
#include "builder.h"
