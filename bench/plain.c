/* (b): plain C over the message bytes, written for speed. The checks answer as the paper says; the rounds, the builder and the
 * verdict take messages that were accepted, and check nothing. P is the prefix of this build. With SKIPPING it is (e), which differs
 * in the rounds alone. */
#include "plain.h"

DECLARE(P)

u32 PASTE(P, graph_check)(const u8 *s, u64 length)
{
    u32 e = started(s, length, 14, 1, 1);
    if (e)
        return e;
    u32 n = two(s + 6), h = four(s + 8), c = two(s + 12);
    if (n < 1 || n > 4096 || h > 65535 || c > 4096)
        return 4;
    const u8 *p = s + 14, *end = s + length;
    u32 before = 0, total = 0;
    for (u32 i = 0; i < h; i++) {
        if (end - p < 4)
            return 2;
        u32 source = two(p), count = two(p + 2);
        p += 4;
        if (source >= n)
            return 6;
        if (source < before)
            return 5;
        before = source;
        total += count;
        if (total > 262144)
            return 4;
        if (end - p < (__INT64_TYPE__)(count * 6u))
            return 2;
        for (const u8 *q = p + count * 6u; p < q; p += 6)
            if (two(p + 4) >= n)
                return 6;
    }
    before = 0;
    for (u32 i = 0; i < c; i++, p += 8) {
        if (end - p < 8)
            return 2;
        u32 source = two(p);
        if (source >= n)
            return 6;
        if (source < before)
            return 5;
        if (two(p + 6) >= n)
            return 6;
        before = source;
    }
    return p == end ? 0 : 2;
}

u32 PASTE(P, model_check)(const u8 *s, u64 length)
{
    u32 e = started(s, length, 13, 2, 2);
    if (e)
        return e;
    u32 n = two(s + 6), props = s[8], t = four(s + 9);
    if (n < 1 || n > 256 || props > 32 || t > 65535)
        return 4;
    if (length != 13 + 4 * (u64)n + 10 * (u64)t)
        return 2;
    const u8 *p = s + 13;
    u64 limit = (u64)1 << props;
    for (u32 i = 0; i < n; i++, p += 4)
        if (four(p) >= limit)
            return 10;
    u32 before = 0;
    for (const u8 *end = s + length; p < end; p += 10) {
        u32 from = two(p);
        if (from >= n)
            return 6;
        if (from < before)
            return 5;
        if (two(p + 8) >= n)
            return 6;
        before = from;
    }
    return 0;
}

u32 PASTE(P, formula_check)(const u8 *s, u64 length, u32 propositions)
{
    if (propositions > 32)
        return 4;
    u32 e = started(s, length, 7, 1, 3);
    if (e)
        return e;
    u32 f = s[6];
    if (f < 1 || f > 64)
        return 4;
    if (length != 7 + 8 * (u64)f)
        return 2;
    u8 uses[64] = {0};
    const u8 *p = s + 7;
    for (u32 i = 0; i < f; i++, p += 8) {
        u32 left = p[1], right = p[2], bound = four(p + 4);
        if (p[0] > 11 || p[3] != 0)
            return 10;
        switch (p[0]) {
        case 0:
        case 1:
            if (left | right | bound)
                return 10;
            break;
        case 2:
        case 3:
            if (right | bound)
                return 10;
            if (left >= propositions)
                return 6;
            break;
        case 4:
        case 5:
            if (bound)
                return 10;
            if (left >= i || right >= i)
                return 6;
            uses[left]++, uses[right]++;
            break;
        case 6:
        case 7:
            if (right)
                return 10;
            /* fallthrough */
        case 10:
        case 11: /* right is an action */
            if (left >= i)
                return 6;
            uses[left]++;
            break;
        default:
            if (left >= i || right >= i)
                return 6;
            uses[left]++, uses[right]++;
        }
    }
    for (u32 i = 0; i + 1 < f; i++)
        if (uses[i] != 1)
            return 10;
    return 0;
}

#ifdef SKIPPING
#include "skipping.h"
#else
u32 PASTE(P, rounds)(const u8 *s, u64 length, u32 budget, u64 *room, u32 *count)
{
    (void)length;
    u32 n = two(s + 6), h = four(s + 8), c = two(s + 12);
    u64 *x = room, *y = room + n;
    for (u32 v = 0; v < n; v++)
        x[v] = INFINITE;
    for (u32 i = 0;; i++) {
        for (u32 v = 0; v < n; v++)
            y[v] = INFINITE;
        const u8 *p = s + 14;
        for (u32 k = 0; k < h; k++) {
            u32 source = two(p), targets = two(p + 2);
            u64 worst = 0;
            p += 4;
            for (const u8 *q = p + targets * 6u; p < q; p += 6) {
                u64 value = x[two(p + 4)];
                if (value == INFINITE) { /* lost */
                    worst = INFINITE;
                    p = q;
                    break;
                }
                u64 sum = value + four(p);
                worst = worst < sum ? sum : worst;
            }
            y[source] = worst < y[source] ? worst : y[source];
        }
        for (u32 k = 0; k < c; k++, p += 8) {
            u32 bound = four(p + 2);
            u64 value = x[two(p + 6)];
            if (bound == 0xffffffffu ? value != INFINITE : value <= bound)
                y[two(p)] = 0;
        }
        int settled = __builtin_memcmp(x, y, n * sizeof *x) == 0;
        if (settled || i == budget) {
            in_place(room, n, x);
            *count = i;
            return settled ? 0 : 1;
        }
        u64 *t = x;
        x = y;
        y = t;
    }
}

#endif

#define DECODE(model, s, steps)
#define OPEN(model, s) const u8 *labels = (model) + 13, *transitions = labels + 4 * (s)
#define LABEL(a) four(labels + 4 * (a))
#define FROM(t) two(transitions + 10 * (t))
#define WEIGHT(t) four(transitions + 10 * (t) + 2)
#define ACTION(t) two(transitions + 10 * (t) + 6)
#define TO(t) two(transitions + 10 * (t) + 8)
#include "builder.h"
