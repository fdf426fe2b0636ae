/* (b) of the checker of claims: one pass over graph and claims, for speed. It takes an accepted graph and 16 bytes for each of its
 * nodes, and checks neither. A sum that 64 bits don't hold counts as infinity, as in the library: such claims have no support anyway. */
#include "plain.h"

enum { NODES = 4096, HEADER = 14, HYPER = 4, TARGET = 6, COVER = 8, CLAIM = 16, RANK_AT = 8 };

static inline u64 eight(const u8 *p)
{
    u64 v;
    __builtin_memcpy(&v, p, 8);
    return __builtin_bswap64(v);
}

static inline u64 value(const u8 *claims, u32 v) { return eight(claims + CLAIM * v); }
static inline u64 rank(const u8 *claims, u32 v) { return eight(claims + CLAIM * v + RANK_AT); }

/* The greatest sum of the targets; once it is infinite the targets left are not read, as in the library. */
static inline u64 gives(const u8 *p, const u8 *end, const u8 *claims)
{
    u64 most = 0;
    for (; p < end; p += TARGET) {
        u64 sum = plus(value(claims, two(p + 4)), four(p));
        if (most < sum)
            most = sum;
        if (most == INFINITE)
            break;
    }
    return most;
}

static inline int ranks_below(const u8 *p, const u8 *end, const u8 *claims, u64 most)
{
    for (; p < end; p += TARGET)
        if (rank(claims, two(p + 4)) >= most)
            return 0;
    return 1;
}

/* Whether the claims are accepted. */
u32 PASTE(P, claim)(const u8 *s, const u8 *claims)
{
    u8 backed[NODES];
    u32 n = two(s + 6), h = four(s + 8), c = two(s + 12);
    const u8 *p = s + HEADER;
    __builtin_memset(backed, 0, n);
    for (u32 e = 0; e < h; e++) {
        u32 v = two(p);
        const u8 *targets = p + HYPER;
        u64 claimed = value(claims, v);
        p = targets + TARGET * two(p + 2);
        u64 given = gives(targets, p, claims);
        if (given < claimed)
            return 0;
        if (given == claimed && !backed[v] && claimed != INFINITE)
            backed[v] = (u8)ranks_below(targets, p, claims, rank(claims, v));
    }
    for (u32 e = 0; e < c; e++, p += COVER) {
        u32 v = two(p), bound = four(p + 2), u = two(p + 6);
        u64 reached = value(claims, u);
        if (reached == INFINITE || (bound != (u32)-1 && bound < reached))
            continue;
        if (value(claims, v) > 0)
            return 0;
        if (rank(claims, u) < rank(claims, v))
            backed[v] = 1;
    }
    for (u32 v = 0; v < n; v++)
        if (!backed[v] && value(claims, v) != INFINITE)
            return 0;
    return 1;
}
