/* What the plain versions offer, each under the prefix of the file and compiler that it comes from. Types are spelled without
 * any header, so that a compiler that comes alone can build them. */
#ifndef PLAIN_H
#define PLAIN_H

typedef __UINT8_TYPE__ u8;
typedef __UINT16_TYPE__ u16;
typedef __UINT32_TYPE__ u32;
typedef __UINT64_TYPE__ u64;

#define INFINITE (~(u64)0)

#define PASTE_(a, b) a##b
#define PASTE(a, b) PASTE_(a, b)

/* Numbers in message bytes. */
static inline u32 two(const u8 *p)
{
    u16 v;
    __builtin_memcpy(&v, p, 2);
    return __builtin_bswap16(v);
}

static inline u32 four(const u8 *p)
{
    u32 v;
    __builtin_memcpy(&v, p, 4);
    return __builtin_bswap32(v);
}

/* Infinity plus any weight is infinity. */
static inline u64 plus(u64 value, u32 weight)
{
    u64 sum = value + weight;
    return sum < value ? INFINITE : sum;
}

/* The start of a message: enough bytes for its header, its length field, version and kind. */
static inline u32 started(const u8 *s, u64 length, u64 header, u8 version, u8 kind)
{
    if (length < header || four(s) != length)
        return 2;
    if (s[4] != version || s[5] != kind)
        return 3;
    return 0;
}

/* The round that x holds stands in the first half of the room, the next one behind it. */
static inline void in_place(u64 *room, u32 n, const u64 *x)
{
    if (x == room)
        return;
    for (u32 v = 0; v < n; v++) {
        u64 t = room[v];
        room[v] = room[n + v];
        room[n + v] = t;
    }
}

/* The same shape for every version. The checks return the paper's number. Rounds, builder and verdict take accepted messages; the checked
 * verdict takes anything, refuses what the library refuses, and writes nothing then. */
#define DECLARE(p)                                                                                                       \
    u32 PASTE(p, graph_check)(const u8 *s, u64 length);                                                                  \
    u32 PASTE(p, model_check)(const u8 *s, u64 length);                                                                  \
    u32 PASTE(p, formula_check)(const u8 *s, u64 length, u32 propositions);                                              \
    u32 PASTE(p, rounds)(const u8 *s, u64 length, u32 budget, u64 *room, u32 *count);                                    \
    u64 PASTE(p, build)(const u8 *model, u64 model_length, const u8 *formula, u64 formula_length, u8 *graph);            \
    u32 PASTE(p, verdict)(const u8 *model, u64 model_length, const u8 *formula, u64 formula_length, u32 state, u32 budget, \
                          u8 *graph, u64 *room, u32 *count, u32 *yes);                                                   \
    u32 PASTE(p, checked_verdict)(const u8 *model, u64 model_length, const u8 *formula, u64 formula_length, u32 state,   \
                                  u32 budget, u8 *graph, u64 bytes, u64 *room, u64 values, u32 *count, u32 *yes);

#endif
