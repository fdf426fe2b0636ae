/* The builder of the graph of a model and a formula, and the verdict. DECODE, once, and OPEN, in each function, make a model ready to be
 * read; LABEL, FROM, WEIGHT, ACTION and TO read it: from its bytes in (b), from arrays in (d). Only the checked verdict checks. */

static inline void put_two(u8 *p, u32 v)
{
    u16 w = __builtin_bswap16((u16)v);
    __builtin_memcpy(p, &w, 2);
}

static inline void put_four(u8 *p, u32 v)
{
    u32 w = __builtin_bswap32(v);
    __builtin_memcpy(p, &w, 4);
}

/* Where each state's transitions start. */
static inline void starts(const u8 *model, u32 *first)
{
    u32 s = two(model + 6), steps = four(model + 9), t = 0;
    DECODE(model, s, steps);
    OPEN(model, s);
    for (u32 a = 0; a < s; a++) {
        first[a] = t;
        while (t < steps && FROM(t) == a)
            t++;
    }
    first[s] = steps;
}

static inline u64 write_graph(const u8 *model, const u8 *formula, const u32 *restrict first, u8 *graph)
{
    u32 s = two(model + 6), f = formula[6], u = 0, h = 0, t;
    OPEN(model, s);
    u8 *out = graph + 14;
    for (u32 r = 0; r < f; r++) {
        const u8 *row = formula + 7 + 8 * r;
        u32 op = row[0], left = row[1], right = row[2], bound = four(row + 4);
        u += op == 8 || op == 9;
        for (u32 a = 0; a < s; a++) {
            u32 node = a + s * r;
            switch (op) {
            case 1:
                break;
            case 2:
            case 3:
                if (((LABEL(a) >> left) & 1) == op - 2)
                    break;
                /* fallthrough */
            case 0:
                put_two(out, node), put_two(out + 2, 0), out += 4, h++;
                break;
            case 4:
                put_two(out, node), put_two(out + 2, 2);
                put_four(out + 4, 0), put_two(out + 8, a + s * left);
                put_four(out + 10, 0), put_two(out + 14, a + s * right);
                out += 16, h++;
                break;
            case 5:
                put_two(out, node), put_two(out + 2, 1), put_four(out + 4, 0), put_two(out + 8, a + s * left);
                put_two(out + 10, node), put_two(out + 12, 1), put_four(out + 14, 0), put_two(out + 18, a + s * right);
                out += 20, h += 2;
                break;
            case 6:
                for (t = first[a]; t < first[a + 1]; t++)
                    if (WEIGHT(t) <= bound) {
                        put_two(out, node), put_two(out + 2, 1), put_four(out + 4, 0), put_two(out + 8, TO(t) + s * left);
                        out += 10, h++;
                    }
                break;
            case 7: {
                u8 *head = out;
                u32 k = 0;
                out += 4;
                for (t = first[a]; t < first[a + 1]; t++)
                    if (WEIGHT(t) <= bound) {
                        put_four(out, 0), put_two(out + 4, TO(t) + s * left);
                        out += 6, k++;
                    }
                put_two(head, node), put_two(head + 2, k), h++;
                break;
            }
            case 10:
                for (t = first[a]; t < first[a + 1]; t++)
                    if (WEIGHT(t) <= bound && ACTION(t) == right) {
                        put_two(out, node), put_two(out + 2, 1), put_four(out + 4, 0), put_two(out + 8, TO(t) + s * left);
                        out += 10, h++;
                    }
                break;
            case 11: {
                u8 *head = out;
                u32 k = 0;
                out += 4;
                for (t = first[a]; t < first[a + 1]; t++)
                    if (WEIGHT(t) <= bound && ACTION(t) == right) {
                        put_four(out, 0), put_two(out + 4, TO(t) + s * left);
                        out += 6, k++;
                    }
                put_two(head, node), put_two(head + 2, k), h++;
                break;
            }
            }
        }
    }
    for (u32 r = 0, j = 0; r < f; r++) {
        const u8 *row = formula + 7 + 8 * r;
        u32 op = row[0], left = row[1], right = row[2];
        if (op != 8 && op != 9)
            continue;
        u32 helper = s * (f + j++);
        for (u32 a = 0; a < s; a++) {
            put_two(out, a + helper), put_two(out + 2, 1), put_four(out + 4, 0), put_two(out + 8, a + s * right);
            out += 10, h++;
            if (op == 8) {
                for (t = first[a]; t < first[a + 1]; t++) {
                    put_two(out, a + helper), put_two(out + 2, 2), put_four(out + 4, 0), put_two(out + 8, a + s * left);
                    put_four(out + 10, WEIGHT(t)), put_two(out + 14, TO(t) + helper);
                    out += 16, h++;
                }
            } else if (first[a] < first[a + 1]) { /* where nothing follows, the A helper has its first hyperedge only */
                put_two(out, a + helper), put_two(out + 2, 1 + first[a + 1] - first[a]);
                put_four(out + 4, 0), put_two(out + 8, a + s * left);
                out += 10, h++;
                for (t = first[a]; t < first[a + 1]; t++) {
                    put_four(out, WEIGHT(t)), put_two(out + 4, TO(t) + helper);
                    out += 6;
                }
            }
        }
    }
    for (u32 r = 0, j = 0; r < f; r++) {
        const u8 *row = formula + 7 + 8 * r;
        if (row[0] != 8 && row[0] != 9)
            continue;
        u32 helper = s * (f + j++);
        for (u32 a = 0; a < s; a++, out += 8)
            put_two(out, a + s * r), __builtin_memcpy(out + 2, row + 4, 4), put_two(out + 6, a + helper);
    }
    u64 size = (u64)(out - graph);
    put_four(graph, (u32)size), graph[4] = 1, graph[5] = 1;
    put_two(graph + 6, s * (f + u)), put_four(graph + 8, h), put_two(graph + 12, s * u);
    return size;
}

u64 PASTE(P, build)(const u8 *model, u64 model_length, const u8 *formula, u64 formula_length, u8 *graph)
{
    (void)model_length, (void)formula_length;
    u32 first[257];
    starts(model, first);
    return write_graph(model, formula, first, graph);
}

u32 PASTE(P, verdict)(const u8 *model, u64 model_length, const u8 *formula, u64 formula_length, u32 state, u32 budget,
                      u8 *graph, u64 *room, u32 *count, u32 *yes)
{
    u64 size = PASTE(P, build)(model, model_length, formula, formula_length, graph);
    u32 number = PASTE(P, rounds)(graph, size, budget, room, count);
    *yes = number == 0 && room[state + two(model + 6) * (formula[6] - 1u)] == 0;
    return number;
}

/* Whether a graph passes a limit (8) or the lent memory (9); worked out before anything is written. Only an A until can have a hyperedge
 * with too many targets: 65,535 transitions and one. */
static inline u32 sized(const u8 *model, const u8 *formula, const u32 *first, u64 bytes, u64 values)
{
    u32 s = two(model + 6), f = formula[6], steps = four(model + 9), u = 0, alive = 0, longest = 0, most = 0;
    u64 hypers = 0, targets = 0;
    OPEN(model, s);
    for (u32 a = 0; a < s; a++) {
        u32 many = first[a + 1] - first[a];
        alive += many != 0;
        longest = longest < many ? many : longest;
    }
    for (u32 r = 0; r < f; r++) {
        const u8 *row = formula + 7 + 8 * r;
        u32 op = row[0], left = row[1], right = row[2], bound = four(row + 4), own = 0;
        switch (op) {
        case 0:
            hypers += s;
            break;
        case 1:
            break;
        case 2:
        case 3:
            for (u32 a = 0; a < s; a++)
                own += (LABEL(a) >> left) & 1;
            hypers += op == 2 ? own : s - own;
            break;
        case 4:
            hypers += s, targets += 2 * s;
            break;
        case 5:
            hypers += 2 * s, targets += 2 * s;
            break;
        case 8:
            hypers += s + steps, targets += s + 2 * steps, u++;
            break;
        case 9:
            hypers += s + alive, targets += s + alive + steps, most = 1 + longest, u++;
            break;
        default:
            if (op < 10)
                for (u32 t = 0; t < steps; t++)
                    own += WEIGHT(t) <= bound;
            else
                for (u32 t = 0; t < steps; t++)
                    own += WEIGHT(t) <= bound && ACTION(t) == right;
            hypers += op % 2 ? s : own, targets += own;
        }
    }
    u64 nodes = (u64)s * (f + u);
    if (nodes > 4096 || hypers > 65535 || targets > 262144 || most > 65535)
        return 8;
    return 14 + 4 * hypers + 6 * targets + 8 * (u64)(s * u) > bytes || 2 * nodes > values ? 9 : 0;
}

/* What the library does: model, formula, state, size and rooms are checked, in this order; what was built is not. */
u32 PASTE(P, checked_verdict)(const u8 *model, u64 model_length, const u8 *formula, u64 formula_length, u32 state, u32 budget,
                              u8 *graph, u64 bytes, u64 *room, u64 values, u32 *count, u32 *yes)
{
    u32 first[257], e = PASTE(P, model_check)(model, model_length);
    if (e || (e = PASTE(P, formula_check)(formula, formula_length, model[8])))
        return e;
    u32 s = two(model + 6);
    if (state >= s)
        return 6;
    starts(model, first);
    e = sized(model, formula, first, bytes, values);
    if (e)
        return e;
    u64 size = write_graph(model, formula, first, graph);
    e = PASTE(P, rounds)(graph, size, budget, room, count);
    *yes = e == 0 && room[state + s * (formula[6] - 1u)] == 0;
    return e;
}
