/*
 * Puts questions to the library, over standard input and output: for machines that cannot load it themselves. Built by
 * library.py with the kit's compiler, which has no headers of the C library; so what is used of that is declared here.
 *
 * All numbers are big-endian. A question: the length of the model (4), of the formula (4), the budget (4), and the two
 * messages. Its answer: the number (1), the offset (8), the count (4), the place of state 0's verdict (4), the states (4),
 * how many values follow (4), how many bytes of text (4); the values (8 each), and the text.
 */
#include "otzarvim.h"

long read(int file, void *to, size_t most);
long write(int file, const void *from, size_t most);

enum { MODEL = 2097152, FORMULA = 4096, HEADER = 12, ANSWER = 29 };

static uint8_t model[MODEL], formula[FORMULA], graph[OTZARVIM_MOST_GRAPH], text[OTZARVIM_MOST_TEXT];
static uint8_t answer[ANSWER + 8 * OTZARVIM_MOST_NODES + OTZARVIM_MOST_TEXT];
static uint64_t values[OTZARVIM_MOST_VALUES];

/* Whether all bytes came. */
static int take(uint8_t *to, size_t length)
{
    while (length > 0) {
        long got = read(0, to, length);
        if (got <= 0)
            return 0;
        to += got;
        length -= (size_t)got;
    }
    return 1;
}

static int give(const uint8_t *from, size_t length)
{
    while (length > 0) {
        long gone = write(1, from, length);
        if (gone <= 0)
            return 0;
        from += gone;
        length -= (size_t)gone;
    }
    return 1;
}

static size_t number(const uint8_t *at)
{
    return (size_t)at[0] << 24 | (size_t)at[1] << 16 | (size_t)at[2] << 8 | at[3];
}

static uint8_t *put(uint8_t *at, uint64_t value, int width)
{
    for (int i = width - 1; i >= 0; i--)
        *at++ = (uint8_t)(value >> (8 * i));
    return at;
}

/* Asks the library, and writes its answer; whether that went well. */
static int settle(size_t model_length, size_t formula_length, uint32_t budget)
{
    uint32_t count = 0, states[2] = {0, 0};
    size_t length = 0, offset = 0, text_length = 0, text_offset = 0, nodes = 0;
    uint8_t found = otzarvim_settle(model, model_length, formula, formula_length, budget, graph, sizeof graph, values,
                                    OTZARVIM_MOST_VALUES, &count, &length, states, &offset);
    if (found == OTZARVIM_OK) {
        nodes = (size_t)graph[6] << 8 | graph[7];
        if (otzarvim_formula_text(formula, formula_length, model[8], text, sizeof text, &text_length, &text_offset) != OTZARVIM_OK)
            return 0;
    }
    uint8_t *at = put(answer, found, 1);
    at = put(put(put(put(at, offset, 8), count, 4), states[0], 4), states[1], 4);
    at = put(put(at, nodes, 4), text_length, 4);
    for (size_t i = 0; i < nodes; i++)
        at = put(at, values[i], 8);
    for (size_t i = 0; i < text_length; i++)
        at = put(at, text[i], 1);
    return give(answer, (size_t)(at - answer));
}

int main(void)
{
    uint8_t header[HEADER];
    while (take(header, HEADER)) {
        size_t model_length = number(header), formula_length = number(header + 4);
        if (model_length > MODEL || formula_length > FORMULA || !take(model, model_length) || !take(formula, formula_length))
            return 1;
        if (!settle(model_length, formula_length, (uint32_t)number(header + 8)))
            return 1;
    }
    return 0;
}
