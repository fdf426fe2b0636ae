/*
 * Otzarvim: a proved checker for weighted CTL with upper bounds.
 *
 * Link with libotzarvim.a (bindings/check.sh makes it, for x86-64 Linux).
 *
 * Every function is proved, and asks nothing of what it is handed but that each pointer and its length
 * name memory that is really there. Any bytes are safe: a message that is not well-formed is refused,
 * and the number says what the first fault is, the offset where it is. No function keeps anything between calls, allocates, or
 * writes anywhere but into what it is lent; 78 KiB of stack suffice (on x86-64); two threads may call at once.
 * Memory that is lent to be written must not overlap anything else that the same call is lent. Where a
 * length is 0, its pointer is not used and may be null.
 *
 * Every function returns one of the numbers below. Any number but OTZARVIM_OK is a refusal. A refusal
 * leaves rooms, counts, rows, states and tallies as they came; only OTZARVIM_BUDGET writes, and only the rooms.
 * The count, the length, the verdict and the offset are part of the answer and are always written: with a
 * refusal the first three are 0, 0 and OTZARVIM_NONE, but for the count and the length of OTZARVIM_BUDGET.
 *
 * The offset, the last parameter of every function that is handed a message, gets where the first byte of the field stands that was
 * found wrong, counted from the start of the message at fault. It is 0 where no field is: with OK, BUDGET,
 * LENGTH, SIZE, ROOM and PROFILE, for a number handed in beside a message (p, the state, the root), and with
 * FORM where a row is not used exactly once. No field that can be found wrong stands at 0. Of two messages
 * the model is at fault where otzarvim_model_check refuses it, else the formula.
 */
#ifndef OTZARVIM_H
#define OTZARVIM_H

#include <stddef.h>
#include <stdint.h>

#ifdef __cplusplus
extern "C" {
#endif

/* The numbers that every function returns. */
enum {
    OTZARVIM_OK = 0,      /* no other number applies */
    OTZARVIM_BUDGET = 1,  /* the count of rounds is greater than the budget */
    OTZARVIM_LENGTH = 2,  /* too few bytes, a wrong length field, or bytes left over */
    OTZARVIM_VERSION = 3, /* wrong version or kind byte */
    OTZARVIM_LIMIT = 4,   /* a count outside its limits, or a p above OTZARVIM_MOST_PROPOSITIONS */
    OTZARVIM_ORDER = 5,   /* a source (or from) below the one before it in the same list */
    OTZARVIM_NAME = 6,    /* a node, state, proposition or operand that doesn't exist */
    OTZARVIM_DEAD = 7,    /* no longer returned: a state may have no transition, and a run that comes there ends there */
    OTZARVIM_SIZE = 8,    /* the graph to be built would pass a limit */
    OTZARVIM_ROOM = 9,    /* a lent room is too small */
    OTZARVIM_FORM = 10,   /* a formula or label that breaks the rules */
    OTZARVIM_PROFILE = 11 /* a graph that has what this function doesn't take */
};

/* The verdict on a state. */
enum {
    OTZARVIM_NONE = 0, /* there is no verdict: the call was refused, or the budget is spent */
    OTZARVIM_YES = 1,  /* the state satisfies the formula */
    OTZARVIM_NO = 2    /* it does not */
};

/* The stored value of a node that no finite number bounds. */
#define OTZARVIM_INFINITE UINT64_MAX

/* The version byte of each kind of message. */
enum {
    OTZARVIM_GRAPH_VERSION = 1,
    OTZARVIM_MODEL_VERSION = 2, /* 1 had no actions, and is refused */
    OTZARVIM_FORMULA_VERSION = 1
};

/* The bound, in a message, that means no bound. */
#define OTZARVIM_NO_BOUND UINT32_MAX

/* The largest action that a row of a formula can ask for; a transition's has two bytes. */
#define OTZARVIM_MOST_ASKED 255

/* How many bytes the claim of a node has: its value (8), then its rank (8). */
#define OTZARVIM_CLAIM 16

/* The limits on counts. */
enum {
    OTZARVIM_MOST_NODES = 4096,
    OTZARVIM_MOST_HYPEREDGES = 65535,
    OTZARVIM_MOST_TARGETS = 262144, /* of all hyperedges together; 65,535 of one */
    OTZARVIM_MOST_COVERS = 4096,
    OTZARVIM_MOST_STATES = 256,
    OTZARVIM_MOST_PROPOSITIONS = 32,
    OTZARVIM_MOST_TRANSITIONS = 65535,
    OTZARVIM_MOST_ROWS = 64
};

/* The text of a formula has at most so many bytes. */
#define OTZARVIM_MOST_TEXT 2048

/* A graph message has at most so many bytes: 14 + 65,535 * 4 + 262,144 * 6 + 4,096 * 8. */
#define OTZARVIM_MOST_GRAPH 1867786

/* So many numbers hold two rounds of any graph: 2 * 4,096. */
#define OTZARVIM_MOST_VALUES 8192

/*
 * Checks a graph message (kind 1).
 *
 *   message, message_length   the bytes; only read
 *   counts                    gets the nodes, the hyperedges and the cover edges
 *   offset                    gets where the fault is; 0 for none and with LENGTH
 *
 * Returns OK, LENGTH, VERSION, LIMIT, ORDER or NAME: the first fault in the message's own order.
 */
uint8_t otzarvim_graph_check(const uint8_t *message, size_t message_length, uint32_t counts[3], size_t *offset);

/*
 * Checks a model message (kind 2). With s states and t transitions it has 13 + 4s + 10t bytes; a transition is from (2 bytes),
 * weight (4), action (2) and to (2). Any action is taken.
 *
 *   message, message_length   the bytes; only read
 *   counts                    gets the states, the propositions and the transitions
 *   offset                    gets where the fault is; 0 for none and with LENGTH
 *
 * Returns OK, LENGTH, VERSION, LIMIT, FORM, ORDER or NAME: the first fault in the message's own order.
 */
uint8_t otzarvim_model_check(const uint8_t *message, size_t message_length, uint32_t counts[3], size_t *offset);

/*
 * Checks a formula message (kind 3) whose propositions must be below p. With f rows it has 7 + 8f bytes. Operators 10 and 11 are EX and
 * AX that look only at transitions of one action, which stands in the row's right field; any is taken. A transition whose action is above
 * OTZARVIM_MOST_ASKED is seen by EX and AX that ask for none alone.
 *
 *   message, message_length   the bytes; only read
 *   p                         how many propositions there are; above 32 is LIMIT, before any byte is read
 *   rows                      gets the rows
 *   offset                    gets where the fault is; 0 for none, with LENGTH, with LIMIT of p, and with FORM of
 *                             a row that is not used exactly once
 *
 * Returns OK, LENGTH, VERSION, LIMIT, NAME or FORM: the first fault in the message's own order.
 */
uint8_t otzarvim_formula_check(const uint8_t *message, size_t message_length, uint32_t p, uint32_t *rows, size_t *offset);

/*
 * Runs the rounds on a graph message of n nodes, until a round changes nothing or the budget is spent.
 *
 *   message, message_length   the bytes; only read
 *   budget                    how many rounds at most; n * (c + 1) always suffices, with c cover edges, and n
 *                             where no cycle passes through a cover edge
 *   room, room_length         so many numbers; below 2n is ROOM; OTZARVIM_MOST_VALUES always suffice
 *   count                     gets m, the smaller of the budget and the first round that the next repeats
 *   offset                    as for otzarvim_graph_check
 *
 * With OK and BUDGET the first n numbers of the room hold round m, the next n round m + 1, and the
 * others stay. With OK both are the settled values: the largest that obey the graph's rules.
 *
 * Returns OK, BUDGET, ROOM, or what otzarvim_graph_check returns of the message.
 */
uint8_t otzarvim_rounds_solve(const uint8_t *message, size_t message_length, uint32_t budget,
                              uint64_t *room, size_t room_length, uint32_t *count, size_t *offset);

/*
 * Searches from one node of a graph message of n nodes, h hyperedges and t targets in all, whose weights are all 0 and
 * that has no cover edge: is the root's settled value 0?
 *
 *   message, message_length   the bytes; only read
 *   root                      the node
 *   words, words_length       so many numbers; below 4n + 8h + 4t is ROOM
 *   verdict                   gets 0 for none, 1 for yes, 2 for no
 *   count                     gets how many edges were taken off the search's stacks: at most the root's number of
 *                             hyperedges, plus, over every target place of every hyperedge, one more than the number
 *                             of hyperedges of that target node
 *   offset                    as for otzarvim_graph_check; 0 for NAME of the root
 *
 * With OK those first words are 0 afterwards, and the others stay.
 *
 * Returns OK, what otzarvim_graph_check returns of the message, PROFILE, NAME of the root, ROOM: in this order.
 */
uint8_t otzarvim_search(const uint8_t *message, size_t message_length, uint32_t root, uint32_t *words,
                        size_t words_length, uint8_t *verdict, uint64_t *count, size_t *offset);

/*
 * Checks claims about a graph: accepts them exactly when they obey the graph's rules and each finite node has a support,
 * a hyperedge of it that gives exactly its value or a cover edge of it that holds, all of whose targets have a smaller
 * rank. What it accepts is the settled values, on every graph.
 *
 *   message, message_length   the bytes of a graph message of n nodes; only read
 *   claims, claims_length     OTZARVIM_CLAIM bytes for each node, node 0 first: its value (8 bytes, infinity as stored), then
 *                             its rank (8 bytes), big-endian; only read. Any other length than 16n is LENGTH
 *   verdict                   gets 0 for none, 1 for accepted, 2 for not accepted
 *   offset                    as for otzarvim_graph_check; 0 for LENGTH of the claims
 *
 * A claimed value near 2^64 is a number like any other: no sum wraps, and none is taken for infinity.
 *
 * Returns OK, what otzarvim_graph_check returns of the message, LENGTH of the claims: in this order.
 */
uint8_t otzarvim_claims_check(const uint8_t *message, size_t message_length, const uint8_t *claims,
                              size_t claims_length, uint8_t *verdict, size_t *offset);

/*
 * Writes claims about a graph that otzarvim_claims_check accepts: its settled values, and ranks. It takes a graph where no
 * cycle passes through a cover edge; a graph built from a model and a formula is of that kind.
 *
 *   message, message_length   the bytes of a graph message of n nodes; only read
 *   claims, claims_length     so many bytes; below 16n is ROOM
 *   words, words_length       so many numbers; below 8n is ROOM
 *   offset                    as for otzarvim_graph_check; 0 for PROFILE and ROOM
 *
 * With OK the first 16n bytes are the claims, the first 8n numbers are 0, and the rest of both stays. Any ranks that are
 * accepted may be written.
 *
 * Returns OK, what otzarvim_graph_check returns of the message, PROFILE, ROOM: in this order.
 */
uint8_t otzarvim_claims_write(const uint8_t *message, size_t message_length, uint8_t *claims, size_t claims_length,
                              uint64_t *words, size_t words_length, size_t *offset);

/*
 * Writes the text of a formula message whose propositions must be below p, as E[p0 U<=2 p1] or EX#7<=3 p0, where 7 is an action.
 *
 *   message, message_length   the bytes; only read
 *   p                         as for otzarvim_formula_check
 *   room, room_length         so many bytes; OTZARVIM_MOST_TEXT always suffices; no 0 is added at the end
 *   length                    gets how many bytes were written
 *   offset                    as for otzarvim_formula_check
 *
 * Returns OK, ROOM, or what otzarvim_formula_check returns of the message.
 */
uint8_t otzarvim_formula_text(const uint8_t *message, size_t message_length, uint32_t p,
                              uint8_t *room, size_t room_length, size_t *length, size_t *offset);

/*
 * Decides whether a state satisfies a formula: checks the model, then the formula with the model's
 * propositions, builds their graph and runs the rounds on it.
 *
 *   model, model_length       the bytes of a model message (kind 2); only read
 *   formula, formula_length   the bytes of a formula message (kind 3); only read
 *   state                     which state, counted from 0; one that doesn't exist is NAME
 *   budget                    how many rounds at most; n always suffices where the graph has n nodes, so
 *                             OTZARVIM_MOST_NODES does
 *   bytes, bytes_length       so many bytes for the graph's message; OTZARVIM_MOST_GRAPH always suffice
 *   values, values_length     so many numbers for two rounds; OTZARVIM_MOST_VALUES always suffice
 *   verdict                   gets OTZARVIM_YES or OTZARVIM_NO with OK, else OTZARVIM_NONE
 *   count                     gets m, the smaller of the budget and the first round that the next repeats
 *   length                    gets how many bytes the graph's message has
 *   offset                    gets where the fault is, in the model or in the formula; 0 for NAME of the state
 *
 * With OK the verdict is OTZARVIM_YES exactly when the state satisfies the formula by its maximal runs:
 * those that are endless, and those that end in a state without transitions. With OK and BUDGET the first
 * bytes hold the graph's message, the first n values round m and the next n round m + 1; the others stay.
 *
 * Returns OK or the first that applies of: what otzarvim_model_check returns of the model, what
 * otzarvim_formula_check returns of the formula, NAME of the state, SIZE, ROOM, BUDGET.
 */
uint8_t otzarvim_verdict(const uint8_t *model, size_t model_length, const uint8_t *formula, size_t formula_length,
                         uint32_t state, uint32_t budget, uint8_t *bytes, size_t bytes_length,
                         uint64_t *values, size_t values_length, uint8_t *verdict, uint32_t *count, size_t *length,
                         size_t *offset);

/*
 * Builds the graph of a model and a formula alone, as otzarvim_verdict does, and runs no rounds.
 *
 *   model, formula, bytes     as for otzarvim_verdict
 *   length                    gets how many bytes the graph's message has
 *   offset                    as for otzarvim_verdict
 *
 * With OK the first bytes hold the graph's message, which otzarvim_graph_check accepts; the others stay.
 *
 * Returns OK or the first that applies of: what otzarvim_model_check returns of the model, what
 * otzarvim_formula_check returns of the formula, SIZE, ROOM.
 */
uint8_t otzarvim_graph(const uint8_t *model, size_t model_length, const uint8_t *formula, size_t formula_length,
                       uint8_t *bytes, size_t bytes_length, size_t *length, size_t *offset);

/*
 * The same as otzarvim_verdict for all states of a model at once; one graph and one run of the rounds answer for all.
 *
 *   model, formula, budget, bytes, values, count, length, offset   as for otzarvim_verdict
 *   states                    gets with OK, in states[0], the place among the values of state 0's number,
 *                             and in states[1] how many states there are
 *
 * With OK state a satisfies the formula exactly when values[states[0] + a] is 0, for a below states[1].
 * The rooms are left as by otzarvim_verdict.
 *
 * Returns what otzarvim_verdict returns of a state that exists.
 */
uint8_t otzarvim_settle(const uint8_t *model, size_t model_length, const uint8_t *formula, size_t formula_length,
                        uint32_t budget, uint8_t *bytes, size_t bytes_length, uint64_t *values, size_t values_length,
                        uint32_t *count, size_t *length, uint32_t states[2], size_t *offset);

/*
 * The nightly sheet: one running tally that each verdict is entered into. It starts with all numbers 0. It may
 * also hold any other numbers: each is safe, and one at its end refuses more with LIMIT.
 */
typedef struct {
    uint64_t yes;         /* how many were yes */
    uint64_t no;          /* how many were no */
    uint64_t refused[11]; /* how many had each refusal number: BUDGET in refused[0], .., PROFILE in refused[10] */
    uint64_t sum;         /* of the rounds, exactly */
    uint64_t largest;     /* of the rounds */
} otzarvim_tally;

/* The report of a tally has at most so many bytes: 15 * (20 + 1). */
#define OTZARVIM_MOST_REPORT 315

/*
 * Enters what a call returned into a tally.
 *
 *   tally                     the tally; NAME and LIMIT leave it as it came
 *   number                    the number that the call returned
 *   verdict                   its verdict: OTZARVIM_YES or OTZARVIM_NO with OK, OTZARVIM_NONE with a refusal
 *   rounds                    its count of rounds; a refusal but BUDGET counts as 0, whatever is handed in
 *
 * Returns OK; NAME where that is no entry (OK with no verdict, a refusal with one, or a number that the table
 * above doesn't have); else LIMIT after 4,294,967,295 accepted, or where the sum would pass 64 bits, to which a
 * tally that began at 0 never comes.
 */
uint8_t otzarvim_tally_enter(otzarvim_tally *tally, uint8_t number, uint8_t verdict, uint32_t rounds);

/*
 * Writes the report of a tally: its numbers in decimal, each ended by a line feed, in the order in which they
 * stand above; no words.
 *
 *   tally                     the tally; only read
 *   room, room_length         so many bytes; OTZARVIM_MOST_REPORT always suffice; no 0 is added at the end
 *   length                    gets how many bytes were written
 *
 * Returns OK or ROOM.
 */
uint8_t otzarvim_tally_report(const otzarvim_tally *tally, uint8_t *room, size_t room_length, size_t *length);

#ifdef __cplusplus
}
#endif

#endif
