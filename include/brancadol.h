/* Brancadol: a proved translator from PSL to LTL, with verdicts.
 *
 * Each function below is proved to answer what its contract says, for every
 * input, refused ones too: crates/brancadol/src/lib.rt has the contracts.
 * The library keeps no state, asks for no memory and calls nothing but memset,
 * so threads may call it at the same time. It needs stack, which the proofs do
 * not count: some 0.8 MB were measured for the deepest line that
 * brancadol_read_formula refuses, 0.2 MB for the deepest that it takes, and less
 * than that for all else. Link with -lbrancadol; x86-64 Linux.
 *
 * ANSWERS. A function answers one number: number + 256 * value.
 *   number   0 where the operation succeeded, or else the refusal, 1 to 255:
 *            the first that applies, in the order in which its function names
 *            them.
 *   value    where it succeeded, what the function says it gives. Where it was
 *            refused: 0 where the refusal carries no place, or else 1 + the
 *            place of the fault, a node or a byte of the line. The numbers of
 *            refusals say which carries what.
 * Read an answer by brancadol_refusal and brancadol_value, and a refusal's place
 * by brancadol_has_place and brancadol_place.
 *
 * LISTS. A list is a pointer and a count of elements, not of bytes.
 *   - No pointer may be NULL, also where the count is 0: any address that is
 *     aligned for the elements will do there.
 *   - A list that a function writes to, and a lent letter, may overlap no other
 *     list of the call. Lists that are only read may overlap.
 *   - At a refusal every lent list is as it was. After a success what is written
 *     stands at its front, and the rest is as it was.
 *
 * PARAMETERS. In C a list is two parameters. Where a language passes it as one
 * value of two words, as Rust does with &[T], that is the same as long as no
 * list begins in the sixth word of the call, the last that goes in a register.
 * So lists come first and numbers after them, in functions to come too; four
 * numbers before a list are right as well (brancadol_write_node).
 */
#ifndef BRANCADOL_H
#define BRANCADOL_H

#include <stddef.h>
#include <stdint.h>

#ifdef __cplusplus
extern "C" {
#endif

/* A letter: signal k holds where bit k is set. A trace is two lists of letters,
 * a lead-in and a loop. With an empty loop it is finite; otherwise the loop
 * repeats for ever. Moments are counted from 0 along a trace. */
typedef uint32_t brancadol_letter;

/* Limits. */
enum {
    BRANCADOL_SIGNALS = 32,             /* signals are 0 to 31 */
    BRANCADOL_MOST_PSL_NODES = 1024,    /* of a PSL table */
    BRANCADOL_MOST_LTL_NODES = 4096,    /* of an LTL table */
    BRANCADOL_MOST_EMITTED_NODES = 4094, /* of what brancadol_translate gives */
    BRANCADOL_MOST_LETTERS = 64,        /* of a trace that is judged or read */
    BRANCADOL_MOST_LINE_BYTES = 16384,  /* of a line that is read */
    BRANCADOL_MOST_NODE_BYTES = 23      /* of a node line */
};

/* A table is a list of 16-bit numbers, three for each node: kind, left, right.
 * Nodes are counted from 0, and the last is the root. left and right are the
 * numbers of operands, which are below their user's, or for var the signal; an
 * unused place holds 0. */

/* PSL. The first four kinds are Booleans, the others formulas. Each node but
 * the last is an operand exactly once, and the last is a formula. */
enum brancadol_psl_kind {
    BRANCADOL_PSL_TRUE = 0,
    BRANCADOL_PSL_VAR = 1,    /* left: signal */
    BRANCADOL_PSL_BNOT = 2,   /* left: Boolean */
    BRANCADOL_PSL_BAND = 3,   /* left, right: Booleans */
    BRANCADOL_PSL_WEAK = 4,   /* left: Boolean */
    BRANCADOL_PSL_STRONG = 5, /* left: Boolean */
    BRANCADOL_PSL_NOT = 6,    /* left: formula */
    BRANCADOL_PSL_AND = 7,    /* left, right: formulas */
    BRANCADOL_PSL_NEXT = 8,   /* left: formula */
    BRANCADOL_PSL_UNTIL = 9,  /* left, right: formulas */
    BRANCADOL_PSL_ABORT = 10  /* left: formula, right: Boolean */
};

/* LTL. A node may be an operand often or never. */
enum brancadol_ltl_kind {
    BRANCADOL_LTL_TRUE = 0,
    BRANCADOL_LTL_VAR = 1,  /* left: signal */
    BRANCADOL_LTL_NOT = 2,  /* left */
    BRANCADOL_LTL_AND = 3,  /* left, right */
    BRANCADOL_LTL_OR = 4,   /* left, right */
    BRANCADOL_LTL_NEXT = 5, /* left */
    BRANCADOL_LTL_UNTIL = 6 /* left, right */
};

/* The numbers of refusals; after a semicolon the place that one carries, a node
 * or a byte of the line, both counted from 0. Where none stands it carries none.
 * The byte is the first such that no line of the shape, of any length, begins with
 * the bytes up to it and with it; where the line is only cut short, its length. */
enum brancadol_refusal_number {
    /* of a PSL table: node by node up to 6, within a node in this order */
    BRANCADOL_REFUSED_PSL_LENGTH = 1,  /* no multiple of 3, or not 1 to 1,024 nodes */
    BRANCADOL_REFUSED_PSL_KIND = 2,    /* a kind above 10; its node */
    BRANCADOL_REFUSED_PSL_UNUSED = 3,  /* an unused place that is not 0; its node */
    BRANCADOL_REFUSED_PSL_SIGNAL = 4,  /* a signal above 31; its node */
    BRANCADOL_REFUSED_PSL_OPERAND = 5, /* an operand not below its user; the user */
    BRANCADOL_REFUSED_PSL_SORT = 6,    /* an operand of the wrong sort; its user */
    BRANCADOL_REFUSED_PSL_USES = 7,    /* a node but the last not used exactly once; lowest */
    BRANCADOL_REFUSED_PSL_ROOT = 8,    /* the last node is Boolean; that node */
    /* of a trace that is judged, and of the translation's room */
    BRANCADOL_REFUSED_TRACE_LONG = 9,  /* more than 64 letters */
    BRANCADOL_REFUSED_TABLE_ROOM = 10, /* the lent list has fewer than 3 * S numbers */
    /* of an LTL table, as 1 to 5, and of the one node of a node line */
    BRANCADOL_REFUSED_LTL_LENGTH = 11,  /* no multiple of 3, or not 1 to 4,096 nodes */
    BRANCADOL_REFUSED_LTL_KIND = 12,    /* a kind above 6; its node */
    BRANCADOL_REFUSED_LTL_UNUSED = 13,  /* an unused place that is not 0; its node */
    BRANCADOL_REFUSED_LTL_SIGNAL = 14,  /* a signal above 31; its node */
    BRANCADOL_REFUSED_LTL_OPERAND = 15, /* an operand not below its user; the user */
    BRANCADOL_REFUSED_TRACE_EMPTY = 16, /* a trace without letters has no LTL meaning */
    /* of lines */
    BRANCADOL_REFUSED_LINE_LONG = 17,    /* more than 16,384 bytes */
    BRANCADOL_REFUSED_LINE_SHAPE = 18,   /* not of the shape; the byte at which it breaks */
    BRANCADOL_REFUSED_LINE_NODES = 19,   /* a formula of more than 1,024 nodes, spelled out */
    BRANCADOL_REFUSED_LINE_SIGNAL = 20,  /* a signal above 31 */
    BRANCADOL_REFUSED_LINE_LETTER = 21,  /* a letter above 4,294,967,295 */
    BRANCADOL_REFUSED_LINE_LETTERS = 22, /* more than 64 letters */
    BRANCADOL_REFUSED_LINE_ROOM = 23,    /* a lent list is too short for what was read */
    BRANCADOL_REFUSED_NODE_ROOM = 24,    /* the lent list is too short for the line */
    BRANCADOL_REFUSED_MOMENT = 25        /* the trace is finite and ends before the moment */
};

/* The refusal of an answer, 0 where the operation succeeded. */
static inline unsigned brancadol_refusal(uint64_t answer) {
    return (unsigned)(answer & 255);
}

/* The value of an answer. */
static inline uint64_t brancadol_value(uint64_t answer) {
    return answer >> 8;
}

/* Whether a refusal carries a place. */
static inline int brancadol_has_place(uint64_t answer) {
    return brancadol_refusal(answer) != 0 && brancadol_value(answer) != 0;
}

/* The place that a refusal carries, where it carries one. */
static inline size_t brancadol_place(uint64_t answer) {
    return (size_t)(brancadol_value(answer) - 1);
}

/* The two lengths that brancadol_read_trace gives. */
static inline size_t brancadol_lead_length(uint64_t answer) {
    return (size_t)(brancadol_value(answer) & 65535);
}

static inline size_t brancadol_loop_length(uint64_t answer) {
    return (size_t)(brancadol_value(answer) >> 16);
}

/* Reads a formula line, "(psl F)" without a line end, into a PSL table. Short
 * forms in F are spelled out, and the table is that of the formula spelled out.
 * Value: its nodes n; the first 3 * n numbers of out are the table. Refusals:
 * 17; 18, with its byte; 19; 20; 23. */
uint64_t brancadol_read_formula(const uint8_t *line, size_t line_length,
                                uint16_t *out, size_t out_length);

/* Reads a trace line, "(finite N ...)" or "(lasso (N ...) (N ...))" without a
 * line end. Value: the lead-in's length + 65,536 * the loop's length; so many
 * letters stand at the front of lead and of loop. Refusals: 17; 18, with its byte;
 * 21; 22; 23. */
uint64_t brancadol_read_trace(const uint8_t *line, size_t line_length,
                              brancadol_letter *lead, size_t lead_length,
                              brancadol_letter *loop, size_t loop_length);

/* Checks a PSL table. Value: 0. Refusals: 1; then 2 to 6, node by node; 7; 8; all
 * but 1 with a node. */
uint64_t brancadol_check_psl(const uint16_t *table, size_t table_length);

/* Checks an LTL table. Value: 0. Refusals: 11; then 12 to 15, node by node, with
 * the node. */
uint64_t brancadol_check_ltl(const uint16_t *table, size_t table_length);

/* Translates a PSL table into an LTL table that holds, by the LTL meaning, on
 * exactly those traces with letters on which the formula holds, by the PSL
 * meaning. Value: its nodes S, at most 4,094; the first 3 * S numbers of out
 * are the table, which brancadol_check_ltl accepts. Refusals: 1 to 8 as
 * brancadol_check_psl, place included; 10. */
uint64_t brancadol_translate(const uint16_t *table, size_t table_length,
                             uint16_t *out, size_t out_length);

/* Whether the formula of a PSL table holds on a trace. Value: 1 yes, 0 no.
 * Refusals: 1 to 8 as brancadol_check_psl, place included; 9. */
uint64_t brancadol_psl_verdict(const uint16_t *table, size_t table_length,
                               const brancadol_letter *lead, size_t lead_length,
                               const brancadol_letter *loop, size_t loop_length);

/* Whether an LTL table holds on a trace. Value: 1 yes, 0 no. Refusals: 11 to 15
 * as brancadol_check_ltl, place included; 9; 16. */
uint64_t brancadol_ltl_verdict(const uint16_t *table, size_t table_length,
                               const brancadol_letter *lead, size_t lead_length,
                               const brancadol_letter *loop, size_t loop_length);

/* The letter of a moment, for lists of any length: with a loop every moment has
 * one. Value: 0; the letter is written to *letter, which a refusal leaves as it
 * was. Refusals: 25. */
uint64_t brancadol_letter_at(const brancadol_letter *lead, size_t lead_length,
                             const brancadol_letter *loop, size_t loop_length,
                             size_t moment, brancadol_letter *letter);

/* The rest of the list that a moment falls in, from that letter on, for lists of
 * any length; past both lists nothing. Value: the length of that part; its
 * letters are written to the front of out, as many as have room. No refusals. */
uint64_t brancadol_rest(const brancadol_letter *lead, size_t lead_length,
                        const brancadol_letter *loop, size_t loop_length,
                        brancadol_letter *out, size_t out_length, size_t moment);

/* Writes the line of LTL node own, as "(14 until 9 13)" and a byte 10. Value:
 * its bytes, at most 23. Refusals: 11 where own is above 4,095; 12 to 15 for
 * that node, with own as the place; 24. */
uint64_t brancadol_write_node(uint16_t own, uint16_t kind, uint16_t left,
                              uint16_t right, uint8_t *out, size_t out_length);

#ifdef __cplusplus
}
#endif

#endif
