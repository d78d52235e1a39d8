/* Orohkaril: the proved calls, for C11 and C++17. docs/RULES.md has the rules, docs/EMBEDDING.md how to link.
 *
 * A call reads what it is lent, and writes its results, `solution` or `out`, and its work areas; nothing else. It allocates nothing, keeps nothing
 * between calls (there is no writable data), does not recurse, and ends. So calls on different areas may run at the same time.
 * What a caller promises: every pointer is to as many cells as the length beside it says, aligned for its type, and not null even if the length is 0;
 * what is written overlaps neither anything else that is written nor an input.
 * Asked of the linker: memset.
 *
 * Returned is a number of `enum orohkaril_answer`, the first of 1, 2, 3, 4, 5, 7 and the run's own (0, 6, 8) that applies. *place is 0 where the
 * answer has none. What is left behind:
 *
 *     answer        solution    room of each work area    past the room
 *     0             written     zero                      as lent
 *     1 to 5        as lent     as lent                   as lent
 *     6, 7, 8       as lent     zero                      as lent
 */
#ifndef OROHKARIL_H
#define OROHKARIL_H
#include <stdint.h>
#ifdef __cplusplus
extern "C" {
#endif

/* A length, an index or a place: 64 bits on every machine, as in the proofs. */
typedef uint64_t orohkaril_size;

enum orohkaril_answer {
    OROHKARIL_SOLVED = 0,         /* of orohkaril_check: yes */
    OROHKARIL_TOO_LARGE = 1,      /* n, m, t, w, a list of the sum or a table is above the largest */
    OROHKARIL_BAD_SHAPE = 2,      /* starts, rows or constants of a wrong length or order, or n above 64 w */
    OROHKARIL_BAD_ENTRY = 3,      /* place: the lowest equation, row or edge with a bad variable, bit or vertex; of a sum 0 left, 1 right */
    OROHKARIL_WRONG_SOLUTION = 4, /* the solution's length is not n */
    OROHKARIL_SHORT_AREA = 5,     /* a work area is shorter than the room, or a sum's output than both lists together */
    OROHKARIL_UNSOLVABLE = 6,     /* of orohkaril_check: no */
    OROHKARIL_CROWDED = 7,        /* place: the lowest vertex on OROHKARIL_CROWD edges or more */
    OROHKARIL_STUCK = 8,          /* place: how many edges lie outside the core */
    OROHKARIL_BAD_FILE = 9,       /* of the program fill: no link file */
    OROHKARIL_OUTSIDE = 10        /* of stacks and graphs, which have no call here */
};

static inline const char *orohkaril_answer_text(uint32_t number)
{
    switch (number) {
    case OROHKARIL_SOLVED: return "solved";
    case OROHKARIL_TOO_LARGE: return "a size is above the largest";
    case OROHKARIL_BAD_SHAPE: return "starts, rows or constants do not fit the sizes";
    case OROHKARIL_BAD_ENTRY: return "a variable, bit or vertex breaks its rule";
    case OROHKARIL_WRONG_SOLUTION: return "the solution's length is not n";
    case OROHKARIL_SHORT_AREA: return "a work area or an output is too short";
    case OROHKARIL_UNSOLVABLE: return "unsolvable";
    case OROHKARIL_CROWDED: return "a vertex lies on 64 edges or more";
    case OROHKARIL_STUCK: return "stuck: a core is left";
    case OROHKARIL_BAD_FILE: return "not a link file";
    case OROHKARIL_OUTSIDE: return "a stack or graph call outside its domain";
    default: return "no such answer";
    }
}

/* ---- largest sizes */
#define OROHKARIL_MAX_VARIABLES 16384u /* n: variables, vertices, cells; also of a table that is looked up */
#define OROHKARIL_MAX_EQUATIONS 16384u /* m: equations, rows, edges */
#define OROHKARIL_MAX_LISTED 65536u    /* t: listed variables of a system */
#define OROHKARIL_MAX_SUMMED 65536u    /* variables in one list of the sum */
#define OROHKARIL_MAX_ROW_WORDS 256u   /* w: 64-bit words of a dense row */
#define OROHKARIL_CROWD 64u            /* so many edges on one vertex are refused */

/* ---- rooms: numbers are uint32_t, words uint64_t, bytes uint8_t. The largest lazy room is 537,149,442 numbers, 2 GiB: a 32-bit machine
 * keeps n and m smaller. */
#define OROHKARIL_SPARSE_NUMBERS(n, m) ((orohkaril_size)(m) * (n) + (n) + (m))
#define OROHKARIL_SPARSE_WORDS(m) ((orohkaril_size)(m))
#define OROHKARIL_LAZY_NUMBERS(n, m, t) (2 * ((orohkaril_size)(m) * (n)) + (t) + 6 * (orohkaril_size)(n) + 7 * (orohkaril_size)(m) + 2)
#define OROHKARIL_LAZY_WORDS(m) (2 * (orohkaril_size)(m))
#define OROHKARIL_DENSE_NUMBERS(m) ((orohkaril_size)(m)) /* the slow engine's too */
#define OROHKARIL_DENSE_WORDS(m, w) ((orohkaril_size)(m) * (w) + (m))
#define OROHKARIL_PEEL_HIGH_NUMBERS(n, m) (2 * (orohkaril_size)(n) + (m))
#define OROHKARIL_PEEL_HIGH_BYTES(n, m) ((orohkaril_size)(n) + (m))
#define OROHKARIL_PEEL_LOW_NUMBERS(n) (2 * (orohkaril_size)(n))
#define OROHKARIL_PEEL_LOW_BYTES(n) ((orohkaril_size)(n))

/* ---- the link file that the program fill reads, for whoever writes one: byte by byte in docs/RULES.md */
#define OROHKARIL_LINK_MARK "LNK"
#define OROHKARIL_LINK_VERSION 1u
#define OROHKARIL_LINK_SPARSE 1u /* kinds */
#define OROHKARIL_LINK_LAZY 2u
#define OROHKARIL_LINK_PEEL 3u
#define OROHKARIL_LINK_MAX_BYTES 8192u /* a longer file is answered by 9 */
#define OROHKARIL_LINK_MAX_VARIABLES 512u /* more are answered by 1, as are m and t */
#define OROHKARIL_LINK_MAX_EQUATIONS 256u
#define OROHKARIL_LINK_MAX_LISTED 2048u
#define OROHKARIL_LINK_NUMBERS 8192u /* what fill lends; a larger room is answered by 5 */
#define OROHKARIL_LINK_WORDS 512u
#define OROHKARIL_LINK_BYTES 1024u

/* ---- the solvers */

/* Equation i: the XOR of the variables vars[starts[i]] .. vars[starts[i + 1] - 1], rising and below n, is constants[i]. There are m + 1 starts, the
 * first 0, the last vars_len; constants_len is m; solution_len is n. *cancelled: how many variables cancelled in the sums that were made; 0 after 1 to 5. */
uint32_t orohkaril_sparse(orohkaril_size n, orohkaril_size m,
                          const uint32_t *starts, orohkaril_size starts_len, const uint32_t *vars, orohkaril_size vars_len,
                          const uint64_t *constants, orohkaril_size constants_len, uint64_t *solution, orohkaril_size solution_len,
                          uint32_t *numbers, orohkaril_size numbers_len, uint64_t *words, orohkaril_size words_len,
                          uint64_t *cancelled, orohkaril_size *place);
uint32_t orohkaril_lazy(orohkaril_size n, orohkaril_size m,
                        const uint32_t *starts, orohkaril_size starts_len, const uint32_t *vars, orohkaril_size vars_len,
                        const uint64_t *constants, orohkaril_size constants_len, uint64_t *solution, orohkaril_size solution_len,
                        uint32_t *numbers, orohkaril_size numbers_len, uint64_t *words, orohkaril_size words_len,
                        uint64_t *cancelled, orohkaril_size *place);

/* Column c of row i: bit c % 64 of rows[i * w + c / 64]; none is set at column n or above. rows_len is m * w or more, constants_len m or more.
 * The slow engine answers and leaves the same by plainer steps. */
uint32_t orohkaril_dense(orohkaril_size n, orohkaril_size m, orohkaril_size w, const uint64_t *rows, orohkaril_size rows_len,
                         const uint64_t *constants, orohkaril_size constants_len, uint64_t *solution, orohkaril_size solution_len,
                         uint32_t *numbers, orohkaril_size numbers_len, uint64_t *words, orohkaril_size words_len, orohkaril_size *place);
uint32_t orohkaril_slow(orohkaril_size n, orohkaril_size m, orohkaril_size w, const uint64_t *rows, orohkaril_size rows_len,
                        const uint64_t *constants, orohkaril_size constants_len, uint64_t *solution, orohkaril_size solution_len,
                        uint32_t *numbers, orohkaril_size numbers_len, uint64_t *words, orohkaril_size words_len, orohkaril_size *place);

/* 0: the solution meets every equation; 6: it does not. */
uint32_t orohkaril_check(orohkaril_size n, orohkaril_size m,
                         const uint32_t *starts, orohkaril_size starts_len, const uint32_t *vars, orohkaril_size vars_len,
                         const uint64_t *constants, orohkaril_size constants_len, const uint64_t *solution, orohkaril_size solution_len,
                         orohkaril_size *place);

/* The sum of two rising lists with a constant each. out_len is left_len + right_len or more: out gets the *len variables that stand in one list only,
 * then zeros up to left_len + right_len. *cancelled: how many stood in both. A refused sum writes nothing to out, and 0 to len, constant and cancelled. */
uint32_t orohkaril_sum(const uint32_t *left, orohkaril_size left_len, const uint32_t *right, orohkaril_size right_len,
                       uint64_t left_constant, uint64_t right_constant, uint32_t *out, orohkaril_size out_len,
                       orohkaril_size *len, uint64_t *constant, orohkaril_size *cancelled, orohkaril_size *place);

/* ---- the peelers */

/* The XOR of the cells a, b and c, different and below n, is value. 24 bytes: a at 0, b at 4, c at 8, value at 16; what bytes 12 to 15 hold does not matter. */
struct orohkaril_edge {
    uint32_t a, b, c;
    uint64_t value;
};
#ifdef __cplusplus
static_assert(sizeof(struct orohkaril_edge) == 24, "an edge as the proofs have it");
#else
_Static_assert(sizeof(struct orohkaril_edge) == 24, "an edge as the proofs have it");
#endif

/* After 8 *peeled, *total and *unpeeled are the edges peeled, the edges in all and the percentage unpeeled; after any other answer 0, 0 and 0.0. */
uint32_t orohkaril_peel_high(orohkaril_size n, const struct orohkaril_edge *edges, orohkaril_size m, uint64_t *solution, orohkaril_size solution_len,
                             uint32_t *numbers, orohkaril_size numbers_len, uint8_t *bytes, orohkaril_size bytes_len,
                             orohkaril_size *peeled, orohkaril_size *total, double *unpeeled, orohkaril_size *place);
uint32_t orohkaril_peel_low(orohkaril_size n, const struct orohkaril_edge *edges, orohkaril_size m, uint64_t *solution, orohkaril_size solution_len,
                            uint32_t *numbers, orohkaril_size numbers_len, uint8_t *bytes, orohkaril_size bytes_len,
                            orohkaril_size *peeled, orohkaril_size *total, double *unpeeled, orohkaril_size *place);

/* *bib is the XOR of the cells a, b and c of a filled table, 0 with a refusal. */
uint32_t orohkaril_lookup(const uint64_t *table, orohkaril_size table_len, uint32_t a, uint32_t b, uint32_t c, uint64_t *bib, orohkaril_size *place);

#ifdef __cplusplus
}
#endif
#endif
