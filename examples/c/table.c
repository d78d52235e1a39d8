/* Fills a decoder's table from a start list, looks every bib up again, and shows what refusals look like; then a small system by each solver. */
#include "orohkaril.h"

int printf(const char *, ...);

typedef unsigned long long big;
#define LENGTH(a) (sizeof(a) / sizeof((a)[0]))

enum { CELLS = 8 };
static uint64_t table[CELLS];
static uint32_t numbers[OROHKARIL_PEEL_LOW_NUMBERS(CELLS)];
static uint8_t bytes[OROHKARIL_PEEL_LOW_BYTES(CELLS)];

static void look_up(const struct orohkaril_edge *e)
{
    uint64_t bib;
    orohkaril_size place;
    uint32_t number = orohkaril_lookup(table, CELLS, e->a, e->b, e->c, &bib, &place);
    printf("  cells %u %u %u: bib %llu (%s)\n", e->a, e->b, e->c, (big)bib, orohkaril_answer_text(number));
}

static void fill_table(const char *name, const struct orohkaril_edge *list, orohkaril_size m, orohkaril_size lent_bytes)
{
    orohkaril_size peeled, total, place;
    double unpeeled;
    uint32_t number = orohkaril_peel_low(CELLS, list, m, table, CELLS, numbers, LENGTH(numbers), bytes, lent_bytes, &peeled, &total, &unpeeled, &place);
    printf("%s: %u, place %llu: %s\n", name, number, (big)place, orohkaril_answer_text(number));
    if (number == OROHKARIL_STUCK)
        printf("  peeled %llu of %llu, %.4f percent left\n", (big)peeled, (big)total, unpeeled);
    if (number == OROHKARIL_SOLVED)
        for (orohkaril_size i = 0; i < m; i++)
            look_up(&list[i]);
}

/* The other peeler, with more memory, gives the same table. */
static void compare(const struct orohkaril_edge *list)
{
    enum { EDGES = 3 };
    static uint64_t other[CELLS];
    static uint32_t high_numbers[OROHKARIL_PEEL_HIGH_NUMBERS(CELLS, EDGES)];
    static uint8_t high_bytes[OROHKARIL_PEEL_HIGH_BYTES(CELLS, EDGES)];
    orohkaril_size peeled, total, place;
    double unpeeled;
    uint32_t number = orohkaril_peel_high(CELLS, list, EDGES, other, CELLS, high_numbers, LENGTH(high_numbers), high_bytes, LENGTH(high_bytes), &peeled,
                                          &total, &unpeeled, &place);
    int same = number == OROHKARIL_SOLVED;
    for (int i = 0; i < CELLS; i++)
        same = same && other[i] == table[i];
    printf("high memory: %u, %s\n", number, same ? "the same table" : "another table");
}

/* x0 ^ x1 = 1 and x0 ^ x2 = 2, as lists of variables and as rows of bits */
enum { N = 3, M = 2, T = 4, W = 1 };
static const uint32_t starts[M + 1] = {0, 2, 4}, variables[T] = {0, 1, 0, 2};
static const uint64_t constants[M] = {1, 2}, rows[M * W] = {3, 5};
static uint64_t solution[N];
static uint32_t solver_numbers[OROHKARIL_LAZY_NUMBERS(N, M, T)];
static uint64_t solver_words[OROHKARIL_LAZY_WORDS(M) + OROHKARIL_DENSE_WORDS(M, W)];

static void show_solution(const char *name, uint32_t number)
{
    printf("%s: %u: %llu %llu %llu\n", name, number, (big)solution[0], (big)solution[1], (big)solution[2]);
}

static void solve(void)
{
    uint64_t cancelled;
    orohkaril_size place;
    show_solution("sparse", orohkaril_sparse(N, M, starts, M + 1, variables, T, constants, M, solution, N, solver_numbers, LENGTH(solver_numbers),
                                             solver_words, LENGTH(solver_words), &cancelled, &place));
    show_solution("lazy", orohkaril_lazy(N, M, starts, M + 1, variables, T, constants, M, solution, N, solver_numbers, LENGTH(solver_numbers),
                                         solver_words, LENGTH(solver_words), &cancelled, &place));
    printf("check: %u\n", orohkaril_check(N, M, starts, M + 1, variables, T, constants, M, solution, N, &place));
    show_solution("dense", orohkaril_dense(N, M, W, rows, M * W, constants, M, solution, N, solver_numbers, LENGTH(solver_numbers), solver_words,
                                           LENGTH(solver_words), &place));
    show_solution("slow", orohkaril_slow(N, M, W, rows, M * W, constants, M, solution, N, solver_numbers, LENGTH(solver_numbers), solver_words,
                                         LENGTH(solver_words), &place));
    uint32_t number = orohkaril_lazy(N, M, starts, M + 1, variables, T, constants, M, solution, N, solver_numbers,
                                     OROHKARIL_LAZY_NUMBERS(N, M, T) - 1, solver_words, LENGTH(solver_words), &cancelled, &place);
    printf("lazy, one number short: %u: %s\n", number, orohkaril_answer_text(number));
}

static void add(void)
{
    static const uint32_t left[] = {1, 3, 5}, right[] = {3, 4};
    uint32_t out[5];
    orohkaril_size length, cancelled, place;
    uint64_t constant;
    uint32_t number = orohkaril_sum(left, 3, right, 2, 9, 5, out, 5, &length, &constant, &cancelled, &place);
    printf("sum: %u: %u %u %u, length %llu, constant %llu, %llu in both\n", number, out[0], out[1], out[2], (big)length, (big)constant, (big)cancelled);
}

int main(void)
{
    static const struct orohkaril_edge heat[] = {{0, 1, 2, 101}, {2, 3, 4, 102}, {4, 5, 6, 103}};
    static const struct orohkaril_edge alike[] = {{0, 1, 2, 5}, {2, 1, 0, 6}, {2, 3, 4, 7}};
    static const struct orohkaril_edge outside[] = {{0, 1, 2, 5}, {2, 3, 8, 6}};
    fill_table("heat", heat, LENGTH(heat), LENGTH(bytes));
    compare(heat);
    fill_table("two with the same cells", alike, LENGTH(alike), LENGTH(bytes));
    fill_table("a cell past the table", outside, LENGTH(outside), LENGTH(bytes));
    fill_table("one byte short", heat, LENGTH(heat), LENGTH(bytes) - 1);
    solve();
    add();
    return 0;
}
