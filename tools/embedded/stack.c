/* Paints the stack, makes each call on systems that are solved, unsolvable or stuck, and says how deep the deepest of them went below main. */
#include "orohkaril.h"

int printf(const char *, ...);

enum { DEEP = 65536, N = 200, M = 190, W = 4 };
static struct orohkaril_edge edges[M];
static uint32_t starts[M + 1], variables[3 * M], out[6];
static uint64_t constants[M], solution[N], rows[M * W];
static uint32_t numbers[OROHKARIL_LAZY_NUMBERS(N, M, 3 * M)];
static uint64_t words[OROHKARIL_DENSE_WORDS(M, W)];
static uint8_t bytes[N + M];
static orohkaril_size place, length, peeled, total, cancelled;
static uint64_t constant, counted;
static double unpeeled;
static uint32_t seed = 2463534242u;

#define LENGTH(a) (sizeof(a) / sizeof((a)[0]))
#define SYSTEM(m) starts, (m) + 1, variables, 3 * (m), constants, m
#define AREAS numbers, LENGTH(numbers), words, LENGTH(words)
#define REPORT &peeled, &total, &unpeeled, &place

static uint32_t draw(uint32_t below)
{
    seed ^= seed << 13;
    seed ^= seed >> 17;
    seed ^= seed << 5;
    uint32_t r = seed & 255;
    return r < below ? r : draw(below);
}

/* The first m of the equations; constants 0 are always met, others need not be. */
static void make(uint32_t most)
{
    for (uint32_t i = 0; i < M; i++) {
        uint32_t a = draw(N - 2), b = a + 1 + draw(N - a - 2), c = b + 1 + draw(N - b - 1);
        edges[i].a = a;
        edges[i].b = b;
        edges[i].c = c;
        edges[i].value = constants[i] = most ? draw(most) : 0;
        variables[3 * i] = a;
        variables[3 * i + 1] = b;
        variables[3 * i + 2] = c;
        starts[i + 1] = 3 * (i + 1);
        for (uint32_t w = 0; w < W; w++)
            rows[i * W + w] = 0;
        rows[i * W + a / 64] ^= 1ull << (a % 64);
        rows[i * W + b / 64] ^= 1ull << (b % 64);
        rows[i * W + c / 64] ^= 1ull << (c % 64);
    }
}

enum { NOTHING, SUM, CHECK, SPARSE, LAZY, DENSE, SLOW, HIGH, LOW, LOOKUP, CALLS };
static const char *const names[CALLS] = {"nothing", "sum", "check", "sparse", "lazy", "dense", "slow", "peel_high", "peel_low", "lookup"};

__attribute__((noinline)) static uint32_t make_call(int what, orohkaril_size m)
{
    switch (what) {
    case SUM: return orohkaril_sum(variables, 3, variables + 3, 3, 1, 2, out, 6, &length, &constant, &cancelled, &place);
    case CHECK: return orohkaril_check(N, m, SYSTEM(m), solution, N, &place);
    case SPARSE: return orohkaril_sparse(N, m, SYSTEM(m), solution, N, AREAS, &counted, &place);
    case LAZY: return orohkaril_lazy(N, m, SYSTEM(m), solution, N, AREAS, &counted, &place);
    case DENSE: return orohkaril_dense(N, m, W, rows, m * W, constants, m, solution, N, AREAS, &place);
    case SLOW: return orohkaril_slow(N, m, W, rows, m * W, constants, m, solution, N, AREAS, &place);
    case HIGH: return orohkaril_peel_high(N, edges, m, solution, N, numbers, LENGTH(numbers), bytes, LENGTH(bytes), REPORT);
    case LOW: return orohkaril_peel_low(N, edges, m, solution, N, numbers, LENGTH(numbers), bytes, LENGTH(bytes), REPORT);
    case LOOKUP: return orohkaril_lookup(solution, N, 1, 2, 3, &constant, &place);
    default: return 0;
    }
}

__attribute__((noinline)) static void paint(void)
{
    volatile unsigned char area[DEEP];
    for (int i = 0; i < DEEP; i++)
        area[i] = 0xA5;
}

__attribute__((noinline)) static uint32_t depth(volatile unsigned char *top)
{
    volatile unsigned char *p = top - DEEP + 1024;
    while (p < top && *p == 0xA5)
        p++;
    return (uint32_t)(top - p);
}

int main(void)
{
    volatile unsigned char *top = (volatile unsigned char *)__builtin_frame_address(0);
    for (int what = 0; what < CALLS; what++) {
        uint32_t deepest = 0, answers = 0;
        for (uint32_t most = 0; most < 2; most++)
            for (orohkaril_size m = 0; m <= M; m += M / 2) {
                make(most * 200);
                paint();
                answers |= 1u << make_call(what, m);
                uint32_t d = depth(top);
                deepest = d > deepest ? d : deepest;
            }
        printf("%s %u answers", names[what], deepest);
        for (unsigned a = 0; a < 11; a++)
            if (answers >> a & 1)
                printf(" %u", a);
        printf("\n");
    }
    return 0;
}
