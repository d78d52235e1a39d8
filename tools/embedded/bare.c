/* What a C program needs on a processor without a C library, under an emulator of Linux's system calls: a start, memset and memcpy, and printf of %s, %u, %llu and %.4f. */
typedef __SIZE_TYPE__ size_t;
typedef __builtin_va_list va_list;

int main(void);
int printf(const char *form, ...);
void start(void);

void *memset(void *to, int byte, size_t n)
{
    volatile unsigned char *p = to;
    while (n--)
        *p++ = (unsigned char)byte;
    return to;
}

void *memcpy(void *to, const void *from, size_t n)
{
    volatile unsigned char *p = to;
    const unsigned char *q = from;
    while (n--)
        *p++ = *q++;
    return to;
}

#if defined __arm__
void __aeabi_memcpy(void *to, const void *from, size_t n) { memcpy(to, from, n); }
void __aeabi_memclr(void *to, size_t n) { memset(to, 0, n); }
void __aeabi_memclr4(void *to, size_t n) { memset(to, 0, n); }
void __aeabi_memclr8(void *to, size_t n) { memset(to, 0, n); }
enum { WRITE = 4, EXIT = 1 };
static long ask(long what, long a, long b, long c)
{
    register long r7 __asm__("r7") = what, r0 __asm__("r0") = a, r1 __asm__("r1") = b, r2 __asm__("r2") = c;
    __asm__ volatile("svc 0" : "+r"(r0) : "r"(r7), "r"(r1), "r"(r2) : "memory");
    return r0;
}
__asm__(".globl _start\n.thumb_func\n_start: bl start\n");
#elif defined __aarch64__
enum { WRITE = 64, EXIT = 93 };
static long ask(long what, long a, long b, long c)
{
    register long x8 __asm__("x8") = what, x0 __asm__("x0") = a, x1 __asm__("x1") = b, x2 __asm__("x2") = c;
    __asm__ volatile("svc 0" : "+r"(x0) : "r"(x8), "r"(x1), "r"(x2) : "memory");
    return x0;
}
__asm__(".globl _start\n_start: bl start\n");
#else
enum { WRITE = 1, EXIT = 60 };
static long ask(long what, long a, long b, long c)
{
    long r;
    __asm__ volatile("syscall" : "=a"(r) : "a"(what), "D"(a), "S"(b), "d"(c) : "rcx", "r11", "memory");
    return r;
}
__asm__(".globl _start\n_start: and $-16, %rsp\ncall start\n");
#endif

static void say(const char *s, size_t n) { ask(WRITE, 1, (long)s, (long)n); }

/* Digits by subtraction: a 64-bit division would ask for a library on a 32-bit processor. */
static void digits(unsigned long long k, int least)
{
    static const unsigned long long tens[] = {10000000000000000000ull, 1000000000000000000ull, 100000000000000000ull, 10000000000000000ull, 1000000000000000ull,
        100000000000000ull, 10000000000000ull, 1000000000000ull, 100000000000ull, 10000000000ull, 1000000000ull, 100000000ull, 10000000ull, 1000000ull,
        100000ull, 10000ull, 1000ull, 100ull, 10ull, 1ull};
    int begun = 0;
    for (int t = 0; t < 20; t++) {
        char d = '0';
        while (k >= tens[t]) {
            k -= tens[t];
            d++;
        }
        begun |= d != '0' || t >= 20 - least;
        if (begun)
            say(&d, 1);
    }
}

static void fraction(double x)
{
    unsigned long whole = (unsigned long)x;
    digits(whole, 1);
    say(".", 1);
    digits((unsigned long)((x - (double)whole) * 10000.0 + 0.5), 4);
}

int printf(const char *form, ...)
{
    va_list rest;
    __builtin_va_start(rest, form);
    for (; *form; form++) {
        if (*form != '%') {
            say(form, 1);
            continue;
        }
        form++;
        if (*form == 's') {
            const char *s = __builtin_va_arg(rest, const char *);
            while (*s)
                say(s++, 1);
        } else if (*form == 'u') {
            digits(__builtin_va_arg(rest, unsigned), 1);
        } else if (*form == 'l') {
            form += 2;
            digits(__builtin_va_arg(rest, unsigned long long), 1);
        } else {
            form += 2;
            fraction(__builtin_va_arg(rest, double));
        }
    }
    __builtin_va_end(rest);
    return 0;
}

void start(void)
{
    ask(EXIT, main(), 0, 0);
}
