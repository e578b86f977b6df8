/*
 * Times the proved F_floating multiply (kuj_f_multiply_all) against a plain C loop over the same
 * inputs in one run. Rounds of the two alternate and the best round of each counts, so that other
 * work on the machine weighs on neither. The products must agree, or the exit status is 1.
 */
#define _POSIX_C_SOURCE 199309L
#include <inttypes.h>
#include <stdio.h>
#include <stdlib.h>
#include <string.h>
#include <time.h>

extern void kuj_f_multiply_all(const uint32_t *a, size_t na, const uint32_t *b, size_t nb,
                               uint32_t *out, size_t nout);

enum { ELEMENTS = 4096, REPEATS = 50, ROUNDS = 60 };

/* F_floating product, EXC clear: sign <15>, exponent <14:7>, fraction <6:0> then <31:16>. */
static inline uint32_t multiply(uint32_t a, uint32_t b)
{
    uint32_t ea = a >> 7 & 0xFF, eb = b >> 7 & 0xFF;
    if (ea == 0 || eb == 0) {
        int reserved = (ea == 0 && (a & 0x8000)) || (eb == 0 && (b & 0x8000));
        return reserved ? 0x8004 : 0;
    }
    uint64_t sa = 0x800000 | (a & 0x7F) << 16 | a >> 16;
    uint64_t sb = 0x800000 | (b & 0x7F) << 16 | b >> 16;
    uint64_t product = sa * sb;
    int e = (int)(ea + eb) - 128;
    if (!(product >> 47)) {
        product <<= 1;
        e--;
    }
    uint32_t s = (uint32_t)((product + (1 << 23)) >> 24);
    if (s >> 24) {
        s >>= 1;
        e++;
    }
    if (e < 1)
        return 0;
    if (e > 255)
        return 0x8008;
    return ((a ^ b) & 0x8000) | (uint32_t)e << 7 | (s >> 16 & 0x7F) | s << 16;
}

__attribute__((noinline)) static void multiply_all(const uint32_t *a, const uint32_t *b,
                                                   uint32_t *out, size_t n)
{
    for (size_t i = 0; i < n; i++)
        out[i] = multiply(a[i], b[i]);
}

static uint64_t random_state = 1;

static uint32_t random_bits(void)
{
    uint64_t z = random_state += 0x9E3779B97F4A7C15u;
    z = (z ^ z >> 30) * 0xBF58476D1CE4E5B9u;
    z = (z ^ z >> 27) * 0x94D049BB133111EBu;
    return (uint32_t)(z ^ z >> 31);
}

/* Ordinary numbers: sizes from 2^-8 to 2^8, so that no product leaves the range. */
static uint32_t ordinary(void)
{
    uint32_t bits = random_bits();
    return (bits & ~0x7F80u) | (121 + random_bits() % 16) << 7;
}

/* Any bits: zeros, reserved operands, underflow and overflow all come up. */
static uint32_t any(void)
{
    uint32_t bits = random_bits();
    return random_bits() % 16 ? bits : bits & ~0x7F80u;
}

static double seconds(void)
{
    struct timespec t;
    clock_gettime(CLOCK_MONOTONIC, &t);
    return (double)t.tv_sec + (double)t.tv_nsec * 1e-9;
}

static uint32_t a[ELEMENTS], b[ELEMENTS], proved[ELEMENTS], plain[ELEMENTS];

static int run(const char *name, uint32_t (*operand)(void))
{
    double best_proved = 1e9, best_plain = 1e9;
    for (size_t i = 0; i < ELEMENTS; i++) {
        a[i] = operand();
        b[i] = operand();
    }
    for (int round = 0; round < ROUNDS; round++) {
        memset(proved, 0xAA, sizeof proved);
        memset(plain, 0x55, sizeof plain);
        double start = seconds();
        for (int k = 0; k < REPEATS; k++)
            kuj_f_multiply_all(a, ELEMENTS, b, ELEMENTS, proved, ELEMENTS);
        double between = seconds();
        for (int k = 0; k < REPEATS; k++) {
            multiply_all(a, b, plain, ELEMENTS);
            __asm__ volatile("" : : "r"(plain) : "memory");
        }
        double end = seconds();
        if (between - start < best_proved)
            best_proved = between - start;
        if (end - between < best_plain)
            best_plain = end - between;
        for (size_t i = 0; i < ELEMENTS; i++)
            if (proved[i] != plain[i]) {
                printf("DIFFERS: %08" PRIX32 " times %08" PRIX32 ": proved %08" PRIX32
                       ", plain C %08" PRIX32 "\n", a[i], b[i], proved[i], plain[i]);
                return 1;
            }
    }
    double scale = 1e9 / ((double)ELEMENTS * REPEATS);
    printf("%-9s proved %.2f ns, plain C %.2f ns an element, ratio %.2f\n", name,
           best_proved * scale, best_plain * scale, best_proved / best_plain);
    return 0;
}

int main(void)
{
    printf("F multiply, %d elements, best of %d rounds\n", ELEMENTS, ROUNDS);
    int differs = run("ordinary", ordinary);
    differs |= run("any bits", any);
    return differs;
}
