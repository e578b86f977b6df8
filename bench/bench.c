/*
 * Times the proved library against plain C over the same inputs, in one run.
 *
 *   bench [LIMIT [LIST_LIMIT]]
 *
 * Each row is one piece of work, done by both. First every call of the row is put to both once, and
 * number, what stands beside it, elements, control, marks, memory, file and bits have to be equal and as
 * the row expects (done, or refused there). Then timed rounds of the two alternate, and the best round of
 * each counts, so that other work on the machine weighs on neither. After every round what both left
 * has to be equal again.
 *
 * Prints Markdown tables: the rows, and the groups, each with the mean of its rows and the ratio of the
 * means. LIMIT is the most that a group's ratio may be, but for the group "queue by a list": both
 * sides walk its lists one entry at a time, and LIST_LIMIT is the most for it. A limit that is not
 * given, or 0, judges nothing. Groups above theirs are named on standard error.
 *
 * The exit status is 1 if anything differed or a group is above its limit; 2 if an argument is no
 * limit.
 */
#define _POSIX_C_SOURCE 199309L
#include "calls.h"

#include <inttypes.h>
#include <stdbool.h>
#include <stdio.h>
#include <stdlib.h>
#include <string.h>
#include <time.h>

enum {
    ROUNDS = 100,
    STATES = 4,                 /* sets of operands in a row */
    INSTRUCTIONS = 48,          /* instructions put to each of them */
    WINDOW = 65536,
    QUEUE = 16,
    STEPS = QUEUE * 64,
    ORDERS = 4
};
static const uint64_t ORIGIN = 0x20000;
static const double ROUND_SECONDS = 0.001; /* at least this long, each */

enum { MOE = 0x8000, MTF = 0x4000, EXC = 0x2000 };

/* ---- Numbers at random ---- */

static uint64_t random_state;

static uint64_t random_bits(void)
{
    uint64_t z = random_state += 0x9E3779B97F4A7C15u;
    z = (z ^ z >> 30) * 0xBF58476D1CE4E5B9u;
    z = (z ^ z >> 27) * 0x94D049BB133111EBu;
    return z ^ z >> 31;
}

static uint64_t below(uint64_t n)
{
    return random_bits() % n;
}

/* ---- Operands ---- */

/* Any bits. */
static uint64_t any(void)
{
    return random_bits();
}

/* Longwords below 2^14 in size, of either sign: no sum or product overflows. */
static uint64_t longword(void)
{
    uint32_t l = (uint32_t)below(1 << 15) - (1 << 14);
    return random_bits() << 32 | l;
}

/* F_floating sizes from 2^-8 to 2^8: no sum, product or quotient leaves the range, and no divisor is zero. */
static uint64_t ordinary(void)
{
    uint64_t bits = random_bits();
    return (bits & ~(uint64_t)0x7F80) | (121 + below(16)) << 7;
}

/* Any F_floating bits, with a zero or a reserved operand in 16: every exception comes up. */
static uint64_t any_floating(void)
{
    uint64_t bits = random_bits();
    return below(16) ? bits : bits & ~(uint64_t)0x7F80;
}

/* Offsets of quadwords in the lower half of the window. */
static uint64_t offset(void)
{
    return random_bits() << 32 | below(WINDOW / 2 / 8) * 8;
}

/* ---- One side of a comparison: what is lent to its calls ---- */

struct side {
    _Alignas(4096) uint64_t elements[STATES][KUJ_ELEMENTS]; /* so that both lie alike in the caches */
    struct kuj_control control[STATES];
    uint64_t marks[STATES][KUJ_REGISTERS];
    uint8_t window[WINDOW];
    uint8_t file[KUJ_FILE_BYTES];
    uint64_t beside, kind_read, bits;
    uint64_t sum; /* of all that the calls of a round gave back */
    const struct calls *calls;
};

static struct side sides[2];
static uint64_t masks[STATES]; /* VMR as each state starts */
static int vlr = 64;

static bool same_leftovers(void)
{
    struct side *p = &sides[0], *q = &sides[1];
    return memcmp(p->elements, q->elements, sizeof p->elements) == 0
        && memcmp(p->control, q->control, sizeof p->control) == 0
        && memcmp(p->marks, q->marks, sizeof p->marks) == 0
        && memcmp(p->window, q->window, sizeof p->window) == 0
        && memcmp(p->file, q->file, sizeof p->file) == 0
        && p->beside == q->beside && p->kind_read == q->kind_read && p->bits == q->bits
        && p->sum == q->sum;
}

/* Sources are V0 to V7, of which V6 and V7 are offsets where wanted; only V8 to V15 are written. */
static void fill(uint64_t (*operand)(void), bool offsets)
{
    for (int s = 0; s < STATES; s++) {
        for (int k = 0; k < KUJ_ELEMENTS; k++)
            sides[0].elements[s][k] = offsets && k / 64 / 2 == 3 ? offset() : operand();
        masks[s] = random_bits();
        sides[0].control[s] = (struct kuj_control){ .vlr = (uint64_t)vlr, .vmr = masks[s], .vpsr = 1 };
        for (int r = 0; r < KUJ_REGISTERS; r++) /* few, so that most of what is added shows */
            sides[0].marks[s][r] = random_bits() & random_bits() & random_bits();
    }
    for (int k = 0; k < WINDOW; k++)
        sides[0].window[k] = (uint8_t)random_bits();
    memset(sides[0].file, 0x55, sizeof sides[0].file);
    sides[0].beside = sides[0].kind_read = sides[0].bits = sides[0].sum = 0;
    const struct calls *calls = sides[1].calls;
    sides[1] = sides[0];
    sides[1].calls = calls;
}

/* ---- What a row does ---- */

struct instruction {
    uint8_t opcode;
    uint16_t cntrl;
    uint64_t scalar;
    uint32_t base, stride;
};

static struct instruction program[INSTRUCTIONS];
static bool put_back; /* the row's calls change VMR or disable the processor: both are put back */

static struct { uint8_t opcodes[QUEUE]; uint16_t cntrls[QUEUE]; uint64_t scalars[QUEUE]; } queue;
static uint64_t orders[ORDERS][STEPS];

/* Calls are numbered; a row's pass is calls 0 to n - 1. One of these puts call k and gives back an
   answer: the number and what stands beside it, and what was read. */
typedef uint64_t call(struct side *side, int k);

static inline uint64_t answer(uint32_t number, uint64_t beside)
{
    return (uint64_t)number << 32 ^ beside;
}

static inline uint64_t call_execute(struct side *side, int k)
{
    int s = k / INSTRUCTIONS;
    const struct instruction *in = &program[k % INSTRUCTIONS];
    if (put_back) {
        side->control[s].vmr = masks[s];
        side->control[s].vpsr = 1;
    }
    return answer(side->calls->execute(side->elements[s], &side->control[s], side->marks[s], in->opcode,
                                       in->cntrl, in->scalar, in->base, in->stride, side->window, WINDOW,
                                       ORIGIN, &side->beside),
                  side->beside);
}

static inline uint64_t call_run(struct side *side, int k)
{
    uint32_t number = side->calls->run(side->elements[k], &side->control[k], side->marks[k],
                                       queue.opcodes, QUEUE, queue.cntrls, QUEUE, queue.scalars, QUEUE,
                                       &side->beside);
    return answer(number, side->beside);
}

static inline uint64_t call_run_order(struct side *side, int k)
{
    int s = k % STATES;
    uint32_t number = side->calls->run_order(side->elements[s], &side->control[s], side->marks[s],
                                             queue.opcodes, QUEUE, queue.cntrls, QUEUE, queue.scalars,
                                             QUEUE, orders[k / STATES], (size_t)(QUEUE * vlr),
                                             &side->beside);
    return answer(number, side->beside);
}

static inline uint64_t call_save(struct side *side, int k)
{
    uint32_t number = side->calls->save(side->elements[k], &side->control[k], side->file,
                                        KUJ_FILE_BYTES, &side->beside);
    return answer(number, side->beside);
}

static inline uint64_t call_load(struct side *side, int k)
{
    uint32_t number = side->calls->load(side->elements[k], &side->control[k], side->marks[k], side->file,
                                        KUJ_FILE_BYTES, &side->beside);
    return answer(number, side->beside);
}

static inline uint64_t call_clear_marks(struct side *side, int k)
{
    uint32_t number = side->calls->clear_marks(side->marks[k], &side->beside);
    return answer(number, side->beside);
}

static uint32_t reading_kind;

static inline uint64_t call_reading(struct side *side, int k)
{
    uint32_t number = side->calls->reading(side->elements[0], &side->control[0], (uint32_t)k / 64,
                                           (uint32_t)k % 64, reading_kind, &side->kind_read,
                                           &side->bits, &side->beside);
    return answer(number, side->beside) + side->bits + side->kind_read;
}

static inline uint64_t call_read_vlr(struct side *side, int k)
{
    uint32_t number = side->calls->read_vlr(&side->control[k], &side->beside);
    return answer(number, side->beside);
}

static inline uint64_t call_write_vlr(struct side *side, int k)
{
    uint32_t number = side->calls->write_vlr(&side->control[k], 61 + (uint64_t)k, &side->beside);
    return answer(number, side->beside);
}

/* ---- Timing ---- */

static const char *group;
static double group_time[2];
static int group_rows, failures;
static double limit, list_limit; /* of a group's ratio; 0 for none */
static char lines[16][160]; /* the groups' lines, printed at the end */
static char above[16][160]; /* what is said of groups above their limit */
static int group_lines, groups_above;

static double seconds(void)
{
    struct timespec t;
    clock_gettime(CLOCK_MONOTONIC, &t);
    return (double)t.tv_sec + (double)t.tv_nsec * 1e-9;
}

/* Inlined with a constant call, so that the timed loop calls the library alone through a pointer. */
static inline __attribute__((always_inline)) void pass(struct side *side, call *put, int n, int repeats)
{
    uint64_t sum = 0;
    for (int r = 0; r < repeats; r++)
        for (int k = 0; k < n; k++)
            sum = sum * 5 + put(side, k);
    side->sum = sum;
}

typedef void passes(struct side *side, int n, int repeats);
#define PASSES(NAME) \
    static void passes_##NAME(struct side *side, int n, int repeats) \
    { \
        pass(side, call_##NAME, n, repeats); \
    }
PASSES(execute)
PASSES(run)
PASSES(run_order)
PASSES(save)
PASSES(load)
PASSES(clear_marks)
PASSES(reading)
PASSES(read_vlr)
PASSES(write_vlr)

static void fail(const char *work, const char *what, int at)
{
    fprintf(stderr, "DIFFERS: %s, %s: %s, call %d\n", group, work, what, at);
    failures++;
}

/* A row: n calls of `units` units each, which all have to give `number` and `beside`. */
static void row(const char *work, const char *unit, passes *timed, call *put, int n, double units,
                uint32_t number, uint64_t beside)
{
    for (int k = 0; k < n; k++) {
        for (int side = 0; side < 2; side++) {
            sides[side].beside = sides[side].kind_read = sides[side].bits = 0;
            uint64_t expected = answer(number, beside), given = put(&sides[side], k);
            if (given - sides[side].bits - sides[side].kind_read != expected) {
                fail(work, side ? "plain C gives another number" : "proved gives another number", k);
                return;
            }
        }
        if (!same_leftovers()) {
            fail(work, "what was left", k);
            return;
        }
    }
    /* As many passes to a round as fill its time with the quicker of the two. */
    int repeats = 1;
    for (;;) {
        double start = seconds();
        timed(&sides[0], n, repeats);
        double between = seconds();
        timed(&sides[1], n, repeats);
        double end = seconds();
        if (between - start >= ROUND_SECONDS && end - between >= ROUND_SECONDS)
            break;
        repeats *= 2;
    }
    double best[2] = { 1e9, 1e9 };
    for (int round = 0; round < ROUNDS; round++)
        for (int turn = 0; turn < 2; turn++) {
            int side = turn ^ (round & 1);
            double start = seconds();
            timed(&sides[side], n, repeats);
            double time = seconds() - start;
            if (time < best[side])
                best[side] = time;
            if (turn == 1 && !same_leftovers()) {
                fail(work, "what was left after a round", round);
                return;
            }
        }
    for (int s = 0; s < STATES; s++)
        if (!put_back && (sides[0].control[s].vpsr != 1 || sides[0].control[s].vaer != 0)) {
            fail(work, "an exception was recorded, so that refusals were timed", s);
            return;
        }
    double scale = 1e9 / ((double)repeats * n * units);
    for (int side = 0; side < 2; side++)
        group_time[side] += best[side] * scale;
    group_rows++;
    /* The row's name says the VLR where the work goes by it. */
    printf("| %s | %s", group, work);
    if (put == call_execute || put == call_run || put == call_run_order)
        printf(" at VLR %d", vlr);
    printf(" | %s | %.2f | %.2f | %.2f |\n", unit, best[0] * scale, best[1] * scale, best[0] / best[1]);
    fflush(stdout);
}

static void begin(const char *name)
{
    group = name;
    group_time[0] = group_time[1] = 0;
    group_rows = 0;
}

/* The group's line. at_most is the limit that judges it, called name. */
static void end_within(const char *unit, double at_most, const char *name)
{
    if (group_rows == 0)
        return;
    double ratio = group_time[0] / group_time[1];
    bool over = at_most > 0 && ratio > at_most;
    snprintf(lines[group_lines++], sizeof lines[0], "| %s | %s | %.2f | %.2f | %.2f%s |", group, unit,
             group_time[0] / group_rows, group_time[1] / group_rows, ratio,
             over ? " (above the limit)" : "");
    if (over)
        snprintf(above[groups_above++], sizeof above[0],
                 "ABOVE THE LIMIT: %s: %.3f times plain C, %s is %g", group, ratio, name, at_most);
}

static void end(const char *unit)
{
    end_within(unit, limit, "LIMIT");
}

/* ---- Rows of one instruction ---- */

enum { VECTOR_SOURCES, CONVERSION, RELATION }; /* what stands in <11:8> and <3:0> */

static void instructions(const char *work, uint64_t (*operand)(void), uint8_t opcode, uint16_t flags,
                         int form, unsigned code)
{
    static const uint16_t relations[] = { 0, 1, 2, 4, 5, 6 };
    fill(operand, false);
    for (int k = 0; k < INSTRUCTIONS; k++) {
        unsigned va = form == CONVERSION ? code : (unsigned)below(8);
        unsigned vb = (unsigned)below(8);
        unsigned vc = form == RELATION ? relations[below(6)] : 8 + (unsigned)below(8);
        program[k] = (struct instruction){
            .opcode = opcode, .cntrl = (uint16_t)(flags | va << 8 | vb << 4 | vc), .scalar = operand()
        };
    }
    row(work, "element", passes_execute, call_execute, STATES * INSTRUCTIONS, 64, 0, 0);
}

static void integer(void)
{
    const uint16_t masked = MOE | MTF | EXC;
    begin("integer");
    instructions("add", longword, 0x80, EXC, VECTOR_SOURCES, 0);
    instructions("add, masked", longword, 0x80, masked, VECTOR_SOURCES, 0);
    instructions("add, scalar", longword, 0x81, EXC, VECTOR_SOURCES, 0);
    instructions("exclusive or", any, 0xE8, 0, VECTOR_SOURCES, 0);
    instructions("exclusive or, masked", any, 0xE8, MOE | MTF, VECTOR_SOURCES, 0);
    instructions("shift left", any, 0xE4, 0, VECTOR_SOURCES, 0);
    instructions("multiply", longword, 0xA0, EXC, VECTOR_SOURCES, 0);
    instructions("multiply, masked", longword, 0xA0, masked, VECTOR_SOURCES, 0);
    put_back = true;
    instructions("compare", any, 0xC0, 0, RELATION, 0);
    instructions("compare, scalar", any, 0xC1, 0, RELATION, 0);
    instructions("compare, masked", any, 0xC0, MOE, RELATION, 0);
    put_back = false;
    instructions("merge", any, 0xEE, MTF, VECTOR_SOURCES, 0);
    instructions("merge, scalar", any, 0xEF, MTF, VECTOR_SOURCES, 0);
    instructions("IOTA", any, 0xED, MTF, VECTOR_SOURCES, 0);
    end("element");
}

static void floating(void)
{
    begin("floating");
    instructions("add", ordinary, 0x84, EXC, VECTOR_SOURCES, 0);
    instructions("add, masked", ordinary, 0x84, MOE | MTF | EXC, VECTOR_SOURCES, 0);
    instructions("subtract, scalar", ordinary, 0x8D, EXC, VECTOR_SOURCES, 0);
    instructions("multiply", ordinary, 0xA4, EXC, VECTOR_SOURCES, 0);
    instructions("multiply, scalar", ordinary, 0xA5, EXC, VECTOR_SOURCES, 0);
    instructions("multiply, masked", ordinary, 0xA4, MOE | MTF | EXC, VECTOR_SOURCES, 0);
    instructions("divide", ordinary, 0xAC, EXC, VECTOR_SOURCES, 0);
    instructions("divide, scalar", ordinary, 0xAD, EXC, VECTOR_SOURCES, 0);
    instructions("divide, masked", ordinary, 0xAC, MOE | MTF | EXC, VECTOR_SOURCES, 0);
    put_back = true;
    instructions("compare", ordinary, 0xC4, 0, RELATION, 0);
    instructions("compare, scalar", ordinary, 0xC5, 0, RELATION, 0);
    instructions("compare, masked", ordinary, 0xC4, MOE, RELATION, 0);
    put_back = false;
    instructions("convert L to F", any, 0xEC, EXC, CONVERSION, 1);
    instructions("convert F to L, rounded", ordinary, 0xEC, EXC, CONVERSION, 5);
    instructions("convert F to L, truncated", ordinary, 0xEC, EXC, CONVERSION, 4);
    put_back = true;
    instructions("add, any bits", any_floating, 0x84, EXC, VECTOR_SOURCES, 0);
    instructions("multiply, any bits", any_floating, 0xA4, EXC, VECTOR_SOURCES, 0);
    instructions("divide, any bits", any_floating, 0xAC, EXC, VECTOR_SOURCES, 0);
    put_back = false;
    end("element");
}

/* ---- Rows of memory ---- */

static void moves(const char *work, uint8_t opcode, uint16_t flags)
{
    unsigned size = opcode & 2 ? 8 : 4;
    bool offsets = opcode & 1, stores = opcode & 0x80;
    fill(any, true);
    for (int k = 0; k < INSTRUCTIONS; k++) {
        /* 64 elements at most 16 sizes apart, rising or falling, within the window. */
        uint32_t apart = (uint32_t)(1 + below(16)) * size, span = 63 * apart + size;
        bool falling = below(2);
        uint32_t first = (uint32_t)ORIGIN + (uint32_t)below((WINDOW - span) / size + 1) * size;
        unsigned vb = 6 + (unsigned)below(2), vc = stores ? (unsigned)below(6) : 8 + (unsigned)below(8);
        program[k] = (struct instruction){
            .opcode = opcode,
            .cntrl = (uint16_t)(flags | vb << 4 | vc),
            .base = offsets ? (uint32_t)(ORIGIN + below(WINDOW / 2 / 8) * 8)
                : falling ? first + 63 * apart : first,
            .stride = falling ? 0 - apart : apart,
        };
    }
    row(work, "element", passes_execute, call_execute, STATES * INSTRUCTIONS, 64, 0, 0);
}

static void memory(void)
{
    begin("memory");
    moves("load L", 0x34, 0);
    moves("load L, masked", 0x34, MOE | MTF);
    moves("load Q", 0x36, 0);
    moves("gather L", 0x35, 0);
    moves("gather Q", 0x37, 0);
    moves("store L", 0x9C, 0);
    moves("store L, masked", 0x9C, MOE | MTF);
    moves("store Q", 0x9E, 0);
    moves("scatter L", 0x9D, 0);
    moves("scatter Q", 0x9F, 0);
    end("element");
}

/* ---- Rows of queues ---- */

/* Every result comes from V0 to V3 alone, so that a queue run again leaves the same. */
static const struct instruction whole_numbers[QUEUE] = {
    { 0x80, EXC | 0x018, 0, 0, 0 },         /* V8 = V0 + V1 */
    { 0x89, EXC | 0x029, 5, 0, 0 },         /* V9 = 5 - V2 */
    { 0xE8, 0x89A, 0, 0, 0 },               /* V10 = V8 xor V9 */
    { 0xA0, EXC | 0x23B, 0, 0, 0 },         /* V11 = V2 * V3 */
    { 0xC0, 0x892, 0, 0, 0 },               /* mask: V8 < V9 */
    { 0x80, MOE | MTF | EXC | 0x89C, 0, 0, 0 }, /* V12 = V8 + V9 where set */
    { 0x88, MOE | EXC | 0x89C, 0, 0, 0 },   /* V12 = V8 - V9 where clear */
    { 0xEE, MTF | 0x01D, 0, 0, 0 },         /* V13 = V0 where set, else V1 */
    { 0xC9, 0x0DD, 0x100, 0, 0 },           /* V13 = V13 with bit 8 */
    { 0xCD, 0x0DE, 0xFF, 0, 0 },            /* V14 = V13 without its low byte */
    { 0xE1, 0x0EE, 4, 0, 0 },               /* V14 = V14 >> 4 */
    { 0xE5, 0x0AF, 2, 0, 0 },               /* V15 = V10 << 2 */
    { 0xC1, 0x0B4, 100, 0, 0 },             /* mask: 100 <= V11 */
    { 0xA1, MOE | MTF | EXC | 0x0C4, 3, 0, 0 }, /* V4 = 3 * V12 where set */
    { 0xE8, 0xEF5, 0, 0, 0 },               /* V5 = V14 xor V15 */
    { 0x80, EXC | 0xD36, 0, 0, 0 },         /* V6 = V13 + V3 */
};

/* The work whose straight run is the fastest. */
static const struct instruction exclusive_ors[QUEUE] = {
    { 0xE8, 0x018, 0, 0, 0 }, { 0xE8, 0x129, 0, 0, 0 }, { 0xE8, 0x23A, 0, 0, 0 }, { 0xE8, 0x30B, 0, 0, 0 },
    { 0xE8, 0x01C, 0, 0, 0 }, { 0xE8, 0x12D, 0, 0, 0 }, { 0xE8, 0x23E, 0, 0, 0 }, { 0xE8, 0x30F, 0, 0, 0 },
    { 0xE8, 0x028, 0, 0, 0 }, { 0xE8, 0x139, 0, 0, 0 }, { 0xE8, 0x21A, 0, 0, 0 }, { 0xE8, 0x31B, 0, 0, 0 },
    { 0xE8, 0x02C, 0, 0, 0 }, { 0xE8, 0x13D, 0, 0, 0 }, { 0xE8, 0x20E, 0, 0, 0 }, { 0xE8, 0x32F, 0, 0, 0 },
};

static const struct instruction heat_steps[QUEUE] = {
    { 0x8C, EXC | 0x018, 0, 0, 0 },         /* V8 = V0 - V1 */
    { 0xA5, EXC | 0x088, 0x3F00, 0, 0 },    /* V8 = 0.125 * V8 */
    { 0x84, EXC | 0x089, 0, 0, 0 },         /* V9 = V0 + V8 */
    { 0xA4, EXC | 0x23A, 0, 0, 0 },         /* V10 = V2 * V3 */
    { 0xC4, 0x9A0, 0, 0, 0 },               /* mask: V9 > V10 */
    { 0x84, MOE | MTF | EXC | 0x9AB, 0, 0, 0 }, /* V11 = V9 + V10 where set */
    { 0x8C, MOE | EXC | 0x9AB, 0, 0, 0 },   /* V11 = V9 - V10 where clear */
    { 0xEE, MTF | 0x01C, 0, 0, 0 },         /* V12 = V0 where set, else V1 */
    { 0xA5, EXC | 0x0CC, 0x4100, 0, 0 },    /* V12 = 2 * V12 */
    { 0xEC, EXC | 0x5CD, 0, 0, 0 },         /* V13 = V12 rounded to a longword */
    { 0x81, EXC | 0x0DD, 273, 0, 0 },       /* V13 = 273 + V13 */
    { 0xEC, EXC | 0x1DE, 0, 0, 0 },         /* V14 = V13 as F_floating */
    { 0xC1, 0x0D2, 300, 0, 0 },             /* mask: 300 < V13 */
    { 0x84, MOE | MTF | EXC | 0xE8F, 0, 0, 0 }, /* V15 = V14 + V8 where set */
    { 0xE9, 0x0D4, 0x5555, 0, 0 },          /* V4 = V13 xor 5555 */
    { 0x85, EXC | 0x095, 0x4080, 0, 0 },    /* V5 = 1 + V9 */
};

static void set_queue(const struct instruction *instructions)
{
    for (int p = 0; p < QUEUE; p++) {
        queue.opcodes[p] = instructions[p].opcode;
        queue.cntrls[p] = instructions[p].cntrl;
        queue.scalars[p] = instructions[p].scalar;
    }
}

/* Does instruction p bind to an earlier q? No queue here has an IOTA. Bit 16 is the mask. */
static bool binds(int q, int p)
{
    uint32_t reads[2], writes[2];
    for (int k = 0; k < 2; k++) {
        uint8_t opcode = queue.opcodes[k ? p : q];
        uint16_t word = queue.cntrls[k ? p : q];
        bool compares = (opcode & 0xFA) == 0xC0, merges = (opcode & 0xFE) == 0xEE;
        writes[k] = compares ? 0x10000 : 1u << (word & 15);
        reads[k] = 1u << (word >> 4 & 15);
        if (!(opcode & 1) && opcode != 0xEC)
            reads[k] |= 1u << (word >> 8 & 15);
        if ((word & MOE) || merges)
            reads[k] |= 0x10000;
    }
    return (writes[0] & (reads[1] | writes[1])) || (reads[0] & writes[1]);
}

/* Any step whose earlier ones have all come, drawn at random until all have come. */
static void random_order(uint64_t order[STEPS])
{
    bool come[STEPS] = { false };
    for (int k = 0; k < QUEUE * vlr;) {
        int p = (int)below(QUEUE), i = (int)below((uint64_t)vlr), step = p * 64 + i;
        bool ready = !come[step];
        for (int q = 0; q < p && ready; q++)
            ready = come[q * 64 + i] || !binds(q, p);
        if (ready) {
            come[step] = true;
            order[k++] = (uint64_t)step;
        }
    }
}

static void random_orders(void)
{
    for (int o = 0; o < ORDERS; o++)
        random_order(orders[o]);
}

static void by_list(const char *work, int n)
{
    row(work, "entry", passes_run_order, call_run_order, n, QUEUE * vlr, 0, 0);
}

/* The queues, each with the operands of its works. */
static const struct {
    const struct instruction *instructions;
    uint64_t (*operand)(void);
    const char *straight, *lists[3];
} queues_timed[] = {
    { exclusive_ors, any, "16 exclusive ors",
      { "exclusive ors, queue order", "exclusive ors, element after element", "exclusive ors, random order" } },
    { whole_numbers, longword, "16 integer instructions",
      { "integer, queue order", "integer, element after element", "integer, random order" } },
    { heat_steps, ordinary, "16 mixed instructions",
      { "mixed, queue order", "mixed, element after element", "mixed, random order" } },
};
enum { TIMED = sizeof queues_timed / sizeof queues_timed[0] };

static void use_queue(int q)
{
    fill(queues_timed[q].operand, false);
    set_queue(queues_timed[q].instructions);
}

static void queues(void)
{
    begin("queue straight");
    for (int q = 0; q < TIMED; q++) {
        use_queue(q);
        row(queues_timed[q].straight, "element", passes_run, call_run, STATES, STEPS, 0, 0);
    }
    end("element");

    begin("queue by a list");
    for (int q = 0; q < TIMED; q++) {
        use_queue(q);
        for (int o = 0; o < ORDERS; o++)
            for (int k = 0; k < STEPS; k++)
                orders[o][k] = (uint64_t)k;
        by_list(queues_timed[q].lists[0], STATES);
        for (int o = 0; o < ORDERS; o++)
            for (int k = 0; k < STEPS; k++)
                orders[o][k] = (uint64_t)(k % QUEUE * 64 + k / QUEUE);
        by_list(queues_timed[q].lists[1], STATES);
        random_orders();
        by_list(queues_timed[q].lists[2], ORDERS * STATES);
    }
    end_within("entry", list_limit, "LIST_LIMIT");

    /* Short vectors. No group has these rows. */
    begin("short queue");
    for (vlr = 4; vlr <= 8; vlr += 4)
        for (int q = 0; q < TIMED; q++) {
            use_queue(q);
            row(queues_timed[q].straight, "element", passes_run, call_run, STATES, QUEUE * vlr, 0, 0);
            random_orders();
            by_list(queues_timed[q].lists[2], ORDERS * STATES);
        }
    vlr = 64;
    use_queue(1);
    random_orders();

    /* The last entry is a repeat; then the second is one too. Beside 9 stands its position. */
    begin("list refused late");
    for (int o = 0; o < ORDERS; o++)
        orders[o][STEPS - 1] = orders[o][below(STEPS - 1)];
    row("at the last entry", "entry", passes_run_order, call_run_order, ORDERS * STATES, STEPS,
        9, STEPS - 1);
    end("entry");
    begin("list refused early");
    for (int o = 0; o < ORDERS; o++)
        orders[o][1] = orders[o][0];
    row("at the second entry", "call", passes_run_order, call_run_order, ORDERS * STATES, 1, 9, 1);
    end("call");
}

/* ---- Rows of files, marks, readings and control moves ---- */

static void files(void)
{
    fill(any, false);
    begin("save");
    row("1,029 records", "record", passes_save, call_save, STATES, 1029, 0, 0);
    end("record");
    begin("load");
    row("1,029 records", "record", passes_load, call_load, STATES, 1029, 0, 0);
    end("record");
    begin("clear marks");
    row("16 words", "call", passes_clear_marks, call_clear_marks, STATES, 1, 0, 0);
    end("call");
}

static void readings(void)
{
    begin("readings");
    reading_kind = KUJ_F_FLOATING;
    fill(ordinary, false);
    row("F_floating", "reading", passes_reading, call_reading, KUJ_ELEMENTS, 1, 0, 0);
    fill(any_floating, false);
    row("F_floating, any bits", "reading", passes_reading, call_reading, KUJ_ELEMENTS, 1, 0, 0);
    reading_kind = KUJ_LONGWORD;
    row("longword", "reading", passes_reading, call_reading, KUJ_ELEMENTS, 1, 0, 0);
    end("reading");
}

static void control_moves(void)
{
    begin("control moves");
    fill(any, false);
    row("write VLR", "call", passes_write_vlr, call_write_vlr, STATES, 1, 0, 0);
    fill(any, false);
    row("read VLR", "call", passes_read_vlr, call_read_vlr, STATES, 1, 0, 64);
    end("call");
}

/* The limit that an argument gives: a number from 0 on. */
static double limit_of(const char *argument)
{
    char *rest;
    double given = strtod(argument, &rest);
    if (rest == argument || *rest != '\0' || !(given >= 0)) {
        fprintf(stderr, "usage: bench [LIMIT [LIST_LIMIT]]: %s is no limit\n", argument);
        exit(2);
    }
    return given;
}

int main(int argc, char **argv)
{
    limit = argc > 1 ? limit_of(argv[1]) : 0;
    list_limit = argc > 2 ? limit_of(argv[2]) : 0;
    sides[0].calls = &proved;
    sides[1].calls = &plain;
    random_state = 1;
    printf("| group | work | unit | proved, ns | plain C, ns | ratio |\n|---|---|---|---|---|---|\n");
    integer();
    floating();
    memory();
    queues();
    files();
    readings();
    control_moves();
    printf("\n| group | unit | proved, ns | plain C, ns | ratio |\n|---|---|---|---|---|\n");
    for (int k = 0; k < group_lines; k++)
        puts(lines[k]);
    if (failures == 0)
        fprintf(stderr, "SAME results in every row\n");
    for (int k = 0; k < groups_above; k++)
        fprintf(stderr, "%s\n", above[k]);
    return failures > 0 || groups_above > 0;
}
