/*
 * The calls of include/kujawian.h in plain C, by document 01 and document 02's, as one would
 * write them for speed: the switch over the operations outside, the loop over the elements inside. Nothing
 * here is proved. It is what the proved library is timed against, and tests/plain.sh holds it to the
 * independent program.
 *
 * Its calls are named plain_*; compiled with -DSTAND_IN they have the library's own names.
 */
#ifndef STAND_IN
#include "plain_names.h"
#endif
#include "kujawian.h"

#include <stdbool.h>

#define INLINE static inline __attribute__((always_inline))

enum {
    DONE, RESERVED_OPCODE, RESERVED_CONTROL_WORD, DISABLED, WINDOW_REFUSED, MISALIGNED, OUTSIDE,
    MEMORY_IN_QUEUE, QUEUE_REFUSED, ORDER_REFUSED, BAD_FILE, VALUE_REFUSED, STATE_OUT_OF_RANGE, NO_FIELD
};

enum { VEN = 0x01, AEX = 0x80 };
#define VAER_BITS 0xFFFF002Fu

/* VAER's types; those of floating point are also the code of the reserved operand written. */
enum {
    UNDERFLOW = 0x01, DIVIDE_BY_ZERO = 0x02, RESERVED_OPERAND = 0x04, OVERFLOW = 0x08, INTEGER_OVERFLOW = 0x20
};
enum { EXCEPTION = 0x8000 };

/* ---- Numbers ---- */

#define LOW 0xFFFFFFFFu

INLINE uint64_t with_low(uint64_t word, uint32_t low)
{
    return (word & ~(uint64_t)LOW) | low;
}

INLINE uint64_t ones_below(uint64_t n)
{
    return n < 64 ? ((uint64_t)1 << n) - 1 : ~(uint64_t)0;
}

INLINE uint32_t get32(const uint8_t *p)
{
    return p[0] | (uint32_t)p[1] << 8 | (uint32_t)p[2] << 16 | (uint32_t)p[3] << 24;
}

INLINE uint64_t get64(const uint8_t *p)
{
    return get32(p) | (uint64_t)get32(p + 4) << 32;
}

INLINE void put32(uint8_t *p, uint32_t word)
{
    p[0] = (uint8_t)word;
    p[1] = (uint8_t)(word >> 8);
    p[2] = (uint8_t)(word >> 16);
    p[3] = (uint8_t)(word >> 24);
}

INLINE void put64(uint8_t *p, uint64_t word)
{
    put32(p, (uint32_t)word);
    put32(p + 4, (uint32_t)(word >> 32));
}

/* ---- F_floating: sign <15>, exponent <14:7>, fraction <6:0> then <31:16> ---- */

/* The halves exchanged, either way: sign <31>, exponent <30:23>, fraction <22:0>. Below, all operands
   are turned so. */
INLINE uint32_t turned(uint32_t f) { return f << 16 | f >> 16; }

INLINE uint32_t f_exponent(uint32_t f) { return f >> 23 & 0xFF; }
INLINE uint32_t f_sign(uint32_t f) { return f & 0x80000000u; }
INLINE bool f_reserved(uint32_t f) { return f >> 23 == 0x100; }

/* Exponent and fraction in one number, which rises with the size. */
INLINE uint32_t f_size(uint32_t f) { return f & 0x7FFFFFFFu; }

/* The 24 significant bits of a number that is not zero. */
INLINE uint64_t f_significand(uint32_t f) { return (f & 0x7FFFFF) | 0x800000; }

/*
 * Rounds and packs a size whose top bit is bit 63 and stands for 2^(e - 129), e being -127 to 383. A carry
 * out of the fraction raises the exponent by itself. Only then is the exponent judged, at both ends
 * (document 02, Q-2): taken less 1, one below 1 wraps to far above the rest, so that one test finds either.
 */
INLINE uint32_t f_pack(uint32_t sign, int e, uint64_t size, bool exc, uint32_t *types)
{
    const uint32_t smallest = (uint32_t)1 << 23, past_greatest = (uint32_t)256 << 23;
    const uint32_t rounded = ((uint32_t)(size >> 39) + 1) >> 1;
    const uint32_t packed = ((uint32_t)(e - 1) << 23) + rounded;
    if (__builtin_expect(packed - smallest >= past_greatest - smallest, 0)) {
        if (e < 1 && !exc)
            return 0;
        const uint32_t type = e < 1 ? UNDERFLOW : OVERFLOW;
        *types |= type;
        return EXCEPTION | type;
    }
    return turned(sign | packed);
}

INLINE uint32_t f_operand_refused(uint32_t *types)
{
    *types |= RESERVED_OPERAND;
    return EXCEPTION | RESERVED_OPERAND;
}

INLINE uint32_t f_multiply(uint32_t a, uint32_t b, bool exc, uint32_t *types)
{
    a = turned(a);
    b = turned(b);
    const uint32_t ea = f_exponent(a), eb = f_exponent(b);
    if (__builtin_expect(ea == 0 || eb == 0, 0))
        return f_reserved(a) || f_reserved(b) ? f_operand_refused(types) : 0;
    const uint64_t product = f_significand(a) * f_significand(b); /* 47 or 48 bits */
    const unsigned shorter = !(product >> 47);
    return f_pack(f_sign(a ^ b), (int)(ea + eb - shorter) - 128, product << (16 + shorter), exc, types);
}

/* a / b where either is no number: a zero divisor goes first, a reserved dividend beside it or not. */
INLINE uint32_t f_divide_rare(uint32_t a, uint32_t b, uint32_t *types)
{
    uint32_t recorded = 0;
    if (f_exponent(b) == 0 && !f_sign(b))
        recorded = DIVIDE_BY_ZERO | (f_reserved(a) ? RESERVED_OPERAND : 0);
    else if (f_reserved(a) || f_reserved(b))
        recorded = RESERVED_OPERAND;
    *types |= recorded;
    return recorded ? EXCEPTION | recorded : 0;
}

INLINE uint32_t f_divide(uint32_t a, uint32_t b, bool exc, uint32_t *types)
{
    a = turned(a);
    b = turned(b);
    const uint32_t ea = f_exponent(a), eb = f_exponent(b);
    if (__builtin_expect(ea == 0 || eb == 0, 0))
        return f_divide_rare(a, b, types);
    /* 25 or 26 bits: 24 and the one that rounds; only the floor of the exact size matters to rounding. */
    const uint64_t quotient = (f_significand(a) << 25) / f_significand(b);
    const unsigned shorter = !(quotient >> 25);
    return f_pack(f_sign(a ^ b), (int)(ea - eb - shorter) + 129, quotient << (38 + shorter), exc, types);
}

/* a + b, or a - b with negate. */
INLINE uint32_t f_add(uint32_t a, uint32_t b, bool negate, bool exc, uint32_t *types)
{
    a = turned(a);
    b = turned(b);
    if (__builtin_expect(f_exponent(a) == 0 || f_exponent(b) == 0, 0)) {
        if (f_reserved(a) || f_reserved(b))
            return f_operand_refused(types);
        return f_exponent(b) ? turned(b ^ (uint32_t)negate << 31) : f_exponent(a) ? turned(a) : 0;
    }
    b ^= (uint32_t)negate << 31;
    /* x is the larger in size, y the smaller; chosen without a branch, which could not be foretold. */
    const uint32_t swap = (a ^ b) & (0 - (uint32_t)(f_size(a) < f_size(b))), x = a ^ swap, y = b ^ swap;
    const uint64_t opposite = 0 - (uint64_t)((a ^ b) >> 31);
    /* 32 spare bits below the larger; only the floor of the exact size matters to rounding. */
    const uint32_t apart_by = f_exponent(x) - f_exponent(y), apart = apart_by < 57 ? apart_by : 57;
    const uint64_t round_up = (((uint64_t)1 << apart) - 1) & opposite;
    const uint64_t aligned = ((f_significand(y) << 32) + round_up) >> apart;
    const uint64_t size = (f_significand(x) << 32) + ((aligned ^ opposite) - opposite);
    if (__builtin_expect(size == 0, 0))
        return 0;
    const int zeros = __builtin_clzll(size);
    return f_pack(f_sign(x), (int)f_exponent(x) + 8 - zeros, size << zeros, exc, types);
}

INLINE uint32_t f_from_longword(uint32_t l)
{
    if (l == 0)
        return 0;
    uint32_t types = 0;
    const uint64_t size = l >> 31 ? 0 - l : l;
    const int zeros = __builtin_clzll(size);
    return f_pack(f_sign(l), 128 + 64 - zeros, size << zeros, false, &types);
}

INLINE uint32_t f_to_longword(uint32_t f, bool rounded, bool exc, uint32_t *types)
{
    f = turned(f);
    if (f_exponent(f) == 0) {
        if (f_sign(f))
            *types |= RESERVED_OPERAND;
        return 0;
    }
    uint64_t size = f_significand(f);
    int down = 152 - (int)f_exponent(f); /* places of the fraction; past 25 they leave nothing */
    if (down > 0) {
        down = down < 25 ? down : 25;
        size = (size + ((uint64_t)rounded << (down - 1))) >> down;
    } else {
        size = down > -32 ? size << -down : (uint64_t)1 << 32; /* or any that is too large */
    }
    const bool negative = f_sign(f);
    if (size > 0x7FFFFFFFu + (uint64_t)negative && exc)
        *types |= INTEGER_OVERFLOW;
    return negative ? 0 - (uint32_t)size : (uint32_t)size;
}

/* Numbers in order, as the values of operands that are not reserved. */
INLINE int32_t f_rank(uint32_t f)
{
    const int32_t size = f_exponent(f) ? (int32_t)f_size(f) : 0;
    return f_sign(f) ? -size : size;
}

/* ---- Opcodes ---- */

enum work {
    NONE,
    ADD_L, SUBTRACT_L, MULTIPLY_L, BIT_SET, EXCLUSIVE_OR, BIT_CLEAR, SHIFT_RIGHT, SHIFT_LEFT,
    ADD_F, SUBTRACT_F, MULTIPLY_F, DIVIDE_F, TRUNCATED, ROUNDED, L_TO_F, MERGE,
    COMPARE_L, COMPARE_F, CONVERT, IOTA,
    LOAD_L, LOAD_Q, STORE_L, STORE_Q, MEMORY = LOAD_L
};

#define BOTH(opcode, work) [opcode] = work, [opcode + 1] = work
static const uint8_t works[256] = {
    BOTH(0x80, ADD_L), BOTH(0x88, SUBTRACT_L), BOTH(0xA0, MULTIPLY_L), BOTH(0xC0, COMPARE_L),
    BOTH(0xC8, BIT_SET), BOTH(0xE8, EXCLUSIVE_OR), BOTH(0xCC, BIT_CLEAR),
    BOTH(0xE0, SHIFT_RIGHT), BOTH(0xE4, SHIFT_LEFT),
    BOTH(0x84, ADD_F), BOTH(0x8C, SUBTRACT_F), BOTH(0xA4, MULTIPLY_F), BOTH(0xAC, DIVIDE_F),
    BOTH(0xC4, COMPARE_F),
    [0xEC] = CONVERT, [0xED] = IOTA, BOTH(0xEE, MERGE),
    BOTH(0x34, LOAD_L), BOTH(0x36, LOAD_Q), BOTH(0x9C, STORE_L), BOTH(0x9E, STORE_Q),
};

struct instruction {
    enum work work;             /* CONVERT has become one of its three */
    bool odd, moe, mtf, exc;    /* odd: a scalar for Va, or offsets from Vb */
    uint8_t va, vb, vc;
    uint64_t scalar;
};

INLINE bool control_word_refused(enum work work, uint8_t opcode, uint16_t cntrl)
{
    switch (work) {
    case COMPARE_L:
        return (cntrl & 3) == 3;
    case COMPARE_F:
        return (cntrl & 3) == 3 || (cntrl & 8);
    case CONVERT: {
        unsigned code = cntrl >> 8 & 15;
        return code != 1 && code != 4 && code != 5;
    }
    case LOAD_L:
    case LOAD_Q:
        return (opcode & 1) && (cntrl >> 4 & 15) == (cntrl & 15);
    default:
        return false;
    }
}

INLINE struct instruction decoded(uint8_t opcode, uint16_t cntrl, uint64_t scalar)
{
    struct instruction in = {
        .work = works[opcode], .odd = opcode & 1,
        .moe = cntrl >> 15 & 1, .mtf = cntrl >> 14 & 1, .exc = cntrl >> 13 & 1,
        .va = cntrl >> 8 & 15, .vb = cntrl >> 4 & 15, .vc = cntrl & 15,
        .scalar = scalar,
    };
    if (in.work == CONVERT)
        in.work = in.va == 1 ? L_TO_F : in.va == 4 ? TRUNCATED : ROUNDED;
    return in;
}

/* ---- What an element receives ---- */

/* Inlined with a constant work, the switch is gone. bit says whether VMR<i> = MTF. */
INLINE uint64_t result(enum work work, uint64_t a, uint64_t b, uint64_t c, bool bit, bool exc,
                       uint32_t *types)
{
    int64_t sa = (int32_t)a, sb = (int32_t)b, exact;
    switch (work) {
    case ADD_L: exact = sa + sb; break;
    case SUBTRACT_L: exact = sa - sb; break;
    case MULTIPLY_L: exact = sa * sb; break;
    case BIT_SET: return b | (uint32_t)a;
    case EXCLUSIVE_OR: return b ^ (uint32_t)a;
    case BIT_CLEAR: return b & ~(uint64_t)(uint32_t)a;
    case SHIFT_RIGHT: return with_low(c, (uint32_t)b >> (a & 31));
    case SHIFT_LEFT: return with_low(c, (uint32_t)b << (a & 31));
    case ADD_F: return with_low(c, f_add((uint32_t)a, (uint32_t)b, false, exc, types));
    case SUBTRACT_F: return with_low(c, f_add((uint32_t)a, (uint32_t)b, true, exc, types));
    case MULTIPLY_F: return with_low(c, f_multiply((uint32_t)a, (uint32_t)b, exc, types));
    case DIVIDE_F: return with_low(c, f_divide((uint32_t)a, (uint32_t)b, exc, types));
    case TRUNCATED: return with_low(c, f_to_longword((uint32_t)b, false, exc, types));
    case ROUNDED: return with_low(c, f_to_longword((uint32_t)b, true, exc, types));
    case L_TO_F: return with_low(c, f_from_longword((uint32_t)b));
    case MERGE: return bit ? a : b;
    default: return c;
    }
    if (exact != (int32_t)exact && exc)
        *types |= INTEGER_OVERFLOW;
    return with_low(c, (uint32_t)exact);
}

enum relation { GREATER, EQUAL, LESS };

INLINE bool holds(enum relation relation, int32_t a, int32_t b)
{
    return relation == GREATER ? a > b : relation == EQUAL ? a == b : a < b;
}

/* Relations 4 to 6 are 0 to 2 turned round; the caller does that. Reserved operands are marked. */
INLINE bool compared(enum work work, enum relation relation, uint64_t a, uint64_t b, bool *reserved)
{
    uint32_t x = (uint32_t)a, y = (uint32_t)b;
    if (work == COMPARE_L)
        return holds(relation, (int32_t)x, (int32_t)y);
    x = turned(x);
    y = turned(y);
    *reserved = f_reserved(x) || f_reserved(y);
    return holds(relation, f_rank(x), f_rank(y));
}

INLINE uint64_t operated(const struct kuj_control *control, const struct instruction *in)
{
    uint64_t below = ones_below(control->vlr);
    if (!in->moe || in->work == MERGE)
        return below;
    return below & (in->mtf ? control->vmr : ~control->vmr);
}

/* For each one of `which`, rising: a plain loop where they are all those below VLR. */
#define EACH(...) do { \
        if (which == below) \
            for (unsigned i = 0; i < vlr; i++) { __VA_ARGS__ } \
        else \
            for (uint64_t left = which; left; left &= left - 1) { \
                const unsigned i = (unsigned)__builtin_ctzll(left); __VA_ARGS__ \
            } \
    } while (0)

#define OPERANDS \
    const uint64_t *va = elements + 64 * in->va, *vb = elements + 64 * in->vb; \
    const uint64_t scalar = in->scalar, which = operated(control, in); \
    const unsigned vlr = (unsigned)control->vlr

static void compare(const uint64_t *elements, struct kuj_control *control, const struct instruction *in,
                    uint32_t *types)
{
    OPERANDS;
    uint64_t found = 0, refused = 0;
    /* A comparison changes nothing: all below VLR are compared, from the highest, and then masked. */
#define COMPARE_WITH(WORK, RELATION, A) \
    for (unsigned i = vlr; i-- > 0;) { \
        bool reserved = false; \
        found = found << 1 | compared(WORK, RELATION, A, vb[i], &reserved); \
        refused = refused << 1 | reserved; \
    }
#define COMPARE(WORK, RELATION) \
    if (in->odd) { COMPARE_WITH(WORK, RELATION, scalar) } else { COMPARE_WITH(WORK, RELATION, va[i]) }
    if (in->work == COMPARE_L)
        switch (in->vc & 3) {
        case GREATER: COMPARE(COMPARE_L, GREATER); break;
        case EQUAL: COMPARE(COMPARE_L, EQUAL); break;
        default: COMPARE(COMPARE_L, LESS); break;
        }
    else
        switch (in->vc & 3) {
        case GREATER: COMPARE(COMPARE_F, GREATER); break;
        case EQUAL: COMPARE(COMPARE_F, EQUAL); break;
        default: COMPARE(COMPARE_F, LESS); break;
        }
    if (in->vc & 4)
        found = ~found;
    if (refused & which)
        *types |= RESERVED_OPERAND;
    control->vmr = (control->vmr & ~which) | (found & ~refused & which);
}

static void iota(uint64_t *elements, struct kuj_control *control, uint64_t *marks,
                 const struct instruction *in)
{
    uint64_t *vc = elements + 64 * in->vc;
    uint64_t left = in->mtf ? control->vmr : ~control->vmr;
    left &= ones_below(control->vlr);
    unsigned count = 0;
    for (; left; left &= left - 1, count++)
        vc[count] = with_low(vc[count], (uint32_t)__builtin_ctzll(left) * (uint32_t)in->scalar);
    control->vcr = count;
    marks[in->vc] |= ones_below(count);
}

/* A whole operate instruction. What it records is gathered in *recorded, what it writes in the marks. */
static void operate(uint64_t *elements, struct kuj_control *control, uint64_t *marks,
                    const struct instruction *in, uint32_t *recorded)
{
    OPERANDS;
    uint64_t *vc = elements + 64 * in->vc;
    const uint64_t below = ones_below(vlr);
    const uint64_t matching = in->mtf ? control->vmr : ~control->vmr;
    const bool exc = in->exc;
    uint32_t types = 0;
#define OPERATE(WORK) \
    case WORK: \
        if (in->odd) \
            EACH(vc[i] = result(WORK, scalar, vb[i], vc[i], matching >> i & 1, exc, &types);); \
        else \
            EACH(vc[i] = result(WORK, va[i], vb[i], vc[i], matching >> i & 1, exc, &types);); \
        break
    switch (in->work) {
        OPERATE(ADD_L);
        OPERATE(SUBTRACT_L);
        OPERATE(MULTIPLY_L);
        OPERATE(BIT_SET);
        OPERATE(EXCLUSIVE_OR);
        OPERATE(BIT_CLEAR);
        OPERATE(SHIFT_RIGHT);
        OPERATE(SHIFT_LEFT);
        OPERATE(ADD_F);
        OPERATE(SUBTRACT_F);
        OPERATE(MULTIPLY_F);
        OPERATE(DIVIDE_F);
        OPERATE(TRUNCATED);
        OPERATE(ROUNDED);
        OPERATE(L_TO_F);
        OPERATE(MERGE);
    case COMPARE_L:
    case COMPARE_F:
        compare(elements, control, in, &types);
        *recorded |= types;
        return;
    case IOTA:
        iota(elements, control, marks, in);
        return;
    default:
        return;
    }
    marks[in->vc] |= which;
    if (types)
        *recorded |= types | (uint32_t)0x10000 << in->vc;
}

/* One step of a list: the work of element i alone, or all of an IOTA. */
static void step(uint64_t *elements, struct kuj_control *control, uint64_t *marks,
                 const struct instruction *in, unsigned i, uint32_t *recorded)
{
    if (in->work == IOTA) {
        iota(elements, control, marks, in);
        return;
    }
    bool match = (control->vmr >> i & 1) == in->mtf;
    if (in->moe && !match && in->work != MERGE)
        return;
    uint64_t a = in->odd ? in->scalar : elements[64 * in->va + i], b = elements[64 * in->vb + i];
    if (in->work == COMPARE_L || in->work == COMPARE_F) {
        bool reserved = false;
        bool found = compared(in->work, in->vc & 3, a, b, &reserved) ^ (in->vc >> 2 & 1);
        uint64_t bit = (uint64_t)(found && !reserved) << i;
        control->vmr = (control->vmr & ~((uint64_t)1 << i)) | bit;
        *recorded |= reserved ? RESERVED_OPERAND : 0;
        return;
    }
    uint64_t *c = elements + 64 * in->vc + i;
    uint32_t types = 0;
    *c = result(in->work, a, b, *c, match, in->exc, &types);
    marks[in->vc] |= (uint64_t)1 << i;
    if (types)
        *recorded |= types | (uint32_t)0x10000 << in->vc;
}

/* ---- The state ---- */

INLINE bool out_of_range(const struct kuj_control *control)
{
    return control->vlr > 64 || control->vcr > 64 || (control->vaer & ~(uint64_t)VAER_BITS)
        || (control->vpsr & ~(uint64_t)(VEN | AEX));
}

INLINE bool disabled(const struct kuj_control *control)
{
    return !(control->vpsr & VEN);
}

/* The end of a run: VAER gathers, and anything recorded disables the processor. */
INLINE void record(struct kuj_control *control, uint32_t recorded)
{
    control->vaer |= recorded;
    if (recorded)
        control->vpsr = (control->vpsr & ~(uint64_t)VEN) | AEX;
}

/* ---- Memory ---- */

/* Offsets in the window of the elements to be moved; or the lowest bad one's number. */
INLINE uint32_t located(const uint64_t *vb, bool odd, uint64_t which, unsigned vlr, uint32_t base,
                        uint32_t stride, uint32_t size, size_t window_len, uint64_t origin,
                        uint32_t offsets[64], uint64_t *beside)
{
    const uint64_t below = ones_below(vlr);
    const uint64_t room = window_len < size ? 0 : window_len - size + 1; /* offsets that fit */
#define LOCATE(RELATIVE) \
    EACH(const uint32_t address = base + (RELATIVE); \
         const uint64_t offset = address - origin; \
         if ((address & (size - 1)) || offset >= room) { \
             *beside = i; \
             return address & (size - 1) ? MISALIGNED : OUTSIDE; \
         } \
         offsets[i] = (uint32_t)offset;)
    if (odd)
        LOCATE((uint32_t)vb[i]);
    else
        LOCATE(i * stride);
    return DONE;
}

static uint32_t move(uint64_t *elements, const struct kuj_control *control, uint64_t *marks,
                     const struct instruction *in, uint32_t base, uint32_t stride, uint8_t *window,
                     size_t window_len, uint64_t origin, uint64_t *beside)
{
    const uint64_t limit = (uint64_t)1 << 32;
    if (window_len > 65536 || origin % 8 || origin > limit || window_len > limit - origin)
        return WINDOW_REFUSED;
    const uint64_t which = operated(control, in), below = ones_below(control->vlr);
    const unsigned vlr = (unsigned)control->vlr;
    const uint64_t *vb = elements + 64 * in->vb;
    uint64_t *vc = elements + 64 * in->vc;
    uint32_t offsets[64];
    const uint32_t number = in->work == LOAD_Q || in->work == STORE_Q
        ? located(vb, in->odd, which, vlr, base, stride, 8, window_len, origin, offsets, beside)
        : located(vb, in->odd, which, vlr, base, stride, 4, window_len, origin, offsets, beside);
    if (number)
        return number;
    switch (in->work) {
    case LOAD_L: EACH(vc[i] = with_low(vc[i], get32(window + offsets[i]));); break;
    case LOAD_Q: EACH(vc[i] = get64(window + offsets[i]);); break;
    case STORE_L: EACH(put32(window + offsets[i], (uint32_t)vc[i]);); break;
    default: EACH(put64(window + offsets[i], vc[i]);); break;
    }
    if (in->work == LOAD_L || in->work == LOAD_Q)
        marks[in->vc] |= which;
    return DONE;
}

/* ---- One instruction ---- */

uint32_t kuj_execute(uint64_t elements[1024], struct kuj_control *control, uint64_t marks[16],
                     uint8_t opcode, uint16_t cntrl, uint64_t scalar, uint32_t base, uint32_t stride,
                     uint8_t *window, size_t window_len, uint64_t origin, uint64_t *beside)
{
    *beside = 0;
    if (out_of_range(control))
        return STATE_OUT_OF_RANGE;
    enum work work = works[opcode];
    if (work == NONE)
        return RESERVED_OPCODE;
    if (disabled(control))
        return DISABLED;
    if (control_word_refused(work, opcode, cntrl))
        return RESERVED_CONTROL_WORD;
    struct instruction in = decoded(opcode, cntrl, scalar);
    if (work >= MEMORY)
        return move(elements, control, marks, &in, base, stride, window, window_len, origin, beside);
    uint32_t recorded = 0;
    operate(elements, control, marks, &in, &recorded);
    record(control, recorded);
    return DONE;
}

/* ---- Queues ---- */

enum { QUEUE = 16 };

static uint32_t accepted(const struct kuj_control *control, const uint8_t *opcodes, size_t opcodes_len,
                         const uint16_t *cntrls, size_t cntrls_len,
                         const uint64_t *scalars, size_t scalars_len,
                         struct instruction queue[QUEUE], uint64_t *beside)
{
    *beside = 0;
    if (out_of_range(control))
        return STATE_OUT_OF_RANGE;
    if (opcodes_len > QUEUE || cntrls_len != opcodes_len || scalars_len != opcodes_len)
        return QUEUE_REFUSED;
    if (disabled(control))
        return DISABLED;
    for (size_t p = 0; p < opcodes_len; p++) {
        enum work work = works[opcodes[p]];
        uint32_t number = work == NONE ? RESERVED_OPCODE
            : work >= MEMORY ? MEMORY_IN_QUEUE
            : control_word_refused(work, opcodes[p], cntrls[p]) ? RESERVED_CONTROL_WORD : DONE;
        if (number) {
            *beside = p;
            return number;
        }
        queue[p] = decoded(opcodes[p], cntrls[p], scalars[p]);
    }
    return DONE;
}

uint32_t kuj_run(uint64_t elements[1024], struct kuj_control *control, uint64_t marks[16],
                 const uint8_t *opcodes, size_t opcodes_len, const uint16_t *cntrls, size_t cntrls_len,
                 const uint64_t *scalars, size_t scalars_len, uint64_t *beside)
{
    struct instruction queue[QUEUE];
    uint32_t number = accepted(control, opcodes, opcodes_len, cntrls, cntrls_len,
                               scalars, scalars_len, queue, beside);
    if (number)
        return number;
    uint32_t recorded = 0;
    for (size_t p = 0; p < opcodes_len; p++)
        operate(elements, control, marks, &queue[p], &recorded);
    record(control, recorded);
    return DONE;
}

/* ---- Orders ---- */

enum { MASK = 1 << 16, COUNT = 1 << 17, PLACES = 18 }; /* beside the 16 registers */

INLINE uint32_t writes(const struct instruction *in)
{
    if (in->work == COMPARE_L || in->work == COMPARE_F)
        return MASK;
    return (uint32_t)1 << in->vc | (in->work == IOTA ? COUNT : 0);
}

INLINE uint32_t touches(const struct instruction *in)
{
    if (in->work == IOTA)
        return writes(in) | MASK;
    bool converts = in->work == L_TO_F || in->work == TRUNCATED || in->work == ROUNDED;
    return writes(in) | (uint32_t)1 << in->vb
        | (in->odd || converts ? 0 : (uint32_t)1 << in->va)
        | (in->moe || in->work == MERGE ? MASK : 0);
}

/*
 * Is the list permitted? If not, *at_fault is the position that 9 names. A set of instructions is 16
 * bits: before[p] are the earlier ones that bind p, done[i] those whose step at element i has come,
 * iotas the IOTAs that have come (their one step stands for all elements).
 */
static bool permitted(const struct instruction *queue, size_t n, unsigned vlr,
                      const uint64_t *order, size_t order_len, uint64_t *at_fault)
{
    uint16_t before[QUEUE], done[64] = { 0 };
    uint16_t writers[PLACES] = { 0 }, touchers[PLACES] = { 0 }; /* of each place, so far */
    uint32_t all_iotas = 0;
    size_t steps = 0;
    for (size_t p = 0; p < n; p++) {
        const uint32_t written = writes(&queue[p]), touched = touches(&queue[p]);
        uint32_t bound = 0;
        for (uint32_t left = touched; left; left &= left - 1) {
            const int place = __builtin_ctz(left);
            const bool writes_it = written >> place & 1;
            bound |= writes_it ? touchers[place] : writers[place];
            touchers[place] |= (uint16_t)(1 << p);
            writers[place] |= (uint16_t)((uint32_t)writes_it << p);
        }
        before[p] = (uint16_t)bound;
        all_iotas |= (uint32_t)(queue[p].work == IOTA) << p;
        steps += queue[p].work == IOTA ? 1 : vlr;
    }
    uint32_t iotas = 0;
    for (size_t k = 0; k < order_len; k++) {
        uint64_t p = order[k] >> 6;
        unsigned i = order[k] & 63;
        *at_fault = k;
        if (p >= n)
            return false;
        if (all_iotas >> p & 1) {
            uint32_t everywhere = 0xFFFF;
            for (unsigned e = 0; e < vlr; e++)
                everywhere &= done[e];
            if (i != 0 || (iotas >> p & 1) || (before[p] & ~(everywhere & ~all_iotas) & ~iotas))
                return false;
            iotas |= (uint32_t)1 << p;
        } else {
            if (i >= vlr || (done[i] >> p & 1) || (before[p] & ~(done[i] | iotas)))
                return false;
            done[i] |= (uint16_t)(1 << p);
        }
    }
    *at_fault = order_len;
    return order_len == steps;
}

uint32_t kuj_run_order(uint64_t elements[1024], struct kuj_control *control, uint64_t marks[16],
                       const uint8_t *opcodes, size_t opcodes_len,
                       const uint16_t *cntrls, size_t cntrls_len,
                       const uint64_t *scalars, size_t scalars_len,
                       const uint64_t *order, size_t order_len, uint64_t *beside)
{
    struct instruction queue[QUEUE];
    uint32_t number = accepted(control, opcodes, opcodes_len, cntrls, cntrls_len,
                               scalars, scalars_len, queue, beside);
    if (number)
        return number;
    if (!permitted(queue, opcodes_len, (unsigned)control->vlr, order, order_len, beside))
        return ORDER_REFUSED;
    uint32_t recorded = 0;
    for (size_t k = 0; k < order_len; k++)
        step(elements, control, marks, &queue[order[k] >> 6], order[k] & 63, &recorded);
    record(control, recorded);
    *beside = 0;
    return DONE;
}

/* ---- Saved state and readings ---- */

enum { RECORDS = 1029 };

/* A record is two little-endian words: its number (two bytes and six of zero) and its contents. */
uint32_t kuj_save(const uint64_t elements[1024], const struct kuj_control *control,
                  uint8_t *file, size_t file_len, uint64_t *beside)
{
    *beside = 0;
    if (out_of_range(control))
        return STATE_OUT_OF_RANGE;
    if (file_len < KUJ_FILE_BYTES) {
        *beside = file_len / 16;
        return BAD_FILE;
    }
    for (unsigned r = 0; r < 1024; r++, file += 16) {
        put64(file, r);
        put64(file + 8, elements[r]);
    }
    const uint64_t numbers[5] = {
        control->vlr, control->vmr, control->vcr, control->vaer, control->vpsr
    };
    for (unsigned k = 0; k < 5; k++, file += 16) {
        put64(file, 1024 + k);
        put64(file + 8, numbers[k]);
    }
    return DONE;
}

uint32_t kuj_load(uint64_t elements[1024], struct kuj_control *control, uint64_t marks[16],
                  const uint8_t *file, size_t file_len, uint64_t *beside)
{
    size_t whole = file_len / 16 < RECORDS ? file_len / 16 : RECORDS;
    struct kuj_control loaded = { 0 };
    uint64_t *const numbers[5] = { &loaded.vlr, &loaded.vmr, &loaded.vcr, &loaded.vaer, &loaded.vpsr };
    for (size_t r = 0; r < whole; r++)
        if (get64(file + 16 * r) != r) {
            whole = r;
            break;
        }
    for (size_t r = 1024; r < whole; r++) {
        *numbers[r - 1024] = get64(file + 16 * r + 8);
        if (out_of_range(&loaded)) {
            whole = r;
            break;
        }
    }
    if (whole < RECORDS || file_len > KUJ_FILE_BYTES) {
        *beside = whole;
        return BAD_FILE;
    }
    for (size_t r = 0; r < 1024; r++)
        elements[r] = get64(file + 16 * r + 8);
    *control = loaded;
    for (unsigned r = 0; r < 16; r++)
        marks[r] = ~(uint64_t)0;
    *beside = 0;
    return DONE;
}

uint32_t kuj_clear_marks(uint64_t marks[16], uint64_t *beside)
{
    for (unsigned r = 0; r < 16; r++)
        marks[r] = 0;
    *beside = 0;
    return DONE;
}

uint32_t kuj_reading(const uint64_t elements[1024], const struct kuj_control *control,
                     uint32_t reg, uint32_t element, uint32_t kind,
                     uint64_t *kind_read, uint64_t *bits, uint64_t *beside)
{
    *beside = 0;
    if (out_of_range(control))
        return STATE_OUT_OF_RANGE;
    if (reg > 15 || element > 63 || kind > KUJ_LONGWORD)
        return NO_FIELD;
    const uint32_t word = (uint32_t)elements[64 * reg + element], f = turned(word);
    if (kind == KUJ_LONGWORD) {
        *kind_read = KUJ_READ_LONGWORD;
        *bits = word;
    } else if (f_exponent(f) == 0) {
        *kind_read = f_sign(f) ? KUJ_READ_RESERVED : KUJ_READ_BINARY64;
        *bits = f_sign(f) ? word & 15 : 0;
    } else {
        *kind_read = KUJ_READ_BINARY64;
        /* 0.1f times 2^(e - 128) is 1.f times 2^(e - 129), and binary64's exponent is excess 1,023. */
        *bits = (uint64_t)f_sign(f) << 32 | (((uint64_t)f_size(f) << 29) + ((uint64_t)894 << 52));
    }
    return DONE;
}

/* ---- Control moves ---- */

INLINE uint32_t read_number(const struct kuj_control *control, bool when_disabled, uint64_t value,
                            uint64_t *beside)
{
    *beside = 0;
    if (out_of_range(control))
        return STATE_OUT_OF_RANGE;
    if (!when_disabled && disabled(control))
        return DISABLED;
    *beside = value;
    return DONE;
}

uint32_t kuj_read_vlr(const struct kuj_control *control, uint64_t *beside)
{
    return read_number(control, false, control->vlr, beside);
}

uint32_t kuj_read_vcr(const struct kuj_control *control, uint64_t *beside)
{
    return read_number(control, false, control->vcr, beside);
}

uint32_t kuj_read_vmr_low(const struct kuj_control *control, uint64_t *beside)
{
    return read_number(control, false, control->vmr & LOW, beside);
}

uint32_t kuj_read_vmr_high(const struct kuj_control *control, uint64_t *beside)
{
    return read_number(control, false, control->vmr >> 32, beside);
}

uint32_t kuj_read_vaer(const struct kuj_control *control, uint64_t *beside)
{
    return read_number(control, true, control->vaer, beside);
}

uint32_t kuj_read_vpsr(const struct kuj_control *control, uint64_t *beside)
{
    return read_number(control, true, control->vpsr, beside);
}

/* *number is the one of control's that is written. */
INLINE uint32_t write_number(const struct kuj_control *control, uint64_t *number, uint64_t value,
                             uint64_t most, uint64_t *beside)
{
    *beside = 0;
    if (out_of_range(control))
        return STATE_OUT_OF_RANGE;
    if (disabled(control))
        return DISABLED;
    if (value > most)
        return VALUE_REFUSED;
    *number = value;
    return DONE;
}

uint32_t kuj_write_vlr(struct kuj_control *control, uint64_t value, uint64_t *beside)
{
    return write_number(control, &control->vlr, value, 64, beside);
}

uint32_t kuj_write_vcr(struct kuj_control *control, uint64_t value, uint64_t *beside)
{
    return write_number(control, &control->vcr, value, 64, beside);
}

uint32_t kuj_write_vmr_low(struct kuj_control *control, uint32_t value, uint64_t *beside)
{
    return write_number(control, &control->vmr, with_low(control->vmr, value), UINT64_MAX, beside);
}

uint32_t kuj_write_vmr_high(struct kuj_control *control, uint32_t value, uint64_t *beside)
{
    uint64_t vmr = (uint64_t)value << 32 | (control->vmr & LOW);
    return write_number(control, &control->vmr, vmr, UINT64_MAX, beside);
}

uint32_t kuj_write_vpsr(struct kuj_control *control, uint32_t value, uint64_t *beside)
{
    const uint32_t settings = 1 << 0 | 1 << 1 | 1 << 2 | 1 << 3 | 1 << 4 | 1 << 8 | 1 << 9;
    *beside = 0;
    if (out_of_range(control))
        return STATE_OUT_OF_RANGE;
    if (!(settings >> (value & 15) & 1) || (value & 0x7CFFFF10))
        return VALUE_REFUSED;
    uint64_t vpsr = control->vpsr & AEX;
    if (value & 0x82) {
        vpsr = 0;
        control->vaer = 0;
    }
    control->vpsr = vpsr | (value & VEN);
    return DONE;
}
