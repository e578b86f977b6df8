// Every call of include/kujawian.h, put from C with arguments that tell its parameters apart: were two of them exchanged, in the
// header or in the library, something below would come out otherwise. (The lengths of opcodes, cntrls and scalars alone may be
// exchanged among themselves: unequal ones get 8 whichever is which.)
// What is expected was worked out by hand from documents 01 and 02, and is said beside each case. tests/header.sh runs it.
#include <inttypes.h>
#include <stdio.h>
#include <string.h>

#include "kujawian.h"
// Made from the header: its calls with their arguments by name, and a place and a name for each.
#include "by_name.h"

_Static_assert(sizeof(struct kuj_control) == 40, "five numbers of 64 bits, without padding");
_Static_assert(offsetof(struct kuj_control, vlr) == 0, "VLR is the first");
_Static_assert(offsetof(struct kuj_control, vmr) == 8, "VMR is the second");
_Static_assert(offsetof(struct kuj_control, vcr) == 16, "VCR is the third");
_Static_assert(offsetof(struct kuj_control, vaer) == 24, "VAER is the fourth");
_Static_assert(offsetof(struct kuj_control, vpsr) == 32, "VPSR is the fifth");

// The header's names, against document 01: "Opcodes", in the order of its table, with division's (document 02, Q-1).
#define IS(NAME, NUMBER) _Static_assert((NAME) == (NUMBER), #NAME)
#define BOTH(NAME, VECTOR, SCALAR) IS(KUJ_VV##NAME, VECTOR); IS(KUJ_VS##NAME, SCALAR)
BOTH(ADDL, 0x80, 0x81); BOTH(SUBL, 0x88, 0x89); BOTH(MULL, 0xA0, 0xA1); BOTH(CMPL, 0xC0, 0xC1);
BOTH(BISL, 0xC8, 0xC9); BOTH(XORL, 0xE8, 0xE9); BOTH(BICL, 0xCC, 0xCD);
BOTH(SRLL, 0xE0, 0xE1); BOTH(SLLL, 0xE4, 0xE5);
BOTH(ADDF, 0x84, 0x85); BOTH(SUBF, 0x8C, 0x8D); BOTH(MULF, 0xA4, 0xA5); BOTH(CMPF, 0xC4, 0xC5); BOTH(DIVF, 0xAC, 0xAD);
IS(KUJ_VVCVT, 0xEC); IS(KUJ_IOTA, 0xED); BOTH(MERGE, 0xEE, 0xEF);
IS(KUJ_VLDL, 0x34); IS(KUJ_VLDQ, 0x36); IS(KUJ_VGATHL, 0x35); IS(KUJ_VGATHQ, 0x37);
IS(KUJ_VSTL, 0x9C); IS(KUJ_VSTQ, 0x9E); IS(KUJ_VSCATL, 0x9D); IS(KUJ_VSCATQ, 0x9F);
// The control word: <15> MOE, <14> MTF, <13> EXC, <11:8> Va or conversion, <7:4> Vb, <3:0> Vc or relation.
IS(KUJ_MOE, 1 << 15); IS(KUJ_MTF, 1 << 14); IS(KUJ_EXC, 1 << 13);
IS(KUJ_CNTRL(KUJ_EXC, 0, 2, 5), 0x2025); IS(KUJ_CNTRL(KUJ_MOE | KUJ_MTF, 0xA, 0xB, 0xC), 0xCABC);
// "Relations in <2:0>: 0 greater, 1 equal, 2 less, 4 less or equal, 5 not equal, 6 greater or equal"; "Conversions: 5 rounded F to L, 4
// truncated F to L, 1 L to F".
IS(KUJ_GTR, 0); IS(KUJ_EQL, 1); IS(KUJ_LSS, 2); IS(KUJ_LEQ, 4); IS(KUJ_NEQ, 5); IS(KUJ_GEQ, 6);
IS(KUJ_CVTRFL, 5); IS(KUJ_CVTFL, 4); IS(KUJ_CVTLF, 1);
// "Numbers given back".
IS(KUJ_DONE, 0); IS(KUJ_RESERVED_OPCODE, 1); IS(KUJ_RESERVED_CONTROL_WORD, 2); IS(KUJ_DISABLED, 3); IS(KUJ_WINDOW_NOT_ALLOWED, 4);
IS(KUJ_MISALIGNED, 5); IS(KUJ_OUTSIDE_WINDOW, 6); IS(KUJ_MEMORY_IN_QUEUE, 7); IS(KUJ_QUEUE_REFUSED, 8); IS(KUJ_ORDER_NOT_PERMITTED, 9);
IS(KUJ_BAD_FILE, 10); IS(KUJ_VALUE_REFUSED, 11); IS(KUJ_STATE_OUT_OF_RANGE, 12); IS(KUJ_NO_SUCH_FIELD, 13);
// VAER: bits 0, 1, 2, 3, 5 and 16+n for Vn. VPSR: bit 0 (VEN) and bit 7 (AEX); a write's bit 1.
IS(KUJ_VAER_UNDERFLOW, 1 << 0); IS(KUJ_VAER_DIVISION_BY_ZERO, 1 << 1); IS(KUJ_VAER_RESERVED_OPERAND, 1 << 2);
IS(KUJ_VAER_OVERFLOW, 1 << 3); IS(KUJ_VAER_INTEGER_OVERFLOW, 1 << 5);
IS(KUJ_VAER_REGISTER(0), 1u << 16); IS(KUJ_VAER_REGISTER(15), 1u << 31); IS(KUJ_VAER_BITS, 0xFFFF002F);
IS(KUJ_VPSR_VEN, 1 << 0); IS(KUJ_VPSR_RST, 1 << 1); IS(KUJ_VPSR_AEX, 1 << 7); IS(KUJ_VPSR_BITS, 0x81);
// Sizes, places, kinds.
IS(KUJ_ELEMENTS, 1024); IS(KUJ_MARKS, 16); IS(KUJ_REGISTERS, 16); IS(KUJ_REGISTER_LENGTH, 64); IS(KUJ_CONTROL_NUMBERS, 5);
IS(KUJ_RECORDS, 1029); IS(KUJ_RECORD_BYTES, 16); IS(KUJ_FILE_BYTES, 16464); IS(KUJ_QUEUE_LENGTH, 16); IS(KUJ_ORDER_LENGTH, 1024);
IS(KUJ_WINDOW_BYTES, 65536);
IS(KUJ_PLACE(5, 3), 323); IS(KUJ_STEP(1, 2), 66);
IS(KUJ_F_FLOATING, 0); IS(KUJ_LONGWORD, 1); IS(KUJ_READ_BINARY64, 0); IS(KUJ_READ_LONGWORD, 1); IS(KUJ_READ_RESERVED, 2);

enum { VEN = 0x01, AEX = 0x80, WINDOW = 8192, FILE_ROOM = KUJ_FILE_BYTES + 16 };
static const uint64_t UNWRITTEN = 0xDEADBEEF0BADF00D;

// All that is lent to a call. A case sets `is`, copies it to `want`, and puts into `want` what has to come of it.
static struct lent {
    uint64_t elements[KUJ_ELEMENTS];
    struct kuj_control control;
    uint64_t marks[KUJ_MARKS];
    uint8_t window[WINDOW], file[FILE_ROOM];
    uint64_t beside, kind_read, bits;
} is, want;

static int times[CALLS], differences, differences_before;

#define CALL(NAME, ...) (times[of_##NAME]++, by_name_##NAME((struct args_##NAME){ __VA_ARGS__ }))
// Element e of register r.
#define V(LENT, R, E) (LENT).elements[(R) * 64 + (E)]

// All elements zero, VLR as named, VEN 1. Mask, VCR 3 and VAER's bit of V0 are for a control taken in another order, which would be
// out of range or have another VLR. Each register has one mark, so that one lost is seen: V0's is that of element 63, V1's of 62, and so
// on, far from what the cases write. The bytes of window and file count up.
static void start(uint64_t vlr) {
    memset(&is, 0, sizeof is);
    is.control = (struct kuj_control){ .vlr = vlr, .vmr = 0x8000000000000001, .vcr = 3, .vaer = 0x00010000, .vpsr = VEN };
    for (int r = 0; r < KUJ_MARKS; r++) is.marks[r] = (uint64_t)1 << (63 - r);
    for (size_t k = 0; k < sizeof is.window; k++) is.window[k] = (uint8_t)k;
    for (size_t k = 0; k < sizeof is.file; k++) is.file[k] = (uint8_t)(k + 1);
    is.beside = is.kind_read = is.bits = UNWRITTEN;
}

static void expect(const char *call, const char *what, uint32_t number, uint32_t number_wanted, uint64_t beside_wanted) {
    want.beside = beside_wanted;
    if (number == number_wanted && memcmp(&is, &want, sizeof is) == 0) return;
    differences++;
    printf("DIFFERS: %s, %s: %" PRIu32 " beside it %" PRIu64 ", expected %" PRIu32 " beside it %" PRIu64, call, what, number,
           is.beside, number_wanted, beside_wanted);
    if (memcmp(is.elements, want.elements, sizeof is.elements) != 0) printf("; elements differ");
    if (memcmp(&is.control, &want.control, sizeof is.control) != 0) printf("; control differs");
    for (int r = 0; r < KUJ_MARKS; r++)
        if (is.marks[r] != want.marks[r]) printf("; marks of V%d %016" PRIX64 ", expected %016" PRIX64, r, is.marks[r], want.marks[r]);
    if (memcmp(is.window, want.window, sizeof is.window) != 0) printf("; the window differs");
    if (memcmp(is.file, want.file, sizeof is.file) != 0) printf("; the file differs");
    if (is.kind_read != want.kind_read) printf("; kind_read %" PRIu64 ", expected %" PRIu64, is.kind_read, want.kind_read);
    if (is.bits != want.bits) printf("; bits %" PRIX64 ", expected %" PRIX64, is.bits, want.bits);
    printf("\n");
}

// The line of a call, when it has been put for the last time.
static void end(int call) {
    printf("%s: put %d times, %s\n", names[call], times[call], differences == differences_before ? "same" : "differs");
    differences_before = differences;
}

// ---- kuj_execute ----

#define EXECUTE(OPCODE, CNTRL, SCALAR, BASE, STRIDE, WINDOW_AT, LENGTH, ORIGIN) \
    CALL(kuj_execute, .elements = is.elements, .control = &is.control, .marks = is.marks, .opcode = OPCODE, .cntrl = CNTRL, \
         .scalar = SCALAR, .base = BASE, .stride = STRIDE, .window = WINDOW_AT, .window_len = LENGTH, .origin = ORIGIN, \
         .beside = &is.beside)

// New marks, a mask, and a window of zeros: on elements that are zero most instructions then leave everything as it was but for marks.
static void start_new(uint64_t vlr, uint64_t vmr) {
    start(vlr);
    is.control.vmr = vmr;
    memset(is.marks, 0, sizeof is.marks);
    memset(is.window, 0, sizeof is.window);
    want = is;
}

static void put_marked(const char *call, uint8_t opcode, uint16_t cntrl, uint64_t scalar) {
    char what[80];
    snprintf(what, sizeof what, "marks, opcode %02X, control word %04X, VLR %" PRIu64, opcode, cntrl, is.control.vlr);
    uint32_t number = EXECUTE(opcode, cntrl, scalar, 0x1000, 0, is.window, 24, 0x1000);
    expect(call, what, number, 0, 0);
}

// Q-3: what one instruction marks. "operated elements for operate instructions and loads, none for compare, every element below VLR for
// merge, the first VCR for IOTA", "whether or not its contents changed".
static void execute_marks(const char *call) {
    // VLR 5, VMR F2: below VLR the mask has a one for elements 1 and 4 (hex 12), and a zero for 0, 2 and 3 (0D). MTF alone does nothing.
    static const struct { uint16_t flags; uint64_t operated; } masks[] = {
        { 0, 0x1F }, { KUJ_MTF, 0x1F }, { KUJ_MOE | KUJ_MTF, 0x12 }, { KUJ_MOE, 0x0D }
    };
    // Va (a conversion for EC), Vb 1, Vc 5, all zeros, and the scalar is zero too: zeros are what they leave. A division is of zero by 1.
    static const struct { uint8_t opcode, va; } operate[] = {
        { 0x80, 2 }, { 0x81, 2 }, { 0x88, 2 }, { 0x89, 2 }, { 0xA0, 2 }, { 0xA1, 2 }, { 0xC8, 2 }, { 0xC9, 2 }, { 0xE8, 2 }, { 0xE9, 2 },
        { 0xCC, 2 }, { 0xCD, 2 }, { 0xE0, 2 }, { 0xE1, 2 }, { 0xE4, 2 }, { 0xE5, 2 }, { 0x84, 2 }, { 0x85, 2 }, { 0x8C, 2 }, { 0x8D, 2 },
        { 0xA4, 2 }, { 0xA5, 2 }, { 0xAC, 2 }, { 0xAD, 2 }, { 0xEC, 1 }, { 0xEC, 4 }, { 0xEC, 5 },
        // loads and gathers, of zeros; the offsets are zero
        { 0x34, 0 }, { 0x36, 0 }, { 0x35, 0 }, { 0x37, 0 }
    };
    static const uint8_t merges[] = { 0xEE, 0xEF }, compares[] = { 0xC0, 0xC1, 0xC4, 0xC5 }, stores[] = { 0x9C, 0x9E, 0x9D, 0x9F };
    for (size_t m = 0; m < sizeof masks / sizeof masks[0]; m++) {
        const uint16_t flags = masks[m].flags;
        for (size_t k = 0; k < sizeof operate / sizeof operate[0]; k++) {
            start_new(5, 0xF2);
            if ((operate[k].opcode & 0xFE) == 0xAC)
                for (int e = 0; e < 64; e++) V(is, 1, e) = 0x4080;
            want = is;
            want.marks[5] = masks[m].operated;
            put_marked(call, operate[k].opcode, KUJ_CNTRL(flags, operate[k].va, 1, 5), 0);
        }
        // MOE is ignored.
        for (size_t k = 0; k < sizeof merges; k++) {
            start_new(5, 0xF2);
            want.marks[5] = 0x1F;
            put_marked(call, merges[k], KUJ_CNTRL(flags, 2, 1, 5), 0);
        }
        // Relation 1, equal, stands where Vc would: zeros are equal, so the mask bits become one. V1 is not marked.
        for (size_t k = 0; k < sizeof compares; k++) {
            start_new(5, 0xF2);
            want.control.vmr = 0xF2 | masks[m].operated;
            put_marked(call, compares[k], KUJ_CNTRL(flags, 2, 3, KUJ_EQL), 0);
        }
        for (size_t k = 0; k < sizeof stores; k++) {
            start_new(5, 0xF2);
            put_marked(call, stores[k], KUJ_CNTRL(flags, 0, 1, 5), 0);
        }
    }

    // The ends of a register, and each register's own word.
    for (int r = 0; r < 16; r++) {
        start_new(0, 0);
        put_marked(call, 0x80, KUJ_CNTRL(0, 1, 2, r), 0);
        start_new(1, 0);
        want.marks[r] = 1;
        put_marked(call, 0x80, KUJ_CNTRL(0, 1, 2, r), 0);
        start_new(64, 0);
        want.marks[r] = UINT64_MAX;
        put_marked(call, 0x80, KUJ_CNTRL(0, 1, 2, r), 0);
        start_new(64, 0x8000000000000001);
        want.marks[r] = 0x8000000000000001;
        put_marked(call, 0x80, KUJ_CNTRL(KUJ_MOE | KUJ_MTF, 1, 2, r), 0);
    }

    // "keeps any marks it is handed and adds its own": V5[1], V5[2] and V5[63] are marked, V5[0] to V5[2] are written. All stay marked.
    start_new(3, 0);
    is.marks[5] = 0x8000000000000006;
    want = is;
    want.marks[5] = 0x8000000000000007;
    put_marked(call, 0x80, 0x0125, 0);
    start_new(3, 0);
    memset(is.marks, 0xFF, sizeof is.marks);
    want = is;
    put_marked(call, 0x80, 0x0125, 0);

    // IOTA with stride 8, VLR 4, VMR B: MTF 1 writes 0, 8, 24 and MTF 0 writes 16. "the first VCR" is the new VCR, 3 or 1, not the old
    // one. MOE is ignored.
    start_new(4, 0xB);
    is.control.vcr = 64;
    want = is;
    V(want, 5, 1) = 8;
    V(want, 5, 2) = 24;
    want.control.vcr = 3;
    want.marks[5] = 7;
    put_marked(call, 0xED, KUJ_CNTRL(KUJ_MTF, 0, 0, 5), 8);
    start_new(4, 0xB);
    V(want, 5, 0) = 16;
    want.control.vcr = 1;
    want.marks[5] = 1;
    put_marked(call, 0xED, KUJ_CNTRL(KUJ_MOE, 0, 0, 5), 8);
    // Nothing chosen, no element, all 64 (stride 0).
    start_new(4, 0);
    want.control.vcr = 0;
    put_marked(call, 0xED, KUJ_CNTRL(KUJ_MTF, 0, 0, 5), 8);
    start_new(0, UINT64_MAX);
    want.control.vcr = 0;
    put_marked(call, 0xED, KUJ_CNTRL(KUJ_MTF, 0, 0, 5), 8);
    start_new(64, UINT64_MAX);
    want.control.vcr = 64;
    want.marks[5] = UINT64_MAX;
    put_marked(call, 0xED, KUJ_CNTRL(KUJ_MTF, 0, 0, 5), 0);

    // What an exception leaves is written. V5 = V1 times V2: 8000 (reserved) by 1 is 8004; the smallest by a half, without EXC, is a 0
    // that leaves no trace; the largest by itself is 8008. VAER gets bits 2 and 3 and V5's.
    start_new(3, 0);
    V(is, 1, 0) = 0x8000, V(is, 2, 0) = 0x4080;
    V(is, 1, 1) = 0x0080, V(is, 2, 1) = 0x4000;
    V(is, 1, 2) = V(is, 2, 2) = 0xFFFF7FFF;
    want = is;
    V(want, 5, 0) = 0x8004;
    V(want, 5, 2) = 0x8008;
    want.control.vaer = 0x0021000C;
    want.control.vpsr = AEX;
    want.marks[5] = 7;
    put_marked(call, 0xA4, 0x0125, 0);
    // Zero by zero, and a reserved operand to a longword, which is a 0.
    start_new(1, 0);
    V(want, 5, 0) = 0x8002;
    want.control.vaer = 0x00210002;
    want.control.vpsr = AEX;
    want.marks[5] = 1;
    put_marked(call, 0xAC, 0x0125, 0);
    start_new(1, 0);
    V(is, 2, 0) = 0x8000;
    want = is;
    want.control.vaer = 0x00210004;
    want.control.vpsr = AEX;
    want.marks[5] = 1;
    put_marked(call, 0xEC, 0x0425, 0);
    // A reserved operand compared records bit 2, and marks nothing.
    start_new(1, 1);
    V(is, 2, 0) = 0x8000;
    want = is;
    want.control.vmr = 0;
    want.control.vaer = 0x00010004;
    want.control.vpsr = AEX;
    put_marked(call, 0xC4, 0x0121, 0);

    // "A refused call changes no mark", whichever number it gets. In 5 and 6 element 0 is good and element 1 is bad.
    static const struct {
        const char *what;
        uint64_t vlr, vpsr;
        uint8_t opcode;
        uint16_t cntrl;
        uint32_t stride;
        uint64_t origin;
        uint32_t number;
        uint64_t beside;
    } refused[] = {
        { "marks, 12", 65, VEN, 0x80, 0x0125, 4, 0x1000, 12, 0 },
        { "marks, 1", 2, VEN, 0xFF, 0x0125, 4, 0x1000, 1, 0 },
        { "marks, 3", 2, 0, 0x80, 0x0125, 4, 0x1000, 3, 0 },
        { "marks, 3 for a load", 2, 0, 0x34, 0x0005, 4, 0x1000, 3, 0 },
        { "marks, 2 for a conversion", 2, VEN, 0xEC, 0x0025, 4, 0x1000, 2, 0 },
        { "marks, 2 for a gather", 2, VEN, 0x35, 0x0055, 4, 0x1000, 2, 0 },
        { "marks, 4", 2, VEN, 0x34, 0x0005, 4, 0x1001, 4, 0 },
        { "marks, 5", 2, VEN, 0x34, 0x0005, 6, 0x1000, 5, 1 },
        { "marks, 6", 2, VEN, 0x34, 0x0005, 24, 0x1000, 6, 1 },
    };
    for (size_t k = 0; k < sizeof refused / sizeof refused[0]; k++) {
        start(refused[k].vlr);
        is.control.vpsr = refused[k].vpsr;
        want = is;
        uint32_t number = EXECUTE(refused[k].opcode, refused[k].cntrl, 0, 0x1000, refused[k].stride, is.window, 24, refused[k].origin);
        expect(call, refused[k].what, number, refused[k].number, refused[k].beside);
    }
}

static void execute(void) {
    const char *call = "kuj_execute";
    uint32_t number;

    // Example 1: 81, 2025, scalar 1, VLR 2, V2 = 7FFFFFFF, 4, V5 all 9: V5 = 80000000, 5, then 9; VAER 00200020; VPSR 00000080.
    // VAER's bit of V0 stays beside them. What only memory opcodes read holds anything. V5[0] and V5[1] are marked.
    start(2);
    V(is, 2, 0) = 0x7FFFFFFF;
    V(is, 2, 1) = 4;
    for (int e = 0; e < 64; e++) V(is, 5, e) = 9;
    want = is;
    V(want, 5, 0) = 0x80000000;
    V(want, 5, 1) = 5;
    want.marks[5] |= 3;
    want.control.vaer = 0x00210020;
    want.control.vpsr = AEX;
    number = EXECUTE(0x81, 0x2025, 1, 3, 7, is.window, 16, 0x77);
    expect(call, "example 1", number, 0, 0);

    // AD, the scalar over V2: 3 over 2, 0 and 1.5 is 1.5 (40C0), 8002 and 2 (4100). VAER gets bit 1 and the bit of V5, and keeps
    // that of V0. <63:32> of the scalar play no part.
    start(3);
    V(is, 2, 0) = 0x4100;
    V(is, 2, 2) = 0x40C0;
    V(is, 5, 1) = 0x1111111122222222;
    want = is;
    V(want, 5, 0) = 0x40C0;
    V(want, 5, 1) = 0x1111111100008002;
    V(want, 5, 2) = 0x4100;
    want.marks[5] |= 7;
    want.control.vaer = 0x00210002;
    want.control.vpsr = AEX;
    number = EXECUTE(0xAD, 0x0025, 0x8000800000004140, 3, 7, is.window, 16, 0x77);
    expect(call, "divide", number, 0, 0);

    // Store L of V2 at 1008 + 8i; the window is 1000 to 1017. V2[0] goes to bytes 8 to 11, V2[1] to bytes 16 to 19, bits <31:0>
    // with the lowest byte first. The scalar holds anything.
    start(2);
    V(is, 2, 0) = 0xAAAAAAAA11223344;
    V(is, 2, 1) = 0xBBBBBBBB55667788;
    want = is;
    memcpy(want.window + 8, "\x44\x33\x22\x11", 4);
    memcpy(want.window + 16, "\x88\x77\x66\x55", 4);
    number = EXECUTE(0x9C, 0x0002, 0x30, 0x1008, 8, is.window, 24, 0x1000);
    expect(call, "store", number, 0, 0);

    // The same at 1010 + 8i: element 1 would stand at 1018, the window's end. Nothing is moved.
    start(2);
    want = is;
    number = EXECUTE(0x9C, 0x0002, 0x30, 0x1010, 8, is.window, 24, 0x1000);
    expect(call, "store, element 1 outside", number, 6, 1);

    // Load L, V3 = the longwords at 1004 and 1000: stride -4. Bytes 4 to 7 are 04 05 06 07; <63:32> stay.
    start(2);
    V(is, 3, 0) = 0x1111111122222222;
    want = is;
    V(want, 3, 0) = 0x1111111107060504;
    V(want, 3, 1) = 0x0000000003020100;
    want.marks[3] |= 3;
    number = EXECUTE(0x34, 0x0003, 0x30, 0x1004, (uint32_t)-4, is.window, 24, 0x1000);
    expect(call, "load", number, 0, 0);

    // An empty window is NULL: for an operate opcode, for a memory opcode that moves nothing, for one whose element 0 is outside.
    start(1);
    V(is, 1, 0) = 5;
    V(is, 2, 0) = 6;
    want = is;
    V(want, 3, 0) = 11;
    want.marks[3] |= 1;
    number = EXECUTE(0x80, 0x0123, 0, 0, 0, NULL, 0, 0);
    expect(call, "add, window NULL", number, 0, 0);
    start(0);
    want = is;
    number = EXECUTE(0x34, 0x0003, 0, 0x1000, 4, NULL, 0, 0x1000);
    expect(call, "load at VLR 0, window NULL", number, 0, 0);
    start(1);
    want = is;
    number = EXECUTE(0x34, 0x0003, 0, 0x1000, 4, NULL, 0, 0x1000);
    expect(call, "load at VLR 1, window NULL", number, 6, 0);

    // VLR 2^32 + 1 in the record is out of range.
    start(0x100000001);
    want = is;
    number = EXECUTE(0x80, 0x0123, 0, 0, 0, is.window, 16, 0);
    expect(call, "VLR 2^32 + 1", number, 12, 0);
    execute_marks(call);
    end(of_kuj_execute);
}

// ---- kuj_run, kuj_run_order ----

// Two longword instructions with scalars: V2 = 100 + V1, then V3 = 3 * V2. Of each array only the first two are lent, if no other
// length is said; the rest would get 1 (opcode FF).
static const uint8_t opcodes[] = { 0x81, 0xA1, 0xFF, 0xFF };
static const uint16_t cntrls[] = { 0x0012, 0x0023, 0xFFFF, 0xFFFF };
static const uint64_t scalars[] = { 100, 3, 1000, 1001 };

// V1 = 5, 7, so V2 becomes 105, 107 and V3 315, 321, as far as VLR goes, and so far they are marked.
static void start_queue(uint64_t vlr) {
    start(vlr);
    V(is, 1, 0) = 5;
    V(is, 1, 1) = 7;
    want = is;
    if (vlr > 0) V(want, 2, 0) = 105, V(want, 3, 0) = 315, want.marks[2] |= 1, want.marks[3] |= 1;
    if (vlr > 1) V(want, 2, 1) = 107, V(want, 3, 1) = 321, want.marks[2] |= 2, want.marks[3] |= 2;
}

#define RUN(OPCODES, N, CNTRLS, M, SCALARS, L) \
    CALL(kuj_run, .elements = is.elements, .control = &is.control, .marks = is.marks, .opcodes = OPCODES, .opcodes_len = N, \
         .cntrls = CNTRLS, .cntrls_len = M, .scalars = SCALARS, .scalars_len = L, .beside = &is.beside)

// Q-3, for a queue. VLR 4 and V1 = 5, 7, 0, 0.
//   0  VMR: 5 < V1          VMR<1> alone of the four; VMR<63> stays. No register is marked.
//   1  V2 = 0 + V1, MTF 1   the mask is that of position 0: V2[1] = 7
//   2  V2 = 1 + V1, MTF 0   V2[0] = 6, V2[2] = 1, V2[3] = 1: with position 1 all four are marked
//   3  IOTA to V4, MTF 1    V4[0] = 4, and VCR is 1
//   4  V6 = V1, else V2     MTF 1; a merge: 6, 7, 1, 1
//   5  V7 = 10 - V1, MTF 1  V7[1] = 3
static const uint8_t marking[] = { 0xC1, 0x81, 0x81, 0xED, 0xEE, 0x89 };
static const uint16_t marking_words[] = { 0x0012, 0xC012, 0x8012, 0x4004, 0xC126, 0xC017 };
static const uint64_t marking_scalars[] = { 5, 0, 1, 4, 0, 10 };

static void start_marking(void) {
    start(4);
    V(is, 1, 0) = 5;
    V(is, 1, 1) = 7;
    want = is;
    V(want, 2, 0) = 6, V(want, 2, 1) = 7, V(want, 2, 2) = 1, V(want, 2, 3) = 1;
    V(want, 4, 0) = 4;
    V(want, 6, 0) = 6, V(want, 6, 1) = 7, V(want, 6, 2) = 1, V(want, 6, 3) = 1;
    V(want, 7, 1) = 3;
    want.control.vmr = 0x8000000000000002;
    want.control.vcr = 1;
    want.marks[2] |= 0xF, want.marks[4] |= 1, want.marks[6] |= 0xF, want.marks[7] |= 2;
}

// What a queue is refused with, at position 1: position 0 would have marked V2.
static const struct bad_queue {
    const char *what;
    uint64_t vlr, vpsr;
    uint8_t opcodes[2];
    uint16_t cntrls[2];
    uint32_t number;
} bad_queues[] = {
    { "marks, 12", 65, VEN, { 0x81, 0x81 }, { 0x0012, 0x0012 }, 12 },
    { "marks, 3", 2, 0, { 0x81, 0x81 }, { 0x0012, 0x0012 }, 3 },
    { "marks, 1", 2, VEN, { 0x81, 0xFF }, { 0x0012, 0x0012 }, 1 },
    { "marks, 7", 2, VEN, { 0x81, 0x34 }, { 0x0012, 0x0012 }, 7 },
    { "marks, 2", 2, VEN, { 0x81, 0xC0 }, { 0x0012, 0x0013 }, 2 },
};
enum { BAD_QUEUES = sizeof bad_queues / sizeof bad_queues[0] };

static void start_bad(const struct bad_queue *bad) {
    start(bad->vlr);
    is.control.vpsr = bad->vpsr;
    want = is;
}

static uint64_t bad_position(const struct bad_queue *bad) {
    return bad->number == 12 || bad->number == 3 ? 0 : 1;
}

static void run(void) {
    const char *call = "kuj_run";
    uint32_t number;

    start_queue(2);
    number = RUN(opcodes, 2, cntrls, 2, scalars, 2);
    expect(call, "two instructions", number, 0, 0);

    // FF is reserved, at position 2.
    start_queue(2);
    want = is;
    number = RUN(opcodes, 3, cntrls, 3, scalars, 3);
    expect(call, "a reserved opcode", number, 1, 2);

    // Each part in turn is the one of another length.
    start_queue(2);
    want = is;
    number = RUN(opcodes, 1, cntrls, 2, scalars, 2);
    expect(call, "fewer opcodes", number, 8, 0);
    is.beside = UNWRITTEN;
    number = RUN(opcodes, 2, cntrls, 1, scalars, 2);
    expect(call, "fewer control words", number, 8, 0);
    is.beside = UNWRITTEN;
    number = RUN(opcodes, 2, cntrls, 2, scalars, 1);
    expect(call, "fewer scalars", number, 8, 0);

    // An empty part is NULL: alone it is of another length; all three are the empty queue, which is done.
    start_queue(2);
    want = is;
    number = RUN(NULL, 0, cntrls, 2, scalars, 2);
    expect(call, "opcodes NULL", number, 8, 0);
    is.beside = UNWRITTEN;
    number = RUN(opcodes, 2, NULL, 0, scalars, 2);
    expect(call, "control words NULL", number, 8, 0);
    is.beside = UNWRITTEN;
    number = RUN(opcodes, 2, cntrls, 2, NULL, 0);
    expect(call, "scalars NULL", number, 8, 0);
    is.beside = UNWRITTEN;
    number = RUN(NULL, 0, NULL, 0, NULL, 0);
    expect(call, "all NULL", number, 0, 0);

    start_marking();
    number = RUN(marking, 6, marking_words, 6, marking_scalars, 6);
    expect(call, "marks of a queue", number, 0, 0);
    for (int k = 0; k < BAD_QUEUES; k++) {
        start_bad(&bad_queues[k]);
        number = RUN(bad_queues[k].opcodes, 2, bad_queues[k].cntrls, 2, scalars, 2);
        expect(call, bad_queues[k].what, number, bad_queues[k].number, bad_position(&bad_queues[k]));
    }
    end(of_kuj_run);
}

#define RUN_ORDER(OPCODES, N, CNTRLS, M, SCALARS, L, ORDER, STEPS) \
    CALL(kuj_run_order, .elements = is.elements, .control = &is.control, .marks = is.marks, .opcodes = OPCODES, \
         .opcodes_len = N, .cntrls = CNTRLS, .cntrls_len = M, .scalars = SCALARS, .scalars_len = L, .order = ORDER, \
         .order_len = STEPS, .beside = &is.beside)

static void run_order(void) {
    const char *call = "kuj_run_order";
    // At VLR 2 the steps are 0, 1 (V2 = 100 + V1) and 64, 65 (V3 = 3 * V2); 64 must follow 0, and 65 must follow 1.
    static const uint64_t falling[] = { 1, 0, 65, 64 }, early[] = { 0, 65, 1, 64 }, two[] = { 0, 64 };
    uint32_t number;

    start_queue(2);
    number = RUN_ORDER(opcodes, 2, cntrls, 2, scalars, 2, falling, 4);
    expect(call, "four steps", number, 0, 0);

    // At VLR 1 there are two steps to two instructions, so that all four lengths are equal.
    start_queue(1);
    number = RUN_ORDER(opcodes, 2, cntrls, 2, scalars, 2, two, 2);
    expect(call, "two steps", number, 0, 0);

    // 65 comes at list position 1, before 1.
    start_queue(2);
    want = is;
    number = RUN_ORDER(opcodes, 2, cntrls, 2, scalars, 2, early, 4);
    expect(call, "a step before the one it must follow", number, 9, 1);

    // 64 is missing: the list's length stands beside.
    is.beside = UNWRITTEN;
    number = RUN_ORDER(opcodes, 2, cntrls, 2, scalars, 2, falling, 3);
    expect(call, "a step missing", number, 9, 3);

    // FF is reserved, at position 2 of the queue: that goes before the list.
    is.beside = UNWRITTEN;
    number = RUN_ORDER(opcodes, 3, cntrls, 3, scalars, 3, early, 4);
    expect(call, "a reserved opcode", number, 1, 2);

    // An empty part is NULL. With the list alone: all steps are missing; at VLR 0 there are none, and it is done.
    is.beside = UNWRITTEN;
    number = RUN_ORDER(NULL, 0, cntrls, 2, scalars, 2, falling, 4);
    expect(call, "opcodes NULL", number, 8, 0);
    is.beside = UNWRITTEN;
    number = RUN_ORDER(opcodes, 2, NULL, 0, scalars, 2, falling, 4);
    expect(call, "control words NULL", number, 8, 0);
    is.beside = UNWRITTEN;
    number = RUN_ORDER(opcodes, 2, cntrls, 2, NULL, 0, falling, 4);
    expect(call, "scalars NULL", number, 8, 0);
    is.beside = UNWRITTEN;
    number = RUN_ORDER(opcodes, 2, cntrls, 2, scalars, 2, NULL, 0);
    expect(call, "list NULL", number, 9, 0);
    start_queue(0);
    number = RUN_ORDER(opcodes, 2, cntrls, 2, scalars, 2, NULL, 0);
    expect(call, "list NULL at VLR 0", number, 0, 0);
    start_queue(2);
    want = is;
    number = RUN_ORDER(NULL, 0, NULL, 0, NULL, 0, falling, 4);
    expect(call, "a list for an empty queue", number, 9, 0);
    is.beside = UNWRITTEN;
    number = RUN_ORDER(NULL, 0, NULL, 0, NULL, 0, NULL, 0);
    expect(call, "all NULL", number, 0, 0);

    // "a permitted order leaves the same ones as the queue". Each element's steps in queue order, from the highest element; the IOTA,
    // which only the compare binds, last.
    static const uint64_t by_element[] = {
        3, 67, 131, 259, 323, 2, 66, 130, 258, 322, 1, 65, 129, 257, 321, 0, 64, 128, 256, 320, 192
    };
    start_marking();
    number = RUN_ORDER(marking, 6, marking_words, 6, marking_scalars, 6, by_element, 21);
    expect(call, "marks of a list", number, 0, 0);
    // The last step is missing: what the other twenty would have marked is not.
    start_marking();
    want = is;
    number = RUN_ORDER(marking, 6, marking_words, 6, marking_scalars, 6, by_element, 20);
    expect(call, "marks, 9", number, 9, 20);
    static const uint64_t four[] = { 0, 1, 64, 65 };
    for (int k = 0; k < BAD_QUEUES; k++) {
        start_bad(&bad_queues[k]);
        number = RUN_ORDER(bad_queues[k].opcodes, 2, bad_queues[k].cntrls, 2, scalars, 2, four, 4);
        expect(call, bad_queues[k].what, number, bad_queues[k].number, bad_position(&bad_queues[k]));
    }
    end(of_kuj_run_order);
}

// ---- kuj_save, kuj_load ----

static const uint64_t saved_elements[KUJ_ELEMENTS] = { [5 * 64 + 3] = 7, [15 * 64 + 63] = 0x0123456789ABCDEF };
static const struct kuj_control saved_control = { .vlr = 4, .vmr = 0x8000000000000001, .vcr = 3, .vaer = 0x00200020, .vpsr = 0x81 };

// A record: its number in 2 bytes, 6 zero bytes, contents in 8, the lowest byte first.
static void put_record(uint8_t *file, unsigned record, uint64_t contents) {
    uint8_t *at = file + record * 16;
    memset(at, 0, 8);
    at[0] = (uint8_t)record;
    at[1] = (uint8_t)(record >> 8);
    for (int k = 0; k < 8; k++) at[8 + k] = (uint8_t)(contents >> 8 * k);
}

// The file of that state: V5[3] is record 5 * 64 + 3 = 323 and V15[63] record 1,023; then VLR, VMR, VCR, VAER, VPSR.
static void put_file(uint8_t *file) {
    for (unsigned record = 0; record < 1024; record++) put_record(file, record, 0);
    put_record(file, 323, 7);
    put_record(file, 1023, 0x0123456789ABCDEF);
    put_record(file, 1024, 4);
    put_record(file, 1025, 0x8000000000000001);
    put_record(file, 1026, 3);
    put_record(file, 1027, 0x00200020);
    put_record(file, 1028, 0x81);
}

#define SAVE(CONTROL, FILE_AT, LENGTH) \
    CALL(kuj_save, .elements = saved_elements, .control = CONTROL, .file = FILE_AT, .file_len = LENGTH, .beside = &is.beside)

static void save(void) {
    const char *call = "kuj_save";
    uint32_t number;

    // The 16 bytes beyond the file stay.
    start(0);
    want = is;
    put_file(want.file);
    number = SAVE(&saved_control, is.file, FILE_ROOM);
    expect(call, "with 16 bytes to spare", number, 0, 0);

    // One byte too few: record 1,028 has no room, and nothing is written.
    start(0);
    want = is;
    number = SAVE(&saved_control, is.file, KUJ_FILE_BYTES - 1);
    expect(call, "a byte too few", number, 10, 1028);
    is.beside = UNWRITTEN;
    number = SAVE(&saved_control, NULL, 0);
    expect(call, "NULL", number, 10, 0);

    // A state out of range is tested first: VCR 65.
    is.beside = UNWRITTEN;
    const struct kuj_control bad = { .vcr = 65 };
    number = SAVE(&bad, NULL, 0);
    expect(call, "VCR 65", number, 12, 0);
    end(of_kuj_save);
}

#define LOAD(FILE_AT, LENGTH) \
    CALL(kuj_load, .elements = is.elements, .control = &is.control, .marks = is.marks, .file = FILE_AT, .file_len = LENGTH, \
         .beside = &is.beside)

static void load(void) {
    const char *call = "kuj_load";
    uint32_t number;

    // What stood there before, VLR 99 and a V0[0], is not looked at. All elements are marked.
    start(99);
    V(is, 0, 0) = 1;
    put_file(is.file);
    want = is;
    memcpy(want.elements, saved_elements, sizeof want.elements);
    want.control = saved_control;
    memset(want.marks, 0xFF, sizeof want.marks);
    number = LOAD(is.file, KUJ_FILE_BYTES);
    expect(call, "a file", number, 0, 0);

    // "Loading a file sets all bits", of new marks too.
    start_new(0, 0);
    put_file(is.file);
    want = is;
    memcpy(want.elements, saved_elements, sizeof want.elements);
    want.control = saved_control;
    memset(want.marks, 0xFF, sizeof want.marks);
    number = LOAD(is.file, KUJ_FILE_BYTES);
    expect(call, "a file, new marks", number, 0, 0);

    // A byte more is the extra record 1,029; VCR 65 is out of range, and VCR is record 1,026; a byte less cuts record 1,028.
    start(99);
    put_file(is.file);
    want = is;
    number = LOAD(is.file, KUJ_FILE_BYTES + 1);
    expect(call, "a byte more", number, 10, 1029);
    is.beside = UNWRITTEN;
    number = LOAD(is.file, KUJ_FILE_BYTES - 1);
    expect(call, "a byte less", number, 10, 1028);
    put_record(is.file, 1026, 65);
    want = is;
    number = LOAD(is.file, KUJ_FILE_BYTES);
    expect(call, "VCR 65", number, 10, 1026);
    is.beside = UNWRITTEN;
    number = LOAD(NULL, 0);
    expect(call, "NULL", number, 10, 0);
    end(of_kuj_load);
}

// ---- kuj_clear_marks ----

static void clear(const char *what) {
    uint32_t number = CALL(kuj_clear_marks, .marks = is.marks, .beside = &is.beside);
    memset(want.marks, 0, sizeof want.marks);
    expect("kuj_clear_marks", what, number, 0, 0);
    is.beside = UNWRITTEN;
}

static void clears(void) {
    // Whatever they held.
    start(2);
    want = is;
    clear("a mark of each register");
    clear("new marks");
    memset(is.marks, 0xFF, sizeof is.marks);
    clear("all marks");

    // Q-3: "From new marks, handed on unchanged from call to call, a bit is one exactly when, since the last clear, a file was loaded or an
    // accepted instruction wrote that element". The marks go through every call that takes them, with control moves between.
    const char *call = "marks from call to call";
    static const uint64_t two[] = { 0, 64 };
    uint32_t number;
    start_new(2, 0);
    V(is, 1, 0) = 5;
    want = is;

    // V4 = V1 + V1.
    V(want, 4, 0) = 10;
    want.marks[4] = 3;
    number = EXECUTE(0x80, 0x0114, 0, 0, 0, NULL, 0, 0);
    expect(call, "an instruction", number, 0, 0);

    // At VLR 1: V2 = 100 + V1, then V3 = 3 * V2.
    want.control.vlr = 1;
    number = CALL(kuj_write_vlr, .control = &is.control, .value = 1, .beside = &is.beside);
    expect(call, "a write of VLR", number, 0, 0);
    V(want, 2, 0) = 105;
    V(want, 3, 0) = 315;
    want.marks[2] = 1;
    want.marks[3] = 1;
    number = RUN(opcodes, 2, cntrls, 2, scalars, 2);
    expect(call, "a queue", number, 0, 0);

    // Refused: opcode FF, which stands at position 2.
    number = RUN(opcodes, 3, cntrls, 3, scalars, 3);
    expect(call, "a queue that is refused", number, 1, 2);

    // What is written after the clear is what it is since then, though the same contents come out.
    clear("after three calls");
    number = RUN_ORDER(opcodes, 2, cntrls, 2, scalars, 2, two, 1);
    expect(call, "a list that is refused", number, 9, 1);
    want.marks[2] = 1;
    want.marks[3] = 1;
    number = RUN_ORDER(opcodes, 2, cntrls, 2, scalars, 2, two, 2);
    expect(call, "a list", number, 0, 0);

    // A file that is refused, then one that is not.
    number = LOAD(NULL, 0);
    expect(call, "a file that is refused", number, 10, 0);
    put_file(is.file);
    put_file(want.file);
    memcpy(want.elements, saved_elements, sizeof want.elements);
    want.control = saved_control;
    memset(want.marks, 0xFF, sizeof want.marks);
    number = LOAD(is.file, KUJ_FILE_BYTES);
    expect(call, "a file", number, 0, 0);
    clear("after a file");

    // VLR is 4 now. An IOTA, of the mask's only bit below VLR, writes V0[0]; a compare of V1 and V1, equal, writes the mask.
    want.control.vcr = 1;
    want.marks[0] = 1;
    number = EXECUTE(0xED, 0x4000, 8, 0, 0, NULL, 0, 0);
    expect(call, "an IOTA", number, 0, 0);
    want.control.vmr = 0x800000000000000F;
    number = EXECUTE(0xC0, 0x0111, 0, 0, 0, NULL, 0, 0);
    expect(call, "a compare", number, 0, 0);
    clear("at the end");
    end(of_kuj_clear_marks);
}

// ---- kuj_reading ----

// V2[5] = 80000001 with ones above, V5[2] = 4120, V0[1] = 8004, V1[0] = 9.
static const uint64_t shown[KUJ_ELEMENTS] = {
    [2 * 64 + 5] = 0xFFFFFFFF80000001, [5 * 64 + 2] = 0x4120, [0 * 64 + 1] = 0x8004, [1 * 64 + 0] = 9
};

static uint32_t reading(uint32_t reg, uint32_t element, uint32_t kind) {
    return CALL(kuj_reading, .elements = shown, .control = &saved_control, .reg = reg, .element = element, .kind = kind,
                .kind_read = &is.kind_read, .bits = &is.bits, .beside = &is.beside);
}

static void readings(void) {
    const char *call = "kuj_reading";
    uint32_t number;

    // As a longword: the 32 bits as they stand.
    start(0);
    want = is;
    want.kind_read = KUJ_READ_LONGWORD;
    want.bits = 0x80000001;
    number = reading(2, 5, KUJ_LONGWORD);
    expect(call, "V2[5] as a longword", number, 0, 0);

    // F 4120 is 0.101 (binary) times 2^2, 2.5; binary64 has 1.01 times 2^1, exponent 1 + 1,023 = 400 (hex), fraction 4000000000000.
    start(0);
    want = is;
    want.kind_read = KUJ_READ_BINARY64;
    want.bits = 0x4004000000000000;
    number = reading(5, 2, KUJ_F_FLOATING);
    expect(call, "V5[2] as F", number, 0, 0);

    // 8004 is reserved, with code 4.
    start(0);
    want = is;
    want.kind_read = KUJ_READ_RESERVED;
    want.bits = 4;
    number = reading(0, 1, KUJ_F_FLOATING);
    expect(call, "V0[1] as F", number, 0, 0);

    // The first that there is not, and 256 and 2^31, which a narrower parameter would cut to 0. What is read is kept.
    static const struct { const char *what; uint32_t reg, element, kind; } none[] = {
        { "register 16", 16, 0, 0 }, { "element 64", 0, 64, 0 }, { "kind 2", 0, 0, 2 },
        { "register 256", 256, 0, 0 }, { "element 256", 0, 256, 0 }, { "kind 256", 0, 0, 256 },
        { "register 65536", 65536, 0, 0 }, { "element 65536", 0, 65536, 0 }, { "kind 65536", 0, 0, 65536 },
        { "register 2^31", 0x80000000, 0, 0 }, { "element 2^31", 0, 0x80000000, 0 }, { "kind 2^31", 0, 0, 0x80000000 },
    };
    for (size_t k = 0; k < sizeof none / sizeof none[0]; k++) {
        start(0);
        want = is;
        number = reading(none[k].reg, none[k].element, none[k].kind);
        expect(call, none[k].what, number, 13, 0);
    }
    end(of_kuj_reading);
}

// ---- Control moves ----

// Five numbers that are all different; halves of VMR too.
static const struct kuj_control enabled = { .vlr = 4, .vmr = 0x1122334455667788, .vcr = 3, .vaer = 0x00200020, .vpsr = VEN | AEX };
// The same with VEN 0; then VAER with its bit 4 too, which is out of range.
static const struct kuj_control disabled = { .vlr = 4, .vmr = 0x1122334455667788, .vcr = 3, .vaer = 0x00200020, .vpsr = AEX };
static const struct kuj_control broken = { .vlr = 4, .vmr = 0x1122334455667788, .vcr = 3, .vaer = 0x00200030, .vpsr = AEX };

// A read of the three records: what stands beside 0 for the first, the answer for the second, and 12.
#define READ(NAME, VALUE, NUMBER_DISABLED, BESIDE_DISABLED) do { \
        uint32_t number; \
        start(0); \
        want = is; \
        number = CALL(NAME, .control = &enabled, .beside = &is.beside); \
        expect(#NAME, "enabled", number, 0, VALUE); \
        is.beside = UNWRITTEN; \
        number = CALL(NAME, .control = &disabled, .beside = &is.beside); \
        expect(#NAME, "disabled", number, NUMBER_DISABLED, BESIDE_DISABLED); \
        is.beside = UNWRITTEN; \
        number = CALL(NAME, .control = &broken, .beside = &is.beside); \
        expect(#NAME, "out of range", number, 12, 0); \
        end(of_##NAME); \
    } while (0)

static void reads(void) {
    READ(kuj_read_vlr, 4, 3, 0);
    READ(kuj_read_vcr, 3, 3, 0);
    READ(kuj_read_vmr_low, 0x55667788, 3, 0);
    READ(kuj_read_vmr_high, 0x11223344, 3, 0);
    READ(kuj_read_vaer, 0x00200020, 0, 0x00200020);
    READ(kuj_read_vpsr, 0x81, 0, 0x80);
}

// A write to a copy of a record. Afterwards the whole record is compared.
#define WRITE(NAME, WHAT, RECORD, VALUE, NUMBER, ...) do { \
        uint32_t number; \
        start(0); \
        is.control = RECORD; \
        want = is; \
        __VA_ARGS__; \
        number = CALL(NAME, .control = &is.control, .value = VALUE, .beside = &is.beside); \
        expect(#NAME, WHAT, number, NUMBER, 0); \
    } while (0)

// A refused write stores nothing, so that the record may stand in memory that cannot be written: a store there ends the program.
#define REFUSED(NAME, WHAT, RECORD, VALUE, NUMBER) do { \
        uint32_t number; \
        WRITE(NAME, WHAT, RECORD, VALUE, NUMBER, (void)0); \
        is.beside = UNWRITTEN; \
        number = CALL(NAME, .control = (struct kuj_control *)&RECORD, .value = VALUE, .beside = &is.beside); \
        expect(#NAME, WHAT, number, NUMBER, 0); \
    } while (0)

static void writes(void) {
    WRITE(kuj_write_vlr, "9", enabled, 9, 0, want.control.vlr = 9);
    WRITE(kuj_write_vlr, "64", enabled, 64, 0, want.control.vlr = 64);
    REFUSED(kuj_write_vlr, "65", enabled, 65, 11);
    REFUSED(kuj_write_vlr, "2^32", enabled, 0x100000000, 11);
    REFUSED(kuj_write_vlr, "2^32 + 1", enabled, 0x100000001, 11);
    REFUSED(kuj_write_vlr, "2^64 - 1", enabled, UINT64_MAX, 11);
    REFUSED(kuj_write_vlr, "9, disabled", disabled, 9, 3);
    REFUSED(kuj_write_vlr, "65, disabled", disabled, 65, 3);
    REFUSED(kuj_write_vlr, "65, out of range and disabled", broken, 65, 12);
    end(of_kuj_write_vlr);

    WRITE(kuj_write_vcr, "10", enabled, 10, 0, want.control.vcr = 10);
    WRITE(kuj_write_vcr, "64", enabled, 64, 0, want.control.vcr = 64);
    REFUSED(kuj_write_vcr, "65", enabled, 65, 11);
    REFUSED(kuj_write_vcr, "2^32", enabled, 0x100000000, 11);
    REFUSED(kuj_write_vcr, "2^32 + 1", enabled, 0x100000001, 11);
    REFUSED(kuj_write_vcr, "2^64 - 1", enabled, UINT64_MAX, 11);
    REFUSED(kuj_write_vcr, "10, disabled", disabled, 10, 3);
    REFUSED(kuj_write_vcr, "65, disabled", disabled, 65, 3);
    REFUSED(kuj_write_vcr, "65, out of range and disabled", broken, 65, 12);
    end(of_kuj_write_vcr);

    // The other half stays. Any 32 bits are taken, so there is no 11.
    WRITE(kuj_write_vmr_low, "A1B2C3D4", enabled, 0xA1B2C3D4, 0, want.control.vmr = 0x11223344A1B2C3D4);
    REFUSED(kuj_write_vmr_low, "disabled", disabled, 0xA1B2C3D4, 3);
    REFUSED(kuj_write_vmr_low, "out of range and disabled", broken, 0xA1B2C3D4, 12);
    end(of_kuj_write_vmr_low);
    WRITE(kuj_write_vmr_high, "A1B2C3D4", enabled, 0xA1B2C3D4, 0, want.control.vmr = 0xA1B2C3D455667788);
    REFUSED(kuj_write_vmr_high, "disabled", disabled, 0xA1B2C3D4, 3);
    REFUSED(kuj_write_vmr_high, "out of range and disabled", broken, 0xA1B2C3D4, 12);
    end(of_kuj_write_vmr_high);

    // VEN becomes bit 0, AEX and VAER stay; bit 7 clears AEX and VAER; bit 1 clears VPSR and VAER. It is not refused as disabled.
    WRITE(kuj_write_vpsr, "0", enabled, 0, 0, want.control.vpsr = AEX);
    WRITE(kuj_write_vpsr, "1, disabled", disabled, 1, 0, want.control.vpsr = VEN | AEX);
    WRITE(kuj_write_vpsr, "81", disabled, 0x81, 0, want.control.vpsr = VEN, want.control.vaer = 0);
    WRITE(kuj_write_vpsr, "2", enabled, 2, 0, want.control.vpsr = 0, want.control.vaer = 0);
    // Setting 5 of <3:0>, and a one at either end of <4>, <23:8> and <30:26>, disabled too; 12 is tested before.
    REFUSED(kuj_write_vpsr, "5", enabled, 5, 11);
    REFUSED(kuj_write_vpsr, "5, disabled", disabled, 5, 11);
    REFUSED(kuj_write_vpsr, "11", enabled, 0x00000011, 11);
    REFUSED(kuj_write_vpsr, "101", enabled, 0x00000101, 11);
    REFUSED(kuj_write_vpsr, "800001", enabled, 0x00800001, 11);
    REFUSED(kuj_write_vpsr, "4000001", enabled, 0x04000001, 11);
    REFUSED(kuj_write_vpsr, "40000001", enabled, 0x40000001, 11);
    REFUSED(kuj_write_vpsr, "1, out of range", broken, 1, 12);
    REFUSED(kuj_write_vpsr, "5, out of range", broken, 5, 12);
    end(of_kuj_write_vpsr);
}

int main(void) {
    setvbuf(stdout, NULL, _IOLBF, BUFSIZ);
    clears(); // first, for it puts other calls too
    execute();
    run();
    run_order();
    save();
    load();
    readings();
    reads();
    writes();
    for (int k = 0; k < CALLS; k++) {
        if (times[k] > 0) continue;
        differences++;
        printf("DIFFERS: %s is in the header and has no case here\n", names[k]);
    }
    printf("header: %d calls, %s\n", CALLS, differences ? "DIFFERENT" : "SAME");
    return differences != 0;
}
