/*
 * Kujawian: DEC's VAX vector instructions, as document 01 (the project's paper of exact rules) fixes
 * them, and document 02 (the requests made after it): Q-1 for division, Q-2 for underflow, Q-3 for
 * marks. The calls of libkujawian.a, and names for the numbers that go in and out of them.
 * docs/MANUAL.md has the rules themselves, for a reader who has neither paper.
 *
 * Every call is total: it takes any numbers and any lengths, and ends. It returns a number of
 * document 01 and writes what stands beside that number to *beside, always: 0 where document 01
 * gives 0, and after a done call that reads nothing.
 *
 *    0  done                        what was read, or 0
 *    1  reserved opcode             queue position (0 for a single instruction)
 *    2  reserved control word       queue position (0 for a single instruction)
 *    3  processor disabled          0
 *    4  window not allowed          0
 *    5  misaligned                  element, the lowest bad one
 *    6  outside the window          element, the lowest bad one
 *    7  memory opcode in a queue    queue position
 *    8  more than 16 in a queue, or its parts of unequal length
 *                                   0
 *    9  order not permitted         list position
 *   10  bad saved file              record number
 *   11  control value refused       0
 *   12  state out of range          0
 *   13  no such field               0
 *
 * After a number other than 0 nothing has changed but *beside. Where a call gives several numbers
 * they are named below in the order in which they are tested; the first that applies is given.
 *
 * The state is the caller's, in two parts:
 *
 *   elements  1,024 numbers; element e of register r at r * 64 + e
 *   control   struct kuj_control: VLR, VMR, VCR, VAER, VPSR, in the order of the saved records 1,024 to
 *             1,028. It is five 64-bit numbers in that order, without padding: an array of five is the
 *             same to every call, for a caller whose language has no such struct.
 *             Range: VLR and VCR 0 to 64; VMR any; VAER bits 0 (floating underflow), 1 (division by
 *             zero), 2 (reserved operand), 3 (floating overflow), 5 (integer overflow) and 16 + n (an
 *             exception wrote Vn); VPSR bit 0 (VEN) and bit 7 (AEX). Any other contents get 12, so a
 *             state is safe to hand in wherever it came from.
 *
 * Beside the state the caller keeps marks. They say what was written, so that a panel has to read no
 * more than that:
 *
 *   marks     16 words of 64 bits; bit e of word r is the mark of element e of register r. New marks
 *             are zeros; a call takes any. From new marks, handed on unchanged from call to call, a bit
 *             is one exactly when, since the last kuj_clear_marks, a file was loaded or an accepted
 *             instruction wrote that element, whether or not its contents changed. They are not saved,
 *             and control moves touch none.
 *
 * C cuts an argument to its parameter's width and says nothing. So numbers that are tested are taken
 * wide (a register, an element and a kind in 32 bits, a new VLR or VCR in 64), and nothing is cut before
 * it is tested: 256 is no register 0 but gets 13, and 2^32 + 1 is no VLR 1 but gets 11. An opcode has
 * 8 bits, a control word 16, a half of VMR and a value of VPSR 32.
 *
 * A slice is a pointer and then a length, counted in items; the pointer of an empty slice is never
 * read, and may be NULL. No other pointer may be NULL. Arrays, slices and results lent to one call do
 * not overlap, unless all are const.
 *
 * A call keeps nothing behind: all it knows is what it is lent. Calls on different states, each with
 * marks of its own, may run at the same time.
 */
#ifndef KUJAWIAN_H
#define KUJAWIAN_H

#include <stddef.h>
#include <stdint.h>

#ifdef __cplusplus
extern "C" {
#endif

/* ---- Version ---- */

#define KUJ_VERSION_MAJOR 0
#define KUJ_VERSION_MINOR 13
#define KUJ_VERSION_PATCH 0
#define KUJ_VERSION "0.13.0"

/* ---- Sizes ---- */

enum {
    KUJ_ELEMENTS = 1024,    /* length of elements */
    KUJ_MARKS = 16,         /* length of marks: a word to each register */
    KUJ_FILE_BYTES = 16464  /* length of a saved file: 1,029 records of 16 bytes */
};

enum {
    KUJ_REGISTERS = 16,         /* V0 to V15 */
    KUJ_REGISTER_LENGTH = 64,   /* elements of a register; the largest VLR and VCR */
    KUJ_CONTROL_NUMBERS = 5,    /* numbers of the control record */
    KUJ_RECORDS = 1029,         /* records of a saved file */
    KUJ_RECORD_BYTES = 16,      /* length of a record */
    KUJ_QUEUE_LENGTH = 16,      /* most instructions in a queue */
    KUJ_ORDER_LENGTH = 1024,    /* most steps of a queue: 16 instructions of 64 elements */
    KUJ_WINDOW_BYTES = 65536    /* longest window */
};

/* Where element e of register r stands in elements. */
#define KUJ_PLACE(r, e) ((r) * 64 + (e))

/* The step of element e of the instruction at position p, as an entry of an order. */
#define KUJ_STEP(p, e) ((p) * 64 + (e))

/* ---- The numbers that a call returns ---- */

enum {
    KUJ_DONE = 0,
    KUJ_RESERVED_OPCODE = 1,
    KUJ_RESERVED_CONTROL_WORD = 2,
    KUJ_DISABLED = 3,               /* the processor is disabled: VEN is 0 */
    KUJ_WINDOW_NOT_ALLOWED = 4,
    KUJ_MISALIGNED = 5,
    KUJ_OUTSIDE_WINDOW = 6,
    KUJ_MEMORY_IN_QUEUE = 7,        /* a memory opcode in a queue */
    KUJ_QUEUE_REFUSED = 8,          /* more than 16, or parts of unequal length */
    KUJ_ORDER_NOT_PERMITTED = 9,
    KUJ_BAD_FILE = 10,
    KUJ_VALUE_REFUSED = 11,         /* a control value */
    KUJ_STATE_OUT_OF_RANGE = 12,
    KUJ_NO_SUCH_FIELD = 13
};

/* ---- The state ---- */

/* The control record. */
struct kuj_control {
    uint64_t vlr;   /* vector length, 0 to 64 */
    uint64_t vmr;   /* mask; bit i is element i's */
    uint64_t vcr;   /* count, 0 to 64 */
    uint64_t vaer;  /* exceptions */
    uint64_t vpsr;  /* status */
};

/* Bits of VAER. The first four are also the codes of the reserved operands that exceptions write:
   00008000 plus one of them, or 00008006 for a reserved operand divided by zero. */
enum {
    KUJ_VAER_UNDERFLOW = 0x01,          /* floating underflow */
    KUJ_VAER_DIVISION_BY_ZERO = 0x02,   /* floating division by zero */
    KUJ_VAER_RESERVED_OPERAND = 0x04,   /* floating reserved operand */
    KUJ_VAER_OVERFLOW = 0x08,           /* floating overflow */
    KUJ_VAER_INTEGER_OVERFLOW = 0x20
};
#define KUJ_VAER_REGISTER(n) ((uint64_t)1 << (16 + (n)))    /* an exception wrote Vn */
#define KUJ_VAER_BITS ((uint64_t)0xFFFF002F)                /* all that VAER may hold */

/* Bits of VPSR. A state holds VEN and AEX alone; RST is for kuj_write_vpsr. */
enum {
    KUJ_VPSR_VEN = 0x01,    /* the processor is enabled */
    KUJ_VPSR_RST = 0x02,    /* written: clear VPSR and VAER */
    KUJ_VPSR_AEX = 0x80     /* an exception was recorded; written: clear AEX and VAER */
};
#define KUJ_VPSR_BITS ((uint64_t)0x81)                      /* all that VPSR may hold */

/* Kinds of a field, named by the caller of a reading. */
enum { KUJ_F_FLOATING, KUJ_LONGWORD };

/* What a reading gives back. */
enum { KUJ_READ_BINARY64, KUJ_READ_LONGWORD, KUJ_READ_RESERVED };

/* ---- Opcodes ---- */

/* The byte after FD, by DEC's mnemonics: VV.. takes Va, VS.. a scalar in its place. All others are
   reserved. */
enum {
    /* longword: add, subtract, multiply, compare */
    KUJ_VVADDL = 0x80, KUJ_VSADDL = 0x81,
    KUJ_VVSUBL = 0x88, KUJ_VSSUBL = 0x89,
    KUJ_VVMULL = 0xA0, KUJ_VSMULL = 0xA1,
    KUJ_VVCMPL = 0xC0, KUJ_VSCMPL = 0xC1,
    /* bit set, exclusive or, bit clear */
    KUJ_VVBISL = 0xC8, KUJ_VSBISL = 0xC9,
    KUJ_VVXORL = 0xE8, KUJ_VSXORL = 0xE9,
    KUJ_VVBICL = 0xCC, KUJ_VSBICL = 0xCD,
    /* logical shift right, left */
    KUJ_VVSRLL = 0xE0, KUJ_VSSRLL = 0xE1,
    KUJ_VVSLLL = 0xE4, KUJ_VSSLLL = 0xE5,
    /* F_floating: add, subtract, multiply, divide, compare */
    KUJ_VVADDF = 0x84, KUJ_VSADDF = 0x85,
    KUJ_VVSUBF = 0x8C, KUJ_VSSUBF = 0x8D,
    KUJ_VVMULF = 0xA4, KUJ_VSMULF = 0xA5,
    KUJ_VVDIVF = 0xAC, KUJ_VSDIVF = 0xAD,
    KUJ_VVCMPF = 0xC4, KUJ_VSCMPF = 0xC5,
    /* convert, IOTA, merge */
    KUJ_VVCVT = 0xEC,
    KUJ_IOTA = 0xED,
    KUJ_VVMERGE = 0xEE, KUJ_VSMERGE = 0xEF,
    /* memory, for kuj_execute alone: load and store by a stride, gather and scatter by offsets from Vb;
       longwords, quadwords */
    KUJ_VLDL = 0x34, KUJ_VLDQ = 0x36,
    KUJ_VGATHL = 0x35, KUJ_VGATHQ = 0x37,
    KUJ_VSTL = 0x9C, KUJ_VSTQ = 0x9E,
    KUJ_VSCATL = 0x9D, KUJ_VSCATQ = 0x9F
};

/* ---- The control word ---- */

/* Its flags. */
enum {
    KUJ_MOE = 0x8000,   /* operate on elements whose mask bit is MTF, and on no others */
    KUJ_MTF = 0x4000,   /* the mask bit that matches is 1; without it, 0 */
    KUJ_EXC = 0x2000    /* record integer overflow and floating underflow */
};

/* Where its fields begin; each has four bits. */
enum {
    KUJ_VA_BIT = 8,     /* Va, or a conversion */
    KUJ_VB_BIT = 4,
    KUJ_VC_BIT = 0      /* Vc, or a relation */
};

/* Relations of a compare, in place of Vc: Va, or the scalar, stands left. 3 and 7 are refused. */
enum {
    KUJ_GTR = 0,    /* greater */
    KUJ_EQL = 1,    /* equal */
    KUJ_LSS = 2,    /* less */
    KUJ_LEQ = 4,    /* less or equal */
    KUJ_NEQ = 5,    /* not equal */
    KUJ_GEQ = 6     /* greater or equal */
};

/* Conversions of KUJ_VVCVT, in place of Va. All others are refused. */
enum {
    KUJ_CVTLF = 1,  /* longword to F_floating, rounded */
    KUJ_CVTFL = 4,  /* F_floating to longword, truncated */
    KUJ_CVTRFL = 5  /* F_floating to longword, rounded */
};

/* A control word of flags (0, or some of KUJ_MOE, KUJ_MTF and KUJ_EXC by or) and three fields, of which
   the lowest four bits count: KUJ_CNTRL(KUJ_EXC, 0, 2, 5) is 0x2025. */
#define KUJ_CNTRL(flags, va, vb, vc) \
    ((uint16_t)((unsigned)(flags) | ((unsigned)(va) & 15u) << KUJ_VA_BIT | \
                ((unsigned)(vb) & 15u) << KUJ_VB_BIT | ((unsigned)(vc) & 15u) << KUJ_VC_BIT))

/* ---- Instructions ---- */

/*
 * One instruction: the opcode's second byte (after FD; of the 256, 40 are accepted), its control word
 * and its operands. scalar is read by odd operate opcodes, where it stands for Va (IOTA's stride; the
 * dividend of a division, whose divisor is Vb), base by memory opcodes, stride by even memory opcodes,
 * window and origin by memory opcodes; a part that is not read may hold anything. Addresses go modulo
 * 2^32, so that a negative stride is one near 2^32.
 *
 * 12, 1, 3, 2; a memory opcode also 4, then 5 or 6. 1 and 2 have 0 beside them, 5 and 6 the element.
 * 0: elements and control are those after the instruction, the window too for a store or scatter.
 * Nothing else of the window is written. Marks that are set stay, and the instruction sets those of the
 * elements that it wrote in Vc: the ones it operated on, for a load or gather too; for a merge every one
 * below VLR; for IOTA the first VCR, by the new VCR; for a compare, store or scatter none. What an
 * exception leaves is written too. Beside: 0.
 */
uint32_t kuj_execute(uint64_t elements[1024], struct kuj_control *control, uint64_t marks[16],
                     uint8_t opcode, uint16_t cntrl, uint64_t scalar, uint32_t base, uint32_t stride,
                     uint8_t *window, size_t window_len, uint64_t origin,
                     uint64_t *beside);

/*
 * A queue of at most 16 operate instructions, straight through. Instruction p is opcodes[p],
 * cntrls[p], scalars[p]; the three lengths are equal, or the answer is 8.
 *
 * 12, 8, 3; then for each position from 0: 1, 7, 2, with the position beside it.
 * 0: elements and control are those after the last instruction; VEN and AEX change at the end, if an
 * exception was recorded. Marks that are set stay, and each instruction sets its own. Beside: 0.
 */
uint32_t kuj_run(uint64_t elements[1024], struct kuj_control *control, uint64_t marks[16],
                 const uint8_t *opcodes, size_t opcodes_len,
                 const uint16_t *cntrls, size_t cntrls_len,
                 const uint64_t *scalars, size_t scalars_len,
                 uint64_t *beside);

/*
 * The same queue by a list of its steps, each done on what the last one left. A step is instruction
 * position * 64 + element, for each element below VLR; an IOTA is one step, with element 0, even at
 * VLR 0. A list is permitted when it holds every step once and nothing else, and each step comes after
 * those that it must follow: steps of earlier instructions that touch the same register element, mask
 * bit or VCR, where one of the two writes it.
 *
 * As kuj_run; then 9 with the position of the first entry at fault beside it, or with the list's
 * length if only steps are missing.
 * 0: elements, control and marks are what kuj_run leaves. Beside: 0.
 */
uint32_t kuj_run_order(uint64_t elements[1024], struct kuj_control *control, uint64_t marks[16],
                       const uint8_t *opcodes, size_t opcodes_len,
                       const uint16_t *cntrls, size_t cntrls_len,
                       const uint64_t *scalars, size_t scalars_len,
                       const uint64_t *order, size_t order_len,
                       uint64_t *beside);

/* ---- Saved state and readings ---- */

/*
 * Saves the state (docs/FORMATS.md has the format). Marks are no part of it.
 *
 * 12; then 10 if file_len is below 16,464, with the first record that has no room, file_len / 16.
 * 0: the first 16,464 bytes of file are the saved state, the rest is kept. Beside: 0.
 */
uint32_t kuj_save(const uint64_t elements[1024], const struct kuj_control *control,
                  uint8_t *file, size_t file_len,
                  uint64_t *beside);

/*
 * Loads a saved state. The old contents of elements, control and marks are not looked at.
 *
 * 10, with the first record that is missing, cut, out of range, misnumbered, has a filler byte that is
 * not zero, or is extra (1,029).
 * 0: elements and control are the saved ones, and every mark is set. Beside: 0.
 */
uint32_t kuj_load(uint64_t elements[1024], struct kuj_control *control, uint64_t marks[16],
                  const uint8_t *file, size_t file_len,
                  uint64_t *beside);

/*
 * Reads one element as a panel shows it; kind is KUJ_F_FLOATING or KUJ_LONGWORD. Bits <31:0> of the
 * element are read. It works while the processor is disabled.
 *
 * 12; then 13 for a register over 15, an element over 63 or another kind. *kind_read and *bits are
 * written on 0 alone:
 *   *kind_read KUJ_READ_BINARY64   *bits: those of the binary64 number that equals it exactly
 *              KUJ_READ_LONGWORD   *bits: the 32 bits as they stand, two's complement; zeros above
 *              KUJ_READ_RESERVED   *bits: the reserved operand's code, bits <3:0>
 * Beside: 0.
 */
uint32_t kuj_reading(const uint64_t elements[1024], const struct kuj_control *control,
                     uint32_t reg, uint32_t element, uint32_t kind,
                     uint64_t *kind_read, uint64_t *bits,
                     uint64_t *beside);

/* ---- Marks ---- */

/*
 * Clears all marks. A panel calls it after it has read the elements whose marks are set, with no other
 * call on these marks between: what that one wrote would be forgotten, unread.
 *
 * Always 0: every mark is zero. Beside: 0.
 */
uint32_t kuj_clear_marks(uint64_t marks[16], uint64_t *beside);

/* ---- Control moves ---- */

/*
 * Each reads one number, which stands beside 0; the halves of VMR are 32 bits. Nothing changes.
 *
 * 12; then 3, but for VAER and VPSR, which are read while the processor is disabled too.
 */
uint32_t kuj_read_vlr(const struct kuj_control *control, uint64_t *beside);
uint32_t kuj_read_vcr(const struct kuj_control *control, uint64_t *beside);
uint32_t kuj_read_vmr_low(const struct kuj_control *control, uint64_t *beside);
uint32_t kuj_read_vmr_high(const struct kuj_control *control, uint64_t *beside);
uint32_t kuj_read_vaer(const struct kuj_control *control, uint64_t *beside);
uint32_t kuj_read_vpsr(const struct kuj_control *control, uint64_t *beside);

/*
 * Each writes one number and changes no other; a write of one half of VMR keeps the other half. A write
 * that is refused stores nothing.
 *
 * 12, 3; VLR and VCR then 11 for a value above 64. 0: control is altered where it stands. Beside: 0.
 */
uint32_t kuj_write_vlr(struct kuj_control *control, uint64_t value, uint64_t *beside);
uint32_t kuj_write_vcr(struct kuj_control *control, uint64_t value, uint64_t *beside);
uint32_t kuj_write_vmr_low(struct kuj_control *control, uint32_t value, uint64_t *beside);
uint32_t kuj_write_vmr_high(struct kuj_control *control, uint32_t value, uint64_t *beside);

/*
 * Writes VPSR; never refused as disabled, for this is how the processor is enabled. VLR, VMR and VCR
 * keep their contents, and a write that is refused stores nothing.
 *
 * 12; then 11 for <3:0> other than 0, 1, 2, 3, 4, 8, 9, or a one in <4>, <23:8> or <30:26>.
 * 0: a one in bit 1 has cleared VPSR and VAER, a one in bit 7 has cleared AEX and VAER, and VEN is
 * bit 0. Bits 2, 3, 5, 6, 24, 25 and 31 have no effect. Beside: 0.
 */
uint32_t kuj_write_vpsr(struct kuj_control *control, uint32_t value, uint64_t *beside);

#ifdef __cplusplus
}
#endif

#endif
