/*
 * One heat step of a kettle, over the C interface of libkujawian.a.
 *
 *   kettle SAVED
 *
 * Loads a saved state, runs a queue on it, and prints what a panel would redraw. The state has one zone
 * of the kettle to an element: its temperature in V0, its heater's in V1, both F_floating. Each step a
 * zone moves an eighth of the way to its heater. The marks say which elements the queue wrote: only
 * those are read.
 *
 * Exit status: 0; 1 if a call was refused (its number and what stands beside it are printed); 2 if the
 * file could not be read (standard error says why).
 */
#include "kujawian.h"

#include <errno.h>
#include <inttypes.h>
#include <stdio.h>
#include <string.h>

/* Control words: flags, then Va (or conversion), Vb, Vc (or relation), four bits each. */
enum { EXC = 0x2000, LESS_OR_EQUAL = 4, ROUNDED_TO_LONGWORD = 5 };

static uint16_t word(unsigned flags, unsigned va, unsigned vb, unsigned vc)
{
    return (uint16_t)(flags | va << 8 | vb << 4 | vc);
}

static int refused(const char *call, uint32_t number, uint64_t beside)
{
    printf("%s: refused, number %" PRIu32 ", beside it %" PRIu64 "\n", call, number, beside);
    return 1;
}

/* Each number of the control record has a call that reads it. While the processor is disabled, after
   an exception, all but VAER and VPSR are refused with 3. */
typedef uint32_t read_call(const struct kuj_control *control, uint64_t *beside);

static void print_control(const struct kuj_control *control)
{
    static const struct { const char *name, *format; read_call *read; } rows[] = {
        { "VLR", "%" PRIu64, kuj_read_vlr },
        { "VCR", "%" PRIu64, kuj_read_vcr },
        { "VMR<31:0>", "%08" PRIX64, kuj_read_vmr_low },
        { "VMR<63:32>", "%08" PRIX64, kuj_read_vmr_high },
        { "VAER", "%08" PRIX64, kuj_read_vaer },
        { "VPSR", "%08" PRIX64, kuj_read_vpsr },
    };
    for (size_t k = 0; k < sizeof rows / sizeof rows[0]; k++) {
        uint64_t beside;
        uint32_t number = rows[k].read(control, &beside);
        printf("%-10s ", rows[k].name);
        if (number == 0)
            printf(rows[k].format, beside);
        else
            printf("refused, number %" PRIu32, number);
        printf("\n");
    }
}

static void print_reading(const uint64_t elements[1024], const struct kuj_control *control,
                          uint32_t reg, uint32_t element, uint32_t kind)
{
    uint64_t kind_read, bits, beside;
    uint32_t number = kuj_reading(elements, control, reg, element, kind, &kind_read, &bits, &beside);
    if (number != 0) {
        printf("  refused, number %" PRIu32, number);
    } else if (kind_read == KUJ_READ_BINARY64) {
        double value; /* the bits are those of a binary64 number */
        memcpy(&value, &bits, sizeof value);
        printf("  %12.6f", value);
    } else if (kind_read == KUJ_READ_LONGWORD) {
        printf("  %6" PRId32, (int32_t)(uint32_t)bits);
    } else {
        printf("  reserved operand, code %" PRIu64, bits);
    }
}

/* The registers that have a mark: which of their elements were written. */
static void print_marks(const uint64_t marks[16])
{
    for (int r = 0; r < KUJ_REGISTERS; r++)
        if (marks[r] != 0)
            printf("wrote V%-2d  %016" PRIX64 "\n", r, marks[r]);
}

int main(int argc, char **argv)
{
    static uint64_t elements[KUJ_ELEMENTS], marks[KUJ_MARKS]; /* zeros: new marks */
    static struct kuj_control control;
    static uint8_t saved[KUJ_FILE_BYTES + 1]; /* one more, so that a file too long is seen as such */
    uint64_t beside;

    if (argc != 2) {
        fprintf(stderr, "usage: kettle SAVED\n");
        return 2;
    }
    FILE *file = fopen(argv[1], "rb");
    size_t length = file == NULL ? 0 : fread(saved, 1, sizeof saved, file);
    if (file == NULL || ferror(file)) {
        fprintf(stderr, "kettle: %s: %s\n", argv[1], strerror(errno));
        return 2;
    }
    fclose(file);
    uint32_t number = kuj_load(elements, &control, marks, saved, length, &beside);
    if (number != 0)
        return refused("load", number, beside);
    /* Loading marks every element, for a panel to draw them all. This one draws what the step writes. */
    kuj_clear_marks(marks, &beside);

    const uint8_t opcodes[] = { 0x8C, 0xA5, 0x84, 0xC5, 0xEC };
    const uint16_t cntrls[] = {
        word(EXC, 1, 0, 2),                     /* V2 = V1 - V0 */
        word(EXC, 0, 2, 2),                     /* V2 = scalar * V2 */
        word(EXC, 0, 2, 0),                     /* V0 = V0 + V2 */
        word(0, 0, 0, LESS_OR_EQUAL),           /* VMR: scalar <= V0 */
        word(EXC, ROUNDED_TO_LONGWORD, 0, 3),   /* V3 = V0 rounded */
    };
    const uint64_t scalars[] = { 0, 0x3F00 /* 0.125 */, 0, 0x43C8 /* 100.0 */, 0 };
    const size_t n = sizeof opcodes;
    number = kuj_run(elements, &control, marks, opcodes, n, cntrls, n, scalars, n, &beside);
    if (number != 0)
        return refused("run", number, beside);

    printf("zone   temperature   whole  boils\n");
    for (uint32_t zone = 0; zone < KUJ_REGISTER_LENGTH; zone++) {
        if (((marks[0] | marks[3]) >> zone & 1) == 0)
            continue; /* neither field was written: the panel still shows what they hold */
        printf("%4" PRIu32, zone);
        print_reading(elements, &control, 0, zone, KUJ_F_FLOATING);
        print_reading(elements, &control, 3, zone, KUJ_LONGWORD);
        /* The mask has no marks. It is written here for the zones that V0 is written for. */
        printf("  %s\n", control.vmr >> zone & 1 ? "yes" : "no");
    }
    print_marks(marks);
    kuj_clear_marks(marks, &beside); /* what was marked has been read; from here the next step counts */
    print_control(&control);
    return 0;
}
