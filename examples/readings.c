/*
 * One heat step, over the installed library, from C. readings.cc, readings.rs and readings.py do the same.
 *   cc readings.c $(pkg-config --cflags --libs kujawian) -o readings && ./readings SAVED
 */
#include <errno.h>
#include <kujawian.h>
#include <stdio.h>
#include <string.h>

int main(int argc, char **argv)
{
    static uint64_t elements[KUJ_ELEMENTS], marks[KUJ_MARKS]; /* zeros: new marks */
    static struct kuj_control control;
    static uint8_t saved[KUJ_FILE_BYTES + 1]; /* one more, so that a file too long is seen as such */
    uint64_t beside, kind_read, bits;
    FILE *file = argc == 2 ? fopen(argv[1], "rb") : NULL;
    size_t length = file ? fread(saved, 1, sizeof saved, file) : 0;
    if (file == NULL || ferror(file)) {
        fprintf(stderr, "readings: %s\n", argc == 2 ? strerror(errno) : "usage: readings SAVED");
        return 2;
    }
    uint32_t number = kuj_load(elements, &control, marks, saved, length, &beside);
    if (number == 0)
        kuj_clear_marks(marks, &beside); /* loading marks everything; from here, what the queue writes */

    /* V2 = V1 - V0, V2 = 0.125 * V2, V0 = V0 + V2 */
    const uint8_t opcodes[3] = { 0x8C, 0xA5, 0x84 };
    const uint16_t cntrls[3] = { 0x2102, 0x2022, 0x2020 };
    const uint64_t scalars[3] = { 0, 0x3F00, 0 };
    if (number == 0)
        number = kuj_run(elements, &control, marks, opcodes, 3, cntrls, 3, scalars, 3, &beside);
    for (uint32_t zone = 0; number == 0 && zone < KUJ_REGISTER_LENGTH; zone++) {
        if ((marks[0] >> zone & 1) == 0)
            continue; /* V0's element was not written */
        number = kuj_reading(elements, &control, 0, zone, KUJ_F_FLOATING, &kind_read, &bits, &beside);
        double value;
        memcpy(&value, &bits, sizeof value);
        if (kind_read == KUJ_READ_BINARY64)
            printf("%u %.6f\n", zone, value);
        else
            printf("%u reserved operand\n", zone);
    }
    if (number != 0)
        printf("refused: %u %llu\n", number, (unsigned long long)beside);
    return number != 0;
}
