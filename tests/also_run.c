// Document 01, "Also run": VLR 0, 1, 64; write of 65; empty window; window end minus 3 and minus 4; stride 0.
// Each case prints one line; tests/also_run.sh holds them to tests/also_run.expected.
#include <inttypes.h>
#include <stdio.h>
#include <string.h>

#include "kujawian.h"

static uint64_t elements[1024];
static struct kuj_control control;
static uint64_t marks[16];
static uint8_t window[16];

// VEN 1, VLR as named, new marks, all else zero but for V1 = 1, 2, .. and V2 = 10, 20, ..
static void start(uint64_t vlr) {
    memset(elements, 0, sizeof elements);
    memset(marks, 0, sizeof marks);
    memset(window, 0, sizeof window);
    for (int i = 0; i < 64; i++) {
        elements[64 + i] = (uint64_t)i + 1;
        elements[128 + i] = ((uint64_t)i + 1) * 10;
    }
    control = (struct kuj_control){ .vlr = vlr, .vpsr = 1 };
}

static void show(const char *name, uint32_t number, uint64_t beside) {
    printf("%s: %" PRIu32 " %" PRIu64 ", V3[0] %" PRIu64 ", V3[1] %" PRIu64 ", V3[63] %" PRIu64 ", marks of V3 %016" PRIX64 ", VLR %" PRIu64 ", window",
           name, number, beside, elements[192], elements[193], elements[255], marks[3], control.vlr);
    for (size_t i = 0; i < sizeof window; i++) printf(" %02X", window[i]);
    printf("\n");
}

// V3 = V1 + V2
static void add(const char *name, uint64_t vlr) {
    uint64_t beside = 99;
    start(vlr);
    uint32_t number = kuj_execute(elements, &control, marks, 0x80, 0x2123, 0, 0, 0, window, 0, 0, &beside);
    show(name, number, beside);
}

// a longword store (9C) or quadword store (9E) of V2 into a window of some length at origin 0x100
static void store(const char *name, uint8_t opcode, uint64_t vlr, uint32_t base, uint32_t stride, size_t length) {
    uint64_t beside = 99;
    start(vlr);
    uint32_t number = kuj_execute(elements, &control, marks, opcode, 0x0002, 0, base, stride, window, length, 0x100, &beside);
    show(name, number, beside);
}

int main(void) {
    uint64_t beside = 99;
    add("VLR 0", 0);
    add("VLR 1", 1);
    add("VLR 64", 64);
    add("VLR 65 in a state", 65);
    start(7);
    uint32_t number = kuj_write_vlr(&control, 65, &beside);
    show("write of 65 to VLR", number, beside);
    start(7);
    number = kuj_write_vcr(&control, 65, &beside);
    show("write of 65 to VCR", number, beside);
    start(7);
    number = kuj_write_vlr(&control, 64, &beside);
    show("write of 64 to VLR", number, beside);
    store("empty window, VLR 0", 0x9C, 0, 0x100, 4, 0);
    store("empty window, VLR 1", 0x9C, 1, 0x100, 4, 0);
    store("end minus 3", 0x9C, 1, 0x10D, 4, 16);
    store("end minus 4", 0x9C, 1, 0x10C, 4, 16);
    store("end minus 3 of a window of 15", 0x9C, 1, 0x10C, 4, 15);
    store("quadword at end minus 4", 0x9E, 1, 0x10C, 8, 16);
    store("quadword at end minus 8", 0x9E, 1, 0x108, 8, 16);
    store("stride 0, the highest wins", 0x9C, 64, 0x104, 0, 16);
    store("two elements, the second outside", 0x9C, 2, 0x10C, 4, 16);
    return 0;
}
