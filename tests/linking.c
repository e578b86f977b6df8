/*
 * What a program that links the library may rely on beside the header's words: the pointer of an empty slice may be NULL; arrays need no
 * more than the alignment of their items; and no call takes more stack than is said. Called by tests/linking.sh.
 *   linking        prints for each call the stack that it was seen to take, or what differs
 */
#include "kujawian.h"

#include <inttypes.h>
#include <stdbool.h>
#include <stdio.h>
#include <string.h>
#include <ucontext.h>

static int failures;

static void expect(const char *what, uint32_t number, uint64_t beside, uint32_t number_due, uint64_t beside_due)
{
    if (number != number_due || beside != beside_due) {
        printf("linking: %s gives %" PRIu32 " %" PRIu64 ", expected %" PRIu32 " %" PRIu64 "\n", what, number, beside, number_due, beside_due);
        failures++;
    }
}

/* ---- NULL for an empty slice ---- */

static void empty_slices(void)
{
    static uint64_t elements[KUJ_ELEMENTS], marks[KUJ_MARKS];
    struct kuj_control control = { .vlr = 4, .vpsr = 1 };
    const struct kuj_control before = control;
    const uint8_t opcode[1] = { 0x80 };
    const uint16_t cntrl[1] = { 0x0012 };
    const uint64_t scalar[1] = { 0 };
    uint64_t beside;
    uint32_t n;

    n = kuj_execute(elements, &control, marks, 0x80, 0x0012, 0, 0, 0, NULL, 0, 0, &beside);
    expect("execute, an add, window NULL", n, beside, 0, 0);
    n = kuj_execute(elements, &control, marks, 0x34, 0x0002, 0, 0, 4, NULL, 0, 0, &beside);
    expect("execute, a load from a window that is NULL", n, beside, 6, 0);
    n = kuj_execute(elements, &control, marks, 0x9C, 0x0002, 0, 0, 4, NULL, 0, 0, &beside);
    expect("execute, a store to a window that is NULL", n, beside, 6, 0);
    n = kuj_execute(elements, &control, marks, 0x35, 0x0012, 0, 0, 0, NULL, 0, 0, &beside);
    expect("execute, a gather from a window that is NULL", n, beside, 6, 0);
    control.vlr = 0;
    n = kuj_execute(elements, &control, marks, 0x34, 0x0002, 0, 0, 4, NULL, 0, 0, &beside);
    expect("execute, a load of no element from a window that is NULL", n, beside, 0, 0);
    n = kuj_execute(elements, &control, marks, 0x9D, 0x0012, 0, 0, 0, NULL, 0, 0, &beside);
    expect("execute, a scatter of no element to a window that is NULL", n, beside, 0, 0);
    control.vlr = 4;

    n = kuj_run(elements, &control, marks, NULL, 0, NULL, 0, NULL, 0, &beside);
    expect("run, nothing", n, beside, 0, 0);
    n = kuj_run(elements, &control, marks, opcode, 1, NULL, 0, NULL, 0, &beside);
    expect("run, two parts NULL", n, beside, 8, 0);
    n = kuj_run(elements, &control, marks, NULL, 0, cntrl, 1, scalar, 1, &beside);
    expect("run, opcodes NULL", n, beside, 8, 0);
    n = kuj_run_order(elements, &control, marks, NULL, 0, NULL, 0, NULL, 0, NULL, 0, &beside);
    expect("run_order, nothing", n, beside, 0, 0);
    n = kuj_run_order(elements, &control, marks, NULL, 0, NULL, 0, NULL, 0, scalar, 1, &beside);
    expect("run_order, a list for no queue", n, beside, 9, 0);
    n = kuj_run_order(elements, &control, marks, opcode, 1, cntrl, 1, scalar, 1, NULL, 0, &beside);
    expect("run_order, list NULL", n, beside, 9, 0);
    control.vlr = 0;
    n = kuj_run_order(elements, &control, marks, opcode, 1, cntrl, 1, scalar, 1, NULL, 0, &beside);
    expect("run_order, list NULL at VLR 0", n, beside, 0, 0);
    control.vlr = 4;

    n = kuj_save(elements, &control, NULL, 0, &beside);
    expect("save, file NULL", n, beside, 10, 0);
    n = kuj_load(elements, &control, marks, NULL, 0, &beside);
    expect("load, file NULL", n, beside, 10, 0);

    for (int k = 0; k < KUJ_ELEMENTS; k++)
        if (elements[k] != 0) {
            printf("linking: a call with an empty slice altered element %d\n", k);
            failures++;
            break;
        }
    if (memcmp(&control, &before, sizeof control) != 0) {
        printf("linking: a call with an empty slice altered the control record\n");
        failures++;
    }
    for (int r = 0; r < KUJ_MARKS; r++)
        if (marks[r] != (r == 2 ? 0xF : 0)) { /* the add wrote V2[0] to V2[3]; no other call wrote anything */
            printf("linking: after calls with empty slices the marks of V%d are %016" PRIX64 "\n", r, marks[r]);
            failures++;
        }
}

/* ---- A state and its inputs, at places that are aligned to their items and no more ---- */

enum { PLACES = 2, LIST = 1024, WINDOW = 4096 };

struct inputs {
    uint64_t *elements, *marks, *scalars, *order, *beside, *kind_read, *bits;
    struct kuj_control *control;
    uint16_t *cntrls;
    uint8_t *opcodes, *file, *window;
};

static _Alignas(64) uint8_t memory[PLACES][6 * 8192 + 65536];
static struct inputs at[PLACES];

static void *take(uint8_t **from, size_t size, size_t off)
{
    uint8_t *start = *from + off;
    *from += (size + off + 127) / 64 * 64;
    return start;
}

static void lay_out(void)
{
    for (int p = 0; p < PLACES; p++) {
        uint8_t *from = memory[p];
        size_t off = p ? 8 : 0; /* at place 1 nothing lies at a multiple of more than its item's size */
        at[p].elements = take(&from, KUJ_ELEMENTS * 8, off);
        at[p].control = take(&from, sizeof *at[p].control, off);
        at[p].marks = take(&from, KUJ_MARKS * 8, off);
        at[p].scalars = take(&from, 16 * 8, off);
        at[p].order = take(&from, LIST * 8, off);
        at[p].beside = take(&from, 8, off);
        at[p].kind_read = take(&from, 8, off);
        at[p].bits = take(&from, 8, off);
        at[p].cntrls = take(&from, 16 * 2, p ? 2 : 0);
        at[p].opcodes = take(&from, 16, p ? 1 : 0);
        at[p].file = take(&from, KUJ_FILE_BYTES, p ? 1 : 0);
        at[p].window = take(&from, WINDOW, p ? 1 : 0);
    }
}

/* ---- The calls, put on a stack of their own that was painted before ---- */

static uint64_t random_state = 1;
static uint64_t drawn(void)
{
    random_state ^= random_state << 13;
    random_state ^= random_state >> 7;
    random_state ^= random_state << 17;
    return random_state * 0x2545F4914F6CDD1D;
}

static const uint8_t accepted[] = {
    0x80, 0x81, 0x84, 0x85, 0x88, 0x89, 0x8C, 0x8D, 0xA0, 0xA1, 0xA4, 0xA5, 0xAC, 0xAD, 0xC0, 0xC1, 0xC4, 0xC5, 0xC8, 0xC9,
    0xCC, 0xCD, 0xE0, 0xE1, 0xE4, 0xE5, 0xE8, 0xE9, 0xEC, 0xED, 0xEE, 0xEF, 0x34, 0x35, 0x36, 0x37, 0x9C, 0x9D, 0x9E, 0x9F,
};
enum { OPERATE = 32, ACCEPTED = sizeof accepted };

/* Draws a state, marks and a queue, the same at both places; the list is the queue's own order, for want of an IOTA. */
static size_t queue_length, list_length, chosen;
static void draw(void)
{
    struct inputs *a = &at[0], *b = &at[1];
    uint64_t vlr = drawn() % 4 == 0 ? drawn() % 65 : 64;
    *a->control = (struct kuj_control){ .vlr = vlr, .vmr = drawn(), .vpsr = 1 };
    for (int k = 0; k < KUJ_ELEMENTS; k++)
        a->elements[k] = drawn() & (drawn() % 2 ? ~0ull : 0xFFFF43FFull) & (drawn() % 8 ? ~0ull : 0xFC);
    for (int r = 0; r < KUJ_MARKS; r++)
        a->marks[r] = drawn() & drawn();
    queue_length = drawn() % 17;
    list_length = 0;
    chosen = drawn() % ACCEPTED;
    for (size_t p = 0; p < 16; p++) {
        a->opcodes[p] = accepted[drawn() % OPERATE];
        if (a->opcodes[p] == 0xED) /* IOTA, a step and not a row of them */
            a->opcodes[p] = 0xE8;
        a->cntrls[p] = (uint16_t)((drawn() & 0xE000) | (drawn() & 0xFF0) | drawn() % 3);
        if ((a->opcodes[p] & 0xFE) == 0xEC)
            a->cntrls[p] = (uint16_t)((drawn() & 0x2000) | (1 + 4 * (drawn() % 2)) << 8 | (drawn() & 0xFF));
        if (a->opcodes[p] & 1)
            a->cntrls[p] &= 0xF0FF;
        a->scalars[p] = drawn() % 2 ? drawn() : 0x4080;
    }
    for (size_t p = 0; p < queue_length; p++)
        for (size_t e = 0; e < vlr; e++)
            a->order[list_length++] = p * 64 + e;
    memcpy(b->control, a->control, sizeof *a->control);
    memcpy(b->elements, a->elements, KUJ_ELEMENTS * 8);
    memcpy(b->marks, a->marks, KUJ_MARKS * 8);
    memcpy(b->opcodes, a->opcodes, 16);
    memcpy(b->cntrls, a->cntrls, 32);
    memcpy(b->scalars, a->scalars, 128);
    memcpy(b->order, a->order, list_length * 8);
}

static uint32_t call(int which, const struct inputs *a)
{
    switch (which) {
    case 1:
        return kuj_execute(a->elements, a->control, a->marks, accepted[chosen], a->cntrls[0], a->scalars[0], 0x1000, 8, a->window, WINDOW,
                           0x1000, a->beside);
    case 2:
        return kuj_run(a->elements, a->control, a->marks, a->opcodes, queue_length, a->cntrls, queue_length, a->scalars, queue_length,
                       a->beside);
    case 3:
        return kuj_run_order(a->elements, a->control, a->marks, a->opcodes, queue_length, a->cntrls, queue_length, a->scalars, queue_length,
                             a->order, list_length, a->beside);
    case 4: return kuj_save(a->elements, a->control, a->file, KUJ_FILE_BYTES, a->beside);
    case 5: return kuj_load(a->elements, a->control, a->marks, a->file, KUJ_FILE_BYTES, a->beside);
    case 6: return kuj_reading(a->elements, a->control, 2, 3, KUJ_F_FLOATING, a->kind_read, a->bits, a->beside);
    case 7: return kuj_read_vlr(a->control, a->beside);
    case 8: return kuj_read_vcr(a->control, a->beside);
    case 9: return kuj_read_vmr_low(a->control, a->beside);
    case 10: return kuj_read_vmr_high(a->control, a->beside);
    case 11: return kuj_read_vaer(a->control, a->beside);
    case 12: return kuj_read_vpsr(a->control, a->beside);
    case 13: return kuj_write_vlr(a->control, 17, a->beside);
    case 14: return kuj_write_vcr(a->control, 17, a->beside);
    case 15: return kuj_write_vmr_low(a->control, 17, a->beside);
    case 16: return kuj_write_vmr_high(a->control, 17, a->beside);
    case 17: return kuj_write_vpsr(a->control, 1, a->beside);
    case 18: return kuj_clear_marks(a->marks, a->beside);
    }
    return 0; /* no call: what the way there takes */
}
static const char *const names[] = {
    "", "kuj_execute", "kuj_run", "kuj_run_order", "kuj_save", "kuj_load", "kuj_reading", "kuj_read_vlr", "kuj_read_vcr",
    "kuj_read_vmr_low", "kuj_read_vmr_high", "kuj_read_vaer", "kuj_read_vpsr", "kuj_write_vlr", "kuj_write_vcr", "kuj_write_vmr_low",
    "kuj_write_vmr_high", "kuj_write_vpsr", "kuj_clear_marks",
};
enum { CALLS = sizeof names / sizeof names[0] };

static _Alignas(64) uint8_t stack[65536];
static ucontext_t here, there;
static int which_now, place_now;
static uint32_t number_now;

static void on_the_stack(void)
{
    number_now = call(which_now, &at[place_now]);
}

/* The bytes that were written of a painted stack. */
static size_t depth(int which, int place)
{
    memset(stack, 0xA5, sizeof stack);
    getcontext(&there);
    there.uc_stack.ss_sp = stack;
    there.uc_stack.ss_size = sizeof stack;
    there.uc_link = &here;
    which_now = which;
    place_now = place;
    makecontext(&there, on_the_stack, 0);
    swapcontext(&here, &there);
    size_t clean = 0;
    while (clean < sizeof stack && stack[clean] == 0xA5)
        clean++;
    return sizeof stack - clean;
}

int main(void)
{
    size_t seen[CALLS] = { 0 };
    uint32_t done[CALLS] = { 0 };
    empty_slices();
    lay_out();
    for (int round = 0; round < 2000; round++)
        for (int which = 0; which < CALLS; which++) {
            uint32_t numbers[PLACES];
            draw();
            for (int p = 0; p < PLACES; p++) {
                size_t deep = depth(which, p);
                numbers[p] = number_now;
                if (deep > seen[which])
                    seen[which] = deep;
            }
            done[which] += numbers[0] == 0;
            if (numbers[0] != numbers[1] || *at[0].beside != *at[1].beside || *at[0].bits != *at[1].bits ||
                memcmp(at[0].elements, at[1].elements, KUJ_ELEMENTS * 8) != 0 ||
                memcmp(at[0].marks, at[1].marks, KUJ_MARKS * 8) != 0 || memcmp(at[0].file, at[1].file, KUJ_FILE_BYTES) != 0 ||
                memcmp(at[0].control, at[1].control, sizeof *at[0].control) != 0 || memcmp(at[0].window, at[1].window, WINDOW) != 0) {
                printf("linking: %s gives something else where arrays are aligned to their items alone\n", names[which]);
                return 1;
            }
        }
    for (int which = 1; which < CALLS; which++) {
        if (done[which] == 0) {
            printf("linking: %s was never done\n", names[which]);
            failures++;
        }
        printf("%s %zu\n", names[which], seen[which] > seen[0] ? seen[which] - seen[0] : 0);
    }
    return failures != 0;
}
