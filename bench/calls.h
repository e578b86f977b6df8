/* The timed calls as a table, so that one timing serves the proved library and the plain C version. */
#ifndef CALLS_H
#define CALLS_H

#include "kujawian.h"

/* The types come from the header itself: typeof a call is its function type. */
struct calls {
    __typeof__(kuj_execute) *execute;
    __typeof__(kuj_run) *run;
    __typeof__(kuj_run_order) *run_order;
    __typeof__(kuj_save) *save;
    __typeof__(kuj_load) *load;
    __typeof__(kuj_clear_marks) *clear_marks;
    __typeof__(kuj_reading) *reading;
    __typeof__(kuj_read_vlr) *read_vlr;
    __typeof__(kuj_write_vlr) *write_vlr;
};

extern const struct calls proved, plain;

#endif
