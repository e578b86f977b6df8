/*
 * One table of calls. Compiled twice: with -DTABLE=proved for the library, and with -DTABLE=plain and
 * plain_names.h included first for the plain C version.
 */
#include "calls.h"

const struct calls TABLE = {
    .execute = kuj_execute,
    .run = kuj_run,
    .run_order = kuj_run_order,
    .save = kuj_save,
    .load = kuj_load,
    .clear_marks = kuj_clear_marks,
    .reading = kuj_reading,
    .read_vlr = kuj_read_vlr,
    .write_vlr = kuj_write_vlr,
};
