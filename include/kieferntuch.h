/* Kieferntuch: task tables of multicore drive controllers. Link libkieferntuch.a. */
#ifndef KIEFERNTUCH_H
#define KIEFERNTUCH_H

#include <stddef.h>
#include <stdint.h>

#ifdef __cplusplus
extern "C" {
#endif

/* A refusal: its number (0: none), what it names (a row counted from 1, or 0), its mark, and its value. Mark and value are
   0 but for refusal 11, where the value is what broke the limit. A bound is searched for through a sequence: it starts
   with the length, for a section with what may block it added, and goes on with the demand at the last value. There is no
   bound if a member is above the limit, which is T for a section and T - S for a stage. With mark 1 the value is the first
   member above T in the section's sequence. With mark 2 it is the smallest, over the processors for stages, of the first
   member above T - S in stage one's sequence, else in stage two's, else the sum D1 + S + D2, which is then above T. */
typedef struct {
    uint32_t number;
    uint32_t names;
    uint32_t mark;
    uint32_t value;
} kieferntuch_answer;

/* Reads a table from any `length` bytes. Number 0: the table is good; 1 to 9: the refusal and the row that it names. */
kieferntuch_answer kieferntuch_read(const uint8_t *table, size_t length);

/* Plans a table from any `table_length` bytes and writes the plan, 12 + 9n bytes for n rows, from byte `at` of the sheet
   on. Number 0: the plan is written, and the bytes before and behind it are as they were; 1 to 11: the refusal, the row
   that it names and, with 11 alone, its mark and its value, and no byte of the sheet has changed. The table is only read,
   and does not overlap the sheet. */
kieferntuch_answer kieferntuch_plan(const uint8_t *table, size_t table_length, size_t at, uint8_t *sheet,
                                    size_t sheet_length);

/* An arrival: its tick, its row counted from 1, and the actual lengths of stage one, section and stage two. */
typedef struct {
    uint32_t tick;
    uint32_t row;
    uint32_t len1;
    uint32_t len2;
    uint32_t len3;
} kieferntuch_arrival;

/* What a run returns: a refusal (it may name a position counted from 1), its value as in the answer above; the worst
   responses seen, of row r's stage one, section and stage two at 3(r - 1), 3(r - 1) + 1 and 3(r - 1) + 2, 0 where none
   ended; jobs ended, units run, and units owed. Beside a refusal they are all 0. */
typedef struct {
    uint32_t number;
    uint32_t names;
    uint32_t mark;
    uint32_t value;
    uint32_t worst[192];
    uint64_t jobs;
    uint64_t run;
    uint64_t owed;
} kieferntuch_ran;

/* Plans a table from any `table_length` bytes, runs it with these arrivals through ticks 0 to `from` + `ticks` - 1, and
   writes those from `from` on into the trace: for each tick a byte for each of the m processors, 2 bits of kind (0 idle,
   1 stage one, 2 section, 3 stage two) and 6 bits row - 1. Number 0: m * `ticks` bytes are written, and those behind are
   as they were; 1 to 9 and 11 to 18: the refusal, what it names and, with 11 alone, its mark and its value, and no byte
   of the trace has changed; 19: the refusal and its row, and m * `ticks` bytes are 0. Table and arrivals are only read,
   and do not overlap the trace. */
kieferntuch_ran kieferntuch_run(const uint8_t *table, size_t table_length, const kieferntuch_arrival *arrivals,
                                size_t arrival_count, size_t from, size_t ticks, uint8_t *trace, size_t trace_length);

#ifdef __cplusplus
}
#endif

#endif
