/* Gives every refusal, one call after another: case P, and one thing of it or of the call changed.
   Each line has the call in short words, and the number, what it names, the mark, and the value.

       gcc examples/refusals.c -Iinclude target/staticlib/libkieferntuch.a -o refusals && ./refusals

   There is none for 19: it is proved that no call gives it. */

#include <stdio.h>

#include "kieferntuch.h"

/* Three rows on three processors under PCP. */
static const uint8_t p[] = {
    0x06, 0x30,
    0x00, 0x00, 0xa0, 0x00, 0x01, 0x00, 0x00, 0x20, 0x00, 0x01, 0x08, /* T 10, C1 1, A 2, C2 1, resource 1 */
    0x00, 0x01, 0x40, 0x00, 0x02, 0x00, 0x00, 0x30, 0x00, 0x02, 0x08, /* T 20, C1 2, A 3, C2 2, resource 1 */
    0x00, 0x02, 0x80, 0x00, 0x04, 0x00, 0x00, 0x50, 0x00, 0x04, 0x10, /* T 40, C1 4, A 5, C2 4, resource 2 */
};

/* A field of a table: the bit that it begins with, and its width. */
#define N 0, 7
#define M 7, 5
#define SPARE 13, 3
#define ROW(row) (16 + 88 * ((row) - 1))
#define T(row) ROW(row), 20
#define C1(row) ROW(row) + 20, 20
#define A(row) ROW(row) + 40, 20
#define C2(row) ROW(row) + 60, 20
#define RESOURCE(row) ROW(row) + 80, 5
#define NOTHING 0, 0

/* Case P with a field set to a value. The length is that of the table to read, or of the sheet for its plan. */
typedef struct {
    const char *words;
    size_t from;
    size_t width;
    uint32_t value;
    size_t length;
} change;

static const change to_read[] = {
    {"read: case P as it is", NOTHING, 0, 35},
    {"read: 1 byte of it", NOTHING, 0, 1},
    {"read: n is 0", N, 0, 35},
    {"read: m is 1", M, 1, 35},
    {"read: a spare bit of the header is set", SPARE, 1, 35},
    {"read: 34 bytes for 3 rows", NOTHING, 0, 34},
    {"read: T of row 2 is 1,000,001", T(2), 1000001, 35},
    {"read: the resource of row 3 is 17", RESOURCE(3), 17, 35},
    {"read: row 1 names no resource, and A is 2", RESOURCE(1), 0, 35},
    {"read: C1 of row 1 is 8, and 8 + 2 + 1 is above T", C1(1), 8, 35},
};

static const change to_plan[] = {
    {"plan: case P as it is", NOTHING, 0, 39},
    {"plan: a sheet of 38 bytes", NOTHING, 0, 38},
    {"plan: A of row 2 is 10, and row 1 may wait 9 ticks", A(2), 10, 39},
    {"plan: C2 of row 1 is 6, and 1 + 4 + 6 is above T", C2(1), 6, 39},
    {"plan: C2 of row 3 is 31, and 31 + 8 + 8 is above 35", C2(3), 31, 39},
};

/* What a run is handed beside case P. The first arrival is row 2 at tick 0, and row 1 comes behind it. */
typedef struct {
    const char *words;
    kieferntuch_arrival second;
    size_t count;
    size_t ticks;
    size_t trace;
} call;

static const call to_run[] = {
    {"run: row 2 at tick 0, row 1 at tick 4", {4, 1, 1, 2, 1}, 2, 8, 24},
    {"run: 4,097 ticks", {4, 1, 1, 2, 1}, 2, 4097, 12291},
    {"run: 23 bytes for 8 ticks of 3 processors", {4, 1, 1, 2, 1}, 2, 8, 23},
    {"run: 4,097 arrivals", {4, 1, 1, 2, 1}, 4097, 8, 24},
    {"run: the second arrival is of row 4", {4, 4, 1, 2, 1}, 2, 8, 24},
    {"run: row 1 behind row 2 in the same tick", {0, 1, 1, 2, 1}, 2, 8, 24},
    {"run: a section of 3 in row 1, where A is 2", {4, 1, 1, 3, 1}, 2, 8, 24},
    {"run: row 2 once more, 19 ticks later", {19, 2, 2, 3, 2}, 2, 8, 24},
};

#define COUNT(list) (sizeof(list) / sizeof *(list))

static void show(const char *words, uint32_t number, uint32_t names, uint32_t mark, uint32_t value)
{
    printf("%-52s%6u%6u%6u%6u\n", words, number, names, mark, value);
}

/* Sets a field to a value, the most significant bit first. */
static void set(uint8_t *bytes, size_t from, size_t width, uint32_t value)
{
    for (size_t bit = from; bit < from + width; bit++) {
        uint8_t mask = (uint8_t)(0x80 >> bit % 8);
        int one = value >> (from + width - 1 - bit) & 1;
        bytes[bit / 8] = one ? bytes[bit / 8] | mask : bytes[bit / 8] & (uint8_t)~mask;
    }
}

static void changed(uint8_t *table, const change *change)
{
    for (size_t place = 0; place < sizeof p; place++)
        table[place] = p[place];
    set(table, change->from, change->width, change->value);
}

static void show_read(const change *change)
{
    uint8_t table[sizeof p];
    changed(table, change);
    kieferntuch_answer answer = kieferntuch_read(table, change->length);
    show(change->words, answer.number, answer.names, answer.mark, answer.value);
}

static void show_plan(const change *change)
{
    uint8_t table[sizeof p];
    uint8_t sheet[39];
    changed(table, change);
    kieferntuch_answer answer = kieferntuch_plan(table, sizeof table, 0, sheet, change->length);
    show(change->words, answer.number, answer.names, answer.mark, answer.value);
}

static void show_run(const call *call)
{
    static kieferntuch_arrival arrivals[4097] = {{0, 2, 2, 3, 2}};
    static uint8_t trace[3 * 4097];
    arrivals[1] = call->second;
    kieferntuch_ran ran = kieferntuch_run(p, sizeof p, arrivals, call->count, 0, call->ticks, trace, call->trace);
    show(call->words, ran.number, ran.names, ran.mark, ran.value);
}

static void show_reads(void)
{
    for (size_t place = 0; place < COUNT(to_read); place++)
        show_read(&to_read[place]);
}

static void show_plans(void)
{
    for (size_t place = 0; place < COUNT(to_plan); place++)
        show_plan(&to_plan[place]);
}

static void show_runs(void)
{
    for (size_t place = 0; place < COUNT(to_run); place++)
        show_run(&to_run[place]);
}

int main(void)
{
    printf("%-52s%6s%6s%6s%6s\n", "", "number", "names", "mark", "value");
    show_reads();
    show_plans();
    show_runs();
    return 0;
}
