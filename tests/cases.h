/* Calls of the three functions, and what each has to answer and to write. All of it is worked out by
   hand from the rules; nothing here was taken from a program. Rows and positions count from 1. */

#include "kieferntuch.h"

/* Three rows on three processors under PCP, and a byte behind them. */
static const uint8_t p[36] = {
    0x06, 0x30,
    0x00, 0x00, 0xa0, 0x00, 0x01, 0x00, 0x00, 0x20, 0x00, 0x01, 0x08, /* T 10, C1 1, A 2, C2 1, resource 1 */
    0x00, 0x01, 0x40, 0x00, 0x02, 0x00, 0x00, 0x30, 0x00, 0x02, 0x08, /* T 20, C1 2, A 3, C2 2, resource 1 */
    0x00, 0x02, 0x80, 0x00, 0x04, 0x00, 0x00, 0x50, 0x00, 0x04, 0x10, /* T 40, C1 4, A 5, C2 4, resource 2 */
};

/* Two rows on two processors: one serves the resource, and on the other there is no room for row 2: its S is 2,
   so that its stages have 10 - 2, and D1 is 4, then 4 + (4 + 4). */
static const uint8_t q[24] = {
    0x04, 0x20,
    0x00, 0x00, 0xa0, 0x00, 0x04, 0x00, 0x00, 0x10, 0x00, 0x04, 0x08, /* T 10, C1 4, A 1, C2 4, resource 1 */
    0x00, 0x00, 0xa0, 0x00, 0x04, 0x00, 0x00, 0x10, 0x00, 0x04, 0x08, /* T 10, C1 4, A 1, C2 4, resource 1 */
};

/* Two rows whose sections are too long for each other: row 1 may wait 2 for row 2, and 3 + 2 is at once above 4. */
static const uint8_t tight[24] = {
    0x04, 0x20,
    0x00, 0x00, 0x40, 0x00, 0x00, 0x00, 0x00, 0x30, 0x00, 0x00, 0x08, /* T 4, C1 0, A 3, C2 0, resource 1 */
    0x00, 0x00, 0x40, 0x00, 0x00, 0x00, 0x00, 0x30, 0x00, 0x00, 0x08, /* T 4, C1 0, A 3, C2 0, resource 1 */
};

/* Two sections on one processor; row 2 is ranked first. Under PCP it may not wait, and S of row 1 is 9, 9 + 8,
   9 + 2 * 8 and 9 + 3 * 8, the first that is above 30. Under NPP row 2 may wait 8, and 8 + 8 is at once above 10. */
static const uint8_t steps[24] = {
    0x04, 0x20,
    0x00, 0x01, 0xe0, 0x00, 0x00, 0x00, 0x00, 0x90, 0x00, 0x00, 0x10, /* T 30, C1 0, A 9, C2 0, resource 2 */
    0x00, 0x00, 0xa0, 0x00, 0x00, 0x00, 0x00, 0x80, 0x00, 0x00, 0x08, /* T 10, C1 0, A 8, C2 0, resource 1 */
};

/* Row 1 has 3, 2, 3 and is on processor 2. S of row 2 is 3, so that its stages have 20 - 3, behind 6 every 10: D1 is
   2 + 6 = 8, and D2 is 6, 6 + 6 and 6 + 2 * 6. With C2 = 4 it is 4 + 6 = 10, and 8 + 3 + 10 is above 20; with C2 = 3
   it is 9, and row 2 fits. */
static const uint8_t behind[24] = {
    0x04, 0x20,
    0x00, 0x00, 0xa0, 0x00, 0x03, 0x00, 0x00, 0x10, 0x00, 0x03, 0x08, /* T 10, C1 3, A 1, C2 3, resource 1 */
    0x00, 0x01, 0x40, 0x00, 0x02, 0x00, 0x00, 0x20, 0x00, 0x06, 0x08, /* T 20, C1 2, A 2, C2 6, resource 1 */
};

/* On three processors rows 1, 2 and 3 have one each, and row 4 fits none. On 1 D1 is 4, 4 + 10 and 4 + 2 * 10; on 2
   D1 is 4 + 6, D2 is 5 + 6, and the sum 21; on 3 D1 is 4 + 9, and D2 is 5, 5 + 9 and 5 + 2 * 9. */
static const uint8_t three[46] = {
    0x08, 0x30,
    0x00, 0x00, 0xa0, 0x00, 0x0a, 0x00, 0x00, 0x00, 0x00, 0x00, 0x00, /* T 10, C1 10 */
    0x00, 0x00, 0xb0, 0x00, 0x06, 0x00, 0x00, 0x00, 0x00, 0x00, 0x00, /* T 11, C1 6 */
    0x00, 0x00, 0xd0, 0x00, 0x09, 0x00, 0x00, 0x00, 0x00, 0x00, 0x00, /* T 13, C1 9 */
    0x00, 0x01, 0x40, 0x00, 0x04, 0x00, 0x00, 0x00, 0x00, 0x05, 0x00, /* T 20, C1 4, C2 5 */
};

/* On two processors rows 1 and 2 have one each, and row 3 fits none. On 1 a bound is 3 + 7 = 10, or 4, 4 + 7 and
   4 + 2 * 7, or 7, 7 + 7 and 7 + 2 * 7; on 2 it is 3 + 8 = 11, or 4, 4 + 8 and 4 + 2 * 8, or 7, 7 + 8 and 7 + 2 * 8. */
static const uint8_t apart[35] = {
    0x06, 0x20,
    0x00, 0x00, 0xa0, 0x00, 0x07, 0x00, 0x00, 0x00, 0x00, 0x00, 0x00, /* T 10, C1 7 */
    0x00, 0x00, 0xb0, 0x00, 0x00, 0x00, 0x00, 0x00, 0x00, 0x08, 0x00, /* T 11, C2 8 */
    0x00, 0x00, 0xf0, 0x00, 0x04, 0x00, 0x00, 0x00, 0x00, 0x03, 0x00, /* T 15, C1 4, C2 3 */
};

/* With one processor for sections S of row 2 is 5 + 5, and its stages have 10 - 10. With two it is 5, and behind row
   1 on the last processor D1 of row 2 is 4, then 4 + 4, of 10 - 5. */
static const uint8_t trials[24] = {
    0x04, 0x20,
    0x00, 0x00, 0xa0, 0x00, 0x04, 0x00, 0x00, 0x50, 0x00, 0x00, 0x08, /* T 10, C1 4, A 5, C2 0, resource 1 */
    0x00, 0x00, 0xa0, 0x00, 0x04, 0x00, 0x00, 0x50, 0x00, 0x00, 0x10, /* T 10, C1 4, A 5, C2 0, resource 2 */
};

/* One row on two processors, without a section. */
static const uint8_t one[13] = {
    0x02, 0x20,
    0x00, 0x00, 0x10, 0x00, 0x01, 0x00, 0x00, 0x00, 0x00, 0x00, 0x00, /* T 1, C1 1 */
};

/* Plans: n, m, s; the processors of resources 1 to 16; each row's processor, D1, S, D2. */
static const uint8_t plan_p[39] = {
    0x06, 0x31,                                                 /* 3, 3, 1 */
    0x08, 0x40, 0x00, 0x00, 0x00, 0x00, 0x00, 0x00, 0x00, 0x00, /* resources 1 and 2 on 1 */
    0x10, 0x00, 0x00, 0x80, 0x00, 0x20, 0x00, 0x00, 0x80,       /* 2, 1, 4, 1 */
    0x10, 0x00, 0x02, 0x00, 0x00, 0x28, 0x00, 0x02, 0x00,       /* 2, 4, 5, 4 */
    0x10, 0x00, 0x05, 0x00, 0x00, 0x50, 0x00, 0x05, 0x00,       /* 2, 10, 10, 10 */
};
/* Row 1 may wait 4 for row 3, and so may row 2. */
static const uint8_t plan_p_npp[39] = {
    0x06, 0x31,
    0x08, 0x40, 0x00, 0x00, 0x00, 0x00, 0x00, 0x00, 0x00, 0x00,
    0x10, 0x00, 0x00, 0x80, 0x00, 0x30, 0x00, 0x00, 0x80,       /* 2, 1, 6, 1 */
    0x10, 0x00, 0x02, 0x00, 0x00, 0x48, 0x00, 0x02, 0x00,       /* 2, 4, 9, 4 */
    0x10, 0x00, 0x05, 0x00, 0x00, 0x50, 0x00, 0x05, 0x00,       /* 2, 10, 10, 10 */
};
static const uint8_t plan_q_3[30] = {
    0x04, 0x31,                                                 /* 2, 3, 1 */
    0x08, 0x00, 0x00, 0x00, 0x00, 0x00, 0x00, 0x00, 0x00, 0x00, /* resource 1 on 1 */
    0x10, 0x00, 0x02, 0x00, 0x00, 0x08, 0x00, 0x02, 0x00,       /* 2, 4, 1, 4 */
    0x18, 0x00, 0x02, 0x00, 0x00, 0x10, 0x00, 0x02, 0x00,       /* 3, 4, 2, 4 */
};
/* With C2 = 5 in row 1, which then has no tick to spare. */
static const uint8_t plan_q_3_5[30] = {
    0x04, 0x31,
    0x08, 0x00, 0x00, 0x00, 0x00, 0x00, 0x00, 0x00, 0x00, 0x00,
    0x10, 0x00, 0x02, 0x00, 0x00, 0x08, 0x00, 0x02, 0x80,       /* 2, 4, 1, 5 */
    0x18, 0x00, 0x02, 0x00, 0x00, 0x10, 0x00, 0x02, 0x00,       /* 3, 4, 2, 4 */
};
static const uint8_t plan_behind[30] = {
    0x04, 0x21,                                                 /* 2, 2, 1 */
    0x08, 0x00, 0x00, 0x00, 0x00, 0x00, 0x00, 0x00, 0x00, 0x00, /* resource 1 on 1 */
    0x10, 0x00, 0x01, 0x80, 0x00, 0x10, 0x00, 0x01, 0x80,       /* 2, 3, 2, 3 */
    0x10, 0x00, 0x04, 0x00, 0x00, 0x18, 0x00, 0x04, 0x80,       /* 2, 8, 3, 9 */
};
static const uint8_t plan_one[21] = {
    0x02, 0x20,                                                 /* 1, 2, 0 */
    0x00, 0x00, 0x00, 0x00, 0x00, 0x00, 0x00, 0x00, 0x00, 0x00,
    0x08, 0x00, 0x00, 0x80, 0x00, 0x00, 0x00, 0x00, 0x00,       /* 1, 1, 0, 0 */
};

/* Arrivals: tick, row, and the lengths of stage one, section and stage two. */
static const kieferntuch_arrival row_1[] = {{0, 1, 1, 2, 1}};
static const kieferntuch_arrival empty_row_1[] = {{0, 1, 0, 0, 0}};
static const kieferntuch_arrival twice[] = {{0, 1, 0, 0, 0}, {10, 1, 0, 0, 0}};
static const kieferntuch_arrival rows_2_1[] = {{0, 2, 2, 3, 2}, {4, 1, 1, 2, 1}};
static const kieferntuch_arrival rows_3_1[] = {{0, 3, 4, 5, 4}, {10, 1, 1, 2, 1}};
static const kieferntuch_arrival rows_1_2_3[] = {{0, 1, 1, 2, 1}, {0, 2, 2, 3, 2}, {0, 3, 4, 5, 4}};
static const kieferntuch_arrival last_tick[] = {{999999, 1, 1, 2, 1}};
static const kieferntuch_arrival row_0[] = {{0, 0, 0, 0, 0}};
static const kieferntuch_arrival row_4[] = {{0, 2, 2, 3, 2}, {4, 4, 0, 0, 0}};
static const kieferntuch_arrival row_most[] = {{0, UINT32_MAX, 0, 0, 0}};
static const kieferntuch_arrival row_4_back[] = {{5, 2, 2, 3, 2}, {4, 4, 0, 0, 0}};
static const kieferntuch_arrival past_ticks[] = {{1000000, 1, 1, 2, 1}};
static const kieferntuch_arrival tick_most[] = {{0, 2, 2, 3, 2}, {UINT32_MAX, 1, 1, 2, 1}};
static const kieferntuch_arrival back[] = {{5, 2, 2, 3, 2}, {4, 1, 1, 2, 1}};
static const kieferntuch_arrival same_row[] = {{0, 1, 1, 2, 1}, {0, 1, 1, 2, 1}};
static const kieferntuch_arrival lower_row[] = {{0, 2, 2, 3, 2}, {0, 1, 1, 2, 1}};
static const kieferntuch_arrival back_and_long[] = {{5, 2, 2, 3, 2}, {4, 1, 2, 3, 2}};
static const kieferntuch_arrival long_1[] = {{0, 1, 2, 2, 1}};
static const kieferntuch_arrival long_2[] = {{0, 1, 1, 3, 1}};
static const kieferntuch_arrival long_3[] = {{0, 2, 2, 3, 2}, {4, 1, 1, 2, 2}};
static const kieferntuch_arrival long_most[] = {{0, 1, UINT32_MAX, UINT32_MAX, UINT32_MAX}};
static const kieferntuch_arrival long_and_soon[] = {{0, 1, 1, 2, 1}, {9, 1, 1, 3, 1}};
static const kieferntuch_arrival soon[] = {{0, 2, 2, 3, 2}, {19, 2, 2, 3, 2}};
static const kieferntuch_arrival soon_first[] = {{0, 1, 1, 2, 1}, {9, 1, 1, 2, 1}, {10, 4, 0, 0, 0}};
static const kieferntuch_arrival too_many[4097] = {{0, 0, 0, 0, 0}};

/* Traces: three processors a tick; 40 stage one of row 1, 80 its section, C0 its stage two. */
static const uint8_t idle[24] = {0};
static const uint8_t run_row_1[24] = {
    0x00, 0x40, 0x00, 0x80, 0x00, 0x00, 0x80, 0x00, 0x00, 0x00, 0x00, 0x00, /* section at D1 = 1 */
    0x00, 0x00, 0x00, 0x00, 0xc0, 0x00, 0x00, 0x00, 0x00, 0x00, 0x00, 0x00, /* stage two at 1 + 4 */
};
/* Row 2's releases are at 0, 4 and 9, row 1's at 4, 5 and 9. Resource 1 is held until 7. */
static const uint8_t run_rows_2_1[36] = {
    0x00, 0x41, 0x00, 0x00, 0x41, 0x00, 0x00, 0x00, 0x00, 0x00, 0x00, 0x00, /* 0 to 3 */
    0x81, 0x40, 0x00, 0x81, 0x00, 0x00, 0x81, 0x00, 0x00, 0x80, 0x00, 0x00, /* 4 to 7 */
    0x80, 0x00, 0x00, 0x00, 0xc0, 0x00, 0x00, 0xc1, 0x00, 0x00, 0xc1, 0x00, /* 8 to 11 */
};
/* Under NPP row 2's releases are at 0, 4 and 13, row 1's at 4, 5 and 11. */
static const uint8_t run_rows_2_1_npp[48] = {
    0x00, 0x41, 0x00, 0x00, 0x41, 0x00, 0x00, 0x00, 0x00, 0x00, 0x00, 0x00, /* 0 to 3 */
    0x81, 0x40, 0x00, 0x81, 0x00, 0x00, 0x81, 0x00, 0x00, 0x80, 0x00, 0x00, /* 4 to 7 */
    0x80, 0x00, 0x00, 0x00, 0x00, 0x00, 0x00, 0x00, 0x00, 0x00, 0xc0, 0x00, /* 8 to 11 */
    0x00, 0x00, 0x00, 0x00, 0xc1, 0x00, 0x00, 0xc1, 0x00, 0x00, 0x00, 0x00, /* 12 to 15 */
};
/* Row 3's releases are at 0, 10 and 20, row 1's at 10, 11 and 15. Row 1 is ranked above the ceiling
   of resource 2, which row 3 holds, so its section puts row 3's aside in ticks 11 and 12. */
static const uint8_t run_rows_3_1[60] = {
    0x00, 0x42, 0x00, 0x00, 0x42, 0x00, 0x00, 0x42, 0x00, 0x00, 0x42, 0x00, /* 0 to 3 */
    0x00, 0x00, 0x00, 0x00, 0x00, 0x00, 0x00, 0x00, 0x00, 0x00, 0x00, 0x00, /* 4 to 7 */
    0x00, 0x00, 0x00, 0x00, 0x00, 0x00, 0x82, 0x40, 0x00, 0x80, 0x00, 0x00, /* 8 to 11 */
    0x80, 0x00, 0x00, 0x82, 0x00, 0x00, 0x82, 0x00, 0x00, 0x82, 0xc0, 0x00, /* 12 to 15 */
    0x82, 0x00, 0x00, 0x00, 0x00, 0x00, 0x00, 0x00, 0x00, 0x00, 0x00, 0x00, /* 16 to 19 */
};
/* Under NPP row 3's section goes on to 15, and row 1's, released at 11, follows it. Row 1's stage two
   is released at 17, when its section has just ended. */
static const uint8_t run_rows_3_1_npp[60] = {
    0x00, 0x42, 0x00, 0x00, 0x42, 0x00, 0x00, 0x42, 0x00, 0x00, 0x42, 0x00, /* 0 to 3 */
    0x00, 0x00, 0x00, 0x00, 0x00, 0x00, 0x00, 0x00, 0x00, 0x00, 0x00, 0x00, /* 4 to 7 */
    0x00, 0x00, 0x00, 0x00, 0x00, 0x00, 0x82, 0x40, 0x00, 0x82, 0x00, 0x00, /* 8 to 11 */
    0x82, 0x00, 0x00, 0x82, 0x00, 0x00, 0x82, 0x00, 0x00, 0x80, 0x00, 0x00, /* 12 to 15 */
    0x80, 0x00, 0x00, 0x00, 0xc0, 0x00, 0x00, 0x00, 0x00, 0x00, 0x00, 0x00, /* 16 to 19 */
};
/* All three arrive at 0. Sections are released at 1, 4 and 10, stages two at 5, 9 and 20. Stages run by
   rank: row 1's stage two, in tick 5, before the last two units of row 3's stage one. */
static const uint8_t run_all[36] = {
    0x00, 0x40, 0x00, 0x80, 0x41, 0x00, 0x80, 0x41, 0x00, 0x00, 0x42, 0x00, /* 0 to 3 */
    0x81, 0x42, 0x00, 0x81, 0xc0, 0x00, 0x81, 0x42, 0x00, 0x00, 0x42, 0x00, /* 4 to 7 */
    0x00, 0x00, 0x00, 0x00, 0xc1, 0x00, 0x82, 0xc1, 0x00, 0x82, 0x00, 0x00, /* 8 to 11 */
};

/* A field of a table: the bit that it begins with, and its width. */
#define N 0, 7
#define M 7, 5
#define NPP 12, 1
#define SPARE 13, 3
#define ROW(row) (16 + 88 * ((row) - 1))
#define T(row) ROW(row), 20
#define C1(row) ROW(row) + 20, 20
#define A(row) ROW(row) + 40, 20
#define C2(row) ROW(row) + 60, 20
#define RESOURCE(row) ROW(row) + 80, 5
#define ROW_SPARE(row) ROW(row) + 85, 3

/* A field that is set to a value. */
typedef struct {
    size_t from;
    size_t width;
    uint32_t value;
} edit;

/* A table that all three functions refuse alike is there for ANY of them. */
typedef enum { READ, PLAN, RUN, ANY } function;

/* A call, its table with the edits. Null tables and arrivals are null pointers. The bytes that are
   written stand in the sheet from `at` on, in a trace from its start on. */
typedef struct {
    const char *words;
    function function;
    const uint8_t *table;
    size_t table_length;
    edit edits[4];
    size_t at;
    const kieferntuch_arrival *arrivals;
    size_t arrival_count;
    size_t from;
    size_t ticks;
    size_t out_length; /* of the sheet, or of the trace */
    int out_null;
    kieferntuch_ran answer;
    const uint8_t *written;
    size_t written_length;
} call;

#define P .table = p, .table_length = 35
#define Q .table = q, .table_length = 24
#define TIGHT .table = tight, .table_length = 24
#define STEPS .table = steps, .table_length = 24
#define BEHIND .table = behind, .table_length = 24
#define THREE .table = three, .table_length = 46
#define APART .table = apart, .table_length = 35
#define TRIALS .table = trials, .table_length = 24
#define ONE .table = one, .table_length = 13
#define CUT(bytes, length) .table = bytes, .table_length = length
#define WITH(...) .edits = {__VA_ARGS__}
#define ON(place, length) .at = place, .out_length = length
#define NO_OUT .out_null = 1
#define ARRIVING(list) .arrivals = list, .arrival_count = sizeof(list) / sizeof *(list)
#define WINDOW(first, count, length) .from = first, .ticks = count, .out_length = length
#define WRITES(bytes, length) .written = bytes, .written_length = length
#define REFUSED(n, r, k, v) .answer = {.number = n, .names = r, .mark = k, .value = v}
#define RAN(j, u, o, ...) .answer = {.worst = {__VA_ARGS__}, .jobs = j, .run = u, .owed = o}

static const call calls[] = {
    {"no table", ANY, REFUSED(1, 0, 0, 0)},
    {"no table, no sheet", PLAN, NO_OUT, REFUSED(1, 0, 0, 0)},
    {"no table, no arrivals", RUN, WINDOW(0, 8, 24), REFUSED(1, 0, 0, 0)},
    {"no table, no trace", RUN, ARRIVING(row_1), .ticks = 8, NO_OUT, REFUSED(1, 0, 0, 0)},
    {"no table, no arrivals, no trace", RUN, .ticks = 8, NO_OUT, REFUSED(1, 0, 0, 0)},
    {"0 bytes", ANY, CUT(p, 0), REFUSED(1, 0, 0, 0)},
    {"1 byte", ANY, CUT(p, 1), REFUSED(1, 0, 0, 0)},
    {"n 0", ANY, P, WITH({N, 0}), REFUSED(2, 0, 0, 0)},
    {"n 65", ANY, P, WITH({N, 65}), REFUSED(2, 0, 0, 0)},
    {"n 127", ANY, P, WITH({N, 127}), REFUSED(2, 0, 0, 0)},
    {"2 before 3 to 5", ANY, CUT(p, 2), WITH({N, 0}, {M, 0}, {SPARE, 7}), REFUSED(2, 0, 0, 0)},
    {"m 0", ANY, P, WITH({M, 0}), REFUSED(3, 0, 0, 0)},
    {"m 1", ANY, P, WITH({M, 1}), REFUSED(3, 0, 0, 0)},
    {"m 17", ANY, P, WITH({M, 17}), REFUSED(3, 0, 0, 0)},
    {"m 31", ANY, P, WITH({M, 31}), REFUSED(3, 0, 0, 0)},
    {"3 before 4 and 5", ANY, CUT(p, 34), WITH({M, 1}, {SPARE, 7}), REFUSED(3, 0, 0, 0)},
    {"header's spare bit 1", ANY, P, WITH({SPARE, 4}), REFUSED(4, 0, 0, 0)},
    {"header's spare bit 2", ANY, P, WITH({SPARE, 2}), REFUSED(4, 0, 0, 0)},
    {"header's spare bit 3", ANY, P, WITH({SPARE, 1}), REFUSED(4, 0, 0, 0)},
    {"4 before 5", ANY, CUT(p, 2), WITH({SPARE, 1}), REFUSED(4, 0, 0, 0)},
    {"2 bytes", ANY, CUT(p, 2), REFUSED(5, 0, 0, 0)},
    {"a byte short", ANY, CUT(p, 34), REFUSED(5, 0, 0, 0)},
    {"a byte over", ANY, CUT(p, 36), REFUSED(5, 0, 0, 0)},
    {"a row over", ANY, P, WITH({N, 2}), REFUSED(5, 0, 0, 0)},
    {"61 rows short", ANY, P, WITH({N, 64}), REFUSED(5, 0, 0, 0)},
    {"5 before 6", ANY, CUT(p, 34), WITH({T(1), 0}), REFUSED(5, 0, 0, 0)},
    {"T 0", ANY, P, WITH({T(2), 0}), REFUSED(6, 2, 0, 0)},
    {"T 1,000,001", ANY, P, WITH({T(1), 1000001}), REFUSED(6, 1, 0, 0)},
    {"T 1,048,575", ANY, P, WITH({T(3), 1048575}), REFUSED(6, 3, 0, 0)},
    {"6 before 7 and 8", ANY, P, WITH({T(3), 0}, {RESOURCE(3), 17}, {A(3), 0}), REFUSED(6, 3, 0, 0)},
    {"resource 17", ANY, P, WITH({RESOURCE(3), 17}), REFUSED(7, 3, 0, 0)},
    {"resource 31", ANY, P, WITH({RESOURCE(1), 31}), REFUSED(7, 1, 0, 0)},
    {"row's spare bit 1", ANY, P, WITH({ROW_SPARE(1), 4}), REFUSED(7, 1, 0, 0)},
    {"row's spare bit 2", ANY, P, WITH({ROW_SPARE(2), 2}), REFUSED(7, 2, 0, 0)},
    {"row's spare bit 3", ANY, P, WITH({ROW_SPARE(3), 1}), REFUSED(7, 3, 0, 0)},
    {"7 before 8", ANY, P, WITH({RESOURCE(2), 17}, {A(2), 0}), REFUSED(7, 2, 0, 0)},
    {"A without a resource", ANY, P, WITH({RESOURCE(1), 0}), REFUSED(8, 1, 0, 0)},
    {"a resource without A", ANY, P, WITH({A(2), 0}), REFUSED(8, 2, 0, 0)},
    {"8 before 9", ANY, P, WITH({A(2), 0}, {C1(2), 20}), REFUSED(8, 2, 0, 0)},
    {"sum one above T", ANY, P, WITH({C1(1), 8}), REFUSED(9, 1, 0, 0)},
    {"sum far above T", ANY, P, WITH({C1(3), 1048575}, {A(3), 1048575}, {C2(3), 1048575}), REFUSED(9, 3, 0, 0)},
    {"sum 0", ANY, ONE, WITH({C1(1), 0}), REFUSED(9, 1, 0, 0)},
    {"9 in row 1 before 6 in row 2", ANY, P, WITH({C1(1), 8}, {T(2), 0}), REFUSED(9, 1, 0, 0)},

    {"P", READ, P},
    {"P under NPP", READ, P, WITH({NPP, 1})},
    {"Q", READ, Q},
    {"one row", READ, ONE},
    {"m 2", READ, P, WITH({M, 2})},
    {"m 16", READ, P, WITH({M, 16})},
    {"T 1,000,000", READ, P, WITH({T(1), 1000000})},
    {"resource 16", READ, P, WITH({RESOURCE(3), 16})},
    {"sum T", READ, P, WITH({C1(1), 7})},

    {"no sheet", PLAN, P, NO_OUT, REFUSED(10, 0, 0, 0)},
    {"no sheet, at 39", PLAN, P, .at = 39, NO_OUT, REFUSED(10, 0, 0, 0)},
    {"sheet of 0", PLAN, P, ON(0, 0), REFUSED(10, 0, 0, 0)},
    {"sheet a byte short", PLAN, P, ON(0, 38), REFUSED(10, 0, 0, 0)},
    {"sheet a byte short behind 5", PLAN, P, ON(5, 43), REFUSED(10, 0, 0, 0)},
    {"sheet a byte short, one row", PLAN, ONE, ON(0, 20), REFUSED(10, 0, 0, 0)},
    {"at the sheet's end", PLAN, P, ON(39, 39), REFUSED(10, 0, 0, 0)},
    {"at past the sheet's end", PLAN, P, ON(40, 39), REFUSED(10, 0, 0, 0)},
    {"at 2^32", PLAN, P, ON((size_t)1 << 32, 39), REFUSED(10, 0, 0, 0)},
    {"at 2^64 - 39, and 39 more is 0", PLAN, P, ON(SIZE_MAX - 38, 39), REFUSED(10, 0, 0, 0)},
    {"at 2^64 - 38, and 39 more is 1", PLAN, P, ON(SIZE_MAX - 37, 39), REFUSED(10, 0, 0, 0)},
    {"at 2^64 - 1", PLAN, P, ON(SIZE_MAX, 39), REFUSED(10, 0, 0, 0)},
    {"10 before 11", PLAN, Q, ON(0, 29), REFUSED(10, 0, 0, 0)},
    {"Q on two processors", PLAN, Q, ON(0, 30), REFUSED(11, 2, 2, 12)},
    {"Q on two, C2 of row 1 5", PLAN, Q, WITH({C2(1), 5}), ON(0, 30), REFUSED(11, 2, 2, 13)},
    {"Q on three, C2 of row 1 5, A of row 2 2", PLAN, Q, WITH({M, 3}, {C2(1), 5}, {A(2), 2}), ON(0, 30),
     REFUSED(11, 1, 2, 11)},
    {"sections too long", PLAN, TIGHT, ON(0, 30), REFUSED(11, 1, 1, 5)},
    {"sections far too long", PLAN, TIGHT, WITH({T(1), 1000000}, {A(1), 600000}, {T(2), 1000000}, {A(2), 600000}),
     ON(0, 30), REFUSED(11, 1, 1, 1199999)},
    {"P, A of row 2 9, and S of row 1 2 + 8", PLAN, P, WITH({A(2), 9}), ON(0, 39), REFUSED(11, 1, 2, 1)},
    {"P, A of row 2 10, and 2 + 9 is above T", PLAN, P, WITH({A(2), 10}), ON(0, 39), REFUSED(11, 1, 1, 11)},
    {"P, C2 of row 1 6", PLAN, P, WITH({C2(1), 6}), ON(0, 39), REFUSED(11, 1, 2, 11)},
    {"a section, three steps", PLAN, STEPS, ON(0, 30), REFUSED(11, 1, 1, 33)},
    {"a section under NPP, no step", PLAN, STEPS, WITH({NPP, 1}), ON(0, 30), REFUSED(11, 2, 1, 16)},
    {"stage two too long", PLAN, BEHIND, ON(0, 30), REFUSED(11, 2, 2, 18)},
    {"the sum too long", PLAN, BEHIND, WITH({C2(2), 4}), ON(0, 30), REFUSED(11, 2, 2, 21)},
    {"the sum not too long", PLAN, BEHIND, WITH({C2(2), 3}), ON(0, 30), WRITES(plan_behind, 30)},
    {"the smallest of 24, 21 and 23", PLAN, THREE, ON(0, 48), REFUSED(11, 4, 2, 21)},
    {"D1 missing", PLAN, APART, ON(0, 39), REFUSED(11, 3, 2, 18)},
    {"D2 missing", PLAN, APART, WITH({C1(3), 3}, {C2(3), 4}), ON(0, 39), REFUSED(11, 3, 2, 18)},
    {"neither missing", PLAN, APART, WITH({C1(3), 3}), ON(0, 39), REFUSED(11, 3, 2, 20)},
    {"both missing, D1 at 18", PLAN, APART, WITH({C2(3), 7}), ON(0, 39), REFUSED(11, 3, 2, 18)},
    {"both missing, D1 at 21", PLAN, APART, WITH({C1(3), 7}, {C2(3), 4}), ON(0, 39), REFUSED(11, 3, 2, 21)},
    {"one trial", PLAN, TRIALS, ON(0, 30), REFUSED(11, 2, 2, 4)},
    {"the last of two trials", PLAN, TRIALS, WITH({M, 3}), ON(0, 30), REFUSED(11, 2, 2, 8)},
    {"P on 39 bytes", PLAN, P, ON(0, 39), WRITES(plan_p, 39)},
    {"P at 5 of 44", PLAN, P, ON(5, 44), WRITES(plan_p, 39)},
    {"P at 5 of 64", PLAN, P, ON(5, 64), WRITES(plan_p, 39)},
    {"P under NPP on 39 bytes", PLAN, P, WITH({NPP, 1}), ON(0, 39), WRITES(plan_p_npp, 39)},
    {"P under NPP at 11 of 50", PLAN, P, WITH({NPP, 1}), ON(11, 50), WRITES(plan_p_npp, 39)},
    {"Q on three, on 30 bytes", PLAN, Q, WITH({M, 3}), ON(0, 30), WRITES(plan_q_3, 30)},
    {"Q on three, at 9 of 48", PLAN, Q, WITH({M, 3}), ON(9, 48), WRITES(plan_q_3, 30)},
    {"Q on three, C2 of row 1 5", PLAN, Q, WITH({M, 3}, {C2(1), 5}), ON(0, 30), WRITES(plan_q_3_5, 30)},
    {"one row on 21 bytes", PLAN, ONE, ON(0, 21), WRITES(plan_one, 21)},
    {"one row at 1 of 23", PLAN, ONE, ON(1, 23), WRITES(plan_one, 21)},

    {"run of Q", RUN, Q, WINDOW(0, 8, 24), REFUSED(11, 2, 2, 12)},
    {"run of Q, C2 of row 1 5", RUN, Q, WITH({C2(1), 5}), WINDOW(0, 8, 24), REFUSED(11, 2, 2, 13)},
    {"run of sections too long", RUN, TIGHT, WINDOW(0, 8, 24), REFUSED(11, 1, 1, 5)},
    {"run, a section, three steps", RUN, STEPS, WINDOW(0, 8, 24), REFUSED(11, 1, 1, 33)},
    {"run, a section under NPP, no step", RUN, STEPS, WITH({NPP, 1}), WINDOW(0, 8, 24), REFUSED(11, 2, 1, 16)},
    {"run, stage two too long", RUN, BEHIND, WINDOW(0, 8, 24), REFUSED(11, 2, 2, 18)},
    {"run, the sum too long", RUN, BEHIND, WITH({C2(2), 4}), WINDOW(0, 8, 24), REFUSED(11, 2, 2, 21)},
    {"run, the smallest of 24, 21 and 23", RUN, THREE, ARRIVING(row_1), WINDOW(0, 8, 24), REFUSED(11, 4, 2, 21)},
    {"run, both missing, D1 at 21", RUN, APART, WITH({C1(3), 7}, {C2(3), 4}), WINDOW(0, 8, 24),
     REFUSED(11, 3, 2, 21)},
    {"run, the last of two trials", RUN, TRIALS, WITH({M, 3}), WINDOW(0, 8, 24), REFUSED(11, 2, 2, 8)},
    {"11 before 12 to 14", RUN, Q, ARRIVING(too_many), .ticks = 4097, NO_OUT, REFUSED(11, 2, 2, 12)},
    {"4,097 ticks", RUN, P, ARRIVING(row_1), WINDOW(0, 4097, 24), REFUSED(12, 0, 0, 0)},
    {"a tick past the last", RUN, P, ARRIVING(row_1), WINDOW(999993, 8, 24), REFUSED(12, 0, 0, 0)},
    {"0 ticks past the last", RUN, P, ARRIVING(row_1), WINDOW(1000001, 0, 24), REFUSED(12, 0, 0, 0)},
    {"from 2^32", RUN, P, ARRIVING(row_1), WINDOW((size_t)1 << 32, 8, 24), REFUSED(12, 0, 0, 0)},
    {"2^32 ticks", RUN, P, ARRIVING(row_1), WINDOW(0, (size_t)1 << 32, 24), REFUSED(12, 0, 0, 0)},
    {"from 2^64 - 1, 0 ticks", RUN, P, ARRIVING(row_1), WINDOW(SIZE_MAX, 0, 24), REFUSED(12, 0, 0, 0)},
    {"from 2^64 - 1, and 1 more is 0", RUN, P, ARRIVING(row_1), WINDOW(SIZE_MAX, 1, 24), REFUSED(12, 0, 0, 0)},
    {"from 2^64 - 8, and 8 more is 0", RUN, P, ARRIVING(row_1), WINDOW(SIZE_MAX - 7, 8, 24), REFUSED(12, 0, 0, 0)},
    {"2^64 - 1 ticks", RUN, P, ARRIVING(row_1), WINDOW(0, SIZE_MAX, 24), REFUSED(12, 0, 0, 0)},
    {"2^64 - 1 ticks, and 1 more is 0", RUN, P, ARRIVING(row_1), WINDOW(1, SIZE_MAX, 24), REFUSED(12, 0, 0, 0)},
    {"2^64 - 1 of both", RUN, P, ARRIVING(row_1), WINDOW(SIZE_MAX, SIZE_MAX, 24), REFUSED(12, 0, 0, 0)},
    {"12 before 13 and 14", RUN, P, ARRIVING(too_many), .ticks = 4097, NO_OUT, REFUSED(12, 0, 0, 0)},
    {"no trace", RUN, P, ARRIVING(row_1), .ticks = 8, NO_OUT, REFUSED(13, 0, 0, 0)},
    {"no trace, no arrivals", RUN, P, .ticks = 8, NO_OUT, REFUSED(13, 0, 0, 0)},
    {"trace of 0", RUN, P, ARRIVING(row_1), WINDOW(0, 1, 0), REFUSED(13, 0, 0, 0)},
    {"trace a byte short", RUN, P, ARRIVING(row_1), WINDOW(0, 8, 23), REFUSED(13, 0, 0, 0)},
    {"trace far too short", RUN, P, ARRIVING(row_1), WINDOW(0, 4096, 64), REFUSED(13, 0, 0, 0)},
    {"13 before 14", RUN, P, ARRIVING(too_many), WINDOW(0, 8, 23), REFUSED(13, 0, 0, 0)},
    {"4,097 arrivals, 14 before 15", RUN, P, ARRIVING(too_many), WINDOW(0, 8, 24), REFUSED(14, 0, 0, 0)},
    {"row 0", RUN, P, ARRIVING(row_0), WINDOW(0, 8, 24), REFUSED(15, 1, 0, 0)},
    {"row 4", RUN, P, ARRIVING(row_4), WINDOW(0, 8, 24), REFUSED(15, 2, 0, 0)},
    {"row 2^32 - 1", RUN, P, ARRIVING(row_most), WINDOW(0, 8, 24), REFUSED(15, 1, 0, 0)},
    {"15 before 16", RUN, P, ARRIVING(row_4_back), WINDOW(0, 8, 24), REFUSED(15, 2, 0, 0)},
    {"tick 1,000,000", RUN, P, ARRIVING(past_ticks), WINDOW(0, 8, 24), REFUSED(16, 1, 0, 0)},
    {"tick 2^32 - 1", RUN, P, ARRIVING(tick_most), WINDOW(0, 8, 24), REFUSED(16, 2, 0, 0)},
    {"a tick back", RUN, P, ARRIVING(back), WINDOW(0, 8, 24), REFUSED(16, 2, 0, 0)},
    {"the same tick and row", RUN, P, ARRIVING(same_row), WINDOW(0, 8, 24), REFUSED(16, 2, 0, 0)},
    {"the same tick, a lower row", RUN, P, ARRIVING(lower_row), WINDOW(0, 8, 24), REFUSED(16, 2, 0, 0)},
    {"16 before 17", RUN, P, ARRIVING(back_and_long), WINDOW(0, 8, 24), REFUSED(16, 2, 0, 0)},
    {"stage one too long", RUN, P, ARRIVING(long_1), WINDOW(0, 8, 24), REFUSED(17, 1, 0, 0)},
    {"section too long", RUN, P, ARRIVING(long_2), WINDOW(0, 8, 24), REFUSED(17, 1, 0, 0)},
    {"stage two too long", RUN, P, ARRIVING(long_3), WINDOW(0, 8, 24), REFUSED(17, 2, 0, 0)},
    {"lengths 2^32 - 1", RUN, P, ARRIVING(long_most), WINDOW(0, 8, 24), REFUSED(17, 1, 0, 0)},
    {"17 before 18", RUN, P, ARRIVING(long_and_soon), WINDOW(0, 8, 24), REFUSED(17, 2, 0, 0)},
    {"a tick too soon", RUN, P, ARRIVING(soon), WINDOW(0, 8, 24), REFUSED(18, 2, 0, 0)},
    {"18 at 2 before 15 at 3", RUN, P, ARRIVING(soon_first), WINDOW(0, 8, 24), REFUSED(18, 2, 0, 0)},

    {"row 1, 8 ticks", RUN, P, ARRIVING(row_1), WINDOW(0, 8, 24), WRITES(run_row_1, 24), RAN(1, 4, 0, 1, 2, 1)},
    {"row 1, 6 ticks", RUN, P, ARRIVING(row_1), WINDOW(0, 6, 18), WRITES(run_row_1, 18), RAN(1, 4, 0, 1, 2, 1)},
    {"row 1, 5 ticks", RUN, P, ARRIVING(row_1), WINDOW(0, 5, 15), WRITES(run_row_1, 15), RAN(0, 3, 1, 1, 2, 0)},
    {"row 1, 8 ticks in 64 bytes", RUN, P, ARRIVING(row_1), WINDOW(0, 8, 64), WRITES(run_row_1, 24),
     RAN(1, 4, 0, 1, 2, 1)},
    {"row 1, ticks 3 to 7", RUN, P, ARRIVING(row_1), WINDOW(3, 5, 15), WRITES(run_row_1 + 9, 15),
     RAN(1, 4, 0, 1, 2, 1)},
    {"row 1, the last 8 ticks", RUN, P, ARRIVING(row_1), WINDOW(999992, 8, 24), WRITES(idle, 24),
     RAN(1, 4, 0, 1, 2, 1)},
    {"row 1, 0 ticks at the end, no trace", RUN, P, ARRIVING(row_1), .from = 1000000, NO_OUT, RAN(1, 4, 0, 1, 2, 1)},
    {"row 1 at the last tick there is", RUN, P, ARRIVING(last_tick), WINDOW(0, 8, 24), WRITES(idle, 24),
     RAN(0, 0, 0, 0)},
    {"row 1 with nothing to do, 5 ticks", RUN, P, ARRIVING(empty_row_1), WINDOW(0, 5, 15), WRITES(idle, 15),
     RAN(0, 0, 0, 0)},
    {"row 1 with nothing to do, 6 ticks", RUN, P, ARRIVING(empty_row_1), WINDOW(0, 6, 18), WRITES(idle, 18),
     RAN(1, 0, 0, 0)},
    {"row 1 twice, T apart", RUN, P, ARRIVING(twice), WINDOW(9, 7, 21), WRITES(idle, 21), RAN(2, 0, 0, 0)},
    {"no arrivals", RUN, P, WINDOW(0, 8, 24), WRITES(idle, 24), RAN(0, 0, 0, 0)},
    {"0 arrivals", RUN, P, .arrivals = row_1, WINDOW(0, 8, 24), WRITES(idle, 24), RAN(0, 0, 0, 0)},
    {"row 1, 0 ticks, trace of 0", RUN, P, ARRIVING(row_1), WINDOW(8, 0, 0), RAN(1, 4, 0, 1, 2, 1)},
    {"no arrivals, no ticks, no trace", RUN, P, NO_OUT, RAN(0, 0, 0, 0)},
    {"no arrivals, Q on three", RUN, Q, WITH({M, 3}), WINDOW(7, 5, 16), WRITES(idle, 15), RAN(0, 0, 0, 0)},
    {"rows 2 and 1", RUN, P, ARRIVING(rows_2_1), WINDOW(0, 12, 36), WRITES(run_rows_2_1, 36),
     RAN(2, 11, 0, 1, 4, 1, 2, 3, 3)},
    {"rows 2 and 1, ticks 4 to 8", RUN, P, ARRIVING(rows_2_1), WINDOW(4, 5, 15), WRITES(run_rows_2_1 + 12, 15),
     RAN(0, 8, 3, 1, 4, 0, 2, 3, 0)},
    {"rows 2 and 1, 0 ticks, no trace", RUN, P, ARRIVING(rows_2_1), .from = 12, NO_OUT,
     RAN(2, 11, 0, 1, 4, 1, 2, 3, 3)},
    {"rows 2 and 1 under NPP", RUN, P, WITH({NPP, 1}), ARRIVING(rows_2_1), WINDOW(0, 16, 48),
     WRITES(run_rows_2_1_npp, 48), RAN(2, 11, 0, 1, 4, 1, 2, 3, 2)},
    {"rows 3 and 1", RUN, P, ARRIVING(rows_3_1), WINDOW(0, 20, 60), WRITES(run_rows_3_1, 60),
     RAN(1, 13, 4, 1, 2, 1, 0, 0, 0, 4, 7, 0)},
    {"rows 3 and 1 under NPP", RUN, P, WITH({NPP, 1}), ARRIVING(rows_3_1), WINDOW(0, 20, 64),
     WRITES(run_rows_3_1_npp, 60), RAN(1, 13, 4, 1, 6, 1, 0, 0, 0, 4, 5, 0)},
    {"all rows at 0", RUN, P, ARRIVING(rows_1_2_3), WINDOW(0, 12, 36), WRITES(run_all, 36),
     RAN(2, 17, 7, 1, 2, 1, 3, 3, 2, 8, 0, 0)},
};
