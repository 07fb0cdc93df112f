/* Calls the three functions at their edges, and holds each answer and each byte around it to what
   was worked out by hand: every call of cases.h, the largest sizes there are, lengths above 2^32, and
   a million calls of cases.h in a pseudo-random order over the same buffers. It prints a line for
   each part.

   A buffer lies between two fences, which nobody may read or write. What is lent either begins at
   the one fence, or ends at the other, or has guard bytes on both sides. Behind a call the lent bytes
   and the guards have to be as they were, but for what the call has to write; and so have those of
   the buffers that it was not lent.

   Exit code: 0, or 1 if something is not as it has to be, or 2 if there is no memory.

   With the kit alone there are no headers of the C library, so what is used of it stands here. */

#include "cases.h"

int printf(const char *format, ...);
int fflush(void *file);
void exit(int code);
void (*signal(int number, void (*handler)(int)))(int);
int memcmp(const void *left, const void *right, size_t count);
void *memcpy(void *to, const void *from, size_t count);
void *mmap(void *address, size_t length, int protection, int flags, int file, ptrdiff_t offset);
int mprotect(void *address, size_t length, int protection);

enum { PROTECTED = 0, READABLE = 1, WRITABLE = 3 };
enum { PRIVATE = 0x2, ANONYMOUS = 0x20, NO_RESERVE = 0x4000 };
enum { BUS_ERROR = 7, BAD_ADDRESS = 11 };
enum { WRONG = 1, NO_MEMORY = 2 };

/* No page is longer than a fence. */
enum { FENCE = 65536, ROOM = 2 * FENCE, GUARD = 64 };

/* Of the mixed calls: how many, the highest refusal among them, and how many each has to have at least. */
enum { MIXED = 1000000, HIGHEST = 18, FEWEST = 500 };

enum { CALLS = sizeof calls / sizeof *calls };

/* Large ones: as many rows, processors, ticks and arrivals as there can be. */
enum { ROWS = 64, PROCESSORS = 16, TICKS = 4096, ARRIVALS = 4096, END_OF_TIME = 1000000 };
enum { TABLE = 2 + 11 * ROWS, SHEET = 12 + 9 * ROWS, TRACE = PROCESSORS * TICKS };

/* Where the numbers of the answers stand; nothing lies between them. */
_Static_assert(offsetof(kieferntuch_answer, value) == 12 && sizeof(kieferntuch_answer) == 16, "an answer of 4 numbers");
_Static_assert(offsetof(kieferntuch_ran, value) == 12 && offsetof(kieferntuch_ran, worst) == 16 &&
                   offsetof(kieferntuch_ran, jobs) == 784 && sizeof(kieferntuch_ran) == 808,
               "an answer of 4 numbers, 192 responses and 3 counts");

#define SEED 0x9e3779b97f4a7c15u
#define ABOVE ((size_t)1 << 32)

/* Which fence the lent bytes are at. */
typedef enum { LEFT, RIGHT, NEITHER } side;

/* Bytes between two fences; those from `begin` to `end` are lent ones and guards, and have to be as
   expected. */
typedef struct {
    uint8_t *room;
    uint8_t *expected;
    size_t begin;
    size_t end;
    uint8_t *lent;
    size_t length;
} buffer;

static buffer table, arrivals, out;

/* Where a failure is: which part, which call, and which of the mixed ones. */
static const char *doing = "";
static const char *asking = "";
static size_t mixed;

static void fail(const char *what)
{
    printf("robust: %s: %s: %s", doing, asking, what);
    if (mixed > 0)
        printf(" (mixed call %llu, seed %llx)", (unsigned long long)mixed, (unsigned long long)SEED);
    printf("\n");
    exit(WRONG);
}

static void at_fence(int number)
{
    (void)number;
    fail("a byte was read or written that is not lent");
}

static void done(size_t count, const char *words)
{
    printf("robust: %llu %s\n", (unsigned long long)count, words);
    fflush(NULL);
}

static void no_memory(size_t length)
{
    printf("robust: %s: no memory for %llu bytes\n", doing, (unsigned long long)length);
    exit(NO_MEMORY);
}

static uint8_t *map(size_t length, int protection)
{
    uint8_t *bytes = mmap(NULL, length, protection, PRIVATE | ANONYMOUS | NO_RESERVE, -1, 0);
    if ((ptrdiff_t)bytes == -1)
        no_memory(length);
    return bytes;
}

static void make_writable(uint8_t *bytes, size_t length)
{
    if (mprotect(bytes, length, WRITABLE) != 0)
        no_memory(length);
}

static void make(buffer *buffer)
{
    buffer->room = map(ROOM + 2 * FENCE, PROTECTED) + FENCE;
    make_writable(buffer->room, ROOM);
    buffer->expected = map(ROOM, WRITABLE);
}

/* Bytes to fill guards and outputs with: any 256 in a row are all different. */
static uint8_t pattern[ROOM + 256];

static void make_pattern(void)
{
    for (size_t place = 0; place < sizeof pattern; place++)
        pattern[place] = (uint8_t)(37 * place);
}

/* Puts bytes into the room, to be there behind the call too. */
static void put(buffer *buffer, size_t from, const void *bytes, size_t count)
{
    memcpy(buffer->room + from, bytes, count);
    memcpy(buffer->expected + from, bytes, count);
}

/* Lends a copy of these bytes, with guards where it is not at a fence. */
static void lend(buffer *buffer, const void *bytes, size_t length, side side, uint8_t fill)
{
    size_t from = side == LEFT ? 0 : side == RIGHT ? ROOM - length : GUARD;
    buffer->begin = side == LEFT ? 0 : from - GUARD;
    buffer->end = side == RIGHT ? ROOM : from + length + GUARD;
    buffer->lent = buffer->room + from;
    buffer->length = length;
    put(buffer, buffer->begin, pattern + fill, from - buffer->begin);
    put(buffer, from, bytes, length);
    put(buffer, from + length, pattern + fill, buffer->end - from - length);
}

static void lend_null(buffer *buffer)
{
    buffer->begin = buffer->end = 0;
    buffer->lent = NULL;
    buffer->length = 0;
}

/* Sets a field to a value, the most significant bit first. */
static void set(uint8_t *bytes, const edit *edit)
{
    for (size_t bit = edit->from; bit < edit->from + edit->width; bit++) {
        uint8_t mask = (uint8_t)(0x80 >> bit % 8);
        int one_bit = edit->value >> (edit->from + edit->width - 1 - bit) & 1;
        bytes[bit / 8] = (uint8_t)(one_bit ? bytes[bit / 8] | mask : bytes[bit / 8] & ~mask);
    }
}

static void lend_table(const call *call, side side, uint8_t fill)
{
    static uint8_t edited[TABLE + 1];
    if (call->table == NULL) {
        lend_null(&table);
        return;
    }
    memcpy(edited, call->table, call->table_length);
    for (size_t place = 0; place < sizeof call->edits / sizeof *call->edits; place++)
        set(edited, &call->edits[place]);
    lend(&table, edited, call->table_length, side, fill);
}

static void lend_arrivals(const call *call, side side, uint8_t fill)
{
    if (call->arrivals == NULL)
        lend_null(&arrivals);
    else
        lend(&arrivals, call->arrivals, call->arrival_count * sizeof *call->arrivals, side, fill);
}

static void lend_out(const call *call, side side, uint8_t fill)
{
    if (call->out_null)
        lend_null(&out);
    else
        lend(&out, pattern + fill, call->out_length, side, fill);
}

static kieferntuch_ran as_ran(kieferntuch_answer answer)
{
    return (kieferntuch_ran){
        .number = answer.number, .names = answer.names, .mark = answer.mark, .value = answer.value};
}

/* Lends what the function takes, and calls it. */
static kieferntuch_ran ask(const call *call, function function, side side, uint8_t fill)
{
    lend_table(call, side, fill);
    if (function == READ)
        return as_ran(kieferntuch_read(table.lent, table.length));
    lend_out(call, side, fill);
    if (function == PLAN)
        return as_ran(kieferntuch_plan(table.lent, table.length, call->at, out.lent, out.length));
    lend_arrivals(call, side, fill);
    return kieferntuch_run(table.lent, table.length, (const kieferntuch_arrival *)(const void *)arrivals.lent,
                           call->arrival_count, call->from, call->ticks, out.lent, out.length);
}

static void print_ran(const char *words, const kieferntuch_ran *ran)
{
    printf("%s: number %u, names %u, mark %u, value %u, jobs %llu, run %llu, owed %llu, worst", words, ran->number,
           ran->names, ran->mark, ran->value, (unsigned long long)ran->jobs, (unsigned long long)ran->run,
           (unsigned long long)ran->owed);
    for (size_t place = 0; place < sizeof ran->worst / sizeof *ran->worst; place++)
        printf(" %u", ran->worst[place]);
    printf("\n");
}

static void judge_answer(const call *call, const kieferntuch_ran *ran)
{
    const kieferntuch_ran *answer = &call->answer;
    if (ran->number == answer->number && ran->names == answer->names && ran->mark == answer->mark &&
        ran->value == answer->value && ran->jobs == answer->jobs && ran->run == answer->run &&
        ran->owed == answer->owed && memcmp(ran->worst, answer->worst, sizeof ran->worst) == 0)
        return;
    print_ran("answer", ran);
    print_ran("has to be", answer);
    fail("the answer is wrong");
}

static void judge_buffer(const buffer *buffer, const char *what)
{
    size_t place = buffer->begin;
    if (memcmp(buffer->room + place, buffer->expected + place, buffer->end - place) == 0)
        return;
    while (buffer->room[place] == buffer->expected[place])
        place++;
    printf("byte %lld of %llu is %02x, has to be %02x\n", (long long)(buffer->room + place - buffer->lent),
           (unsigned long long)buffer->length, buffer->room[place], buffer->expected[place]);
    fail(what);
}

/* Holds an answer, and what lies in all three buffers, to what the call has to do. */
static void judge(const call *call, const kieferntuch_ran *ran)
{
    judge_answer(call, ran);
    if (call->written_length > 0)
        memcpy(out.expected + (out.lent - out.room) + call->at, call->written, call->written_length);
    judge_buffer(&out, "the sheet or the trace is wrong, or a byte beside it");
    judge_buffer(&table, "the table has changed, or a byte beside it");
    judge_buffer(&arrivals, "the arrivals have changed, or a byte beside them");
}

/* A bad table comes with all else that a call needs. */
static call filled_in(const call *given)
{
    call call = *given;
    if (call.function == ANY) {
        call.arrivals = row_1;
        call.arrival_count = 1;
        call.ticks = 8;
        call.out_length = 64;
    }
    return call;
}

static void try_call(const call *given, function function, side side, uint8_t fill)
{
    call call = filled_in(given);
    asking = call.words;
    kieferntuch_ran ran = ask(&call, function, side, fill);
    judge(&call, &ran);
}

static void try_sides(const call *call, function function)
{
    for (side side = LEFT; side <= NEITHER; side++)
        try_call(call, function, side, (uint8_t)(0x51 * side));
}

static void try_functions(const call *call)
{
    if (call->function != ANY) {
        try_sides(call, call->function);
        return;
    }
    for (function function = READ; function <= RUN; function++)
        try_sides(call, function);
}

static void try_all(void)
{
    doing = "one by one";
    for (size_t place = 0; place < CALLS; place++)
        try_functions(&calls[place]);
    done(CALLS, "calls one by one, at either fence and between guards: as worked out by hand");
}

/* The largest: 64 rows of T 4 and C1 1 on 16 processors. Four rows fill a processor, with D1 1, 2, 3 and 4. */
static uint8_t large_table[TABLE + 1] = {0x81, 0x00};
static uint8_t large_plan[SHEET] = {0x81, 0x00};
static kieferntuch_arrival large_arrivals[ARRIVALS];
static uint8_t large_trace[TRACE];

static void make_large_table(void)
{
    for (size_t row = 0; row < ROWS; row++) {
        uint8_t *task = large_table + 2 + 11 * row;
        uint8_t *planned = large_plan + 12 + 9 * row;
        unsigned bound = 1 + row % 4;
        task[2] = 0x40;
        task[4] = 0x01;
        planned[0] = (uint8_t)((1 + row / 4) << 3);
        planned[2] = (uint8_t)(bound >> 1);
        planned[3] = (uint8_t)(bound << 7);
    }
}

/* 64 rows of T 1,000,000 and 1, 2, 1, four to each of 16 resources. One processor serves all of these and
   one runs all stages. Of rank k, better-ranked rows ask for 2(k - 1) units of either, once within the
   period. Under PCP a row may wait, for a tick, for a lower-ranked one of its own resource alone; under NPP
   for any. */
static uint8_t shared_table[TABLE] = {0x81, 0x00};
static uint8_t shared_plan[SHEET] = {0x81, 0x01, 0x08, 0x42, 0x10, 0x84, 0x21, 0x08, 0x42, 0x10, 0x84, 0x21};

static void make_shared_task(uint32_t rank, int npp)
{
    size_t row = ROW(rank);
    int waits = npp ? rank < ROWS : rank % 4 > 0;
    const edit fields[] = {{row, 20, 1000000}, {row + 20, 20, 1}, {row + 40, 20, 2}, {row + 60, 20, 1},
                           {row + 80, 5, 1 + (rank - 1) / 4}};
    for (size_t place = 0; place < sizeof fields / sizeof *fields; place++)
        set(shared_table, &fields[place]);
    size_t task = 8 * 12 + 72 * (rank - 1);
    set(shared_plan, &(edit){task, 5, 2});
    set(shared_plan, &(edit){task + 5, 20, 2 * rank - 1});
    set(shared_plan, &(edit){task + 25, 20, 2 * rank + (waits ? 1 : 0)});
    set(shared_plan, &(edit){task + 45, 20, 2 * rank - 1});
}

static void try_shared(int npp)
{
    set(shared_table, &(edit){NPP, npp ? 1 : 0});
    for (uint32_t rank = 1; rank <= ROWS; rank++)
        make_shared_task(rank, npp);
    call plan = {"all resources", PLAN, CUT(shared_table, TABLE), ON(3, SHEET + 3), WRITES(shared_plan, SHEET)};
    try_functions(&plan);
}

/* Every row arrives 64 times, four ticks apart; all processors are busy for 256 ticks from `first` on. */
static void make_large_arrivals(uint32_t first)
{
    for (uint32_t place = 0; place < ARRIVALS; place++)
        large_arrivals[place] = (kieferntuch_arrival){first + 4 * (place / ROWS), 1 + place % ROWS, 1, 0, 0};
}

/* In each four of these ticks a processor runs its four rows one after the other. */
static void make_large_trace(size_t first)
{
    for (size_t place = 0; place < TRACE; place++) {
        size_t tick = place / PROCESSORS;
        size_t row = 4 * (place % PROCESSORS) + tick % 4;
        large_trace[place] = tick >= first && tick < first + 256 ? (uint8_t)(0x40 | row) : 0;
    }
}

static void make_large_answer(kieferntuch_ran *answer)
{
    for (unsigned row = 0; row < ROWS; row++)
        answer->worst[3 * row] = 1 + row % 4;
}

#define LARGE .table = large_table, .table_length = TABLE

static void try_large_plans(void)
{
    call plan = {"plan", PLAN, LARGE, ON(0, SHEET), WRITES(large_plan, SHEET)};
    call between = {"plan at 7", PLAN, LARGE, ON(7, SHEET + 7), WRITES(large_plan, SHEET)};
    call cut = {"sheet a byte short", PLAN, LARGE, ON(0, SHEET - 1), REFUSED(10, 0, 0, 0)};
    call cut_between = {"sheet a byte short behind 7", PLAN, LARGE, ON(7, SHEET + 6), REFUSED(10, 0, 0, 0)};
    call longer = {"a byte over", ANY, CUT(large_table, TABLE + 1), REFUSED(5, 0, 0, 0)};
    call shorter = {"a byte short", ANY, CUT(large_table, TABLE - 1), REFUSED(5, 0, 0, 0)};
    call read = {"read", READ, LARGE};
    try_functions(&plan);
    try_functions(&between);
    try_functions(&cut);
    try_functions(&cut_between);
    try_functions(&shorter);
    try_functions(&longer);
    try_functions(&read);
}

/* A job ends with its stage two, of length 0, at its arrival and D1. Those of the last 16 rows to arrive
   with D1 4 end at the tick behind the 256: in the first run it is stepped, in the last run it is not. */
static void try_large_runs(void)
{
    call first = {"run from 0", RUN, LARGE, ARRIVING(large_arrivals), WINDOW(0, TICKS, TRACE),
                  WRITES(large_trace, TRACE), RAN(ARRIVALS, ARRIVALS, 0, 0)};
    call last = {"run to the last tick", RUN, LARGE, ARRIVING(large_arrivals),
                 WINDOW(END_OF_TIME - TICKS, TICKS, TRACE), WRITES(large_trace, TRACE),
                 RAN(ARRIVALS - 16, ARRIVALS, 0, 0)};
    call past = {"run past the last tick", RUN, LARGE, ARRIVING(large_arrivals),
                 WINDOW(END_OF_TIME - TICKS + 1, TICKS, TRACE), REFUSED(12, 0, 0, 0)};
    call cut = {"trace a byte short", RUN, LARGE, ARRIVING(large_arrivals), WINDOW(0, TICKS, TRACE - 1),
                REFUSED(13, 0, 0, 0)};
    make_large_answer(&first.answer);
    make_large_answer(&last.answer);
    make_large_arrivals(0);
    make_large_trace(0);
    try_functions(&first);
    try_functions(&cut);
    make_large_arrivals(END_OF_TIME - 256);
    make_large_trace(TICKS - 256);
    try_functions(&last);
    try_functions(&past);
}

/* The row of T 1, at each tick from 0 on. Each job ends with its stage two in the tick behind; that of
   the last one is not stepped. */
static void try_every_tick(void)
{
    static kieferntuch_arrival each[ARRIVALS + 1];
    static uint8_t trace[2 * ARRIVALS];
    each[ARRIVALS] = (kieferntuch_arrival){ARRIVALS, 1, 1, 0, 0};
    for (uint32_t tick = 0; tick < ARRIVALS; tick++) {
        each[tick] = (kieferntuch_arrival){tick, 1, 1, 0, 0};
        trace[2 * tick] = 0x40;
    }
    call most = {"4,096 arrivals", RUN, ONE, .arrivals = each, .arrival_count = ARRIVALS, WINDOW(0, TICKS, 2 * TICKS),
                 WRITES(trace, 2 * TICKS), RAN(ARRIVALS - 1, ARRIVALS, 0, 1)};
    call over = {"4,097 arrivals", RUN, ONE, ARRIVING(each), WINDOW(0, TICKS, 2 * TICKS), REFUSED(14, 0, 0, 0)};
    try_functions(&most);
    try_functions(&over);
}

static void try_large(void)
{
    doing = "the largest";
    make_large_table();
    try_large_plans();
    try_shared(0);
    try_shared(1);
    try_large_runs();
    try_every_tick();
    done(TABLE, "bytes of table, the longest sheet, trace and run, 4,096 arrivals, and a step past each");
}

static void hold(int good, const char *what)
{
    if (!good)
        fail(what);
}

static int is(kieferntuch_ran ran, uint32_t number)
{
    return ran.number == number && ran.names == 0 && ran.mark == 0 && ran.value == 0;
}

/* Bytes up to 2^32 and some behind, all 0; only the first and those behind may be written. */
static uint8_t *map_long(void)
{
    uint8_t *bytes = map(ABOVE + FENCE, READABLE);
    make_writable(bytes, FENCE);
    make_writable(bytes + ABOVE, FENCE);
    return bytes;
}

/* Case P's table with so many bytes behind it that the length's low 32 bits say 0, 1 or 35. */
static void try_long_table(size_t length)
{
    static uint8_t *bytes;
    uint8_t sheet[39] = {0};
    const uint8_t untouched[39] = {0};
    asking = "table";
    if (bytes == NULL) {
        bytes = map_long();
        memcpy(bytes, p, 35);
    }
    hold(is(as_ran(kieferntuch_read(bytes, length)), 5), "read does not give 5");
    hold(is(as_ran(kieferntuch_plan(bytes, length, 0, sheet, 39)), 5), "plan does not give 5");
    hold(is(kieferntuch_run(bytes, length, row_1, 1, 0, 8, sheet, 39), 5), "run does not give 5");
    hold(memcmp(sheet, untouched, 39) == 0, "sheet or trace has changed");
    hold(memcmp(bytes, p, 36) == 0, "table has changed");
}

/* A sheet of more than 2^32 bytes, and a plan at its end; then one at its start. */
static void try_long_sheet(void)
{
    uint8_t *sheet = map_long();
    const uint8_t *zeros = map(FENCE, READABLE);
    asking = "sheet";
    hold(is(as_ran(kieferntuch_plan(p, 35, ABOVE, sheet, ABOVE + 38)), 10), "a byte short does not give 10");
    hold(memcmp(sheet + ABOVE, zeros, FENCE) == 0, "a byte has changed beside 10");
    hold(is(as_ran(kieferntuch_plan(p, 35, ABOVE, sheet, ABOVE + 39)), 0), "there is no plan at 2^32");
    hold(memcmp(sheet + ABOVE, plan_p, 39) == 0, "the plan at 2^32 is wrong");
    hold(memcmp(sheet + ABOVE + 39, zeros, FENCE - 39) == 0, "a byte behind the plan at 2^32 has changed");
    hold(memcmp(sheet, zeros, FENCE) == 0, "a byte at the start has changed");
    hold(is(as_ran(kieferntuch_plan(p, 35, 0, sheet, ABOVE)), 0), "there is no plan on 2^32 bytes");
    hold(memcmp(sheet, plan_p, 39) == 0, "the plan on 2^32 bytes is wrong");
    hold(memcmp(sheet + 39, zeros, FENCE - 39) == 0, "a byte behind the plan has changed");
}

/* A trace of 2^32 bytes. */
static void try_long_trace(void)
{
    uint8_t *trace = map_long();
    const uint8_t *zeros = map(FENCE, READABLE);
    asking = "trace";
    kieferntuch_ran ran = kieferntuch_run(p, 35, rows_2_1, 2, 0, 12, trace, ABOVE);
    hold(is(ran, 0) && ran.jobs == 2 && ran.run == 11 && ran.owed == 0, "the answer is wrong");
    hold(memcmp(trace, run_rows_2_1, 36) == 0, "the trace is wrong");
    hold(memcmp(trace + 36, zeros, FENCE - 36) == 0, "a byte behind the ticks has changed");
}

/* Arrivals, all 0, whose number's low 32 bits say 0, 1 or 4,096. */
static void try_long_arrivals(size_t count)
{
    static const kieferntuch_arrival *many;
    uint8_t trace[24] = {0};
    asking = "arrivals";
    if (many == NULL)
        many = (const kieferntuch_arrival *)(const void *)map((ABOVE + ARRIVALS) * sizeof *many, READABLE);
    hold(is(kieferntuch_run(p, 35, many, count, 0, 8, trace, 24), 14), "run does not give 14");
    hold(memcmp(trace, idle, 24) == 0, "the trace has changed");
}

static void try_long(void)
{
    doing = "above 2^32";
    try_long_table(ABOVE);
    try_long_table(ABOVE + 1);
    try_long_table(ABOVE + 35);
    try_long_sheet();
    try_long_trace();
    try_long_arrivals(ABOVE);
    try_long_arrivals(ABOVE + 1);
    try_long_arrivals(ABOVE + ARRIVALS);
    done(ABOVE, "bytes and more of table, of sheet and of trace, and as many arrivals");
}

/* The next of xorshift64's numbers. */
static uint64_t draw(uint64_t below)
{
    static uint64_t state = SEED;
    state ^= state << 13;
    state ^= state >> 7;
    state ^= state << 17;
    return (state >> 16) % below;
}

/* A call of cases.h, and which function it is for. Of runs fifteen of sixteen are left out: each clears
   some 100 KB. */
static const call *draw_call(function *which)
{
    const call *call;
    do {
        call = &calls[draw(CALLS)];
        *which = call->function == ANY ? (function)draw(ANY) : call->function;
    } while (*which == RUN && draw(16) > 0);
    return call;
}

static void print_counts(const size_t *of_function, const size_t *of_number)
{
    printf("robust: seed %llx: %llu calls to read, %llu to plan, %llu to run; by refusal, from 0 on:",
           (unsigned long long)SEED, (unsigned long long)of_function[READ], (unsigned long long)of_function[PLAN],
           (unsigned long long)of_function[RUN]);
    for (size_t number = 0; number <= HIGHEST; number++) {
        printf(" %llu", (unsigned long long)of_number[number]);
        if (of_number[number] < FEWEST)
            fail("there are too few calls with a number");
    }
    printf("\n");
}

static void try_mixed(void)
{
    size_t of_function[ANY] = {0};
    size_t of_number[HIGHEST + 1] = {0};
    doing = "mixed";
    for (mixed = 1; mixed <= MIXED; mixed++) {
        function which;
        const call *call = draw_call(&which);
        of_function[which]++;
        of_number[call->answer.number]++;
        try_call(call, which, (side)draw(3), (uint8_t)draw(256));
    }
    asking = "counts";
    print_counts(of_function, of_number);
    done(MIXED, "calls in a pseudo-random order over the same buffers: as one by one");
}

int main(void)
{
    signal(BAD_ADDRESS, at_fence);
    signal(BUS_ERROR, at_fence);
    make_pattern();
    make(&table);
    make(&arrivals);
    make(&out);
    try_all();
    try_large();
    try_long();
    try_mixed();
    return 0;
}
