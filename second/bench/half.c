/* The C half of `second bench`: it links the product and the Rust code that is written for speed,
   and times both in one process, on the tables that standard input brings: the two readers, the two
   planners, or the two machines.

   Input: a byte, 'r' to read, 'p' to plan or 'u' to run; how many calls, and how many rounds. To run,
   then the numbers `from` and `ticks`. Then the length of the sheet or the trace, 0 to read, and for
   each call the length of its table and its bytes. To run, the count of its arrivals follows, and
   tick, row and three lengths of 4 bytes each for every one of them.
   Output: the length of a text and the text, which says how this program was built; for each round
   the nanoseconds that the product and the Rust code took for all calls; and for each call the
   answer, number, names, mark and value of 4 bytes each, and the sheet, of the product and then of the
   Rust code. A run's answer goes on with 192 responses of 4 bytes each, jobs, run and owed, and the trace
   takes the sheet's place. All other numbers have 8 bytes. The lowest byte comes first.

   A round is one pass over all calls by each of the two; which of them begins changes from round to
   round, and a round in front of the others is not counted. The clock is asked before and behind
   each pass; it is the process's own, so that what else runs on the machine takes no part in it.
   All calls of both write to one sheet or trace, which is not cleared. The answers at the end come
   from further calls, not timed, each on one that was filled with the byte EE.

   Exit code: 0, or 1 on broken input, or 2 when memory, the clock or the output fails.

   With the kit alone there are no headers of the C library, so what is used of it stands here. */

#include "kieferntuch.h"

ptrdiff_t read(int file, void *bytes, size_t count);
ptrdiff_t write(int file, const void *bytes, size_t count);
void *malloc(size_t count);
_Noreturn void exit(int code);
struct timespec {
    int64_t seconds;
    int64_t nanoseconds;
};
int clock_gettime(int clock, struct timespec *time);

/* As kieferntuch_read, kieferntuch_plan and kieferntuch_run, in fast.rs. */
kieferntuch_answer second_read(const uint8_t *table, size_t table_length);
kieferntuch_answer second_plan(const uint8_t *table, size_t table_length, size_t at, uint8_t *sheet,
                               size_t sheet_length);
kieferntuch_ran second_run(const uint8_t *table, size_t table_length, const kieferntuch_arrival *arrivals,
                           size_t arrival_count, size_t from, size_t ticks, uint8_t *trace, size_t trace_length);

/* How the two were compiled; the build names it. */
static const char how[] = HOW;

enum { NUMBER = 8, WORST = 192, UNTOUCHED = 0xee };
enum { BROKEN = 1, FAILED = 2 };
enum { PROCESSOR_TIME = 2 };

/* Whose code is called. */
typedef enum { PRODUCT, RUST } side;

typedef struct {
    uint8_t *bytes;
    size_t length;
} lent;

typedef struct {
    lent table;
    kieferntuch_arrival *arrivals;
    size_t arrival_count;
} call;

/* All that is timed. */
static struct {
    call *calls;
    size_t count;
    size_t from;
    size_t ticks;
    /* The sheet or the trace. */
    lent out;
} work;

static void take(void *bytes, size_t count)
{
    uint8_t *rest = bytes;
    while (count > 0) {
        ptrdiff_t more = read(0, rest, count);
        if (more <= 0)
            exit(BROKEN);
        rest += more;
        count -= (size_t)more;
    }
}

static void put(const void *bytes, size_t count)
{
    const uint8_t *rest = bytes;
    while (count > 0) {
        ptrdiff_t more = write(1, rest, count);
        if (more <= 0)
            exit(FAILED);
        rest += more;
        count -= (size_t)more;
    }
}

static uint64_t take_number(void)
{
    uint8_t bytes[NUMBER];
    uint64_t number = 0;
    take(bytes, NUMBER);
    for (int place = NUMBER - 1; place >= 0; place--)
        number = number << 8 | bytes[place];
    return number;
}

static void put_number(uint64_t number, int count)
{
    uint8_t bytes[NUMBER];
    for (int place = 0; place < count; place++)
        bytes[place] = (uint8_t)(number >> 8 * place);
    put(bytes, (size_t)count);
}

static void *some(size_t count)
{
    void *bytes = malloc(count);
    if (bytes == NULL)
        exit(FAILED);
    return bytes;
}

static uint64_t now(void)
{
    struct timespec time;
    if (clock_gettime(PROCESSOR_TIME, &time) != 0)
        exit(FAILED);
    return (uint64_t)time.seconds * 1000000000 + (uint64_t)time.nanoseconds;
}

static kieferntuch_answer read_table(side side, const call *call)
{
    const lent *table = &call->table;
    return (side == PRODUCT ? kieferntuch_read : second_read)(table->bytes, table->length);
}

static kieferntuch_answer plan(side side, const call *call)
{
    const lent *table = &call->table;
    return (side == PRODUCT ? kieferntuch_plan : second_plan)(table->bytes, table->length, 0, work.out.bytes,
                                                              work.out.length);
}

static kieferntuch_ran run(side side, const call *call)
{
    const lent *table = &call->table;
    return (side == PRODUCT ? kieferntuch_run : second_run)(table->bytes, table->length, call->arrivals,
                                                            call->arrival_count, work.from, work.ticks, work.out.bytes,
                                                            work.out.length);
}

static void read_all(side side)
{
    for (size_t place = 0; place < work.count; place++)
        read_table(side, &work.calls[place]);
}

static void plan_all(side side)
{
    for (size_t place = 0; place < work.count; place++)
        plan(side, &work.calls[place]);
}

static void run_all(side side)
{
    for (size_t place = 0; place < work.count; place++)
        run(side, &work.calls[place]);
}

/* The time of one pass over all calls. */
static uint64_t timed(void all(side), side side)
{
    uint64_t begin = now();
    all(side);
    return now() - begin;
}

static void put_round(void all(side), size_t round)
{
    uint64_t product = 0;
    if (round % 2 == 0)
        product = timed(all, PRODUCT);
    uint64_t rust = timed(all, RUST);
    if (round % 2 == 1)
        product = timed(all, PRODUCT);
    if (round == 0)
        return;
    put_number(product, NUMBER);
    put_number(rust, NUMBER);
}

static void fill(void)
{
    for (size_t place = 0; place < work.out.length; place++)
        work.out.bytes[place] = UNTOUCHED;
}

static void put_answer(uint32_t number, uint32_t names, uint32_t mark, uint32_t value)
{
    put_number(number, 4);
    put_number(names, 4);
    put_number(mark, 4);
    put_number(value, 4);
}

static void put_reading(side side, const call *call)
{
    kieferntuch_answer answer = read_table(side, call);
    put_answer(answer.number, answer.names, answer.mark, answer.value);
}

static void put_plan(side side, const call *call)
{
    fill();
    kieferntuch_answer answer = plan(side, call);
    put_answer(answer.number, answer.names, answer.mark, answer.value);
    put(work.out.bytes, work.out.length);
}

static void put_run(side side, const call *call)
{
    fill();
    kieferntuch_ran ran = run(side, call);
    put_answer(ran.number, ran.names, ran.mark, ran.value);
    for (size_t place = 0; place < WORST; place++)
        put_number(ran.worst[place], 4);
    put_number(ran.jobs, NUMBER);
    put_number(ran.run, NUMBER);
    put_number(ran.owed, NUMBER);
    put(work.out.bytes, work.out.length);
}

static void make(lent *lent, size_t length)
{
    lent->length = length;
    lent->bytes = some(length);
}

/* An arrival stands in the input as in memory. */
static void take_call(call *call, int running)
{
    make(&call->table, take_number());
    take(call->table.bytes, call->table.length);
    if (!running)
        return;
    call->arrival_count = take_number();
    call->arrivals = some(call->arrival_count * sizeof *call->arrivals);
    take(call->arrivals, call->arrival_count * sizeof *call->arrivals);
}

/* Takes the calls, and hands back how many rounds there are to be. */
static size_t take_work(int running)
{
    work.count = take_number();
    size_t rounds = take_number();
    if (running) {
        work.from = take_number();
        work.ticks = take_number();
    }
    make(&work.out, take_number());
    work.calls = some(work.count * sizeof *work.calls);
    for (size_t place = 0; place < work.count; place++)
        take_call(&work.calls[place], running);
    return rounds;
}

/* What is timed, and what puts the answers. */
static const struct kind {
    uint8_t name;
    void (*all)(side side);
    void (*put)(side side, const call *call);
} kinds[] = {{'r', read_all, put_reading}, {'p', plan_all, put_plan}, {'u', run_all, put_run}};

static const struct kind *take_kind(void)
{
    uint8_t name;
    take(&name, 1);
    for (size_t place = 0; place < sizeof kinds / sizeof *kinds; place++)
        if (kinds[place].name == name)
            return &kinds[place];
    exit(BROKEN);
}

int main(void)
{
    const struct kind *kind = take_kind();
    size_t rounds = take_work(kind->name == 'u');
    put_number(sizeof how - 1, NUMBER);
    put(how, sizeof how - 1);
    for (size_t round = 0; round <= rounds; round++)
        put_round(kind->all, round);
    for (size_t place = 0; place < work.count; place++) {
        kind->put(PRODUCT, &work.calls[place]);
        kind->put(RUST, &work.calls[place]);
    }
    return 0;
}
