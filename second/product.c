/* The C half of `second compare`: the product's functions, asked over standard input and output.

   This program links the archive through the header that users have, tools/run runs it, and the Rust
   half (src/product.rs) asks it over pipes until the input ends.

   Request: a byte that names the function, a byte of flags, the table's length and its bytes.
   Function 'r' is kieferntuch_read. Its answer: number, names, mark and value, 4 bytes each.
   Function 'p' is kieferntuch_plan. In its request follow the number `at`, the sheet's length and
   its bytes; in its answer follow the sheet's bytes as the call has left them.
   Function 'u' is kieferntuch_run. In its request follow the count of arrivals, tick, row and three
   lengths of 4 bytes each for every one of them, the numbers `from` and `ticks`, the trace's length,
   and a byte that says what the trace holds before the call: this byte, and each further one 37
   more. In its answer follow 192 responses of 4 bytes each, jobs, run and owed, and the trace's
   bytes as the call has left them, with the 64 bytes behind the lent ones, filled in the same way.
   Flag 1 lends the table by a null pointer, flag 2 the sheet or the trace (which then has nothing
   behind it), flag 4 the arrivals, with length 0 alone. Numbers that are not said to have 4 bytes
   have 8. All numbers have their lowest byte first.

   What is lent lies in buffers of exactly its length, made for the request alone, so that a read
   past the end has a chance to be seen; only a trace has bytes behind it that show what was written
   there. An answer is written at once, so that a crash takes none of the earlier ones with it.

   Exit code: 0 when the input ends, 1 on a broken request, 2 when memory or the output fails.

   With the kit alone there are no headers of the C library, so what is used of it stands here. */

#include "kieferntuch.h"

ptrdiff_t read(int file, void *bytes, size_t count);
ptrdiff_t write(int file, const void *bytes, size_t count);
void *malloc(size_t count);
void free(void *bytes);

enum { HEADER = 2, NUMBER = 8, ANSWER = 16, WORST = 192, RAN = ANSWER + 4 * WORST + 3 * NUMBER };
enum { NULL_TABLE = 1, NULL_OUT = 2, NULL_ARRIVALS = 4 };
enum { GUARD = 64, FILL_STEP = 37 };
enum { GOOD = 0, BROKEN = 1, FAILED = 2 };

/* Bytes to lend to a function. */
typedef struct {
    uint8_t *bytes;
    size_t length;
} lent;

/* What a run is handed beside the table. */
typedef struct {
    kieferntuch_arrival *arrivals;
    size_t arrival_count;
    size_t from;
    size_t ticks;
    lent trace;
} run_request;

/* How many of `count` bytes came before the input ended; -1 if it could not be read. */
static ptrdiff_t take(uint8_t *bytes, size_t count)
{
    size_t taken = 0;
    while (taken < count) {
        ptrdiff_t more = read(0, bytes + taken, count - taken);
        if (more < 0)
            return -1;
        if (more == 0)
            break;
        taken += (size_t)more;
    }
    return (ptrdiff_t)taken;
}

static int put(const uint8_t *bytes, size_t count)
{
    size_t done = 0;
    while (done < count) {
        ptrdiff_t more = write(1, bytes + done, count - done);
        if (more <= 0)
            return FAILED;
        done += (size_t)more;
    }
    return GOOD;
}

static int take_number(size_t *number)
{
    uint8_t bytes[NUMBER];
    if (take(bytes, NUMBER) != NUMBER)
        return BROKEN;
    *number = 0;
    for (int place = NUMBER - 1; place >= 0; place--)
        *number = *number << 8 | bytes[place];
    return GOOD;
}

static void number_to(uint8_t *bytes, uint64_t number, int count)
{
    for (int place = 0; place < count; place++)
        bytes[place] = (uint8_t)(number >> 8 * place);
}

static int put_answer(kieferntuch_answer answer)
{
    uint8_t bytes[ANSWER];
    number_to(bytes, answer.number, 4);
    number_to(bytes + 4, answer.names, 4);
    number_to(bytes + 8, answer.mark, 4);
    number_to(bytes + 12, answer.value, 4);
    return put(bytes, ANSWER);
}

static int put_ran(const kieferntuch_ran *ran)
{
    uint8_t bytes[RAN];
    number_to(bytes, ran->number, 4);
    number_to(bytes + 4, ran->names, 4);
    number_to(bytes + 8, ran->mark, 4);
    number_to(bytes + 12, ran->value, 4);
    for (size_t place = 0; place < WORST; place++)
        number_to(bytes + ANSWER + 4 * place, ran->worst[place], 4);
    number_to(bytes + RAN - 3 * NUMBER, ran->jobs, NUMBER);
    number_to(bytes + RAN - 2 * NUMBER, ran->run, NUMBER);
    number_to(bytes + RAN - NUMBER, ran->owed, NUMBER);
    return put(bytes, RAN);
}

/* Takes a length and as many bytes, or a length of 0 for a null pointer; to be freed in any case. */
static int take_lent(lent *lent, int null)
{
    lent->bytes = NULL;
    if (take_number(&lent->length) != GOOD)
        return BROKEN;
    if (null)
        return lent->length == 0 ? GOOD : BROKEN;
    lent->bytes = malloc(lent->length);
    if (lent->bytes == NULL && lent->length > 0)
        return FAILED;
    return take(lent->bytes, lent->length) == (ptrdiff_t)lent->length ? GOOD : BROKEN;
}

/* The rest of a request to plan, and its answer. */
static int serve_plan(const lent *table, int null_sheet)
{
    size_t at;
    lent sheet;
    if (take_number(&at) != GOOD)
        return BROKEN;
    int status = take_lent(&sheet, null_sheet);
    if (status == GOOD)
        status = put_answer(kieferntuch_plan(table->bytes, table->length, at, sheet.bytes, sheet.length));
    if (status == GOOD)
        status = put(sheet.bytes, sheet.length);
    free(sheet.bytes);
    return status;
}

/* Takes arrivals, which a request has as x86-64 has them in memory; to be freed in any case. */
static int take_arrivals(run_request *request, int null)
{
    request->arrivals = NULL;
    if (take_number(&request->arrival_count) != GOOD)
        return BROKEN;
    if (null)
        return request->arrival_count == 0 ? GOOD : BROKEN;
    size_t size = request->arrival_count * sizeof *request->arrivals;
    request->arrivals = malloc(size);
    if (request->arrivals == NULL && size > 0)
        return FAILED;
    return take((uint8_t *)request->arrivals, size) == (ptrdiff_t)size ? GOOD : BROKEN;
}

/* Makes a trace of the length that is taken, and fills it and what is behind it; to be freed in any
   case. */
static int take_trace(lent *trace, int null)
{
    uint8_t fill;
    trace->bytes = NULL;
    if (take_number(&trace->length) != GOOD || take(&fill, 1) != 1)
        return BROKEN;
    if (null)
        return trace->length == 0 ? GOOD : BROKEN;
    trace->bytes = malloc(trace->length + GUARD);
    if (trace->bytes == NULL)
        return FAILED;
    for (size_t place = 0; place < trace->length + GUARD; place++)
        trace->bytes[place] = (uint8_t)(fill + FILL_STEP * place);
    return GOOD;
}

static int run_and_put(const lent *table, const run_request *request)
{
    const lent *trace = &request->trace;
    kieferntuch_ran ran = kieferntuch_run(table->bytes, table->length, request->arrivals, request->arrival_count,
                                          request->from, request->ticks, trace->bytes, trace->length);
    if (put_ran(&ran) != GOOD)
        return FAILED;
    return trace->bytes == NULL ? GOOD : put(trace->bytes, trace->length + GUARD);
}

/* The rest of a request to run, and its answer. */
static int serve_run(const lent *table, uint8_t flags)
{
    run_request request = {.trace = {.bytes = NULL}};
    int status = take_arrivals(&request, flags & NULL_ARRIVALS);
    if (status == GOOD && (take_number(&request.from) != GOOD || take_number(&request.ticks) != GOOD))
        status = BROKEN;
    if (status == GOOD)
        status = take_trace(&request.trace, flags & NULL_OUT);
    if (status == GOOD)
        status = run_and_put(table, &request);
    free(request.arrivals);
    free(request.trace.bytes);
    return status;
}

/* Calls the function that has this name, if there is one, and answers. */
static int call(uint8_t function, uint8_t flags, const lent *table)
{
    if (function == 'r' && (flags & ~NULL_TABLE) == 0)
        return put_answer(kieferntuch_read(table->bytes, table->length));
    if (function == 'p' && (flags & NULL_ARRIVALS) == 0)
        return serve_plan(table, flags & NULL_OUT);
    if (function == 'u')
        return serve_run(table, flags);
    return BROKEN;
}

static int serve(const uint8_t *header)
{
    uint8_t function = header[0];
    uint8_t flags = header[1];
    lent table;
    if (flags > (NULL_TABLE | NULL_OUT | NULL_ARRIVALS))
        return BROKEN;
    int status = take_lent(&table, flags & NULL_TABLE);
    if (status == GOOD)
        status = call(function, flags, &table);
    free(table.bytes);
    return status;
}

int main(void)
{
    for (;;) {
        uint8_t header[HEADER];
        ptrdiff_t taken = take(header, HEADER);
        if (taken == 0)
            return GOOD;
        int status = taken == HEADER ? serve(header) : BROKEN;
        if (status != GOOD)
            return status;
    }
}
