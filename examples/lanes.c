/* Plans three tasks on three processors, runs them with two arrivals, and prints what each processor
   does in each tick, and the worst responses beside their bounds.

       gcc examples/lanes.c -Iinclude target/staticlib/libkieferntuch.a -o lanes && ./lanes */

#include <stdio.h>

#include "kieferntuch.h"

enum { ROWS = 3, PROCESSORS = 3, TICKS = 12 };

/* Under PCP; each row's period, stage one, section, stage two, and the resource of its section. */
static const uint8_t table[] = {
    0x06, 0x30,                                                       /* 3 rows, 3 processors */
    0x00, 0x00, 0xa0, 0x00, 0x01, 0x00, 0x00, 0x20, 0x00, 0x01, 0x08, /* 10, 1, 2, 1, resource 1 */
    0x00, 0x01, 0x40, 0x00, 0x02, 0x00, 0x00, 0x30, 0x00, 0x02, 0x08, /* 20, 2, 3, 2, resource 1 */
    0x00, 0x02, 0x80, 0x00, 0x04, 0x00, 0x00, 0x50, 0x00, 0x04, 0x10, /* 40, 4, 5, 4, resource 2 */
};

/* Each arrival's tick, its row, and the actual lengths of stage one, section and stage two. */
static const kieferntuch_arrival arrivals[] = {{0, 2, 2, 3, 2}, {4, 1, 1, 2, 1}};

static int print_refused(uint32_t number, uint32_t names, uint32_t mark, uint32_t value)
{
    printf("refused %u %u %u %u\n", number, names, mark, value);
    return 1;
}

static void print_ticks(void)
{
    printf("tick        ");
    for (unsigned tick = 0; tick < TICKS; tick++)
        printf("%4u", tick);
    printf("\n");
}

/* A column a tick: the row, and a for its stage one, x for its section, b for its stage two; or a dot. */
static void print_lane(const uint8_t *trace, unsigned processor)
{
    printf("processor %-2u", processor);
    for (unsigned tick = 0; tick < TICKS; tick++) {
        uint8_t byte = trace[PROCESSORS * tick + processor - 1];
        unsigned kind = byte >> 6;
        if (kind == 0)
            printf("   .");
        else
            printf("%3u%c", (byte & 63u) + 1, " axb"[kind]);
    }
    printf("\n");
}

static void print_lanes(const uint8_t *trace)
{
    print_ticks();
    for (unsigned processor = 1; processor <= PROCESSORS; processor++)
        print_lane(trace, processor);
}

/* The number that stands in `width` bits from bit `from` on, the most significant bit first. */
static uint32_t field(const uint8_t *bytes, size_t from, size_t width)
{
    uint32_t value = 0;
    for (size_t bit = from; bit < from + width; bit++)
        value = value << 1 | (bytes[bit / 8] >> (7 - bit % 8) & 1u);
    return value;
}

/* A row of the plan has 9 bytes behind the plan's first 12: processor (5 bits), D1, S and D2 (20 each). */
static void print_task(const uint8_t *plan, const kieferntuch_ran *ran, unsigned row)
{
    const uint8_t *bounds = plan + 12 + 9 * (row - 1);
    const uint32_t *worst = ran->worst + 3 * (row - 1);
    printf("task %u worst %u %u %u bounds %u %u %u\n", row, worst[0], worst[1], worst[2], field(bounds, 5, 20),
           field(bounds, 25, 20), field(bounds, 45, 20));
}

static void print_answer(const uint8_t *plan, const kieferntuch_ran *ran)
{
    for (unsigned row = 1; row <= ROWS; row++)
        print_task(plan, ran, row);
    printf("jobs %llu\n", (unsigned long long)ran->jobs);
    printf("run %llu\n", (unsigned long long)ran->run);
    printf("owed %llu\n", (unsigned long long)ran->owed);
}

int main(void)
{
    uint8_t plan[12 + 9 * ROWS];
    kieferntuch_answer planned = kieferntuch_plan(table, sizeof table, 0, plan, sizeof plan);
    if (planned.number != 0)
        return print_refused(planned.number, planned.names, planned.mark, planned.value);

    uint8_t trace[PROCESSORS * TICKS];
    size_t count = sizeof arrivals / sizeof arrivals[0];
    kieferntuch_ran ran = kieferntuch_run(table, sizeof table, arrivals, count, 0, TICKS, trace, sizeof trace);
    if (ran.number != 0)
        return print_refused(ran.number, ran.names, ran.mark, ran.value);

    print_lanes(trace);
    print_answer(plan, &ran);
    return 0;
}
