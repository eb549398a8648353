/* Uses every call of hub.h on two boards whose clocks are counted down, and tells what each answers and writes. bindings/python/example.py does the same,
 * and prints the same lines.
 *
 *     cc -o example example.c $(pkg-config --cflags --libs hub)
 */
#include "hub.h"
#include <stdio.h>
#include <stdlib.h>
#include <string.h>

static const char TWO_BOARDS[] = "while x0 @1 do x0 := x0 - 1 @17 end || while x1 @1 do x1 := x1 - 1 @17 end";

/* A loop that is left at once, as nodes: no functional circuit has one. */
static const uint8_t LEFT_LOOP[] = {25, 1, 0, 0, 26, 0, 0, 0};

_Static_assert(sizeof(struct hub_reply) == HUB_REPLY && sizeof(struct hub_cell) == HUB_CELL, "as the archive has them");

static struct hub_reply reply;

/* Calls a function with its arguments but for the reply, and tells what it answers. */
#define CALL(call, ...) tell(#call, call(__VA_ARGS__, &reply, sizeof reply))

static void tell(const char *call, bool room)
{
    if (!room) {
        printf("%s: no room for a reply\n", call);
        exit(1);
    }
    switch (reply.kind) {
    case HUB_DONE:
        printf("%s: done, %u and %u\n", call, reply.length, reply.finish);
        break;
    case HUB_REFUSED:
        printf("%s: refused %u at %u\n", call, reply.number, reply.place);
        break;
    default:
        printf("%s: %s at %u, %u evaluated, x0 = %u, x1 = %u\n", call, reply.kind == HUB_ENDED ? "ended" : "open", reply.instant, reply.count,
               reply.words[0], reply.words[1]);
    }
}

/* Tells a list by its length and a sum of its bytes (FNV-1a of 32 bits). */
static void show(const char *name, const void *list, size_t length)
{
    const uint8_t *bytes = list;
    uint32_t sum = 2166136261u;
    for (size_t i = 0; i < length; i++) sum = (sum ^ bytes[i]) * 16777619u;
    printf("  %s: %zu bytes, sum %08x\n", name, length, sum);
}

/* What the calls are lent: room for every result. */
static uint8_t program[HUB_PROGRAM];
static uint8_t netlist[HUB_NETLIST(HUB_FUNCTIONAL_CELLS)];
static uint8_t again[HUB_NETLIST(HUB_FUNCTIONAL_CELLS)];
static uint8_t state[HUB_STATE(HUB_FUNCTIONAL_CELLS)];
static uint8_t values[HUB_VALUES(HUB_IMPERATIVE_CELLS)];
static uint8_t work[HUB_WORK(HUB_IMPERATIVE_CELLS)];
static uint8_t parts[2 * (HUB_PROGRAM + HUB_NETLIST(HUB_IMPERATIVE_CELLS))];
static uint8_t bytes[HUB_CELL * HUB_IMPERATIVE_CELLS];
static struct hub_cell cells[HUB_IMPERATIVE_CELLS];
static uint8_t words[HUB_WORDS] = {3, 0, 5, 0};

/* The bytes of a text's program. */
static size_t read_text(const char *text)
{
    CALL(hub_read_text, false, NULL, 0, 0, 1, (const uint8_t *)text, strlen(text), program, sizeof program);
    show("program", program, reply.length);
    return reply.length;
}

/* The program twice, one after the other, as two clubs that have compiled it would join it; one part alone is refused. */
static void join(size_t length)
{
    size_t size = HUB_NETLIST(HUB_CELLS_IN(netlist));
    uint32_t lengths[] = {(uint32_t)length, (uint32_t)size, (uint32_t)length, (uint32_t)size};
    uint8_t pulses[] = {1, 1};
    for (size_t i = 0; i < 2; i++) {
        memcpy(parts + i * (length + size), program, length);
        memcpy(parts + i * (length + size) + length, netlist, size);
    }
    CALL(hub_join, false, NULL, 0, lengths, 4, pulses, 2, parts, 2 * (length + size), again, sizeof again);
    show("netlist", again, reply.length);
    CALL(hub_join, false, NULL, 0, lengths, 2, pulses, 1, parts, length + size, again, sizeof again);
}

static void programs(void)
{
    const uint8_t *text = (const uint8_t *)TWO_BOARDS;
    size_t text_length = strlen(TWO_BOARDS), length = read_text(TWO_BOARDS);
    CALL(hub_check, false, NULL, 0, 0, 1, program, length);
    CALL(hub_check, false, NULL, 0, 0, 9, program, length);
    CALL(hub_check, true, program, length, 0, 1, program, length);
    CALL(hub_compile, false, NULL, 0, 0, 1, program, length, netlist, sizeof netlist);
    show("netlist", netlist, reply.length);
    CALL(hub_compile_text, false, NULL, 0, 0, 2, text, text_length, netlist, sizeof netlist);
    CALL(hub_compile_text, false, NULL, 0, 0, 1, text, text_length, netlist, sizeof netlist);
    show("netlist", netlist, reply.length);
    CALL(hub_run_program, false, NULL, 0, 0, 1, program, length, words, sizeof words, 1000, netlist, sizeof netlist, state, sizeof state);
    CALL(hub_run_text, false, NULL, 0, 0, 1, text, text_length, words, sizeof words, 1000, netlist, sizeof netlist, state, sizeof state);
    CALL(hub_slow_run, false, NULL, 0, 0, program, length, words, sizeof words, 1000, values, sizeof values, work, sizeof work);
    show("values", values, HUB_VALUES(HUB_CELLS_IN(netlist)));
    CALL(hub_reference, false, NULL, 0, 0, 1, program, length, words, sizeof words, 1000);
    CALL(hub_reference, false, NULL, 0, 0, 1, program, length, words, sizeof words, 95);
    join(length);
}

static void netlists(size_t length)
{
    size_t count = HUB_CELLS_IN(netlist);
    CALL(hub_read, netlist, length, bytes, HUB_CELL * count);
    show("cells", bytes, HUB_CELL * count);
    uint16_t finish = reply.finish;
    CALL(hub_write, 1, bytes, HUB_CELL * count, finish, again, sizeof again);
    show("netlist", again, reply.length);
    CALL(hub_read_cells, netlist, length, 0, cells, count);
    CALL(hub_check_cells, cells, count, finish);
    CALL(hub_check_cells, cells, count, (uint16_t)count);
    CALL(hub_write_cells, 1, cells, count, finish, again, sizeof again);
    show("netlist", again, reply.length);
    CALL(hub_read_cells, netlist, length, count, cells, 2 * count);
    show("cells", cells, 2 * HUB_CELL * count);
    printf("hub_renumber: %d\n", hub_renumber(bytes, HUB_CELL * count, 0, count, (uint16_t)count));
    show("cells", bytes, HUB_CELL * count);
    printf("hub_renumber: %d\n", hub_renumber(bytes, HUB_CELL * count, 0, count + 1, (uint16_t)count));
}

static void runs(size_t length)
{
    size_t full = HUB_STATE(HUB_CELLS_IN(netlist)), compact = HUB_COMPACT_STATE(HUB_CELLS_IN(netlist));
    CALL(hub_run_netlist, netlist, length, words, sizeof words, 1000, state, full);
    show("state", state, full);
    CALL(hub_begin, netlist, length, words, sizeof words, state, full);
    CALL(hub_continue, netlist, length, state, full, 50);
    CALL(hub_start, netlist, length, state, full);
    CALL(hub_continue, netlist, length, state, full, 50);
    show("state", state, full);
    CALL(hub_start, netlist, length, state, full);
    CALL(hub_begin_compact, netlist, length, words, sizeof words, state, compact);
    CALL(hub_continue_compact, netlist, length, state, compact, 96);
    show("state", state, compact);
    CALL(hub_start_compact, netlist, length, state, compact);
}

static void functional_programs(void)
{
    size_t length = read_text(TWO_BOARDS);
    CALL(hub_check_functional, false, NULL, 0, LEFT_LOOP, sizeof LEFT_LOOP);
    CALL(hub_check_functional, false, NULL, 0, program, length);
    CALL(hub_run_functional_program, false, NULL, 0, program, length, words, sizeof words, 1000, netlist, sizeof netlist, state, sizeof state);
    CALL(hub_reference_functional, false, NULL, 0, program, length, words, sizeof words, 1000);
    CALL(hub_compile_functional, false, NULL, 0, program, length, netlist, sizeof netlist);
    show("netlist", netlist, reply.length);
}

static void functional_runs(size_t length)
{
    size_t full = HUB_STATE(HUB_CELLS_IN(netlist)), compact = HUB_COMPACT_STATE(HUB_CELLS_IN(netlist));
    CALL(hub_run_functional, netlist, length, words, sizeof words, 1000, state, full);
    show("state", state, full);
    CALL(hub_begin_functional, netlist, length, words, sizeof words, state, full);
    CALL(hub_continue_functional, netlist, length, state, full, 1000);
    CALL(hub_start_functional, netlist, length, state, full);
    CALL(hub_begin_functional_compact, netlist, length, words, sizeof words, state, compact);
    CALL(hub_continue_functional_compact, netlist, length, state, compact, 1000);
    show("state", state, compact);
    CALL(hub_start_functional_compact, netlist, length, state, compact);
}

int main(void)
{
    programs();
    netlists(HUB_NETLIST(HUB_CELLS_IN(netlist)));
    runs(HUB_NETLIST(HUB_CELLS_IN(netlist)));
    functional_programs();
    functional_runs(HUB_NETLIST(HUB_CELLS_IN(netlist)));
    return 0;
}
