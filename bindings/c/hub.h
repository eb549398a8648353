/* hub.h: the proved compiler and simulator for chess-clock hubs, for C and C++ on x86-64 Linux. Link libhub.a, which asks for memcpy, memmove and memset
 * and for nothing else. docs/LIBRARY.md tells each call in words.
 *
 * A list is a pointer and a number of elements. A call reads what is const, and writes where it isn't; bytes past a result keep their values, and a
 * refused call writes nothing but the reply (after refusal 26 a state is that of the last good instant). There are three things that a caller owes:
 * - the lists of a call don't overlap, and each has as many elements as is said;
 * - a bool is 0 or 1, as every bool in C and C++ is;
 * - there are HUB_STACK bytes of stack.
 * Everything else may be any bytes and numbers: what isn't good is refused. No call keeps anything, allocates, or prints, so that calls may run side by
 * side on lists of their own.
 */
#ifndef HUB_H
#define HUB_H

#include <stdbool.h>
#include <stddef.h>
#include <stdint.h>

#ifdef __cplusplus
extern "C" {
#endif

/* Sizes, in bytes where nothing else is said ---------------------------------------------------------------------------------------------------- */

#define HUB_TEXT 4096      /* the most of a text */
#define HUB_NODE 4         /* a node of a program: kind, delay, n low, n high */
#define HUB_PROGRAM 800    /* the most of a program: 200 nodes */
#define HUB_PROCEDURES 8   /* the most procedures before a main program */
#define HUB_TABLE 512      /* a table of operator times */
#define HUB_WORDS 544      /* start words: sixteen variables and four arrays of 64, two bytes each */
#define HUB_ELEMENTS 512   /* those of the arrays among them */
#define HUB_PULSE 8        /* the longest pulse, in instants */
#define HUB_INSTANT 1000000 /* the last instant of a run, and the largest budget */
#define HUB_STACK 131072   /* stack that is enough for every call */

#define HUB_BLOCK 512      /* a block of a netlist file: a header and cells */
#define HUB_BLOCK_HEADER 8
#define HUB_BLOCK_CELLS 84
#define HUB_CELL 6         /* a cell of a netlist */
#define HUB_CELLS 16384    /* the most cells of a netlist */
#define HUB_IMPERATIVE_CELLS 1024 /* no program's imperative circuit has more */
#define HUB_FUNCTIONAL_CELLS 7140 /* no program's functional circuit has more */
#define HUB_STATE_HEADER 8
#define HUB_FULL_CELL 40   /* a cell in a full state */
#define HUB_COMPACT_CELL 8 /* and in a compact one */

/* The netlist file of n cells; its state, full and compact. */
#define HUB_NETLIST(n) (((size_t)(n) + HUB_BLOCK_CELLS - 1) / HUB_BLOCK_CELLS * HUB_BLOCK)
#define HUB_STATE(n) (HUB_STATE_HEADER + HUB_FULL_CELL * (size_t)(n) + HUB_ELEMENTS)
#define HUB_COMPACT_STATE(n) (HUB_STATE_HEADER + HUB_COMPACT_CELL * (size_t)(n) + HUB_ELEMENTS)

/* What a slow run of a program whose netlist has n cells is lent: every cell's value, and room to work in. */
#define HUB_VALUES(n) (2 * (size_t)(n))
#define HUB_WORK(n) (512 * (2 * (size_t)(n) + 1))

/* The number of cells, which the header of a netlist file tells. */
#define HUB_CELLS_IN(netlist) ((size_t)((netlist)[2] + 256 * (netlist)[3]))

/* A cell, in six bytes --------------------------------------------------------------------------------------------------------------------------- */

struct hub_cell {
    uint8_t kind;
    uint8_t delay;
    uint16_t a;
    uint16_t b;
};

/* A reply, in 48 bytes --------------------------------------------------------------------------------------------------------------------------- */

#define HUB_REPLY 48

enum hub_kind {
    HUB_DONE = 0,    /* accepted, or done */
    HUB_ENDED = 1,   /* the finish wire is high at the instant */
    HUB_OPEN = 2,    /* it isn't, up to the instant */
    HUB_REFUSED = 3
};

struct hub_reply {
    uint8_t kind;    /* an enum hub_kind */
    uint8_t number;  /* the refusal's number, else 0 */
    uint16_t zero;
    uint32_t place;  /* the refusal's place, counted from 0: a node, byte, block or cell */
    union {
        uint32_t length;  /* bytes written; where a netlist is read, its cells */
        uint32_t instant; /* of a run */
    };
    union {
        uint32_t finish; /* the finish cell of a netlist */
        uint32_t count;  /* the instants that a call has evaluated */
    };
    uint16_t words[16]; /* the variables, of a run */
};

/* A call answers whether there was room for the reply, HUB_REPLY bytes; where there was none, nothing is done. */

/* Programs and texts. Given beside them: whether there is a table of operator times, and the table; the number of procedures that the program begins
 * with, 0 where there are none; the pulse length, 1 to HUB_PULSE. --------------------------------------------------------------------------------- */

bool hub_check(
    bool timed, const uint8_t *table, size_t table_length, size_t procedures, uint8_t pulse,
    const uint8_t *program, size_t program_length,
    struct hub_reply *reply, size_t reply_length);

bool hub_compile(
    bool timed, const uint8_t *table, size_t table_length, size_t procedures, uint8_t pulse,
    const uint8_t *program, size_t program_length,
    uint8_t *netlist, size_t netlist_length,
    struct hub_reply *reply, size_t reply_length);

/* Joins two to eight programs without procedures that were compiled one by one to the netlist of their sequence. The parts stand one after another, each
 * a program and then its netlist; the lengths are those of these, in that order, and each part has its pulse length. */
bool hub_join(
    bool timed, const uint8_t *table, size_t table_length,
    const uint32_t *lengths, size_t lengths_count,
    const uint8_t *pulses, size_t pulses_count,
    const uint8_t *parts, size_t parts_length,
    uint8_t *netlist, size_t netlist_length,
    struct hub_reply *reply, size_t reply_length);

bool hub_run_program(
    bool timed, const uint8_t *table, size_t table_length, size_t procedures, uint8_t pulse,
    const uint8_t *program, size_t program_length,
    const uint8_t *words, size_t words_length,
    uint32_t budget,
    uint8_t *netlist, size_t netlist_length,
    uint8_t *state, size_t state_length,
    struct hub_reply *reply, size_t reply_length);

/* A full run in which operators take their time, with pulses of one instant: no pulse length is given. Lent are the cells' values at its last instant, two
 * bytes each, and room to work in, which is left 0. */
bool hub_slow_run(
    bool timed, const uint8_t *table, size_t table_length, size_t procedures,
    const uint8_t *program, size_t program_length,
    const uint8_t *words, size_t words_length,
    uint32_t budget,
    uint8_t *values, size_t values_length,
    uint8_t *work, size_t work_length,
    struct hub_reply *reply, size_t reply_length);

bool hub_reference(
    bool timed, const uint8_t *table, size_t table_length, size_t procedures, uint8_t pulse,
    const uint8_t *program, size_t program_length,
    const uint8_t *words, size_t words_length,
    uint32_t budget,
    struct hub_reply *reply, size_t reply_length);

bool hub_read_text(
    bool timed, const uint8_t *table, size_t table_length, size_t procedures, uint8_t pulse,
    const uint8_t *text, size_t text_length,
    uint8_t *program, size_t program_length,
    struct hub_reply *reply, size_t reply_length);

bool hub_compile_text(
    bool timed, const uint8_t *table, size_t table_length, size_t procedures, uint8_t pulse,
    const uint8_t *text, size_t text_length,
    uint8_t *netlist, size_t netlist_length,
    struct hub_reply *reply, size_t reply_length);

bool hub_run_text(
    bool timed, const uint8_t *table, size_t table_length, size_t procedures, uint8_t pulse,
    const uint8_t *text, size_t text_length,
    const uint8_t *words, size_t words_length,
    uint32_t budget,
    uint8_t *netlist, size_t netlist_length,
    uint8_t *state, size_t state_length,
    struct hub_reply *reply, size_t reply_length);

/* Netlists, as files and as cells ---------------------------------------------------------------------------------------------------------------- */

bool hub_write(
    uint8_t pulse,
    const uint8_t *cells, size_t cells_length,
    uint16_t finish,
    uint8_t *netlist, size_t netlist_length,
    struct hub_reply *reply, size_t reply_length);

bool hub_read(
    const uint8_t *netlist, size_t netlist_length,
    uint8_t *cells, size_t cells_length,
    struct hub_reply *reply, size_t reply_length);

bool hub_check_cells(
    const struct hub_cell *cells, size_t cells_count,
    uint16_t finish,
    struct hub_reply *reply, size_t reply_length);

bool hub_write_cells(
    uint8_t pulse,
    const struct hub_cell *cells, size_t cells_count,
    uint16_t finish,
    uint8_t *netlist, size_t netlist_length,
    struct hub_reply *reply, size_t reply_length);

bool hub_read_cells(
    const uint8_t *netlist, size_t netlist_length,
    size_t at,
    struct hub_cell *cells, size_t cells_count,
    struct hub_reply *reply, size_t reply_length);

/* Has no reply: answers whether the list has the cells from one number up to another, six bytes each, whose inputs it then moves on by so many places. */
bool hub_renumber(
    uint8_t *cells, size_t cells_length,
    size_t from, size_t end, uint16_t by);

/* Runs of a netlist, on a full state and on a compact one ------------------------------------------------------------------------------------------ */

bool hub_begin(
    const uint8_t *netlist, size_t netlist_length,
    const uint8_t *words, size_t words_length,
    uint8_t *state, size_t state_length,
    struct hub_reply *reply, size_t reply_length);

bool hub_begin_compact(
    const uint8_t *netlist, size_t netlist_length,
    const uint8_t *words, size_t words_length,
    uint8_t *state, size_t state_length,
    struct hub_reply *reply, size_t reply_length);

bool hub_continue(
    const uint8_t *netlist, size_t netlist_length,
    uint8_t *state, size_t state_length,
    uint32_t n,
    struct hub_reply *reply, size_t reply_length);

bool hub_continue_compact(
    const uint8_t *netlist, size_t netlist_length,
    uint8_t *state, size_t state_length,
    uint32_t n,
    struct hub_reply *reply, size_t reply_length);

bool hub_start(
    const uint8_t *netlist, size_t netlist_length,
    uint8_t *state, size_t state_length,
    struct hub_reply *reply, size_t reply_length);

bool hub_start_compact(
    const uint8_t *netlist, size_t netlist_length,
    uint8_t *state, size_t state_length,
    struct hub_reply *reply, size_t reply_length);

bool hub_run_netlist(
    const uint8_t *netlist, size_t netlist_length,
    const uint8_t *words, size_t words_length,
    uint32_t budget,
    uint8_t *state, size_t state_length,
    struct hub_reply *reply, size_t reply_length);

/* Functional circuits. Beside a program a table is given, and nothing else; the words of a run are the last sixteen cells'. ------------------------ */

bool hub_check_functional(
    bool timed, const uint8_t *table, size_t table_length,
    const uint8_t *program, size_t program_length,
    struct hub_reply *reply, size_t reply_length);

bool hub_compile_functional(
    bool timed, const uint8_t *table, size_t table_length,
    const uint8_t *program, size_t program_length,
    uint8_t *netlist, size_t netlist_length,
    struct hub_reply *reply, size_t reply_length);

bool hub_run_functional_program(
    bool timed, const uint8_t *table, size_t table_length,
    const uint8_t *program, size_t program_length,
    const uint8_t *words, size_t words_length,
    uint32_t budget,
    uint8_t *netlist, size_t netlist_length,
    uint8_t *state, size_t state_length,
    struct hub_reply *reply, size_t reply_length);

bool hub_reference_functional(
    bool timed, const uint8_t *table, size_t table_length,
    const uint8_t *program, size_t program_length,
    const uint8_t *words, size_t words_length,
    uint32_t budget,
    struct hub_reply *reply, size_t reply_length);

bool hub_begin_functional(
    const uint8_t *netlist, size_t netlist_length,
    const uint8_t *words, size_t words_length,
    uint8_t *state, size_t state_length,
    struct hub_reply *reply, size_t reply_length);

bool hub_begin_functional_compact(
    const uint8_t *netlist, size_t netlist_length,
    const uint8_t *words, size_t words_length,
    uint8_t *state, size_t state_length,
    struct hub_reply *reply, size_t reply_length);

bool hub_continue_functional(
    const uint8_t *netlist, size_t netlist_length,
    uint8_t *state, size_t state_length,
    uint32_t n,
    struct hub_reply *reply, size_t reply_length);

bool hub_continue_functional_compact(
    const uint8_t *netlist, size_t netlist_length,
    uint8_t *state, size_t state_length,
    uint32_t n,
    struct hub_reply *reply, size_t reply_length);

bool hub_start_functional(
    const uint8_t *netlist, size_t netlist_length,
    uint8_t *state, size_t state_length,
    struct hub_reply *reply, size_t reply_length);

bool hub_start_functional_compact(
    const uint8_t *netlist, size_t netlist_length,
    uint8_t *state, size_t state_length,
    struct hub_reply *reply, size_t reply_length);

bool hub_run_functional(
    const uint8_t *netlist, size_t netlist_length,
    const uint8_t *words, size_t words_length,
    uint32_t budget,
    uint8_t *state, size_t state_length,
    struct hub_reply *reply, size_t reply_length);

#ifdef __cplusplus
}
#endif

#endif
