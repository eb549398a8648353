"""The proved compiler and simulator for chess-clock hubs, for Python on x86-64 Linux.

    import hub
    answer = hub.run_text("x0 := x1 + 3 @16", [0, 5])
    answer.ended, answer.instant, answer.words[0]    # True, 17, 8

It loads libhub.so, which HUB_LIBRARY names or which './hub install PREFIX' puts into
PREFIX/lib. A call that the product refuses raises Refused, with the refusal's number and
place. docs/LIBRARY.md tells what each call lends and answers.
"""

import ctypes
import os
import re
from collections import namedtuple

# The functions of the library, as bindings/src/exports.rs has them: &[..] is a list that is
# read, &mut [..] one that is written, ?[..] one that need not be given.
EXPORTS = """
hub_check(table: ?[u8], procedures: usize, pulse: u8, program: &[u8], reply: &mut [u8])
hub_compile(table: ?[u8], procedures: usize, pulse: u8, program: &[u8], file: &mut [u8], reply: &mut [u8])
hub_join(table: ?[u8], lengths: &[u32], pulses: &[u8], parts: &[u8], file: &mut [u8], reply: &mut [u8])
hub_read_text(table: ?[u8], procedures: usize, pulse: u8, text: &[u8], program: &mut [u8], reply: &mut [u8])
hub_compile_text(table: ?[u8], procedures: usize, pulse: u8, text: &[u8], file: &mut [u8], reply: &mut [u8])
hub_write(pulse: u8, cells: &[u8], finish: u16, file: &mut [u8], reply: &mut [u8])
hub_read(file: &[u8], cells: &mut [u8], reply: &mut [u8])
hub_begin(netlist: &[u8], words: &[u8], state: &mut [u8], reply: &mut [u8])
hub_begin_compact(netlist: &[u8], words: &[u8], state: &mut [u8], reply: &mut [u8])
hub_continue(netlist: &[u8], state: &mut [u8], n: u32, reply: &mut [u8])
hub_continue_compact(netlist: &[u8], state: &mut [u8], n: u32, reply: &mut [u8])
hub_start(netlist: &[u8], state: &mut [u8], reply: &mut [u8])
hub_start_compact(netlist: &[u8], state: &mut [u8], reply: &mut [u8])
hub_run_program(table: ?[u8], procedures: usize, pulse: u8, program: &[u8], words: &[u8], budget: u32, netlist: &mut [u8], state: &mut [u8], reply: &mut [u8])
hub_run_text(table: ?[u8], procedures: usize, pulse: u8, text: &[u8], words: &[u8], budget: u32, netlist: &mut [u8], state: &mut [u8], reply: &mut [u8])
hub_run_netlist(netlist: &[u8], words: &[u8], budget: u32, state: &mut [u8], reply: &mut [u8])
hub_slow_run(table: ?[u8], procedures: usize, program: &[u8], words: &[u8], budget: u32, values: &mut [u8], work: &mut [u8], reply: &mut [u8])
hub_reference(table: ?[u8], procedures: usize, pulse: u8, program: &[u8], words: &[u8], budget: u32, reply: &mut [u8])
hub_check_functional(table: ?[u8], program: &[u8], reply: &mut [u8])
hub_compile_functional(table: ?[u8], program: &[u8], file: &mut [u8], reply: &mut [u8])
hub_reference_functional(table: ?[u8], program: &[u8], words: &[u8], budget: u32, reply: &mut [u8])
hub_begin_functional(netlist: &[u8], words: &[u8], state: &mut [u8], reply: &mut [u8])
hub_begin_functional_compact(netlist: &[u8], words: &[u8], state: &mut [u8], reply: &mut [u8])
hub_continue_functional(netlist: &[u8], state: &mut [u8], n: u32, reply: &mut [u8])
hub_continue_functional_compact(netlist: &[u8], state: &mut [u8], n: u32, reply: &mut [u8])
hub_start_functional(netlist: &[u8], state: &mut [u8], reply: &mut [u8])
hub_start_functional_compact(netlist: &[u8], state: &mut [u8], reply: &mut [u8])
hub_run_functional(netlist: &[u8], words: &[u8], budget: u32, state: &mut [u8], reply: &mut [u8])
hub_run_functional_program(table: ?[u8], program: &[u8], words: &[u8], budget: u32, netlist: &mut [u8], state: &mut [u8], reply: &mut [u8])
hub_check_cells(cells: &[Cell], finish: u16, reply: &mut [u8])
hub_write_cells(pulse: u8, cells: &[Cell], finish: u16, file: &mut [u8], reply: &mut [u8])
hub_read_cells(file: &[u8], at: usize, cells: &mut [Cell], reply: &mut [u8])
hub_renumber(cells: &mut [u8], from: usize, end: usize, by: u16)
"""

# Sizes, in bytes where nothing else is said, as bindings/values/src/layout.rs has them.
TEXT = 4096
NODE = 4
PROGRAM = 800
PROCEDURES = 8
TABLE = 512
WORDS = 544
ELEMENTS = 512
PULSE = 8
INSTANT = 1000000
STACK = 131072
BLOCK = 512
BLOCK_HEADER = 8
BLOCK_CELLS = 84
CELL = 6
CELLS = 16384
IMPERATIVE_CELLS = 1024
FUNCTIONAL_CELLS = 7140
STATE_HEADER = 8
FULL_CELL = 40
COMPACT_CELL = 8
REPLY = 48

# The kinds of replies.
DONE, ENDED, OPEN, REFUSED = range(4)


class Cell(ctypes.Structure):
    """A cell of a netlist."""

    _fields_ = [
        ("kind", ctypes.c_uint8),
        ("delay", ctypes.c_uint8),
        ("a", ctypes.c_uint16),
        ("b", ctypes.c_uint16),
    ]


class Reply(ctypes.Structure):
    """The 48 bytes of a reply."""

    _fields_ = [
        ("kind", ctypes.c_uint8),
        ("number", ctypes.c_uint8),
        ("zero", ctypes.c_uint16),
        ("place", ctypes.c_uint32),
        ("first", ctypes.c_uint32),
        ("second", ctypes.c_uint32),
        ("words", ctypes.c_uint16 * 16),
    ]


class Refused(Exception):
    """The product refuses what it is given: the refusal's number, and its place from 0."""

    def __init__(self, number, place):
        super().__init__(f"refused {number} at {place}")
        self.number = number
        self.place = place


# How a run stands: whether the finish wire is high at the instant, the instants that the call
# has evaluated, and the words of the sixteen variables.
Answer = namedtuple("Answer", "ended instant count words")

# If it is set, it is called with the name of each function and its reply.
told = None

# The library ---------------------------------------------------------------------------------

_NUMBERS = {
    "u8": ctypes.c_uint8,
    "u16": ctypes.c_uint16,
    "u32": ctypes.c_uint32,
    "usize": ctypes.c_size_t,
}


def _opened():
    """The library, with the types of its functions."""
    here = os.path.dirname(os.path.abspath(__file__))
    beside = os.path.join(here, "../../../lib/libhub.so")
    name = os.environ.get("HUB_LIBRARY") or (beside if os.path.exists(beside) else "libhub.so")
    library = ctypes.CDLL(name)
    rows = {}
    for row in EXPORTS.split("\n"):
        if row:
            name, given = re.fullmatch(r"(\w+)\((.*)\)", row).groups()
            rows[name] = [part.split(": ")[1] for part in given.split(", ")]
            function = getattr(library, name)
            function.restype = ctypes.c_bool
            function.argtypes = [kind for part in rows[name] for kind in _types(part)]
    return library, rows


def _types(part):
    """The types of an argument: a list is a pointer and a number of elements."""
    if part in _NUMBERS:
        return [_NUMBERS[part]]
    flag = [ctypes.c_bool] if part.startswith("?") else []
    return flag + [ctypes.c_void_p, ctypes.c_size_t]


def _passed(part, given):
    """What is passed for an argument. What is read is copied, so that no lists overlap."""
    if part in _NUMBERS:
        kind = _NUMBERS[part]
        if not 0 <= given < 256 ** ctypes.sizeof(kind):
            raise ValueError(f"{given} is no number of {ctypes.sizeof(kind)} bytes")
        return [given]
    if part == "?[u8]":
        return [given is not None] + _passed("&[u8]", given or b"")
    if part == "&[u8]":
        return [ctypes.create_string_buffer(bytes(given), len(given)), len(given)]
    if part == "&mut [u8]":
        return [(ctypes.c_uint8 * len(given)).from_buffer(given), len(given)]
    # A list of numbers or of cells.
    if part == "&[u32]":
        given = (ctypes.c_uint32 * len(given))(*given)
    if part == "&[Cell]":
        given = (Cell * len(given))(*given)
    return [given, len(given)]


_library, _rows = _opened()


def call(name, *given):
    """Calls a function with its arguments but for the reply, and gives the reply. A list that
    is written is a bytearray or an array of Cell. hub_renumber, which has no reply, gives
    whether it was done."""
    row = _rows[name]
    reply = Reply()
    replies = row[-1] == "&mut [u8]" and len(row) == len(given) + 1
    passed = [word for part, word in zip(row, given) for word in _passed(part, word)]
    if replies:
        passed += [ctypes.byref(reply), REPLY]
    done = getattr(_library, name)(*passed)
    if told:
        told(name, reply if replies else done)
    if not replies:
        return done
    if not done:
        raise AssertionError("48 bytes are enough for a reply")
    if reply.kind == REFUSED:
        raise Refused(reply.number, reply.place)
    return reply


# Sizes of results ----------------------------------------------------------------------------


def netlist_length(cells):
    """The bytes of the netlist file of so many cells."""
    return (cells + BLOCK_CELLS - 1) // BLOCK_CELLS * BLOCK


def state_length(cells, compact=False):
    """The bytes of the state of so many cells."""
    return STATE_HEADER + (COMPACT_CELL if compact else FULL_CELL) * cells + ELEMENTS


def values_length(cells):
    """The bytes of the values that a slow run of so many cells shows."""
    return 2 * cells


def work_length(cells):
    """The bytes that a slow run of so many cells is lent to work in."""
    return 512 * (2 * cells + 1)


def cells_in(netlist):
    """The number of cells that the header of a netlist file tells."""
    return netlist[2] + 256 * netlist[3] if len(netlist) >= 4 else 0


def start_words(words):
    """The bytes of start words: sixteen variables and four arrays of 64. Numbers below 0 count
    from 65,536 down, and those that aren't given are 0."""
    if isinstance(words, (bytes, bytearray)):
        return words
    given = b"".join((word % 65536).to_bytes(2, "little") for word in words)
    return given.ljust(WORDS, b"\0")


# Programs and texts --------------------------------------------------------------------------


def _text(text):
    return text.encode() if isinstance(text, str) else text


def _answer(reply):
    return Answer(reply.kind == ENDED, reply.first, reply.second, list(reply.words))


def _written(name, room, *given):
    """The bytes that a call writes; how many they are is the first number of its reply."""
    room = bytearray(room)
    reply = call(name, *given, room)
    return bytes(room[: reply.first])


def check(program, table=None, procedures=0, pulse=1, functional=False):
    """Checks a program's bytes."""
    if functional:
        call("hub_check_functional", table, program)
    else:
        call("hub_check", table, procedures, pulse, program)


def compile(program, table=None, procedures=0, pulse=1, functional=False):
    """The netlist file of a program."""
    room = netlist_length(CELLS)
    if functional:
        return _written("hub_compile_functional", room, table, program)
    return _written("hub_compile", room, table, procedures, pulse, program)


def join(parts, table=None, pulse=1):
    """The netlist file of the sequence of two to eight programs that were compiled one by one,
    from these programs and their netlist files, a pair for each part."""
    listed = [piece for part in parts for piece in part]
    lengths, pulses = [len(piece) for piece in listed], bytes([pulse] * len(parts))
    given = [table, lengths, pulses, b"".join(listed)]
    return _written("hub_join", netlist_length(IMPERATIVE_CELLS), *given)


def read_text(text, table=None, procedures=0, pulse=1):
    """The bytes of the program that a text stands for."""
    return _written("hub_read_text", PROGRAM, table, procedures, pulse, _text(text))


def compile_text(text, table=None, procedures=0, pulse=1):
    """The netlist file of a text's program."""
    room = netlist_length(CELLS)
    return _written("hub_compile_text", room, table, procedures, pulse, _text(text))


def _rooms():
    return bytearray(netlist_length(CELLS)), bytearray(state_length(CELLS))


def run_program(
    program, words=(), budget=INSTANT, table=None, procedures=0, pulse=1, functional=False
):
    """A full run of a program on its circuit."""
    words = start_words(words)
    if functional:
        name, given = "hub_run_functional_program", [table, program]
    else:
        name, given = "hub_run_program", [table, procedures, pulse, program]
    return _answer(call(name, *given, words, budget, *_rooms()))


def run_text(text, words=(), budget=INSTANT, table=None, procedures=0, pulse=1):
    """A full run of a text's program on its circuit."""
    given = [table, procedures, pulse, _text(text), start_words(words), budget]
    return _answer(call("hub_run_text", *given, *_rooms()))


def slow_run(program, words=(), budget=INSTANT, table=None, procedures=0):
    """A full run of a program in which operators take their time, with pulses of one instant:
    how it stands, and every cell's value at its last instant, two bytes each, in room for the
    largest program."""
    values = bytearray(values_length(IMPERATIVE_CELLS))
    work = bytearray(work_length(IMPERATIVE_CELLS))
    given = [table, procedures, program, start_words(words), budget]
    return _answer(call("hub_slow_run", *given, values, work)), values


def reference(
    program, words=(), budget=INSTANT, table=None, procedures=0, pulse=1, functional=False
):
    """How a program ends by its own rules, without a circuit; an open answer has no words."""
    words = start_words(words)
    if functional:
        return _answer(call("hub_reference_functional", table, program, words, budget))
    given = [table, procedures, pulse, program, words, budget]
    return _answer(call("hub_reference", *given))


# Netlists ------------------------------------------------------------------------------------


def write(cells, finish, pulse=1):
    """The netlist file of cells, as six bytes each or as a list of Cell."""
    if isinstance(cells, (bytes, bytearray)):
        room = netlist_length(len(cells) // CELL)
        return _written("hub_write", room, pulse, cells, finish)
    return _written("hub_write_cells", netlist_length(len(cells)), pulse, cells, finish)


def read(netlist):
    """The cells of a netlist file, six bytes each, and its finish cell."""
    cells = bytearray(CELL * cells_in(netlist))
    reply = call("hub_read", netlist, cells)
    return bytes(cells), reply.second


def check_cells(cells, finish):
    """Checks a list of Cell."""
    call("hub_check_cells", cells, finish)


def read_cells(netlist, before=()):
    """The cells of a netlist file behind others, renumbered, and its finish cell."""
    cells = (Cell * (len(before) + cells_in(netlist)))(*before)
    reply = call("hub_read_cells", netlist, len(before), cells)
    return list(cells), reply.second


def renumber(cells, first, end, by):
    """Moves the inputs of the cells from one number up to another, of six bytes each in a
    bytearray, so many places on. Tells whether the list has them."""
    return call("hub_renumber", cells, first, end, by)


# Runs ----------------------------------------------------------------------------------------


def _of(name, functional, compact):
    return name + "_functional" * functional + "_compact" * compact


def begin(netlist, words=(), compact=False, functional=False):
    """Begins a run: its state at instant 0, as a bytearray, and how it stands."""
    state = bytearray(state_length(cells_in(netlist), compact))
    name = _of("hub_begin", functional, compact)
    return state, _answer(call(name, netlist, start_words(words), state))


def continue_by(netlist, state, n, compact=False, functional=False):
    """Continues a run by at most n instants, until the finish wire is high."""
    name = _of("hub_continue", functional, compact)
    return _answer(call(name, netlist, state, n))


def start(netlist, state, compact=False, functional=False):
    """Gives an idle hub a second start pulse at the next instant."""
    return _answer(call(_of("hub_start", functional, compact), netlist, state))


def run_netlist(netlist, words=(), budget=INSTANT, functional=False):
    """A full run of a netlist."""
    name = "hub_run_functional" if functional else "hub_run_netlist"
    state = bytearray(state_length(cells_in(netlist)))
    return _answer(call(name, netlist, start_words(words), budget, state))
