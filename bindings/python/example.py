"""Uses every call of hub.py on two boards whose clocks are counted down, and tells what each
answers and writes. bindings/c/example.c does the same, and prints the same lines."""

import hub

TWO_BOARDS = "while x0 @1 do x0 := x0 - 1 @17 end || while x1 @1 do x1 := x1 - 1 @17 end"
# A loop that is left at once, as nodes: no functional circuit has one.
LEFT_LOOP = bytes([25, 1, 0, 0, 26, 0, 0, 0])
WORDS = [3, 5]


def tell(call, reply):
    """Tells what a call answers."""
    if isinstance(reply, bool):
        print(f"{call}: {int(reply)}")
    elif reply.kind == hub.DONE:
        print(f"{call}: done, {reply.first} and {reply.second}")
    elif reply.kind == hub.REFUSED:
        print(f"{call}: refused {reply.number} at {reply.place}")
    else:
        how = "ended" if reply.kind == hub.ENDED else "open"
        x0, x1 = reply.words[:2]
        print(f"{call}: {how} at {reply.first}, {reply.second} evaluated, x0 = {x0}, x1 = {x1}")


def show(name, listed):
    """Tells a list by its length and a sum of its bytes (FNV-1a of 32 bits)."""
    total = 2166136261
    for byte in listed:
        total = (total ^ byte) * 16777619 % 2**32
    print(f"  {name}: {len(listed)} bytes, sum {total:08x}")


def refused(function, *given, **options):
    """Makes a call that is refused."""
    try:
        function(*given, **options)
    except hub.Refused:
        return
    raise AssertionError("it isn't refused")


def read_text(text):
    program = hub.read_text(text)
    show("program", program)
    return program


def programs():
    program = read_text(TWO_BOARDS)
    hub.check(program)
    refused(hub.check, program, pulse=9)
    refused(hub.check, program, table=program)
    netlist = hub.compile(program)
    show("netlist", netlist)
    refused(hub.compile_text, TWO_BOARDS, pulse=2)
    netlist = hub.compile_text(TWO_BOARDS)
    show("netlist", netlist)
    hub.run_program(program, WORDS, 1000)
    hub.run_text(TWO_BOARDS, WORDS, 1000)
    _, values = hub.slow_run(program, WORDS, 1000)
    show("values", values[: hub.values_length(hub.cells_in(netlist))])
    hub.reference(program, WORDS, 1000)
    hub.reference(program, WORDS, 95)
    join(program, netlist)
    return netlist


def join(program, netlist):
    """The program twice, one after the other, as two clubs that have compiled it would join it;
    one part alone is refused."""
    show("netlist", hub.join([(program, netlist), (program, netlist)]))
    refused(hub.join, [(program, netlist)])


def netlists(netlist):
    cells, finish = hub.read(netlist)
    show("cells", cells)
    show("netlist", hub.write(cells, finish))
    listed, _ = hub.read_cells(netlist)
    hub.check_cells(listed, finish)
    refused(hub.check_cells, listed, len(listed))
    show("netlist", hub.write(listed, finish))
    both, _ = hub.read_cells(netlist, before=listed)
    show("cells", b"".join(map(bytes, both)))
    moved = bytearray(cells)
    hub.renumber(moved, 0, len(listed), len(listed))
    show("cells", moved)
    hub.renumber(moved, 0, len(listed) + 1, len(listed))


def runs(netlist):
    state = bytearray(hub.state_length(hub.cells_in(netlist)))
    hub.call("hub_run_netlist", netlist, hub.start_words(WORDS), 1000, state)
    show("state", state)
    state, _ = hub.begin(netlist, WORDS)
    hub.continue_by(netlist, state, 50)
    refused(hub.start, netlist, state)
    hub.continue_by(netlist, state, 50)
    show("state", state)
    hub.start(netlist, state)
    state, _ = hub.begin(netlist, WORDS, compact=True)
    hub.continue_by(netlist, state, 96, compact=True)
    show("state", state)
    hub.start(netlist, state, compact=True)


def functional_programs():
    program = read_text(TWO_BOARDS)
    refused(hub.check, LEFT_LOOP, functional=True)
    hub.check(program, functional=True)
    hub.run_program(program, WORDS, 1000, functional=True)
    hub.reference(program, WORDS, 1000, functional=True)
    netlist = hub.compile(program, functional=True)
    show("netlist", netlist)
    return netlist


def functional_runs(netlist):
    state = bytearray(hub.state_length(hub.cells_in(netlist)))
    hub.call("hub_run_functional", netlist, hub.start_words(WORDS), 1000, state)
    show("state", state)
    state, _ = hub.begin(netlist, WORDS, functional=True)
    hub.continue_by(netlist, state, 1000, functional=True)
    hub.start(netlist, state, functional=True)
    state, _ = hub.begin(netlist, WORDS, compact=True, functional=True)
    hub.continue_by(netlist, state, 1000, compact=True, functional=True)
    show("state", state)
    hub.start(netlist, state, compact=True, functional=True)


hub.told = tell
compiled = programs()
netlists(compiled)
runs(compiled)
functional_runs(functional_programs())
