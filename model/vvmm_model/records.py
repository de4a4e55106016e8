"""A guest's record in a snapshot: all that it is but its memory, in 439 bytes."""

from .clock import ENABLE, ERROR, INTERRUPT, RUN
from .console import MOST_WAITING
from .registers import LONGEST_QUEUE, is_p0_base, is_p1_length, is_packet
from .sensitive import MUST_BE_ZERO

RUNNING = 0xFF
STOP_CODES = {0x00, 0x02, 0x04, 0x06, 0x07, 0x0A, 0x10}
CLOCK_BITS = RUN | ENABLE | INTERRUPT | ERROR


def longs(*numbers: int) -> bytes:
    return b"".join(number.to_bytes(4, "little") for number in numbers)


def guest_record(g) -> bytes:
    clock, console = g.clock, g.console
    data = longs(*g.r, g.psl, *g.stacks, g.p0br, g.p0lr, g.p1br, g.p1lr, g.sbr, g.slr, g.pcbb, g.scbb)
    data += bytes([g.astlvl]) + g.sisr.to_bytes(2, "little") + bytes([g.mapen])
    data += longs(clock.iccs, clock.nicr, clock.icr) + bytes([clock.request])
    data += bytes([console.receive_enable, console.transmit_enable])
    data += bytes([console.receive_request, console.transmit_request])
    data += len(console.waiting).to_bytes(2, "little") + bytes(console.waiting).ljust(MOST_WAITING, b"\0")
    data += bytes([g.kcall_due, len(g.queue)]) + longs(*g.queue).ljust(4 * LONGEST_QUEUE, b"\0")
    data += bytes([g.waiting, RUNNING if g.halt is None else g.halt]) + longs(g.steps)
    return data


def read_record(reader, g) -> None:
    """Makes the guest what a record says, where each value is one that it can have."""
    multiple_of = lambda size: lambda number: number % size == 0
    at_most = lambda largest: lambda number: number <= largest
    g.r = [reader.number(4) for _ in range(16)]
    g.set_psl(reader.number(4, lambda number: not number & MUST_BE_ZERO))
    g.stacks = [reader.number(4) for _ in range(5)]
    g.p0br = reader.number(4, lambda number: number == 0 or is_p0_base(g, number))
    g.p0lr = reader.number(4, at_most(8192))
    g.p1br = reader.number(4, multiple_of(4))
    g.p1lr = reader.number(4, lambda number: is_p1_length(g, number))
    g.sbr = reader.number(4, multiple_of(4))
    g.slr = reader.number(4, at_most(8192))
    g.pcbb = reader.number(4, multiple_of(4))
    g.scbb = reader.number(4, multiple_of(512))
    g.astlvl = reader.number(1, at_most(4))
    g.sisr = reader.number(2, multiple_of(2))
    g.mapen = reader.flag()
    read_clock(reader, g.clock)
    read_console(reader, g.console)
    g.kcall_due = reader.flag()
    count = reader.number(1, at_most(LONGEST_QUEUE))
    g.queue = [reader.number(4, lambda number: is_packet(g, number)) for _ in range(count)]
    for _ in range(LONGEST_QUEUE - count):
        reader.number(4, lambda number: number == 0)
    g.waiting = reader.flag()
    code = reader.number(1, lambda number: number == RUNNING or number in STOP_CODES)
    g.halt = None if code == RUNNING else code
    g.steps = reader.number(4)


def read_clock(reader, clock) -> None:
    clock.iccs = reader.number(4, lambda number: not number & ~CLOCK_BITS)
    clock.nicr = reader.number(4)
    clock.icr = reader.number(4)
    clock.request = reader.flag(lambda flag: not flag or bool(clock.iccs & ENABLE))


def read_console(reader, console) -> None:
    console.receive_enable = reader.flag()
    console.transmit_enable = reader.flag()
    console.receive_request = reader.flag(lambda flag: not flag or console.receive_enable)
    console.transmit_request = reader.flag(lambda flag: not flag or console.transmit_enable)
    least = 1 if console.receive_request else 0
    count = reader.number(2, lambda number: least <= number <= MOST_WAITING)
    waiting = reader.bytes(MOST_WAITING, lambda data: not any(data[count:]))
    console.waiting = list(waiting[:count])
