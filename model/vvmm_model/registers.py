"""The internal processor registers that MTPR writes and MFPR reads."""

from .exceptions import current_stack
from .translation import Fault

RESERVED_OPERAND = 0x18
PACKET_BYTES = 24
LONGEST_QUEUE = 8
BUSY = 2

any_value = lambda g, value: True
multiple_of_4 = lambda g, value: value % 4 == 0
zero_to = lambda largest: lambda g, value: value <= largest


def is_p0_base(g, value: int) -> bool:
    return value % 4 == 0 and value >> 30 == 2


def is_p1_length(g, value: int) -> bool:
    return 2_088_960 <= value <= 2_097_152


def is_packet(g, value: int) -> bool:
    return value % 4 == 0 and value + PACKET_BYTES <= g.size


def setter(name: str):
    return lambda g, value: setattr(g, name, value)


def write_stack(number: int):
    def write(g, value):
        if number == current_stack(g):
            g.r[14] = value
        else:
            g.stacks[number] = value

    return write


def write_ipl(g, value: int) -> None:
    g.set_psl(g.psl & ~(31 << 16) | (value & 31) << 16)


def request_software(g, value: int) -> None:
    if value:
        g.sisr |= 1 << value


def write_transmitted(g, value: int) -> None:
    g.show(bytes([value & 0xFF]))
    g.console.sent()


def write_map_enable(g, value: int) -> None:
    g.mapen = bool(value)


def queue_packet(g, value: int) -> None:
    """Queues a packet for the round's end; where eight wait the packet's status says so at once."""
    if len(g.queue) == LONGEST_QUEUE:
        g.longs[value + 20 >> 2] = BUSY
    else:
        g.queue.append(value)


# number to (whether a value may be written, what writing does)
WRITES = {
    **{number: (any_value, write_stack(number)) for number in range(5)},
    8: (is_p0_base, setter("p0br")),
    9: (zero_to(8192), setter("p0lr")),
    10: (multiple_of_4, setter("p1br")),
    11: (is_p1_length, setter("p1lr")),
    12: (multiple_of_4, setter("sbr")),
    13: (zero_to(8192), setter("slr")),
    16: (multiple_of_4, setter("pcbb")),
    17: (lambda g, value: value % 512 == 0, setter("scbb")),
    18: (any_value, write_ipl),
    19: (zero_to(4), setter("astlvl")),
    20: (zero_to(15), request_software),
    21: (lambda g, value: not value & ~0xFFFE, setter("sisr")),
    24: (any_value, lambda g, value: g.clock.write_iccs(value)),
    25: (any_value, lambda g, value: setattr(g.clock, "nicr", value)),
    32: (any_value, lambda g, value: g.console.write_rxcs(value)),
    34: (any_value, lambda g, value: g.console.write_txcs(value)),
    35: (any_value, write_transmitted),
    56: (zero_to(1), write_map_enable),
    57: (any_value, lambda g, value: None),
    58: (any_value, lambda g, value: None),
    200: (is_packet, queue_packet),
}


def read_stack(number: int):
    """The stack in use is R14, as the operands' side effects leave it."""
    return lambda g: g.work[14] if number == current_stack(g) else g.stacks[number]


def getter(name: str):
    return lambda g: getattr(g, name)


READS = {
    **{number: read_stack(number) for number in range(5)},
    8: getter("p0br"),
    9: getter("p0lr"),
    10: getter("p1br"),
    11: getter("p1lr"),
    12: getter("sbr"),
    13: getter("slr"),
    16: getter("pcbb"),
    17: getter("scbb"),
    18: lambda g: g.psl >> 16 & 31,
    19: getter("astlvl"),
    21: getter("sisr"),
    24: lambda g: g.clock.iccs,
    26: lambda g: g.clock.icr,
    32: lambda g: g.console.read_rxcs(),
    33: lambda g: g.console.read_rxdb(),
    34: lambda g: g.console.read_txcs(),
    56: lambda g: int(g.mapen),
    62: lambda g: 0x56000001,
    201: getter("size"),
    202: getter("steps"),
}


def check_write(g, number: int, value: int) -> None:
    if number not in WRITES or not WRITES[number][0](g, value):
        raise Fault(RESERVED_OPERAND)


def write(g, number: int, value: int) -> None:
    WRITES[number][1](g, value)


def check_read(number: int) -> None:
    if number not in READS:
        raise Fault(RESERVED_OPERAND)
