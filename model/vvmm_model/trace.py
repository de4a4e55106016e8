"""A guest's steps, one line each: what it did, and what that changed."""

from .decoding import decode_bytes
from .dis import REGISTERS, field, instruction_text
from .kinds import FAULT, IDLE, INTERRUPT, MODIFY, PLAIN, SENSITIVE, STOPPED
from .translation import Beyond, Fault, walk

WORD = 0xFFFFFFFF
# the names of the kinds, by their numbers
NAMES = {
    PLAIN: "plain",
    SENSITIVE: "sensitive",
    FAULT: "fault",
    INTERRUPT: "interrupt",
    MODIFY: "modify",
    IDLE: "idle",
    STOPPED: "stopped",
}
MODES = "KESU"
# no instruction is longer
MOST_BYTES = 21


def one_line(guest, number: int) -> bytes:
    pc, psl, registers = guest.r[15], guest.psl, guest.r[:15]
    text = spelled(guest)
    told = len(guest.shown)
    guest.vector = guest.marked = None
    kind = STOPPED if guest.halt is not None else guest.step()
    guest.kinds[kind] += 1
    if kind in (STOPPED, INTERRUPT, IDLE):
        text = "-"
    words = []
    if guest.vector is not None and kind != SENSITIVE:
        words.append("VECTOR=%03X" % guest.vector)
    if guest.marked is not None:
        words.append("PAGE=%08X" % guest.marked)
    for name, old, new in zip(REGISTERS, registers, guest.r):
        if old != new:
            words.append("%s=%08X" % (name, new))
    if guest.psl != psl:
        words.append("PSL=%08X" % guest.psl)
    if len(guest.shown) > told:
        words.append("OUT=" + guest.shown[told:].hex().upper())
    line = "%6d %-9s %s %08X %s" % (number, NAMES[kind], MODES[psl >> 24 & 3], pc, text)
    if words:
        line = "%-60s %s" % (line, " ".join(words))
    return line.encode() + b"\n"


def spelled(guest) -> str:
    """What `dis` shows first of the bytes that can be read from the PC on."""
    data = bytearray()
    try:
        for k in range(MOST_BYTES):
            data.append(guest.memory[walk(guest, guest.r[15] + k & WORD, guest.mode, False)[0]])
    except (Beyond, Fault):
        pass
    if not data:
        return "-"
    decoded = decode_bytes(bytes(data))
    return ".byte " + field(data[0], 1) if decoded is None else instruction_text(decoded)
