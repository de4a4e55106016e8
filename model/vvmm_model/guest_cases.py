"""Case files of one guest (docs/CASES.md, "Cases of a guest"), played by the model."""

import os
import re

from .guest import Guest
from .kinds import STOPPED

PAGES, PAGES_OF_MACHINE, START = 64, 16, 0x200
KINDS = ("plain", "sensitive", "fault", "interrupt", "modify", "idle", "stopped")
NAMES = ("Psl", "P0br", "P0lr", "P1br", "P1lr", "Sbr", "Slr", "Mapen", "Pcbb", "Scbb", "Astlvl", "Sisr", "Nicr", "Iccs")
NAMES += ("Icr", "ClockDue", "Rxcs", "RxDue", "Txcs", "TxDue", "Typed", "KcallDue", "Packets", "Waits", "IsStopped")
NAMES += ("StopCode", "Steps", "ModifyFaults")
UNMAPPED = (("Scbb", 0x4400), ("Psl", 0), ("Stack0", 0x3000), ("R14", 0x3000))
MAPPED = (("Mapen", 1), ("P0br", 0x80004200), ("P0lr", PAGES), ("Sbr", 0x4000), ("Slr", PAGES))
MAPPED += (("Stack0", 0x80003000), ("R14", 0x80003000))
MACHINE = (("Mapen", 1), ("P0br", 0x80000080), ("P0lr", 16), ("P1br", 0x7F800110), ("P1lr", 0x1FFFFC), ("Slr", 16))
MACHINE += (("Psl", 0x03C00000),)


class Case:
    """What the lines of a group and of a case say."""

    def __init__(self, lines: list):
        self.ground = "unmapped"
        self.code = self.shown = b""
        self.before, self.after = [], []
        self.kinds = [1, 0, 0, 0, 0, 0, 0]
        self.ends = "budget"
        self.vmpsl = 0x03C00000
        self.withs = [[]]
        for line in lines:
            word, _, rest = line.partition(" ")
            getattr(self, "take_" + word)(rest)

    def take_on(self, text: str) -> None:
        self.ground = text

    def take_ends(self, text: str) -> None:
        self.ends = text

    def take_vmpsl(self, text: str) -> None:
        self.vmpsl = int(text, 16)

    def take_misses(self, text: str) -> None:
        """What the machine missed is nothing of the guest's."""

    def value(self, name: str, value: int) -> int:
        """What a place has for the guest: above its status word the PSL of a virtual machine is VMPSL."""
        return self.vmpsl & ~0xFF | value & 0xFF if self.ground == "machine" and name == "Psl" else value

    def is_plain(self) -> bool:
        """Whether only plain instructions retire, so that the machine does what the guest does."""
        return self.ends == "budget" and self.kinds[0] == sum(self.kinds)

    def take_code(self, text: str) -> None:
        self.code += bytes.fromhex(text)

    def take_before(self, text: str) -> None:
        self.before += values_in(text.split(" "))

    def take_after(self, text: str) -> None:
        self.after += values_in(text.split(" "))

    def take_with(self, text: str) -> None:
        self.withs = [values_in(word.split(",")) for word in text.split(" ")]

    def take_steps(self, text: str) -> None:
        self.kinds = [0] * 7
        for kind, count in re.findall("([a-z]+)(?: ([0-9]+))?", text):
            self.kinds[KINDS.index(kind)] = int(count or "1")

    def take_shown(self, text: str) -> None:
        mark, _, text = text.partition(" ")
        self.shown += bytes.fromhex(text) if mark == "#" else text.encode() + (b"\r\n" if mark == "/" else b"")


def values_in(words: list) -> list:
    return [(name, int(value, 16)) for name, value in (word.split("=") for word in words)]


def put(g: Guest, name: str, value: int) -> None:
    """Puts a register or a longword before the steps: what a program writes of the clock and the console, as it does."""
    number = re.fullmatch("(R|Stack|Packet)([0-9]+)", name)
    if number and number[1] == "Packet":
        g.queue.append(value)
    elif number:
        (g.r if number[1] == "R" else g.stacks)[int(number[2])] = value
    elif name in PUTS:
        PUTS[name](g, value)
    elif name in NAMES:
        setattr(g, name.lower(), value)
    else:
        g.memory[int(name, 16) : int(name, 16) + 4] = value.to_bytes(4, "little")


PUTS = {
    "Psl": lambda g, value: g.set_psl(value),
    "Mapen": lambda g, value: setattr(g, "mapen", value == 1),
    "Nicr": lambda g, value: setattr(g.clock, "nicr", value),
    "Iccs": lambda g, value: g.clock.write_iccs(value),
    "Rxcs": lambda g, value: g.console.write_rxcs(value),
    "Txcs": lambda g, value: g.console.write_txcs(value),
    "Typed": lambda g, value: g.console.type_byte(value),
    "ClockDue": lambda g, value: setattr(g.clock, "request", False),
    "RxDue": lambda g, value: setattr(g.console, "receive_request", False),
    "TxDue": lambda g, value: g.console.sent() if value else setattr(g.console, "transmit_request", False),
    "KcallDue": lambda g, value: setattr(g, "kcall_due", value == 1),
    "Waits": lambda g, value: setattr(g, "waiting", value == 1),
    "ModifyFaults": lambda g, value: setattr(g, "modify_faults", value == 1),
}


def registers(g: Guest) -> dict:
    """All registers of a guest, by their names."""
    clock, console = g.clock, g.console
    found = {"R%d" % k: value for k, value in enumerate(g.r)}
    found |= {"Stack%d" % k: value for k, value in enumerate(g.stacks)}
    found |= {"Packet%d" % k: value for k, value in enumerate(g.queue + [0] * (8 - len(g.queue)))}
    found |= {name: getattr(g, name.lower()) for name in NAMES if hasattr(g, name.lower())}
    found |= {"Nicr": clock.nicr, "Iccs": clock.iccs, "Icr": clock.icr, "ClockDue": clock.request}
    found |= {"Rxcs": console.read_rxcs(), "RxDue": console.receive_request}
    found |= {"Txcs": console.read_txcs(), "TxDue": console.transmit_request}
    found |= {"Typed": len(console.waiting), "KcallDue": g.kcall_due, "Packets": len(g.queue), "Waits": g.waiting}
    found |= {"IsStopped": g.halt is not None, "StopCode": g.halt or 0, "ModifyFaults": g.modify_faults}
    return {name: int(value) for name, value in found.items()}


def put_tables(g: Guest, ground: str) -> None:
    """What is there where nothing is said of it."""
    if ground == "machine":
        rising(g, 0, 16, 0xA4000000, 1)
        rising(g, 0x80, 16, 0xA4000000, 1)
        rising(g, 0x100, 4, 0xA4000008, 1)
    if ground == "mapped":
        rising(g, 0x4000, PAGES, 0xA4000000, 1)
        rising(g, 0x4200, PAGES, 0xA4000000, 1)
        rising(g, 0x4400, 128, 0x80001000, 0)
    if ground == "unmapped":
        rising(g, 0x4400, 128, 0x1000, 0)
    grounds = {"unmapped": UNMAPPED, "mapped": UNMAPPED + MAPPED, "starting": (), "machine": MACHINE}
    for name, value in grounds[ground]:
        put(g, name, value)


def rising(g: Guest, place: int, count: int, first: int, by: int) -> None:
    for k in range(count):
        put(g, "%X" % (place + 4 * k), first + k * by)


def guest_of(case: Case, more: list) -> Guest:
    """The guest before the steps."""
    g = Guest(PAGES_OF_MACHINE if case.ground == "machine" else PAGES, START, False)
    g.halt = None
    put_tables(g, case.ground)
    g.memory[START : START + len(case.code)] = case.code
    for name, value in case.before + more:
        put(g, name, case.value(name, value))
    return g


def differences_of(case: Case, more: list) -> list:
    """What is otherwise than a case says, with values that are there before besides."""
    g = guest_of(case, more)
    memory, typed = bytearray(g.memory), list(g.console.waiting)
    wanted = registers(g)
    wanted["Steps"] += sum(case.kinds) - case.kinds[STOPPED]
    for name, value in case.after:
        if name in wanted:
            wanted[name] = case.value(name, value)
        else:
            memory[int(name, 16) : int(name, 16) + 4] = value.to_bytes(4, "little")
    typed = typed[len(typed) - wanted["Typed"] :]
    g.advance(sum(case.kinds))
    found = registers(g)
    told = ["%s is %X, not %X" % (name, found[name], wanted[name]) for name in wanted if found[name] != wanted[name]]
    if g.memory != memory:
        told.append("the byte at %X" % next(k for k in range(len(memory)) if g.memory[k] != memory[k]))
    for what, one, other in (("kinds", g.kinds, case.kinds), ("shown", g.shown, case.shown), ("typed", g.console.waiting, typed)):
        if one != other:
            told.append("%s: %r, not %r" % (what, one, other))
    return told


def cases_of(path: str):
    """The titles of a file's cases, and what is said of each."""
    group, name, cases = [], "", []
    with open(path, encoding="utf-8") as file:
        lines = [line.rstrip("\n").split(" ;")[0].rstrip() for line in file]
    for line in lines:
        word, _, rest = line.partition(" ")
        if word == "group":
            group, name, cases = [], rest, cases + [None]
        elif word == "case":
            cases.append((name + ", " + rest, list(group)))
        elif word not in ("", ";"):
            (cases[-1][1] if cases and cases[-1] else group).append(line)
    return [case for case in cases if case]


def check_guest_cases(folder: str, name: str) -> list:
    """The titles of a file's cases, each with what differs. Of the machine alone the plain ones are played."""
    results = []
    for title, lines in cases_of(os.path.join(folder, name)):
        case = Case(lines)
        if case.ground == "machine" and not case.is_plain():
            continue
        results.append((title, [told for more in case.withs for told in differences_of(case, more)]))
    return results
