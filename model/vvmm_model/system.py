"""All guests together: a round's events, steps and transfers, and what each line and volume gets.

What is shown is kept here as a list of puts for each line; who fails to take them changes nothing here.
"""

from .audit import audit_text
from .config import Config
from .guest import Guest
from .server import OK, ServerState, change_mounts, connect, listing, verdict
from .transfers import print_job, transfer

COMMANDED = 0x02
LINES = 32


class System:
    def __init__(self, config: Config, images: list, volumes: list):
        """`images` are one for each guest, `volumes` one list of blocks for each volume."""
        self.config = config
        self.volumes = [list(blocks) for blocks in volumes]
        self.server = ServerState.of(config)
        self.puts = [[] for _ in range(LINES)]
        self.round = 0
        self.guests = []
        for row, image in zip(config.guests, images):
            guest = Guest(row.pages, row.start, row.modify_faults)
            guest.memory[row.load : row.load + len(image)] = image
            guest.halt = None if row.autostart else 0
            self.guests.append(guest)

    def put(self, line: int, data: bytes) -> None:
        self.puts[line].append(data)

    def make_round(self, events: list) -> None:
        """A round: its events in order, then each guest's steps, then the transfers."""
        self.round += 1
        for event in events:
            self.happen(event)
        for number, (guest, row) in enumerate(zip(self.guests, self.config.guests)):
            guest.advance(row.quantum)
            self.show_console(number)
        for number in range(len(self.guests)):
            self.make_transfers(number)

    def show_console(self, number: int) -> None:
        """What a guest showed goes byte by byte to the terminal that it is connected to, if there is one."""
        shown = self.guests[number].shown
        if shown and number in self.server.at:
            line = self.config.terminals[self.server.at.index(number)].line
            self.puts[line].extend(shown[k : k + 1] for k in range(len(shown)))
        shown.clear()

    def make_transfers(self, number: int) -> None:
        row = self.config.guests[number]

        def print_line(text: bytes) -> None:
            if row.printer is not None:
                self.put(self.config.printers[row.printer].line, print_job(row.access, row.name, text))

        transfer(self.guests[number], self.server.mounts[number], self.volumes, print_line)

    def happen(self, event) -> None:
        names = [terminal.name for terminal in self.config.terminals]
        if event.terminal not in names:
            return
        terminal = names.index(event.terminal)
        if event.text is None:
            self.server.at[terminal] = None
            self.reply(terminal, "SERVER")
        elif self.server.at[terminal] is not None:
            self.guests[self.server.at[terminal]].type_line(event.text)
        else:
            self.command(terminal, event.text)

    def reply(self, terminal: int, text: str) -> None:
        self.put(self.config.terminals[terminal].line, text.encode() + b"\r\n")

    def command(self, terminal: int, text: bytes) -> None:
        judged = verdict(self.config, self.server, terminal, text)
        taken = self.grant(terminal, judged) if judged.reply == OK else None
        self.reply(terminal, judged.reply)
        if taken is not None:
            self.reply(taken, "CONSOLE TAKEN")
        if self.config.audit:
            row = self.config.terminals[terminal]
            self.put(self.config.audit.line, audit_text(self.round, row, judged.reply, text))

    def grant(self, terminal: int, granted):
        """Does a granted command; the terminal whose console was taken, if one was."""
        if granted.verb == "CONNECT":
            return connect(self.server, terminal, granted.guest)
        if granted.verb == "START":
            self.guests[granted.guest].reset()
        elif granted.verb == "HALT":
            self.halt_guest(granted.guest)
        elif granted.verb == "SHOW":
            running = lambda number: self.guests[number].halt is None
            for line in listing(self.config, terminal, running):
                self.reply(terminal, line)
        change_mounts(self.server, granted)

    def halt_guest(self, number: int) -> None:
        if self.guests[number].halt is None:
            self.guests[number].stop(COMMANDED)
            self.show_console(number)

    def dumps(self) -> dict:
        """For each line that has a dump the dump's puts."""
        pairs = zip(self.config.guests, self.guests)
        return {row.dump: dump(row.name, guest) for row, guest in pairs if row.dump is not None}

    def counts(self) -> tuple:
        """The sums of all guests' steps by their kinds, and the trail."""
        kinds = [sum(guest.kinds[kind] for guest in self.guests) for kind in range(7)]
        return kinds, sum(guest.trail for guest in self.guests) % 2**64


def dump(name: str, guest) -> list:
    lines = ["VM " + name]
    lines += ["R%d %08X" % (number, value) for number, value in enumerate(guest.r)]
    lines.append("PSL %08X" % guest.psl)
    for place in range(0, guest.size, 16):
        row = guest.memory[place : place + 16]
        if any(row):
            lines.append("%08X " % place + row.hex(" ").upper())
    return [line.encode() + b"\r\n" for line in lines]


def run(config: Config, images: list, volumes: list, events: list, rounds: int) -> System:
    system = System(config, images, volumes)
    make_rounds(system, events, rounds)
    return system


def make_rounds(system: System, events: list, rounds: int) -> None:
    """The next rounds, each with the events of its number; events of other rounds never happen."""
    by_round = {}
    for event in events:
        by_round.setdefault(event.round, []).append(event)
    for _ in range(rounds):
        system.make_round(by_round.get(system.round + 1, []))


def summary(system: System, rounds: int) -> bytes:
    kinds, trail = system.counts()
    text = "rounds %d steps %d plain %d sensitive %d faults %d interrupts %d modify %d idle %d stopped %d trail %016X\n"
    return (text % (rounds, sum(kinds), *kinds, trail)).encode()
