"""The workload that is drawn from a number: eight guests of four levels of secrecy, in 20 rounds."""

from dataclasses import dataclass

from .classes import AccessClass, class_of
from .config import Audit, Config, GuestRow, Mount, Printer, Terminal, Volume
from .script import Event

GUESTS, QUANTUM, ROUNDS = 8, 5_000, 20
PERIOD_PLACE = 0x7B

# What each guest runs: it builds tables, turns mapping on, runs a clock, reads and writes volumes, changes a page
# table entry, prints a character and waits. At 7B stands 65,536 less the clock's period, which differs by guest.
PROGRAM = bytes.fromhex(
    """
    D0 8F 00 00 00 A4 51 D0 8F 00 40 00 00 52
    D0 51 62 CB 8F 00 00 00 04 51 C2 00 02 C0 04 52
    D6 51 D1 51 8F 80 00 00 A4 12 E5
    D0 8F 28 03 00 80 9F C0 44 00 00
    D0 8F 28 03 00 80 9F 00 45 00 00
    DA 8F 00 40 00 00 0C DA 8F 80 00 00 00 0D
    DA 8F 00 42 00 80 08 DA 8F 80 00 00 00 09
    DA 8F 00 44 00 00 11 DA 8F 00 30 00 80 00
    DA 01 38 D0 8F 00 38 00 80 5E DD 00 9F AF 01 02
    DA 8F 00 00 FF FF 19 DA 8F 51 00 00 00 18
    D0 01 9F 00 50 00 00 D4 9F 04 50 00 00
    D0 56 9F 08 50 00 00 D0 8F 00 60 00 00 9F 0C 50 00 00
    DA 8F 00 50 00 00 8F C8 00 00 00
    D4 50 D0 8F 00 60 00 00 51 C0 81 50 CC 50 57
    D0 57 C1 FC 0F D1 51 8F 00 62 00 00 12 EC
    CB 8F E0 FF FF FF 50 58 C0 8F 40 00 00 00 58 DA 58 23
    D0 02 9F 20 50 00 00 D0 01 9F 24 50 00 00
    D0 56 9F 28 50 00 00 D0 8F 00 70 00 00 9F 2C 50 00 00
    DA 8F 20 50 00 00 8F C8 00 00 00
    D6 56 CA 8F F8 FF FF FF 56 CC 01 9F 00 43 00 00
    D6 9F 00 80 00 00 FD 01 31 61 FF 01 01
    DA 8F C1 00 00 00 18 02
    """
)


class Draws:
    """A linear congruential generator, of which each draw is the upper half."""

    def __init__(self, number: int):
        self.x = number

    def draw(self) -> int:
        self.x = (self.x * 1664525 + 1013904223) % 2**32
        return self.x // 65_536


@dataclass
class Workload:
    config: Config
    images: list
    volumes: list
    events: list
    rounds: int


def workload(number: int) -> Workload:
    draws = Draws(number)
    slice_steps = 1 + draws.draw() % 1_000
    periods = [600 + draws.draw() % 1_000 for _ in range(GUESTS)]
    shared = bytes(draws.draw() % 256 for _ in range(4_096))
    events = [drawn_event(draws, round_number) for round_number in range(1, ROUNDS + 1)]
    blocks = [shared[place : place + 512] for place in range(0, 4_096, 512)]
    return Workload(
        config=configuration(slice_steps),
        images=[image(period) for period in periods],
        volumes=[blocks] + [[bytes(512)] * 8 for _ in range(GUESTS)],
        events=events,
        rounds=ROUNDS,
    )


def drawn_event(draws: Draws, round_number: int) -> Event:
    digit = draws.draw() % 8
    texts = [None, b"SHOW", b"MOUNT G%d 2 V0 READ" % digit, b"HELLO"]
    return Event(round_number, "T%d" % digit, texts[draws.draw() % 4])


def image(period: int) -> bytes:
    return PROGRAM[:PERIOD_PLACE] + (65_536 - period).to_bytes(2, "little") + PROGRAM[PERIOD_PLACE + 2 :]


def configuration(slice_steps: int) -> Config:
    access = [AccessClass(g % 4, frozenset([g % 3]), 0, frozenset()) for g in range(GUESTS)]
    return Config(
        slice=slice_steps,
        audit=Audit(24, class_of("15{0,1,2};0{}")),
        terminals=[Terminal("T%d" % g, g, access[g]) for g in range(GUESTS)],
        volumes=[Volume("V0", 0, 8, class_of("0{};0{}"))]
        + [Volume("W%d" % g, 1 + g, 8, access[g]) for g in range(GUESTS)],
        printers=[Printer("P%d" % g, 8 + g, access[g]) for g in range(GUESTS)],
        guests=[
            GuestRow(
                name="G%d" % g,
                access=access[g],
                pages=128,
                image="IMAGE%d" % g,
                load=0x200,
                start=0x200,
                autostart=True,
                console=g,
                printer=g,
                dump=16 + g,
                mounts=[Mount(0, False), Mount(1 + g, True), None, None],
                modify_faults=False,
                quantum=QUANTUM,
            )
            for g in range(GUESTS)
        ],
    )
