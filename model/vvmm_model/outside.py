"""The outside as objects: a shelf of files, lines, drives and an output; here in memory, failing where asked to."""

from .texts import LARGEST_FILE

LONGEST_KEYS = 1_024


class Missing(Exception):
    """There is no file of this name."""


class TooLong(Exception):
    """A file has more bytes than one may have."""


class DeviceFault(Exception):
    """A device failed; a line or an output showed `taken` bytes before."""

    def __init__(self, taken: int = 0):
        super().__init__()
        self.taken = taken


class MemoryShelf:
    """Files by name; the calls of these numbers, from 1, fail."""

    def __init__(self, files: dict, failing=()):
        self.files = files
        self.failing = set(failing)
        self.calls = 0

    def fetch(self, name: str) -> bytes:
        self.calls += 1
        if self.calls in self.failing:
            raise DeviceFault
        if name not in self.files:
            raise Missing
        if len(self.files[name]) > LARGEST_FILE:
            raise TooLong
        return self.files[name]


class MemoryLine:
    """Shows at most `room` bytes; `cuts` are pairs of a call, from 1, that fails, and how many bytes it shows."""

    def __init__(self, room: int = 1 << 62, cuts=()):
        self.room = room
        self.cuts = {}
        for call, after in cuts:
            self.cuts.setdefault(call, after)
        self.calls = 0
        self.shown = bytearray()

    def put(self, data: bytes) -> None:
        self.calls += 1
        left = min(self.room - len(self.shown), self.cuts.get(self.calls, len(data)))
        self.shown += data[:left]
        if len(data) > left or self.calls in self.cuts:
            raise DeviceFault(min(left, len(data)))


class MemoryKeyboard:
    """Lines that are typed, one after another; the calls of these numbers, from 1, fail."""

    def __init__(self, lines=(), failing=()):
        self.lines = list(lines)
        self.failing = set(failing)
        self.calls = 0

    def next(self):
        """The next line, its first 1,024 bytes if it has more; None where no more come."""
        self.calls += 1
        if self.calls in self.failing:
            raise DeviceFault
        return self.lines.pop(0)[:LONGEST_KEYS] if self.lines else None


class MemoryDrive:
    """Blocks of 512 bytes; the calls of these numbers, reads and writes together, fail."""

    def __init__(self, blocks=(), failing=()):
        self.blocks = list(blocks)
        self.failing = set(failing)
        self.calls = 0

    def size(self) -> int:
        return len(self.blocks)

    def get(self, block: int) -> bytes:
        self.call()
        return self.blocks[block]

    def set(self, block: int, data: bytes) -> None:
        self.call()
        self.blocks[block] = data

    def call(self) -> None:
        self.calls += 1
        if self.calls in self.failing:
            raise DeviceFault


def blocks_of(data: bytes) -> list:
    return [bytes(data[place : place + 512]) for place in range(0, len(data), 512)]
