"""Snapshots: a system between two rounds as bytes, and the reading of such bytes.

A text's configuration, the round, who is connected where, the mounts, each guest's record and memory, and the volumes.
"""

from .classes import flows
from .config import Config, Mount, Refused, read_config
from .records import guest_record, read_record
from .server import ServerState
from .system import LINES, System

MAGIC = b"VVSNAP1\n"
NOTHING = 0xFF
LONGEST_TEXT = 262_144
MOST_BYTES = 16_000_000
MOST_ROUNDS = 1_000_000


class SnapRefused(Exception):
    """Where the first field begins that is cut or not allowed, or where bytes are left over."""

    def __init__(self, place: int):
        self.place = place


class Reader:
    """Takes fields one after another; a field that isn't as it must be is told by where it begins."""

    def __init__(self, data: bytes):
        self.data = data
        self.place = 0
        self.begin = 0

    def bytes(self, size: int, allowed=lambda data: True) -> bytes:
        self.begin = self.place
        data = self.data[self.place : self.place + size]
        if len(data) < size:
            raise SnapRefused(self.begin)
        self.must(allowed(data))
        self.place += size
        return data

    def number(self, size: int, allowed=lambda number: True) -> int:
        number = int.from_bytes(self.bytes(size), "little")
        self.must(allowed(number))
        return number

    def flag(self, allowed=lambda flag: True) -> bool:
        return bool(self.number(1, lambda number: number <= 1 and allowed(bool(number))))

    def must(self, holds: bool) -> None:
        if not holds:
            raise SnapRefused(self.begin)


def is_too_large(config: Config, text: bytes) -> bool:
    total = sum(guest.pages for guest in config.guests) + sum(volume.blocks for volume in config.volumes)
    return 512 * total > MOST_BYTES or len(text) > LONGEST_TEXT


def snapshot(system: System, text: bytes) -> bytes:
    """The bytes of a system between rounds; `text` is that of its configuration."""
    at = system.server.at + [None] * (LINES - len(system.server.at))
    data = bytearray(MAGIC + len(text).to_bytes(4, "little") + text + system.round.to_bytes(4, "little"))
    data += bytes(NOTHING if guest is None else guest for guest in at)
    for mounts in system.server.mounts:
        for mount in mounts:
            data += bytes([mount.volume, mount.write]) if mount else bytes([NOTHING, 0])
    for guest in system.guests:
        data += guest_record(guest) + guest.memory
    for blocks in system.volumes:
        data += b"".join(blocks)
    return bytes(data)


def text_of(data: bytes) -> bytes:
    """The configuration's text in the bytes of a snapshot."""
    start = len(MAGIC) + 4
    return data[start : start + int.from_bytes(data[len(MAGIC) : start], "little")]


def read_snapshot(data: bytes) -> System:
    """The system of a snapshot's bytes."""
    reader = Reader(data)
    reader.bytes(len(MAGIC), lambda magic: magic == MAGIC)
    length = reader.number(4, lambda number: number <= LONGEST_TEXT)
    config = read_text(reader, length)
    system = System(config, [b""] * len(config.guests), [])
    system.round = reader.number(4, lambda number: number <= MOST_ROUNDS)
    at = read_connections(reader, config)
    mounts = [[read_mount(reader, config, guest) for _ in range(4)] for guest in config.guests]
    system.server = ServerState(at, mounts)
    for guest in system.guests:
        read_record(reader, guest)
        guest.memory[:] = reader.bytes(guest.size)
    system.volumes = [blocks_of(reader.bytes(512 * volume.blocks)) for volume in config.volumes]
    if reader.place < len(data):
        raise SnapRefused(reader.place)
    return system


def blocks_of(data: bytes) -> list:
    return [data[place : place + 512] for place in range(0, len(data), 512)]


def read_text(reader: Reader, length: int) -> Config:
    try:
        return read_config(reader.bytes(length))
    except Refused:
        raise SnapRefused(reader.begin)


def read_connections(reader: Reader, config: Config) -> list:
    """For each terminal its guest, of an equal class, or none; no guest is at two terminals."""
    field = reader.bytes(LINES)
    terminals = len(config.terminals)
    connected = [guest for guest in field if guest != NOTHING]
    reader.must(all(guest == NOTHING for guest in field[terminals:]))
    reader.must(len(set(connected)) == len(connected))
    for terminal, guest in zip(config.terminals, field):
        if guest != NOTHING:
            reader.must(guest < len(config.guests) and config.guests[guest].access == terminal.access)
    return [None if guest == NOTHING else guest for guest in field[:terminals]]


def read_mount(reader: Reader, config: Config, guest):
    volume, write = reader.bytes(2)
    if volume == NOTHING:
        reader.must(write == 0)
        return None
    reader.must(volume < len(config.volumes) and write <= 1)
    access = config.volumes[volume].access
    reader.must(access == guest.access if write else flows(access, guest.access))
    return Mount(volume, bool(write))
