"""The audit line: the record of a command, and whether bytes are what an audit line can have been shown."""

from .config import Config
from .script import LONGEST_LINE, MOST_ROUNDS
from .server import OK, ServerState, change_mounts, verdict
from .texts import read_decimal


def audit_text(round_number: int, terminal, reply: str, command: bytes) -> bytes:
    head = "%d %s %s %s " % (round_number, terminal.name, terminal.access.text(), reply)
    return head.encode() + command + b"\r\n"


def first_bad_line(config: Config, record: bytes) -> int | None:
    """The first line, from 1, through which the bytes aren't an audit line's; None where all are.

    Replayed with the mounts that the granted commands leave, from the configuration's own.
    """
    state = ServerState.of(config)
    before = 1
    lines = record.split(b"\n")
    for number, line in enumerate(lines, 1):
        if number == len(lines):
            return number if line else None
        round_number = replay(config, state, before, line + b"\n")
        if round_number is None:
            return number
        before = round_number
    return None


def replay(config: Config, state: ServerState, before: int, line: bytes) -> int | None:
    """The round of a record that is as it must be, whose command is then done; else None."""
    words = line.split(b" ", 2)
    if len(words) < 3:
        return None
    round_number = read_decimal(words[0], MOST_ROUNDS)
    if not round_number or round_number < before:
        return None
    for number, terminal in enumerate(config.terminals):
        if terminal.name.encode() == words[1]:
            return round_number if replay_at(config, state, round_number, number, line) else None
    return None


def replay_at(config: Config, state: ServerState, round_number: int, number: int, line: bytes) -> bool:
    """Tries each place at which the command can begin: after a reply, which has no more than three words."""
    terminal = config.terminals[number]
    head = "%d %s %s " % (round_number, terminal.name, terminal.access.text())
    if not line.startswith(head.encode()) or not line.endswith(b"\r\n"):
        return False
    rest = line[len(head) : -2]
    places = [k + 1 for k, byte in enumerate(rest[:16]) if byte == 0x20]
    for place in places:
        command = rest[place:]
        if len(command) > LONGEST_LINE or not all(0x20 <= byte <= 0x7E for byte in command):
            continue
        judged = verdict(config, state, number, command)
        if audit_text(round_number, terminal, judged.reply, command) == line:
            if judged.reply == OK:
                change_mounts(state, judged)
            return True
    return False
