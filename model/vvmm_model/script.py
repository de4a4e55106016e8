"""Scripts: what is typed at which terminal in which round; and lines that are typed while a run goes on."""

from dataclasses import dataclass

from .texts import is_object_name, read_decimal

MOST_ROUNDS = 1_000_000
LONGEST_LINE = 1_000


@dataclass(frozen=True)
class Event:
    """`text` is None for a break."""

    round: int
    terminal: str
    text: bytes | None


class ScriptRefused(Exception):
    def __init__(self, line: int, kind: str):
        self.line = line
        self.kind = kind


def lines_of(data: bytes) -> list:
    """The text's lines; a carriage return goes where a line feed follows."""
    lines = data.split(b"\n")
    whole = [line.removesuffix(b"\r") for line in lines[:-1]]
    return whole + ([lines[-1]] if lines[-1] else [])


def read_script(data: bytes) -> list:
    events = []
    for number, line in enumerate(lines_of(data), 1):
        if not line or line.startswith(b"#"):
            continue
        event = read_event(number, line)
        if events and event.round < events[-1].round:
            raise ScriptRefused(number, "RoundFalls")
        events.append(event)
    return events


def read_event(number: int, line: bytes) -> Event:
    round_text, _, rest = line.partition(b" ")
    round_number = read_decimal(round_text, MOST_ROUNDS)
    if not round_number:
        raise ScriptRefused(number, "BadRound")
    return read_typed(number, round_number, rest)


def read_typed(number: int, round_number: int, line: bytes) -> Event:
    """What a line without its round says in a round."""
    name, _, what = line.partition(b" ")
    if not is_object_name(name):
        raise ScriptRefused(number, "BadName")
    if what == b"break":
        return Event(round_number, name.decode(), None)
    if what != b">" and not what.startswith(b"> "):
        raise ScriptRefused(number, "BadEvent")
    text = what[2:]
    if len(text) > LONGEST_LINE or not all(0x20 <= byte <= 0x7E for byte in text):
        raise ScriptRefused(number, "BadText")
    return Event(round_number, name.decode(), text)
