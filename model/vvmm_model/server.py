"""The secure server: the commands that are typed at terminals, and what is granted."""

from dataclasses import dataclass

from .classes import flows
from .config import Config, Mount
from .texts import is_object_name

BAD_COMMAND, NO_SUCH_OBJECT = "BAD COMMAND", "NO SUCH OBJECT"
DENIED_EQUAL, DENIED_WRITE, OK = "DENIED EQUAL", "DENIED WRITE", "OK"


@dataclass
class ServerState:
    """The guest that each terminal is connected to, and each guest's mounts."""

    at: list
    mounts: list

    @staticmethod
    def of(config: Config) -> "ServerState":
        at = [None] * len(config.terminals)
        for number, guest in enumerate(config.guests):
            if guest.console is not None:
                at[guest.console] = number
        return ServerState(at, [list(guest.mounts) for guest in config.guests])


@dataclass
class Verdict:
    reply: str
    verb: str = ""
    guest: int | None = None
    unit: int = 0
    mount: Mount | None = None


def has_form(words: list) -> bool:
    """Whether the words, parted by single blanks, are one of the commands."""
    is_unit = lambda word: word in (b"0", b"1", b"2", b"3")
    forms = {
        (b"CONNECT", 2): lambda w: is_object_name(w[1]),
        (b"START", 2): lambda w: is_object_name(w[1]),
        (b"HALT", 2): lambda w: is_object_name(w[1]),
        (b"SHOW", 1): lambda w: True,
        (b"DISMOUNT", 3): lambda w: is_object_name(w[1]) and is_unit(w[2]),
        (b"MOUNT", 5): lambda w: is_object_name(w[1])
        and is_unit(w[2])
        and is_object_name(w[3])
        and w[4] in (b"READ", b"WRITE"),
    }
    form = forms.get((words[0], len(words)))
    return form is not None and form(words)


def visible(objects: list, name: bytes, access):
    """The number of an object of this name whose class flows into a terminal's."""
    for number, item in enumerate(objects):
        if item.name.encode() == name and flows(item.access, access):
            return number
    return None


def verdict(config: Config, state: ServerState, terminal: int, text: bytes) -> Verdict:
    access = config.terminals[terminal].access
    words = text.split(b" ")
    if not has_form(words):
        return Verdict(BAD_COMMAND)
    verb = words[0].decode()
    if verb == "SHOW":
        return Verdict(OK, verb)
    guest = visible(config.guests, words[1], access)
    volume = visible(config.volumes, words[3], access) if verb == "MOUNT" else 0
    if guest is None or volume is None:
        return Verdict(NO_SUCH_OBJECT)
    if config.guests[guest].access != access:
        return Verdict(DENIED_EQUAL)
    unit = int(words[2]) if len(words) > 2 else 0
    mount = Mount(volume, words[4] == b"WRITE") if verb == "MOUNT" else None
    if mount and mount.write and config.volumes[volume].access != access:
        return Verdict(DENIED_WRITE)
    if verb == "DISMOUNT" and state.mounts[guest][unit] is None:
        return Verdict(NO_SUCH_OBJECT)
    return Verdict(OK, verb, guest, unit, mount)


def change_mounts(state: ServerState, granted: Verdict) -> None:
    if granted.verb in ("MOUNT", "DISMOUNT"):
        state.mounts[granted.guest][granted.unit] = granted.mount


def connect(state: ServerState, terminal: int, guest: int):
    """Moves a guest's console to a terminal; the terminal that had it, if there was one."""
    taken = state.at.index(guest) if guest in state.at else None
    if taken is not None:
        state.at[taken] = None
    state.at[terminal] = guest
    return taken if taken != terminal else None


def listing(config: Config, terminal: int, running) -> list:
    """What SHOW shows: a line for each object that the terminal may see."""
    access = config.terminals[terminal].access
    lines = []
    for number, guest in enumerate(config.guests):
        if flows(guest.access, access):
            state = "RUNNING" if running(number) else "STOPPED"
            lines.append("VM %s %s %s" % (guest.name, guest.access.text(), state))
    for word, objects in (("VOLUME", config.volumes), ("PRINTER", config.printers)):
        for item in objects:
            if flows(item.access, access):
                lines.append("%s %s %s" % (word, item.name, item.access.text()))
    return lines
