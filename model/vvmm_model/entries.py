"""The entries of a configuration's lists: their keys, and which values each may have."""

from .classes import read_class
from .texts import WORD, is_file_name, is_object_name


def is_whole(value) -> bool:
    return isinstance(value, int) and not isinstance(value, bool)


def whole(least: int, most: int):
    return lambda value: is_whole(value) and least <= value <= most


def name(value) -> bool:
    return isinstance(value, str) and is_object_name(value.encode())


def file(value) -> bool:
    return isinstance(value, str) and is_file_name(value.encode())


def boolean(value) -> bool:
    return isinstance(value, bool)


def class_text(value) -> bool:
    return isinstance(value, str) and read_class(value) is not None


LINE = whole(0, 31)
TERMINAL_KEYS = {"name": name, "line": LINE, "class": class_text}
PRINTER_KEYS = TERMINAL_KEYS
AUDIT_KEYS = {"line": LINE, "class": class_text}
VOLUME_KEYS = {"name": name, "drive": whole(0, 15), "blocks": whole(1, 2048), "class": class_text}
MOUNT_KEYS = {"unit": whole(0, 3), "volume": name, "write": boolean}
GUEST_KEYS = {
    "name": name,
    "class": class_text,
    "pages": whole(64, 2048),
    "image": file,
    "load": whole(0, WORD),
    "start": whole(0, WORD),
    "autostart": boolean,
}
QUANTUM_KEY = {"quantum": whole(1, 100_000)}
GUEST_OPTIONS = {
    "console": name,
    "printer": name,
    "dump": LINE,
    "modify": lambda value: value in ("set", "fault"),
    "mount": lambda value: isinstance(value, list) and all(isinstance(mount, dict) for mount in value),
}


def read_entry(entry: dict, keys: dict, highest: int, options: dict = {}):
    """The entry with its class read, or None where a key or a value isn't allowed."""
    if not keys.keys() <= entry.keys() or not entry.keys() <= keys.keys() | options.keys():
        return None
    allowed = {**keys, **options}
    if not all(allowed[key](value) for key, value in entry.items()):
        return None
    if "class" not in entry:
        return dict(entry)
    access = read_class(entry["class"])
    if max(access.secrecy, access.integrity) > highest:
        return None
    return {**entry, "class": access}


def read_audit(entry: dict, highest: int):
    return read_entry(entry, AUDIT_KEYS, highest)


def read_guest(entry: dict, version: int, highest: int):
    keys = GUEST_KEYS | (QUANTUM_KEY if version == 2 else {})
    row = read_entry(entry, keys, highest, GUEST_OPTIONS)
    if row is None:
        return None
    mounts = [read_entry(mount, MOUNT_KEYS, highest) for mount in row.get("mount", [])]
    if None in mounts:
        return None
    units = [mount["unit"] for mount in mounts]
    if len(set(units)) < len(units):
        return None
    absent = {"console": None, "printer": None, "dump": None, "modify": "set"}
    return {**absent, **row, "mounts": mounts}
