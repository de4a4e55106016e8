"""Configurations: TOML texts of versions 1 and 2, and the rules by which one is refused."""

import tomllib
from dataclasses import dataclass, field

from .classes import AccessClass, flows
from .entries import PRINTER_KEYS, TERMINAL_KEYS, VOLUME_KEYS, is_whole, read_audit, read_entry, read_guest


@dataclass
class Mount:
    volume: int
    write: bool


@dataclass
class Terminal:
    name: str
    line: int
    access: AccessClass


@dataclass
class Volume:
    name: str
    drive: int
    blocks: int
    access: AccessClass


@dataclass
class Printer:
    name: str
    line: int
    access: AccessClass


@dataclass
class GuestRow:
    name: str
    access: AccessClass
    pages: int
    image: str
    load: int
    start: int
    autostart: bool
    console: int | None
    printer: int | None
    dump: int | None
    mounts: list
    modify_faults: bool
    quantum: int


@dataclass
class Audit:
    line: int
    access: AccessClass


@dataclass
class Config:
    slice: int
    audit: Audit | None = None
    terminals: list = field(default_factory=list)
    volumes: list = field(default_factory=list)
    printers: list = field(default_factory=list)
    guests: list = field(default_factory=list)

    def objects(self) -> list:
        """All named objects in the order in which their numbers are told."""
        return [*self.terminals, *self.volumes, *self.printers, *self.guests]


class Refused(Exception):
    """The least rule that fails, and the first place at which it does."""

    def __init__(self, rule: int, place: int = 0):
        self.rule = rule
        self.place = place


LISTS = ["terminal", "volume", "printer", "guest"]
MOST_GUEST_PAGES = 16_384


def read_config(data: bytes) -> Config:
    table = parse(data)
    version = check_top(table)
    lists = check_lists(table, version)
    highest = 15 if version == 1 else 255
    rows = {
        "terminal": entries(6, lists["terminal"], lambda entry: read_entry(entry, TERMINAL_KEYS, highest)),
        "volume": entries(7, lists["volume"], lambda entry: read_entry(entry, VOLUME_KEYS, highest)),
        "printer": entries(8, lists["printer"], lambda entry: read_entry(entry, PRINTER_KEYS, highest)),
        "guest": entries(9, lists["guest"], lambda entry: read_guest(entry, version, highest)),
    }
    audit = None
    if "audit" in table:
        audit = read_audit(table["audit"], highest)
        if audit is None:
            raise Refused(10)
    check_names_and_lines(rows, audit)
    return resolve(table, rows, audit)


def parse(data: bytes) -> dict:
    try:
        table = tomllib.loads(data.decode().removeprefix("\ufeff"))
    except (ValueError, RecursionError):
        raise Refused(0)
    if not fits_64_bits(table):
        raise Refused(0)
    return table


def fits_64_bits(value) -> bool:
    if isinstance(value, dict):
        return all(map(fits_64_bits, value.values()))
    if isinstance(value, list):
        return all(map(fits_64_bits, value))
    return not is_whole(value) or -(2**63) <= value < 2**63


def check_top(table: dict) -> int:
    """The version, after the rules on the top's keys."""
    version = table.get("version")
    second = is_whole(version) and version == 2
    required = {"version", "slice"} | (set() if second else {"quantum"})
    optional = {"audit", *LISTS}
    if not required <= table.keys() or not table.keys() <= required | optional:
        raise Refused(1)
    if not all(is_whole(table[key]) for key in required):
        raise Refused(1)
    if not isinstance(table.get("audit", {}), dict):
        raise Refused(1)
    if version not in (1, 2):
        raise Refused(2)
    if version == 1 and not 1 <= table["quantum"] <= 100_000:
        raise Refused(3)
    if not 1 <= table["slice"] <= (table["quantum"] if version == 1 else 100_000):
        raise Refused(4)
    return version


def check_lists(table: dict, version: int) -> dict:
    most = [32, 16, 32, 8 if version == 1 else 16]
    lists = {}
    for place, key in enumerate(LISTS):
        value = table.get(key, [])
        if not isinstance(value, list) or len(value) > most[place]:
            raise Refused(5, place)
        if not all(isinstance(entry, dict) for entry in value):
            raise Refused(5, place)
        lists[key] = value
    return lists


def entries(rule: int, values: list, reader) -> list:
    result = []
    for place, value in enumerate(values):
        row = reader(value)
        if row is None:
            raise Refused(rule, place)
        result.append(row)
    return result


def first_repeated(values: list):
    for place, value in enumerate(values):
        if value in values[:place]:
            return place
    return None


def check_names_and_lines(rows: dict, audit) -> None:
    names = [row["name"] for key in LISTS for row in rows[key]]
    lines = [row["line"] for key in ("terminal", "printer") for row in rows[key]]
    lines += [row["dump"] for row in rows["guest"] if row["dump"] is not None]
    lines += [audit["line"]] if audit else []
    drives = [row["drive"] for row in rows["volume"]]
    for rule, values in ((11, names), (12, lines), (13, drives)):
        place = first_repeated(values)
        if place is not None:
            raise Refused(rule, place)


def resolve(table: dict, rows: dict, audit) -> Config:
    """The configuration with numbers in place of names, after the rules on who may have what."""
    config = Config(
        slice=table["slice"],
        audit=Audit(audit["line"], audit["class"]) if audit else None,
        terminals=[Terminal(row["name"], row["line"], row["class"]) for row in rows["terminal"]],
        volumes=[Volume(row["name"], row["drive"], row["blocks"], row["class"]) for row in rows["volume"]],
        printers=[Printer(row["name"], row["line"], row["class"]) for row in rows["printer"]],
    )
    guests = rows["guest"]
    for place, row in enumerate(guests):
        if row["printer"] is not None and not may_print(config, row):
            raise Refused(14, place)
    for place, row in enumerate(guests):
        earlier = [other["console"] for other in guests[:place]]
        if row["console"] is not None and (row["console"] in earlier or not may_have_console(config, row)):
            raise Refused(15, place)
    for place, row in enumerate(guests):
        if not all(may_mount(config, row, mount) for mount in row["mounts"]):
            raise Refused(16, place)
    config.guests = [guest_row(config, row, table) for row in guests]
    check_audit_and_pages(config)
    return config


def number_of(name: str, objects: list):
    return next((number for number, other in enumerate(objects) if other.name == name), None)


def may_print(config: Config, row: dict) -> bool:
    number = number_of(row["printer"], config.printers)
    return number is not None and flows(row["class"], config.printers[number].access)


def may_have_console(config: Config, row: dict) -> bool:
    number = number_of(row["console"], config.terminals)
    return number is not None and config.terminals[number].access == row["class"]


def may_mount(config: Config, row: dict, mount: dict) -> bool:
    number = number_of(mount["volume"], config.volumes)
    if number is None:
        return False
    access = config.volumes[number].access
    return access == row["class"] if mount["write"] else flows(access, row["class"])


def guest_row(config: Config, row: dict, table: dict) -> GuestRow:
    mounts = [None] * 4
    for mount in row["mounts"]:
        mounts[mount["unit"]] = Mount(number_of(mount["volume"], config.volumes), mount["write"])
    numbered = lambda name, objects: None if name is None else number_of(name, objects)
    return GuestRow(
        name=row["name"],
        access=row["class"],
        pages=row["pages"],
        image=row["image"],
        load=row["load"],
        start=row["start"],
        autostart=row["autostart"],
        console=numbered(row["console"], config.terminals),
        printer=numbered(row["printer"], config.printers),
        dump=row["dump"],
        mounts=mounts,
        modify_faults=row["modify"] == "fault",
        quantum=row["quantum"] if table["version"] == 2 else table["quantum"],
    )


def check_audit_and_pages(config: Config) -> None:
    if config.audit:
        for place, item in enumerate(config.objects()):
            if not flows(item.access, config.audit.access):
                raise Refused(17, place)
    pages = 0
    for place, guest in enumerate(config.guests):
        pages += guest.pages
        if pages > MOST_GUEST_PAGES:
            raise Refused(18, place)
