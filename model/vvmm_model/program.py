"""The program's call: words and an outside go in; an exit code and a text for standard error come out."""

from itertools import chain

from .asm import AsmRefused, assemble, listing
from .audit import first_bad_line
from .classes import class_of
from .config import Config, GuestRow, Refused, Terminal, read_config
from .dis import disassemble
from .draw import drawing
from .flow import flow_report
from .migrate import migrate_text
from .outside import DeviceFault, MemoryKeyboard, MemoryLine, Missing, TooLong
from .script import MOST_ROUNDS, ScriptRefused, lines_of, read_script, read_typed
from .snapshot import SnapRefused, is_too_large, read_snapshot, snapshot, text_of
from .system import System, make_rounds, summary
from .system import run as run_system
from .texts import is_file_name, read_decimal
from .trace import one_line
from .workload import workload


class Ended(Exception):
    """The call ends with this code and text, and did nothing more."""

    def __init__(self, code: int, text: str):
        self.code = code
        self.text = text


BAD_WORDS = Ended(2, "bad words")
MOST_STEPS = 100_000
SOLO_PAGES, SOLO_PLACE = 128, 0x200


class Outside:
    """What a call is given: a shelf, 32 lines, 16 drives and an output; a keyboard, and where lines are told that say no event.

    `run` can be another function that gives what `system.run` gives, as one that remembers.
    """

    def __init__(self, shelf, lines, drives, out, run=run_system, keyboard=None, errors=None):
        self.shelf = shelf
        self.lines = lines
        self.drives = drives
        self.out = out
        self.run = run
        self.keyboard = keyboard or MemoryKeyboard()
        self.errors = errors or MemoryLine()


def call(words: list, outside: Outside):
    """The exit code, and the text that stands on standard error after `vvmm: `."""
    try:
        if not words or words[0] not in COMMANDS:
            raise BAD_WORDS
        forms, command = COMMANDS[words[0]]
        if len(words) - 1 != len(forms):
            raise BAD_WORDS
        command(outside, *[form(word) for form, word in zip(forms, words[1:])])
    except Ended as ended:
        return ended.code, ended.text
    return 0, ""


def file_word(word: str) -> str:
    if not is_file_name(word.encode("utf-8", "surrogateescape")):
        raise BAD_WORDS
    return word


def number_word(least: int, most: int):
    def read(word: str) -> int:
        number = read_decimal(word.encode("utf-8", "surrogateescape"), most)
        if number is None or number < least:
            raise BAD_WORDS
        return number

    return read


def fetch(outside: Outside, name: str) -> bytes:
    try:
        return outside.shelf.fetch(name)
    except Missing:
        raise Ended(3, "missing " + name)
    except TooLong:
        raise Ended(13, "too long " + name)
    except DeviceFault:
        raise Ended(4, "shelf fault")


def fetch_config(outside: Outside, name: str) -> Config:
    return config_of(fetch(outside, name))


def config_of(text: bytes) -> Config:
    try:
        return read_config(text)
    except Refused as refused:
        raise Ended(5, "config rule %d at %d" % (refused.rule, refused.place))


def fetch_script(outside: Outside, name: str) -> list:
    try:
        return read_script(fetch(outside, name))
    except ScriptRefused as refused:
        raise Ended(6, "script line %d %s" % (refused.line, refused.kind))


def check_images(config: Config, images: list) -> None:
    for number, (row, image) in enumerate(zip(config.guests, images)):
        if row.load + len(image) > 512 * row.pages:
            raise Ended(7, "image %d" % number)


def check_sizes(outside: Outside, number: int, row) -> None:
    if outside.drives[row.drive].size() != row.blocks:
        raise Ended(8, "volume size %d" % number)


def read_volumes(outside: Outside, config: Config) -> list:
    volumes = []
    for number, row in enumerate(config.volumes):
        check_sizes(outside, number, row)
        drive = outside.drives[row.drive]
        try:
            volumes.append([drive.get(block) for block in range(row.blocks)])
        except DeviceFault:
            raise Ended(9, "drive %d" % row.drive)
    return volumes


def show_lines(outside: Outside, system, dumps: dict) -> list:
    """Gives each line its puts, and then its dump; the lines that failed, which get no more."""
    failed = []
    for number, puts in enumerate(system.puts):
        try:
            for data in chain(puts, dumps.get(number, [])):
                outside.lines[number].put(data)
        except DeviceFault:
            failed.append("line %d" % number)
    return failed


def store_volumes(outside: Outside, config: Config, system) -> list:
    failed = []
    for row, blocks in sorted(zip(config.volumes, system.volumes), key=lambda pair: pair[0].drive):
        try:
            for block, data in enumerate(blocks):
                outside.drives[row.drive].set(block, data)
        except DeviceFault:
            failed.append("drive %d" % row.drive)
    return failed


def put_out(outside: Outside, data: bytes, failed: list) -> None:
    """Shows bytes on the output; a device that failed is told before an output that did."""
    try:
        outside.out.put(data)
        out_failed = False
    except DeviceFault:
        out_failed = True
    if failed:
        raise Ended(10, "device " + failed[0])
    if out_failed:
        raise Ended(11, "output fault")


def conclude(outside: Outside, config: Config, system, rounds: int, has_drives: bool) -> None:
    """Dumps, stored volumes and the summary."""
    failed = show_lines(outside, system, system.dumps())
    if has_drives:
        failed += store_volumes(outside, config, system)
    put_out(outside, summary(system, rounds), failed)


def solo_config(image_name: str, steps: int) -> Config:
    access = class_of("0{};0{}")
    row = GuestRow(
        name="A",
        access=access,
        pages=SOLO_PAGES,
        image=image_name,
        load=SOLO_PLACE,
        start=SOLO_PLACE,
        autostart=True,
        console=0,
        printer=None,
        dump=1,
        mounts=[None] * 4,
        modify_faults=False,
        quantum=steps,
    )
    return Config(slice=steps, terminals=[Terminal("T", 0, access)], guests=[row])


def solo(outside: Outside, image_name: str, steps: int) -> None:
    image = fetch(outside, image_name)
    config = solo_config(image_name, steps)
    check_images(config, [image])
    conclude(outside, config, outside.run(config, [image], [], [], 1), 1, False)


def trace(outside: Outside, image_name: str, steps: int) -> None:
    """As `solo`, and each step's line goes to the output, before the summary."""
    image = fetch(outside, image_name)
    config = solo_config(image_name, steps)
    check_images(config, [image])
    system = System(config, [image], [])
    told = [one_line(system.guests[0], number) for number in range(1, steps + 1)]
    system.show_console(0)
    system.make_transfers(0)
    failed = show_lines(outside, system, system.dumps())
    put_trace(outside, told + [summary(system, 1)], failed)


def put_trace(outside: Outside, lines: list, failed: list) -> None:
    """Shows lines on the output, each by itself; after one that couldn't be shown none is."""
    out_failed = False
    for line in lines:
        try:
            outside.out.put(line)
        except DeviceFault:
            out_failed = True
            break
    if failed:
        raise Ended(10, "device " + failed[0])
    if out_failed:
        raise Ended(11, "output fault")


def run(outside: Outside, config_name: str, script_name: str, rounds: int) -> None:
    config = fetch_config(outside, config_name)
    events = fetch_script(outside, script_name)
    images = [fetch(outside, row.image) for row in config.guests]
    check_images(config, images)
    volumes = read_volumes(outside, config)
    conclude(outside, config, outside.run(config, images, volumes, events, rounds), rounds, True)


def save(outside: Outside, config_name: str, script_name: str, rounds: int) -> None:
    """As `run`, but the system after the rounds goes to the output as a snapshot; nothing else is shown or stored."""
    text = fetch(outside, config_name)
    config = config_of(text)
    events = fetch_script(outside, script_name)
    if is_too_large(config, text):
        raise Ended(16, "snapshot size")
    images = [fetch(outside, row.image) for row in config.guests]
    check_images(config, images)
    volumes = read_volumes(outside, config)
    put_snapshot(outside, outside.run(config, images, volumes, events, rounds), text)


def put_snapshot(outside: Outside, system, text: bytes) -> None:
    """What the rounds show, and the system after them."""
    failed = show_lines(outside, system, {})
    put_out(outside, snapshot(system, text), failed)


def fetch_snapshot(outside: Outside, name: str) -> tuple:
    """The system of a snapshot, and the text that it has."""
    data = fetch(outside, name)
    try:
        return read_snapshot(data), text_of(data)
    except SnapRefused as refused:
        raise Ended(17, "snapshot at %d" % refused.place)


def go_on(outside: Outside, system, events: list, rounds: int) -> None:
    """The next rounds of a snapshot; of the drives the sizes alone are asked."""
    for number, row in enumerate(system.config.volumes):
        check_sizes(outside, number, row)
    make_rounds(system, events, rounds)


def resume(outside: Outside, snapshot_name: str, script_name: str, rounds: int) -> None:
    """The next rounds of a snapshot, which end as `run` does."""
    system, _ = fetch_snapshot(outside, snapshot_name)
    go_on(outside, system, fetch_script(outside, script_name), rounds)
    conclude(outside, system.config, system, rounds, True)


def extend(outside: Outside, snapshot_name: str, script_name: str, rounds: int) -> None:
    """The next rounds of a snapshot, which end as `save` does; of all rounds there are at most as many as a snapshot can have."""
    system, text = fetch_snapshot(outside, snapshot_name)
    events = fetch_script(outside, script_name)
    if system.round + rounds > MOST_ROUNDS:
        raise Ended(16, "snapshot size")
    go_on(outside, system, events, rounds)
    put_snapshot(outside, system, text)


class Screens:
    """What the operator is shown of the terminals: after each round what each of them was shown in it, one after another."""

    def __init__(self, config: Config):
        self.terminals = config.terminals
        self.seen = {row.line: 0 for row in self.terminals}

    def texts(self, lines) -> list:
        """What is shown of each terminal; `lines` have all bytes that each line was shown."""
        return [self.text(row, bytes(lines[row.line])) for row in self.terminals]

    def text(self, row, shown: bytes) -> bytes:
        new = shown[self.seen[row.line] :]
        self.seen[row.line] += len(new)
        return b"".join(echo_line(row.name, line) for line in lines_of(new.replace(b"\r", b"")))


def echo_line(name: str, line: bytes) -> bytes:
    """A line as the operator sees it: a byte that doesn't print is a point."""
    return name.encode() + b": " + bytes(byte if 0x20 <= byte <= 0x7E else 0x2E for byte in line) + b"\n"


class Typing:
    """What is typed: the events of each round, and whether more lines come."""

    def __init__(self, outside: Outside):
        self.outside = outside
        self.lines = 0
        self.goes_on = True
        self.is_broken = False
        self.is_cut = False

    def read_round(self, number: int) -> list:
        events = []
        while True:
            try:
                line = self.outside.keyboard.next()
            except DeviceFault:
                self.goes_on, self.is_broken = False, True
                return events
            if line is None:
                self.goes_on = False
                return events
            self.lines += 1
            if not line:
                return events
            if not line.startswith(b"#"):
                self.take(number, line, events)

    def take(self, number: int, line: bytes, events: list) -> None:
        try:
            events.append(read_typed(self.lines, number, line))
        except ScriptRefused as refused:
            self.tell(b"vvmm: typed line %d %s\n" % (refused.line, refused.kind.encode()))

    def tell(self, text: bytes) -> None:
        if not self.is_cut:
            try:
                self.outside.errors.put(text)
            except DeviceFault:
                self.is_cut = True


class Shower:
    """Gives lines their puts as the rounds go; a line that fails gets no more."""

    def __init__(self, outside: Outside):
        self.lines = outside.lines
        self.given = [0] * len(self.lines)
        self.failed = set()
        self.shown = [bytearray() for _ in self.lines]

    def show(self, all_puts: list) -> None:
        for number, puts in enumerate(all_puts):
            for data in puts[self.given[number] :]:
                if number not in self.failed:
                    self.put(number, data)
            self.given[number] = len(puts)

    def put(self, number: int, data: bytes) -> None:
        taken = len(data)
        try:
            self.lines[number].put(data)
        except DeviceFault as fault:
            taken = fault.taken
            self.failed.add(number)
        self.shown[number] += data[:taken]


def live(outside: Outside, config_name: str, most: int) -> None:
    """Rounds with what is typed for them while the run goes on; each is shown on the output when it is made."""
    config = fetch_config(outside, config_name)
    images = [fetch(outside, row.image) for row in config.guests]
    check_images(config, images)
    system = System(config, images, read_volumes(outside, config))
    typing, screens, shower = Typing(outside), Screens(config), Shower(outside)
    out_failed = False
    while typing.goes_on and system.round < most:
        events = typing.read_round(system.round + 1)
        if typing.goes_on or events:
            system.make_round(events)
            shower.show(system.puts)
            out_failed = out_failed or fails(outside.out, screens.texts(shower.shown))
    for number, dump in system.dumps().items():
        system.puts[number] = system.puts[number] + dump
    shower.show(system.puts)
    failed = ["line %d" % number for number in sorted(shower.failed)]
    failed += store_volumes(outside, config, system)
    out_failed = out_failed or fails(outside.out, [summary(system, system.round)])
    if failed:
        raise Ended(10, "device " + failed[0])
    if out_failed:
        raise Ended(11, "output fault")
    if typing.is_broken:
        raise Ended(19, "keyboard fault")


def fails(sink, pieces: list) -> bool:
    """Puts pieces that aren't empty, up to the first whose put fails; whether one did."""
    try:
        for data in filter(None, pieces):
            sink.put(data)
    except DeviceFault:
        return True
    return False


def load(outside: Outside, number: int) -> None:
    drawn = workload(number)
    system = outside.run(drawn.config, drawn.images, drawn.volumes, drawn.events, drawn.rounds)
    conclude(outside, drawn.config, system, drawn.rounds, False)


def check(outside: Outside, name: str) -> None:
    config = fetch_config(outside, name)
    counts = len(config.terminals), len(config.volumes), len(config.printers), len(config.guests)
    put_out(outside, b"terminals %d volumes %d printers %d guests %d\n" % counts, [])


def audit(outside: Outside, config_name: str, record_name: str) -> None:
    config = fetch_config(outside, config_name)
    line = first_bad_line(config, fetch(outside, record_name))
    if line is not None:
        raise Ended(18, "audit line %d" % line)
    put_out(outside, b"accepted\n", [])


def show_text(text_of):
    """A command that shows a text of the configuration."""
    return lambda outside, name: put_out(outside, text_of(fetch_config(outside, name)).encode(), [])


def show_source(bytes_of):
    """A command that shows what a source stands for."""

    def command(outside: Outside, name: str) -> None:
        try:
            shown = bytes_of(fetch(outside, name))
        except AsmRefused as refused:
            raise Ended(15, "asm line %d %s" % (refused.line, refused.kind))
        put_out(outside, shown, [])

    return command


def dis(outside: Outside, name: str) -> None:
    put_out(outside, disassemble(fetch(outside, name)).encode(), [])


ROUNDS = number_word(1, MOST_ROUNDS)
COMMANDS = {
    "solo": ([file_word, number_word(1, MOST_STEPS)], solo),
    "trace": ([file_word, number_word(1, MOST_STEPS)], trace),
    "run": ([file_word, file_word, ROUNDS], run),
    "save": ([file_word, file_word, ROUNDS], save),
    "resume": ([file_word, file_word, ROUNDS], resume),
    "extend": ([file_word, file_word, ROUNDS], extend),
    "live": ([file_word, ROUNDS], live),
    "load": ([number_word(0, 2**32 - 1)], load),
    "check": ([file_word], check),
    "migrate": ([file_word], show_text(migrate_text)),
    "audit": ([file_word, file_word], audit),
    "flow": ([file_word], show_text(flow_report)),
    "draw": ([file_word], show_text(drawing)),
    "asm": ([file_word], show_source(assemble)),
    "list": ([file_word], show_source(listing)),
    "dis": ([file_word], dis),
}
