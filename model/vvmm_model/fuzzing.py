"""Random cases, and whether the program and the model say the same of each."""

import os
import random as randoms
import shutil
import subprocess
import tempfile
from dataclasses import dataclass

from .cases import Given
from .config import Refused, read_config
from .differences import first_difference
from .outside import blocks_of
from .random_code import Code
from .random_guests import random_image
from .random_tables import TablesImage
from .random_tests import random_tests
from .random_texts import Texts, spoil
from .system import run
from .texts import LARGEST_FILE

ENDLESS = 1 << 62
MAKE_LINES = ("run", "solo", "trace", "load", "save", "resume", "extend", "live")


@dataclass
class Case:
    """Files of a folder, and the calls that are made there, one after another.

    After a call `>` and a name may stand: the file that its output becomes. `keys` is what each has as standard input.
    """

    files: dict
    calls: list
    keys: bytes = b""


def solo_case(random) -> Case:
    command = random.choice(["solo", "trace"])
    return Case({"image": random_image(random)[512:]}, [[command, "image", str(random.choice([300, 1000, 3000]))]])


def tests_case(random) -> Case:
    return Case({"image": random_tests(random)}, [["solo", "image", "30000"]])


def run_case(random) -> Case:
    texts = Texts(random)
    rounds = random.randrange(1, 5)
    config = texts.config(random.choice([60, 150, 400, 1500]))
    script = texts.script(rounds)
    files = {"config": config.encode(), "script": script.encode()}
    files |= {"image%d" % number: random_image(random) for number in range(len(texts.guests))}
    files |= {"drive%02d.vol" % number: data for number, data in texts.drives.items()}
    calls = [["run", "config", "script", str(rounds)]]
    calls += [[word, "config"] for word in ("check", "flow", "draw")]
    line = audit_line(config)
    if line:
        calls.append(["audit", "config", line])
    return Case(files, calls)


def live_case(random) -> Case:
    """A run whose script is typed: its rounds in front of no line, and an empty line after each round."""
    case = run_case(random)
    typed, at = b"", 1
    for line in case.files["script"].splitlines(keepends=True):
        number, _, rest = line.partition(b" ")
        typed += b"\n" * (int(number) - at) + rest
        at = int(number)
        typed += random.choice([b"", b"", b"# \n", b"T brake\n"])
    typed += random.choice([b"", b"\n", b"\n\n\n"])
    return Case(case.files, [["live", "config", str(random.randrange(1, 6))]], typed)


def audit_line(config: str):
    head, word, rest = config.partition("[audit]\nline = ")
    return "line%02d.out" % int(rest.split("\n")[0]) if word else None


def tables_case(random) -> Case:
    """Two guests that change their tables, and share a volume with tables in its blocks."""
    images = [TablesImage(random) for _ in range(2)]
    config = "version = 2\nslice = 7\n" + TABLES_VOLUME
    for number in range(2):
        quantum, modify = random.choice([500, 1500]), random.choice(["set", "set", "fault"])
        config += TABLES_GUEST.format(number=number, dump=number + 2, quantum=quantum, modify=modify)
    files = {"config": config.encode(), "drive00.vol": images[0].volume()}
    files |= {"image%d" % number: image.make() for number, image in enumerate(images)}
    rounds = random.randrange(1, 5)
    again = "{0} T{1} break\n{0} T{1} > START G{1}\n{0} T{1} > CONNECT G{1}\n"
    files["script"] = "".join(again.format(at, at % 2) for at in range(2, rounds + 1)).encode()
    return Case(files, [["run", "config", "script", str(rounds)]])


TABLES_VOLUME = """[[volume]]
name = "V"
drive = 0
blocks = 4
class = "0{};0{}"
"""
TABLES_GUEST = """[[terminal]]
name = "T{number}"
line = {number}
class = "0{{}};0{{}}"
[[guest]]
name = "G{number}"
class = "0{{}};0{{}}"
pages = 64
image = "image{number}"
load = 0
start = 512
autostart = true
console = "T{number}"
dump = {dump}
quantum = {quantum}
modify = "{modify}"
[[guest.mount]]
unit = 0
volume = "V"
write = true
"""


def text_case(random) -> Case:
    """A configuration or a script that was changed."""
    texts = Texts(random)
    config, script = texts.config(3).encode(), texts.script(3).encode()
    config = spoil(random, config) if random.random() < 0.7 else config
    script = spoil(random, script or b"1 T1 > X\n") if random.random() < 0.5 else script
    files = {"config": config, "script": script}
    files |= {"image%d" % number: b"\x11\xfe" for number in range(len(texts.guests))}
    files |= {"drive%02d.vol" % number: data for number, data in texts.drives.items()}
    calls = [[word, "config"] for word in ("check", "migrate", "flow")]
    return Case(files, calls + [["run", "config", "script", "3"]])


def audit_case(random) -> Case:
    """A record that a run makes, and a change of it."""
    case = run_case(random)
    record = given_of(case.files).tell(case.calls[0], run, ENDLESS)
    line = case.calls[-1][-1]
    if not line.endswith(".out"):
        return case
    shown = record.lines[int(line[4:6])]
    case.files["record"] = spoil(random, shown) if shown else b"1 T1 0{};0{} OK SHOW\r\n"
    return Case(case.files, [["audit", "config", "record"]])


def snapshot_case(random) -> Case:
    """Rounds in three parts, and a snapshot that was changed."""
    case = run_case(random)
    rounds = str(random.randrange(1, 3))
    save = ["save", "config", "script", rounds, ">", "snap"]
    volumes = {name: data for name, data in case.files.items() if name.endswith(".vol")}
    told = given_of(case.files).tell(save[:4], run, ENDLESS)
    case.files["spoilt"] = spoil_bytes(random, told.out) if told.out else b"VVSNAP1\n"
    spoilt = [[command, "spoilt", "script", "1"] for command in ("resume", "extend")]
    more = ["extend", "snap", "script", "1", ">", "more"]
    return Case(case.files | volumes, [save, *spoilt, more, ["resume", "more", "script", rounds]])


def spoil_bytes(random, data: bytes) -> bytes:
    """A snapshot with a byte changed, mostly in front or in a guest's record, or cut, or longer."""
    kind = random.random()
    if kind < 0.15:
        return data[: random.randrange(len(data))]
    if kind < 0.2:
        return data + b"\0"
    config_end = 12 + int.from_bytes(data[8:12], "little")
    front = config_end + 4 + 32 + 8
    place = random.randrange(config_end, front + 500) if kind < 0.9 else random.randrange(front)
    place = min(place, len(data) - 1)
    value = random.choice([0, 1, 2, 4, 0x40, 0x80, 0xFF, random.randrange(256)])
    return data[:place] + bytes([value]) + data[place + 1 :]


def assembler_case(random) -> Case:
    code = Code(random, [0x200, 0x80004200, 0x1000], [0x300])
    image = code.slots(5, [lambda: b""]) if random.random() < 0.7 else random.randbytes(60)
    text = given_of({"image": image}).tell(["dis", "image"], run, ENDLESS).out
    lines = [random.choice(LINES) if random.random() < 0.12 else line for line in text.split(b"\n")]
    lines = [random.choice(LABELS) + line if random.random() < 0.1 else line for line in lines]
    source = b"\n".join(lines)
    source = spoil(random, source) if random.random() < 0.5 else source
    files = {"image": image, "text": text, "source": source}
    return Case(files, [["dis", "image"], ["asm", "text"], ["asm", "source"]])


LABELS = [b"L: ", b"M: ", b"L1:\t", b"N:  ", b" ABCDEFGH: ", b"R1: "]
LINES = [
    b"L:", b"M:", b"BRB L", b"BRW M", b"BNEQ L", b"MOVL L^L,R0", b"MOVAB B^M,R1", b"JMP @W^L", b".long L", b".long M",
    b"; nothing", b"", b"  NOP ; x", b"MOVL R1[R2],R0", b"CLRQ SP", b"CLRQ FP", b".byte ^X1FF", b".word 65535", b"NOP ",
    b"MOVB S^#64,R0", b"MOVB I^#^XFF,R0", b"PUSHL (PC)", b"PUSHL B^4(PC)", b"TSTL @#L", b"TSTL B^L[R3]", b"WAIT",
    b"BBSS S^#3,I^#^X7,L", b"SOBGTR R1,L1", b"MOVQ I^#^X123456789ABCDEF0,R2", b"ADDL2  R1,R2", b"ADDL2 R1, R2",
]  # fmt: skip


def load_case(random) -> Case:
    return Case({}, [["load", str(random.getrandbits(32))]])


KINDS = {run_case: 40, live_case: 10, solo_case: 10, tables_case: 20, tests_case: 10, text_case: 15, audit_case: 5, assembler_case: 10}
SNAPSHOT_KINDS = {snapshot_case: 60, run_case: 20, text_case: 20}


def draw_case(seed: int, kinds: dict) -> Case:
    random = randoms.Random(seed)
    return random.choices(list(kinds), list(kinds.values()))[0](random)


def has_snapshots(program: str) -> bool:
    """Whether a program knows `save`, `resume` and `extend`."""
    told = subprocess.run([program, "--help"], capture_output=True, check=False)
    return b"vvmm extend " in told.stdout


def given_of(files: dict) -> Given:
    volumes = {int(name[5:7]): blocks_of(data) for name, data in files.items() if name.endswith(".vol")}
    return Given(files=dict(files), volumes=volumes)


def compare_case(case: Case, program: str, folder: str) -> list:
    """The differences of one case, whose files are put into `folder`, where the program runs."""
    files, differences = dict(case.files), []
    write_files(folder, files)
    for words in case.calls:
        difference, changed = compare_call(files, words, program, folder, case.keys)
        files |= changed
        files = {name: data for name, data in files.items() if data or name not in changed}
        if difference:
            differences.append(" ".join(words) + ": " + difference)
    return differences


def write_files(folder: str, files: dict) -> None:
    for name, data in files.items():
        with open(os.path.join(folder, name), "wb") as file:
            file.write(data)


def compare_call(files: dict, words: list, program: str, folder: str, keys: bytes):
    """The first difference of a call, and the files as the model leaves them."""
    output = words[-1] if ">" in words else None
    words = words[: words.index(">")] if output else words
    given = given_of(files)
    given.keys = keys
    told = given.tell(words, run, ENDLESS)
    done = subprocess.run([program, *words], cwd=folder, input=keys, capture_output=True, check=False)
    changed = {}
    if words[:1] and words[0] in MAKE_LINES and told.code != 2:
        changed = {"line%02d.out" % number: data for number, data in enumerate(told.lines)}
        changed |= {name: told.drives[int(name[5:7])] for name in files if name.endswith(".vol")}
    difference = first_of(compared(files, words, told, done, changed, folder))
    if output:
        changed[output] = told.out
        write_files(folder, {output: told.out})
    return difference, changed


def compared(files: dict, words: list, told, done, changed: dict, folder: str):
    """Names of what is compared, with the model's bytes and the program's."""
    yield "exit code", b"%d" % told.code, b"%d" % done.returncode
    message = ("vvmm: " + told.text + "\n").encode() if told.code else b""
    if words[:1] == ["live"] and told.code in (0, 10, 11, 19):
        yield "standard error", told.errors + message, done.stderr
    else:
        yield "standard error", message, done.stderr.split(b"\n")[0] + b"\n" if done.stderr else b""
    if words[:1] != ["migrate"]:
        yield "standard output", told.out, done.stdout
    elif told.code == 0 and not same_meaning(files[words[1]], done.stdout):
        yield "migrated text", told.out, done.stdout
    for name, data in changed.items():
        yield name, data, content(folder, name)


def first_of(pairs):
    for name, ours, theirs in pairs:
        difference = first_difference(ours, theirs, ("model", "program"))
        if difference:
            return name + ", " + difference
    return None


def same_meaning(first: bytes, second: bytes) -> bool:
    try:
        return read_config(first) == read_config(second)
    except Refused:
        return False


def content(folder: str, name: str) -> bytes:
    path = os.path.join(folder, name)
    if not os.path.isfile(path):
        return b""
    with open(path, "rb") as file:
        return file.read(LARGEST_FILE)


def fuzz(first_seed: int, count: int, program: str, snapshots: bool, tell=print) -> int:
    """Compares `count` cases; how many differ. A case that does leaves its files."""
    different = 0
    kinds = SNAPSHOT_KINDS if snapshots else KINDS
    for seed in range(first_seed, first_seed + count):
        folder = tempfile.mkdtemp(prefix="vvmm-fuzz-%d-" % seed)
        differences = compare_case(draw_case(seed, kinds), os.path.abspath(program), folder)
        if not differences:
            shutil.rmtree(folder)
            continue
        different += 1
        again = "model/fuzz %s%d 1" % ("snapshots " * snapshots, seed)
        tell("seed %d differs (`%s`); its files are in %s" % (seed, again, folder))
        for difference in differences:
            tell("  " + difference)
    return different
