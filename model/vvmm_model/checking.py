"""Everything whose bytes are known, compared with the model and, where one is given, with a program."""

import importlib
import multiprocessing
import os
import re
import shutil
import tempfile

from .asm import assemble
from .cases import Player, Unreadable, can_be_parted, read_file
from .differences import first_difference
from .examples import ENDLESS, EXAMPLES, calls_of, expected_by_model, files_of, keys_of, place_of, read
from .fuzzing import Case, compare_case, given_of, has_snapshots
from .guest_cases import check_guest_cases
from .purge_checks import check_purge
from .system import run
from .workload import workload

PARTS = 4


def check_example(root: str, number: int, program) -> list:
    """What is compared of an example: pairs of a title and a list of differences."""
    example = EXAMPLES[number]
    made = expected_by_model(root, example)
    results = []
    wanted = sorted(os.listdir(os.path.join(root, example.folder, "expected"))) + example.images
    for name in sorted(set(wanted) | made.keys()):
        path = place_of(root, example, name)
        data = read(path) if os.path.exists(path) else b""
        difference = first_difference(data, made.get(name, b""))
        results.append(("%s/%s" % (example.folder, name), [difference] if difference else []))
    if program:
        files = files_of(root, example)
        case = Case(files, list(calls_of(example).values()), keys_of(files))
        results.append((example.folder + " by the program", compare_in_folder(case, program)))
    return results


def check_parts(root: str, number: int, program) -> list:
    """An example in parts: saved after some of its rounds, extended by one where more are left, and resumed. Its lines and drives
    come out the same."""
    example = EXAMPLES[number]
    results = []
    for rounds in sorted({1, example.rounds // 2} & set(range(1, example.rounds))):
        left = example.rounds - rounds
        calls = [["save", "config", "script", str(rounds), ">", "snap"]]
        if left > 1:
            calls.append(["extend", "snap", "script", "1", ">", "more"])
        calls.append(["resume", calls[-1][-1], "script", str(left - len(calls) + 1)])
        differences = parts_differ(root, example, calls)
        if program and has_snapshots(program):
            differences += compare_in_folder(Case(files_of(root, example), calls), program)
        results.append(("%s saved after round %d" % (example.folder, rounds), differences))
    return results


def parts_differ(root: str, example, calls: list) -> list:
    files = files_of(root, example)
    lines = [b""] * 32
    for call in calls:
        told = given_of(files).tell(call[:4], run, ENDLESS)
        files[call[-1]] = told.out
        lines = [before + shown for before, shown in zip(lines, told.lines)]
    made = {"line%02d.out" % k: lines[k] for k in range(32)}
    made |= {"drive%02d.vol" % k: told.drives[k] for k in example.drives}
    differences = []
    for name, data in made.items():
        path = place_of(root, example, name)
        differences.append(first_difference(read(path) if os.path.exists(path) else b"", data))
    return [difference for difference in differences if difference]


def check_sources(root: str, program) -> list:
    """The two sources that stand by themselves: of `hello`, and of what each guest of a generated workload runs."""
    images = {"hello.s": read(root, "hello"), "workload.s": workload(0).images[0]}
    results = []
    for name, image in images.items():
        difference = first_difference(image, assemble(read(root, name)))
        results.append((name, [difference] if difference else []))
    if program:
        case = Case({"hello": images["hello.s"]}, [["solo", "hello", "10"], ["dis", "hello"]])
        results.append(("hello by the program", compare_in_folder(case, program)))
    return results


def compare_in_folder(case: Case, program: str) -> list:
    folder = tempfile.mkdtemp(prefix="vvmm-check-")
    try:
        return compare_case(case, program, folder)
    finally:
        shutil.rmtree(folder)


def check_case_file(folder: str, name: str, part: int, parts: int, program) -> list:
    def compare(given, words, told):
        files = dict(given.files)
        files |= {"drive%02d.vol" % number: b"".join(blocks) for number, blocks in given.volumes.items()}
        differences = compare_in_folder(Case(files, [words], given.keys), program)
        return "program: " + differences[0] if differences else None

    player = Player(folder, compare if program else None)
    return list(player.play(name, part, parts))


def tasks_of(root: str, program) -> list:
    """Names with what is done for them, the longest work first."""
    folder = os.path.join(root, "crates/test_vvmm_cases/data")
    examples = os.path.join(root, "examples")
    tasks = [("examples", check_example, (examples, number, program)) for number in range(len(EXAMPLES))]
    tasks += [("examples", check_parts, (examples, number, program)) for number in range(len(EXAMPLES))]
    tasks.append(("examples", check_sources, (examples, program)))
    names = [name for name in sorted(os.listdir(folder)) if name.endswith(".cases") and name != "wrong.cases"]
    tasks += [(name + ", purged by the model", check_purge, (folder, name)) for name in names if name.startswith("purge_")]
    for name in names:
        statements = read_file(folder, name)
        parts = PARTS if can_be_parted(statements) and is_long(statements) else 1
        tasks += [(name, check_case_file, (folder, name, part, parts, program)) for part in range(parts)]
    guests = os.path.join(root, "crates/test_vm_cases/data")
    names = [name for name in sorted(os.listdir(guests)) if name not in ("wrong.cases", "tables.cases")]
    tasks += [(name + " of a guest", check_guest_cases, (guests, name)) for name in names]
    tasks.append(("definitions", check_definitions, (root,)))
    return sorted(tasks, key=lambda task: "load" not in task[0])


def is_long(statements: list) -> bool:
    return sum(statement.words[:2] == ["call", "load"] for statement in statements) > 1


def do_task(task) -> tuple:
    name, work, arguments = task
    try:
        return name, work(*arguments)
    except Unreadable as unreadable:
        return name, [("all", ["can't be read: %s" % unreadable])]


def check_all(root: str, program, tell=print) -> int:
    """Tells for each file how many agree, and each first difference; how many don't agree."""
    results = {}
    with multiprocessing.Pool(min(PARTS, os.cpu_count() or 1)) as pool:
        for name, told in pool.imap_unordered(do_task, tasks_of(root, program)):
            results.setdefault(name, []).extend(told)
    agreed = different = 0
    for name in sorted(results):
        wrong = [(title, differences[0]) for title, differences in results[name] if differences]
        count = len(results[name])
        tell("%s: %d of %d agree" % (name, count - len(wrong), count))
        for title, difference in wrong:
            tell("  %s: %s" % (title, difference))
        agreed, different = agreed + count - len(wrong), different + len(wrong)
    tell("%d agree, %d differ" % (agreed, different))
    return different


def titles_of(task, only: str = ""):
    """The titles of a task with their differences, one after another; of a case file, of `only` one case."""
    _, work, arguments = task
    if work is not check_case_file:
        return work(*arguments)
    folder, name, part, parts, program = arguments
    return Player(folder).play(name, part, parts, only)



def check_definitions(root: str) -> list:
    """The table of the definitions and the model's functions: each file and each function is there, and each file that `Says` needs."""
    with open(os.path.join(root, "model/DEFINITIONS.md"), encoding="utf-8") as file:
        rows = [line.strip("|\n ").split(" | ") for line in file if line.startswith("| `")]
    results = []
    for files, _, functions in rows:
        lacking = [name for name in re.findall("`([^`]+)`", files) if not os.path.exists(os.path.join(root, "crates", name))]
        lacking += [name for name in re.findall(r"`([a-z_]+\.\w[\w.]*)`", functions) if not stands(name)]
        results.append((files, ["there is no " + name for name in lacking]))
    listed = {name for files, _, _ in rows for name in re.findall("`([^`]+)`", files)}
    results += [(name, ["no row has it"]) for name in needed_by(root, "vvmm_call/specs/Answer.antt") if name not in listed]
    return results


def needed_by(root: str, name: str) -> list:
    """The files of definitions that a file needs, and itself: those that it imports, and so on."""
    needed = [name]
    for one in needed:
        with open(os.path.join(root, "crates", one), encoding="utf-8") as file:
            found = re.findall(r"^use Rattle\.(\w+)\.specs\.(\w+)", file.read(), re.M)
        imported = [f"{crate}/specs/{part}.antt" for crate, part in found]
        needed += [file for file in dict.fromkeys(imported) if file not in needed and os.path.exists(os.path.join(root, "crates", file))]
    return needed


def stands(name: str) -> bool:
    """Whether the model has a function or a table of this name."""
    module, *parts = name.split(".")
    if not os.path.exists(os.path.join(os.path.dirname(__file__), module + ".py")):
        return False
    thing = importlib.import_module("vvmm_model." + module)
    for part in parts:
        thing = getattr(thing, part, None)
    return thing is not None
