"""The examples: what must come of each, and what the model says comes of it."""

import os
from dataclasses import dataclass

from .cases import Given
from .outside import blocks_of
from .system import run

ENDLESS = 1 << 62


@dataclass
class Example:
    """A folder of examples: its rounds, the blocks of its drives, its images with their sources, and whether there is also a
    file of what may be typed in place of the script."""

    folder: str
    rounds: int
    drives: dict
    images: list
    is_typed: bool = False


EXAMPLES = [
    Example("two-levels", 6, {0: 2}, ["public", "secret"], True),
    Example("timesharing", 10, {}, ["kernel"]),
    Example("page-fault", 1, {}, ["pager"]),
    Example("small-system", 1, {}, ["system"]),
    Example("misbehaving", 8, {0: 1}, ["low", "rogue", "high"]),
    Example("typing", 4, {}, ["adder"]),
]


def read(*path: str) -> bytes:
    with open(os.path.join(*path), "rb") as file:
        return file.read()


def files_of(root: str, example: Example) -> dict:
    """The files that stand in the example's folder before it is run."""
    folder = os.path.join(root, example.folder)
    names = [name for name in sorted(os.listdir(folder)) if os.path.isfile(os.path.join(folder, name))]
    files = {name: read(folder, name) for name in names if not name.endswith((".out", ".vol", ".md"))}
    return files | {"drive%02d.vol" % number: bytes(512 * blocks) for number, blocks in example.drives.items()}


def calls_of(example: Example) -> dict:
    """The file that each call's output makes, with the call's words."""
    calls = {"summary": ["run", "config", "script", str(example.rounds)], "flow.svg": ["draw", "config"]}
    if example.is_typed:
        calls["shown"] = ["live", "config", str(example.rounds)]
    return calls | {image: ["asm", image + ".s"] for image in example.images}


def keys_of(files: dict) -> bytes:
    """What is typed at the calls."""
    return files.get("typed", b"")


def expected_by_model(root: str, example: Example) -> dict:
    """All that comes of an example: the lines, the drives, and each call's output."""
    files = files_of(root, example)
    volumes = {number: blocks_of(bytes(512 * n)) for number, n in example.drives.items()}
    given = Given(files=files, volumes=volumes, keys=keys_of(files))
    made = {}
    for name, words in calls_of(example).items():
        told = given.tell(words, run, ENDLESS)
        made[name] = told.out
        if words[0] == "run":
            made |= {"line%02d.out" % number: data for number, data in enumerate(told.lines) if data}
            made |= {"drive%02d.vol" % number: told.drives[number] for number in example.drives}
    return made


def place_of(root: str, example: Example, name: str) -> str:
    """Where a file that comes of an example stands: an image beside its source, all else among the expected."""
    inner = [name] if name in example.images else ["expected", name]
    return os.path.join(root, example.folder, *inner)
