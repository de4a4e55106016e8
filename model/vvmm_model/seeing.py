"""Which worked case sees a change of the model's rules."""

import multiprocessing
import os
import signal
import time

from .noting import NOTED, load_with
from .turning import changes_of, modules_of_rules

# A changed rule may make a guest's loop endless: so a task is given up after SECONDS, and after TIMES what it takes.
SECONDS, TIMES = 3, 6
# of those tasks in which a change makes a difference at its place, the shortest are tried, as far as they take MOST_SECONDS
MOST_SECONDS = 12
ARROW, NONE = " => ", "none"


def begin_notes() -> None:
    load_with()


def note_task(given: tuple) -> tuple:
    """A task with its seconds, and the changes that make a difference at their places in it, or while the model is loaded."""
    root, number = given
    from .checking import do_task, tasks_of

    tasks = tasks_of(root, None)
    at_first = sorted(NOTED)
    NOTED.clear()
    begin = time.process_time()
    do_task(tasks[number])
    return number, time.process_time() - begin, sorted(NOTED), at_first


def noted_tasks(root: str, numbers: list, workers: int) -> list:
    with multiprocessing.Pool(workers, begin_notes, maxtasksperchild=1) as pool:
        return sorted(pool.imap_unordered(note_task, [(root, number) for number in numbers], chunksize=1))


def tasks_for(change, notes: list) -> list:
    """The tasks in which a change may be seen, the shortest first, each with its seconds."""
    key = (change.module, change.number)
    tasks, total = [], 0.0
    for number, seconds, noted, at_first in sorted(notes, key=lambda note: note[1]):
        total += seconds if key in noted or key in at_first else 0
        if (key in noted or key in at_first) and (total < MOST_SECONDS or not tasks):
            tasks.append((number, seconds))
    return tasks


def give_up(number, frame):
    raise TimeoutError


def seen_by(given: tuple) -> tuple:
    """A change, and the first case that tells a difference with it, or fails, or doesn't end; None where all agree."""
    root, change, tasks, only = given
    load_with(change)
    signal.signal(signal.SIGPROF, give_up)
    where = "the model, which can't be loaded"
    try:
        from .checking import tasks_of, titles_of

        everything = tasks_of(root, None)
        for number, seconds in tasks:
            where = everything[number][0]
            signal.setitimer(signal.ITIMER_PROF, SECONDS + TIMES * seconds)
            for title, differences in titles_of(everything[number], only):
                if differences:
                    return change, "%s: %s" % (where, title)
    except BaseException as error:
        return change, "%s (%s)" % (where, type(error).__name__)
    finally:
        signal.setitimer(signal.ITIMER_PROF, 0)
    return change, None


def seen(root: str, work: list, workers: int):
    """Pairs of a change and the case that sees it, for each change with its tasks and the one case to try, if one alone is to be
    tried; each change in a process of its own."""
    with multiprocessing.Pool(workers, maxtasksperchild=1) as pool:
        yield from pool.imap_unordered(seen_by, [(root, *one) for one in work], chunksize=1)


def all_changes(modules: list) -> list:
    return [change for module in modules or modules_of_rules() for change in changes_of(module)]


def read_list(path: str) -> dict:
    """By the name of a change the case that sees it, or why none does."""
    if not os.path.exists(path):
        return {}
    with open(path, encoding="utf-8") as file:
        lines = [line.rstrip("\n") for line in file if ARROW in line]
    return dict(line.rsplit(ARROW, 1) for line in lines)
