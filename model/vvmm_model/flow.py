"""Which object's inputs may reach which: edges, and their closure."""

from .classes import flows
from .config import Config


def names_of(config: Config) -> list:
    """The objects in their order; the audit is shown as a star."""
    return [item.name for item in config.objects()] + (["*"] if config.audit else [])


def edges(config: Config) -> set:
    """Pairs of objects' numbers, from one to those that it may reach at one step."""
    terminals, volumes = len(config.terminals), len(config.volumes)
    first_volume = terminals
    first_printer = terminals + volumes
    first_guest = first_printer + len(config.printers)
    audit = first_guest + len(config.guests)
    found = set()
    for t, terminal in enumerate(config.terminals):
        if config.audit:
            found.add((t, audit))
        for g, guest in enumerate(config.guests, first_guest):
            if terminal.access == guest.access:
                found.add((t, g))
            if flows(guest.access, terminal.access):
                found.add((g, t))
    for g, guest in enumerate(config.guests, first_guest):
        if guest.printer is not None:
            found.add((g, first_printer + guest.printer))
        served = any(terminal.access == guest.access for terminal in config.terminals)
        for v, volume in enumerate(config.volumes):
            mounts = [mount for mount in guest.mounts if mount and mount.volume == v]
            if mounts or (served and flows(volume.access, guest.access)):
                found.add((first_volume + v, g))
            if any(mount.write for mount in mounts) or (served and volume.access == guest.access):
                found.add((g, first_volume + v))
    return found


def reached(config: Config) -> list:
    """For each object the set of those that are reached from it by at least one edge."""
    count = len(names_of(config))
    reach = [{b for a, b in edges(config) if a == start} for start in range(count)]
    grew = True
    while grew:
        grew = False
        for start in range(count):
            more = set().union(*(reach[step] for step in reach[start])) - reach[start] if reach[start] else set()
            if more:
                reach[start] |= more
                grew = True
    return reach


def flow_report(config: Config) -> str:
    names = names_of(config)
    reach = reached(config)
    return "".join(
        "FLOW %s %s\n" % (names[a], names[b])
        for a in range(len(names))
        for b in range(len(names))
        if b != a and b in reach[a]
    )
