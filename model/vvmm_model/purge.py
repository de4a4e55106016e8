"""What is left of a configuration and a script where all goes whose class doesn't flow into a class."""

from dataclasses import replace

from .classes import AccessClass, flows
from .config import Config, Mount


def kept(objects: list, to: AccessClass) -> dict:
    """The numbers of the objects that stay, with their new numbers."""
    numbers = [number for number, item in enumerate(objects) if flows(item.access, to)]
    return {old: new for new, old in enumerate(numbers)}


def purge_config(config: Config, to: AccessClass) -> Config:
    terminals, volumes = kept(config.terminals, to), kept(config.volumes, to)
    printers, guests = kept(config.printers, to), kept(config.guests, to)

    def purge_guest(row):
        mounts = [mount and Mount(volumes[mount.volume], mount.write) for mount in row.mounts]
        console = None if row.console is None else terminals[row.console]
        return replace(row, console=console, printer=printers.get(row.printer), mounts=mounts)

    return Config(
        slice=config.slice,
        audit=config.audit if config.audit and flows(config.audit.access, to) else None,
        terminals=[config.terminals[number] for number in terminals],
        volumes=[config.volumes[number] for number in volumes],
        printers=[config.printers[number] for number in printers],
        guests=[purge_guest(config.guests[number]) for number in guests],
    )


def purge_events(config: Config, events: list, to: AccessClass) -> list:
    classes = {terminal.name: terminal.access for terminal in reversed(config.terminals)}
    return [event for event in events if event.terminal in classes and flows(classes[event.terminal], to)]


def purge_list(objects: list, values: list, to: AccessClass) -> list:
    """The images of the guests, or the blocks of the volumes, that stay."""
    return [value for item, value in zip(objects, values) if flows(item.access, to)]
