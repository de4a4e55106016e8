"""A configuration as a text of version 2."""

from .config import Config


def string(text: str) -> str:
    return '"' + text.replace("\\", "\\\\").replace('"', '\\"') + '"'


def value_text(value) -> str:
    if isinstance(value, bool):
        return "true" if value else "false"
    if isinstance(value, str):
        return string(value)
    return "[]" if value == [] else str(value)


def table_text(table: dict, path: str) -> str:
    """Keys in their order, plain values before tables."""
    is_table = lambda value: isinstance(value, dict) or (isinstance(value, list) and value != [])
    text = "".join("%s = %s\n" % (key, value_text(table[key])) for key in sorted(table) if not is_table(table[key]))
    for key in sorted(table):
        value = table[key]
        inner = path + "." + key if path else key
        if isinstance(value, dict):
            text += "\n[%s]\n" % inner + table_text(value, inner)
        elif is_table(value):
            text += "".join("\n[[%s]]\n" % inner + table_text(row, inner) for row in value)
    return text


def migrate_text(config: Config) -> str:
    table = {
        "version": 2,
        "slice": config.slice,
        "terminal": [row_of(item, line=item.line) for item in config.terminals],
        "volume": [row_of(item, drive=item.drive, blocks=item.blocks) for item in config.volumes],
        "printer": [row_of(item, line=item.line) for item in config.printers],
        "guest": [guest_of(config, row) for row in config.guests],
    }
    if config.audit:
        table["audit"] = {"line": config.audit.line, "class": config.audit.access.text()}
    return table_text(table, "")


def row_of(item, **more) -> dict:
    return {"name": item.name, "class": item.access.text(), **more}


def guest_of(config: Config, row) -> dict:
    table = row_of(row, pages=row.pages, image=row.image, load=row.load, start=row.start, autostart=row.autostart)
    table |= {"modify": "fault" if row.modify_faults else "set", "quantum": row.quantum}
    if row.console is not None:
        table["console"] = config.terminals[row.console].name
    if row.printer is not None:
        table["printer"] = config.printers[row.printer].name
    if row.dump is not None:
        table["dump"] = row.dump
    table["mount"] = [
        {"unit": unit, "volume": config.volumes[mount.volume].name, "write": mount.write}
        for unit, mount in enumerate(row.mounts)
        if mount
    ]
    return table
