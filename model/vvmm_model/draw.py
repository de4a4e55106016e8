"""A configuration's picture in SVG: a box for each object, and an arrow for each edge of its flow.

Boxes stand in rows by rank: it rises with secrecy and falls with integrity, levels and counts of categories added up,
and within a rank printers and terminals stand above guests, and these above volumes.
"""

from .config import Config
from .flow import edges

# word, fill, colour of the arrows, and place within a rank
TERMINAL = ("terminal", "#cfe2f7", "#1f5fa8", 2)
VOLUME = ("volume", "#d8ecd0", "#3a7d2c", 0)
PRINTER = ("printer", "#eadcf0", "#000000", 2)
GUEST = ("guest", "#fff2c4", "#b07a00", 1)
AUDIT = ("audit", "#ffffff", "#000000", 3)
HEAD = (
    '<defs><marker id="head" viewBox="0 0 8 8" refX="8" refY="4" markerWidth="8" markerHeight="8" orient="auto">'
    '<path d="M0 0L8 4L0 8z"/></marker></defs>\n'
)


class Box:
    def __init__(self, look, name: str, access):
        self.word, self.fill, self.ink, within = look
        self.name = name
        self.access = access
        levels = access.secrecy + len(access.secrecy_categories)
        levels += 255 - access.integrity + 64 - len(access.integrity_categories)
        self.height = 4 * levels + within


def boxes_of(config: Config) -> list:
    boxes = []
    for look, objects in (
        (TERMINAL, config.terminals),
        (VOLUME, config.volumes),
        (PRINTER, config.printers),
        (GUEST, config.guests),
    ):
        boxes += [Box(look, item.name, item.access) for item in objects]
    if config.audit:
        boxes.append(Box(AUDIT, "*", config.audit.access))
    return boxes


def place_boxes(boxes: list, quarter: int) -> None:
    """Rows from the highest down; in a row boxes of one class stand together, and rows of a kind are shifted."""
    rows = sorted({box.height for box in boxes}, reverse=True)
    first = {}
    for number, box in enumerate(boxes):
        first.setdefault(box.access, number)
    order = [(first[box.access], number) for number, box in enumerate(boxes)]
    for number, box in enumerate(boxes):
        column = sum(
            1 for other, key in zip(boxes, order) if other.height == box.height and key < order[number]
        )
        box.x = 10 + (4 * column + 3 * (3 - box.height % 4)) * quarter
        box.y = 10 + 96 * rows.index(box.height)


def arrow(a: Box, b: Box, half: int) -> str:
    """From the upper to the lower border, or back."""
    if b.y < a.y:
        ends = (a.x + half + 10, a.y, b.x + half + 10, b.y + 48)
    else:
        ends = (a.x + half - 10, a.y + 48, b.x + half - 10, b.y)
    line = '<line x1="%d" y1="%d" x2="%d" y2="%d" stroke="%s" marker-end="url(#head)"/>\n'
    return line % (*ends, a.ink)


def box_text(box: Box, half: int) -> str:
    text = '<rect x="%d" y="%d" width="%d" height="48" rx="4" fill="%s" fill-opacity="0.8" stroke="black"/>'
    text %= (box.x, box.y, 2 * half, box.fill)
    for down, word in ((14, box.word), (29, box.name), (43, box.access.text())):
        text += '<text x="%d" y="%d">%s</text>' % (box.x + half, box.y + down, word)
    return text + "\n"


def drawing(config: Config) -> str:
    boxes = boxes_of(config)
    letters = max([8] + [len(box.access.text()) for box in boxes])
    half, quarter = 4 * letters + 6, 2 * letters + 8
    place_boxes(boxes, quarter)
    width = max([box.x for box in boxes], default=0) + 4 * quarter
    height = max([box.y for box in boxes], default=0) + 58
    text = '<svg xmlns="http://www.w3.org/2000/svg" width="%d" height="%d" font-family="monospace"' % (width, height)
    text += ' font-size="13" text-anchor="middle">\n' + HEAD
    text += "".join(arrow(boxes[a], boxes[b], half) for a, b in sorted(edges(config)))
    return text + "".join(box_text(box, half) for box in boxes) + "</svg>\n"
