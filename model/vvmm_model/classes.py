"""Access classes: secrecy and integrity, each a level and a set of categories, written as `2{1,5};0{}`."""

from dataclasses import dataclass


@dataclass(frozen=True)
class AccessClass:
    secrecy: int
    secrecy_categories: frozenset
    integrity: int
    integrity_categories: frozenset

    def text(self) -> str:
        half = lambda level, categories: "%d{%s}" % (level, ",".join(map(str, sorted(categories))))
        return half(self.secrecy, self.secrecy_categories) + ";" + half(self.integrity, self.integrity_categories)


def flows(a: AccessClass, b: AccessClass) -> bool:
    """Whether information of `a` may go to `b`: secrecy may rise, integrity may fall."""
    return (
        a.secrecy <= b.secrecy
        and a.secrecy_categories <= b.secrecy_categories
        and b.integrity <= a.integrity
        and b.integrity_categories <= a.integrity_categories
    )


def read_class(text: str) -> AccessClass | None:
    """The class of a text; levels are 0 to 255, categories 0 to 63 and rising."""
    halves = text.split(";")
    if len(halves) != 2:
        return None
    read = [read_half(half) for half in halves]
    if None in read:
        return None
    return AccessClass(*read[0], *read[1])


def read_half(text: str):
    level, brace, rest = text.partition("{")
    if not brace or not rest.endswith("}"):
        return None
    number = plain_number(level, 255)
    parts = rest[:-1].split(",") if rest != "}" else []
    categories = [plain_number(part, 63) for part in parts]
    if number is None or None in categories:
        return None
    if any(a >= b for a, b in zip(categories, categories[1:])):
        return None
    return number, frozenset(categories)


def plain_number(text: str, largest: int) -> int | None:
    if not text or len(text) > 3 or any(c not in "0123456789" for c in text):
        return None
    if text[0] == "0" and len(text) > 1:
        return None
    return int(text) if int(text) <= largest else None


def class_of(text: str) -> AccessClass:
    result = read_class(text)
    assert result is not None, text
    return result
