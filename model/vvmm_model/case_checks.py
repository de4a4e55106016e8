"""The checks of case files: what a call told, against what it must have told."""

from .differences import first_difference


def check(player, word: str, rest: list, statement):
    """None where the check holds, else what doesn't."""
    told = player.told
    if word == "code":
        asked = (int(rest[0]), " ".join(rest[1:]))
        return None if asked == (told.code, told.text) else "told code %d %s" % (told.code, told.text)
    if word in ("others", "drives"):
        return check_others(player, word, rest)
    shown, relation = bytes_told(player, word, rest)
    return related(player, word, rest, shown, relation, statement)


def bytes_told(player, word: str, rest: list):
    """The bytes that a check speaks of, and the words of its relation."""
    if word in ("out", "errors"):
        return getattr(player.told, word), rest
    number = int(rest[0])
    player.checked.add((word, number))
    return (player.told.lines if word == "line" else player.told.drives)[number], rest[1:]


def of_run(player, run_name: str, word: str, rest: list) -> bytes:
    run = player.runs[run_name]
    if word in ("out", "errors"):
        return getattr(run, word)
    return (run.lines if word == "line" else run.drives)[int(rest[0])]


def related(player, word, rest, shown: bytes, relation: list, statement):
    name, *words = relation
    if name == "is":
        return first_difference(player.content(statement), shown)
    if name == "has":
        return None if player.content(statement) in shown else "these bytes don't stand there"
    if name == "begins":
        wanted = player.content(statement)
        return first_difference(wanted, shown[: len(wanted)])
    if name == "length":
        return None if len(shown) == int(words[0]) else "it has %d bytes" % len(shown)
    if name == "same":
        return first_difference(of_run(player, words[0], word, rest), shown)
    if name == "front":
        return first_difference(of_run(player, words[1], word, rest)[: int(words[0])], shown)
    if name == "mixed":
        whole = of_run(player, words[2], word, rest)
        length = int(words[0])
        return first_difference(whole[:length] + bytes.fromhex(words[1]) * (len(whole) - length), shown)
    if name == "digest":
        return None if digest(shown) == int(words[0]) else "the digest is %d" % digest(shown)
    return "no relation " + name


def digest(data: bytes) -> int:
    number = 0
    for byte in data:
        number = (31 * number + byte) % 2**64
    return number


def check_others(player, word: str, rest: list):
    kind = "line" if word == "others" else "drive"
    told = player.told.lines if kind == "line" else player.told.drives
    for number, shown in enumerate(told):
        if (kind, number) in player.checked:
            continue
        wanted = b""
        if rest[0] == "same":
            run = player.runs[rest[1]]
            wanted = (run.lines if kind == "line" else run.drives)[number]
        difference = first_difference(wanted, shown)
        if difference:
            return "%s %d: %s" % (kind, number, difference)
    return None


def check_texts(player, word: str, rest: list, statement):
    """A call with each text that is made of a file, by a table; the program makes those of each row's ends alone."""
    name, *rest = rest
    whole = player.given.files[name]
    texts = fronts(whole)
    if word == "changes":
        byte, *rest = rest
        texts = changes(whole, bytes.fromhex(byte))
    following = 0
    for first, last, answer in rows_of(player.content(statement)):
        if first != following or not first <= last < len(texts):
            return "the table leaves out %d" % following
        following = last + 1
        for number in range(first, following) if answer else ():
            given = player.given.with_file(name, texts[number])
            told = answer_of(player.tell(given, rest))
            if told != answer:
                return "%d is answered %s" % (number, told)
            difference = player.compared(given, rest) if number in (first, last) else None
            if difference:
                return "%d: %s" % (number, difference)
    return None if following == len(texts) else "the table leaves out %d" % following


def fronts(data: bytes) -> list:
    return [data[:length] for length in range(len(data) + 1)]


def changes(data: bytes, byte: bytes) -> list:
    return [data[:place] + byte + data[place + 1 :] for place in range(len(data))]


def rows_of(table: bytes):
    """First and last number of each row, and the answer, which is empty where nothing is tried."""
    for line in table.decode().splitlines():
        numbers, _, answer = line.partition(" ")
        first, _, last = numbers.partition("-")
        yield int(first), int(last or first), answer


def answer_of(told) -> str:
    """What a table says of a call. One that is refused and shows something has no answer that a table could give."""
    if told.code == 0:
        return ("0 " + told.out.removesuffix(b"\n").decode("latin-1")).rstrip(" ")
    if told.out or any(told.lines):
        return "it is refused and shows something"
    return "%d %s" % (told.code, told.text)
