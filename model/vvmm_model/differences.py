"""The first difference of two byte strings, in words."""


def first_difference(wanted: bytes, shown: bytes, names=("wanted", "shown")):
    if wanted == shown:
        return None
    shorter = min(len(wanted), len(shown))
    place = next((k for k in range(shorter) if wanted[k] != shown[k]), shorter)
    begin = wanted.rfind(b"\n", 0, place) + 1
    begin = max(begin, place - 40)
    piece = lambda data: ascii(bytes(data[begin : place + 40]).decode("latin-1"))
    return "from byte %d: %s %s, %s %s" % (place, names[0], piece(wanted), names[1], piece(shown))
