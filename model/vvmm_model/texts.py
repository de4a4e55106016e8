"""Numbers and names as words, scripts, commands and configurations spell them."""

LARGEST_FILE = 16_777_216
WORD = 0xFFFFFFFF


def read_decimal(text: bytes, largest: int) -> int | None:
    """The number of one or more digits without a needless leading zero, if it is at most `largest`."""
    if not text or not all(0x30 <= byte <= 0x39 for byte in text):
        return None
    if text[0] == 0x30 and len(text) > 1:
        return None
    if len(text) > 20:
        return None
    number = int(text)
    return number if number <= largest else None


def is_object_name(text: bytes) -> bool:
    """1 to 8 characters of A-Z and 0-9 that begin with a letter."""
    capital = lambda byte: 0x41 <= byte <= 0x5A
    digit = lambda byte: 0x30 <= byte <= 0x39
    return 1 <= len(text) <= 8 and capital(text[0]) and all(capital(b) or digit(b) for b in text)


def is_file_name(text: bytes) -> bool:
    """1 to 64 graphic characters (hexadecimal 21 to 7E)."""
    return 1 <= len(text) <= 64 and all(0x21 <= byte <= 0x7E for byte in text)
