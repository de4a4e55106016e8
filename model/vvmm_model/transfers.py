"""Transfers at a round's end: packets that read and write blocks of volumes, or print."""

READ, WRITE, PRINT = 1, 2, 3
DONE, NO_UNIT, READ_ONLY, NO_BLOCK, BAD_BUFFER, BAD_FUNCTION = 1, 3, 4, 5, 6, 7
BLOCK = 512
LONGEST_JOB = 132


def transfer(g, mounts: list, volumes: list, print_line) -> None:
    """Does the guest's queued packets; `volumes` are lists of blocks, `print_line` takes a job's text."""
    packets, g.queue = g.queue, []
    for packet in packets:
        fields = g.longs[packet // 4 : packet // 4 + 5].tolist()
        status = do_packet(g, fields, mounts, volumes, print_line)
        g.longs[packet // 4 + 5] = status
        g.kcall_due = True


def do_packet(g, fields: list, mounts: list, volumes: list, print_line) -> int:
    function, unit, block, buffer, length = fields
    if function == PRINT:
        if length > LONGEST_JOB or buffer + length > g.size:
            return BAD_BUFFER
        print_line(bytes(g.memory[buffer : buffer + length]))
        return DONE
    if function not in (READ, WRITE):
        return BAD_FUNCTION
    mount = mounts[unit] if unit < 4 else None
    if mount is None:
        return NO_UNIT
    if function == WRITE and not mount.write:
        return READ_ONLY
    blocks = volumes[mount.volume]
    if block >= len(blocks):
        return NO_BLOCK
    if buffer + BLOCK > g.size:
        return BAD_BUFFER
    if function == READ:
        g.memory[buffer : buffer + BLOCK] = blocks[block]
    else:
        blocks[block] = bytes(g.memory[buffer : buffer + BLOCK])
    return DONE


def print_job(access, guest: str, text: bytes) -> bytes:
    shown = bytes(byte if 0x20 <= byte <= 0x7E else 0x2E for byte in text)
    return ("%s %s: " % (access.text(), guest)).encode() + shown + b"\r\n"
