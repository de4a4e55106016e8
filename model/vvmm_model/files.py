"""The outside as files of the folder where the program is called: what it reads, makes and leaves."""

import os
import sys

from .outside import LONGEST_KEYS, DeviceFault, Missing, TooLong
from .texts import LARGEST_FILE


class FileShelf:
    def fetch(self, name: str) -> bytes:
        try:
            with open(name, "rb") as file:
                data = file.read(LARGEST_FILE + 1)
        except (FileNotFoundError, NotADirectoryError):
            raise Missing
        except OSError:
            raise DeviceFault
        if len(data) > LARGEST_FILE:
            raise TooLong
        return data


class FileLine:
    """`lineNN.out`, made at its first byte; what an earlier run left there goes at once."""

    def __init__(self, number: int):
        self.name = "line%02d.out" % number
        self.file = None

    def clear(self) -> None:
        if os.path.isfile(self.name) and not os.path.islink(self.name):
            os.remove(self.name)

    def put(self, data: bytes) -> None:
        try:
            if self.file is None:
                descriptor = os.open(self.name, os.O_CREAT | os.O_EXCL | os.O_WRONLY, 0o600)
                self.file = os.fdopen(descriptor, "wb")
            self.file.write(data)
            self.file.flush()
        except OSError:
            raise DeviceFault


class FileDrive:
    """`driveNN.vol`; a file that isn't there is a drive without blocks."""

    def __init__(self, number: int):
        self.name = "drive%02d.vol" % number

    def size(self) -> int:
        return os.path.getsize(self.name) // 512 if os.path.isfile(self.name) else 0

    def get(self, block: int) -> bytes:
        try:
            if os.path.getsize(self.name) % 512:
                raise DeviceFault
            with open(self.name, "r+b") as file:
                file.seek(512 * block)
                return file.read(512)
        except OSError:
            raise DeviceFault

    def set(self, block: int, data: bytes) -> None:
        try:
            with open(self.name, "r+b") as file:
                file.seek(512 * block)
                file.write(data)
        except OSError:
            raise DeviceFault


class Keyboard:
    """Standard input, line by line."""

    def next(self):
        try:
            line = sys.stdin.buffer.readline()
        except OSError:
            raise DeviceFault
        if line.endswith(b"\n"):
            return line[:-1].removesuffix(b"\r")[:LONGEST_KEYS]
        return line[:LONGEST_KEYS] or None


class Output:
    """Standard output; or standard error."""

    def __init__(self, stream=None):
        self.stream = (stream or sys.stdout).buffer

    def put(self, data: bytes) -> None:
        try:
            self.stream.write(data)
            self.stream.flush()
        except OSError:
            raise DeviceFault
