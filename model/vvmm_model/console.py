"""The console's registers: typed bytes that wait, bytes that are shown, and the requests of both sides."""

MOST_WAITING = 256
ENABLE, READY = 0x40, 0x80


class Console:
    def __init__(self):
        self.waiting = []
        self.receive_enable = False
        self.transmit_enable = False
        self.receive_request = False
        self.transmit_request = False

    def type_byte(self, byte: int) -> None:
        if len(self.waiting) == MOST_WAITING:
            return
        self.waiting.append(byte)
        if len(self.waiting) == 1 and self.receive_enable:
            self.receive_request = True

    def read_rxcs(self) -> int:
        return (READY if self.waiting else 0) | (ENABLE if self.receive_enable else 0)

    def read_rxdb(self) -> int:
        byte = self.waiting.pop(0) if self.waiting else 0
        if not self.waiting:
            self.receive_request = False
        elif self.receive_enable:
            self.receive_request = True
        return byte

    def read_txcs(self) -> int:
        return READY | (ENABLE if self.transmit_enable else 0)

    def write_rxcs(self, value: int) -> None:
        enable = bool(value & ENABLE)
        if not enable:
            self.receive_request = False
        elif not self.receive_enable and self.waiting:
            self.receive_request = True
        self.receive_enable = enable

    def write_txcs(self, value: int) -> None:
        enable = bool(value & ENABLE)
        if not enable:
            self.transmit_request = False
        elif not self.transmit_enable:
            self.transmit_request = True
        self.transmit_enable = enable

    def sent(self) -> None:
        if self.transmit_enable:
            self.transmit_request = True
