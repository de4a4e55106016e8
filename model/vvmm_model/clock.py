"""The interval clock: ICCS (control), NICR (next count) and ICR (count)."""

RUN, SINGLE, TRANSFER, ENABLE, INTERRUPT, ERROR = 0x1, 0x20, 0x10, 0x40, 0x80, 0x80000000


class Clock:
    def __init__(self):
        self.iccs = 0
        self.nicr = 0
        self.icr = 0
        self.request = False

    def tick(self) -> None:
        """Counts once, whether it runs or not."""
        self.icr = (self.icr + 1) & 0xFFFFFFFF
        if self.icr:
            return
        self.icr = self.nicr
        if self.iccs & INTERRUPT:
            self.iccs |= ERROR
        self.iccs |= INTERRUPT
        if self.iccs & ENABLE:
            self.request = True

    def write_iccs(self, value: int) -> None:
        if value & ERROR:
            self.iccs &= ~ERROR
        if value & INTERRUPT:
            self.iccs &= ~INTERRUPT
        if value & TRANSFER:
            self.icr = self.nicr
        elif value & SINGLE and not value & RUN:
            self.tick()
        self.iccs = self.iccs & ~RUN | value & RUN
        was_enabled = self.iccs & ENABLE
        self.iccs = self.iccs & ~ENABLE | value & ENABLE
        if not value & ENABLE:
            self.request = False
        elif not was_enabled and self.iccs & INTERRUPT:
            self.request = True
