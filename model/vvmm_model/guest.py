"""One guest on its private virtual VAX: its state, and its step."""

from .arithmetic import ARITHMETIC
from .clock import RUN, Clock
from .console import Console
from .control import CONTROL
from .decoding import ReservedMode, UnknownOpcode, decode
from .exceptions import BEYOND_MEMORY, Stop, end_request, initiate, pending
from .kinds import FAULT, IDLE, INTERRUPT, MODIFY, PLAIN, STOPPED
from .operands import operand
from .sensitive import PRIVILEGED, SENSITIVE_INSTRUCTIONS
from .table import TABLE
from .translation import MODIFY as MODIFY_BIT
from .translation import PAGE, Beyond, Fault, store, walk

WORD = 0xFFFFFFFF
TRAIL = 0xFFFFFFFFFFFFFFFF
RESERVED_INSTRUCTION, RESERVED_MODE, ARITHMETIC_TRAP, MODIFY_FAULT = 0x10, 0x1C, 0x34, 0x3C
EXECUTE = {**ARITHMETIC, **CONTROL, **SENSITIVE_INSTRUCTIONS}


class Instruction:
    """What an instruction's bytes mean: functions that evaluate its operands, and one that does its work."""

    def __init__(self, decoded, data: bytes):
        name, forms = TABLE[decoded.opcode]
        self.opcode = decoded.opcode
        self.length = decoded.length
        self.data = data
        self.privileged = name in PRIVILEGED
        self.sensitive = name in SENSITIVE_INSTRUCTIONS
        self.execute = EXECUTE[name]
        self.operands = [
            operand(spec, access, size, decoded.length) for spec, (access, size) in zip(decoded.specifiers, forms)
        ]


class Guest:
    def __init__(self, pages: int, start: int, modify_faults: bool):
        self.size = PAGE * pages
        self.memory = bytearray(self.size)
        self.longs = memoryview(self.memory).cast("I")
        self.start = start
        self.modify_faults = modify_faults
        self.known = {}
        self.shown = bytearray()
        self.kinds = [0] * 7
        self.trail = 0
        # of the last step that did so: the vector that it took, and the page whose modify bit it set
        self.vector = self.marked = None
        self.reset()
        self.halt = 0

    def reset(self) -> None:
        """The state in which a guest starts; its memory stays."""
        self.r = [0] * 15 + [self.start]
        self.stacks = [0] * 5
        self.p0br = self.p0lr = self.p1br = self.sbr = self.slr = self.pcbb = self.scbb = 0
        self.p1lr = 2_097_152
        self.astlvl = 4
        self.sisr = 0
        self.mapen = False
        self.clock = Clock()
        self.console = Console()
        self.kcall_due = False
        self.queue = []
        self.waiting = False
        self.halt = None
        self.steps = 0
        self.set_psl(0x041F0000)

    def set_psl(self, psl: int) -> None:
        self.psl = psl
        self.mode = psl >> 24 & 3

    def show(self, data: bytes) -> None:
        self.shown += data

    def stop(self, code: int) -> None:
        self.halt = code
        self.show(b"?%02X %08X\r\n" % (code, self.r[15]))

    def type_line(self, text: bytes) -> None:
        for byte in text + b"\r":
            self.console.type_byte(byte)

    def advance(self, steps: int) -> None:
        kinds, step = self.kinds, self.step
        for done in range(steps):
            if self.halt is not None:
                kinds[STOPPED] += steps - done
                return
            kinds[step()] += 1

    def step(self) -> int:
        """One step of a guest that isn't stopped; its kind."""
        self.steps = self.steps + 1 & WORD
        if self.clock.iccs & RUN:
            self.clock.tick()
        interrupt = pending(self)
        if interrupt:
            return self.take(interrupt)
        if self.waiting:
            return IDLE
        return self.instruct()

    def take(self, interrupt) -> int:
        level, vector = interrupt
        try:
            if initiate(self, vector, level=level):
                end_request(self, interrupt)
        except Stop as stop:
            self.stop(stop.code)
        return INTERRUPT

    def instruct(self) -> int:
        self.work = list(self.r)
        self.codes = self.psl & 0xFF
        self.stores = []
        self.clear = []
        self.trap = 0
        try:
            instruction = self.fetch()
            if instruction.privileged and self.mode:
                raise Fault(RESERVED_INSTRUCTION)
            self.opcode = instruction.opcode
            self.next = self.r[15] + instruction.length & WORD
            values = [evaluate(self) for evaluate in instruction.operands]
            if instruction.sensitive:
                return instruction.execute(self, *values)
            instruction.execute(self, *values)
        except Fault as fault:
            self.initiate_or_stop(fault.vector, fault.pushed)
            return FAULT
        except Beyond:
            self.stop(BEYOND_MEMORY)
            return FAULT
        if self.clear:
            return self.meet_clear_modify_bit()
        self.retire()
        self.complete()
        if self.trap:
            self.initiate_or_stop(ARITHMETIC_TRAP, [self.trap])
        return PLAIN

    def fetch(self) -> Instruction:
        """The instruction at the PC; what its bytes mean is kept by their place, for as long as they stay."""
        pc = self.r[15]
        place = walk(self, pc, self.mode, False)[0]
        known = self.known.get(place)
        if known and self.memory[place : place + known.length] == known.data:
            if not self.mapen or place % PAGE + known.length <= PAGE:
                return known
        data = bytearray()

        def byte_at(offset):
            data.append(self.memory[walk(self, pc + offset & WORD, self.mode, False)[0]])
            return data[-1]

        try:
            decoded = decode(byte_at)
        except UnknownOpcode:
            raise Fault(RESERVED_INSTRUCTION)
        except ReservedMode:
            raise Fault(RESERVED_MODE)
        self.known[place] = instruction = Instruction(decoded, bytes(data))
        return instruction

    def meet_clear_modify_bit(self) -> int:
        """An instruction that would complete but for clear modify bits: the first is set, or is a fault."""
        entry, va = self.clear[0]
        if self.modify_faults:
            self.initiate_or_stop(MODIFY_FAULT, [va, 4])
            return FAULT
        self.longs[entry >> 2] |= MODIFY_BIT
        self.marked = va // PAGE * PAGE
        return MODIFY

    def retire(self) -> None:
        """Adds a plain instruction to the trail: where it is, its opcode, and the registers after it."""
        registers = sum(self.work) - self.work[15]
        self.trail = self.trail + self.r[15] + 3 * self.opcode + registers & TRAIL

    def complete(self) -> None:
        """Makes the results of an instruction the guest's."""
        for places, size, value in self.stores:
            store(self, places, size, value)
        self.r = self.work
        self.r[15] = self.next
        self.psl = self.psl & ~0xFF | self.codes

    def initiate_or_stop(self, vector: int, pushed=()) -> None:
        try:
            initiate(self, vector, pushed)
        except Stop as stop:
            self.stop(stop.code)
