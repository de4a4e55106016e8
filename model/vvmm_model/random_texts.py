"""Random configurations and scripts, mostly accepted, and changes of them that mostly aren't."""

CLASSES = ["0{};0{}", "1{};0{}", "2{};0{}", "2{1};0{}", "0{};1{}", "2{1,5};1{3}", "1{5};0{3}"]
HIGH = ["200{};255{}", "15{0,63};16{7}"]
NAMES = ["A", "B", "C", "T1", "T2", "T3", "V", "W", "P", "G1", "G2", "X9Y8Z7W6", "R0", "OK"]


class Texts:
    def __init__(self, random):
        self.random = random
        self.names = random.sample(NAMES, len(NAMES))
        self.lines = random.sample(range(32), 32)
        self.version = random.choice([1, 2, 2])
        few = CLASSES[:3] if random.random() < 0.5 else CLASSES + (HIGH if self.version == 2 else [])
        self.classes = [random.choice(few) for _ in range(3)]
        self.drives = {}
        self.guests = []
        self.terminals = []
        self.images = {}

    def access(self) -> str:
        return self.random.choice(self.classes)

    def config(self, quantum: int) -> str:
        random = self.random
        text = "version = %d\n" % self.version
        if self.version == 1:
            text += "quantum = %d\n" % quantum
        text += "slice = %d\n" % random.choice([1, 7, quantum // 2 + 1, quantum])
        if random.random() < 0.6:
            levels = "255{0,1,2,3,4,5,63}" if self.version == 2 else "15{0,1,2,3,4,5}"
            text += '[audit]\nline = %d\nclass = "%s;0{}"\n' % (self.lines.pop(), levels)
        terminals = [self.terminal() for _ in range(random.randrange(0, 4))]
        volumes = [self.volume(number) for number in range(random.randrange(0, 3))]
        printers = [self.printer() for _ in range(random.randrange(0, 3))]
        text += "".join(row[0] for row in terminals + volumes + printers)
        self.terminals = [row[1] for row in terminals]
        free = list(terminals)
        for _ in range(random.randrange(1, 5)):
            text += self.guest(free, volumes, printers, quantum)
        return text

    def head(self, word: str):
        name, access = self.names.pop(), self.access()
        return name, access, '[[%s]]\nname = "%s"\nclass = "%s"\n' % (word, name, access)

    def terminal(self):
        name, access, text = self.head("terminal")
        return text + "line = %d\n" % self.lines.pop(), name, access

    def printer(self):
        name, access, text = self.head("printer")
        return text + "line = %d\n" % self.lines.pop(), name, access

    def volume(self, number: int):
        name, access, text = self.head("volume")
        blocks = self.random.choice([1, 4])
        self.drives[number] = b"".join(self.random.randbytes(512) for _ in range(blocks))
        return text + "drive = %d\nblocks = %d\n" % (number, blocks), name, access

    def guest(self, free: list, volumes: list, printers: list, quantum: int) -> str:
        random = self.random
        name, access, text = self.head("guest")
        image = "image%d" % len(self.guests)
        self.guests.append(name)
        text += 'pages = 64\nimage = "%s"\nload = 0\nstart = 512\n' % image
        text += "autostart = %s\n" % ("true" if random.random() < 0.85 else "false")
        text += "dump = %d\n" % self.lines.pop()
        if self.version == 2:
            text += "quantum = %d\n" % max(1, quantum + random.randrange(-50, 50))
        if random.random() < 0.3:
            text += 'modify = "%s"\n' % random.choice(["set", "fault", "fault"])
        consoles = [row for row in free if row[2] == access]
        if consoles:
            free.remove(consoles[0])
            text += 'console = "%s"\n' % consoles[0][1]
        fit = [row for row in printers if row[2] == access]
        text += 'printer = "%s"\n' % fit[0][1] if fit else ""
        for unit, row in enumerate(volumes):
            if row[2] == access or (row[2] == "0{};0{}" and ";0" in access):
                write = row[2] == access and random.random() < 0.7
                text += '[[guest.mount]]\nunit = %d\nvolume = "%s"\nwrite = %s\n' % (unit, row[1], str(write).lower())
        return text

    def script(self, rounds: int) -> str:
        random = self.random
        text, at = "", 1
        names = self.terminals + ["NONE"] if random.random() < 0.2 else self.terminals or ["NONE"]
        for _ in range(random.randrange(0, 9)):
            at = min(at + random.randrange(0, 2), rounds)
            name = random.choice(names)
            what = random.choice(["break", "break", ">", "> " + self.command(), "> " + self.command()])
            text += "%d %s %s" % (at, name, what) + random.choice(["\n", "\n", "\r\n"])
        return text

    def command(self) -> str:
        random = self.random
        guest = random.choice(self.guests + NAMES[:2])
        volume = random.choice(NAMES)
        return random.choice(
            [
                "SHOW",
                "HELLO",
                "CONNECT " + guest,
                "CONNECT " + guest,
                "START " + guest,
                "HALT " + guest,
                "MOUNT %s %d %s %s" % (guest, random.randrange(5), volume, random.choice(["READ", "WRITE"])),
                "DISMOUNT %s %d" % (guest, random.randrange(4)),
                "SHOW ",
                "",
                "x" * random.choice([3, 254, 255, 256, 300]),
            ]
        )


def spoil(random, text: bytes) -> bytes:
    """A text with a few changes: a line gone, doubled or moved, a byte changed, a number or a word replaced."""
    for _ in range(random.choice([1, 1, 1, 2, 3])):
        lines = text.split(b"\n")
        place = random.randrange(len(lines))
        kind = random.randrange(6)
        if kind == 0:
            del lines[place]
        elif kind == 1:
            lines.insert(random.randrange(len(lines)), lines[place])
        elif kind == 2:
            lines[place] = b" ".join(random.choice(WORDS) if b'"' not in w else w for w in lines[place].split(b" "))
        elif kind == 3:
            lines[place] = lines[place].replace(b"1", random.choice([b"0", b"32", b"16", b"256", b"-1", b"01"]))
        elif lines[place]:
            at = random.randrange(len(lines[place]))
            piece = bytes([random.choice(b'0123456789{},;"=[]. AzZ\t\r\\#\xc3_+-e')])
            lines[place] = lines[place][:at] + piece + lines[place][at + random.randrange(2) :]
        text = b"\n".join(lines)
    return text


WORDS = [b"=", b"0", b"1", b"2", b"16", b"100001", b"true", b"slice", b"quantum", b"name", b"line", b"[]", b'"A"']
