#!/usr/bin/env python3
"""pictures.py: draws the pictures of docs/pictures, with the standard library alone. A text that is wider than its place, by
0.6 of its size for each character, is refused."""
from html import escape
from pathlib import Path

SIZE = 13
GREY, BLUE, GREEN, YELLOW, RED = "#f0f0f0", "#dce8f8", "#ddf0dd", "#fbf3cf", "#f8dede"


class Picture:
    def __init__(self, width, height, title):
        self.width, self.height, self.title, self.parts, self.texts = width, height, title, [], []

    def text(self, x, y, words, size=SIZE, anchor="start", bold=False, mono=False, room=None):
        """One line of text whose base line is at y."""
        wide = 0.6 * size * len(words)
        left = {"start": x, "middle": x - wide / 2, "end": x - wide}[anchor]
        assert size >= 12, words
        assert left >= 0 and left + wide <= self.width, f"{self.title}: outside: {words}"
        assert room is None or wide <= room, f"{self.title}: {wide:.0f} of {room}: {words}"
        for a, b, c, d, other in self.texts:
            assert left + wide <= a or c <= left or y + 3 <= b or d <= y - size + 2, f"{self.title}: {words} / {other}"
        self.texts.append((left, y - size + 2, left + wide, y + 3, words))
        family = "monospace" if mono else "sans-serif"
        weight = ' font-weight="bold"' if bold else ""
        self.parts.append(f'<text x="{x:g}" y="{y:g}" font-family="{family}" font-size="{size}" text-anchor="{anchor}"{weight}>{escape(words)}</text>')

    def box(self, x, y, w, h, fill="white", stroke="black"):
        self.parts.append(f'<rect x="{x:g}" y="{y:g}" width="{w:g}" height="{h:g}" fill="{fill}" stroke="{stroke}"/>')

    def labelled(self, x, y, w, h, lines, fill="white", size=SIZE):
        """A box with lines in its middle; a line that begins with * is bold, one with ` is code."""
        self.box(x, y, w, h, fill)
        top = y + h / 2 - (len(lines) - 1) * (size + 4) / 2 + size * 0.36
        for i, line in enumerate(lines):
            self.text(x + w / 2, top + i * (size + 4), line.lstrip("*`"), size, "middle", line[0] == "*", line[0] == "`", w - 8)

    def line(self, x1, y1, x2, y2, arrow=False, dashed=False):
        dash = ' stroke-dasharray="4 3"' if dashed else ""
        self.parts.append(f'<line x1="{x1:g}" y1="{y1:g}" x2="{x2:g}" y2="{y2:g}" stroke="black"{dash}/>')
        if arrow:
            length = ((x2 - x1) ** 2 + (y2 - y1) ** 2) ** 0.5
            ux, uy = (x2 - x1) / length, (y2 - y1) / length
            bx, by = x2 - 9 * ux, y2 - 9 * uy
            points = f"{x2:g},{y2:g} {bx - 4 * uy:.1f},{by + 4 * ux:.1f} {bx + 4 * uy:.1f},{by - 4 * ux:.1f}"
            self.parts.append(f'<polygon points="{points}" fill="black"/>')

    def save(self):
        head = f'<svg xmlns="http://www.w3.org/2000/svg" width="{self.width}" height="{self.height}" viewBox="0 0 {self.width} {self.height}">'
        back = f'<title>{escape(self.title)}</title>\n<rect x="0" y="0" width="{self.width}" height="{self.height}" fill="white"/>'
        return "\n".join([head, back, *self.parts, "</svg>"]) + "\n"


def tower():
    p = Picture(880, 860, "The tower of statements, from the program's clause down to one step")
    p.text(220, 26, "What the code promises", 15, "middle", True)
    p.text(660, 26, "The definition that it is compared with", 15, "middle", True)
    rows = [
        ("vvmm_call", ["`Says", "each answer, and what devices get"], "sys_purge", ["`purged", "a run's input without what may not flow"]),
        ("sys_runs", ["`Runs, MakesRun", "a whole run, from power-up to the drives"], "sys_state", ["`line_bytes, drive_blocks", "what each device gets"]),
        ("sys_runs", ["`MakesRounds", "many rounds, one after another"], "sys_state", ["`rounds", "each round in the state before"]),
        ("sys_system", ["`MakesRound", "events, slices in any order, transfers"], "sys_state", ["`round", "events, turns, transfers"]),
        ("sys_guests", ["`AdvancesOne", "one slice; the other guests stay"], "sys_state", ["`alone", "a guest by itself"]),
        ("vm_guest", ["`Advances, Pays", "a guest's steps, bytes, misses"], "vm_state", ["`after_steps", "n steps of the guest"]),
        ("vm_stepping", ["`Proceeds, Steps", "a step by the machine or the kernel"], "vm_state", ["`step", "one step of the private virtual VAX"]),
    ]
    left, right, wide, high, gap = 40, 480, 360, 58, 22
    y = 44
    for i, (a, said, b, meant) in enumerate(rows):
        for x, crate, lines, fill in ((left, a, said, BLUE), (right, b, meant, GREEN)):
            p.box(x, y, wide, high, fill)
            p.text(x + 8, y + 18, crate, 12, room=100)
            p.text(x + wide / 2, y + 34, lines[0].lstrip("`"), 13, "middle", True, True, wide - 130)
            p.text(x + wide / 2, y + 51, lines[1], 12, "middle", room=wide - 8)
        p.line(left + wide, y + high / 2, right, y + high / 2, dashed=True)
        if i < len(rows) - 1:
            p.line(left + wide / 2, y + high, left + wide / 2, y + high + gap, True)
            p.line(right + wide / 2, y + high, right + wide / 2, y + high + gap, True)
        y += high + gap
    # two ways of a step: the machine makes it, or the kernel
    third = 174
    for x, w, lines in ((left, 170, ["vm_stepping", "`IsRun", "the machine ran"]), (left + wide - 182, 182, ["vm_emulate, vm_exception", "`Emulates, MakesStep", "the kernel made it"])):
        p.labelled(x, y, w, 66, lines, BLUE, 12)
        p.line(x + w / 2, y - gap, x + w / 2, y, True)
    for x, lines in ((right, ["vax_table", "`instruction", "an instruction at PC"]), (right + wide - third, ["vm_state", "`sensed, interrupted", "all other steps"])):
        p.labelled(x, y, third, 66, lines, GREEN, 12)
        p.line(x + third / 2, y - gap, x + third / 2, y, True)
    bottom = y + 66 + gap
    p.labelled(left, bottom, wide, 66, ["vm_simulation_laws", "`IsBurst, RunsArePaid", "a run is steps of the guest, and is paid for"], BLUE, 12)
    p.line(left + third / 2, y + 66, left + third / 2, bottom, True)
    low = bottom + 66 + gap
    p.labelled(left, low, third, 58, ["vm_shadow", "`StandsFor", "real tables for its own"], BLUE, 12)
    p.labelled(left + wide - third, low, third, 58, ["vax_hw", "`real", "what the machine does"], GREEN, 12)
    p.line(left + third / 2, bottom + 66, left + third / 2, low, True)
    p.line(left + wide - third / 2, bottom + 66, left + wide - third / 2, low, True)
    # the kernel's steps keep the tables; the machine's instruction is the same definition
    p.text(right + 46, bottom + 24, "An arrow: is said with what is below.", 12)
    p.text(right + 46, bottom + 44, "A dashed line: the code does this.", 12)
    p.text(right + 46, bottom + 64, "Blue: contracts and laws. Green: definitions.", 12)
    p.line(left + wide, low + 29, right + 30, low + 29)
    p.line(right + 30, low + 29, right + 30, y + 66, True)
    p.text(right + 46, low + 34, "the machine tries the same instruction", 12)
    return p


def round_():
    p = Picture(900, 400, "A round in time: events, slices of turns, transfers")
    x, y = 110, 96
    p.text(110, 30, "One round: three guests with the quanta 250, 100 and 200 steps; a slice has 100", 15, bold=True)
    slices = [("A", 100), ("B", 100), ("C", 100), ("A", 100), ("C", 100), ("A", 50)]
    scale = 0.85
    at = x
    p.labelled(at, y - 34, 120, 30, ["*events"], YELLOW)
    at += 120
    turns = sum(n for _, n in slices) * scale
    p.labelled(at, y - 34, turns, 30, ["*turns, cut into slices"], BLUE)
    p.labelled(at + turns, y - 34, 120, 30, ["*transfers"], GREEN)
    lanes = {"A": y + 12, "B": y + 56, "C": y + 100}
    for guest, quantum in (("A", 250), ("B", 100), ("C", 200)):
        p.text(100, lanes[guest] + 20, f"guest {guest}", anchor="end")
        p.line(x, lanes[guest] + 38, at + turns + 120, lanes[guest] + 38, dashed=True)
    p.box(x + 4, lanes["A"], 112, 118, YELLOW)
    for i, line in enumerate(("each is done", "whole, one", "after another,", "before any", "turn")):
        p.text(x + 60, lanes["A"] + 24 + 20 * i, line, 12, "middle", room=112)
    for guest, steps in slices:
        p.labelled(at, lanes[guest], steps * scale, 30, [f"{steps}"], BLUE)
        at += steps * scale
    p.box(at + 4, lanes["A"], 112, 118, GREEN)
    for i, line in enumerate(("packets that", "wait are", "served, guest", "by guest,", "and answered")):
        p.text(at + 60, lanes["A"] + 24 + 20 * i, line, 12, "middle", room=112)
    # a slice from near
    top = y + 186
    first = x + 120 + 200 * scale
    p.line(first, lanes["C"] + 30, x, top, dashed=True)
    p.line(first + 100 * scale, lanes["C"] + 30, x + 610, top, dashed=True)
    inside = [("machine: 40", 170, "white"), ("fill", 50, GREY), ("machine: 35", 150, "white"), ("MTPR", 60, GREY), ("machine: 23", 130, "white"), ("REI", 50, GREY)]
    at = x
    for name, wide, fill in inside:
        p.labelled(at, top, wide, 34, [name], fill)
        at += wide
    p.labelled(at + 10, top, 90, 34, ["put shown"], YELLOW)
    p.text(100, top + 22, "a slice", anchor="end")
    for i, line in enumerate((
        "The machine runs plain instructions, and the kernel makes the other steps. A fill is no step:",
        "40 + 35 + 1 + 23 + 1 = 100. After the slice the bytes that the guest showed are put on the line",
        "of its terminal. In whatever order slices are made, each guest and each line ends the same.",
    )):
        p.text(x, top + 60 + 20 * i, line)
    return p


def memory():
    p = Picture(900, 606, "A guest's memory, its real tables and slots in the machine's memory")
    p.text(30, 28, "The machine's memory: 32,768 pages of 512 bytes (16,777,216 bytes)", 15, bold=True)
    y, h = 66, 50
    parts = [("memory of A", 130, BLUE), ("memory of B", 130, BLUE), ("...", 50, BLUE), ("tables of A", 130, GREEN), ("tables of B", 130, GREEN), ("...", 50, GREEN), ("not used", 220, GREY)]
    at, places = 30, {}
    for name, wide, fill in parts:
        p.labelled(at, y, wide, h, [name], fill)
        places[name] = (at, wide)
        at += wide
    p.text(30, y - 8, "page 0", 12)
    p.text(205, y - 8, "at most 16,384 pages", 12, "middle")
    p.text(495, y - 8, "580 pages a guest, at most 16 guests", 12, "middle")
    p.text(870, y - 8, "page 32,767", 12, "end")
    # the tables of one guest
    top = 200
    p.text(430, top - 26, "The real tables of A: 580 pages", 15, "middle", True)
    left, wide = places["tables of A"]
    p.line(left, y + h, 30, top, dashed=True)
    p.line(left + wide, y + h, 870, top, dashed=True)
    at = 30
    for lines, w, fill in ((["*system table", "64 pages:", "8,192 entries"], 130, GREEN), (["4 pages:", "512 entries"], 110, YELLOW)):
        p.labelled(at, top, w, 70, lines, fill)
        at += w
    slot = (840 - 240) / 4
    for k in range(4):
        p.box(at, top, slot, 70, GREEN)
        p.text(at + slot / 2, top + 18, f"slot {k}", 13, "middle", True)
        p.labelled(at, top + 28, slot / 2, 42, ["P0", "64 pages"], GREEN, 12)
        p.labelled(at + slot / 2, top + 28, slot / 2, 42, ["P1", "64 pages"], GREEN, 12)
        at += slot
    low = top + 96
    p.text(30, low, "The system table has an entry for each of the guest's first 8,192 system pages. Its last 512 entries map the", 13)
    p.text(30, low + 20, "tables of the four slots, for real kernel mode alone. A slot is for one process context of the guest: its", 13)
    p.text(30, low + 40, "first 8,192 pages of P0, and the last 8,192 of P1. So 73,728 entries can be filled.", 13)
    # one entry
    top = low + 90
    p.text(30, top - 12, "How one entry is filled", 15, bold=True)
    p.labelled(30, top, 240, 84, ["*the guest's own entry", "in the guest's memory", "frame 5, code URKW, valid"], BLUE)
    p.labelled(330, top, 240, 84, ["*the real entry", "in the tables of A", "frame base + 5, code URKW", "compressed, modify bit clear"], GREEN, 12)
    p.labelled(630, top, 240, 84, ["*the page", "in the memory of A", "machine's page base + 5"], BLUE)
    p.line(270, top + 42, 330, top + 42, True)
    p.line(570, top + 42, 630, top + 42, True)
    low = top + 112
    for i, line in enumerate((
        "Beside each filled entry the kernel keeps the frames that it was read from: that of the guest's own entry, and",
        "of the system entry before it. A frame from which an entry was read is never writable without an exit, and",
        "a write to it drops what was read from it.",
        "An entry that isn't filled has its valid bit clear and the code UW: the machine always misses it, and never",
        "refuses it. No byte of the machine changes from the end of the last tables on.",
    )):
        p.text(30, low + 22 * i, line)
    return p


def trust():
    p = Picture(900, 580, "What is proved, what is only tested, and what is trusted")
    p.box(20, 20, 860, 448, RED)
    p.text(40, 46, "Trusted", 15, bold=True)
    p.text(40, 68, "the prover, the compiler, the C library and the kit's libraries; the operating system and the disk")
    p.text(40, 90, "Read against the manuals, and shown by examples that were found by hand: that the definitions are a VAX")
    p.box(50, 108, 800, 344, YELLOW)
    p.text(70, 134, "Trusted, and run by tools/edge", 15, bold=True)
    p.text(70, 156, "the program's own files, some 770 lines: main, its words, files, drives and standard streams")
    p.box(80, 174, 740, 262, GREEN)
    p.text(100, 200, "Proved", 15, bold=True)
    boxes = (
        (100, 214, ["*what to do with files", "serve, conclude, flaw_of, devices_of:", "when to sync, exit codes,", "which files may be devices"]),
        (460, 214, ["*the call vvmm_run", "Says: each device gets exactly its bytes,", "and the same ones without what", "may not flow to it"]),
        (100, 324, ["*the kernel, the server, the system", "each guest steps as if it were alone;", "no panic, no overflow,", "no endless loop"]),
        (460, 324, ["*the simulated machine", "Real: plain instructions in its modes,", "over its own page tables,", "retired and missed pages counted"]),
    )
    for x, y, lines in boxes:
        p.labelled(x, y, 340, 96, lines, "white", 12)
    p.box(20, 484, 860, 76, GREY)
    p.text(40, 508, "Only tested", 15, bold=True)
    p.text(40, 530, "that the kernel leaves plain instructions to the machine, and doesn't forge its counts (machines that")
    p.text(40, 550, "note their runs); how often the outside is called; that the model, a second reading, gives the same bytes")
    return p


def classes():
    p = Picture(760, 470, "Five classes: information flows along the arrows, and nowhere else")
    wide, high = 190, 52
    places = {
        "BOTH": (285, 30, "1{1,2};0{}"),
        "LEFT": (130, 140, "1{1};0{}"),
        "RIGHT": (440, 140, "1{2};0{}"),
        "BASE": (285, 250, "0{};0{}"),
        "SOUND": (285, 360, "0{};3{}"),
    }
    for a, b in (("LEFT", "BOTH"), ("RIGHT", "BOTH"), ("BASE", "LEFT"), ("BASE", "RIGHT"), ("SOUND", "BASE")):
        x1, y1, _ = places[a]
        x2, y2, _ = places[b]
        shift = 0 if x1 == x2 else (40 if x2 > x1 else -40)
        p.line(x1 + wide / 2 + shift, y1, x2 + wide / 2 - shift, y2 + high, True)
    for name, (x, y, label) in places.items():
        p.labelled(x, y, wide, high, ["*" + name, "`" + label], GREEN if name == "SOUND" else BLUE)
    p.text(530, 318, "more secrecy,", 12)
    p.text(530, 336, "or less integrity", 12)
    p.line(510, 346, 510, 300, True)
    p.text(490, 392, "integrity level 3: only what is", 12)
    p.text(490, 410, "as sound may flow into it", 12)
    p.text(30, 60, "secrecy level 1,", 12)
    p.text(30, 78, "categories 1 and 2", 12)
    p.text(30, 272, "secrecy level 0,", 12)
    p.text(30, 290, "no categories", 12)
    p.text(380, 452, "LEFT and RIGHT flow neither way: each lacks the other's category.", 13, "middle")
    return p


def layers():
    """The crates of crates.txt, each above those that it uses."""
    used, parts = {}, []
    for line in (Path(__file__).parent.parent / "crates.txt").read_text().splitlines():
        if line.startswith("# ") and line != "# Tests":
            parts.insert(0, (line[2:], []))
        elif line.startswith("# "):
            break
        elif line and not line.startswith("#"):
            crate, uses = line.replace(" staticlib", "").split(":")
            used[crate] = uses.split()
            parts[0][1].append(crate)
    fills = (BLUE, GREEN, YELLOW)
    drawn, y = [], 20
    for number, (name, crates) in enumerate(parts):
        depth = {}
        for crate in crates:
            depth[crate] = 1 + max((depth[one] for one in used[crate] if one in depth), default=0)
        rows = [[crate for crate in crates if depth[crate] == level] for level in range(max(depth.values()), 0, -1)]
        drawn.append((y, name, rows, fills[number % 3]))
        y += 23 * len(rows) + 16
    p = Picture(900, y + 36, "The crates in layers")
    for y, name, rows, fill in drawn:
        p.box(20, y, 860, 23 * len(rows) + 10, fill)
        middle, words = y + 11.5 * len(rows) + 9, name.split(", ")
        for i, part in enumerate(words):
            p.text(32, middle + 18 * i - 9 * (len(words) - 1), part + ("," if i + 1 < len(words) else ""), 13, bold=True, room=250)
        for i, row in enumerate(rows):
            at = 288
            for crate in row:
                wide = 7.2 * len(crate) + 14
                p.labelled(at, y + 6 + 23 * i, wide, 20, ["`" + crate], "white", 12)
                at += wide + 8
            assert at < 880, row
    p.text(450, drawn[-1][0] + 23 * len(drawn[-1][2]) + 36, "A crate uses only crates that are drawn below it. Those of one row don't use each other.", 13, "middle")
    return p


def instruction():
    """What the simulated machine does with one instruction of a guest."""
    p = Picture(900, 560, "An instruction's way through the machine and the kernel")
    steps = (
        (["*the instruction at PC", "does a known page have the bytes", "that spell a kept one? (vax_kept)"], "no: its bytes are found by the page tables, decoded and kept"),
        (["*at once, by its normal form", "over known pages, on the machine's", "own registers (vax_cpu)"], "it has none, or a page isn't known: nothing has changed"),
        (["*by its plan over known pages", "operands, result and stores", "(vax_exec, vax_paged)"], "a page isn't known: nothing has changed"),
        (["*by its plan over the page tables", "each reference by a walk", "(vax_cpu, vax_paged)"], "it doesn't retire: registers are put back"),
    )
    for i, (lines, otherwise) in enumerate(steps):
        y = 30 + 104 * i
        p.labelled(30, y, 300, 74, lines, BLUE)
        p.line(180, y + 74, 180, y + 104, True)
        p.text(196, y + 94, otherwise, 12)
        if i:
            p.line(330, y + 37, 640, y + 37, True)
            p.text(350, y + 29, "it retires", 12)
    p.labelled(640, 134, 230, 282, ["*retired", "its stores are made,", "it is counted,", "and so is the trail:", "the next instruction,", "until the budget is used"], GREEN)
    p.labelled(30, 446, 300, 84, ["*the run ends with an exit", "a miss, a refusal, a modify bit,", "a sensitive instruction, a fault"], YELLOW)
    p.labelled(400, 446, 470, 84, ["*the kernel (vm_stepping)", "fills or opens the page and lets the machine try again; or", "emulates, initiates or stops: a step of the guest"], YELLOW)
    p.line(330, 488, 400, 488, True)
    return p


PICTURES = {"tower": tower, "round": round_, "memory": memory, "trust": trust, "classes": classes, "layers": layers, "instruction": instruction}

if __name__ == "__main__":
    for name, draw in PICTURES.items():
        (Path(__file__).parent / "pictures" / f"{name}.svg").write_text(draw().save())
