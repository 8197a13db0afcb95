#!/usr/bin/env python3
"""Writes the vectors of crates/conformance: data/ (a file for each group), args and stdout. It takes no arguments.

What is due is worked out here from the rules (docs/REFERENCE.md), and never by the library: words are strings of 32 characters '0' and
'1', a field is a piece of such a string, a row is the string of all its stored bits, a pixel the next S characters of it, a colour 24
characters VD23..VD0. Refusal 8 asks of every word of every row whether it lies in the lent memory. A frame is the list of all its
clocks, put together part by part; clocks are numbered through the list of calls, and a frame's viewport (`view` below) is found in the
schedule of the accepted ones.
The answers of the group `hand` also stand below as literals: the worked cases (§13.1), and others worked out by hand. Where they
differ from what the script works out, it stops.

The vectors are frozen. What C can call is tested by host/differential; here a group grows only for what C cannot reach (the reader,
the step in place), and an answer changes only where a rule changes.
"""
import os
import re
from itertools import product

# ---- the nine words, bit by bit (§1.2): name, first and last bit; a name with '-' in front is read-only

NAMES = ("LCDCON1", "LCDCON2", "LCDCON3", "LCDCON4", "LCDCON5", "LCDSADDR1", "LCDSADDR2", "LCDSADDR3", "TPAL")
LAYOUT = {
    "LCDCON1": "-LINECNT 27..18, CLKVAL 17..8, MMODE 7, PNRMODE 6..5, BPPMODE 4..1, ENVID 0",
    "LCDCON2": "VBPD 31..24, LINEVAL 23..14, VFPD 13..6, VSPW 5..0",
    "LCDCON3": "HBPD 25..19, HOZVAL 18..8, HFPD 7..0",
    "LCDCON4": "MVAL 15..8, HSPW 7..0",
    "LCDCON5": "-VSTATUS 16..15, -HSTATUS 14..13, BPP24BL 12, FRM565 11, INVVCLK 10, INVVLINE 9, INVVFRAME 8, INVVD 7, "
               "INVVDEN 6, INVPWREN 5, INVLEND 4, PWREN 3, ENLEND 2, BSWP 1, HWSWP 0",
    "LCDSADDR1": "LCDBANK 29..21, LCDBASEU 20..0",
    "LCDSADDR2": "LCDBASEL 20..0",
    "LCDSADDR3": "OFFSIZE 21..11, PAGEWIDTH 10..0",
    "TPAL": "TPALEN 24, TPALVAL 23..0",
}
# the words that are otherwise on an STN panel (§1.7), where PNRMODE is 2
STN_LAYOUT = {**LAYOUT, "LCDCON3": "WDLY 20..19, HOZVAL 18..8, LINEBLANK 7..0", "LCDCON4": "MVAL 15..8, WLH 1..0", "TPAL": ""}


def spans(layout):
    for number, name in enumerate(NAMES):
        for part in filter(None, layout[name].split(", ")):
            field, _, bits = part.partition(" ")
            high, _, low = bits.partition("..")
            yield field.lstrip("-"), (number, int(high), int(low or high))


SPANS, STN_SPANS = dict(spans(LAYOUT)), dict(spans(STN_LAYOUT))


def bits(word):
    return format(word, "032b")


def fields(words, of=SPANS):
    """Each field by its name."""
    return {name: int(bits(words[n])[31 - high:32 - low], 2) for name, (n, high, low) in of.items()}


def reserved_bit(words):
    layout = STN_SPANS if fields(words)["PNRMODE"] == 2 else SPANS
    for n in range(9):
        used = {b for number, high, low in layout.values() if number == n for b in range(low, high + 1)}
        if any(bits(words[n])[31 - b] == "1" for b in range(32) if b not in used):
            return True
    return False


# ---- what a call is lent, and what it judges (§9)

STORED = {8: 1, 9: 2, 10: 4, 11: 8, 12: 16, 13: 32}  # stored bits by BPPMODE
STN_STORED = {0: 1, 2: 4}  # where PNRMODE is 2
EITHER = ("check", "counts", "rate")  # calls that take both kinds of panel; the others take TFT alone


class Lent:
    """Nine words (or fewer, or more), window start, HCLK, video words, palette."""

    def __init__(self, words, start=0x30000000, hclk=0, video=(), palette=None, counted=None):
        self.words, self.start, self.hclk, self.counted = list(words), start, hclk, counted
        self.video = [(counted[1] + counted[2] * i) % 2**32 for i in range(counted[0])] if counted else list(video)
        self.palette = PALETTE if palette is None else list(palette)


def row_address(f, r):
    return f["LCDBANK"] * 2**22 + 2 * (f["LCDBASEU"] + r * (f["PAGEWIDTH"] + f["OFFSIZE"]))


def row_words(f, r):
    """The byte addresses of a row's words: PAGEWIDTH half-words."""
    return range(row_address(f, r), row_address(f, r) + 2 * f["PAGEWIDTH"], 4)


def outside(lent, f):
    held = range(lent.start, lent.start + 4 * len(lent.video), 4)
    return lent.start % 4 != 0 or any(a not in held for r in range(f["LINEVAL"] + 1) for a in row_words(f, r))


def swaps_illegal(f):
    byte, half = f["BSWP"] == 1, f["HWSWP"] == 1
    if f["PNRMODE"] == 2:
        return half
    return (byte and f["BPPMODE"] not in (8, 9, 10, 11)) or (half and f["BPPMODE"] != 12) or (byte and half)


def size(lent):
    """Width, and the pixels of the picture."""
    f = fields(lent.words)
    width = (f["HOZVAL"] + 1) * (8 if f["PNRMODE"] == 2 else 1)
    return width, width * (f["LINEVAL"] + 1)


def asked(lent, call, args):
    """How many lent entries a call needs, how many it has, then the row and the column asked for."""
    if call == "pixel":
        return 0, 0, args[0], args[1]
    if call == "row":
        return size(lent)[0], args[0], args[1], 0
    if call in ("picture", "run"):
        return size(lent)[1], args[0], 0, 0
    return 0, 0, 0, 0


def applying(lent, call, *args):
    """All numbers that apply to a call on nine words, ascending. A BPPMODE that is no mode counts as 0 stored bits."""
    f = fields(lent.words)
    (w, _), h, pitch = size(lent), f["LINEVAL"] + 1, f["PAGEWIDTH"] + f["OFFSIZE"]
    stored = STN_STORED if f["PNRMODE"] == 2 else STORED
    needed, has, row, column = asked(lent, call, args)
    conditions = {
        1: reserved_bit(lent.words),
        2: f["PNRMODE"] not in ((2, 3) if call in EITHER else (3,)),
        3: f["BPPMODE"] not in stored,
        4: swaps_illegal(f),
        5: 16 * f["PAGEWIDTH"] != w * stored.get(f["BPPMODE"], 0) or any(f[n] % 2 for n in ("LCDBASEU", "PAGEWIDTH", "OFFSIZE")),
        6: f["LCDBASEL"] != (f["LCDBASEU"] + pitch * h) % 2**21,
        7: f["LCDBASEU"] + (h - 1) * pitch + f["PAGEWIDTH"] > 2**21,
        8: outside(lent, f),
        9: f["ENVID"] == 0,
        10: len(lent.palette) != 256 or has < needed,
        11: row >= h or column >= w,
        17: f["PNRMODE"] == 2 and f["CLKVAL"] < 2,
    }
    judged = {"stretch": 0, "counts": 7, "rate": 7, "check": 8, "begin": 9, "view": 9, "picture": 10, "step": 10, "run": 10}.get(call, 11)
    return [n for n, holds in conditions.items() if (n <= judged or (n == 17 and call in EITHER)) and holds]


def refusal(lent, call, *args):
    """The number that a call gives, 0 for none: 10 first for fewer than nine words, then the lowest."""
    return 10 if len(lent.words) < 9 else min(applying(lent, call, *args), default=0)


# ---- colours (§4, §5)

def in_order(word, f):
    s = bits(word)
    if f["BSWP"]:
        s = s[24:32] + s[16:24] + s[8:16] + s[0:8]
    if f["HWSWP"]:
        s = s[16:32] + s[0:16]
    return s


def lines(number, frm565):
    """VD23..VD0 of 16 bits: v[15 - n] is bit n, and vd[23 - n] is line VDn."""
    v, vd = format(number, "016b"), ["0"] * 24
    if frm565:
        vd[0:5], vd[8:14], vd[16:21] = v[0:5], v[5:11], v[11:16]
    else:
        vd[0:5], vd[8:13], vd[16:21] = v[0:5], v[5:10], v[10:15]
        vd[23 - 18] = vd[23 - 10] = vd[23 - 2] = v[15]
    return int("".join(vd), 2)


def colours_of_row(lent, r):
    f = fields(lent.words)
    if f["TPALEN"]:
        return [f["TPALVAL"]] * (f["HOZVAL"] + 1)
    size = STORED[f["BPPMODE"]]
    row = "".join(in_order(lent.video[(a - lent.start) // 4], f) for a in row_words(f, r))
    pixels = [row[i:i + size] for i in range(0, len(row), size)]
    if size == 32:
        return [int(p[0:24] if f["BPP24BL"] else p[8:32], 2) for p in pixels]
    numbers = [int(p, 2) for p in pixels]
    return [lines(n if size == 16 else lent.palette[n], f["FRM565"]) for n in numbers]


def colours(lent):
    return [c for r in range(fields(lent.words)["LINEVAL"] + 1) for c in colours_of_row(lent, r)]


# ---- what is due of a call: the refusal, or 0 and the values

def pulse(edition, n):
    """Ticks of an STN panel's pulse, by the rule edition."""
    return {1: 2**(4 + n), 2: 16 * (n + 1)}[edition]


def frame(lent, edition=1):
    """A frame's clocks and ticks (§6.3, of an STN panel §6.8). All vectors are of rule edition 1."""
    f = fields(lent.words)
    if f["PNRMODE"] == 2:
        f = fields(lent.words, STN_SPANS)
        c, l = f["HOZVAL"] + 1, f["LINEVAL"] + 1
        return l * c, l * (2 * f["CLKVAL"] * c + pulse(edition, f["WLH"]) + pulse(edition, f["WDLY"]) + 8 * f["LINEBLANK"])
    c = (f["HSPW"] + 1) + (f["HBPD"] + 1) + (f["HOZVAL"] + 1) + (f["HFPD"] + 1)
    l = (f["VSPW"] + 1) + (f["VBPD"] + 1) + (f["LINEVAL"] + 1) + (f["VFPD"] + 1)
    return l * c, 2 * (f["CLKVAL"] + 1) * l * c


VALUES = {
    "check": lambda lent: [],
    "counts": lambda lent: frame(lent),
    "rate": lambda lent: [lent.hclk * 1000 // frame(lent)[1]],
    "pixel": lambda lent, row, column: [colours_of_row(lent, row)[column]],
    "row": lambda lent, has, row: colours_of_row(lent, row),
    "picture": lambda lent, has: colours(lent),
    "stretch": lambda lent, has, first, count: colours(lent)[first:min(first + count, has)],
}


def worked_out(lent, call, *args):
    n = refusal(lent, call, *args)
    return [n] if n else [0, *VALUES[call](lent, *args)]


# ---- the scan (§6 to §8)

def parts(sync, back, active, front):
    """The lines of a frame, or the clocks of a line, each by its part; the fields say one less than there are."""
    return ["sync"] * (sync + 1) + ["back"] * (back + 1) + ["active"] * (active + 1) + ["front"] * (front + 1)


def clocks_of(words):
    """All clocks of a frame: whether VSYNC and HSYNC are active, and the pixel's number in the picture (None: VDEN is not)."""
    f, pixel, clocks = fields(words), 0, []
    for line in parts(f["VSPW"], f["VBPD"], f["LINEVAL"], f["VFPD"]):
        for clock in parts(f["HSPW"], f["HBPD"], f["HOZVAL"], f["HFPD"]):
            active = line == clock == "active"
            clocks.append((line == "sync", clock == "sync", pixel if active else None))
            pixel += active
    return clocks


def levels(f, vsync, hsync, colour):
    """The four signals of a clock; a colour of None is a blank one."""
    exchanged = lambda active, invert: {(True, 0): 1, (False, 0): 0, (True, 1): 0, (False, 1): 1}[active, invert]
    vd = format(colour or 0, "024b")
    if f["INVVD"]:
        vd = "".join({"0": "1", "1": "0"}[line] for line in vd)
    vden = colour is not None
    return [exchanged(vsync, f["INVVFRAME"]), exchanged(hsync, f["INVVLINE"]), exchanged(vden, f["INVVDEN"]), int(vd, 2)]


def with_view(words, view):
    return [*words[:5], *view, *words[7:]]


class Scan:
    """A list of calls from one state on. Its clocks are numbered from the state's position on, through all frames; the schedule
    has each viewport that was accepted with the number of the clock that came next. `waiting` is the pending viewport. Every call
    refuses the state of an STN panel, so its clocks do not matter."""

    def __init__(self, words, start, waiting, position):
        self.words, self.start, self.first, self.clock = list(words), start, position, position
        self.schedule = [(position, tuple(waiting))]
        self.frame = clocks_of(words)
        if fields(words)["PNRMODE"] != 2 and len(self.frame) != frame(Lent(words))[0]:
            raise SystemExit(f"{words}: a list of {len(self.frame)} clocks")

    def view_of(self, frame):
        """For the frame in which the list begins, the viewport in force; else the last one accepted before the frame's clock 0."""
        if frame == 0 and self.first > 0:
            return tuple(self.words[5:7])
        return [view for clock, view in self.schedule if clock <= frame * len(self.frame)][-1]

    def in_force(self):
        """The nine words, with the viewport of the last clock's frame."""
        if self.clock == self.first:
            return self.words
        return with_view(self.words, self.view_of((self.clock - 1) // len(self.frame)))

    def waiting(self):
        return self.schedule[-1][1]

    def position(self):
        return self.first if self.clock == self.first else self.clock % len(self.frame)

    def state(self):
        """The 13 numbers."""
        return [*self.in_force(), self.start, *self.waiting(), self.position()]

    def lend(self, lent, view):
        """What a call is lent, with the state's words and a viewport."""
        return Lent(with_view(self.words, view), start=self.start, video=lent.video, palette=lent.palette)

    def applying(self, lent, call, *args):
        """All numbers that apply to a step, a run (by the entries lent) or a viewport change (by the new viewport)."""
        current = tuple(self.in_force()[5:7])
        views = {current, self.waiting(), args} if call == "view" else {current, self.waiting()}
        bank = lambda view: fields(with_view(self.words, view))["LCDBANK"]
        numbers = {n for view in views for n in applying(self.lend(lent, view), call, *args)}
        numbers |= {13} if any(bank(view) != bank(current) for view in views) else set()
        numbers |= {15} if self.position() >= len(self.frame) else set()
        return sorted(numbers)

    def refusal(self, lent, call, *args):
        return min(self.applying(lent, call, *args), default=0)

    def take(self, lent):
        """The next clock: VSYNC, HSYNC, the pixel and its colour."""
        view = self.view_of(self.clock // len(self.frame))
        vsync, hsync, pixel = self.frame[self.clock % len(self.frame)]
        self.clock += 1
        return vsync, hsync, pixel, None if pixel is None else colours(self.lend(lent, view))[pixel]

    def step(self, lent):
        n = self.refusal(lent, "step")
        if n:
            return [n]
        vsync, hsync, _, colour = self.take(lent)
        return [0, *levels(fields(self.words), vsync, hsync, colour)]

    def run(self, lent, clocks, picture):
        n = self.refusal(lent, "run", len(picture))
        if n:
            return [n]
        count = min(clocks, len(self.frame) - self.position())
        for _ in range(count):
            _, _, pixel, colour = self.take(lent)
            if pixel is not None:
                picture[pixel] = colour
        return [0, count]

    def view(self, lent, *view):
        n = self.refusal(lent, "view", *view)
        if not n:
            self.schedule.append((self.clock, view))
        return [n]


# ---- making words for the cases

def pack(f):
    words = [["0"] * 32 for _ in range(9)]
    for name, value in f.items():
        n, high, low = SPANS[name]
        words[n][31 - high:32 - low] = format(value, f"0{high - low + 1}b")[-(high - low + 1):]
    return [int("".join(w), 2) for w in words]


def panel(depth, width, height, **other):
    """Good words for a panel: stored bits, size, then any field by its name. LCDBASEL is the end unless it is given."""
    f = {"PNRMODE": 3, "BPPMODE": {s: m for m, s in STORED.items()}[depth], "ENVID": 1, "HOZVAL": width - 1,
         "LINEVAL": height - 1, "LCDBANK": 0xC0, "LCDBASEU": 0, "OFFSIZE": 0, "PAGEWIDTH": width * depth // 16, **other}
    f.setdefault("LCDBASEL", (f["LCDBASEU"] + (f["PAGEWIDTH"] + f["OFFSIZE"]) * height) % 2**21)
    return pack(f)


def noise(n, seed=1):
    """Words with no pattern in them: the same at every run."""
    out = []
    for _ in range(n):
        seed = (seed * 1664525 + 1013904223) % 2**32
        out.append(seed ^ (seed >> 16))
    return out


PALETTE = [w % 2**16 for w in noise(256, 2410)]

# ---- the files

HEADER = """# Vectors of the conformance program. Made by host/vectors.py, which says how the answers were found.
#
# Every number is hexadecimal: refusal 10 is a, 11 is b. A line begins with its key; other lines say nothing.
# Settings hold from their line on:
#   words ..                  the control words lent
#   palette ..                the palette entries lent
#   video ..                  the video words lent
#   counted N FIRST STEP      N video words instead: FIRST, FIRST + STEP, FIRST + 2 x STEP, .., modulo 2^32
#   start A                   the window start
#   hclk N                    HCLK in Hz
# Calls, each one case. After '=' stands what is due: the number of the refusal or 0, then the values where it is 0:
#   check =
#   counts =                  clocks and HCLK ticks of a frame
#   rate =                    millihertz
#   pixel ROW COLUMN =        the colour
#   row LENT ROW =            the entries from the first on, of LENT that are lent
#   picture LENT =            the same
#   stretch LENT FIRST COUNT = the entries from FIRST on, as far as panel and picture have them; it is never refused
# Entries that are not listed are due as they were before the call, so all of them where it is refused.
# State and picture of a scan are kept from line to line: each call gets them as the last call left them, and a refused call leaves
# both as they were. Settings:
#   state ..                  a state from outside: nine words, window start, pending LCDSADDR1 and LCDSADDR2, position
#   canvas N VALUE            a new picture of N entries, each VALUE
# Calls, with the refusal or 0 due as above; the state brings its own words and window start:
#   begin =                   a start with the words, window start and video words lent
#   step =                    VSYNC, HSYNC, VDEN and the data word
#   run CLOCKS =              how many it took
#   view SADDR1 SADDR2 =
# Looks, each one case, with what is due alone:
#   at = ..                   the 13 numbers of the state
#   shows = ..                all entries of the picture
"""
# What a call is lent, by the keys of the settings.
LENT = {"counts": "words", "rate": "words hclk", "check": "words video start", "begin": "words video start",
        "step": "video palette", "run": "video palette", "view": "video", "at": "", "shows": ""}
GROUPS = {}


class Group:
    def __init__(self, name, about):
        self.text, self.cases, self.now = [HEADER, f"# This group: {about}\n"], 0, {}
        GROUPS[name] = self

    def setting(self, key, values):
        kind = "video" if key == "counted" else key
        line = " ".join([key, *(format(v, "x") for v in values)])
        if self.now.get(kind) != line:
            self.now[kind] = line
            self.text.append(line + "\n")

    def lend(self, lent, call):
        keys = LENT.get(call, "words video start palette").split()
        if "words" in keys:
            self.setting("words", lent.words)
        if "video" in keys:
            self.setting("counted", lent.counted) if lent.counted else self.setting("video", lent.video)
        if "start" in keys:
            self.setting("start", [lent.start])
        if "palette" in keys:
            self.setting("palette", lent.palette)
        if "hclk" in keys:
            self.setting("hclk", [lent.hclk])

    def write(self, about, lent, call, args, answer, due):
        """A call's line. What is given by hand must be what is worked out."""
        if about:
            self.text.append(f"# {about}\n")
        self.lend(lent, call)
        if due not in (None, answer):
            raise SystemExit(f"{about}: by hand {due}, worked out {answer}")
        h = lambda values: [format(v, "x") for v in values]
        self.text.append(" ".join([call, *h(args), "=", *h(answer)]) + "\n")
        self.cases += 1

    def case(self, about, lent, call, *args, due=None):
        """One call that keeps nothing."""
        self.write(about, lent, call, args, worked_out(lent, call, *args), due)

    # the scan: each call changes self.scan and self.picture as it is due, and writes its line

    def begin(self, about, lent, due=None):
        n = refusal(lent, "begin")
        if not n:
            self.scan = Scan(lent.words[:9], lent.start, lent.words[5:7], 0)
        self.write(about, lent, "begin", (), [n], due)

    def state(self, about, words, waiting=None, position=0, start=0x30000000):
        """Hands a state in; the viewport in force is also the pending one unless another is given."""
        self.scan = Scan(words, start, words[5:7] if waiting is None else waiting, position)
        if about:
            self.text.append(f"# {about}\n")
        self.text.append(" ".join(["state", *(format(v, "x") for v in self.scan.state())]) + "\n")

    def canvas(self, n, value):
        self.picture = [value] * n
        self.text.append(f"canvas {n:x} {value:x}\n")

    def step(self, about, lent, due=None):
        self.write(about, lent, "step", (), self.scan.step(lent), due)

    def steps(self, about, lent, count):
        for i in range(count):
            self.step(about if i == 0 else None, lent)

    def run(self, about, lent, clocks, due=None):
        self.write(about, lent, "run", (clocks,), self.scan.run(lent, clocks, self.picture), due)

    def view(self, about, lent, saddr1, saddr2, due=None):
        self.write(about, lent, "view", (saddr1, saddr2), self.scan.view(lent, saddr1, saddr2), due)

    def at(self, due=None):
        self.write(None, None, "at", (), self.scan.state(), due)

    def shows(self, due=None):
        self.write(None, None, "shows", (), self.picture, due)


def swaps_of(depth):
    return {1: ("BSWP",), 2: ("BSWP",), 4: ("BSWP",), 8: ("BSWP",), 16: ("HWSWP",), 32: ("BPP24BL",)}[depth]


def modes():
    g = Group("modes", "every mode, plain and swapped, with both expansions; two rows of three words")
    for depth, frm565 in product((1, 2, 4, 8, 16, 32), (1, 0)):
        for flag in (None, *swaps_of(depth)):
            if depth == 32 and not frm565:
                continue
            width = 96 // depth
            lent = Lent(panel(depth, width, 2, FRM565=frm565, **({flag: 1} if flag else {})), video=noise(6, depth))
            name = f"{24 if depth == 32 else depth} bits, {'5:6:5' if frm565 else '5:5:5:1'}, {flag or 'plain'}"
            g.case(name, lent, "picture", 2 * width + 3)
            g.case(None, lent, "row", width, 1)
            g.case(None, lent, "pixel", 0, 0)
            g.case(None, lent, "pixel", 1, width - 1)
            g.case(None, lent, "stretch", 2 * width, width // 2 + 1, width)


def colour_cases():
    g = Group("colours", "the two expansions bit by bit, the whole palette, the temporary palette, bits that mean nothing here")
    single = [1 << b for b in range(16)] + [0, 0xFFFF]
    halves = [single[i] << 16 | single[i + 1] for i in range(0, 18, 2)]
    for frm565 in (0, 1):
        name = "5:6:5" if frm565 else "5:5:5:1"
        g.case(f"16 bits, {name}: each bit by itself, none, all", Lent(panel(16, 18, 1, FRM565=frm565), video=halves), "row", 18, 0)
        g.case(f"8 bits, {name}: the same through the palette",
               Lent(panel(8, 20, 1, FRM565=frm565), palette=single + [0xAAAA] * 238,
                    video=[0x00010203, 0x04050607, 0x08090A0B, 0x0C0D0E0F, 0x1011FFFE]), "row", 20, 0)
        g.case(f"8 bits, {name}: all 256 entries in turn",
               Lent(panel(8, 256, 1, FRM565=frm565), counted=(64, 0x00010203, 0x04040404)), "row", 256, 0)
    for depth in (1, 2, 4, 8, 16, 32):
        width = 64 // depth
        lent = Lent(panel(depth, width, 2, TPALEN=1, TPALVAL=0x123456 * depth % 2**24, FRM565=1), video=noise(4, depth))
        g.case(f"temporary palette, {depth} stored bits", lent, "picture", 2 * width + 1)
        g.case(None, lent, "pixel", 1, 1)
        g.case(None, lent, "stretch", 2 * width, 1, width)
    for depth, flag in ((8, "BSWP"), (16, "HWSWP"), (32, "BPP24BL")):
        width = 64 // depth
        g.case(f"temporary palette with {flag}",
               Lent(panel(depth, width, 1, TPALEN=1, TPALVAL=0xFFFFFF, **{flag: 1}), video=noise(2, depth)), "row", width, 0)
    g.case("temporary palette of no colour", Lent(panel(16, 4, 1, TPALEN=1, TPALVAL=0), video=noise(2)), "row", 4, 0)
    g.case("TPALVAL without TPALEN", Lent(panel(16, 4, 1, TPALVAL=0xFFFFFF), video=noise(2)), "row", 4, 0)
    for depth in (1, 2, 4, 8, 16):
        width = 32 // depth
        g.case(f"BPP24BL means nothing at {depth} bits", Lent(panel(depth, width, 1, BPP24BL=1), video=noise(1, depth)), "row", width, 0)
    g.case("FRM565 means nothing at 24 bits", Lent(panel(32, 3, 1, FRM565=1), video=noise(3)), "row", 3, 0)
    every = {n: 1 for n in ("INVVCLK", "INVVLINE", "INVVFRAME", "INVVD", "INVVDEN", "INVPWREN", "INVLEND", "PWREN", "ENLEND", "MMODE")}
    for depth in (8, 32):
        width = 32 // depth * 2
        g.case("a picture is before INVVD; the other signals' bits leave it too",
               Lent(panel(depth, width, 1, MVAL=0xFF, **every), video=noise(2)), "picture", width)
    read_only = {"LINECNT": 0x3FF, "VSTATUS": 3, "HSTATUS": 3}
    lent = Lent(panel(16, 4, 1, **read_only), video=noise(2))
    g.case("read-only bits are ignored", lent, "check")
    g.case(None, lent, "picture", 4)
    g.case(None, lent, "counts")


def screens():
    g = Group("screens", "virtual screens: OFFSIZE, LCDBASEU, the bank, the window start before the first row")
    for depth, width, height, offsize, baseu, before, bank in (
            (8, 8, 4, 2, 0, 0, 0xC0), (8, 4, 5, 6, 4, 0, 0xC0), (1, 32, 3, 4, 0x100, 3, 0xC0), (2, 32, 3, 2, 2, 1, 0),
            (4, 16, 4, 10, 0x20, 5, 0x1FF), (16, 2, 6, 2, 0, 2, 1), (16, 6, 3, 14, 0x1000, 1, 0xC0),
            (32, 2, 4, 4, 6, 3, 0xC1), (32, 1, 2, 2046, 0, 0, 0xC0), (8, 4, 1, 2046, 0x1FFFFC, 1, 0xC0)):
        pagewidth = width * depth // 16
        need = ((height - 1) * (pagewidth + offsize) + pagewidth) // 2
        words = panel(depth, width, height, OFFSIZE=offsize, LCDBASEU=baseu, LCDBANK=bank, FRM565=1)
        start = bank * 2**22 + 2 * baseu - 4 * before
        lent = Lent(words, start=start, counted=(before + need, 0x89ABCDEF, 0x9E3779B1))
        g.case(f"{depth} stored bits, {width} by {height}, OFFSIZE {offsize}, LCDBASEU 0x{baseu:x}, LCDBANK 0x{bank:x}, "
               f"{before} words before; the last row's OFFSIZE not lent", lent, "check")
        g.case(None, lent, "picture", width * height + 1)
        g.case(None, lent, "row", width + 2, height - 1)
        g.case(None, lent, "pixel", height // 2, width - 1)
        g.case(None, lent, "stretch", width * height, width * height // 3, width * height // 2)
    words = panel(16, 2, 8, LCDBASEU=2**21 - 16)
    lent = Lent(words, start=0x30000000 + 2 * (2**21 - 16), video=noise(8))
    g.case("a bank filled to its end: LCDBASEL is 0 modulo 2^21", lent, "check")
    g.case(None, lent, "picture", 16)
    words = panel(16, 2, 2, LCDBASEU=2**21 - 2 - 100, OFFSIZE=98)
    lent = Lent(words, start=0x30000000 + 2 * (2**21 - 102), video=noise(51))
    g.case("the last row ends the bank, its OFFSIZE lies past it", lent, "picture", 4)


def bad_words():
    """Words that each of 1 to 7 refuses, in TFT calls, with an otherwise good panel, 4 by 2 at 8 bits."""
    good = dict(depth=8, width=4, height=2)
    return {
        1: [a if i else a | 1 << 31 for i, a in enumerate(panel(**good))],
        2: panel(**good, PNRMODE=2),
        3: panel(**good, BPPMODE=14),
        4: panel(**good, HWSWP=1),
        5: panel(**good, OFFSIZE=1),
        6: panel(**good, LCDBASEL=6),
        7: panel(**good, LCDBASEU=2**21 - 2),
    }


def refusals():
    g = Group("refusals", "1 to 7 of the words, each condition from several sides")
    lent = lambda words: Lent(words, video=noise(64))
    free = [31 - b for b in range(32)]
    for n, name in enumerate(NAMES):
        used = {b for number, high, low in SPANS.values() if number == n for b in range(low, high + 1)}
        left = [b for b in free if b not in used]
        for b in sorted({left[0], left[-1]} if left else set()):
            words = panel(16, 4, 2)
            words[n] |= 1 << b
            g.case(f"1: {name} bit {b}", lent(words), "check")
    for v in (0, 1, 2):
        about = f"2: PNRMODE {v}" if v != 2 else "3: PNRMODE 2, STN, has no mode of 16 bits"
        g.case(about, lent(panel(16, 4, 2, PNRMODE=v)), "check")
    for v in (*range(8), 14, 15):
        g.case(f"3: BPPMODE {v}", lent(panel(16, 4, 2, BPPMODE=v)), "check")
    for depth, flags in ((16, "BSWP"), (32, "BSWP"), (1, "HWSWP"), (2, "HWSWP"), (4, "HWSWP"), (8, "HWSWP"), (32, "HWSWP"),
                         (1, "BSWP HWSWP"), (8, "BSWP HWSWP"), (16, "BSWP HWSWP"), (32, "BSWP HWSWP")):
        g.case(f"4: {flags} at {depth} stored bits", lent(panel(depth, 32, 1, **{n: 1 for n in flags.split()})), "check")
    for about, words in (
            ("5: PAGEWIDTH too large by 2", panel(16, 4, 2, PAGEWIDTH=6)),
            ("5: PAGEWIDTH too small by 2", panel(16, 4, 2, PAGEWIDTH=2)),
            ("5: PAGEWIDTH 0", panel(16, 4, 2, PAGEWIDTH=0)),
            ("5: PAGEWIDTH as W x S asks, and odd", panel(16, 3, 2)),
            ("5: the same at 8 bits", panel(8, 2, 2)),
            ("5: a row of 24 bits taken for 24 stored ones", panel(32, 4, 2, PAGEWIDTH=6)),
            ("5: W x S is no multiple of 16", panel(1, 8, 2, PAGEWIDTH=0)),
            ("5: LCDBASEU odd", panel(16, 4, 2, LCDBASEU=1)),
            ("5: OFFSIZE odd", panel(16, 4, 2, OFFSIZE=1)),
            ("5: OFFSIZE odd where there is one row only", panel(16, 4, 1, OFFSIZE=3)),
            ("6: LCDBASEL too large by 1", panel(16, 4, 2, LCDBASEL=9)),
            ("6: LCDBASEL too small by 1", panel(16, 4, 2, LCDBASEL=7)),
            ("6: LCDBASEL as if the last row had no OFFSIZE", panel(16, 4, 2, OFFSIZE=4, LCDBASEL=12)),
            ("6: LCDBASEL without LCDBASEU", panel(16, 4, 2, LCDBASEU=8, LCDBASEL=8)),
            ("7: one row past the bank", panel(16, 2, 8, LCDBASEU=2**21 - 14)),
            ("7: a row half in the bank", panel(16, 4, 1, LCDBASEU=2**21 - 2)),
            ("7: LCDBASEU at the bank's last half-words, two rows", panel(16, 2, 2, LCDBASEU=2**21 - 2)),
            ("7: the largest screen: 1024 rows, PAGEWIDTH 2046, OFFSIZE 2046", panel(32, 1023, 1024, OFFSIZE=2046))):
        g.case(about, lent(words), "check")
    for about, words in (("5 belongs to the words: counts and rate give it too", panel(16, 4, 2, OFFSIZE=1)),
                         ("8 and 9 do not touch counts and rate", panel(16, 4, 2, ENVID=0))):
        g.case(about, Lent(words, hclk=12000000), "counts")
        g.case(None, Lent(words, hclk=12000000), "rate")


def all_calls(g, about, lent, has=None):
    width, pixels = size(lent) if len(lent.words) >= 9 else (0, 0)
    room = pixels if has is None else has
    g.case(about, lent, "check")
    g.case(None, lent, "counts")
    g.case(None, lent, "rate")
    g.case(None, lent, "pixel", 0, 0)
    g.case(None, lent, "row", width if has is None else has, 0)
    g.case(None, lent, "picture", room)
    if not refusal(lent, "picture", room):
        g.case(None, lent, "stretch", room, 0, 1)


def calls():
    g = Group("calls", "which call judges what: each number 1 to 11 through every call; lengths; rows and columns; stretches, which judge nothing")
    for number, words in bad_words().items():
        calls_of = "every call that draws colours, 3 in the others: PNRMODE 2, STN, has no mode of 8 bits" if number == 2 else "every call"
        all_calls(g, f"{number} in {calls_of}", Lent(words, hclk=48000000, video=noise(64)), has=16)
    good = panel(8, 4, 2, FRM565=1)
    all_calls(g, "no refusal", Lent(good, hclk=48000000, video=noise(2)))
    all_calls(g, "8 in the calls that memory is lent to", Lent(good, hclk=48000000, video=noise(1)))
    all_calls(g, "9 in drawing alone", Lent(panel(8, 4, 2, ENVID=0), hclk=48000000, video=noise(2)))
    for n in (0, 8):
        all_calls(g, f"10 in every call: {n} words", Lent(good[:n], hclk=48000000, video=noise(2)), has=8)
    all_calls(g, "a tenth word is ignored", Lent(good + [0xFFFFFFFF], hclk=48000000, video=noise(2)))
    for n in (0, 255, 257):
        all_calls(g, f"10 in drawing: a palette of {n}", Lent(good, hclk=48000000, video=noise(2), palette=(PALETTE + [0])[:n]))
    for depth, other in ((16, {}), (32, {}), (8, {"TPALEN": 1})):
        width = 32 // depth
        lent = Lent(panel(depth, width * 2, 1, **other), video=noise(2), palette=PALETTE[:255])
        g.case("the palette's length is judged in every mode", lent, "row", width * 2, 0)
        g.case(None, lent, "pixel", 0, 0)
    lent = Lent(good, video=noise(2))
    for has in (0, 3, 4, 5):
        g.case(f"a row of {has} for a width of 4", lent, "row", has, 1)
    for has in (0, 4, 7, 8, 9):
        g.case(f"a picture of {has} for 8 pixels", lent, "picture", has)
    for has in (8, 9):
        g.case(f"two pixels of 8 to a picture of {has}", lent, "stretch", has, 0, 2)
    for has in (0, 1, 7):
        g.case(f"eight pixels to a picture of {has}, which cuts them", lent, "stretch", has, 0, 8)
    for r, c in ((1, 3), (2, 0), (0, 4), (2, 4), (0xFFFFFFFF, 0), (0, 0xFFFFFFFF), (0x80000001, 0)):
        g.case(f"the pixel at row {r}, column {c}", lent, "pixel", r, c)
    for r in (1, 2, 3, 0xFFFFFFFF):
        g.case(f"row {r} of two", lent, "row", 4, r)
    wide = Lent(panel(4, 16, 3, OFFSIZE=2, FRM565=1), video=noise(8, 4))
    for first, count in ((0, 48), (0, 0), (5, 0), (48, 0), (0, 1), (47, 1), (5, 3), (5, 11), (5, 12), (15, 2), (16, 16), (3, 40),
                         (8, 8), (31, 17), (47, 2), (48, 1), (0, 49), (49, 0), (49, 3), (1, 0xFFFFFFFF), (0xFFFFFFFF, 1)):
        g.case(f"stretch {first}, {count} of 3 rows of 16", wide, "stretch", 50, first, count)
    one = Lent(panel(1, 64, 2, BSWP=1), video=noise(4, 9))
    for first, count in ((1, 62), (31, 34), (33, 1), (60, 10)):
        g.case(f"stretch {first}, {count} of 2 rows of 64, 1 bit, BSWP", one, "stretch", 128, first, count)
    half = Lent(panel(16, 4, 2, HWSWP=1, FRM565=1), video=noise(4, 9))
    for first, count in ((1, 1), (1, 2), (3, 2), (2, 5)):
        g.case(f"stretch {first}, {count} of 2 rows of 4, 16 bits, HWSWP", half, "stretch", 8, first, count)


def pairs():
    g = Group("pairs", "two refusals at a time: the lower number is given; 10 of short words before all")
    good = panel(8, 4, 2)
    reserved = lambda words: [w | 1 << 31 if i == 0 else w for i, w in enumerate(words)]
    lend = lambda words, n=64, palette=None: Lent(words, video=noise(n), palette=palette)
    for about, lent, call, *args in (
            ("1 and 2", lend(reserved(panel(8, 4, 2, PNRMODE=0))), "check"),
            ("1 and 7", lend(reserved(panel(8, 4, 2, LCDBASEU=2**21 - 2))), "counts"),
            ("1 and 8", lend(reserved(good), 0), "check"),
            ("1 and 11", lend(reserved(good)), "pixel", 2, 0),
            ("2 and 3", lend(panel(8, 4, 2, PNRMODE=0, BPPMODE=0)), "check"),
            ("2 and 9", lend(panel(8, 4, 2, PNRMODE=0, ENVID=0)), "row", 4, 0),
            ("3 and 4", lend(panel(8, 4, 2, BPPMODE=0, BSWP=1, HWSWP=1)), "check"),
            ("3 and 5", lend(panel(8, 4, 2, BPPMODE=15, OFFSIZE=1)), "check"),
            ("3 and 8", lend(panel(8, 4, 2, BPPMODE=7), 0), "check"),
            ("4 and 5", lend(panel(16, 3, 2, BSWP=1)), "check"),
            ("4 and 6", lend(panel(16, 4, 2, BSWP=1, LCDBASEL=0)), "check"),
            ("5 and 6", lend(panel(8, 4, 2, OFFSIZE=1, LCDBASEL=0)), "check"),
            ("5 and 7", lend(panel(8, 4, 2, LCDBASEU=2**21 - 1)), "rate"),
            ("6 and 7", lend(panel(8, 4, 2, LCDBASEU=2**21 - 2, LCDBASEL=0)), "check"),
            ("6 and 9", lend(panel(8, 4, 2, LCDBASEL=0, ENVID=0)), "picture", 8),
            ("7 and 8", lend(panel(8, 4, 2, LCDBASEU=2**21 - 2), 0), "check"),
            ("7 and 8, drawing", lend(panel(8, 4, 2, LCDBASEU=2**21 - 2), 0), "row", 4, 0),
            ("8 and 9", lend(panel(8, 4, 2, ENVID=0), 1), "row", 4, 0),
            ("8 and 10", lend(good, 1, PALETTE[:255]), "picture", 8),
            ("8 and 11", lend(good, 1), "pixel", 2, 0),
            ("9 and 10, palette", lend(panel(8, 4, 2, ENVID=0), 2, PALETTE[:255]), "pixel", 0, 0),
            ("9 and 10, row", lend(panel(8, 4, 2, ENVID=0), 2), "row", 3, 0),
            ("9 and 10, picture", lend(panel(8, 4, 2, ENVID=0), 2), "picture", 7),
            ("9 and 11", lend(panel(8, 4, 2, ENVID=0), 2), "row", 4, 2),
            ("10 and 11, palette and column", lend(good, 2, PALETTE + [0]), "pixel", 0, 4),
            ("10 and 11, row", lend(good, 2), "row", 3, 2),
            ("short words and a reserved bit", lend(reserved(good)[:8]), "check"),
            ("short words and PNRMODE", lend(panel(8, 4, 2, PNRMODE=0)[:8]), "counts"),
            ("short words and no memory", lend(good[:8], 0), "check"),
            ("short words and ENVID", lend(panel(8, 4, 2, ENVID=0)[:8], 2), "row", 4, 0),
            ("short words and a row outside", lend(good[:8], 2), "row", 4, 2),
            ("short words, palette and picture", lend(good[:8], 0, []), "picture", 0)):
        numbers = [int(n) for n in re.findall("[0-9]+", about)]
        if numbers and not set(numbers) <= set(applying(lent, call, *args)):
            raise SystemExit(f"{about}: only {applying(lent, call, *args)} apply")
        g.case(about, lent, call, *args)
    everything = panel(8, 4, 2, PNRMODE=0, BPPMODE=0, BSWP=1, HWSWP=1, OFFSIZE=1, LCDBASEU=2**21 - 1, LCDBASEL=0, ENVID=0)
    g.case("all of them", Lent(reserved(everything), start=1, palette=[]), "row", 0, 9)
    g.case("all but 1", Lent(everything, start=1, palette=[]), "row", 0, 9)


def memory():
    g = Group("memory", "8: where the lent memory begins and ends")
    t9 = [0x479, 0x014FC041, 0x0098EF09, 0x9, 0xB09, 0x18000000, 0x12C00, 0xF0, 0]
    for n in (38400, 38399, 38401):
        lent = Lent(t9, counted=(n, 0x01234567, 0x00010003))
        g.case(f"240 by 320 at 16 bits, {n} words", lent, "check")
        g.case(None, lent, "row", 240, 319)
        g.case(None, lent, "pixel", 0, 0)
    for depth, width, height, offsize in ((8, 8, 3, 6), (16, 4, 2, 0), (32, 2, 2, 2046), (1, 32, 4, 2), (4, 8, 1, 2046)):
        words = panel(depth, width, height, OFFSIZE=offsize, LCDBASEU=16)
        pagewidth = width * depth // 16
        need = ((height - 1) * (pagewidth + offsize) + pagewidth) // 2
        first = 0x30000000 + 32
        name = f"{depth} stored bits, {width} by {height}, OFFSIZE {offsize}"
        for about, start, n in (("exact", first, need), ("one word short", first, need - 1), ("no memory", first, 0),
                                ("begins one word early", first - 4, need + 1), ("one word early and one short", first - 4, need),
                                ("begins one word late", first + 4, need), ("far too late", first + 0x10000, 8192),
                                ("begins at 0 and ends early", 0, 8192)):
            lent = Lent(words, start=start, counted=(n, 0x13579BDF, 0x02468ACE))
            g.case(f"{name}: {about}", lent, "check")
            g.case(None, lent, "row", width, 0)
    words = panel(8, 8, 2, LCDBASEU=16)
    for start in (0x30000021, 0x30000022, 0x30000023, 0x3000001E, 0x2FFFFFFF):
        lent = Lent(words, start=start, counted=(64, 1, 2))
        g.case(f"window start 0x{start:08x} is no multiple of 4", lent, "check")
        g.case(None, lent, "picture", 16)
    top = panel(8, 8, 2, LCDBANK=0x1FF, LCDBASEU=2**21 - 8)
    g.case("the end of the highest bank", Lent(top, start=0x80000000 - 16, counted=(4, 5, 6)), "picture", 16)
    for start in (0x80000000, 0xFFFFFFF0, 0xFFFFFFFC, 0xFFFFFFFF):
        g.case(f"window start 0x{start:08x}: addresses do not wrap", Lent(top, start=start, counted=(4096, 5, 6)), "check")
    low = panel(8, 8, 2, LCDBANK=0, LCDBASEU=0)
    for start in (0, 4, 0xFFFFFFFC, 0xFFFFFFF0):
        lent = Lent(low, start=start, counted=(4096, 5, 6))
        g.case(f"rows at address 0, window start 0x{start:08x}", lent, "check")
        g.case(None, lent, "row", 8, 1)


def count_cases():
    g = Group("counts", "clocks, ticks and rates")
    least = dict(depth=32, width=1, height=1)
    # the largest line: 256 + 128 + 2048 + 256; the largest frame: 64 + 256 + 1024 + 256
    most = panel(8, 2048, 1024, HSPW=255, HBPD=127, HFPD=255, VSPW=63, VBPD=255, VFPD=255, CLKVAL=1023)
    t8 = dict(HSPW=9, HBPD=19, HFPD=9, VSPW=1, VBPD=1, VFPD=1)
    for about, words, hclks in (
            ("the panel of T8", panel(16, 240, 320, CLKVAL=4, **t8), (0, 1, 100000000, 912800, 912799, 0xFFFFFFFF)),
            ("the smallest frame", panel(**least), (0, 1, 31, 32, 33, 1000, 0xFFFFFFFF)),
            ("the smallest frame, CLKVAL 1023", panel(**least, CLKVAL=1023), (60000000, 0xFFFFFFFF)),
            ("the longest frame", most, (0, 1, 8808038, 8808039, 100000000, 0xFFFFFFFF)),
            ("HSPW alone", panel(**least, HSPW=255), (1000000,)),
            ("HBPD alone", panel(**least, HBPD=127), (1000000,)),
            ("HFPD alone", panel(**least, HFPD=255), (1000000,)),
            ("VSPW alone", panel(**least, VSPW=63), (1000000,)),
            ("VBPD alone", panel(**least, VBPD=255), (1000000,)),
            ("VFPD alone", panel(**least, VFPD=255), (1000000,)),
            ("width and height", panel(8, 1024, 256), (266000000,)),
            ("MVAL, ENVID and the flags count nothing", panel(**least, MVAL=255, ENVID=0, INVVD=1, MMODE=1), (1000000,)),
            ("OFFSIZE counts nothing", panel(16, 4, 4, OFFSIZE=100, LCDBASEU=50), (1000000,))):
        g.case(about, Lent(words), "counts")
        for hclk in hclks:
            g.case(f"HCLK {hclk}", Lent(words, hclk=hclk), "rate")


def porches(hspw, hbpd, hfpd, vspw, vbpd, vfpd):
    return dict(HSPW=hspw, HBPD=hbpd, HFPD=hfpd, VSPW=vspw, VBPD=vbpd, VFPD=vfpd)


ALL = 2**64 - 1  # clocks: more than any frame has


def scan_cases():
    g = Group("scan", "steps through more than two frames in every mode: each clock's signals, the state now and then")
    for depth, width, height, around, other in (
            (32, 3, 2, (0, 0, 0, 0, 0, 0), {}), (32, 3, 2, (1, 2, 0, 0, 1, 2), {"BPP24BL": 1, "OFFSIZE": 4}),
            (16, 2, 3, (2, 0, 1, 1, 0, 0), {"FRM565": 1, "HWSWP": 1}), (16, 4, 1, (0, 3, 2, 2, 1, 0), {"OFFSIZE": 2}),
            (8, 4, 2, (0, 1, 3, 0, 2, 1), {"BSWP": 1, "LCDBASEU": 2}), (4, 8, 2, (3, 0, 0, 1, 1, 1), {"FRM565": 1}),
            (2, 16, 2, (1, 1, 1, 0, 0, 1), {"OFFSIZE": 2}), (1, 32, 2, (0, 0, 1, 0, 1, 0), {"FRM565": 1, "BSWP": 1})):
        words = panel(depth, width, height, **porches(*around), **other)
        first, second = Lent(words, video=noise(16, depth + width)), Lent(words, video=noise(16, depth + 77))
        g.begin(f"{24 if depth == 32 else depth} bits, {width} by {height}, HSPW, HBPD, HFPD, VSPW, VBPD, VFPD {around}", first)
        g.at()
        frame = len(g.scan.frame)
        for i in range(2 * frame + frame // 2):
            if i == 2 * frame:
                g.text.append("# the third frame is lent other memory\n")
            g.step(None, first if i < 2 * frame else second)
            if i % 37 == 5 or i % frame in (0, frame - 2, frame - 1):
                g.at()


def signal_cases():
    g = Group("signals", "a frame with each of INVVFRAME, INVVLINE, INVVDEN and INVVD, with all, with the temporary palette")
    around = porches(1, 0, 1, 1, 0, 0)
    four = ("INVVFRAME", "INVVLINE", "INVVDEN", "INVVD")
    tpal = {"TPALEN": 1, "TPALVAL": 0x12F00F}
    for flags in ({}, *({name: 1} for name in four), {name: 1 for name in four}, tpal, {**tpal, "INVVD": 1},
                  {**tpal, "TPALVAL": 0}, {"TPALVAL": 0xFFFFFF},
                  {name: 1 for name in ("INVVCLK", "INVPWREN", "INVLEND", "PWREN", "ENLEND", "MMODE")}):
        lent = Lent(panel(8, 4, 2, FRM565=1, **around, **flags), video=noise(2, 5))
        g.begin(", ".join(f"{name} 0x{value:x}" for name, value in flags.items()) or "plain", lent)
        g.steps(None, lent, len(g.scan.frame) + 1)
        g.at()


def any_mix(g, depth, width, height, around):
    """Steps, runs and viewport changes by no pattern, each frame with one of four memories."""
    shape = dict(depth=depth, width=width, height=height, OFFSIZE=2, FRM565=1, **porches(*around))
    memory = [Lent(panel(**shape), video=noise(16, depth + seed)) for seed in range(4)]
    g.canvas(width * height + 1, depth)
    g.begin(f"{24 if depth == 32 else depth} bits, {width} by {height}: any mix", memory[0])
    for choice in noise(60, depth):
        lend = memory[g.scan.clock // len(g.scan.frame) % 4]
        if choice % 5 == 0:
            g.view(None, lend, *panel(**shape, LCDBASEU=choice // 5 % 8 * 2)[5:7])
        elif choice % 5 == 1:
            g.step(None, lend)
        else:
            g.run(None, lend, choice // 5 % (2 * len(g.scan.frame)) >> choice // 4096 % 4)
        if choice % 3 == 0:
            g.at()
        if choice % 7 == 0:
            g.shows()
    g.at()
    g.shows()


def long_frame(g):
    lent = Lent(panel(32, 1, 1, **porches(255, 127, 255, 63, 255, 255)), video=noise(1, 6))
    g.canvas(1, 0x77)
    g.begin("one pixel, the widest porches: 577 lines of 641 clocks", lent)
    before = [pixel for _, _, pixel in g.scan.frame].index(0)
    g.run("up to the pixel", lent, before)
    g.at()
    g.shows()
    g.steps("the pixel and the clock after it", lent, 2)
    g.run(None, lent, ALL)
    g.at()
    g.shows()
    g.run("the pixel too", lent, before + 1)
    g.shows()
    g.run("all but the last clock", lent, 577 * 641 - before - 2)
    g.at()
    g.run(None, lent, ALL)
    g.at()


def run_cases():
    g = Group("runs", "steps and runs mixed, one picture lent to all runs, a frame of many short runs, counts of up to 2^64 - 1")
    shape = dict(depth=16, width=4, height=3, **porches(0, 1, 0, 0, 0, 1))
    words = panel(**shape, INVVD=1, INVVDEN=1)  # 8 clocks a line, 7 lines
    view = lambda baseu: panel(**shape, LCDBASEU=baseu)[5:7]
    lent, other = Lent(words, video=noise(12, 3)), Lent(words, video=noise(12, 4))

    def run(about, lent, clocks):
        g.run(about, lent, clocks)
        g.at()
        g.shows()

    g.canvas(14, 0xDEADBEEF)
    g.begin("4 by 3 at 16 bits, 56 clocks; the picture is before INVVD, and two entries past it stay", lent)
    run("nothing is taken, and the view in force stays", lent, 0)
    g.view(None, lent, *view(6))
    run("no more after a view change", lent, 0)
    run("clock 0 brings the view", lent, 1)
    run("up to the first pixel", lent, 18)
    run("the first pixel", lent, 1)
    run("a part of the first row", lent, 2)
    run("nothing in mid-frame", lent, 0)
    g.steps("a step shows a pixel and writes none", lent, 2)
    run("the end of a row, the blank clocks, the next row's beginning", lent, 7)
    run("exactly to the frame's end", lent, 56 - 31)
    run("the next frame, other memory: the top alone", other, 21)
    g.steps("the rest of it by steps: the picture stays", other, 35)
    g.at()
    g.shows()
    g.view("the third frame has another view", lent, *view(12))
    g.steps(None, lent, 30)
    run("across the frame's end: it stops there", lent, 27)
    for clocks in (ALL, 2**63, 2**32, 2**32 + 5, 57, 56):
        run(f"a whole frame, of {clocks:,} clocks", other if clocks % 2 else lent, clocks)
    for clocks in (ALL, 2**32, 2**32 + 1, 2**33):
        g.steps("one step, then a run", lent, 1)
        run(f"of {clocks:,} clocks", lent, clocks)
    g.canvas(12, 0)
    for length in (1, 3, 5, 8, 11):
        lend = (lent, other)[length % 2]
        for clock in range(0, 56, length):
            g.run(f"a frame of runs of {length}" if clock == 0 else None, lend, length)
            if length == 1 or clock % 2:
                g.at()
            if clock % 3 == 0:
                g.shows()
        g.at()
        g.shows()
    for shape in ((32, 3, 2, (0, 0, 1, 1, 0, 0)), (8, 4, 3, (1, 0, 0, 0, 0, 0)), (4, 8, 2, (0, 2, 0, 0, 1, 0)),
                  (2, 16, 2, (0, 0, 0, 0, 0, 0)), (1, 32, 2, (2, 1, 0, 0, 0, 1))):
        any_mix(g, *shape)
    long_frame(g)


def view_cases():
    g = Group("views", "view changes in mid-frame, at position 0, twice in a frame, refused; clock 0 alone brings a view")
    shape = dict(depth=8, width=4, height=2, FRM565=1, **porches(0, 0, 0, 0, 0, 0))
    words = panel(**shape)  # 7 clocks a line, 5 lines
    view = lambda baseu, **other: panel(**shape, LCDBASEU=baseu, **other)[5:7]
    lent = Lent(words, video=noise(10, 8))

    def view_at(about, *saddr):
        g.view(about, lent, *saddr)
        g.at()

    g.canvas(8, 0)
    g.begin("35 clocks, the pixels of row 0 at 16 to 19, of row 1 at 23 to 26", lent)
    view_at("before any clock", *view(2))
    g.steps("clock 0 brings it", lent, 1)
    g.at()
    view_at("after clock 0: waits a whole frame", *view(4))
    g.steps(None, lent, 17)
    g.at()
    view_at("between two pixels", *view(6))
    g.steps("the frame goes on with its own view", lent, 8)
    view_at("twice in a frame: the last wins", *view(8))
    g.steps(None, lent, 8)
    g.at()
    g.steps("the last clock of the frame does not bring it", lent, 1)
    g.at()
    g.steps("clock 0 does", lent, 1)
    g.at()
    g.run(None, lent, ALL)
    g.shows()
    view_at("at position 0, after a frame", *view(10))
    view_at("and once more", *view(12))
    g.run(None, lent, ALL)
    g.at()
    g.shows()
    for about, bad in (("1: a reserved bit of LCDSADDR1", (view(2)[0] | 1 << 30, view(2)[1])),
                       ("1: a reserved bit of LCDSADDR2", (view(2)[0], view(2)[1] | 1 << 21)),
                       ("5: LCDBASEU odd", view(3)), ("6: LCDBASEL too large", view(2, LCDBASEL=7)),
                       ("6: LCDBASEL too small", view(2, LCDBASEL=5)), ("7: past the bank", view(2**21 - 2)),
                       ("8: past the lent memory", view(18)), ("8: far past it", view(2**20)),
                       ("8, not 13: another bank", view(2, LCDBANK=0xC1))):
        view_at("a view waits", *view(14))
        view_at(f"{about}: it waits on", *bad)
        g.steps(None, lent, 20)
        view_at("the same in mid-frame", *bad)
        g.run(None, lent, ALL)
        g.at()
        g.shows()
        view_at("the view in force, again", *view(0))
    view_at("the last that lies inside", *view(16))
    g.run(None, lent, 34)
    g.shows()
    view_at("before the last clock of a frame", *view(4))
    g.run(None, lent, 2)
    g.at()
    g.run("a run brings it too", lent, 20)
    g.at()
    g.shows()
    for base in range(0, 18, 2):
        view_at(None, *view(base))
        g.run(None, lent, 12)
        g.at()
    g.shows()
    g.begin("a start in mid-frame: position 0, its own view in both places", Lent(panel(**shape, LCDBASEU=6), video=lent.video))
    g.at()
    g.run(None, lent, ALL)
    g.shows()
    edge = Lent(panel(**shape, LCDBASEU=2**21 - 4), start=0x30400000 - 8, video=noise(10, 9))
    g.begin("a view that ends its bank: LCDBASEL is 0", edge)
    g.view("13: the next bank lies in the lent memory", edge, *view(0, LCDBANK=0xC1))
    g.view("13 too: back to it", edge, *view(4, LCDBANK=0xC1))
    g.at()
    g.view("6 before 13", edge, *view(0, LCDBANK=0xC1, LCDBASEL=0))
    g.view("8 before 13", edge, *view(16, LCDBANK=0xC1))
    g.run(None, edge, ALL)
    g.shows()


GOOD = dict(depth=8, width=4, height=2)  # the panel of the handed-in states: 7 clocks a line, 5 lines, 35 in all


def good_view(baseu, **other):
    return panel(**GOOD, LCDBASEU=baseu, **other)[5:7]


def all_three(g, about, lent, new=good_view(2)):
    """Step, run and viewport change; then the state and the picture, which a refused call must leave as they were."""
    g.step(about, lent)
    g.run(None, lent, 3)
    g.view(None, lent, *new)
    g.at()
    g.shows()


def refused_states(g):
    lent = Lent(panel(**GOOD), video=noise(6))
    for number, words in bad_words().items():
        g.state(f"{number} in the words", words, position=9)
        all_three(g, None, Lent(words, video=noise(64)))
    g.state("8 in memory", panel(**GOOD), position=18)
    all_three(g, "one word short", Lent(panel(**GOOD), video=noise(1)))
    all_three(g, "no memory", Lent(panel(**GOOD)))
    all_three(g, "just enough: the new view is not inside", Lent(panel(**GOOD), video=noise(2)))
    all_three(g, "enough", lent)
    for start in (0x30000002, 0x2FFFFFFF, 0x30000004, 0x2FFFFFFC, 0):
        g.state(f"window start 0x{start:08x}", panel(**GOOD), position=18, start=start)
        all_three(g, None, lent)
    g.state("9: ENVID 0", panel(**GOOD, ENVID=0), position=18)
    all_three(g, None, lent)
    for n in (0, 255, 257):
        g.state(f"10: a palette of {n}; a view change is lent none", panel(**GOOD), position=18)
        all_three(g, None, Lent(panel(**GOOD), video=noise(6), palette=(PALETTE + [0])[:n]))
    for depth, other in ((16, {}), (32, {}), (8, {"TPALEN": 1})):
        words = panel(depth, 4, 1, **other)
        g.state("the palette's length is judged in every mode", words)
        g.step(None, Lent(words, video=noise(6), palette=PALETTE[:255]))
        g.run(None, Lent(words, video=noise(6), palette=PALETTE[:255]), 0)
        g.run(None, Lent(words, video=noise(6)), ALL)
        g.shows()
    for n in (0, 7, 8, 9):
        g.canvas(n, 0x77)
        g.state(f"10: a picture of {n} for 8 pixels, in a run alone", panel(**GOOD), position=18)
        g.run("a run of 0 is judged too", lent, 0)
        all_three(g, None, lent)


def several_views(g):
    """The viewport in force, the pending one and the new one, each good or refused by one of five numbers: all triples."""
    lent = Lent(panel(**GOOD), video=noise(6))
    views = {0: good_view(4), 1: (good_view(4)[0] | 1 << 31, good_view(4)[1]), 5: good_view(3), 6: good_view(4, LCDBASEL=4),
             7: good_view(2**21 - 2), 8: good_view(2**20)}
    g.canvas(8, 0x77)
    for current, waiting in product(views, views):
        g.state(f"in force {current}, waiting {waiting}, new 0, 1, 5, 6, 7, 8", with_view(panel(**GOOD), views[current]),
                waiting=views[waiting], position=18)
        g.step(None, lent)
        g.run(None, lent, 2)
        for new in views.values():
            g.view(None, lent, *new)
        g.at()
    g.shows()


def late_numbers(g):
    """9, 10, 13, 15, each there or not; 13 by a pending viewport in the next bank, which the lent memory reaches."""
    edge, start, next_bank = panel(**GOOD, LCDBASEU=2**21 - 4), 0x30400000 - 8, good_view(0, LCDBANK=0xC1)
    for off, short, bank, past in product((0, 1), repeat=4):
        numbers = [n for n, holds in ((9, off), (10, short), (13, bank), (15, past)) if holds]
        g.state(f"there are {numbers}", panel(**GOOD, LCDBASEU=2**21 - 4, ENVID=1 - off), waiting=next_bank if bank else None,
                position=35 if past else 34, start=start)
        lent = Lent(edge, video=noise(8), palette=PALETTE[:255] if short else None)
        if g.scan.applying(lent, "step") != numbers:
            raise SystemExit(f"{numbers}: {g.scan.applying(lent, 'step')} apply")
        all_three(g, None, lent, new=edge[5:7])
        g.view("a new view in the next bank", lent, *next_bank)
        g.at()
    lent = Lent(edge, video=noise(8))
    g.state("13 of the waiting view: a good new one does not lift it", edge, waiting=next_bank, position=5, start=start)
    g.view(None, lent, *edge[5:7], due=[13])
    g.state("in the next bank, and the new view in the one before", with_view(edge, next_bank), position=5, start=start)
    g.view(None, lent, *edge[5:7], due=[13])
    g.view(None, lent, *good_view(2, LCDBANK=0xC1), due=[0])
    g.at()


def positions(g):
    lent = Lent(panel(**GOOD), video=noise(6))
    for around in ((0, 0, 0, 0, 0, 0), (3, 1, 0, 0, 2, 1)):
        words = panel(**GOOD, **porches(*around))
        frame = len(clocks_of(words))
        for position in (0, 1, frame - 2, frame - 1, frame, frame + 1, 2 * frame, 2**31, 2**32 - 1):
            g.state(f"position {position} of {frame}", words, waiting=good_view(2), position=position)
            g.run(None, lent, 0)
            g.at()
            all_three(g, None, lent)
        g.canvas(8, 0x77)
        for position in (frame // 2, frame - 1):
            g.state(f"position {position}: the frame ends in the view in force, the next has the waiting one", words,
                    waiting=good_view(4), position=position)
            for _ in range(3):
                g.run(None, lent, ALL)
                g.at()
                g.shows()
    g.state("position 0: the waiting view, not the one in force", panel(**GOOD), waiting=good_view(4))
    g.steps(None, lent, 18)
    g.at()
    g.state("read-only bits stay as they are", panel(**GOOD, LINECNT=0x3FF, VSTATUS=3, HSTATUS=2), position=16)
    all_three(g, None, lent)


def starts(g):
    for about, words, video in (
            ("a start of eight words", panel(**GOOD)[:8], 6), ("of none", [], 6), ("10 before 1", bad_words()[1][:8], 0),
            ("9: ENVID 0", panel(**GOOD, ENVID=0), 6), ("8 before 9", panel(**GOOD, ENVID=0), 1), ("8", panel(**GOOD), 1),
            *((str(number), words, 64) for number, words in bad_words().items()),
            ("a tenth word is ignored", panel(**GOOD) + [0xFFFFFFFF], 6),
            ("read-only bits stay", panel(**GOOD, LINECNT=1, VSTATUS=1), 6)):
        g.state(None, panel(**GOOD), waiting=good_view(4), position=7)
        g.begin(f"{about}; a refused start leaves the old state", Lent(words, video=noise(video)))
        g.at()
    g.begin("a window start that is no multiple of 4", Lent(panel(**GOOD), video=noise(8), start=0x2FFFFFFE), due=[8])
    g.setting("palette", [])
    g.begin("a start is lent no palette", Lent(panel(**GOOD), video=noise(2)), due=[0])
    g.at()


def state_cases():
    g = Group("states", "states from outside: each refusal of step, run and view change, the lowest over all views; starts")
    g.canvas(8, 0x77)
    for make in (refused_states, several_views, late_numbers, positions, starts):
        make(g)


def hand_scan(g):
    """T1's panel: 4 clocks a line, 1 each of sync, back porch, active and front porch; 5 lines, 1, 1, 2 and 1 of these. So row 0
    is at clock (1 + 1 + 0) x 4 + 1 + 1 = 10 of 20 and row 1 at clock 14."""
    t1 = [0x7B, 0x4000, 0, 0, 0, 0x18000000, 4, 2, 0]
    lent = Lent(t1, video=[0x00112233, 0x00AABBCC, 0x00445566, 0x00778899], palette=range(256))
    sync, back, front = [[0, 1, 1, 0, 0]] + 3 * [[0, 1, 0, 0, 0]], *2 * [[[0, 0, 1, 0, 0]] + 3 * [[0, 0, 0, 0, 0]]]
    row = lambda colour: [[0, 0, 1, 0, 0], [0, 0, 0, 0, 0], [0, 0, 0, 1, colour], [0, 0, 0, 0, 0]]
    g.begin("T1's panel, clock by clock", lent, due=[0])
    g.at(due=[*t1, 0x30000000, 0x18000000, 4, 0])
    for clock, due in enumerate(sync + back + row(0x112233) + row(0xAABBCC) + front):
        g.step(f"clock {clock}", lent, due=due)
        if clock == 12:
            g.at(due=[*t1, 0x30000000, 0x18000000, 4, 13])
            g.view("the view moves by two rows, with the next frame", lent, 0x18000004, 8, due=[0])
            g.at(due=[*t1, 0x30000000, 0x18000004, 8, 13])
    g.at(due=[*t1, 0x30000000, 0x18000004, 8, 0])
    moved = [*t1[:5], 0x18000004, 8, *t1[7:]]
    for clock, due in enumerate(sync + back + row(0x445566)):
        g.step(f"clock {20 + clock}", lent, due=due)
        if clock == 0:
            g.at(due=[*moved, 0x30000000, 0x18000004, 8, 1])

    g.begin("the same by runs", lent, due=[0])
    g.canvas(3, 0x99)
    g.run("clocks 0 to 9", lent, 10, due=[0, 10])
    g.shows(due=[0x99, 0x99, 0x99])
    g.run("clock 10", lent, 1, due=[0, 1])
    g.shows(due=[0x112233, 0x99, 0x99])
    g.run("clocks 11 to 13", lent, 3, due=[0, 3])
    g.shows(due=[0x112233, 0x99, 0x99])
    g.run("clocks 14 to 19", lent, 2**64 - 1, due=[0, 6])
    g.shows(due=[0x112233, 0xAABBCC, 0x99])
    g.at(due=[*t1, 0x30000000, 0x18000000, 4, 0])
    g.view("in a new frame, the first row alone", lent, 0x18000004, 8, due=[0])
    g.run(None, lent, 0, due=[0, 0])
    g.at(due=[*t1, 0x30000000, 0x18000004, 8, 0])
    g.run(None, lent, 11, due=[0, 11])
    g.shows(due=[0x445566, 0xAABBCC, 0x99])
    g.at(due=[*moved, 0x30000000, 0x18000004, 8, 11])

    every = Lent([*t1[:4], 0x3C0, *t1[5:]], video=lent.video, palette=range(256))
    g.begin("all four signals exchanged", every, due=[0])
    g.canvas(2, 0)
    for clock, due in enumerate(([0, 0, 0, 1, 0xFFFFFF], [0, 0, 1, 1, 0xFFFFFF], [0, 0, 1, 1, 0xFFFFFF], [0, 0, 1, 1, 0xFFFFFF],
                                 [0, 1, 0, 1, 0xFFFFFF])):
        g.step(f"clock {clock}", every, due=due)
    g.run(None, every, 5, due=[0, 5])
    g.step("clock 10", every, due=[0, 1, 1, 0, 0xEEDDCC])
    g.run(None, every, 100, due=[0, 9])
    g.shows(due=[0, 0xAABBCC])

    # 4 + 3 + 1 + 2 clocks a line, 2 + 2 + 2 + 3 lines: row 0 at clock (2 + 2 + 0) x 10 + 4 + 3 = 47 of 90, row 1 at 57
    wide = Lent([0x7B, 0x01004081, 0x00100001, 3, *t1[4:]], video=lent.video, palette=range(256))
    g.begin("HSPW 3, HBPD 2, HFPD 1, VSPW 1, VBPD 1, VFPD 2", wide, due=[0])
    g.run(None, wide, 3, due=[0, 3])
    g.step("clock 3, the last of HSYNC", wide, due=[0, 1, 1, 0, 0])
    g.step("clock 4", wide, due=[0, 1, 0, 0, 0])
    g.run(None, wide, 14, due=[0, 14])
    g.step("clock 19, the last of VSYNC", wide, due=[0, 1, 0, 0, 0])
    g.step("clock 20", wide, due=[0, 0, 1, 0, 0])
    g.run(None, wide, 25, due=[0, 25])
    g.step("clock 46", wide, due=[0, 0, 0, 0, 0])
    g.step("clock 47: row 0", wide, due=[0, 0, 0, 1, 0x112233])
    g.run(None, wide, 9, due=[0, 9])
    g.step("clock 57: row 1", wide, due=[0, 0, 0, 1, 0xAABBCC])
    g.shows(due=[0, 0xAABBCC])
    g.run(None, wide, 33, due=[0, 32])
    g.at(due=[*wide.words, 0x30000000, 0x18000000, 4, 0])

    g.state("a state from outside: 20 is no position, 19 is the last", t1, position=20)
    g.step(None, lent, due=[15])
    g.run(None, lent, 0, due=[15])
    g.view(None, lent, 0x18000004, 8, due=[15])
    g.state(None, t1, position=19)
    g.step(None, lent, due=[0, 0, 0, 0, 0])
    g.at(due=[*t1, 0x30000000, 0x18000000, 4, 0])
    g.state("in force 7, waiting 6, new 5", [*t1[:5], 0x181FFFFE, 2, 2, 0], waiting=(0x18000000, 3), position=3)
    g.view(None, lent, 0x18000001, 5, due=[5])
    g.step(None, lent, due=[6])
    g.at(due=[*t1[:5], 0x181FFFFE, 2, 2, 0, 0x30000000, 0x18000000, 3, 3])


def hand():
    """Words and answers as literals. The palette's entry i is the number i where nothing else is said, so that 5:6:5 shows the
    index i, below 32, as the colour i x 8, and larger ones as their high bits x 0x400 more."""
    g = Group("hand", "T1 to T11 of docs/REFERENCE.md and further cases, words and answers written by hand")
    index = list(range(256))
    t1 = [0x7B, 0x4000, 0, 0, 0, 0x18000000, 4, 2, 0]
    two = [0x00112233, 0x00AABBCC]
    lend = lambda words, video, **other: Lent(words, video=video, palette=other.pop("palette", index), **other)

    lent = lend(t1, two, hclk=1000)
    g.case("T1", lent, "check", due=[0])
    g.case(None, lent, "counts", due=[0, 20, 40])
    g.case(None, lent, "rate", due=[0, 25000])
    g.case(None, lent, "row", 2048, 0, due=[0, 0x112233])
    g.case(None, lent, "row", 1, 1, due=[0, 0xAABBCC])
    g.case(None, lent, "picture", 2, due=[0, 0x112233, 0xAABBCC])
    g.case(None, lent, "pixel", 1, 0, due=[0, 0xAABBCC])
    g.case(None, lent, "stretch", 2, 1, 1, due=[0, 0xAABBCC])

    word = [0x01234567]
    t2 = [0x77, 0, 0x300, 0, 0x800, 0x18000000, 2, 2, 0]
    g.case("T2: 01 23 45 67", lend(t2, word), "row", 4, 0, due=[0, 0x000008, 0x000418, 0x000828, 0x000C38])
    t2[4] = 0x802
    g.case("T2: 67 45 23 01", lend(t2, word), "row", 4, 0, due=[0, 0x000C38, 0x000828, 0x000418, 0x000008])
    t3 = [0x75, 0, 0x700, 0, 0x802, 0x18000000, 2, 2, 0]
    g.case("T3: 6 7 4 5 2 3 0 1", lend(t3, word), "row", 8, 0, due=[0, 0x30, 0x38, 0x20, 0x28, 0x10, 0x18, 0x00, 0x08])
    t4 = [0x79, 0, 0x100, 0, 0x800, 0x18000000, 2, 2, 0]
    g.case("T4: 0123, 4567", lend(t4, word), "row", 2, 0, due=[0, 0x002418, 0x40AC38])
    t4[4] = 0x801
    g.case("T4: 4567, 0123", lend(t4, word), "row", 2, 0, due=[0, 0x40AC38, 0x002418])
    t5 = [0x7B, 0, 0, 0, 0, 0x18000000, 2, 2, 0]
    g.case("T5: 234567", lend(t5, word), "row", 1, 0, due=[0, 0x234567])
    t5[4] = 0x1000
    g.case("T5: 012345", lend(t5, word), "row", 1, 0, due=[0, 0x012345])
    t6 = [0x79, 0, 0x100, 0, 0x800, 0x18000000, 2, 2, 0]
    g.case("T6: FFFF, 07E0", lend(t6, [0xFFFF07E0]), "row", 2, 0, due=[0, 0xF8FCF8, 0x00FC00])
    t7 = [0x79, 0, 0x100, 0, 0, 0x18000000, 2, 2, 0]
    g.case("T7: FFFF, 0001", lend(t7, [0xFFFF0001]), "row", 2, 0, due=[0, 0xFCFCFC, 0x040404])
    four = [0xFFFF, 0x07E0, 0x0001, 0] + [0x5555] * 252
    through = [0x77, 0, 0x300, 0, 0x800, 0x18000000, 2, 2, 0]
    g.case("T6 and 0001 through the palette", lend(through, [0x00010203], palette=four), "row", 4, 0,
           due=[0, 0xF8FCF8, 0x00FC00, 0x000008, 0])
    through[4] = 0
    g.case("T7 and 07E0 through the palette", lend(through, [0x00010203], palette=four), "row", 4, 0,
           due=[0, 0xFCFCFC, 0x00F880, 0x040404, 0])
    t9 = [0x479, 0x014FC041, 0x0098EF09, 0x9, 0xB09, 0x18000000, 0x12C00, 0xF0, 0]
    g.case("T8, with the words of T9", lend(t9, [], hclk=100000000), "counts", due=[0, 91280, 912800])
    g.case(None, lend(t9, [], hclk=100000000), "rate", due=[0, 109553])
    black = lambda n: Lent(t9, palette=index, counted=(n, 0, 0))
    g.case("T10: 38,400 words", black(38400), "check", due=[0])
    g.case(None, black(38400), "row", 240, 319, due=[0] + [0] * 240)
    g.case("T10: 38,399 words", black(38399), "check", due=[8])
    g.case(None, black(38399), "row", 240, 0, due=[8])
    g.case(None, black(38399), "picture", 4096, due=[8])
    t11 = [0x7B, 0, 0x3FE00, 0, 0, 0x18000000, 0x7FE, 0x7FE, 0]
    g.case("T11: width 1023, PAGEWIDTH 2046", Lent(t11, counted=(1023, 0, 0)), "check", due=[0])
    for pagewidth in (2046, 2047, 0, 2):
        t11 = [0x7B, 0, 0x3FF00, 0, 0, 0x18000000, pagewidth, pagewidth, 0]
        g.case(f"T11: width 1024, PAGEWIDTH {pagewidth}", Lent(t11, counted=(1024, 0, 0)), "check", due=[5])

    g.case("CLKVAL 1023 at 60 MHz: 60,000,000,000 over 2048 x 20", lend([0x3FF7B, *t1[1:]], two, hclk=60000000), "rate",
           due=[0, 1464843])
    largest = [0x3FF77, 0xFFFFFFFF, 0x3FFFFFF, 0xFF, 0, 0x18000000, 0x100000, 0x400, 0]
    g.case("the most ticks: 2048 x 2688 x 1600", lend(largest, []), "counts", due=[0, 4300800, 8808038400])
    smallest = [0x7B, 0, 0, 0, 0, 0x18000000, 2, 2, 0]
    g.case("the highest rate: 4,294,967,295,000 over 32", lend(smallest, [], hclk=0xFFFFFFFF), "rate", due=[0, 134217727968])
    g.case("HCLK 0", lend(smallest, [], hclk=0), "rate", due=[0, 0])
    white = [0, 0xFFFF] + [0] * 254
    one = [0x71, 0, 0x1F00, 0, 0x800, 0x18000000, 2, 2, 0]
    g.case("1 bit: 80000001", lend(one, [0x80000001], palette=white), "row", 32, 0, due=[0, 0xF8FCF8] + [0] * 30 + [0xF8FCF8])
    one[4] = 0x802
    g.case("1 bit, BSWP: 01000080", lend(one, [0x80000001], palette=white), "row", 32, 0,
           due=[0] + [0] * 7 + [0xF8FCF8] + [0] * 16 + [0xF8FCF8] + [0] * 7)
    g.case("2 bits: 0 1 2 3, 3 2 1 0", lend([0x73, 0, 0xF00, 0, 0x800, 0x18000000, 2, 2, 0], [0x1B0000E4]), "row", 16, 0,
           due=[0, 0, 0x08, 0x10, 0x18] + [0] * 8 + [0x18, 0x10, 0x08, 0])
    virtual = [0x7B, 0x4000, 0, 0, 0, 0x18000000, 8, 0x1002, 0]
    three = [0x00111111, 0x00222222, 0x00333333]
    g.case("OFFSIZE 2: the second row in the third word, no fourth one needed", lend(virtual, three), "picture", 2,
           due=[0, 0x111111, 0x333333])
    g.case(None, lend(virtual, three[:2]), "picture", 2, due=[8])
    g.case("the temporary palette", lend([*t1[:8], 0x01ABCDEF], two), "picture", 3, due=[0, 0xABCDEF, 0xABCDEF])
    g.case("the window starts a word early", lend(t1, [0x99, *two], start=0x2FFFFFFC), "picture", 2, due=[0, 0x112233, 0xAABBCC])
    g.case("a word early, and the last word missing", lend(t1, [0x99, two[0]], start=0x2FFFFFFC), "picture", 2, due=[8])
    g.case("the window start is no multiple of 4", lend(t1, [0, *two, 0], start=0x2FFFFFFE), "check", due=[8])
    g.case("ENVID 0: the check does not mind", lend([0x7A, *t1[1:]], two), "check", due=[0])
    g.case("ENVID 0: drawing does", lend([0x7A, *t1[1:]], two), "row", 1, 0, due=[9])
    g.case("PNRMODE 0", lend([0x1B, *t1[1:]], two), "row", 1, 0, due=[2])
    g.case("eight words", lend(t1[:8], two), "row", 1, 0, due=[10])
    g.case("a palette of 255", lend(t1, two, palette=index[:255]), "row", 1, 0, due=[10])
    g.case("a row of 0", lend(t1, two), "row", 0, 0, due=[10])
    g.case("a picture of 1", lend(t1, two), "picture", 1, due=[10])
    g.case("row 2", lend(t1, two), "row", 1, 2, due=[11])
    g.case("column 1", lend(t1, two), "pixel", 0, 1, due=[11])
    hand_scan(g)


def main():
    for make in (hand, modes, colour_cases, screens, refusals, pairs, memory, count_cases, calls, scan_cases, signal_cases,
                 run_cases, view_cases, state_cases):
        make()
    folder = os.path.join(os.path.dirname(os.path.abspath(__file__)), "..", "crates", "conformance")
    os.makedirs(os.path.join(folder, "data"), exist_ok=True)
    for name, group in GROUPS.items():
        with open(os.path.join(folder, "data", name), "w") as f:
            f.write("".join(group.text))
    with open(os.path.join(folder, "args"), "w") as f:
        f.write("".join(f"{name}\n" for name in GROUPS))
    with open(os.path.join(folder, "stdout"), "w") as f:
        f.write("".join(f"{name} {group.cases} ok\n" for name, group in GROUPS.items()))
    print("".join(f"{name} {group.cases}\n" for name, group in GROUPS.items()), end="")


if __name__ == "__main__":
    main()
