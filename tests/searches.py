#!/usr/bin/env python3
"""Searches for sprite overflow for tests/tools.sh, which has ppu-search on the path: OAM, control and mask worked out from a log's records by
nothing but Python, and the search on each line by the words of document 02, request 2.

searches.py figures           crowds whose searches are known: the rows, and the sum
searches.py example           examples/picture.log, and examples/pages.log on four pages
searches.py crowds            random crowds that change within a picture, sprites of both heights, the picture off for some lines, under each board;
                              prints how many lines, and how many of them set the bit
searches.py captures LOGS RAW every picture of the logs LOGS/NAME.log, with the boards LOGS/NAME.board; and status bit 5 of each answer in RAW/NAME,
                              the emulator's, by the lines that ppu-search names; prints how many lines, how many of them set the bit, how many
                              answers, and how many of them have the bit
It writes its files into the present folder, and takes them away.
"""
import json
from pathlib import Path
import random
import subprocess
import sys

sys.dont_write_bytecode = True  # no folder beside the tests
from pictures import BOARDS, HEIGHT, run, write
from texts import ROOT, Unit

SPRITES, FOUND, BYTES = 64, 8, ("Y", "tile", "attribute", "X")


def need(holds, text):
    if not holds:
        sys.exit("searches.py: " + text)


def search(oam, line, height):
    """How many sprites are looked at, and the sprite and the byte of it that sets the bit, None if none does."""
    def in_range(sprite, byte):
        return oam[4 * sprite + byte] <= line < oam[4 * sprite + byte] + height

    found, sprite, byte = 0, 0, 0
    while sprite < SPRITES and found < FOUND:
        found, sprite = found + in_range(sprite, 0), sprite + 1
    while sprite < SPRITES:
        if in_range(sprite, byte):
            return sprite + 1, (sprite, byte)
        sprite, byte = sprite + 1, (byte + 1) % 4
    return SPRITES, None


class Sprites(Unit):
    """The search on each line that is drawn, with the OAM and the control of its time; and where status is read, what was read there."""

    def __init__(self, board, log):
        self.oam, self.oamaddr, self.rows, self.pictures, self.answers = bytearray(256), 0, [], [], []
        super().__init__(board, log)

    def row(self):
        if not self.shows():
            return {"line": self.line, "looked": 0, "set": False}
        looked, by = search(self.oam, self.line, 16 if self.control & 0x20 else 8)
        row = {"line": self.line, "looked": looked, "set": by is not None}
        if by:
            row.update(sprite=by[0], byte=BYTES[by[1]], value=self.oam[4 * by[0] + by[1]])
        return row

    def run_line(self):
        if self.line < HEIGHT:
            self.rows.append(self.row())
        if self.line == HEIGHT - 1:
            self.pictures.append(self.rows)
            self.rows = []
        if self.drawing():
            self.oamaddr = 0
        super().run_line()

    def write(self, port, byte):
        if port == 3:
            self.oamaddr = byte
        elif port == 4 and not self.drawing():
            self.oam[self.oamaddr] = byte
            self.oamaddr = (self.oamaddr + 1) % 256
        elif port != 7:  # what it stores no search looks at
            super().write(port, byte)

    def read(self, port, byte):
        if port == 2:
            self.answers.append((len(self.pictures), self.line, byte))
        super().read(port, byte)

    def objects(self, every_line=False):
        """What --json must give for all pictures."""
        wanted = []
        for number, rows in enumerate(self.pictures, 1):
            lines = [row["line"] for row in rows if row["set"]]
            wanted.append({"picture": number, "lines": [row for row in rows if every_line or row["set"]],
                           "lines_searched": sum(row["looked"] > 0 for row in rows), "lines_set": len(lines), "first_set": min(lines, default=None)})
        return wanted


def plain(pictures, last=False):
    """The same as rows of text."""
    text = []
    for picture in pictures:
        text += [] if last else [f"picture {picture['picture']}"]
        for row in picture["lines"]:
            looked = f"{row['looked']} sprites looked at, " if row["looked"] else ""
            how = f"set by sprite {row['sprite']}, {row['byte']} ${row['value']:02X}" if row["set"] else "not set" if looked else "no search"
            text.append(f"line {row['line']}: {looked}{how}")
        where = f"{picture['lines_set']}, first on line {picture['first_set']}" if picture["lines_set"] else "none"
        text.append(f"{picture['lines_searched']} lines searched: bit set on {where}")
    return "".join(row + "\n" for row in text)


def ppu_search(*words):
    done = subprocess.run(["ppu-search", "--strict", *map(str, words)], capture_output=True, text=True)
    need(done.returncode == 0 and not done.stderr, f"ppu-search {words}: status {done.returncode}, {done.stderr}")
    return done.stdout


def same(unit, log, *words):
    """All that ppu-search can write of a log is what is worked out here; how many lines that is, and how many of them set the bit."""
    for every_line in (False, True):
        wanted, form = unit.objects(every_line), ("--all",) if every_line else ()
        given = [json.loads(row) for row in ppu_search("--json", *form, *words, log).splitlines()]
        need(given == wanted, f"{log}: other searches, {form}")
        need(ppu_search(*form, *words, log) == plain(wanted), f"{log}: other rows, {form}")
    need(ppu_search("--last", *words, log) == plain(unit.objects()[-1:], last=True), f"{log}: --last")
    need(ppu_search("--every", 2, *words, log) == plain(unit.objects()[1::2]), f"{log}: --every 2")
    return HEIGHT * len(unit.pictures), sum(picture["lines_set"] for picture in unit.objects())


def added(sums, numbers):
    return tuple(map(sum, zip(sums, numbers)))


def figures():
    """Sprites at Y 20 and perhaps one byte more that is 20, all others 255: how many sprites are looked at, and what sets the bit. The same on
    each line that 20 is in range of."""
    text = ppu_search("--help"), (ROOT / "tools/README.md").read_text()
    for sprites, byte, looked, by in (
            (range(9), (), 9, "sprite 8, Y"), ((*range(8), 9), (), 64, None), (range(8), (9, 1), 10, "sprite 9, tile"), (range(56, 64), (), 64, None),
            (range(8), (10, 2), 11, "sprite 10, attribute"), (range(8), (63, 3), 64, "sprite 63, X"), ((*range(7), 62, 63), (), 64, "sprite 63, Y")):
        oam = bytearray(b"\xFF" * 256)
        for sprite, part in [(sprite, 0) for sprite in sprites] + [byte] * bool(byte):
            oam[4 * sprite + part] = 20
        for height, control in ((8, 0), (16, 0x20)):
            Path("figures.log").write_bytes(run(262) + write(3, 0) + write(4, *oam) + write(0, control) + write(1, 0x18) + run(240))
            rows = [f"line {line}: {looked} sprites looked at, set by {by} $14" for line in range(20, 20 + height)] if by else []
            rows.append(f"240 lines searched: bit set on {f'{height}, first on line 20' if by else 'none'}")
            need(ppu_search("--last", "figures.log").splitlines() == rows, f"other rows than {rows}")
            need(search(oam, 20, height)[0] == looked, "another search worked out here")
            if (height, looked) == (8, 10):
                need(all(row in page for page in text for row in (rows[0], rows[-1])), f"--help and tools/README.md have not {rows}")
    Path("figures.log").unlink()


def example():
    """The sprites of pages.log are those of an OAM that is all zero, and are not shown."""
    for name, board, wanted in ("picture", 9, [(0, 0)] + [(HEIGHT, 0)] * 3), ("pages", 12, [(0, 0)] * 2 + [(HEIGHT, 8)] * 221):
        log = ROOT / f"examples/{name}.log"
        unit = Sprites(board, log.read_bytes())
        searched = [(picture["lines_searched"], picture["lines_set"]) for picture in unit.objects()]
        need(searched == wanted, f"{log}: lines searched, and with the bit: {searched}")
        same(unit, log, "--board", board)


def crowd(chance):
    """OAM: of each of a sprite's four bytes some share is about one row."""
    row, shares = chance.randrange(256), [chance.choice((0.05, 0.2, 1)) for _ in range(4)]
    return bytes(max(0, min(255, row + chance.randrange(-9, 10))) if chance.random() < shares[at % 4] else chance.choice((255, chance.randrange(256)))
                 for at in range(256))


def last_alone(chance):
    """OAM: eight sprites on a row, and sprite 63, whichever of its bytes is looked at."""
    row, oam = bytes((chance.randrange(240),)), bytearray(b"\xFF" * 256)
    for sprite in chance.sample(range(chance.randrange(8, 64)), 8):
        oam[4 * sprite:4 * sprite + 1] = row
    return oam[:252] + row * 4


def filled(chance):
    """With the picture off another OAM, not always from OAMADDR 0 on."""
    return write(1, 0) + write(3, chance.choice((0, 0, 1, 252))) + write(4, *chance.choice((crowd, crowd, last_alone))(chance)) + write(1, 0x1E)


def crowded(chance):
    """A picture: between runs of lines another OAM, control or mask, and bytes for OAM that are dropped where the picture is on."""
    log, left = filled(chance), 262
    while left:
        changes = (filled(chance), write(0, chance.choice((0, 0x20, 0x27))), write(1, chance.choice((0, 0x08, 0x10, 0x18, 0xE7, 0xFF))),
                   write(4, *chance.randbytes(6)))
        lines = min(left, chance.choice((1, 2, 40, 262)))
        log, left = log + run(lines) + chance.choice(changes), left - lines
    return log


def crowds():
    chance, sums, ways = random.Random(17), (0, 0), set()
    for board in (*BOARDS, 4, 12):
        log = run(262) + b"".join(crowded(chance) for _ in range(10)) + run(chance.randrange(HEIGHT))
        Path("crowds.log").write_bytes(log)
        unit = Sprites(board, log)
        sums = added(sums, same(unit, "crowds.log", "--board", board))
        ways |= {(row.get("byte"), row["looked"] == SPRITES) for rows in unit.pictures for row in rows if row["looked"]}
    wanted = {(byte, looked) for byte in BYTES for looked in (False, True)} | {(None, True)}
    need(ways == wanted, f"the bit is set in these ways alone: {ways}")
    Path("crowds.log").unlink()
    print(*sums)


def answered(unit, name):
    """Status bit 5 of each answer is what the lines before it come to: how many answers, and how many have it. The bit falls with line 261."""
    pictures = unit.objects()
    for whole, line, byte in unit.answers:
        drawn = pictures[whole - 1]["lines"] if line >= HEIGHT else [row for row in pictures[whole]["lines"] if row["line"] < line]
        need(byte >> 5 & 1 == bool(drawn), f"{name}: the answer ${byte:02X} before line {line} of picture {whole + 1}")
    return len(unit.answers), sum(byte >> 5 & 1 for _, _, byte in unit.answers)


def captures(logs, raw):
    """The emulator's answers of efp are left out: it polls status within lines, where the emulator sets the bit in the middle of one."""
    sums = (0, 0, 0, 0)
    for log in sorted(Path(logs).glob("*.log")):
        board, data, answers = int(log.with_suffix(".board").read_text()), log.read_bytes(), Path(raw, log.stem).read_bytes()
        unit = Sprites(board, data[:-len(answers)] + answers)
        sums = added(sums, same(unit, log, "--board", board) + (answered(unit, log.stem) if log.stem != "efp" else (0, 0)))
    print(*sums)


if __name__ == "__main__":
    globals()[sys.argv[1]](*sys.argv[2:])
