#!/usr/bin/env python3
"""Texts for tests/tools.sh, which has ppu-text on the path: nametable RAM worked out from a log's records by nothing but Python, and its text.

texts.py example           examples/picture.log and .tbl are what picture.py writes, and the log's text has picture.py's words alone
texts.py pages             examples/pages.log and .tbl are what pages.py writes; under each board each quarter's text, on four pages pages.py's map
texts.py quarters          another text in each quarter, under each board: each quarter by --quarter and by control
texts.py captures FOLDER   every screen of the logs NAME.log in FOLDER, with the boards NAME.board, as JSON; prints how many screens
texts.py forms             a table as 256 bytes and as entries; plain lines against JSON, in all tables of characters that can be shown
texts.py back              texts to pages, with attribute bytes and without; those pages written through port 7 into each quarter, under each board, and
                           their texts again
It writes its files into the present folder, and takes them away.
"""
from itertools import product
import json
from pathlib import Path
import random
import runpy
import subprocess
import sys
import tempfile

sys.dont_write_bytecode = True  # no folder beside the tests
from pictures import BOARDS, fill, page_of, run, write

ROOT = Path(__file__).resolve().parent.parent
SHOWN = bytes(range(32, 127)) + bytes(range(160, 256))
QUARTERS = (None, 0, 1, 2, 3)  # None: by control


def need(holds, text):
    if not holds:
        sys.exit("texts.py: " + text)


def known_of(script):
    """What a script of examples/ knows; the log and the table there must be what it writes. A copy is run, since it writes them beside itself."""
    sys.path.append(str(ROOT / "examples"))
    with tempfile.TemporaryDirectory() as folder:
        copy = Path(folder, script)
        copy.write_bytes((ROOT / "examples" / script).read_bytes())
        known = runpy.run_path(str(copy))
        for suffix in (".log", ".tbl"):
            name = copy.with_suffix(suffix).name
            need(Path(folder, name).read_bytes() == (ROOT / "examples" / name).read_bytes(), f"examples/{name} is not what {script} writes")
    return known


class Unit:
    """Nametable RAM and control when each picture is whole. Nothing is drawn: v is unknown, None, after a line that draws."""

    def __init__(self, board, log):
        self.board, self.ram, self.screens = board, bytearray(4096 if board % 8 == 4 else 2048), []
        self.control = self.mask = self.t = self.v = self.w = self.line = self.warm = 0
        for kind, high, low, byte in zip(log[::4], log[1::4], log[2::4], log[3::4]):
            number = 256 * high + low
            if kind == 2:
                for _ in range(number):
                    self.run_line()
            elif 0x2000 <= number < 0x4000:
                (self.write if kind == 1 else self.read)(number % 8, byte)

    def shows(self):
        return self.mask & 0x18

    def run_line(self):
        if self.line < 240 and self.shows():
            self.v = None
        if self.line == 239:
            self.screens.append((bytes(self.ram), self.control))
        if self.line == 261:
            self.warm = 1
            self.v = self.t if self.shows() else self.v
        self.line = (self.line + 1) % 262

    def read(self, port, _):
        if port == 2:
            self.w = 0
        elif port == 7:
            self.step()

    def step(self):
        if not self.drawing() and self.v is not None:
            self.v = (self.v + (32 if self.control & 4 else 1)) % 32768

    def drawing(self):
        return self.shows() and (self.line < 240 or self.line == 261)

    def write(self, port, byte):
        if port == 7 and not self.drawing():
            need(self.v is not None, "a write to an address that this does not know")
            address = self.v % 16384
            if 0x2000 <= address < 0x3F00:
                self.ram[1024 * page_of(self.board, address // 1024 % 4) + address % 1024] = byte
            self.step()
        elif self.warm and port == 0:
            self.control, self.t = byte, self.t & ~0xC00 | (byte & 3) << 10
        elif self.warm and port == 1:
            self.mask = byte
        elif self.warm and port in (5, 6):
            self.write_half(port, byte)
            self.w = 1 - self.w

    def write_half(self, port, byte):
        if port == 5 and self.w == 0:
            self.t = self.t & ~31 | byte // 8
        elif port == 5:
            self.t = self.t & ~0x73E0 | byte % 8 << 12 | byte // 8 << 5
        elif self.w == 0:
            self.t = self.t & 255 | byte % 64 << 8
        else:
            self.t = self.v = self.t & ~255 | byte

    def objects(self, table, quarter=None):
        """What --json must give for all pictures."""
        wanted = []
        for number, (ram, control) in enumerate(self.screens, 1):
            shown = control % 4 if quarter is None else quarter
            tiles = ram[1024 * page_of(self.board, shown):][:960]
            text = "".join(chr(table[tile] or 32) for tile in tiles)
            rows = [text[at:at + 32] for at in range(0, 960, 32)]
            without = sum(table[tile] == 0 for tile in tiles)
            wanted.append({"picture": number, "quarter": shown, "rows": rows, "tiles_without_character": without})
        return wanted


def ppu_text(*words, data=b"", silent=True):
    done = subprocess.run(["ppu-text", *map(str, words)], input=data, capture_output=True)
    need(done.returncode == 0, f"ppu-text {words}: status {done.returncode}, {done.stderr}")
    need(not silent or not done.stderr, f"ppu-text {words}: said {done.stderr}")
    return done.stdout


def objects(*words, quarter=None):
    words = words if quarter is None else ("--quarter", quarter, *words)
    return [json.loads(line) for line in ppu_text("--json", *words, silent=False).decode("utf-8").splitlines()]


def mixed_table(chance):
    """Any byte for a tile, some of them 0: control characters, quotes, letters of Latin-1."""
    return bytes(chance.choice((0, chance.randrange(256), chance.randrange(32, 127))) for _ in range(256))


def full_table(chance):
    """Each character that can be shown, in any order, and some of them twice."""
    table = list(SHOWN) + chance.choices(SHOWN, k=256 - len(SHOWN))
    chance.shuffle(table)
    return bytes(table)


def entries(table):
    """As a .tbl file: digits in large and small letters, tiles without a character left out."""
    return "".join(f"{tile:02{'xX'[tile % 2]}}={chr(byte)}\n" for tile, byte in enumerate(table) if byte).encode("utf-8")


def tiles_of(table, text):
    return bytes(table.index(byte) for byte in text)


def example():
    known, table = known_of("picture.py"), bytearray(256)
    table[0] = 32
    for letter, tile in known["tiles"].items():
        table[tile] = ord(letter)
    wanted = Unit(9, (ROOT / "examples/picture.log").read_bytes()).objects(table)
    need(len(wanted) == 4 and "".join(wanted[-1]["rows"]).strip() == known["TEXT"], "the log has other words than picture.py")
    need(all(screen["tiles_without_character"] == 0 for screen in wanted), "a tile of the log without a character")
    files = ("--table", ROOT / "examples/picture.tbl", ROOT / "examples/picture.log")
    need(objects(*files) == wanted, "--json of examples/picture.log")
    need(ppu_text("--last", *files).decode() == "\n".join(wanted[-1]["rows"]) + "\n", "--last of examples/picture.log")


def pages():
    """Under a board with two pages, or one, the quarter that was filled last is the one whose map a page has."""
    known, table, log = known_of("pages.py"), bytearray(256), ROOT / "examples/pages.log"
    for shown, (tile, _) in known["TILES"].items():
        table[tile] = ord(shown)
    maps = ["".join(row[left:left + 32] + "\n" for row in known["rows"][top:top + 30]) for top, left in product((0, 30), (0, 32))]
    need(len(set(maps)) == 4, "quarters with the same map")
    for board in BOARDS:
        files = ("--board", board, "--table", ROOT / "examples/pages.tbl", log)
        need(objects(*files) == Unit(board, log.read_bytes()).objects(table), f"examples/pages.log: board {board}")
        for quarter, last in enumerate(((1, 1, 3, 3), (2, 3, 2, 3), (3, 3, 3, 3), (3, 3, 3, 3), (0, 1, 2, 3))[board % 8]):
            need(ppu_text("--last", "--quarter", quarter, *files).decode() == maps[last], f"examples/pages.log: board {board}: not the map, quarter {quarter}")


def quarters():
    chance = random.Random(3)
    table = full_table(chance)
    Path("table").write_bytes(table)
    filled = [bytes(chance.randrange(256) for _ in range(1024)) for _ in range(4)]
    for board in BOARDS:
        log = run(262) + b"".join(fill(0x2000 + 1024 * quarter, page) for quarter, page in enumerate(filled))
        log += b"".join(write(0, control) + run(262) for control in (0, 0x81, 0x7E, 3, 2))
        Path("quarters.log").write_bytes(log)
        unit = Unit(board, log)
        rows = {str(unit.objects(table, quarter)[-1]["rows"]) for quarter in range(4)}
        need(len(rows) == (2, 2, 1, 1, 4)[board % 8], "pages that are alike")
        need([screen["quarter"] for screen in unit.objects(table)] == [0, 0, 1, 2, 3, 2], "other quarters by control")
        for quarter in QUARTERS:
            given = objects("--board", board, "--table", "table", "quarters.log", quarter=quarter)
            need(given == unit.objects(table, quarter), f"board {board}, quarter {quarter}")
    Path("table").unlink()
    Path("quarters.log").unlink()


def captures(folder):
    chance, count = random.Random(5), 0
    for log in sorted(Path(folder).glob("*.log")):
        board, table = int(log.with_suffix(".board").read_text()), mixed_table(chance)
        Path("table").write_bytes(table)
        unit = Unit(board, log.read_bytes())
        for quarter in QUARTERS:
            wanted = unit.objects(table, quarter)
            need(objects("--table", "table", "--board", board, log, quarter=quarter) == wanted, f"{log}: other texts, quarter {quarter}")
            count += len(wanted)
    Path("table").unlink()
    print(count)


def forms():
    chance = random.Random(7)
    for _ in range(20):
        table = bytearray(full_table(chance))
        for tile in chance.sample(range(256), chance.choice((0, 1, 100))):
            table[tile] = 0
        Path("table").write_bytes(table)
        Path("table.tbl").write_bytes(entries(table))
        Path("forms.log").write_bytes(run(262) + fill(0x2000, bytes(chance.randrange(256) for _ in range(1024))) + run(262) * 2)
        given = objects("--table", "table", "forms.log")
        need(given == Unit(9, Path("forms.log").read_bytes()).objects(table) and len(given) == 3, "other texts")
        plain = "".join(f"picture {screen['picture']}, quarter {screen['quarter']}\n" + "".join(row + "\n" for row in screen["rows"]) for screen in given)
        trimmed = "".join(line.rstrip(" ") + "\n" for line in plain.splitlines())
        need(ppu_text("--table", "table.tbl", "forms.log", silent=False).decode() == plain, "plain lines and JSON differ")
        need(ppu_text("--table", "table.tbl", "--trim", "forms.log", silent=False).decode() == trimmed, "--trim")
        need([screen["rows"] for screen in objects("--trim", "--table", "table.tbl", "forms.log")] ==
             [[row.rstrip(" ") for row in screen["rows"]] for screen in given], "--trim --json")
    for name in ("table", "table.tbl", "forms.log"):
        Path(name).unlink()


def back():
    chance = random.Random(11)
    for board, quarter in product(BOARDS, range(4)):
        table = full_table(chance)
        Path("table").write_bytes(table)
        rows = [bytes(chance.choice(SHOWN) for _ in range(32)) for _ in range(30)]
        text = "".join(row.decode("latin-1") + "\n" for row in rows).encode("utf-8")
        onto = bytes(chance.randrange(256) for _ in range(1024))
        Path("onto").write_bytes(onto)
        tiles = tiles_of(table, b"".join(rows))
        need(ppu_text("--page", "--table", "table", data=text) == tiles + bytes(64), "the page of a text")
        ppu_text("--page", "--table", "table", "--onto", "onto", "-o", "onto", "-", data=text)
        page = Path("onto").read_bytes()
        need(page == tiles + onto[960:], "a page with the attributes of another")
        log = run(262) + fill(0x2000 + 1024 * quarter, page) + write(0, quarter) + run(240)
        need(ppu_text("--last", "--strict", "--board", board, "--table", "table", "-", data=log) == text, "the text of the page of a text")
        short = (rows[0], rows[1][:chance.randrange(32)], b"", rows[2][:chance.randrange(32)])
        text = b"\xEF\xBB\xBF" + "\r\n".join(row.decode("latin-1") for row in short).encode("utf-8")
        wanted = b"".join(row.ljust(32) for row in short).ljust(960)
        need(ppu_text("--page", "--table", "table", data=text) == tiles_of(table, wanted) + bytes(64), "the page of short lines, and too few")
    Path("table").unlink()
    Path("onto").unlink()


if __name__ == "__main__":
    globals()[sys.argv[1]](*sys.argv[2:])
