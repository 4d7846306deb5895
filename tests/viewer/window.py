#!/usr/bin/env python3
"""Looks at the viewer's window, as the X server has it, and at what it must show. Nothing but Python's own modules and tests/pictures.py.

    window.py logs FOLDER                         writes logs and palette files for the tests there
    window.py minimal                             prints what examples/minimal must print
    window.py split PPM SCROLL                    the picture that examples/split has printed for this scroll is the one reckoned
    window.py store X11 PNG                       stores the window's screen
    window.py same X11 PNG                        the screen is the stored one
    window.py bmp FILE PNG                        so is this BMP file
    window.py picture X11 PALETTE DRAWN [MASK]    the picture is that of examples/picture.py in these colours, after DRAWN lines of it
    window.py pages X11 PALETTE BOARD K           the picture is picture K of examples/pages.log, as tests/pictures.py draws it under this board
    window.py capture X11 PALETTE NAME K          the picture is picture K of this capture, as the emulator drew it, in these colours
    window.py panel X11                           prints the panel's text
    window.py search LOG                          prints what the panel must say of the next line's search at the log's end: nothing if it is not drawn
    window.py hits                                prints the sprite 0 hits of hits.log: the pictures that are whole before, and the line

X11 is FILE,X,Y,WIDTH,HEIGHT: the X server's frame buffer (an XWD file, which Xvfb -fbdir keeps) and the window's place in it. The screen is
what the window shows, at its own size: each of its pixels must stand there as a square, in the middle of the window.
"""
import array
import random
import re
import struct
import sys
import zlib
from pathlib import Path

ROOT = Path(__file__).resolve().parents[2]
sys.dont_write_bytecode = True
sys.path.insert(0, str(ROOT / "tests"))
from pictures import Filled, captures, extended, fill, finished, palettes, run, shown, write
from searches import Sprites
from texts import known_of
WIDTH, HEIGHT, MARGIN, PANEL_LEFT, PITCH, COLUMNS = 496, 256, 8, 280, 9, 26     # the layout of examples/screen.h
BACKDROP = bytes.fromhex("24272E")
HITS, FLOOR = (92, 60, 150), 96     # hits.log: sprite 0's Y byte, picture by picture, and the first line of the background that it can hit


def fail(text):
    sys.exit(f"window.py: {text}")


def scattered(chance):
    """500 records: reads and writes of the ports and of addresses about their bounds, and runs of up to 255 lines; with the warming up first."""
    log = bytearray((2, 1, 6, 0))
    for _ in range(500):
        if chance.random() < 0.04:
            log += bytes((2, 0, chance.randrange(256), 0))
        else:
            kind = chance.randrange(2)
            address = chance.choice((0x2000, 0x2000, 0x2000, 0x2000, 0x3FF8, 0x1FF8, 0x4000)) + chance.randrange(8)
            log += bytes((kind, address >> 8, address & 255, kind * chance.randrange(256)))
    return log


def crowded(chance, control):
    """64 sprites on twenty rows: the log up to the line before the first that sets status bit 5, and up to that line; by the number of lines."""
    log = run(262) + write(0, control) + write(3, 0) + b"".join(write(4, 60 + chance.randrange(20), 255, 255, 255) for _ in range(64)) + write(1, 0x1E)
    first = Sprites(9, log + run(240)).objects()[-1]["first_set"]
    return {lines: log + run(lines) for lines in (first - 1, first)}


def hitting():
    """A blank picture, then one for each of HITS: sprite 0 and the background, from FLOOR on, are of one tile, which is opaque everywhere."""
    log = run(262) + fill(16, b"\xFF" * 8) + fill(0x2000 + 32 * FLOOR // 8, b"\1" * (960 - 32 * FLOOR // 8)) + write(6, 0, 0)
    for y, lines in zip(HITS, (242, 262, 262)):
        log += write(3, 0) + write(4, y, 1, 0, 100) + write(1, 0x1E) + run(lines)
    return log


def hits():
    """The first line that sprite, y + 1 to y + 8, and background share; none where the sprite ends above it."""
    for before, y in enumerate(HITS, 1):
        if y + 8 >= FLOOR:
            print(before, max(y + 1, FLOOR))


def logs(folder):
    """The example's log, checked; the same with other masks; the same with 1200 pictures more; the captures' logs; one with sprite 0 hits; for
    the panel the document's log cut short and with more records, bad ones too, random accesses and runs, and crowds of sprites, of both
    heights."""
    log = bytes(known_of("picture.py")["log"])
    mask = bytes((1, 0x20, 1, 0x1E))
    if log.count(mask) != 1:
        fail("examples/picture.log does not set the mask to $1E once")
    Path(folder, "grey.log").write_bytes(log.replace(mask, mask[:3] + b"\x1F"))
    Path(folder, "emphasis.log").write_bytes(log.replace(mask, mask[:3] + b"\xBE"))
    Path(folder, "long.log").write_bytes(log + bytes((2, 1, 6, 0)) * 1200)
    Path(folder, "hits.log").write_bytes(hitting())
    paper = (ROOT / "examples/paper.log").read_bytes()
    for end in range(4, len(paper) + 1, 4):
        if paper[end - 4] != 1 or paper[end:end + 1] != b"\x01":      # of writes in a row the last is enough
            Path(folder, f"panel-{end // 4}.log").write_bytes(paper[:end])
    more = {"kind": "03200200", "last": "00200201", "cut": "012007", "run-last": "02000101", "no-line": "02000000", "blank": "0200F200",
            "nmi": "01200080 0200F200"}
    for name, records in more.items():
        Path(folder, f"panel-{name}.log").write_bytes(paper + bytes.fromhex(records))
    for seed in range(2):
        Path(folder, f"panel-random-{seed}.log").write_bytes(scattered(random.Random(seed)))
        for lines, log in crowded(random.Random(seed), 0x20 * seed).items():
            Path(folder, f"panel-crowd-{seed}-{lines}.log").write_bytes(log)
    Path(folder, "palette").write_bytes(b"".join(bytes((4 * i, 255 - 4 * i, 37 * i % 256)) for i in range(64)))
    palettes(folder)
    Path(folder, "raw").mkdir()
    captures(folder, Path(folder, "raw"))


def minimal():
    """Three diamonds, by distance from their middle and not by a tile's bits: at tile columns 1, 3, 5 of row 1, scrolled by 3 and 2; behind
    each row the colours of the first, with red emphasised. NMI comes with line 241, the second below the picture."""
    for y in range(16):
        row = []
        for x in range(56):
            tile, across, down = (x + 3) // 8, (x + 3) % 8, (y + 2) % 8
            there = (y + 2) // 8 == 1 and tile in (1, 3, 5)
            row.append(max(0, min(3, 5 - (abs(2 * across - 7) + abs(2 * down - 7)) // 2)) if there else 0)
        print("".join(" .+#"[number] for number in row), *(f"{64 + (0x0F, 0x16, 0x27, 0x30)[number]:03X}" for number in row[5:13]))
    print(f"NMI after {241 - 239} lines more")


def split_colour(column, y):
    """Of column 0 to 511 and row y of the two nametables: a tile has a line below, a stripe at its left, a gap, and its column's number in six
    binary digits; bar and playfield have their pairs of colours, the playfield three for blocks of 32 x 32."""
    tile, across, page, block = column // 8, column % 8, column // 256, y // 32 * 8 + column % 256 // 32
    ink = y % 8 == 7 or f"1 {tile:06b}"[across] == "1"
    paper = 0x0F if y < 32 else (0x11, 0x19, 0x16)[(page + block) % 3]
    return paper if not ink else 0x30 if y < 32 else paper + 0x20


def split(file, scroll):
    """The bar is lines 0 to 31 and stands still; the playfield below is moved to the left by the scroll. Sprite 0 is behind both."""
    data, palette = Path(file).read_bytes(), (ROOT / "examples/2c02.pal").read_bytes()
    header = re.match(rb"P6\s+256\s+240\s+255\s", data)
    if not header or len(data) - header.end() != 3 * 256 * 240:
        fail(f"{file}: no PPM of 256 by 240")
    rows = [data[at:at + 3 * 256] for at in range(header.end(), len(data), 3 * 256)]
    wanted = [shown(palette, (split_colour((x + (scroll if y >= 32 else 0)) % 512, y) for x in range(256))) for y in range(240)]
    for what, part in ("the bar", slice(0, 32)), ("the line below the bar", slice(32, 33)), ("the playfield", slice(33, 240)):
        same(rows[part], wanted[part], f"scroll {scroll}: {what}")


def rgb(row, step):
    """A row of pixels of so many bytes each, blue first, as three bytes a pixel, red first."""
    turned = bytearray(len(row) // step * 3)
    for colour in range(3):
        turned[colour::3] = row[2 - colour::step]
    return bytes(turned)


def window(place):
    """The screen that the window shows, as rows of three bytes a pixel."""
    file, left, top, width, height = place.rsplit(",", 4)
    left, top, width, height = int(left), int(top), int(width), int(height)
    data = Path(file).read_bytes()
    header = struct.unpack(">25I", data[:100])
    start, order, bits, pitch = header[0] + 12 * header[19], header[7], header[11], header[12]
    if order != 0 or bits != 32 or header[14:17] != (0xFF0000, 0xFF00, 0xFF):
        fail("the frame buffer's pixels are not 32 bits, blue first")
    scale = min(width // WIDTH, height // HEIGHT)
    left, top = left + (width - scale * WIDTH) // 2, top + (height - scale * HEIGHT) // 2
    rows, before = [], b""
    for y in range(scale * HEIGHT):
        at = start + (top + y) * pitch + 4 * left
        row = data[at:at + 4 * scale * WIDTH]
        if y % scale and row != before:
            fail(f"row {y} of the window differs from the row above it")
        if y % scale == 0:
            pixels = array.array("I", row)
            if any(pixels[i::scale] != pixels[::scale] for i in range(scale)):
                fail(f"row {y} of the window is not made of squares")
            before = row
            rows.append(rgb(pixels[::scale].tobytes(), 4))
    return rows


def bmp(file):
    """The rows of a BMP file of 24 or 32 bits without compression."""
    data = Path(file).read_bytes()
    start, = struct.unpack("<I", data[10:14])
    width, height, _, bits = struct.unpack("<iiHH", data[18:30])
    step, pitch = bits // 8, (width * bits + 31) // 32 * 4
    rows = [data[start + y * pitch:start + y * pitch + width * step] for y in range(height)]
    return [rgb(row, step) for row in reversed(rows)]


def chunk(name, data):
    return struct.pack(">I", len(data)) + name + data + struct.pack(">I", zlib.crc32(name + data))


def store(rows, png):
    header = struct.pack(">IIBBBBB", len(rows[0]) // 3, len(rows), 8, 2, 0, 0, 0)
    packed = zlib.compress(b"".join(b"\0" + row for row in rows), 9)
    Path(png).write_bytes(b"\x89PNG\r\n\x1a\n" + chunk(b"IHDR", header) + chunk(b"IDAT", packed) + chunk(b"IEND", b""))


def stored(png):
    """The rows of a PNG file that `store` wrote."""
    data, at, parts = Path(png).read_bytes(), 8, {}
    while at < len(data):
        length, name = struct.unpack(">I4s", data[at:at + 8])
        parts[name] = data[at + 8:at + 8 + length]
        at += 12 + length
    width, height = struct.unpack(">II", parts[b"IHDR"][:8])
    raw = zlib.decompress(parts[b"IDAT"])
    return [raw[y * (3 * width + 1) + 1:(y + 1) * (3 * width + 1)] for y in range(height)]


def same(rows, wanted, what):
    if len(rows) != len(wanted) or len(rows[0]) != len(wanted[0]):
        fail(f"{what}: {len(rows[0]) // 3} by {len(rows)} pixels, not {len(wanted[0]) // 3} by {len(wanted)}")
    wrong = [(x // 3, y) for y in range(len(rows)) if rows[y] != wanted[y] for x in range(0, len(rows[y]), 3) if rows[y][x:x + 3] != wanted[y][x:x + 3]]
    if wrong:
        x, y = wrong[0]
        got, want = rows[y][3 * x:3 * x + 3].hex(), wanted[y][3 * x:3 * x + 3].hex()
        fail(f"{what}: {len(wrong)} pixels differ, the first at column {x}, row {y}: {got}, not {want}")


def numbers():
    """The example's pixel numbers, from its letters and its ball: a text on row 12 from column 8 on, eight sprites from line 141 on."""
    known = known_of("picture.py")
    picture = [[0] * 256 for _ in range(240)]
    for column, letter in enumerate(known["TEXT"], 8):
        for y, bits in enumerate(bytes.fromhex(known["FONT"][letter])):
            for x in range(8):
                if bits >> (7 - x) & 1:
                    picture[8 * 12 + y][8 * column + x] = 4 * (column // 4 % 4) + 1
    planes = zip(bytes.fromhex(known["BALL"]), bytes.fromhex(known["SHINE"]))
    for y, (low, high) in enumerate(planes):
        for x in range(8):
            colour = (low >> (7 - x) & 1) + 2 * (high >> (7 - x) & 1)
            for sprite in range(8 if colour else 0):
                picture[141 + y][40 + 24 * sprite + x] = 16 + 4 * (sprite % 4) + colour
    return picture, bytes.fromhex(known["PALETTE"])


def picture_of(place):
    return [row[3 * MARGIN:3 * (MARGIN + 256)] for row in window(place)[MARGIN:MARGIN + 240]]


def picture(place, palette, drawn, mask):
    """Lines not yet drawn are those of the picture before, the same one, at half their brightness."""
    colours, (pixels, cells) = extended(Path(palette).read_bytes()), numbers()
    wanted = []
    for y, line in enumerate(pixels):
        row = shown(colours, ((cells[n] & (0x30 if mask & 1 else 0x3F)) + 64 * (mask >> 5) for n in line))
        wanted.append(row if y < drawn else bytes(level // 2 for level in row))
    same(picture_of(place), wanted, "the picture")


def same_colours(place, palette, numbers, what):
    colours = shown(extended(Path(palette).read_bytes()), numbers)
    same(picture_of(place), [colours[at:at + 3 * 256] for at in range(0, len(colours), 3 * 256)], what)


def pages(place, palette, board, k):
    filled = Filled(ROOT / "examples/pages.log", board)
    same_colours(place, palette, (filled.palette[number] for number in filled.picture(k)), f"picture {k} of pages.log, board {board}")


def capture(place, palette, name, k):
    same_colours(place, palette, finished(name)[k], f"picture {k} of {name}")


def panel(place):
    """The panel's text, its letters found in examples/font.h."""
    art = [line.strip()[1:-2] for line in (ROOT / "examples/font.h").read_text().splitlines() if line.startswith('    "')]
    font = {tuple(art[i // 16 * 8 + y][i % 16 * 8:i % 16 * 8 + 8] for y in range(8)): chr(32 + i) for i in range(64)}
    rows = window(place)
    for top in range(MARGIN, HEIGHT - MARGIN - 8, PITCH):
        text = ""
        for left in range(PANEL_LEFT, PANEL_LEFT + 8 * COLUMNS, 8):
            cell = tuple("".join(".#"[rows[top + y][3 * x:3 * x + 3] != BACKDROP] for x in range(left, left + 8)) for y in range(8))
            text += font.get(cell, "~")
        print(text.rstrip())


def search(log):
    unit = Sprites(9, Path(log).read_bytes())
    if unit.line < 240 and unit.shows():
        print("SEARCH", unit.row()["looked"])


def main(job, *words):
    if job == "logs":
        logs(*words)
    elif job == "minimal":
        minimal()
    elif job == "split":
        split(words[0], int(words[1]))
    elif job == "store":
        store(window(words[0]), words[1])
    elif job == "same":
        same(window(words[0]), stored(words[1]), words[1])
    elif job == "bmp":
        same(bmp(words[0]), stored(words[1]), words[0])
    elif job == "picture":
        picture(words[0], words[1], int(words[2]), int(words[3], 16) if words[3:] else 0x1E)
    elif job == "pages":
        pages(*words[:2], int(words[2]), int(words[3]))
    elif job == "capture":
        capture(*words[:3], int(words[3]))
    elif job == "panel":
        panel(*words)
    elif job == "search":
        search(*words)
    elif job == "hits":
        hits()
    else:
        fail(f"no job {job}")


if __name__ == "__main__":
    main(*sys.argv[1:])
