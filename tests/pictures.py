#!/usr/bin/env python3
"""Pictures for tests/tools.sh and tests/examples.sh, by nothing but Python: PNG files read back, and what they must show.

pictures.py captures LOGS RAW          for each capture writes LOGS/NAME.log, a log from a fresh unit, whose start memory is filled through the
                                       ports first, LOGS/NAME.board, the board byte for it, and RAW/NAME, its own log
pictures.py same-numbers FOLDER        the PNGs of all these logs, in grey, show the captures' pixel numbers; prints how many pictures
pictures.py same-colours PAL FOLDER    the PNGs of all these logs show the captures' finished colours; prints how many, how many with emphasis
pictures.py palettes FOLDER            writes palette files: all.pal, 512 colours that all differ; 0.pal and 1.pal, 64 each, with every level
                                       where emphasis changes it; and 0.512 and 1.512, those with the others that 64 are to give
pictures.py every-colour LOG           writes a log whose pictures 2 to 4 show each of the 512 finished colours, a row each
pictures.py every-row PAL FOLDER       FOLDER/picture-0002.png to -0004.png are those pictures
pictures.py drawn BOARD LOG PNG..      these pictures of LOG in grey, by the numbers in their names, show what is worked out here, with no access while
                                       drawing: the quarters as BOARD wires them, scrolled
pictures.py scaled N SMALL LARGE       LARGE is SMALL with each pixel N x N
pictures.py coloured PAL LOG GREY PNG  PNG is the GREY picture through palette RAM, as LOG fills it at last, and the palette file
pictures.py rows PNG RRGGBB:COUNT..    each row of PNG has one colour: so many rows of each, in this order
pictures.py two PPM CHR LEFT RIGHT     the halves of PPM show the last pictures of these logs, worked out with the tiles of CHR; vertical wiring
pictures.py two-captured PPM LEFT RIGHT  the halves of PPM show the last pictures of these captures, as the emulator drew them
pictures.py two-alone PPM LEFT RIGHT   the halves of PPM are these PNGs
"""
from fractions import Fraction
from functools import cache
from itertools import count
import json
import lzma
from math import floor
from pathlib import Path
import struct
import sys
import zlib

CAPTURES = Path(__file__).with_name("captures")
WIDTH, HEIGHT = 256, 240
BOARDS = (*range(5), *range(8, 13))


def need(holds, text):
    if not holds:
        sys.exit("pictures.py: " + text)


class Png:
    """A PNG of 8 bits, grey, red, green, blue or with a palette, rows without a filter or as differences from the row above."""

    def __init__(self, path):
        data = Path(path).read_bytes()
        need(data[:8] == b"\x89PNG\r\n\x1a\n", f"{path}: no PNG")
        chunks, at = {}, 8
        while at < len(data):
            length = int.from_bytes(data[at:at + 4], "big")
            kind, body = data[at + 4:at + 8], data[at + 8:at + 8 + length]
            need(zlib.crc32(kind + body) == int.from_bytes(data[at + 8 + length:at + 12 + length], "big"), f"{path}: a wrong checksum")
            chunks[kind] = chunks.get(kind, b"") + body
            at += 12 + length
        need(b"IEND" in chunks and at == len(data), f"{path}: no end")
        header = chunks[b"IHDR"]
        self.width, self.height = int.from_bytes(header[:4], "big"), int.from_bytes(header[4:8], "big")
        need(header[8] == 8 and header[9] in (0, 2, 3) and header[12] == 0, f"{path}: not 8 bits of grey, colour or palette")
        self.palette, self.parts = chunks.get(b"PLTE"), 3 if header[9] == 2 else 1
        need((self.palette is not None) == (header[9] == 3), f"{path}: a palette and none")
        raw, step = zlib.decompress(chunks[b"IDAT"]), self.width * self.parts + 1
        need(len(raw) == step * self.height, f"{path}: {len(raw)} bytes")
        self.rows, above = [], bytes(step - 1)
        for kind, row in ((raw[at], raw[at + 1:at + step]) for at in range(0, len(raw), step)):
            need(kind in (0, 2), f"{path}: filter {kind}")
            if kind == 2:
                row = bytes((a + b) % 256 for a, b in zip(above, row)) if row != bytes(len(row)) else above
            self.rows.append(row)
            above = row

    def numbers(self):
        """The pixel numbers that the grey levels stand for: black is 0, else 69 + 6n."""
        need(self.palette is None and self.parts == 1, "not grey")
        table = bytearray([255] * 256)
        table[0] = 0
        for number in range(1, 32):
            table[69 + 6 * number] = number
        numbers = b"".join(self.rows).translate(table)
        need(255 not in numbers, "a grey level of no pixel number")
        return numbers

    def colours(self):
        """Each row, each pixel as three bytes."""
        return self.rows if self.parts == 3 else [shown(self.palette, row) for row in self.rows]


def shown(palette, colours):
    """Colours, by their numbers, as red, green and blue."""
    parts = [palette[at:at + 3] for at in range(0, len(palette), 3)]
    return b"".join(map(parts.__getitem__, colours))


def extended(palette):
    """The 512 colours of a palette file's bytes. Of 64 the others are made, by real numbers: 0.746 of each part that is not emphasised."""
    if len(palette) == 3 * 512:
        return palette
    need(len(palette) == 3 * 64, "a palette of another length")
    made = bytearray(palette)
    for emphasis in range(1, 8):
        for at, level in enumerate(palette):
            named = emphasis != 7 and emphasis & 1 << at % 3
            made.append(level if named or at // 3 % 16 in (14, 15) else floor(level * Fraction("0.746") + Fraction(1, 2)))
    return bytes(made)


def write(port, *data):
    return b"".join(bytes((1, 0x20, port, byte)) for byte in data)


def run(lines):
    return bytes((2, lines >> 8, lines & 255, 0))


def fill(address, data):
    return write(6, address >> 8, address & 255) + write(7, *data)


def page_of(board, quarter):
    """The page of nametable RAM that a quarter shows: wirings 0 to 4, horizontal, vertical, first page, second page, four pages."""
    return (quarter // 2, quarter % 2, 0, 1, quarter)[board % 8]


def names():
    return sorted(path.name.split(".")[0] for path in CAPTURES.glob("*.json"))


def captures(logs, raw):
    """The unit warms up, memory is filled, next line is 0 again: so a log runs one picture more than its capture did."""
    for name in names():
        about = json.loads((CAPTURES / f"{name}.json").read_text())
        start = about["start"]
        need(start["nametable"] == start["oam"] == "all FF", f"{name}: another start")
        log = bytearray(lzma.decompress((CAPTURES / f"{name}.l01.xz").read_bytes()))
        Path(raw, name).write_bytes(log)
        for at in range(0, len(log), 4):
            if log[at] == 0:
                log[at + 3] = 0             # the byte that the emulator answered
        memory = fill(0, (CAPTURES / f"{name}.chr").read_bytes()) + fill(0x3F00, bytes.fromhex(start["palette"]))
        memory += fill(0x2000, b"\xFF" * 4096) + write(3, 0) + write(4, *b"\xFF" * 256)
        Path(logs, f"{name}.log").write_bytes(run(262) + memory + bytes(log))
        Path(logs, f"{name}.board").write_text(str(about["board"] | 8))


def same_numbers(folder):
    """Picture k + 2 of a log, counted from 1, is the capture's picture k; the emulator did not draw picture 0."""
    compared, size = 0, WIDTH * HEIGHT
    for name in names():
        wanted = lzma.decompress((CAPTURES / f"{name}.num.xz").read_bytes())
        need(len(wanted) > size and len(wanted) % size == 0, f"{name}: no pictures")
        for k in range(1, len(wanted) // size):
            path = Path(folder, f"{name}-{k + 2:04}.png")
            need(Png(path).numbers() == wanted[k * size:(k + 1) * size], f"{path}: not the capture's picture")
            compared += 1
    print(compared)


def finished(name):
    """The finished colours of a capture's pictures, by the picture's number."""
    data, size = lzma.decompress((CAPTURES / f"{name}.pix.xz").read_bytes()), 2 * WIDTH * HEIGHT
    need(len(data) > size and len(data) % size == 0, f"{name}: no pictures")
    return {k: struct.unpack_from(f"<{WIDTH * HEIGHT}H", data, k * size) for k in range(1, len(data) // size)}


def same_colours(palette_file, folder):
    """The palette's colours all differ, so what a picture shows says which of the 512 each pixel is."""
    compared, emphasised, palette = 0, 0, Path(palette_file).read_bytes()
    need(len({palette[at:at + 3] for at in range(0, len(palette), 3)}) == 512, f"{palette_file}: not 512 colours that differ")
    for name in names():
        for k, wanted in finished(name).items():
            path, plain = Path(folder, f"{name}-{k + 2:04}.png"), max(wanted) < 64
            png = Png(path)
            need(png.palette == (palette[:192] if plain else None), f"{path}: another palette")
            need(b"".join(png.rows) == (bytes(wanted) if plain else shown(palette, wanted)), f"{path}: not the capture's picture")
            compared, emphasised = compared + 1, emphasised + (not plain)
    print(compared, emphasised)


def palettes(folder):
    Path(folder, "all.pal").write_bytes(b"".join(bytes((i % 256, 37 * i % 256, i // 256)) for i in range(512)))
    levels = count()
    for k in range(2):
        plain = bytes(next(levels) % 256 if at // 3 % 16 < 14 else 200 for at in range(192))
        Path(folder, f"{k}.pal").write_bytes(plain)
        Path(folder, f"{k}.512").write_bytes(extended(plain))


def every_colour(path):
    """Nothing is shown but the backdrop, whose colour and emphasis change before each line; v is left below $3F00."""
    log = run(262)
    for row in range(3 * HEIGHT):
        log += write(1, row % 512 // 64 << 5) + fill(0x3F00, bytes((row % 64,))) + write(6, 0, 0) + run(1 if row % HEIGHT < HEIGHT - 1 else 23)
    Path(path).write_bytes(log)


def every_row(palette_file, folder):
    palette = extended(Path(palette_file).read_bytes())
    for k in range(3):
        wanted = [palette[at:at + 3] * WIDTH for at in (3 * ((HEIGHT * k + y) % 512) for y in range(HEIGHT))]
        need(Png(Path(folder, f"picture-{k + 2:04}.png")).colours() == wanted, f"{folder}: other colours in picture {k + 2}")


class Filled:
    """What a log leaves in memory, by its writes alone, the unit taken as warmed up; and its pictures: of each the control, the mask, and the scroll
    that it begins with, None where this does not know it."""

    def __init__(self, path, board=9):
        self.board, self.pictures, self.filled = board, [], 0       # filled: how many pictures were whole when memory last changed
        self.pattern, self.nametables, self.oam, self.palette = bytearray(8192), bytearray(4096), bytearray(256), bytearray(32)
        self.control = self.mask = self.oamaddr = self.address = self.half = self.line = 0
        self.quarter = self.x = self.y = self.scroll = None
        log = Path(path).read_bytes()
        for kind, high, low, byte in zip(log[::4], log[1::4], log[2::4], log[3::4]):
            number = 256 * high + low
            if kind == 2:
                for _ in range(number):
                    self.run_line()
            elif kind == 1:
                self.write(number % 8, byte)
            elif number % 8 == 2:
                self.half = 0

    def run_line(self):
        known = None not in (self.quarter, self.x, self.y)
        if self.line == 261:
            self.scroll = (256 * (self.quarter % 2) + self.x, HEIGHT * (self.quarter // 2) + self.y) if known else None
        if self.line == HEIGHT - 1:
            self.pictures.append((self.control, self.mask, self.scroll))
        self.line = (self.line + 1) % 262

    def write(self, port, byte):
        if port == 0:
            self.control, self.quarter = byte, byte % 4
        elif port == 1:
            self.mask = byte
        elif port == 3:
            self.oamaddr = byte
        elif port == 4:
            self.oam[self.oamaddr] = byte
            self.oamaddr, self.filled = (self.oamaddr + 1) % 256, len(self.pictures)
        elif port in (5, 6):
            self.write_half(port, byte)
            self.half = 1 - self.half
        elif port == 7:
            self.store(self.address % 16384, byte)
            self.address, self.filled = self.address + 1, len(self.pictures)

    def write_half(self, port, byte):
        """An address takes the place of the scroll: it is known again when ports 5 and 0 are written behind it."""
        if port == 5:
            self.x, self.y = (byte, self.y) if self.half == 0 else (self.x, byte)
        else:
            self.quarter = self.x = self.y = None
            self.address = self.address % 256 + 256 * byte if self.half == 0 else self.address // 256 * 256 + byte

    def store(self, address, byte):
        if address < 0x2000:
            self.pattern[address] = byte if self.board & 8 else 0
        elif address < 0x3F00:
            self.nametables[1024 * page_of(self.board, address // 1024 % 4) + address % 1024] = byte
        else:
            self.palette[address % (16 if address % 4 == 0 else 32)] = byte % 64

    def colour(self, table, tile, row, column):
        at = 4096 * table + 16 * tile + row
        return (self.pattern[at] >> 7 - column & 1) + 2 * (self.pattern[at + 8] >> 7 - column & 1)

    def background(self, quarter, x, y, table):
        page = 1024 * page_of(self.board, quarter)
        attribute = self.nametables[page + 960 + y // 32 * 8 + x // 32] >> y // 16 % 2 * 4 + x // 16 % 2 * 2 & 3
        colour = self.colour(table, self.nametables[page + y // 8 * 32 + x // 8], y % 8, x % 8)
        return 4 * attribute + colour if colour else 0

    @cache
    def world(self, table):
        """All four quarters: 480 rows of 512 pixels."""
        return [bytes(self.background(y // HEIGHT * 2 + x // WIDTH, x % WIDTH, y % HEIGHT, table) for x in range(2 * WIDTH)) for y in range(2 * HEIGHT)]

    def picture(self, number):
        """Of all pictures this one, from 1. Memory stays as it is behind it; sprites of 8 x 8 that are neither turned nor behind; the left column too."""
        control, mask, scroll = self.pictures[number - 1]
        if mask & 0x18 == 0:
            return bytes(WIDTH * HEIGHT)
        need(scroll and number > self.filled and control & 0x24 == 0 and mask & 0x1E in (0x0A, 0x1E), "a picture that this cannot draw")
        x, y = scroll
        world = self.world(control >> 4 & 1)
        rows = [bytearray((2 * world[(y + line) % len(world)])[x:x + WIDTH]) for line in range(HEIGHT)]
        if mask & 0x10:
            self.add_sprites(rows, control >> 3 & 1)
        return b"".join(rows)

    def add_sprites(self, rows, table):
        for y, tile, attribute, x in reversed(list(zip(*[iter(self.oam)] * 4))):
            need(attribute < 4 or y >= 239, "a sprite that this cannot draw")
            for row in range(min(8, max(0, 239 - y))):
                for column in range(min(8, 256 - x)):
                    colour = self.colour(table, tile, row, column)
                    if colour:
                        rows[y + 1 + row][x + column] = 16 + 4 * (attribute % 4) + colour


def drawn(board, log, *paths):
    filled = Filled(log, int(board))
    for path in paths:
        number = int(Path(path).stem.rsplit("-", 1)[1])
        need(Png(path).numbers() == filled.picture(number), f"{path}: not the picture worked out, board {board}")


def scaled(scale, small, large):
    scale, small, large = int(scale), Png(small), Png(large)
    need((large.width, large.height) == (scale * small.width, scale * small.height), "not so many times as large")
    need((large.palette, large.parts) == (small.palette, small.parts), "another palette")
    rows = [b"".join(row[at:at + small.parts] * scale for at in range(0, len(row), small.parts)) for row in small.rows]
    need(large.rows == [row for row in rows for _ in range(scale)], "other pixels")


def coloured(palette_file, log, grey, path):
    palette, ram, png = Path(palette_file).read_bytes(), Filled(log).palette, Png(path)
    wanted = shown(palette, (ram[number] for number in Png(grey).numbers()))
    need(b"".join(png.colours()) == wanted, f"{path}: other colours")
    need(png.palette == palette, f"{path}: not the palette of {palette_file}")


def rows(path, *wanted):
    parts = [(bytes.fromhex(part.split(":")[0]), int(part.split(":")[1])) for part in wanted]
    png = Png(path)
    need(png.colours() == [colour * png.width for colour, count in parts for _ in range(count)], f"{path}: other rows")


def same_halves(ppm, *wanted):
    """wanted: of each half its pixels, three bytes each."""
    data, header, step = Path(ppm).read_bytes(), b"P6 512 240 255\n", 3 * WIDTH
    need(data.startswith(header) and len(data) == len(header) + 2 * step * HEIGHT, f"{ppm}: no PPM of 512 by 240")
    rows = [data[at:at + step] for at in range(len(header), len(data), step)]
    for which, (name, half) in enumerate(zip(("left", "right"), wanted)):
        need(b"".join(rows[which::2]) == half, f"{ppm}: the {name} half is another picture")


def in_2c02(colours):
    return shown(extended(Path(__file__).parents[1].joinpath("examples/2c02.pal").read_bytes()), colours)


def two(ppm, cartridge, *logs):
    halves = []
    for log in logs:
        filled = Filled(log, 1)
        filled.pattern = Path(cartridge).read_bytes()
        halves.append(in_2c02(filled.palette[number] for number in filled.picture(len(filled.pictures))))
    same_halves(ppm, *halves)


def two_captured(ppm, *captured):
    same_halves(ppm, *(in_2c02(max(finished(name).items())[1]) for name in captured))


def two_alone(ppm, *paths):
    same_halves(ppm, *(b"".join(Png(path).colours()) for path in paths))


if __name__ == "__main__":
    globals()[sys.argv[1].replace("-", "_")](*sys.argv[2:])
