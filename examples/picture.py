#!/usr/bin/env python3
"""Writes examples/picture.log: a log that fills pattern memory, nametable, palette and OAM through the ports and runs three pictures; and
examples/picture.tbl, the characters of its tiles, for tools/ppu-text. For examples/two.c it writes examples/second.log, another picture of the
same tiles, and examples/picture.chr, these tiles as a cartridge has them: the left pattern table, then the right one.

The picture says BLOOMCHISEL 2C02, with a row of sprites below it. Play it with ./play examples/picture.log. The second one says HELLO all over two
nametables, scrolled, in other colours, with a ring of sprites.
"""
from math import cos, pi, sin
from pathlib import Path
import sys

sys.dont_write_bytecode = True              # no folder beside the examples
from records import Log

# 8 x 8 letters, a row a number, bit 7 leftmost.
FONT = {
    "B": "7C 66 66 7C 66 66 7C 00", "C": "3C 66 60 60 60 66 3C 00", "E": "7E 60 60 7C 60 60 7E 00", "H": "66 66 66 7E 66 66 66 00",
    "I": "3C 18 18 18 18 18 3C 00", "L": "60 60 60 60 60 60 7E 00", "M": "63 77 7F 6B 63 63 63 00", "O": "3C 66 66 66 66 66 3C 00",
    "S": "3C 66 60 3C 06 66 3C 00", "0": "3C 66 6E 76 66 66 3C 00", "2": "3C 66 06 0C 18 30 7E 00", " ": "00 00 00 00 00 00 00 00",
}
BALL = "3C 7E FF FF FF FF 7E 3C"
SHINE = "00 18 3C 3C 00 00 00 00"
PALETTE = "0F 30 16 27 0F 2A 1A 0A 0F 21 11 01 0F 28 18 08 0F 16 27 30 0F 12 21 31 0F 2A 1A 3A 0F 24 14 34"
TEXT = "BLOOMCHISEL 2C02"
SECOND_PALETTE = "01 30 21 11 01 28 16 06 01 2A 1A 0A 01 34 24 14 01 38 28 30 01 36 26 30 01 3A 2A 30 01 3C 2C 30"
SECOND_TEXT = "HELLO   "

letters = sorted(set(TEXT))
tiles = {letter: 1 + index for index, letter in enumerate(letters)}
patterns = {16 * tile: bytes.fromhex(FONT[letter]) + bytes(8) for letter, tile in tiles.items()}
patterns[16 * 32] = bytes.fromhex(BALL + SHINE)


def begun(palette):
    log = Log()
    log.run(262)                            # the unit warms up
    for address, pattern in patterns.items():
        log.fill(address, pattern)          # on a board whose pattern memory is not writable this stores nothing
    log.fill(0x3F00, bytes.fromhex(palette))
    return log


def draw(log, sprites, x, y):
    """Sprites by their four bytes, and the scroll; then three pictures."""
    log.write(3, 0)
    for index in range(64):
        log.write(4, *(sprites[index] if index < len(sprites) else (255, 0, 0, 0)))
    log.read(2)
    log.write(5, x, y)
    log.write(0, 0x80)                      # NMI on
    log.write(1, 0x1E)                      # background and sprites, left column too
    for _ in range(3):
        log.run(242)                        # to the vertical blank
        log.read(2)
        log.run(20)


log = begun(PALETTE)
log.fill(0x2000, bytes(960))
log.fill(0x2000 + 32 * 12 + 8, bytes(tiles[letter] for letter in TEXT))
log.fill(0x23C0, bytes((0x00, 0x55, 0xAA, 0xFF) * 16))
draw(log, [(140, 32, index % 4, 40 + 24 * index) for index in range(8)], 0, 0)

second = begun(SECOND_PALETTE)
for quarter in range(2):
    rows = [(8 * (SECOND_TEXT if row % 2 else 8 * " "))[row + quarter:][:32] for row in range(30)]
    second.fill(0x2000 + 0x400 * quarter, bytes(tiles[letter] for row in rows for letter in row))
    second.fill(0x23C0 + 0x400 * quarter, bytes((0x00, 0x55, 0xAA, 0xFF)[(at + at // 8) % 4] for at in range(64)))
draw(second, [(round(116 + 60 * sin(pi * k / 8)), 32, k % 4, round(124 + 60 * cos(pi * k / 8))) for k in range(16)], 123, 45)

cartridge = bytearray(8192)
for address, pattern in patterns.items():
    cartridge[address:address + 16] = pattern

for name, data in {"picture.log": log, "second.log": second, "picture.chr": cartridge}.items():
    Path(__file__).with_name(name).write_bytes(data)
table = ["# The font of picture.log: tile, character. Tile 00 is empty.", "00= "]
table += [f"{tile:02X}={letter}" for letter, tile in tiles.items()]
Path(__file__).with_name("picture.tbl").write_text("\n".join(table) + "\n")
