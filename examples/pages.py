#!/usr/bin/env python3
"""Writes examples/pages.log: a log for a board with four pages, which scrolls over all of them; and examples/pages.tbl, the characters of its tiles,
for tools/ppu-text.

Each quarter shows its number on ground of its own colour, and a part of a ring that is whole where the four meet. The log fills pattern memory
itself, so the board is 12: tools/ppu-picture --board 12 --last -o target/pages.png examples/pages.log draws its last picture, the ring.
"""
from pathlib import Path
import sys

sys.dont_write_bytecode = True              # no folder beside the examples
from records import Log

# A tile by its character: its number, and both planes of its pattern. Ground with a speck, a brick, and nothing, where the backdrop shows.
TILES = {
    " ": (1, "FF FF FF FF FF F7 FF FF  00 00 00 00 00 08 00 00"),
    "#": (2, "FE FE FE 00 EF EF EF 00  FF FF FF FF FF FF FF FF"),
    "o": (3, "00 00 00 00 00 00 00 00  00 00 00 00 00 00 00 00"),
}
PALETTE = "0F 1A 0A 3A 0F 16 06 36 0F 12 02 32 0F 28 18 38"      # a palette a quarter: ground, speck and mortar, brick
DIGITS = (
    ("###", "# #", "# #", "# #", "###"),
    (" # ", "## ", " # ", " # ", "###"),
    ("###", "  #", "###", "#  ", "###"),
    ("###", "  #", " ##", "  #", "###"),
)
STOPS = ((0, 0), (256, 0), (256, 240), (0, 240), (128, 120))     # quarters 0, 1, 3, 2, and where they meet
STEP = 4                                    # pixels a picture


def character(column, row):
    """Of the map of all four quarters, 64 columns of 60 rows: the ring is 10 to 12 tiles from its middle, a point of a digit 3 tiles wide and high."""
    if 20 ** 2 <= (2 * column - 63) ** 2 + (2 * row - 59) ** 2 < 24 ** 2:
        return "o"
    across, down = (column % 32 - 11) // 3, (row % 30 - 7) // 3
    digit = DIGITS[row // 30 * 2 + column // 32]
    return digit[down][across] if 0 <= across < 3 and 0 <= down < 5 else " "


def places():
    """From stop to stop."""
    yield STOPS[0]
    for (x, y), (to_x, to_y) in zip(STOPS, STOPS[1:]):
        steps = max(abs(to_x - x), abs(to_y - y)) // STEP
        for k in range(1, steps + 1):
            yield x + (to_x - x) * k // steps, y + (to_y - y) * k // steps


rows = ["".join(character(column, row) for column in range(64)) for row in range(60)]
log = Log()
log.run(262)                                # the unit warms up,
log.run(242)                                # and on to the vertical blank
for tile, pattern in TILES.values():
    log.fill(16 * tile, bytes.fromhex(pattern))
log.fill(0x3F00, bytes.fromhex(PALETTE))
for quarter in range(4):
    top, left = quarter // 2 * 30, quarter % 2 * 32
    tiles = [TILES[shown][0] for row in rows[top:top + 30] for shown in row[left:left + 32]]
    log.fill(0x2000 + 0x400 * quarter, bytes(tiles) + bytes((0x55 * quarter,)) * 64)
log.write(1, 0x0A)                          # background, left column too
for x, y in places():
    log.read(2)
    log.write(5, x % 256, y % 240)
    log.write(0, y // 240 * 2 + x // 256)
    log.run(262)                            # the picture, and on to the vertical blank
Path(__file__).with_name("pages.log").write_bytes(log)
table = ["# The tiles of pages.log: ground, brick, ring."] + [f"{tile:02X}={shown}" for shown, (tile, _) in TILES.items()]
Path(__file__).with_name("pages.tbl").write_text("\n".join(table) + "\n")
