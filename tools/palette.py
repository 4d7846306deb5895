#!/usr/bin/env python3
"""The colours of a 2C02 as an NTSC television shows them, each as red, green and blue, into FILE or to standard output.

    palette.py [FILE]             the unit's 64 colours, 192 bytes: examples/2c02.pal
    palette.py --emphasis [FILE]  those and the others with emphasis, 512 colours, 1536 bytes
    palette.py --c [FILE]         the 64 as a C header: examples/2c02.h, what the tools have built in

The unit gives no colours but a voltage. For brightness row and hue of a colour's number it swings twelve times a cycle of the colour
carrier between a low and a high level, or stands still for hues 0 (grey, high), 13 (grey, low), 14 and 15 (black). The mean of the
twelve is the luma Y; their correlation with the carrier gives I and Q; the NTSC matrix gives red, green and blue.

Colour 64 x emphasis + number has emphasis 0 to 7: 1 red, 2 green, 4 blue. Emphasis takes each part that it does not name to 0.746 of itself, to
the nearest whole number, half up; if it names all three, each of them. Hues 14 and 15 stay as they are. examples/colours.h has the rule for C.
"""
from math import cos, pi, sin
from pathlib import Path
import sys

LOW = (0.350, 0.518, 0.962, 1.550)          # volts by brightness row, measured at the chip's pin (NESdev, "NTSC video")
HIGH = (1.094, 1.506, 1.962, 1.962)
BLACK, WHITE = LOW[1], HIGH[3]
HUE_TURN = 3.9                              # twelfths of a cycle from the waves' start to the I axis
SATURATION = 1.0
ATTENUATION = 746                           # thousandths (NESdev, "NTSC video")


def wave(number):
    """The twelve samples of a colour, black 0 and white 1."""
    hue, row = number % 16, number // 16
    if hue > 13:
        hue, row = 13, 1
    low = HIGH[row] if hue == 0 else LOW[row]
    high = LOW[row] if hue == 13 else HIGH[row]
    return [((high if (hue + phase) % 12 < 6 else low) - BLACK) / (WHITE - BLACK) for phase in range(12)]


def colour(number):
    samples = wave(number)
    y = sum(samples) / 12
    i = SATURATION * sum(v * cos(pi * (phase + HUE_TURN) / 6) for phase, v in enumerate(samples)) / 6
    q = SATURATION * sum(v * sin(pi * (phase + HUE_TURN) / 6) for phase, v in enumerate(samples)) / 6
    mixed = (y + 0.956 * i + 0.619 * q, y - 0.272 * i - 0.647 * q, y - 1.106 * i + 1.703 * q)
    return bytes(round(255 * min(1, max(0, part))) for part in mixed)


def emphasised(number, emphasis):
    stay = (7, 1, 2, 3, 4, 5, 6, 0)[emphasis] if number % 16 < 14 else 7
    return bytes(level if stay >> part & 1 else (ATTENUATION * level + 500) // 1000 for part, level in enumerate(colour(number)))


def header(colours):
    rows = [", ".join(f"{level:3}" for level in colours[at:at + 24]) for at in range(0, len(colours), 24)]
    return "\n".join(("/* The colours of 2c02.pal, red, green, blue: written by tools/palette.py --c. */", "#ifndef COLOURS_2C02_H",
                      "#define COLOURS_2C02_H", "", "#include <stdint.h>", "", "static const uint8_t colours_2c02[3 * 64] = {",
                      *(f"    {row}," for row in rows), "};", "", "#endif", "")).encode()


def main(words):
    form = words.pop(0) if words and words[0].startswith("--") else ""
    if form not in ("", "--emphasis", "--c") or len(words) > 1:
        sys.exit(__doc__)
    data = b"".join(emphasised(number, emphasis) for emphasis in range(8 if form == "--emphasis" else 1) for number in range(64))
    data = header(data) if form == "--c" else data
    if words:
        Path(words[0]).write_bytes(data)
    elif form != "--c" and sys.stdout.isatty():
        sys.exit("palette.py: a palette is not for a terminal: name a file")
    else:
        sys.stdout.buffer.write(data)


if __name__ == "__main__":
    main(sys.argv[1:])
