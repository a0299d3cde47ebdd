#!/usr/bin/env python3
"""Makes pictures of what a run's `read` lines tell.

    rt try -- step 0 < FILE > RUN
    python3 tools/pictures.py RUN FOLDER

RUN is a printed text of the program. Where the `read` lines of a memory tell all bytes of a picture, from its first to
its last, the picture is written to FOLDER as a PNG, under the memory's name; a second one of this name gets a 2 behind
it, and so on. Each pixel is drawn as a square of pixels, 4 by 4 or as `--scale` says. The picture's format is the one
that the text tells last of the memory's queue: by `sfmt` or `gfmt`, and GREY 64 by 48 before. A memory is of the queue
that it was mapped from, or queued on.

It needs nothing beside Python's standard library, and knows nothing of the program but its printed text. GREY and RGB3
are drawn as they are. Of the other formats the colours are turned by the whole numbers of the definition `rgb_of`.
"""

import argparse
import struct
import sys
import zlib
from pathlib import Path

FIRST_FORMAT = ("GREY", 64, 48, 3072)


def brought(n):
    """A 256th, rounded down and brought into 0 to 255."""
    return max(0, min(255, n // 256))


def rgb(y, cb, cr):
    """Red, green and blue of a Y, Cb and Cr, as `rgb_of` has them."""
    y, cb, cr = 298 * (y - 16) + 128, cb - 128, cr - 128
    return (brought(y + 409 * cr), brought(y - 100 * cb - 208 * cr), brought(y + 516 * cb))


def pixel(code, width, height, data, x, y):
    """Red, green and blue of the pixel at (x, y)."""
    place, pair, square = y * width + x, 4 * (y * (width // 2) + x // 2), y // 2 * (width // 2) + x // 2
    area = width * height
    if code == "GREY":
        return (data[place],) * 3
    if code == "RGB3":
        return tuple(data[3 * place : 3 * place + 3])
    if code == "YUYV":
        return rgb(data[pair + 2 * (x % 2)], data[pair + 1], data[pair + 3])
    if code == "UYVY":
        return rgb(data[pair + 2 * (x % 2) + 1], data[pair], data[pair + 2])
    if code == "NV12":
        return rgb(data[place], data[area + 2 * square], data[area + 2 * square + 1])
    if code == "YU12":
        return rgb(data[place], data[area + square], data[area + area // 4 + square])
    sys.exit(f"no format of the program: {code}")


def png(code, width, height, data, scale):
    """The bytes of a PNG, with each pixel drawn as a square."""
    rows = []
    for y in range(height):
        row = b"".join(bytes(pixel(code, width, height, data, x, y)) * scale for x in range(width))
        rows += [b"\0" + row] * scale

    def chunk(kind, body):
        return struct.pack(">I", len(body)) + kind + body + struct.pack(">I", zlib.crc32(kind + body))

    head = struct.pack(">IIBBBBB", width * scale, height * scale, 8, 2, 0, 0, 0)
    packed = zlib.compress(b"".join(rows), 9)
    return b"\x89PNG\r\n\x1a\n" + chunk(b"IHDR", head) + chunk(b"IDAT", packed) + chunk(b"IEND", b"")


class Handle:
    """What the lines of one handle told so far."""

    def __init__(self):
        self.formats = {}  # by a queue's word
        self.queue_of = {}  # by a memory's name
        self.told = {}  # the bytes that were read of a memory, from its first on

    def picture(self, memory, at, data):
        """The picture that is whole with these bytes, if one is."""
        told = self.told.setdefault(memory, bytearray())
        if at == 0:
            told.clear()
        if at != len(told) or memory not in self.queue_of:
            return None
        told += data
        code, width, height, size = self.formats.get(self.queue_of[memory], FIRST_FORMAT)
        if len(told) != size:
            return None
        whole = bytes(told)
        told.clear()
        return code, width, height, whole


def pictures(lines):
    """Each picture that the lines of a printed text tell, with its memory's name."""
    handle = None
    for line in lines:
        if line.startswith("handle "):
            handle = Handle()
            continue
        words, _, reply = line.partition(" = ")
        words, reply = words.split(" ")[1:], reply.split(" ")
        if handle is None or reply[0] != "ok":
            continue
        if words[0] in ("sfmt", "gfmt"):
            code, width, height, _, size = reply[1:]
            handle.formats[words[2]] = (code, int(width), int(height), int(size))
        elif words[0] == "mmap":
            handle.queue_of[words[2]] = words[3]
        elif words[0] == "qbuf" and "user" in words[4:]:
            handle.queue_of[words[words.index("user", 4) + 1]] = words[2]
        elif words[0] == "read":
            found = handle.picture(words[2], int(words[3]), bytes.fromhex(reply[1]))
            if found:
                yield words[2], found


def main():
    parser = argparse.ArgumentParser(description="Makes PNG pictures of what a run's read lines tell.")
    parser.add_argument("run", help="a printed text of the program")
    parser.add_argument("folder", help="where the pictures go")
    parser.add_argument("--scale", type=int, default=4, help="how many pixels wide a pixel is drawn")
    words = parser.parse_args()
    count = {}
    for memory, (code, width, height, data) in pictures(Path(words.run).read_text(encoding="ascii").split("\n")):
        count[memory] = count.get(memory, 0) + 1
        name = memory + (str(count[memory]) if count[memory] > 1 else "") + ".png"
        (Path(words.folder) / name).write_bytes(png(code, width, height, data, words.scale))
        print(f"{name}: {code} {width} by {height}")
    return 0 if count else "no read lines tell a whole picture"


if __name__ == "__main__":
    sys.exit(main())
