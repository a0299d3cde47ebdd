#!/usr/bin/env python3
"""Prints a script whose run shows what something costs: docs/SPEED.md has the figures.

    python3 tools/speed_scripts.py calls PROCESSES     calls that cross and move no memory, 1,024 a process
    python3 tools/speed_scripts.py captures PROCESSES  small frames, 1,024 statements a process
    python3 tools/speed_scripts.py frames FRAMES       small frames of one handle
    python3 tools/speed_scripts.py mapped FRAMES       frames of 640 by 480 in the device's memory
    python3 tools/speed_scripts.py user FRAMES         the same in the user's memory
    python3 tools/speed_scripts.py hashes TIMES        each byte that `bulk 16` hashes in frames, so many times

A process has at most 1,024 statements, so a handle at most about 500 frames.
"""
import sys

BUFFERS = 4
STATEMENTS = 1024


def capture(frames, width, height, user):
    """The lines of a capture that dequeues so many frames, and queues each buffer again."""
    lines = ["open a", f"sfmt a cap GREY {width} {height}"]
    lines.append(f"reqbufs a cap {'userptr' if user else 'mmap'} {BUFFERS}")
    if user:
        lines += [f"ualloc a u{i} {width * height} 0" for i in range(BUFFERS)]
    queued = [f"qbuf a cap {i}" + (f" user u{i}" if user else "") for i in range(BUFFERS)]
    lines += queued + ["streamon a cap"]
    for frame in range(frames):
        lines += ["dqbuf a cap", queued[frame % BUFFERS]]
    return lines + ["streamoff a cap", "close a"]


def calls():
    """The lines of one process whose calls cross and move no memory."""
    asked = ["querycap a", "gfmt a cap", "enuminput a 1", "ginput a"]
    return ["open a"] + [asked[i % len(asked)] for i in range(STATEMENTS - 2)] + ["close a"]


def small_captures():
    """The lines of one process that captures small frames, as many as its statements allow."""
    return capture((STATEMENTS - 10) // 2, 16, 16, False)


def hashes(times):
    """Sixteen processes that hash pictures as those of `bulk 16`, of which none is taken."""
    lines = []
    for p in range(16):
        code = ["GREY", "YUYV", "UYVY", "NV12", "YU12", "RGB3"][p % 6]
        lines += ["proc"] if p else []
        lines += ["open a", f"sfmt a cap {code} {64 + 16 * p} {48 + 16 * p}"]
        lines += [f"reqbufs a cap mmap {BUFFERS}"]
        lines += [f"mmap a m{i} cap {i}" for i in range(BUFFERS)]
        lines += [f"hash a m{i % BUFFERS}" for i in range(60 * times)] + ["close a"]
    return lines


def processes(count, lines):
    """The lines of so many processes that do the same."""
    return [line for p in range(count) for line in (["proc"] if p else []) + lines]


def main():
    if len(sys.argv) != 3 or not sys.argv[2].isdigit():
        sys.exit(__doc__)
    kind, number = sys.argv[1], int(sys.argv[2])
    scripts = {
        "calls": lambda: processes(number, calls()),
        "captures": lambda: processes(number, small_captures()),
        "frames": lambda: capture(number, 16, 16, False),
        "mapped": lambda: capture(number, 640, 480, False),
        "user": lambda: capture(number, 640, 480, True),
        "hashes": lambda: hashes(number),
    }
    if kind not in scripts:
        sys.exit(__doc__)
    print("\n".join(scripts[kind]()))


if __name__ == "__main__":
    main()
