#!/usr/bin/env python3
"""Draws docs/bench.svg from the lines that bench/run prints: the time of a message by each codec, as bars.

    bench/run | bench/draw.py           from a run
    bench/draw.py FILE                  from a document or a file with such lines, as docs/performance.md
"""
import os
import re
import sys

LINE = re.compile(r"\s*(\w+)\s+(\w+)\s+(\w[\w +]*?)\s{2,}(\d+)\s+([\d.]+)\s+([\d.]+)\s*$")
SHOWN = (("rongkhab", "decode"), ("rongkhab", "decode + read"), ("rongkhab", "decode + found"), ("flatbuffers", "verify"), ("flatbuffers", "verify + read"), ("capnproto", "read"), ("protobuf", "parse"))
COLOURS = {"rongkhab": "#2f7d4f", "flatbuffers": "#8aa4bf", "capnproto": "#a9b7c6", "protobuf": "#c4cdd6"}
FONT = 'font-family="DejaVu Sans, Helvetica, Arial, sans-serif"'
LEFT, WIDTH, HIGH, GAP = 210, 420, 20, 6


def times_of(text):
    """Returns for each shape the nanoseconds a message by codec and operation, in the order of the lines."""
    found = {}
    for line in text.splitlines():
        run = LINE.match(line)
        if run:
            shape, codec, operation = run[1], run[2], run[3].strip()
            found.setdefault(shape, {})[codec, operation] = float(run[5])
    return found


def text_at(x, y, text, size=13, anchor="start", fill="#1f2933", weight="normal"):
    return f'<text x="{x}" y="{y}" {FONT} font-size="{size}" text-anchor="{anchor}" fill="{fill}" font-weight="{weight}">{text}</text>\n'


def bars_of(shape, times, top):
    """Returns the bars of a shape below this height, and how high they are."""
    shown = [it for it in SHOWN if it in times]
    most = max(times[it] for it in shown)
    drawn = text_at(20, top + 16, shape, 15, weight="bold")
    y = top + 28
    for codec, operation in shown:
        time = times[codec, operation]
        width = max(1, WIDTH * time / most)
        drawn += text_at(LEFT - 10, y + 15, f"{codec}, {operation}", 13, "end")
        drawn += f'<rect x="{LEFT}" y="{y}" width="{width:.1f}" height="{HIGH}" fill="{COLOURS[codec]}"/>\n'
        drawn += text_at(LEFT + width + 8, y + 15, f"{time:,.0f} ns", 12, fill="#52606d")
        y += HIGH + GAP
    return drawn, y - top


def picture(times):
    title = "Nanoseconds a message: the decoder beside its peers"
    drawn, top = text_at(20, 28, title, 16, weight="bold"), 44
    for shape, runs in times.items():
        bars, high = bars_of(shape, runs, top)
        drawn, top = drawn + bars, top + high + 12
    width = LEFT + WIDTH + 110
    return f'<svg xmlns="http://www.w3.org/2000/svg" width="{width}" height="{top}" viewBox="0 0 {width} {top}" role="img" aria-label="{title}">\n<title>{title}</title>\n<rect width="{width}" height="{top}" fill="#ffffff"/>\n{drawn}</svg>\n'


def main(names):
    text = "".join(open(it, encoding="utf-8").read() for it in names) if names else sys.stdin.read()
    times = times_of(text)
    if not times:
        sys.exit("no lines of bench/run")
    top = os.path.dirname(os.path.dirname(os.path.realpath(__file__)))
    with open(f"{top}/docs/bench.svg", "w", encoding="utf-8") as it:
        it.write(picture(times))


if __name__ == "__main__":
    main(sys.argv[1:])
