#!/usr/bin/env python3
"""Draws a table of `bench/sweep.py` as two pictures in SVG.

Usage: plot.py TABLE [--folder DIR] [--caption TEXT]

TABLE is what `bench/sweep.py` printed. `cactus.svg`: for each program how many pairs it decides in how many seconds, one run after the
other from the shortest on. `scatter.svg`: a dot for each pair, the program's seconds across and those of ABC's `&cec` and of CaDiCaL up;
a dot at the edge wasn't decided there, and above the line the program is faster; a program that wasn't there isn't drawn. Both axes of seconds are logarithmic, and times below a
hundredth count as that. The caption says what was measured: date, machine, versions.
"""
import argparse
import math
import re
from pathlib import Path

LEAST, LIMIT = 0.01, 100.0
WIDTH, HEIGHT, EDGE = 640, 480, 60
PROGRAMS = {"cec": "#1b6ca8", "&cec": "#d1495b", "cadical": "#8d8d8d"}
ROW = re.compile(r"^(\S+) +(EQUIVALENT|DIFFERENT|UNDECIDED|-) +(\S+) +(\S+) +(\S+) +\d+ \S+$")


def rows_in(name):
    """For each pair the seconds of each program, or none where it didn't decide the pair."""
    found = []
    for line in Path(name).read_text().splitlines():
        match = ROW.match(line)
        if match:
            times = dict(zip(PROGRAMS, match.groups()[2:]))
            decided = match[2] in ("EQUIVALENT", "DIFFERENT")
            seconds = {who: max(float(time), LEAST) if time not in "-/" else None for who, time in times.items()}
            seconds["cec"] = seconds["cec"] if decided else None
            found.append({who: time for who, time in seconds.items() if times[who] != "/"})
    return found


def programs_in(rows):
    """Those that were run, in order."""
    return [who for who in PROGRAMS if all(who in row for row in rows)]


def place(seconds, length):
    """Where that time lies on an axis of seconds, from its lower end on."""
    share = math.log(min(max(seconds, LEAST), LIMIT) / LEAST) / math.log(LIMIT / LEAST)
    return share * (length - 2 * EDGE)


def text(x, y, said, anchor="middle", size=12, turn=""):
    return f'<text x="{x:.1f}" y="{y:.1f}" text-anchor="{anchor}" font-family="sans-serif" font-size="{size}"{turn}>{said}</text>'


def line(x, y, to_x, to_y, color="#dddddd"):
    return f'<line x1="{x:.1f}" y1="{y:.1f}" x2="{to_x:.1f}" y2="{to_y:.1f}" stroke="{color}"/>'


def upright(said):
    """The title of the axis that goes up."""
    return text(18, HEIGHT / 2, said, turn=f' transform="rotate(-90 18 {HEIGHT / 2})"')


def ticks_up():
    """Lines and labels of seconds from the bottom to the top."""
    for power in range(-2, 3):
        y = HEIGHT - EDGE - place(10.0**power, HEIGHT)
        yield line(EDGE, y, WIDTH - EDGE, y)
        yield text(EDGE - 6, y + 4, f"{10.0**power:g}", "end")


def ticks_across():
    for power in range(-2, 3):
        x = EDGE + place(10.0**power, WIDTH)
        yield line(x, EDGE, x, HEIGHT - EDGE)
        yield text(x, HEIGHT - EDGE + 18, f"{10.0**power:g}")


def legend(names):
    for number, who in enumerate(names):
        y = EDGE + 18 * number
        yield f'<circle cx="{EDGE + 16}" cy="{y - 4}" r="4" fill="{PROGRAMS[who]}"/>'
        yield text(EDGE + 26, y, who.replace("&", "&amp;"), "start")


def cactus(rows):
    yield from ticks_up()
    across = (WIDTH - 2 * EDGE) / max(len(rows), 1)
    for many in range(0, len(rows) + 1, 10):
        yield text(EDGE + many * across, HEIGHT - EDGE + 18, many)
    for who in programs_in(rows):
        times = sorted(row[who] for row in rows if row[who] is not None)
        dots = [(EDGE + (number + 1) * across, HEIGHT - EDGE - place(time, HEIGHT)) for number, time in enumerate(times)]
        path = " ".join(f"{x:.1f},{y:.1f}" for x, y in dots)
        yield f'<polyline points="{path}" fill="none" stroke="{PROGRAMS[who]}" stroke-width="2"/>'
    yield from legend(programs_in(rows))
    yield text(WIDTH / 2, HEIGHT - 20, "pairs decided")
    yield upright("seconds at most")


def scatter(rows):
    yield from ticks_up()
    yield from ticks_across()
    yield line(EDGE, HEIGHT - EDGE, WIDTH - EDGE, EDGE, "#888888")
    others = [who for who in programs_in(rows) if who != "cec"]
    for row in rows:
        for who in others:
            if row["cec"] is not None or row[who] is not None:
                x = EDGE + place(row["cec"] or LIMIT, WIDTH)
                y = HEIGHT - EDGE - place(row[who] or LIMIT, HEIGHT)
                yield f'<circle cx="{x:.1f}" cy="{y:.1f}" r="4" fill="{PROGRAMS[who]}" fill-opacity="0.7"/>'
    yield from legend(others)
    yield text(WIDTH / 2, HEIGHT - 20, "seconds of cec")
    yield upright("seconds of the other")


def drawn(parts, title, caption):
    inner = "\n".join([text(WIDTH / 2, 28, title, size=15), text(WIDTH / 2, 46, caption, size=11), *parts])
    head = f'<svg xmlns="http://www.w3.org/2000/svg" width="{WIDTH}" height="{HEIGHT}" viewBox="0 0 {WIDTH} {HEIGHT}">'
    return f'{head}\n<rect width="100%" height="100%" fill="white"/>\n{inner}\n</svg>\n'


def main():
    words = argparse.ArgumentParser(description=__doc__, formatter_class=argparse.RawDescriptionHelpFormatter)
    words.add_argument("table")
    words.add_argument("--folder", default=".")
    words.add_argument("--caption", default="")
    asked = words.parse_args()
    rows, folder = rows_in(asked.table), Path(asked.folder)
    if not rows:
        raise SystemExit(f"{asked.table} has no row of bench/sweep.py")
    caption = asked.caption.replace("&", "&amp;").replace("<", "&lt;")
    (folder / "cactus.svg").write_text(drawn(cactus(rows), "Pairs decided in a time", caption))
    (folder / "scatter.svg").write_text(drawn(scatter(rows), "Each pair, beside the others", caption))
    print(f"{len(rows)} pairs")


if __name__ == "__main__":
    main()
