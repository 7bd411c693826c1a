#!/usr/bin/env python3
"""plots.py FOLDER TO: reads what the benchmarks printed (serve.txt, parts.txt, memory.txt in FOLDER) and writes the pictures of docs/SPEED.md, as
SVG, to the folder TO. A text that is missing leaves its pictures as they are."""
import math
import re
import sys
from pathlib import Path

WIDTH, HEIGHT, LEFT, RIGHT, TOP, BOTTOM = 750, 360, 80, 240, 50, 60
COLOURS = ["#1b6ca8", "#c8553d", "#588157", "#8d6a9f", "#e09f3e", "#444444", "#2a9d8f", "#b56576"]


def escaped(text):
    return text.replace("&", "&amp;").replace("<", "&lt;").replace(">", "&gt;")


class Picture:
    """A picture with a title, two axes and a legend."""

    def __init__(self, title, across, up):
        self.parts = [
            f'<svg xmlns="http://www.w3.org/2000/svg" width="{WIDTH}" height="{HEIGHT}" font-family="sans-serif" font-size="12">',
            f'<rect width="{WIDTH}" height="{HEIGHT}" fill="white"/>',
        ]
        self.text(LEFT, 24, title, size=15)
        self.text((LEFT + WIDTH - RIGHT) / 2, HEIGHT - 14, across, anchor="middle")
        self.text(14, TOP - 12, up)

    def text(self, x, y, words, anchor="start", size=12):
        self.parts.append(f'<text x="{x:.1f}" y="{y:.1f}" text-anchor="{anchor}" font-size="{size}">{escaped(words)}</text>')

    def line(self, x1, y1, x2, y2, colour="#cccccc"):
        self.parts.append(f'<line x1="{x1:.1f}" y1="{y1:.1f}" x2="{x2:.1f}" y2="{y2:.1f}" stroke="{colour}"/>')

    def legend(self, names):
        for number, name in enumerate(names):
            y = TOP + 10 + 20 * number
            self.parts.append(f'<rect x="{WIDTH - RIGHT + 15}" y="{y - 9}" width="12" height="12" fill="{COLOURS[number % len(COLOURS)]}"/>')
            self.text(WIDTH - RIGHT + 33, y + 1, name)

    def write(self, to):
        to.write_text("\n".join([*self.parts, "</svg>", ""]))
        print(f"{to} is written")


def shown(value):
    """A number with its thousands parted."""
    return f"{value:,.0f}" if value == int(value) else f"{value:,.3g}"


def round_above(most):
    step = 10 ** math.floor(math.log10(most))
    return next(step * it for it in (1, 1.5, 2, 3, 4, 5, 6, 8, 10) if step * it >= most)


def bars(title, across, up, groups, names, values, to):
    """For each group a bar for each name, as high as values[group][name] says. Where that is None there is none."""
    picture = Picture(title, across, up)
    most = round_above(max(value for row in values for value in row if value is not None))
    height = lambda value: HEIGHT - BOTTOM - (HEIGHT - BOTTOM - TOP) * value / most
    for part in range(5):
        y = height(most * part / 4)
        picture.line(LEFT, y, WIDTH - RIGHT, y)
        picture.text(LEFT - 6, y + 4, shown(most * part / 4), anchor="end")
    room = (WIDTH - RIGHT - LEFT) / len(groups)
    wide = 0.8 * room / len(names)
    for at, (group, row) in enumerate(zip(groups, values)):
        for number, value in enumerate(row):
            if value is None:
                continue
            x = LEFT + room * at + 0.1 * room + wide * number
            y = height(value)
            picture.parts.append(f'<rect x="{x:.1f}" y="{y:.1f}" width="{wide * 0.92:.1f}" height="{HEIGHT - BOTTOM - y:.1f}" fill="{COLOURS[number % len(COLOURS)]}"/>')
        picture.text(LEFT + room * (at + 0.5), HEIGHT - BOTTOM + 18, group, anchor="middle", size=11)
    picture.legend(names)
    picture.write(to)


def lines(title, across, up, curves, to, is_log=False):
    """A line for each name through its points; with is_log both axes go by powers of ten."""
    picture = Picture(title, across, up)
    points = [it for curve in curves.values() for it in curve]
    scale = math.log10 if is_log else (lambda value: value)
    low_x, high_x = scale(min(x for x, _ in points)), scale(max(x for x, _ in points))
    if is_log:
        low_y, high_y = math.floor(scale(min(y for _, y in points))), math.ceil(scale(max(y for _, y in points)))
        marks_y, marks_x = [10**it for it in range(low_y, high_y + 1)], sorted({x for x, _ in points})
    else:
        low_y, high_y = 0, round_above(max(y for _, y in points))
        marks_y, marks_x = [high_y * it / 4 for it in range(5)], [low_x + (high_x - low_x) * it / 4 for it in range(5)]
    place_x = lambda x: LEFT + (WIDTH - RIGHT - LEFT) * (scale(x) - low_x) / ((high_x - low_x) or 1)
    place_y = lambda y: HEIGHT - BOTTOM - (HEIGHT - BOTTOM - TOP) * (scale(y) - low_y) / (high_y - low_y)
    for mark in marks_y:
        picture.line(LEFT, place_y(mark), WIDTH - RIGHT, place_y(mark))
        picture.text(LEFT - 6, place_y(mark) + 4, shown(mark), anchor="end")
    for mark in marks_x:
        picture.text(place_x(mark), HEIGHT - BOTTOM + 18, shown(mark), anchor="middle")
    for number, curve in enumerate(curves.values()):
        colour = COLOURS[number % len(COLOURS)]
        path = " ".join(f"{place_x(x):.1f},{place_y(y):.1f}" for x, y in curve)
        picture.parts.append(f'<polyline points="{path}" fill="none" stroke="{colour}" stroke-width="2"/>')
        if len(curve) < 30:
            picture.parts += [f'<circle cx="{place_x(x):.1f}" cy="{place_y(y):.1f}" r="3" fill="{colour}"/>' for x, y in curve]
    picture.legend(curves)
    picture.write(to)


def serve_pictures(text, to):
    """Records a second, and microseconds until a record's line is there, by workers."""
    rates = re.findall(r"^bulk, 8 connections of ([\d,]+) records, (\d+) workers: rate ([\d.]+), .*\(([\d.]+) s,", text, re.M)
    theirs = {}
    for reactor, workers, took in re.findall(r"^bulk, .*, ACE's (\w+), (\d+) threads: rate .*\(([\d.]+) s,", text, re.M):
        theirs.setdefault(f"ACE's {reactor}", {})[workers] = float(took)
    if rates:
        values = []
        for each, workers, rate, took in rates:
            records = 8 * int(each.replace(",", ""))
            row = [records / float(took), records / (float(took) * float(rate))]
            values.append(row + [records / each[workers] if workers in each else None for each in theirs.values()])
        names = ["logd serve", "plain epoll server", *theirs]
        bars("8 connections, records of 100 bytes", "workers", "records a second", [workers for _, workers, _, _ in rates], names, values, to / "rate.svg")
    pattern = r"^latency beside 900 silent, (\d+) workers: median (\d+) us, 99 % (\d+) us \(plain server (\d+) us, (\d+) us((?:, ACE's \w+ \d+ us, \d+ us)*)\)"
    found = re.findall(pattern, text, re.M)
    if found:
        aces = [re.findall(r"(ACE's \w+) (\d+) us", row[5]) for row in found]
        values = [[int(it) for it in (row[1], row[3], row[2], row[4])] + [int(median) for _, median in theirs] for row, theirs in zip(found, aces)]
        names = ["logd serve, median", "plain server, median", "logd serve, 99 %", "plain server, 99 %"] + [f"{ace}, median" for ace, _ in aces[0]]
        bars("A record beside 900 silent connections", "workers", "microseconds until its line is there", [row[0] for row in found], names, values, to / "latency.svg")


def parts_pictures(text, to):
    """Nanoseconds to schedule a timer and to expire it, by how many there are, in each queue."""
    curves = {}
    for size, name, ours, theirs in re.findall(r"^(\d+) timers, ([^:]*?)\s+(\d+)(?:\s+(\d+)\s+ratio.*)?$", text, re.M):
        curves.setdefault(name, []).append((int(size), int(ours)))
        if theirs:
            curves.setdefault(f"ACE: {name}", []).append((int(size), int(theirs)))
    if curves:
        lines("A timer scheduled and expired", "timers in the queue", "nanoseconds", {it: sorted(curves[it]) for it in sorted(curves)}, to / "timers.svg", is_log=True)


def memory_pictures(text, to):
    """Megabytes of a server over time, under an endless load."""
    curves = {}
    for name, second, kilobytes in re.findall(r"^(.*): ([\d.]+) s (\d+) KB$", text, re.M):
        curves.setdefault(name, []).append((float(second), int(kilobytes) / 1024))
    if curves:
        lines("Memory of a server under load", "seconds", "megabytes", curves, to / "memory.svg")


def main():
    folder, to = map(Path, sys.argv[1:])
    to.mkdir(parents=True, exist_ok=True)
    for name, draw in (("serve", serve_pictures), ("parts", parts_pictures), ("memory", memory_pictures)):
        text = folder / f"{name}.txt"
        if text.exists():
            draw(text.read_text(), to)


main()
