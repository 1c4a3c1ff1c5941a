#!/usr/bin/env python3
"""Draws the crates of crates.txt, floor by floor, as SVG on standard output.

A comment line of crates.txt names a floor, lowest first, and the crates below it stand there. A line in the picture leads from a crate
to one that it stands on, where no other crate that it stands on leads there too. The status is 1 where FILE differs, or where a crate
stands on one of a higher floor."""
import argparse
import functools
import os
import sys

WIDTH, ROW, BOX, LEFT = 1100, 78, 26, 130


def read(path):
    """The floors in order, each with its crates, and what each crate stands on."""
    floors, below = [], {}
    for line in open(path, encoding="utf8"):
        line = line.strip()
        if line.startswith("#"):
            floors.append((line.strip("# "), []))
        elif line:
            head, rest = line.split(":")
            name = head.split()[0]
            floors[-1][1].append(name)
            below[name] = rest.split()
    own = {name: [it for it in deps if it in below] for name, deps in below.items()}
    return floors, own


def essential(own):
    """Each crate with the crates that it stands on and that no other of them stands on."""
    @functools.lru_cache(None)
    def reached(name):
        return frozenset(own[name]).union(*map(reached, own[name]))
    return {name: [it for it in deps if not any(it in reached(other) for other in deps)] for name, deps in own.items()}


def draw(floors, own):
    place, height, out = {}, ROW * len(floors) + 20, []
    for row, (_, crates) in enumerate(floors):
        wide = (WIDTH - LEFT - 10) / max(len(crates), 1)
        for column, name in enumerate(crates):
            place[name] = (LEFT + wide * (column + 0.5), height - ROW * (row + 0.5) - 10)
    for name, deps in essential(own).items():
        (x, y) = place[name]
        for dep in deps:
            (u, v) = place[dep]
            start, end = (y + BOX / 2, v - BOX / 2) if v > y else (y, v)
            bend = (end - start) / 2 if v > y else -ROW / 2
            out.append(f'<path d="M{x:.0f} {start:.0f}C{x:.0f} {start + bend:.0f} {u:.0f} {end - bend:.0f} {u:.0f} {end:.0f}"/>')
    lines = "\n".join(out)
    boxes = []
    for row, (floor, crates) in enumerate(floors):
        top = height - ROW * (row + 1) - 10
        shade = "#f4f6f8" if row % 2 else "#ffffff"
        boxes.append(f'<rect x="0" y="{top}" width="{WIDTH}" height="{ROW}" fill="{shade}"/>')
    marks = []
    for row, (floor, crates) in enumerate(floors):
        marks.append(f'<text x="10" y="{height - ROW * (row + 0.5) - 6:.0f}" font-weight="bold">{floor}</text>')
        for name in crates:
            x, y = place[name]
            label = name.removeprefix("mesh_")
            w = 8 * len(label) + 16
            marks.append(f'<rect x="{x - w / 2:.0f}" y="{y - BOX / 2:.0f}" width="{w}" height="{BOX}" rx="4" fill="#ffffff" stroke="#345"/>')
            marks.append(f'<text x="{x:.0f}" y="{y + 4:.0f}" text-anchor="middle">{label}</text>')
    return (
        f'<svg xmlns="http://www.w3.org/2000/svg" viewBox="0 0 {WIDTH} {height}" font-family="sans-serif" font-size="13">\n'
        + "\n".join(boxes) + '\n<g fill="none" stroke="#9ab" stroke-width="1">\n' + lines + "\n</g>\n" + "\n".join(marks) + "\n</svg>\n"
    )


def main():
    words = argparse.ArgumentParser(description=__doc__, formatter_class=argparse.RawDescriptionHelpFormatter)
    words.add_argument("--check", metavar="FILE", help="compare with FILE, and draw nothing")
    wanted = words.parse_args().check
    top = os.path.dirname(os.path.dirname(os.path.abspath(__file__)))
    floors, own = read(f"{top}/crates.txt")
    level = {name: row for row, (_, crates) in enumerate(floors) for name in crates}
    wrong = [f"{name} stands on {dep}, which is of a higher floor" for name, deps in own.items() for dep in deps if level[dep] > level[name]]
    for it in wrong:
        print(f"floors: {it}", file=sys.stderr)
    picture = draw(floors, own)
    if wanted:
        with open(wanted, encoding="utf8") as file:
            if file.read() != picture:
                wrong.append(wanted)
                print(f"floors: {wanted} isn't the picture of crates.txt: make it anew by docs/floors.py", file=sys.stderr)
    else:
        sys.stdout.write(picture)
    return 1 if wrong else 0


if __name__ == "__main__":
    sys.exit(main())
