#!/usr/bin/env python3
"""Draws how a network comes to its routes, as a picture (SVG) on standard output.

    tools/timeline.py ./mesh scenarios/diamond.toml --of s > diamond.svg

It runs the scenario to each moment of a series. The upper part shows how many routes all routers have together (grey), how many of
these are as at the end (blue), and when the network is settled (green); the lower part, for the router behind --of, a row for each
destination, in a colour for each next hop, with the metric. On standard error it tells each moment, to a millisecond, at which the network came to
be settled or ceased to be, with the gap before it or then; what comes and goes between two moments of the series is not seen. The
status is 0, or 1 where the scenario is refused."""
import concurrent.futures
import itertools
import os
import re
import sys
from xml.sax.saxutils import escape

import mesh_text
from scenario import Scenario

COLOURS = ["#4e79a7", "#f28e2b", "#59a14f", "#e15759", "#76b7b2", "#edc948", "#b07aa1", "#ff9da7", "#9c755f", "#86bcb6", "#d37295", "#8cd17d"]
PACES = (1, 2, 5, 10, 20, 50, 100, 200, 500, 1000, 2000, 5000, 10000, 20000, 60000, 300000, 600000)
LEFT, RIGHT, TOP, MIDDLE, ROW = 130, 1000, 40, 190, 20


def routes_of(text):
    """The metric and the next hop by router and destination."""
    return {(router["name"], route["to"]): (route["metric"], route["next"]) for router in text["routers"] for route in router.get("routes", [])}


def gap_of(text):
    gap = text.get("gap")
    return " ".join(gap[key] for key in ("router", "kind", "key")) if gap else "none"


def switches(run, moments, told):
    """Each moment at which the network came to be settled or ceased to be, by halving; whether it is then, and the gap before it or then."""
    for low, high in zip(moments, moments[1:]):
        before, after = told[low], told[high]
        if before["settled"] == after["settled"]:
            continue
        while high - low > 1:
            middle = (low + high) // 2
            text = run(middle)
            if text["settled"] == before["settled"]:
                low, before = middle, text
            else:
                high, after = middle, text
        yield high, after["settled"], gap_of(before if after["settled"] else after)


class Drawing:
    def __init__(self, moments, told, center):
        self.moments, self.told, self.center, self.end, self.out = moments, told, center, moments[-1], []
        self.last = routes_of(told[self.end])
        self.most = max(1, *(len(routes_of(text)) for text in told.values()))
        found = {to for text in told.values() for name, to in routes_of(text) if name == center}
        self.rows = sorted(found, key=lambda to: [int(number) for number in re.split(r"[./]", to)])
        self.height = MIDDLE + 60 + ROW * len(self.rows) + 30

    def across(self, moment):
        return LEFT + (RIGHT - LEFT) * moment / self.end

    def text(self, x, y, words, more=""):
        self.out.append(f'<text x="{x:.1f}" y="{y:.1f}" {more}>{escape(str(words))}</text>')

    def box(self, x, y, wide, high, fill):
        self.out.append(f'<rect x="{x:.1f}" y="{y:.1f}" width="{max(wide, 0.5):.1f}" height="{high:.1f}" fill="{fill}"/>')

    def svg(self, title):
        self.text(LEFT, 22, title, 'font-size="15" font-weight="bold"')
        self.counts()
        self.axis()
        if self.center:
            self.text(LEFT, MIDDLE + 33, f"routes of {self.center}: next hop and metric", 'font-weight="bold"')
            colours = {}
            for place, to in enumerate(self.rows):
                self.row(MIDDLE + 45 + ROW * place, to, colours)
        size = f'width="{RIGHT + 30}" height="{self.height}"'
        head = f'<svg xmlns="http://www.w3.org/2000/svg" {size} font-family="Helvetica, sans-serif" font-size="11">'
        return "\n".join([head, '<rect width="100%" height="100%" fill="white"/>', *self.out, "</svg>"])

    def counts(self):
        for settled, some in itertools.groupby(zip(self.moments, self.moments[1:] + [self.end]), lambda span: self.told[span[0]]["settled"]):
            spans = list(some)
            if settled:
                x = self.across(spans[0][0])
                self.box(x, TOP, self.across(spans[-1][1]) - x, MIDDLE - TOP, "#dff0d8")
        for colour, counts in (("#bbbbbb", lambda key, route: True), ("#2f6fd6", lambda key, route: self.last.get(key) == route)):
            points = []
            for moment in self.moments:
                count = sum(counts(key, route) for key, route in routes_of(self.told[moment]).items())
                points.append(f"{self.across(moment):.1f},{TOP + (MIDDLE - TOP) * (1 - count / self.most):.1f}")
            self.out.append(f'<polyline points="{" ".join(points)}" fill="none" stroke="{colour}" stroke-width="2"/>')
        for y, words in ((TOP + 10, self.most), ((TOP + MIDDLE) / 2, "routes"), (MIDDLE, 0)):
            self.text(LEFT - 8, y, words, 'text-anchor="end"')
        self.text(RIGHT, TOP - 6, "grey: routes of all routers; blue: those that are as at the end; green: settled", 'text-anchor="end" fill="#555"')

    def axis(self):
        pace = next((pace for pace in PACES if self.end / pace <= 14), PACES[-1])
        for moment in range(0, self.end + 1, pace):
            x = self.across(moment)
            self.out.append(f'<line x1="{x:.1f}" x2="{x:.1f}" y1="{TOP}" y2="{self.height - 25}" stroke="#00000018"/>')
            self.text(x, self.height - 8, f"{moment / 1000:g} s", 'text-anchor="middle"')

    def row(self, y, to, colours):
        """One destination: a bar for each time in which next hop and metric stay the same."""
        self.text(LEFT - 8, y + 14, to.removesuffix("/32"), 'text-anchor="end"')
        begun = was = None
        for moment in [*self.moments, None]:
            now = routes_of(self.told[moment]).get((self.center, to)) if moment is not None else None
            if moment is not None and now == was:
                continue
            if was is not None:
                self.bar(self.across(begun), self.across(self.end if moment is None else moment), y, was, colours)
            begun, was = moment, now

    def bar(self, x, upto, y, route, colours):
        metric, hop = route
        self.box(x, y + 2, upto - x, ROW - 4, colours.setdefault(hop, COLOURS[len(colours) % len(COLOURS)]))
        for words in (f"{hop} at {metric}", str(metric)):
            if upto - x > 7 * len(words):
                self.text(x + 4, y + 14, words, 'fill="white"')
                break


def main():
    parser = mesh_text.words_of("timeline")
    parser.add_argument("mesh", help="the program")
    parser.add_argument("scenario")
    parser.add_argument("--of", metavar="ROUTER", help="whose routes are shown")
    parser.add_argument("--every", metavar="MS", type=int, help="the milliseconds between two moments; a 240th of the run, if not given")
    words = parser.parse_args()
    scenario = Scenario("timeline", words.scenario)
    if words.of and words.of not in (router["name"] for router in scenario.routers):
        sys.exit(f"timeline: no router {words.of}")
    run, end = lambda moment: scenario.until(words.mesh, moment), scenario.end_ms()
    every = max(1, words.every or end // 240)
    moments = sorted({*range(every, end + 1, every), 1, end})
    with concurrent.futures.ThreadPoolExecutor(os.cpu_count()) as pool:
        told = dict(zip(moments, pool.map(run, moments)))
    for moment, settled, gap in switches(run, moments, told):
        print(f"{moment / 1000:.3f} s: {'settled; the last gap was' if settled else 'not settled:'} {gap}", file=sys.stderr)
    print(Drawing(moments, told, words.of).svg(os.path.basename(words.scenario)))


if __name__ == "__main__":
    main()
