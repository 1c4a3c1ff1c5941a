#!/usr/bin/env python3
"""Shows what the routers of a scenario hold, as its time goes by.

    tools/watch.py ./mesh scenarios/diamond.toml --of s --speed 5

It runs the scenario to one moment after the other, and shows the routes of one router, or of all, with what has changed since the last
moment, and the first gap. Where standard output is no terminal it prints a line for each route that comes (+), goes (-) or changes (~),
and waits for nothing. The status is 0, or 1 where the scenario is refused."""
import sys
import time

import mesh_text
from scenario import Scenario
from timeline import gap_of

COLOURS = {"+": "\033[32m", "-": "\033[31m", "~": "\033[33m", " ": ""}


def routes_of(text, name):
    return {(router["name"], route["to"]): route for router in text["routers"] for route in router.get("routes", [])
            if name in (None, router["name"])}


def line_of(key, route):
    return f"{key[0]:<16} {key[1]:<18} metric {route['metric']:<8} next {route['next']} on {route['on']}"


def marks(before, after):
    """What has happened to each route that either moment has."""
    return {key: "+" if key not in before else "-" if key not in after else "~" if before[key] != after[key] else " "
            for key in sorted({*before, *after})}


def state_of(text):
    return "settled" if text["settled"] else f"not settled: {gap_of(text)}"


def screen(moment, end, text, before, after):
    lines = [f"\033[H\033[2J\033[1m{moment / 1000:9.3f} s\033[0m of {end / 1000:g} s   {state_of(text)}", ""]
    for key, mark in marks(before, after).items():
        lines.append(f"{COLOURS[mark]}{mark} {line_of(key, after.get(key) or before[key])}\033[0m")
    print("\n".join(lines), flush=True)


def log(moment, text, before, after, state):
    """Prints what has changed, and answers how the network stands."""
    for key, mark in marks(before, after).items():
        if mark != " ":
            print(f"{moment / 1000:9.3f} {mark} {line_of(key, after.get(key) or before[key])}")
    now = state_of(text)
    if now != state:
        print(f"{moment / 1000:9.3f} = {now}", flush=True)
    return now


def main():
    parser = mesh_text.words_of("watch")
    parser.add_argument("mesh", help="the program")
    parser.add_argument("scenario")
    parser.add_argument("--of", metavar="ROUTER", help="whose routes; all, if not given")
    parser.add_argument("--speed", metavar="X", type=float, default=1, help="how many times faster than the clock")
    parser.add_argument("--every", metavar="MS", type=int, default=200, help="the milliseconds between two moments; 200, if not given")
    words = parser.parse_args()
    if words.every < 1 or words.speed <= 0:
        parser.error("--every and --speed are above 0")
    scenario = Scenario("watch", words.scenario)
    if words.of and words.of not in (router["name"] for router in scenario.routers):
        sys.exit(f"watch: no router {words.of}")
    live, begun, end = sys.stdout.isatty(), time.monotonic(), scenario.end_ms()
    moment, before, state = 0, {}, None
    while moment < end:
        moment = min(end, moment + words.every)
        if live:
            moment = min(end, max(moment, int((time.monotonic() - begun) * 1000 * words.speed)))
            time.sleep(max(0, begun + moment / 1000 / words.speed - time.monotonic()))
        text = scenario.until(words.mesh, moment)
        after = routes_of(text, words.of)
        if live:
            screen(moment, end, text, before, after)
        else:
            state = log(moment, text, before, after, state)
        before = after


if __name__ == "__main__":
    try:
        main()
    except KeyboardInterrupt:
        sys.exit(130)
