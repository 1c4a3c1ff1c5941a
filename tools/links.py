#!/usr/bin/env python3
"""Makes a scenario out of a list of links on standard input, a line each.

    printf 'end 60\\ngrid 3x3\\nrouter n0 attached 192.168.0.0/24' | tools/links.py | mesh emulate

    end 60                                        seconds; 60 where it doesn't stand
    seed = 7                                      a key of the top table, also `loss_until_ms`
    times tc_ms 2000 hold_ms 8000                 keys of the table `times`
    r1 -- r2 metric 3 loss 100                    an arc each way; `->` leads one way; 3/5 differs by way; also `delay_ms 2`
    r1.w1 -- r4 metric 1                          another interface than w0
    r2 -> r3 quality 30000:50 60000:90            the quality from a moment in milliseconds on
    router r5 attached 10.8.0.0/16 metric 2       a network; also `distance 3` behind it
    router r5 flooding 0 tc_rows 10               keys of a router
    router r5 address w1 10.9.0.1                 an address of an interface
    router r5 near 2:3000 5:9000                  near holds: hops and milliseconds
    grid 4x3 metric 1 loss 100                    routers n0, n1 and so on in rows; also `ring 5`, `line 5`, `full 5`

`#` begins a comment. The router that is named first has the address 10.0.0.1 on its first interface and 10.1.0.1 on its second, the next one
10.0.0.2, and so on, but for what `address` gives; interfaces stand in the order of their names, and a metric is 1 where none is given. What
values may be is for `mesh` to say. The status is 0, or 1 at a line that is none of these."""
import re
import sys

import mesh_text

TOP = ("seed", "loss_until_ms")
ROUTER = ("flooding", "routing", "hyst_accept", "hyst_reject", "tc_rows", "hello_at_ms", "tc_at_ms")
ARC = ("metric", "loss", "delay_ms")
NAME = re.compile(r"([a-z0-9]{1,16})(?:\.([a-z0-9]{1,16}))?")


class Fault(Exception):
    """A line that is none of the links."""


class Network:
    def __init__(self):
        self.top, self.times, self.routers, self.arcs = {"end_ms": 60000}, {}, {}, []

    def place(self, word):
        """Names the router of a place and its interface, and answers the place."""
        found = NAME.fullmatch(word) or refuse(f"`{word}` is no name of a router, nor one with a dot and an interface behind it")
        name, on = found[1], found[2] or "w0"
        router = self.routers.setdefault(name, {"keys": {}, "faces": {}, "attached": [], "near": []})
        router["faces"].setdefault(on, None)
        return f"{name}.{on}"

    def link(self, ends, way, words):
        ends = [self.place(end) for end in ends]
        there, back, words = {}, {}, list(words)
        while words:
            key = words.pop(0)
            if key == "quality":
                there[key] = back[key] = steps(words)
            elif key in ARC:
                there[key], _, other = value(key, words).partition("/")
                back[key] = other or there[key]
            else:
                refuse(f"`{key}` is no key of a link")
        if way != "<-":
            self.arcs.append((*ends, there))
        if way != "->":
            self.arcs.append((*reversed(ends), back))

    def shape(self, kind, size, words):
        found = re.fullmatch(r"([1-9]\d?)(?:x([1-9]\d?))?" if kind == "grid" else r"([1-9]\d?)()", size)
        wide, high = (int(found[1]), int(found[2] or 1)) if found else refuse(f"`{kind} {size}` is no shape")
        count = wide * high
        pairs = [(i, j) for i in range(count) for j in ((i + 1,) if (i + 1) % wide else ()) + ((i + wide,) if i + wide < count else ())]
        if kind == "ring" and wide > 2:
            pairs.append((0, wide - 1))
        if kind == "full":
            pairs = [(i, j) for i in range(count) for j in range(i + 1, count)]
        for i in range(count):
            self.place(f"n{i}")
        for pair in pairs:
            self.link([f"n{i}" for i in pair], "--", words)

    def router(self, name, words):
        router, words = self.routers[self.place(name).split(".")[0]], list(words)
        if "." in name:
            refuse(f"`{name}` is no name of a router")
        while words:
            key = words.pop(0)
            if key == "attached":
                router["attached"].append({"net": f'"{value(key, words)}"', "metric": "1"})
            elif key in ("metric", "distance") and router["attached"]:
                router["attached"][-1][key] = value(key, words)
            elif key == "address":
                on = value(key, words)
                router["faces"][on] = value(key, words)
            elif key == "near":
                router["near"] = steps(words)
            elif key in ROUTER:
                router["keys"][key] = value(key, words)
            else:
                refuse(f"`{key}` is no key of a router here")

    def line(self, words):
        if len(words) > 2 and words[1] in ("--", "->", "<-"):
            self.link(words[::2][:2], words[1], words[3:])
        elif words[0] in ("grid", "ring", "line", "full") and len(words) > 1:
            self.shape(words[0], words[1], words[2:])
        elif words[0] == "router" and len(words) > 1:
            self.router(words[1], words[2:])
        elif words[0] == "times" and len(words) % 2:
            self.times.update(zip(words[1::2], words[2::2]))
        elif words[0] == "end" and len(words) == 2 and re.fullmatch(r"\d+(\.\d{1,3})?", words[1]):
            self.top["end_ms"] = round(float(words[1]) * 1000)
        elif len(words) == 3 and words[0] in TOP and words[1] == "=":
            self.top[words[0]] = words[2]
        else:
            refuse(f"`{' '.join(words)[:60]}` is none of the lines that --help shows")

    def toml(self):
        """The lines of the scenario."""
        yield from pairs(self.top)
        if self.times:
            yield from ("", "[times]", *pairs(self.times))
        for number, (name, router) in enumerate(self.routers.items(), 1):
            yield from ("", "[[router]]", f'name = "{name}"', *pairs(router["keys"]))
            for hops, hold in router["near"]:
                yield from ("[[router.near_hold]]", f"hops = {hops}", f"hold_ms = {hold}")
            for place, (on, address) in enumerate(sorted(router["faces"].items())):
                yield from ("[[router.interface]]", f'name = "{on}"', f'addresses = ["{address or f"10.{place}.0.{number}"}"]')
            for net in router["attached"]:
                yield from ("[[router.attached]]", *pairs(net))
        for start, to, keys in self.arcs:
            yield from ("", "[[arc]]", f'from = "{start}"', f'to = "{to}"')
            yield from pairs({"metric": 1, **{key: said for key, said in keys.items() if key != "quality"}})
            for at, quality in keys.get("quality", []):
                yield from ("[[arc.quality]]", f"at_ms = {at}", f"value = {quality}")


def refuse(why):
    raise Fault(why)


def pairs(keys):
    return [f"{key} = {said}" for key, said in keys.items()]


def value(key, words):
    """The next word, which is what stands behind a key."""
    return words.pop(0) if words else refuse(f"no value stands behind `{key}`")


def steps(words):
    """The pairs of numbers that come next, as 30000:50."""
    some = []
    while words and re.fullmatch(r"\d+:\d+", words[0]):
        some.append(words.pop(0).split(":"))
    return some or refuse("pairs of numbers are wanted, as 30000:50")


def main():
    mesh_text.words_of("links").parse_args()
    network = Network()
    for number, line in enumerate(sys.stdin, 1):
        words = line.split("#")[0].split()
        try:
            if words:
                network.line(words)
        except Fault as fault:
            sys.exit(f"links: line {number}: {fault}")
    print("\n".join(network.toml()))


if __name__ == "__main__":
    main()
