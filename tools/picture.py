#!/usr/bin/env python3
"""Draws the network that a text of `mesh emulate` or `mesh run` on standard input tells, as text for Graphviz.

    mesh emulate < scenarios/diamond.toml | tools/picture.py scenarios/diamond.toml --of s | dot -Tsvg > diamond.svg

A circle is a router, the darker the more neighbours have chosen it as a flooding relay; a box is an attached network, with a dotted line from
each gateway. A line is a link that both ends hold as SYMMETRIC, with its metric, or with one at each end where they differ (what it
costs from there). A dashed arrow is any other link, with what its head holds it as. With --of the routes of a router are blue; its flooding
relays have two rings, its routing relays a blue ring. The way of a packet (--send) is red; whom a probe (--probe) doesn't reach is white
with a dashed ring. The scenario tells whose an address is; without it an address that is no originator is a box. The status is 0, or 1
where the text has no router or not the one behind --of."""
import sys

import mesh_text
from scenario import Scenario

FILLS = ["#ffffff", "#fff3d6", "#ffe3a3", "#ffcf70", "#ffb84a", "#ff9f2e"]
GREY, BLUE, RED, DARK = "#8a8a8a", "#2f6fd6", "#c8322b", "#444444"
ACROSS = 1.6


class Network:
    """What a text tells, by names of routers and interfaces."""

    def __init__(self, text, scenario):
        self.text = text
        self.routers = {router["name"]: router for router in text["routers"]}
        self.owners = dict(scenario.owners) if scenario else {}
        for router in text["routers"]:
            only = router["flooding"][0]["on"] if len(router["flooding"]) == 1 else None
            self.owners.setdefault(router["originator"], (router["name"], only))
        self.links = {}
        for router in text["routers"]:
            for link in router.get("links", []):
                self.links[(router["name"], link["on"]), self.owners.get(link["key"], (link["key"], None))] = link
        self.gates = {}
        for router in scenario.routers if scenario else []:
            for net in router.get("attached", []):
                self.gates.setdefault(net["net"], set()).add(router["name"])
        for router in text["routers"]:
            for route in router.get("routes", []):
                if route["to"].removesuffix("/32") not in self.owners:
                    self.gates.setdefault(route["to"], set()).add(self.name_of(route["parent"]))

    def name_of(self, address):
        """The router that has an address, or the address itself."""
        return self.owners.get(address.removesuffix("/32"), (address, None))[0]

    def is_symmetric(self, ends):
        return self.links.get(ends, {"status": None})["status"] == "symmetric"

    def cheapest(self, start, to, on=None):
        """The ends of the least link from a router to another, over an interface where one is given; None where there is none."""
        some = [ends for ends in self.links if (ends[0][0], ends[1][0]) == (start, to) and on in (None, ends[0][1]) and self.is_symmetric(ends)]
        return min(some, key=lambda ends: self.links[ends]["out"] or 0, default=None)

    def tree_of(self, name):
        """The arcs of the tree of a router's routes, from router to router or network."""
        arcs = {(self.name_of(route["parent"]), self.name_of(route["to"])) for route in self.routers[name].get("routes", [])}
        return sorted((start, to) for start, to in arcs if start != to)

    def chosen_by(self, name):
        """How many neighbours have chosen a router as a flooding relay."""
        return len({self.name_of(link["key"]) for link in self.routers[name].get("links", []) if link["selector"]})


class Picture:
    """The lines of a text for Graphviz."""

    def __init__(self, network, center, columns):
        self.network, self.center, self.columns, self.colours, self.out = network, center, columns, {}, []
        text = network.text
        self.tree = network.tree_of(center) if center else []
        self.trip = [((hop["from"], hop["on"]), hop["to"]) for hop in text.get("send", {}).get("path", [])]
        self.unreached = text.get("probe", {}).get("unreached", [])

    def lines(self):
        yield "digraph mesh {"
        yield f"  label={quoted(self.caption())}; fontname=Helvetica; fontsize=12; outputorder=edgesfirst;"
        yield "  layout=neato; splines=true;" if self.columns else "  layout=dot; rankdir=LR; nodesep=0.4; ranksep=0.7;"
        yield f'  node [fontname=Helvetica, fontsize=11, style=filled, color="{DARK}", shape=circle, width=0.75, fixedsize=true];'
        yield f'  edge [fontname=Helvetica, fontsize=10, color="{GREY}", fontcolor="{DARK}", dir=none, arrowsize=0.7];'
        for place, name in enumerate(self.network.routers):
            yield self.router(place, name)
        below = -(-len(self.network.routers) // self.columns) * self.columns if self.columns else 0
        for place, net in enumerate(sorted(self.network.gates), below):
            yield f"  {quoted(net)}" + said(shape="box", fillcolor="#e4efe0", fixedsize="false", margin="0.08,0.04", **self.position(place))
        self.colour()
        yield from self.links()
        yield from self.arcs()
        yield "}"

    def caption(self):
        text = self.network.text
        parts = []
        if "settled" in text:
            gap = text.get("gap")
            parts.append("settled" if text["settled"] else f"not settled: {gap['router']} {gap['kind']} {gap['key']}")
        end = text.get("emulate", text.get("run", {})).get("end")
        parts += [f"after {mesh_text.seconds(end):g} s"] if end else []
        parts += [f"blue: routes of {self.center}"] if self.center else []
        if "send" in text:
            send = text["send"]
            parts.append(f"red: {send['from']} to {send['to']}, {send['end']} at {send['at']}, metric {send['metric']}")
        probe = text.get("probe")
        if probe:
            parts.append(f"probe by {probe['by']}: {probe['reached']} of {probe['of']} reached, {probe['sent']} sent" if "number" in probe
                         else f"no probe by {probe['by']}")
        return "\\n".join(["   ".join(parts[:3]), *parts[3:]])

    def router(self, place, name):
        router, network = self.network.routers[name], self.network
        chosen = network.chosen_by(name)
        keys = {"label": f"{name}\\n{router['originator']}", "fillcolor": FILLS[min(chosen, len(FILLS) - 1)], "fontsize": 9,
                "tooltip": f"{name} {router['originator']}, flooding relay of {chosen}"}
        if self.center:
            center = network.routers[self.center]
            if name in {network.name_of(relay) for face in center["flooding"] for relay in face["relays"]}:
                keys["peripheries"] = 2
            if name in map(network.name_of, center["routing"]):
                keys.update(color=BLUE, penwidth=2)
        if name == self.center:
            keys.update(fillcolor=BLUE, fontcolor="white")
        if name in self.unreached:
            keys.update(fillcolor="white", style="filled,dashed")
        return f"  {quoted(name)}" + said(**keys, **self.position(place))

    def position(self, place):
        """Where the rows have a router, or a network in the rows below them."""
        return {"pos": f"{place % self.columns * ACROSS:g},{-(place // self.columns) * ACROSS:g}!"} if self.columns else {}

    def colour(self):
        """Gives the links of routes and of the trip their colours, by their ends in the way's direction; other arcs stay for `arcs`."""
        self.left = []
        for start, to in self.tree:
            ends = self.network.cheapest(start, to)
            if ends:
                self.colours[ends] = BLUE
            else:
                self.left.append((start, to, BLUE))
        for (start, on), to in self.trip:
            ends = self.network.cheapest(start, to, on)
            if ends:
                self.colours[ends] = RED
                if self.colours.get(ends[::-1]) == BLUE:
                    del self.colours[ends[::-1]]
            else:
                self.left.append((start, to, RED))

    def links(self):
        drawn = set()
        for ends, link in self.network.links.items():
            back, (start, to) = self.network.links.get(ends[::-1]), ends
            if not self.network.is_symmetric(ends) or not self.network.is_symmetric(ends[::-1]):
                yield arc(to[0], start[0], style="dashed", dir="forward", label=f" {link['status']} ")
            elif ends[::-1] not in drawn:
                drawn.add(ends)
                yield arc(start[0], to[0], **self.ways(ends), **metrics(link["out"], back["out"]))

    def ways(self, ends):
        """The colour and the arrows of a link."""
        there, back = self.colours.get(ends), self.colours.get(ends[::-1])
        if not there and not back:
            return {}
        return {"color": there or back, "penwidth": 2.2, "dir": "both" if there and back else "forward" if there else "back"}

    def arcs(self):
        """Arcs that follow no link: from gateways to networks, and ways over links that are not held."""
        blue = {(start, to) for start, to, _ in self.left}
        for net, gates in sorted(self.network.gates.items()):
            for gate in sorted(gates):
                if (gate, net) not in blue:
                    yield arc(gate, net, style="dotted")
        for start, to, colour in self.left:
            yield arc(start, to, color=colour, penwidth=2.2, dir="forward", **({} if to in self.network.gates else {"style": "dashed"}))


def metrics(there, back):
    if there == back:
        return {"label": f" {there} "}
    return {"taillabel": f" {there} ", "headlabel": f" {back} ", "labeldistance": 1.8}


def quoted(word):
    return '"' + str(word).replace('"', '\\"') + '"'


def said(**keys):
    return " [" + ", ".join(f"{key}={quoted(value)}" for key, value in keys.items()) + "];" if keys else ";"


def arc(start, to, **keys):
    return f"  {quoted(start)} -> {quoted(to)}" + said(**keys)


def main():
    parser = mesh_text.words_of("picture")
    parser.add_argument("scenario", nargs="?", help="the settings of which the text tells")
    parser.add_argument("--of", metavar="ROUTER", help="whose routes and relays are marked")
    parser.add_argument("--grid", metavar="COLUMNS", type=int, help="rows of so many routers, in the order of the text")
    words = parser.parse_args()
    scenario = words.scenario and Scenario("picture", words.scenario)
    text = mesh_text.standard_input("picture")
    if not text.get("routers"):
        sys.exit("picture: no router's section in the text")
    network = Network(text, scenario)
    if words.of and words.of not in network.routers:
        sys.exit(f"picture: no router {words.of}")
    print("\n".join(Picture(network, words.of, words.grid).lines()))


if __name__ == "__main__":
    main()
