#!/usr/bin/env python3
"""Tells where and why `mesh` refuses settings: PATH:LINE: what stands there: the refusal: what may stand there.

    tools/why.py ./mesh scenarios/diamond.toml
    tools/why.py ./mesh router.toml run

It asks the program, and then looks for the first place at which the rules of docs/FORMATS.md ("Settings") give the same refusal. Settings of
`run` that are taken run for one turn, in which a HELLO may be sent. The status is 0 where nothing is refused, 1 where the refusal was
found, and 2 where it could not be, or where the program did not answer."""
import itertools
import os
import re
import subprocess
import sys

import mesh_text
import toml_lines

LIMIT = 1048576
OCTET = r"(?:0|[1-9]\d?|1\d\d|2[0-4]\d|25[0-5])"
ADDRESS = rf"{OCTET}(?:\.{OCTET}){{3}}"


class Refusal:
    """A number, a key, and what tells why: the line, and what may stand there."""

    def __init__(self, number, key, line, why):
        self.number, self.key, self.line, self.why = number, key, line, why


class Value:
    """A rule for one value: what may stand there, and whether a value does."""

    def __init__(self, says, holds):
        self.says, self.holds = says, holds

    def refusals(self, key, place, table):
        if not self.holds(place.value, table):
            yield Refusal(42, key, place.line, self.says)


class Rising:
    """A whole number above that of the table before."""

    def __init__(self, low, high):
        self.plain = whole(low, high)
        self.says = f"{self.plain.says}, above that of the table before"

    def refusals(self, key, place, table):
        yield from self.plain.refusals(key, place, table)
        before = getattr(table, "before", None)
        before = before and before.value.get(key)
        if before and isinstance(before.value, int) and isinstance(place.value, int) and place.value <= before.value:
            yield Refusal(42, key, place.line, f"{self.says}, {before.value}")


class Many:
    """An array of so many values or tables."""

    def __init__(self, low, high, each):
        self.low, self.high, self.each = low, high, each
        self.says = f"{low} to {high} tables with a heading in two brackets"
        if isinstance(each, Value):
            self.says = f"an array of {low} to {high}: {each.says}"

    def refusals(self, key, place, table):
        items = place.value
        if not isinstance(items, list) or len(items) < self.low:
            yield Refusal(42, key, place.line, self.says)
        elif len(items) > self.high:
            yield Refusal(44, key, items[self.high].line, f"{self.says}; there are {len(items)}")
        else:
            for before, item in zip([None, *items], items):
                item.before = before if before and isinstance(before.value, dict) else None
                yield from self.each.refusals(key, item, table)


class Table:
    """A table with these keys, in this order, each with whether it must stand and its rule."""

    says = "a table"

    def __init__(self, **keys):
        self.keys = {key.rstrip("_"): rule if isinstance(rule, tuple) else (True, rule) for key, rule in keys.items()}

    def refusals(self, key, place, table):
        if not isinstance(place.value, dict):
            yield Refusal(42, key, place.line, self.says)
            return
        for name in sorted(place.value.keys() - self.keys.keys()):
            yield Refusal(46, name, place.value[name].line, f"the keys here are {', '.join(self.keys)}")
        for name, (must, rule) in self.keys.items():
            if name in place.value:
                yield from rule.refusals(name, place.value[name], place)
            elif must:
                where = "in the table that begins here" if key else "at the top, before the first heading"
                yield Refusal(41, name, place.line, f"`{name}` must stand {where}: {rule.says}")


def whole(low, high):
    return Value(f"a whole number of {low} to {high}, without quotes", lambda v, _: type(v) is int and low <= v <= high)


def text(says, pattern):
    return Value(says, lambda v, _: isinstance(v, str) and re.fullmatch(pattern, v, re.A) is not None)


def free(rule):
    """A key that may be missing."""
    return False, rule


def has_zero_bits(value, _):
    net = isinstance(value, str) and re.fullmatch(rf"({ADDRESS})/(\d|[12]\d|3[0-2])", value, re.A)
    number = net and int.from_bytes(bytes(map(int, net[1].split("."))))
    return bool(net) and number % 2**(32 - int(net[2])) == 0


def below_accept(value, table):
    accept = table.value.get("hyst_accept")
    return type(value) is int and 0 <= value <= (accept.value if accept and isinstance(accept.value, int) else 0)


NAME = text("1 to 16 characters of a to z and 0 to 9, in quotes", "[a-z0-9]{1,16}")
ADDRESS_RULE = text('an address in quotes, as "10.0.0.1": without a prefix, leading zeros or blanks, and not 0.0.0.0', rf"(?!0\.0\.0\.0$){ADDRESS}")
NET = Value('an address, a slash and a prefix in quotes, as "10.0.0.0/8", with zero bits behind the prefix', has_zero_bits)
ENDPOINT = text('an address, a colon and a port of 1 to 65535 in quotes, as "127.0.0.1:269"',
                rf"(?!0\.0\.0\.0:){ADDRESS}:(?:[1-9]\d{{0,3}}|[1-5]\d{{4}}|6[0-4]\d{{3}}|65[0-4]\d\d|655[0-2]\d|6553[0-5])")
END = text('a router\'s name, a dot and the name of an interface in quotes, as "r1.w0"', r"[a-z0-9]{1,16}\.[a-z0-9]{1,16}")
METRIC, MOMENT, TIME = whole(1, 16776960), whole(0, 3600000), whole(100, 3600000)
TIMES = Table(**{f"{name}_ms": free(TIME) for name in (
    "hello", "hold", "link_hold", "neighbour_hold", "tc", "topology_hold", "advertised_hold", "received_hold", "processed_hold",
    "forwarded_hold")}, tc_hop_limit=free(whole(1, 255)))
QUALITY = free(Many(0, 16, Table(at_ms=Rising(0, 3600000), value=whole(0, 100))))
ATTACHED = free(Many(0, 64, Table(net=NET, metric=METRIC, distance=free(whole(0, 255)))))


def router(interface):
    return Table(
        name=NAME, flooding=free(whole(0, 15)), routing=free(whole(0, 15)), hyst_accept=free(whole(0, 100)),
        hyst_reject=free(Value("a whole number of 0 to `hyst_accept`, which is 0 where it does not stand", below_accept)),
        tc_rows=free(whole(1, 1088)), near_hold=free(Many(0, 8, Table(hops=Rising(1, 254), hold_ms=TIME))),
        hello_at_ms=free(MOMENT), tc_at_ms=free(MOMENT), interface=Many(1, 8, interface), attached=ATTACHED)


ADDRESSES = Many(1, 4, ADDRESS_RULE)
SCENARIO = Table(
    end_ms=whole(1, 3600000), seed=free(whole(0, 2**63 - 1)), loss_until_ms=free(MOMENT), times=free(TIMES),
    router=Many(1, 64, router(Table(name=NAME, addresses=ADDRESSES))),
    arc=free(Many(0, 4096, Table(
        from_=END, to=END, metric=METRIC, loss=free(whole(0, 1000)), delay_ms=free(whole(1, 1000)), quality=QUALITY))))
RUNNING = Table(
    end_ms=whole(1, 3600000), times=free(TIMES),
    router=router(Table(
        name=NAME, addresses=ADDRESSES, local=ENDPOINT, peers=free(Many(0, 64, ENDPOINT)), metric=free(METRIC),
        neighbour=free(Many(0, 1024, Table(address=ADDRESS_RULE, metric=METRIC, quality=QUALITY))))))


def items(table, key):
    """The tables or values of an array, none where it doesn't stand."""
    return table.value[key].value if key in table.value else []


def twice(key, places):
    """A refusal for each value that has come before among the places."""
    seen = {}
    for place in places:
        if place.value in seen:
            yield Refusal(43, key, place.line, f"{place.value} stands at line {seen[place.value]} already")
        seen.setdefault(place.value, place.line)


def repetitions(routers):
    """What stands twice, in tables that are right by themselves."""
    faces = [items(each, "interface") for each in routers]
    addresses = [address for some in faces for face in some for address in items(face, "addresses")]
    yield from twice("name", [each.value["name"] for each in routers])
    for some in faces:
        yield from twice("name", [face.value["name"] for face in some])
    yield from twice("addresses", addresses)
    for each in routers:
        yield from twice("net", [net.value["net"] for net in items(each, "attached")])
    for net in [net.value["net"] for each in routers for net in items(each, "attached")]:
        for address in addresses:
            if net.value == f"{address.value}/32":
                yield Refusal(43, "net", net.line, f"{address.value} is a router's address, at line {address.line}")
    for face in itertools.chain(*faces):
        yield from twice("address", [other.value["address"] for other in items(face, "neighbour")])


def wrong_arcs(top):
    """The arcs between places that are none, within one router, or that stand twice."""
    faces = {f"{each.value['name'].value}.{face.value['name'].value}" for each in items(top, "router") for face in items(each, "interface")}
    seen = {}
    for arc in items(top, "arc"):
        ends = [arc.value["from"].value, arc.value["to"].value]
        for key, end in zip(("from", "to"), ends):
            if end not in faces:
                yield Refusal(45, key, arc.value[key].line, "no router with an interface has these names")
        if ends[0].split(".")[0] == ends[1].split(".")[0]:
            yield Refusal(42, "to", arc.value["to"].line, "an interface of another router than that of `from`")
        if tuple(ends) in seen:
            yield Refusal(43, "arc", arc.line, f"an arc from {ends[0]} to {ends[1]} stands at line {seen[tuple(ends)]} already")
        seen.setdefault(tuple(ends), arc.line)


def refusals(octets, command):
    """What the rules refuse, in their order; of several steps the first that refuses anything."""
    if len(octets) > LIMIT:
        yield Refusal(47, "input", octets.count(b"\n", 0, LIMIT) + 1, f"at most {LIMIT} octets; there are {len(octets)}")
        return
    try:
        top = toml_lines.read(octets)
    except toml_lines.Fault as fault:
        yield Refusal(40, "input", fault.line, fault.why)
        return
    found = list((SCENARIO if command == "emulate" else RUNNING).refusals("", top, None))
    yield from found
    if not found:
        yield from repetitions(items(top, "router") if command == "emulate" else [top.value["router"]])
        yield from wrong_arcs(top)


def asked(mesh, command, octets):
    """The refusal by which the program answers, or None where it takes the settings."""
    words = [os.path.abspath(mesh), command] + (["--turns", "1"] if command == "run" else [])
    done = subprocess.run(words, input=octets, capture_output=True, check=False)
    told = done.stderr.decode(errors="replace").removesuffix("\n")
    if done.returncode == 4 and told.startswith("mesh: refused "):
        return told.removeprefix("mesh: refused ")
    if done.returncode not in (0, 6, 7):
        raise OSError(f"{mesh} ends with status {done.returncode}: {told}")
    return None


def explained(path, octets, command, told):
    """The line that tells a refusal, and whether its place was found."""
    for refusal in refusals(octets, command):
        number, _, key = told.split(" ", 2)
        if (number, key) == (str(refusal.number), refusal.key):
            lines = octets.split(b"\n")
            line = lines[refusal.line - 1] if refusal.line <= len(lines) else b""
            shown = line.decode(errors="replace").strip()
            shown = shown[:57] + ".." if len(shown) > 60 else shown
            return f"{path}:{refusal.line}: {shown}: {told}: {refusal.why}", True
    return f"{path}: {told}: no place was found; docs/FORMATS.md has the rules", False


def main():
    parser = mesh_text.words_of("why")
    parser.add_argument("mesh", help="the program")
    parser.add_argument("settings", help="a file of settings")
    parser.add_argument("command", nargs="?", choices=["emulate", "run"], default="emulate", help="what is to read them; emulate, if not given")
    words = parser.parse_args()
    try:
        with open(words.settings, "rb") as file:
            octets = file.read()
        told = asked(words.mesh, words.command, octets)
    except OSError as fault:
        print(f"why: {fault}", file=sys.stderr)
        return 2
    if told is None:
        return 0
    line, found = explained(words.settings, octets, words.command, told)
    print(line)
    return 1 if found else 2


if __name__ == "__main__":
    sys.exit(main())
