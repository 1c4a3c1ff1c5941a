#!/usr/bin/env python3
"""Reads the texts of `mesh` back, as docs/FORMATS.md has them: what `emulate` (with --trace, --send, --probe or --make), `run`,
`dump` and `replay` print on standard input becomes JSON on standard output.

    mesh emulate < scenarios/diamond.toml | tools/mesh_text.py | jq '.routers[0].routes'

Numbers become numbers, `yes` and `no` become true and false, and a number that is `none` becomes null. Moments and times stay in ticks
of 1/8192 s. With --back a JSON that this tool made becomes the text again, octet for octet. The status is 0, or 1 where a line is
none of the program's."""
import argparse
import json
import re
import signal
import sys

TICKS = 8192

# The name that a line has in JSON (a list where it ends with []), the names of the lines that it stands under, and its form. In a form
# {x} is a word, {x#} a number or `none`, {x?} yes or no, {x*} the words up to the end or `none`, {x+} one word or several, and {x=a|b} one
# of these. A line with one field alone has that field's value in JSON, any other an object. The order is that of the text.
FORMS = [
    ("events[]", "", "{event=heard} {moment#} {router} {on} {sender} {frame}"),
    ("events[]", "", "{event=tick} {moment#} {router}"),
    ("flooding[]", "events", "relays {router} flooding {on} {relays*}"),
    ("routing", "events", "relays {router} routing {relays*}"),
    ("sent[]", "events", "sent {moment#} {router} {on} {frame}"),
    ("lost[]", "sent", "lost {moment#} {from} {to}"),
    ("made", "", "made {kind} routers {routers#} arcs {arcs#} seed {seed#}"),
    ("emulate", "", "emulate routers {routers#} arcs {arcs#} end {end#} sent {sent#} delivered {delivered#} lost {lost#}"),
    ("run", "", "run end {end#} turns {turns#} heard {heard#} sent {sent#} air faults {faults#}"),
    ("routes", "", "routes {number#} greatest {greatest#}"),
    ("routers[]", "", "router {name} {originator}"),
    ("links[]", "routers", " link {on} {key} {status=pending|lost|symmetric|heard} in {in#} out {out#} selector {selector?}"),
    ("neighbours[]", "routers", " neighbour {originator} {status=symmetric|heard} in {in#} out {out#} flooding {flooding#}"
     " routing {routing#} selector {selector?}"),
    ("held", "routers", " held twohop {twohop#} lost {lost#} topology {topology#} addresses {addresses#} networks {networks#}"),
    ("flooding[]", "routers", " flooding {on} {relays*}"),
    ("routing", "routers", " routing {relays*}"),
    ("routes[]", "routers", " route {to} metric {metric#} next {next} on {on} parent {parent}"),
    ("settled", "", "settled {settled?}"),
    ("gap", "", "gap {router} {kind=link|neighbour|twohop|topology (?:router|address|network)} {key+} held {held?} present {present?}"),
    ("send", "", "send {from} {to} end {end=arrived|noroute|noarc|toofar} at {at} metric {metric#} hops {hops#}"),
    ("path[]", "send", " hop {from} {on} to {to} metric {metric#}"),
    ("probe", "", "probe {by} number {number#} reached {reached#} of {of#} sent {sent#}"),
    ("probe", "", "probe {by} none"),
    ("unreached[]", "probe", "unreached {router}"),
    ("packets[]", "", "line {line#} packet sequence {sequence#} tlvs {tlvs#} messages {messages#}"),
    ("packets[]", "", "line {line#} refused at {at#} reason {reason#} {name}"),
    ("tlv[]", "packets message", "  tlv {type#} extension {extension#} value {value}"),
    ("message[]", "packets", " message type {type#} width {width#} size {size#} originator {originator} limit {limit#} count {count#}"
     " sequence {sequence#} tlvs {tlvs#} blocks {blocks#}"),
    ("block[]", "message", "  block addresses {addresses#} tlvs {tlvs#}"),
    ("address[]", "block", "   address {address}"),
    ("tlv[]", "block", "   tlv {type#} extension {extension#} first {first#} last {last#} multi {multi?} value {value}"),
    ("reading", "message", " reading {reading=hello} validity {validity#} interval {interval#} flooding {flooding#} routing {routing#}"
     " rows {rows#}"),
    ("reading", "message", " reading {reading=tc} originator {originator} sequence {sequence#} ansn {ansn#} complete {complete?}"
     " validity {validity#} interval {interval#} rows {rows#}"),
    ("reading", "message", " reading {reading=broken} {number#} {name}"),
    ("recode", "packets", " recode {recode}"),
    ("lines", "", "lines {lines#} refused {refused#}"),
    ("replay", "", "replay {run?} lines {lines#}"),
    ("replay", "", "replay {run?} line {line#}"),
]
FIELD = re.compile(r"{(\w+)(=[^}]*|[#?*+]?)}")
SHAPES = {"": r"\S+", "#": r"\d+|none", "?": "yes|no", "*": r"\S.*", "+": r"\S.*?"}
READ = {"": str, "=": str, "+": str, "#": lambda word: None if word == "none" else int(word), "?": lambda word: word == "yes",
        "*": lambda words: [] if words == "none" else words.split(" ")}
WRITTEN = {"": str, "=": str, "+": str, "#": lambda value: "none" if value is None else str(value), "?": lambda value: "yes" if value else "no",
           "*": lambda words: " ".join(words) or "none"}


class Unread(Exception):
    """A line that is none of the program's."""


class Form:
    """One line of FORMS."""

    def __init__(self, name, under, form):
        self.name, self.many, self.under, self.form = name.removesuffix("[]"), name.endswith("[]"), under.split() or [""], form
        self.kinds = {field: kind[:1] for field, kind in FIELD.findall(form)}
        self.pattern = re.compile(FIELD.sub(lambda found: f"(?P<{found[1]}>{found[2][1:] if found[2][:1] == '=' else SHAPES[found[2]]})", form))

    def read(self, line):
        """What the line says, or None where it is no line of this form."""
        found = self.pattern.fullmatch(line)
        return found and {field: READ[kind](found[field]) for field, kind in self.kinds.items()}

    def write(self, node):
        """The line, or None where the node is none of this form."""
        fields = node if isinstance(node, dict) else {field: node for field in self.kinds}
        if not self.kinds.keys() <= fields.keys():
            return None
        line = FIELD.sub(lambda found: WRITTEN[found[2][:1]](fields[found[1]]), self.form)
        return line if self.pattern.fullmatch(line) else None


def first_of(form):
    """A line's indentation and first word, by which its forms are found; a first word that is a field is one of several."""
    return re.match(r" *(?:{\w+=)?\w+", form)[0].replace("{event=", "")


FORMS = [Form(*form) for form in FORMS]
BY_FIRST = {}
for each in FORMS:
    BY_FIRST.setdefault(first_of(each.form), []).append(each)


def add(latest, form, fields):
    """Puts what a line says under the latest of the lines that it stands under; False where none of these was there."""
    above = max((latest[name] for name in form.under if name in latest), key=lambda some: some[0], default=None)
    if above is None or not isinstance(above[1], dict):
        return False
    only = len(fields) == 1 and not any(form.name in other.under for other in FORMS)
    node = next(iter(fields.values())) if only else fields
    if form.many:
        above[1].setdefault(form.name, []).append(node)
    else:
        above[1][form.name] = node
    latest[form.name] = (max(place for place, _ in latest.values()) + 1, node)
    return True


def read(lines):
    """The text as a dict; Unread where a line is none of the program's."""
    text = {}
    latest = {"": (0, text)}
    for number, line in enumerate(lines, 1):
        first = re.match(r" *\w*", line)[0]
        for form in BY_FIRST.get(first, []):
            fields = form.read(line)
            if fields is not None and add(latest, form, fields):
                break
        else:
            raise Unread(f"line {number} is no line of mesh here: {line[:60]!r}")
    return text


def write(node, under=""):
    """The lines of a text that `read` has made, of what stands under a line of this name."""
    done = set()
    for form in FORMS:
        if under not in form.under or form.name in done or form.name not in node or under == form.name:
            continue
        done.add(form.name)
        for child in node[form.name] if form.many else [node[form.name]]:
            yield next(line for other in FORMS if other.name == form.name and under in other.under for line in [other.write(child)] if line)
            if isinstance(child, dict):
                yield from write(child, form.name)


def seconds(ticks):
    """A moment in seconds."""
    return ticks / TICKS


def standard_input(tool):
    """The text on standard input; ends the tool with status 1 where there is none that can be read."""
    try:
        text = read(sys.stdin.read().splitlines())
    except (Unread, UnicodeDecodeError) as fault:
        sys.exit(f"{tool}: {fault}")
    return text or sys.exit(f"{tool}: no text on standard input")


def words_of(tool):
    """A parser of a tool's words; what it says of itself is the head of its file. From then on a reader that goes away ends the tool."""
    signal.signal(signal.SIGPIPE, signal.SIG_DFL)
    return argparse.ArgumentParser(prog=tool, description=sys.modules["__main__"].__doc__, formatter_class=argparse.RawDescriptionHelpFormatter)


def main():
    parser = words_of("mesh_text")
    parser.add_argument("--back", action="store_true", help="the text of a JSON on standard input")
    if parser.parse_args().back:
        sys.stdout.writelines(line + "\n" for line in write(json.load(sys.stdin)))
    else:
        json.dump(standard_input("mesh_text"), sys.stdout, indent=1)
        print()


if __name__ == "__main__":
    main()
