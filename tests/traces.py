#!/usr/bin/env python3
"""tests/traces.py PROGRAM [DRAWN [SEED]]: whether `replay` takes the traces that `emulate --trace` writes, and refuses spoiled ones.

It takes the scenarios of tests/cases/emulate and of scenarios/, and as many drawn ones (20 where none are asked for; SEED draws others).
Each trace has to be answered yes with the number of its lines, alone and with the report behind it. Then one line is spoiled, of two kinds
of line that are drawn, and in each way that no trace can have at that place: another moment, router, interface, sender or arc; octets that are none,
capital, longer, or of another frame than was sent; a relay too many or too few; a line left out, doubled, exchanged with the next, empty, or
with a blank or a carriage return behind it. The answer has to name the very line. It prints what differs; the status is 1 where something
does."""
import glob
import os
import random
import subprocess
import sys

TESTS = os.path.dirname(os.path.abspath(__file__))
TOP = os.path.dirname(TESTS)


def run(program, words, text):
    """The status and the output of a run."""
    ran = subprocess.run([program, *words], input=text.encode(), stdout=subprocess.PIPE, stderr=subprocess.DEVNULL)
    return ran.returncode, ran.stdout.decode()


def drawn(draw):
    """The text of a small scenario."""
    size = draw.randint(2, 6)
    kind = draw.choice([f"line {size}", f"ring {max(3, size)}", f"full {min(size, 5)}", f"grid 2x{max(1, size // 2)}"])
    lines = [f"end {draw.randint(3, 14)}", f"seed = {draw.randint(0, 99)}", "times hello_ms 1000 tc_ms 2000"]
    lines.append(f"{kind} metric {draw.randint(1, 9)} loss {draw.choice([0, 0, 50, 300])}")
    if draw.random() < 0.4:
        lines.append("router n0 attached 192.168.0.0/24")
    if draw.random() < 0.3:
        lines.append(f"router n1 flooding {draw.choice([0, 15])} tc_rows 1")
    if draw.random() < 0.4:
        lines.append("n0.w1 -- n1.w1 metric 3 delay_ms 2")
    made = subprocess.run([sys.executable, f"{TOP}/tools/links.py"], input="\n".join(lines).encode(), stdout=subprocess.PIPE, check=True)
    return made.stdout.decode()


def scenarios(count, seed):
    """Scenarios by name."""
    for path in sorted(glob.glob(f"{TESTS}/cases/emulate/*/scenario.toml") + glob.glob(f"{TOP}/scenarios/*.toml")):
        with open(path, encoding="utf-8") as file:
            yield os.path.relpath(path, TOP), file.read()
    draw = random.Random(seed)
    for number in range(count):
        yield f"drawn {number} of {seed}", drawn(draw)


def kind_of(line):
    words = line.split(" ")
    return " ".join([words[0], words[2]]) if words[0] == "relays" else words[0]


def word(line, place, change):
    """The line with a word changed."""
    words = line.split(" ")
    words[place] = change(words[place])
    return " ".join(words)


def turned(line):
    """Ways to spoil a line so that it is none that may stand in its place: what was done, and the line."""
    words = line.split(" ")
    kind = words[0]
    yield "blank behind", line + " "
    yield "carriage return", line + "\r"
    yield "empty line before", None
    if kind != "relays":
        yield "moment", word(line, 1, lambda moment: str(int(moment) + 1))
        yield "moment with a zero", word(line, 1, lambda moment: "0" + moment)
    if kind != "lost":
        yield "router", word(line, 1 if kind == "relays" else 2, lambda name: name + "x")
    if kind in ("heard", "sent"):
        yield "interface", word(line, 3, lambda name: name + "x")
        yield "odd digits", line[:-1]
        yield "an octet more", line + "00"
        if words[-1] != words[-1].upper():
            yield "capitals", word(line, -1, str.upper)
    if kind == "heard":
        yield "sender", word(line, 4, lambda addr: "9" + addr)
        yield "other octets", line[:-1] + ("1" if line[-1] == "0" else "0")
    if kind == "lost" and words[2] != words[3]:
        yield "arc back", " ".join([*words[:2], words[3], words[2]])
    if kind == "relays":
        relays = words[4 if words[2] == "flooding" else 3 :]
        front = words[: len(words) - len(relays)]
        if relays == ["none"]:
            yield "a relay that is none", " ".join([*front, "10.99.99.99"])
        else:
            yield "a relay too many", line + " 255.255.255.255"
            yield "a relay too few", " ".join([*front, *(relays[1:] or ["none"])])
        yield "no relay told", " ".join(front)


def spoiled(lines, at):
    """What was done at a line, the lines after it, and the number of the first line that then doesn't fit."""
    line = lines[at]
    for what, other in turned(line):
        yield what, lines[:at] + (["", line] if other is None else [other]) + lines[at + 1 :], at + 1
    behind = lines[at + 1 :]
    if behind[:1] != [line]:
        yield "left out", lines[:at] + behind, at + 1
        yield "doubled", lines[: at + 1] + [line] + behind, at + 2
        if behind:
            yield "exchanged", lines[:at] + [behind[0], line] + behind[1:], at + 1


def check(program, name, scenario, draw, tell):
    """Checks the trace of a scenario, whole and spoiled; how many answers were looked at."""
    status, output = run(program, ["emulate", "--trace"], scenario)
    if status != 0:
        return 0
    text = output[: output.index("emulate ") if output.startswith("emulate ") else output.index("\nemulate ") + 1]
    lines = text.split("\n")[:-1]
    front = scenario + ("" if scenario.endswith("\n") else "\n") + "---\n"

    def ask(what, trace, wanted):
        got = run(program, ["replay"], front + trace)
        if got != wanted:
            tell(f"{name}: {what}: {got[0]} {got[1]!r}, wanted {wanted[0]} {wanted[1]!r}")

    yes = (0, f"replay yes lines {len(lines)}\n")
    ask("whole", text, yes)
    ask("with the report", output, yes)
    ask("no line feed at the end", text[:-1], yes)
    count = 3
    places = {}
    for at, line in enumerate(lines):
        places.setdefault(kind_of(line), []).append(at)
    for kind in draw.sample(sorted(places), min(2, len(places))):
        at = draw.choice(places[kind])
        for what, others, number in spoiled(lines, at):
            ask(f"line {at + 1}, {kind}, {what}", "".join(f"{it}\n" for it in others), (9, f"replay no line {number}\n"))
            count += 1
    return count


def main(program, count="20", seed="1"):
    wrong = []

    def tell(what):
        wrong.append(what)
        print(what)

    draw = random.Random(seed)
    asked = sum(check(program, name, scenario, draw, tell) for name, scenario in scenarios(int(count), int(seed)))
    if asked < 100:
        tell(f"only {asked} answers were looked at")
    return 1 if wrong else 0


if __name__ == "__main__":
    if len(sys.argv) < 2 or sys.argv[1] in ("-h", "--help"):
        print(__doc__)
        sys.exit(0 if len(sys.argv) > 1 else 2)
    sys.exit(main(*sys.argv[1:4]))
