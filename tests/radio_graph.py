#!/usr/bin/env python3
"""tests/radio_graph.py PROGRAM [SCENARIO..]: whether packets and floods in settled networks go as the radio graph says.

For each scenario (of tests/cases/emulate, where none is given) that the program tells as settled, it works out the radio graph by
itself, from the settings alone: which interfaces are joined by admitted arcs, which routers by chains of them, and the least metric
over walks whose inner routers are willing to route. Then it asks the program for packets from some routers to the others' addresses
(`--send`), and compares where they arrive and at which metric; and for probes by these routers (`--probe`), and compares their text,
the sequence number aside, with a flood over the arcs in which each router forwards as the printed flooding relays say. Where all
routers are willing to flood and the hop limit suffices, every router that is joined has to be reached. It prints what differs and a
line of counts; its status is 1 where something differs. It needs Python 3.11 or later for tomllib."""
import collections, glob, heapq, os, subprocess, sys, tomllib

TESTS = os.path.dirname(os.path.abspath(__file__))
sys.path.insert(0, os.path.join(os.path.dirname(TESTS), "tools"))
import mesh_text


def cost(metric):
    """The least cost of a metric code that is no less than the metric."""
    least = None
    for a in range(16):
        b = max(0, -(-(metric + 256) // 2**a) - 257)
        if b <= 255:
            value = (257 + b) * 2**a - 256
            least = value if least is None else min(least, value)
    return least


def quality_at(steps, end_ms):
    """The quality of an arc at the end: 100 before its first step."""
    quality = 100
    for step in steps:
        if -(-step["at_ms"] * 1024 // 125) <= -(-end_ms * 1024 // 125):
            quality = step["value"]
    return quality


class Graph:
    def __init__(self, text):
        scenario = tomllib.loads(text)
        self.routers = scenario["router"]
        self.names = [r["name"] for r in self.routers]
        self.limit = scenario.get("times", {}).get("tc_hop_limit", 255)
        place = {(r["name"], f["name"]): (x, i) for x, r in enumerate(self.routers) for i, f in enumerate(r["interface"])}
        arcs = {}
        for arc in scenario.get("arc", []):
            start, to = place[tuple(arc["from"].split("."))], place[tuple(arc["to"].split("."))]
            accept = self.routers[to[0]].get("hyst_accept", 0)
            arcs[start, to] = (cost(arc["metric"]), quality_at(arc.get("quality", []), scenario["end_ms"]) >= accept)
        self.hop, self.symmetric = {}, set()
        self.ends = collections.defaultdict(list)
        for (start, to), (metric, admitted) in arcs.items():
            self.ends[start].append(to)
            back = arcs.get((to, start))
            if admitted and back is not None and back[1]:
                self.symmetric.add((start, to))
                pair = start[0], to[0]
                self.hop[pair] = min(metric, self.hop.get(pair, metric))

    def least(self, x):
        """The least costs from x over walks whose inner routers are willing to route."""
        found, queue = {}, [(0, x)]
        while queue:
            c, v = heapq.heappop(queue)
            if v in found:
                continue
            found[v] = c
            if v == x or self.routers[v].get("routing", 7) > 0:
                for (a, b), m in self.hop.items():
                    if a == v and b not in found:
                        heapq.heappush(queue, (c + m, b))
        return found

    def joined(self, x):
        """The other routers to which a chain of joined interfaces leads from x."""
        found, todo = {x}, [x]
        while todo:
            v = todo.pop()
            for a, b in self.hop:
                if a == v and b not in found:
                    found.add(b)
                    todo.append(b)
        return sorted(found - {x})

    def flood(self, x, relays):
        """The routers that hear a TC of x, and how many frames are sent; `relays` has the names of each interface's flooding relays."""
        waiting = collections.deque(((x, i), self.limit) for i in range(len(self.routers[x]["interface"])))
        heard, received, forwarded, sent = set(), set(), set(), 0
        while waiting:
            start, limit = waiting.popleft()
            sent += 1
            for to in self.ends[start]:
                heard.add(to[0])
                if to[0] == x or (start, to) not in self.symmetric or limit <= 1 or to in received:
                    continue
                received.add(to)
                if to[0] not in forwarded and self.names[to[0]] in relays[start]:
                    forwarded.add(to[0])
                    waiting.extend(((to[0], i), limit - 1) for i in range(len(self.routers[to[0]]["interface"])))
        return heard - {x}, sent


def relays_of(told, graph):
    """The names of the flooding relays of each interface, as a summary has them."""
    names, relays = {r["originator"]: r["name"] for r in told["routers"]}, {}
    for router in told["routers"]:
        number = graph.names.index(router["name"])
        places = [f["name"] for f in graph.routers[number]["interface"]]
        for face in router["flooding"]:
            relays[number, places.index(face["on"])] = {names[a] for a in face["relays"]}
    return relays


def run(program, text, *words):
    done = subprocess.run([program, "emulate", *words], input=text.encode(), capture_output=True, timeout=120)
    return done.returncode, done.stdout.decode()


def told_of(program, text, *words):
    """The status, and the text read back."""
    status, out = run(program, text, *words)
    return status, mesh_text.read(out.splitlines())


def probed(graph, x, relays):
    """What a probe by x tells, but for the sequence number."""
    joined, (heard, sent) = graph.joined(x), graph.flood(x, relays)
    missed = [graph.names[y] for y in joined if y not in heard]
    told = {"by": graph.names[x], "reached": len(joined) - len(missed), "of": len(joined), "sent": sent}
    return {**told, "unreached": missed} if missed else told


def check_probe(program, path, text, told, graph, x, tell):
    """Compares the probe by router x; `told` is what is told without it."""
    _, more = told_of(program, text, "--probe", graph.names[x])
    probe, want = more.pop("probe"), probed(graph, x, relays_of(told, graph))
    found = {key: value for key, value in probe.items() if key != "number"}
    willing = all(r.get("flooding", 7) > 0 for r in graph.routers) and graph.limit >= len(graph.routers)
    if more != told or found != want or willing and "unreached" in want:
        tell(f"{path}: {found}: wanted {want}")


def check_sends(program, path, text, graph, x, tell):
    """Compares the packets from router x to the others' addresses, and counts them."""
    sends, least = 0, graph.least(x)
    for y in range(len(graph.routers)):
        for face in graph.routers[y]["interface"]:
            for address in face["addresses"] if y != x and y in least else []:
                send = told_of(program, text, "--send", graph.names[x], address)[1]["send"]
                sends += 1
                want = {"from": graph.names[x], "to": address, "end": "arrived", "at": graph.names[y], "metric": least[y]}
                if {key: send[key] for key in want} != want:
                    tell(f"{path}: {send}: wanted {want}")
    return sends


def check(program, path, tell):
    text = open(path, "rb").read().decode()
    status, told = told_of(program, text)
    if status != 0 or not told["settled"]:
        return 0, 0
    graph, sends = Graph(text), 0
    some = range(len(graph.routers))[:4]
    for x in some:
        check_probe(program, path, text, told, graph, x, tell)
        sends += check_sends(program, path, text, graph, x, tell)
    return sends, len(some)


def main():
    program, *paths = sys.argv[1:]
    cases = os.path.join(TESTS, "cases", "emulate", "*", "scenario.toml")
    told, sends, probes = [], 0, 0
    for path in paths or sorted(glob.glob(cases)):
        try:
            some, more = check(os.path.abspath(program), path, told.append)
            sends, probes = sends + some, probes + more
        except (tomllib.TOMLDecodeError, UnicodeDecodeError, KeyError):
            continue
    print("\n".join(told + [f"packets {sends}, probes {probes}, differ {len(told)}"]))
    return 1 if told else 0


if __name__ == "__main__":
    sys.exit(main())
