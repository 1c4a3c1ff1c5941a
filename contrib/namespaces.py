#!/usr/bin/env python3
"""Runs the routers of a scenario for real, each as a process of `mesh run` in a network namespace of its own, and prints their reports.
It needs root and iproute2.

    contrib/namespaces.py ./mesh scenarios/diamond.toml --seconds 12
    contrib/namespaces.py ./mesh scenarios/diamond.toml --seconds 12 --routes --then s ping -c 2 10.0.0.4

All interfaces hang on one bridge in a namespace of its own. A router sends to the ends of its arcs, port 269; losses, delays and qualities
are left out, and `tc_at_ms` and `hello_at_ms` count from the start of its process. With --routes the kernel of each namespace gets the
routes of its router by tools/kernel_routes.py, once they are reported; --then then runs a command in the namespace of one router. What
it made is taken away at its end. The status is 0, that of the command behind --then, or 1 where something failed."""
import json
import os
import signal
import subprocess
import sys

TOOLS = os.path.join(os.path.dirname(os.path.dirname(os.path.abspath(__file__))), "tools")
sys.path.insert(0, TOOLS)
import mesh_text  # noqa: E402
from scenario import Scenario  # noqa: E402

PORT = 269


def ip(*words, **more):
    return subprocess.run(["ip", *words], check=True, **more)


def lines_of(table):
    """The lines of a TOML table but for the tables in it."""
    return [f"{key} = {json.dumps(value)}" for key, value in table.items() if not isinstance(value, dict) and not is_tables(value)]


def is_tables(value):
    return isinstance(value, list) and any(isinstance(item, dict) for item in value)


def settings_of(scenario, router, seconds):
    """The settings of `mesh run` for a router of a scenario."""
    address = lambda end: scenario.senders[tuple(end.split("."))]
    arcs = scenario.settings.get("arc", [])
    lines = [f"end_ms = {seconds * 1000}", "[times]", *lines_of(scenario.settings.get("times", {})), "[router]", *lines_of(router)]
    for near in router.get("near_hold", []):
        lines += ["[[router.near_hold]]", *lines_of(near)]
    for face in router["interface"]:
        place = f"{router['name']}.{face['name']}"
        peers = [f"{address(arc['to'])}:{PORT}" for arc in arcs if arc["from"] == place]
        lines += ["[[router.interface]]", *lines_of(face), f'local = "{address(place)}:{PORT}"', f"peers = {json.dumps(peers)}"]
        for arc in arcs:
            if arc["to"] == place:
                lines += ["[[router.interface.neighbour]]", f'address = "{address(arc["from"])}"', f"metric = {arc['metric']}"]
    for net in router.get("attached", []):
        lines += ["[[router.attached]]", *lines_of(net)]
    return "\n".join(lines) + "\n"


def build(scenario, front):
    """A bridge, and a namespace for each router, whose interfaces have routes to the ends of their arcs alone."""
    hub = f"{front}hub"
    ip("netns", "add", hub)
    ip("-n", hub, "link", "add", "air", "type", "bridge")
    ip("-n", hub, "link", "set", "air", "up")
    for number, router in enumerate(scenario.routers):
        space = front + router["name"]
        ip("netns", "add", space)
        ip("-n", space, "link", "set", "lo", "up")
        for path, value in (("ip_forward", 1), ("conf/all/send_redirects", 0), ("conf/default/send_redirects", 0)):
            ip("netns", "exec", space, "sh", "-c", f"echo {value} > /proc/sys/net/ipv4/{path}")
        for place, face in enumerate(router["interface"]):
            port, on = f"p{number}i{place}", face["name"]
            ip("-n", hub, "link", "add", port, "type", "veth", "peer", "name", on, "netns", space)
            ip("-n", hub, "link", "set", port, "master", "air", "up")
            ip("-n", space, "link", "set", on, "up")
            for address in face["addresses"]:
                ip("-n", space, "addr", "add", f"{address}/32", "dev", on)
            for arc in scenario.settings.get("arc", []):
                if arc["from"] == f"{router['name']}.{on}":
                    to = scenario.senders[tuple(arc["to"].split("."))]
                    ip("-n", space, "route", "replace", to, "dev", on, "metric", "4294967295", "src", face["addresses"][0])
        for net in router.get("attached", []):
            ip("-n", space, "route", "add", "local", net["net"], "dev", "lo")


def start(mesh, space, settings):
    process = subprocess.Popen(["ip", "netns", "exec", space, mesh, "run", "--turns", "4294967295"],
                               stdin=subprocess.PIPE, stdout=subprocess.PIPE, text=True)
    process.stdin.write(settings)
    process.stdin.close()
    process.stdin = None
    return process


def run(words, scenario, front, running):
    """The reports of all routers, the kernel's routes, and the command; the status. The routers' processes go into `running`."""
    mesh, status, reports = os.path.abspath(words.mesh), 0, {}
    build(scenario, front)
    for router in scenario.routers:
        running[router["name"]] = start(mesh, front + router["name"], settings_of(scenario, router, words.seconds))
    for name, process in running.items():
        reports[name], _ = process.communicate()
        print(reports[name], end="", flush=True)
        status = max(status, min(process.returncode, 1))
    if words.routes and status == 0:
        for name, report in reports.items():
            tool = [sys.executable, os.path.join(TOOLS, "kernel_routes.py")]
            batch = subprocess.run(tool, input=report, capture_output=True, text=True, check=True).stdout
            ip("-n", front + name, "-batch", "-", input=batch, text=True)
    if words.then and status == 0:
        return subprocess.run(["ip", "netns", "exec", front + words.then[0], *words.then[1:]], check=False).returncode
    return status


def main():
    parser = mesh_text.words_of("namespaces")
    parser.add_argument("mesh", help="the program")
    parser.add_argument("scenario")
    parser.add_argument("--seconds", type=int, default=20, help="how long the routers run; 20, if not given")
    parser.add_argument("--routes", action="store_true", help="give the kernels the routes")
    parser.add_argument("--then", nargs="...", metavar="ROUTER COMMAND", help="a command in the namespace of a router, up to the end of the line")
    words = parser.parse_args()
    scenario = Scenario("namespaces", words.scenario)
    if words.then is not None and (len(words.then) < 2 or words.then[0] not in (router["name"] for router in scenario.routers)):
        parser.error("--then wants a router of the scenario and a command")
    if os.geteuid() != 0:
        sys.exit("namespaces: root is needed")
    front, running = f"m{os.getpid()}-", {}
    # What was made is taken away, also where a reader of the reports goes away or the script is ended.
    signal.signal(signal.SIGPIPE, signal.SIG_IGN)
    signal.signal(signal.SIGTERM, lambda *_: sys.exit(143))
    try:
        sys.exit(run(words, scenario, front, running))
    except (OSError, subprocess.CalledProcessError) as fault:
        sys.exit(f"namespaces: {fault}")
    except KeyboardInterrupt:
        sys.exit(130)
    finally:
        for process in running.values():
            process.kill()
        for space in ("hub", *(router["name"] for router in scenario.routers)):
            subprocess.run(["ip", "netns", "del", front + space], check=False, stderr=subprocess.DEVNULL)


if __name__ == "__main__":
    main()
