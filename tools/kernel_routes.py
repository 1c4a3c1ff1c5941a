#!/usr/bin/env python3
"""Makes commands for `ip -batch -` that give the kernel the routes of a router, out of the report of `mesh run`, or a text of `mesh
emulate`, on standard input.

    mesh run --turns 4294967295 < router.toml | tools/kernel_routes.py --dev w0=wlan0 | ip -batch -

The routes of an earlier call are taken out first, by their protocol number. An interface has the device of its own name where --dev gives
none. A route is `onlink`, since a next hop of a mesh is in no subnet. The status is 0, or 1 where the text doesn't have the router."""
import sys

import mesh_text


def main():
    parser = mesh_text.words_of("kernel_routes")
    parser.add_argument("--router", metavar="NAME", help="whose routes, where the text has several routers")
    parser.add_argument("--dev", metavar="IFACE=DEVICE", action="append", default=[], help="the device of an interface")
    parser.add_argument("--protocol", metavar="N", type=int, default=99, help="marks these routes; 99, if not given")
    words = parser.parse_args()
    devices = {}
    for pair in words.dev:
        on, equals, device = pair.partition("=")
        devices[on] = device if equals and device else parser.error(f"--dev {pair} is no IFACE=DEVICE")
    routers = [router for router in mesh_text.standard_input("kernel_routes").get("routers", []) if words.router in (None, router["name"])]
    if len(routers) != 1:
        sys.exit(f"kernel_routes: no router {words.router}" if words.router else f"kernel_routes: --router says which of {len(routers)}")
    print(f"route flush proto {words.protocol}")
    for route in routers[0].get("routes", []):
        print(f"route replace {route['to']} via {route['next']} dev {devices.get(route['on'], route['on'])}"
              f" src {routers[0]['originator']} onlink metric {route['metric']} proto {words.protocol}")


if __name__ == "__main__":
    main()
