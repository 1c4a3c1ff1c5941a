#!/usr/bin/env python3
"""bench/hellos.py [INTERFACES [PER_SECOND [SECONDS]]]: what a HELLO costs a router whose sets are nearly full.

It starts `mesh run` over loopback, with so many interfaces (1), and sends it HELLOs of 1,000 neighbours on each, every one with 16 2-hop addresses.
Then it sends HELLOs of 69 octets that change one metric, so many a second (8) for some seconds (8), and prints the processor time of one: what the
router spends beyond a quiet time of the same length. It needs the program (`./mesh dump </dev/null` builds it) and Linux; MESH names another one."""
import os
import socket
import subprocess
import sys
import time

PROGRAM = os.environ.get("MESH", os.path.join(os.path.dirname(os.path.abspath(__file__)), "../crates/mesh_cmd/out/mesh_cmd"))
PORT, FRONT = 46981, f"127.{20 + os.getpid() % 200}.7"
NEIGHBOURS, TWO_HOP, LONGEST = 1000, 16, 65507
INTERVAL, VALIDITY, WILLING, LOCAL_IF, LINK_STATUS, LINK_METRIC = 0, 1, 7, 2, 3, 7


def tlv(kind, value):
    return bytes([kind, 0x10, len(value)]) + value


def block(addresses, *tlvs):
    """An address block without a shared head (RFC 5444, section 5.3), with TLVs that hold for all its addresses."""
    values = b"".join(tlvs)
    return bytes([len(addresses), 0]) + b"".join(addresses) + len(values).to_bytes(2, "big") + values


def hello(number, router, iface, metric=0):
    """The HELLO of a neighbour: it has heard the router, and is symmetric with its 2-hop addresses at a metric by its code."""
    own = bytes([10, 200, number >> 8, number & 255])
    two_hop = [bytes([20 + iface]) + (number * TWO_HOP + k).to_bytes(3, "big") for k in range(1 if metric else TWO_HOP)]
    times = tlv(INTERVAL, b"\x58") + tlv(VALIDITY, b"\xfe") + tlv(WILLING, b"\x77")
    body = len(times).to_bytes(2, "big") + times + block([own], tlv(LOCAL_IF, b"\0"))
    body += block([router], tlv(LINK_STATUS, b"\2"), tlv(LINK_METRIC, b"\x80\0"))
    body += block(two_hop, tlv(LINK_STATUS, b"\1"), tlv(LINK_METRIC, bytes([0xF0, metric])))
    return b"\0\x83" + (8 + len(body)).to_bytes(2, "big") + own + body


def frames(messages):
    """Packets of these messages, each as long as a datagram may be."""
    packet = b"\0"
    for message in messages:
        if len(packet) + len(message) > LONGEST:
            yield packet
            packet = b"\0"
        packet += message
    yield packet


def main():
    interfaces, rate, seconds = [float(word) for word in sys.argv[1:4]] + [1, 8, 8][len(sys.argv) - 1:]
    own = [f"{FRONT}.{10 + i}" for i in range(int(interfaces))]
    settings = 'end_ms = 3600000\n[router]\nname = "r"\n' + "".join(
        f'[[router.interface]]\nname = "w{i}"\naddresses = ["{a}"]\nlocal = "{a}:{PORT}"\npeers = ["{FRONT}.200:{PORT}"]\n' for i, a in enumerate(own)
    )
    router = subprocess.Popen([PROGRAM, "run", "--turns", "4294967295"], stdin=subprocess.PIPE, stdout=subprocess.DEVNULL)
    router.stdin.write(settings.encode())
    router.stdin.close()
    spent = lambda: int(open(f"/proc/{router.pid}/schedstat").read().split()[0]) / 1e9
    out = socket.socket(socket.AF_INET, socket.SOCK_DGRAM)
    out.bind((f"{FRONT}.200", PORT))
    send = lambda packet, i: out.sendto(packet, (own[i], PORT))
    time.sleep(1)
    for i, address in enumerate(own):
        for packet in frames(hello(n, socket.inet_aton(address), i) for n in range(NEIGHBOURS)):
            send(packet, i)
            time.sleep(0.5)
    quiet = 0
    while quiet < 8:
        before = spent()
        time.sleep(0.25)
        quiet = quiet + 1 if spent() - before < 0.03 else 0
    costs = []
    for count in (0, int(rate * seconds)):
        before, start = spent(), time.monotonic()
        for k in range(count):
            send(b"\0" + hello(0, socket.inet_aton(own[0]), 0, 1 + k % 2), 0)
            time.sleep(max(0.0, start + (k + 1) / rate - time.monotonic()))
        time.sleep(max(0.0, start + seconds + 1 - time.monotonic()))
        costs.append(spent() - before)
    router.kill()
    print(f"interfaces {int(interfaces)}, {rate:g} HELLOs a second: {1000 * (costs[1] - costs[0]) / count:.2f} ms of processor time a HELLO; else {costs[0]:.3f} s in {seconds + 1:g} s")


if __name__ == "__main__":
    main()
