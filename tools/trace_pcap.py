#!/usr/bin/env python3
"""Makes a capture (pcap) for Wireshark and tshark out of a trace on standard input.

    mesh emulate --trace < scenarios/diamond.toml | tools/trace_pcap.py scenarios/diamond.toml > diamond.pcap
    tshark -r diamond.pcap

Each frame that a router sends is a datagram from the first address of its interface to 224.0.0.109, port 269, at its moment, down to a
microsecond; with --heard those that one router heard, from their senders. The way back is
`tshark -r diamond.pcap -Y udp.port==269 -T fields -e udp.payload | mesh dump`. The status is 0, or 1 where the input is no trace of the
scenario."""
import struct
import sys

import mesh_text
from scenario import Scenario

PORT, GROUP = 269, bytes([224, 0, 0, 109])
HEAD = struct.pack("<IHHiIII", 0xA1B2C3D4, 2, 4, 0, 0, 262144, 101)


def datagram(sender, octets):
    """An IPv4 packet with a UDP datagram, whose checksum is left out."""
    udp = struct.pack(">HHHH", PORT, PORT, 8 + len(octets), 0) + octets
    head = struct.pack(">BBHHHBBH", 0x45, 0, 20 + len(udp), 0, 0, 1, 17, 0) + bytes(map(int, sender.split("."))) + GROUP
    total = sum(struct.unpack(">10H", head))
    total = (total & 0xFFFF) + (total >> 16)
    return head[:10] + struct.pack(">H", ~(total + (total >> 16)) & 0xFFFF) + head[12:] + udp


def frames(events, senders, hearer):
    """The moment, the sender's address and the octets of each frame that was sent, or that one router heard."""
    for event in events:
        if hearer is None:
            for sent in event.get("sent", []):
                yield sent["moment"], senders[sent["router"], sent["on"]], sent["frame"]
        elif event["event"] == "heard" and event["router"] == hearer:
            yield event["moment"], event["sender"], event["frame"]


def record(moment, sender, digits):
    packet = datagram(sender, bytes.fromhex(digits))
    micros = moment * 1000000 // mesh_text.TICKS
    return struct.pack("<IIII", micros // 1000000, micros % 1000000, len(packet), len(packet)) + packet


def main():
    parser = mesh_text.words_of("trace_pcap")
    parser.add_argument("scenario")
    parser.add_argument("--heard", metavar="ROUTER", help="what this router heard, in place of what all sent")
    words = parser.parse_args()
    scenario, text = Scenario("trace_pcap", words.scenario), mesh_text.standard_input("trace_pcap")
    if words.heard not in (None, *(router["name"] for router in scenario.routers)):
        sys.exit(f"trace_pcap: no router {words.heard}")
    try:
        out = b"".join(record(*frame) for frame in frames(text.get("events", []), scenario.senders, words.heard))
    except KeyError as fault:
        sys.exit(f"trace_pcap: {words.scenario} has no router and interface {fault}")
    if not out and "events" not in text:
        sys.exit("trace_pcap: no trace on standard input; `mesh emulate --trace` prints one")
    sys.stdout.buffer.write(HEAD + out)


if __name__ == "__main__":
    main()
