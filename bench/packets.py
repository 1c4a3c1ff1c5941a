#!/usr/bin/env python3
"""packets.py [COUNT | KIND]: prints lines of hexadecimal text for `mesh dump`. The same word gives the same text each time.

COUNT packets of 35 to 441 octets, a line each: HELLOs (RFC 6130) and TCs (RFC 7181) in turn, with 1 to 80 addresses each; or

full       such packets up to 67,108,864 octets of text, the most that `dump` reads
parts      a line whose HELLO has one address and 32,000 TLVs over it
equal      a line whose HELLO has 13,097 blocks of 255 addresses, all of them 0.0.0.0
shuffled   a line whose TC has 16,000 addresses in no order
feeds      67,108,864 line feeds
"""
import sys

MOST = 67108864


class Numbers:
    """A linear congruential generator."""

    def __init__(self):
        self.state = 1

    def below(self, n):
        self.state = (self.state * 6364136223846793005 + 1442695040888963407) % 2**64
        return (self.state >> 33) % n


def short(n):
    return bytes([n // 256, n % 256])


def tlv(kind, value):
    return bytes([kind, 0x10, len(value)]) + value


def parts(kind, value):
    """A TLV with one part of its value for each address."""
    if len(value) < 256:
        return bytes([kind, 0x14, len(value)]) + value
    return bytes([kind, 0x1C]) + short(len(value)) + value


def block(tlvs):
    octets = b"".join(tlvs)
    return short(len(octets)) + octets


def some(numbers, count, most):
    return bytes(numbers.below(most) for _ in range(count))


def addresses(numbers, count):
    """A block of addresses 10.0.x.y that share their first two octets."""
    if count == 1:
        return bytes([1, 0, 10, 0]) + some(numbers, 2, 256)
    return bytes([count, 0x80, 2, 10, 0]) + some(numbers, 2 * count, 256)


def message(kind, flags, head, body):
    return bytes([kind, flags]) + short(4 + len(head) + len(body)) + head + body


HELLO_TLVS = block([tlv(1, b"\x64"), tlv(0, b"\x58"), tlv(7, b"\x77")])


def hello_of(originator, pairs):
    """A packet of one HELLO with these blocks and their TLV blocks."""
    return bytes([0]) + message(0, 0x83, bytes([10, 0]) + originator, HELLO_TLVS + pairs)


def tc_of(originator, sequence, ansn, pairs):
    """A packet of one TC with these blocks and their TLV blocks."""
    head = bytes([10, 0]) + originator + bytes([255, 0]) + short(sequence)
    tlvs = block([tlv(1, b"\x6f"), tlv(0, b"\x62"), tlv(8, short(ansn))])
    return bytes([0]) + message(1, 0xF3, head, tlvs + pairs)


def hello(numbers, count):
    originator = some(numbers, 2, 256)
    kinds = [parts(3, some(numbers, count, 3))]
    if count > 1:
        kinds.append(parts(7, some(numbers, 2 * count, 256)))
    return hello_of(originator, addresses(numbers, count) + block(kinds))


def tc(numbers, count):
    originator = some(numbers, 2, 256)
    sequence, ansn = numbers.below(65536), numbers.below(65536)
    kinds = [parts(9, bytes([3]) * count), parts(7, some(numbers, 2 * count, 256))]
    return tc_of(originator, sequence, ansn, addresses(numbers, count) + block(kinds))


def ordinary(count):
    numbers = Numbers()
    for line in range(count):
        addrs = 1 + numbers.below(80)
        packet = tc(numbers, addrs) if line % 2 else hello(numbers, addrs)
        assert 35 <= len(packet) <= 441
        yield packet.hex() + "\n"


def full():
    some_lines, left = list(ordinary(20000)), MOST
    while True:
        for line in some_lines:
            if len(line) > left:
                return
            left -= len(line)
            yield line


def one_with_parts():
    return hello_of(bytes([0, 1]), bytes([1, 0, 10, 0, 0, 2]) + block([bytes([200, 0])] * 32000))


def equal_addresses():
    return hello_of(bytes([0, 1]), (bytes([255, 0x20, 4]) + block([])) * 13097)


def shuffled_rows():
    numbers, places = Numbers(), list(range(16000))
    for i in range(15999, 0, -1):
        j = numbers.below(i + 1)
        places[i], places[j] = places[j], places[i]
    pairs = b""
    for i in range(0, 16000, 250):
        pairs += bytes([250, 0x80, 2, 10, 0]) + b"".join(short(place) for place in places[i : i + 250])
        pairs += block([tlv(9, b"\x03"), tlv(7, b"\x11\x00")])
    return tc_of(bytes([0, 1]), 7, 1, pairs)


def main():
    word, out = sys.argv[1], sys.stdout
    if word.isdecimal():
        out.writelines(ordinary(int(word)))
    elif word == "full":
        out.writelines(full())
    elif word == "feeds":
        out.write("\n" * MOST)
    else:
        packet = {"parts": one_with_parts, "equal": equal_addresses, "shuffled": shuffled_rows}[word]()
        out.write(packet.hex() + "\n")


main()
