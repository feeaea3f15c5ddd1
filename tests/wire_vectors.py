#!/usr/bin/env python3
"""Cases for the reading and writing of messages, and what they must come to.

An independent reading of the formats, written from their table and from RFC 791, 793 and 768, not from the code.
Run from the repository's root: python3 tests/wire_vectors.py
It writes crates/wire_vectors/stdin and crates/wire_vectors/stdout.

A line of stdin: the number of buckets, a word, the bytes as hex.
  read    the bytes are read. stdout: what they say, as numbers; or fault, its number, and bucket and place if these come before it.
  up P, down P A S, asked P A S   a packet is read and sent on to the place P (asker A at the server S). stdout: the bytes.
"""
import struct

FIELDS = {  # widths of the fields behind the kind
    1: (2, 4, 1, 4, 1, 1, 2), 2: (2, 4, 4, 1), 3: (2, 4, 4, 1), 4: (2, 4, 1), 5: (2, 4, 4, 1),
    6: (1, 2), 7: (4, 4, 2, 2, 1), 8: (1,), 9: (1,), 10: (4,),
}
for kind in (2, 3, 4, 5):
    FIELDS[kind + 32] = FIELDS[kind]


def mix(src, sport, protocol):
    total = (src >> 16) + (src & 0xFFFF) + sport + protocol
    while total > 0xFFFF:
        total = (total & 0xFFFF) + (total >> 16)
    return int(format(total, "016b")[::-1], 2)


def session(packet):
    """(src, dst, sport, dport, protocol) of an IPv4 packet of TCP or UDP, or None."""
    if len(packet) < 20 or packet[0] >> 4 != 4:
        return None
    head = (packet[0] & 15) * 4
    total, = struct.unpack(">H", packet[2:4])
    offset, = struct.unpack(">H", packet[6:8])
    if head < 20 or head > total or total != len(packet) or offset & 0x1FFF:
        return None
    protocol = packet[9]
    need = {6: 20, 17: 8}.get(protocol)
    if need is None or len(packet) - head < need:
        return None
    src, dst = struct.unpack(">II", packet[12:20])
    sport, dport = struct.unpack(">HH", packet[head:head + 4])
    return (src, dst, sport, dport, protocol)


def wrong(kind, i, v, before, buckets):
    """The fault of the value v in field i, lowest number first, or 0."""
    base = kind - 32 if kind > 32 else kind
    if base in (1, 2, 3, 4, 5) and i == 0:
        return 0 if v < buckets else 2
    if base in (2, 3, 4, 5) and i == 1:
        return 2 if v == 0 else 0
    if base == 2:
        if i == 2:
            return 0 if v < before[1] else 2
        if i == 3:
            return 2 if before[2] == 0 and v != 0 else 0
    if base in (3, 5) and i == 2:
        return 0 if v > before[1] else 2
    if base == 1:
        up, asked = i > 2 and before[2] == 1, i > 2 and before[2] == 3
        if i == 2:
            return 0 if v in (1, 2, 3) else 2
        if i == 3:
            if (v != 0) if up else (v == 0):
                return 2
            return 6 if asked and v != before[1] else 0
        if i == 4:
            return 2 if up and v != 0 else 0
        if i == 5:
            if v not in (0, 1):
                return 2
            return 6 if asked and v == 0 else 0
    if base == 6 and i == 0:
        return 0 if v <= 10 else 2
    if base == 7 and i == 4:
        return 0 if v in (6, 17) else 3
    return 0


def read(data, buckets):
    """Numbers that say what was read, or ('fault', number, values before it)."""
    if not data or data[0] not in FIELDS:
        return "fault 1"
    kind, at, values = data[0], 1, []

    def fault(number):
        placed = kind <= 5 or kind > 32
        return "fault %d" % number + (" %d %d" % tuple(values[:2]) if placed and len(values) >= 2 else "")

    for i, width in enumerate(FIELDS[kind]):
        if at + width > len(data):
            return fault(1)
        value = int.from_bytes(data[at:at + width], "big")
        number = wrong(kind, i, value, values, buckets)
        if number:
            return fault(number)
        values.append(value)
        at += width
    rest = data[at:]
    if len(rest) != (values[-1] if kind in (1, 6) else 0):
        return fault(1)
    if kind == 1:
        found = session(rest)
        if found is None:
            return fault(3)
        if mix(found[0], found[2], found[4]) % buckets != values[0]:
            return fault(5)
        return "1 " + " ".join(map(str, values[:6])) + " " + " ".join(map(str, found)) + " " + str(len(rest))
    if kind in (2, 34) and values[2] == 0:
        return "%d %d %d" % (kind, values[0], values[1])
    return " ".join(map(str, [kind] + values))


def ipv4(protocol, src, dst, sport, dport, options=b"", data=b"", flags=0x02, fragment=0):
    if protocol == 6:
        inner = struct.pack(">HHIIBBHHH", sport, dport, 1, 0, 0x50, flags, 1024, 0, 0) + data
    else:
        inner = struct.pack(">HHHH", sport, dport, 8 + len(data), 0) + data
    head = 20 + len(options)
    return struct.pack(">BBHHHBBHII", 0x40 | head // 4, 0, head + len(inner), 7, fragment, 64, protocol, 0, src, dst) + options + inner


def carried(buckets, place, way, asker, server, opens, packet, bucket=None):
    if bucket is None:
        found = session(packet)
        bucket = mix(found[0], found[2], found[4]) % buckets
    return struct.pack(">BHIBIBBH", 1, bucket, place, way, asker, server, opens, len(packet)) + packet


TCP = ipv4(6, 0x0A000001, 0xC0A80105, 40001, 443)
UDP = ipv4(17, 0x0A0000FE, 0xC0A80105, 5004, 53, data=b"abc")
LONG = ipv4(17, 0xFFFFFFFF, 1, 65535, 1, options=bytes(8))


def good():
    """(buckets, bytes) of messages that can be read."""
    for buckets in (16, 256, 65536):
        yield buckets, carried(buckets, 7, 1, 0, 0, 1, TCP)
        yield buckets, carried(buckets, 3, 2, 0x01020304, 9, 0, UDP)
        yield buckets, carried(buckets, 0x01020304, 3, 0x01020304, 255, 1, LONG)
    yield 16, carried(16, 0, 1, 0, 0, 0, UDP)
    for kind in (2, 34):
        yield 16, struct.pack(">BHIIB", kind, 15, 1, 0, 0)
        yield 65536, struct.pack(">BHIIB", kind, 0xFEDC, 0x01020304, 0x01020303, 0)
        yield 256, struct.pack(">BHIIB", kind, 255, 0xFFFFFFFF, 1, 255)
    for kind in (3, 5, 35, 37):
        yield 16, struct.pack(">BHIIB", kind, 0, 1, 2, 0)
        yield 65536, struct.pack(">BHIIB", kind, 0x1234, 0x01020304, 0x01020305, 77)
    for kind in (4, 36):
        yield 16, struct.pack(">BHIB", kind, 3, 1, 0)
        yield 65536, struct.pack(">BHIB", kind, 0xFFFF, 0x0A0B0C0D, 255)
    for number in range(11):
        yield 16, struct.pack(">BBH", 6, number, 0)
    yield 16, struct.pack(">BBH", 6, 3, 5) + b"hello"
    yield 16, struct.pack(">BIIHHB", 7, 0x01020304, 0x05060708, 0x090A, 0x0B0C, 6)
    yield 16, struct.pack(">BIIHHB", 7, 0, 0xFFFFFFFF, 0, 65535, 17)
    yield 16, bytes([8, 200])
    yield 16, bytes([9, 0])
    yield 16, struct.pack(">BI", 10, 0x01020304)


def odd():
    """Some that were not made by damage: faults at two places, and packets inside that are none."""
    two = struct.pack(">BHI", 2, 99, 0)
    yield 16, two[:2]
    yield 16, two[:3]
    yield 16, two
    yield 16, struct.pack(">BHIIB", 2, 1, 5, 5, 1)
    yield 16, struct.pack(">BHIIB", 2, 1, 5, 0, 1)
    yield 16, struct.pack(">BHIIB", 3, 1, 5, 5, 1)
    yield 16, struct.pack(">BHIIB", 5, 1, 5, 4, 1) + b"x"
    yield 16, struct.pack(">BIIHHB", 7, 1, 2, 3, 4, 1) + b"x"
    yield 16, struct.pack(">BBH", 6, 11, 9)
    for way, asker, server, opens in ((1, 1, 0, 1), (1, 0, 1, 1), (2, 0, 0, 1), (3, 0, 0, 1), (3, 8, 1, 1), (3, 8, 1, 0), (3, 7, 1, 0), (0, 0, 0, 0), (4, 1, 1, 1), (1, 0, 0, 2)):
        yield 16, carried(16, 7, way, asker, server, opens, TCP)
        yield 16, carried(16, 7, way, asker, server, opens, b"x", bucket=1)
        yield 16, carried(16, 7, way, asker, server, opens, TCP, bucket=16)
    yield 16, carried(16, 7, 1, 0, 0, 1, b"", bucket=1)
    yield 16, carried(16, 7, 1, 0, 0, 1, ipv4(6, 1, 2, 3, 4, fragment=1), bucket=1)
    yield 16, carried(16, 7, 1, 0, 0, 1, ipv4(17, 1, 2, 3, 4, fragment=0x2000))
    yield 16, carried(16, 7, 1, 0, 0, 1, ipv4(1, 1, 2, 3, 4), bucket=1)
    yield 16, carried(16, 7, 1, 0, 0, 1, ipv4(6, 1, 2, 3, 4)[:30], bucket=1)
    for kind in range(256):
        yield 16, bytes([kind])


def damaged(data):
    for end in range(len(data)):
        yield data[:end]
    yield data + b"\0"
    yield data + data
    for i in range(len(data)):
        for b in sorted({0, 1, 3, 255, data[i] ^ 1, data[i] ^ 0x80, (data[i] + 1) % 256}):
            if b != data[i]:
                yield data[:i] + bytes([b]) + data[i + 1:]


def sent_on(data, place, way, asker, server):
    return data[:3] + struct.pack(">IBIB", place, way, asker, server) + data[13:]


def cases():
    for buckets, data in good():
        yield "%d read %s" % (buckets, data.hex()), read(data, buckets)
        assert not read(data, buckets).startswith("fault"), data.hex()
    seen = set()
    for buckets, data in good():
        for bad in damaged(data):
            if (buckets, bad) not in seen:
                seen.add((buckets, bad))
                yield "%d read %s" % (buckets, bad.hex() or "-"), read(bad, buckets)
    for buckets, data in odd():
        yield "%d read %s" % (buckets, data.hex()), read(data, buckets)
    for buckets, data in good():
        if data[0] == 1:
            yield "%d up 67305985 %s" % (buckets, data.hex()), sent_on(data, 67305985, 1, 0, 0).hex()
            yield "%d down 2 16909060 7 %s" % (buckets, data.hex()), sent_on(data, 2, 2, 16909060, 7).hex()
            yield "%d asked 5 5 255 %s" % (buckets, data.hex()), sent_on(data, 5, 3, 5, 255).hex()
        else:
            yield "%d up 1 %s" % (buckets, data.hex()), "fault 1"


if __name__ == "__main__":
    given, wanted = zip(*cases())
    with open("crates/wire_vectors/stdin", "w") as out:
        out.write("".join(line + "\n" for line in given))
    with open("crates/wire_vectors/stdout", "w") as out:
        out.write("".join(line + "\n" for line in wanted))
    print(len(given), "cases")
