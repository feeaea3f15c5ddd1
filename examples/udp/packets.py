"""Packets of IPv4 with TCP or UDP, each with a number of its own, so that one can be told from another."""
import ipaddress
import re
import struct
from typing import NamedTuple

TCP, UDP = 6, 17
PROTOCOLS = {"tcp": TCP, "udp": UDP}
SYN, ACK = 0x02, 0x10
WRITTEN = re.compile(r"([\d.]+):(\d+)>([\d.]+):(\d+)/(tcp|udp)")


class Flow(NamedTuple):
    """What names a session."""

    source: int
    destination: int
    source_port: int
    destination_port: int
    protocol: int

    def __str__(self):
        source, destination = ipaddress.IPv4Address(self.source), ipaddress.IPv4Address(self.destination)
        protocol = "tcp" if self.protocol == TCP else "udp"
        return f"{source}:{self.source_port}>{destination}:{self.destination_port}/{protocol}"

    def bytes(self):
        return struct.pack(">IIHHB", *self)


def read_flow(text):
    """A flow as it is written for people: 10.0.0.7:4242>10.1.1.1:80/tcp."""
    match = WRITTEN.fullmatch(text)
    if match is None:
        raise ValueError(f"not a flow: {text!r}")
    source, source_port, destination, destination_port, protocol = match.groups()
    addresses = int(ipaddress.IPv4Address(source)), int(ipaddress.IPv4Address(destination))
    return Flow(*addresses, int(source_port), int(destination_port), PROTOCOLS[protocol])


def packet(flow, number, opens=False):
    """A packet of the flow. The number is TCP's sequence number, or UDP's payload. With `opens` TCP's SYN is set."""
    if flow.protocol == TCP:
        flags = SYN if opens else ACK
        body = struct.pack(">HHIIBBHHH", flow.source_port, flow.destination_port, number, 0, 0x50, flags, 0, 0, 0)
    else:
        body = struct.pack(">HHHHI", flow.source_port, flow.destination_port, 12, 0, number)
    return head(flow, len(body)) + body


def head(flow, length):
    """IPv4's head, without a checksum: no machine here looks at it."""
    return struct.pack(">BBHHHBBHII", 0x45, 0, 20 + length, 0, 0, 64, flow.protocol, 0, flow.source, flow.destination)


def flow_of(data):
    """The flow of a packet that was made here."""
    source, destination = struct.unpack_from(">II", data, 12)
    return Flow(source, destination, *struct.unpack_from(">HH", data, 20), data[9])


def number_of(data):
    """The number of a packet that was made here."""
    return struct.unpack_from(">I", data, 24 if data[9] == TCP else 28)[0]


def may_open(data):
    """TCP with SYN and without ACK may open a session, and so may all of UDP."""
    return data[9] == UDP or data[33] & (SYN | ACK) == SYN
