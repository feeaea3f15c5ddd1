#!/usr/bin/env python3
"""Sends packets of one session to a door, and prints where each was given, or why it was refused.

    python3 examples/udp/client.py '10.0.0.7:4242>10.1.1.1:80/tcp' --open --door 1 --count 5
"""
import argparse
import sys
import time

import packets
from peers import LOOPBACK, MOST, open_socket, read_peers

REFUSED = 6  # the kind of a refusal; what is given comes as it is
PATIENCE = 1.0  # seconds until a packet counts as lost


def answer_to(number, client, names):
    """What became of the packet with this number, or None if nothing is heard of it in time."""
    until = time.monotonic() + PATIENCE
    while (wait := until - time.monotonic()) > 0:
        client.settimeout(wait)
        try:
            data, (_, port) = client.recvfrom(MOST)
        except TimeoutError:
            break
        refused = data[0] == REFUSED
        if packets.number_of(data[4:] if refused else data) == number:
            return f"refused with {data[1]} by {names[port]}" if refused else f"given in {names[port]}"
    return None


def send_packets(options, client, ports):
    """True if something was heard of each."""
    names = {port: name for name, port in ports.items()}
    lost = 0
    # Numbers go on from run to run, so that a late answer to an earlier run is not taken for one of this.
    first = int(time.time() * 1000) % (1 << 31)
    for i in range(options.count):
        data = packets.packet(options.flow, first + i, options.open and i == 0)
        client.sendto(data, (LOOPBACK, ports[f"door {options.door}"]))
        answer = answer_to(first + i, client, names)
        lost += answer is None
        print(f"packet {i + 1}: {answer or 'nothing was heard of it'}", flush=True)
    return lost == 0


def read_options():
    parser = argparse.ArgumentParser(description="Sends packets of one session to a door.")
    parser.add_argument("flow", type=packets.read_flow, help="10.0.0.7:4242>10.1.1.1:80/tcp, or /udp")
    parser.add_argument("--open", action="store_true", help="the first packet may open a session (TCP: SYN); of UDP all may")
    parser.add_argument("--door", type=int, default=0, help="the door that they come by")
    parser.add_argument("--count", type=int, default=3, help="how many packets")
    return parser.parse_args()


def main():
    options = read_options()
    ports = read_peers()
    with open_socket(ports["client"]) as client:
        return 0 if send_packets(options, client, ports) else 1


if __name__ == "__main__":
    sys.exit(main())
