#!/usr/bin/env python3
"""Gives an operator's order to a running machine, and prints if it is refused.

    python3 examples/udp/order.py add 2        the office hands buckets over to house 2
    python3 examples/udp/order.py remove 2     .. and away from it
    python3 examples/udp/order.py close '10.0.0.7:4242>10.1.1.1:80/tcp' 1    house 1 closes a session
"""
import argparse
import sys

import packets
from peers import LOOPBACK, MOST, open_socket, read_peers

CLOSE, ADD, REMOVE, REFUSED = 7, 8, 9, 6
PUT_OFF = 10  # a handover that waits until the bucket's oldest place is forgotten
PATIENCE = 0.5  # seconds; an order that is obeyed is not answered


def read_order():
    """Who is to hear it, and its bytes."""
    parser = argparse.ArgumentParser(description="Gives an operator's order to a running machine.")
    orders = parser.add_subparsers(dest="order", required=True)
    for word in ("add", "remove"):
        orders.add_parser(word).add_argument("house", type=int)
    close = orders.add_parser("close")
    close.add_argument("flow", type=packets.read_flow)
    close.add_argument("house", type=int)
    options = parser.parse_args()
    if options.order == "close":
        return f"house {options.house}", bytes((CLOSE,)) + options.flow.bytes()
    return "office", bytes((ADD if options.order == "add" else REMOVE, options.house))


def main():
    receiver, data = read_order()
    ports = read_peers()
    with open_socket(ports["order"]) as operator:
        operator.sendto(data, (LOOPBACK, ports[receiver]))
        operator.settimeout(PATIENCE)
        try:
            answer, _ = operator.recvfrom(MOST)
        except TimeoutError:
            return 0
    if answer[1] == PUT_OFF:
        print(f"a handover of bucket {int.from_bytes(answer[4:6], 'big')} is put off")
        return 0
    print(f"refused with {answer[1]}")
    return 1


if __name__ == "__main__":
    sys.exit(main())
