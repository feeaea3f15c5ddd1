#!/usr/bin/env python3
"""Carries the lines of one program to and from UDP sockets on loopback.

    python3 examples/udp/adapter.py 'house 1'

starts `house` with the settings of settings.txt and its own number. Every line `TO HEX` that it prints is sent as one
datagram to TO's port, and every datagram that comes is handed to it as `FROM HEX`; peers.txt has the ports. A packet that
is given to an open session (`table HEX`) goes to the client as it is, which shows where its session is. 16 times a second
the program hears how many ticks have passed. Datagrams may be lost: the machines say again what is not answered.

The programs are taken from KEHMALGI_BIN, target/bin where that is not set.
"""
import argparse
import os
import signal
import struct
import subprocess
import sys
import threading
import time
from pathlib import Path

from peers import HERE, LOOPBACK, MOST, open_socket, read_peers

PROGRAMS = Path(os.environ.get("KEHMALGI_BIN", HERE.parent.parent / "target" / "bin"))
TICKS = 10  # the kind of an order of ticks
TICKS_AT_ONCE = 16
ORDERS_A_SECOND = 16  # 256 ticks are a second


class Adapter:
    """One program, and the socket through which others speak with it."""

    def __init__(self, name, settings):
        self.name = name
        self.ports = read_peers()
        self.names = {port: peer for peer, port in self.ports.items()}
        self.socket = open_socket(self.ports[name])
        self.program = subprocess.Popen([program_of(name)], stdin=subprocess.PIPE, stdout=subprocess.PIPE, text=True)
        self.feed(settings)

    def feed(self, text):
        self.program.stdin.write(text + "\n")
        self.program.stdin.flush()

    def note(self, text):
        print(f"{self.name}: {text}", file=sys.stderr, flush=True)

    # FROM THE PROGRAM TO OTHERS

    def send_all(self):
        """Sends what the program prints, line by line, until it ends."""
        for line in self.program.stdout:
            self.send(line.rstrip("\n"))

    def send(self, line):
        receiver, _, digits = line.rpartition(" ")
        port = self.ports.get("client" if receiver == "table" else receiver)
        if port is None:
            self.note(line)  # a fault of a line, or a machine that has no port
            return
        try:
            self.socket.sendto(bytes.fromhex(digits), (LOOPBACK, port))
        except OSError as error:  # too long for a datagram, say: as if it had been lost
            self.note(f"to {receiver}: {error}")

    # FROM OTHERS TO THE PROGRAM

    def hand_over(self, until):
        """Hands over what comes, until the time is there."""
        while (wait := until - time.monotonic()) > 0:
            self.socket.settimeout(wait)
            try:
                data, (_, port) = self.socket.recvfrom(MOST)
            except TimeoutError:
                return
            if sender := self.names.get(port):
                self.feed(f"{sender} {data.hex()}")

    def run(self):
        # A thread reads what the program prints, so that the program never waits for a reader while it is being fed.
        threading.Thread(target=self.send_all, daemon=True).start()
        told = time.monotonic()
        while self.program.poll() is None:
            self.hand_over(told + 1 / ORDERS_A_SECOND)
            orders = int((time.monotonic() - told) * ORDERS_A_SECOND)  # more than one if this process was held up
            told += orders / ORDERS_A_SECOND
            self.feed(f"order {struct.pack('>BI', TICKS, orders * TICKS_AT_ONCE).hex()}")

    def stop(self):
        """The program ends when its input does. Its status."""
        try:
            self.program.stdin.close()
        except BrokenPipeError:
            pass  # it has ended already
        return self.program.wait(timeout=5)


def program_of(name):
    return PROGRAMS / name.split()[0]


def settings_of(name, path):
    """The settings that all machines share, with the number of this one."""
    own = [name] if " " in name else []
    return "\n".join(path.read_text().splitlines() + own + ["run"])


def read_options():
    parser = argparse.ArgumentParser(description="Carries the lines of one program to and from UDP sockets on loopback.")
    machines = [name for name in read_peers() if name not in ("client", "order")]
    parser.add_argument("name", choices=machines, help="a machine of peers.txt")
    parser.add_argument("--settings", type=Path, default=HERE / "settings.txt", help="what all machines are told at the start")
    options = parser.parse_args()
    if not program_of(options.name).exists():
        parser.error(f"{program_of(options.name)} is missing: `make programs` builds it")
    return options


def end(*_):
    raise KeyboardInterrupt


def main():
    options = read_options()
    signal.signal(signal.SIGTERM, end)
    adapter = Adapter(options.name, settings_of(options.name, options.settings))
    try:
        adapter.run()
    except (KeyboardInterrupt, BrokenPipeError):
        pass  # it was asked to end, or its program has ended
    return adapter.stop()


if __name__ == "__main__":
    sys.exit(main())
