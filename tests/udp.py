#!/usr/bin/env python3
"""Plays the example over UDP with free ports of loopback, and checks where the packets of its sessions are given.

The programs are taken from KEHMALGI_BIN, target/bin where that is not set. Status 1 where something comes out otherwise.
"""
import os
import socket
import subprocess
import sys
import tempfile
import time
from pathlib import Path

EXAMPLE = Path(__file__).resolve().parent.parent / "examples" / "udp"
MACHINES = ("office", "door 0", "door 1", "house 0", "house 1", "house 2")
# Both sessions are of one bucket, which begins at house 1 and is handed over to house 2 when that is added.
OLD, NEW, UNKNOWN = (f"10.0.0.7:44242>10.1.1.1:{port}/tcp" for port in (80, 81, 82))
PATIENCE = 10.0  # seconds until the machines must listen

SCRIPT = (
    (("client.py", OLD, "--open"), "given in house 1"),
    (("order.py", "add", "2"), ""),
    (("client.py", NEW, "--open", "--door", "1"), "given in house 2"),
    (("client.py", OLD, "--door", "1"), "given in house 1"),
    (("client.py", OLD, "--open"), "given in house 1"),
    (("client.py", UNKNOWN), "refused with 0"),
    (("order.py", "close", OLD, "1"), ""),
    (("client.py", OLD), "refused with 0"),
    (("order.py", "remove", "7"), "refused with 2"),
)


def free_ports(count):
    sockets = [socket.socket(socket.AF_INET, socket.SOCK_DGRAM) for _ in range(count)]
    for opened in sockets:
        opened.bind(("127.0.0.1", 0))
    ports = [opened.getsockname()[1] for opened in sockets]
    for opened in sockets:
        opened.close()
    return ports


def write_peers(path):
    """The ports of the machines."""
    names = ("client", "order", *MACHINES)
    ports = free_ports(len(names))
    path.write_text("".join(f"{name} {port}\n" for name, port in zip(names, ports)))
    return ports[2:]


def is_taken(port):
    with socket.socket(socket.AF_INET, socket.SOCK_DGRAM) as probe:
        try:
            probe.bind(("127.0.0.1", port))
        except OSError:
            return True
    return False


def wait_for(ports):
    """An order to a machine that does not listen yet would be lost, and nobody says it again."""
    until = time.monotonic() + PATIENCE
    while not all(is_taken(port) for port in ports) and time.monotonic() < until:
        time.sleep(0.1)


def play(command, environment):
    """What the command prints, in one line."""
    done = subprocess.run([sys.executable, EXAMPLE / command[0], *command[1:]], env=environment, stdout=subprocess.PIPE, text=True)
    return "; ".join(done.stdout.splitlines())


def comes_out(said, expected):
    """Every packet must come to what is expected; an order that is obeyed says nothing."""
    return all(expected in part for part in said.split("; ")) if expected else said == ""


def is_as_expected(command, expected, environment):
    said = play(command, environment)
    print(f"{' '.join(command)}\n    {said or '(nothing)'}", flush=True)
    return comes_out(said, expected)


def main():
    with tempfile.TemporaryDirectory() as folder:
        environment = {**os.environ, "KEHMALGI_PEERS": str(Path(folder) / "peers.txt")}
        ports = write_peers(Path(environment["KEHMALGI_PEERS"]))
        adapters = [subprocess.Popen([sys.executable, EXAMPLE / "adapter.py", name], env=environment) for name in MACHINES]
        try:
            wait_for(ports)
            kept = all(is_as_expected(command, expected, environment) for command, expected in SCRIPT)
        finally:
            for adapter in adapters:
                adapter.terminate()
            ended = [adapter.wait() for adapter in adapters]
    print("as expected" if kept and not any(ended) else f"NOT as expected; the adapters ended with {ended}")
    return 0 if kept and not any(ended) else 1


if __name__ == "__main__":
    sys.exit(main())
