"""Who is at which port of the loopback address."""
import os
import socket
from pathlib import Path

HERE = Path(__file__).resolve().parent
LOOPBACK = "127.0.0.1"
MOST = 65_535  # no datagram is longer
PEERS = Path(os.environ.get("KEHMALGI_PEERS", HERE / "peers.txt"))


def read_peers(path=PEERS):
    """The port of each name; each port belongs to one name."""
    ports = {}
    for line in path.read_text().splitlines():
        name, _, port = line.strip().rpartition(" ")
        if name and not line.startswith("#"):
            ports[name] = int(port)
    if len(set(ports.values())) < len(ports):
        raise ValueError(f"{path}: two names have one port")
    return ports


def open_socket(port):
    """On loopback only: who sends is known by the port alone, and that holds nowhere else."""
    opened = socket.socket(socket.AF_INET, socket.SOCK_DGRAM)
    opened.bind((LOOPBACK, port))
    return opened
