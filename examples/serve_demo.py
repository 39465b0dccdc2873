#!/usr/bin/env python3
"""serve_demo.py PCP: a server on the loopback grants a port and is killed; started again it grants the same port, and its epoch goes on."""
import random
import socket
import struct
import subprocess
import sys
import tempfile
import time
from pathlib import Path

HOST = "127.0.0.1"
EXAMPLES = Path(__file__).resolve().parent


def mapped(text):
    """An IPv4 address as PCP writes it (RFC 6887, section 5)."""
    return bytes(10) + b"\xff\xff" + socket.inet_aton(text)


# A MAP request of 127.0.0.1 for UDP port 5000, for an hour (RFC 6887, sections 7.1 and 11.1).
REQUEST = (bytes([2, 1, 0, 0]) + struct.pack(">I", 3600) + mapped(HOST) + bytes(range(12))
           + bytes([17, 0, 0, 0]) + struct.pack(">HH", 5000, 0) + mapped("0.0.0.0"))


def free_ports():
    """A free port for requests, and the first of sixteen in a row for lookups."""
    while True:
        first = random.randrange(20000, 60000)
        held = []
        try:
            for port in range(first, first + 17):
                held.append(socket.socket(socket.AF_INET, socket.SOCK_DGRAM))
                held[-1].bind((HOST, port))
            return first, first + 1
        except OSError:
            continue
        finally:
            for one in held:
                one.close()


def ask(port):
    """Asks until the server answers, and prints its answer: the external port and the epoch."""
    with socket.socket(socket.AF_INET, socket.SOCK_DGRAM) as client:
        client.bind((HOST, 0))
        client.settimeout(0.2)
        for _ in range(100):
            client.sendto(REQUEST, (HOST, port))
            try:
                reply = client.recv(2048)
            except OSError:
                continue
            code, lifetime, epoch = struct.unpack(">xxxBII12x", reply[:24])
            if code != 0:
                sys.exit(f"demo: refused with code {code}")
            external = struct.unpack(">H", reply[42:44])[0]
            address = socket.inet_ntoa(reply[56:60])
            print(f"mapped UDP port 5000 to {address} port {external} for {lifetime} s; epoch {epoch}", flush=True)
            return external, epoch
    sys.exit("demo: no answer")


def begin(pcp, folder, ports):
    words = [pcp, "serve", "config", "journals", *map(str, ports)]
    return subprocess.Popen(words, cwd=folder, stdout=subprocess.PIPE)


def show(pcp, folder):
    ports = free_ports()
    print(f"== serve, at UDP port {ports[0]}: a host asks for a port", flush=True)
    server = begin(pcp, folder, ports)
    try:
        first = ask(ports[0])
        print("== stopped by kill -9 two seconds later, and started again over its journals", flush=True)
        time.sleep(2)
        server.kill()
        server.communicate()
        server = begin(pcp, folder, ports)
        second = ask(ports[0])
        if second[0] != first[0] or second[1] <= first[1]:
            sys.exit("demo: another port, or an epoch that doesn't go on")
        print("== stopped by a datagram from this host: what it did since", flush=True)
        with socket.socket(socket.AF_INET, socket.SOCK_DGRAM) as client:
            client.sendto(b"\xffstop", (HOST, ports[0]))
        print(server.communicate(timeout=30)[0].decode(), end="")
    finally:
        server.kill()


with tempfile.TemporaryDirectory() as here:
    (Path(here) / "journals").mkdir()
    text = (EXAMPLES / "first.toml").read_text(encoding="utf-8")
    (Path(here) / "config").write_text(text.replace("10.0.0.0/8", "127.0.0.0/8"), encoding="utf-8")
    show(Path(sys.argv[1]).resolve(), here)
