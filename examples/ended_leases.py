#!/usr/bin/env python3
"""Writes a configuration and a script in which a host asks for a set over and over, beside leases of its own that have ended.

usage: ended_leases.py PORTS PEERS FOLDER     (1 to 64 and 0 to 16; FOLDER/ended.toml and FOLDER/ended.script are made)

The host has a MAP lease of each of so many UDP ports, and so many PEER leases of each, for 120 seconds. Then it asks 20,000 times for a set
of 64 ports from the first of these on, of another external address and with PREFER_FAILURE: refused with code 11, without a record. With

    mkdir FOLDER/journals
    time pcp play FOLDER/ended.toml FOLDER/ended.script FOLDER/journals 1000 > FOLDER/replies

for 64 and 16, and over another folder for 1 and 0, one sees what the leases cost that have ended.
"""
import sys

CONFIG = """quota = 64
lifetime_min = 120
lifetime_max = 86400
third_party = []
[[external]]
address = "192.0.2.1"
low = 1024
high = 65535
[[subscriber]]
prefix = "10.0.0.0/8"
external = "192.0.2.1"
"""
FIRST = 5000
NONCE = "000102030405060708090a0b"
UDP = "11000000"
ANY = "00" * 10 + "ffff00000000"


def packet(moment, opcode, lifetime, body):
    return f"packet {moment} 10.0.0.1 40000 02{opcode:02x}0000{lifetime:08x}{'00' * 10}ffff0a000001{NONCE}{UDP}{body}\n"


def peer(port, number):
    return packet(1000, 2, 120, f"{port:04x}0000{ANY}{2000 + number:04x}0000{'00' * 10}ffffc6336401")


def requests(ports, peers):
    for port in range(FIRST, FIRST + ports):
        yield packet(1000, 1, 120, f"{port:04x}0000{ANY}")
        for number in range(peers):
            yield peer(port, number)
    elsewhere = f"{FIRST:04x}0000{'00' * 10}ffffcb007109"
    options = f"02000000820000050040{FIRST:04x}00000000"
    for _ in range(20_000):
        yield packet(1400, 1, 3600, elsewhere + options)


def main(words):
    ports, peers, folder = int(words[0]), int(words[1]), words[2]
    with open(f"{folder}/ended.toml", "w") as out:
        out.write(CONFIG)
    with open(f"{folder}/ended.script", "w") as out:
        out.writelines(requests(ports, peers))


main(sys.argv[1:])
