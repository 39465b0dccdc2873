#!/usr/bin/env python3
"""Writes a configuration of N external addresses, and a script that fills each with 32,768 leases.

usage: full_addresses.py N FOLDER [ended]     (1 to 16; FOLDER/full.toml and FOLDER/full.script are made)

Each lease is of one UDP port, of a host of its own, for a day. With `ended` it is for 120 seconds, and 16,400 requests follow later for each
external address that are refused with code 11, without a record, while all leases leave what they are looked up by. Then

    mkdir FOLDER/journals
    /usr/bin/time -v pcp play FOLDER/full.toml FOLDER/full.script FOLDER/journals 1000 > FOLDER/replies

tells how much memory they take, and `time pcp play FOLDER/full.toml /dev/null FOLDER/journals 1000` how long it takes to open them.
"""
import sys

LEASES = 32768
REFUSED = 16400


def config(count):
    yield "quota = 64\nlifetime_min = 120\nlifetime_max = 86400\nthird_party = []\n"
    for i in range(count):
        yield f'[[external]]\naddress = "192.0.2.{i + 1}"\nlow = 1024\nhigh = 65535\n'
    for i in range(count):
        yield f'[[subscriber]]\nprefix = "10.{i}.0.0/16"\nexternal = "192.0.2.{i + 1}"\n'


def packet(moment, place, host, lifetime, rest):
    high, low = divmod(host, 256)
    head = f"02010000{lifetime:08x}{'00' * 10}ffff0a{place:02x}{high:02x}{low:02x}"
    body = f"000102030405060708090a0b1100000013880000{'00' * 10}ffff"
    return f"packet {moment} 10.{place}.{high}.{low} 40000 {head}{body}{rest}\n"


def requests(count, lifetime):
    for i in range(count):
        for host in range(LEASES):
            yield packet(1000, i, host, lifetime, "00000000")


def refused(count):
    elsewhere = "cb007109" + "02000000"
    for i in range(count):
        for _ in range(REFUSED):
            yield packet(2000, i, 1, 120, elsewhere)


def main(words):
    count, folder, ended = int(words[0]), words[1], words[2:] == ["ended"]
    with open(f"{folder}/full.toml", "w") as out:
        out.writelines(config(count))
    with open(f"{folder}/full.script", "w") as out:
        out.writelines(requests(count, 120 if ended else 86400))
        if ended:
            out.writelines(refused(count))


main(sys.argv[1:])
