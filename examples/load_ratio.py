#!/usr/bin/env python3
"""Times `pcp load` and a program without proofs in turn, and tells the ratio of what both take.

usage: load_ratio.py PCP PLAIN FOLDER [RUNS]     (10 runs of each where it isn't said)

PLAIN is examples/plain_load.rs, compiled by `rustc --edition 2021 -O -C target-cpu=x86-64-v2 examples/plain_load.rs -o PLAIN`. Each run serves the
1,000,000 requests that number 7 makes, over journals in a new folder within FOLDER, which is removed again; on a memory file system, as
/dev/shm, no disk counts. Both must tell the same summary and leave the same journals. Times are of a processor, in the program and in the
kernel. They mean something with nothing beside them.
"""
import os
import shutil
import subprocess
import sys
import tempfile
from pathlib import Path

CONFIG = Path(__file__).with_name("first.toml")
LOAD = ["1000", "7", "1000000"]


def serve(words, journals):
    """The seconds of a processor that a run takes, and its summary."""
    before = os.times()
    summary = subprocess.run([*words, CONFIG, journals, *LOAD], stdout=subprocess.PIPE, check=True).stdout
    after = os.times()
    return after.children_user - before.children_user + after.children_system - before.children_system, summary


def run(words, folder):
    """The seconds, and what the run leaves: its summary and both sides of its journal."""
    journals = Path(tempfile.mkdtemp(dir=folder))
    try:
        seconds, summary = serve(words, journals)
        return seconds, [summary, *((journals / side).read_bytes() for side in ("0a", "0b"))]
    finally:
        shutil.rmtree(journals)


def middle(numbers):
    return sorted(numbers)[len(numbers) // 2]


def main(pcp, plain, folder, runs="10"):
    proved, unproved = [], []
    for _ in range(int(runs)):
        ours, left = run([pcp, "load"], folder)
        other, same = run([plain], folder)
        if left != same:
            sys.exit("the summaries or the journals differ")
        proved.append(ours)
        unproved.append(other)
        print(f"pcp {ours:.2f} s, plain {other:.2f} s, ratio {ours / other:.2f}", flush=True)
    least, mid = min(proved) / min(unproved), middle(proved) / middle(unproved)
    print(f"ratio by the least of each {least:.2f}, by the middle {mid:.2f}")


main(*sys.argv[1:])
