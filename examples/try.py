#!/usr/bin/env python3
"""try.py: builds pcp without a proof, and shows it at work.

A script is played over a kill; then a server on the loopback gives a client a port. `rt try` builds the program, with checks that stop it
at an index out of bounds or an overflow, and keeps nothing. So the program that it runs is a `pcp dump` whose configuration is a pipe:
while it waits for that, this script copies the program, to out/try/pcp at the top. A second call takes that one, if no source is newer.
"""
import contextlib
import glob
import os
import shlex
import shutil
import socket
import subprocess
import sys
import tempfile
import time
from pathlib import Path

TOP = Path(__file__).resolve().parent.parent
PCP = TOP / "out" / "try" / "pcp"
LOOPBACK = TOP / "examples" / "loopback.toml"
HOST = "127.0.0.1"
PORT, LANE = 5351, 5400
BUILD_SECONDS = 1200


def sources():
    """The files that a build reads."""
    yield TOP / "crates.txt"
    for kind in ("*.rt", "*.antt"):
        yield from (TOP / "crates").glob(f"*/s*/**/{kind}")


def say(text):
    print(f"== {text}", flush=True)


def opened(pipe):
    """The end of this pipe for writing, once somebody has opened the other one."""
    try:
        return os.open(pipe, os.O_WRONLY | os.O_NONBLOCK)
    except OSError:
        return None


def copy_program(folder):
    """Copies the program of this folder that runs, and writes beside it by which words it is run."""
    for line in glob.glob("/proc/[0-9]*/cmdline"):
        words = []
        with contextlib.suppress(OSError):
            words = Path(line).read_text(encoding="utf-8", errors="replace").split("\0")
        program = next((it for it in words if it.startswith(f"{folder}/") and os.path.isfile(it) and os.access(it, os.X_OK)), None)
        if program and "dump" in words:
            PCP.parent.mkdir(parents=True, exist_ok=True)
            shutil.copy(program, PCP.parent / "program")
            # the system's loader, or that of the kit by which it was run
            begin = shlex.join([*words[:words.index(program)], str(PCP.parent / "program")])
            PCP.write_text(f'#!/bin/sh\nexec {begin} "$@"\n', encoding="utf-8")
            PCP.chmod(0o755)
            return True
    return False


def build():
    """Has `rt try` build the program, and copies it while it waits for its configuration."""
    if PCP.exists() and PCP.stat().st_mtime > max(it.stat().st_mtime for it in sources()):
        say(f"{PCP.relative_to(TOP)} is as new as its sources")
        return
    if not shutil.which("rt"):
        sys.exit("try: no rt on the path: the Rattle kit has it, in its folder bin")
    say("building pcp without a proof: two to five minutes. What follows shows how it works, and proves nothing")
    begun = time.monotonic()
    with tempfile.TemporaryDirectory(prefix="pcp-try-") as folder:
        pipe, journals = Path(folder, "config"), Path(folder, "journals")
        os.mkfifo(pipe)
        journals.mkdir()
        words = ["rt", "try", "--", "dump", str(pipe), str(journals)]
        with open(Path(folder, "said"), "w+", encoding="utf-8", errors="replace") as said:
            how = {"stdin": subprocess.DEVNULL, "stdout": said, "stderr": said, "env": {**os.environ, "TMPDIR": folder}}
            building = subprocess.Popen(words, cwd=TOP / "crates" / "pcp", **how)
            try:
                end = None
                while end is None and building.poll() is None and time.monotonic() < begun + BUILD_SECONDS:
                    time.sleep(0.2)
                    end = opened(pipe)
                built = end is not None and copy_program(os.path.realpath(folder))
                if end is not None:
                    os.write(end, LOOPBACK.read_bytes())
                    os.close(end)
                    building.wait(60)
            finally:
                building.terminate()
                building.wait()
            if not built:
                said.seek(0)
                sys.exit(f"{said.read()}try: rt try didn't build the program")
    say(f"built in {time.monotonic() - begun:.0f} s: {PCP.relative_to(TOP)}. `make demo` and `make install` have the proved one")


def run(*words):
    """Shows a command of the program, and runs it."""
    print("$ pcp", *(it if TOP not in Path(it).parents else str(Path(it).relative_to(TOP)) for it in words), flush=True)
    return subprocess.run([PCP, *words], check=False).returncode


def serves(server, journals):
    """Whether the server answers orders within half a minute."""
    for _ in range(300):
        if server.poll() is not None:
            return False
        if subprocess.run([PCP, "status", journals], capture_output=True, check=False).returncode == 0:
            return True
        time.sleep(0.1)
    return False


def look(protocol, port):
    """Asks the server's first lane whose this external port is, as a NAT does for a packet from outside."""
    text = f"look {protocol} {port} 198.51.100.7 40000"
    print(f"datagram to UDP port {LANE} of {HOST}: {text}", flush=True)
    with socket.socket(socket.AF_INET, socket.SOCK_DGRAM) as nat:
        nat.settimeout(10)
        nat.sendto(text.encode(), (HOST, LANE))
        print(nat.recv(2048).decode(), flush=True)


def show_server():
    """A server and a client on the loopback."""
    with tempfile.TemporaryDirectory(prefix="pcp-try-") as folder:
        os.chdir(folder)
        os.mkdir("journals")
        print(f"$ pcp serve examples/loopback.toml journals {PORT} {LANE} &", flush=True)
        server = subprocess.Popen([PCP, "serve", str(LOOPBACK), "journals", str(PORT), str(LANE)])
        try:
            if not serves(server, "journals"):
                sys.exit(f"try: the server didn't begin: see whether UDP ports {PORT} and {LANE} of {HOST} are taken")
            status = run("map", "--server", HOST, "--own", HOST, "--protocol", "udp", "--port", "5000")
            if not status:
                look(17, 1024)
            status = status or run("stop", "journals") or server.wait(60)
            status = status or run("dump", str(LOOPBACK), "journals")
        finally:
            server.kill()
            server.wait()
        if status:
            sys.exit(f"try: a command ended with status {status}")


build()
status = subprocess.run(["bash", TOP / "examples" / "demo.sh", PCP], check=False).returncode
if status:
    sys.exit(status)
say("serve: a client of this host asks for a port")
show_server()
