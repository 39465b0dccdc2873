"""Network namespaces that a check makes for itself, links between them, datagrams that are written octet by octet, and what a link brings."""
import contextlib
import ctypes
import ipaddress
import json
import os
import select
import socket
import struct
import subprocess
import time

IPV4, IPV6 = 0x0800, 0x86DD
# The groups of all hosts of a link have a place of their own among its addresses (RFC 1112, section 6.4; RFC 2464, section 7).
ALL_HOSTS = {"224.0.0.1": bytes.fromhex("01005e000001"), "ff02::1": bytes.fromhex("333300000001")}
EVERYTHING, OUTGOING = 3, 4
SYSTEM = ctypes.CDLL(None, use_errno=True)


class Unable(Exception):
    """Why a check can't run on this host."""


def command(*words):
    try:
        ended = subprocess.run(words, capture_output=True, text=True, timeout=20)
    except OSError as error:
        raise Unable(f"{words[0]}: {error}") from error
    if ended.returncode:
        raise Unable(f"{' '.join(words)}: {ended.stderr.strip()}")
    return ended.stdout


def enter(handle):
    if SYSTEM.setns(handle, 0):
        raise Unable(f"setns: {os.strerror(ctypes.get_errno())}")


class Space:
    """A network namespace. Sockets that are made inside stay there, also where they are used outside."""

    made = []

    def __init__(self, name):
        if os.geteuid():
            raise Unable("namespaces want root")
        self.name = f"pcp-{os.getpid()}-{name}"
        command("ip", "netns", "add", self.name)
        Space.made.append(self)
        self.handle = os.open(f"/run/netns/{self.name}", os.O_RDONLY)
        self.ends = {}
        self.ip("link", "set", "lo", "up")

    @contextlib.contextmanager
    def inside(self):
        home = os.open("/proc/thread-self/ns/net", os.O_RDONLY)
        enter(self.handle)
        try:
            yield
        finally:
            enter(home)
            os.close(home)

    def ip(self, *words):
        return command("ip", "-n", self.name, *words)

    def set(self, key, value):
        with self.inside(), open(f"/proc/sys/net/{key}", "w", encoding="ascii") as file:
            file.write(str(value))

    def add(self, link, *addresses):
        for address in addresses:
            more = ["nodad"] if ":" in address else []
            self.ip("address", "add", address, "dev", link, *more)

    def socket(self, family, kind=socket.SOCK_DGRAM, protocol=0):
        with self.inside():
            return socket.socket(family, kind, protocol)

    def bound(self, address, port=0, scope=0):
        """A UDP socket at this address of it."""
        family = socket.AF_INET6 if ":" in address else socket.AF_INET
        found = self.socket(family)
        if family == socket.AF_INET6:
            found.setsockopt(socket.IPPROTO_IPV6, socket.IPV6_V6ONLY, 1)
        try:
            found.bind(place(address, port, scope))
        except OSError:
            found.close()
            raise
        return found

    def begins(self, words, **more):
        return subprocess.Popen(["ip", "netns", "exec", self.name, *map(str, words)], **more)

    def remove(self):
        os.close(self.handle)
        command("ip", "netns", "delete", self.name)


def place(address, port, scope=0):
    return (address, port, 0, scope) if ":" in address else (address, port)


def remove_all():
    while Space.made:
        with contextlib.suppress(Unable, OSError, subprocess.TimeoutExpired):
            Space.made.pop().remove()


class End:
    """One end of a link, at which frames are sent as they are written."""

    def __init__(self, space, name):
        self.space, self.name, self.other = space, name, None
        found, = json.loads(space.ip("-j", "link", "show", "dev", name))
        self.index, self.octets = found["ifindex"], bytes.fromhex(found["address"].replace(":", ""))
        self.raw = space.socket(socket.AF_PACKET, socket.SOCK_RAW, 0)
        self.raw.bind((name, 0))

    def send(self, packet, target=None):
        """Sends the packet of IP to the other end, or to all hosts."""
        kind = IPV6 if packet[0] >> 4 == 6 else IPV4
        self.raw.send(ALL_HOSTS.get(target, self.other.octets) + self.octets + struct.pack(">H", kind) + packet)

    def forge(self, source, target, port, payload, source_port=40000):
        self.send(datagram(source, target, source_port, port, payload), target)


def linked(one, name, other, other_name):
    """A link between two spaces. It has no addresses, not even of its own making."""
    one.ip("link", "add", name, "type", "veth", "peer", "name", other_name, "netns", other.name)
    for space, end in ((one, name), (other, other_name)):
        space.ip("link", "set", "dev", end, "addrgenmode", "none")
        space.ip("link", "set", "dev", end, "up")
    ends = End(one, name), End(other, other_name)
    ends[0].other, ends[1].other = ends[1], ends[0]
    return ends


def packed(address):
    return ipaddress.ip_address(address).packed


def wide(address):
    """The address in 16 octets, an IPv4 one mapped."""
    octets = packed(address)
    return bytes(10) + b"\xff\xff" + octets if len(octets) == 4 else octets


def checksum(octets):
    octets += bytes(len(octets) % 2)
    total = sum(struct.unpack(f">{len(octets) // 2}H", octets))
    while total >> 16:
        total = (total & 0xFFFF) + (total >> 16)
    return total ^ 0xFFFF


def datagram(source, target, source_port, port, payload):
    """A packet of IP with a datagram of UDP, whatever its source is."""
    source, target = packed(source), packed(target)
    length = 8 + len(payload)
    head = struct.pack(">HHH", source_port, port, length)
    if len(target) == 4:
        ip = struct.pack(">BBHHHBBH", 0x45, 0, 20 + length, 0, 0, 64, 17, 0) + source + target
        ip = ip[:10] + struct.pack(">H", checksum(ip)) + ip[12:]
        return ip + head + bytes(2) + payload
    covered = source + target + struct.pack(">II", length, 17)
    found = checksum(covered + head + bytes(2) + payload) or 0xFFFF
    return struct.pack(">IHBB", 6 << 28, length, 17, 64) + source + target + head + struct.pack(">H", found) + payload


def read_datagram(frame):
    """Source, source port, target, port and payload of a frame with a datagram of UDP; none of another one."""
    kind, = struct.unpack(">H", frame[12:14])
    ip = frame[14:]
    if kind == IPV4 and len(ip) >= 28 and ip[9] == 17:
        source, target, udp = ip[12:16], ip[16:20], ip[4 * (ip[0] & 15):]
    elif kind == IPV6 and len(ip) >= 48 and ip[6] == 17:
        source, target, udp = ip[8:24], ip[24:40], ip[40:]
    else:
        return None
    source_port, port, length = struct.unpack(">HHH", udp[:6])
    return str(ipaddress.ip_address(source)), source_port, str(ipaddress.ip_address(target)), port, udp[8:length]


class Ear:
    """What an end of a link brings, from when it is made on."""

    def __init__(self, end):
        self.raw = end.space.socket(socket.AF_PACKET, socket.SOCK_RAW, socket.htons(EVERYTHING))
        self.raw.bind((end.name, EVERYTHING))
        self.raw.setblocking(False)

    def brought(self):
        """The datagrams that came since it was asked last, as `read_datagram` gives them."""
        found = []
        while True:
            try:
                frame, sender = self.raw.recvfrom(65535)
            except BlockingIOError:
                return found
            one = read_datagram(frame) if sender[2] != OUTGOING else None
            if one:
                found.append(one)

    def close(self):
        self.raw.close()


def asked(link, request, seconds=2):
    """What a connected socket hears to this request; nothing where nothing comes in time."""
    end = time.monotonic() + seconds
    try:
        link.send(request)
        left = end - time.monotonic()
        while left > 0 and select.select([link], [], [], left)[0]:
            return link.recv(2048)
    except OSError:
        pass
    return b""
