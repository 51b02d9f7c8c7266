"""What serve.py and hostile.py share: a tracker in a process of its own, and what its clients say to it over loopback.

A command has `@PORT@` where the port is to stand, for both protocols, and `@DIR@` for a directory in which the file
`list` has the hashes that are announced, one a line in hex digits. Without one it is this repository's program.
"""
import hashlib
import os
import random
import resource
import shutil
import socket
import struct
import subprocess
import sys
import tempfile
import time

TOP = os.path.join(os.path.dirname(os.path.abspath(__file__)), "..")
PROGRAM = os.path.join(TOP, "crates", "opentracker", "out", "opentracker")
SECRET = "0123456789abcdef0123456789abcdef01234567"
PROTOCOL = 0x41727101980
CONNECT, ANNOUNCE, SCRAPE, ERROR = 0, 1, 2, 3
FIRST_PORT = 1025


def own_command(workers):
    endpoints = ["udp=127.0.0.1:@PORT@", "http=127.0.0.1:@PORT@"]
    return [PROGRAM, "serve", *endpoints, f"workers={workers}", f"secret={SECRET}"]


def info_hash(number):
    return hashlib.sha1(b"torrent %d" % number).digest()


def source(number):
    """The address of a client, one of many at this machine."""
    return f"127.0.{1 + number // 250}.{1 + number % 250}"


def raise_open_files():
    _, most = resource.getrlimit(resource.RLIMIT_NOFILE)
    resource.setrlimit(resource.RLIMIT_NOFILE, (most, most))


def free_port():
    """A port that nobody has, of either protocol."""
    while True:
        port = random.randrange(20_000, 30_000)
        try:
            for kind in (socket.SOCK_DGRAM, socket.SOCK_STREAM):
                with socket.socket(socket.AF_INET, kind) as probe:
                    probe.bind(("127.0.0.1", port))
            return port
        except OSError:
            continue


class Server:
    """A tracker, whose input is held open until it is to end."""

    def __init__(self, command, hashes=()):
        self.port = free_port()
        self.dir = tempfile.mkdtemp()
        os.chmod(self.dir, 0o755)
        with open(os.path.join(self.dir, "list"), "w") as lines:
            lines.writelines(each.hex() + "\n" for each in hashes)
        words = [word.replace("@PORT@", str(self.port)).replace("@DIR@", self.dir) for word in command]
        self.child = subprocess.Popen(words, stdin=subprocess.PIPE, stdout=subprocess.PIPE)
        self.pid = self.child.pid
        self._await_answer()

    def _await_answer(self):
        for _ in range(100):
            if self.child.poll() is not None:
                sys.exit(f"the tracker ended with status {self.child.returncode}")
            if connection_id("127.0.0.1", self.port, 0.1):
                return
            time.sleep(0.1)
        self.end()
        sys.exit("the tracker doesn't answer")

    def processor_time(self):
        """Seconds of all its threads together, of the user's and the system's part."""
        return time.clock_gettime((~self.pid << 3) | 2)

    def waited(self):
        """Seconds in which its threads had work and no processor, all together."""
        total = 0
        for task in os.listdir(f"/proc/{self.pid}/task"):
            with open(f"/proc/{self.pid}/task/{task}/schedstat") as stat:
                total += int(stat.read().split()[1])
        return total / 1e9

    def status(self, name):
        """A number of the system's account of it: VmRSS and VmHWM are in KiB."""
        with open(f"/proc/{self.pid}/status") as lines:
            return next(int(line.split()[1]) for line in lines if line.startswith(name + ":"))

    def end(self):
        """Ends its input, and tells what it wrote and its status; one that goes on is terminated after five seconds."""
        try:
            out, _ = self.child.communicate(timeout=5)
        except subprocess.TimeoutExpired:
            self.child.terminate()
            out, _ = self.child.communicate()
        shutil.rmtree(self.dir, ignore_errors=True)
        return out.decode(errors="replace"), self.child.returncode


def udp_socket(address, port):
    client = socket.socket(socket.AF_INET, socket.SOCK_DGRAM)
    client.bind((address, 0))
    client.connect(("127.0.0.1", port))
    return client


def connect_request():
    return struct.pack(">QII", PROTOCOL, CONNECT, 7)


def announce_request(bearer, transaction, torrent, port, left, want=50, event=0):
    return struct.pack(">QII20s20sQQQIIIiH", bearer, ANNOUNCE, transaction, torrent, b"-RT0001-abcdefghijkl",
                       0, left, 0, event, 0, 0, want, port)


def scrape_request(bearer, transaction, torrents):
    return struct.pack(">QII", bearer, SCRAPE, transaction) + b"".join(torrents)


def http_request(torrent, port, left, want=50):
    escaped = "".join(f"%{byte:02x}" for byte in torrent)
    query = f"info_hash={escaped}&peer_id=-RT0001-abcdefghijkl&port={port}&uploaded=0&downloaded=0&left={left}"
    return (f"GET /announce?{query}&compact=1&numwant={want} HTTP/1.1\r\nHost: 127.0.0.1\r\nUser-Agent: bench\r\n"
            "Accept: */*\r\nConnection: close\r\n\r\n").encode()


def connection_id(address, port, patience=2.0):
    """What the tracker gives who asks from this address, or nothing where it doesn't answer."""
    with udp_socket(address, port) as client:
        client.settimeout(patience)
        try:
            client.send(connect_request())
            reply = client.recv(2048)
        except OSError:
            return None
    return struct.unpack(">Q", reply[8:16])[0] if len(reply) == 16 else None


def await_announce(address, port, torrent):
    """Announces a seed until that is accepted: a tracker may still be reading its list when it answers first."""
    bearer = connection_id(address, port)
    with udp_socket(address, port) as client:
        client.settimeout(0.5)
        for _ in range(100):
            client.send(announce_request(bearer, 1, torrent, FIRST_PORT, 0))
            try:
                reply = client.recv(2048)
            except TimeoutError:
                continue
            if struct.unpack(">I", reply[:4])[0] == ANNOUNCE:
                return
            time.sleep(0.1)
    sys.exit("the tracker accepts no announce")


def http_open(address, port):
    """A connection from this address; the system is asked for a port of its own as late as it can be."""
    client = socket.socket()
    client.setsockopt(socket.IPPROTO_IP, 24, 1)  # IP_BIND_ADDRESS_NO_PORT
    client.settimeout(15)
    client.bind((address, 0))
    client.connect(("127.0.0.1", port))
    return client


def read_to_end(client):
    text = b""
    while piece := client.recv(65_536):
        text += piece
    return text


def is_announce_body(text):
    return text.startswith(b"HTTP/1.1 200 ") and b"5:peers" in text
