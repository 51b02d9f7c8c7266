#!/usr/bin/env python3
"""Makes traces for the benchmarks: traces.py KIND COUNT > FILE

connects    connect requests of many endpoints
announces   announces over 1,000 torrents by 100,000 endpoints, each of them first as a leecher
torrent     announces to one torrent by 1,000 endpoints
swarm       announces to one torrent by 50,000 endpoints
stops       announces and stops in turn, over 1,000 torrents: each peer comes and goes
scrape      scrapes of one torrent each, of 74 torrents with a peer each
scrapes     the same of 74 torrents each
scrape_of_1000, scrapes_of_1000
            the same two of 1,000 torrents
http        the announces, over HTTP: connections that sent a head of some 300 bytes
full_swarm  announces to one torrent by 1,000,000 endpoints
torrents    announces over 100,000 torrents by as many endpoints
few         announces over 100 torrents by 100,000 endpoints

Connects come at ten a second, announces of the last three kinds at a thousand a second, all else at
a hundred a second. Before the scrapes each torrent is announced.
"""
import hashlib
import random
import struct
import sys

NOTHING, STOPPED = 0, 3


def dotted(address):
    return ".".join(str(byte) for byte in address)


def connection_id(address, minute):
    text = bytes(20) + bytes(10) + b"\xff\xff" + address + struct.pack(">Q", minute)
    return hashlib.sha1(text).digest()[:8]


def address_of(who):
    return bytes([10]) + who.to_bytes(3, "big")


def info_hash(torrent):
    return hashlib.sha1(b"torrent %d" % torrent).digest()


def record(seconds, address, port, datagram):
    return f"U {seconds} {dotted(address)} {port} {datagram.hex()}\n"


def announce(i, seconds, who, torrent, left, event=NOTHING, want=50):
    address = address_of(who)
    datagram = connection_id(address, seconds // 60) + struct.pack(
        ">II20s20sQQQIIIiH",
        1, i & 0xFFFFFFFF, info_hash(torrent), b"-xx0000-000000000000", 0, left, 0, event, 0, 0, want, 6881,
    )
    return record(seconds, address, 6881, datagram)


def connects(count, write):
    rng = random.Random(1)
    for i in range(count):
        address = bytes([10]) + rng.getrandbits(24).to_bytes(3, "big")
        transaction, port = rng.getrandbits(32), rng.randrange(1, 65536)
        write(record(i // 10, address, port, struct.pack(">QII", 0x41727101980, 0, transaction)))


def announces(count, write, torrents=1_000, endpoints=100_000, a_second=100):
    """Endpoints announce in turn, each to one torrent; from the second round on every third is a seed."""
    for i in range(count):
        who, round_ = i % endpoints, i // endpoints
        left = 0 if round_ and who % 3 == 0 else 1 << 30
        write(announce(i, i // a_second, who, who % torrents, left))


def torrent(count, write):
    announces(count, write, torrents=1, endpoints=1_000)


def swarm(count, write):
    announces(count, write, torrents=1, endpoints=50_000)


def stops(count, write):
    for i in range(count):
        who = i // 2 % 100_000
        write(announce(i, i // 100, who, who % 1_000, 1 << 30, STOPPED if i % 2 else NOTHING))


def scrape(count, write, hashes=1, torrents=74):
    announces(torrents, write, torrents)
    for i in range(count):
        seconds, address = 10 + i // 100, address_of(i % 100_000)
        names = b"".join(info_hash((i + k) % torrents) for k in range(hashes))
        datagram = connection_id(address, seconds // 60) + struct.pack(">II", 2, i & 0xFFFFFFFF) + names
        write(record(seconds, address, 6881, datagram))


def scrapes(count, write):
    scrape(count, write, hashes=74)


def scrape_of_1000(count, write):
    scrape(count, write, torrents=1_000)


def scrapes_of_1000(count, write):
    scrape(count, write, hashes=74, torrents=1_000)


def http(count, write, torrents=1_000, endpoints=100_000):
    """The announces of the same endpoints as `announces`, each as a usual client's request."""
    for i in range(count):
        who, round_ = i % endpoints, i // endpoints
        left = 0 if round_ and who % 3 == 0 else 1 << 30
        name = "".join(f"%{byte:02x}" for byte in info_hash(who % torrents))
        head = (
            f"GET /announce?info_hash={name}&peer_id=-xx0000-000000000000&port=6881&uploaded=0&downloaded=0"
            f"&left={left}&numwant=50&key=1a2b3c4d&compact=1 HTTP/1.1\r\n"
            "Host: tracker.example:6969\r\nUser-Agent: client/1.0\r\nAccept: */*\r\nAccept-Encoding: gzip\r\n\r\n"
        )
        write(f"H {i // 100} {dotted(address_of(who))} 6881 {head.encode().hex()}\n")


def full_swarm(count, write):
    announces(count, write, torrents=1, endpoints=1_000_000, a_second=1_000)


def torrents(count, write):
    announces(count, write, torrents=100_000, a_second=1_000)


def few(count, write):
    announces(count, write, torrents=100, a_second=1_000)


KINDS = [
    connects, announces, torrent, swarm, stops, scrape, scrapes, scrape_of_1000, scrapes_of_1000, http, full_swarm, torrents,
    few,
]


def main():
    kind, count = sys.argv[1], int(sys.argv[2])
    {kind.__name__: kind for kind in KINDS}[kind](count, sys.stdout.write)


if __name__ == "__main__":
    main()
