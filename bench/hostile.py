#!/usr/bin/env python3
"""Whether a server goes on serving beside clients that mean it ill: bench/hostile.py [SECONDS] [-- COMMAND ..]

For SECONDS, at first 60, two processes send random datagrams of 0 to 65,507 bytes, of which half look like requests,
and open connections that send random bytes, of which half begin like a request. A polite client announces twenty times
a second meanwhile, in turn by a datagram and by a connection. It has to be told the other peer of its torrent each
time; a datagram that isn't answered in half a second is sent again, up to ten times. Then 1,000 connections send a
byte a second each, never a whole head, and are opened again when the server ends them; how long the polite client
waits is told without them and beside them.

It ends with status 1 where a polite announce was never answered or wrongly, or where the memory of the server (VmRSS)
grew by more than 1 MiB after the first quarter of the time. COMMAND is another tracker; bench/loopback.py says what it
has to have.
"""
import argparse
import multiprocessing
import os
import random
import selectors
import socket
import statistics
import struct
import sys
import time

from loopback import (ANNOUNCE, FIRST_PORT, PROTOCOL, Server, announce_request, await_announce, connection_id,
                      http_open, http_request, info_hash, is_announce_body, own_command, raise_open_files, read_to_end,
                      source, udp_socket)

SLOW, ASKED, TRIES, GROWTH = 1_000, 400, 10, 1_024
POLITE, ANNOUNCED = source(400), source(399)
OTHER = socket.inet_aton(ANNOUNCED) + struct.pack(">H", FIRST_PORT)


def random_datagram(random_):
    """Of any length, or one that looks like a request up to some byte."""
    if random_.random() < 0.5:
        return random_.randbytes(random_.choice([0, 1, 8, 15, 16, 17, 35, 36, 97, 98, 99, 2_047, 2_048, 2_049,
                                                 65_507, random_.randrange(65_508)]))
    action = random_.choice([0, 1, 2, 3, 255, random_.randrange(1 << 32)])
    first = random_.choice([PROTOCOL, random_.randrange(1 << 64)])
    return struct.pack(">QI", first, action) + random_.randbytes(random_.choice([0, 4, 24, 84, 86, 90, 1_484, 4_000]))


def flood_datagrams(port, until, sent):
    random_ = random.Random(1)
    client = udp_socket(source(401), port)
    while time.monotonic() < until:
        for _ in range(32):
            try:
                client.send(random_datagram(random_))
                sent.value += 1
            except OSError:
                continue
        client.setblocking(False)
        try:
            while client.recv(2048):
                pass
        except OSError:
            pass
        client.setblocking(True)
        time.sleep(0.001)


def flood_connections(port, until, sent):
    random_ = random.Random(2)
    begins = [b"", b"", b"", b"GET /announce?", b"GET /announce?info_hash=%", b"POST / HTTP/1.1\r\n"]
    while time.monotonic() < until:
        try:
            with http_open(source(402), port) as client:
                client.settimeout(0.05)
                client.send(random_.choice(begins) + random_.randbytes(random_.choice([0, 1, 2, 100, 8_192, 65_536])))
                sent.value += 1
                if random_.random() < 0.5:
                    client.send(b"\r\n\r\n")
                    read_to_end(client)
        except OSError:
            continue


class Polite:
    """A client that announces to one torrent, which it shares with one other peer."""

    def __init__(self, port):
        self.port, self.torrent, self.since, self.bearer = port, info_hash(0), 0.0, None
        self.tries = []
        self.wrong = self.unanswered = 0

    def datagram(self):
        """Seconds until an announce was answered, by a datagram; nothing where it never was."""
        if time.monotonic() > self.since + 60:
            self.bearer = next(filter(None, (connection_id(POLITE, self.port, 0.5) for _ in range(TRIES))), None)
            self.since = time.monotonic()
        if self.bearer is None:
            self.unanswered += 1
            self.since = 0.0
            return None
        with udp_socket(POLITE, self.port) as client:
            client.settimeout(0.5)
            begun = time.monotonic()
            for sent in range(1, TRIES + 1):
                client.send(announce_request(self.bearer, sent, self.torrent, FIRST_PORT, 1))
                try:
                    reply = client.recv(2048)
                except TimeoutError:
                    continue
                self.tries.append(sent)
                self.wrong += struct.unpack(">I", reply[:4])[0] != ANNOUNCE or OTHER not in reply[20:]
                return time.monotonic() - begun
        self.unanswered += 1
        return None

    def connection(self):
        """The same by a connection."""
        begun = time.monotonic()
        try:
            with http_open(POLITE, self.port) as client:
                client.send(http_request(self.torrent, FIRST_PORT, 1))
                text = read_to_end(client)
        except OSError:
            text = b""
        if not text:
            self.unanswered += 1
            return None
        self.wrong += not (is_announce_body(text) and OTHER in text)
        return time.monotonic() - begun


def flood(server, seconds):
    """Runs the flood, and tells how much the memory grew after its first quarter, in KiB."""
    until = time.monotonic() + seconds
    sent = [multiprocessing.Value("Q", 0) for _ in range(2)]
    children = [multiprocessing.Process(target=work, args=(server.port, until, count), daemon=True)
                for work, count in zip((flood_datagrams, flood_connections), sent)]
    polite, sizes, turn = Polite(server.port), [], 0
    for child in children:
        child.start()
    while time.monotonic() < until:
        polite.connection() if turn % 2 else polite.datagram()
        turn += 1
        sizes.append(server.status("VmRSS"))
        time.sleep(0.05)
    for child in children:
        child.join()
    sizes.append(server.status("VmRSS"))
    quarter, last = sizes[len(sizes) // 4], sizes[-1]
    again = sum(tries > 1 for tries in polite.tries)
    print(f"flood of {seconds:g} s: {sent[0].value} datagrams, {sent[1].value} connections; "
          f"{turn} polite announces, of {len(polite.tries)} by datagrams {again} sent again, {polite.wrong} wrong, "
          f"{polite.unanswered} unanswered")
    print(f"memory: {sizes[0]} KiB at first, {quarter} after a quarter, {last} at the end, "
          f"ratio of the last two {last / quarter:.3f}")
    return polite.wrong + polite.unanswered, last - quarter


def drip(port, begun, done, ended):
    """Keeps so many connections, each of which sends a byte a second, and opens again what the server ends."""
    raise_open_files()
    text = b"GET /announce?info_hash=" + b"a" * 8_000
    watch, kept = selectors.DefaultSelector(), {}

    def add(place):
        try:
            client = http_open(source(403 + place % 100), port)
        except OSError:
            return
        client.setblocking(False)
        kept[place] = [client, 0]
        watch.register(client, selectors.EVENT_READ, place)

    def drop(place):
        client, _ = kept.pop(place)
        watch.unregister(client)
        client.close()

    place = 0
    while not done.is_set():
        if place not in kept:
            add(place)
        if place in kept:
            client, at = kept[place]
            try:
                client.send(text[at:at + 1])
                kept[place][1] = at + 1
            except OSError:
                drop(place)
                ended.value += 1
        place = (place + 1) % SLOW
        if len(kept) == SLOW:
            begun.set()
        for key, _ in watch.select(1 / SLOW if begun.is_set() else 0):
            try:
                over = not key.fileobj.recv(4_096)
            except OSError:
                over = True
            if over:
                drop(key.data)
                ended.value += 1
    for one in list(kept):
        drop(one)


def waits(polite, ask):
    """The median and the 99th of 100 parts of how long the polite client waits, in milliseconds."""
    told = []
    for _ in range(ASKED):
        told.append(ask(polite))
        time.sleep(0.01)
    told = sorted(1e3 * each for each in told if each is not None)
    if len(told) < ASKED // 2:
        sys.exit("bench/hostile.py: the polite client is hardly answered")
    return statistics.median(told), told[len(told) * 99 // 100]


def slow_clients(server):
    """Tells what 1,000 slow connections cost the polite client, and how many of its announces went wrong."""
    polite = Polite(server.port)
    kinds = {"datagram": Polite.datagram, "connection": Polite.connection}
    alone = {kind: waits(polite, ask) for kind, ask in kinds.items()}
    begun, done, ended = multiprocessing.Event(), multiprocessing.Event(), multiprocessing.Value("Q", 0)
    child = multiprocessing.Process(target=drip, args=(server.port, begun, done, ended), daemon=True)
    child.start()
    if not begun.wait(60):
        print(f"not all of the {SLOW} slow connections could be opened at once")
    started, spent = time.monotonic(), server.processor_time()
    beside = {kind: waits(polite, ask) for kind, ask in kinds.items()}
    passed, spent = time.monotonic() - started, server.processor_time() - spent
    size = server.status("VmRSS")
    done.set()
    child.join()
    print(f"{SLOW} connections that send a byte a second, {passed:.0f} s: the server ended {ended.value}, "
          f"used {spent / passed:.2f} of a processor, {size} KiB")
    for kind in kinds:
        (median, late), (median_beside, late_beside) = alone[kind], beside[kind]
        print(f"a polite announce by a {kind}: median {median:.2f} ms alone, {median_beside:.2f} beside them "
              f"(ratio {median_beside / median:.2f}); 99th of 100 {late:.2f} and {late_beside:.2f} "
              f"(ratio {late_beside / late:.2f})")
    return polite.wrong + polite.unanswered


def main():
    parser = argparse.ArgumentParser(add_help=False, usage=__doc__.splitlines()[0].partition(": ")[2])
    parser.add_argument("seconds", type=float, nargs="?", default=60.0)
    words, _, command = " ".join(sys.argv[1:]).partition("-- ")
    chosen = parser.parse_args(words.split())
    sys.stdout.reconfigure(line_buffering=True)
    raise_open_files()
    server = Server(command.split() or own_command(2), [info_hash(0)])
    try:
        await_announce(ANNOUNCED, server.port, info_hash(0))
        failed, grown = flood(server, chosen.seconds)
        failed += slow_clients(server)
    finally:
        out, status = server.end()
        print(f"ended with status {status}: {out.strip()}")
    if failed or grown > GROWTH:
        sys.exit(f"bench/hostile.py: {failed} announces went wrong, the memory grew by {grown} KiB")


if __name__ == "__main__":
    main()
