#!/usr/bin/env python3
"""What a server's replies cost: bench/serve.sh [-r ROUNDS] [-s SECONDS] [-w WORKERS] [-- COMMAND ..]

Three servers are filled: one with 1,000 torrents of 200 peers, one with a torrent of 100,000 peers, one with 100,000
torrents of one peer. Then each case below runs for SECONDS, in ROUNDS that take the cases in turn. Two clients in
processes of their own keep at most 192 requests on their way, or 96 scrapes, which a socket's buffer of the usual size
takes in.

connect    a connect request
announce   an announce of a known peer, who wants 50 others, to one of 1,000 torrents of 200
hot        the same to the one torrent of 100,000
cold       the same to one of 100,000 torrents of one peer
scrape     a scrape of 10 of the 1,000 torrents
http       an announce to one of the 1,000 torrents, over a connection of its own

Of each case it prints the median of the server's processor time a reply, of user and system; this as a ratio to a
connect and to an announce; replies a second; how many processors the server used; for how much of the time its threads
had work and no processor, all together; and how many requests had no reply, or a wrong one. Of each fill it prints the
memory.
COMMAND is another tracker, to compare with; bench/loopback.py says what it has to have.
"""
import argparse
import multiprocessing
import os
import random
import statistics
import struct
import sys
import time

from loopback import (ANNOUNCE, CONNECT, FIRST_PORT, SCRAPE, Server, announce_request, await_announce,
                      connect_request, connection_id, http_open, http_request, info_hash, is_announce_body,
                      own_command, raise_open_files, read_to_end, scrape_request, source, udp_socket)

CLIENTS, SOURCES, WINDOW, SCRAPE_WINDOW, HTTP_WINDOW = 2, 8, 24, 12, 32
SHAPES = {"mixed": (1_000, 200), "one": (1, 100_000), "many": (100_000, 1)}
CASES = {"connect": "mixed", "announce": "mixed", "hot": "one", "cold": "many", "scrape": "mixed",
         "http": "mixed"}
WARM_UP, PACKETS = 0.3, 20_000


def endpoints_of(number, shape):
    """The torrents and peers of one source: each peer has a source by its number, and its ports ascend."""
    torrents, peers = shape
    for torrent in range(torrents):
        for peer in range((number - torrent) % SOURCES, peers, SOURCES):
            yield torrent, FIRST_PORT + peer // SOURCES


def left_of(torrent, port):
    return 0 if (torrent + port) % 4 == 0 else 1 << 20


def exchange(client, packets):
    """Sends packets whose transaction ids are their places, and again those that had no announce for a reply."""
    missing = dict(enumerate(packets))
    while missing:
        for packet in missing.values():
            client.send(packet)
        try:
            while missing:
                action, place = struct.unpack(">II", client.recv(2048)[:8])
                if action != ANNOUNCE:
                    raise RuntimeError("an announce was refused while the server was filled")
                missing.pop(place, None)
        except TimeoutError:
            continue


def fill(client_number, answer, port, shape):
    for number in range(client_number, SOURCES, CLIENTS):
        bearer = connection_id(source(number), port)
        with udp_socket(source(number), port) as client:
            client.settimeout(0.2)
            batch = []
            for torrent, at in endpoints_of(number, shape):
                hash_ = info_hash(torrent)
                batch.append(announce_request(bearer, len(batch), hash_, at, left_of(torrent, at), event=2))
                if len(batch) == WINDOW:
                    exchange(client, batch)
                    batch = []
            exchange(client, batch)
    answer.send("filled")


def requests_of(case, number, port, shape, random_):
    """Requests of one source, drawn from all that it may make, and what their replies begin with."""
    if case == "connect":
        return [connect_request()] * PACKETS, struct.pack(">II", CONNECT, 7)
    torrents, _ = shape
    bearer = connection_id(source(number), port)
    if case == "scrape":
        some = range(min(torrents, PACKETS))
        asked = [[info_hash(each) for each in random_.sample(some, 10)] for _ in range(PACKETS // 10)]
        return [scrape_request(bearer, 7, each) for each in asked], struct.pack(">II", SCRAPE, 7)
    known = list(endpoints_of(number, shape))
    drawn = random_.choices(known, k=PACKETS)
    if case == "http":
        return [http_request(info_hash(torrent), at, left_of(torrent, at)) for torrent, at in drawn[:2_000]], None
    return ([announce_request(bearer, 7, info_hash(torrent), at, left_of(torrent, at)) for torrent, at in drawn],
            struct.pack(">II", ANNOUNCE, 7))


class UdpClient:
    """One source, with so many requests on their way."""

    def __init__(self, address, port, packets, begins, window):
        self.socket = udp_socket(address, port)
        self.socket.settimeout(0.2)
        self.packets, self.begins, self.window = packets, begins, window
        self.place = self.waiting = 0

    def turn(self):
        """Takes the replies that are due, and asks again. How many were right, wrong and missing."""
        right = wrong = missing = 0
        try:
            while self.waiting:
                reply = self.socket.recv(2048)
                self.waiting -= 1
                if reply.startswith(self.begins):
                    right += 1
                else:
                    wrong += 1
        except TimeoutError:
            missing, self.waiting = self.waiting, 0
        if self.place + self.window > len(self.packets):
            self.place = 0
        for packet in self.packets[self.place:self.place + self.window]:
            self.socket.send(packet)
        self.place += self.window
        self.waiting = self.window
        return right, wrong, missing


class HttpClient:
    """One source, with a few connections at once, a request on each."""

    def __init__(self, address, port, packets):
        self.address, self.port, self.packets, self.place = address, port, packets, 0

    def turn(self):
        right = wrong = missing = 0
        if self.place + HTTP_WINDOW > len(self.packets):
            self.place = 0
        connections = [http_open(self.address, self.port) for _ in range(HTTP_WINDOW)]
        for connection, packet in zip(connections, self.packets[self.place:]):
            connection.send(packet)
        for connection in connections:
            try:
                text = read_to_end(connection)
            except OSError:
                missing += 1
                continue
            finally:
                connection.close()
            if is_announce_body(text):
                right += 1
            else:
                wrong += 1
        self.place += HTTP_WINDOW
        return right, wrong, missing


def client_of(case, number, port, shape, random_):
    packets, begins = requests_of(case, number, port, shape, random_)
    if case == "http":
        return HttpClient(source(number), port, packets)
    return UdpClient(source(number), port, packets, begins, SCRAPE_WINDOW if case == "scrape" else WINDOW)


def load(client_number, answer, port, case, shape):
    """Loads the server in a span of time that it is told once it is ready, and then tells how its requests ended."""
    random_ = random.Random(client_number)
    clients = [client_of(case, number, port, shape, random_) for number in range(client_number, SOURCES, CLIENTS)]
    counts = [0, 0, 0]
    answer.send("ready")
    from_, until = answer.recv()
    while (now := time.monotonic()) < until:
        for client in clients:
            told = client.turn()
            if now >= from_:
                counts = [before + more for before, more in zip(counts, told)]
    answer.send(counts)


def in_each_client(work, *parts):
    """Runs this in a process for each client, and tells their ends of the pipes and the processes."""
    pipes, children = [], []
    for number in range(CLIENTS):
        ours, theirs = multiprocessing.Pipe()
        children.append(multiprocessing.Process(target=work, args=(number, theirs, *parts), daemon=True))
        children[-1].start()
        pipes.append(ours)
    return pipes, children


def measure(server, case, shape, seconds):
    """One run of a case: microseconds a reply, replies a second, processors, waiting, and what went wrong."""
    pipes, children = in_each_client(load, server.port, case, shape)
    for pipe in pipes:
        pipe.recv()
    from_ = time.monotonic() + WARM_UP
    for pipe in pipes:
        pipe.send((from_, from_ + seconds))
    time.sleep(max(0.0, from_ - time.monotonic()))
    begun, spent, waited = time.monotonic(), server.processor_time(), server.waited()
    time.sleep(max(0.0, from_ + seconds - time.monotonic()))
    passed = time.monotonic() - begun
    spent, waited = server.processor_time() - spent, server.waited() - waited
    right, wrong, missing = (sum(each) for each in zip(*(pipe.recv() for pipe in pipes)))
    for child in children:
        child.join()
    return {"cost": 1e6 * spent / max(right, 1), "rate": right / passed, "used": spent / passed,
            "waited": waited / passed, "lost": wrong + missing}


def filled(name, command):
    torrents, peers = SHAPES[name]
    hashes = [info_hash(torrent) for torrent in range(torrents)]
    server = Server(command, hashes)
    await_announce(source(0), server.port, hashes[-1])
    empty = server.status("VmRSS")
    pipes, children = in_each_client(fill, server.port, SHAPES[name])
    for pipe in pipes:
        pipe.recv()
    for child in children:
        child.join()
    full = server.status("VmRSS")
    print(f"{name:8} {torrents:7} torrents of {peers:6} peers: {empty} KiB empty, {full} KiB filled, "
          f"{(full - empty) * 1024 / (torrents * peers):.0f} bytes a peer")
    return server


def show(runs):
    def median(case, key):
        return statistics.median(run[key] for run in runs[case])

    print("\ncase      us a reply  of connect  of announce  replies/s   used  waited   lost")
    for case in runs:
        cost = median(case, "cost")
        print(f"{case:8} {cost:11.2f} {cost / median('connect', 'cost'):11.2f}"
              f" {cost / median('announce', 'cost'):12.2f} {median(case, 'rate'):10.0f} {median(case, 'used'):6.2f} {median(case, 'waited'):7.2f}"
              f" {sum(run['lost'] for run in runs[case]):6}")


def main():
    parser = argparse.ArgumentParser(add_help=False, usage=__doc__.splitlines()[0].partition(": ")[2])
    parser.add_argument("-r", type=int, default=3)
    parser.add_argument("-s", type=float, default=2.0)
    parser.add_argument("-w", type=int, default=2)
    parser.add_argument("command", nargs="*")
    chosen = parser.parse_args()
    sys.stdout.reconfigure(line_buffering=True)
    raise_open_files()
    command = chosen.command or own_command(chosen.w)
    print(f"{os.cpu_count()} processors, {chosen.r} rounds of {chosen.s:g} s: {os.path.basename(command[0])}")
    servers = {}
    try:
        for name in SHAPES:
            servers[name] = filled(name, command)
        runs = {case: [] for case in CASES}
        for _ in range(chosen.r):
            for case, name in CASES.items():
                runs[case].append(measure(servers[name], case, SHAPES[name], chosen.s))
        show(runs)
    finally:
        for name, server in servers.items():
            out, status = server.end()
            print(f"{name} ended with status {status}: {out.strip()}")


if __name__ == "__main__":
    main()
