#!/usr/bin/env python3
"""What sharing with another node and cleaning cost a server: bench/sync.sh [-r ROUNDS] [-s SECONDS] [-w WORKERS] [-c]
[-m MINUTES]

share   Announces of known peers over UDP, who want 50 others, to 1,000 torrents of 200: to a server alone, and to one
        that tells a second one of each. Per kind the median of the server's processor time a reply, the ratio of the
        second to the first, and replies a second.
cross   200,000 peers are announced to one node, and the other one is told of them. How long that took, from the first
        announce to the last peer at the other node, how many notes a second that makes, and how many didn't come: a
        lost datagram isn't sent again.
clean   With -c alone, since it takes minutes: 1,000,000 peers in 1,000 torrents, and 200 announces a second, each
        waiting for its reply, until the clock's minute has changed MINUTES times. A cleaner goes over all buckets once
        a minute. The processor time of each second in which the minute changes beside that of the others, and the
        announces' latencies in these seconds and in the others.
"""
import argparse
import multiprocessing
import random
import statistics
import struct
import time

from loopback import (FIRST_PORT, PROGRAM, SECRET, Server, announce_request, await_announce, connection_id, free_port,
                      info_hash, raise_open_files, scrape_request, source, udp_socket)
from serve import SHAPES, fill, in_each_client, measure

ANNOUNCES_A_SECOND = 200
TORRENTS, PEERS = 1_000, 1_000


def command(workers, own=None, at=None, others=()):
    """A server's command, and where it has a number also what it shares with whom."""
    words = [PROGRAM, "serve", "udp=127.0.0.1:@PORT@", f"workers={workers}", f"secret={SECRET}"]
    if own is not None:
        nodes = ",".join(f"127.0.0.1:{port}" for port in others)
        words += [f"sync=127.0.0.1:{at}", f"nodes={nodes}", f"id={own}"]
    return words


def two_nodes(workers):
    """Two nodes that tell one another."""
    one, two = free_port(), free_port()
    return (Server(command(workers, 1, one, [two])), Server(command(workers, 2, two, [one])))


def fill_all(server, shape):
    await_announce(source(0), server.port, info_hash(0))
    pipes, children = in_each_client(fill, server.port, shape)
    for pipe in pipes:
        pipe.recv()
    for child in children:
        child.join()


def peers_at(server, torrents):
    """How many peers a server counts in these torrents: scrapes of 70 at a time."""
    total = 0
    bearer = connection_id(source(0), server.port)
    with udp_socket(source(0), server.port) as client:
        client.settimeout(1)
        for first in range(0, torrents, 70):
            asked = [info_hash(each) for each in range(first, min(first + 70, torrents))]
            client.send(scrape_request(bearer, 7, asked))
            reply = client.recv(2048)
            numbers = struct.unpack(f">{(len(reply) - 8) // 4}I", reply[8:])
            total += sum(numbers[0::3]) + sum(numbers[2::3])
    return total


def show_share(options):
    alone = Server(command(options.workers))
    sharing, other = two_nodes(options.workers)
    for server in (alone, sharing):
        fill_all(server, SHAPES["mixed"])
    runs = {"alone": [], "sharing": []}
    for _ in range(options.rounds):
        for name, server in (("alone", alone), ("sharing", sharing)):
            runs[name].append(measure(server, "announce", SHAPES["mixed"], options.seconds))
    ratios = [two["cost"] / one["cost"] for one, two in zip(runs["alone"], runs["sharing"])]
    for name, told in runs.items():
        print(f"share    {name:8} {statistics.median(run['cost'] for run in told):6.1f} us a reply, "
              f"{statistics.median(run['rate'] for run in told):9,.0f} replies a second")
    print(f"share    ratio {statistics.median(ratios):.2f} ({min(ratios):.2f} to {max(ratios):.2f})")
    for server in (alone, sharing, other):
        server.end()


def show_cross(options):
    one, two = two_nodes(options.workers)
    torrents, peers = SHAPES["mixed"]
    all_peers = torrents * peers
    begun = time.monotonic()
    fill_all(one, SHAPES["mixed"])
    filled = time.monotonic() - begun
    came, last = 0, begun + filled
    while time.monotonic() - last < 2 and came < all_peers:
        now = peers_at(two, torrents)
        if now > came:
            came, last = now, time.monotonic()
    took = max(last - begun, 1e-9)
    print(f"cross    {came} of {all_peers} peers came to the other node {took:.1f} s after the first announce "
          f"({filled:.1f} s to announce them): {came / took:,.0f} notes a second, {all_peers - came} lost")
    for server in (one, two):
        server.end()


def announces(answer, port, until):
    """Announces again and again, and tells when each was sent and how long its reply took."""
    random_ = random.Random(1)
    address = source(0)
    bearer = connection_id(address, port)
    told = []
    with udp_socket(address, port) as client:
        client.settimeout(5)
        due = time.time()
        while due < until:
            time.sleep(max(0.0, due - time.time()))
            torrent = info_hash(random_.randrange(TORRENTS))
            sent = time.time()
            client.send(announce_request(bearer, 7, torrent, FIRST_PORT, 0))
            client.recv(2048)
            told.append((sent, time.time() - sent))
            due += 1 / ANNOUNCES_A_SECOND
    answer.send(told)


def show_clean(options):
    server = Server(command(options.workers))
    fill_all(server, (TORRENTS, PEERS))
    ours, theirs = multiprocessing.Pipe()
    until = (time.time() // 60 + options.minutes) * 60 + 5
    child = multiprocessing.Process(target=announces, args=(theirs, server.port, until), daemon=True)
    child.start()
    spent, before = {}, server.processor_time()
    while (now := time.time()) < until:
        time.sleep(1 - now % 1)
        after = server.processor_time()
        spent[int(now)] = after - before
        before = after
    told = ours.recv()
    child.join()
    print(f"clean    {TORRENTS * PEERS} peers in {server.status('VmRSS')} KiB")
    for name, is_in in (("minutes", lambda at: int(at) % 60 == 0), ("others", lambda at: int(at) % 60 > 0)):
        cost = [1e3 * each for at, each in spent.items() if is_in(at)]
        late = sorted(1e3 * each for at, each in told if is_in(at))
        print(f"clean    {name:8} {statistics.median(cost):8.1f} ms of a processor a second; announces: median "
              f"{late[len(late) // 2]:.2f} ms, 99 % within {late[len(late) * 99 // 100]:.2f}, at most {late[-1]:.2f}")
    server.end()


def main():
    parser = argparse.ArgumentParser(usage=__doc__.partition(": ")[2].partition("\n\n")[0])
    parser.add_argument("-r", "--rounds", type=int, default=3)
    parser.add_argument("-s", "--seconds", type=float, default=1.0)
    parser.add_argument("-w", "--workers", type=int, default=1)
    parser.add_argument("-c", "--clean", action="store_true")
    parser.add_argument("-m", "--minutes", type=int, default=3)
    options = parser.parse_args()
    raise_open_files()
    if options.clean:
        show_clean(options)
        return
    show_share(options)
    show_cross(options)


if __name__ == "__main__":
    main()
