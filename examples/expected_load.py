#!/usr/bin/env python3
"""The text that `opentracker drill SEED COUNT WORKERS bits=BITS` writes, computed on its own.

It shares nothing with the tracker: the generator (PCG XSH RR 64/32, seeded as rand_core 0.6 seeds
by a number), the requests, and what a tracker knows after them are written here anew, in one list
of requests and with one thread. The number of workers changes nothing, and isn't asked for.

    examples/expected_load.py SEED COUNT BITS
"""

import sys

WORD = (1 << 32) - 1
LONG = (1 << 64) - 1
MULTIPLIER = 6364136223846793005
SEED_INCREMENT = 11634580027462260723
PHASES = 8
PHASE_MINUTES = 15
PEER_MINUTES = 45


def output(state):
    """The 32 bits that a state gives."""
    shifted = (((state >> 18) ^ state) >> 27) & WORD
    turn = state >> 59
    return ((shifted >> turn) | (shifted << (32 - turn))) & WORD


def generator(seed):
    """The words of a generator that is seeded by a number."""
    halves = []
    for _ in range(4):
        seed = (seed * MULTIPLIER + SEED_INCREMENT) & LONG
        halves.append(output(seed))
    state = halves[0] | halves[1] << 32
    increment = (halves[2] | halves[3] << 32) | 1
    state = ((state + increment) * MULTIPLIER + increment) & LONG
    while True:
        yield output(state)
        state = (state * MULTIPLIER + increment) & LONG


def text(seed, count, bits):
    """All lines of a load."""
    words = generator(seed)
    peers = {}  # (torrent, peer) to (seed?, minute of the last announce)
    downloads = {}  # torrent to downloads; a torrent stands here from its first announce on
    lines = []
    number = 0
    for phase in range(PHASES):
        minute = PHASE_MINUTES * phase
        while number < count and number * PHASES // count == phase:
            first, second = next(words), next(words)
            torrent, kind, peer = first % 64, first // 64 % 8, second % 1024
            if kind == 0:
                peers.pop((torrent, peer), None)
            else:
                is_seed, at = peers.get((torrent, peer), (False, -PEER_MINUTES))
                was_seed = is_seed and minute - at < PEER_MINUTES
                downloads.setdefault(torrent, 0)
                downloads[torrent] += kind == 1 and not was_seed
                peers[torrent, peer] = (kind <= 3, minute)
            number += 1
        live = [is_seed for is_seed, at in peers.values() if minute - at < PEER_MINUTES]
        lines.append(
            f"phase {phase} torrents {len(downloads)} complete {sum(live)}"
            f" downloaded {sum(downloads.values())} incomplete {len(live) - sum(live)}"
        )
    lines.append(f"calls {count + PHASES * 2 ** bits}")
    return "".join(line + "\n" for line in lines)


if __name__ == "__main__":
    sys.stdout.write(text(*(int(word) for word in sys.argv[1:4])))
