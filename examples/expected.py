#!/usr/bin/env python3
"""What a replay of a trace must write: expected.py [SETTING ..] < TRACE > REPLIES

A tracker on its own, with nothing in common with the one in crates/ but the formats and rules of docs/. It takes the
settings of `opentracker replay`. It answers datagrams (`U`) and connections (`H`) of IPv4, and rounds of the cleaner
(`C`), and knows no line that isn't one of these or, before them, of an access list.
"""
import hashlib
import re
import struct
import sys

PEER_MINUTES, TORRENT_MINUTES = 45, 1440
DATAGRAM_BYTES, CONNECTION_BYTES = 2048, 8192
SETTINGS = {
    "bits": "10", "peers": "100000", "torrents": "65536", "full": "off", "secret": "00" * 20, "seed": "0", "access": None,
}


class Refused(Exception):
    """A request that is answered with a reason."""


class Generator:
    """PCG XSH RR 64/32 (O'Neill 2014), seeded by a number as Rust's `rand_core` does: by the words of another one."""

    MULTIPLIER = 6364136223846793005

    def __init__(self, seed):
        self.state, self.increment = seed, 11634580027462260723
        words = [self.moved() for _ in range(4)]
        state, self.increment = words[0] | words[1] << 32, words[2] | words[3] << 32 | 1
        self.state = state + self.increment
        self.step()

    def step(self):
        self.state = (self.state * self.MULTIPLIER + self.increment) % 2**64

    def output(self):
        word = ((self.state >> 18 ^ self.state) >> 27) % 2**32
        turn = self.state >> 59
        return (word >> turn | word << (32 - turn)) % 2**32

    def moved(self):
        self.step()
        return self.output()

    def word(self):
        word = self.output()
        self.step()
        return word

    def words(self):
        return [self.word() for _ in range(200)]


def pick(words, elements, count):
    """So many of the elements: each word's remainder by how many are left says which of these is next."""
    left = list(elements)
    return [left.pop(word % len(left)) for word in words[: min(count, len(elements))]]


class Torrent:
    """The peers in the order in which they are told: each as its endpoint, whether it is a seed, the minute of its last
    announce, and how many announces came before that. Where one goes, the last one moves into its place."""

    def __init__(self):
        self.peers, self.touch, self.downloaded, self.announces = [], 0, 0, 0

    def place(self, endpoint):
        return next((i for i, peer in enumerate(self.peers) if peer[0] == endpoint), None)

    def put(self, endpoint, seed, minute):
        peer, place = (endpoint, seed, minute, self.announces), self.place(endpoint)
        self.announces += 1
        if place is None:
            self.peers.append(peer)
        else:
            self.peers[place] = peer

    def take(self, endpoint):
        place = self.place(endpoint)
        if place is not None:
            self.peers[place] = self.peers[-1]
            self.peers.pop()

    def age(self, minute):
        """Peers that aren't live are gone, minute by minute, of each the ones first that announced last."""
        stale = [peer for peer in self.peers if minute - peer[2] >= PEER_MINUTES]
        for peer in sorted(stale, key=lambda peer: (peer[2], -peer[3])):
            self.take(peer[0])

    def counts(self):
        complete = sum(peer[1] for peer in self.peers)
        return complete, self.downloaded, len(self.peers) - complete


class Bucket:
    """The torrents whose hashes begin with the same bits."""

    def __init__(self, peers, torrents):
        self.time, self.torrents, self.limits = 0, {}, (peers, torrents)

    def advance(self, minute):
        """Time passes: torrents that aren't known any more are gone."""
        self.time = max(self.time, minute)
        self.torrents = {h: t for h, t in self.torrents.items() if self.time - t.touch < TORRENT_MINUTES}

    def torrent(self, info_hash):
        """The torrent of a hash with its live peers; one without any, where it isn't known."""
        torrent = self.torrents.get(info_hash, Torrent())
        torrent.age(self.time)
        return torrent

    def announce(self, info_hash, endpoint, seed, completed, want, words):
        known, torrent = info_hash in self.torrents, self.torrent(info_hash)
        place = torrent.place(endpoint)
        if known and place is None and len(torrent.peers) == self.limits[0]:
            raise Refused(b"swarm is full")
        if not known and len(self.torrents) == self.limits[1]:
            raise Refused(b"tracker is full")
        self.torrents[info_hash] = torrent
        if completed and not (place is not None and torrent.peers[place][1]):
            torrent.downloaded += 1
        torrent.put(endpoint, seed, self.time)
        torrent.touch = self.time
        others = [peer[0] for peer in torrent.peers if peer[0] != endpoint]
        return torrent.counts(), pick(words, others, want)

    def stop(self, info_hash, endpoint):
        torrent = self.torrent(info_hash)
        torrent.take(endpoint)
        return torrent.counts(), []

    def scrape(self, info_hash):
        return self.torrent(info_hash).counts()

    def clean(self):
        """How many live peers there are."""
        return sum(len(self.torrent(info_hash).peers) for info_hash in self.torrents)


class Tracker:
    """All buckets, and what the settings say."""

    def __init__(self, settings):
        self.bits = int(settings["bits"])
        self.buckets = [Bucket(int(settings["peers"]), int(settings["torrents"])) for _ in range(2**self.bits)]
        self.full = settings["full"] == "on"
        self.secret = bytes.fromhex(settings["secret"])
        self.generator = Generator(int(settings["seed"]))
        self.access, self.listed = settings["access"], set()

    def admits(self, info_hash):
        return self.access is None or (info_hash in self.listed) == (self.access == "allow")

    def bucket(self, minute, info_hash):
        """The bucket of a hash, for which it is this minute or a later one."""
        bucket = self.buckets[int.from_bytes(info_hash[:2], "big") >> (16 - self.bits)]
        bucket.advance(minute)
        return bucket

    def announce(self, minute, info_hash, *peer):
        return self.bucket(minute, info_hash).announce(info_hash, *peer, self.generator.words())

    def stop(self, minute, info_hash, endpoint):
        return self.bucket(minute, info_hash).stop(info_hash, endpoint)

    def scrape(self, minute, info_hash):
        """The counts of a torrent, and whether it is known."""
        bucket = self.bucket(minute, info_hash)
        return bucket.scrape(info_hash), info_hash in bucket.torrents

    def all_buckets(self, minute):
        for bucket in self.buckets:
            bucket.advance(minute)
            yield bucket

    def clean(self, minute):
        return sum(bucket.clean() for bucket in self.all_buckets(minute))

    def scan(self, minute):
        """All known torrents with their counts."""
        return {h: bucket.scrape(h) for bucket in self.all_buckets(minute) for h in sorted(bucket.torrents)}

    def connection_id(self, address, minute):
        text = self.secret + bytes(10) + b"\xff\xff" + address + struct.pack(">Q", minute)
        return hashlib.sha1(text).digest()[:8]

    def read_list(self, lines):
        """Takes the lines of the access list, where there is one."""
        if self.access is not None:
            for line in iter(lambda: next(lines).rstrip("\n"), "end"):
                if line and not line.startswith("#"):
                    self.listed.add(bytes.fromhex(line))


def compact(peers):
    """Six bytes for each peer."""
    return b"".join(address + struct.pack(">H", port) for address, port in peers)


def error(transaction, text):
    return struct.pack(">II", 3, transaction) + text


def announce_reply(tracker, minute, transaction, address, datagram):
    info_hash = datagram[16:36]
    left, = struct.unpack(">Q", datagram[64:72])
    event, = struct.unpack(">I", datagram[80:84])
    want, port = struct.unpack(">iH", datagram[92:98])
    endpoint, completed = (address, port), event == 1
    if port == 0:
        raise Refused(b"bad port")
    if not tracker.admits(info_hash):
        raise Refused(b"not authorized")
    if event == 3:
        told = tracker.stop(minute, info_hash, endpoint)
    else:
        want = 50 if want < 0 else min(want, 200)
        told = tracker.announce(minute, info_hash, endpoint, left == 0 or completed, completed, want)
    (seeders, _, leechers), peers = told
    return struct.pack(">IIIII", 1, transaction, 1800, leechers, seeders) + compact(peers)


def scrape_reply(tracker, minute, transaction, _, datagram):
    hashes = [datagram[i : i + 20] for i in range(16, len(datagram) - 19, 20)][:74]
    groups = (struct.pack(">III", *tracker.scrape(minute, info_hash)[0]) for info_hash in hashes)
    return struct.pack(">II", 2, transaction) + b"".join(groups)


def datagram_output(tracker, minute, address, datagram):
    """The output line of a datagram: the reply to it in hex digits, or why there is none."""
    if len(datagram) < 16:
        return "S short"
    connection, action, transaction = struct.unpack(">8sII", datagram[:16])
    if action == 0 and connection != struct.pack(">Q", 0x41727101980):
        return "S protocol"
    if action == 1 and len(datagram) < 98:
        return "S announce"
    if action == 2 and len(datagram) < 36:
        return "S scrape"
    if action == 0:
        reply = struct.pack(">II", 0, transaction) + tracker.connection_id(address, minute)
    elif action > 2:
        reply = error(transaction, b"unknown action")
    elif connection not in [tracker.connection_id(address, m) for m in (minute, minute - 1, minute - 2) if m >= 0]:
        reply = error(transaction, b"bad connection id")
    else:
        try:
            reply = (announce_reply if action == 1 else scrape_reply)(tracker, minute, transaction, address, datagram)
        except Refused as why:
            reply = error(transaction, why.args[0])
    return "R " + reply.hex()


class Head:
    """A request's head (RFC 9112): a method, a target and at most 64 fields, at the front of what was sent. A line may
    end in LF alone, and empty lines may come first."""

    END, TOKEN = rb"\r?\n", rb"[!#$%&'*+.^_`|~0-9A-Za-z-]+"
    FORM = re.compile(
        rb"(?:%b)*(?P<method>%b) (?P<target>[^\x00-\x20\x7f]+) HTTP/1\.[01]%b" % (END, TOKEN, END)
        + rb"(?:%b:[\t\x20-\x7e\x80-\xff]*%b){0,64}%b" % (TOKEN, END, END)
    )

    @classmethod
    def find(cls, sent):
        """The method and the target, where what was sent begins with a head."""
        head = cls.FORM.match(sent)
        if head is None:
            return None
        try:
            head["target"].decode("utf-8")
        except UnicodeDecodeError:
            return None
        return head["method"], head["target"]

    @classmethod
    def refusal(cls, sent):
        """The code for what has no head in front, or None where a head might have come yet."""
        lines = re.sub(rb"\A(?:%b)+" % cls.END, b"", sent)
        first, end, _ = lines.partition(b"\n")
        if end and not first.removesuffix(b"\r").endswith((b" HTTP/1.0", b" HTTP/1.1")):
            return 400
        return 431 if lines.count(b"\n") >= 67 or len(sent) == CONNECTION_BYTES else None


class Query:
    """The path of a target, and the pairs of its query in order."""

    def __init__(self, target):
        self.path, _, query = target.partition(b"?")
        pieces = [piece.partition(b"=") for piece in query.split(b"&") if piece]
        self.pairs = [(self.decode(name), self.decode(value)) for name, _, value in pieces]

    @staticmethod
    def decode(text):
        """Escapes are decoded. A `%` without two hex digits stays as it stands, and so does `+`."""
        return re.sub(rb"%([0-9A-Fa-f]{2})", lambda escape: bytes([int(escape[1], 16)]), text)

    def all(self, name):
        return [value for other, value in self.pairs if other == name]

    def first(self, name):
        return next(iter(self.all(name)), None)

    def number(self, name):
        """The number of 64 bits that the first value of this name is."""
        text = self.first(name) or b""
        digits = text.lstrip(b"0")
        if not re.fullmatch(rb"[0-9]+", text) or len(digits) > 20:
            return None
        number = int(digits or b"0")
        return number if number < 2**64 else None


def bencode(value):
    """BEP 3."""
    if isinstance(value, int):
        return b"i%de" % value
    if isinstance(value, bytes):
        return b"%d:%b" % (len(value), value)
    return b"d" + b"".join(bencode(key) + bencode(value[key]) for key in sorted(value)) + b"e"


def counts_dictionary(counts):
    return dict(zip((b"complete", b"downloaded", b"incomplete"), counts))


def announce_body(tracker, minute, address, query):
    info_hash, port, event = query.first(b"info_hash"), query.number(b"port"), query.first(b"event")
    if info_hash is None:
        raise Refused(b"missing info_hash")
    if len(info_hash) != 20:
        raise Refused(b"bad info_hash")
    if query.first(b"port") is None:
        raise Refused(b"missing port")
    if port is None or not 1 <= port <= 65535:
        raise Refused(b"bad port")
    if not tracker.admits(info_hash):
        raise Refused(b"not authorized")
    endpoint, completed, want = (address, port), event == b"completed", query.number(b"numwant")
    if event == b"stopped":
        counts, peers = tracker.stop(minute, info_hash, endpoint)
    else:
        seed, want = query.number(b"left") == 0 or completed, 50 if want is None else min(want, 200)
        counts, peers = tracker.announce(minute, info_hash, endpoint, seed, completed, want)
    more = {b"interval": 1800, b"min interval": 900, b"peers": compact(peers)}
    return bencode(counts_dictionary(counts) | more)


def files_body(counts_of_hashes):
    return bencode({b"files": {info_hash: counts_dictionary(counts) for info_hash, counts in counts_of_hashes.items()}})


def scrape_body(tracker, minute, hashes):
    if any(len(info_hash) != 20 for info_hash in hashes):
        raise Refused(b"bad info_hash")
    scraped = {info_hash: tracker.scrape(minute, info_hash) for info_hash in hashes}
    return files_body({info_hash: counts for info_hash, (counts, known) in scraped.items() if known})


def answer(tracker, minute, address, query):
    """The reply to a request. One that tells all torrents has no length."""
    hashes = query.all(b"info_hash")
    try:
        if query.path == b"/announce":
            return http_reply(200, announce_body(tracker, minute, address, query))
        if query.path == b"/scrape" and hashes:
            return http_reply(200, scrape_body(tracker, minute, hashes))
        if query.path == b"/scrape" and tracker.full:
            return http_reply(200, files_body(tracker.scan(minute)), whole=False)
    except Refused as why:
        return http_reply(200, bencode({b"failure reason": why.args[0]}))
    return http_reply(404)


def http_reply(code, body=b"", whole=True):
    reasons = {200: "OK", 400: "Bad Request", 404: "Not Found", 431: "Request Header Fields Too Large"}
    length = [f"Content-Length: {len(body)}"] if whole else []
    head = [f"HTTP/1.1 {code} {reasons[code]}", "Content-Type: text/plain", *length, "Connection: close"]
    return "".join(line + "\r\n" for line in head + [""]).encode() + body


def connection_output(tracker, minute, address, sent):
    """The output line of a connection: what is written on it in hex digits, or that it ended before a head."""
    head, code = Head.find(sent), Head.refusal(sent)
    if head is not None:
        method, target = head
        reply = answer(tracker, minute, address, Query(target)) if method == b"GET" else http_reply(400)
    elif code is None:
        return "S cut"
    else:
        reply = http_reply(code)
    return "R " + reply.hex()


def output(tracker, kind, seconds, address=None, _=None, digits=None):
    """The output line of a record."""
    minute = min(int(seconds) // 60, 2**32 - 1)
    if kind == "C":
        return f"C {tracker.clean(minute)}"
    address, received = bytes(int(number) for number in address.split(".")), bytes.fromhex(digits)
    if kind == "U":
        return datagram_output(tracker, minute, address, received[:DATAGRAM_BYTES])
    assert kind == "H", "datagrams, connections and rounds of the cleaner"
    return connection_output(tracker, minute, address, received[:CONNECTION_BYTES])


def main():
    tracker = Tracker(SETTINGS | dict(word.split("=") for word in sys.argv[1:]))
    tracker.read_list(sys.stdin)
    for line in sys.stdin:
        print(output(tracker, *line.rstrip("\n").split(" ")))


main()
