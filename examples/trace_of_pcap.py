#!/usr/bin/env python3
"""The trace of what a capture has to one port: trace_of_pcap.py PORT < CAPTURE > TRACE

Reads a classic pcap file, as `tcpdump -w` writes it, of Ethernet, of Linux's cooked form (both versions) or of raw IP.
Each whole IPv4 datagram to the port becomes a line `U seconds address port hex`, with the second of its capture and the
endpoint that it came from. Each TCP connection to the port becomes a line `H seconds address port hex`, with the second
in which its first byte was captured and the bytes that the client sent: in order, none twice, and the first 8,192 at
most, since no more count. Lines are in order of time, so a line waits for the end of the connections that were first.

What can't be a line is left out and counted on standard error: fragments, what the capture cut short, IPv6, and
connections whose beginning or some of whose bytes the capture doesn't have. A connection on which the client sends
nothing has no line. Everything else in the capture is passed over.
"""
import collections
import struct
import sys

ETHERNET, RAW_IP, COOKED, COOKED_2 = 1, (12, 14, 101, 228), 113, 276
IPV4, IPV6, VLAN = 0x0800, 0x86DD, 0x8100
TCP, UDP = 6, 17
FIN, SYN, RST, ACK = 1, 2, 4, 16
CONNECTION_BYTES = 8192


def packets(capture):
    """Link type, and of each packet its second and its bytes."""
    head = capture.read(24)
    orders = {b"\xd4\xc3\xb2\xa1": "<", b"\xa1\xb2\xc3\xd4": ">", b"\x4d\x3c\xb2\xa1": "<", b"\xa1\xb2\x3c\x4d": ">"}
    if len(head) < 24 or head[:4] not in orders:
        sys.exit("trace_of_pcap.py: standard input is no classic pcap file")
    order = orders[head[:4]]
    link = struct.unpack(order + "I", head[20:24])[0] & 0xFFFF
    while record := capture.read(16):
        if len(record) < 16:
            sys.exit("trace_of_pcap.py: the capture ends in the middle of a packet")
        second, _, captured, _ = struct.unpack(order + "IIII", record)
        packet = capture.read(captured)
        if len(packet) < captured:
            sys.exit("trace_of_pcap.py: the capture ends in the middle of a packet")
        yield link, second, packet


def payload(link, packet):
    """The protocol of a packet's payload, and the payload."""
    if link == ETHERNET:
        kind, place = packet[12:14], 14
        while kind == struct.pack(">H", VLAN):
            kind, place = packet[place + 2 : place + 4], place + 4
        return int.from_bytes(kind, "big"), packet[place:]
    if link == COOKED:
        return int.from_bytes(packet[14:16], "big"), packet[16:]
    if link == COOKED_2:
        return int.from_bytes(packet[0:2], "big"), packet[20:]
    if link in RAW_IP:
        return {4: IPV4, 6: IPV6}.get(packet[0] >> 4 if packet else 0, 0), packet
    sys.exit(f"trace_of_pcap.py: a capture of link type {link} can't be read")


class Connection:
    """What the client of one TCP connection sends. Places count its bytes from 0."""

    def __init__(self, source, first):
        self.source, self.first = source, first
        self.second, self.pieces, self.end = None, [], None
        self.reset, self.written = False, False

    def place(self, sequence):
        """The place of a sequence number, which is below 2^32 and goes round."""
        return (sequence - self.first + 2**31) % 2**32 - 2**31

    def add(self, second, place, data):
        if data and place < CONNECTION_BYTES and not self.written:
            self.pieces.append((place, data))
            if self.second is None and place <= 0 < place + len(data):
                self.second = second

    def sent(self):
        """The bytes from the first on, as far as they came, at most 8,192."""
        sent = b""
        for place, data in sorted(self.pieces, key=lambda piece: piece[0]):
            if place > len(sent):
                break
            sent += data[len(sent) - place :]
        return sent[:CONNECTION_BYTES]

    def is_missing_bytes(self):
        """Whether bytes before the end, or before others that came, didn't come."""
        ends = [place + len(data) for place, data in self.pieces] + ([] if self.end is None else [self.end])
        return len(self.sent()) < min(max(ends), CONNECTION_BYTES)

    def has_ended(self):
        return self.reset or self.end is not None and not self.is_missing_bytes()


class Trace:
    """The lines of a trace to one port, in order of time."""

    def __init__(self, port):
        self.port, self.connections = port, {}
        # Lines, and connections whose first byte came, that stand behind one that may go on.
        self.waiting = collections.deque()
        self.left_out = collections.Counter()

    def packet(self, second, protocol, ip):
        if protocol == IPV6 and len(ip) >= 48 and int.from_bytes(ip[42:44], "big") == self.port:
            self.left_out["datagrams of IPv6"] += ip[6] == UDP
            self.left_out["connections of IPv6"] += ip[6] == TCP and len(ip) > 53 and ip[53] & (SYN | ACK) == SYN
        if protocol != IPV4 or len(ip) < 20 or ip[9] not in (TCP, UDP):
            return
        if int.from_bytes(ip[6:8], "big") & 0x3FFF:
            self.left_out["fragments"] += 1
            return
        # Behind a packet the link may pad it, and where the network card cuts packets up it has no length yet.
        length = int.from_bytes(ip[2:4], "big")
        head, length = 4 * (ip[0] & 15), length if length else len(ip)
        address = ".".join(str(byte) for byte in ip[12:16])
        part, is_short = ip[head:length], len(ip) < length
        if len(part) >= 8 and int.from_bytes(part[2:4], "big") == self.port:
            source = f"{address} {int.from_bytes(part[:2], 'big')}"
            self.left_out["packets that the capture cut short"] += is_short
            if ip[9] == TCP and len(part) >= 20:
                self.segment(second, source, ip[16:20], part, is_short)
            elif ip[9] == UDP and not is_short:
                self.datagram(second, source, part)

    def datagram(self, second, source, udp):
        data = udp[8 : int.from_bytes(udp[4:6], "big")]
        self.waiting.append(f"U {second} {source} {data.hex()}")
        self.write()

    def begin(self, key, first):
        """The connection whose client's first byte has this number. Another one between the same ends is over."""
        old = self.connections.get(key)
        if old is not None and old.first == first:
            return old
        if old is not None:
            old.reset = True
            self.left_out["connections of which bytes are missing"] += old.second is None and bool(old.pieces)
        self.connections[key] = Connection(key[0], first)
        return self.connections[key]

    def segment(self, second, source, tracker, tcp, is_short):
        sequence, flags = int.from_bytes(tcp[4:8], "big"), tcp[13]
        if flags & (SYN | ACK) == SYN:
            sequence = (sequence + 1) % 2**32
            connection = self.begin((source, tracker), sequence)
        else:
            connection = self.connections.get((source, tracker))
        data = tcp[4 * (tcp[12] >> 4) :]
        if connection is None:
            self.left_out["segments of connections that began before the capture"] += bool(data)
            return
        if not is_short:
            place, had_begun = connection.place(sequence), connection.second is not None
            connection.add(second, place, data)
            if not had_begun and connection.second is not None:
                self.waiting.append(connection)
            if flags & FIN:
                connection.end = place + len(data)
        connection.reset |= bool(flags & RST)
        self.write()

    def write(self, is_over=False):
        """Writes what waits for nothing, and at the capture's end all."""
        while self.waiting and (is_over or isinstance(self.waiting[0], str) or self.waiting[0].has_ended()):
            line = self.waiting.popleft()
            if isinstance(line, str):
                print(line)
                continue
            if line.is_missing_bytes():
                self.left_out["connections of which bytes are missing"] += 1
            else:
                print("H", line.second, line.source, line.sent().hex())
            line.written, line.pieces = True, []

    def end(self):
        self.write(is_over=True)
        for connection in self.connections.values():
            if connection.second is None and connection.pieces:
                self.left_out["connections of which bytes are missing"] += 1
        for what, count in self.left_out.items():
            if count:
                print(f"trace_of_pcap.py: left out: {count} {what}", file=sys.stderr)


def main():
    trace = Trace(int(sys.argv[1]))
    for link, second, packet in packets(sys.stdin.buffer):
        trace.packet(second, *payload(link, packet))
    trace.end()


main()
