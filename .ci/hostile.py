#!/usr/bin/env python3
"""Sends arbitrary bytes to `mqtt broker` over four connections.

    .ci/hostile.py PROGRAM [PIECES [SEED]]

A piece is a packet of a client, mostly unchanged, otherwise with a changed byte or bit, cut, or
followed by more bytes; or random bytes. After each 5,000 pieces a new broker starts. What a
connection gets must be whole packets. Apart from PUBLISH and PUBREL they may have at most as many
bytes as were sent on it. At the end the broker must still answer a CONNECT, and its metrics must
show each kind of act but missed messages.
"""

import contextlib
import os
import random
import select
import socket
import sys

sys.dont_write_bytecode = True
from broker import LIMIT, Broker, Client, ask, free_port

CONNECTIONS = 4
PIECES = 20_000
# The pieces that a broker gets.
RENEWED = 5_000
# The seconds that a connection is given to answer a piece.
PATIENCE = 0.001
WORDS = "--quiet --capacity 4 --max-packet 64 --max-sessions 3 --when-full close".split()

# Packets of a client that is connected, and those that connect one.
PACKETS = [bytes.fromhex(it) for it in (
    "30040001 7478", "3306000174000178", "32080003612f62000279", "340600017400037a",
    "34080003612f6200047a", "3c060001740005 7a", "3505000174 0006", "40020001", "40020002",
    "50020001", "50020002", "62020003", "62020004", "70020001", "70020002",
    "8206000100012302", "820c00020003612f2b0100017400", "a205000300 0123", "c000", "e000",
)]
OPENINGS = [bytes.fromhex(it) for it in (
    "100d00044d51545404000000000161", "100d00044d51545404020002000161",
    "101300044d515454040c0001000162000174000177", "100c00044d515454040200000000",
)]
# The metrics that count the kinds of acts.
ACTS = [
    "connects_accepted", "messages_in", "messages_out", "subscribes", "unsubscribes", "wills",
    "wills_dropped", "connections_closed", "sessions_ended",
]
PUBLISH, PUBREL = 3, 6


def pieces(source, begins):
    """The next piece for a connection that begins, or that is connected."""
    kind = source.randrange(24)
    if kind == 0:
        return source.randbytes(source.randrange(1, 81))
    packets = PACKETS + OPENINGS if kind > 21 else OPENINGS if begins else PACKETS
    piece = bytearray(source.choice(packets))
    treatment = source.randrange(40)
    if treatment < 2:
        piece[source.randrange(len(piece))] ^= source.randrange(1, 256)
    elif treatment == 2:
        piece[source.randrange(len(piece))] ^= 1 << source.randrange(8)
    elif treatment in (3, 7):
        del piece[source.randrange(len(piece)) :]
    elif treatment == 4:
        piece += source.randbytes(source.randrange(1, 5))
    if treatment in (5, 6, 7):
        piece += source.choice(packets)
    return bytes(piece)


def split(data):
    """The whole packets at the front of the bytes, and the rest."""
    found, at = [], 0
    while True:
        size, end = 0, at + 1
        while end < len(data) and end - at < 4 and data[end] >= 128:
            size += (data[end] & 127) << 7 * (end - at - 1)
            end += 1
        if end >= len(data):
            return found, data[at:]
        size += data[end] << 7 * (end - at - 1)
        if end + 1 + size > len(data):
            return found, data[at:]
        found.append(data[at : end + 1 + size])
        at = end + 1 + size


class Connection:
    """A connection with the counts of its bytes."""

    def __init__(self, port):
        self.socket = socket.create_connection(("127.0.0.1", port), timeout=LIMIT)
        self.socket.setsockopt(socket.IPPROTO_TCP, socket.TCP_NODELAY, 1)
        self.socket.setblocking(False)
        self.sent, self.answered, self.held = 0, 0, b""
        self.begins, self.is_open = True, True

    def send(self, piece):
        with contextlib.suppress(OSError):
            self.sent += len(piece)
            self.socket.send(piece)

    def receive(self):
        """Takes what has arrived."""
        try:
            data = self.socket.recv(65_536)
        except BlockingIOError:
            return
        except OSError:
            data = b""
        if not data:
            self.close()
            return
        found, self.held = split(self.held + data)
        for packet in found:
            kind = packet[0] >> 4
            assert kind in (2, 3, 4, 5, 6, 7, 9, 11, 13), f"the broker sent {packet.hex()}"
            if kind not in (PUBLISH, PUBREL):
                self.answered += len(packet)
            if packet[:2] == b"\x20\x02" and packet[3] == 0:
                self.begins = False
        assert len(self.held) < 70, f"the broker sent {self.held.hex()}"
        assert self.answered <= self.sent, f"{self.answered} bytes answer {self.sent}"

    def close(self):
        self.socket.close()
        self.is_open = False


def use(source, broker, connections, count):
    """Sends this number of pieces, each on one of the connections."""
    for _ in range(count):
        number = source.randrange(CONNECTIONS)
        if not connections[number] or not connections[number].is_open:
            connections[number] = Connection(broker.port)
        connection = connections[number]
        if source.randrange(64) < 2:
            connection.close()
            continue
        connection.send(pieces(source, connection.begins))
        ready = {it.socket: it for it in connections if it and it.is_open}
        for it in select.select(list(ready), [], [], PATIENCE)[0]:
            ready[it].receive()


def counts_of(port):
    """The sum of each metric that counts acts."""
    lines = ask(port, b"GET /metrics HTTP/1.1\r\nHost: x\r\n\r\n").decode().splitlines()
    counts = dict.fromkeys(ACTS, 0)
    for line in lines:
        name = line.removeprefix("mqtt_").partition("{")[0].partition(" ")[0].removesuffix("_total")
        if name in counts:
            counts[name] += int(line.rpartition(" ")[2])
    return counts


def send(program, source, count):
    """Sends pieces to a new broker. Returns the counts of its acts."""
    port = free_port()
    with Broker(program, *WORDS, "--metrics", f"127.0.0.1:{port}") as broker:
        connections = [None] * CONNECTIONS
        use(source, broker, connections, count)
        counts = counts_of(port)
        for it in connections:
            if it and it.is_open:
                it.close()
        # Its sessions may be those of other clients, so the CONNACK may have code 3.
        with Client(broker, "a"):
            pass
        assert broker.process.poll() is None, "the broker has ended"
    return counts


def hostile(program, count=PIECES, seed=1):
    """Arbitrary bytes change nothing but what their packets ask for."""
    source = random.Random(seed)
    found = dict.fromkeys(ACTS, 0)
    for first in range(0, count, RENEWED):
        for name, more in send(program, source, min(RENEWED, count - first)).items():
            found[name] += more
    missing = [name for name, number in found.items() if not number]
    assert count < PIECES or not missing, f"no acts of these kinds: {missing}"
    return found


def faults_of(program):
    """The fault, if an answer is unexpected."""
    try:
        hostile(program)
    except (AssertionError, OSError) as fault:
        yield f"hostile: {type(fault).__name__}: {str(fault)[:300]}"


def main():
    program, *numbers = sys.argv[1:]
    found = hostile(os.path.abspath(program), *(int(it) for it in numbers))
    print("hostile:", ", ".join(f"{name} {number}" for name, number in found.items()))
    return 0


if __name__ == "__main__":
    sys.exit(main())
