#!/usr/bin/env python3
"""Runs `mqtt broker` with many, silent, slow and leaving clients over real sockets.

.ci/program runs these tests. Alone: .ci/broker.py PROGRAM [NAME..], where each NAME is one test.
"""

import contextlib
import fcntl
import os
import re
import resource
import select
import socket
import subprocess
import sys
import tempfile
import termios
import threading
import time

LIMIT = 30


def text(value):
    data = value.encode() if isinstance(value, str) else value
    return len(data).to_bytes(2, "big") + data


def packet(first, body):
    length, rest = b"", len(body)
    while True:
        rest, digit = rest >> 7, rest & 127
        length += bytes([digit | (128 if rest else 0)])
        if not rest:
            return bytes([first]) + length + body


def connect(client, clean=True, will=None, keep_alive=0):
    flags = (2 if clean else 0) | (4 if will else 0)
    body = text("MQTT") + bytes([4, flags]) + keep_alive.to_bytes(2, "big") + text(client)
    return packet(0x10, body + (text(will[0]) + text(will[1]) if will else b""))


def publish(topic, payload, qos=0, identifier=1):
    head = text(topic) + (identifier.to_bytes(2, "big") if qos else b"")
    return packet(0x30 | qos << 1, head + payload)


def subscribe(topic_filter, qos):
    return packet(0x82, b"\0\1" + text(topic_filter) + bytes([qos]))


DISCONNECT = b"\xe0\0"
PING, PONG = b"\xc0\0", b"\xd0\0"


class Broker:
    """A broker at a free port, with its log."""

    def __init__(self, program, *words, files=None):
        self.log = tempfile.NamedTemporaryFile(mode="r")
        limit = (lambda: resource.setrlimit(resource.RLIMIT_NOFILE, (files, files))) if files else None
        self.process = subprocess.Popen(
            [program, "broker", "--listen", "127.0.0.1:0", "--log", self.log.name, *words],
            stdout=subprocess.PIPE, stderr=subprocess.PIPE, preexec_fn=limit)
        line = self.process.stdout.readline().decode()
        found = re.fullmatch(r"listening 127\.0\.0\.1:(\d+)\n", line)
        if not found:
            raise AssertionError(f"the broker prints {line!r}")
        self.port = int(found[1])

    def __enter__(self):
        return self

    def __exit__(self, *_):
        self.process.kill()
        self.process.wait()
        self.process.stdout.close()
        self.process.stderr.close()
        self.log.close()

    def lines(self):
        self.log.seek(0)
        return self.log.read().splitlines()

    def memory(self):
        """The bytes of memory in use."""
        with open(f"/proc/{self.process.pid}/statm", encoding="ascii") as file:
            return int(file.read().split()[1]) * os.sysconf("SC_PAGE_SIZE")


class Client:
    """A client that is connected, unless no identifier is given."""

    def __init__(self, broker, client=None, **options):
        self.socket = socket.create_connection(("127.0.0.1", broker.port), timeout=LIMIT)
        self.socket.setsockopt(socket.IPPROTO_TCP, socket.TCP_NODELAY, 1)
        self.held = b""
        if client is not None:
            self.send(connect(client, **options))
            self.expect(0x20)

    def __enter__(self):
        return self

    def __exit__(self, *_):
        self.socket.close()

    def send(self, data):
        self.socket.sendall(data)

    def wait_until_arrived(self):
        """Waits until the broker's system has every byte that was sent.

        What the client's own system still has could arrive after the bytes of a later connection.
        """
        limit = time.monotonic() + LIMIT
        while int.from_bytes(fcntl.ioctl(self.socket, termios.TIOCOUTQ, bytes(4)), sys.byteorder):
            assert time.monotonic() < limit, "the broker takes no bytes"
            time.sleep(0.001)

    def packet(self):
        """The next packet: its first byte and its body. None at the end of the stream."""
        while True:
            for end in range(2, min(6, len(self.held) + 1)):
                if self.held[end - 1] < 128:
                    size = sum((it & 127) << 7 * nth for nth, it in enumerate(self.held[1:end]))
                    if len(self.held) >= end + size:
                        found = self.held[0], self.held[end : end + size]
                        self.held = self.held[end + size :]
                        return found
                    break
            data = self.socket.recv(262_144)
            if not data:
                return None
            self.held += data

    def expect(self, first):
        found = self.packet()
        if not found or found[0] & 0xF0 != first:
            raise AssertionError(f"{found} came, and not a packet {first:02x}")
        return found[1]

    def subscribe(self, topic_filter, qos):
        self.send(subscribe(topic_filter, qos))
        self.expect(0x90)

    def ping(self):
        self.send(PING)
        self.expect(0xD0)

    def is_closed(self):
        with contextlib.suppress(ConnectionError):
            return self.socket.recv(1) == b""
        return True


def many_connections(program):
    """2,000 clients are connected at once, each one subscribes, and each gets one message."""
    soft, hard = resource.getrlimit(resource.RLIMIT_NOFILE)
    resource.setrlimit(resource.RLIMIT_NOFILE, (max(soft, min(hard, 8_192)), hard))
    with contextlib.ExitStack() as stack:
        broker = stack.enter_context(Broker(program, "--quiet"))
        clients = [stack.enter_context(Client(broker)) for _ in range(2_000)]
        for nth, client in enumerate(clients):
            client.send(connect(f"c{nth}") + subscribe("all", 1))
        for client in clients:
            client.expect(0x20)
            client.expect(0x90)
        publisher = stack.enter_context(Client(broker, "p"))
        publisher.send(publish("all", b"x", 1))
        publisher.expect(0x40)
        for client in clients:
            assert client.expect(0x30).endswith(b"x")
        for client in clients[::2]:
            client.socket.close()
        for client in clients[1::2]:
            client.ping()


def too_many_connections(program):
    """A connection beyond the maximum is closed, and counts no more after one has ended."""
    with Broker(program, "--max-connections", "3") as broker:
        clients = [Client(broker, f"c{nth}") for nth in range(3)]
        with Client(broker) as further:
            assert further.is_closed()
        clients[0].send(DISCONNECT)
        assert clients[0].is_closed()
        with Client(broker, "c3") as other:
            other.ping()
        for client in clients[1:]:
            client.ping()
        refused = r'refused address=127\.0\.0\.1:\d+ reason="too many connections"'
        assert any(re.fullmatch(refused, it) for it in broker.lines())
        for client in clients:
            client.socket.close()


def no_descriptor(program):
    """Without a free descriptor connections wait, and are accepted once one is free."""
    with Broker(program, files=24) as broker, contextlib.ExitStack() as stack:
        clients = [stack.enter_context(Client(broker)) for _ in range(40)]
        for nth, client in enumerate(clients):
            client.send(connect(f"c{nth}"))
        served = []
        for _ in range(100):
            ready, _, _ = select.select([it.socket for it in clients], [], [], 0.2)
            served = ready
            if len(ready) >= 5 and any("not-accepting" in it for it in broker.lines()):
                break
            time.sleep(0.1)
        count = len(served)
        assert 5 <= count < 40, count
        for client in clients:
            if client.socket in served:
                client.expect(0x20)
                client.ping()
        for client in clients:
            if client.socket in served:
                client.socket.close()
        rest = [it for it in clients if it.socket.fileno() >= 0]
        while rest:
            ready, _, _ = select.select([it.socket for it in rest], [], [], LIMIT)
            assert ready, "no further connection was accepted"
            for client in [it for it in rest if it.socket in ready]:
                client.expect(0x20)
                client.send(DISCONNECT)
                client.socket.close()
            rest = [it for it in rest if it.socket.fileno() >= 0]


def silent_reader(program):
    """A reader that reads nothing misses messages under a flood of each QoS, others none."""
    for qos in (0, 1, 2):
        port = free_port()
        words = ["--max-waiting", "1048576", "--max-stored", "1048576", "--metrics", f"127.0.0.1:{port}"]
        with Broker(program, *words) as broker, contextlib.ExitStack() as stack:
            slow = stack.enter_context(Client(broker, "slow"))
            slow.subscribe("flood", qos)
            other = stack.enter_context(Client(broker, "other"))
            other.subscribe("calm", 0)
            before = broker.memory()
            publisher = stack.enter_context(Client(broker, "p"))
            for nth in range(2_000):
                if qos == 0:
                    publisher.send(publish("flood", 16_384 * b"x"))
                else:
                    identifier = nth % 60_000 + 1
                    publisher.send(publish("flood", 16_384 * b"x", qos, identifier))
                    publisher.expect(0x40 if qos == 1 else 0x50)
                    if qos == 2:
                        publisher.send(packet(0x62, identifier.to_bytes(2, "big")))
                        publisher.expect(0x70)
                if nth % 100 == 0:
                    other.send(publish("calm", b"c"))
                    other.expect(0x30)
            publisher.ping()
            grown = broker.memory() - before
            assert grown < 16 << 20, f"QoS {qos}: {grown} bytes more"
            missed = {it: int(metric(port, f'mqtt_messages_missed_total{{reason="{it}"}}')) for it in ("session_full", "output_full")}
            reason = "session_full" if qos else "output_full"
            assert missed.pop(reason) > 1_000 and set(missed.values()) == {0}, (qos, missed)
            # It gets what it did not miss, and is served again.
            slow.send(PING)
            while slow.packet()[0] != 0xD0:
                pass


def leaving(program):
    """A client that leaves and connects again at once loses no message and has no will."""
    words = ["--quiet", "--max-waiting", "100000000"]
    with Broker(program, *words) as broker, Client(broker, "reader") as reader:
        reader.subscribe("#", 0)
        messages, topics = [], set()

        def read():
            while "last" not in topics:
                body = reader.expect(0x30)
                size = int.from_bytes(body[:2], "big")
                topic = body[2 : 2 + size].decode()
                topics.add(topic)
                if topic == "message":
                    messages.append(int(body[2 + size :]))

        thread = threading.Thread(target=read)
        thread.start()
        for nth in range(300):
            with Client(broker) as client:
                payload = str(nth).encode()
                sent = connect("leaver", will=("will", "gone")) + publish("message", payload)
                client.send(sent + (nth % 30) * publish("more", 20_000 * b"m") + DISCONNECT)
                client.expect(0x20)
                client.wait_until_arrived()
        with Client(broker, "leaver") as client:
            client.ping()
        with Client(broker, "last") as last:
            last.send(publish("last", b"."))
            last.ping()
        thread.join()
        assert "will" not in topics, "a will was published"
        assert messages == list(range(300)), f"{300 - len(messages)} messages were lost"


def silent_connections(program):
    """64 connections that send nothing, or half a packet, delay no other client."""
    with Broker(program, "--quiet") as broker, contextlib.ExitStack() as stack:
        silent = [stack.enter_context(Client(broker)) for _ in range(64)]
        for nth, client in enumerate(silent):
            client.send(connect("half")[: nth % 5])
        reader = stack.enter_context(Client(broker, "reader"))
        reader.subscribe("t", 2)
        writer = stack.enter_context(Client(broker, "writer"))
        for nth in range(200):
            writer.send(publish("t", b"x", 1, nth + 1))
            writer.expect(0x40)
            reader.expect(0x30)
            reader.send(packet(0x40, (nth + 1).to_bytes(2, "big")))


def late_connects(program):
    """A connection without CONNECT is closed in time, also after a time without any connection."""
    with Broker(program, "--connect-within", "1") as broker, contextlib.ExitStack() as stack:
        early = stack.enter_context(Client(broker, "early"))
        time.sleep(2)
        start = time.monotonic()
        silent, half, late = [stack.enter_context(Client(broker)) for _ in range(3)]
        half.send(connect("half")[:5])
        time.sleep(0.5)
        late.send(connect("late"))
        late.expect(0x20)
        assert silent.is_closed() and half.is_closed()
        passed = time.monotonic() - start
        assert 0.8 < passed < 5, f"closed after {passed:.1f} s"
        early.ping()
        late.ping()
        line = r'closed address=127\.0\.0\.1:\d+ code=C12 reason="no CONNECT in time"'
        assert sum(bool(re.fullmatch(line, it)) for it in broker.lines()) == 2, broker.lines()


def broad_subscribe(program):
    """A SUBSCRIBE with too many filters for the retained messages closes its connection alone."""
    with Broker(program, "--max-matches", "1000") as broker, contextlib.ExitStack() as stack:
        publisher, broad, narrow = [stack.enter_context(Client(broker, it)) for it in ("p", "b", "n")]
        for nth in range(10):
            publisher.send(packet(0x31, text(f"a/{nth}") + b"x"))
        publisher.ping()
        request = text("b/+") + b"\0"
        narrow.send(packet(0x82, b"\0\1" + 100 * request))
        narrow.expect(0x90)
        broad.send(packet(0x82, b"\0\1" + 101 * request))
        assert broad.is_closed()
        await_line(broker, 'closed client=b code=C13 reason="too many retained messages"')
        narrow.ping()


def await_line(broker, line):
    """Waits until the log has this line."""
    for _ in range(200):
        if line in broker.lines():
            return
        time.sleep(0.02)
    raise AssertionError(f"the log has no line {line}: {broker.lines()}")


def await_missed(broker, client, count):
    """Waits until the log has lines with this number of missed messages."""
    for _ in range(200):
        lines = [it for it in broker.lines() if it.startswith(f"missed client={client} messages=")]
        if sum(int(it.rpartition("=")[2]) for it in lines) == count:
            return
        time.sleep(0.02)
    raise AssertionError(f"{client} missed other than {count} messages: {lines}")


def missed_messages(program):
    """The log has one line for the messages that a client missed in a second, also at its end."""
    with Broker(program, "--capacity", "1") as broker, contextlib.ExitStack() as stack:
        away = stack.enter_context(Client(broker, "away", clean=False))
        away.subscribe("t", 1)
        away.send(DISCONNECT)
        publisher = stack.enter_context(Client(broker, "p"))
        for count in (1, 300, 200):
            for nth in range(count + (count == 1)):
                publisher.send(publish("t", b"x", 1, nth + 1))
                publisher.expect(0x40)
            if count < 300:
                time.sleep(1.2)
        # The session ends before the log has its last line, which then has its number.
        publisher.send(publish("t", b"x", 1, 1))
        publisher.expect(0x40)
        Client(broker, "away").socket.close()
        ended = "session-ended client=away"
        await_line(broker, ended)
        time.sleep(1.2)
        lines = [it for it in broker.lines() if it.startswith("missed")]
        numbers = [re.fullmatch(r"missed client=(away|#\d+) messages=(\d+)", it) for it in lines]
        assert all(numbers), lines
        assert numbers[0][0] == "missed client=away messages=1", lines
        assert sum(int(it[2]) for it in numbers) == 502 and len(lines) <= 6, lines


def full_session(program):
    """A full session misses messages, or closes the publisher with `--when-full close`."""
    for words, taken in (([], 5), (["--when-full", "drop"], 5), (["--when-full", "close"], 3)):
        with Broker(program, "--capacity", "3", *words) as broker, contextlib.ExitStack() as stack:
            away = stack.enter_context(Client(broker, "away", clean=False))
            away.subscribe("t", 1)
            away.send(DISCONNECT)
            assert away.is_closed()
            publisher = stack.enter_context(Client(broker, "p"))
            for nth in range(1, 6):
                publisher.send(publish("t", b"%d" % nth, 1, nth))
            found = [publisher.packet() for _ in range(taken)]
            assert found == [(0x40, nth.to_bytes(2, "big")) for nth in range(1, taken + 1)], found
            if taken < 5:
                assert publisher.is_closed()
                await_line(broker, 'closed client=p code=C8 reason="a subscriber\'s session is full"')
            else:
                publisher.ping()
                await_missed(broker, "away", 2)
            back = stack.enter_context(Client(broker, "away", clean=False))
            assert [back.expect(0x30)[-1:] for _ in range(3)] == [b"1", b"2", b"3"]
            back.ping()


def full_bytes(program):
    """A session whose bytes are full misses messages, or closes the publisher."""
    for words, taken in ((["--when-full", "drop"], 4), (["--when-full", "close"], 2)):
        with Broker(program, "--max-stored", "3000", *words) as broker, contextlib.ExitStack() as stack:
            away = stack.enter_context(Client(broker, "away", clean=False))
            away.subscribe("t", 1)
            away.send(DISCONNECT)
            assert away.is_closed()
            publisher = stack.enter_context(Client(broker, "p"))
            # Topic and payload have 1,001 bytes each, and then 998.
            for nth, size in enumerate((1_000, 1_000, 1_000, 997), 1):
                publisher.send(publish("t", size * (b"%d" % nth), 1, nth))
            found = [publisher.packet() for _ in range(taken)]
            assert found == [(0x40, nth.to_bytes(2, "big")) for nth in range(1, taken + 1)], found
            if taken == 2:
                assert publisher.is_closed()
            else:
                publisher.ping()
                await_missed(broker, "away", 1)
            back = stack.enter_context(Client(broker, "away", clean=False))
            kept = [b"1", b"2", b"4"] if taken == 4 else [b"1", b"2"]
            assert [back.expect(0x30)[-1:] for _ in kept] == kept
            back.ping()


def large_copies(program):
    """Each subscriber gets its copy of a large message: payload, quality of service, identifier."""
    with Broker(program) as broker, contextlib.ExitStack() as stack:
        clients = [stack.enter_context(Client(broker, f"s{nth}")) for nth in range(9)]
        for nth, client in enumerate(clients):
            client.subscribe("t", nth % 3)
        publisher = stack.enter_context(Client(broker, "p"))
        # The identifiers of the last client are one ahead.
        clients[-1].subscribe("u", 1)
        publisher.send(publish("u", b"x", 1, 1))
        publisher.expect(0x40)
        identifiers = [0] * 8 + [1]
        assert clients[-1].expect(0x30) == text("u") + b"\0\1x"
        clients[-1].send(b"\x40\2\0\1")
        for burst in (1, 3):
            for size in (4_095, 4_096, 65_536, 300_000):
                payloads = [os.urandom(size) for _ in range(3 * burst)]
                for nth, payload in enumerate(payloads):
                    publisher.send(publish("t", payload, nth % 3, nth + 1))
                for nth in range(len(payloads)):
                    if nth % 3:
                        assert publisher.expect(0x40 if nth % 3 == 1 else 0x50) == bytes([0, nth + 1])
                for nth in range(2, len(payloads), 3):
                    publisher.send(bytes([0x62, 2, 0, nth + 1]))
                    publisher.expect(0x70)
                for at, client in enumerate(clients):
                    used = []
                    for nth, payload in enumerate(payloads):
                        qos = min(nth % 3, at % 3)
                        found = client.packet()
                        identifiers[at] += qos > 0
                        identifier = identifiers[at].to_bytes(2, "big") if qos else b""
                        assert found[0] == 0x30 | qos << 1, (at, nth, found[0])
                        assert found[1] == text("t") + identifier + payload, (at, nth, size)
                        used += [(qos, identifier)] if qos else []
                    for qos, identifier in used:
                        client.send(bytes([0x40 if qos == 1 else 0x50, 2]) + identifier)
                        if qos == 2:
                            assert client.expect(0x60) == identifier
                            client.send(b"\x70\2" + identifier)
                    client.ping()


def expiring(program):
    """The session of an absent client expires, and that of a connected one does not."""
    with Broker(program, "--session-expiry", "1") as broker, contextlib.ExitStack() as stack:
        here = stack.enter_context(Client(broker, "here", clean=False))
        for name in ("away", "back"):
            with Client(broker, name, clean=False) as client:
                client.subscribe("t", 1)
                client.send(DISCONNECT)
                assert client.is_closed()
        time.sleep(0.4)
        back = stack.enter_context(Client(broker))
        back.send(connect("back", clean=False))
        assert back.expect(0x20) == b"\1\0"
        time.sleep(2)
        ended = [it for it in broker.lines() if it.startswith("session-ended")]
        assert len(ended) == 1 and re.fullmatch(r"session-ended client=#\d+", ended[0]), ended
        away = stack.enter_context(Client(broker))
        away.send(connect("away", clean=False))
        assert away.expect(0x20) == b"\0\0"
        here.ping()
        back.ping()


def endless_publisher(program):
    """Publishers that never stop do not keep others waiting."""
    with Broker(program, "--quiet") as broker, contextlib.ExitStack() as stack:
        stop = threading.Event()

        def flood(client):
            data = 1_000 * publish("flood", b"0123456789abcdef")
            with contextlib.suppress(OSError):
                while not stop.is_set():
                    client.send(data)

        floods = [stack.enter_context(Client(broker, f"f{nth}")) for nth in range(4)]
        threads = [threading.Thread(target=flood, args=(it,)) for it in floods]
        for thread in threads:
            thread.start()
        try:
            longest = 0
            for nth in range(20):
                start = time.monotonic()
                with Client(broker, f"c{nth}") as client:
                    client.ping()
                longest = max(longest, time.monotonic() - start)
        finally:
            stop.set()
            for client in floods:
                client.socket.shutdown(socket.SHUT_RDWR)
            for thread in threads:
                thread.join()
        assert longest < 5, f"a client waited for {longest:.1f} s"


def arguments(program):
    """Addresses of IPv6, a taken address, and options that are refused."""
    with Broker(program, "--quiet") as broker:
        ran = subprocess.run([program, "broker", "--listen", f"127.0.0.1:{broker.port}"], capture_output=True, timeout=LIMIT, check=False)
        assert (ran.returncode, ran.stdout) == (1, b""), ran
        assert b"address is in use" in ran.stderr, ran
    for words in (["--listen", "localhost"], ["--capacity", "0"], ["--max-packet", "268435456"], ["--max-packet", "63"], ["--log", "/nowhere/log"], ["--connect-within", "0"], ["--connect-within", "soon"], ["--when-full", "wait"], ["--session-expiry", "0"], ["--session-expiry", "later"], ["--max-stored", "-1"]):
        ran = subprocess.run([program, "broker", *words], capture_output=True, timeout=LIMIT, check=False)
        assert (ran.returncode, ran.stdout) == (2, b""), ran
    with contextlib.suppress(OSError), socket.create_server(("::1", 0), family=socket.AF_INET6) as free:
        port = free.getsockname()[1]
        free.close()
        process = subprocess.Popen([program, "broker", "--quiet", "--listen", f"[::1]:{port}"], stdout=subprocess.PIPE)
        try:
            assert process.stdout.readline() == b"listening [::1]:%d\n" % port
        finally:
            process.kill()
            process.wait()
            process.stdout.close()


def log_in(broker, name, password):
    """The return code of the CONNACK for a login."""
    with Client(broker) as client:
        flags = 2 | (0xC0 if name else 0)
        body = text("MQTT") + bytes([4, flags, 0, 0]) + text("c")
        client.send(packet(0x10, body + (text(name) + text(password) if name else b"")))
        return client.expect(0x20)[1]


def password_line(program, name, password):
    """The line that `mqtt password` prints."""
    ran = subprocess.run([program, "password", name], input=password, capture_output=True, timeout=LIMIT, check=True)
    assert ran.stderr == b"", ran
    return ran.stdout


def passwords(program):
    """Only the users of the file may connect, with plain passwords or with digests of them."""
    hashed = [password_line(program, "bob", it) for it in (b"other\n", b"other\r\n", b"other")]
    assert all(re.fullmatch(rb"bob:sha256:[0-9a-f]{32}:[0-9a-f]{64}\n", it) for it in hashed), hashed
    assert len(set(hashed)) == 3 and b"other" not in b"".join(hashed)
    with tempfile.NamedTemporaryFile() as file:
        for lines in (b"alice:secret\nbob:other\n", *(b"alice:secret\n" + it for it in hashed)):
            file.seek(0)
            file.truncate()
            file.write(b"# users\n\n" + lines)
            file.flush()
            with Broker(program, "--passwords", file.name) as broker:
                logins = [("alice", "secret", 0), ("bob", "other", 0), ("alice", "other", 4), ("bob", "secret", 4), ("carol", "secret", 4), ("bob", "", 4), (None, None, 5)]
                for name, password, code in logins:
                    found = log_in(broker, name, password)
                    assert found == code, (lines, name, password, found)
                for _ in range(100):
                    refused = [it for it in broker.lines() if it.startswith("refused")]
                    if len(refused) == 5:
                        break
                    time.sleep(0.05)
                assert len(refused) == 5, refused
        for lines, reason in ((b"a:b\nno colon\n", b"line 2: no colon"), (b"a:sha256:salt:00", b"line 1: a salt"), (b"a:\xff", b"not UTF-8")):
            file.seek(0)
            file.truncate()
            file.write(lines)
            file.flush()
            ran = subprocess.run([program, "broker", "--passwords", file.name], capture_output=True, timeout=LIMIT, check=False)
            assert (ran.returncode, ran.stdout) == (2, b"") and file.name.encode() in ran.stderr and reason in ran.stderr, ran
    for name, password in (("a:b", b"x"), ("#a", b"x"), ("", b"x"), ("a", 65_536 * b"x")):
        ran = subprocess.run([program, "password", name], input=password, capture_output=True, timeout=LIMIT, check=False)
        assert (ran.returncode, ran.stdout) == (2, b"") and ran.stderr.startswith(b"mqtt: the "), ran


def ask(port, request):
    """The response to an HTTP request."""
    with socket.create_connection(("127.0.0.1", port), timeout=LIMIT) as stream:
        stream.sendall(request)
        response = b""
        while True:
            data = stream.recv(65_536)
            if not data:
                return response
            response += data


def free_port():
    with socket.create_server(("127.0.0.1", 0)) as free:
        return free.getsockname()[1]


def metric(port, name):
    """The value of a metric."""
    body = ask(port, b"GET /metrics HTTP/1.1\r\nHost: x\r\n\r\n").decode()
    found = re.search(rf"(?m)^{re.escape(name)} (.*)$", body)
    assert found, f"no metric {name}"
    return found[1]


def metrics(program):
    """The metrics and the page are served over HTTP, on the same loop."""
    port = free_port()
    with Broker(program, "--quiet", "--metrics", f"127.0.0.1:{port}") as broker, Client(broker, "c") as client:
        client.subscribe("t", 0)
        for _ in range(3):
            client.send(publish("t", b"x"))
            client.expect(0x30)
        for method, size in ((b"GET", 500), (b"HEAD", 0)):
            head, _, body = ask(port, method + b" /metrics HTTP/1.1\r\nHost: x\r\n\r\n").partition(b"\r\n\r\n")
            assert head.startswith(b"HTTP/1.1 200 OK\r\n"), head
            assert len(body) >= size and (size or not body), body
        assert metric(port, 'mqtt_messages_in_total{qos="0"}') == "3"
        assert b"<title>" in ask(port, b"GET / HTTP/1.1\r\nHost: x\r\n\r\n")
        assert ask(port, b"POST / HTTP/1.1\r\n\r\n").startswith(b"HTTP/1.1 405 ")
        assert ask(port, b"GET /other HTTP/1.1\r\n\r\n").startswith(b"HTTP/1.1 404 ")
        with contextlib.suppress(ConnectionError):
            assert ask(port, b"GET / HTTP/1.1\r\nX: " + 9_000 * b"x") == b""
        client.ping()


def rows(program):
    """The gauges, and the page's rows: full sessions first, then those that store the most."""
    port = free_port()
    words = ["--quiet", "--capacity", "4", "--metrics", f"127.0.0.1:{port}"]
    with Broker(program, *words) as broker, contextlib.ExitStack() as stack:
        for nth in range(24):
            with Client(broker, f"<{nth}>", clean=False) as client:
                for index in range(min(nth, 5)):
                    client.subscribe(f"t{index}" if nth < 23 else f"t{index + 4}", 1)
        publisher = stack.enter_context(Client(broker, "p"))
        for index in range(5):
            retained = bytearray(publish(f"t{index}", b"x", 1, index + 1))
            retained[0] |= 1
            publisher.send(retained)
            publisher.expect(0x40)
        found = {name: metric(port, f"mqtt_{name}") for name in ("connections", "sessions", "subscriptions", "retained_messages", "stored_messages")}
        # The sessions 0 to 22 store 0, 1, 2, 3, 4, 4 .. messages, session 23 one, and p none.
        # Sessions 0 to 5 have as many subscriptions, and the others five.
        assert found == {"connections": "1", "sessions": "25", "subscriptions": "105", "retained_messages": "5", "stored_messages": "83"}, found
        assert metric(port, 'mqtt_messages_missed_total{reason="session_full"}') == "18"
        page = ask(port, b"GET / HTTP/1.1\r\nHost: x\r\n\r\n").decode()
        shown = re.findall(r"<tr><td>(.*)<td>(\d+)<td>(\d+)<td>(\d+)<td>(\w+)\n", page)
        full = [(f"&lt;{nth}&gt;", "4", "0", "1" if nth > 4 else "0", "full") for nth in range(4, 23)]
        assert shown == full + [("&lt;3&gt;", "3", "0", "0", "away")], shown
        publisher.ping()


TESTS = [
    arguments, many_connections, too_many_connections, no_descriptor, silent_reader, leaving,
    silent_connections, late_connects, broad_subscribe, missed_messages, full_session, full_bytes,
    large_copies, expiring, endless_publisher, passwords, metrics, rows,
]


def faults_of(program, names=()):
    """The tests that fail, with the reason."""
    for test in TESTS:
        if names and test.__name__ not in names:
            continue
        try:
            test(program)
        except (AssertionError, OSError) as fault:
            yield f"broker: {test.__name__}: {type(fault).__name__}: {str(fault)[:300]}"


def main():
    faults = list(faults_of(os.path.abspath(sys.argv[1]), sys.argv[2:]))
    print("\n".join(faults) or "broker: nothing found to be wrong")
    return 1 if faults else 0


if __name__ == "__main__":
    sys.exit(main())
