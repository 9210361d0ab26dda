#!/usr/bin/env python3
"""Kills `mqtt broker --data` at random moments, fills its disk, and damages its files.

.ci/program runs these tests. Alone: .ci/durable.py PROGRAM [KILLS] [NAME..], where KILLS is the
number of kills and each NAME is one test. SEED is the number from which the times of kills follow.
"""

import contextlib
import os
import random
import re
import resource
import shutil
import signal
import subprocess
import sys
import tempfile
import threading
import time

from broker import DISCONNECT, LIMIT, PING, Broker, Client, connect, packet, publish

try:
    import paho.mqtt.client as paho
except ImportError:
    paho = None

MOSQUITTO = shutil.which("mosquitto_pub")
SEED = int(os.environ.get("SEED", str(os.getpid())))
KILLS = 8
# The size of a journal without --journal-size.
SIZE = 64 << 20
# The option for a journal that is full after a few messages.
SMALL = ["--journal-size", "3000"]
LOST = (OSError, AssertionError)


def two_bytes(number):
    return number.to_bytes(2, "big")


def retained(topic, payload, identifier):
    data = publish(topic, payload, 1, identifier)
    return bytes([data[0] | 1]) + data[1:]


def message_of(first, body):
    """The packet identifier and the payload of a PUBLISH."""
    behind = body[2 + int.from_bytes(body[:2], "big") :]
    return (behind[:2], behind[2:]) if first & 6 else (b"", behind)


class Kept(Broker):
    """A broker with a journal. Its files have `size` bytes at most, and its memory `memory`."""

    def __init__(self, program, folder, *words, size=None, memory=None, log="--quiet"):
        self.log = tempfile.NamedTemporaryFile(mode="r")
        words = [program, "broker", "--listen", "127.0.0.1:0", log, "--data", folder, *words]

        def limit():
            if size:
                signal.signal(signal.SIGXFSZ, signal.SIG_IGN)
                resource.setrlimit(resource.RLIMIT_FSIZE, (size, size))
            if memory:
                resource.setrlimit(resource.RLIMIT_AS, (memory, memory))

        how = {"stdout": subprocess.PIPE, "stderr": subprocess.PIPE, "preexec_fn": limit}
        self.process = subprocess.Popen(words, **how)
        line = self.process.stdout.readline().decode()
        found = re.fullmatch(r"listening 127\.0\.0\.1:(\d+)\n", line)
        if not found:
            raise AssertionError(f"the broker prints {line!r}: {self.process.stderr.read()}")
        self.port = int(found[1])
        line = self.process.stderr.readline().decode()
        found = re.fullmatch(r"recovered (\d+) events, (\d+) sessions in \d+ ms\n", line)
        assert found, f"standard error has {line!r}"
        self.events, self.sessions = int(found[1]), int(found[2])

    def kill(self):
        self.process.kill()
        self.process.wait()


def resumed(broker, name):
    """A client whose session the broker must have."""
    client = Client(broker)
    client.send(connect(name, clean=False))
    answer = client.expect(0x20)
    assert answer == b"\1\0", f"the session of {name} is lost: {answer}"
    return client


class Subscriber:
    """A client that reads from its session as long as a broker runs, and remembers its book."""

    def __init__(self):
        self.counts, self.open, self.lost = {}, set(), None

    def run(self, broker, stop):
        try:
            self.read(broker, stop)
        except OSError:
            pass
        except AssertionError as fault:
            if "is lost" in str(fault):
                self.lost = fault

    def read(self, broker, stop):
        with resumed(broker, "home") as client:
            client.socket.settimeout(0.2)
            while not stop.is_set():
                with contextlib.suppress(TimeoutError):
                    found = client.packet()
                    if found is None:
                        return
                    self.take(client, *found)

    def take(self, client, first, body):
        if first & 0xF0 == 0x60:
            self.open.discard(body)
            client.send(packet(0x70, body))
        if first & 0xF0 != 0x30:
            return
        identifier, payload = message_of(first, body)
        if first & 6 == 2:
            self.count(payload)
            client.send(packet(0x40, identifier))
        if first & 6 == 4:
            if identifier not in self.open:
                self.open.add(identifier)
                self.count(payload)
            client.send(packet(0x50, identifier))

    def count(self, payload):
        self.counts[payload] = self.counts.get(payload, 0) + 1


class Publisher:
    """A client that publishes numbers, and repeats a message that was not acknowledged."""

    def __init__(self, name, qos):
        self.name, self.qos = name, qos
        self.next, self.taken = 0, []
        self.is_sent = self.is_owned = False

    def run(self, broker, stop):
        with contextlib.suppress(*LOST), Client(broker, self.name, clean=False) as client:
            while not stop.is_set() or self.is_sent:
                self.publish(client)

    def publish(self, client):
        identifier = two_bytes(self.next % 60_000 + 1)
        payload = f"{self.name}-{self.next}".encode()
        if not self.is_owned:
            data = publish("t", payload, self.qos, self.next % 60_000 + 1)
            client.send(bytes([data[0] | (8 if self.is_sent else 0)]) + data[1:])
            self.is_sent = True
            assert client.expect(0x40 if self.qos == 1 else 0x50) == identifier
            self.taken.append(payload)
            self.is_owned = self.qos == 2
        if self.is_owned:
            client.send(packet(0x62, identifier))
            assert client.expect(0x70) == identifier
        self.next += 1
        self.is_sent = self.is_owned = False


class Mosquitto:
    """Runs of mosquitto_pub, one for each message. None is repeated."""

    def __init__(self, qos):
        self.name, self.qos = f"mosquitto{qos}", qos
        self.next, self.taken, self.is_sent = 0, [], False

    def run(self, broker, stop):
        while not stop.is_set():
            payload = f"{self.name}-{self.next}"
            self.next += 1
            words = [MOSQUITTO, "-p", str(broker.port), "-t", "t", "-q", str(self.qos), "-m", payload]
            ran = subprocess.run(words, capture_output=True, timeout=LIMIT, check=False)
            if ran.returncode == 0:
                self.taken.append(payload.encode())


class Paho:
    """A client of paho-mqtt, which repeats by itself what was not acknowledged."""

    def __init__(self, qos):
        self.name, self.qos = f"paho{qos}", qos
        self.next, self.taken, self.sent = 0, [], {}
        self.client = paho.Client(client_id=self.name, clean_session=False, protocol=paho.MQTTv311)
        self.client.on_publish = lambda client, data, mid: self.taken.append(self.sent.pop(mid))

    @property
    def is_sent(self):
        return bool(self.sent)

    def run(self, broker, stop):
        # If paho 1.6 connects twice without a CONNACK, it forgets that a message was received, and
        # publishes it once more.
        for message in self.client._out_messages.values():
            if message.state == paho.mqtt_ms_resend_pubrel:
                message.state = paho.mqtt_ms_wait_for_pubcomp
        with contextlib.suppress(OSError):
            self.client.connect("127.0.0.1", broker.port)
            while not stop.is_set() or self.sent:
                if len(self.sent) < 5 and not stop.is_set():
                    payload = f"{self.name}-{self.next}".encode()
                    self.next += 1
                    self.sent[self.client.publish("t", payload, self.qos).mid] = payload
                if self.client.loop(0.01) != paho.MQTT_ERR_SUCCESS:
                    return


class Retainer:
    """A client that replaces a retained message again and again."""

    def __init__(self):
        self.sent = self.taken = 0

    def run(self, broker, stop):
        with contextlib.suppress(*LOST), Client(broker, "retainer") as client:
            while not stop.is_set():
                self.sent += 1
                client.send(retained("kept", b"%d" % self.sent, 1))
                client.expect(0x40)
                self.taken = self.sent

    def check(self, broker):
        with Client(broker, "reader") as client:
            client.subscribe("kept", 0)
            value = int(message_of(0x30, client.expect(0x30))[1])
            assert self.taken <= value <= self.sent, f"retained {value}, not {self.taken}"


class Filters:
    """A client that subscribes to one filter after another."""

    def __init__(self):
        self.taken = 0

    def run(self, broker, stop):
        with contextlib.suppress(*LOST), Client(broker, "filters", clean=False) as client:
            while not stop.is_set():
                client.subscribe(f"f/{self.taken + 1}", 1)
                self.taken += 1
                time.sleep(0.01)

    def check(self, broker):
        """Each acknowledged filter has its subscription."""
        with resumed(broker, "filters") as client:
            for nth in range(1, self.taken + 1):
                client.send(publish(f"f/{nth}", b"%d" % nth))
                payload = message_of(0x30, client.expect(0x30))[1]
                assert payload == b"%d" % nth, f"filter {nth} is lost"


def publishers():
    """The publishers, of each quality of service."""
    found = [Publisher(f"one{nth}", 1) for nth in range(3)]
    found += [Publisher(f"two{nth}", 2) for nth in range(3)]
    found += [Mosquitto(qos) for qos in (1, 2) if MOSQUITTO]
    found += [Paho(qos) for qos in (1, 2) if paho]
    return found


def run_until_killed(broker, clients, seconds):
    stop = threading.Event()
    threads = [threading.Thread(target=it.run, args=(broker, stop)) for it in clients]
    for thread in threads:
        thread.start()
    time.sleep(seconds)
    broker.kill()
    stop.set()
    for thread in threads:
        thread.join()


def kill_at_start(program, folder, words, seconds):
    """Kills a broker that may not have recovered yet."""
    process = subprocess.Popen([program, "broker", "--listen", "127.0.0.1:0", "--data", folder, *words], stdout=subprocess.DEVNULL, stderr=subprocess.DEVNULL)
    time.sleep(seconds)
    process.kill()
    process.wait()


def kills(program):
    """Acknowledged messages arrive although the broker is killed, those of QoS 2 once."""
    few = max(1, KILLS // 4)
    for keep, size, count in (("system", SIZE, KILLS), ("disk", SIZE, few), ("system", 3_000, KILLS), ("system", 0, KILLS), ("disk", 0, few)):
        words = ["--capacity", "65535", "--keep", keep, "--journal-size", str(size)]
        with tempfile.TemporaryDirectory() as room:
            kill_often(program, f"{room}/data", words, count)


def kill_often(program, folder, words, count):
    times = random.Random(SEED)
    subscriber, sources, watched = Subscriber(), publishers(), [Retainer(), Filters()]
    with Kept(program, folder, *words) as broker:
        with Client(broker, "home", clean=False) as home:
            home.subscribe("t", 2)
        run_until_killed(broker, [*sources, *watched], 0.2)
    for nth in range(count):
        if nth % 3 == 1:
            kill_at_start(program, folder, words, times.uniform(0, 0.05))
        with Kept(program, folder, *words) as broker:
            for it in watched:
                it.check(broker)
            # The session is away in every fourth round, so that messages are queued.
            reads = [] if nth % 4 == 3 else [subscriber]
            run_until_killed(broker, [*reads, *sources, *watched], times.uniform(0.02, 0.4))
    with Kept(program, folder, *words) as broker:
        drain(broker, subscriber, sources)
        for it in watched:
            it.check(broker)
    check(subscriber, sources, f"{count} kills, {' '.join(words[2:])}, SEED={SEED}")
    assert os.stat(folder).st_mode & 0o777 == 0o700
    for name in os.listdir(folder):
        assert os.stat(f"{folder}/{name}").st_mode & 0o777 == 0o600, name


def drain(broker, subscriber, sources):
    """Completes the open messages, and reads all that is queued."""
    stop, go_on = threading.Event(), threading.Event()
    stop.set()
    for it in sources:
        it.run(broker, stop)
        assert not it.is_sent, f"{it.name} was not served"
    thread = threading.Thread(target=subscriber.run, args=(broker, go_on))
    thread.start()
    want = {payload for it in sources for payload in it.taken}
    for _ in range(200):
        if want <= set(subscriber.counts):
            break
        time.sleep(0.1)
    time.sleep(0.3)
    go_on.set()
    thread.join()


def check(subscriber, sources, where):
    assert not subscriber.lost, f"{where}: {subscriber.lost}"
    for it in sources:
        missing = [payload for payload in it.taken if payload not in subscriber.counts]
        assert not missing, f"{where}: {len(missing)} of {len(it.taken)} messages of {it.name} are lost: {missing[:3]}"
        names = {payload for payload in subscriber.counts if payload.startswith(f"{it.name}-".encode())}
        twice = [payload for payload in names if subscriber.counts[payload] > 1]
        assert it.qos == 1 or not twice, f"{where}: {len(twice)} messages of {it.name} came twice: {twice[:3]}"
    taken = ", ".join(f"{it.name} {len(it.taken)}" for it in sources)
    print(f"durable: {where}: none lost of the acknowledged messages of {taken}")


def queued(program):
    """A session that is away has its subscriptions and its queue after a restart."""
    for keep in ("system", "disk"):
        with tempfile.TemporaryDirectory() as folder:
            with Kept(program, folder, "--keep", keep) as broker:
                fill_queue(broker, 0, 10)
            with Kept(program, folder, "--keep", keep) as broker:
                assert broker.events > 10 and broker.sessions == 1, (broker.events, broker.sessions)
                with resumed(broker, "home") as home:
                    for nth in range(10):
                        assert home.expect(0x30).endswith(b"-%d" % nth)


def fill_queue(broker, first, count, tail=b""):
    """Lets messages of QoS 1 wait for a session that is away, which begins with the first one."""
    if first == 0:
        with Client(broker, "home", clean=False) as home:
            home.subscribe("t/+", 1)
            home.send(DISCONNECT)
            assert home.is_closed()
    with Client(broker, "p") as client:
        for nth in range(first, first + count):
            client.send(publish(f"t/{nth}", b"-%d" % nth + tail, 1, nth + 1))
            client.expect(0x40)
        client.send(DISCONNECT)
        assert client.is_closed()


def run_broker(program, *words):
    """A broker that ends by itself: its status, and its standard error."""
    words = [program, "broker", "--listen", "127.0.0.1:0", *words]
    ran = subprocess.run(words, capture_output=True, timeout=LIMIT, check=False)
    assert ran.stdout == b"", ran
    return ran.returncode, ran.stderr.decode()


def refusals(program):
    """Folders that can't be used, and files that are missing."""
    with tempfile.TemporaryDirectory() as folder:
        with Kept(program, folder):
            assert run_broker(program, "--data", folder) == (1, f"mqtt: the folder '{folder}': in use\n")
        is_refused(program, f"{folder}/no/no", "the folder cannot be opened")
        for name in ("missing", ""):
            ran = subprocess.run([program, "journal", f"{folder}/{name}"], capture_output=True, timeout=LIMIT, check=False)
            assert (ran.returncode, ran.stdout) == (1, b"") and b"cannot be read" in ran.stderr, ran
        for name in (f"{folder}/snapshot", sys.argv[0]):
            ran = subprocess.run([program, "journal", name], capture_output=True, timeout=LIMIT, check=False)
            assert (ran.returncode, ran.stdout) == (1, b"") and b"is not the journal of a broker" in ran.stderr, ran
        with copied(folder) as other:
            os.remove(f"{other}/journal.1")
            is_refused(program, other, "the journal that the file 'snapshot' names is missing")
        os.remove(f"{folder}/snapshot")
        is_refused(program, folder, "the file 'snapshot' is missing: restore it, or use an empty folder")
        with open(f"{folder}/configuration", "wb") as file:
            file.write(bytes(32))
        is_refused(program, folder, "it has a journal of an earlier version: use that version, or an empty folder")


def is_refused(program, folder, reason, *words):
    """A start is refused for this reason, and changes nothing in the folder."""
    before = files_of(folder)
    assert run_broker(program, "--data", folder, *words) == (1, f"mqtt: the folder '{folder}': {reason}\n"), reason
    assert files_of(folder) == before, f"{reason}: the folder was changed"


@contextlib.contextmanager
def copied(folder):
    with tempfile.TemporaryDirectory() as room:
        yield shutil.copytree(folder, room, dirs_exist_ok=True)


def files_of(folder):
    """The files of a folder with their bytes."""
    found = {}
    for name in os.listdir(folder) if os.path.isdir(folder) else ():
        with open(f"{folder}/{name}", "rb") as file:
            found[name] = file.read()
    return found


def changes(program):
    """A start may have other limits and passwords, unless they don't allow the broker."""
    with tempfile.TemporaryDirectory() as room:
        folder, passwords = f"{room}/data", f"{room}/passwords"
        with open(passwords, "w", encoding="utf-8") as file:
            file.write("home:secret\np:secret\n")
        with Kept(program, folder) as broker:
            fill_queue(broker, 0, 10)
        is_refused(program, folder, "a session stores too many messages: use a greater capacity", "--capacity", "9")
        with Kept(program, folder, "--capacity", "10", "--passwords", passwords) as broker:
            with Client(broker) as home:
                home.send(connect("home", clean=False))
                assert home.expect(0x20) == b"\0\5", "anyone may connect"
            broker.kill()
        with Kept(program, folder, "--capacity", "11") as broker:
            with Client(broker, "q") as client:
                client.send(publish("t/long", 200 * b"x", 1, 1))
                client.expect(0x40)
        is_refused(program, folder, "a stored message is too large: use a greater maximum length of a packet", "--max-packet", "100")
        with Kept(program, folder) as broker:
            assert messages_of_home(broker) == [b"-%d" % nth for nth in range(10)] + [200 * b"x"]


def restarts(program):
    """Kills and starts leave two files in the folder."""
    times = random.Random(SEED)
    with tempfile.TemporaryDirectory() as folder:
        for nth in range(30):
            words = ["--journal-size", str((0, 3_000, SIZE)[nth % 3])]
            kill_at_start(program, folder, words, times.uniform(0, 0.03))
            with Kept(program, folder, *words) as broker:
                # With 0 the broker may begin the next journal at any time.
                if nth % 3:
                    check_files(folder)
                fill_queue(broker, nth, 1)
                # A client is connected, and has sent a part of a packet.
                with Client(broker, "q") as client:
                    client.send(publish("t/q", b"q", 1, 1)[:5])
                    client.wait_until_arrived()
                    broker.kill()
        with Kept(program, folder) as broker:
            check_files(folder)
            assert messages_of_home(broker) == [b"-%d" % nth for nth in range(30)]


def check_files(folder):
    names = sorted(os.listdir(folder))
    assert len(names) == 2 and re.fullmatch(r"journal\.\d+", names[0]) and names[1] == "snapshot", names


def full(program):
    """On a full disk the broker ends, and every message that it acknowledged is there later."""
    with tempfile.TemporaryDirectory() as folder:
        fill(program, f"{folder}/data", 100_000)
        fill(program, f"{folder}/more", 100_000, *SMALL)
    with small_disk() as folder:
        if folder:
            fill(program, f"{folder}/data", None)


def full_snapshot(program):
    """A disk that is full during a snapshot is reported as full, and the old files are kept."""
    with small_disk() as folder:
        if not folder:
            return
        data, tail = f"{folder}/data", 1_000 * b"x"
        fill(program, data, None, *SMALL)
        assert "snapshot.next" in os.listdir(data), os.listdir(data)
        shutil.rmtree(data)
        with Kept(program, data) as broker:
            fill_queue(broker, 0, 110, tail)
        names = sorted(os.listdir(data))
        before = files_of(data)
        wanted = f"mqtt: the folder '{data}': a file of the folder cannot be written: the disk is full\n"
        assert run_broker(program, "--data", data) == (1, wanted)
        after = files_of(data)
        assert all(after[name] == before[name] for name in names), names
        with tempfile.TemporaryDirectory() as other:
            shutil.copytree(data, f"{other}/data")
            with Kept(program, f"{other}/data") as broker:
                assert messages_of_home(broker) == [b"-%d" % nth + tail for nth in range(110)]
                check_files(f"{other}/data")


@contextlib.contextmanager
def small_disk():
    """A folder on a disk of 200 KiB, or None if no disk can be mounted."""
    with tempfile.TemporaryDirectory() as folder:
        mount = ["mount", "-t", "tmpfs", "-o", "size=200k", "tmpfs", folder]
        if subprocess.run(mount, capture_output=True, check=False).returncode:
            print("durable: no tmpfs can be mounted here, so no disk was full")
            yield None
            return
        try:
            yield folder
        finally:
            subprocess.run(["umount", folder], check=True)


def fill(program, folder, size, *words):
    with Kept(program, folder, *words, size=size) as broker:
        taken = publish_until_lost(broker)
        status = broker.process.wait(LIMIT)
        reason = broker.process.stderr.read().decode()
    assert 20 < taken < 300, taken
    wanted = f"the journal in '{folder}' cannot be written: the disk is full or failed."
    assert status == 1 and wanted in reason and "Free space" in reason, (status, reason)
    if size is None and not words:
        status, reason = run_broker(program, "--data", folder)
        assert status == 1 and f"'{folder}'" in reason and "cannot be written" in reason, reason
    with tempfile.TemporaryDirectory() as other:
        shutil.copytree(folder, f"{other}/data")
        with Kept(program, f"{other}/data") as broker:
            count = len(messages_of_home(broker))
            assert count in (taken, taken + 1), f"{count} messages, and {taken} were acknowledged"


def publish_until_lost(broker, size=1_000):
    """The number of messages that the broker acknowledges before it ends."""
    with Client(broker, "home", clean=False) as home:
        home.subscribe("t/+", 1)
        home.send(DISCONNECT)
    with Client(broker, "p") as client:
        for taken in range(1_000):
            try:
                client.send(publish("t/x", size * b"x", 1, taken + 1))
                client.expect(0x40)
            except LOST:
                return taken
    raise AssertionError("the disk is not full")


def pause(program):
    """The log reports each snapshot, with the bytes of its file and the sessions."""
    with tempfile.TemporaryDirectory() as folder:
        with Kept(program, folder, *SMALL, log="--verbose") as broker:
            fill_queue(broker, 0, 20, 300 * b"x")
            # The log is written after the output of a round.
            time.sleep(0.2)
            broker.kill()
            lines = broker.process.stderr.read().decode().splitlines()
        lines = [line for line in lines if line.startswith("snapshot")]
        found = [re.fullmatch(r"snapshot bytes=(\d+) sessions=(\d+) milliseconds=\d+", line) for line in lines]
        assert len(found) > 1 and all(found), lines
        assert int(found[-1][1]) == os.path.getsize(f"{folder}/snapshot") and found[-1][2] in "12", lines


def memory(program):
    """If an allocation fails the broker ends, and every message that it acknowledged is there."""
    words = ["--max-stored", "1000000000"]
    with tempfile.TemporaryDirectory() as room:
        with Kept(program, f"{room}/data", *words, memory=64 << 20) as broker:
            taken = publish_until_lost(broker, 1_000_000)
            status, reason = broker.process.wait(LIMIT), broker.process.stderr.read().decode()
        assert status == 3 and reason.endswith(": out of memory\n"), (status, reason)
        with Kept(program, f"{room}/data", *words) as broker:
            count = len(messages_of_home(broker))
        assert taken > 10 and count in (taken, taken + 1), (taken, count)


def damage(program):
    """A damaged file is refused by name, or the journal is read up to the damage."""
    with tempfile.TemporaryDirectory() as folder:
        for first in (0, 3):
            with Kept(program, folder) as broker:
                fill_queue(broker, first, 3)
                broker.kill()
        for name, least in (("snapshot", 6), ("journal.2", 3)):
            with open(f"{folder}/{name}", "rb") as file:
                whole = file.read()
            counts = [start_with(program, folder, name, *it) for it in damaged(whole)]
            wrong = [it for it in counts if it is not None and not least <= it <= 6]
            assert not wrong, f"{name}: {len(wrong)} starts gave {set(wrong)} of 6 messages"
            assert None in counts and (least == 6 or {3, 4, 5} & set(counts)), set(counts)
            refused = counts.count(None)
            print(f"durable: {len(counts)} damaged files {name}, {refused} of them refused")


def damaged(whole):
    """The file cut and changed at about a hundred places, gates among them."""
    places, gate = set(range(0, len(whole), max(1, len(whole) // 70))), 0
    while gate < len(whole) and whole[gate] == 1:
        places.add(gate)
        gate += 9 + int.from_bytes(whole[gate + 1 : gate + 5], "big")
    for place in sorted(places):
        yield f"cut at {place}", whole[:place]
        for bit in (1, 0x80):
            changed = bytes([whole[place] ^ bit])
            yield f"changed at {place}", whole[:place] + changed + whole[place + 1 :]


def start_with(program, folder, name, where, journal):
    """Starts a broker with this file. Returns the number of its messages, None if refused."""
    with tempfile.TemporaryDirectory() as room:
        shutil.copytree(folder, room, dirs_exist_ok=True)
        with open(f"{room}/{name}", "wb") as file:
            file.write(journal)
        if name != "snapshot":
            list_damaged(program, f"{room}/{name}", where)
        try:
            broker = Kept(program, room)
        except AssertionError as fault:
            reason = r"mqtt: the folder '.*': (the file 'snapshot'|an entry|the broker|the journal) "
            assert re.search(reason, str(fault)), (name, where, fault)
            with open(f"{room}/{name}", "rb") as file:
                assert file.read() == journal, f"{name} {where}: it was changed"
            return None
        with broker:
            found = messages_of_home(broker)
            assert found == [b"-%d" % nth for nth in range(len(found))], (name, where, found)
            return len(found)


def list_damaged(program, name, where):
    """Prints a damaged journal, which must end with the place of the damage."""
    ran = subprocess.run([program, "journal", name], capture_output=True, timeout=LIMIT, check=False)
    last = ran.stdout.decode().rpartition("\n")[0].rpartition("\n")[2]
    if b"is not the journal" in ran.stderr:
        assert (ran.returncode, ran.stdout) == (1, b""), (where, ran)
    else:
        fine = re.fullmatch(r"(closed|torn) at \d+", last)
        bad = re.fullmatch(r"(cut short|damaged) at \d+", last)
        assert (fine and ran.returncode == 0) or (bad and ran.returncode == 1), (where, ran)


def messages_of_home(broker):
    """The messages that wait for `home`, in order, each once."""
    with Client(broker) as home:
        home.send(connect("home", clean=False) + PING)
        home.expect(0x20)
        found = []
        while True:
            first, body = home.packet()
            if first & 0xF0 == 0xD0:
                return found
            found.append(message_of(first, body)[1])


TESTS = [kills, queued, refusals, changes, restarts, full, full_snapshot, pause, memory, damage]


def faults_of(program, names=()):
    """The tests that fail, with the reason."""
    left_out = [name for name, tool in (("mosquitto_pub", MOSQUITTO), ("paho", paho)) if not tool]
    if left_out:
        print(f"durable: not installed, so left out: {', '.join(left_out)}")
    for test in TESTS:
        if names and test.__name__ not in names:
            continue
        try:
            test(program)
        except (AssertionError, OSError, subprocess.SubprocessError) as fault:
            yield f"durable: {test.__name__}: {type(fault).__name__}: {str(fault)[:600]}"


def main():
    global KILLS
    program, *names = sys.argv[1:]
    if names and names[0].isdigit():
        KILLS = int(names.pop(0))
    faults = list(faults_of(os.path.abspath(program), names))
    print("\n".join(faults) or "durable: nothing found to be wrong")
    return 1 if faults else 0


if __name__ == "__main__":
    sys.exit(main())
