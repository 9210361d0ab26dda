#!/usr/bin/env python3
"""Runs `mqtt pub` and `mqtt sub` next to mosquitto_pub and mosquitto_sub, option by option.

Both get the same options at the same broker, which is mosquitto's. What they print, what they
publish and their statuses have to be the same, byte for byte. Each check prints a line. If
mosquitto is not installed, only the checks run that use `mqtt broker`, or no broker; .ci/program
runs these too, with fewer rounds. The program is the first argument, otherwise bin/mqtt. Further
arguments choose the checks whose names contain them. Everything is on 127.0.0.1, at free ports, and
files are in a folder that is removed."""

import contextlib
import os
import random
import re
import shlex
import shutil
import signal
import socket
import struct
import subprocess
import sys
import tempfile
import threading
import time

sys.dont_write_bytecode = True
import hard_use

ROOT = os.path.dirname(os.path.dirname(os.path.abspath(__file__)))
PROGRAM = os.path.abspath(sys.argv[1]) if len(sys.argv) > 1 else f"{ROOT}/bin/mqtt"
CHOSEN = sys.argv[2:]
# The rounds of the check that kills both commands.
ROUNDS = 20
PLACES = f"{os.environ.get('PATH', '')}:/usr/sbin:/usr/local/sbin"
NEEDED = {it: shutil.which(it, path=PLACES) for it in ("mosquitto", "mosquitto_passwd", "mosquitto_pub", "mosquitto_sub")}
OURS = {"pub": [PROGRAM, "pub"], "sub": [PROGRAM, "sub"]}
THEIRS = {"pub": [NEEDED["mosquitto_pub"]], "sub": [NEEDED["mosquitto_sub"]]}
# The names of the checks that need no program of mosquitto.
ALONE = set()
# How long anything may take, in seconds.
LIMIT = 60
EVERY = bytes(range(256))
MILLION = bytes(i * 7 % 256 for i in range(1_000_000))
PASSWORD = "secret-of-joe"
checks = []
faults = []


def check(name, alone=False):
    def known(function):
        checks.append((name, function))
        ALONE.update([name] if alone else [])
        return function

    return known


def free_port():
    with socket.socket() as free:
        free.bind(("127.0.0.1", 0))
        return free.getsockname()[1]


def environment(**more):
    """The environment without the variables of `mqtt`, and with these."""
    kept = {name: value for name, value in os.environ.items() if not name.startswith("MQTT_")}
    return {**kept, "TZ": "UTC", **more}


def same(what, ours, theirs):
    """Both have to be the same."""
    if ours != theirs:
        raise AssertionError(f"{what}: ours {ours!r:.600}, theirs {theirs!r:.600}")


class Running:
    """A program that runs concurrently. Its output goes to files, so that it never blocks."""

    def __init__(self, folder, words, given=None, env=None):
        self.words = words
        self.path = tempfile.mktemp(dir=folder)
        how = {"env": environment(**(env or {}))}
        source = subprocess.PIPE if given is not None else subprocess.DEVNULL
        with open(self.path, "wb") as output, open(f"{self.path}.errors", "wb") as errors:
            self.process = subprocess.Popen(words, stdin=source, stdout=output, stderr=errors, **how)
        if given is not None:
            with contextlib.suppress(BrokenPipeError):
                self.process.stdin.write(given)
                self.process.stdin.close()

    def read(self, ending=""):
        with open(self.path + ending, "rb") as file:
            return file.read()

    def ended(self):
        """Its status, its output and its errors, once it has ended."""
        self.process.wait(timeout=LIMIT)
        return self.process.returncode, self.read(), self.read(".errors")

    def stop(self, how=signal.SIGKILL):
        if self.process.poll() is None:
            self.process.send_signal(how)
            self.process.wait(timeout=LIMIT)


class Room:
    """Brokers, and the programs that are started at them."""

    def __init__(self, folder, stack):
        self.folder, self.stack = folder, stack
        self.port = 0

    def file(self, name, data):
        with open(f"{self.folder}/{name}", "wb") as file:
            file.write(data)
        return f"{self.folder}/{name}"

    def broker(self, port=None, more=""):
        """Mosquitto's broker, at this port or a free one."""
        self.port = port or free_port()
        lines = f"listener {self.port} 127.0.0.1\npersistence false\nmax_inflight_messages 0\nmax_queued_messages 0\n"
        log = f"log_dest file {self.folder}/log\nlog_type all\n"
        allow = "" if "allow_anonymous" in more else "allow_anonymous true\n"
        # As root it would change to a user that cannot read the folder.
        user = "user root\n" if os.geteuid() == 0 else ""
        config = self.file("mosquitto.conf", (lines + log + allow + user + more).encode())
        words = [NEEDED["mosquitto"], "-c", config]
        process = Running(self.folder, words)
        self.stack.callback(process.stop)
        for _ in range(LIMIT * 20):
            with contextlib.suppress(OSError), socket.create_connection(("127.0.0.1", self.port)):
                return process
            time.sleep(0.05)
        raise AssertionError("mosquitto does not start")

    def own_broker(self):
        """Our broker, at a free port."""
        words = [PROGRAM, "broker", "--listen", "127.0.0.1:0", "--capacity", "65535"]
        process = self.start(words)
        for _ in range(LIMIT * 20):
            found = re.match(rb"listening 127.0.0.1:(\d+)\n", process.read())
            if found:
                self.port = int(found[1])
                return process
            time.sleep(0.05)
        raise AssertionError("mqtt broker does not start")

    def start(self, words, given=None, env=None):
        running = Running(self.folder, [str(it) for it in words], given, env)
        self.stack.callback(running.stop)
        return running

    def at(self, whose, kind, options, given=None, env=None):
        """Our command or theirs, with these options, at the broker."""
        return self.start([*whose[kind], "-p", self.port, *options], given, env)

    def until_logged(self, pattern, count=1):
        """Waits until the broker's log has this many lines."""
        for _ in range(LIMIT * 50):
            with contextlib.suppress(OSError), open(f"{self.folder}/log", encoding="utf-8", errors="replace") as file:
                if len(re.findall(pattern, file.read())) >= count:
                    return
            time.sleep(0.02)
        raise AssertionError(f"the broker's log does not have {pattern} {count} times")

    def both(self, kind, options, given=None, env=None, also=()):
        """Both with these options, one after the other. Their statuses and outputs must be equal,
        and their errors be there or not. Returns our errors."""
        found = []
        for whose in (OURS, THEIRS):
            running = self.at(whose, kind, [*options, *(also if whose is OURS else ())], given, env)
            found.append(running.ended())
        (status, output, errors), (their_status, their_output, _) = found
        same(f"status of {kind} {options}", status, their_status)
        if status == 0:
            same(f"output of {kind} {options}", output, their_output)
        return errors.decode(errors="replace")


class Peer:
    """A client of this script: it receives what others publish."""

    def __init__(self, port, name, topic=b"#", qos=2):
        self.stream = socket.create_connection(("127.0.0.1", port))
        self.stream.settimeout(LIMIT)
        self.stream.sendall(hard_use.connect(name))
        self.read()
        if topic:
            self.stream.sendall(hard_use.subscribe(topic, qos))
            self.read()
        self.number = 0

    def read(self):
        return hard_use.read_packet(self.stream)

    def messages(self, last):
        """The messages up to one with this topic: topic, payload, quality of service, retained."""
        found = []
        while True:
            first, body = self.read()
            if first >> 4 == 6:
                self.stream.sendall(b"\x70\2" + body)
            if first >> 4 != 3:
                continue
            size = struct.unpack(">H", body[:2])[0]
            topic, rest, qos = body[2:2 + size], body[2 + size:], first >> 1 & 3
            if qos:
                self.stream.sendall((b"\x40\2", b"\x50\2")[qos - 1] + rest[:2])
                rest = rest[2:]
            if topic == last:
                return found
            found.append((topic, rest, qos, first & 1))

    def publish(self, topic, payload, qos=0, retain=False):
        self.number += 1
        self.stream.sendall(hard_use.publish(topic, payload, qos, self.number, retain))
        if qos:
            while self.read()[0] >> 4 not in (4, 5):
                pass
        if qos == 2:
            self.stream.sendall(b"\x62\2" + struct.pack(">H", self.number))
            while self.read()[0] >> 4 != 7:
                pass

    def close(self):
        with contextlib.suppress(OSError):
            self.stream.sendall(hard_use.DISCONNECT)
        self.stream.close()


def published(room, whose, options, given=None, env=None):
    """The status and the messages that a command publishes."""
    peer = Peer(room.port, b"peer")
    os.truncate(f"{room.folder}/log", 0)
    running = room.at(whose, "pub", options, given, env)
    status, _, errors = running.ended()
    if status == 0:
        # The broker may still read messages of QoS 0.
        room.until_logged("Received DISCONNECT from (?!peer)")
    peer.publish(b"the/end", b"")
    found = peer.messages(b"the/end")
    peer.close()
    return status, found, errors.decode(errors="replace")


def same_published(room, options, given=None, env=None):
    """Both publish the same with these options."""
    ours = published(room, OURS, options, given, env)
    theirs = published(room, THEIRS, options, given, env)
    same(f"pub {options}"[:300], ours[:2], theirs[:2])
    return ours


@check("pub: payloads")
def _(room):
    room.broker()
    for qos in "012":
        same_published(room, ["-t", "a/b", "-q", qos, "-m", "hello"])
    for payload in (b"", b"x", EVERY, MILLION):
        name = room.file("payload", payload)
        if payload:
            same_published(room, ["-t", "a", "-f", name])
            same_published(room, ["-t", "a", "-q", "2", "-f", name])
        same_published(room, ["-t", "a", "-s"], payload)
    same_published(room, ["-t", "a", "-n"])
    same_published(room, ["-t", "a", "-m", ""])
    same_published(room, ["-t", "a", "-m", "-x"])
    same_published(room, ["-t", "é/☃", "-m", "é☃"])


@check("pub: lines")
def _(room):
    room.broker()
    for qos in "012":
        lines = b"".join(b"line %d\n" % it for it in range(500))
        same_published(room, ["-t", "a", "-l", "-q", qos], lines)
    same_published(room, ["-t", "a", "-l"], b"a\n\nb\n")
    same_published(room, ["-t", "a", "-l"], b"a" * 100_000 + b"\nb\n")
    _, found, _ = published(room, OURS, ["-t", "a", "-l"], b"a\nno end")
    same("a line without an end", [it[1] for it in found], [b"a", b"no end"])


@check("pub: lines as they arrive")
def _(room):
    room.broker()
    peer = Peer(room.port, b"peer")
    for qos in "012":
        words = [*OURS["pub"], "-p", str(room.port), "-t", "a", "-l", "-q", qos]
        process = subprocess.Popen(words, stdin=subprocess.PIPE, env=environment())
        for count in range(5):
            process.stdin.write(b"%d\n" % count)
            process.stdin.flush()
            while True:
                first, body = peer.read()
                if first >> 4 == 3:
                    break
            at = 5 if first & 6 else 3
            same("a line", body[at:], b"%d" % count)
            if first & 6:
                peer.stream.sendall((b"\x40\2", b"\x50\2")[(first >> 1 & 3) - 1] + body[3:5])
            if first & 4:
                while peer.read()[0] >> 4 != 6:
                    pass
                peer.stream.sendall(b"\x70\2" + body[3:5])
            time.sleep(0.1)
        process.stdin.close()
        same("status", process.wait(timeout=LIMIT), 0)
    peer.close()


@check("pub: repeat, retain, url")
def _(room):
    room.broker()
    same_published(room, ["-t", "a", "-m", "x", "--repeat", "7"])
    same_published(room, ["-t", "a", "-m", "x", "--repeat", "3", "--repeat-delay", "0.05", "-q", "1"])
    same_published(room, ["-L", f"mqtt://127.0.0.1:{room.port}/a/b/c", "-m", "x"])
    same_published(room, ["-L", f"mqtt://localhost:{room.port}/a", "-m", "x"])
    same_published(room, ["-h", "localhost", "-t", "a", "-m", "x"])
    same_published(room, ["-h", "127.0.0.1", "-t", "a", "-m", "x", "-i", "me", "-k", "10", "-c"])
    _, found, _ = published(room, OURS, ["-t", "a", "-m", "x", "-m", "y", "--repeat", "2"])
    same("two texts twice", [it[1] for it in found], [b"x", b"y", b"x", b"y"])
    for whose in (OURS, THEIRS):
        room.at(whose, "pub", ["-t", "kept", "-m", "old", "-r"]).ended()
        found = room.at(THEIRS, "sub", ["-t", "kept", "-C", 1, "-v"]).ended()
        same("a retained message", found[1], b"kept old\n")
        room.at(whose, "pub", ["-t", "kept", "-n", "-r"]).ended()
        status, output, _ = room.at(THEIRS, "sub", ["-t", "kept", "-C", 1, "-W", 1]).ended()
        same("no retained message", (status, output), (27, b""))


@check("pub: delay and time limit")
def _(room):
    room.broker()
    started = time.monotonic()
    same("status", room.at(OURS, "pub", ["-t", "a", "-m", "x", "--repeat", 4, "--delay", "0.2"]).ended()[0], 0)
    took = time.monotonic() - started
    if not 0.55 < took < 5:
        raise AssertionError(f"three waits of 0.2 s took {took:.2f} s")
    status, _, errors = room.at(OURS, "pub", ["-t", "a", "-m", "x", "--repeat", 9, "--delay", "5", "-W", "1"]).ended()
    same("status of -W", status, 27)
    if b"-W" not in errors:
        raise AssertionError(f"no sentence about -W: {errors!r}")


@check("errors and statuses")
def _(room):
    room.broker()
    refused = free_port()
    for kind, options in (
        ("pub", ["-t", "a/#", "-m", "x"]),
        ("pub", ["-m", "x"]),
        ("pub", ["-t", "a"]),
        ("pub", ["-t", "a", "-m", "x", "-f", "y"]),
        ("pub", ["-t", "a", "-f", "/nonexistent"]),
        ("pub", ["-t", "a", "-m", "x", "-q", "3"]),
        ("pub", ["-t", "a", "-m", "x", "--foo"]),
        ("pub", ["-p", refused, "-t", "a", "-m", "x"]),
        ("pub", ["-h", "nosuch.invalid", "-t", "a", "-m", "x"]),
        ("sub", []),
        ("sub", ["-t", "a/#b"]),
        ("sub", ["-t", "a", "-q", "3"]),
        ("sub", ["-t", "a", "--foo"]),
        ("sub", ["-t", "a", "-R", "--retained-only"]),
        ("sub", ["-t", "a", "-F", "%z"]),
        ("sub", ["-t", "a", "-F", "a%"]),
        ("sub", ["-p", refused, "-t", "a"]),
        ("sub", ["-t", "a", "-W", "1"]),
        ("sub", ["-t", "a", "-E"]),
    ):
        errors = room.both(kind, options)
        if "-E" not in options and not errors.strip():
            raise AssertionError(f"{kind} {options}: no sentence on standard error")
    for kind, options in (("pub", ["-t", "a", "-m", "x"]), ("sub", ["-t", "a"])):
        status, _, errors = room.at(OURS, kind, ["-p", refused, "--quiet", *options]).ended()
        same("quiet", (status, errors), (1, b""))
    errors = room.at(OURS, "pub", ["-t", "a", "--mesage", "x"]).ended()[2].decode()
    if "--message" not in errors:
        raise AssertionError(f"no close option: {errors}")


@check("user names and passwords")
def _(room):
    name = room.file("passwords", b"")
    subprocess.run([NEEDED["mosquitto_passwd"], "-b", name, "joe", PASSWORD], check=True, capture_output=True)
    room.broker(more=f"allow_anonymous false\npassword_file {name}\n")
    last = room.file("password", PASSWORD.encode() + b"\n")
    at = f"127.0.0.1:{room.port}/a"
    good = {"MQTT_USER": "joe", "MQTT_PASSWORD": PASSWORD}
    for options, status in (
        ([], 5),
        (["-u", "joe"], 5),
        (["-u", "joe", "-P", "wrong"], 5),
        (["-u", "joe", "-P", PASSWORD], 0),
    ):
        room.both("pub", ["-t", "a", "-m", "x", *options])
        errors = room.both("sub", ["-t", "a", "-E", *options])
        if status and "refused" not in errors:
            raise AssertionError(f"{options}: {errors}")
    for options, env, status in (
        (["-u", "joe", "--password-file", last, "-t", "a"], {}, 0),
        (["-L", f"mqtt://joe:{PASSWORD}@{at}"], {}, 0),
        (["-L", f"mqtt://joe:wrong@{at}"], {}, 5),
        (["-t", "a"], good, 0),
        (["-t", "a", "-P", "wrong"], good, 5),
        (["-P", PASSWORD, "-t", "a"], {}, 1),
    ):
        for kind, more in (("pub", ["-m", "x"]), ("sub", ["-E"])):
            found = room.at(OURS, kind, [*options, *more, "-d"], env=env).ended()
            same(f"status of {kind} {options}", found[0], status)
            if PASSWORD.encode() in found[1] + found[2]:
                raise AssertionError(f"{kind} {options}: it prints the password")
    env = {**good, "MQTT_HOST": "127.0.0.1", "MQTT_PORT": str(room.port)}
    found = room.start([*OURS["pub"], "-t", "a", "-m", "x"], env=env).ended()
    same("only the environment", found[0], 0)


def same_subscribed(room, options, messages, before=(), statuses=None):
    """Both print the same with these options, if these messages are published."""
    runs = []
    peer = Peer(room.port, b"publisher", None)
    for message in before:
        peer.publish(*message)
    for number, whose in enumerate((OURS, THEIRS)):
        runs.append(room.at(whose, "sub", ["-i", f"sub{number}", *options]))
    for number in range(2):
        room.until_logged(rf"Sending SUBACK to sub{number}")
    for message in messages:
        peer.publish(*message)
    peer.close()
    ours, theirs = (it.ended() for it in runs)
    same(f"sub {options}", ours[:2], theirs[:2])
    if statuses is not None:
        same(f"status of sub {options}", ours[0], statuses)
    os.truncate(f"{room.folder}/log", 0)
    return ours


@check("sub: payloads")
def _(room):
    room.broker()
    payloads = [b"x", b"", EVERY, b"two words", b"line\nend", MILLION, "é☃".encode()]
    for qos in (0, 1, 2):
        sent = [(b"a/%d" % it, payload, qos) for it, payload in enumerate(payloads)]
        for options in ([], ["-v"], ["-N"], ["-v", "-N"]):
            same_subscribed(room, ["-t", "a/#", "-q", qos, "-C", len(sent), *options], sent, statuses=0)


@check("sub: formats")
def _(room):
    room.broker()
    # Theirs prints a message of QoS 2 at its PUBREL, ours at its PUBLISH. So that is the last one.
    sent = [(b"a/b", b"hello", 1), (b"a/d", EVERY, 0), (b"a/c", b"", 2)]
    fields = "%t|%p|%x|%X|%q|%r|%l|%m|%%|%A%C%D%E%F%P%R%S|"
    layouts = "%10t|%-10t|%010t|%.2t|%10.2t|%10p|%-10p|%010p|%3p|%10l|%-10l|%010l|%10m|%5q|%5r|"
    escapes = r"\t\n\\\a\e\0\r\v|@@|@Y@m@d|"
    for text in (fields, layouts, escapes, "", "no field"):
        same_subscribed(room, ["-t", "a/#", "-q", 2, "-C", 3, "-F", text], sent, statuses=0)
        same_subscribed(room, ["-t", "a/#", "-q", 2, "-C", 3, "-N", "-F", text], sent, statuses=0)


@check("sub: times and JSON")
def _(room):
    room.broker()
    payloads = [b"hello", b'a"b\\c', b"tab\tnl\nx\x08\x0c\r", b"\x01\x1f\x7f", "é☃".encode(), b"/", b'{"a":1}']
    sent = [(b"a/b", payload, qos) for payload in payloads for qos in (0, 1)]
    runs = [room.at(it, "sub", ["-i", f"t{n}", "-t", "a/#", "-q", 1, "-C", len(sent), "-F", "%j %I %U"]) for n, it in enumerate((OURS, THEIRS))]
    room.until_logged("Sending SUBACK to t[01]", 2)
    peer = Peer(room.port, b"publisher", None)
    for message in sent:
        peer.publish(*message)
    peer.close()
    found = []
    for run in runs:
        text = run.ended()[1]
        found.append(re.sub(rb"\d{4}-\d\d-\d\dT\d\d:\d\d:\d\d", b"TIME", re.sub(rb"\.\d{6}Z", b".MICROZ", re.sub(rb"\d{10}\.\d{9}", b"UNIX", text))))
    same("JSON", *found)


@check("sub: retained messages")
def _(room):
    room.broker()
    before = [(b"r/a", b"old a", 0, True), (b"r/b", b"old b", 1, True), (b"r/c", b"old c", 1, True)]
    sent = [(b"r/a", b"new a", 1), (b"r/b", b"new b", 1)]
    for options, status in (
        (["-C", 5], 0),
        (["-C", 5, "-v", "-q", 2], 0),
        (["-C", 5, "-F", "%t %r %q %p", "-q", 2], 0),
        (["-C", 2, "-R"], 0),
        (["-C", 2, "-R", "-v", "-q", 1], 0),
        (["--retained-only", "-v"], 0),
        (["--retained-only", "-C", 2], 0),
    ):
        same_subscribed(room, ["-t", "r/#", *options], sent, before, status)
    same_subscribed(room, ["-t", "r/#", "-W", 2, "--retained-only"], [], before, 27)
    exact = [(b"exact", b"once", 2, True)]
    same_subscribed(room, ["-t", "exact", "-q", 2, "-C", 1, "-F", "%t %r %q %p"], [], exact, 0)


@check("sub: filters")
def _(room):
    room.broker()
    sent = [(name, name, 1) for name in (b"a", b"a/b", b"a/b/c", b"b", b"b/c", b"c", b"end")]
    for options in (
        ["-t", "#", "-C", 7],
        ["-t", "a", "-t", "b/#", "-t", "end", "-C", 4],
        ["-t", "+/b", "-t", "end", "-C", 2],
        ["-t", "#", "-T", "a/#", "-C", 4],
        ["-t", "#", "-T", "a/#", "-T", "+/c", "-C", 3, "-v"],
        ["-t", "a/#", "-t", "end", "-q", 2, "-C", 4, "-v"],
    ):
        same_subscribed(room, options, sent, statuses=0)


@check("sub: counts and time limits")
def _(room):
    room.broker()
    sent = [(b"a", b"%d" % it, 1) for it in range(50)]
    for count in (1, 2, 49, 50):
        same_subscribed(room, ["-t", "a", "-C", count], sent, statuses=0)
    same_subscribed(room, ["-t", "a", "-W", 2, "-q", 1], sent, statuses=27)
    same_subscribed(room, ["-t", "a", "-W", 2, "--quiet", "-q", 1], sent[:3], statuses=27)


@check("sub: kept sessions")
def _(room):
    room.broker()
    for number, whose in enumerate((OURS, THEIRS)):
        options = ["-i", f"kept{number}", "-c", "-q", 1]
        same("subscribe", room.at(whose, "sub", [*options, "-t", "k", "-E"]).ended()[0], 0)
    peer = Peer(room.port, b"publisher", None)
    for it in range(5):
        peer.publish(b"k", b"%d" % it, 1)
    found = []
    for number, whose in enumerate((OURS, THEIRS)):
        options = ["-i", f"kept{number}", "-c", "-q", 1]
        found.append(room.at(whose, "sub", [*options, "-t", "k", "-C", 2]).ended()[:2])
    same("two of five", *found)
    same("two of five", found[0], (0, b"0\n1\n"))
    # Ours acknowledges nothing behind the second message, so the others come again.
    same("the others", room.at(OURS, "sub", ["-i", "kept0", "-c", "-q", 1, "-t", "k", "-C", 3]).ended()[:2], (0, b"2\n3\n4\n"))
    same("give up", room.at(OURS, "sub", ["-i", "kept0", "-c", "-U", "k", "-E"]).ended()[0], 0)
    peer.publish(b"k", b"late", 1)
    found = room.at(OURS, "sub", ["-i", "kept0", "-c", "-q", 1, "-t", "other", "-W", 1]).ended()[:2]
    same("nothing after that", found, (27, b""))
    peer.close()


@check("wills")
def _(room):
    room.broker()
    for options in (
        ["--will-topic", "w/a", "--will-payload", "gone"],
        ["--will-topic", "w/a", "--will-payload", "gone", "--will-qos", 2, "--will-retain"],
        ["--will-topic", "w/a"],
    ):
        found = []
        for whose in (OURS, THEIRS):
            peer = Peer(room.port, b"peer")
            running = room.at(whose, "sub", ["-i", "dying", "-t", "x", *options])
            room.until_logged("Sending SUBACK to dying")
            running.stop()
            first = peer.read()
            found.append((first[0], first[1][:5], first[1][7:] if first[0] & 6 else first[1][5:]))
            peer.close()
            os.truncate(f"{room.folder}/log", 0)
            room.at(THEIRS, "pub", ["-t", "w/a", "-n", "-r"]).ended()
        same(f"the will of {options}", *found)


@check("sub: a broker that restarts")
def _(room):
    broker = room.broker()
    port = room.port
    running = room.at(OURS, "sub", ["-t", "a", "-q", 1, "-C", 2, "-i", "again", "-c"])
    room.until_logged("Sending SUBACK to again")
    room.at(THEIRS, "pub", ["-t", "a", "-m", "one", "-q", 1]).ended()
    broker.stop()
    os.truncate(f"{room.folder}/log", 0)
    time.sleep(0.3)
    room.broker(port)
    # The broker has no session any more, so the subscription is requested again.
    room.until_logged("Sending SUBACK to again")
    room.at(THEIRS, "pub", ["-t", "a", "-m", "two", "-q", 1]).ended()
    same("across a restart", running.ended()[:2], (0, b"one\ntwo\n"))
    broker = room.broker()
    running = room.at(OURS, "sub", ["-t", "a", "-i", "once", "--retry", "never"])
    room.until_logged("Sending SUBACK to once")
    broker.stop()
    status, _, errors = running.ended()
    same("never", (status, b"lost" in errors), (1, True))


class Proxy:
    """Forwards connections to a port, and cuts each after a random number of bytes."""

    def __init__(self, port, seed):
        self.target, self.random = port, random.Random(seed)
        self.listener = socket.create_server(("127.0.0.1", 0))
        self.port = self.listener.getsockname()[1]
        self.cuts, self.is_open = 0, True
        self.most = 20_000
        threading.Thread(target=self.accept, daemon=True).start()

    def accept(self):
        while self.is_open:
            try:
                client = self.listener.accept()[0]
                server = socket.create_connection(("127.0.0.1", self.target))
            except OSError:
                continue
            left = [self.random.randrange(50, self.most)]
            for pair in ((client, server), (server, client)):
                threading.Thread(target=self.forward, args=(*pair, left), daemon=True).start()

    def forward(self, source, target, left):
        with contextlib.suppress(OSError):
            while True:
                data = source.recv(4096)
                if not data:
                    break
                if len(data) >= left[0]:
                    target.sendall(data[:left[0]])
                    self.cuts += 1
                    break
                left[0] -= len(data)
                target.sendall(data)
        for it in (source, target):
            with contextlib.suppress(OSError):
                it.shutdown(socket.SHUT_RDWR)

    def close(self):
        self.is_open = False
        self.listener.close()


@check("cuts: each message once")
def _(room):
    room.broker()
    count = 1000
    for seed in range(3):
        for keep in (["-c", "-i", "pub-cut"], []):
            proxy = Proxy(room.port, seed)
            expected = b"".join(b"%d\n" % it for it in range(count))
            sub = room.start([*OURS["sub"], "-p", proxy.port, "-t", "a", "-q", 2, "-C", count, "-c", "-i", f"sub-cut{seed}{len(keep)}", "--retry", "1", "-k", 5])
            room.until_logged(f"Sending SUBACK to sub-cut{seed}{len(keep)}")
            pub = room.start([*OURS["pub"], "-p", proxy.port, "-t", "a", "-q", 2, "-l", "--retry", "1", "-k", 5, *keep], expected)
            same("status of pub", (pub.ended()[0], pub.read(".errors")), (0, b""))
            status, output, _ = sub.ended()
            same(f"each once, in order, across {proxy.cuts} cuts", (status, output), (0, expected))
            if proxy.cuts < 2:
                raise AssertionError(f"only {proxy.cuts} cuts")
            proxy.close()


def sent_packets(room, whose, kind, options):
    """The first two packets that a command sends to a server that accepts its CONNECT."""
    with socket.create_server(("127.0.0.1", 0)) as listener:
        listener.settimeout(LIMIT)
        port = listener.getsockname()[1]
        words = [str(it).replace("PORT", str(port)) for it in options]
        running = room.start([*whose[kind], "-p", port, *words])
        stream = listener.accept()[0]
        with stream:
            stream.settimeout(LIMIT)
            found = [hard_use.read_packet(stream)]
            stream.sendall(b"\x20\2\0\0")
            found.append(hard_use.read_packet(stream))
        running.stop()
    return found


@check("packets: CONNECT and the first one after it")
def _(room):
    will = ["--will-topic", "w"]
    for options in (
        ["-i", "me"],
        ["-i", "me", "-k", 10],
        ["-i", "me", "-k", 65535, "-c"],
        ["-i", "me", "-u", "joe"],
        ["-i", "me", "-u", "joe", "-P", "x y"],
        ["-i", "me", "-u", "é", "-P", ""],
        ["-i", "me", *will],
        ["-i", "me", *will, "--will-payload", "gone", "--will-qos", 1],
        ["-i", "me", "-c", *will, "--will-payload", "-x", "--will-qos", 2, "--will-retain", "-u", "joe", "-P", "x"],
        ["-i", "23 characters and more of them"],
        ["-h", "127.0.0.1", "-i", "me"],
        ["-d", "-i", "me"],
        ["--quiet", "-i", "me"],
    ):
        for kind, more in (("pub", ["-t", "a", "-m", "x"]), ("sub", ["-t", "a"])):
            found = [sent_packets(room, it, kind, [*options, *more]) for it in (OURS, THEIRS)]
            same(f"packets of {kind} {options}", *found)
    for kind, options in (
        *(("pub", ["-t", "a/b", "-m", "x", "-q", qos, *more]) for qos in range(3) for more in ([], ["-r"])),
        ("pub", ["-L", "mqtt://joe:x@127.0.0.1:PORT/a/b", "-m", "x"]),
        ("pub", ["-L", "mqtt://127.0.0.1:PORT/a", "-n", "-r"]),
        ("sub", ["-L", "mqtt://joe:x@127.0.0.1:PORT/a/%23", "-q", 1]),
        ("sub", ["-L", "mqtt://127.0.0.1:PORT/a/b"]),
        ("sub", ["-t", "a", "-t", "b/#", "-t", "+/c", "-q", 2]),
        ("sub", ["-t", "a", "-T", "b", "-C", 3, "-R", "-v", "-N", "-q", 1]),
        ("sub", ["-t", "$SYS/#", "-t", "é"]),
    ):
        # Ours continues with its session after a loss, unless that is switched off.
        also = ["--retry", "never"] if kind == "pub" else []
        found = [sent_packets(room, it, kind, ["-i", "me", *options, *more]) for it, more in ((OURS, also), (THEIRS, []))]
        same(f"packets of {kind} {options}", *found)


@check("sub: unsubscribe")
def _(room):
    room.broker()
    found = []
    for number, whose in enumerate((OURS, THEIRS)):
        options = ["-i", f"kept{number}", "-c", "-q", 1, "-t", "k", "-t", "l"]
        same("subscribe", room.at(whose, "sub", [*options, "-E"]).ended()[0], 0)
        running = room.at(whose, "sub", ["-i", f"kept{number}", "-c", "-q", 1, "-t", "m", "-U", "k", "-C", 2, "-v"])
        room.until_logged(f"Sending UNSUBACK to kept{number}")
        peer = Peer(room.port, b"publisher", None)
        for topic in (b"k", b"l", b"m"):
            peer.publish(topic, topic, 1)
        peer.close()
        found.append(running.ended()[:2])
    same("sub -U", *found)
    same("sub -U", found[0], (0, b"l l\nm m\n"))


def output_of(words):
    """The output of a program that ends with status 0 and prints no errors."""
    ran = subprocess.run(words, capture_output=True, text=True, timeout=LIMIT, env=environment())
    same(f"status and errors of {words}", (ran.returncode, ran.stderr), (0, ""))
    return ran.stdout


def completed(script, *words):
    """What bash completes for the last of these words."""
    quoted = " ".join(shlex.quote(it) for it in ("mqtt", *words))
    line = f"source {script}; COMP_WORDS=({quoted}); COMP_CWORD={len(words)}; _mqtt; printf '%s\\n' \"${{COMPREPLY[@]}}\""
    return output_of(["bash", "--norc", "-uc", line]).split()


@check("completion and manual: each command and option of the help", alone=True)
def _(room):
    script = room.file("completion", output_of([PROGRAM, "completion", "bash"]).encode())
    same("how bash completes", output_of(["bash", "--norc", "-c", f"source {script}; complete -p mqtt"]), "complete -o default -F _mqtt mqtt\n")
    page = room.file("mqtt.1", output_of([PROGRAM, "manual"]).encode())
    shown = output_of(["man", "--warnings", "-l", page]) if shutil.which("man") else None
    listed = output_of([PROGRAM, "--help"]).split("Commands:\n")[1].split("\n\n")[0]
    commands = [*re.findall(r"^  (\S+)", listed, flags=re.M), "pub", "sub"]
    same("commands", sorted(completed(script, "")), sorted([*commands, "-h", "--help", "-V", "--version"]))
    same("commands with p", sorted(completed(script, "p")), ["password", "pub", "publish"])
    same("commands of help", sorted(completed(script, "help", "s")), ["serve", "show", "sub"])
    same("shells", completed(script, "completion", ""), ["bash"])
    for command in commands:
        if command == "help":
            continue
        text = output_of([PROGRAM, command, "--help"])
        same(f"help {command}", output_of([PROGRAM, "help", command]), text)
        rows = re.findall(r"^  (?:(-\S), )?\s*(-\S+)( <.*?>)?", text.split("Options:\n")[1].split("\n\n")[0], flags=re.M)
        names = [it for row in rows for it in row[:2] if it]
        same(f"options of {command}", sorted(completed(script, command, "-")), sorted(names))
        for short, long, value in rows:
            for it in filter(None, (short, long) if value else ()):
                same(f"the value of {command} {it}", completed(script, command, it, ""), [])
            section = shown and re.split(rf"\n   mqtt {command}\b", shown)[1].split("\n   mqtt ")[0]
            if shown and not re.search(rf"^       (\S+, )?{re.escape(long + value)}( |$)", section, flags=re.M):
                raise AssertionError(f"the manual page has no option {long}{value} of {command}")


@check("session files: no lock after an error", alone=True)
def _(room):
    os.mkdir(f"{room.folder}/sessions")
    for content in (b"no session", b"LOSTno session", b"LOST", None):
        name = f"{room.folder}/sessions/session"
        if content is None:
            os.remove(name)
            os.mkdir(name)
        else:
            room.file("sessions/session", content)
        for kind, options in (("pub", ["-m", "x"]), ("sub", [])):
            found = room.start([*OURS[kind], "-p", free_port(), "-t", "a", "--session", name, *options]).ended()
            same(f"{kind} with {content}", (found[0], b"session file" in found[2]), (1, True))
            same(f"files after {kind} with {content}", os.listdir(f"{room.folder}/sessions"), ["session"])
    for options in (["-P", "x"], ["--password-file", "/nonexistent"]):
        name = f"{room.folder}/sessions/new"
        found = room.start([*OURS["sub"], "-p", free_port(), "-t", "a", "--session", name, *options]).ended()
        same(f"sub {options}", (found[0], os.listdir(f"{room.folder}/sessions")), (1, ["session"]))


class Witness:
    """A subscriber of this script, which receives the messages below a topic concurrently."""

    def __init__(self, port, topic):
        self.peer, self.found = Peer(port, b"witness", topic + b"/#"), []
        self.marker, self.mark, self.marks = Peer(port, b"marker", None), topic + b"/mark", 0
        threading.Thread(target=self.receive, daemon=True).start()

    def receive(self):
        """Receives until the stream is closed. A message of QoS 2 is released before the next one."""
        stream = self.peer.stream
        stream.settimeout(None)
        with contextlib.suppress(OSError, AssertionError, EOFError):
            while True:
                first, body = self.peer.read()
                if first >> 4 == 3:
                    size = struct.unpack(">H", body[:2])[0]
                    if body[2:2 + size] == self.mark:
                        self.marks += 1
                    else:
                        self.found.append(body[4 + size:])
                    stream.sendall(b"\x50\2" + body[2 + size:4 + size])
                elif first >> 4 == 6:
                    stream.sendall(b"\x70\2" + body[:2])

    def until(self, count, goes_on=lambda: True):
        """Waits until this many messages have arrived, or something has ended."""
        for _ in range(LIMIT * 500):
            if len(self.found) >= count or not goes_on():
                return
            time.sleep(0.01)
        raise AssertionError(f"{len(self.found)} of {count} messages arrived")

    def settle(self):
        """Waits until it has received everything that the broker has."""
        wanted = self.marks + 1
        self.marker.publish(self.mark, b"", 2)
        self.until(sys.maxsize, lambda: self.marks < wanted)

    def close(self):
        self.marker.close()
        self.peer.close()


class Killed(threading.Thread):
    """Runs `sub` with a session file, and kills it each time that it has printed so many lines."""

    def __init__(self, room, words, places, count):
        super().__init__(daemon=True)
        self.room, self.words, self.places, self.count = room, words, places, count
        self.printed, self.again, self.error = [], 0, None

    def lines_of(self, output):
        """The new lines of a run. A message that was printed just before the kill may come again."""
        lines = output.split(b"\n")[:-1]
        is_again = bool(self.printed) and lines[:1] == self.printed[-1:]
        return lines[is_again:], is_again

    def run(self):
        try:
            for place in [*self.places, self.count]:
                running = self.room.start(self.words)
                for _ in range(LIMIT * 500):
                    if len(self.printed) + len(self.lines_of(running.read())[0]) >= place or running.process.poll() is not None:
                        break
                    time.sleep(0.01)
                running.stop()
                output = running.read()
                lines, is_again = self.lines_of(output)
                self.printed.extend(lines)
                self.again += is_again
                assert running.process.returncode == -signal.SIGKILL, running.ended()
                assert output[-1:] in (b"", b"\n"), f"half a line: {output[-50:]}"
                assert len(self.printed) >= place, f"{len(self.printed)} of {place} messages are printed"
        except (AssertionError, OSError) as error:
            self.error = error


def publish_killed(room, words, lines, places, witness):
    """Publishes lines by `pub` with a session file, and kills it after each number of arrivals."""
    for place in places:
        running = room.start([*words, "-l"], b"".join(lines[len(witness.found):]))
        witness.until(place, lambda: running.process.poll() is None)
        same("status of a killed pub", (running.process.poll(), running.read(".errors")), (None, b""))
        running.stop()
        # The messages that it had accepted are published before any other one.
        same("status of pub without lines", room.start([*words, "-l"], b"").ended(), (0, b"", b""))
        witness.settle()
    same("status of pub", room.start([*words, "-l"], b"".join(lines[len(witness.found):])).ended(), (0, b"", b""))
    witness.settle()


def look_at_kills(room, seed, count=1000, kills=5):
    """Publishes and prints messages of QoS 2 across cuts and kills of both commands."""
    chance = random.Random(seed)
    proxy, witness = Proxy(room.port, seed), Witness(room.port, b"kills/%d" % seed)
    options = ["-t", f"kills/{seed}/a", "-q", 2, "--retry", 1]
    sub = [*OURS["sub"], *options, "--session", f"{room.folder}/sub{seed}"]
    pub = [*OURS["pub"], *options, "--session", f"{room.folder}/pub{seed}", "-p", proxy.port]
    same("subscribe", room.start([*sub, "-p", room.port, "-E"]).ended()[0], 0)
    lines = [b"%d" % it for it in range(count)]
    places = [sorted(chance.sample(range(1, count * 9 // 10), kills)) for _ in range(2)]
    killed = Killed(room, [*sub, "-p", proxy.port], places[0], count)
    killed.start()
    publish_killed(room, pub, [it + b"\n" for it in lines], places[1], witness)
    killed.join(LIMIT * 5)
    if killed.error or killed.is_alive():
        raise AssertionError(f"round {seed}: {killed.error or 'sub prints nothing more'}")
    same(f"round {seed}: the messages at the broker", witness.found, lines)
    same(f"round {seed}: the printed messages", killed.printed, lines)
    witness.close()
    proxy.close()
    return proxy.cuts, killed.again


@check("kills: each message once", alone=True)
def _(room):
    # The rounds alternate between the brokers, if mosquitto's is there.
    ports = []
    for start in (room.own_broker, *([room.broker] if NEEDED["mosquitto"] else [])):
        start()
        ports.append(room.port)
    found = []
    for seed in range(ROUNDS):
        room.port = ports[seed % len(ports)]
        found.append(look_at_kills(room, seed))
    cuts, again = (sum(it) for it in zip(*found))
    print(f"kills: {ROUNDS} rounds, {cuts} cuts, {again} messages printed again after a kill", flush=True)
    if cuts < 2 * ROUNDS:
        raise AssertionError(f"only {cuts} cuts")


def look_at(function):
    """Runs a check in a folder of its own. Returns its error, if there is one."""
    with tempfile.TemporaryDirectory(prefix="pub-sub-") as folder, contextlib.ExitStack() as stack:
        try:
            function(Room(folder, stack))
        except (AssertionError, OSError, subprocess.SubprocessError) as error:
            return str(error) or repr(error)
    return None


def faults_of(program):
    """The faults of the checks without mosquitto, with two rounds of kills."""
    global PROGRAM, ROUNDS
    PROGRAM, ROUNDS = program, 2
    NEEDED.update(dict.fromkeys(NEEDED))
    OURS.update({"pub": [program, "pub"], "sub": [program, "sub"]})
    found = [(name, look_at(function)) for name, function in checks if name in ALONE]
    return [f"{name}: {error}" for name, error in found if error]


def main():
    missing = [name for name, found in NEEDED.items() if not found]
    chosen = [it for it in checks if not CHOSEN or any(word in it[0] for word in CHOSEN)]
    if missing:
        print(f"pub_sub: {', '.join(missing)} is not installed (Debian: apt-get install mosquitto mosquitto-clients)")
        chosen = [it for it in chosen if it[0] in ALONE]
    for name, function in chosen:
        started = time.monotonic()
        error = look_at(function)
        if error:
            faults.append(name)
        right = "right" if name in ALONE else "as mosquitto"
        print(f"{name}: {f'WRONG: {error}' if error else right}, {time.monotonic() - started:.1f} s", flush=True)
    print(f"pub_sub: {'nothing' if not faults else len(faults)} found to be wrong in {len(chosen)} checks")
    return 1 if faults else 0


if __name__ == "__main__":
    sys.exit(main())
