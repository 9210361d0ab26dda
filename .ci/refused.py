"""Refuses each allocation of `mqtt replay` and `mqtt publish --session` in turn, for .ci/refusals.

An allocation of the program may be refused anywhere, also while it reads its arguments. Then it
prints what it printed before, and `out of memory` with status 3. Or the first line that differs
names the refusal, and the run goes on: a replay is idle in the end with its promises kept. A
session that is published again without texts delivers the messages of its file, each once.
"""

import contextlib
import os
import re
import socket
import subprocess
import tempfile
import threading

ROOT = os.path.dirname(os.path.dirname(os.path.abspath(__file__)))
LIMIT = 60
MOST = 1_000_000
NAMES = ("refused P5", "closed C6", "out of memory")

# The file of a session, or None; the payloads of its messages; and the texts to publish.
SESSIONS = [
    (None, b"", ["x", "y"]),
    ("4d515302000177000004000100010001020100000174000000017800000000", b"x", ["y", "z"]),
]


def run(words, library, number, data=b"", folder=None):
    """Returns the status and the output of a run whose allocation of this number fails, and whether
    the run made that many."""
    setting = {"LD_PRELOAD": library, "REFUSE": str(number)}
    ran = subprocess.run(words, input=data, capture_output=True, cwd=folder, env=setting, timeout=LIMIT, check=False)
    return ran.returncode, ran.stdout.decode(), b"refused\n" in ran.stderr


def first_other(printed, plain):
    """The first line that differs from the line in its place, or that has none there."""
    others = plain.splitlines()
    for at, line in enumerate(printed.splitlines()):
        if at >= len(others) or others[at] != line:
            return line
    return None


def outcome(status, printed, plain):
    """The outcome of a run that is compared with the plain one."""
    if (status, printed) == plain:
        return "the same"
    if status == 3:
        front, found, _ = printed.rpartition("out of memory\n")
        return "out of memory" if found and plain[1].startswith(front) else f"status 3 {printed!r}"
    line = first_other(printed, plain[1])
    if line and any(it in line for it in NAMES):
        return "goes on"
    return f"status {status} {printed!r}"


def is_kept(line):
    """Whether the counts of a direction are those that are promised once nothing waits (4.3)."""
    found = re.search(r"accepted (\d+) handed (\d+) held 0$", line)
    if not found:
        return False
    accepted, handed = int(found[1]), int(found[2])
    return handed == accepted or (handed > accepted and "qos2" not in line)


def is_settled(printed):
    """Whether a replay is idle in the end, with its promises kept."""
    lines = printed.splitlines()
    idle = [it for it in lines if it.startswith("idle ")][-1:]
    counts = [it for it in lines if " accepted " in it and " handed " in it]
    return idle == ["idle yes"] and all(map(is_kept, counts))


def replay(program, library, schedule, number, plain):
    status, printed, met = run([program, "replay", "-"], library, number, schedule.encode())
    if plain is None:
        return (status, printed) if status == 0 and is_settled(printed) else None, met
    told = outcome(status, printed, plain)
    if told == "goes on" and not is_settled(printed):
        told = f"not settled: {printed!r}"
    return told, met


class Server:
    """A server of one client: it has one connection after another, and acknowledges at QoS 2."""

    def __init__(self):
        self.listener = socket.create_server(("127.0.0.1", 0))
        self.port = str(self.listener.getsockname()[1])
        self.payloads, self.received, self.is_known = b"", set(), False
        self.thread = threading.Thread(target=self.serve, daemon=True)
        self.thread.start()

    def close(self):
        # On Linux this ends the accept that waits.
        with contextlib.suppress(OSError):
            self.listener.shutdown(socket.SHUT_RDWR)
        self.thread.join(LIMIT)
        self.listener.close()

    def serve(self):
        with contextlib.suppress(OSError):
            while True:
                stream, _ = self.listener.accept()
                with stream, contextlib.suppress(OSError, IndexError):
                    while packet := self.read(stream):
                        stream.sendall(self.answer(*packet))

    @staticmethod
    def read(stream):
        """A packet of less than 128 bytes, or None at the end."""
        head = stream.recv(2, socket.MSG_WAITALL)
        if len(head) < 2:
            return None
        body = stream.recv(head[1], socket.MSG_WAITALL) if head[1] else b""
        return head[0], body

    def answer(self, first, body):
        if first == 0x10:
            if body[7] & 2:
                self.received, self.is_known = set(), False
                return b"\x20\2\0\0"
            present, self.is_known = self.is_known, True
            return bytes([0x20, 2, present, 0])
        if first & 0xF6 == 0x34:
            size = 2 + body[1]
            number = body[size : size + 2]
            if number not in self.received:
                self.received.add(number)
                self.payloads += body[size + 2 :]
            return b"\x50\2" + number
        if first == 0x62:
            self.received.discard(body)
            return b"\x70\2" + body
        return b""


def is_delivered(held, texts, payloads, is_done):
    """Whether the held payloads came and then texts, each once and in order: all if it is done."""
    if not payloads.startswith(held):
        return False
    rest = payloads[len(held) :]
    for text in texts:
        if not rest.startswith(text.encode()):
            return not rest and not is_done
        rest = rest[len(text) :]
    return not rest


def publish(program, library, session, number, plain):
    """The outcome of a session that is published, and again without texts if it is not done."""
    form, held, texts = session
    server = Server()
    words = [program, "publish", "--port", server.port, "--id", "w", "--topic", "t", "--qos", "2", "--session", "w.session"]
    with tempfile.TemporaryDirectory() as folder, contextlib.closing(server):
        if form:
            with open(f"{folder}/w.session", "wb") as file:
                file.write(bytes.fromhex(form))
        status, printed, met = run([*words, *texts], library, number, folder=folder)
        again = None
        if status:
            again, _, _ = run(words, library, 0, folder=folder)
    if plain is None:
        return (status, printed) if status == 0 else None, met
    told = outcome(status, printed, plain)
    if again or not is_delivered(held, texts, server.payloads, status == 0):
        told = f"status {status} and {again}, delivered {server.payloads}: {printed!r}"
    return told, met


def sections():
    """The name and the function of each section."""
    with open(f"{ROOT}/.ci/refused_schedules", encoding="utf-8") as file:
        schedules = file.read().rstrip("\n").split("\n\n")
    return [("schedule", replay, it + "\n") for it in schedules] + [
        ("session", publish, it) for it in SESSIONS
    ]
