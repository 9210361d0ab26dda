"""Hard use of `serve`, `publish` and `collect`: clients that reconnect at once or read slowly, few
file descriptors, a full output or file, and several runs over one session. Used by .ci/program."""

import contextlib
import os
import resource
import signal
import socket
import struct
import subprocess
import tempfile
import threading
import time


def text(value):
    """A length and the bytes of a text (1.5.3)."""
    return struct.pack(">H", len(value)) + value


def packet(first, body):
    """A packet with its remaining length (2.2.3)."""
    rest, length = len(body), b""
    while True:
        rest, digit = rest >> 7, rest & 127
        length += bytes([digit | 128 if rest else digit])
        if not rest:
            return bytes([first]) + length + body


def connect(name, clean=True, will=None, keep_alive=60):
    """CONNECT, with a will of quality of service 0 (3.1)."""
    flags = (2 if clean else 0) | (4 if will else 0)
    body = text(b"MQTT") + bytes([4, flags]) + struct.pack(">H", keep_alive) + text(name)
    return packet(0x10, body + (text(will) + text(b"gone") if will else b""))


def publish(topic, payload, qos=0, number=1, retain=False):
    """PUBLISH (3.3)."""
    identifier = struct.pack(">H", number) if qos else b""
    return packet(0x30 | qos << 1 | retain, text(topic) + identifier + payload)


def subscribe(topic_filter, qos=0):
    """SUBSCRIBE with one filter (3.8)."""
    return packet(0x82, b"\0\1" + text(topic_filter) + bytes([qos]))


PINGREQ, DISCONNECT = b"\xc0\0", b"\xe0\0"


def read_exactly(stream, count):
    found = b""
    while len(found) < count:
        more = stream.recv(min(count - len(found), 1 << 20))
        if not more:
            raise OSError("the connection ended")
        found += more
    return found


def read_packet(stream):
    """The first byte and the body of the next packet."""
    first, length, shift = read_exactly(stream, 1)[0], 0, 0
    while True:
        digit = read_exactly(stream, 1)[0]
        length |= (digit & 127) << shift
        shift += 7
        if digit < 128:
            return first, read_exactly(stream, length)


@contextlib.contextmanager
def broker(program, connections=100_000, workers=4, before=None):
    """A running `serve` at a free port: its process and its port."""
    words = [program, "serve", "--port", "0", "--connections", str(connections), "--workers", str(workers)]
    process = subprocess.Popen(words, stdout=subprocess.PIPE, stderr=subprocess.PIPE, preexec_fn=before)
    try:
        yield process, int(process.stdout.readline().split(b":")[1])
    finally:
        process.kill()
        process.wait()
        process.stdout.close()
        process.stderr.close()


def client(port, *packets, limit=20):
    """A connection that has sent these packets and got the response to the first one."""
    stream = socket.create_connection(("127.0.0.1", port), timeout=limit)
    stream.setsockopt(socket.IPPROTO_TCP, socket.TCP_NODELAY, 1)
    stream.sendall(packets[0])
    read_packet(stream)
    for it in packets[1:]:
        stream.sendall(it)
    return stream


def run(words, limit=120, **how):
    ran = subprocess.run([str(it) for it in words], capture_output="stdout" not in how, timeout=limit, check=False, **how)
    return ran.returncode, (ran.stdout or b"").decode(), (ran.stderr or b"").decode()


def publish_words(program, port, *words, name="p"):
    return [program, "publish", "--port", port, "--id", name, "--topic", "t", *words]


# ---- serve


def reconnects(program, expect, rounds=300):
    """A client sends CONNECT with a will, PUBLISH and DISCONNECT, closes, and connects again at once. No will is published and no message lost."""
    core = next(iter(os.sched_getaffinity(0)))
    on_one_core = lambda: os.sched_setaffinity(0, {core})

    def behind():
        # The client goes first, so that bytes of two connections wait when the broker runs.
        on_one_core()
        os.nice(10)

    with broker(program, before=behind) as (_, port):
        watch = client(port, connect(b"watch", keep_alive=0), subscribe(b"#"))
        read_packet(watch)

        def rush():
            on_one_core()
            for nth in range(rounds):
                with client(port, connect(b"again", will=b"will"), publish(b"m", b"%d" % nth), DISCONNECT):
                    pass
            client(port, connect(b"last"), publish(b"end", b"")).close()

        thread = threading.Thread(target=rush)
        thread.start()
        wills, numbers = 0, []
        while True:
            _, body = read_packet(watch)
            topic, payload = body[2 : 2 + body[1]], body[2 + body[1] :]
            if topic == b"end":
                break
            wills += topic == b"will"
            if topic == b"m":
                numbers.append(int(payload))
        thread.join()
        expect("serve: a client reconnects at once: wills, lost messages", (wills, rounds - len(numbers)), (0, 0))


def slow_reader(program, expect):
    """A client that reads 150 MB at 13 MB/s, and pings in time, stays connected while more messages come."""
    with broker(program) as (_, port):
        count, later, size, rate = 145, 5, 1_000_000, 13_000_000
        for nth in range(count):
            with client(port, connect(b"filler"), publish(b"big/%d" % nth, b"x" * size, qos=1, retain=True)) as stream:
                read_packet(stream)
        reader = socket.socket()
        reader.setsockopt(socket.SOL_SOCKET, socket.SO_RCVBUF, 65_536)
        reader.settimeout(20)
        reader.connect(("127.0.0.1", port))
        reader.sendall(connect(b"reader", keep_alive=4) + subscribe(b"big/#"))
        # Another client, so that another worker passes the time to the broker.
        other = client(port, connect(b"other", keep_alive=4))
        begun, found, pinged, sent = time.monotonic(), 0, 0.0, 0
        try:
            while found < (count + later) * size:
                passed = time.monotonic() - begun
                if passed > 1 and sent < later:
                    other.sendall(publish(b"big/later", b"x" * size))
                    sent += 1
                if passed - pinged > 0.5:
                    reader.sendall(PINGREQ)
                    other.sendall(PINGREQ)
                    pinged = passed
                if found > passed * rate:
                    time.sleep(0.01)
                    continue
                more = reader.recv(65_536)
                if not more:
                    break
                found += len(more)
        except OSError:
            pass
        expect("serve: a reader that takes 13 MB/s and pings gets 150 MB", found >= (count + later) * size, True)
        # It is still a client: a message comes to it.
        last = b"the last message"
        other.sendall(publish(b"big/last", last))
        rest, reader_end = b"", time.monotonic() + 10
        with contextlib.suppress(OSError):
            while last not in rest and time.monotonic() < reader_end:
                more = reader.recv(65_536)
                if not more:
                    break
                rest = rest[-100:] + more
        expect("serve: a slow reader that pings stays connected", last in rest, True)


def few_descriptors(program, expect):
    """`serve` goes on accepting when file descriptors are free again."""
    few = lambda: resource.setrlimit(resource.RLIMIT_NOFILE, (19, 19))
    with broker(program, workers=6, before=few) as (process, port):
        with contextlib.ExitStack() as stack:
            for _ in range(16):
                stack.enter_context(socket.create_connection(("127.0.0.1", port))).sendall(connect(b""))
            time.sleep(0.5)
        told = run(publish_words(program, port, "--qos", 1, "after"), limit=30)
        expect("serve: after no descriptor was free", told, (0, "published 1\n", ""))
        expect("serve: it goes on", process.poll(), None)


# ---- publish --session


def pairs(program, expect, count=50):
    """Two runs over one session at once: nothing is lost or delivered twice, and one of the two may find the session in use."""
    with tempfile.TemporaryDirectory() as folder, broker(program) as (_, port):
        file = f"{folder}/m.sess"
        watch = client(port, connect(b"watch", keep_alive=0), subscribe(b"#", 2))
        read_packet(watch)
        got = []

        def collect():
            with contextlib.suppress(OSError):
                while True:
                    first, body = read_packet(watch)
                    if first >> 4 == 3:
                        at = 2 + body[1]
                        got.append(body[at + 2 :].decode())
                        watch.sendall(packet(0x50, body[at : at + 2]))
                    elif first >> 4 == 6:
                        watch.sendall(packet(0x70, body))

        thread = threading.Thread(target=collect, daemon=True)
        thread.start()
        words = publish_words(program, port, "--qos", 2, "--session", file)
        run([*words, "first"])
        published, in_use = ["first"], 0
        for nth in range(count):
            texts = [[f"{nth}{side}{it}" for it in range(20)] for side in "ab"]
            both = [subprocess.Popen([str(it) for it in [*words, *it]], stdout=subprocess.PIPE, stderr=subprocess.PIPE) for it in texts]
            for process, own in zip(both, texts):
                told, said = process.communicate(timeout=60)
                if (process.returncode, told) == (1, b"session in use\n"):
                    in_use += 1
                    expect("publish: a session in use", said, f"mqtt: another run of publish uses {file}\n".encode())
                else:
                    expect("publish: one of a pair", (process.returncode, told), (0, b"resumed 0\npublished 20\n"))
                    published.extend(own)
        deadline = time.monotonic() + 10
        while len(got) < len(published) and time.monotonic() < deadline:
            time.sleep(0.05)
        watch.close()
        expect("publish: pairs over one session", sorted(got), sorted(published))
        expect("publish: files after pairs", sorted(os.listdir(folder)), ["m.sess"])
        return in_use


def held_session(program, expect):
    """While a run waits for its broker, a second one touches nothing."""
    with tempfile.TemporaryDirectory() as folder, socket.create_server(("127.0.0.1", 0)) as silent:
        file, port = f"{folder}/m.sess", silent.getsockname()[1]
        words = publish_words(program, port, "--qos", 2, "--session", file, "x")
        first = subprocess.Popen([str(it) for it in words], stdout=subprocess.PIPE, stderr=subprocess.PIPE)
        stream, _ = silent.accept()
        with stream:
            before = sorted(os.listdir(folder))
            expect("publish: a second run", run(words), (1, "session in use\n", f"mqtt: another run of publish uses {file}\n"))
            expect("publish: files after a second run", sorted(os.listdir(folder)), before)
        first.communicate(timeout=60)
        expect("publish: files after both runs", sorted(os.listdir(folder)), [])


def files(program, expect):
    """The mode of the session file is kept, the target of a symbolic link is written, and no draft is left on a full disk."""
    with tempfile.TemporaryDirectory() as folder, broker(program) as (_, port):
        file, link = f"{folder}/m.sess", f"{folder}/links/l.sess"
        os.mkdir(f"{folder}/links")
        os.symlink("../m.sess", link)
        mode = lambda: os.stat(file).st_mode & 0o777
        told = run(publish_words(program, port, "--qos", 2, "--session", link, "x"))
        expect("publish: through a link to a missing file", told, (0, "resumed 0\npublished 1\n", ""))
        expect("publish: the mode of a new session file", (os.path.islink(link), oct(mode())), (True, oct(0o600)))
        for wanted in (0o640, 0o600, 0o444):
            os.chmod(file, wanted)
            told = run(publish_words(program, port, "--qos", 2, "--session", link, "x"))
            expect("publish: through a link", (told, os.path.islink(link), oct(mode())), ((0, "resumed 0\npublished 1\n", ""), True, oct(wanted)))
        os.chmod(file, 0o600)
        with open(file, "rb") as opened:
            before = opened.read()

        def full():
            signal.signal(signal.SIGXFSZ, signal.SIG_IGN)
            resource.setrlimit(resource.RLIMIT_FSIZE, (10, 10))

        told = run(publish_words(program, port, "--qos", 2, "--session", file, "y"), preexec_fn=full)
        expect("publish: a full disk", told, (1, "resumed 0\nsession not written\n", f"mqtt: cannot write {file}: file too large\n"))
        with open(file, "rb") as opened:
            expect("publish: the session file after a full disk", opened.read(), before)
        expect("publish: files after a full disk", sorted(os.listdir(folder)), ["links", "m.sess"])
        told = run(publish_words(program, port, "--qos", 2, "--session", f"{folder}/links"))
        expect("publish: a directory", told, (2, "file not read\n", f"mqtt: {folder}/links is a directory\n"))


def lost_session(program, expect):
    """Each run reports that the broker lost the session, until the user decides."""
    with tempfile.TemporaryDirectory() as folder:
        file = f"{folder}/m.sess"
        with broker(program) as (_, port):
            told = run(publish_words(program, port, "--qos", 2, "--session", file, "x"))
            expect("publish: a new session", told, (0, "resumed 0\npublished 1\n", ""))
        with broker(program) as (_, port):
            words = publish_words(program, port, "--qos", 2, "--session", file)
            reason = f"mqtt: the broker lost the session of {file}; some pending messages may not have arrived; --forget gives them up\n"
            for _ in range(3):
                expect("publish: a lost session", run([*words, "x"]), (1, "resumed 0\nclosed C4\n", reason))
            expect("publish: a forgotten session", run([*words, "--forget", "x"]), (0, "resumed 0\npublished 1\n", ""))
            expect("publish: after a forgotten session", run([*words, "x"]), (0, "resumed 0\npublished 1\n", ""))
        with broker(program) as (_, port):
            words = publish_words(program, port, "--qos", 2, "--session", file)
            expect("publish: a session lost again", run([*words, "x"]), (1, "resumed 0\nclosed C4\n", reason))
            os.remove(file)
            expect("publish: a removed session", run([*words, "x"]), (0, "resumed 0\npublished 1\n", ""))


def unmarked_session(program, expect):
    """If a lost session cannot be marked, the run says so."""
    with tempfile.TemporaryDirectory() as folder, socket.create_server(("127.0.0.1", 0)) as scripted:
        file = f"{folder}/m.sess"
        with broker(program) as (_, port):
            run(publish_words(program, port, "--qos", 2, "--session", file, "x"))
        words = publish_words(program, scripted.getsockname()[1], "--qos", 2, "--session", file, "y")
        second = subprocess.Popen([str(it) for it in words], stdout=subprocess.PIPE, stderr=subprocess.PIPE, text=True)
        stream, _ = scripted.accept()
        with stream:
            stream.recv(1 << 16)
            # A file of this name cannot be created any more.
            os.mkdir(f"{file}.new")
            stream.sendall(b"\x20\2\0\0")
            told = second.communicate(timeout=60)
        reason = f"mqtt: the broker lost the session of {file}, and the next run will not report it: cannot write {file}: is a directory; --forget begins a new session\n"
        expect("publish: a lost session that cannot be marked", (second.returncode, *told), (1, "resumed 0\nclosed C4\n", reason))


# ---- collect


def collect_words(program, port, count):
    return [program, "collect", "--port", port, "--id", "c", "--filter", "t", "--qos", 2, "--count", count]


def full_output(program, expect):
    """Messages that could not be printed are not acknowledged."""
    with broker(program) as (_, port):
        expect("collect: subscribes", run(collect_words(program, port, 0)), (0, "subscribed\n", ""))
        texts = [str(it) for it in range(50)]
        expect("publish: 50 texts", run(publish_words(program, port, "--qos", 2, *texts)), (0, "published 50\n", ""))
        with open("/dev/full", "wb") as full:
            expect("collect: a full output", run(collect_words(program, port, 50), stdout=full, stderr=subprocess.PIPE)[::2], (4, "output failed\n"))
        lines = "".join(f"t 2 {it.encode().hex()}\n" for it in texts)
        expect("collect: after a full output", run(collect_words(program, port, 50)), (0, "subscribed\n" + lines, ""))


def killed_collect(program, expect, count=5):
    """`collect` is killed at each write of its broker in turn. It printed each message before acknowledging it."""
    for kill_at in range(2 * count + 4):
        with socket.create_server(("127.0.0.1", 0)) as listener, tempfile.TemporaryFile() as output:
            words = [str(it) for it in collect_words(program, listener.getsockname()[1], count)]
            process = subprocess.Popen(words, stdout=output, stderr=subprocess.DEVNULL)
            stream, _ = listener.accept()
            stream.settimeout(0.5)
            heard, writes = b"", 0
            with stream, contextlib.suppress(OSError):
                script = [b"\x20\2\1\0", publish(b"t", b"0", 2, 1) + b"\x90\3\0\1\2"]
                script += [publish(b"t", b"%d" % it, 2, it + 1) for it in range(1, count)] + [packet(0x62, struct.pack(">H", it + 1)) for it in range(count)]
                for it in script:
                    heard += stream.recv(65_536)
                    stream.sendall(it)
                    writes += 1
                    if writes > kill_at:
                        break
                process.kill()
                while True:
                    more = stream.recv(65_536)
                    if not more:
                        break
                    heard += more
            process.kill()
            process.wait()
            output.seek(0)
            printed = output.read().count(b"t 2 ")
            acknowledged = heard.count(b"\x50\2")
            expect(f"collect: killed at write {kill_at}: acknowledged and not printed", max(0, acknowledged - printed), 0)


def check(program, expect):
    """Runs all checks."""
    for it in (reconnects, slow_reader, few_descriptors, pairs, held_session, files, lost_session, unmarked_session, full_output, killed_collect):
        try:
            it(program, expect)
        except (OSError, subprocess.SubprocessError, ValueError, IndexError) as fault:
            expect(f"{it.__name__}", repr(fault), "no fault")
