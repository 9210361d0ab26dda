#!/usr/bin/env python3
"""Compares the lines that `mqtt sub` prints with those of mosquitto_sub 2.0.11.

    .ci/formats.py PROGRAM

The server is made here, and so are the packet identifiers. .ci/clock.c, which needs a C compiler,
sets the time of day; without one the rows with a time are left out. The dates are those of
`date -u -d @SECONDS`.
"""

import os
import shutil
import socket
import subprocess
import sys
import tempfile

ROOT = os.path.dirname(os.path.dirname(os.path.abspath(__file__)))
CC = os.environ.get("CC") or "cc"
LIMIT = 20
NOW = 1_795_852_847_123_456_789
SECOND = 1_000_000_000

# Options, a payload, and the output. The message has topic a/b, QoS 1 and identifier 7.
PLAIN = [
    ([], b"hi", b"hi\n"),
    ([], b"", b""),
    (["-N"], b"hi", b"hi"),
    (["-v"], b"hi", b"a/b hi\n"),
    (["-v"], b"", b"a/b (null)\n"),
    (["-F", "%t|%p|%x|%X|%q|%r|%l|%m|%%"], b"J\xff", b"a/b|J\xff|4aff|4AFF|1|0|2|7|%\n"),
    (["-N", "-F", "%5l|%05l|%-5l|"], b"J", b"    1|00001|1    |"),
    (["-N", "-F", "%6t|%-6t|%.2t|"], b"J", b"   a/b|a/b   |a/|"),
    (["-N", "-F", r"\t\n\\"], b"", b"\t\n\\"),
]

# Nanoseconds since 1970, a format, a payload, and the output.
TIMED = [
    (NOW, "%I", b"", b"2026-11-28T08:00:47+0000"),
    (NOW, "%U", b"", b"1795852847.123456789"),
    (NOW, "@Y-@m-@d @H:@M:@S @F @T @s @N @z @@", b"",
     b"2026-11-28 08:00:47 2026-11-28 08:00:47 1795852847 123456789 +0000 @"),
    (NOW, "%j", b"\x01\"\n/",
     b'{"tst":"2026-11-28T08:00:47.123456Z+0000","topic":"a/b","qos":1,"retain":0,'
     b'"payloadlen":4,"mid":7,"payload":"\\u0001\\"\\n/"}'),
    # The first day of a leap year's March, and the days around it.
    (951_782_399 * SECOND, "@F @T", b"", b"2000-02-28 23:59:59"),
    (951_782_400 * SECOND, "@F @T", b"", b"2000-02-29 00:00:00"),
    (4_107_542_400 * SECOND, "@F @T", b"", b"2100-03-01 00:00:00"),
]

# Formats that are refused, and the reason.
REFUSED = [
    ("%", "it ends after `%`, `@` or a backslash"),
    ("%y", "there is no field `%y`"),
    ("@Q", "there is no field `@Q`"),
    (r"\q", r"there is no escape `\q`"),
]


def read_packet(stream):
    """A packet of less than 128 bytes."""
    head = stream.recv(2, socket.MSG_WAITALL)
    return head[:1], stream.recv(head[1], socket.MSG_WAITALL) if head[1] else b""


def printed(program, options, payload, environment):
    """The output of `mqtt sub` for one message."""
    with socket.create_server(("127.0.0.1", 0)) as server:
        server.settimeout(LIMIT)
        words = ["-h", "127.0.0.1", "-p", str(server.getsockname()[1]), "-t", "a/b", "-q", "1"]
        command = [program, "sub", *words, "-C", "1", *options]
        how = {"stdout": subprocess.PIPE, "env": {**os.environ, "TZ": "UTC", **environment}}
        with subprocess.Popen(command, **how) as process:
            try:
                stream, _ = server.accept()
                with stream:
                    stream.settimeout(LIMIT)
                    read_packet(stream)
                    stream.sendall(b"\x20\2\0\0")
                    _, body = read_packet(stream)
                    stream.sendall(b"\x90\3" + body[:2] + b"\1")
                    stream.sendall(bytes([0x32, 7 + len(payload)]) + b"\0\3a/b\0\7" + payload)
                    return process.communicate(timeout=LIMIT)[0]
            finally:
                process.kill()


def clock(folder):
    """The compiled .ci/clock.c, or None."""
    if not shutil.which(CC):
        print(f"formats: there is no C compiler {CC}, so no time was set")
        return None
    library = f"{folder}/clock.so"
    words = ["-std=gnu11", "-O1", "-shared", "-fPIC", "-o", library, f"{ROOT}/.ci/clock.c", "-ldl"]
    subprocess.run([CC, *words], check=True)
    return library


def check(program, expect):
    """Calls `expect` with a name, the result and the expected result of each row."""
    for options, payload, wanted in PLAIN:
        expect(f"sub {options} of {payload}", printed(program, options, payload, {}), wanted)
    for text, reason in REFUSED:
        ran = subprocess.run([program, "sub", "-t", "a", "-F", text], capture_output=True, check=False)
        expect(f"sub -F {text}", f" after -F can't be read: {reason};" in ran.stderr.decode(), True)
        expect(f"status of sub -F {text}", (ran.returncode, ran.stdout), (1, b""))
    with tempfile.TemporaryDirectory() as folder:
        library = clock(folder)
        for time, text, payload, wanted in TIMED if library else []:
            environment = {"LD_PRELOAD": library, "CLOCK": str(time)}
            found = printed(program, ["-N", "-F", text], payload, environment)
            expect(f"sub -F {text} of {payload} at {time}", found, wanted)


def main():
    faults = []

    def expect(name, found, wanted):
        if found != wanted:
            faults.append(f"{name}: {str(found)[:600]}, and not {str(wanted)[:600]}")

    check(os.path.abspath(sys.argv[1]), expect)
    print("\n".join(f"formats: {it}" for it in faults) or "formats: no faults")
    return 1 if faults else 0


if __name__ == "__main__":
    sys.exit(main())
