#!/usr/bin/env python3
"""Runs `mqtt serve` with client programs, and `mqtt loopback`, and compares what they print.

    .ci/rounds.py [PROGRAM]

.ci/rounds/commands has rounds, separated by empty lines: a comment, the command of a broker, and
commands of programs, which run one after another while the broker serves. In a command, `PORT` is
the port of the broker, `''` is an empty argument, and `xxd -p FILE` prints the bytes of a file.
.ci/rounds/printed has the output and the status of each program, those of the broker last.
"""

import contextlib
import os
import shutil
import socket
import subprocess
import sys
import tempfile

ROOT = os.path.dirname(os.path.dirname(os.path.abspath(__file__)))
FOLDER = f"{ROOT}/.ci/rounds"
LIMIT = 60
# The number of runs of PAIRS.
RUNS = 100

NOT_A_CLIENT = "line {}: not a client\n"
IN_ORDER = "replay equal\naudit yes\n"

# Two collectors and two publishers, with four workers. Both collectors stay connected until all
# messages have arrived, so three workers at least serve a connection.
PAIRS = "collect a x/# 2 4\ncollect b x/# 2 4\npublish p x/p 2 31 32\npublish q x/q 2 33 34\n"
PAIRS_PRINTED = """\
a x/p 31
a x/p 32
a x/q 33
a x/q 34
b x/p 31
b x/p 32
b x/q 33
b x/q 34
"""


def crowd(count):
    """A publisher and collectors, together this number of clients."""
    return "publish p t 1 -\n" + "".join(f"collect {it} t 1 1\n" for it in range(1, count))


# Loopback files, the last line that is printed, the number of lines, and the status.
LONG_FILES = [
    (crowd(64), "audit yes", 65, 0),
    (crowd(65), "line 65: not a client", 1, 2),
    # The payload is longer than a packet may be.
    (f"collect c t 1 0\npublish p t 1 {1_048_577 * '61'}", "refused P3", 1, 1),
]

# Loopback files, their output, and the status.
FILES = [
    (PAIRS, PAIRS_PRINTED + IN_ORDER, 0),
    ("", NOT_A_CLIENT.format(1), 2),
    ("\n", NOT_A_CLIENT.format(1), 2),
    ("collect a x/# 2 0", IN_ORDER, 0),
    ("collect a%20b x/%25 1 2\npublish p x/%25 1 - 00ff\n", "a%20b x/%25 -\na%20b x/%25 00ff\n" + IN_ORDER, 0),
    ("collect a x 0 1\npublish a x 0 31\n", NOT_A_CLIENT.format(2), 2),
    ("collect a x/#/y 2 4\n", NOT_A_CLIENT.format(1), 2),
    ("publish p x/+ 2 31\n", NOT_A_CLIENT.format(1), 2),
    ("publish p x 3 31\n", NOT_A_CLIENT.format(1), 2),
    ("publish p x 2\n", NOT_A_CLIENT.format(1), 2),
    ("publish p x 2 3\n", NOT_A_CLIENT.format(1), 2),
    ("collect a x 0 1\ncollect %61 x 0 1\n", NOT_A_CLIENT.format(2), 2),
    ("collect a x 0 4294967296\n", NOT_A_CLIENT.format(1), 2),
    ("collect a  0 1\n", NOT_A_CLIENT.format(1), 2),
    ("collect a x 0 1 \n", NOT_A_CLIENT.format(1), 2),
]


def run(words, data=b"", folder=None):
    """Returns the output and the status of a program."""
    how = {"stdout": subprocess.PIPE, "stderr": subprocess.DEVNULL, "timeout": LIMIT}
    ran = subprocess.run(words, input=data, cwd=folder, check=False, **how)
    return ran.stdout.decode(), ran.returncode


def run_line(program, line, port, folder):
    """Returns the command, its output and its status, as .ci/rounds/printed has them."""
    words = [{"PORT": port, "''": ""}.get(it, it) for it in line.split(" ")]
    if line.startswith("xxd -p "):
        with open(f"{folder}/{words[2]}", "rb") as file:
            printed, status = file.read().hex() + "\n", 0
    else:
        printed, status = run([program, *words[1:]], folder=folder)
    return f"$ {line}\n{printed}status {status}\n"


def knock(port, connections):
    """Opens this number of connections, which the broker may still wait for."""
    for _ in range(connections):
        with contextlib.suppress(OSError):
            socket.create_connection(("127.0.0.1", int(port)), timeout=1).close()


def run_round(program, text, folder):
    """Returns the output of a round."""
    remark, command, *lines = text.splitlines()
    words = command.split(" ")
    how = {"stdout": subprocess.PIPE, "stderr": subprocess.DEVNULL}
    broker = subprocess.Popen([program, *words[1:]], cwd=folder, **how)
    try:
        first = broker.stdout.readline().decode()
        port = first.strip().rpartition(":")[2]
        printed = f"{remark}\n" + "".join(run_line(program, it, port, folder) for it in lines)
        knock(port, int(words[words.index("--connections") + 1]))
        broker.wait(LIMIT)
        rest = broker.stdout.read()
    finally:
        broker.kill()
        broker.wait()
        broker.stdout.close()
    output = first.replace(port, "PORT") + rest.decode()
    return f"{printed}$ {command}\n{output}status {broker.returncode}\n"


def read(name):
    with open(f"{FOLDER}/{name}", encoding="utf-8") as file:
        return file.read()


def look_at_rounds(program, expect):
    rounds = read("commands").rstrip("\n").split("\n\n")
    wanted = read("printed").rstrip("\n").split("\n\n")
    expect("the number of rounds", len(rounds), len(wanted))
    with tempfile.TemporaryDirectory() as folder:
        for name in ("w.session", "bad.session"):
            shutil.copy(f"{FOLDER}/{name}", folder)
        for text, printed in zip(rounds, wanted):
            remark = text.partition("\n")[0]
            expect(remark, run_round(program, text, folder), f"{printed}\n")


def look_at_files(program, expect):
    loopback = [program, "loopback", "-"]
    for text, printed, status in FILES:
        expect(f"loopback {text!r}", run(loopback, text.encode()), (printed, status))
    for text, last, count, status in LONG_FILES:
        printed, ended = run(loopback, text.encode())
        lines = printed.splitlines()
        expect(f"loopback of {len(text)} bytes", (lines[-1:], len(lines), ended), ([last], count, status))
    for nth in range(RUNS):
        expect(f"loopback of pairs, run {nth}", run(loopback, PAIRS.encode()), (PAIRS_PRINTED + IN_ORDER, 0))


def check(program, expect):
    """Calls `expect` with a name, the result and the expected result of each part."""
    look_at_rounds(program, expect)
    look_at_files(program, expect)


def main():
    faults = []

    def expect(name, result, wanted):
        if result != wanted:
            faults.append(f"{name}: {str(result)[:600]}, and not {str(wanted)[:600]}")

    check(os.path.abspath(sys.argv[1]) if len(sys.argv) > 1 else f"{ROOT}/bin/mqtt", expect)
    for fault in faults:
        print(f"rounds: {fault}")
    print(f"rounds: {len(faults) or 'no'} fault{'' if len(faults) == 1 else 's'}")
    return 1 if faults else 0


if __name__ == "__main__":
    sys.exit(main())
