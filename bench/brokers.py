#!/usr/bin/env python3
"""Compares `mqtt broker` with mosquitto in one run.

    bench/brokers.py PROGRAM [--seconds S] [--rows TEXT] [--data DIR] [--csv FILE] [--first]

PROGRAM is the program mqtt. Each broker runs alone on processor 0, the load on the others. Each row
is a run of bench/broker_load.c of S seconds (1 by default). --rows measures only rows whose name
has TEXT. --csv writes the rows to a file. --first runs brokers and loads before all other processes
(SCHED_FIFO; it needs root), on a machine that has other work. `mqtt broker` runs with its state in
memory, and with a journal (`--keep system`, `--keep disk`) in a folder of its own in DIR, by
default a temporary one.
The columns: messages delivered in a second and the share of a processor that the broker used, for
each broker, and the ratios to mosquitto.
"""
import argparse
import os
import re
import shutil
import subprocess
import sys
import tempfile
import time

HERE = os.path.dirname(os.path.abspath(__file__))
FLOWS = [(8, 1), (63, 1), (1, 32), (1, 1000), (4, 0), (1, 1)]
SIZES = [(16, "16 B"), (1024, "1 KiB"), (65536, "64 KiB")]
MOSQUITTO = """listener {port} 127.0.0.1
allow_anonymous true
persistence false
max_inflight_messages 0
max_queued_messages 0
set_tcp_nodelay true
"""


def settle(processors, first):
    """Returns what a new process does: it stays on these processors, and runs first if asked."""
    def begin():
        os.sched_setaffinity(0, processors)
        if first:
            os.sched_setscheduler(0, os.SCHED_FIFO, os.sched_param(1))
    return begin


class Broker:
    """A broker that runs on processor 0 until the block ends."""

    def __init__(self, command, first, port=None, journal=None):
        self.command, self.first, self.port, self.journal = command, first, port, journal

    def __enter__(self):
        output = subprocess.PIPE if self.port is None else subprocess.DEVNULL
        self.process = subprocess.Popen(self.command, stdout=output, stderr=subprocess.DEVNULL,
                                        preexec_fn=settle({0}, self.first))
        if self.port is None:
            line = self.process.stdout.readline().decode()
            found = re.fullmatch(r"listening .*:(\d+)\n", line)
            if not found:
                raise RuntimeError(f"the broker printed {line!r}")
            self.port = found[1]
        return self

    def __exit__(self, *_):
        self.process.kill()
        self.process.wait()
        if self.journal:
            shutil.rmtree(self.journal)

    def seconds(self):
        """The processor seconds that the broker used."""
        with open(f"/proc/{self.process.pid}/stat", encoding="ascii") as stat:
            fields = stat.read().rsplit(")", 1)[1].split()
        return (int(fields[11]) + int(fields[12])) / os.sysconf("SC_CLK_TCK")

    def memory(self):
        """The resident bytes of the broker."""
        with open(f"/proc/{self.process.pid}/status", encoding="ascii") as status:
            return 1024 * int(re.search(r"VmRSS:\s+(\d+)", status.read())[1])


class Bench:
    def __init__(self, program, folder, seconds, data, first):
        self.program, self.folder, self.seconds = os.path.abspath(program), folder, seconds
        self.data, self.first = data or folder, first
        self.load = os.path.join(folder, "load")
        subprocess.run([os.environ.get("CC", "cc"), "-std=c11", "-O2", "-o", self.load,
                        os.path.join(HERE, "broker_load.c")], check=True)
        self.others = set(range(1, os.cpu_count())) or {0}
        path = os.environ.get("PATH", "") + ":/usr/sbin:/usr/local/sbin"
        self.mosquitto = shutil.which("mosquitto", path=path)

    def names(self):
        own = ["mqtt broker", "system", "disk"]
        return ["mosquitto", *own] if self.mosquitto else own

    def broker(self, name):
        if name != "mosquitto":
            command = [self.program, "broker", "--quiet", "--listen", "127.0.0.1:0",
                       "--max-connections", "20000"]
            if name == "mqtt broker":
                return Broker(command, self.first)
            journal = tempfile.mkdtemp(dir=self.data)
            return Broker([*command, "--data", journal, "--keep", name], self.first, journal=journal)
        port = subprocess.run([self.load, "port"], check=True, capture_output=True, text=True).stdout.strip()
        config = os.path.join(self.folder, "mosquitto.conf")
        with open(config, "w", encoding="ascii") as file:
            file.write(MOSQUITTO.format(port=port))
        return Broker([self.mosquitto, "-c", config], self.first, port)

    def run(self, broker, *words):
        """What a load prints, or None after it said on standard error what went wrong."""
        done = subprocess.run([self.load, broker.port, *map(str, words)], stdin=subprocess.DEVNULL,
                              capture_output=True, text=True,
                              preexec_fn=settle(self.others, self.first))
        if done.returncode != 0:
            print(f"  {done.stderr.strip()}", file=sys.stderr)
            return None
        return [float(word) for word in done.stdout.split()]

    def flow(self, name, publishers, subscribers, qos, size):
        """Messages a second, and the share of a processor."""
        with self.broker(name) as broker:
            start, busy = time.monotonic(), broker.seconds()
            rate = self.run(broker, "flow", publishers, subscribers, qos, size, self.seconds)
            used = (broker.seconds() - busy) / (time.monotonic() - start)
            return (rate[0] if rate else None), used

    def idle(self, name, count):
        """Seconds until all are connected, and bytes of the broker for each connection."""
        with self.broker(name) as broker:
            time.sleep(0.3)
            before = broker.memory()
            load = subprocess.Popen([self.load, broker.port, "idle", str(count)], stdin=subprocess.PIPE,
                                    stdout=subprocess.PIPE, text=True,
                                    preexec_fn=settle(self.others, self.first))
            took = load.stdout.readline().strip()
            grown = (broker.memory() - before) / count
            load.communicate("\n")
            return (float(took) if took else None), grown


def text(value, form="{:,.0f}"):
    return "-" if value is None else form.format(value)


def flows(bench, only, rows):
    own = bench.names()[-3:]
    print(f"{'flow':22} " + " ".join(f"{name:>12} {'cpu':>4}" for name in bench.names()) + "   ratios")
    ahead = dict.fromkeys(own, 0)
    three = total = 0
    for size, size_name in SIZES:
        for publishers, subscribers in FLOWS:
            for qos in (0, 1, 2):
                name = f"{publishers} to {subscribers}, QoS {qos}, {size_name}"
                if only not in name:
                    continue
                found = [bench.flow(broker, publishers, subscribers, qos, size) for broker in bench.names()]
                ratios = []
                if len(found) == 4 and all(rate for rate, _ in found):
                    ratios = [rate / found[0][0] for rate, _ in found[1:]]
                    total, three = total + 1, three + (ratios[0] >= 3)
                    for broker, ratio in zip(own, ratios):
                        ahead[broker] += ratio > 1
                print(f"{name:22} " + " ".join(f"{text(rate):>12} {used:4.2f}" for rate, used in found)
                      + "   " + " ".join(f"{ratio:6.2f}" for ratio in ratios), flush=True)
                rows.append(["flow", name, *(text(rate, "{:.0f}") for rate, _ in found)])
    if total:
        print("ahead of mosquitto, of " + str(total) + " rows: "
              + ", ".join(f"{broker} in {count}" for broker, count in ahead.items())
              + f"; mqtt broker three times ahead in {three}")


def others(bench, only, rows):
    for count in (1000, 10000):
        for broker in bench.names():
            if only in "idle":
                took, grown = bench.idle(broker, count)
                print(f"{count:,} idle connections, {broker}: {text(took, '{:.2f}')} s to connect, "
                      f"{grown:,.0f} bytes each", flush=True)
                rows.append(["idle", f"{count} {broker}", text(took, "{:.3f}"), f"{grown:.0f}"])
    for qos in (0, 1, 2):
        for broker in bench.names():
            if only in "latency":
                with bench.broker(broker) as running:
                    found = bench.run(running, "latency", qos, 0) or (None, None)
                print(f"latency, QoS {qos}, {broker}: p50 {text(found[0])} us, p99 {text(found[1])} us", flush=True)
                rows.append(["latency", f"QoS {qos} {broker}", text(found[0], "{:.0f}"), text(found[1], "{:.0f}")])
    for broker in bench.names():
        if only in "connects":
            with bench.broker(broker) as running:
                found = bench.run(running, "connects", bench.seconds) or (None,)
            print(f"connects a second, {broker}: {text(found[0])}", flush=True)
            rows.append(["connects", broker, text(found[0], "{:.0f}")])


def main():
    parser = argparse.ArgumentParser(description="Compares mqtt broker with mosquitto in one run.")
    parser.add_argument("program", help="the program mqtt")
    parser.add_argument("--seconds", type=float, default=1.0, help="the seconds of each run")
    parser.add_argument("--rows", default="", help="only rows whose name has this text")
    parser.add_argument("--data", help="a folder for the journals")
    parser.add_argument("--csv", help="a file for the rows")
    parser.add_argument("--first", action="store_true", help="run before all other processes, as root")
    words = parser.parse_args()
    rows = []
    with tempfile.TemporaryDirectory() as folder:
        bench = Bench(words.program, folder, words.seconds, words.data, words.first)
        if not bench.mosquitto:
            print("mosquitto is not installed, so there is nothing to compare with (Debian: apt-get install mosquitto)")
        flows(bench, words.rows, rows)
        others(bench, words.rows, rows)
    if words.csv:
        with open(words.csv, "w", encoding="ascii") as file:
            file.writelines(",".join(f'"{field}"' if "," in field else field for field in row) + "\n" for row in rows)
    return 0


if __name__ == "__main__":
    sys.exit(main())
