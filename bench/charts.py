#!/usr/bin/env python3
"""Draws the charts of docs/PERFORMANCE.md from bench/measured.csv.

Usage: bench/charts.py [--check]

Writes docs/decoding.svg and docs/brokers.svg. With --check it writes nothing, and its status is 1
if a chart differs from the data. The charts contain no script, and have a light and a dark
palette.
"""

import csv
import os
import sys

ROOT = os.path.dirname(os.path.dirname(os.path.abspath(__file__)))
WIDTH = 760
LEFT = 20
WIDEST_BAR = 34
GAP = 4
PANEL_HEIGHT = 150

STYLE = """.back { fill: #ffffff; }
text { font: 12px sans-serif; fill: #24292f; }
.title { font-weight: bold; font-size: 14px; }
.value text { font-size: 10px; text-anchor: middle; }
.group { text-anchor: middle; }
.axis { stroke: #8c959f; }
.s0 { fill: #8c959f; } .s1 { fill: #0969da; } .s2 { fill: #57606a; } .s3 { fill: #1a7f37; }
@media (prefers-color-scheme: dark) {
  .back { fill: #0d1117; }
  text { fill: #e6edf3; }
  .axis { stroke: #6e7681; }
  .s0 { fill: #6e7681; } .s1 { fill: #58a6ff; } .s2 { fill: #afb8c1; } .s3 { fill: #3fb950; }
}"""


def read_data():
    """The bars of each chart: {chart: [(group, series, value)]}, in the order of the file."""
    charts = {}
    with open(f"{ROOT}/bench/measured.csv", encoding="utf-8", newline="") as file:
        for row in csv.DictReader(file):
            bar = (row["group"], row["series"], float(row["value"]))
            charts.setdefault(row["chart"], []).append(bar)
    return charts


def unique(items):
    return list(dict.fromkeys(items))


def short(value):
    """A value as a label of at most four characters."""
    if value >= 1_000_000:
        return f"{value / 1_000_000:.1f}M"
    if value >= 1_000:
        return f"{value / 1_000:.0f}k"
    return f"{value:g}"


def panel(bars, heading, top, colours):
    """The elements of one panel: a heading, groups of bars, an axis."""
    groups = unique(it[0] for it in bars)
    series = unique(it[1] for it in bars)
    most = max(it[2] for it in bars)
    base = top + 30 + PANEL_HEIGHT
    step = (WIDTH - 2 * LEFT) // len(groups)
    bar = min(WIDEST_BAR, step // (len(series) + 1) - GAP)
    group_width = len(series) * (bar + GAP) - GAP
    paths = {name: "" for name in series}
    out = [f'<text x="{LEFT}" y="{top + 12}">{heading}</text>', '<g class="value">']
    for group, name, value in bars:
        left = LEFT + groups.index(group) * step + (step - group_width) // 2
        x = left + series.index(name) * (bar + GAP)
        height = max(1, round(PANEL_HEIGHT * value / most))
        paths[name] += f"M{x} {base}v-{height}h{bar}v{height}z"
        y = base - height - 3
        out.append(f'<text x="{x + bar // 2}" y="{y}">{short(value)}</text>')
    out.append("</g>")
    for name, path in paths.items():
        out.append(f'<path class="s{colours[name]}" d="{path}"><title>{name}</title></path>')
    out.append('<g class="group">')
    for index, group in enumerate(groups):
        x = LEFT + index * step + step // 2
        out.append(f'<text x="{x}" y="{base + 16}">{group}</text>')
    out.append(f'</g><path class="axis" d="M{LEFT} {base}H{WIDTH - LEFT}"/>')
    return out


def legend(series, colours, top):
    out, x = [], LEFT
    for name in series:
        out.append(f'<path class="s{colours[name]}" d="M{x} {top - 10}h12v12h-12z"/>')
        out.append(f'<text x="{x + 17}" y="{top}">{name}</text>')
        x += 40 + 7 * len(name)
    return out


def draw(title, panels, colours):
    """A chart: a title, a legend, and panels of (heading, bars), one below the other."""
    series = unique(it[1] for _, bars in panels for it in bars)
    step = PANEL_HEIGHT + 62
    height = 58 + step * len(panels)
    out = [f'<svg xmlns="http://www.w3.org/2000/svg" viewBox="0 0 {WIDTH} {height}" role="img">']
    out += [f"<title>{title}</title>", f"<style>{STYLE}</style>"]
    out.append(f'<rect class="back" width="{WIDTH}" height="{height}"/>')
    out.append(f'<text class="title" x="{LEFT}" y="20">{title}</text>')
    out += legend(series, colours, 42)
    for index, (heading, bars) in enumerate(panels):
        out += panel(bars, heading, 58 + step * index, colours)
    return "\n".join([*out, "</svg>", ""])


def main():
    data = read_data()
    decoding = draw(
        "Decoding: nanoseconds a packet (less is better)",
        [("feed takes pieces of 65,536 bytes", data["decoding"])],
        {"C: tests": 0, "view": 1, "C: tests and copies": 2, "feed": 3},
    )
    brokers = draw(
        "Brokers over 127.0.0.1: messages of 16 B delivered a second (more is better)",
        [(f"{qos}, publishers to subscribers", data[qos]) for qos in ("QoS 0", "QoS 1", "QoS 2")],
        {"mqtt": 1, "mosquitto": 0},
    )
    status = 0
    for name, text in (("decoding", decoding), ("brokers", brokers)):
        path = f"{ROOT}/docs/{name}.svg"
        if "--check" not in sys.argv[1:]:
            with open(path, "w", encoding="utf-8") as file:
                file.write(text)
        elif not os.path.isfile(path) or open(path, encoding="utf-8").read() != text:
            print(f"charts: docs/{name}.svg differs from bench/measured.csv")
            status = 1
    return status


sys.exit(main())
