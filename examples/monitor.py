#!/usr/bin/env python3
"""Watches this machine: each second its load, its running tasks and its free memory are written, and at the end each series is read and drawn.

usage: examples/monitor.py [SECONDS [FILE.svg]]          10 seconds if left out; the file is for a browser
       examples/monitor.py --try [SECONDS [FILE.svg]]    asks `./m3 try` once the time is over, for which nothing has to be proved or built

What is written is gone once the program ends, which it does with this script. The environment's M3 may name another program, with its words.
"""
import os
import shlex
import socket
import sys
import time
from pathlib import Path
from xml.sax.saxutils import escape

TOP = Path(__file__).resolve().parent.parent
sys.dont_write_bytecode = True
sys.path.insert(0, str(TOP / "clients/python"))
from m3 import M3, PROGRAM, fine, run, tagged, tags_of  # noqa: E402

HOST = socket.gethostname() or "here"
RAMP = "▁▂▃▄▅▆▇█"
MOST_BARS = 60  # in a line of text
WIDTH, ROW, TOP_OF_BARS, BARS_HIGH = 640, 110, 34, 60  # of the picture


def samples():
    """What this machine says of itself now, in whole numbers: a load of 0.42 is 42 hundredths."""
    load, _, _, tasks, *_ = Path("/proc/loadavg").read_text().split()
    memory = dict(line.split(":") for line in Path("/proc/meminfo").read_text().splitlines())
    return {"load_hundredths": round(float(load) * 100), "running_tasks": int(tasks.split("/")[0]), "available_kib": int(memory["MemAvailable"].split()[0])}


def watch(ask, seconds):
    """Asks for a store and writes samples to it, each second; returns the request that reads them all. Times are seconds since 1970."""
    first = now = int(time.time())
    ask(op="init", rf=3, shards=4, seed=0, nodes=[["a", "g1"], ["b", "g2"], ["c", "g3"]])
    ask(op="now", now=now)
    ask(op="namespace", name="machine", block=7200, past=600, future=120, retention=86400)
    for _ in range(seconds):
        now = max(now, int(time.time()))
        ask(op="now", now=now)
        for name, value in samples().items():
            ask(op="write", ns="machine", id=tagged(host=HOST, name=name), t=now, v=value)
        time.sleep(1 - time.time() % 1)
    return {"op": "match", "ns": "machine", "where": [["host", "=", HOST]], "from": first, "to": now + 1}


def watched(seconds, command):
    """Watches by a program that runs meanwhile, and returns its series."""
    with M3(command) as store:
        return store.ask(**watch(store.ask, seconds))["series"]


def watched_first(seconds, command):
    """Watches, and then asks a program for all at once; returns its series."""
    requests = []
    last = watch(lambda **request: requests.append(request), seconds)
    requests.append(last)
    replies = [fine(*it) for it in zip(requests, run(requests, command))]
    return replies[-1]["series"]


def heights(points, most):
    """The points' values as whole heights: 0 of the lowest and `most` of the highest."""
    values = [value for _, value in points]
    low, high = min(values), max(values)
    return [(value - low) * most // max(high - low, 1) for value in values], low, high


def bars(series):
    """A line of text for a series."""
    high_as, low, high = heights(series["points"][-MOST_BARS:], len(RAMP) - 1)
    return f"{tags_of(series['id'])['name']:16} {''.join(RAMP[it] for it in high_as)}  {low} to {high}"


def drawn(series, row):
    """A series as a row of the picture: its name, a bar for each point, and its lowest and highest value."""
    high_as, low, high = heights(series["points"], BARS_HIGH)
    top, wide = row * ROW, (WIDTH - 40) / len(high_as)
    boxes = "".join(f'<rect x="{20 + at * wide:.2f}" y="{top + TOP_OF_BARS + BARS_HIGH - it}" width="{wide * 0.9:.2f}" height="{it + 2}"/>'
                    for at, it in enumerate(high_as))
    words = f'<text x="20" y="{top + 24}">{escape(series["id"])}</text><text x="{WIDTH - 20}" y="{top + 24}" text-anchor="end">{low} to {high}</text>'
    return f'<g fill="#333">{words}</g><g fill="#3572a5">{boxes}</g>'


def picture(all_series):
    """The picture of all series, as SVG."""
    high = ROW * len(all_series) + 10
    rows = "\n".join(drawn(series, row) for row, series in enumerate(all_series))
    return (f'<svg xmlns="http://www.w3.org/2000/svg" viewBox="0 0 {WIDTH} {high}" width="{WIDTH}" height="{high}" font-family="sans-serif" '
            f'font-size="13">\n<rect width="100%" height="100%" fill="white"/>\n{rows}\n</svg>\n')


def main(words):
    first = words[:1] == ["--try"]
    seconds, *svg = words[first:] or ["10"]
    if not seconds.isdecimal() or int(seconds) < 1 or len(svg) > 1:
        print(__doc__.split("\n\n")[1], file=sys.stderr)
        return 2
    command = shlex.split(os.environ.get("M3", "")) or ([PROGRAM[0], "try", "run"] if first else PROGRAM)
    series = (watched_first if first else watched)(int(seconds), command)
    for it in series:
        print(bars(it))
    if svg:
        Path(svg[0]).write_text(picture(series), encoding="utf-8")
    return 0


if __name__ == "__main__":
    sys.exit(main(sys.argv[1:]))
