"""Quarters of days of lines, drawn from seeds, and a day with a move. `tools/oracle.py` says what this is for.

A quarter has writes within the window, fetches, flushes, ticks, snapshots and nodes that stop and start again, one at a time. In the middle
of the day with a move a node's eight shards go to another one.
"""
import json
from typing import Iterator

from oracle_dice import Dice
from oracle_lines import Request

QUARTERS = (1, 2, 3, 4)  # the seeds
LINES = 25_000  # of a quarter: some six hours
NODES = "abc"
SERIES = "abcdef"
GROUPS = [["a", "g1"], ["b", "g2"], ["c", "g3"]]
# Blocks of two hours, which end ten minutes late, and are kept for four hours or for two days.
SPACE = {"op": "namespace", "name": "m", "block": 7200, "past": 600, "future": 120}


class Quarter:
    """The lines of a seed. At most one node doesn't serve: it is stopped, or waits for a bootstrap."""

    def __init__(self, seed: int):
        self.dice, self.now = Dice(seed), 0
        self.away: tuple[str, str] | None = None  # the line that comes next for the node, and the node

    def advance(self) -> Request:
        self.now += self.dice.roll(8)
        return {"op": "now", "now": self.now}

    def write(self) -> Request:
        series = SERIES[self.dice.roll(len(SERIES))]
        time = max(self.now + self.dice.roll(700) - 590, 0)
        return {"op": "write", "ns": "m", "id": series, "t": time, "v": self.dice.roll(50)}

    def fetch(self) -> Request:
        """Some ten minutes of the last six hours."""
        series = SERIES[self.dice.roll(len(SERIES))]
        start = max(self.now - self.dice.roll(22_000), 0)
        return {"op": "fetch", "ns": "m", "id": series, "from": start, "to": start + self.dice.roll(600)}

    def move_node(self) -> Request:
        """The node that is away gets one step nearer; or else one stops."""
        if self.away is None:
            node = NODES[self.dice.roll(len(NODES))]
            self.away = "restart", node
            return {"op": "stop", "node": node}
        op, node = self.away
        if op == "restart":
            self.away = "bootstrap", node
            return {"op": op, "node": node, "pick": self.dice.roll(256)}
        self.away = None
        return {"op": op, "node": node}

    def upkeep(self) -> Request:
        draw = self.dice.roll(20)
        if draw >= 18:
            return self.move_node()
        return {"op": "flush" if draw < 10 else "tick" if draw < 15 else "snapshot" if draw < 17 else "status"}

    def line(self) -> Request:
        draw = self.dice.roll(100)
        return self.advance() if draw < 25 else self.upkeep() if draw == 25 else self.fetch() if draw == 26 else self.write()


def spelt(lines: Iterator[Request]) -> bytes:
    return b"".join(json.dumps(it, separators=(",", ":")).encode() + b"\n" for it in lines)


def quarter(seed: int) -> bytes:
    """The script of a quarter."""
    drawn = Quarter(seed)
    first = [{"op": "init", "rf": 3, "shards": 1, "seed": 0, "nodes": GROUPS}, SPACE | {"retention": 14_400}]
    return spelt(iter(first + [drawn.line() for _ in range(LINES)]))


def moved_lines() -> Iterator[Request]:
    """200 series with a point each half hour of a day, all read at its end; c's shards move to d in its middle."""
    yield {"op": "init", "rf": 3, "shards": 8, "seed": 0, "nodes": GROUPS}
    yield SPACE | {"retention": 172_800}
    for time in range(0, 86_400, 1_800):
        yield {"op": "now", "now": time}
        for series in range(200):
            yield {"op": "write", "ns": "m", "id": f'{{host="h{series}"}}', "t": time, "v": time + series}
        if time == 43_200:
            yield from ({"op": "flush"}, {"op": "snapshot"})
            yield from ({"op": "replace", "node": "c", "by": "d", "group": "g3"}, {"op": "bootstrap", "node": "d"})
    yield {"op": "match", "ns": "m", "where": [], "from": 0, "to": 86_400}


def moved_day() -> bytes:
    """The script of the day with a move."""
    return spelt(moved_lines())
