"""Courses: scripts of lines that make placements, drawn from seeds by what the model has before each line. `tools/oracle.py` says what this is for.

Between them they meet each answer that such a line may have: `KINDS` lists them, and `kinds_met` says which they met.
"""
import json

import oracle_model
from oracle_dice import Dice
from oracle_lines import Request
from oracle_places import JOINING, Place

SEEDS = range(1, 301)
LINES = 16
NAMES = "abcdefghijklmnopqr"
MOST_GROUPS = 9
# `ok` where no shard began a move, ended one or had it taken back, and `moves` where one did; `again` where a removed node is listed.
KINDS = {
    "init": {"ok", "order", "group"},
    "add": {"ok", "moves", "again", "order", "limit"},
    "drain": {"ok", "moves", "order", "unknown", "busy", "group"},
    "replace": {"ok", "moves", "again", "order", "unknown", "limit", "busy", "group"},
    "cancel": {"ok", "moves", "order", "unknown"},
    "remove": {"ok", "order", "unknown", "busy"},
    "bootstrap": {"ok", "moves", "order", "unknown"},
}


class Course:
    """A course in the making: the cluster that the model has, the lines so far and the kinds of their answers."""

    def __init__(self, seed: int):
        self.dice, self.cluster = Dice(seed), oracle_model.Cluster()
        self.lines: list[bytes] = []
        self.met: set[tuple[str, str]] = set()

    # ---- what stands

    def place(self) -> Place | None:
        return self.cluster.places[-1] if self.cluster.places else None

    def is_listed(self, name: str) -> bool:
        place = self.place()
        return place is not None and place.is_listed(name)

    def is_known(self, name: str) -> bool:
        place = self.place()
        return place is not None and name in place.nodes

    def shards(self) -> list:
        place = self.place()
        return place.shards if place else []

    def joins(self, name: str) -> bool:
        return any(name in shard and shard[name].state == JOINING for shard in self.shards())

    def moving(self) -> int:
        return sum(any(one.state == JOINING for one in shard.values()) for shard in self.shards())

    # ---- names

    def first_from(self, name: str, fits) -> str:
        """The first name from this one on, around the end, that fits, and this one where none does."""
        at = NAMES.index(name)
        return next((it for it in NAMES[at:] + NAMES[:at] if fits(it)), name)

    def name(self, listed: bool) -> str:
        """Most often that of a node that is listed, or of one that isn't."""
        first = NAMES[self.dice.roll(len(NAMES))]
        return first if self.dice.roll(6) == 0 else self.first_from(first, lambda it: self.is_listed(it) == listed)

    def joining(self) -> str:
        """A node to which a shard moves, if there is one, or any other."""
        name = self.name(True)
        return name if self.dice.roll(4) == 0 else self.first_from(name, self.joins)

    def idle(self) -> str:
        """A listed node without shards, if there is one, or any other."""
        name = self.name(True)
        if self.dice.roll(3) == 0:
            return name
        return self.first_from(name, lambda it: self.is_listed(it) and not any(it in shard for shard in self.shards()))

    def group(self) -> str:
        return f"g{self.dice.roll(MOST_GROUPS) + 1}"

    # ---- lines

    def init(self) -> Request:
        """Mostly with few shards and nodes, now and then with too few groups. The names of the nodes don't ascend."""
        roll = self.dice.roll
        rf = roll(5) + 1
        shards = roll(12 if roll(8) == 0 else 4) + 1
        size = roll(6)
        count = roll(16) + 1 if size == 0 else roll(2) + 15 if size == 1 else roll(5) + rf
        groups = min(roll(4) + rf + 1, MOST_GROUPS)
        first = roll(len(NAMES))
        nodes = [[NAMES[(first + 5 * at) % len(NAMES)], f"g{roll(groups) + 1}"] for at in range(count)]
        return {"op": "init", "rf": rf, "shards": shards, "seed": 0, "nodes": nodes}

    def add(self) -> Request:
        return {"op": "add", "node": self.name(False), "group": self.group()}

    def replace(self) -> Request:
        node, by = self.name(True), self.name(False)
        same = self.is_listed(node) and self.dice.roll(3) > 0
        return {"op": "replace", "node": node, "by": by, "group": self.place().nodes[node].group if same else self.group()}

    def bootstrap(self) -> Request:
        """Of all shards of the node, or one of them, or one that the cluster hasn't got."""
        line: Request = {"op": "bootstrap", "node": self.joining()}
        return line | {"shard": self.dice.roll(len(self.shards()) + 1)} if self.dice.roll(3) == 0 else line

    def drawn(self) -> Request:
        draw = self.dice.roll(21 if self.place() else 40)
        if draw < 4:
            return self.add()
        if draw < 7:
            return {"op": "drain", "node": self.name(True)}
        if draw < 11:
            return self.replace()
        if draw < 13:
            return {"op": "cancel", "node": self.joining()}
        if draw < 16:
            return {"op": "remove", "node": self.idle()}
        return self.bootstrap() if draw < 20 else self.init()

    def serve(self, request: Request) -> None:
        """Adds the line, and notes of which kinds its answer is."""
        op, moving, again = request["op"], self.moving(), self.is_known(request.get({"add": "node", "replace": "by"}.get(request["op"], ""), ""))
        self.lines.append(json.dumps(request, separators=(",", ":")).encode() + b"\n")
        reply = json.loads(oracle_model.reply_to(self.cluster, self.lines[-1]))
        if not reply["ok"]:
            self.met.add((op, reply["error"]))
            return
        self.met.add((op, "ok" if self.moving() == moving else "moves"))
        if again:
            self.met.add((op, "again"))


def course(seed: int) -> Course:
    """A dozen lines and more. The last one, a bootstrap, tells the placement that stands."""
    made = Course(seed)
    for _ in range(LINES):
        made.serve(made.drawn())
    made.serve(made.bootstrap())
    return made


def kinds_met(courses: list[Course]) -> dict[str, set[str]]:
    """The kinds of answers that these courses met, for each op."""
    met = set().union(*(it.met for it in courses))
    return {op: {kind for that, kind in met if that == op} for op in KINDS}
