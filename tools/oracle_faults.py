"""Scripts over disks that fail, drawn from seeds: with nodes that stop, with upkeep, and with shards that move. `tools/oracle.py` says what this is for.

The nodes a, b and c are of the groups 1, 2 and 3, have all shards, and move them to d and e, and back. Of the disks of a node for shard 0 some
calls fail, and maybe all after so many, until they are started again.
"""
import json
from dataclasses import dataclass, field

from oracle_dice import Dice
from oracle_lines import Request

PLAIN, UPKEEP, MOVING = range(1, 9), range(1, 7), range(4, 10)  # the seeds that stay the same
SERIES = {"u": "up", "x": '{dc="x"}', "y": '{dc="y",host="h1"}'}
LEVELS = {"O": "one", "U": "unstrict", "M": "majority", "A": "all"}
FATES = {"L": "lose", "T": "twice", "B": "late"}
OPS = {"s": "stop", "b": "restart", "o": "bootstrap", "k": "tick", "l": "flush", "u": "status", "-": "drain", "~": "cancel", "/": "remove"}
SPACES = [{"op": "namespace", "name": "m", "block": 60, "past": 50, "future": 50, "retention": 60},
          {"op": "namespace", "name": "n", "block": 30, "past": 20, "future": 20, "retention": 30}]
NODES = "abc"


def pick(dice: Dice, letters: str) -> str:
    return letters[dice.roll(len(letters))]


# ---- disks

def disk(dice: Dice, slot: str) -> str:
    """The head of a disk that fails now and then."""
    fail = [dice.roll(100), 100 + dice.roll(100), 200 + dice.roll(100)]
    fuse = f" fuse={dice.roll(300)}" if dice.roll(3) == 0 else ""
    return f"@disk {slot} fail={','.join(map(str, fail))}{fuse}"


def disks(seed: int) -> list[str]:
    dice, others = Dice(seed), Dice(seed + 1)
    return [disk(dice, f"{node}0") for node in NODES] + [disk(others, f"{node}0") for node in "de"]


# ---- lines of calls

def write(dice: Dice, now: int) -> Request:
    ns, series, level = pick(dice, "mmmmmn"), pick(dice, "uuxy"), pick(dice, "OMMMMA")
    time = max(now + dice.roll(108) - 54, 0)
    value = dice.roll(200)
    return {"op": "write", "ns": ns, "id": SERIES[series], "t": time, "v": -value if value < 50 else value, "level": LEVELS[level]}


def span(dice: Dice, now: int) -> Request:
    """A range about this moment, or all times."""
    if dice.roll(5) > 0:
        return {"from": 0, "to": 1000}
    start = max(now - dice.roll(60), 0)
    return {"from": start, "to": start + dice.roll(60)}


def fetch(dice: Dice, now: int) -> Request:
    ns, series, level = pick(dice, "mmmmmn"), pick(dice, "uuxy"), pick(dice, "OUMMMMMA")
    return {"op": "fetch", "ns": ns, "id": SERIES[series], "level": LEVELS[level], **span(dice, now)}


def match(dice: Dice, now: int) -> Request:
    ns, sign, level = pick(dice, "mmmmmn"), pick(dice, "=!"), pick(dice, "OUMMMMMA")
    where = [["dc", "=" if sign == "=" else "!=", "x"]]
    return {"op": "match", "ns": ns, "where": where, "level": LEVELS[level], **span(dice, now)}


def fates(items: list[tuple[int, str, str]]) -> Request:
    return {"op": "fates", "list": [[0, call, node, FATES[letter]] for call, node, letter in items]}


def step(letter: str, node: str, dice: Dice) -> Request:
    """A stop, a restart with a pick, or a bootstrap."""
    line: Request = {"op": OPS[letter], "node": node}
    return line | {"pick": dice.roll(256)} if letter == "b" else line


# ---- scripts without moves

@dataclass
class Guess:
    """What a script guesses of its run: the moment, and of each node whether it runs (0), is stopped (1) or waits (2)."""
    now: int = 100
    away: dict[str, int] = field(default_factory=dict)

    def state(self, node: str) -> int:
        return self.away.get(node, 0)

    def advance(self, by: int) -> Request:
        self.now += by
        return {"op": "now", "now": self.now}


class Plain:
    """A script of nodes that stop and start again, with upkeep among its lines or without."""

    def __init__(self, seed: int, upkeep: int = 0):
        self.dice, self.guess, self.upkeep = Dice(seed), Guess(), upkeep  # so many lines of a hundred

    def next_node(self) -> Request:
        """The next line for a node, most often for one that doesn't run, if there is one."""
        found = self.dice.roll(3)
        first = next((at for at, node in enumerate(NODES) if self.guess.state(node)), None)
        node = NODES[first if first is not None and self.dice.roll(4) > 0 else found]
        letter = {1: "b", 2: "o"}.get(self.guess.state(node)) or ("s" if self.dice.roll(2) == 0 else "o")
        self.guess.away[node] = {"s": 1, "b": 2, "o": 0}[letter]
        return step(letter, node, self.dice)

    def odd(self) -> Request:
        """One that need not be due, also of a node and of a shard that aren't there."""
        letter, node = pick(self.dice, "sbo"), pick(self.dice, "abcx")
        shard = {"shard": self.dice.roll(3)} if letter == "o" and self.dice.roll(2) == 0 else {}
        return {"op": OPS[letter], "node": node} | shard

    def next_fates(self) -> Request:
        items = []
        for call in range(self.dice.roll(5)):
            letter, draw = pick(self.dice, "LTB"), self.dice.roll(5)
            items.append((call, "ababc"[draw], letter))
            if draw < 2:
                items.append((call, "bc"[draw], "B"))
        return fates(items)

    def sweep(self) -> Request:
        draw = self.dice.roll(8)
        return self.guess.advance(self.dice.roll(30)) if draw > 5 else {"op": OPS["kklllu"[draw]]}

    def line(self) -> Request:
        if self.upkeep and self.dice.roll(100) < self.upkeep:
            return self.sweep()
        if any(self.guess.away.values()) and self.dice.roll(4) == 0:
            return self.next_node()
        draw = self.dice.roll(100)
        if draw < 38:
            return write(self.dice, self.guess.now)
        if draw < 60:
            return fetch(self.dice, self.guess.now)
        if draw < 66:
            return match(self.dice, self.guess.now)
        if draw < 72:
            return self.next_fates()
        if draw < 77:
            return {"op": "deliver"}
        if draw < 83:
            return self.guess.advance(self.dice.roll(12))
        return self.next_node() if draw < 98 else self.odd()


# ---- scripts with moves

class Moving:
    """A script in which nodes stop and start again, with upkeep, while shards move from one to another: the three that have them, the spare
    one, and a fifth; which of the three gives its shards away, and how far the move is."""

    def __init__(self, seed: int):
        self.dice, self.guess = Dice(seed), Guess()
        self.members, self.spare, self.other = list(NODES), "d", "e"
        self.leaving, self.stage = 0, "none"

    def any_node(self) -> str:
        at = self.dice.roll(4)
        return self.spare if at == 3 and self.stage == "begun" else self.members[min(at, 2)]

    def away(self) -> str | None:
        return next((it for it in self.members if self.guess.state(it)), None)

    def next_node(self) -> Request:
        """The next line for a node, most often for one that doesn't run. One that runs by the guess may be closed, so it is often stopped."""
        away = self.away()
        node = away if away and self.dice.roll(4) > 0 else self.any_node()
        letter = {1: "b", 2: "o"}.get(self.guess.state(node)) or pick(self.dice, "ssso")
        self.guess.away[node] = {"s": 1, "b": 2, "o": 0}[letter]
        return step(letter, node, self.dice)

    def begin_move(self) -> Request:
        """The spare node takes over at once, or is added, in the group of the node that it takes over from."""
        self.leaving = self.dice.roll(3)
        group = str(self.leaving + 1)
        if self.dice.roll(3) == 0:
            self.stage = "added"
            return {"op": "add", "node": self.spare, "group": group}
        self.stage = "begun"
        return {"op": "replace", "node": self.members[self.leaving], "by": self.spare, "group": group}

    def end_move(self) -> None:
        self.members[self.leaving], self.spare = self.spare, self.members[self.leaving]
        self.stage = "over"

    def move(self) -> Request:
        """A move begins, ends or is cancelled, and the node that has no shard any more goes. A bootstrap may fail, so it is asked again at times."""
        if self.stage == "none":
            return self.begin_move()
        if self.stage == "added":
            self.stage = "begun"
            return {"op": "drain", "node": self.members[self.leaving]}
        spare = self.spare
        if self.stage == "begun":
            if self.dice.roll(6) == 0:
                self.stage = "over"
                return {"op": "cancel", "node": spare}
            if self.dice.roll(2) == 0:
                self.end_move()
            return {"op": "bootstrap", "node": spare}
        self.stage = "none"
        if self.dice.roll(2) == 0:
            self.spare, self.other = self.other, self.spare
        return {"op": "remove", "node": spare}

    def next_fates(self) -> Request:
        items = []
        for call in range(self.dice.roll(5)):
            items.append((call, self.members[self.dice.roll(3)], pick(self.dice, "LTB")))
            if self.stage == "begun" and self.dice.roll(2) == 0:
                items.append((call, self.spare, pick(self.dice, "LTB")))
        return fates(items)

    def line(self) -> Request:
        if self.away() and self.dice.roll(4) == 0:
            return self.next_node()
        draw = self.dice.roll(100)
        if draw < 30:
            return write(self.dice, self.guess.now)
        if draw < 48:
            return fetch(self.dice, self.guess.now)
        if draw < 53:
            return match(self.dice, self.guess.now)
        if draw < 59:
            return self.next_fates()
        if draw < 63:
            return {"op": "deliver"}
        if draw < 68:
            return self.guess.advance(self.dice.roll(16))
        if draw < 72:
            return {"op": OPS[pick(self.dice, "kllu")]}
        if draw < 85:
            return self.next_node()
        if draw < 99:
            return self.move()
        return {"op": OPS[pick(self.dice, "~-/o")], "node": pick(self.dice, "abcdex")}


def lines(drawn: Plain | Moving, count: int) -> list[bytes]:
    """So many lines behind those that make a cluster of one shard or two, with two namespaces, at moment 100."""
    shards = drawn.dice.roll(2) + 1
    nodes = [[node, str(group)] for group, node in enumerate(NODES, 1)]
    init = {"op": "init", "rf": 3, "shards": shards, "seed": 0, "nodes": nodes}
    requests = [init, *SPACES, {"op": "now", "now": 100}, *(drawn.line() for _ in range(count))]
    return [json.dumps(it, separators=(",", ":")).encode() + b"\n" for it in requests]


# ---- cases

@dataclass
class Case:
    """The heads of disks that fail, and the scripts of runs over them, one after the other."""
    disks: list[str]
    scripts: list[bytes]

    def asked(self, name: str) -> bytes:
        """What the program that plays cases is asked."""
        heads = "".join(f"{it}\n" for it in [f"@case {name}", *self.disks]).encode()
        return heads + b"".join(b"@run\n" + it for it in self.scripts)


def drawn(number: int) -> Case:
    """A script with moves, in up to three runs, of which each further one begins with bootstraps. Disks of both shards fail."""
    all_lines, dice = lines(Moving(number), 300), Dice(~number)
    cuts = sorted(dice.roll(len(all_lines)) for _ in range(max(dice.roll(4) - 1, 0)))
    parts = [all_lines[begin:end] for begin, end in zip([0, *cuts], [*cuts, len(all_lines)])]
    back = [b'{"op":"bootstrap","node":"%s"}\n' % node.encode() for node in "abcde"]
    fail = [disk(dice, f"{node}{shard}") for node in "abcde" for shard in (0, 1) if dice.roll(3) > 0]
    return Case(fail, [b"".join(part if at == 0 else back + part) for at, part in enumerate(parts)])


def seeded() -> dict[str, Case]:
    """The cases of the seeds that stay the same, of which none is of more than one run."""
    made = {f"plain/{seed}": (seed, lines(Plain(seed), 200)) for seed in PLAIN}
    made |= {f"upkeep/{seed}": (seed, lines(Plain(seed, 10), 400)) for seed in UPKEEP}
    made |= {f"moving/{seed}": (seed, lines(Moving(seed), 600)) for seed in MOVING}
    return {name: Case(disks(seed), [b"".join(those)]) for name, (seed, those) in made.items()}


def case(name: str) -> Case:
    return drawn(int(name.removeprefix("drawn/"))) if name.startswith("drawn/") else seeded()[name]
