"""Lives of three to six runs over the same disks, of which one fails from some call on until it is started again, and the rules by which a reader of
the promise would look at what they answered. `tools/oracle.py` says what this is for.

No replica, disk or log is in the rules: they go by the lines of all runs and by their replies alone, in the order in which they came. So they say
less than oracle_judge.py of a single reply, and more of what is kept from run to run: the disk that fails may be the meta disk, and every disk is started
again between two runs, with some pick.
"""
import json
import re
from dataclasses import dataclass, field
from itertools import zip_longest
from typing import Any

from oracle_dice import Dice
from oracle_faults import Moving, lines
from oracle_lines import Request

ALL_NODES = "abcde"
SLOTS = [f"{node}{shard}" for node in ALL_NODES for shard in (0, 1)]
ENDS = re.compile(rb"(Done|DiskFault) faults=\d+(?: [a-p]\d+=\d+)*(?: meta=(\d+))?\s*$")
HELD = ("available", "leaving")  # of those that had a shard before a move of it ended
STEPS = ("add", "drain", "cancel", "remove", "replace", "bootstrap")


class Broken(Exception):
    """What is wrong in a life: the line, its reply, and the rule."""


# ---- lives

@dataclass
class Life:
    """The head of the disk that fails, the scripts of the runs, and with which picks the disks are started again before each further one."""
    head: str
    scripts: list[bytes]
    picks: list[list[int]]

    def asked(self, name: str) -> bytes:
        """What the program that plays cases is asked."""
        parts = [f"@case {name}\n{self.head}\n".encode()]
        for at, script in enumerate(self.scripts):
            if at > 0:
                parts += [b"@at %s p%d\n" % (slot.encode(), pick) for slot, pick in zip(["meta", *SLOTS], self.picks[at - 1])]
            parts.append(b"@run\n" + script)
        return b"".join(parts)


def drawn(number: int) -> Life:
    """Random lines with moves, cut in three to six runs, of which each further one begins by a status and a bootstrap of each node."""
    all_lines, dice = lines(Moving(number), 240), Dice(~number)
    cuts = sorted(dice.roll(len(all_lines) - 4) + 4 for _ in range(dice.roll(4) + 2))
    parts = [b"".join(all_lines[begin:end]) for begin, end in zip([0, *cuts], [*cuts, len(all_lines)])]
    back = b'{"op":"status"}\n' + b"".join(b'{"op":"bootstrap","node":"%s"}\n' % node.encode() for node in ALL_NODES)
    slot = "meta" if dice.roll(3) == 0 else SLOTS[dice.roll(len(SLOTS))]
    head = f"@disk {slot} fuse={dice.roll(250)}"
    picks = [[dice.roll(256) for _ in range(len(SLOTS) + 1)] for _ in cuts]
    return Life(head, [parts[0], *(back + it for it in parts[1:])], picks)


# ---- the rules

@dataclass
class Placed:
    """A placement that was printed."""
    version: int
    rf: int
    shards: list[list[list]]

    @staticmethod
    def of(reply: Request) -> "Placed":
        return Placed(reply["version"], reply["placement"]["rf"], reply["placement"]["shards"])

    def states(self) -> dict[tuple[int, str], str]:
        return {(shard, it[0]): it[1] for shard, own in enumerate(self.shards) for it in own}


@dataclass
class Rules:
    """What is known of a life so far."""
    spaces: dict[str, Request] = field(default_factory=dict)
    sent: set[tuple] = field(default_factory=set)
    acknowledged: dict[tuple, int] = field(default_factory=dict)  # by namespace, identifier and time the highest value
    moments: list[int] = field(default_factory=lambda: [0])  # the one that stands, and where a request got no reply maybe another one
    versions: list[int] = field(default_factory=lambda: [0])
    place: Placed | None = None  # none where it isn't known which one stands
    tenures: dict[tuple[int, str], int] = field(default_factory=dict)
    stopped: set[str] = field(default_factory=set)
    reads: int = 0
    kept: int = 0  # points that reads had to give
    moves: int = 0

    def begin_run(self) -> None:
        self.stopped = set()

    def end_run(self, unanswered: Request | None) -> None:
        """The last request got no reply: it may have been done."""
        match unanswered:
            case {"op": "write"}:
                self.sent.add(key_of(unanswered) + (unanswered["v"],))
            case {"op": "now", "now": now}:
                self.moments.append(now)
            case {"op": op} if op in STEPS:
                self.versions.append(self.versions[-1] + 1)
                self.place = None
            case {"op": "init"}:
                self.versions.append(1)
            case {"op": "namespace", "name": name}:
                self.spaces.setdefault(name, unanswered)

    def check(self, line: Request, reply: Request) -> None:
        ok = reply.get("ok") is True
        match line["op"]:
            case "init" if ok:
                need(reply["version"] == 1 and max(self.versions) == 0, "a cluster is made once")
                self.versions, self.place = [1], Placed.of(reply)
            case "namespace" if ok:
                self.spaces.setdefault(line["name"], line)
            case "now":
                self.see_moment(line, reply)
            case "write":
                self.see_write(line, reply)
            case "fetch" | "match" if ok:
                self.see_read(line, reply)
            case "stop" if ok:
                self.stopped.add(line["node"])
            case "restart" if ok:
                self.stopped.discard(line["node"])
            case "status" if ok:
                self.see_status(reply)
            case op if op in STEPS and ok:
                self.see_step(line, reply)
        if reply.get("code") == 7:
            self.see_refusal(reply)

    def see_refusal(self, reply: Request) -> None:
        need(reply["got"] < reply["needed"], "a refusal of consistency has fewer than were needed")
        names = [node for node, *_ in reply["reasons"]]
        if self.place is not None:
            counted = [node for (shard, node), state in self.place.states().items() if shard == reply["shard"] and state == "available"]
            once = set(names) <= set(counted) and len(names) == len(set(names)) == len(counted) - reply["got"]
            need(once, "it names each of the others that are available once")
        need(all(why[1] != "memory" for why in reply["reasons"]), "memory was never wanted")

    def see_moment(self, line: Request, reply: Request) -> None:
        if reply.get("ok"):
            need(line["now"] >= min(self.moments), "a moment doesn't fall")
            self.moments = [line["now"]]
        elif reply.get("error") == "clock":
            need(reply["now"] in self.moments and line["now"] < reply["now"], "the moment that stands is one that was set")
            self.moments = [reply["now"]]

    def see_status(self, reply: Request) -> None:
        need(reply["now"] in self.moments, "the moment is one that was set")
        need(reply["version"] in self.versions, "no placement is lost, and none comes of nothing")
        if reply["version"] != self.versions[0]:
            self.place = None
        self.moments, self.versions = [reply["now"]], [reply["version"]]
        need(all(it["fence"] <= reply["version"] for it in reply["replicas"]), "no fence is above the version")

    def see_step(self, line: Request, reply: Request) -> None:
        new, old = Placed.of(reply), self.place
        joined = {shard: names for shard, names in reply.get("available", [])}
        need(new.version in [it + more for it in self.versions for more in (0, 1)], "versions go up by one")
        need(line["op"] == "bootstrap" or new.version > min(self.versions), "a step has a version of its own")
        if old is not None and new.version == old.version + 1:
            before = old.states()
            for (shard, node), state in new.states().items():
                if state == "available" and before.get((shard, node)) == "initializing":
                    own_boot = line["op"] == "bootstrap" and line["node"] == node
                    need(own_boot and shard in joined, "who turns available joined by a bootstrap that prints its shard")
            for shard, names in joined.items():
                former = [node for (at, node), state in before.items() if at == shard and state in HELD]
                need(len(names) == len(set(names)) and set(names) <= set(former), "peers are former replicas, each once")
                need(len(names) >= old.rf // 2 + 1 and not set(names) & self.stopped, "a majority streamed, of nodes that run")
                self.moves += 1
            for shard, own in enumerate(new.shards):
                for node, state, tenure, *_ in own:
                    if (shard, node) not in before:
                        need(tenure == new.version > self.tenures.get((shard, node), 0), "no tenure is given twice")
        for shard, own in enumerate(new.shards):
            for node, _, tenure, *_ in own:
                self.tenures[shard, node] = max(tenure, self.tenures.get((shard, node), 0))
        self.versions, self.place = [new.version], new

    def see_write(self, line: Request, reply: Request) -> None:
        self.sent.add(key_of(line) + (line["v"],))
        if reply.get("ok") and len(reply["acks"]) >= 2:  # of three replicas
            key = key_of(line)
            self.acknowledged[key] = max(line["v"], self.acknowledged.get(key, line["v"]))

    def see_read(self, line: Request, reply: Request) -> None:
        space = self.spaces[line["ns"]]
        least = self.moments[0] - space["retention"]  # a point at this time has expired
        read = {(line["ns"], own["id"], t): v for own in reply["series"] for t, v in own["points"]}
        for own in reply["series"]:
            times = [t for t, _ in own["points"]]
            need(times == sorted(set(times)) and times != [], "points are in order")
            need(is_asked(line, own["id"]), "no other series is read")
        for (ns, identifier, t), v in read.items():
            need((ns, identifier, t, v) in self.sent, "nothing is read that no write sent")
            need(line["from"] <= t < line["to"] and t > least, "each point is in the range, and none has expired")
        self.reads += 1
        if line.get("level", "majority") == "one" or reply["short"]:
            return
        for key, v in self.acknowledged.items():
            if key[0] == line["ns"] and is_asked(line, key[1]) and line["from"] <= key[2] < line["to"] and key[2] > least:
                need(key in read and read[key] >= v, f"what was acknowledged is read: {key} = {v}")
                self.kept += 1


def need(holds: bool, rule: str) -> None:
    if not holds:
        raise Broken(rule)


def key_of(line: Request) -> tuple[str, str, int]:
    return line["ns"], line["id"], line["t"]


def is_asked(line: Request, identifier: str) -> bool:
    """Whether a read asks for the series: by its identifier, or by tags, of which one alone is asked for."""
    if line["op"] == "fetch":
        return identifier == line["id"]
    tags = dict(re.findall(r'(\w+)="([^"]*)"', identifier))
    return all((tags.get(name, "") == value) == (sign == "=") for name, sign, value in line["where"])


# ---- a life that was told

def told_runs(told: bytes) -> list[tuple[bytes, list[bytes]]]:
    """Of each run how it ended, and its replies."""
    parts = re.split(rb"^> ended ", told, flags=re.M)[1:]
    runs = []
    for part in parts:
        head, *rest = part.splitlines()
        runs.append((head, [it for it in rest if not it.startswith(b">")]))
    return runs


def looked_at(life: Life, told: bytes) -> Rules:
    """What came of a life, where each rule holds."""
    rules: Any = Rules()
    for number, (script, run) in enumerate(zip_longest(life.scripts, told_runs(told)), 1):
        if script is None or run is None or not (end := ENDS.match(run[0])):
            raise Broken(f"run {number} ended so: {run and run[0]!r}")
        rules.begin_run()
        asked = [json.loads(it) for it in script.splitlines()]
        for line, reply in zip(asked, map(json.loads, run[1])):
            try:
                rules.check(line, reply)
            except Broken as broken:
                raise Broken(f"run {number}: {json.dumps(line)}", json.dumps(reply), *broken.args) from None
        if end[1] == b"Done" and len(run[1]) != len(asked) or end[1] == b"DiskFault" and (len(run[1]) >= len(asked) or not end[2]):
            raise Broken(f"run {number} ended {end[1].decode()} behind {len(run[1])} of {len(asked)} lines")
        rules.end_run(asked[len(run[1])] if len(run[1]) < len(asked) else None)
    return rules
