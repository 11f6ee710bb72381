"""Says whether the replies of runs may be so where disks of replicas fail. `tools/oracle.py` says what this is for.

How often each disk failed is told with a run, and when it did isn't. So of each replica is kept all that it may be: how it stands, and what it
has in memory and on its disk, which after a fault has part of the steps that it was at. A reply is right where one of these replicas, or a few of
them together, may have had it answered, and then just those are kept; at the end of a run those whose disk failed as often as is told.
"""
import json
from dataclasses import dataclass
from itertools import product, zip_longest
from typing import Any, Callable, Iterable, Iterator, NamedTuple

from oracle_lines import Refused, Request, read_line
from oracle_model import Cluster, LateWrite, Picks, Work, is_blank, pages, printed, series_of
from oracle_places import JOINING, Place
from oracle_store import UNFAILING, Disk, Point, Points, Reason, Replica, joined

MOST_SHOWN = 3
Fits = Callable[[Any], bool]
Opened = tuple[list[str] | None, Refused | None]  # of a replica: from whom it streamed, if it did, or the refusal
Way = tuple[tuple, frozenset]  # how a replica answers a read: why not, or with which points and values
Act = Callable[[Replica], Any]


class Wrong(Exception):
    """A reply that can't be so, with some that might be."""


class Choices(Disk):
    """Answers what was given, one after the other, and then no more failures."""

    def __init__(self, given: tuple[bool, ...]):
        self.given, self.asked = given, 0

    def chooses(self) -> bool:
        self.asked += 1
        return self.asked <= len(self.given) and self.given[self.asked - 1]

    def others(self) -> list[tuple[bool, ...]]:
        """What may be given in place of this, that it didn't come to yet."""
        more = range(self.asked - len(self.given))
        return [(*self.given, *[False] * at, True) for at in more]


@dataclass
class Slot:
    """All that the replica of a slot may be, whose disk fails so often at most."""
    worlds: list[Replica]
    most: int = 0

    def keep(self, worlds: Iterable[Replica]) -> None:
        """Just these, and each once."""
        few = [it for it in worlds if it.faults <= self.most]
        self.worlds = list({it.key(): it for it in few}.values()) if len(few) > 1 else few

    def close(self) -> None:
        for it in self.worlds:
            it.close()
        self.keep(self.worlds)

    def end_tenure(self) -> None:
        for it in self.worlds:
            it.end_tenure()

    def wait(self) -> None:
        for it in self.worlds:
            it.wait()
        self.keep(self.worlds)


def futures(slot: Slot, act: Act) -> Iterator[tuple[Any, Replica]]:
    """Each way in which an act may go on the replica of a slot, with what that is then."""
    for world in slot.worlds:
        untried: list[tuple[bool, ...]] = [()]
        while untried:
            choices, own = Choices(untried.pop()), world.copy()
            own.disk = choices if own.faults < slot.most else UNFAILING
            answer = act(own)
            untried += choices.others()
            yield answer, own


def chosen(slot: Slot, act: Act, fits: Fits) -> Any:
    """What the act is answered, in one of the ways that fit; those alone are kept."""
    found, others = [], []
    for answer, replica in futures(slot, act):
        (found if fits(answer) else others).append((answer, replica))
    if not found:
        raise Wrong(*[answer for answer, _ in others[:MOST_SHOWN]])
    slot.keep(replica for _, replica in found)
    return found[0][0]


def rows(reply: Any, key: str) -> list[list]:
    """The lists that a reply has there, if it has such."""
    value = reply.get(key) if isinstance(reply, dict) else None
    return [it for it in value if isinstance(it, list)] if isinstance(value, list) else []


class Judge(Cluster):
    """A cluster that is told its replies, and the faults of its disks by their slots."""

    def __init__(self) -> None:
        super().__init__()
        self.faults: dict[str, int] = {}
        self.told: Any = {}
        self.fits: Callable[[str], Fits] = lambda node: lambda reason: True  # what a node may answer a write
        self.points, self.moves = 0, 0  # that reads gave, and that ended

    # ---- a run

    def begin_run(self, faults: dict[str, int]) -> None:
        """A run begins, at whose end the disks have failed so often."""
        self.faults = faults
        for shard, node, slot in self.slots():
            slot.most = self.faults.get(self.slot_name(shard, node), 0)

    def end_run(self) -> None:
        """Each disk failed as often as is told."""
        for shard, node, slot in self.slots():
            slot.keep([it for it in slot.worlds if it.faults == slot.most])
            if not slot.worlds:
                raise Wrong(f"fewer faults of {self.slot_name(shard, node)} are told than there are")
        used = {self.slot_name(shard, node) for shard, node, _ in self.slots()}
        if unused := [name for name, count in self.faults.items() if count and name not in used]:
            raise Wrong(f"no replica is on {', '.join(unused)}")

    def slots(self) -> list[tuple[int, str, Slot]]:
        left = [(shard, node, slot) for (shard, node), slot in self.left.items()]
        return left + [(shard, node, slot) for shard, replicas in enumerate(self.replicas) for node, slot in replicas.items()]

    def slot_name(self, shard: int, node: str) -> str:
        """As `c0`: nodes have their numbers in the order in which they were named."""
        return f"{chr(ord('a') + list(self.place().nodes).index(node))}{shard}"

    def new_replica(self, shard: int, node: str) -> Slot:
        return self.left.pop((shard, node), None) or Slot([Replica()], self.faults.get(self.slot_name(shard, node), 0))

    def judge(self, line: bytes, reply: bytes) -> None:
        """Goes on with the line, where it may be answered so."""
        try:
            self.told = json.loads(reply)
            found = printed({"ok": True, **self.serve(read_line(line))})
        except Refused as refused:
            found = printed(refused.reply())
        except (AttributeError, IndexError, KeyError, TypeError, ValueError) as error:
            raise Wrong("no such reply", repr(error)) from None
        if found != reply:
            raise Wrong(json.loads(found))

    def is_told(self, error: str) -> bool:
        return isinstance(self.told, dict) and self.told.get("error") == error

    def is_ok(self) -> bool:
        return isinstance(self.told, dict) and self.told.get("ok") is True

    # ---- writes

    def send(self, node: str, shard: int, version: int, point: Point, value: int, copies: int = 1) -> Reason | None:
        def act(replica: Replica) -> Reason | None:
            return [self.put(replica, version, point, value) for _ in range(copies)][0]
        return chosen(self.replicas[shard][node], act, self.fits(node))

    def write(self, request: Request, place: Place, call: int) -> Request:
        counted = place.counted(self.shard_of(request["id"]))
        acks = self.told.get("acks", []) if self.is_ok() else []
        reasons = {it[0]: it[1:] for it in rows(self.told, "reasons") if it}

        def fits(node: str) -> Fits:
            if node not in counted:
                return lambda reason: True
            if self.is_ok():
                return lambda reason: (reason is None) == (node in acks)
            return lambda reason: self.is_told("consistency") and reason == reasons.get(node)
        self.fits = fits
        return super().write(request, place, call)

    def deliver(self, request: Request) -> Request:
        self.outcomes = iter(rows(self.told, "outcomes"))
        return super().deliver(request)

    def outcome(self, it: LateWrite) -> Reason:
        told = next(self.outcomes, None)
        self.fits = lambda node: lambda reason: [node, it.shard, *(reason or ["took"])] == told
        return super().outcome(it)

    # ---- reads

    def read(self, request: Request, place: Place, call: int, shards: Iterable[int], picks: Picks) -> Request:
        """What the replicas of each shard have together is what is told; or so few of them answer as is told."""
        points, short = self.told_points(request["ns"], shards), False
        level = request.get("level", "majority")
        for shard in shards:
            nodes = place.counted(shard)
            looks = [self.looks(shard, node, request, place, call, picks) for node in nodes]
            kept = [ways for ways in product(*looks) if self.is_read(level, shard, points[shard], dict(zip(nodes, ways)))]
            if not kept:
                raise Wrong(f"shard {shard}", *[dict(zip(nodes, ways)) for ways in list(product(*looks))[:MOST_SHOWN]])
            for at, node in enumerate(nodes):
                own = {ways[at] for ways in kept}
                self.replicas[shard][node].keep(it for way, worlds in looks[at].items() if way in own for it in worlds)
            if self.is_told("consistency") and self.told.get("shard") == shard:
                raise Refused("consistency", **{key: it for key, it in self.told.items() if key not in ("ok", "code", "error")})
            short |= level == "unstrict" and any(self.answers(ways) < self.majority() for ways in kept)
        if self.told.get("short") and not short:
            raise Wrong("not short")
        return {"series": self.told.get("series"), "short": self.told.get("short") is True}

    def told_points(self, ns: str, shards: Iterable[int]) -> dict[int, Points]:
        """The points that are told, by their shards."""
        points: dict[int, Points] = {shard: {} for shard in shards}
        for series in self.told.get("series", []) if self.is_ok() else []:
            shard = self.shard_of(series["id"])
            if shard not in points:
                raise Wrong(f"no series {series['id']}")
            points[shard] |= {(ns, series["id"], at): value for at, value in series["points"]}
        if self.is_ok() and series_of(joined(*points.values())) != self.told.get("series"):
            raise Wrong("no series in their order")
        self.points += sum(map(len, points.values()))
        return points

    def looks(self, shard: int, node: str, request: Request, place: Place, call: int, picks: Picks) -> dict[Way, list[Replica]]:
        """How the replica of a node may answer a read: for what reason not, or with which points."""
        slot = self.replicas[shard][node]
        if self.is_cut(call, node):
            return {(("cut",), frozenset()): slot.worlds}
        found: dict[Way, list[Replica]] = {}
        for (reason, points), replica in futures(slot, lambda it: self.look_up(it, request, place, picks)):
            found.setdefault((tuple(reason or ()), frozenset(points.items())), []).append(replica)
        return found

    @staticmethod
    def answers(ways: Iterable[Way]) -> int:
        return sum(not reason for reason, _ in ways)

    def is_read(self, level: str, shard: int, points: Points, ways: dict[str, Way]) -> bool:
        """Whether it is answered as is told where the replicas of a shard answer so."""
        got = self.answers(ways.values())
        if self.is_ok():
            is_short = level == "unstrict" and got < self.majority()
            found = joined(*(dict(those) for _, those in ways.values()))
            return got >= self.needed(level) and found == points and (self.told.get("short") is True or not is_short)
        if not self.is_told("consistency") or not isinstance(self.told.get("shard"), int):
            return False
        try:
            self.demand_level(shard, level, {node: list(reason) or None for node, (reason, _) in ways.items()})
            return shard < self.told["shard"]
        except Refused as refused:
            return refused.reply() == self.told

    # ---- other lines

    def start_disk(self, shard: int, node: str) -> Reason | None:
        fails = self.is_told("disk") and self.told.get("shard") == shard
        return chosen(self.replicas[shard][node], lambda it: it.tried(it.start_disk)[1], lambda reason: fails == (reason is not None))

    def set_up(self, shard: int, node: str) -> None:
        version = self.place().version
        chosen(self.replicas[shard][node], lambda it: it.tried(lambda: it.begin(version)), lambda _: True)

    def open(self, shard: int, node: str) -> list[str] | None:
        own = self.place().shards[shard].get(node)
        if own is None:
            return None
        slot, fits = self.replicas[shard][node], self.fits_opened(shard)
        if own.state == JOINING:
            peers, refused = Joining(self, shard, node).ended(fits)
        else:
            peers, refused = chosen(slot, lambda it: self.refused_by(it, shard, node), fits)
        if refused:
            raise refused
        self.moves += peers is not None and self.is_ok()
        return peers

    def refused_by(self, replica: Replica, shard: int, node: str) -> Opened:
        """Of a replica that doesn't join its shard."""
        try:
            return self.open_of({node: replica}, shard, node), None
        except Refused as refused:
            return None, refused

    def fits_opened(self, shard: int) -> Fits:
        """Whether a replica of the shard that opens does so as is told."""
        available = {it[0]: it[1] for it in rows(self.told, "available") if len(it) == 2}
        ends = self.told.get("shard") if self.is_told("disk") or self.is_told("peers") else None

        def fits(answer: Opened) -> bool:
            peers, refused = answer
            if ends == shard:
                return refused is not None and refused.reply() == self.told
            return refused is None and (not self.is_ok() or peers == available.get(shard))
        return fits

    def work_on(self, shard: int, node: str, work: Work) -> tuple[int | None, Reason | None]:
        done = [(it[2], None) for it in rows(self.told, "done") if it[:2] == [node, shard]]
        failed = [(None, it[2:]) for it in rows(self.told, "failed") if it[:2] == [node, shard]]
        return chosen(self.replicas[shard][node], lambda it: self.worked(it, work), lambda answer: answer in done + failed)

    def report(self, shard: int, node: str) -> Request:
        told = [it for it in self.told.get("replicas", []) if (it.get("node"), it.get("shard")) == (node, shard)] if self.is_ok() else []
        return chosen(self.replicas[shard][node], lambda it: self.report_of(it, shard, node), lambda answer: answer in told)


# ---- joins

@dataclass
class Joined:
    """How far a replica that joins its shard is: what it is, which nodes streamed, which refused for which reasons, and how it ended early."""
    own: Replica
    streamed: tuple[str, ...] = ()
    refused: tuple[tuple, ...] = ()
    over: Opened | None = None

    def key(self) -> tuple:
        return self.own.key(), self.streamed, self.refused, self.over and str(self.over[1])


class Joining:
    """A replica that joins a shard: how far it may be after each node that is asked to stream, and from where it came there."""

    def __init__(self, judge: Judge, shard: int, node: str):
        self.judge, self.shard, self.node = judge, shard, node
        self.slots, self.tenure = judge.replicas[shard], judge.place().shards[shard][node].tenure

    def fails(self) -> Opened:
        return None, Refused("disk", node=self.node, shard=self.shard)

    def ended(self, fits: Fits) -> Opened:
        """What it is answered, in one of the ways that fit; those alone are kept."""
        far = {it.key(): it for it in self.begun()}
        peers, links = self.judge.place().former(self.shard), []
        for peer in peers:
            outcomes, after = self.outcomes(peer), {}
            links.append([])
            for key, it in far.items():
                for then, replicas in self.asked(it, peer, outcomes):
                    after.setdefault(then.key(), then)
                    links[-1].append((key, then.key(), replicas))
            far = after
        answers = {key: self.answer(it) for key, it in far.items()}
        kept = {key for key, answer in answers.items() if fits(answer)}
        if not kept:
            raise Wrong(*[refused.reply() if refused else streamed for streamed, refused in list(answers.values())[:MOST_SHOWN]])
        found = answers[next(iter(kept))]
        self.slots[self.node].keep(far[key].own for key in kept)
        for peer, link in zip(reversed(peers), reversed(links)):
            self.slots[peer].keep([it for _, key, replicas in link if key in kept for it in replicas])
            kept = {before for before, key, _ in link if key in kept}
        return found

    def begun(self) -> Iterator[Joined]:
        def act(own: Replica) -> Opened | None:
            if own.standing == "down":
                return None, None
            return self.fails() if own.tried(lambda: own.begin(self.tenure))[1] else None
        for over, own in futures(self.slots[self.node], act):
            yield Joined(own, over=over)

    def outcomes(self, peer: str) -> list[tuple[Reason | None, list[Points], list[Replica]]]:
        """Why a node may not stream, or stop to; the pages that it gives before; and what it may be then."""
        def act(source: Replica) -> tuple[Reason | None, list[Points]]:
            poured: list[Points] = []
            reason = source.unowned(self.tenure) or source.tried(lambda: source.raise_fence(self.tenure))[1]
            for page in [] if reason else pages(source.content(), list(self.judge.namespaces)):
                reason = source.tried(source.look)[1]
                if reason:
                    break
                poured.append(page)
            return reason, poured
        found: dict[tuple, tuple] = {}
        for (reason, poured), source in futures(self.slots[peer], act):
            key = tuple(reason or ()), tuple(frozenset(page.items()) for page in poured)
            found.setdefault(key, (reason, poured, []))[2].append(source)
        return list(found.values())

    def asked(self, far: Joined, peer: str, outcomes: list) -> Iterator[tuple[Joined, list[Replica]]]:
        """How far it is after a node that is asked, if it still is. Where its own disk fails the node was streaming."""
        if far.over or len(far.streamed) == self.judge.majority():
            yield far, self.slots[peer].worlds
            return

        def act(own: Replica) -> Reason | None:
            return next((why for page in poured if (why := own.tried(lambda: own.merge(page))[1])), None)
        for reason, poured, replicas in outcomes:
            for why, own in futures(Slot([far.own], self.slots[self.node].most), act):
                if why and not reason:
                    yield Joined(own, far.streamed, far.refused, self.fails()), replicas
                elif reason and not why:
                    yield Joined(own, far.streamed, (*far.refused, (peer, *reason))), replicas
                elif not why:
                    yield Joined(own, (*far.streamed, peer), far.refused), replicas

    def answer(self, far: Joined) -> Opened:
        needed, got = self.judge.majority(), len(far.streamed)
        if far.over or got == needed:
            return far.over or (list(far.streamed), None)
        return None, Refused("peers", shard=self.shard, got=got, needed=needed, reasons=[list(it) for it in far.refused])


# ---- runs

@dataclass
class Run:
    """What is told of a run: its script, the replies, and the faults of disks by their slots."""
    script: bytes
    replies: list[bytes]
    faults: dict[str, int]


class Stakes(NamedTuple):
    """What came of runs: points that reads gave, moves that ended, and faults."""
    points: int
    moves: int
    faults: int

    def is_below(self, least: "Stakes") -> bool:
        """Whether one of these is less than that of the other."""
        return any(one < other for one, other in zip(self, least))


def judged(runs: list[Run]) -> Stakes:
    """What came of runs over the same disks, one after the other; `Wrong` where a reply can't be so."""
    judge = Judge()
    for run in runs:
        judge.begin_run(run.faults)
        lines = [it for it in run.script.split(b"\n") if not is_blank(it)]
        for at, (line, reply) in enumerate(zip_longest(lines, run.replies)):
            if line is None or reply is None:
                raise Wrong(f"{len(run.replies)} replies to {len(lines)} lines")
            try:
                judge.judge(line, reply)
            except Wrong as wrong:
                raise Wrong(at, line.decode(), reply.decode().rstrip(), *wrong.args) from None
        judge.end_run()
        judge.go_on()
    return Stakes(judge.points, judge.moves, sum(runs[-1].faults.values()))
