"""One replica of the small model, as docs/REQUESTS.md and docs/STORAGE.md have it. `tools/oracle.py` says what this is for.

It was written from these pages alone. Each step of its disk asks the disk whether it fails there: `Disk` never does, and those of
`oracle_judge.py` try both.
"""
from dataclasses import dataclass, field, replace
from typing import Any, Callable, Iterable

SEGMENT_BYTES = 65536
MARK_BYTES = 14  # of a tenure or a fence in the log
HEAD_BYTES = 8  # of an entry of points, each of which takes its identifier's bytes and these
POINT_BYTES = 19
Point = tuple[str, str, int]
Reason = list  # its word, and for `stale` the fence
Points = dict[Point, int]
Block = tuple[str, int]
Step = Callable[[], None]


@dataclass
class Namespace:
    block: int
    past: int
    future: int
    retention: int

    def start(self, at: int) -> int:
        """Where the block of a time begins."""
        return at - at % self.block

    def has_expired(self, at: int, now: int) -> bool:
        return at + self.retention <= now


def raise_point(points: Points, point: Point, value: int) -> None:
    points[point] = max(value, points.get(point, value))


def joined(*all_points: Points) -> Points:
    join: Points = {}
    for points in all_points:
        for point, value in points.items():
            raise_point(join, point, value)
    return join


class DiskFailed(Exception):
    """The disk of a replica failed."""


class Disk:
    """A disk that never fails. Another one says of each step of a replica whether it does, and then which parts of the step it did."""

    def chooses(self) -> bool:
        return False


UNFAILING = Disk()


@dataclass
class Replica:
    """A node's replica of a shard: how it stands, its tenure and fence, what it has in memory, and on its disk: volumes by namespace and
    start, also several where older ones weren't taken away; the points of the newest snapshot, its number and the highest one that any
    file has; and those of each segment of its log, of which the last one is filled so far. Begins over an empty disk, and waits."""
    standing: str = "boot"
    tenure: int | None = None  # none where a later placement took the shard from its node
    begun: int = 0  # the highest that it ever had, which is in its log
    fence: int = 0
    memory: Points = field(default_factory=dict)
    volumes: dict[Block, list[Points]] = field(default_factory=dict)
    saved: Points = field(default_factory=dict)
    snapshots: int = 0
    numbered: int = 0
    log: list[Points] = field(default_factory=list)
    filled: int = 0
    disk: Disk = UNFAILING
    faults: int = 0

    def copy(self) -> "Replica":
        """One that goes on by itself."""
        log = [*self.log[:-1], dict(self.log[-1])] if self.log else []
        return replace(self, memory=dict(self.memory), volumes=dict(self.volumes), log=log)

    def key(self) -> tuple:
        """What tells it from another one."""
        def frozen(all_points: list[Points]) -> tuple:
            return tuple(frozenset(points.items()) for points in all_points)
        volumes = frozenset((block, frozen(those)) for block, those in self.volumes.items())
        points = frozen([self.memory, self.saved, *self.log])
        return self.standing, self.tenure, self.begun, self.fence, volumes, points, self.snapshots, self.numbered, self.filled, self.faults

    # ---- steps of the disk

    def close(self) -> None:
        """It has nothing in memory any more, and its log goes on in another segment."""
        self.standing, self.memory, self.filled = "down", {}, 0

    def tried(self, act: Callable[[], Any]) -> tuple[Any, Reason | None]:
        """What the act answers, or that the disk failed: then the replica is closed."""
        try:
            return act(), None
        except DiskFailed:
            self.close()
            return None, ["disk"]

    def part(self, steps: Iterable[Step]) -> bool:
        """The first few of these steps, as the disk chooses; whether all are done."""
        for step in steps:
            if not self.disk.chooses():
                return False
            step()
        return True

    def fail(self) -> None:
        self.faults += 1
        raise DiskFailed

    def do(self, *chains: list[Step]) -> None:
        """Does the steps of each chain in their order. Where the disk fails the first few of each are done: in which order the chains come
        is nowhere said."""
        if self.disk.chooses():
            for chain in chains:
                self.part(chain)
            self.fail()
        for chain in chains:
            for step in chain:
                step()

    def look(self) -> None:
        """Reads the volumes, if there are any."""
        if self.volumes:
            self.do([])

    # ---- its log

    def write_down(self, size: int, step: Step) -> None:
        """An entry of so many bytes, which does this."""
        if not self.log or self.filled + size > SEGMENT_BYTES:
            self.do([self.begin_segment])
        self.do([step])
        self.filled += size

    def begin_segment(self) -> None:
        self.log.append({})
        self.filled = 0

    def take_all(self, points: Points) -> None:
        def step() -> None:
            for point, value in points.items():
                raise_point(self.log[-1], point, value)
        self.write_down(HEAD_BYTES + sum(POINT_BYTES + len(identifier.encode()) for _, identifier, _ in points), step)
        for point, value in points.items():
            raise_point(self.memory, point, value)

    def merge(self, page: Points) -> None:
        """Takes of a page what is new here, or higher."""
        self.look()
        content = self.content()
        if new := {it: value for it, value in page.items() if it not in content or content[it] < value}:
            self.take_all(new)

    def raise_fence(self, version: int) -> None:
        if self.fence < version:
            self.write_down(MARK_BYTES, lambda: setattr(self, "fence", version))

    def begin(self, tenure: int) -> None:
        """Has this tenure, and serves."""
        if self.standing == "boot":
            self.load()
        if self.begun < tenure:
            self.write_down(MARK_BYTES, lambda: self.mark(tenure))
        self.tenure = tenure

    def mark(self, tenure: int) -> None:
        self.begun, self.fence = tenure, max(self.fence, tenure)

    # ---- what it refuses

    def closed(self) -> Reason | None:
        """Why it does nothing at all, if it doesn't."""
        return None if self.standing == "open" else [self.standing]

    def unowned(self, version: int) -> Reason | None:
        """Why it can't be fenced at this version."""
        return self.closed() or (["notowned"] if self.tenure is None or self.tenure > version else None)

    def refusal(self, version: int) -> Reason | None:
        """Why it takes and gives nothing by this version."""
        return self.unowned(version) or (["stale", self.fence] if self.fence > version else None)

    # ---- its points

    def all_volumes(self) -> list[Points]:
        return [volume for volumes in self.volumes.values() for volume in volumes]

    def content(self) -> Points:
        return joined(self.memory, *self.all_volumes())

    def end_tenure(self) -> None:
        self.tenure = None

    def wait(self) -> None:
        """Is made anew over its disk, and waits for a bootstrap."""
        self.close()
        self.standing = "boot"

    def start_disk(self) -> None:
        self.do([])

    def load(self) -> None:
        """What the files have, of which no volume has it so, is in memory again."""
        self.do([self.begin_segment])
        volumes = self.all_volumes()
        kept = joined(self.saved, *self.log, *volumes)
        self.memory = {it: value for it, value in kept.items() if not any(that.get(it) == value for that in volumes)}
        self.standing = "open"

    def flush(self, spaces: dict[str, Namespace], now: int) -> int:
        """Writes a volume for each block that has ended and has points in memory; says how many."""
        ended: dict[Block, Points] = {}
        for (ns, identifier, at), value in self.memory.items():
            space = spaces[ns]
            if space.start(at) + space.block + space.past <= now:
                ended.setdefault((ns, space.start(at)), {})[ns, identifier, at] = value
        self.do(*(self.flushed(block, points) for block, points in ended.items()))
        if ended:
            self.memory = {it: value for it, value in self.memory.items() if not any(it in points for points in ended.values())}
        return len(ended)

    def flushed(self, block: Block, points: Points) -> list[Step]:
        """A volume of the block is written with these points and those of its volumes, and then takes their place."""
        older = self.volumes.get(block, [])
        both = joined(points, *older)
        return [lambda at=at: self.volumes.update({block: [*older[at:], both]}) for at in range(len(older) + 1)]

    def tick(self, spaces: dict[str, Namespace], now: int) -> int:
        """Drops what has expired; says how many points it has no more."""
        before = len(self.content())
        gone = [(ns, start) for ns, start in self.volumes if spaces[ns].has_expired(start + spaces[ns].block, now)]
        self.do(*(self.dropped(block) for block in gone))
        self.memory = {it: value for it, value in self.memory.items() if not spaces[it[0]].has_expired(it[2], now)}
        return before - len(self.content())

    def dropped(self, block: Block) -> list[Step]:
        """The volumes of the block go, one after the other."""
        volumes = self.volumes[block]
        some = [lambda at=at: self.volumes.update({block: volumes[at:]}) for at in range(1, len(volumes))]
        return [*some, lambda: self.volumes.pop(block)]

    def snapshot(self, _spaces: dict[str, Namespace], _now: int) -> int:
        """Saves what is in memory, in place of the log and older snapshots; says the snapshot's number."""
        saved = [lambda: setattr(self, "numbered", self.numbered + 1), self.save]
        if self.disk.chooses():
            both = [self.part([self.begin_segment]), self.part(saved)]
            if all(both):
                self.part([lambda: self.log.pop(0)] * (len(self.log) - 1))
            self.fail()
        for step in saved:
            step()
        self.log = [{}]
        self.filled = 0
        return self.snapshots

    def save(self) -> None:
        self.saved, self.snapshots = dict(self.memory), self.numbered
