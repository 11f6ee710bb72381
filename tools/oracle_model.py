"""A small model of the cluster, as docs/REQUESTS.md has it. `tools/oracle.py` says what this is for.

It was written from that page and from docs/PLACEMENT.md, to which it links: `replies` answers a script's bytes with the bytes
that the program must print. The disks of its replicas never fail; of those that do, `oracle_judge.py` says which replies may be.
"""
import json
from dataclasses import dataclass
from typing import Callable, Iterable, Iterator

from oracle_lines import Refused, Request, read_line, tags_of
from oracle_places import JOINING, MOST_VERSIONS, Place, ended, first_place, next_place
from oracle_store import Namespace, Point, Points, Reason, Replica, joined

MOST_NAMESPACES = 8
MOST_LATE_WRITES = 4096
PAGE_POINTS = 64
Picks = Callable[[str], bool]  # of a series, whether it is asked for
Work = Callable[[Replica, dict[str, Namespace], int], int]
OWN_DISK = ["own disk"]  # why a stream ended: it was the disk of the one that joins


def murmur(data: bytes, seed: int) -> int:
    """MurmurHash3 in its form for 32 bits."""
    mask = 2**32 - 1

    def turned(word: int, by: int) -> int:
        return (word << by | word >> (32 - by)) & mask

    def mixed(word: int) -> int:
        return turned(word * 0xCC9E2D51 & mask, 15) * 0x1B873593 & mask

    hashed, whole = seed, len(data) // 4 * 4
    for at in range(0, whole, 4):
        hashed = (turned(hashed ^ mixed(int.from_bytes(data[at:at + 4], "little")), 13) * 5 + 0xE6546B64) & mask
    hashed ^= mixed(int.from_bytes(data[whole:], "little")) ^ len(data)
    hashed = (hashed ^ hashed >> 16) * 0x85EBCA6B & mask
    hashed = (hashed ^ hashed >> 13) * 0xC2B2AE35 & mask
    return hashed ^ hashed >> 16


@dataclass
class LateWrite:
    node: str
    shard: int
    version: int
    point: Point
    value: int


class Cluster:
    def __init__(self) -> None:
        self.seed = 0
        self.places: list[Place] = []  # those that are kept, by their versions: in a first run from 1 on
        self.replicas: list[dict[str, Replica]] = []  # by shard, and then by node
        self.left: dict[tuple[int, str], Replica] = {}  # of an earlier run, which no placement of this one has had yet
        self.stopped: set[str] = set()
        self.namespaces: dict[str, Namespace] = {}
        self.now = 0
        self.fates: dict[tuple[int, str], str] = {}
        self.calls = 0
        self.late: list[LateWrite] = []

    # ---- what a line finds

    def serve(self, request: Request) -> Request:
        op, call = request["op"], self.calls
        if op in CALLS:
            self.calls += 1
        if (op == "init") == bool(self.places):
            raise Refused("order")
        if op in CALLS:
            if request["ns"] not in self.namespaces:
                raise Refused("unknown", name=request["ns"])
            return getattr(self, op)(request, self.place_at(request), call)
        return getattr(self, ACTS[op])(request) or {}

    def place(self) -> Place:
        """The placement that stands."""
        return self.places[-1]

    def place_at(self, request: Request) -> Place:
        """The placement by which a call goes."""
        first, last = self.places[0].version, self.place().version
        version = request.get("version", last)
        if not first <= version <= last:
            raise Refused("unknown", name=str(version))
        return self.places[version - first]

    def known(self, node: str) -> str:
        if not self.place().is_listed(node):
            raise Refused("unknown", name=node)
        return node

    def shard_of(self, identifier: str) -> int:
        return murmur(identifier.encode(), self.seed) % len(self.replicas)

    # ---- calls

    def needed(self, level: str) -> int:
        return {"one": 1, "unstrict": 1, "majority": self.majority(), "all": self.place().rf}[level]

    def majority(self) -> int:
        return self.place().rf // 2 + 1

    def window(self, namespace: Namespace, at: int) -> Reason | None:
        if at <= self.now - namespace.past:
            return ["past"]
        return ["future"] if at >= self.now + namespace.future else None

    def put(self, replica: Replica, version: int, point: Point, value: int) -> Reason | None:
        """A replica takes a point, or tells why not."""
        reason = replica.refusal(version) or self.window(self.namespaces[point[0]], point[2])
        return reason or replica.tried(lambda: replica.take_all({point: value}))[1]

    def send(self, node: str, shard: int, version: int, point: Point, value: int, copies: int = 1) -> Reason | None:
        """A write's message comes so many times; what the first one is answered."""
        return [self.put(self.replicas[shard][node], version, point, value) for _ in range(copies)][0]

    def copies(self, call: int, node: str) -> int:
        return 2 if self.fates.get((call, node)) == "twice" else 1

    def is_cut(self, call: int, node: str) -> bool:
        return self.fates.get((call, node)) in ("lose", "late")

    def write(self, request: Request, place: Place, call: int) -> Request:
        point, value = (request["ns"], request["id"], request["t"]), request["v"]
        shard = self.shard_of(point[1])
        reasons: dict[str, Reason | None] = {}
        for node in place.members(shard):
            if self.is_cut(call, node):
                reasons[node] = ["cut"]
                if self.fates[call, node] == "late" and len(self.late) < MOST_LATE_WRITES:
                    self.late.append(LateWrite(node, shard, place.version, point, value))
            else:
                reasons[node] = self.send(node, shard, place.version, point, value, self.copies(call, node))
        counted = {node: reasons[node] for node in place.counted(shard)}
        self.demand_level(shard, request.get("level", "majority"), counted)
        return {"acks": answered(counted)}

    def demand_level(self, shard: int, level: str, reasons: dict[str, Reason | None]) -> None:
        got = len(answered(reasons))
        if got < self.needed(level):
            listed = [[node, *reason] for node, reason in reasons.items() if reason]
            raise Refused("consistency", shard=shard, got=got, needed=self.needed(level), reasons=listed)

    def fetch(self, request: Request, place: Place, call: int) -> Request:
        return self.read(request, place, call, [self.shard_of(request["id"])], lambda it: it == request["id"])

    def match(self, request: Request, place: Place, call: int) -> Request:
        def picks(identifier: str) -> bool:
            tags = tags_of(identifier)
            return all((tags.get(tag) == value) == (sign == "=") for tag, sign, value in request["where"])
        return self.read(request, place, call, range(len(self.replicas)), picks)

    def read(self, request: Request, place: Place, call: int, shards: Iterable[int], picks: Picks) -> Request:
        """The join of what each replica that answers has of the picked series."""
        level = request.get("level", "majority")
        found: Points = {}
        short = False
        for shard in shards:
            answers = {it: (["cut"], {}) if self.is_cut(call, it) else self.look_up(self.replicas[shard][it], request, place, picks)
                       for it in place.counted(shard)}
            reasons = {node: reason for node, (reason, _) in answers.items()}
            self.demand_level(shard, level, reasons)
            short |= len(answered(reasons)) < self.majority()
            found = joined(found, *(points for _, points in answers.values()))
        return {"series": series_of(found), "short": short and level == "unstrict"}

    def look_up(self, replica: Replica, request: Request, place: Place, picks: Picks) -> tuple[Reason | None, Points]:
        """What a replica has of the picked series, or why it gives nothing."""
        reason = replica.refusal(place.version) or replica.tried(replica.look)[1]
        if reason:
            return reason, {}
        return None, {it: value for it, value in replica.content().items() if self.is_asked(request, it) and picks(it[1])}

    def is_asked(self, request: Request, point: Point) -> bool:
        ns, _, at = point
        return ns == request["ns"] and request["from"] <= at < request["to"] and not self.namespaces[ns].has_expired(at, self.now)

    # ---- the other lines

    def init(self, request: Request) -> Request:
        self.places = [first_place(request["rf"], request["shards"], request["nodes"])]
        self.seed = request["seed"]
        self.replicas = [{} for _ in self.place().shards]
        for shard, node in self.members():
            self.replicas[shard][node] = self.new_replica(shard, node)
            self.set_up(shard, node)
        return self.place().printed()

    def new_replica(self, shard: int, node: str) -> Replica:
        """One over the disk of its slot."""
        return self.left.pop((shard, node), None) or Replica()

    def set_up(self, shard: int, node: str) -> None:
        """A replica of the first placement serves, or is closed where its disk fails."""
        replica = self.replicas[shard][node]
        replica.tried(lambda: replica.begin(self.place().version))

    def change(self, request: Request) -> Request:
        """A line that makes a placement: new replicas wait for a bootstrap."""
        self.stand_by(next_place(self.place(), request, len(self.places)))
        for shard, node in self.members():
            if node not in self.replicas[shard]:
                self.replicas[shard][node] = self.new_replica(shard, node)
        return self.place().printed()

    def stand_by(self, place: Place) -> None:
        """The next placement: the replicas that it takes away from their nodes have no tenure any more."""
        for shard, (was, now) in enumerate(zip(self.place().shards, place.shards)):
            for node in was.keys() - now.keys():
                self.replicas[shard][node].end_tenure()
        self.places.append(place)

    def namespace(self, request: Request) -> None:
        if request["name"] in self.namespaces:
            raise Refused("order")
        if len(self.namespaces) == MOST_NAMESPACES:
            raise Refused("limit", limit=MOST_NAMESPACES)
        self.namespaces[request["name"]] = Namespace(*(request[key] for key in ("block", "past", "future", "retention")))

    def set_now(self, request: Request) -> None:
        if request["now"] < self.now:
            raise Refused("clock", now=self.now)
        self.now = request["now"]

    def set_fates(self, request: Request) -> None:
        for _, _, node, _ in request["list"]:
            self.known(node)
        self.fates = {(call, node): kind for client, call, node, kind in request["list"] if client == 0}
        self.calls = 0

    def deliver(self, _: Request) -> Request:
        late, self.late = self.late, []
        return {"outcomes": [[it.node, it.shard, *self.outcome(it)] for it in late]}

    def outcome(self, it: LateWrite) -> Reason:
        return self.send(it.node, it.shard, it.version, it.point, it.value) or ["took"]

    def shards_with(self, node: str) -> list[int]:
        """The shards of which the node has a replica, also one that the shard hasn't any more."""
        return [shard for shard, replicas in enumerate(self.replicas) if node in replicas]

    def stop(self, request: Request) -> None:
        node = self.known(request["node"])
        if node in self.stopped:
            raise Refused("state", node=node)
        self.stopped.add(node)
        for shard in self.shards_with(node):
            self.replicas[shard][node].close()

    def restart(self, request: Request) -> None:
        node = self.known(request["node"])
        if node not in self.stopped:
            raise Refused("state", node=node)
        for shard in self.shards_with(node):
            if self.start_disk(shard, node):
                raise Refused("disk", node=node, shard=shard)
        self.stopped.remove(node)
        for shard in self.shards_with(node):
            self.replicas[shard][node].wait()

    def start_disk(self, shard: int, node: str) -> Reason | None:
        """The disk of a replica starts again, or fails."""
        return self.replicas[shard][node].tried(self.replicas[shard][node].start_disk)[1]

    def bootstrap(self, request: Request) -> Request:
        node = self.known(request["node"])
        shards = range(len(self.replicas))
        if "shard" in request:
            if request["shard"] not in shards:
                raise Refused("unknown", name=str(request["shard"]))
            shards = [request["shard"]]
        if node in self.stopped:
            raise Refused("state", node=node)
        joined = {shard: peers for shard in shards if (peers := self.open(shard, node)) is not None}
        if joined:
            if len(self.places) == MOST_VERSIONS:
                raise Refused("limit", limit=MOST_VERSIONS)
            self.stand_by(ended(self.place(), node, list(joined)))
        return {"available": [[shard, peers] for shard, peers in joined.items()], **self.place().printed()}

    def open(self, shard: int, node: str) -> list[str] | None:
        """The node's replica of a shard serves; where it joins the shard, it says from whom it streamed."""
        return self.open_of(self.replicas[shard], shard, node)

    def open_of(self, replicas: dict[str, Replica], shard: int, node: str) -> list[str] | None:
        """The same of these replicas."""
        own, replica = self.place().shards[shard].get(node), replicas.get(node)
        if own is None or replica.standing == "down":
            return None
        if replica.tried(lambda: replica.begin(own.tenure))[1]:
            raise Refused("disk", node=node, shard=shard)
        return self.stream(replicas, shard, node, own.tenure) if own.state == JOINING else None

    def stream(self, replicas: dict[str, Replica], shard: int, node: str, tenure: int) -> list[str]:
        """Former replicas stream, by name, until a majority did so whole."""
        streamed: list[str] = []
        refused: list[list] = []
        for peer in self.place().former(shard):
            if len(streamed) == self.majority():
                break
            source = replicas[peer]
            reason = source.unowned(tenure) or source.tried(lambda: source.raise_fence(tenure))[1] or self.pour(source, replicas[node])
            if reason == OWN_DISK:
                raise Refused("disk", node=node, shard=shard)
            if reason:
                refused.append([peer, *reason])
            else:
                streamed.append(peer)
        if len(streamed) < self.majority():
            raise Refused("peers", shard=shard, got=len(streamed), needed=self.majority(), reasons=refused)
        return streamed

    def pour(self, source: Replica, own: Replica) -> Reason | None:
        """A replica gives its pages to the one that joins, or tells why not all of them: its disk, or the other one's, fails."""
        for page in pages(source.content(), list(self.namespaces)):
            if reason := source.tried(source.look)[1]:
                return reason
            if own.tried(lambda: own.merge(page))[1]:
                return OWN_DISK
        return None

    # ---- upkeep

    def members(self) -> list[tuple[int, str]]:
        return [(shard, node) for shard in range(len(self.replicas)) for node in self.place().members(shard)]

    def sweep(self, work: Work) -> Request:
        done, failed = [], []
        for shard, node in self.members():
            count, reason = self.work_on(shard, node, work)
            if reason:
                failed.append([node, shard, *reason])
            else:
                done.append([node, shard, count])
        return {"done": done, "failed": failed}

    def work_on(self, shard: int, node: str, work: Work) -> tuple[int | None, Reason | None]:
        """What a replica counts, or why it refuses."""
        return self.worked(self.replicas[shard][node], work)

    def worked(self, replica: Replica, work: Work) -> tuple[int | None, Reason | None]:
        reason = replica.closed()
        return (None, reason) if reason else replica.tried(lambda: work(replica, self.namespaces, self.now))

    def tick(self, _: Request) -> Request:
        return self.sweep(Replica.tick)

    def flush(self, _: Request) -> Request:
        return self.sweep(Replica.flush)

    def snapshot(self, _: Request) -> Request:
        return self.sweep(Replica.snapshot)

    def report(self, shard: int, node: str) -> Request:
        return self.report_of(self.replicas[shard][node], shard, node)

    def report_of(self, replica: Replica, shard: int, node: str) -> Request:
        numbers = {"fence": 0, "buffered": 0, "segments": 0, "snapshot": 0, "volumes": 0}
        if replica.standing == "open":
            numbers = {"fence": replica.fence, "buffered": len(replica.memory), "segments": len(replica.log), "snapshot": replica.snapshots,
                       "volumes": len(replica.all_volumes())}
        return {"node": node, "shard": shard, "state": self.place().shards[shard][node].state, "standing": replica.standing, **numbers}

    def status(self, _: Request) -> Request:
        return {"now": self.now, "replicas": [self.report(*it) for it in self.members()], "version": self.place().version}

    # ---- runs

    def go_on(self) -> None:
        """A further run begins over the same disks: the placement that stands is kept alone, and its replicas wait for a bootstrap. Others are made
        once a line moves their shards to their nodes again."""
        self.places = self.places[-1:]
        for shard, replicas in enumerate(self.replicas):
            for node in [*replicas]:
                replicas[node].wait()
                if node not in self.place().shards[shard]:
                    self.left[shard, node] = replicas.pop(node)
        self.stopped, self.fates, self.calls, self.late = set(), {}, 0, []


CALLS = ("write", "fetch", "match")
ACTS = {"init": "init", "namespace": "namespace", "now": "set_now", "fates": "set_fates", "deliver": "deliver", "stop": "stop", "restart": "restart",
        "bootstrap": "bootstrap", "add": "change", "drain": "change", "cancel": "change", "remove": "change", "replace": "change",
        "tick": "tick", "flush": "flush", "snapshot": "snapshot", "status": "status"}


def series_of(points: Points) -> list[Request]:
    series: dict[str, list] = {}
    for (_, identifier, at), value in sorted(points.items(), key=lambda it: (it[0][1].encode(), it[0][2])):
        series.setdefault(identifier, []).append([at, value])
    return [{"id": it, "points": those} for it, those in series.items()]


def pages(content: Points, spaces: list[str]) -> Iterable[Points]:
    """What a replica has, by namespace, identifier and time, in pages."""
    ordered = sorted(content.items(), key=lambda it: (spaces.index(it[0][0]), it[0][1].encode(), it[0][2]))
    return [dict(ordered[at:at + PAGE_POINTS]) for at in range(0, len(ordered), PAGE_POINTS)]


def answered(reasons: dict[str, Reason | None]) -> list[str]:
    return [node for node, reason in reasons.items() if reason is None]


def printed(reply: Request) -> bytes:
    return json.dumps(reply, ensure_ascii=False, separators=(",", ":"), sort_keys=True).encode() + b"\n"


def reply_to(cluster: Cluster, line: bytes) -> bytes:
    try:
        return printed({"ok": True, **cluster.serve(read_line(line))})
    except Refused as refused:
        return printed(refused.reply())


def is_blank(line: bytes) -> bool:
    """Whether a line is passed over."""
    return not line.strip(b" \t\r\n")


def serve(lines: Iterable[bytes], cluster: Cluster | None = None) -> Iterator[bytes]:
    """The replies to lines, each once its line is there: of this cluster, or of a new one."""
    cluster = cluster or Cluster()
    return (reply_to(cluster, line.removesuffix(b"\n")) for line in lines if not is_blank(line))


def replies(script: bytes) -> list[bytes]:
    """The replies to the lines of a script, without those that are passed over."""
    return list(serve(script.split(b"\n")))


def replies_of_runs(scripts: list[bytes]) -> list[list[bytes]]:
    """The same of runs over the same disks, one after the other, each of its script."""
    cluster, found = Cluster(), []
    for script in scripts:
        found.append(list(serve(script.split(b"\n"), cluster)))
        cluster.go_on()
    return found
