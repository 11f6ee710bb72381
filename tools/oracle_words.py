"""Lines and replies spelled short, as the tests of the judge have them. `tools/oracle.py` says what this is for.

| Word | Its line | What it is answered |
|---|---|---|
| `i2` | an `init` of 2 shards, of the nodes a, b and c in groups 1, 2 and 3 | `v1[abc][abc]`: the placement, a node that leaves the shard with `-` and one that joins it with `+` |
| `nm` `t100` | a namespace, a moment | `ok` |
| `wmuA100=5` | a write of 5 to m's series u at 100, at the level all, or O one, M majority | `abc`: who took it; `1/2b-c~#1`: one of 2 that are needed did, b is down and the disk of c failed, of shard 1 |
| `rmuM` `rmuM100-102` `qm=M` | a fetch, also of a range; a match of the series whose dc is x (`=`) or isn't (`!`); U is unstrict | `u100=5,101=6,x100=7,.`, and `!` in place of the dot where it is short |
| `sa` `ba7` `oa` `oa1` | a stop, a restart with the pick 7, a bootstrap, also of one shard | `ok`, `v3[bcd]0bc` with the nodes that streamed of each shard; `~a0` a disk; `p1/2a-b-` too few peers |
| `f00aL,01bT` `d` | fates of calls, L lost, T twice, B late; a delivery | `ok`; `a+b-` |
| `k` `l` `S` `u` | a tick, a flush, a snapshot, a status | `a0b1/c-`; `a5.1.2b^c-` with points in memory, segments and volumes |
| `+d4` `-a` `~a` `/a` `%ad1` | d is added in group 4, a is drained, cancelled, removed, replaced by d in group 1 | a placement; `!d0` busy, `group0`, `order` |

Reasons are `x` cut, `-` down, `^` boot, `~` disk, `<` past, `>` future, `n` notowned, `s` stale; `?x` is a name that is unknown, `=a` a node in
another state.
"""
import re

from oracle_faults import FATES, LEVELS, OPS, SERIES, SPACES
from oracle_lines import CODES, Refused, Request
from oracle_model import Cluster
from oracle_places import JOINING, LEAVING, Place, ended, next_place

REASONS = {"x": "cut", "-": "down", "^": "boot", "~": "disk", "<": "past", ">": "future", "n": "notowned", "s": "stale"}
STATES = {"": "available", "-": LEAVING, "+": JOINING}


# ---- lines

def call(word: str) -> Request:
    ns, what, level, rest = word[1], word[2], LEVELS[word[3]], word[4:]
    if word[0] == "w":
        at, value = rest.split("=")
        return {"op": "write", "ns": ns, "id": SERIES[what], "t": int(at), "v": int(value), "level": level}
    start, end = map(int, rest.split("-")) if rest else (0, 1000)
    of = {"op": "fetch", "id": SERIES[what]} if word[0] == "r" else {"op": "match", "where": [["dc", "=" if what == "=" else "!=", "x"]]}
    return {**of, "ns": ns, "from": start, "to": end, "level": level}


def line(word: str) -> Request:
    letter, rest = word[0], word[1:]
    match letter:
        case "i":
            return {"op": "init", "rf": 3, "shards": int(rest), "seed": 0, "nodes": [["a", "1"], ["b", "2"], ["c", "3"]]}
        case "n":
            return next(({**it, "name": rest} for it in SPACES if it["name"] == rest), {**SPACES[0], "name": rest})
        case "t":
            return {"op": "now", "now": int(rest)}
        case "f":
            return {"op": "fates", "list": [[int(it[0]), int(it[1]), it[2], FATES[it[3]]] for it in rest.split(",") if it]}
        case "d" | "S":
            return {"op": {"d": "deliver", "S": "snapshot"}[letter]}
        case "b" | "o" if rest[1:]:
            return {"op": OPS[letter], "node": rest[0], {"b": "pick", "o": "shard"}[letter]: int(rest[1:])}
        case "+":
            return {"op": "add", "node": rest[0], "group": rest[1]}
        case "%":
            return {"op": "replace", "node": rest[0], "by": rest[1], "group": rest[2]}
        case "w" | "r" | "q":
            return call(word)
    return {"op": OPS[letter]} | ({"node": rest} if rest else {})


# ---- replies, by the cluster before the line

def reason(letter: str, cluster: Cluster) -> list:
    return [REASONS[letter], cluster.place().version] if letter == "s" else [REASONS[letter]]


def short_of(answer: str, error: str, cluster: Cluster) -> Request:
    got, needed, reasons, shard = re.fullmatch(r"(\d)/(\d)([^#]*)#?(\d*)", answer).groups()
    pairs = [[node, *reason(letter, cluster)] for node, letter in zip(reasons[::2], reasons[1::2])]
    return {"ok": False, "code": CODES[error], "error": error, "got": int(got), "needed": int(needed), "reasons": pairs, "shard": int(shard or 0)}


def led_to(cluster: Cluster, request: Request, shards: list[int]) -> Place | None:
    """The placement to which a line leads, if it leads to one."""
    if request["op"] == "init":
        other = Cluster()
        other.init(request)
        return other.place()
    if request["op"] == "bootstrap":
        joined = [it for it in shards if cluster.place().joining(it) == request["node"]]
        return ended(cluster.place(), request["node"], joined) if joined else cluster.place()
    try:
        return next_place(cluster.place(), request, len(cluster.places))
    except Refused:
        return None


def placement(answer: str, request: Request, cluster: Cluster) -> Request:
    """The placement that the line leads to, where it is spelled so, and else one that is made up."""
    version, inner, rest = re.fullmatch(r"v(\d+)((?:\[[^]]*\])+)(.*)", answer).groups()
    peers = re.findall(r"(\d)([a-e]*)", rest)
    told = {"ok": True} | ({"available": [[int(shard), [*nodes]] for shard, nodes in peers]} if request["op"] == "bootstrap" else {})
    shards = [[[node, STATES[mark]] for node, mark in re.findall(r"([a-e])([-+]?)", it)] for it in re.findall(r"\[([^]]*)\]", inner)]
    place = led_to(cluster, request, [int(shard) for shard, _ in peers])
    made = (place or cluster.place()).printed()
    if place and (int(version), shards) == (made["version"], [[it[:2] for it in shard] for shard in made["placement"]["shards"]]):
        return told | made
    made["placement"]["shards"] = [[[*it, int(version)] for it in shard] for shard in shards]
    return told | made | {"version": int(version)}


def numbered(nodes: list[str], cluster: Cluster) -> list[tuple[str, int]]:
    """The nodes, each with the first of its shards that it wasn't told with yet."""
    left = {node: iter(cluster.place().shards_of(node)) for node in nodes}
    return [(node, next(left[node], 0)) for node in nodes]


def swept(answer: str, cluster: Cluster) -> Request:
    done, failed = re.findall(r"([a-e])(\d+)", answer.split("/")[0]), re.findall(r"([a-e])(.)", answer.split("/")[1])
    all_nodes = numbered([node for node, _ in [*done, *failed]], cluster)
    counts = [[node, shard, int(told)] for (node, shard), (_, told) in zip(all_nodes, done)]
    reasons = [[node, shard, *reason(letter, cluster)] for (node, shard), (_, letter) in zip(all_nodes[len(done):], failed)]
    return {"ok": True, "done": counts, "failed": reasons}


def status(answer: str, cluster: Cluster) -> Request:
    """Fences and snapshots, which aren't spelled, are as they may be."""
    found = re.findall(r"([a-e])(?:(\d+)\.(\d+)\.(\d+)|([-^]))", answer)
    rows = []
    for (node, shard), (_, buffered, segments, volumes, mark) in zip(numbered([it[0] for it in found], cluster), found):
        own, slot = cluster.place().shards[shard].get(node), cluster.replicas[shard].get(node)
        numbers = [int(it or 0) for it in (buffered, segments, volumes)]
        others = [0, 0] if mark or not slot else [slot.worlds[0].fence, slot.worlds[0].snapshots]
        rows.append({"node": node, "shard": shard, "state": own.state if own else "available", "standing": {"": "open", "-": "down", "^": "boot"}[mark],
                     **dict(zip(("buffered", "segments", "volumes", "fence", "snapshot"), [*numbers, *others]))})
    return {"ok": True, "now": cluster.now, "replicas": rows, "version": cluster.place().version}


def series(answer: str) -> Request:
    found = [{"id": SERIES[letter], "points": [[int(at), int(value)] for at, value in re.findall(r"(\d+)=(-?\d+)", points)]}
             for letter, points in re.findall(r"([uxy])((?:\d+=-?\d+,)+)", answer)]
    return {"ok": True, "series": found, "short": answer.endswith("!")}


def delivered(answer: str, cluster: Cluster) -> Request:
    shards = [it.shard for it in cluster.late]
    pairs = list(zip(answer[::2], answer[1::2]))
    outcomes = [[node, shards[at] if at < len(shards) else 0, *(["took"] if letter == "+" else reason(letter, cluster))]
                for at, (node, letter) in enumerate(pairs)]
    return {"ok": True, "outcomes": outcomes}


def refused(answer: str) -> Request:
    """A refusal as a whole."""
    kinds = [(r"order|full", lambda it: (it, {})), (r"\?(.*)", lambda it: ("unknown", {"name": it[1:]})), (r"=(.)", lambda it: ("state", {"node": it[1]})),
             (r"~(.)(\d)", lambda it: ("disk", {"node": it[1], "shard": int(it[2])})), (r"clock(\d+)", lambda it: ("clock", {"now": int(it[5:])})),
             (r"!(.)(\d)", lambda it: ("busy", {"node": it[1], "shard": int(it[2])})), (r"group(\d)", lambda it: ("group", {"shard": int(it[5])})),
             (r"limit(\d+)", lambda it: ("limit", {"limit": int(it[5:])}))]
    error, fields = next(made(answer) for form, made in kinds if re.fullmatch(form, answer))
    return {"ok": False, "code": CODES[error], "error": error, **fields}


def reply(word: str, answer: str, cluster: Cluster) -> Request:
    """What the answer to a word spells, where the cluster is as it is before the word."""
    request = line(word)
    if answer == "ok":
        return {"ok": True}
    if re.fullmatch(r"p?\d/\d.*", answer):
        return short_of(answer.lstrip("p"), "peers" if answer[0] == "p" else "consistency", cluster)
    if re.match(r"v\d+\[", answer):
        return placement(answer, request, cluster)
    if request["op"] in ("tick", "flush", "snapshot") and "/" in answer:
        return swept(answer, cluster)
    if request["op"] == "status" and answer != "order":
        return status(answer, cluster)
    if request["op"] == "deliver" and answer != "order":
        return delivered(answer, cluster)
    if request["op"] in ("fetch", "match") and answer[-1:] in (".", "!"):
        return series(answer)
    if request["op"] == "write" and re.fullmatch("[a-e]*", answer):
        return {"ok": True, "acks": [*answer]}
    return refused(answer)
