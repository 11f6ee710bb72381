"""Placements and the lines that make them, as docs/PLACEMENT.md has them. `tools/oracle.py` says what this is for.

It was written from that page alone. `next_place` answers the placement to which a line leads where so many are kept, or raises `Refused`.
"""
from __future__ import annotations

from copy import deepcopy
from dataclasses import dataclass

from oracle_lines import Refused, Request

MOST_NODES = 16
MOST_VERSIONS = 1024
AVAILABLE, LEAVING, JOINING = "available", "leaving", "initializing"


@dataclass
class Node:
    group: str
    is_listed: bool = True
    is_drained: bool = False


@dataclass
class Assignment:
    """How a node has a shard, and since which version; and from which node it comes, where it is joining."""
    state: str
    tenure: int
    source: str | None = None


def by_name(names) -> list[str]:
    return sorted(names, key=str.encode)


@dataclass
class Place:
    """A placement: the nodes that were ever named, and for each shard those that have it."""
    rf: int
    nodes: dict[str, Node]
    shards: list[dict[str, Assignment]]
    version: int = 1

    def listed(self) -> list[str]:
        return by_name(name for name, node in self.nodes.items() if node.is_listed)

    def is_listed(self, name: str) -> bool:
        return name in self.nodes and self.nodes[name].is_listed

    def members(self, shard: int) -> list[str]:
        return by_name(self.shards[shard])

    def counted(self, shard: int) -> list[str]:
        return [name for name in self.members(shard) if self.shards[shard][name].state == AVAILABLE]

    def former(self, shard: int) -> list[str]:
        """The nodes from which the one that joins the shard streams."""
        return [name for name in self.members(shard) if self.shards[shard][name].state != JOINING]

    def shards_of(self, name: str) -> list[int]:
        return [number for number, shard in enumerate(self.shards) if name in shard]

    def joining(self, shard: int) -> str | None:
        """The node that joins the shard, where it moves."""
        return next((name for name, one in self.shards[shard].items() if one.state == JOINING), None)

    def load(self, name: str) -> int:
        return sum(name in shard and shard[name].state != LEAVING for shard in self.shards)

    def may_take(self, name: str, shard: int, source: str) -> bool:
        node = self.nodes[name]
        others = [self.nodes[other].group for other in self.shards[shard] if other != source]
        return node.is_listed and not node.is_drained and name not in self.shards[shard] and node.group not in others

    def move(self, shard: int, source: str, name: str) -> None:
        self.shards[shard][source].state = LEAVING
        self.shards[shard][name] = Assignment(JOINING, self.version, source)

    def printed(self) -> Request:
        instances = [[name, self.nodes[name].group, self.nodes[name].is_drained] for name in self.listed()]
        shards = [[self.printed_one(shard, name) for name in self.members(shard)] for shard in range(len(self.shards))]
        return {"version": self.version, "placement": {"instances": instances, "rf": self.rf, "shards": shards}}

    def printed_one(self, shard: int, name: str) -> list:
        one = self.shards[shard][name]
        return [name, one.state, one.tenure] + ([one.source] if one.source is not None else [])


def first_place(rf: int, shards: int, nodes: list[tuple[str, str]]) -> Place:
    """Shard by shard and replica by replica the least loaded node whose group doesn't have the shard yet, the first of these by name."""
    place = Place(rf, {name: Node(group) for name, group in nodes}, [])
    if len({group for _, group in nodes}) < rf:
        raise Refused("group", shard=0)
    for _ in range(shards):
        place.shards.append({})
        for _ in range(rf):
            groups = [place.nodes[name].group for name in place.shards[-1]]
            free = [name for name in place.listed() if place.nodes[name].group not in groups]
            place.shards[-1][min(free, key=place.load)] = Assignment(AVAILABLE, 1)
    return place


# ---- what is in the way

def demand_order(place: Place, request: Request, kept: int) -> None:
    """A node that is to be listed isn't, and one that is to be there is; and so many placements are kept that there is room for one more."""
    new = {"add": "node", "replace": "by"}.get(request["op"])
    if new and place.is_listed(request[new]):
        raise Refused("order")
    if request["op"] != "add" and not place.is_listed(request["node"]):
        raise Refused("unknown", name=request["node"])
    if new and request[new] not in place.nodes and len(place.nodes) == MOST_NODES:
        raise Refused("limit", limit=MOST_NODES)
    if kept == MOST_VERSIONS:
        raise Refused("limit", limit=MOST_VERSIONS)


def demand_steady(place: Place, name: str) -> None:
    for shard in place.shards_of(name):
        joining = place.joining(shard)
        if joining is not None:
            raise Refused("busy", node=joining, shard=shard)


# ---- the plans, each made of a copy with the next version

def add(place: Place, request: Request) -> None:
    name = request["node"]
    place.nodes[name] = Node(request["group"])
    while (found := giver(place, name)) is not None:
        source, shard = found
        place.move(shard, source, name)


def giver(place: Place, name: str) -> tuple[str, int] | None:
    """The node that gives a shard to the new one, and this shard."""
    givers = [it for it in place.listed() if place.load(it) >= place.load(name) + 2]
    for source in sorted(givers, key=lambda it: (-place.load(it), it.encode())):
        for shard in place.shards_of(source):
            if place.joining(shard) is None and place.may_take(name, shard, source):
                return source, shard
    return None


def drain(place: Place, request: Request) -> None:
    name = request["node"]
    demand_steady(place, name)
    for shard in place.shards_of(name):
        takers = [it for it in place.listed() if place.may_take(it, shard, name)]
        if not takers:
            raise Refused("group", shard=shard)
        place.move(shard, name, min(takers, key=lambda it: (place.load(it), it.encode())))
    place.nodes[name].is_drained = True


def replace(place: Place, request: Request) -> None:
    name, by, group = request["node"], request["by"], request["group"]
    demand_steady(place, name)
    for shard in place.shards_of(name):
        if group in [place.nodes[other].group for other in place.shards[shard] if other != name]:
            raise Refused("group", shard=shard)
    place.nodes[by] = Node(group)
    for shard in place.shards_of(name):
        place.move(shard, name, by)
    place.nodes[name].is_drained = True


def cancel(place: Place, request: Request) -> None:
    for shard in place.shards_of(request["node"]):
        one = place.shards[shard][request["node"]]
        if one.state == JOINING:
            del place.shards[shard][request["node"]]
            place.shards[shard][one.source].state = AVAILABLE
            place.nodes[one.source].is_drained = False


def remove(place: Place, request: Request) -> None:
    name = request["node"]
    for shard in place.shards_of(name):
        raise Refused("busy", node=name, shard=shard)
    place.nodes[name].is_listed = False


PLANS = {"add": add, "drain": drain, "cancel": cancel, "remove": remove, "replace": replace}


def next_place(place: Place, request: Request, kept: int) -> Place:
    demand_order(place, request, kept)
    made = deepcopy(place)
    made.version += 1
    PLANS[request["op"]](made, request)
    return made


def ended(place: Place, name: str, shards: list[int]) -> Place:
    """The moves of these shards to the node are over: it has them, and the nodes from which it took them over haven't."""
    made = deepcopy(place)
    made.version += 1
    for shard in shards:
        one = made.shards[shard][name]
        del made.shards[shard][one.source]
        made.shards[shard][name] = Assignment(AVAILABLE, one.tenure)
    return made
