"""Random scripts of request lines. `tools/oracle.py` says what this is for.

A script is drawn from one number. Most of its lines are in the grammar, with names, identifiers and times that meet often and
times at the edges of windows and retentions; some are spoilt in one of many ways.
"""
import json
import random
from typing import Any

Request = dict[str, Any]

NAMES = ["a", "b", "c", "d", "e", "B", "ab", "a-", "_", "-", "0", "1", "10", "node-" + "9" * 27, "Z", "a_b"]
MORE_NAMES = ["s0", "s1", "s2"]
NO_NAMES = ["", " ", "a b", "é", "a.b", "\"", "\\", "a\n", "\u0000", "x" * 33, "ⅷ", "٣", "~", "a ", "/"]
GROUPS = ["g1", "g2", "g3", "g4", "g5", "G" * 32, "a"]
SPACES = ["m", "n", "M", "long-" + "s" * 27, "m_", "0", "1", "2", "3", "4", "a"]
IDS = ["hello", "h", "H", "\b\f\n\r\t\u001f\u007f\u2028/", "x=1", " ", "é", "\u0000", "z" * 512, "}", "\"q\"", "𐐷", '{dc="x"}',
       '{dc="y"}', '{dc="x",host="h1"}', '{dc="x",host="h2"}', '{dc="y",host="h1"}', '{_="",a1="\\"\\\\"}', '{dc="é,=}"}',
       '{A="1",a="2"}', '{dc=""}',
       "{" + ",".join(f'k{at:02}="{at}"' for at in range(32)) + "}"]
NO_IDS = ["", "{", "{}", "{dc}", '{dc="x"', '{dc="x"} ', '{dc="x",}', '{dc="x",dc="y"}', '{host="h1",dc="x"}', '{1a="x"}', '{dc="\\n"}',
          '{dc="x""}', '{dc= "x"}', '{ dc="x"}', '{dé="x"}', '{="x"}', "z" * 513, "é" * 257, '{dc="\\"}', "{dc=x}", '{a="1",A="2"}',
          "{" + ",".join(f'k{at:02}="{at}"' for at in range(33)) + "}", '{dc="' + "z" * 506 + '"}', "{{}}"]
MATCHERS = [["dc", "=", "x"], ["dc", "=", "y"], ["dc", "!=", "x"], ["host", "=", "h1"], ["host", "!=", "h1"], ["dc", "=", ""],
            ["dc", "!=", ""], ["_", "=", ""], ["a1", "=", "\"\\"], ["nope", "!=", "é"], ["k31", "=", "31"], ["a", "=", "2"]]
LEVELS = ["one", "majority", "all", "unstrict"]
EDGES = [-1, 0, 1, 0.5, 1.0, 1e3, -0.0, True, None, "", "1", [], {}, [[]], 2**31, 2**32 - 1, 2**32, 2**40 - 1, 2**40, 2**62 - 1, 2**62,
         2**63 - 1, 2**63, -2**63, -2**63 - 1, 2**64, 10**40, 5, 6, 8, 9, 16, 17, 63, 64, 65, "one", "late", "x" * 32, "x" * 33,
         ["a"], [["a", "g"]], [["a", "g", "h"]], "later", "{"]
OTHER_OPS = ["add", "drain", "cancel", "remove", "replace", "tick", "flush", "snapshot", "repair", "status", "par", "", "Write", "write ",
             "put", "delete", "nop", "\u0000", 1, None, [], ["write"], {"op": "write"}]
RAW = [b"{}", b"[]", b"null", b"1", b'"write"', b"{", b"}", b"[1,2", b'{"op":"deliver"}}', b'{"op":"deliver"} x', b"{'op':'deliver'}",
       b'{"op":"deliver",}', b'{,"op":"deliver"}', b'{"op" "deliver"}', b'{op:"deliver"}', b'\xef\xbb\xbf{"op":"deliver"}',
       b'\x0c{"op":"deliver"}', b'{"op":"deliver"}\x00', b'{"op":"now","now":01}', b'{"op":"now","now":+1}', b'{"op":"now","now":1.}',
       b'{"op":"now","now":.5}', b'{"op":"now","now":-}', b'{"op":"now","now":0x1}', b'{"op":"now","now":NaN}',
       b'{"op":"now","now":Infinity}', b'{"op":"now","now":1e999}', b'{"op":"now","now":1E0}', b'{"op":"now","now":-0}',
       b'{"op":"now","now":9' + b"9" * 400 + b"}", b'{"op":"stop","node":"\xff"}', b'{"op":"stop","node":"\xc0\x80"}',
       b'{"op":"stop","node":"\xed\xa0\x80"}', b'{"op":"stop","node":"\t"}', b'{"op":"stop","node":"\\ud800"}',
       b'{"op":"stop","node":"\\udc00\\ud800"}', b'{"op":"stop","node":"\\x41"}', b'{"op":"stop","node":"\\u00e"}',
       b'{"op":"stop","node":"\\ud801\\udc37"}', b'{"op":"stop","node":"\\u0061"}', b'{"\\u006fp":"deliver"}', b'{"op":"deliver","x":1}',
       b'{"op":"deliver","\\ud800":1}', b'{"op":"stop","op":"deliver"}', b'{"op":"deliver","op":"stop"}', b'{"op":"deliver","op":1}',
       b'{"op":1,"op":"deliver"}', b'{"op":"now","now":"x","now":0}', b'{"op":"now","now":0,"now":"x"}', b'\r{"op":"deliver"}\r',
       b' \t{ "op"\t:\r"deliver" } ', b'{"op":"deliver"}//', b'{"op":"stop","node":"a\\/b"}', b'{"op":"deliver","":0}']
BLANKS = [b"", b" ", b"\t", b"\r", b" \t\r \r"]


class Script:
    """One script in the making: what it knows of the cluster only serves to make lines that meet."""

    def __init__(self, number: int):
        self.dice = random.Random(number)
        self.rf = self.dice.choice([1, 2, 3, 3, 3, 4, 5])
        self.nodes = self.dice.sample(NAMES, self.dice.choice([self.rf, self.rf, self.rf + 1, self.rf + 2, 16]))
        self.shards = self.dice.choice([1, 1, 1, 2, 2, 3, 3, 4, 7, 64])
        self.spaces = self.dice.sample(SPACES, self.dice.choice([1, 2, 3]))
        self.windows: dict[str, Request] = {}
        self.now = 0
        self.ids = self.dice.sample(IDS, self.dice.choice([1, 1, 2, 3, 8]))
        self.times: list[int] = [0]
        self.unrest = self.dice.choice([0.0, 0.0, 0.03, 0.1, 0.3])
        self.versions = 1
        self.joins: list[str] = []

    # ---- lines in the grammar

    def init(self) -> Request:
        more = max(len(self.nodes) - self.rf, 0)
        groups = self.dice.sample(GROUPS, self.rf) + self.dice.choices(GROUPS, k=more)
        if self.dice.random() < 0.05:
            groups[0] = groups[-1]
        self.dice.shuffle(groups)
        seed = self.dice.choice([0, 1, 7, 2**32 - 1, self.dice.randrange(2**32)])
        nodes = [list(pair) for pair in zip(self.nodes[:16], groups)]
        return {"op": "init", "rf": self.rf, "shards": self.shards, "seed": seed, "nodes": nodes}

    def namespace(self, name: str) -> Request:
        block = self.dice.choice([1, 2, 10, 200, 200, 200, 200, 2**40 - 1])
        past, future = (self.dice.choice([0, 1, block // 2, block - 1, block - 1, block - 1]) for _ in range(2))
        retention = min(self.dice.choice([block, block + 1, 2 * block, 3 * block]), 2**40 - 1)
        line = {"op": "namespace", "name": name, "block": block, "past": min(past, block - 1), "future": min(future, block - 1),
                "retention": retention}
        self.windows.setdefault(name, dict(line))
        return line

    def space(self) -> str:
        return self.dice.choice(self.spaces if self.dice.random() < 0.97 else SPACES)

    def node(self) -> str:
        return self.dice.choice(self.nodes if self.dice.random() < 0.97 else NAMES)

    def edge(self, space: str) -> int:
        """A time at an edge of a window or of a retention, or one that was used before."""
        window = self.windows.get(space, {"past": 0, "future": 0, "retention": 0})
        edges = [self.now - window["past"], self.now + window["future"], self.now - window["retention"], self.dice.choice(self.times)]
        at = self.dice.choice(edges) + self.dice.choice([-1, 0, 0, 1, 1, 2]) if self.dice.random() < 0.3 else self.now
        return min(max(at, 0), 2**62 - 1)

    def advance(self) -> Request:
        window = self.windows.get(self.dice.choice(self.spaces), {"block": 1, "past": 0, "retention": 0})
        used = self.dice.choice(self.times)
        end = used - used % window["block"] + window["block"]
        edges = [used + window["retention"], end + window["past"], end + window["retention"]]
        steps = [self.now, self.now + 1, self.now + 1, self.now + self.dice.randint(0, 20), self.now - 1, *edges, self.dice.choice(edges) - 1]
        moment = max(self.dice.choice(steps), 0)
        if self.dice.random() < 0.01:
            moment = 2**62 - 1
        self.now = max(self.now, moment) if moment < 2**62 else self.now
        return {"op": "now", "now": moment}

    def call(self) -> Request:
        space = self.space()
        op = self.dice.choice(["write", "write", "write", "fetch", "match"])
        line: Request = {"op": op, "ns": space}
        if op == "write":
            line |= {"id": self.dice.choice(self.ids), "t": self.edge(space), "v": self.dice.choice([0, 1, 2, -1, 2**63 - 1, -2**63])}
            self.times.append(line["t"])
        else:
            at = self.edge(space)
            last = self.dice.choice([2**62 - 1, 2**62 - 1, self.edge(space), at + 1, at])
            line |= {"from": self.dice.choice([0, 0, 0, at]), "to": min(last, 2**62 - 1)}
            if op == "fetch":
                line["id"] = self.dice.choice(self.ids)
            else:
                line["where"] = self.dice.choices(MATCHERS, k=self.dice.choice([0, 0, 0, 1, 2, 16]))
        if self.dice.random() < 0.6:
            line["level"] = self.dice.choice(LEVELS[:3] if op == "write" else [*LEVELS, "unstrict"])
        if self.dice.random() < (0.3 if self.unrest else 0.03):
            line["version"] = self.dice.choice([0, 1, self.versions // 2, self.versions - 1, self.versions, self.versions + 1, 2**62 - 1])
        return line

    def fates(self) -> Request:
        items = {}
        for _ in range(self.dice.choice([0, 2, 4, 8, 16, 32])):
            node = self.dice.choice(self.nodes * 20 + NAMES)
            key = (self.dice.choice([0] * 9 + [1, 8]), self.dice.choice([0, 1, 2, 3, 4, 5, 9]), node)
            items[key] = [*key, self.dice.choice(["lose", "lose", "late", "late", "twice"])]
        return {"op": "fates", "list": list(items.values())}

    def node_line(self) -> Request:
        op = self.dice.choice(["stop", "stop", "restart", "restart", "restart", "bootstrap", "bootstrap"])
        line: Request = {"op": op, "node": self.node()}
        if op == "restart" and self.dice.random() < 0.3:
            line["pick"] = self.dice.choice([0, 1, 228, 2**62 - 1])
        if op == "bootstrap" and self.dice.random() < 0.6:
            line["shard"] = self.dice.choice([0, 0, 0, 1, 1, 2, self.shards - 1, self.shards, 63]) % 64
        return line

    def place_line(self) -> Request:
        """A line that makes a placement, of nodes that were named before or of new ones."""
        op = self.dice.choice(["add", "add", "drain", "drain", "cancel", "cancel", "cancel", "remove", "replace", "replace"])
        new, group = self.dice.choice(NAMES + MORE_NAMES), self.dice.choice(GROUPS)
        self.versions += 1
        if op in ("add", "replace"):
            self.nodes += [new] * (new not in self.nodes)
            self.joins.append(new)
        if op == "add":
            return {"op": op, "node": new, "group": group}
        line: Request = {"op": op, "node": self.node()}
        return line | {"by": new, "group": group} if op == "replace" else line

    def request(self) -> Request:
        draw = self.dice.random()
        if self.dice.random() < self.unrest:
            return self.place_line()
        if self.joins and self.dice.random() < 0.08:
            return {"op": "bootstrap", "node": self.dice.choice(self.joins[-2:])}
        if draw < 0.52:
            return self.call()
        if draw < 0.62:
            return self.advance()
        if draw < 0.70:
            return self.fates()
        if draw < 0.74:
            return {"op": "deliver"}
        if draw < 0.84:
            return self.node_line()
        if draw < 0.96:
            return {"op": self.dice.choice(["tick", "flush", "flush", "snapshot", "status", "status"])}
        return self.init() if draw < 0.97 else self.namespace(self.dice.choice(SPACES))

    # ---- spoilt lines

    def spoilt(self) -> bytes:
        """A line that is out of the grammar, or barely in it."""
        line = self.request()
        key = self.dice.choice(list(line))
        match self.dice.randrange(8):
            case 0:
                return self.dice.choice(RAW)
            case 1:
                del line[key]
            case 2:
                line[self.dice.choice(["level", "version", "pick", "shard", "x", "", "ns", "Op"])] = self.dice.choice(EDGES)
            case 3 | 4:
                line[key] = self.dice.choice(EDGES + OTHER_OPS + NO_NAMES)
            case 5:
                line = self.with_id()
            case 6:
                line = self.with_list()
            case 7:
                text = self.spelt(line)
                return text[:self.dice.randrange(1, len(text))] if self.dice.random() < 0.5 else self.flipped(text)
        return self.spelt(line)

    def flipped(self, text: bytes) -> bytes:
        at = self.dice.randrange(len(text))
        return text[:at] + bytes([self.dice.randrange(256)]).replace(b"\n", b" ") + text[at + 1:]

    def with_id(self) -> Request:
        return {"op": "write", "ns": self.space(), "id": self.dice.choice(NO_IDS), "t": self.edge("m"), "v": 0}

    def with_list(self) -> Request:
        """A line whose list is wrong in one of its items, or too long."""
        dice = self.dice
        match dice.randrange(6):
            case 0:
                nodes = [[f"n{at}", f"g{at}"] for at in range(dice.choice([0, 1, 16, 17]))]
                return self.init() | {"nodes": nodes}
            case 1:
                second = dice.choice([["a", "h"], ["b", "g"], ["b", ""], ["b"], "b", ["b", "ü"]])
                return self.init() | {"nodes": [["a", dice.choice(["g", "h"])], second]}
            case 2:
                wrong = [["", "=", "x"], ["1", "=", "x"], ["dc", "~", "x"], ["dc", "=", 1], ["dc", "="], ["é", "=", "x"],
                         ["dc", "=", "x" * 600]]
                return {"op": "match", "ns": self.space(), "from": 0, "to": 9, "where": [dice.choice(wrong)]}
            case 3:
                return {"op": "match", "ns": self.space(), "from": 0, "to": 9, "where": [["dc", "!=", "q"]] * dice.choice([16, 17])}
            case 4:
                node = self.node()
                wrong = [[0, 0, node, "lost"], [9, 0, node, "lose"], [0, 2**62, node, "lose"], [0, -1, node, "late"], [0, 0, "", "late"],
                         [0, 0, node], [0, 0, "nobody", "twice"], [0, 2**62 - 1, node, "twice"]]
                return {"op": "fates", "list": [[0, 0, node, "late"], dice.choice(wrong)]}
            case _:
                items = [[0, at, self.nodes[0], "late"] for at in range(dice.choice([1023, 1024, 1025]))]
                return {"op": "fates", "list": items}

    # ---- bytes

    def spelt(self, line: Request) -> bytes:
        keys = list(line)
        if self.dice.random() < 0.3:
            self.dice.shuffle(keys)
        spaces = self.dice.choice([(",", ":")] * 4 + [(", ", ": "), (" ,\t", "\r: ")])
        return json.dumps({key: line[key] for key in keys}, ensure_ascii=self.dice.random() < 0.3, separators=spaces).encode()

    def lines(self, wrong: float) -> list[bytes]:
        lines = [self.spelt(self.init())] if self.dice.random() < 0.97 else []
        lines += [self.spelt(self.namespace(name)) for name in self.spaces]
        for _ in range(self.dice.choice([5, 20, 40, 60])):
            draw = self.dice.random()
            lines.append(self.spoilt() if draw < wrong else self.dice.choice(BLANKS) if draw > 0.98 else self.spelt(self.request()))
        return lines


# ---- scripts that no chance would make

INIT = b'{"op":"init","rf":2,"shards":3,"seed":9,"nodes":[["a","g"],["b","h"]]}'
SPACE = b'{"op":"namespace","name":"%s","block":9,"past":8,"future":8,"retention":9}'
WRITE = b'{"op":"write","ns":"m","id":"x%d","t":0,"v":1,"level":"one"}'
FETCH = b'{"op":"fetch","ns":"m","id":"x0","from":0,"to":1}'


def too_many_late() -> list[bytes]:
    """More late writes than are held back."""
    fates = json.dumps({"op": "fates", "list": [[0, at, "b", "late"] for at in range(1024)]}).encode()
    rounds = 4 * [fates, *(WRITE % (at % 100) for at in range(1024))]
    deliver = b'{"op":"deliver"}'
    return [INIT, SPACE % b"m", *rounds, fates, WRITE % 7, WRITE % 8, deliver, fates, WRITE % 7, deliver, FETCH]


def too_many_spaces() -> list[bytes]:
    return [INIT, *(SPACE % name for name in (b"0", b"1", b"2", b"3", b"4", b"5", b"6", b"7", b"8", b"7", b"9", b""))]


def deep_lines() -> list[bytes]:
    nested = [b"[" * depth + b"]" * depth for depth in (1, 126, 127, 128, 2000)]
    lines = [b'{"op":"%s","x":%s}' % (op, it) for op in (b"par", b"deliver") for it in nested]
    return [INIT, *lines, b'{"op":"par","x":"%s"}' % (b"[" * 999)]


def long_lines() -> list[bytes]:
    """Lines beyond 65,536 bytes: one that is put off, one of blanks, a match with long values, and one that is wrong."""
    value = b"v" * 40000
    match = b'{"op":"match","ns":"m","from":0,"to":1,"where":[["a","=","%s"],["b","!=","%s"]]}' % (value, value)
    others = [b'{"op":"par","x":"%s"}' % (2 * value), b" " * 70000, b'{"op":"stop","node":"%s"}' % (2 * value)]
    return [INIT, SPACE % b"m", *others, match, FETCH]


def partly_back() -> list[bytes]:
    """Nodes that serve some of their shards again: what comes short is another shard than the last. Then one is stopped twice."""
    init = b'{"op":"init","rf":3,"shards":3,"seed":1,"nodes":[["a","g"],["b","h"],["c","i"]]}'
    away = [b'{"op":"%s","node":"%s"}' % (op, node) for node in (b"a", b"b") for op in (b"stop", b"restart")]
    back = [b'{"op":"bootstrap","node":"%s","shard":%d}' % (node, shard) for shard in (2, 1, 0) for node in (b"a", b"b")]
    reads = [b'{"op":"match","ns":"m","where":[],"from":0,"to":1,"level":"%s"}' % level.encode() for level in LEVELS]
    again = [*away[:2], away[0], WRITE % 3, *reads, away[1], WRITE % 3, *reads]  # stopped before it was back
    return [init, SPACE % b"m", *(WRITE % at for at in range(9)), *away, *(line for one in back for line in (one, *reads)), *again]


STATUS = b'{"op":"status"}'


def full_segments() -> list[bytes]:
    """Logs filled to the last byte of a segment, and not quite; nodes that start again begin another one."""
    init = b'{"op":"init","rf":1,"shards":1,"seed":0,"nodes":[["a","g"]]}'
    level = b'{"op":"write","ns":"m","id":"%s","t":0,"v":1,"level":"one"}'
    again = [b'{"op":"%s","node":"a"}' % op for op in (b"stop", b"restart")] + [STATUS, b'{"op":"bootstrap","node":"a"}', STATUS]
    most = [level % (b"%03d" % at + b"z" * 509) for at in range(121)]  # 14 and 121 times 539 bytes, of 65,536
    last = [level % (b"z" * size) for size in (276, 1)]  # 303 bytes just fill it
    more = [level % (b"z" * 277), STATUS, *most[:120], STATUS, level % (b"y" * 512), STATUS]
    return [init, SPACE % b"m", STATUS, *most, STATUS, last[0], STATUS, last[1], STATUS, *again, *most, STATUS, *more, *again, *again]


def cut_logs() -> list[bytes]:
    """Logs of some segments, cut by snapshots, also where little or nothing is in memory; what was dropped or flushed before stays so."""
    init = b'{"op":"init","rf":3,"shards":1,"seed":0,"nodes":[["a","g"],["b","h"],["c","i"]]}'
    space = b'{"op":"namespace","name":"m","block":10,"past":5,"future":5,"retention":20}'
    write = b'{"op":"write","ns":"m","id":"%s","t":%d,"v":%d}'
    read = b'{"op":"match","ns":"m","where":[],"from":0,"to":99,"level":"one"}'
    tick, flush, snapshot = b'{"op":"tick"}', b'{"op":"flush"}', b'{"op":"snapshot"}'
    away = [b'{"op":"%s","node":"b"}' % op for op in (b"stop", b"restart")]
    again = [away[0], snapshot, STATUS, away[1], snapshot, STATUS, b'{"op":"bootstrap","node":"b"}', STATUS, read]
    lines = [init, space, snapshot, STATUS, *again]
    for moment in range(0, 60, 3):
        lines += [b'{"op":"now","now":%d}' % moment, *(write % (b"%02d" % at + b"z" * 509, moment, at) for at in range(moment % 7 * 20))]
        lines += [(flush, tick, snapshot)[moment // 3 % 3], STATUS, write % (b"y", moment, moment), snapshot, *again, tick, flush, STATUS, read]
    return lines


def upkeep_again() -> list[bytes]:
    """What ticks dropped is in memory again once a node starts again: flushes and ticks count it anew. Others are without it."""
    init = b'{"op":"init","rf":3,"shards":1,"seed":0,"nodes":[["a","g"],["b","h"],["c","i"]]}'
    space = b'{"op":"namespace","name":"m","block":10,"past":5,"future":5,"retention":20}'
    write = b'{"op":"write","ns":"m","id":"x%d","t":%d,"v":%d}'
    read = b'{"op":"match","ns":"m","where":[],"from":0,"to":99,"level":"one"}'
    tick, flush = b'{"op":"tick"}', b'{"op":"flush"}'
    each = [it for op in (flush, tick) for it in (op, STATUS, read)]
    again = [b'{"op":"%s","node":"b"}' % op for op in (b"stop", b"restart", b"bootstrap")]
    lines = [init, space, STATUS, *each]
    for moment in range(0, 48, 2):
        lines += [b'{"op":"now","now":%d}' % moment, write % (moment % 3, moment, moment), write % (0, max(moment - 4, 0), 99), *each]
        if moment % 6 == 0:
            lines += [*again, STATUS, *each, again[0], tick, STATUS, again[1], flush, STATUS, again[2], STATUS]
    return lines


def many_versions() -> list[bytes]:
    """As many versions as are kept, and calls at the edges of what is kept, with late messages to nodes that leave and that join."""
    init = b'{"op":"init","rf":3,"shards":1,"seed":0,"nodes":[["a","g"],["b","h"],["c","i"]]}'
    write, fetch = b'{"op":"write","ns":"m","id":"x","t":0,"v":%d,"version":%d}', b'{"op":"fetch","ns":"m","id":"x","from":0,"to":9,"version":%d}'
    fates = json.dumps({"op": "fates", "list": [[0, at, node, "late"] for at in range(9) for node in ("a", "d")]}).encode()
    begin, back, away = (b'{"op":"replace","node":"a","by":"d","group":"g"}', b'{"op":"cancel","node":"d"}', b'{"op":"remove","node":"d"}')
    same, busy = b'{"op":"cancel","node":"a"}', [b'{"op":"cancel","node":"nobody"}', b'{"op":"drain","node":"b"}', b'{"op":"remove","node":"a"}']
    lines = [init, SPACE % b"m"]
    for version in range(2, 1030):
        lines.append({0: begin, 1: back, 2: away}.get(version % 20, same))
        if version % 20 == 0:
            lines.append(fates)
        if version % 100 < 3 or version > 1019:
            near = (0, 1, version - 1, version, version + 1)
            lines += [*(write % (at % 7, at) for at in near), *(fetch % at for at in near), *busy, STATUS]
            lines += [b'{"op":"deliver"}', b'{"op":"bootstrap","node":"d"}']
    return [*lines, begin, away, b'{"op":"add","node":"a","group":"g"}']


def ended_moves() -> list[bytes]:
    """Moves that end one after the other, of more than a page: under late writes, at older versions, with too few peers first, over old files."""
    lines: list[Request] = [{"op": "init", "rf": 3, "shards": 2, "seed": 0, "nodes": [["a", "g0"], ["b", "g1"], ["c", "g2"]]},
                            {"op": "namespace", "name": "m", "block": 10, "past": 9, "future": 9, "retention": 40}]
    have, spare = ["a", "b", "c"], "d"
    for turn in range(15):
        old, other, moment = have[turn % 3], have[(turn + 1) % 3], turn * 3
        fates = [[0, at, have[at % 3], ("late", "lose", "twice")[(at + turn) % 3]] for at in range(0, 60, 2)]
        writes = [{"op": "write", "ns": "m", "id": f"x{at % 5}", "t": moment + at % 8, "v": turn * at % 7} for at in range(50)]
        again = [{"op": op, "node": it} for op in ("stop", "bootstrap", "restart", "bootstrap") for it in (old, other)]
        joins = {"op": "bootstrap", "node": spare}
        lines += [{"op": "now", "now": moment}, {"op": "fates", "list": fates}, *writes[:40], {"op": ("flush", "snapshot", "tick")[turn % 3]}]
        lines += [{"op": "replace", "node": old, "by": spare, "group": f"g{turn % 3}"}, *writes[40:]]
        lines += [*again[:3], joins, *again[4:]] if turn % 4 == 1 else [joins | {"shard": 1}] if turn % 4 == 2 else []
        lines += [joins, {"op": "deliver"}, {"op": "status"}]
        for version in range(max(turn * 3 - 3, 1), turn * 3 + 4):
            lines.append({"op": "match", "ns": "m", "where": [], "from": 0, "to": 99, "version": version})
        lines += [{"op": "match", "ns": "m", "where": [], "from": 0, "to": 99, "level": "one"}, {"op": "remove", "node": old}]
        have[turn % 3], spare = spare, old
    return [json.dumps(it).encode() for it in lines]


def many_names() -> list[bytes]:
    """As many names as there may be, and then names that were removed and new ones, over shards that an added node takes."""
    lines = [b'{"op":"init","rf":2,"shards":9,"seed":0,"nodes":[["a","g1"],["b","g2"]]}']
    for at, name in enumerate(NAMES + MORE_NAMES):
        lines += 2 * [json.dumps({"op": "add", "node": name, "group": f"g{at % 4}"}).encode()]
        lines += [json.dumps({"op": "replace", "node": "b", "by": name, "group": "g2"}).encode(), STATUS]
        lines += [json.dumps({"op": op, "node": it}).encode() for op in ("drain", "cancel", "remove") for it in (name, "a", "b")][:7]
    return lines


BASES: list[Request] = [
    {"op": "init", "rf": 1, "shards": 1, "seed": 0, "nodes": [["a", "g"]]},
    {"op": "namespace", "name": "m", "block": 9, "past": 8, "future": 8, "retention": 9},
    {"op": "now", "now": 0},
    {"op": "write", "ns": "q", "id": "x", "t": 0, "v": 1, "level": "one", "version": 1},
    {"op": "fetch", "ns": "q", "id": "x", "from": 0, "to": 1, "level": "unstrict", "version": 1},
    {"op": "match", "ns": "q", "where": [["a", "=", "b"]], "from": 0, "to": 1, "level": "unstrict", "version": 1},
    {"op": "fates", "list": [[0, 0, "a", "lose"]]},
    {"op": "deliver"},
    {"op": "stop", "node": "q"},
    {"op": "restart", "node": "q", "pick": 0},
    {"op": "bootstrap", "node": "q", "shard": 0},
    {"op": "add", "node": "q", "group": "g"},
    {"op": "drain", "node": "q"},
    {"op": "cancel", "node": "q"},
    {"op": "remove", "node": "q"},
    {"op": "replace", "node": "q", "by": "r", "group": "g"},
    *({"op": op} for op in ("tick", "flush", "snapshot", "repair", "status"))]
FATES = [[0, 0, "a", "late"], [0, 0, "a", "lose"], [0, 1, "a", "late"], [1, 0, "a", "late"], [0, 0, "b", "late"]]


def edge_lines() -> list[bytes]:
    """Each field of each op with each value of a list that has the edges of all fields, without it, and with one more."""
    lines = [INIT]
    for base in BASES:
        for key in base:
            values = EDGES + NO_NAMES + LEVELS + ["lost", "late"] + (NO_IDS + IDS if key == "id" else [])
            changed = [base | {key: value} for value in values]
            changed += [{other: base[other] for other in base if other != key}, base | {"x" + key: 0}]
            lines += [json.dumps(line).encode() for line in changed]
        lines += [json.dumps({key: base[key] for key in base if key != "version"} | {"level": level}).encode() for level in LEVELS]
    lines += [json.dumps({"op": "fates", "list": [[client, 0, "a", "lose"]]}).encode() for client in range(-1, 11)]
    lines += [json.dumps({"op": "fates", "list": [one, other]}).encode() for one in FATES for other in FATES]
    return lines


def all_ids() -> list[bytes]:
    """Each identifier written and read: how texts are printed, and in which order series come."""
    write = [json.dumps({"op": "write", "ns": "m", "id": it, "t": 0, "v": at}).encode() for at, it in enumerate(IDS)]
    where = [json.dumps({"op": "match", "ns": "m", "where": [it], "from": 0, "to": 1}).encode() for it in MATCHERS]
    return [INIT, SPACE % b"m", *write, b'{"op":"match","ns":"m","where":[],"from":0,"to":1}', *where]


def raw_lines() -> list[bytes]:
    return [*RAW, INIT, *BLANKS, *RAW]


FIXED = [too_many_late, too_many_spaces, deep_lines, long_lines, partly_back, edge_lines,
         all_ids, raw_lines, full_segments, upkeep_again, cut_logs, many_versions, many_names, ended_moves]


def script(number: int) -> bytes:
    """The script of this number: the first few are fixed. Of the others half have few wrong lines, a quarter mostly such."""
    if number < len(FIXED):
        return b"\n".join(FIXED[number]()) + b"\n"
    made = Script(number)
    lines = made.lines(made.dice.choice([0.0, 0.02, 0.1, 0.6]))
    return b"\n".join(lines) + made.dice.choice([b"\n", b"\n", b"\n", b""])


def runs(number: int) -> list[bytes]:
    """The scripts of up to four runs over the same disks: lines of this number, cut; behind each cut most nodes are bootstrapped first."""
    made = Script(number)
    lines = made.lines(made.dice.choice([0.0, 0.02, 0.1]))
    cuts = sorted(made.dice.choices(range(len(lines) + 1), k=made.dice.choice([1, 1, 2, 3])))
    parts = [lines[begin:end] for begin, end in zip([0, *cuts], [*cuts, len(lines)])]
    for part in parts[1:]:
        part[:0] = [made.spelt({"op": "bootstrap", "node": node}) for node in made.nodes if made.dice.random() < 0.9]
    return [b"".join(line + b"\n" for line in part) for part in parts]


def generated(number: int) -> bytes:
    """The script that `generate` and this number name, a line for each request."""
    state = number

    def draw() -> int:
        nonlocal state
        state = (state * 6364136223846793005 + 1442695040888963407) % 2**64
        return state >> 33

    made: list[Request] = [{"op": "init", "rf": 3, "shards": 8, "seed": 0, "nodes": [["a", "g1"], ["b", "g2"], ["c", "g3"]]},
                           {"op": "namespace", "name": "m", "block": 200, "past": 100, "future": 50, "retention": 10_000}]
    for now in range(1, 501):
        made.append({"op": "now", "now": now})
        for _ in range(10):
            made.append({"op": "write", "ns": "m", "id": f"s{draw() % 100}", "t": now, "v": draw() % 1000})
        if now == 250:
            made += [{"op": "replace", "node": "c", "by": "d", "group": "g3"}, {"op": "bootstrap", "node": "d"}]
        if now % 100 == 0:
            made += [{"op": "flush"}, {"op": "snapshot"}]
    made.append({"op": "match", "ns": "m", "where": [], "from": 0, "to": 501})
    return b"".join(json.dumps(it).encode() + b"\n" for it in made)
