"""Tests of the rules of lives (oracle_lives.py), which `tools/check_tools` runs: a life that keeps them, and what is edited in its replies so that one is
broken. `tools/oracle.py` says what the rules are for.
"""
import json
import unittest

from oracle_lines import Request
from oracle_lives import Broken, Life, looked_at
from oracle_model import replies_of_runs

NODES = [["a", "1"], ["b", "2"], ["c", "3"]]
WRITE = {"op": "write", "ns": "m", "id": "up", "t": 100}
READ = {"op": "fetch", "ns": "m", "id": "up", "from": 0, "to": 1000}


def boot(nodes: str) -> list[Request]:
    return [{"op": "status"}, *({"op": "bootstrap", "node": node} for node in nodes), {"op": "status"}]


RUNS = [
    [{"op": "init", "rf": 3, "shards": 1, "seed": 0, "nodes": NODES},
     {"op": "namespace", "name": "m", "block": 60, "past": 50, "future": 50, "retention": 60}, {"op": "now", "now": 100}, {**WRITE, "v": 5}],
    [*boot("abc"), {"op": "now", "now": 110}, {"op": "stop", "node": "a"}, {"op": "replace", "node": "a", "by": "d", "group": "1"},
     {"op": "bootstrap", "node": "d"}, {"op": "fates", "list": [[0, 0, "b", "lose"], [0, 0, "c", "lose"]]}, {**WRITE, "v": 3}],
    [*boot("bcd"), READ, {"op": "now", "now": 105}, {"op": "now", "now": 160}, READ],
]

# What is told, what stands in its place, and the rule that it breaks.
LIES = [
    ('"points":[[100,5]]', '"points":[[100,3]]', "what was acknowledged is read"),
    ('"series":[{"id":"up","points":[[100,5]]}]', '"series":[]', "what was acknowledged is read"),
    ('"points":[[100,5]]', '"points":[[100,6]]', "nothing is read that no write sent"),
    ('"points":[[100,5]]', '"points":[[100,5],[100,5]]', "points are in order"),
    ('{"id":"up","points":[[100,5]]}', '{"id":"up","points":[[100,5]]},{"id":"x","points":[[100,5]]}', "no other series is read"),
    ('"series":[],', '"series":[{"id":"up","points":[[100,5]]}],', "none has expired"),
    ('"now":110', '"now":100', "the moment is one that was set"),
    ('"version":3}\n{"available":[],', '"version":2}\n{"available":[],', "no placement is lost"),
    ('"d","initializing",2', '"d","initializing",1', "no tenure is given twice"),
    ('[[0,["b","c"]]]', '[[0,["b"]]]', "a majority streamed"),
    ('[[0,["b","c"]]]', '[[0,["b","b"]]]', "each once"),
    ('[[0,["b","c"]]]', '[[0,["b","d"]]]', "peers are former replicas"),
    ('[[0,["b","c"]]]', '[[0,["a","b"]]]', "of nodes that run"),
    ('[[0,["b","c"]]]', "[]", "who turns available joined"),
    ('"fence":2', '"fence":9', "no fence is above the version"),
    ('"got":1', '"got":2', "fewer than were needed"),
    ('"got":1', '"got":0', "names each of the others"),
    ('[["b","cut"],["c","cut"]]', '[["a","cut"],["c","cut"]]', "names each of the others"),
    ('"cut"', '"memory"', "memory was never wanted"),
]


class LivesTests(unittest.TestCase):
    def setUp(self) -> None:
        scripts = [b"".join(json.dumps(it).encode() + b"\n" for it in run) for run in RUNS]
        self.life = Life("", scripts, [[0] * 11] * 2)
        self.told = b"".join(b"> ended Done faults=0\n" + b"".join(replies) for replies in replies_of_runs(scripts)).decode()

    def test_a_life_that_keeps_them(self) -> None:
        rules = looked_at(self.life, self.told.encode())
        self.assertEqual((rules.reads, rules.kept, rules.moves), (2, 1, 1))

    def test_a_lie_is_noticed(self) -> None:
        for old, new, rule in LIES:
            with self.subTest(old=old, new=new):
                self.assertIn(old, self.told)
                with self.assertRaisesRegex(Broken, rule):
                    looked_at(self.life, self.told.replace(old, new).encode())

    def test_a_request_without_reply_may_be_done(self) -> None:
        at = self.told.index('{"available":[[0,["b","c"]]]')
        begin, last = self.told.index("> ended", 1), self.told.rindex("> ended")
        second = self.told[begin:at].replace("Done faults=0", "DiskFault faults=1 meta=1", 1)
        self.assertEqual(looked_at(self.life, (self.told[:begin] + second + self.told[last:]).encode()).kept, 1)


if __name__ == "__main__":
    unittest.main()
