"""Tests of the judge (oracle_judge.py), which `tools/check_tools` runs: rows of words with what they are answered, replies that are edited, and wrong
programs. `tools/oracle.py` says what the judge is for, and `oracle_words.py` how words and answers are spelled.
"""
import json
import random
import unittest
from typing import Callable

import oracle_faults
from oracle_judge import Judge, Run, Wrong, judged
from oracle_lines import Request
from oracle_model import Cluster, Work, printed, serve
from oracle_store import Disk, DiskFailed, Points, Reason, Replica
from oracle_words import line, reply

# Words, what they are answered, and the first of these that is wrong, if one is. Each disk may fail nine times.
ROWS = """
i1 nm nn t100 wmuM100=5 rmuM|v1[abc]:ok:ok:ok:abc:u100=5,.|
i1 nm nn t100 wmuM100=5 rmuM|v1[abc]:ok:ok:ok:abc:.|rmuM .
i1 nm nn t100 wmuM100=5 wmuM100=7 rmuM|v1[abc]:ok:ok:ok:abc:bc:u100=5,.|rmuM u100=5,.
i1 nm nn t100 wmuM100=5 wmuA100=7 rmuM|v1[abc]:ok:ok:ok:abc:2/3a~:u100=7,.|
i1 nm nn t100 wmuM100=5 wmuA100=7 rmuM|v1[abc]:ok:ok:ok:abc:2/3a~:u100=5,.|rmuM u100=5,.
i1 nm nn t100 wmuM100=5 rmuM|v1[abc]:ok:ok:ok:abc:u100=6,.|rmuM u100=6,.
i1 nm nn t100 wmuM100=5 wmuM100=6 rmuO|v1[abc]:ok:ok:ok:abc:1/2a~c~:u100=6,.|
i1 nm nn t100 wmuM100=5 rmuM|v1[abc]:ok:ok:ok:abc:u101=5,.|rmuM u101=5,.
i1 nm nn t100 wmuM100=5 rmuM|v1[abc]:ok:ok:ok:abc:x100=5,.|rmuM x100=5,.
i1 nm nn t100 wmuM100=5 rnuM|v1[abc]:ok:ok:ok:abc:u100=5,.|rnuM u100=5,.
i1 nm nn t100 wmuM100=5 rmuM|v1[abc]:ok:ok:ok:abc:u100=5,100=5,.|rmuM u100=5,100=5,.
i1 nm nn t100 wmuM100=5 rmuM100-101 rmuM101-200|v1[abc]:ok:ok:ok:abc:u100=5,.:u100=5,.|rmuM101-200 u100=5,.
i1 nm nn t100 wmuM100=5 t159 rmuM t160 rmuM|v1[abc]:ok:ok:ok:abc:ok:u100=5,.:ok:.|
i1 nm nn t100 wmuM100=5 t159 rmuM|v1[abc]:ok:ok:ok:abc:ok:.|rmuM .
i1 nm nn t100 wmuM100=5 t160 rmuM|v1[abc]:ok:ok:ok:abc:ok:u100=5,.|rmuM u100=5,.
i1 nm nn t100 f00cL,01aL,01bL,02aL,02bL wmuM100=5 rmuO rmuU rmuU|v1[abc]:ok:ok:ok:ok:ab:.:!:.|rmuU .
i1 nm nn t100 f00bL,00cL,01aL wmuO100=5 rmuM rmuA|v1[abc]:ok:ok:ok:ok:a:.:!|rmuA !
i1 nm nn t100 f00bL,00cL,01bL,01cL wmuO100=5 rmuO|v1[abc]:ok:ok:ok:ok:a:u100=5,!|rmuO u100=5,!
i1 nm nn t100 wmxM100=5 wmyM100=6 qm=M qm!M|v1[abc]:ok:ok:ok:abc:abc:x100=5,.:y100=6,.|
i1 nm nn t100 wmxM100=5 wmyM100=6 qm!M|v1[abc]:ok:ok:ok:abc:abc:x100=5,y100=6,.|qm!M x100=5,y100=6,.
i1 nm nn t100 sa wmuM100=5|v1[abc]:ok:ok:ok:ok:ab|wmuM100=5 ab
i1 nm nn t100 wmuA100=5|v1[abc]:ok:ok:ok:ab|wmuA100=5 ab
i1 nm nn t100 wmuM100=5|v1[abc]:ok:ok:ok:ba|wmuM100=5 ba
i1 nm nn t100 wmuM51=5 wmuM50=5|v1[abc]:ok:ok:ok:abc:abc|wmuM50=5 abc
i1 nm nn t100 wnuM119=5 wnuM120=5|v1[abc]:ok:ok:ok:abc:abc|wnuM120=5 abc
i1 nm nn t100 wmuM100=5|v1[abc]:ok:ok:ok:2/2c-|wmuM100=5 2/2c-
i1 nm nn t100 wmuM100=5|v1[abc]:ok:ok:ok:1/2c-|wmuM100=5 1/2c-
i1 nm nn t100 wmuM100=5|v1[abc]:ok:ok:ok:full|wmuM100=5 full
i1 nm nn t100 sa sa ba ba|v1[abc]:ok:ok:ok:ok:=a:~a0:ok|
i1 nm nn t100 sa sa|v1[abc]:ok:ok:ok:ok:ok|sa ok
i1 nm nn t100 ba|v1[abc]:ok:ok:ok:ok|ba ok
i1 nm nn t100 sa oa|v1[abc]:ok:ok:ok:ok:v1[abc]|oa v1[abc]
i1 nm nn t100 oa1|v1[abc]:ok:ok:ok:v1[abc]|oa1 v1[abc]
i1 nm nn t100 sa l k u|v1[abc]:ok:ok:ok:ok:b0c0/a-:b0/a-c~:a-b0.1.0c-|
i1 nm nn t100 sa l|v1[abc]:ok:ok:ok:ok:a0b0c0/|l a0b0c0/
i1 nm nn t100 k|v1[abc]:ok:ok:ok:a0b0/|k a0b0/
i1 nm nn t100 k|v1[abc]:ok:ok:ok:a0b0/cx|k a0b0/cx
i2 nm nn t100 k|v1[abc][abc]:ok:ok:ok:a0b0c0/|k a0b0c0/
i1 nm nn t100 wmuM119=5 t170 l t178 k rmuM|v1[abc]:ok:ok:ok:abc:ok:a1b1c1/:ok:a0b0c0/:.|rmuM .
i1 nm nn t100 sa u|v1[abc]:ok:ok:ok:ok:a^b0.1.0c0.1.0|u a^b0.1.0c0.1.0
i1 nm nn t100 u|v1[abc]:ok:ok:ok:a0.1.0c0.1.0|u a0.1.0c0.1.0
i1 %ad1 od|v1[abc]:v2[a-bcd+]:v3[bcd]0ab|
i1 %ad1 od|v1[abc]:v2[a-bcd+]:v3[bcd]0a|od v3[bcd]0a
i1 %ad1 od|v1[abc]:v2[a-bcd+]:v3[bcd]0aa|od v3[bcd]0aa
i1 %ad1 od|v1[abc]:v2[a-bcd+]:v3[bcd]0bd|od v3[bcd]0bd
i1 %ad1 od|v1[abc]:v2[a-bcd+]:v3[bcd]|od v3[bcd]
i1 %ad1 od|v1[abc]:v2[a-bcd+]:v4[bcd]0ab|od v4[bcd]0ab
i1 %ad1 od|v1[abc]:v2[a-bcd+]:v2[a-bcd+]0ab|od v2[a-bcd+]0ab
i1 %ad1 od|v1[abc]:v2[a-bcd+]:v3[abd]0ab|od v3[abd]0ab
i1 %ad1 ob|v1[abc]:v2[a-bcd+]:v3[bcd]0ab|ob v3[bcd]0ab
i2 %ad1 od0 od|v1[abc][abc]:v2[a-bcd+][a-bcd+]:v3[bcd][a-bcd+]0ab:v4[bcd][bcd]1bc|
i2 %ad1 od|v1[abc][abc]:v2[a-bcd+][a-bcd+]:v3[bcd][bcd]0ab1bc|
i2 %ad1 od|v1[abc][abc]:v2[a-bcd+][a-bcd+]:v3[bcd][bcd]0ab|od v3[bcd][bcd]0ab
i1 %ad1 sa sb od od|v1[abc]:v2[a-bcd+]:ok:ok:p1/2a-b-:p2/2a-|od p2/2a-
i1 %ad1 sb od od|v1[abc]:v2[a-bcd+]:ok:p1/2a-b-:p1/2b-|od p1/2b-
i1 %ad1 ~d /d od|v1[abc]:v2[a-bcd+]:v3[abc]:v4[abc]:v4[abc]|od v4[abc]
i1 %ad1 ~d|v1[abc]:v2[a-bcd+]:v3[bcd]|~d v3[bcd]
i1 %ad1 %be2|v1[abc]:v2[a-bcd+]:v4[a-b-cd+e+]|%be2 v4[a-b-cd+e+]
i1 nm t100 %ad1 wmuM100=5 wmuM101=6|v1[abc]:ok:ok:v2[a-bcd+]:bc:ab|wmuM101=6 ab
i1 nm t100 %ad1 wmuA100=5 wmuM101=6|v1[abc]:ok:ok:v2[a-bcd+]:2/3:cd|wmuM101=6 cd
i1 nm t100 wmuM100=5 %ad1 od rmuM|v1[abc]:ok:ok:abc:v2[a-bcd+]:v3[bcd]0bc:.|rmuM .
i1 nm t100 %ad1 wmuM100=5 od rmuM|v1[abc]:ok:ok:v2[a-bcd+]:bc:v3[bcd]0bc:.|rmuM .
i1 +d1 sd -a u|v1[abc]:v2[abc]:ok:v3[a-bcd+]:a0.1.0b0.1.0c0.1.0d^|
i1 +d1 sd -a u|v1[abc]:v2[abc]:ok:v3[a-bcd+]:a0.1.0b0.1.0c0.1.0d0.1.0|u a0.1.0b0.1.0c0.1.0d0.1.0
i1 %ad1 u k l|v1[abc]:v2[a-bcd+]:a0.1.0b0.1.0c0.1.0d^:a0b0c0/d^:a0b0c0/|l a0b0c0/
i1 nm nn t100 f00aL,00bL wmuM100=5 wmuA101=6|v1[abc]:ok:ok:ok:ok:1/2axbx:abc|
i1 nm nn t100 wmuM100=5|v1[abc]:ok:ok:ok:1/2axbx|wmuM100=5 1/2axbx
i1 nm nn t100 f00aL wmuM100=5|v1[abc]:ok:ok:ok:ok:abc|wmuM100=5 abc
i1 nm nn t100 f00aL,00bL wmuM100=5|v1[abc]:ok:ok:ok:ok:1/2axb-|wmuM100=5 1/2axb-
i1 nm nn t100 f00aL,00bL wmuA100=5|v1[abc]:ok:ok:ok:ok:2/3ax|wmuA100=5 2/3ax
i1 nm nn t100 f00aT wmuM100=5 rmuM f00xL rmuA|v1[abc]:ok:ok:ok:ok:abc:u100=5,.:?x:2/3ax|rmuA 2/3ax
i1 nm nn t100 f00cB,01bB wmuM100=5 wmuM101=6 d d|v1[abc]:ok:ok:ok:ok:ab:ac:c+b+:c+|d c+
i1 nm nn t100 f00cB,01bB wmuM100=5 wmuM101=6 d|v1[abc]:ok:ok:ok:ok:ab:ac:b+c+|d b+c+
i1 nm nn t100 f00cB wmuM100=5 d|v1[abc]:ok:ok:ok:ok:ab:cs|d cs
i1 nm nn t100 f00cB wmuM100=5 t149 d|v1[abc]:ok:ok:ok:ok:ab:ok:c<|d c<
i1 nm nn t100 f00cB wmuM100=5 t150 d|v1[abc]:ok:ok:ok:ok:ab:ok:c+|d c+
i1 nm nn t100 f00cB wmuM100=5 sc d|v1[abc]:ok:ok:ok:ok:ab:ok:c+|d c+
i1 nm nn t100 f00cB wmuM100=5 %ad1 f00dB wmuM101=6 d|v1[abc]:ok:ok:ok:ok:ab:v2[a-bcd+]:ok:bc:c+d^|
i1 nm nn t100 %ad1 od f00bB wmuM101=6 %cb3 d|v1[abc]:ok:ok:ok:v2[a-bcd+]:v3[bcd]0bc:ok:cd:order:bs|d bs
i1 nm nn t100 sa ba wmuA100=5 oa wmuA100=5|v1[abc]:ok:ok:ok:ok:ok:2/3a^:v1[abc]:2/3a^|wmuA100=5 2/3a^
i1 nm nn t100 %ad1 f00dB wmuM100=5 ~d od d|v1[abc]:ok:ok:ok:v2[a-bcd+]:ok:bc:v3[abc]:v3[abc]:d^|
i1 nm nn t100 wmuM150=5 wmuM50=5 wmuM149=5|v1[abc]:ok:ok:ok:0/2a>b>c>:0/2a<b<c<:0/2a>b>c>|wmuM149=5 0/2a>b>c>
i1 nm nn t100 rmuM|v1[abc]:ok:ok:ok:0/2a<b<c<|rmuM 0/2a<b<c<
i1 nm nn t100 %ad1 wmuM100=5|v1[abc]:ok:ok:ok:v2[a-bcd+]:1/2cs|wmuM100=5 1/2cs
i2 nm nn t100 wmuA100=5 wmxA100=5 wmuA100=5|v1[abc][abc]:ok:ok:ok:2/3c-#1:2/3c-:2/3c-|wmuA100=5 2/3c-
i2 nm nn t100 %ad1 od0 wmuM100=5 wmxM100=5|v1[abc][abc]:ok:ok:ok:v2[a-bcd+][a-bcd+]:v3[bcd][a-bcd+]0ab:bcd:bcd|wmuM100=5 bcd
"""

# How often disks failed; words, what they are answered, and the first of these that is wrong; `faults` where each may be so, but no disk failed so often.
FAULTS = """
|i1 nm nn t100 sc wmuA100=5 u l|v1[abc]:ok:ok:ok:ok:2/3c-:a1.1.0b1.1.0c-:a0b0/c-|
c0=1|i1 nm nn t100 wmuA100=5 wmuA100=6 l u|v1[abc]:ok:ok:ok:2/3c~:2/3c-:a0b0/c-:a1.1.0b1.1.0c-|
c0=1|i1 nm nn t100 wmuA100=5 wmuA100=6 l u|v1[abc]:ok:ok:ok:2/3c~:2/3c-:a0b0/c-:a2.1.0b2.1.0c-|u a2.1.0b2.1.0c-
|i1 nm nn t100 wmuA100=5|v1[abc]:ok:ok:ok:2/3c~|wmuA100=5 2/3c~
|i1 nm nn t100 wmuA100=5|v1[abc]:ok:ok:ok:2/3c-|wmuA100=5 2/3c-
c0=1|i1 nm nn t100 wmuA100=5|v1[abc]:ok:ok:ok:2/3c-|
c0=1|i1 nm nn t100 wmuA100=5|v1[abc]:ok:ok:ok:abc|faults
c0=2|i1 nm nn t100 wmuA100=5|v1[abc]:ok:ok:ok:2/3c~|faults
d0=1|i1 nm nn t100 wmuA100=5|v1[abc]:ok:ok:ok:abc|faults
c0=1|i1 nm nn t100 wmuA100=5 rmuA|v1[abc]:ok:ok:ok:2/3c~:0/3a-b-c-|rmuA 0/3a-b-c-
c0=1|i1 nm nn t100 wmuA100=5 sc bc oc wmuA100=6|v1[abc]:ok:ok:ok:2/3c~:ok:ok:v1[abc]:2/3c-|wmuA100=6 2/3c-
c0=2|i1 nm nn t100 wmuA100=5 sc bc oc wmuA100=6|v1[abc]:ok:ok:ok:2/3c~:ok:ok:v1[abc]:2/3c-|wmuA100=6 2/3c-
c0=2|i1 nm nn t100 wmuA100=5 sc bc oc wmuA100=6|v1[abc]:ok:ok:ok:2/3c~:ok:ok:v1[abc]:2/3c~|
|i1 nm nn t100 l|v1[abc]:ok:ok:ok:a0b0/c-|l a0b0/c-
|i1 nm nn t100 u|v1[abc]:ok:ok:ok:a0.1.0b0.1.0c-|u a0.1.0b0.1.0c-
c0=1|i1 nm nn t100 u|v1[abc]:ok:ok:ok:a0.1.0b0.1.0c-|
|i1 nm nn t100 f00cB wmuM100=5 d|v1[abc]:ok:ok:ok:ok:ab:c-|d c-
|i1 %ad1 od|v1[abc]:v2[a-bcd+]:v2[a-bcd+]|od v2[a-bcd+]
d0=1|i1 %ad1 od|v1[abc]:v2[a-bcd+]:v2[a-bcd+]|od v2[a-bcd+]
d0=1|i1 %ad1 od od|v1[abc]:v2[a-bcd+]:~d0:v2[a-bcd+]|
b0=1,c0=1|i1 nm nn t100 %ad1 od f00dL wmuO100=5 od|v1[abc]:ok:ok:ok:v2[a-bcd+]:p1/2b~c~:ok:0/1b-c-:~d0|od ~d0
b0=1,d0=1|i1 nm nn t100 %ad1 od f00dL wmuO100=5 od|v1[abc]:ok:ok:ok:v2[a-bcd+]:p1/2b~c~:ok:0/1b-c-:~d0|od p1/2b~c~
b0=1,c0=1,d0=1|i1 nm nn t100 %ad1 od f00dL wmuO100=5 od|v1[abc]:ok:ok:ok:v2[a-bcd+]:p1/2b~c~:ok:0/1b-c-:~d0|
b0=1,c0=1,d0=1|i1 %ad1 od od|v1[abc]:v2[a-bcd+]:p1/2b~c~:~d0|od ~d0
|i1 sa ba|v1[abc]:ok:~a0|ba ~a0
a0=1|i1 sa ba oa ba|v1[abc]:ok:~a0:=a:ok|
a0=1|i1 sa ba oa|v1[abc]:ok:~a0:v1[abc]|oa v1[abc]
c0=1|i1 nm nn t100 wmuA100=5 sc bc oc sa sb rmuO|v1[abc]:ok:ok:ok:2/3c~:ok:ok:v1[abc]:ok:ok:u100=5,.|
c0=1|i1 nm nn t100 wmuA100=5 sc bc oc sa sb rmuO|v1[abc]:ok:ok:ok:2/3c~:ok:ok:v1[abc]:ok:ok:.|
c0=1|i1 nm nn t100 wmuA100=5 sc bc oc u sa sb rmuO|v1[abc]:ok:ok:ok:2/3c~:ok:ok:v1[abc]:a1.1.0b1.1.0c1.2.0:ok:ok:.|rmuO .
c0=1|i1 nm nn t100 wmuA100=5 wmuA101=6 sc bc oc sa sb rmuO|v1[abc]:ok:ok:ok:abc:2/3c~:ok:ok:v1[abc]:ok:ok:.|rmuO .
c0=1|i1 nm nn t100 wmuA119=5 t170 l sc bc oc u|v1[abc]:ok:ok:ok:abc:ok:a1b1/c~:ok:ok:v1[abc]:a0.1.1b0.1.1c1.2.0|
c0=1|i1 nm nn t100 wmuA119=5 t170 l sc bc oc u|v1[abc]:ok:ok:ok:abc:ok:a1b1/c~:ok:ok:v1[abc]:a0.1.1b0.1.1c0.2.1|
c0=1|i1 nm nn t100 wmuA119=5 t170 l sc bc oc u|v1[abc]:ok:ok:ok:abc:ok:a1b1/c~:ok:ok:v1[abc]:a0.1.1b0.1.1c1.2.1|u a0.1.1b0.1.1c1.2.1
c0=1|i1 nm nn t100 wmuA119=5 t170 l t180 k sc bc oc u|v1[abc]:ok:ok:ok:abc:ok:a1b1c1/:ok:a1b1/c~:ok:ok:v1[abc]:a0.1.0b0.1.0c1.2.0|
c0=1|i1 nm nn t100 wmuA119=5 t170 l t180 k sc bc oc u|v1[abc]:ok:ok:ok:abc:ok:a1b1c1/:ok:a1b1/c~:ok:ok:v1[abc]:a0.1.0b0.1.0c0.2.0|u a0.1.0b0.1.0c0.2.0
c0=1|i1 nm nn t100 wmuA100=5 S S|v1[abc]:ok:ok:ok:abc:a1b1/c~:a2b2/c-|
c0=1|i1 nm nn t100 wmuA100=5 S sc bc oc S|v1[abc]:ok:ok:ok:abc:a1b1/c~:ok:ok:v1[abc]:a2b2c2/|
c0=1|i1 nm nn t100 wmuA100=5 S sc bc oc S|v1[abc]:ok:ok:ok:abc:a1b1/c~:ok:ok:v1[abc]:a2b2c1/|
c0=1|i1 nm nn t100 wmuA100=5 S sc bc oc S|v1[abc]:ok:ok:ok:abc:a1b1/c~:ok:ok:v1[abc]:a2b2c3/|S a2b2c3/
"""


def words_of(row: str) -> tuple[list[str], list[str]]:
    words, answers = row.split("|")
    return words.split(" "), answers.split(":")


def first_wrong(words: list[str], answers: list[str], faults: dict[str, int], ends: bool) -> str:
    """The first word with an answer that it may not have, or `faults`."""
    judge = Judge()
    judge.begin_run(faults)
    for word, answer in zip(words, answers, strict=True):
        try:
            judge.judge(json.dumps(line(word)).encode(), printed(reply(word, answer, judge)))
        except Wrong:
            return f"{word} {answer}"
    try:
        if ends:
            judge.end_run()
    except Wrong:
        return "faults"
    return ""


# ---- a program whose disks fail

class Failing(Disk):
    """Fails now and then, and has done some of what it was at then."""

    def __init__(self, dice: random.Random, replica: Replica):
        self.dice, self.replica, self.since = dice, replica, -1

    def chooses(self) -> bool:
        if self.since == self.replica.faults:
            return self.dice.random() < 0.5
        fails = self.dice.random() < 0.01
        self.since = self.replica.faults if fails else -1
        return fails


class Program(Cluster):
    """The model itself, over disks that fail."""

    def __init__(self, seed: int):
        super().__init__()
        self.dice, self.all = random.Random(seed), {}

    def made(self) -> Replica:
        return Replica()

    def new_replica(self, shard: int, node: str) -> Replica:
        replica = self.all[f"{chr(ord('a') + list(self.place().nodes).index(node))}{shard}"] = self.made()
        replica.disk = Failing(self.dice, replica)
        return replica


def ran(program: Program, script: bytes) -> Run:
    replies = list(serve(script.split(b"\n"), program))
    return Run(script, replies, {slot: replica.faults for slot, replica in program.all.items()})


def scripts(seed: int) -> list[bytes]:
    return [b"".join(oracle_faults.lines(it, 250)) for it in (oracle_faults.Plain(seed, 10), oracle_faults.Moving(seed))]


def is_wrong(run: Run) -> bool:
    try:
        judged([run])
        return False
    except Wrong:
        return True


# ---- wrong programs

class Forgetful(Replica):
    """Takes a point without writing it down."""

    def write_down(self, size: int, step: Callable[[], None]) -> None:
        super().write_down(size, step if size < 20 else lambda: None)


class Unshaken(Replica):
    """Goes on after its disk failed."""

    def tried(self, act: Callable) -> tuple:
        try:
            return act(), None
        except DiskFailed:
            return None, ["disk"]


class Silent(Replica):
    """Says that it took what its disk failed to take, and is closed."""

    def tried(self, act: Callable) -> tuple:
        answer, reason = super().tried(act)
        return (answer if reason is None else 0), None


class Unread(Replica):
    """Doesn't read its log when it starts again."""

    def load(self) -> None:
        super().load()
        self.memory = {it: value for it, value in self.memory.items() if it in self.saved}


class Lasting(Replica):
    """Keeps the volumes that a tick takes away."""

    def dropped(self, block: tuple) -> list:
        return []


class Unfenced(Replica):
    """Streams without a fence."""

    def raise_fence(self, version: int) -> None:
        pass


class Hasty(Replica):
    """Leaves the last point of a page out."""

    def merge(self, page: Points) -> None:
        super().merge(dict([*page.items()][:-1]))


class Early(Program):
    """Ends a join when the first node streamed."""

    def majority(self) -> int:
        return 1 if self.joins else super().majority()

    joins = False

    def open(self, shard: int, node: str) -> list[str] | None:
        self.joins = True
        try:
            return super().open(shard, node)
        finally:
            self.joins = False


class Hidden(Program):
    """Doesn't say of a sweep which replicas failed in it."""

    def work_on(self, shard: int, node: str, work: Work) -> tuple[int | None, Reason | None]:
        count, reason = super().work_on(shard, node, work)
        return (0, None) if reason == ["disk"] else (count, reason)


class Stale(Program):
    """Gives what a stopped node had."""

    def look_up(self, replica: Replica, *asked) -> tuple[Reason | None, Points]:
        reason, points = super().look_up(replica, *asked)
        return (None, {}) if reason == ["down"] else (reason, points)


REPLICAS = [Forgetful, Unshaken, Silent, Unread, Lasting, Unfenced, Hasty]
PROGRAMS = [Early, Hidden, Stale]


def program_of(replica: type) -> type:
    return type(replica.__name__, (Program,), {"made": lambda self: replica()})


# ---- replies that are edited

def without_point(told: Request) -> None:
    told["series"][0]["points"].pop()
    told["series"] = [it for it in told["series"] if it["points"]]


def with_point(told: Request) -> None:
    told["series"][0]["points"].append([told["series"][0]["points"][-1][0] + 1, 5])


def with_value(told: Request) -> None:
    told["series"][0]["points"][0][1] += 1


def refuse(told: Request) -> None:
    acks = told.pop("acks")
    told |= {"ok": False, "code": 7, "error": "consistency", "got": 1, "needed": 2, "reasons": [[it, "disk"] for it in acks[1:]], "shard": 0}


def with_shard(told: Request) -> None:
    told["available"].append([told["available"][-1][0] + 1, told["available"][-1][1]])


def with_peer(told: Request) -> None:
    told["available"][0][1].append("e")


def with_other_peer(told: Request) -> None:
    told["available"][0][1][0] = {"a": "b", "b": "c"}.get(told["available"][0][1][0], "a")


def take(told: Request) -> None:
    told["outcomes"][0][2:] = ["took"]


def count_more(told: Request) -> None:
    told["done"][0][2] += 1


def fail_one(told: Request) -> None:
    node, shard, _ = told["done"].pop()
    told["failed"].append([node, shard, "down"])


def buffer_less(told: Request) -> None:
    next(it for it in told["replicas"] if it["buffered"])["buffered"] -= 1


def fence_more(told: Request) -> None:
    next(it for it in told["replicas"] if it["standing"] == "open")["fence"] += 1


def is_open(told: Request) -> bool:
    return any(it["standing"] == "open" for it in told.get("replicas", []))


# An edit, of which replies, and how. It need not be wrong of each: a node that isn't listed may have failed.
EDITS: dict[str, tuple[Callable[[Request], bool], Callable[[Request], None]]] = {
    "a point is left out": (lambda it: bool(it.get("series")), without_point),
    "a point that nobody wrote": (lambda it: bool(it.get("series")), with_point),
    "a value that nobody wrote": (lambda it: bool(it.get("series")), with_value),
    "a read that isn't short": (lambda it: it.get("short") is False, lambda it: it.update(short=True)),
    "a write that enough took": (lambda it: len(it.get("acks", [])) == 3, refuse),
    "one that took is left out": (lambda it: len(it.get("acks", [])) == 3, lambda it: it["acks"].pop()),
    "a node that isn't there took": (lambda it: it.get("acks") == ["a", "b"], lambda it: it["acks"].append("d")),
    "a reason without a cause": (lambda it: any(why[1:] == ["cut"] for why in it.get("reasons", [])),
                                 lambda it: next(why for why in it["reasons"] if why[1:] == ["cut"]).__setitem__(1, "boot")),
    "more shards turn available": (lambda it: bool(it.get("available")), with_shard),
    "more nodes streamed": (lambda it: bool(it.get("available")), with_peer),
    "another node streamed": (lambda it: bool(it.get("available")), with_other_peer),
    "a node turned available beside": (lambda it: it.get("available") == [], lambda it: it.update(available=[[0, ["a", "b"]]])),
    "a late write was taken": (lambda it: any(why[2:] != ["took"] for why in it.get("outcomes", [])[:1]), take),
    "a late write is left out": (lambda it: bool(it.get("outcomes")), lambda it: it["outcomes"].pop()),
    "one volume or point more": (lambda it: bool(it.get("done")), count_more),
    "a replica failed without a fault": (lambda it: bool(it.get("done")), fail_one),
    "a replica twice": (lambda it: bool(it.get("done")), lambda it: it["done"].append(it["done"][-1])),
    "fewer points in memory": (lambda it: any(one["buffered"] for one in it.get("replicas", [])), buffer_less),
    "a higher fence": (is_open, fence_more),
    "a later moment": (lambda it: "replicas" in it, lambda it: it.update(now=it["now"] + 1)),
}


def edited(run: Run, picks: Callable[[Request], bool], edit: Callable[[Request], None], dice: random.Random) -> Run | None:
    """The run with one of the replies edited that may be."""
    told = [json.loads(it) for it in run.replies]
    found = [at for at, it in enumerate(told) if picks(it)]
    if not found:
        return None
    at = dice.choice(found)
    edit(told[at])
    return Run(run.script, [*run.replies[:at], printed(told[at]), *run.replies[at + 1:]], run.faults)


class JudgeTests(unittest.TestCase):
    def test_rows(self):
        for row in ROWS.strip().split("\n"):
            told, _, wrong = row.rpartition("|")
            self.assertEqual(first_wrong(*words_of(told), dict.fromkeys([f"{node}{shard}" for node in "abcde" for shard in (0, 1)], 9), False), wrong, row)

    def test_rows_of_faults(self):
        for row in FAULTS.strip().split("\n"):
            faults, _, rest = row.partition("|")
            told, _, wrong = rest.rpartition("|")
            often = {it[:2]: int(it[3:]) for it in faults.split(",") if it}
            self.assertEqual(first_wrong(*words_of(told), often, True), wrong, row)

    def test_takes_what_the_model_answers(self):
        for seed in range(1, 5):
            for script in scripts(seed):
                self.assertGreater(judged([ran(Program(seed), script)]).points, 30)

    def test_tells_wrong_programs(self):
        for program in [*map(program_of, REPLICAS), *PROGRAMS]:
            found = (is_wrong(ran(program(seed), script)) for seed in range(1, 20) for script in scripts(seed))
            self.assertTrue(any(found), program.__name__)

    def test_tells_edited_replies(self):
        runs = [ran(Program(seed), script) for seed in (1, 2) for script in scripts(seed)]
        for name, (picks, edit) in EDITS.items():
            dice = random.Random(name)
            found = [is_wrong(it) for run in runs for _ in range(2) if (it := edited(run, picks, edit, dice))]
            self.assertTrue(found and sum(found) * 4 >= len(found) * 3, f"{name}: {sum(found)} of {len(found)}")
