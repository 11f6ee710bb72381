"""A replica's days, drawn from seeds, beside a plain list of its points; and what it tells of files of which a bit was turned. Both are cases
of crates/replica_trials, whose words `replica_stories` has. `tools/oracle.py` says what this is for.
"""
import re
from dataclasses import dataclass, field

import oracle_files
from oracle_dice import Dice

DAYS = (1, 2, 3, 4)  # the seeds
BEGIN = 10_000
DAY = 86_400  # seconds
LINES = 2_000  # of a day
SERIES = "abcdef"
# Blocks of two hours, and points that expire after six; blocks of one hour, and points that expire after two.
SPACES = ("7200,600,120,21600", "3600,600,120,7200")
RETENTIONS = [int(it.split(",")[3]) for it in SPACES]
WORDS = ("f", "f", "f", "x", "x", "s", "s", "z0", "z85", "z255", "n", "b1")
COUNT, COUNTS, BEGAN, ANY = r"\d+\|", r"\d+ \d+\|", r"1 of \d+\|", r"\|"  # what an answer is to be like
ANSWERS = {"f": COUNT, "x": COUNT, "s": COUNT, "n": COUNTS, "z": ANY + BEGAN, "b": r"1 of 0\|"}


@dataclass
class Case:
    """The lines of a case, and what each line of what is told is to be like."""

    lines: list[str] = field(default_factory=list)
    wanted: list[re.Pattern] = field(default_factory=list)

    def say(self, words: str, answer: str) -> None:
        self.lines.append(words)
        self.wanted.append(re.compile(answer))


class Day:
    """The words of a seed, and the points that were put: the higher value of two at one key."""

    def __init__(self, seed: int):
        self.dice, self.now, self.case = Dice(seed), BEGIN, Case()
        self.points: dict[tuple[int, str, int], int] = {}
        self.say("b1", r"1 of 0\|")
        for _ in range(LINES):
            self.now += DAY // LINES
            self.go_on()
        for ns in (0, 1):
            self.read(ns, 0, 2**64 - 1)

    def say(self, words: str, answer: str) -> None:
        self.case.say(f"t{self.now} {words}", ANY + answer)

    def put(self) -> None:
        """A point within the windows: some 600 seconds into the past, 120 into the future."""
        ns, series = self.dice.roll(2), SERIES[self.dice.roll(6)]
        key = ns, series, max(self.now + self.dice.roll(700) - 590, 0)
        value = self.dice.roll(50)
        self.points[key] = max(value, self.points.get(key, value))
        self.say(f"p{ns},{series},{key[2]},{value}", ANY)

    def read(self, ns: int, start: int, end: int) -> None:
        """Just the points in the range that haven't expired, by series and time."""
        start_of_life = self.now + 1 - RETENTIONS[ns]
        found = [it for it in sorted(self.points) if it[0] == ns and max(start, start_of_life) <= it[2] < end]
        told = "".join(f" {series}@{time}={self.points[ns, series, time]}" for _, series, time in found)
        self.say(f"r{ns},{start},{end}", re.escape(told + "|"))

    def read_some_hours(self) -> None:
        """Two of the last six hours."""
        start = max(self.now - self.dice.roll(22_000), 0)
        self.read(self.dice.roll(2), start, start + 7_200)

    def keep_up(self) -> None:
        """A word of upkeep; where the process stopped the replica begins again."""
        word = WORDS[self.dice.roll(len(WORDS))]
        self.say(f"{word} b1" if word[0] == "z" else word, ANSWERS[word[0]])

    def go_on(self) -> None:
        draw = self.dice.roll(20)
        self.keep_up() if draw == 0 else self.read_some_hours() if draw == 1 else self.put()


def day(seed: int) -> tuple[str, list[re.Pattern]]:
    """The case of a day, and what is to be told of it."""
    case = Day(seed).case
    return "\n".join([f"@rules {' '.join(SPACES)}", "@say", *case.lines]), case.wanted


FILLED = "t1000 b1 p0,hello,1000,7 p0,zulu,1010,-3 t1300 f p0,hello,1290,8 s"
FILES = oracle_files.volume(0, 1000, 200, 1, {"hello": [(1000, 7)], "zulu": [(1010, -3)]})
FILES |= oracle_files.snapshot(1, 1, 1, 2, [(0, "hello", 1290, 8)])


def told_of(name: oracle_files.Name, turned: bytes) -> str:
    """The damage of the first file whose digest isn't the one that is kept, where this one has these bytes."""
    kind = name[0]
    files = {it[0]: data for it, data in FILES.items()} | {kind: turned}
    if kind >= 8:
        file, kept, found = "snapshot-1-data.db", files[9][1:], files[8]
    elif kind >= 6:
        file, kept, found = "fileset-0-1000-1-digests.db", files[7][1:], files[6]
    else:
        file, kept, found = f"fileset-0-1000-1-{oracle_files.PARTS[kind]}.db", files[6][32 * (kind - 1):32 * kind], files[kind]
    return f"digest of {file} kept {kept.hex()} found {oracle_files.digest(found).hex()}|"


BITS = [1 << bit for bit in range(8)]


def first_of(name: oracle_files.Name) -> int:
    """The offset behind the gate, where the file has one."""
    return 1 if name[0] in (7, 9) else 0


def turns(name: oracle_files.Name) -> tuple[str, list[re.Pattern]]:
    """The case in which each bit of each byte of this file is turned, but for a gate, and what is to be told of it."""
    data, wanted = FILES[name], []
    for bit in BITS:
        for at in range(first_of(name), len(data)):
            turned = data[:at] + bytes([data[at] ^ bit]) + data[at + 1:]
            wanted += [re.compile("> or"), re.compile(re.escape(f"||{told_of(name, turned)}"))]
    return f"@do\n{FILLED}\n@say\n/x{'.'.join(map(str, name))}:*:? t1000 d1", wanted[1:]


def keys(name: oracle_files.Name) -> str:
    """Which bytes and which bits these are."""
    return f"each={first_of(name)}..{len(FILES[name])} picks={','.join(map(str, BITS))}"


def cases() -> dict[str, tuple[str, list[re.Pattern]]]:
    """All cases by their heads, each with its lines and what each line is to be like that is told of it."""
    days = {f"day/{seed}": day(seed) for seed in DAYS}
    return days | {f"turned/{name[0]} {keys(name)}": turns(name) for name in FILES}
