#!/usr/bin/env python3
"""Holds the program against a small model of docs/REQUESTS.md, over random scripts.

usage: tools/oracle.py [COUNT [FIRST]]    runs the scripts FIRST, FIRST + 1, .. (2,000 of them from 0 on), and some that `generate` names
       tools/oracle.py --runs [COUNT [FIRST]]    the same scripts but for the first few, each cut in up to four runs over the same disks, by m3_trials
       tools/oracle.py --faults [COUNT [FIRST]]    scripts over disks that fail, by m3_trials: those of the seeds, and COUNT drawn from FIRST on (100 from 0 on)
       tools/oracle.py --lives [COUNT [FIRST]]    lives of three to six runs, of which one disk fails and all are started again, by m3_trials (100 from 0 on)
       tools/oracle.py --replica          a replica's days beside a list of points, and each bit of its files turned, by replica_trials
       tools/oracle.py --drawn            runs quarters of days, a day with a move, and courses of lines that make placements: their seeds stay the same
       tools/oracle.py --show NUMBER      prints the script of that number; of a NAME, as drawn/7, the case over disks that fail
       tools/oracle.py --model < SCRIPT   prints the replies that the model answers, each once its line is there

The model (oracle_lines.py, oracle_places.py, oracle_store.py, oracle_model.py) was written from that page, docs/PLACEMENT.md and docs/STORAGE.md alone, without
a look at the program or at its definitions, so it shares no mistake with them but by chance: where the two differ, one of the program, the pages and the model is
wrong. oracle_scripts.py makes the scripts, oracle_days.py, oracle_courses.py and oracle_faults.py those that are drawn by the dice of
oracle_dice.py. Of the first few random ones that differ the smallest part is printed that differs still, with both replies, and of others the
first reply; the status is 1 then. Where disks of replicas fail, oracle_judge.py says whether the replies may be so, as it isn't known when a disk
fails, only how often. Of lives oracle_lives.py has the rules of what is kept, who joins and what is refused, without any replica. oracle_calls.py has what one replica is to answer, by a list of its points, and by oracle_files.py, which has
the bytes of docs/FORMAT.md. The meta disk fails in lives alone, and memory is never wanted; of the ends of a run only those are tried that can be brought
about from outside.
"""
import json
import os
import re
import subprocess
import sys
from concurrent.futures import ProcessPoolExecutor, ThreadPoolExecutor
from itertools import zip_longest
from pathlib import Path
from typing import IO

sys.dont_write_bytecode = True
import oracle_calls  # noqa: E402
import oracle_courses  # noqa: E402
import oracle_days  # noqa: E402
import oracle_faults  # noqa: E402
import oracle_judge  # noqa: E402
import oracle_lives  # noqa: E402
import oracle_model  # noqa: E402
import oracle_scripts  # noqa: E402

TOP = Path(__file__).resolve().parent.parent
PROGRAM = [str(TOP / "m3"), "run"]
GENERATED = [0, 7, 8, 2**31, 2**32 - 1]
USAGE = b"usage: m3 run [--disk FOLDER] or m3 generate N\n"
MOST_SHOWN = 5
MOST_SECONDS = 120


def played(crate: str, cases: bytes) -> dict[bytes, bytes]:
    """What one of the programs that play cases tells of these, by their names."""
    words = [str(TOP / "tools/build_crates"), crate, "--", str(TOP / "crates" / crate / "out" / crate)]
    parts = subprocess.run(words, input=cases, capture_output=True).stdout.split(b"@case ")[1:]
    return dict(it.split(b"\n", 1) for it in parts)


def run(script: bytes) -> list[bytes]:
    """The program's replies; a last item tells how it ended where that isn't as it should be."""
    try:
        done = subprocess.run(PROGRAM, input=script, capture_output=True, timeout=MOST_SECONDS)
    except subprocess.TimeoutExpired:
        return [b"no end in %d seconds\n" % MOST_SECONDS]
    replies = done.stdout.splitlines(keepends=True)
    return replies if (done.returncode, done.stderr) == (0, b"") else [*replies, b"status %d: %s" % (done.returncode, done.stderr)]


def differs(script: bytes) -> bool:
    return run(script) != oracle_model.replies(script)


def smallest(script: bytes) -> bytes:
    """What is left of a script that differs when no one line can be taken away without losing the difference."""
    lines = script.split(b"\n")
    size = max(len(lines) // 2, 1)
    while size:
        at = 0
        while at < len(lines):
            fewer = lines[:at] + lines[at + size:]
            if differs(b"\n".join(fewer)):
                lines = fewer
            else:
                at += size
        size //= 2
    return b"\n".join(lines)


def show(number: int) -> None:
    script = smallest(oracle_scripts.script(number))
    print(f"script {number} differs; its smallest part that does:", flush=True)
    sys.stdout.buffer.write(script.rstrip(b"\n") + b"\nthe model answers\n")
    sys.stdout.buffer.writelines(oracle_model.replies(script))
    sys.stdout.buffer.write(b"the program answers\n")
    sys.stdout.buffer.writelines(run(script))
    sys.stdout.flush()


def ended(words: list[str], source: bytes | int, sink: IO[bytes] | int = subprocess.DEVNULL) -> tuple[int, bytes]:
    """The status of a run and what it wrote on standard error; the source is the input or a file."""
    given = {"stdin": source} if isinstance(source, int) else {"input": source}
    done = subprocess.run([PROGRAM[0], *words], stdout=sink, stderr=subprocess.PIPE, timeout=MOST_SECONDS, **given)
    return done.returncode, done.stderr


def wrong_ends() -> list[str]:
    """The ends of a run that can be brought about from outside, and aren't as the page has them."""
    line = b'{"op":"deliver"}\n'
    folder = os.open(TOP, os.O_RDONLY)
    with open("/dev/full", "wb") as full:
        ends = [("no word", ended([], line), (1, USAGE)),
                ("another word", ended(["runs"], line), (1, USAGE)),
                ("two words", ended(["run", "run"], line), (1, USAGE)),
                ("no folder", ended(["run", "--disk"], line), (1, USAGE)),
                ("a folder for a script", ended(["generate", "7", "--disk", "f"], line), (1, USAGE)),
                ("no number", ended(["generate"], line), (1, USAGE)),
                ("a word for a number", ended(["generate", "x7"], line), (1, USAGE)),
                ("too great a number", ended(["generate", "4294967296"], line), (1, USAGE)),
                ("no input", ended(["run"], b""), (0, b"")),
                ("a sink that fails", ended(["run"], line, full), (3, b"m3: write fault\n")),
                ("a source that fails", ended(["run"], folder), (2, b"m3: read fault\n"))]
    os.close(folder)
    return [f"{name}: ended with {found}, not {wanted}" for name, found, wanted in ends if found != wanted]


def summary(number: int) -> bytes:
    """What `generate` is to write for this number, by the model's replies to the script."""
    replies = [json.loads(it) for it in oracle_model.replies(oracle_scripts.generated(number))]
    fine = sum(it["ok"] for it in replies)
    values = [value for series in replies[-1]["series"] for _, value in series["points"]]
    line = {"lines": len(replies), "ok": fine, "points": len(values), "refused": len(replies) - fine, "sum": sum(values)}
    return json.dumps(line, separators=(",", ":")).encode() + b"\n"


def wrong_summary(number: int) -> list[str]:
    """What `generate` writes for this number, where it isn't what the model says."""
    done = subprocess.run([PROGRAM[0], "generate", str(number)], stdin=subprocess.DEVNULL, capture_output=True, timeout=MOST_SECONDS)
    found, wanted = (done.returncode, done.stdout, done.stderr), (0, summary(number), b"")
    return [f"generate {number}: {found}, not {wanted}"] if found != wanted else []


def hold(count: int, first: int) -> int:
    subprocess.run(PROGRAM, stdin=subprocess.DEVNULL)  # builds it where it isn't built yet
    numbers = range(first, first + count)
    with ThreadPoolExecutor(os.cpu_count()) as pool:
        found = list(pool.map(lambda number: differs(oracle_scripts.script(number)), numbers))
        summaries = sum(pool.map(wrong_summary, GENERATED), [])
    wrong = [number for number, is_wrong in zip(numbers, found) if is_wrong]
    for number in wrong[:MOST_SHOWN]:
        show(number)
    ends = wrong_ends()
    for line in ends + summaries:
        print(line)
    print(f"oracle: {count} scripts, {len(wrong)} differ; {len(ends)} ends of a run and {len(summaries)} summaries are wrong", *wrong[:20])
    return 1 if wrong or ends or summaries else 0


def first_other(script: bytes) -> bytes:
    """The first line of the script that is answered otherwise, the model's reply to it and the program's; nothing where there is none."""
    for lines in zip_longest(script.splitlines(keepends=True), oracle_model.replies(script), run(script), fillvalue=b"nothing\n"):
        if lines[1] != lines[2]:
            return b"".join(lines)
    return b""


def hold_drawn() -> int:
    """Holds the program against the model on the scripts of the seeds, and says where the courses met other kinds of answers than they are to."""
    subprocess.run(PROGRAM, stdin=subprocess.DEVNULL)  # builds it where it isn't built yet
    scripts = {f"quarter {seed}": oracle_days.quarter(seed) for seed in oracle_days.QUARTERS} | {"day with a move": oracle_days.moved_day()}
    courses = {f"course {seed}": oracle_courses.course(seed) for seed in oracle_courses.SEEDS}
    scripts |= {name: b"".join(it.lines) for name, it in courses.items()}
    with ProcessPoolExecutor(os.cpu_count()) as pool:
        found = dict(zip(scripts, pool.map(first_other, scripts.values())))
    wrong = [name for name in found if found[name]]
    for name in wrong[:MOST_SHOWN]:
        print(f"{name} differs: a line, the model's reply and the program's", flush=True)
        sys.stdout.buffer.write(found[name])
        sys.stdout.flush()
    met = oracle_courses.kinds_met(list(courses.values()))
    others = [op for op in met if met[op] != oracle_courses.KINDS[op]]
    for op in others:
        print(f"the courses meet {sorted(met[op])} of {op}, and are to meet {sorted(oracle_courses.KINDS[op])}")
    print(f"oracle: {len(scripts)} drawn scripts, {len(wrong)} differ; {len(others)} ops met other kinds of answers", *wrong[:20])
    return 1 if wrong or others else 0


def hold_runs(count: int, first: int) -> int:
    """Holds several runs over the same disks against the model."""
    scripts = {b"%d" % number: oracle_scripts.runs(number) for number in range(first, first + count)}
    asked = b"".join(b"@case %s\n" % name + b"".join(b"@run\n%%hex %s\n" % it.hex().encode() for it in its) for name, its in scripts.items())
    told = played("m3_trials", asked)
    wrong = []
    for name, its in scripts.items():
        wanted = b"".join(b"> ended Done faults=0\n" + b"".join(replies) for replies in oracle_model.replies_of_runs(its))
        if told.get(name) != wanted:
            wrong.append(name.decode())
            pairs = zip_longest(wanted.splitlines(), told.get(name, b"").splitlines(), fillvalue=b"nothing")
            one, other = next(pair for pair in pairs if pair[0] != pair[1])
            sys.stdout.buffer.write(b"the runs of %s differ: the model answers\n%s\nand the program\n%s\n" % (name, one, other))
    print(f"oracle: runs of {count} scripts, {len(wrong)} differ", *wrong[:20])
    return 1 if wrong else 0


def hold_replica() -> int:
    """Holds one replica against a list of points and the bytes of its files."""
    cases = oracle_calls.cases()
    told = played("replica_trials", "".join(f"@case {head}\n{lines}\n" for head, (lines, _) in cases.items()).encode())
    wrong = []
    for head, (_, wanted) in cases.items():
        name = head.split(" ")[0]
        lines = told.get(name.encode(), b"").decode(errors="replace").splitlines()
        pairs = enumerate(zip_longest(wanted, lines, fillvalue=None), 1)
        other = next((it for it in pairs if None in it[1] or not it[1][0].fullmatch(it[1][1])), None)
        if other is not None:
            wrong.append(name)
            number, (pattern, line) = other
            print(f"line {number} of what is told of {name} is to be\n{pattern.pattern if pattern else 'nothing'}\nand is\n{line}")
    print(f"oracle: {len(cases)} cases of a replica, {len(wrong)} differ", *wrong[:20])
    return 1 if wrong else 0


def told_runs(scripts: list[bytes], told: bytes) -> list[oracle_judge.Run]:
    """What is told of a case's runs."""
    parts = re.split(rb"^> ended ", told, flags=re.M)[1:]
    runs = []
    for script, part in zip_longest(scripts, parts, fillvalue=b"nothing\n"):
        head, *replies = part.splitlines(keepends=True)
        faults = {slot.decode(): int(count) for slot, count in re.findall(rb" ([a-p]\d+)=(\d+)", head)}
        if not re.match(rb"Done faults=%d\b" % sum(faults.values()), head):
            raise oracle_judge.Wrong("a run ended so:", head.decode().rstrip())
        runs.append(oracle_judge.Run(script, replies, faults))
    return runs


def judged(case: oracle_faults.Case, told: bytes) -> oracle_judge.Stakes | list[str]:
    """What came of a case, or what is wrong."""
    try:
        return oracle_judge.judged(told_runs(case.scripts, told))
    except oracle_judge.Wrong as wrong:
        return [*map(str, wrong.args)]


def few(stakes: dict[str, oracle_judge.Stakes]) -> list[str]:
    """The seeds in whose scripts too little was at stake to say much: scripts with moves are taken together."""
    alone = [name for name, it in stakes.items() if name.startswith(("plain/", "upkeep/")) and it.is_below(oracle_judge.Stakes(30, 0, 2))]
    moving = [it for name, it in stakes.items() if name.startswith("moving/")]
    least = oracle_judge.Stakes(30 * len(moving), 2 * len(moving), 2 * len(moving))
    return alone + ["moving"] * (moving != [] and oracle_judge.Stakes(*map(sum, zip(*moving))).is_below(least))


def hold_faults(count: int, first: int) -> int:
    """Holds runs over disks that fail against what the model says that they may answer."""
    cases = oracle_faults.seeded() | {f"drawn/{number}": oracle_faults.drawn(number) for number in range(first, first + count)}
    asked = b"".join(case.asked(name) for name, case in cases.items())
    told = played("m3_trials", asked)
    with ProcessPoolExecutor(os.cpu_count()) as pool:
        found = dict(zip(cases, pool.map(judged, cases.values(), [told.get(name.encode(), b"") for name in cases], chunksize=4)))
    wrong = [name for name, it in found.items() if isinstance(it, list)]
    for name in wrong[:MOST_SHOWN]:
        print(f"{name} isn't answered as it may be: the line and its reply, or what is wrong, and what might be", *found[name], sep="\n", flush=True)
    right = {name: it for name, it in found.items() if name not in wrong}
    empty = few(right)
    faults = sum(it.faults for it in right.values())
    print(f"oracle: {len(cases)} cases over disks that fail, {faults} faults, {len(wrong)} wrong; too little comes of {len(empty)}", *wrong[:20], *empty)
    return 1 if wrong or empty else 0


def hold_lives(count: int, first: int) -> int:
    """Holds lives of several runs, over disks of which one fails, against the rules of what is kept from run to run."""
    lives = {f"{number}": oracle_lives.drawn(number) for number in range(first, first + count)}
    told = played("m3_trials", b"".join(life.asked(name) for name, life in lives.items()))
    wrong, reads, kept, moves = [], 0, 0, 0
    for name, life in lives.items():
        try:
            rules = oracle_lives.looked_at(life, told.get(name.encode(), b""))
            reads, kept, moves = reads + rules.reads, kept + rules.kept, moves + rules.moves
        except oracle_lives.Broken as broken:
            wrong.append(name)
            if len(wrong) <= MOST_SHOWN:
                print(f"life {name} breaks a rule: the line, its reply and the rule", *broken.args, sep="\n", flush=True)
    print(f"oracle: {count} lives, {reads} reads of which {kept} points were acknowledged, {moves} moves, {len(wrong)} wrong", *wrong[:20])
    return 1 if wrong else 0


def main(words: list[str]) -> int:
    match words:
        case ["--model"]:
            for reply in oracle_model.serve(sys.stdin.buffer):
                sys.stdout.buffer.write(reply)
                sys.stdout.buffer.flush()
            return 0
        case ["--drawn"]:
            return hold_drawn()
        case ["--replica"]:
            return hold_replica()
        case ["--runs", *numbers] if len(numbers) <= 2 and all(map(str.isdecimal, numbers)):
            count, first = [*map(int, numbers), *[2000, 0][len(numbers):]]
            return hold_runs(count, first)
        case ["--lives", *numbers] if len(numbers) <= 2 and all(map(str.isdecimal, numbers)):
            count, first = [*map(int, numbers), *[100, 0][len(numbers):]]
            return hold_lives(count, first)
        case ["--faults", *numbers] if len(numbers) <= 2 and all(map(str.isdecimal, numbers)):
            count, first = [*map(int, numbers), *[100, 0][len(numbers):]]
            return hold_faults(count, first)
        case ["--show", name] if re.fullmatch(r"drawn/\d+", name) or name in oracle_faults.seeded():
            sys.stdout.buffer.write(oracle_faults.case(name).asked(name))
            return 0
        case ["--show", number] if number.isdecimal():
            sys.stdout.buffer.write(oracle_scripts.script(int(number)))
            return 0
        case _ if len(words) <= 2 and all(map(str.isdecimal, words)):
            count, first = [*map(int, words), *[2000, 0][len(words):]]
            return hold(count, first)
    print(__doc__.split("\n\n")[1], file=sys.stderr)
    return 2


if __name__ == "__main__":
    sys.exit(main(sys.argv[1:]))
