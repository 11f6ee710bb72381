"""A client of the program, on Python's own library alone.

    from m3 import M3, Refused, tagged

    with M3() as store:
        store.ask("init", rf=3, shards=4, seed=0, nodes=[["a", "g1"], ["b", "g2"], ["c", "g3"]])
        store.ask("namespace", name="host", block=7200, past=600, future=120, retention=86400)
        store.ask("now", now=1000)
        store.ask("write", ns="host", id=tagged(host="h1", name="load"), t=1000, v=42)
        for series in store.match("host", [("host", "=", "h1")], 0, 2000):
            print(series["id"], series["points"])

`M3` is one process of the program, which gets a line for each request and gives a line back; docs/REQUESTS.md says which requests there
are. Its disks are in memory: what it holds is gone once it ends. It is for one thread. `run` has all lines served at once.
"""
import json
import re
import subprocess
from pathlib import Path

PROGRAM = (str(Path(__file__).resolve().parents[2] / "m3"), "run")
TAG_NAME = re.compile(r"[A-Za-z_][A-Za-z0-9_]*")
TAG = re.compile(r'([A-Za-z_][A-Za-z0-9_]*)="((?:[^"\\]|\\["\\])*)"', re.DOTALL)


class Refused(Exception):
    """A request that was refused. `error` is the error's name, as `consistency`, and `reply` has the whole reply."""

    def __init__(self, request, reply):
        super().__init__(f"{reply['error']}: {json.dumps(reply)} to {json.dumps(request)}")
        self.request, self.reply, self.error = request, reply, reply["error"]


class Ended(Exception):
    """The program ended before it replied. `status` says how (docs/REQUESTS.md, "How a run ends")."""

    def __init__(self, status):
        super().__init__(f"the program ended with status {status} before it replied")
        self.status = status


class M3:
    """A process of the program. It is begun at once, and ends with `close` or with the `with` block."""

    def __init__(self, command=PROGRAM):
        self.process = subprocess.Popen(command, stdin=subprocess.PIPE, stdout=subprocess.PIPE)

    def __enter__(self):
        return self

    def __exit__(self, *_):
        self.close()

    def ask(self, op, **fields):
        """Sends a request and returns its reply.

        Raises Refused where the reply isn't ok, and Ended where there is none: whether the request did something isn't known then."""
        request = {"op": op, **fields}
        try:
            self.process.stdin.write(line_of(request))
            self.process.stdin.flush()
        except BrokenPipeError:
            raise Ended(self.process.wait()) from None
        line = self.process.stdout.readline()
        if not line.endswith(b"\n"):
            raise Ended(self.process.wait())
        return fine(request, json.loads(line))

    def fetch(self, ns, identifier, start, end, **more):
        """Returns the points of a series with start <= t < end, as pairs of time and value; none of a series that isn't there."""
        found = self.ask("fetch", ns=ns, id=identifier, **{"from": start, "to": end}, **more)["series"]
        return [tuple(point) for series in found for point in series["points"]]

    def match(self, ns, where, start, end, **more):
        """Returns the series whose tags meet all matchers, each with its `id` and its `points`."""
        return self.ask("match", ns=ns, where=[list(it) for it in where], **{"from": start, "to": end}, **more)["series"]

    def close(self):
        """Ends the input, waits for the program's end and returns its status. What it held is gone."""
        try:
            self.process.stdin.close()
        except BrokenPipeError:
            pass
        self.process.stdout.close()
        return self.process.wait()


def run(requests, command=PROGRAM):
    """Serves requests by one run of a program, and returns their replies, refused ones too. Raises Ended where replies are lacking."""
    requests = list(requests)
    done = subprocess.run(command, input=b"".join(map(line_of, requests)), stdout=subprocess.PIPE)
    replies = [json.loads(it) for it in done.stdout.splitlines()]
    if done.returncode or len(replies) != len(requests):
        raise Ended(done.returncode)
    return replies


def line_of(request):
    """The line of a request."""
    return json.dumps(request, ensure_ascii=False, separators=(",", ":")).encode() + b"\n"


def fine(request, reply):
    """Returns the reply where it is ok, and else raises Refused."""
    if not reply["ok"]:
        raise Refused(request, reply)
    return reply


def tagged(tags=None, **more):
    """Returns the identifier of these tags, as {dc="x",host="h1"}: their names ascend in it.

    Raises ValueError where a name isn't a letter or _, then letters, digits or _, or where there is no tag."""
    tags = {**(tags or {}), **more}
    wrong = [it for it in tags if not TAG_NAME.fullmatch(it)]
    if wrong or not tags:
        raise ValueError(f"no tag can be named {wrong[0]!r}" if wrong else "an identifier has a tag at least")
    return "{" + ",".join(f'{name}="{escaped(str(tags[name]))}"' for name in sorted(tags)) + "}"


def escaped(value):
    """A tag's value as identifiers spell it."""
    return value.replace("\\", "\\\\").replace('"', '\\"')


def tags_of(identifier):
    """Returns the tags that an identifier of the program's spells, by name; none of a plain one."""
    if not identifier.startswith("{"):
        return {}
    return {name: re.sub(r"\\(.)", r"\1", value) for name, value in TAG.findall(identifier)}
