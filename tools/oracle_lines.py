"""The grammar of request lines, as docs/REQUESTS.md has it. `tools/oracle.py` says what this is for.

It was written from that page alone. `read_line` turns a line into a request, or raises `Refused` with `form` or `later`, and says
in words what is wrong with the line, for `tools/explain`.
"""
import difflib
import json
import re
from dataclasses import dataclass
from typing import Any, Callable

Request = dict[str, Any]
Reader = Callable[[Any], Any]

TIME_END = 2**62
DURATION_END = 2**40
SEED_END = 2**32
MOST_ID_BYTES = 512
MOST_TAGS = 32
MOST_DEPTH = 127
CODES = {"form": 1, "order": 3, "unknown": 4, "limit": 5, "clock": 6, "consistency": 7, "busy": 8, "group": 9, "peers": 10, "disk": 11, "state": 12, "full": 14, "later": 16}


class Refused(Exception):
    """A refusal: its reply has the code, the error's name and these fields. `why` says of a line what is wrong with it."""

    def __init__(self, error: str, why: str = "", **fields: Any):
        super().__init__(error)
        self.error, self.why, self.fields = error, why, fields

    def reply(self) -> Request:
        return {"ok": False, "code": CODES[self.error], "error": self.error, **self.fields}


def demand(holds: bool, why: str) -> None:
    if not holds:
        raise Refused("form", why)


MOST_SHOWN = 60  # characters of a value


def demand_of(value: Any, holds: bool, wanted: str) -> None:
    """Refuses a value that isn't what is wanted, and shows it."""
    if not holds:
        shown = json.dumps(value, ensure_ascii=False)
        raise Refused("form", f" is {shown if len(shown) <= MOST_SHOWN else shown[:MOST_SHOWN] + '..'}, not {wanted}")


def within(part: str, read: Reader, value: Any) -> Any:
    """Reads a part of a value; a refusal says which part it is of."""
    try:
        return read(value)
    except Refused as refused:
        raise Refused(refused.error, part + refused.why) from None


# ---- JSON

def whole_or_not(digits: str) -> int | float:
    """A number without fraction and exponent. What lies beyond 64 bits is no whole number, and neither is -0."""
    number = int(digits) if len(digits) < 30 else 2**64
    return number if digits != "-0" and -2**63 <= number < 2**64 else finite(digits)


def finite(digits: str) -> float:
    number = float(digits)
    demand(abs(number) != float("inf"), f"isn't JSON: {digits:.20} is beyond a 64-bit float's range")
    return number


def no_constant(word: str) -> None:
    raise Refused("form", f"isn't JSON: it has the word {word}")


def last_values(pairs: list[tuple[str, Any]]) -> dict[str, Any]:
    for key, value in pairs:
        demand(is_text(key) and is_text(value), "isn't JSON: a text has half a pair of surrogates")
    return dict(pairs)


def is_text(value: Any) -> bool:
    """Whether no text within this has half a pair of surrogates."""
    if isinstance(value, list):
        return all(map(is_text, value))
    return not isinstance(value, str) or not any("\ud800" <= it <= "\udfff" for it in value)


STRING = re.compile(r'"(?:[^"\\]|\\.)*"', re.DOTALL)


def is_flat(text: str) -> bool:
    """Whether arrays and objects stand at most `MOST_DEPTH` deep in each other."""
    depth = 0
    for sign in re.findall(r"[\[\]{}]", STRING.sub("", text)):
        depth += 1 if sign in "[{" else -1
        if depth > MOST_DEPTH:
            return False
    return True


def read_json(line: bytes) -> Any:
    try:
        text = line.decode("utf-8")
        demand(is_flat(text), f"isn't JSON here: arrays and objects stand more than {MOST_DEPTH} deep in each other")
        return json.loads(text, object_pairs_hook=last_values, parse_int=whole_or_not, parse_float=finite,
                          parse_constant=no_constant)
    except UnicodeDecodeError as error:
        raise Refused("form", f"isn't UTF-8 from its byte {error.start + 1} on") from None
    except json.JSONDecodeError as error:
        mark = line.startswith(b"\xef\xbb\xbf")
        why = "begins with a byte order mark: save the file without it" if mark else f"isn't JSON: {error.msg.removesuffix(' at')}, at column {error.colno}"
        raise Refused("form", why) from None


# ---- values

def spelled(bound: int) -> str:
    """A bound, by its power of two where it is great."""
    if abs(bound) < 2**32 - 1:
        return str(bound)
    return f"-2^{(-bound).bit_length() - 1}" if bound < 0 else f"2^{bound.bit_length()} - 1"


def whole(least: int, end: int, advice: str = "") -> Reader:
    """A whole number from `least` on, below `end`."""
    wanted = f"a whole number from {spelled(least)} to {spelled(end - 1)}{advice and f' ({advice})'}"

    def read(value: Any) -> int:
        demand_of(value, type(value) is int and least <= value < end, wanted)
        return value
    return read


def text(value: Any) -> str:
    demand_of(value, isinstance(value, str), "a text")
    return value


NAME = re.compile(r"[A-Za-z0-9_-]{1,32}")


def name(value: Any) -> str:
    demand_of(value, NAME.fullmatch(text(value)) is not None, "a name of 1 to 32 letters, digits, _ or -")
    return value


def one_of(*words: str) -> Reader:
    def read(value: Any) -> str:
        demand_of(value, value in words and isinstance(value, str), f"one of {', '.join(words)}")
        return value
    return read


def many(least: int, most: int, *fields: Reader) -> Reader:
    """An array of `least` to `most` arrays with these fields."""
    def read_item(item: Any) -> tuple:
        demand_of(item, isinstance(item, list) and len(item) == len(fields), f"an array of {len(fields)}")
        return tuple(within(f", part {at}", *both) for at, both in enumerate(zip(fields, item), 1))

    def read(value: Any) -> list[tuple]:
        demand_of(value, isinstance(value, list) and least <= len(value) <= most, f"an array of {least} to {most} arrays")
        return [within(f", item {at}", read_item, item) for at, item in enumerate(value, 1)]
    return read


TAG_NAME = re.compile(r"[A-Za-z_][A-Za-z0-9_]*")
TAG = re.compile(r'([A-Za-z_][A-Za-z0-9_]*)="((?:[^"\\]|\\["\\])*)"', re.DOTALL)


def tags_of(identifier: str) -> dict[str, str] | None:
    """The tags that an identifier spells, none of a plain one; or nothing where it is no identifier."""
    if not 1 <= len(identifier.encode()) <= MOST_ID_BYTES:
        return None
    if not identifier.startswith("{"):
        return {}
    tags: dict[str, str] = {}
    at, last = 1, ""
    while (found := TAG.match(identifier, at)) and found[1] > last:
        last, at = found[1], found.end()
        tags[last] = re.sub(r"\\(.)", r"\1", found[2])
        if identifier[at:] == "}":
            return tags if len(tags) <= MOST_TAGS else None
        if identifier[at:at + 1] != ",":
            return None
        at += 1
    return None


IDENTIFIER = ('an identifier of 1 to 512 bytes (a text that doesn\'t begin with {, or tags as {dc="x",host="h1"}, '
              'whose names ascend)')


def identifier(value: Any) -> str:
    demand_of(value, tags_of(text(value)) is not None, IDENTIFIER)
    return value


def tag_name(value: Any) -> str:
    demand_of(value, TAG_NAME.fullmatch(text(value)) is not None, "a tag's name: a letter or _, then letters, digits or _")
    return value


# ---- rows

@dataclass
class Row:
    """The fields that an op must have, and those that it may have."""
    must: dict[str, Reader]
    may: dict[str, Reader]


FRACTIONS = "scale what has a fraction"
time = whole(0, TIME_END)
duration = whole(0, DURATION_END, "count in seconds or milliseconds")
write_level = one_of("one", "majority", "all")
read_level = one_of("one", "majority", "all", "unstrict")
ROWS = {
    "init": Row({"rf": whole(1, 6), "shards": whole(1, 65), "seed": whole(0, SEED_END), "nodes": many(1, 16, name, name)}, {}),
    "namespace": Row({"name": name, "block": duration, "past": duration, "future": duration, "retention": duration}, {}),
    "now": Row({"now": time}, {}),
    "write": Row({"ns": name, "id": identifier, "t": time, "v": whole(-2**63, 2**63, FRACTIONS)}, {"level": write_level, "version": time}),
    "fetch": Row({"ns": name, "id": identifier, "from": time, "to": time}, {"level": read_level, "version": time}),
    "match": Row({"ns": name, "where": many(0, 16, tag_name, one_of("=", "!="), text), "from": time, "to": time},
                 {"level": read_level, "version": time}),
    "fates": Row({"list": many(0, 1024, whole(0, 9), time, name, one_of("lose", "twice", "late"))}, {}),
    "deliver": Row({}, {}),
    "stop": Row({"node": name}, {}),
    "restart": Row({"node": name}, {"pick": time}),
    "bootstrap": Row({"node": name}, {"shard": whole(0, 64)}),
    "add": Row({"node": name, "group": name}, {}),
    "drain": Row({"node": name}, {}),
    "cancel": Row({"node": name}, {}),
    "remove": Row({"node": name}, {}),
    "replace": Row({"node": name, "by": name, "group": name}, {}),
    "tick": Row({}, {}),
    "flush": Row({}, {}),
    "snapshot": Row({}, {}),
    "repair": Row({}, {}),
    "status": Row({}, {}),
}
LATER = ("repair",)
LATER_WHATEVER_ELSE = ("par",)


def check_whole(request: Request) -> None:
    """What the grammar asks of several fields together."""
    match request["op"]:
        case "init":
            demand(are_different([node for node, _ in request["nodes"]]), "`nodes` names a node twice")
        case "namespace":
            block = request["block"]
            demand(block >= 1, "`block` is 0, where at least 1 is wanted")
            demand(block <= request["retention"], "`retention` is below `block`")
            for key in ("past", "future"):
                demand(request[key] < block, f"`{key}` isn't below `block`")
        case "fates":
            demand(are_different([fate[:3] for fate in request["list"]]), "`list` has two fates of one client, call and node")


def are_different(items: list) -> bool:
    return len(set(items)) == len(items)


def is_later(request: Request) -> bool:
    return request["op"] in LATER


def served_op(value: Any) -> str:
    op = text(value)
    if op in LATER_WHATEVER_ELSE:
        raise Refused("later", f" is {op}, which isn't served yet")
    if op not in ROWS:
        near = difflib.get_close_matches(op.lower(), ROWS, 1, 0.8)
        demand_of(op, False, "an op" + (f"; `{near[0]}` is one" if near else ""))
    return op


def row_of(value: Any) -> Row:
    """The row of the op that a line names."""
    demand(isinstance(value, dict), "isn't an object")
    demand("op" in value, "has no field `op`")
    return ROWS[within("`op`", served_op, value["op"])]


def read_line(line: bytes) -> Request:
    value = read_json(line)
    row = row_of(value)
    readers = {"op": text, **row.must, **row.may}
    for key in value:
        demand(key in readers, f"`{value['op']}` has no field `{key:.{MOST_SHOWN}}`")
    for key in row.must:
        demand(key in value, f"`{value['op']}` lacks the field `{key}`")
    request = {key: within(f"`{key}`", readers[key], field) for key, field in value.items()}
    check_whole(request)
    if is_later(request):
        raise Refused("later", f"`op` is {request['op']}, which isn't served yet")
    return request
