"""The files of volumes and snapshots, byte by byte, as docs/FORMAT.md has them. `tools/oracle.py` says what this is for.

A file is named by its kind, its namespace, its block and its number.
"""
import hashlib

Name = tuple[int, int, int, int]
Files = dict[Name, bytes]
Points = list[tuple[int, int]]  # times with their values

PARTS = {1: "info", 2: "summaries", 3: "index", 4: "data", 5: "bloom", 6: "digests"}  # of a volume, whose checkpoint is of kind 7
EACH_SUMMARY = 16


def number(value: int, size: int) -> bytes:
    return value.to_bytes(size, "big", signed=value < 0)


def digest(data: bytes) -> bytes:
    return hashlib.sha256(data).digest()


def identifier(series: str) -> bytes:
    return number(len(series.encode()), 2) + series.encode()


def bloom_filter(rows: dict[str, Points]) -> bytes:
    count = 16 * len(rows)
    bits = bytearray(count // 8)
    for series in rows:
        named = digest(series.encode())
        for at in range(0, 16, 4):
            bit = int.from_bytes(named[at:at + 4], "big") % count
            bits[bit // 8] |= 1 << bit % 8
    return number(count, 4) + bytes(bits)


def checkpoint(data: bytes) -> bytes:
    """That of the digests of a volume, or of a snapshot's data: its gate is open."""
    return b"\1" + digest(data)


def volume(ns: int, start: int, size: int, of_number: int, rows: dict[str, Points]) -> Files:
    """The seven files of a volume of these series, whose identifiers ascend."""
    data = index = summaries = b""
    for at, (series, points) in enumerate(rows.items()):
        record = identifier(series) + number(len(points), 4) + b"".join(number(t, 8) + number(v, 8) for t, v in points)
        summaries += identifier(series) + number(len(index), 8) if at % EACH_SUMMARY == 0 else b""
        index += identifier(series) + number(len(data), 8) + number(len(record), 4)
        data += record
    counts = number(len(rows), 4) + number(sum(map(len, rows.values())), 8)
    info = b"\1" + number(ns, 1) + number(start, 8) + number(size, 8) + number(of_number, 8) + counts
    parts = [info, summaries, index, data, bloom_filter(rows)]
    digests = b"".join(map(digest, parts))
    return {(kind, ns, start, of_number): part for kind, part in enumerate([*parts, digests, checkpoint(digests)], 1)}


def snapshot(of_number: int, tenure: int, fence: int, segment: int, points: list[tuple[int, str, int, int]]) -> Files:
    """The two files of a snapshot, of points with ascending keys; the segment is the first one that is needed beside it."""
    head = b"\1" + b"".join(number(it, 8) for it in (of_number, tenure, fence, segment)) + number(len(points), 4)
    data = head + b"".join(number(ns, 1) + identifier(series) + number(t, 8) + number(v, 8) for ns, series, t, v in points)
    return {(8, 0, 0, of_number): data, (9, 0, 0, of_number): checkpoint(data)}
