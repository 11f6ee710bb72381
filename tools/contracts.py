"""Reads the contracts of a crate's functions from its sources, for `tools/calling` and `tools/rows`."""
import re
from pathlib import Path

TOP = Path(__file__).resolve().parent.parent
CRATES = TOP / "crates"


def shortened(clause, head):
    """Returns a clause of the function with this first line as pages quote it: `S` stands for what `self` points to at the call, `S'` for that
    at the return, and `x` for `x.now`."""
    kind, label, text = re.fullmatch(r"(requires|ensures)\*?\s*(\w*) \{ (.*) \}", clause).groups()
    for old, new in (("self.old", "S"), ("self.new", "S'"), ("self.now", "S")):
        text = re.sub(rf"\b{re.escape(old)}\b", new, text)
    for it in re.findall(r"(\w+): ", head):
        text = re.sub(rf"\b{it}\.now\b", it, text)
    return f"  {kind}{' ' * bool(label)}{label}: {text}"


def functions(name):
    """Returns, for each function of a crate by its name with that of its type, its first line and its clauses as pages quote them."""
    found, owner = {}, ""
    for file in sorted((CRATES / name / "src").glob("*.rt")):
        head, own, clause = "", None, ""  # the first line and the clause as far as they were read; the function's lines, until its body begins
        for line in file.read_text().splitlines():
            it = line.strip()
            if line.startswith(("impl", "}")):
                named = re.search(r"(\w+)(?:<[^>]*>)? \{", line) if line.startswith("impl") else None  # no tuple is
                owner = f"{named[1]}::" if named else ""
            if it in ("{", "{}") or it.endswith(" {") and not clause:
                head, own = "", None
            elif own is not None and (clause or re.match(r"(requires|ensures)\b", it)):
                clause = f"{clause} {it}".strip()
                if it.endswith(" }"):
                    own.append(shortened(clause, head))
                    clause = ""
            elif own is None and (head or re.match(r"(pub )?fn \w", it)):
                head = f"{head} {it}".strip()
                if re.search(r"\)( -> .*)?$", it):
                    head = re.sub(r"\( ", "(", re.sub(r",? \)", ")", head.removeprefix("pub "))).replace("fn ", f"fn {owner}", 1)
                    own = found[re.match(r"fn ([\w:]+)", head)[1]] = [head]
    return found
