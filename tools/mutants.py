#!/usr/bin/env python3
"""Plants single wrong edits in the code of a crate, in a copy of the tree, and tells what `rt check` says of each.

    python3 tools/mutants.py CRATE [--max N] [--only WORD] [--list]

An edit is another comparison or operator, a constant one greater, a condition turned, a write or a call left out,
another variant of the same enum, or another field of the same type. N that are programs are tried, 24 if left out, taken
in turn from the kinds and spread over the functions; the choice depends on the text of the sources alone. --only takes the
functions whose file and name contain WORD. --list names the edits and tries none.

    passes      the check of the crate holds: the edit changes nothing that can be seen, or a contract is too weak
    refused     it does not, with its first message
    not-source  the edited text is no program
"""
import argparse
import hashlib
import re
import shutil
import subprocess
import sys
import tempfile
from collections import defaultdict
from pathlib import Path

HEAD = re.compile(r"^\s*(?:pub(?:\([a-z]+\))? )?(?:const )?(?:extern \"C\" )?fn (\w+)")
CONST = re.compile(r"^(?:pub(?:\([a-z]+\))? )?const (\w+): \w+ = \d")
SKIP = re.compile(r"^\s*(//|#|ghost\b|use\b|pub use\b|mod\b|pub mod\b|requires\b|ensures\b|type\b|impl\b|pub trait\b|trait\b|invariant\b|decreases\b)")
SWAPS = [
    ("comparison", r" <= ", " < "), ("comparison", r" < ", " <= "), ("comparison", r" >= ", " > "),
    ("comparison", r" > ", " >= "), ("comparison", r" == ", " != "), ("comparison", r" != ", " == "),
    ("operator", r" \+ ", " - "), ("operator", r" - ", " + "), ("operator", r" \* ", " + "), ("operator", r" / ", " * "),
    ("operator", r" && ", " || "), ("operator", r" \|\| ", " && "), ("operator", r"\.min\(", ".max("), ("operator", r"\.max\(", ".min("),
    ("operator", r"\.is_some\(\)", ".is_none()"), ("operator", r"\.is_none\(\)", ".is_some()"),
    ("constant", r"\btrue\b", "false"), ("constant", r"\bfalse\b", "true"),
]
NUMBER = re.compile(r"(?<![\w.'])(\d[\d_]*)(?![\w.]*[\w'])")
WRITE = re.compile(r"^\s*(?:self|\w+)(?:\.\w+)+ (?:[-+]?=) .*;$")
CALL = re.compile(r"^\s*(?:self|\w+)(?:\.\w+)*\.\w+\(.*\)\??;$")
IF = re.compile(r"^(\s*(?:\} else )?if )((?!let )[^{]+)( \{.*)$")
VARIANT = re.compile(r"\b([A-Z]\w+)::([A-Z]\w+)\b")


def sources(crate):
    for path in sorted((Path("crates") / crate / "src").rglob("*.rt")):
        if "tests" not in path.name:
            yield path


def enums_and_fields():
    """The variants without fields of each enum, and for each field the other fields of its type, over all crates."""
    enums, others = {}, defaultdict(set)
    for path in sorted(Path("crates").glob("*/src/**/*.rt")):
        text = path.read_text()
        for name, body in re.findall(r"\benum (\w+)[^{]*\{(.*?)\n\}", text, re.S):
            enums[name] = re.findall(r"^    (\w+)(?: = [^,]+)?,", body, re.M)
        for body in re.findall(r"\bstruct \w+[^{;]*\{(.*?)\n\}", text, re.S):
            by_type = defaultdict(list)
            for field, kind in re.findall(r"^    (?:pub(?:\([a-z]+\))? )?(\w+): ([^,]+),", body, re.M):
                by_type[kind].append(field)
            for fields in by_type.values():
                for field in fields:
                    others[field].update(f for f in fields if f != field)
    return enums, others


def edits_of(line, enums, others):
    """(kind, new line) of each edit of one line."""
    code = line.split("//")[0]
    for kind, old, new in SWAPS:
        for m in re.finditer(old, code):
            yield kind, code[:m.start()] + new + code[m.end():]
    for m in NUMBER.finditer(code):
        yield "constant", code[:m.start()] + str(int(m[1].replace("_", "")) + 1) + code[m.end():]
    if WRITE.match(code):
        yield "write left out", ""
    elif CALL.match(code):
        yield "call left out", ""
    if m := IF.match(code):
        yield "condition", f"{m[1]}!({m[2]}){m[3]}"
    for m in VARIANT.finditer(code):
        kinds = enums.get(m[1], [])
        if m[2] in kinds and len(kinds) > 1 and "=>" not in code[m.end():]:
            yield "variant", code[:m.start(2)] + kinds[(kinds.index(m[2]) + 1) % len(kinds)] + code[m.end(2):]
    for m in re.finditer(r"\.(\w+)\b(?!\()", code):
        for other in sorted(others.get(m[1], ())):
            yield "field", code[:m.start(1)] + other + code[m.end(1):]


def all_edits(crate, only):
    enums, others = enums_and_fields()
    for path in sources(crate):
        name, in_head = "", False
        for i, line in enumerate(path.read_text().split("\n")):
            if m := HEAD.match(line):
                name, in_head = m[1], not line.rstrip().endswith("{")
                continue
            if in_head:
                in_head = line.strip() != "{"
                continue
            if m := CONST.match(line):
                name = m[1]
            if not name or SKIP.match(line) or (only and only not in f"{path} {name}"):
                continue
            for kind, new in edits_of(line, enums, others):
                if new.strip() != line.strip():
                    yield path, i, name, kind, line, new


def in_turn(edits):
    """In turn from the kinds; within a kind the functions that have fewest so far come first."""
    by_kind = defaultdict(list)
    for e in edits:
        by_kind[e[3]].append(e)
    for kind in by_kind:
        by_kind[kind].sort(key=lambda e: hashlib.sha256(f"{e[0].name}{e[2]}{e[4]}{e[5]}".encode()).hexdigest())
    taken, used = [], defaultdict(int)
    while any(by_kind.values()):
        for kind in sorted(by_kind):
            if by_kind[kind]:
                e = min(by_kind[kind], key=lambda e: used[(e[0], e[2])])
                by_kind[kind].remove(e)
                used[(e[0], e[2])] += 1
                taken.append(e)
    return taken


def check(folder):
    run = subprocess.run(["rt", "check"], cwd=folder, capture_output=True, text=True)
    return run.returncode, run.stdout + run.stderr


def judge(status, out):
    if status == 0:
        return "passes", ""
    told = (l for l in out.split("\n") if re.search(r"\berror|no proof:|not proved|cannot ", l) and "waits for" not in l)
    first = next(told, out.strip()[-200:])
    source = re.search(r"^(?:error\[|(?:\./)?src/\S+: error(?:\[|: (?:expected|unknown|mismatched))|rattle: .*src/)", out, re.M)
    return ("not-source" if source else "refused"), first[:240]


def main():
    args = argparse.ArgumentParser()
    args.add_argument("crate")
    args.add_argument("--max", type=int, default=24)
    args.add_argument("--only", default="")
    args.add_argument("--list", action="store_true")
    args = args.parse_args()
    edits = list(all_edits(args.crate, args.only))
    counts = defaultdict(int)
    with tempfile.TemporaryDirectory() as top:
        folder = Path(top) / "crates" / args.crate
        if not args.list:
            shutil.copytree("crates", Path(top) / "crates", symlinks=True)
            shutil.copy("crates.txt", top)
            status, out = check(folder)
            if status != 0:
                sys.exit(f"the crate's own check fails:\n{out[-2000:]}")
        for path, i, name, kind, old, new in in_turn(edits):
            if counts["refused"] + counts["passes"] + counts["listed"] == args.max:
                break
            place = f"{path.relative_to(Path('crates') / args.crate)}:{i + 1} {name}"
            print(f"{place} [{kind}]\n    {old.strip()}\n    {new.strip() or '(left out)'}", flush=True)
            if args.list:
                counts["listed"] += 1
                continue
            planted = Path(top) / path
            lines = planted.read_text().split("\n")
            lines[i] = new
            kept = planted.read_text()
            planted.write_text("\n".join(lines))
            verdict, why = judge(*check(folder))
            planted.write_text(kept)
            counts[verdict] += 1
            print(f"    {verdict}: {why}", flush=True)
    print(f"edits crate={args.crate} possible={len(edits)} "
          + " ".join(f"{k}={n}" for k, n in sorted(counts.items())))


main()
