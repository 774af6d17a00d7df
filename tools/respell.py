#!/usr/bin/env python3
"""Brings this repository's own names to the library's spelling, once, after the toolchain's port.py:
definitions and lemmas in snake case, a dash only between two names, and no crate named as one of the toolchain's.

usage: python3 tools/respell.py        at the top of a checkout whose crates/ are committed

Names of Rust source, of goals and of steps keep their spelling. What it cannot tell apart it prints as 'clash:'.
"""

import os
import re
import subprocess
import sys

CRATES = {"bytes": "octets"}
LIBRARY = set(
    "length append take drop map get_or set replicate reverse cond concat_map joined count_by sum max min suc zero mod div mul add sub pow le lt eq"
    " List Option Result All Has Every Any".split()
)
# names that would fall together with another in the same file
APART = {"tag-at": "tag_there", "piece_bytes": "piece_bytes_lem", "sealed-size": "sealed_size_lem", "read-ready": "read_ready_lem", "write-ready": "write_ready_lem"}
DECLARED = re.compile(r"^\s*(?:abbrev |unfoldable )?(?:pub )?(?:abbrev |unfoldable )?([^\s(){}:;.,@\"]+) :(?= |$)(.*)", re.M)
WORD = re.compile(r"[^\s(){}.;,@\"«»:]+")
KEYWORDS = {"pub", "let", "use", "in", "where", "module", "λ", "→"}


def texts(root):
    for folder, dirs, files in os.walk(os.path.join(root, "crates")):
        dirs[:] = sorted(d for d in dirs if d != "out")
        for f in sorted(files):
            if f.endswith((".antt", ".rt")):
                yield os.path.join(folder, f)


def snake(part):
    """camelCase as camel_case; a part that begins with a capital is a type or a variant and stays."""
    if not re.match(r"[a-z]", part):
        return part
    return re.sub(r"(?<=[a-z0-9])([A-Z])", lambda m: "_" + m.group(1).lower(), part)


def own_names(root):
    """The names that our specs and proofs declare, but for goals' answers, and the names that a dash may join."""
    names, said = set(), set()
    for p in texts(root):
        if not p.endswith(".antt"):
            continue
        t = open(p, encoding="utf-8").read()
        t = re.sub(r"--[^\n]*", "", t)
        for m in DECLARED.finditer(t):
            if re.match(r"\s*goal\.", m.group(2)) or m.group(1) in KEYWORDS:
                continue
            names.add(m.group(1))
            if "/specs/" in p:
                said.add(snake(m.group(1)))
    return names, said


def spelled(name, said):
    if not re.match(r"[A-Za-z]", name):
        return name
    parts = [snake(p) for p in name.split("-")]
    if any(not re.match(r"[A-Za-z0-9_']+$", p) for p in parts):
        return name
    out = parts[0]
    for i, p in enumerate(parts[1:], 1):
        known = said | LIBRARY
        joins = parts[i - 1] in known and p in known
        out += ("-" if joins else "_") + p
    return out


def table(root):
    names, said = own_names(root)
    rows, back = {}, {}
    for n in sorted(names):
        new = APART.get(n) or spelled(n, said)
        back.setdefault(new, set()).add(n)
        if new != n:
            rows[n] = new
    for new, olds in sorted(back.items()):
        if len(olds) > 1:
            print("clash:", new, "from", " ".join(sorted(olds)))
    return rows


CLAUSE = re.compile(r"((?:requires|ensures)\s*\*?\s*(?:\w+\s*)?\{|ghost\s+\w+\s*[:=]\s*\{|ghost\s*\{)")


def turn(text, rows):
    def word(m):
        w = m.group(0)
        if w not in rows:
            return w
        before = text_now[: m.start()]
        if before.endswith(".") and not before.endswith(".."):
            # behind a dot stands a record's field, a module's name or a step; a step keeps its spelling
            if "-" in w:
                return w
        return rows[w]

    out, at = [], 0
    # comments and strings stay
    for m in re.finditer(r"--[^\n]*|\"[^\"\n]*\"", text):
        text_now = text[at : m.start()]
        out.append(WORD.sub(word, text_now))
        out.append(m.group(0))
        at = m.end()
    text_now = text[at:]
    out.append(WORD.sub(word, text_now))
    return "".join(out)


def close(text, at):
    """The place behind the bracket that closes the one that was opened before at."""
    depth = 1
    while depth and at < len(text):
        depth += {"{": 1, "}": -1}.get(text[at], 0)
        at += 1
    return at


def turn_rt(text, rows):
    """Only clauses, ghost members and ghost imports."""
    out, at = [], 0
    for m in re.finditer(r"ghost\s+use\b[^;]*;|" + CLAUSE.pattern, text):
        if m.start() < at:
            continue
        end = m.end() if m.group(0).startswith("ghost use") else close(text, m.end())
        out.append(text[at : m.start()])
        out.append(turn(text[m.start() : end], rows))
        at = end
    out.append(text[at:])
    return "".join(out)


def crate_names(text, path):
    for old, new in CRATES.items():
        text = re.sub(rf"Rattle\.{old}(?=\.)", f"Rattle.{new}", text)
        if path.endswith(".rt"):
            text = re.sub(rf"(?<![\w:]){old}::", f"{new}::", text)
    return text


def main():
    root = subprocess.run(["git", "rev-parse", "--show-toplevel"], capture_output=True, text=True, check=True).stdout.strip()
    rows = table(root)
    for p in texts(root):
        old = open(p, encoding="utf-8").read()
        new = turn(old, rows) if p.endswith(".antt") else turn_rt(old, rows)
        new = crate_names(new, p)
        if new != old:
            open(p, "w", encoding="utf-8").write(new)
    for old, new in CRATES.items():
        if os.path.isdir(os.path.join(root, "crates", old)):
            os.rename(os.path.join(root, "crates", old), os.path.join(root, "crates", new))
        p = os.path.join(root, "crates.txt")
        lines = []
        for line in open(p, encoding="utf-8"):
            if not line.startswith("#"):
                line = re.sub(rf"(?<![\w]){old}(?![\w])", new, line)
            lines.append(line)
        open(p, "w", encoding="utf-8").write("".join(lines))
    if "--rows" in sys.argv:
        for a, b in sorted(rows.items()):
            print(a, b, sep="\t")
    print(len(rows), "names")


main()
