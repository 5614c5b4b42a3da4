#!/usr/bin/env python3
"""Brings the names of this repository's own definitions and lemmas to today's spelling: words in snake case, types in camel case.

usage: python3 tools/respell.py        at the top of a checkout, once, right after port.py (docs/PORT.md)

It goes by text, over crates/, README.md, CONTRIBUTING.md, docs/ and the comments of compare/. A name is turned where it is declared in specs/ or in a
file of lemmas; names that Rattle makes for goals and steps are left (their files are written anew). Must-fail edits are not turned here: docs/PORT.md says how.
"""
import collections
import glob
import os
import re

DECL = re.compile(r"^\s*(?:(?:abbrev|unfoldable)\s+)?(?:pub\s+)?([^\s(){}:;.,λ\"]+)\s+:(?:\s|$)")
W = r"[^\s(){}.;,@\"«»\[\]\\`]+"
# fields of records that would have the name of a definition that their own type cites
FIELDS = {"levels-in": "levels_in_range", "gap-taken": "gap_is_taken"}


def read(p):
    with open(p, encoding="utf-8") as f:
        return f.read()


def write(p, t):
    if read(p) != t:
        with open(p, "w", encoding="utf-8") as f:
            f.write(t)


def snake(n):
    s = n.replace("-", "_")
    if not s[:1].isupper():
        s = re.sub(r"([a-z0-9'])([A-Z])", lambda m: m.group(1) + "_" + m.group(2).lower(), s)
    return s


def files(*patterns):
    return sorted({p for g in patterns for p in glob.glob(g, recursive=True) if os.path.isfile(p) and "/out/" not in p and "/target/" not in p})


def imported_from_elsewhere():
    """The names that come from the library, which keep their spelling."""
    own = {c for c in os.listdir("crates") if os.path.isdir("crates/" + c)}
    names = set()
    for p in files("crates/*/specs/**/*.antt", "crates/*/proofs/**/*.antt", "crates/*/src/**/*.rt"):
        for m in re.finditer(r"^(?:pub |ghost )?use ([^\s{;]+)\.\{([^}]*)\}", read(p), re.M):
            c = re.match(r"Rattle\.(\w+)\.", m.group(1))
            if (c and c.group(1) in own and ".declared" not in m.group(1) and not re.search(r"\.(Tie|Statement)$", m.group(1))):
                continue
            names |= {n.split(" as ")[0].strip() for n in m.group(2).split(",")}
    return names


def declared(p):
    goals = set()
    found = set()
    for line in read(p).split("\n"):
        if line.strip().startswith("--"):
            continue
        m = DECL.match(line)
        if m:
            found.add(m.group(1))
            if re.search(r":\s+tie\.", line) or m.group(1).endswith("-spec"):
                goals.add(m.group(1))
    return found - goals


def rename_of(text, names, only_ticks=False):
    """Turns the tokens of names in text. In comments: what stands in backticks, and words in camel case."""
    def token(m):
        return names.get(m.group(0), m.group(0))

    def code(t):
        return re.sub(W, token, t)

    def comment(t):
        t = re.sub(r"`[^`]*`", lambda m: code(m.group(0)), t)
        return re.sub(r"(?<![\w`-])[a-z0-9]+[A-Z]\w*", token, t)

    if only_ticks:
        return re.sub(r"`[^`\n]*`", lambda m: code(m.group(0)), text)
    out = []
    for line in text.split("\n"):
        at = len(line)
        m = re.search(r"(?:^|\s)(--|//)(\s|$|-)", line)
        if m:
            at = m.start(1)
        out.append(code(line[:at]) + comment(line[at:]))
    return "\n".join(out)


def main():
    keep = imported_from_elsewhere()
    specs, lemmas, helpers = set(), set(), {}
    for p in files("crates/*/specs/**/*.antt"):
        specs |= declared(p)
    for p in files("crates/*/proofs/**/*.antt"):
        if p.endswith("/Proof.antt"):
            helpers[p] = declared(p)
        elif not p.endswith("/Lib.antt"):
            lemmas |= declared(p)
    names = {}
    taken = {n for n in specs | lemmas if snake(n) == n}
    for n in sorted(specs):
        if snake(n) != n and n not in keep:
            names[n] = FIELDS.get(n, snake(n))
            taken.add(names[n])
    for n in sorted(lemmas):
        if snake(n) != n and n not in keep and n not in names:
            s = snake(n)
            names[n] = s + "_lem" if s in taken else s
    # names that fall together, by file
    at = {
        "crates/gamut/": {"table_taken": "table_taken_lem"},
        "crates/palette_checks/": {"table_taken": "table_taken_lem"},
        "crates/placement_rules/proofs/Laws.antt": {"from_start": "from_start_lem"},
        "crates/lamp_input/proofs/": {"goes_on": "goes_on_lem"},
    }
    users = [p for p in files("crates/*/proofs/**/*.antt") if re.search(r"Rattle\.gamut\.proofs\.Table\.\{[^}]*\btable_taken\b", read(p))]
    for p in files("crates/*/specs/**/*.antt", "crates/*/proofs/**/*.antt", "crates/*/src/**/*.rt"):
        t = read(p)
        for where, first in at.items():
            if p.startswith(where) or (p in users and "table_taken" in first):
                t = rename_of(t, first)
        here = dict(names)
        if p in helpers:
            for n in helpers[p]:
                if snake(n) != n and n not in keep and n not in names:
                    here[n] = snake(n)
        write(p, rename_of(t, here))
    # in documents also the names that port.py turned: what is in no source any more, while its new spelling is
    words = set()
    for p in files("crates/*/specs/**/*.antt", "crates/*/proofs/**/*.antt", "crates/*/src/**/*.rt", "crates/*/must-fail/*"):
        words |= set(re.findall(W, read(p)))
    for p in files("README.md", "CONTRIBUTING.md", "docs/**/*.md", "compare/**/*.rs", "compare/*"):
        if p.endswith("PORT.md"):
            continue
        t = read(p)
        for n in {w for tick in re.findall(r"`([^`\n]*)`", t) for w in re.findall(W, tick)}:
            if n not in names and n not in words and snake(n) != n and snake(n) in words:
                names[n] = snake(n)
        write(p, rename_of(t, names, only_ticks=True))
    print(f"{len(names)} names turned; {sum(1 for n in names.values() if n.endswith('_lem'))} lemmas stand beside a definition of that name")


if __name__ == "__main__":
    main()
