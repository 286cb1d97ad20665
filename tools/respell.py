#!/usr/bin/env python3
"""Brings this repository's own names in antt to today's spelling: words joined by `_`, no humps, no dashes.

usage: python3 tools/respell.py           at the top, once, right after the kit's port.py
       python3 tools/respell.py --table   prints the table, old and new; whole only where it has not run yet

The table is made of what specs/ and proofs/ declare (definitions, lemmas, records' fields, constructors), not of functions' own proof files.
A name that the library has too keeps its spelling in a file that imports the library's. Functions of src/, strings, inputs and outputs are left alone.
"""

import collections
import os
import re
import sys

OWN = "lent float aabb triangle tree builder walk accept trusted sky street watts stl pigeonmast report demands survey replay ground_main builder_main walk_main".split()
TOKEN = re.compile(r"[^\s(){}\[\].;,@\"«»`|]+")
HEAD = re.compile(r"^\s*(?:(?:pub|abbrev|unfoldable)\s+)*(?:(record|data|module|ruleset)\s+)?([^\s(){}\[\]:;,.]+)\s*(?:\(|\{|:|where|=)")
# A name whose new spelling would be another's: the lemma gets `_lem`, as the library's style has it, or a word more.
APART = {
    name: name.replace("-", "_") + "_lem"
    for name in "grown-by empty-box box-at box-numbers served-reply same-hit root-of hit-line miss-line refused-line times-of file-length vector-bytes bounds-at parts-figures is-nan under_at told_of".split()
}


def snake(name):
    out = re.sub(r"(?<=[a-z0-9])(?=[A-Z])", "_", name)
    out = re.sub(r"_([A-Z])(?=[a-z0-9_]|$|')", lambda m: "_" + m[1].lower(), out)
    out = re.sub(r"(?<=[A-Za-z0-9'])-(?=[A-Za-z0-9])", "_", out)
    return out


def files(ends):
    for top in ("crates",):
        for folder, dirs, names in os.walk(top):
            dirs[:] = sorted(d for d in dirs if d != "out")
            for n in sorted(names):
                if n.endswith(ends):
                    yield os.path.join(folder, n)


def read(path):
    with open(path, encoding="utf-8", newline="") as f:
        return f.read()


def of_function(path):
    return os.path.basename(path) in ("Proof.antt", "Answers.antt", "Invariants.antt")


def imports(text):
    """Each name that a `use` brings, with whether its module is the repository's own."""
    for m in re.finditer(r"(?:ghost )?use ([^\s;{]+?)\.?\{([^}]*)\}", text):
        own = any(m[1].startswith("Rattle." + c + ".") for c in OWN)
        for part in m[2].split(","):
            for name in part.split(" as "):
                yield name.strip(), own


def table():
    own, where = {}, collections.defaultdict(set)
    for path in files(".antt"):
        if of_function(path):
            continue
        for line in read(path).split("\n"):
            if line.strip().startswith("--") or line.startswith("use "):
                continue
            m = HEAD.match(line)
            if m and m[1] != "module" and m[2][0].islower():
                where[m[2]].add(path)
                new = APART.get(m[2], snake(m[2]))
                if new != m[2]:
                    own[m[2]] = new
    return own, where


def turned(text, own):
    kept = {name for name, mine in imports(text) if not mine}
    spare = '"(?:[^"\\\\\n]|\\\\.)*"'

    def token(m):
        t = m[0]
        if t[0] == '"':
            return t
        if t in own and t not in kept:
            return own[t]
        return t

    return re.sub(spare + "|" + TOKEN.pattern, token, text)


def main():
    own, where = table()
    if "--table" in sys.argv:
        for k in sorted(own):
            print(k, own[k])
        return
    for path in files((".antt", ".rt", ".edit")):
        text = read(path)
        new = turned(text, own)
        if new != text:
            with open(path, "w", encoding="utf-8", newline="") as f:
                f.write(new)
    # In the pages, and in comments, the names that the kit's script had turned already follow too.
    declared = set(table()[1])

    def cited(m):
        return TOKEN.sub(lambda k: snake(k[0]) if snake(k[0]) in declared else k[0], turned(m[0], own))

    pages = [os.path.join(top, n) for top in (".", "docs", "docs/changes") for n in sorted(os.listdir(top)) if n.endswith(".md")]
    for path in [*pages, *files((".antt", ".rt"))]:
        text = read(path)
        line = r"[^\n]*" if path.endswith(".md") else r"(?:--|//)[^\n]*"
        new = re.sub(line, lambda m: re.sub(r"`[^`\n]*`", cited, m[0]), text)
        if new != text:
            with open(path, "w", encoding="utf-8", newline="") as f:
                f.write(new)


if __name__ == "__main__":
    main()
