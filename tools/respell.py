#!/usr/bin/env python3
"""Brings this repository's own definitions and lemmas to one spelling: words in snake case, types in camel case.

usage: python3 tools/respell.py [--list]      at the top of the repository, once, after the kit's own upgrade script

A name is own where a file of some specs/ or proofs/ folder declares it. `rowAt` becomes `row_at`, `spared-on` becomes
`spared_on`, a type `Set-to-hi` becomes `SetToHi`. Functions of src/, strings, comments, inputs and outputs are left alone.
"""
import collections
import os
import re
import sys

TOKEN = re.compile(r"[A-Za-z_◌][A-Za-z0-9_'?◌\-]*")
DECLARED = re.compile(r"^\s*(?:(?:abbrev|unfoldable|opaque|pattern|pub|record|ghost)\s+)*([A-Za-z][A-Za-z0-9_'?\-]*)\s*(?::|\(|\{)")
ALIAS = re.compile(r"\bas ([a-z][A-Za-z0-9_'?\-]*)")
# A lemma that would have its function's name ends in _lem, and no word has the name of a crate.
CHOSEN = {
    "has-kind": "has_kind_lem",
    "is-kind": "is_kind_lem",
    "front-step": "front_step_lem",
    "leaf-over": "leaf_over_lem",
    "read-row": "read_row_lem",
    "trace-over": "trace_over_lem",
    "is-number": "is_number_lem",
    "tableText": "text_of_table",
}
# the same for lemmas that the kit's script had already turned, each in its crate's proofs alone
TURNED = {"host": {"up_to_zero": "up_to_zero_lem"}, "scale": {"is_odd": "is_odd_lem"}, "book_text": {"is_name": "is_name_lem"}}
KEYWORDS = {"use", "module", "where", "let", "in", "elim", "record", "data", "by", "unfolding", "grind", "omega"}


def files(root, ends):
    for folder, dirs, names in os.walk(os.path.join(root, "crates")):
        dirs[:] = sorted(d for d in dirs if d not in ("out", ".git"))
        for n in sorted(names):
            if n.endswith(ends):
                yield os.path.join(folder, n)


def text(path):
    with open(path, encoding="utf-8") as f:
        return f.read()


def spelt(name):
    """The name in today's spelling."""
    if name[0].isupper():
        if "-" not in name:
            return name
        return "".join(w[:1].upper() + w[1:] for w in name.split("-"))
    out = re.sub(r"(?<=[a-z0-9])([A-Z])", lambda m: "_" + m.group(1).lower(), name)
    return out.replace("-", "_")


def declared(root):
    """Own names, each with the files that declare it."""
    own = collections.defaultdict(set)
    for p in files(root, ".antt"):
        parts = os.path.relpath(p, root).split(os.sep)
        if parts[2] == "proofs" and len(parts) > 4:
            continue
        for line in text(p).splitlines():
            m = DECLARED.match(line)
            if m and m.group(1) not in KEYWORDS:
                own[m.group(1)].add(p)
    for p in files(root, (".antt", ".rt")):
        for line in text(p).splitlines():
            if re.match(r"\s*(ghost )?use ", line):
                for name in ALIAS.findall(line):
                    own[name].add(p)
    return own


def imported(root):
    """Names that some file takes from the library."""
    taken = set()
    crates = set(os.listdir(os.path.join(root, "crates")))
    for p in files(root, (".antt", ".rt")):
        for m in re.finditer(r"use Rattle\.(\w+)\.[\w.+'-]*\.\{([^}]*)\}", text(p)):
            if m.group(1) not in crates:
                taken |= {w.strip().split(" as ")[0] for w in m.group(2).split(",")}
    return taken


def turn_antt(t, names):
    out = []
    for line in t.split("\n"):
        code, dash, comment = line.partition("-- ") if not line.lstrip().startswith("--") else ("", line, "")
        out.append(TOKEN.sub(lambda m: names.get(m.group(0), m.group(0)), code) + dash + comment)
    return "\n".join(out)


SKIP = re.compile(r'//[^\n]*|b?"(?:[^"\\]|\\.)*"')


def turn_rt(t, names):
    out, at = [], 0
    for m in SKIP.finditer(t):
        out.append(TOKEN.sub(lambda k: names.get(k.group(0), k.group(0)), t[at : m.start()]))
        out.append(m.group(0))
        at = m.end()
    out.append(TOKEN.sub(lambda k: names.get(k.group(0), k.group(0)), t[at:]))
    return "".join(out)


def main(argv):
    root = os.getcwd()
    own = declared(root)
    library = imported(root)
    names = {n: CHOSEN.get(n, spelt(n)) for n in own if spelt(n) != n and n not in library}
    if "--list" in argv:
        used = collections.Counter()
        for p in files(root, (".antt", ".rt")):
            used.update(set(TOKEN.findall(text(p))))
        for n in sorted(names):
            print(n, "->", names[n], "" if not used[names[n]] else f"   falls together with a name in {used[names[n]]} files")
        return 0
    for p in files(root, (".antt", ".rt")):
        t = text(p)
        parts = os.path.relpath(p, root).split(os.sep)
        here = names | (TURNED.get(parts[1], {}) if parts[2] == "proofs" else {})
        u = turn_antt(t, here) if p.endswith(".antt") else turn_rt(t, here)
        if u != t:
            with open(p, "w", encoding="utf-8") as f:
                f.write(u)
    return 0


if __name__ == "__main__":
    raise SystemExit(main(sys.argv[1:]))
