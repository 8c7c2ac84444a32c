#!/usr/bin/env python3
"""Spells this repository's own definitions and lemmas as Rattle's library spells its words: in snake case.

usage: python3 tools/respell.py [--list]     at the top of the repository, once, after Rattle's own port.py

A definition such as readRow becomes read_row, a lemma such as flash-within becomes flash_within. Types, modules and functions of src/ keep
their names. Where two names would fall together, the definition in camel case has the plain name and the other ends with _lem; so does
one that would have the name of a word of the library that its file imports. A name is
turned only where a file defines it, imports it, or reaches it by its whole path; so are the one-line texts of must-fail edits, by what
their file imports. With --list nothing is written: the pairs are printed, old and new, one a line.
"""

import collections
import glob
import os
import re
import sys

SIGNATURE = re.compile(r"^\s*((?:(?:abbrev|unfoldable|pub|opaque|ruleset)\s+)*)([^\s:(){}=|,;⊢]+)\s*:(?=\s|$)")
FIELD_OR_CONSTRUCTOR = re.compile(r"^\s+(?:pub\s+)?([^\s:(){}=|,;]+)\s*:(?=\s|$)")
OPENS_RECORD = re.compile(r"^(?:pub\s+)?(record|data)\s")
WORD = r"(?<![\w'\-≡≤≢₀-₉])"
END = r"(?![\w'\-≡≤≢₀-₉])"
OWN_IMPORT = re.compile(r"use\s+Rattle\.([a-z_0-9]+)\.(specs|proofs)\.([\w.+]+?)\.\{([^}]*)\}", re.S)
FOREIGN = re.compile(r"use\s+(?!Rattle\.(?:%s)\.)([\w.+]+?)\.\{([^}]*)\}" % "|".join(os.path.basename(os.path.dirname(p)) for p in glob.glob("crates/*/src")), re.S)


def snake(name):
    if re.match(r"[a-z]", name):
        name = re.sub(r"(?<=[a-z0-9])([A-Z])(?=[a-z]|$|[-_'])", lambda m: "_" + m.group(1).lower(), name)
    return name.replace("-", "_")


def read(path):
    with open(path, encoding="utf-8") as f:
        return f.read()


def proof_of_function(path):
    return os.path.basename(path) in ("Proof.antt", "Answers.antt", "Invariants.antt")


def module_of(path):
    """crates/base/specs/Internal/Putting.antt is Rattle.base.specs.Internal.Putting"""
    parts = path[len("crates/"):-len(".antt")].split("/")
    return "Rattle." + ".".join(parts)


def defined(path, text):
    """The names with a signature in a file, and of them the fields of records."""
    names, fields, kind = set(), set(), None
    for line in text.splitlines():
        line = re.sub(r"(^|\s)--.*", "", line)
        opened = OPENS_RECORD.match(line)
        if opened:
            kind = opened.group(1)
            continue
        if kind and line and not line[0].isspace():
            kind = None
        m = SIGNATURE.match(line)
        if m:
            names.add(m.group(2))
            if kind == "record" and FIELD_OR_CONSTRUCTOR.match(line):
                fields.add(m.group(2))
    return names, fields


def main(argv):
    antt = sorted(glob.glob("crates/*/specs/**/*.antt", recursive=True) + glob.glob("crates/*/proofs/**/*.antt", recursive=True))
    rattle = sorted(glob.glob("crates/*/src/**/*.rt", recursive=True))
    texts = {p: read(p) for p in antt + rattle}
    by_file, by_module, fields = {}, {}, set()
    for p in antt:
        names, its_fields = defined(p, texts[p])
        if proof_of_function(p):
            names = set()
        by_file[p] = names
        by_module[module_of(p)] = names
        fields |= {f for f in its_fields if snake(f) != f}

    every = set().union(*by_file.values())
    falls = collections.defaultdict(set)
    for n in every:
        falls[snake(n)].add(n)
    new = {}
    for to, names in falls.items():
        if len(names) == 1:
            new[next(iter(names))] = to
            continue
        camel = [n for n in names if re.match(r"[a-z]", n) and re.search(r"[A-Z]", n)]
        plain = camel[0] if camel else min(names)
        for n in names:
            new[n] = to if n == plain else to + "_lem"
    for p in antt:
        foreign = set(re.findall(r"[^\s,{}]+", " ".join(items for _, items in FOREIGN.findall(texts[p]))))
        for n in by_file[p]:
            if n != new[n] and new[n] in foreign:
                new[n] += "_lem"
    new = {old: to for old, to in new.items() if old != to}
    clash = [(o, t) for o, t in new.items() if t in every and t not in new]
    if clash:
        print("names that fall together:", clash, file=sys.stderr)
        return 1
    if "--list" in argv:
        for old, to in sorted(new.items()):
            print(old, to)
        return 0

    def imported(text):
        seen = set()
        for m in OWN_IMPORT.finditer(text):
            crate, side, path, items = m.groups()
            there = by_module.get(f"Rattle.{crate}.{side}.{path}", set())
            for item in items.split(","):
                item = item.strip().split(" as ")[0].strip()
                if item in there:
                    seen.add(item)
        return seen

    def turn(text, visible, comments):
        want = {n for n in visible if n in new}
        if want:
            pattern = re.compile(WORD + "(" + "|".join(re.escape(n) for n in sorted(want, key=len, reverse=True)) + ")" + END)

            def put(m):
                before = text_now[:m.start()]
                if before.endswith(".") and m.group(1) not in fields:
                    path = re.search(r"Rattle\.[\w.+]*\.$", before[-200:])
                    if not path:
                        return m.group(1)
                return new[m.group(1)]

            text_now = text
            text = pattern.sub(put, text)
        # fields of records and whole paths, wherever they stand
        wanted = {f for f in fields if f in new}
        if wanted:
            text = re.sub(r"(?<=\.)(" + "|".join(sorted(map(re.escape, wanted), key=len, reverse=True)) + ")" + END, lambda m: new[m.group(1)], text)
            text = re.sub(WORD + "(" + "|".join(sorted(map(re.escape, wanted), key=len, reverse=True)) + r")(?= = )", lambda m: new[m.group(1)], text)

        def whole(m):
            return m.group(1) + "." + (new[m.group(2)] if m.group(2) in by_module.get(m.group(1), set()) and m.group(2) in new else m.group(2))

        text = re.sub(r"(Rattle\.[\w.+]+)\.([A-Za-z][\w'\-]*)" + END, whole, text)
        if comments:
            text = re.sub(r"`([A-Za-z][\w'\-]*)`", lambda m: "`" + new.get(m.group(1), m.group(1)) + "`", text)
        return text

    # the sources
    seen = {}
    for p in antt + rattle:
        seen[p] = imported(texts[p]) | by_file.get(p, set())
        out = turn(texts[p], seen[p], True)
        # names that were there before under another meaning
        for n in seen[p]:
            if n in new and re.search(WORD + re.escape(new[n]) + END, re.sub(r"(?m)(^|\s)(--|//).*", "", texts[p])):
                print(f"look: {p}: {n} becomes {new[n]}, which stands there already")
        if out != texts[p]:
            with open(p, "w", encoding="utf-8") as f:
                f.write(out)
    # the must-fail edits
    for p in sorted(glob.glob("crates/*/must-fail/**/*.edit", recursive=True)):
        crate = p.split("/")[1]
        lines, visible, out = read(p).split("\n"), set(), []
        for line in lines:
            m = re.match(r"file:\s*(\S+)", line)
            if m:
                visible = seen.get(f"crates/{crate}/{m.group(1)}", set())
            if re.match(r"(old|new):", line):
                line = turn(line, visible, False)
            out.append(line)
        if out != lines:
            with open(p, "w", encoding="utf-8") as f:
                f.write("\n".join(out))
    print(f"{len(new)} names of {len(every)} turned")
    return 0


if __name__ == "__main__":
    raise SystemExit(main(sys.argv[1:]))
