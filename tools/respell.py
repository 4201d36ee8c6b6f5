#!/usr/bin/env python3
"""Respells the repository's own definitions and lemmas: words in snake case, facts and types in camel case.

usage: tools/respell.py [--list]     at the top of the repository, once, after port.py

Turned are the names that specs/ and proofs/ declare, wherever they stand in .antt files, in clauses, ghost items and ghost use lines of .rt files,
and in must-fail and planted edits, and between backquotes in pages; then the aliases of ghost use lines. Goals keep the names that the check gives them. Rust's own names, strings,
comments of .rt files, inputs and outputs are left. It stops, and writes nothing, where two names would fall together.
Last, an impl loses its name, and a method that another script took for a clause's word gets its own name back.
"""
import os
import re
import sys

NAME = r"[A-Za-z_][A-Za-z0-9_']*(?:-[A-Za-z0-9_']+)*"
TOKEN = re.compile(rf"(?<![\w'-])(?:{NAME})(?![\w'-]|-\w)")
DECLARED = re.compile(rf"^\s*(?:(?:abbrev|unfoldable|pub|data|record|opaque) )*({NAME})((?: \(.*\)| \{{.*\}})*) :", re.M)


# Not the rule's spelling, since a function of src/ that cites it has that name.
OWN_SPELLING = {"address-byte": "address_byte_of"}
# These meet only a function of src/ in the path of its goals, or an alias of another file.
STAND_APART = {"answer-of", "long-lines-are-wrong", "one-meaning", "orders-are-framed", "orders-are-read-back", "rank-of", "read-bytes", "reads-back", "run-slots", "three-digits"}


def files(ending):
    for folder, dirs, names in os.walk("."):
        dirs[:] = sorted(d for d in dirs if d not in ("out", ".git", "target"))
        for name in sorted(names):
            if name.endswith(ending):
                yield os.path.join(folder, name)


def read(path):
    with open(path, encoding="utf-8") as f:
        return f.read()


def spelt(name):
    """The name in today's spelling."""
    if name in OWN_SPELLING:
        return OWN_SPELLING[name]
    parts = [p for p in name.split("-") if p]
    if name[0].isupper():
        return "".join(p[0].upper() + p[1:] for p in parts)
    snake = "_".join(parts).replace("getD", "get_or")
    return re.sub(r"(?<=[a-z0-9])[A-Z]", lambda m: "_" + m[0].lower(), snake)


def turned():
    """Old name to new, of what the repository declares; the names that goals have are left."""
    declared, goals = set(), set()
    for path in files(".antt"):
        text = read(path)
        goals |= set(re.findall(rf"(?:goal|given)\.({NAME})", text))
        declared |= {m[1] for m in DECLARED.finditer(text)}
    return {n: spelt(n) for n in declared - goals if spelt(n) != n}


def aliases():
    """Old alias to new, of ghost use lines."""
    found = {}
    for path in files(".rt"):
        for line in read(path).splitlines():
            if line.lstrip().startswith("ghost use"):
                for alias in re.findall(r" as ([a-z]+(?:[A-Z][a-z]*)+)", line):
                    found[alias] = spelt(alias)
    return found


def ghost_spans(text):
    """Where clauses, ghost items and ghost use lines stand in a .rt file, comments left out."""
    for m in re.finditer(r"(?<![\w/])(?:requires|ensures|ghost)\b[^;{\n]*[{;\n]", text):
        line = text[text.rfind("\n", 0, m.start()) + 1 : m.start()]
        if "//" in line or '"' in line:
            continue
        if "use" in m[0].split():
            yield m.start(), text.index(";", m.start())
        elif m[0].endswith("{"):
            depth, i = 1, m.end()
            while depth:
                depth += {"{": 1, "}": -1}.get(text[i], 0)
                i += 1
            yield m.start(), i


def swap(text, names):
    return TOKEN.sub(lambda m: names.get(m[0], m[0]), text)


def turn_rt(text, names):
    out, at = [], 0
    for begin, end in sorted(ghost_spans(text)):
        if begin >= at:
            out += [text[at:begin], swap(text[begin:end], names)]
            at = end
    return "".join(out) + text[at:]


def turn_edit(text, names):
    return "\n".join(swap(line, names) if re.match(r"(old|new): .*(requires|ensures|ghost) ", line) else line for line in text.split("\n"))


def without(text, gone):
    """A .rt file whose use lines leave out these names."""

    def line(m):
        if m[3] is None:
            return "" if m[2] in gone else m[0]
        kept = [n for n in re.split(r",\s*", m[3].strip(" ,\n")) if n not in gone]
        if not kept:
            return ""
        return m[1] + (kept[0] if len(kept) == 1 else "{" + ", ".join(kept) + "}") + ";\n"

    return re.sub(r"^((?:pub )?use (?:\w+::)+)(?:(\w+)|\{([^{}]*)\});\n", line, text, flags=re.M)


def impls(text):
    """An impl without its name, and uses without it."""
    gone = re.findall(r"\bimpl(?:<[^{]*?>)? [^{;]*? as (\w+)\s*(?:where|\{)", text)
    return re.sub(r"(?:pub )?(impl\b[^{;]*?) as \w+(?=\s*(?:where|\{))", r"\1", text), gone


def main(argv):
    names, also = turned(), aliases()
    taken = set()
    for path in files(".antt"):
        taken |= set(TOKEN.findall(read(path)))
    for path in files(".rt"):
        taken |= {m for b, e in ghost_spans(read(path)) for m in TOKEN.findall(read(path)[b:e])}
    together = sorted((o, n) for o, n in names.items() if n in taken and o not in STAND_APART)
    backwards = {}
    for old, new in names.items():
        backwards.setdefault(new, []).append(old)
    together += sorted((tuple(o), n) for n, o in backwards.items() if len(o) > 1)
    if "--list" in argv:
        for old, new in sorted(names.items()):
            print(old, new)
        for old, new in sorted(also.items()):
            print("alias", old, new)
    for pair in together:
        print("falls together:", *pair)
    if "--list" in argv or together:
        return 1
    gone = set()
    for path in files(".rt"):
        old = read(path)
        new, named = impls(re.sub(r"\b(\w+) as \1\b", r"\1", turn_rt(old, names | also)))
        gone |= set(named)
        new = new.replace("self.device.pre(", "self.device.accepts(")
        if new != old:
            with open(path, "w", encoding="utf-8") as f:
                f.write(new)
    for path in files(".rt"):
        old = read(path)
        new = without(old, gone)
        if new != old:
            with open(path, "w", encoding="utf-8") as f:
                f.write(new)
    for path in files(".antt"):
        old = read(path)
        new = swap(old, names)
        if new != old:
            with open(path, "w", encoding="utf-8") as f:
                f.write(new)
    for path in files(".edit"):
        old = read(path)
        new = turn_edit(old, names | also)
        if new != old:
            with open(path, "w", encoding="utf-8") as f:
                f.write(new)
    for path in files(".md"):
        old = read(path)
        new = re.sub(r"`[^`\n]+`", lambda m: swap(m[0], names), old)
        if new != old:
            with open(path, "w", encoding="utf-8") as f:
                f.write(new)
    print("impls that had a name:", *sorted(gone))
    return 0


if __name__ == "__main__":
    raise SystemExit(main(sys.argv[1:]))
