#!/usr/bin/env python3
"""Respells this repository's own definitions and lemmas: words in snake case, types in camel case.

usage: python3 tools/respell.py [--list]      at the top of the repository, after the kit's own respelling

It reads every .antt file below crates/ for the names that are defined there, in sections, fields and constructors too,
and renames those with a dash wherever they stand: in specs/ and proofs/, and in the clauses of .rt files. Comments and strings stay, and so do the names that the
checker makes (goals, invariants, measures: what a file named Answers, Invariants, Choices or Proof answers). It refuses to
write where two names would fall together. --list prints the names, old and new, and writes nothing.
"""
import os
import re
import sys

HEAD = re.compile(r"^(?:(?:abbrev|unfoldable|pub|ruleset) )*(?:(?:data|record) )?([A-Za-z][\w'\-]*)\s*(?=[\s:({])(?=.*:)")
TOKEN = re.compile(r"[A-Za-z][\w']*(?:-[\w']+)*")
GENERATED = re.compile(r"(Answers|Invariants|Choices|Proof)\.antt$")


def files():
    for folder, dirs, names in os.walk("crates"):
        dirs[:] = sorted(d for d in dirs if d != "out")
        for name in sorted(names):
            if name.endswith((".antt", ".rt")):
                yield os.path.join(folder, name)


def camel(name):
    return "".join(part[:1].upper() + part[1:] for part in name.split("-"))


def new_name(name):
    return camel(name) if name[0].isupper() else name.replace("-", "_")


MEMBER = re.compile(r"^  (?:pub )?([A-Za-z][\w'\-]*) : ")
INNER = re.compile(r"^  (?:pub )?([a-z][\w']*(?:-[\w']+)+) : ")


def defined(path):
    inside = False
    for line in open(path, encoding="utf-8"):
        if line[:1] not in " \n":
            inside = bool(re.match(r"(pub )?(data|record) ", line))
        found = MEMBER.match(line)
        if inside and found:
            yield found.group(1)
        elif INNER.match(line) and not GENERATED.search(path):
            yield INNER.match(line).group(1)
        if line[:1] in " \n" or line.startswith(("--", "use ", "mod ", "pub mod ", "unfolding ")):
            continue
        found = HEAD.match(line)
        if found:
            yield found.group(1)


def pieces(text, mark):
    """The text, cut into parts that are code and parts that are not (comments and strings)."""
    for part in re.split(r"(\"(?:[^\"\\\n]|\\.)*\"|" + re.escape(mark) + r"[^\n]*)", text):
        yield part, part.startswith((mark, '"'))


def main():
    names, plain = {}, set()
    for path in files():
        if not path.endswith(".antt"):
            continue
        own = set(defined(path))
        plain |= own
        if not GENERATED.search(path):
            names.update((n, new_name(n)) for n in own if "-" in n)
        else:
            names.update((n, new_name(n)) for n in own if "-" in n and local(path, n))
    clash = [(o, n) for o, n in names.items() if n in plain]
    twice = {}
    for old, new in names.items():
        twice.setdefault(new, []).append(old)
    clash += [(os_, n) for n, os_ in twice.items() if len(os_) > 1]
    for one in clash:
        print("falls together:", one)
    if "--list" in sys.argv:
        for old, new in sorted(names.items()):
            print(old, new)
        return 0
    if clash:
        return 1
    for path in files():
        text = open(path, encoding="utf-8").read()
        mark = "--" if path.endswith(".antt") else "//"
        done = "".join(
            part if kept else TOKEN.sub(lambda t: names.get(t.group(0), t.group(0)), part)
            for part, kept in pieces(text, mark)
        )
        if done != text:
            open(path, "w", encoding="utf-8").write(done)
    print(len(names), "names respelled")
    return 0


def local(path, name):
    """A lemma that stands in a proof file of its own function, and is no goal."""
    first = r"(returns|loop|invariant|decreases|overflow|bounds|offset|nonzero|cast|slice|prove|ghost|total)"
    return not re.match(first + r"([-_]|$)", name) and "requires" not in name


if __name__ == "__main__":
    raise SystemExit(main())
