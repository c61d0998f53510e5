#!/usr/bin/env python3
"""Brings this repository's own definitions and lemmas to the spelling of today's Rattle: words in snake case, types and modules in camel case.

usage: python3 tools/respell.py [--dry]      at the top, once, right after the kit's port.py

It renames what specs/ and proofs/ declare with a dash or in camel case (`kindOf`, `next-made`, a field `one-each`), everywhere in crates/*.rt and
crates/*.antt and, between backticks, in the documents and in comments. Functions of src/, types, strings, inputs, outputs and edits keep their text.
Names that would fall together are told apart by OTHER. Which name became which is written to tools/respelled.txt.
"""

import collections
import os
import re
import sys

TOKEN = re.compile(r"[\w'◌-]+")
DECLARED = re.compile(
    r"^(\s*)((?:(?:abbrev|unfoldable|pub|data|record)\s+)*)([^\s:(){}=.«»]+)(\s+[({].*)?\s*:(\s|$)")
# several constructors or fields on one line
SEVERAL = re.compile(r"^\s+(?:pub )?((?:[\w'-]+ )+[\w'-]+) : [^=]*$")
NEED = re.compile(r":\s*(tie\.(Need|invariant|decreases)-|goal\.)")

# a name that would fall together with another: the lemma gets `_lem`, as the guide says of a lemma with its function's name
OTHER = {
    "ahead_in": "ahead_in_lem",
    "behind-F": "behind_case_f",
    "case-a": "case_a_lem",
    "answer-numbers": "answer_numbers_lem",
    "bit-and": "bit_and_lem",
    "bit-or": "bit_or_lem",
    "bit-xor": "bit_xor_lem",
    "isGreedy": "greedy_test",
    "isSingle": "single_test",
    "most-copies": "most_copies_lem",
    "quick-numbers": "quick_numbers_lem",
    "read-on": "read_on_lem",
    "rules-back": "rules_back_lem",
    "too_many": "too_many_lem",
    "up-to": "up_to_lem",
    "verdict-numbers": "verdict_numbers_lem",
}


def snake(name):
    if name in OTHER:
        return OTHER[name]
    if name[0].islower():
        # a case or a job that is named by one letter, and words that begin with a capital; a type's name in a lemma's keeps its capital
        name = re.sub(r"([a-z0-9])-?([A-Z])(?![a-z])", lambda m: m.group(1) + "_" + m.group(2).lower(), name)
        name = re.sub(r"([a-z0-9])([A-Z])(?=[a-z])", lambda m: m.group(1) + "_" + m.group(2).lower(), name)
    return name.replace("-", "_")


def files(root, ends):
    for folder, dirs, names in os.walk(root):
        dirs[:] = sorted(d for d in dirs if d not in ("out", ".git", "target"))
        for n in sorted(names):
            if n.endswith(ends):
                yield os.path.join(folder, n)


def of_function(path):
    return re.search(r"/proofs/[+a-z_0-9]+/[^/]*$", path) is not None


def declared(path, text):
    """The names that a file declares, but for the answers to a function's goals, whose names Rattle chooses."""
    found = set()
    function = of_function(path)
    lines = text.split("\n")
    for i, line in enumerate(lines):
        if line.lstrip().startswith("--"):
            continue
        m = SEVERAL.match(line)
        if m and not function:
            found |= {n for n in m.group(1).split() if n not in ("use", "let", "in", "where")}
            continue
        m = DECLARED.match(line)
        if not m:
            m = re.match(r"^(\s*)((?:(?:abbrev|unfoldable|pub)\s+)*)([^\s:(){}=.«»]+)\s*:$", line)
        if not m:
            continue
        name = m.group(3)
        if function and (NEED.search(line + " " + (lines[i + 1].strip() if line.rstrip().endswith(":") and i + 1 < len(lines) else "")) or name.endswith("-spec")):
            continue
        if name in ("use", "let", "in", "pub", "where", "λ", "|") or "◌" in name:
            continue
        found.add(name)
    return found


def wants(name):
    return "-" in name or re.match(r"[a-z][a-z0-9_'-]*[A-Z]", name) is not None


def main():
    texts = {p: open(p, encoding="utf-8").read() for p in files("crates", (".antt", ".rt"))}
    own = set()
    for p, t in texts.items():
        if p.endswith(".antt"):
            own |= declared(p, t)
    # a second run takes what a first one gave for done
    done = {}
    if os.path.exists("tools/respelled.txt"):
        with open("tools/respelled.txt", encoding="utf-8") as f:
            done = dict(line.split() for line in f)
    own -= set(done.values())
    new = {n: snake(n) for n in own if (wants(n) or n in OTHER) and snake(n) != n}

    def turned(line, comment):
        def word(m):
            return new.get(m.group(0), m.group(0))
        if comment:
            return re.sub(r"`[^`]*`", lambda m: TOKEN.sub(word, m.group(0)), line)
        return TOKEN.sub(word, line)

    clash = collections.Counter()
    where = collections.defaultdict(list)
    for p, t in texts.items():
        mark = "--" if p.endswith(".antt") else "//"
        out = []
        for line in t.split("\n"):
            # what std and the logic declare keeps its spelling
            if re.match(r"\s*(ghost )?use (?!Rattle\.(%s)\.)" % "|".join(sorted(os.listdir("crates"))), line):
                out.append(line)
                continue
            at = re.search(r"(^|\s)" + re.escape(mark) + r"( |$)", line)
            code, rest = (line[:at.start()], line[at.start():]) if at else (line, "")
            out.append(turned(code, False) + turned(rest, True))
        after = "\n".join(out)
        # two words that were apart and are one now
        before = collections.defaultdict(set)
        for a, b in zip(TOKEN.findall(re.sub(r"(?m)--.*$|//.*$", "", t)), TOKEN.findall(re.sub(r"(?m)--.*$|//.*$", "", after))):
            before[b].add(a)
        for b, all_ in before.items():
            if len(all_) > 1:
                clash[(b, tuple(sorted(all_)))] += 1
                where[(b, tuple(sorted(all_)))].append(p)
        texts[p] = after
    for (b, all_), n in sorted(clash.items()):
        print("together:", b, "of", *all_, *where[(b, all_)])
    if "--dry" in sys.argv:
        print(len(new), "names")
        return
    for p, t in texts.items():
        with open(p, "w", encoding="utf-8") as f:
            f.write(t)
    for p in ["README.md"] + [os.path.join("docs", d) for d in sorted(os.listdir("docs")) if d.endswith(".md")] + ["examples/README.md", "tests/README.md", "bench/README.md"]:
        t = open(p, encoding="utf-8").read()
        with open(p, "w", encoding="utf-8") as f:
            f.write("\n".join(turned(line, True) for line in t.split("\n")))
    new.update(done)
    with open("tools/respelled.txt", "w", encoding="utf-8") as f:
        f.writelines(f"{a} {b}\n" for a, b in sorted(new.items()))
    print(len(new), "names")


if __name__ == "__main__":
    main()
