#!/usr/bin/env python3
"""Brings the repository's own names to the spelling of today's Rattle: a word is in snake case, so a dash in a name of ours is an underscore.

usage: python3 tools/respell.py [--check]     at the top of the repository

It runs once, after port.py. In specs/ and in the files of laws every name with a dash is ours but one that a `use` line takes from a library. In the proofs of
functions, in the clauses of sources, in must-fail edits and in the pages it turns the names that stand in specs/ or in a file of laws, and leaves the goals that the
prover names. Strings and comments of sources stay. It prints each name that falls together with another of the same file; --check writes nothing.
"""

import os
import re
import sys

TOKEN = re.compile(r"[^\s(){}\[\];,.@\"`⌜⌝]+")
USE = re.compile(r"^[ \t]*(?:(?:pub|ghost|unfoldable) )*use ([^\s{;]+?)(?:\.\{([^}]*)\})?(?: as ([^\s;]+))?;?[ \t]*$", re.M)
DEFINES = re.compile(r"^[ \t]*(?:(?:pub|abbrev|unfoldable|private|ruleset|record|data) )*([^\s:{}()=,;\[\]|]+)[ \t]*(?:[({][^\n]*?)?:(?![:=])", re.M)

# A law whose name with an underscore is a word of the library that the same file uses.
OTHERWISE = {"bit-or": "bit_or_at"}


def own_crates():
    with open("crates.txt", encoding="utf-8") as f:
        return {l.split("#")[0].split(":")[0].split()[0] for l in f if l.split("#")[0].strip()}


def texts(folder, endings):
    for above, dirs, files in os.walk(folder):
        dirs[:] = sorted(d for d in dirs if d not in ("out", ".git", "target"))
        for f in sorted(files):
            if f.endswith(endings):
                yield os.path.join(above, f)


def read(path):
    with open(path, encoding="utf-8") as f:
        return f.read()


def dashed(word):
    return "-" in word.strip("-") and re.search(r"[A-Za-z]-|-[A-Za-z]", word) is not None


def is_own(path, crates):
    parts = path.split(".")
    return len(parts) > 1 and parts[0] == "Rattle" and parts[1] in crates


def from_libraries(text, crates):
    """The names that a file takes from a module that is not ours, under the name that it uses."""
    found = set()
    for m in USE.finditer(text):
        if not is_own(m.group(1), crates):
            for it in (m.group(2) or "").split(","):
                for word in it.split(" as "):
                    found.add(word.strip())
            if m.group(3):
                found.add(m.group(3))
    return found


def without_comments(text):
    return re.sub(r"(^|\s)--[^\n]*", r"\1", text)


def is_law(path):
    return path.endswith(".antt") and os.path.basename(path) not in ("Proof.antt", "Answers.antt", "Invariants.antt")


def names_of_ours(crates):
    ours = set()
    for path in texts("crates", (".antt",)):
        if is_law(path):
            text = without_comments(read(path))
            theirs = from_libraries(text, crates)
            for m in DEFINES.finditer(text):
                if dashed(m.group(1)) and m.group(1) not in theirs:
                    ours.add(m.group(1))
            for m in USE.finditer(text):
                if is_own(m.group(1), crates):
                    ours |= {w.strip() for it in (m.group(2) or "").split(",") for w in it.split(" as ") if dashed(w.strip())}
    return ours


def respell(text, turn):
    return TOKEN.sub(lambda m: OTHERWISE.get(m.group(0), m.group(0).replace("-", "_")) if turn(m.group(0), m.start()) else m.group(0), text)


def by_lines(text, turn, comment):
    """As respell, but the comments stay."""
    out = []
    for line in text.split("\n"):
        m = re.search(comment, line)
        cut = m.start() if m else len(line)
        out.append(respell(line[:cut], turn) + line[cut:])
    return "\n".join(out)


def law(text, crates):
    theirs = from_libraries(text, crates)
    return by_lines(text, lambda w, _: dashed(w) and w not in theirs and not w.startswith("-"), r"(^|\s)--")


def proof(text, ours, crates):
    theirs = from_libraries(text, crates)
    goals = {m.group(1) for m in re.finditer(r"^([^\s:]+) : tie\.", text, re.M)}

    def line(l):
        if re.match(r"\s*use Rattle\.\w+\.proofs\..*\.(Statement|Tie)\b", l):
            return l
        return by_lines(l, lambda w, at: w in ours and w not in theirs and w not in goals and l[max(0, at - 4):at] != "tie.", r"(^|\s)--")

    return "\n".join(line(l) for l in text.split("\n"))


def source(text, ours):
    """Clauses and `ghost use` lines; the strings stay, and comments too."""
    out = []
    for l in text.split("\n"):
        m = re.search(r"(^|\s)//", l)
        cut = m.start() if m else len(l)
        parts = re.split(r'("(?:[^"\\]|\\.)*")', l[:cut])
        out.append("".join(p if i % 2 else respell(p, lambda w, _: w in ours) for i, p in enumerate(parts)) + l[cut:])
    return "\n".join(out)


def edit(text, ours):
    return "\n".join(l if l.startswith("file:") else respell(l, lambda w, _: w in ours) for l in text.split("\n"))


def page(text, ours):
    return re.sub(r"`[^`\n]+`", lambda m: respell(m.group(0), lambda w, _: w in ours), text)


def together(path, before, after):
    """Names of a file that were two and are one now."""
    seen = {}
    for a, b in zip(TOKEN.finditer(before), TOKEN.finditer(after)):
        if re.search(r"[A-Za-z]", b.group(0)):
            seen.setdefault(b.group(0), set()).add(a.group(0))
    for name, were in sorted(seen.items()):
        if len(were) > 1:
            print(f"{path}: {name} was {', '.join(sorted(were))}")


def main(argv):
    crates = own_crates()
    ours = names_of_ours(crates)
    n = 0
    todo = list(texts("crates", (".antt", ".rt", ".edit"))) + [p for p in texts(".", (".md",)) if not p.startswith("./crates")]
    for path in todo:
        before = read(path)
        if path.endswith(".rt"):
            after = source(before, ours)
        elif path.endswith(".edit"):
            after = edit(before, ours)
        elif path.endswith(".md"):
            after = page(before, ours)
        elif is_law(path):
            after = law(before, crates)
        else:
            after = proof(before, ours, crates)
        if after != before:
            n += 1
            if not path.endswith(".md"):
                together(path, before, after)
            if "--check" not in argv:
                with open(path, "w", encoding="utf-8") as f:
                    f.write(after)
    print(f"respell: {len(ours)} names of ours had a dash; {n} files changed")
    return 0


if __name__ == "__main__":
    raise SystemExit(main(sys.argv[1:]))
