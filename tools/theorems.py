#!/usr/bin/env python3
"""Moves theorems of specs/ that rest on an edited definition to proofs/Theorems, statements unchanged, so that the edit reads and is refused by what is proved.

usage: python3 tools/theorems.py CRATE MODULE:NAME..        at the top of the repository

MODULE:NAME names a theorem that no longer holds under an edit of the crate, as Levels.Laws:at_start. With it go all that cite it. A definition that a moved theorem opens
becomes `unfoldable`, and what it uses of its old file becomes `pub`; each import in the repository follows. It was used once, for the port.
"""

import collections
import glob
import os
import re
import sys

WORD = r"[^\s(){}\[\];,.@\"`⌜⌝]+"
TOKEN = re.compile(rf"(?<![\w.'₀-₉◌-]){WORD}")
USE = re.compile(r"^([ \t]*(?:(?:pub|ghost|unfoldable) )*)use (\S+?)(?:\.\{([^}]*)\})?(?: as ([^\s;]+))?(;?)[ \t]*$")
COMMENT = re.compile(r"(^|\s)--(\s.*|-.*)?$")


def uncommented(line):
    m = re.search(r"(^|\s)--(\s|$|-)", line)
    return line[: m.start()] if m else line


class Node:
    def __init__(self, kind, name="", lines=None, indent=0, parent=None):
        self.kind, self.name, self.lines, self.indent, self.parent = kind, name, lines or [], indent, parent
        self.children = []

    def chain(self):
        out, n = [], self.parent
        while n is not None and n.kind == "module":
            out.insert(0, n)
            n = n.parent
        return out

    def text(self):
        return "\n".join(uncommented(l) for l in self.lines)

    def explicit(self):
        """The explicit parameters of a module's header, in order."""
        header = re.sub(r"^\s*module _", "", " ".join(uncommented(l) for l in self.lines))
        names, depth, start = [], 0, None
        for i, c in enumerate(header):
            if c in "({":
                if depth == 0:
                    start = i
                depth += 1
            elif c in ")}":
                depth -= 1
                if depth == 0:
                    group = header[start + 1 : i]
                    if header[start] == "(":
                        names += group.split(":")[0].split()
        return names


class File:
    def __init__(self, path):
        self.path = path
        with open(path, encoding="utf-8") as f:
            self.lines = f.read().rstrip("\n").split("\n")
        self.head, self.uses, self.mods = [], [], []
        self.root = Node("root", indent=-1)
        self.decls = {}
        self.parse()

    def parse(self):
        i, lines = 0, self.lines
        while i < len(lines) and (lines[i].startswith("--") or not lines[i].strip()) and not self.uses:
            if lines[i].strip():
                self.head.append(lines[i])
            elif self.head:
                break
            i += 1
        level = self.root
        level.body = 0
        pending, cur = [], None
        while i < len(lines):
            l = lines[i]
            s = l.strip()
            ind = len(l) - len(l.lstrip())
            if not s:
                if pending:
                    n = Node("comment", lines=pending, indent=len(pending[0]) - len(pending[0].lstrip()), parent=level)
                    level.children.append(n)
                    pending = []
                if cur is not None:
                    # a gap within a deep where-block stays with its declaration
                    j = i
                    while j < len(lines) and not lines[j].strip():
                        j += 1
                    if j < len(lines) and len(lines[j]) - len(lines[j].lstrip()) > cur.indent and cur.kind == "decl":
                        cur.lines.append(l)
                    elif cur.kind == "decl":
                        cur = None
                i += 1
                continue
            if USE.match(l):
                self.uses.append(l)
                i += 1
                continue
            if re.match(r"(pub )?mod \S+$", s):
                self.mods.append(l)
                i += 1
                continue
            if cur is not None and cur.kind == "decl" and ind > cur.indent:
                cur.lines += pending + [l]
                pending = []
                i += 1
                continue
            while level.kind == "module" and ind <= level.indent:
                level = level.parent
            if s.startswith("--"):
                pending.append(l)
                i += 1
                continue
            if s.startswith("open ") and level.kind == "module" and not level.children:
                level.lines += ["", l]
                i += 1
                continue
            if re.match(r"module\b", s):
                n = Node("module", lines=pending + [l], indent=ind, parent=level)
                n.comment = len(pending)
                pending = []
                while not uncommented(lines[i]).rstrip().endswith("where"):
                    i += 1
                    n.lines.append(lines[i])
                level.children.append(n)
                level, cur = n, None
                i += 1
                continue
            m = re.match(r"((?:(?:pub|abbrev|unfoldable|private|record|data|ruleset) )*)(\S+)(\s+[:({].*|\s*$)", s)
            starts = m and (m.group(3).strip().startswith(":") or re.search(r"\b(record|data|ruleset)\b", m.group(1)))
            if m and not starts and m.group(1) and m.group(3).strip()[:1] in "({" :
                starts = True
            if starts:
                kind = "data" if re.search(r"\b(record|data)\b", m.group(1)) else "def"
                n = Node("decl", m.group(2), pending + [l], ind, level)
                n.comment, n.sort, n.modifiers = len(pending), kind, m.group(1)
                pending = []
                level.children.append(n)
                if n.name in self.decls:
                    print("twice", self.path, n.name)
                self.decls[n.name] = n
                cur = n
            elif cur is not None:
                cur.lines += pending + [l]
                pending = []
            elif re.match(r"infix", s):
                level.children.append(Node("comment", lines=pending + [l], indent=ind, parent=level))
                pending = []
            else:
                # a clause behind a gap belongs to the declaration before it
                last = [c for c in level.children if c.kind == "decl"]
                if not last:
                    raise SystemExit(f"{self.path}:{i + 1}: {l}")
                last[-1].lines += [""] + pending + [l]
                pending, cur = [], last[-1]
            i += 1
        if pending:
            level.children.append(Node("comment", lines=pending, parent=level))

    def constructors(self):
        """The constructors of the file's own data, which an import names one by one."""
        found = {}
        for d in self.decls.values():
            if re.search(r"\bdata\b", d.modifiers):
                for l in d.lines[d.comment + 1 :]:
                    m = re.match(r"\s+(?:pub )?(\S+) :", uncommented(l))
                    if m:
                        found[m.group(1)] = d.name
        return found

    def imports(self):
        found, alias = {}, {}
        for l in self.uses:
            m = USE.match(l)
            if m.group(3) is not None:
                for it in m.group(3).split(","):
                    a, _, b = it.strip().partition(" as ")
                    if a.strip():
                        found[(b or a).strip()] = (m.group(2), a.strip())
            else:
                alias[m.group(4) or m.group(2).split(".")[-1]] = m.group(2)
        return found, alias

    def emit(self, keep, edit=lambda n, l: l):
        """The body with the declarations that keep() takes."""

        def out(node):
            parts = []
            for c in node.children:
                if c.kind == "decl" and keep(c):
                    parts.append("\n".join(edit(c, c.lines)))
                elif c.kind == "comment" and keep(c):
                    parts.append("\n".join(c.lines))
                elif c.kind == "module":
                    inner = out(c)
                    if any(True for _ in decls_in(c) if keep(_)):
                        parts.append("\n".join(c.lines) + ("\n\n" if "open " in c.lines[-1] else "\n") + "\n\n".join(inner))
            return parts

        return "\n\n".join(out(self.root))


def decls_in(node):
    for c in node.children:
        if c.kind == "decl":
            yield c
        elif c.kind == "module":
            yield from decls_in(c)


def operator(name):
    return [x for x in name.split("◌") if x] if "◌" in name else None


def cites(text, names):
    """Which of the names a text has as words, or as an operator's signs."""
    words = {m.group(0).split(".")[0] for m in TOKEN.finditer(text)}
    flat = " " + text.replace("\n", " ") + " "
    return {n for n in names if ("[]" in flat if n == "[]" else n in words if "◌" not in n else n in words or all(f"{x}" in flat for x in operator(n)))}


def goes_whole(comment, gone):
    """Whether all that a section's comment stands over goes; then it goes along."""
    after, beside = [], comment.parent.children
    for n in beside[beside.index(comment) + 1 :]:
        if n.kind == "comment":
            break
        after += [n] if n.kind == "decl" else list(decls_in(n))
    return bool(after) and all(n.name in gone for n in after)


def main(argv):
    crate, seeds = argv[0], argv[1:]
    base = f"crates/{crate}/specs/"
    files = {}
    for p in sorted(glob.glob(base + "**/*.antt", recursive=True)):
        if p.endswith("/Lib.antt"):
            continue
        files[f"Rattle.{crate}.specs." + p[len(base) : -5].replace("/", ".")] = File(p)
    users = collections.defaultdict(set)
    uses_of = {}
    for mod, f in files.items():
        found, alias = f.imports()
        for name, d in f.decls.items():
            if d.sort == "data":
                continue
            text = d.text() + "\n" + "\n".join(n.text() for n in d.chain())
            for it in cites(text, set(found) | set(f.decls) - {name}):
                key = (mod, it) if it in f.decls else found[it]
                users[key].add((mod, name))
            for m in re.finditer(rf"(?<![\w.'-])({WORD})\.({WORD})", text):
                if m.group(1) in alias:
                    users[(alias[m.group(1)], m.group(2))].add((mod, name))
    moved, todo = set(), [(f"Rattle.{crate}.specs." + s.split(":")[0], s.split(":")[1]) for s in seeds]
    for k in todo:
        if k[0] not in files or k[1] not in files[k[0]].decls:
            raise SystemExit(f"no {k}")
    while todo:
        k = todo.pop()
        if k not in moved:
            moved.add(k)
            todo += users[k]
    new_of = lambda mod: mod.replace(f"Rattle.{crate}.specs.", f"Rattle.{crate}.proofs.Theorems.")
    unfold, publish = set(), set()
    texts = {}
    for mod in sorted({m for m, _ in moved}):
        f = files[mod]
        gone = {n for m, n in moved if m == mod}
        found, alias = f.imports()
        needs = set()

        def edit(node, lines):
            here = node.chain()
            text = node.text()
            out = list(lines)
            siblings = cites(text, set(f.decls) - gone - {node.name})
            for s in siblings:
                needs.add(s)
                shared = [m for m in f.decls[s].chain() if m in here]
                args = [p for m in shared for p in m.explicit()]
                if args:
                    def turn(l):
                        code = uncommented(l)
                        if code.strip().startswith("unfolding "):
                            return l
                        return re.sub(rf"(?<![\w.'₀-₉◌-]){re.escape(s)}(?![\w'₀-₉-])", f"({s} {' '.join(args)})", code) + l[len(code):]
                    out = out[: node.comment] + [turn(l) for l in out[node.comment :]]
            for l in out:
                m = re.match(r"\s*unfolding (.*)$", uncommented(l))
                if m:
                    for w in m.group(1).split():
                        if w in f.decls:
                            unfold.add((mod, w))
                            if w not in gone:
                                needs.add(w)
                        elif w in found:
                            unfold.add(found[w])
            return out

        body = f.emit(lambda n: n.name in gone if n.kind == "decl" else goes_whole(n, gone), edit)
        headers = "\n".join(n.text() for d in f.decls.values() if d.name in gone for n in d.chain())
        for s in cites(headers, set(f.decls) - gone):
            needs.add(s)
        publish |= {(mod, n) for n in needs}
        made = f.constructors()
        bare = "\n".join(uncommented(l) for l in body.split("\n"))
        for s in cites(bare, set(made)):
            needs.add(s)
            publish.add((mod, made[s]))
        lines = []
        for l in f.uses:
            m = USE.match(l)
            if m.group(3) is None:
                name = m.group(4) or m.group(2).split(".")[-1]
                if re.search(rf"(?<![\w.]){re.escape(name)}\.", body):
                    lines.append(l)
                continue
            here = []
            for it in m.group(3).split(","):
                it = it.strip()
                if it and cites(body, {it.split(" as ")[-1].strip()}):
                    here.append(it)
            if here:
                lines.append(f"{m.group(1)}use {m.group(2)}.{{{', '.join(here)}}}")
        if needs:
            lines.append(f"use {mod}.{{{', '.join(sorted(needs))}}}")
        texts[new_of(mod)] = (f, mod, lines, body)
    # what they open can be opened from there, and what they use of their old file can be named
    for mod, f in files.items():
        own = {n for m, n in unfold if m == mod}
        open_ = {n for m, n in publish if m == mod}
        f.changed = bool(own | open_)
        for n in own | open_:
            d = f.decls[n]
            l = d.lines[d.comment]
            pad = l[: len(l) - len(l.lstrip())]
            rest = l.strip()
            if not d.modifiers.strip() or "pub" not in d.modifiers:
                rest = re.sub(r"^(abbrev |unfoldable )?", lambda m: (m.group(1) or "") + "pub ", rest) if d.sort != "data" else "pub " + rest
            if n in own and "abbrev" not in rest.split(n)[0] and "unfoldable" not in rest.split(n)[0]:
                rest = "unfoldable " + rest
            d.lines[d.comment] = pad + rest
            if re.search(r"\brecord\b", d.modifiers):
                # fields at the record's own level of indentation
                deep = min((len(x) - len(x.lstrip()) for x in d.lines[d.comment + 1 :] if x.strip() and re.match(r"\s+(pub )?\S+( \S+)* :", x)), default=0)
                d.lines[d.comment + 1 :] = [
                    re.sub(r"^(\s+)(?!pub )(?=\S)", r"\1pub ", x) if len(x) - len(x.lstrip()) == deep and re.match(r"\s+(pub )?[^\s(:]+( [^\s(:]+)* :", x) else x
                    for x in d.lines[d.comment + 1 :]
                ]
    for m, n in unfold:
        if m not in files:
            print(f"look: {m}.{n} is opened")
    # write
    for new, (f, mod, lines, body) in texts.items():
        gone = {n for m, n in moved if m == mod}
        path = f"crates/{crate}/proofs/" + new.split(".proofs.")[1].replace(".", "/") + ".antt"
        os.makedirs(os.path.dirname(path), exist_ok=True)
        rel = mod.split(".specs.")[1].replace(".", "/")
        with open(path, "w", encoding="utf-8") as out:
            out.write(f"-- Of specs/{rel}, the theorems that an edit of a definition breaks.\n" + "\n".join(lines) + "\n\n" + body + "\n")
    for mod, f in files.items():
        gone = {n for m, n in moved if m == mod}
        if gone or f.changed:
            text = f.emit(lambda n: n.name not in gone if n.kind == "decl" else not goes_whole(n, gone))
            top = "\n".join(f.head + f.uses + f.mods)
            with open(f.path, "w", encoding="utf-8") as out:
                out.write(top + "\n" + ("\n" + text + "\n" if text else ""))
    # the modules
    tree = collections.defaultdict(set)
    for new in texts:
        parts = new.split(".proofs.")[1].split(".")
        for k in range(1, len(parts)):
            tree["/".join(parts[:k])].add(parts[k])
    for at, below in tree.items():
        path = f"crates/{crate}/proofs/{at}.antt"
        have = ""
        if os.path.exists(path):
            with open(path, encoding="utf-8") as f:
                have = f.read()
        mods = "".join(f"pub mod {b}\n" for b in sorted(below))
        if have:
            ls = have.split("\n")
            k = next(i for i, l in enumerate(ls + [""]) if not l.startswith(("--", "use ")))
            have = "\n".join(ls[:k]) + "\n" + mods + "\n".join(ls[k:])
        else:
            have = mods
        with open(path, "w", encoding="utf-8") as f:
            f.write(have)
    lib = f"crates/{crate}/proofs/Lib.antt"
    with open(lib, encoding="utf-8") as f:
        t = f.read()
    with open(lib, "w", encoding="utf-8") as f:
        f.write(t.rstrip("\n") + "\npub mod Theorems\n")
    # imports follow
    for p in glob.glob("crates/*/*/**/*.antt", recursive=True) + glob.glob("crates/*/src/*.rt"):
        if "/out/" in p:
            continue
        with open(p, encoding="utf-8") as f:
            t = f.read()
        out, hit = [], False
        for l in t.split("\n"):
            m = USE.match(l)
            if m and m.group(3) is not None and m.group(2) in files:
                its = [x.strip() for x in m.group(3).split(",") if x.strip()]
                a = [x for x in its if (m.group(2), x.split(" as ")[0].strip()) not in moved]
                b = [x for x in its if x not in a]
                if b:
                    hit = True
                    if a:
                        out.append(f"{m.group(1)}use {m.group(2)}.{{{', '.join(a)}}}{m.group(5)}")
                    # what stays in specs/ uses none of them
                    if p.startswith(base):
                        continue
                    out.append(f"{m.group(1)}use {new_of(m.group(2))}.{{{', '.join(b)}}}{m.group(5)}")
                    continue
            if m and m.group(3) is None and m.group(2) in {x for x, _ in moved}:
                print(f"look: {p}: {l}")
            out.append(l)
        if hit:
            with open(p, "w", encoding="utf-8") as f:
                f.write("\n".join(out))
    print(f"theorems: {len(moved)} of {crate} moved, from {len(texts)} files; {len(unfold)} opened, {len(publish)} used of their old files")
    return 0


if __name__ == "__main__":
    raise SystemExit(main(sys.argv[1:]))
