#!/usr/bin/env python3
"""Turns the proofs of functions that walk the code's places (Proof.antt) into Invariants.antt and Answers.antt.

usage: python3 tools/answers.py NAMES CRATE [FUNCTION..]      at the top of the repository

NAMES is the names.json that `rt check --generated DIR --old-names` writes in the crate. A place of the older form, `c.before.before.put8.new.0`, becomes the step's own
name, `c.put8.new.work`; an answer that is only a search goes, since the check makes it by itself. What it cannot turn it names in a line `left:`, and leaves that
proof as it is. It was used once, for the port.
"""

import glob
import json
import os
import re
import sys

FIELD = r"[^\s(){}\[\];,.@\"]+"
PATH = re.compile(rf"(?<![\w.'_-])([A-Za-z_][\w'₀-₉-]*)((?:\.{FIELD})+)")


def norm(word):
    return word.replace("_", "-")


def signatures():
    """For each function of the repository, its parameters' names by its last path word and by its whole path."""
    found = {}
    for p in glob.glob("crates/*/src/*.rt"):
        crate, mod = p.split("/")[1], os.path.basename(p)[:-3]
        with open(p, encoding="utf-8") as f:
            text = f.read()
        impl = None
        for m in re.finditer(r"^impl (\w+)|^\s*(?:pub(?:\(crate\))? )?(?:extern \"C\" )?(?:unsafe )?fn (\w+)(?:<[^>]*>)?\(([^)]*)\)", text, re.M):
            if m.group(1):
                impl = m.group(1)
                continue
            names = re.findall(r"(?:^|,)\s*(?:mut )?(\w+)\s*:", m.group(3))
            found.setdefault(m.group(2), names)
            found[f"{crate}::{mod}::{m.group(2)}"] = names
            if mod in ("lib", "main"):
                found[f"{crate}::{m.group(2)}"] = names
    return found


class Left(Exception):
    pass


class Function:
    def __init__(self, of, params):
        self.of = of
        self.params = params
        self.lemmas = {}
        self.arms_used = set()
        self.places = {}
        for i, (name, parent, step, callee, fields) in enumerate(of["places"]):
            self.places[name] = (i, parent, step, callee, dict(map(tuple, fields)) if fields else {})

    def nested(self, fields):
        """`1.1.1.0` is place 3, `0` place 0."""
        k, i = 0, 0
        while i < len(fields) and fields[i] == "1":
            k, i = k + 1, i + 1
        if i < len(fields) and fields[i] == "0":
            return k, fields[i + 1:]
        raise Left("places " + ".".join(fields))

    def has(self, place, fields):
        i, _, step, _, _ = self.places[place]
        arm = self.of["arms"][i]
        return (
            norm(step[0]) == norm(fields[0])
            or any(norm(t[1]) == norm(fields[0]) and fields[1:2] == ["given"] for t in self.of["typed"][i])
            or bool(arm) and any(norm(o) == norm(fields[0]) and fields[1 : 1 + len(p)] == p for n, o, p in arm[2])
        )

    def step(self, place, fields):
        """The new path of a step's fields at a place."""
        i, parent, step, callee, renamed = self.places[place]
        rest = fields[1:]
        arm = self.of["arms"][i]
        if arm:
            for new, old, path in sorted(arm[2], key=lambda it: -len(it[2])):
                if norm(old) == norm(fields[0]) and rest[: len(path)] == path:
                    return [arm[0], new] + rest[len(path):]
        for t in self.of["typed"][i]:
            if norm(t[1]) == norm(fields[0]) and rest[:1] == ["given"]:
                return ["type_inv", t[0]] + rest[1:]
        if norm(step[0]) != norm(fields[0]):
            raise Left(f"{place} has step {step[0]}, not {fields[0]}")
        out = [step[1]]
        loop = next((vars_ for (o, _), vars_ in self.of["loops"] if norm(o) == norm(step[0])), [])
        if rest and rest[0] == "auto" and "kept" in loop:
            return out + ["kept"] + rest[1:]
        if rest and rest[0] == "taken":
            rest = ["true"] + rest[1:]
        if rest and rest[0] == "left" and (step[0].startswith(("if", "loop-test"))):
            rest = ["false"] + rest[1:]
        if rest and rest[0] in self.places[place][4]:
            rest = [self.places[place][4][rest[0]]] + rest[1:]
        if rest and rest[0] in ("new", "last") and callee is not None:
            k, more = self.nested(rest[1:])
            rest = ["new", self.param(callee, k)] + more
        elif rest and rest[0] in ("auto", "kept") and callee is not None:
            k, more = self.nested(rest[1:])
            rest = ["auto", self.param(callee, k)] + more
        return out + rest

    def param(self, callee, k):
        names = self.of["params"].get(callee) or self.params.get(callee) or self.params.get(callee.split("::")[-1])
        if not names or k >= len(names):
            raise Left(f"parameter {k} of {callee}")
        return names[k]

    def path(self, var, fields, env, base):
        """Returns ('place', name) or ('path', text, place or None)."""
        kind, at = env[var]
        if kind == "step":
            place = at
            _, _, step, _, _ = self.places[place]
            new = self.step(place, [step[0]] + fields)
            if new[0] == step[1]:
                return "path", ".".join([var] + new[1:]), None
            return "path", ".".join([base] + new), None
        place = at
        chain = [place]
        while self.places[chain[-1]][1] is not None:
            chain.append(self.places[chain[-1]][1])
        depth = 0
        while fields and fields[0] == "before":
            depth, fields = depth + 1, fields[1:]
        if fields and fields[0] in ("args", "requires", "pre", "ranges", "utf8"):
            return "path", ".".join([base] + (["requires"] if fields[0] == "pre" else [fields[0]]) + fields[1:]), None
        if fields:
            # the places may be more or fewer than the older kit's: the step of that name that is nearest
            fits = [d for d, p in enumerate(chain) if self.has(p, fields)]
            if not fits:
                # turned already
                if any(fields[0] == self.places[p][2][1] for p in chain):
                    return "path", ".".join([base] + fields), None
                raise Left(f"no step {fields[0]} above {at}")
            depth = min(fits, key=lambda d: abs(d - depth))
        elif depth >= len(chain):
            depth = len(chain) - 1
        place = chain[depth]
        if not fields:
            return "place", place
        new = self.step(place, fields)
        return "path", ".".join([base] + new), place if len(fields) == 1 else None

    def named(self, place):
        """The new name of a place."""
        return self.of["places_by_name"][self.places[place][0]]

    def body(self, text, place, goal=None, env=None):
        """Turns a text over the places of `c`, or of the variables in env; a place that is handed on is `(goal.at.GOAL c).PLACE`."""
        env = dict(env) if env else {"c": ("place", place)}
        own = set(env)

        def handed(name, before=""):
            # a lemma of the file says which place it is over
            m = re.search(r"([^\s(]+) $", before)
            if m and m.group(1) in self.lemmas:
                name = self.lemmas[m.group(1)]
            if goal is None:
                raise Left("a place handed on in a lemma")
            return f"(goal.at.{goal} c).{self.named(name)}"
        out, at = [], 0
        while True:
            m = PATH.search(text, at)
            if not m:
                out.append(text[at:])
                break
            var = m.group(1)
            if var not in env:
                out.append(text[at:m.end(1)])
                at = m.end(1)
                # a bare path of something else: its fields stay
                more = re.compile(rf"(?:\.{FIELD})+").match(text, at)
                if more:
                    out.append(more.group(0))
                    at = more.end()
                continue
            fields = m.group(2)[1:].split(".")
            before = text[at:m.start()]
            made = self.path(var, fields, env, next(iter(own)))
            bound = re.search(r"\blet (\S+) = $", before)
            after = re.match(r"\s+in\b ?", text[m.end():])
            if made[0] == "place":
                if not (bound and after):
                    out.append(before + handed(made[1], before))
                    at = m.end()
                    continue
                env[bound.group(1)] = ("place", made[1])
                out.append(before[: bound.start()])
                at = m.end() + after.end()
                # the line break that stood behind it goes too
                gap = re.match(r"\n[ ]*", text[at:])
                if gap and before[: bound.start()].rstrip(" ").endswith("\n"):
                    at += gap.end()
                continue
            if bound and after:
                if made[2]:
                    env[bound.group(1)] = ("step", made[2])
                else:
                    env.pop(bound.group(1), None)
            out.append(before + made[1])
            at = m.end()
        text = "".join(out)
        for var, (kind, at) in env.items():
            if kind == "place" and var not in own:
                text = re.sub(rf"(?<![\w.'-]){re.escape(var)}(?![\w'-])", lambda m: handed(at, text[: m.start()]), text)
        return text

    def calls_in(self, step, kind):
        """The calls within one branch of a test."""
        found = []
        for name, (_, parent, new, callee, _) in self.places.items():
            up = name
            while callee and up is not None:
                _, above, s, _, _ = self.places[up]
                if up.startswith(kind) and norm(s[0]) == norm(step):
                    found.append((new[1], callee))
                    break
                up = above
        return found

    def branches(self, text, place):
        """`⊎_elim (λ u. A) (λ u. B) c.if2.branch` by the names of the branches; which variable an equation is of is a guess."""

        def closed(at):
            depth = 0
            for i in range(at, len(text)):
                depth += {"(": 1, ")": -1}.get(text[i], 0)
                if depth == 0:
                    return i + 1
            raise Left("branch")

        while "⊎_elim" in text:
            at = text.index("⊎_elim")
            a = text.index("(", at)
            a_end = closed(a)
            b = text.index("(", a_end)
            b_end = closed(b)
            m = re.compile(r"\s+(\S+?)\.branch").match(text, b_end)
            if not m:
                raise Left("branch")
            path = m.group(1).split(".")
            if path[0] != "c":
                raise Left("branch of " + m.group(1))
            made = self.path("c", path[1:], {"c": ("place", place)}, "c")
            old = path[-1]
            new = made[1].split(".")[-1]
            moved = [v for (_, vars_), ch in zip(self.of["loops"], self.of["changed"]) for v, c in zip(vars_, ch) if c] or ["x"]
            arms = []
            for kind, word, (s, e), test in (("Then", "then", (a, a_end), "true"), ("Else", "else", (b, b_end), "false")):
                it = re.match(r"\(λ (\w+)\. ([\s\S]*)\)$", text[s:e])
                if not it:
                    raise Left("branch")
                u, body = it.groups()
                calls = self.calls_in(old, kind)
                body = re.sub(rf"(?<![\w.]){u}\.0\.(taken|left|true|false)(?![\w'-])", f"w.{new}.{test}", body)

                used = sorted({int(x) for x in re.findall(rf"(?<![\w.]){u}\.(\d+)\.(?:kept|auto|last|new|ensures|result)", body)})

                def call(m):
                    if len(calls) != 1 and len(calls) != len(used):
                        raise Left(f"branch with {len(calls)} calls")
                    step, callee = calls[0] if len(calls) == 1 else calls[used.index(int(m.group(0).split(".")[1]))]
                    if m.group(1) in ("kept", "auto", "last", "new"):
                        k, more = self.nested(re.findall(r"\.([01])(?=\.|$)", m.group(2)) or m.group(2).strip(".").split("."))
                        return f"w.{step}.{'auto' if m.group(1) in ('kept', 'auto') else 'new'}.{self.param(callee, k)}" + "".join("." + x for x in more)
                    return f"w.{step}.{m.group(1)}{m.group(2)}"

                body = re.sub(rf"(?<![\w.]){u}\.\d+\.(kept|auto|last|new|ensures|result)((?:\.[01])*)", call, body)
                body = re.sub(rf"(?<![\w.]){u}\.\d+(?![\w.])", f"w.{moved[0]}-is", body)
                arms.append(f"{word}-{new[3:]} w ↦ {body}")
                self.arms_used.add(f"{word}-{new[3:]}")
            text = text[:at] + f"elim {made[1]}.branch [ {arms[0]} | {arms[1]} ]" + text[m.end():]
        return text

    def lemma(self, block):
        """A lemma of the file over one place of the code."""
        block = re.sub(r"(tie\.[^\s()]+)(?: (?:invariant|decreases)-[^\s()]+)+", r"\1", block)
        found = re.findall(r"\((\S+) : tie\.(\S+?)\)", block)
        if not found:
            m = re.search(r": tie\.(\S+) →[\s\S]*?\n(\S+) (\S+)", block)
            found = [(m.group(3), m.group(1))] if m else []
        if len(found) != 1 or "module _" in block:
            raise Left("a block over places: " + block.split("\n")[0])
        var, old = found[0]
        place = next((p for p in self.places if norm(p) == norm(old)), None)
        if place is None:
            raise Left("place " + old)
        self.lemmas[re.match(r"(?:--[^\n]*\n)*(?:abbrev )?([^\s:]+)", block).group(1)] = place
        block = re.sub(r"tie\.\S+?(?=\)| )", self.named(place), block, count=1)
        return self.body(block, place, None, {var: ("place", place)})


NEED = re.compile(r"^((?:--[^\n]*\n)*)([^\s:]+) : tie\.Need-(\S+)[^\n]*\n((?:unfolding[^\n]*\n)?)\2((?: [^\s=]+)*) =(\s[\s\S]*)$")
INVARIANT = re.compile(r"^((?:--[^\n]*\n)*)abbrev ([^\s:]+) : tie\.(invariant|decreases)-(\S+)\s*\n\2((?: [^\s=]+)*) =(\s[\s\S]*)$")


def subst_vars(text, names):
    def other(m):
        # the name of a record's field stays
        if re.match(r" = ", text[m.end():]) and re.search(r"[{;]\s*$", text[: m.start()]):
            return m.group(0)
        return names.get(m.group(1), m.group(1))

    return re.sub(r"(?<![\w.'₀-₉-])([A-Za-z_][\w'₀-₉]*)(?![\w'₀-₉-])", other, text)


def turn(crate, path, of, params, folder):
    with open(os.path.join(folder, "Proof.antt"), encoding="utf-8") as f:
        text = f.read()
    fn = Function(of, params)
    name = path.split(".")[-1]
    head, uses, blocks = [], [], []
    text = re.sub(r"\npub \S+[-_]spec : [\s\S]*$", "\n", text)
    lines = text.split("\n")
    i = 0
    while i < len(lines) and (lines[i].startswith(("--", "use ")) or not lines[i]):
        if lines[i].startswith("use "):
            if not re.search(r"\.(Statement|Tie)\b", lines[i]):
                uses.append(lines[i])
        elif lines[i]:
            head.append(lines[i])
        i += 1
    # what starts at the margin starts a block, and a comment belongs to what follows it
    cur = []
    for l in lines[i:]:
        if l == "" and cur and all(x.startswith("--") for x in cur):
            blocks.append("\n".join(cur)); cur = []
        elif l == "":
            if cur:
                blocks.append("\n".join(cur)); cur = []
        elif l.startswith(" ") and not cur and blocks and "module _" in blocks[-1]:
            cur = [blocks.pop(), "", l]
        else:
            cur.append(l)
    if cur:
        blocks.append("\n".join(cur))
    old = {norm(o): (o, n) for o, n in of["needs"]}
    invariants, answers, local = [], [], []
    for b in blocks:
        m = INVARIANT.match(b)
        if m:
            comment, _, kind, loop, args, body = m.groups()
            which = [k for k, l in enumerate(of["loops"]) if norm(l[0][0]) == norm(loop)]
            if not which:
                raise Left("loop " + loop)
            k = which[0]
            goal, vars_, changed = of["loops"][k][0][1], of["loops"][k][1], of["changed"][k]
            args = args.split()
            still = [v for v, c in zip(vars_, changed) if not c]
            moved = [v for v, c in zip(vars_, changed) if c]
            want = [f"l.{v}" for v in still] + [f"l.initial.{v}" for v in moved] + [f"l.{v}" for v in moved]
            if len(args) != len(want):
                raise Left(f"loop {loop}: {args} for {want}")
            names = {}
            # a binder of the invariant may have the name
            live = "l" if not re.search(r"(?<![\w.'-])l(?![\w'₀-₉-])", body) or "l" in args else "loop"
            want = [live + w[1:] for w in want]
            for a, w in zip(args, want):
                base = a[:-1] if a.endswith("₀") else a
                if base in vars_:
                    names[a] = f"{live}.initial.{base}" if a != base else f"{live}.{base}"
                elif a != "_":
                    names[a] = w
            kindname = f"{kind}-{goal}"
            invariants.append(f"{comment}abbrev pub {kindname} : goal.{kindname}\n{kindname} {live} ={subst_vars(body, names)}")
            continue
        m = NEED.match(b)
        if m:
            comment, name, need, unfolding, args, body = m.groups()
            key = norm(need)
            cands = [key, norm(name), re.sub("^overflow-", "", key), re.sub("^(overflow|slice)-", "", key), re.sub("^slice-bounds-", "part-", key)]
            hit = next((old[k] for k in cands if k in old), None)
            if hit is None:
                raise Left(f"need {need} of {[o for o, _ in of['needs']]}")
            if re.fullmatch(r"\s*search rules\s*", body):
                continue
            at = of["asked_at"][[o for o, _ in of["needs"]].index(hit[0])][0]
            goal = hit[1]
            new = fn.body(fn.branches(body, at), at, goal)
            if goal.startswith("shape_of-"):
                continue
            more = args.split()[2 if goal.split("-")[-1] == "requires" or "-requires-" in goal else 1:]
            answers.append(f"{comment}pub {goal} : goal.{goal}\n{unfolding}{goal} {' '.join(['c'] + more)} ={new}")
            continue
        local.append(fn.lemma(b) if "tie." in b else b)
    proofs = f"Rattle.{crate}.proofs.{path}"

    def imports(body):
        out = []
        ours = {w.strip() for u in uses if u.startswith("use Rattle.") for w in re.findall(r"\{([^}]*)\}", u + "{}")[0].split(",")}
        for u in uses:
            m = re.match(r"use (\S+?)\.\{([^}]*)\}$", u)
            if not m:
                word = u.split(" as ")[-1] if " as " in u else u.split(".")[-1]
                if re.search(rf"(?<![\w.]){re.escape(word.strip())}\.", body):
                    out.append(u)
                continue
            keep = []
            for it in m.group(2).split(","):
                it = it.strip()
                if it == "rules" and m.group(1) == "borrow.Author.Rules" and "rules" in ours:
                    it = "rules as search_rules"
                w = it.split(" as ")[-1]
                sym = w.strip("◌")
                core = re.escape(sym) if not re.match(r"\w", sym) else rf"(?<![\w.'-]){re.escape(sym)}(?![\w'-])"
                if "◌" in w:
                    parts = [x for x in w.split("◌") if x]
                    if all(x in body for x in parts):
                        keep.append(it)
                elif re.search(core, body):
                    keep.append(it)
            if keep:
                out.append(f"use {m.group(1)}.{{{', '.join(keep)}}}")
        return out

    # local lemmas: with the invariants if those use them
    inv_text = "\n\n".join(invariants)
    local_names = [re.match(r"(?:--[^\n]*\n)*(?:abbrev )?([^\s:]+)", b).group(1) for b in local]
    in_inv = [b for b, n in zip(local, local_names) if re.search(rf"(?<![\w.'-]){re.escape(n)}(?![\w'-])", inv_text)]
    if in_inv:
        raise Left("an invariant uses a lemma of the file")
    wrote = []
    comment = "\n".join(head)
    if invariants:
        t = (comment + "\n" if comment else "") + "\n".join(imports(inv_text) + [f"use {proofs}.Given as goal"]) + "\n\n" + inv_text + "\n"
        wrote.append(("Invariants.antt", t))
        comment = ""
    if answers:
        a_text = "\n\n".join(local + answers)
        if any(re.search(r"use Rattle\..*[{ ]rules[,}]", u) for u in uses):
            a_text = a_text.replace("search rules", "search search_rules").replace("search (rules", "search (search_rules")
        shared = sorted(fn.arms_used | {w for w in of["places_by_name"] if re.search(rf": {re.escape(w)}[) ]", a_text)})
        more = [f"use {proofs}.Goals.{{{', '.join(shared)}}}"] if shared else []
        t = (comment + "\n" if comment else "") + "\n".join(imports(a_text) + [f"use {proofs}.Goals as goal"] + more) + "\n\n" + a_text + "\n"
        wrote.append(("Answers.antt", t))
    return wrote


def main(argv):
    names, crate, only = argv[0], argv[1], argv[2:]
    with open(names, encoding="utf-8") as f:
        listed = json.load(f)
    params = signatures()
    done = 0
    for p in sorted(glob.glob(f"crates/{crate}/proofs/**/Proof.antt", recursive=True)):
        folder = os.path.dirname(p)
        path = ".".join(folder.split("/")[3:])
        if only and path not in only:
            continue
        of = listed.get(f"Rattle-{crate}-proofs.{path}.Lts")
        if of is None:
            print(f"left: {path}: no names")
            continue
        try:
            wrote = turn(crate, path, of, params, folder)
        except Left as e:
            print(f"left: {path}: {e}")
            continue
        os.remove(p)
        for name, text in wrote:
            with open(os.path.join(folder, name), "w", encoding="utf-8") as f:
                f.write(text)
        if not wrote:
            os.rmdir(folder)
        done += 1
    print(f"answers: {done} proofs turned in {crate}")
    return 0


if __name__ == "__main__":
    raise SystemExit(main(sys.argv[1:]))
