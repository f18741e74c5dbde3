#!/usr/bin/env python3
"""Turns the proofs that walk a function's goals (proofs/F/Proof.antt, of the older Rattle) into Invariants.antt and Answers.antt.

usage: python3 tools/turn_answers.py CRATE NAMES [VIEWS]    CRATE is a folder crates/NAME; NAMES the names.json that `rt check --generated DIR --old-names`
wrote there; VIEWS what `rt check --generated DIR` wrote after a first turn, which says which places have a record of their own

It goes by text. A goal, a place, a step and a field get the names that NAMES lists; answers that only call a tactic on what is known are left out, since the
check tries those itself; what a proof said of its own stays in Answers.antt. Each Proof.antt moves to old-proofs/CRATE/F.antt in the folder for temporary files.
"""

import json
import os
import re
import sys
import tempfile

IDENT = r"[^\W\d][\w'₀-]*"
TRIVIAL = re.compile(r"^(search rules|omega arith|search \(rules\)|hlevel|refl|tt)$")


def norm(s):
    return s.replace("_", "-")


class Function:
    def __init__(self, info, view=None):
        self.info = info
        self.canon = None
        if view and os.path.exists(view):
            self.canon = set(re.findall(r"pub record In-([\w'+-]+)", open(view, encoding="utf-8").read()))
        self.needs = {norm(a): b for a, b in info["needs"]}
        self.at = {}
        for (old, new), (place, _) in zip(info["needs"], info["asked_at"]):
            self.at[norm(old)] = norm(place)
        self.places = {}
        self.new_place = {}
        for i, p in enumerate(info["places"]):
            old, parent, (of, nf), callee, subs = p
            self.places[norm(old)] = (norm(parent) if parent else None, norm(of), nf, callee, dict(map(tuple, subs)))
            self.new_place[norm(old)] = info["places_by_name"][i]
        for (old, new) in info["asked_at"]:
            self.new_place.setdefault(norm(old), new)
        for i, a in enumerate(info["arms"]):
            # the last record of an arm has the arm's name
            old = norm(info["places"][i][0])
            m = re.fullmatch(r"(In-.*)-\d+", self.new_place[old])
            if a and m:
                self.new_place[old] = m.group(1)
        self.fields = {}
        for old, (parent, of, nf, callee, subs) in self.places.items():
            self.fields.setdefault(of, set()).add(nf)
        self.arms = {}
        for i, a in enumerate(info["arms"]):
            if a:
                self.arms[norm(info["places"][i][0])] = a
        self.loops = {norm(a[0][0]): (a[0][1], a[1], c) for a, c in zip(info["loops"], info["changed"])}
        self.unknown = []

    def above(self, place):
        out = []
        while place:
            out.append(place)
            place = self.places.get(place, (None,))[0]
        return out

    def named(self, place, users=()):
        """The new name of a place, or of the next one below it that has a record of its own and is on the way to all users."""
        if self.canon is not None and self.new_place.get(place) not in self.canon and users:
            ways = [self.above(u) for u in users if place in self.above(u)]
            if ways:
                for p in reversed(ways[0]):
                    if p in self.above(place)[1:]:
                        continue
                    if all(p in w for w in ways) and self.new_place.get(p) in self.canon:
                        return self.new_place[p]
        todo = [place]
        while todo:
            p = todo.pop(0)
            n = self.new_place.get(p)
            if n and (self.canon is None or n in self.canon):
                return n
            todo += [q for q, e in self.places.items() if e[0] == p]
        return self.new_place.get(place, place)

    def goal(self, old, name):
        return self.needs.get(old) or self.needs.get(norm(name))

    def turn_chain(self, place, comps):
        """New components of a chain that begins at a place, and the place at which it ends, if it is one."""
        out = []
        i = 0
        while i < len(comps) and comps[i] == "before" and place is not None:
            out.append("before")
            place = self.places.get(place, (None,))[0]
            i += 1
        if i == len(comps):
            return out, place
        rest = comps[i:]
        return out + self.turn_fields(place, rest), None

    def turn_fields(self, place, rest):
        f = norm(rest[0])
        if f not in self.fields and f.endswith("-is") and f[:-3] in self.fields:
            f = f[:-3]
        if f == "pre":
            return ["requires"] + rest[1:]
        for a, b in self.info.get("args", []):
            a, b = a.replace(" ", "").strip("."), b.replace(" ", "").strip(".")
            if "." in a and rest[:2] == a.split("."):
                return b.split(".") + rest[2:]
            if "." not in a and rest[0] == a:
                return [b] + rest[1:]
        if len(rest) > 1 and rest[1] == "given":
            for typed in self.info.get("typed", []):
                for var, step in typed:
                    if norm(step) == f:
                        return ["type_inv", var] + rest[2:]
        entry = self.places.get(place)
        new = None
        subs = {}
        callee = None
        if entry and entry[1] == f:
            new, subs, callee = entry[2], entry[4], entry[3]
            arm = self.arms.get(place)
            if arm:
                for newfield, oldstep, path in arm[2]:
                    if norm(oldstep) == f and path and rest[1:1 + len(path)] == path:
                        return [arm[0], newfield] + rest[1 + len(path):]
        else:
            # a step of a place above, or one whose place is not known
            p = place
            while p:
                e = self.places.get(p)
                if not e:
                    break
                arm = self.arms.get(p)
                if arm:
                    for newfield, oldstep, path in arm[2]:
                        if norm(oldstep) == f and path and rest[1:1 + len(path)] == path:
                            return [arm[0], newfield] + rest[1 + len(path):]
                if e[1] == f:
                    new, subs, callee = e[2], e[4], e[3]
                    break
                p = e[0]
            if new is None and f in self.fields and len(self.fields[f]) == 1:
                new = next(iter(self.fields[f]))
                for e in self.places.values():
                    if e[1] == f:
                        subs, callee = e[4], e[3]
        if new is None:
            if f not in ("args", "requires", "ranges", "well-formed", "lifetimes", "result"):
                self.unknown.append(".".join(rest))
            return rest
        tail = rest[1:]
        if tail:
            t = {"inv": "invariant", "last": "new", "post": "ensures", "taken": "true", "left": "false", "kept": "auto"}.get(tail[0], tail[0])
            t = subs.get(t, t)
            tail = [t] + tail[1:]
            if t in ("new", "auto") and callee in self.info["params"]:
                names = self.info["params"][callee]
                k = 1
                n = 0
                while k < len(tail) and tail[k] == "1":
                    n += 1
                    k += 1
                if k < len(tail) and tail[k] == "0" and n < len(names):
                    tail = [t, names[n]] + tail[k + 1:]
        return [new] + tail


def items(text):
    """The top-level items: (head, lines)."""
    out = []
    cur = []
    comment = []
    for line in text.split("\n"):
        if re.match(r"\S", line):
            if line.startswith("--"):
                comment.append(line)
                continue
            m = re.match(r"(?:abbrev |unfoldable |pub )*(" + IDENT + r") :", line)
            if m or re.match(r"(pub )?(use|module|record|data|ruleset) |-- ----", line):
                if cur:
                    out.append(cur)
                cur = comment + [line]
                comment = []
                continue
        if comment:
            cur += comment
            comment = []
        cur.append(line)
    if cur:
        out.append(cur)
    return out


def name_of(item):
    for l in item:
        m = re.match(r"(?:abbrev |unfoldable |pub )*(" + IDENT + r") :", l)
        if m:
            return m.group(1), l[m.end():].strip()
    return None, None


WORD = re.compile(r"(?<![\w'.₀-])" + IDENT + r"(?:\.[\w'-]+)*|\n *--[^\n]*")


class Root:
    """What a body reads its facts from: the variable, its place, and how the places before it are named."""

    def __init__(self, name, place, at, named=None):
        self.name, self.place, self.at, self.named = name, place, at, named


def alias(fn, value):
    root, place = value
    if place is None or place not in fn.new_place:
        return root.name
    name = fn.named(place, [root.place])
    if name == fn.named(root.place):
        return root.name
    return f"(goal.at.{root.at} {root.name}).{name}"


def up(fn, place, n):
    for _ in range(n):
        place = fn.places.get(place, (None,))[0] if place else None
    return place


def read_alias(fn, text, env, helpers):
    """The value of text, where it names a place: VAR.before.., HELPER VAR, (HELPER VAR).before.."""
    m = re.fullmatch(r"\(?(?:(" + IDENT + r") )?\(?(" + IDENT + r")((?:\.before)*)\)?\)?((?:\.before)*)", text.strip())
    if not m:
        m2 = re.fullmatch(r"(" + IDENT + r") \((.*)\)", text.strip())
        if m2 and m2.group(1) in helpers:
            inner = read_alias(fn, m2.group(2), env, helpers)
            if inner:
                return (inner[0], helpers[m2.group(1)])
        return None
    h, v, b1, b2 = m.groups()
    if v not in env:
        return None
    root, place = env[v]
    place = up(fn, place, b1.count(".before"))
    if h:
        if h not in helpers:
            return None
        place = helpers[h]
    place = up(fn, place, b2.count(".before"))
    return (root, place)


def fields(fn, value, comps):
    root, place = value
    k = 0
    while k < len(comps) and comps[k] == "before":
        place = up(fn, place, 1)
        k += 1
    if k == len(comps):
        return alias(fn, (root, place))
    return root.name + "." + ".".join(fn.turn_fields(place, comps[k:]))


def turn_body(fn, text, env, helpers):
    """Fields of chains, and places handed on. env: variable -> (root, place); helpers: function -> place of what it returns."""
    env = dict(env)
    out = []
    pos = 0
    let = re.compile(r"let (" + IDENT + r") = ([^\n=]*?) in(\s+)")
    call = re.compile(r"\((" + IDENT + r") (" + IDENT + r"(?:\.before)*|\([^()]*\))\)((?:\.[\w'-]+)*)")
    while pos < len(text):
        m = re.compile(r"λ [^.]*\.").match(text, pos)
        if m:
            # names that a function binds
            out.append(m.group(0))
            pos = m.end()
            continue
        m = let.match(text, pos)
        if m and (pos == 0 or not re.match(r"[\w'-]", text[pos - 1])):
            v = read_alias(fn, m.group(2), env, helpers)
            if v:
                env[m.group(1)] = v
                pos = m.end()
                continue
            env.pop(m.group(1), None)
        m = call.match(text, pos)
        if m and m.group(1) in helpers:
            v = read_alias(fn, m.group(1) + " " + m.group(2), env, helpers)
            if v:
                comps = m.group(3)[1:].split(".") if m.group(3) else []
                out.append(fields(fn, v, comps) if comps else alias(fn, v))
                pos = m.end()
                continue
        m = WORD.match(text, pos)
        if m and (pos == 0 or not re.match(r"[\w'.₀-]", text[pos - 1])):
            t = m.group(0)
            pos = m.end()
            if t in fn.params and t not in env:
                out.append(t)
                for want in fn.params[t]:
                    a = re.compile(r"(\s+)(" + IDENT + r"(?:\.[\w'-]+)*|\((?:[^()]|\([^()]*\))*\)(?:\.[\w'-]+)*)").match(text, pos)
                    if not a:
                        break
                    pos = a.end()
                    v = read_alias(fn, a.group(2), env, helpers) if want else None
                    if v:
                        root = v[0]
                        name = fn.named(want, fn.users.get(t, ()))
                        out.append(a.group(1) + (root.name if name == (root.named or fn.named(root.place)) else f"(goal.at.{root.at} {root.name}).{name}"))
                    else:
                        out.append(a.group(1) + turn_body(fn, a.group(2), env, helpers))
                continue
            if t.startswith("\n"):
                out.append(t)
                continue
            base, *comps = t.split(".")
            if base in env:
                out.append(fields(fn, env[base], comps) if comps else alias(fn, env[base]))
            else:
                out.append(t)
            continue
        out.append(text[pos])
        pos += 1
    return after_calls(fn, "".join(out))


def after_calls(fn, text):
    """v.new.1.1.0 of `let v = c.STEP in` is what the call left of its third parameter."""
    callee = {e[2]: e[3] for e in fn.places.values() if e[3] in fn.info["params"]}
    for m in list(re.finditer(r"let (" + IDENT + r") = [^\n=]*?\.([\w'-]+) in", text)):
        if m.group(2) not in callee:
            continue
        names = fn.info["params"][callee[m.group(2)]]

        def one(k):
            n = k.group(2).count(".1")
            return f"{m.group(1)}.{k.group(1).replace('last', 'new').replace('kept', 'auto')}.{names[n]}" if n < len(names) else k.group(0)

        text = re.sub(r"(?<![\w'.-])" + re.escape(m.group(1)) + r"\.(new|auto|last|kept)((?:\.1)*)\.0(?![\w'-])", one, text)
    return text


def turn_tie_types(fn, text, imports, users=()):
    def one(m):
        n = norm(m.group(1))
        if n in fn.new_place:
            imports.add(fn.named(n, users))
            return fn.named(n, users)
        return m.group(0)

    text = re.sub(r"tie\.([\w'-]+)((?: (?:invariant-loop|decreases-loop)[\w-]*)*)", lambda m: one(m), text)
    return text


def convert(path, fn, module, crate):
    text = open(path, encoding="utf-8").read()
    for a, b in fn.info.get("args", []):
        if a.startswith(".args .") and re.fullmatch(r"\.args \.[a-z]\d+", a):
            text = re.sub(r"\." + a[7:] + r"(?![\w'-])", "." + b[7:], text)
    its = items(text)
    uses, invs, helpers_i, answers, whole = [], [], [], [], []
    comment_top = []
    rename = {}
    helper_place = {}
    for it in its:
        first = next((l for l in it if not l.startswith("--")), "")
        if first.startswith("use ") or first.startswith("pub use "):
            comment_top += [l for l in it if l.startswith("--")]
            if not re.search(r"\.(Statement|Tie)\b", first):
                uses += [l for l in it if not l.startswith("--") and l.strip()]
            continue
        name, typ = name_of(it)
        if name is None and re.match(r"(pub )?(module|record|data|ruleset) ", first):
            whole.append("\n".join(it).rstrip("\n") + "\n")
            helpers_i.append((None, it))
            continue
        if name is None:
            comment_top += [l for l in it if l.strip()]
            continue
        joined = "\n".join(it)
        if re.search(r"statement M\b", typ):
            continue
        m = re.match(r"tie\.(invariant|decreases)-(loop[\w-]*|[\w-]+)", typ)
        if m:
            invs.append((m.group(1), norm(m.group(2)), name, it))
            continue
        m = re.match(r"tie\.Need-([\w'-]+)", typ)
        if m:
            answers.append((norm(m.group(1)), name, it))
            continue
        helpers_i.append((name, it))
        mm = re.search(r"→ tie\.([\w'-]+)[^→]*$", typ)
        if mm and norm(mm.group(1)) in fn.places:
            helper_place[name] = norm(mm.group(1))
    # what the older file called the answers
    for old, name, it in answers:
        new = fn.goal(old, name)
        rename[name] = new
    imports = set()
    inv_text = []
    # an invariant that is another one by its name
    clauses = {name: it for _, _, name, it in invs}
    for k, (kind, loop, name, it) in enumerate(invs):
        m = re.match(re.escape(name) + r" = ([\w-]+)$", it[-1].strip() if it[-1].strip() else next((l for l in reversed(it) if l.strip()), ""))
        if m and m.group(1) in clauses:
            body = [re.sub(r"^" + re.escape(m.group(1)) + r"(?![\w-])", name, l) for l in clauses[m.group(1)][1:] if not re.match(r"(abbrev |pub )*" + re.escape(m.group(1)) + " :", l)]
            invs[k] = (kind, loop, name, [next(l for l in it if re.match(r"(abbrev |pub )*" + re.escape(name) + " :", l))] + body)
    for kind, loop, name, it in invs:
        if loop in fn.loops:
            new, live, changed = fn.loops[loop]
        else:
            new, live, changed = loop, None, None
        lines = [l for l in it]
        k = next(i for i, l in enumerate(lines) if re.match(r"(abbrev |pub )*" + re.escape(name) + " :", l))
        head = lines[:k]
        body = "\n".join(lines[k + 1:])
        unf = ""
        um = re.match(r"((?:unfolding [^\n]*\n)*)", body)
        unf = um.group(1)
        body = body[len(unf):]
        bm = re.match(re.escape(name) + r"((?: " + IDENT + r")*) =", body)
        params = bm.group(1).split() if bm else []
        rhs = body[bm.end():] if bm else body
        sub = {}
        if live is not None:
            ch = [v for v, c in zip(live, changed) if c]
            st = [v for v, c in zip(live, changed) if not c]
            order = None
            # the older order: the live variables, those that change as they began, and then those that change as they are
            cand = [("l.initial." + v if c else "l." + v) for v, c in zip(live, changed)] + ["l." + v for v in ch]
            if len(cand) == len(params):
                order = cand
            if order is None:
                print(f"look: {path}: {name}: parameters {params} beside {live} {changed}")
                order = ["l." + p.replace("₀", "") if not p.endswith("₀") else "l.initial." + p[:-1] for p in params]
            for p, o in zip(params, order):
                want = p[:-1] if p.endswith("₀") else p
                if o.split(".")[-1] != want:
                    print(f"look: {path}: {name}: {p} becomes {o}")
            sub = dict(zip(params, order))
        else:
            print(f"look: {path}: {name}: no loop {loop}")
        rhs = re.sub(r"(?<![\w'.₀-])" + IDENT, lambda m: sub.get(m.group(0), m.group(0)), rhs)
        nn = f"{kind}-{new}"
        inv_text += head + [f"abbrev pub {nn} : goal.{nn}"] + ([unf.rstrip("\n")] if unf else []) + [f"{nn} l ={rhs}".rstrip("\n"), ""]
    fn.params = {}
    for name, it in helpers_i:
        if name is None:
            continue
        joined = "\n".join(it)
        typ = joined[joined.index(name + " :") + len(name) + 2:]
        cut = typ.find("\n" + name)
        typ = typ[:cut] if cut > 0 else typ
        plain = []
        for part in typ.split("→"):
            part = part.strip()
            m = re.match(r"tie\.([\w'-]+)", part)
            if m:
                plain.append(norm(m.group(1)))
                continue
            b = re.findall(r"\(((?:" + IDENT + r" )+): (tie\.([\w'-]+))?", part) if part.startswith("(") else []
            for names_, _, place in b:
                plain += [norm(place) if place else None] * len(names_.split())
            if not b:
                plain.append(None)
        while plain and not plain[-1]:
            plain.pop()
        if plain:
            fn.params[name] = plain
    # what an invariant cites stands beside it
    inv_words = set(re.findall(r"[\w'-]+", "\n".join(inv_text)))
    beside, more = [], True
    while more:
        more = False
        for name, it in list(helpers_i):
            if name and name in inv_words and name not in [b for b, _ in beside] and "tie." not in "\n".join(it):
                beside.insert(0, (name, it))
                inv_words |= set(re.findall(r"[\w'-]+", "\n".join(it)))
                more = True
    helpers_i = [(n, it) for n, it in helpers_i if n is None or n not in [b for b, _ in beside]]
    beside_text = []
    for name, it in beside:
        t = "\n".join(it).rstrip("\n")
        t = re.sub(r"(?m)^(abbrev |unfoldable )?(pub )?(?=" + re.escape(name) + r" :)", lambda m: (m.group(1) or "") + "pub ", t)
        beside_text += [t, ""]
    inv_text = beside_text + inv_text
    fn.users = {}
    cites = {name: set(re.findall(r"[\w'-]+", "\n".join(it))) for name, it in helpers_i if name}
    for name in cites:
        todo, seen = [name], set()
        while todo:
            n = todo.pop()
            if n in seen:
                continue
            seen.add(n)
            todo += [m for m, c in cites.items() if n in c and m != n]
        places = set()
        for old, goal_name, it in answers:
            if seen & set(re.findall(r"[\w'-]+", "\n".join(it))):
                q = fn.at.get(old) or fn.at.get(norm(goal_name))
                if q:
                    places.add(q)
        fn.users[name] = sorted(places)
    ans_text = []

    def params_env(name, body, typ):
        env = {}
        # (r : tie.Place ..) -> ..   or  tie.A → tie.B
        for m in re.finditer(r"\((" + IDENT + r") : tie\.([\w'-]+)", typ):
            env[m.group(1)] = norm(m.group(2))
        return env

    need_text = []
    for name, it in helpers_i:
        if name is None:
            need_text += ["\n".join(it).rstrip("\n"), ""]
            continue
        joined = "\n".join(it)
        k = joined.index(name + " :")
        sig_end = joined.find("\n" + name, k)
        sig = joined[:sig_end] if sig_end > 0 else joined
        body = joined[sig_end:] if sig_end > 0 else ""
        env = params_env(name, body, sig)
        pos_places = []
        mm = re.search(re.escape(name) + r" : (.*)$", sig, re.S)
        typ = mm.group(1)
        # positional place types
        parts = [p.strip() for p in re.split(r"→", typ)]
        bm = re.match(r"\n" + re.escape(name) + r"((?: (?:" + IDENT + r"|\([^()]*\)))*) =", body)
        args = bm.group(1).split() if bm else []
        plain = []
        for p in parts:
            m = re.match(r"^tie\.([\w'-]+)", p)
            if m:
                plain.append(norm(m.group(1)))
            else:
                b = re.findall(r"\(((?:" + IDENT + r" )+):", p)
                if b and p.startswith("("):
                    for g in b:
                        plain += [None] * len(g.split())
                else:
                    plain.append(None)
        for a, p in zip(args, plain):
            if p and a not in env:
                env[a] = p
        # also the names used in the definition for named binders
        named = []
        for m in re.finditer(r"\((" + IDENT + r"(?: " + IDENT + r")*) : (tie\.([\w'-]+))?", typ):
            for n in m.group(1).split():
                named.append(norm(m.group(3)) if m.group(3) else None)
        roots = {a: (Root(a, p, fn.named(p, fn.users.get(name, ())), fn.named(p, fn.users.get(name, ()))), p) for a, p in env.items() if p}
        if name in helper_place:
            # it only goes back to an earlier place
            continue
        sig2 = turn_body(fn, sig, roots, helper_place)
        body2 = turn_body(fn, body, roots, helper_place)
        out = turn_tie_types(fn, sig2 + body2, imports, fn.users.get(name, ()))
        need_text += [out.rstrip("\n"), ""]
    for old, name, it in answers:
        new = fn.goal(old, name)
        joined = "\n".join(it)
        k = joined.index(name + " :")
        comment = joined[:k].strip("\n")
        comment = "" if "--" not in comment else comment
        rest = joined[k:]
        sig_end = rest.find("\n")
        sig, body = rest[:sig_end], rest[sig_end + 1:]
        um = re.match(r"((?:unfolding [^\n]*\n)*)", body)
        unf = um.group(1)
        body = body[len(unf):]
        bm = re.match(re.escape(name) + r"((?: (?:" + IDENT + r"|\([^()]*\)|_))*) =", body)
        if not bm:
            print(f"look: {path}: {name}: no clause is read")
            continue
        args = [a for a in bm.group(1).split(" ") if a and a != "κs"]
        argtext = bm.group(1).replace(" κs", "")
        rhs = body[bm.end():]
        if TRIVIAL.match(rhs.strip()) and not unf:
            continue
        if new is None:
            print(f"look: {path}: {name}: no goal {old} any more")
            continue
        place = fn.at.get(old) or fn.at.get(norm(name))
        rhs = turn_body(fn, rhs, {"c": (Root("c", place, new), place)}, helper_place)
        rhs = turn_tie_types(fn, rhs, imports)
        for a, b in rename.items():
            if b and a != b:
                rhs = re.sub(r"(?<![\w'.-])" + re.escape(a) + r"(?= c\b)", "\0" + b, rhs)
        rhs = rhs.replace("\0", "")
        ans_text += ([comment] if comment else []) + [f"pub {new} : goal.{new}"] + ([unf.rstrip("\n")] if unf else []) + [f"{new}{argtext} ={rhs}".rstrip("\n"), ""]
    body_text = "\n".join(need_text + ans_text)
    folder = os.path.dirname(path)
    kept = tempfile.gettempdir() + "/old-proofs/" + crate + "/" + os.path.relpath(folder, "crates/" + crate + "/proofs").replace("/", "~") + ".antt"
    os.makedirs(os.path.dirname(kept), exist_ok=True)
    os.replace(path, kept)
    top = "\n".join(comment_top)
    goalmod = f"Rattle.{crate}.proofs.{module}"
    if inv_text:
        with open(os.path.join(folder, "Invariants.antt"), "w", encoding="utf-8") as f:
            f.write(((top + "\n") if top else "") + "\n".join(uses) + f"\nuse {goalmod}.Given as goal\n\n" + "\n".join(inv_text).rstrip("\n") + "\n")
    if ans_text:
        extra = f"\nuse {goalmod}.Goals.{{{', '.join(sorted(imports))}}}" if imports else ""
        taken = [b for b, _ in beside if re.search(r"(?<![\w'-])" + re.escape(b) + r"(?![\w'-])", body_text)]
        extra += f"\nuse {goalmod}.Invariants.{{{', '.join(taken)}}}" if taken else ""
        with open(os.path.join(folder, "Answers.antt"), "w", encoding="utf-8") as f:
            f.write(((top + "\n") if top else "") + "\n".join(uses) + f"\nuse {goalmod}.Goals as goal" + extra + "\n\n" + body_text.rstrip("\n") + "\n")
    if not os.listdir(folder):
        os.removedirs(folder)
    for u in fn.unknown:
        print(f"look: {folder}: {u}")


def main(argv):
    crate = os.path.basename(argv[0].rstrip("/"))
    names = json.load(open(argv[1]))
    base = os.path.join("crates", crate, "proofs")
    for folder, dirs, files in list(os.walk(base)):
        if "Proof.antt" in files:
            rel = os.path.relpath(folder, base)
            module = rel.replace("/", ".")
            key = f"Rattle-{crate}-proofs.{module}.Lts"
            if key not in names:
                print(f"look: {folder}: {key} is not among the names")
                continue
            view = os.path.join(argv[2], f"Rattle-{crate}-proofs", rel, "Lts", "View.antt") if len(argv) > 2 else None
            convert(os.path.join(folder, "Proof.antt"), Function(names[key], view), module, crate)


main(sys.argv[1:])
