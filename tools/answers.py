#!/usr/bin/env python3
"""Turns the proofs of a crate from the older kit's form, over places, to invariants and answers.

usage: tools/answers.py NAMES CRATE [FUNCTION..]    at the top of the repository, after port.py and tools/respell.py, once for each crate

NAMES is the names.json that `rt check --generated FOLDER --old-names` writes in the folder of CRATE, whose lower crates have to prove. Each
proofs/F/Proof.antt that ends in `tie.close (tie.spec ..)` becomes proofs/F/Invariants.antt and proofs/F/Answers.antt:
    an invariant or a measure over the variables by position     the same over `l`
    an answer to `tie.Need-X`                                    the answer to today's goal; one that says `search rules` alone is left out
    `c.before.before.step`                                       the step's fact itself, which is a field of `c`
    a lemma over a place that is passed `c.before`               `(goal.at.GOAL c).PLACE`
    clauses by number                                            by their labels, a tuple for several clauses as a record
It goes by text and says what it could not place; the check says what is left. Proofs that walk the code by hand are left as they are.
"""
import json, os, re, sys, glob

SUB = "₀₁₂₃₄₅₆₇₈₉"
NAMECH = r"[^\s(){}\[\],;.:|@\"=λ]"
SIG = re.compile(r"^((?:abbrev |pub |unfoldable )*)(" + NAMECH + r"+)\s+:(?:\s+(.*))?$")


def norm(s):
    return re.sub(r"[-_]+", "-", s)


def short(s):
    """tie name of a need -> old name"""
    s = norm(s)
    for p in ("overflow-", "nonzero-"):
        if s.startswith(p):
            s = s[len(p):]
    return s


class Fn:
    def __init__(self, d):
        self.needs = [(norm(a), b) for a, b in d["needs"]]
        self.asked = d["asked_at"]
        self.places = {}
        self.order = []
        for (old, parent, (fo, fn), callee, subs), new, arm in zip(d["places"], d["places_by_name"], d["arms"]):
            self.places.setdefault(norm(old), []).append(dict(arm=arm, old=norm(old), parent=parent and norm(parent), fo=norm(fo), fn=fn, subs={norm(a): b for a, b in subs}, new=new, callee=callee))
            self.order.append(norm(old))
        self.loops = d["loops"]
        self.changed = d["changed"]
        self.params = d.get("params", {})
        self.raw = d
        # alternative names: In-loop.. for Then1/Else1 under a loop's test
        self.bynew = {}
        for ps in self.places.values():
            for p in ps:
                self.bynew[norm(p["new"])] = p

    def place(self, name):
        n = norm(name)
        if n in self.places:
            return self.places[n][0]
        if n in self.bynew:
            return self.bynew[n]
        # In-loop -> In-loop-<x>, loop test
        m = re.match(r"(In|At|After)-loop(\d*)$", n)
        if m:
            k = int(m.group(2) or 1)
            if k - 1 < len(self.loops):
                new = self.loops[k - 1][0][1]
                return self.bynew.get(norm(f"{m.group(1)}-{new}"))
        return None

    def parent(self, p):
        return self.places[p["parent"]][0] if p and p["parent"] else None


START = {"args", "requires", "pre", "good", "ranges", "well-formed", "lifetimes", "utf8"}
TOK = re.compile(r"\s+|--[^\n]*|\"(?:[^\"\\]|\\.)*\"|[(){}\[\],;]|λ|" + NAMECH + r"+|[.:|@=]|.", re.S)


def tokenize(s):
    return [m.group(0) for m in TOK.finditer(s)]


class Conv:
    def __init__(self, fn, warn):
        self.fn = fn
        self.warn = warn
        self.helpers = {}  # name -> list of param place names + result place (old names) or None
        self.used_places = set()

    def placetype(self, t):
        """old type text -> place or None"""
        m = re.match(r"\(?\s*(?:" + NAMECH + r"+\s+:\s+)?tie\.(" + NAMECH + r"+)((?:\s+" + NAMECH + r"+)*)\s*\)?$", t.strip())
        if m and not m.group(1).startswith("Need"):
            return self.fn.place(m.group(1))
        return None

    def types(self, text):
        def sub(m):
            name = m.group(1)
            p = self.fn.place(name)
            if not p:
                self.warn(f"no place {name}")
                return m.group(0)
            self.used_places.add(p["new"])
            return p["new"]
        return re.sub(r"tie\.(?!Need-|close|spec\b|invariant|decreases)(" + NAMECH + r"+)((?:\s+(?:invariant|decreases)-[\w-]+)*)", sub, text)

    def fieldchain(self, base, place, fields):
        fn = self.fn
        cur = place
        k = 0
        i = 0
        while i < len(fields) and fields[i] == "before" and cur:
            nxt = fn.parent(cur)
            if nxt:
                cur = nxt
                k += 1
            i += 1
        if i == len(fields):
            if k == 0:
                return base, cur
            self.used_places.add(cur["new"])
            acc = place.get("acc") or place["new"]
            if not place.get("acc"):
                self.used_places.add(place["new"])
            return f"(goal.at.{acc} {base}).{cur['new']}", cur
        g = norm(fields[i])
        rest = fields[i + 1:]
        found = self.lookup(cur, g, rest) or self.lookup(place, g, rest)
        up = place
        while not found and up.get("root"):
            base, up = up["root"]
            found = self.lookup(up, g, rest)
        if found and found[0] == "arm":
            return base + "." + ".".join(found[1]), None
        look = found[1] if found else None
        if look is None:
            self.warn(f"no field {fields[i]} from {place['new']} ({base})")
            return base + "." + ".".join(fields[i:]), None
        if look["parent"] is None:
            name = {"pre": "requires", "good": "well_formed", "well-formed": "well_formed"}.get(g, g)
            if name == "requires" and rest and re.fullmatch(r"\d+", rest[0]):
                rest = by_label(LABELS.get(self.fn.path, {}).get("requires", []), rest)
            if name == "args" and rest and re.fullmatch(r"t\d+", rest[0]):
                ps = PARAMS.get(self.fn.path, [])
                k2 = int(rest[0][1:]) - 1
                if k2 < len(ps):
                    rest = [ps[k2]] + rest[1:]
            out = [name] + rest
        else:
            name = look["fn"]
            out = [name]
            r = list(rest)
            if len(r) > 1 and norm(r[0]) in ("ensures", "post") and re.fullmatch(r"\d+", r[1]) and look["callee"]:
                r = [r[0]] + by_label(LABELS.get(look["callee"], {}).get("ensures", []), r[1:])
            if len(r) > 1 and r[0] in ("new", "last") and look["callee"]:
                k2 = 0
                while 1 + k2 < len(r) and r[1 + k2] == "1":
                    k2 += 1
                ps = PARAMS.get(look["callee"], [])
                if 1 + k2 < len(r) and r[1 + k2] == "0" and k2 < len(ps):
                    r = ["new", ps[k2]] + r[2 + k2:]
            if len(r) > 1 and r[0] in ("auto", "kept") and re.fullmatch(r"\d+", r[1]) and look["callee"]:
                ms = MUTS.get(look["callee"], [])
                if int(r[1]) < len(ms):
                    r = ["auto", ms[int(r[1])]] + r[2:]
            if r:
                f0 = norm(r[0])
                if f0 in ("inv",):
                    r[0] = "invariant"
                elif f0 == "post":
                    r[0] = "ensures"
                elif f0 in look["subs"]:
                    r[0] = look["subs"][f0]
                elif f0 == "taken":
                    r[0] = "true"
                elif f0 == "not-taken" or f0 == "left" and (look["fn"].startswith("if-") or look["fn"].endswith("-test")):
                    r[0] = "false"
            out += r
        return base + "." + ".".join(out), None

    def lookup(self, cur, g, rest):
        fn = self.fn
        look = cur
        while look is not None:
            arm = look["arm"]
            if arm:
                best = None
                for newf, olds, path in arm[2]:
                    if norm(olds) == g and rest[:len(path)] == path and path and (best is None or len(path) > len(best[1])):
                        best = (newf, path)
                if best:
                    return "arm", [arm[0], best[0]] + rest[len(best[1]):]
                own = [newf for newf, olds, path in arm[2] if not path and norm(olds) == g]
                if own:
                    return "arm", [arm[0], own[0]] + rest
            look = fn.parent(look)
        look = cur
        while look is not None:
            if look["parent"] is None:
                return ("place", look) if g in START else None
            if g == look["fo"] or g == norm(look["fn"]) or (g in ("loop-test", "loop2-test", "loop3-test") and look["fn"].endswith("-test")) or (re.fullmatch(r"loop\d*", g) and re.fullmatch(r"loop-.*", look["fn"]) and not look["fn"].endswith("-test") and self.loopis(g, look["fn"])):
                return "place", look
            look = fn.parent(look)
        return None

    def loopis(self, g, new):
        k = int(g[4:] or 1)
        return k - 1 < len(self.fn.loops) and self.fn.loops[k - 1][0][1] == new

    def body(self, text, env):
        toks = tokenize(text)
        env = dict(env)
        out, _ = self.seq(toks, 0, None, env)
        return out

    def skip(self, toks, i):
        while i < len(toks) and (toks[i].isspace() or toks[i].startswith("-- ")):
            i += 1
        return i

    def befores(self, toks, i, cur):
        while cur and i + 1 < len(toks) and toks[i] == "." and toks[i + 1] == "before":
            nxt = self.fn.parent(cur)
            if nxt is not None:
                cur = nxt
            i += 2
        return cur, i

    def atom(self, toks, i, env):
        """a variable or a bracketed upcast, with its .before's: (root, root place, place, next) or None"""
        if i >= len(toks):
            return None
        t = toks[i]
        if t == "(":
            j = self.skip(toks, i + 1)
            r = self.upcast(toks, j, env)
            if not r:
                return None
            k = self.skip(toks, r[3])
            if k >= len(toks) or toks[k] != ")":
                return None
            cur, k = self.befores(toks, k + 1, r[2])
            return (r[0], r[1], cur, k) if cur else None
        p = env.get(t)
        if p and "old" in p and (i == 0 or toks[i - 1] != "."):
            cur, k = self.befores(toks, i + 1, p)
            return (t, p, cur, k) if cur else None
        return None

    def upcast(self, toks, i, env):
        if i >= len(toks):
            return None
        t = toks[i]
        h = self.helpers.get(t)
        if h and h[1] and len(h[0]) == 1 and t not in env and (i == 0 or toks[i - 1] != "."):
            j = self.skip(toks, i + 1)
            r = self.atom(toks, j, env)
            if not r:
                return None
            return (r[0], r[1], h[1], r[3])
        return self.atom(toks, i, env)

    def above(self, p, q):
        while p is not None:
            if p["new"] == q["new"]:
                return True
            p = self.fn.parent(p)
        return False

    def emit(self, root, rp, q):
        m = re.match(r"(In[-_].*?)-\d+$", q["new"])
        if m and rp["new"] != q["new"]:
            full = self.fn.bynew.get(norm(m.group(1)))
            if full and full["new"] != rp["new"] and self.above(rp, full):
                q = full
            else:
                return root
        if rp["new"] == q["new"]:
            return root
        self.used_places.add(q["new"])
        acc = rp.get("acc") or rp["new"]
        if not rp.get("acc"):
            self.used_places.add(rp["new"])
        return f"(goal.at.{acc} {root}).{q['new']}"

    # parse a sequence up to a closing token; returns text and index
    def seq(self, toks, i, close, env):
        out = []
        pend = None  # name bound by let, waiting for '='
        while i < len(toks):
            t = toks[i]
            if t == close:
                return "".join(out), i
            if t == "let":
                out.append(t)
                j = i + 1
                # let NAME = EXPR in
                while j < len(toks) and toks[j].isspace():
                    j += 1
                nm = toks[j]
                q = j + 1
                while q < len(toks) and toks[q].isspace():
                    q += 1
                if q < len(toks) and toks[q] == "=":
                    # find matching 'in' at depth 0
                    depth = 0
                    e = q + 1
                    lets = 0
                    while e < len(toks):
                        if toks[e] in "({[" and toks[e].strip():
                            depth += 1
                        elif toks[e] in ")}]" and toks[e].strip():
                            depth -= 1
                        elif toks[e] == "let" and depth == 0:
                            lets += 1
                        elif toks[e] == "in" and depth == 0:
                            if lets == 0:
                                break
                            lets -= 1
                        e += 1
                    etoks = toks[q + 1:e]
                    etext, _ = self.seq(etoks, 0, None, dict(env))
                    st = self.skip(etoks, 0)
                    r = self.upcast(etoks, st, env)
                    pl = None
                    if r and self.skip(etoks, r[3]) == len(etoks):
                        pl = {k2: v2 for k2, v2 in r[2].items() if k2 != "acc"} if r[2]["new"] != r[1]["new"] else r[1]
                        pl = dict(pl, root=(r[0], r[1]))
                        m = re.match(r"(In[-_].*?)-\d+$", r[2]["new"])
                        if m and r[2]["new"] != r[1]["new"]:
                            full = self.fn.bynew.get(norm(m.group(1)))
                            if full and full["new"] != r[1]["new"] and self.above(r[1], full):
                                pl = dict({k2: v2 for k2, v2 in full.items() if k2 != "acc"}, root=(r[0], r[1]))
                            else:
                                pl = r[1]
                    elif r and "".join(etoks[r[3]:]).strip() == ".args":
                        pl = {"isargs": True}
                    else:
                        pl = self.exprplace(etoks, env)
                    out.append("".join(toks[i + 1:q + 1]) + etext)
                    env[nm] = pl
                    i = e
                    continue
                i += 1
                continue
            if t == "λ":
                j = i + 1
                depth = 0
                while j < len(toks):
                    if toks[j] in ("(", "{", "["):
                        depth += 1
                    elif toks[j] in (")", "}", "]"):
                        depth -= 1
                    elif toks[j] == "." and depth == 0:
                        break
                    elif depth <= 1 and toks[j] in env and toks[j - 1] != ".":
                        prev = [x for x in toks[i:j] if x.strip()][-1]
                        if depth == 0 or prev in ("(", "{"):
                            env.pop(toks[j], None)
                    j += 1
                text = "".join(toks[i:j + 1])
                out.append(text)
                i = j + 1
                continue
            if t in self.helpers and t not in env and (i == 0 or toks[i - 1] != "."):
                h = self.helpers[t]
                if not (h[1] and len(h[0]) == 1 and self.upcast(toks, i, env)):
                    # arguments at the places that the helper wants
                    out.append(t)
                    i += 1
                    for want in h[0]:
                        j = self.skip(toks, i)
                        if j == i or j >= len(toks):
                            break
                        if want is None:
                            # an argument of another kind: one atom with its fields
                            if toks[j] in ("(", "{"):
                                break
                            if not re.match(NAMECH + "+$", toks[j]) or toks[j] in ("in", "→", "∙"):
                                break
                            k = j + 1
                            while k + 1 < len(toks) and toks[k] == "." and re.match(NAMECH, toks[k + 1]):
                                k += 2
                            text, _ = self.seq(toks[j:k], 0, None, env)
                            out.append("".join(toks[i:j]) + text)
                            i = k
                            continue
                        r = self.atom(toks, j, env) or (toks[j] == "(" and None)
                        if not r or (r[3] < len(toks) and toks[r[3]] == "."):
                            break
                        q = r[2]
                        if q["new"] != want["new"]:
                            if self.above(q, want):
                                q = want
                            else:
                                self.warn(f"{t} wants {want['new']}, given {q['new']}")
                        out.append("".join(toks[i:j]) + self.emit(r[0], r[1], q))
                        i = r[3]
                    continue
            r = self.upcast(toks, i, env) if (t == "(" or t in self.helpers or (t in env and env[t])) else None
            if r and (t == "(" or t in self.helpers):
                root, rp, q, k = r
                fields = []
                while k + 1 < len(toks) and toks[k] == "." and re.match(NAMECH, toks[k + 1]):
                    fields.append(toks[k + 1])
                    k += 2
                if fields:
                    s, _ = self.fieldchain(root, q, fields)
                    out.append(s)
                else:
                    out.append(self.emit(root, rp, q))
                i = k
                continue
            if t == "(":
                inner, j = self.seq(toks, i + 1, ")", dict(env))
                # fields after
                k = j + 1
                fields = []
                while k + 1 < len(toks) and toks[k] == "." and re.match(NAMECH, toks[k + 1]):
                    fields.append(toks[k + 1])
                    k += 2
                pl = self.exprplace(toks[i + 1:j], env) if fields else None
                if pl:
                    base = "(" + inner + ")"
                    m = re.fullmatch(r"\s*(" + NAMECH + r"+)\s*", inner)
                    s, _ = self.fieldchain(base, pl, fields)
                    out.append(s)
                else:
                    out.append("(" + inner + ")" + "".join("." + f for f in fields))
                i = k
                continue
            if t in "{[" and t.strip():
                c = {"{": "}", "[": "]"}[t]
                inner, j = self.seq(toks, i + 1, c, dict(env))
                out.append(t + inner + c)
                i = j + 1
                continue
            if re.match(NAMECH + "+$", t) and t in env and env[t] and (i == 0 or toks[i - 1] != "."):
                k = i + 1
                fields = []
                while k + 1 < len(toks) and toks[k] == "." and re.match(NAMECH, toks[k + 1]):
                    fields.append(toks[k + 1])
                    k += 2
                if fields and env[t].get("isargs"):
                    m = re.fullmatch(r"t(\d+)", fields[0])
                    ps = PARAMS.get(self.fn.path, [])
                    if m and int(m.group(1)) - 1 < len(ps):
                        fields[0] = ps[int(m.group(1)) - 1]
                    out.append(t + "".join("." + f for f in fields))
                    i = k
                    continue
                if fields:
                    if all(f == "before" for f in fields):
                        r = self.atom(toks, i, env)
                        if r:
                            out.append(self.emit(r[0], r[1], r[2]))
                            i = k
                            continue
                    s, _ = self.fieldchain(t, env[t], fields)
                    out.append(s)
                    i = k
                    continue
            out.append(t)
            i += 1
        return "".join(out), i

    def exprplace(self, toks, env):
        ts = [t for t in toks if t.strip() and not t.startswith("--")]
        if not ts:
            return None
        # strip parens
        if ts[0] == "let":
            # let .. in EXPR : place of the last
            depth = 0
            env = dict(env)
            i = 0
            while i < len(ts) and ts[i] == "let":
                nm = ts[i + 1]
                if ts[i + 2] != "=":
                    return None
                e = i + 3
                depth = 0
                lets = 0
                while e < len(ts):
                    if ts[e] in ("(", "{", "["):
                        depth += 1
                    elif ts[e] in (")", "}", "]"):
                        depth -= 1
                    elif ts[e] == "let" and depth == 0:
                        lets += 1
                    elif ts[e] == "in" and depth == 0:
                        if lets == 0:
                            break
                        lets -= 1
                    e += 1
                env[nm] = self.exprplace(ts[i + 3:e], env)
                i = e + 1
            return self.exprplace(ts[i:], env)
        if ts[0] == "(":
            depth = 0
            for j, t in enumerate(ts):
                if t == "(":
                    depth += 1
                elif t == ")":
                    depth -= 1
                    if depth == 0:
                        break
            pl = self.exprplace(ts[1:j], env)
            k = j + 1
        elif ts[0] in self.helpers and self.helpers[ts[0]][1] and len(ts) > 1 and ts[1] != ".":
            h = self.helpers[ts[0]]
            return h[1]
        elif ts[0] in env:
            pl = env[ts[0]]
            k = 1
        else:
            return None
        while pl and k < len(ts):
            if ts[k] == "." and k + 1 < len(ts) and ts[k + 1] == "before":
                pl = self.fn.parent(pl)
                k += 2
            else:
                return None
        return pl


def labels_of(fn, new, old):
    if re.match(r"returns(-|$)", new):
        ls = LABELS.get(fn.path, {}).get("ensures", [])
    elif re.search(r"-requires(-|$)", old):
        base = old[:old.index("-requires")]
        ls = []
        callees = set(fn.params) | {p["callee"] for ps in fn.places.values() for p in ps if p["callee"]}
        for cal in callees:
            if norm(cal.rsplit("::", 1)[-1]) == base:
                ls = LABELS.get(cal, {}).get("requires", [])
    else:
        return []
    return ls if len(ls) > 1 else []


def as_record(body, ls):
    if not ls:
        return body
    toks = tokenize(body)
    k = [i for i, t in enumerate(toks) if t.strip()]
    if not k or toks[k[-1]] != ")":
        return body
    depth = 0
    for j in reversed(k):
        if toks[j] in (")", "}", "]"):
            depth += 1
        elif toks[j] in ("(", "{", "["):
            depth -= 1
            if depth == 0:
                break
    pos = k.index(j)
    if pos and toks[k[pos - 1]] != "in":
        return body
    k = k[pos:]
    depth, parts, cur = 0, [], []
    for i in range(k[0], k[-1] + 1):
        t = toks[i]
        if t in ("(", "{", "["):
            depth += 1
            if depth == 1:
                continue
        elif t in (")", "}", "]"):
            depth -= 1
            if depth == 0:
                if i != k[-1]:
                    return body
                break
        if t == "," and depth == 1:
            parts.append("".join(cur))
            cur = []
        else:
            cur.append(t)
    if "".join(cur).strip():
        parts.append("".join(cur))
    while len(parts) < len(ls):
        last = tokenize(parts[-1].strip())
        if not last or last[0] != "(" or last[-1] != ")":
            return body
        depth, sub, cur = 0, [], []
        for i2, t in enumerate(last):
            if t in ("(", "{", "["):
                depth += 1
                if depth == 1:
                    continue
            elif t in (")", "}", "]"):
                depth -= 1
                if depth == 0:
                    if i2 != len(last) - 1:
                        return body
                    break
            if t == "," and depth == 1:
                sub.append("".join(cur))
                cur = []
            else:
                cur.append(t)
        if "".join(cur).strip():
            sub.append("".join(cur))
        if len(sub) < 2:
            return body
        parts = parts[:-1] + [sub[0], sub[1] if len(sub) == 2 else "(" + ",".join(sub[1:]) + ")"]
    if len(parts) != len(ls):
        return body
    pre = "".join(toks[:k[0]])
    return pre + "record { " + "; ".join(f"{l} = {p.strip()}" for l, p in zip(ls, parts)) + " }"


def split_blocks(text):
    """-> header lines, use lines, blocks (comment, sigprefix, name, lines)"""
    lines = text.split("\n")
    uses, header, blocks = [], [], []
    cur = None
    comm = []
    for ln in lines:
        if ln.startswith("use ") or ln.startswith("pub use "):
            uses.append(ln)
            continue
        if ln.startswith("-- ") or ln == "--":
            if not uses and not blocks and cur is None:
                header.append(ln)
            else:
                comm.append(ln)
            continue
        m = SIG.match(ln) if ln and not ln[0].isspace() else None
        if m:
            cur = dict(comment=comm, prefix=m.group(1), name=m.group(2), sig=[ln], rest=[])
            comm = []
            blocks.append(cur)
            continue
        if cur is None:
            if ln.strip():
                raise ValueError("stray " + ln)
            continue
        if comm and ln.strip():
            cur["rest"] += comm
            comm = []
        # continuation of the signature if it begins with blank and no clause yet
        if not cur["rest"] and ln[:1].isspace() and ln.strip():
            cur["sig"].append(ln)
        else:
            cur["rest"].append(ln)
    for b in blocks:
        while b["rest"] and not b["rest"][-1].strip():
            b["rest"].pop()
    return header, uses, blocks, comm


def lhs_rhs(name, rest):
    """splits clauses: list of (unfolding, lhs tokens, rhs text)"""
    unf = ""
    i = 0
    if rest and rest[0].startswith("unfolding"):
        unf = rest[0]
        i = 1
    return unf, "\n".join(rest[i:])


def used_names(text):
    return set(t for t in tokenize(re.sub(r"--[^\n]*", "", text)))


def mentions(text):
    return used_names(text)


def prune(uses, text):
    names = used_names(text)
    out = []
    for u in uses:
        m = re.match(r"(use .*\.)\{(.*)\}\s*$", u)
        if m:
            keep = []
            for it in [x.strip() for x in m.group(2).split(",")]:
                nm = it.split(" as ")[-1]
                parts = [p for p in nm.split("◌") if p]
                if not re.search(r"\w", nm) and "◌" not in nm and nm in text or "◌" in nm and parts and all(p in text for p in parts):
                    keep.append(it)
                elif nm in names or (("◌" in nm) and all(p in names or any(p in n for n in names) for p in parts)) or it in ("rules", "arith") and it in names or nm in (";",):
                    keep.append(it)
            if keep:
                out.append(m.group(1) + "{" + ", ".join(keep) + "}")
        else:
            m = re.match(r"use .* as (\S+)$", u)
            nm = m.group(1) if m else u.rsplit(".", 1)[-1]
            if nm in names:
                out.append(u)
    return out


def unmodule(text):
    """module _ (c : T) where, with definitions of c below it: each gets c as its first argument"""
    lines = text.split("\n")
    out = []
    i = 0
    while i < len(lines):
        m = re.match(r"module _ \((\S+) : (.*)\) where$", lines[i])
        if not m:
            out.append(lines[i])
            i += 1
            continue
        v, ty = m.group(1), m.group(2)
        i += 1
        block = []
        while i < len(lines) and (not lines[i].strip() or lines[i].startswith("  ")):
            block.append(lines[i][2:])
            i += 1
        names = [SIG.match(b).group(2) for b in block if b and not b[0].isspace() and SIG.match(b)]
        for b in block:
            sm = SIG.match(b) if b and not b[0].isspace() else None
            if sm:
                out.append(f"{sm.group(1)}{sm.group(2)} : ({v} : {ty}) → {sm.group(3)}")
                continue
            cm = re.match(r"(" + NAMECH + r"+)(.*)$", b) if b and not b[0].isspace() and not b.startswith("--") else None
            if cm and cm.group(1) in names:
                rest = cm.group(2)
                for n2 in names:
                    rest = re.sub(r"(?<![\w.'-])" + re.escape(n2) + r"(?![\w'-])", f"({n2} {v})", rest)
                out.append(f"{cm.group(1)} {v}{rest}")
                continue
            for n2 in names:
                b = re.sub(r"(?<![\w.'-])" + re.escape(n2) + r"(?![\w'-])", f"({n2} {v})", b) if not b.startswith("--") else b
            out.append(b)
    return "\n".join(out)


def convert(fn, path, mod, crate):
    text = open(path, encoding="utf-8").read()
    warns = []
    cv = Conv(fn, lambda w: warns.append(w))
    text = unmodule(text)
    header, uses, blocks, tail = split_blocks(text)
    uses = [u for u in uses if not re.search(r"\.(Statement\.\{statement\}|Tie as tie)$", u)]
    needs = {}
    for o, n in fn.needs:
        needs.setdefault(o, n)
    neednew = {norm(n): n for o, n in fn.needs}
    asked = {n: a for (o, n), a in zip(fn.needs, fn.asked)}
    inv_out, ans_out = [], []
    dropped = []
    # first pass: helpers' types
    for b in blocks:
        sig = " ".join(x.strip() for x in b["sig"])
        ty = sig.split(" : ", 1)[1] if " : " in sig else ""
        b["ty"] = ty
        if ty.startswith("tie.invariant") or ty.startswith("tie.decreases"):
            b["kind"] = "inv"
        elif ty.startswith("tie.Need-"):
            b["kind"] = "need"
        elif "statement M" in ty:
            b["kind"] = "spec"
        else:
            b["kind"] = "helper"
            # split at top level arrows
            parts, depth, cur = [], 0, ""
            for tok in tokenize(ty):
                if tok in "({[" and tok.strip():
                    depth += 1
                elif tok in ")}]" and tok.strip():
                    depth -= 1
                if tok == "→" and depth == 0:
                    parts.append(cur)
                    cur = ""
                else:
                    cur += tok
            parts.append(cur)
            b["params"] = []
            for p in parts[:-1]:
                groups = re.findall(r"[({]([^(){}]*?) : ((?:[^(){}]|\([^()]*\))*)[)}]", p) if re.match(r"\s*[({][^(){}]* : ", p) else None
                if not groups:
                    b["params"].append(cv.placetype(p))
                    continue
                implicit = re.findall(r"([({])[^(){}]*? : (?:[^(){}]|\([^()]*\))*[)}]", p)
                for (ns, gt), br in zip(groups, implicit):
                    if br == "{":
                        continue
                    for _ in ns.split():
                        b["params"].append(cv.placetype(gt))
            cv.helpers[b["name"]] = (b["params"], cv.placetype(parts[-1]))
    inv_names = {b["name"] for b in blocks if b["kind"] == "inv"}
    byname = {b["name"]: b for b in blocks if b["kind"] == "helper"}
    wanted, todo = set(), [b for b in blocks if b["kind"] == "inv"]
    while todo:
        b = todo.pop()
        for t in used_names("\n".join(b["sig"][1:] + b["rest"]) + " " + b["ty"]):
            if t in byname and t not in wanted:
                wanted.add(t)
                todo.append(byname[t])
    neednames = {}
    for b in blocks:
        if b["kind"] == "need":
            m = re.match(r"tie\.Need-(\S+)", b["ty"])
            o = norm(m.group(1))
            neednames[b["name"]] = needs.get(o) or needs.get(short(m.group(1))) or neednew.get(o)
    refs = set()
    for b in blocks:
        if b["kind"] in ("need", "helper"):
            refs |= {t for t in used_names("\n".join(b["rest"])) if t in neednames and t != b["name"]}
    def strip_inv(t):
        return re.sub(r"(tie\.(?!invariant|decreases)" + NAMECH + r"+)((?:\s+(?:" + "|".join(map(re.escape, sorted(inv_names, key=len, reverse=True))) + r"))+)(?!" + NAMECH + ")", r"\1", t) if inv_names else t
    for b in blocks:
        unf, cl = lhs_rhs(b["name"], b["rest"])
        if b["kind"] == "spec":
            continue
        if b["kind"] == "inv":
            m = re.match(r"tie\.(invariant|decreases)-(\S+)", b["ty"])
            kind, lp = m.group(1), norm(m.group(2))
            idx = None
            for k, ((o, n), vs) in enumerate(fn.loops):
                if norm(o) == lp or norm(n) == lp or (lp == "loop" and len(fn.loops) == 1):
                    idx = k
            if idx is None:
                warns.append(f"no loop {lp} in {fn.loops}")
                idx = 0
            (o, n), vs = fn.loops[idx]
            ch = fn.changed[idx] if idx < len(fn.changed) else [False] * len(vs)
            eq = re.split(r" =(?=[ \n])", cl, maxsplit=1)
            params = eq[0].split()[1:]
            bodytext = eq[1][1:] if eq[1][0] == " " else eq[1][1:]
            target = []
            for v, c in zip(vs, ch):
                target.append(f"l.initial.{v}" if c else f"l.{v}")
            for v, c in zip(vs, ch):
                if c:
                    target.append(f"l.{v}")
            if len(params) != len(target):
                warns.append(f"{b['name']}: {len(params)} params {params} for {target}")
            mp = dict(zip(params, target))
            toks = tokenize(bodytext)
            res = []
            for q, t in enumerate(toks):
                if t in mp and (q == 0 or toks[q - 1] != "."):
                    res.append(mp[t])
                else:
                    res.append(t)
            new = f"{kind}-{n}"
            inv_out.append((b["comment"], f"abbrev pub {new} : goal.{new}\n" + (unf + "\n" if unf else "") + f"{new} l = " + "".join(res).lstrip(" ") if "\n" not in bodytext else f"abbrev pub {new} : goal.{new}\n" + (unf + "\n" if unf else "") + f"{new} l =\n" + "".join(res)))
            continue
        if b["kind"] == "need":
            m = re.match(r"tie\.Need-(\S+)", b["ty"])
            o = norm(m.group(1))
            new = needs.get(o) or needs.get(short(m.group(1))) or neednew.get(o)
            if not new:
                warns.append(f"no need {m.group(1)}")
                new = "UNKNOWN-" + m.group(1)
            eq = cl.split(" =", 1)
            lhs, rhs = eq[0].split(), eq[1]
            params = lhs[1:]
            if rhs.strip() == "search rules" and b["name"] not in refs:
                dropped.append(new)
                continue
            c = params[0] if params else "c"
            pl = fn.place(asked[new][0]) if new in asked else None
            if new in asked:
                pl = fn.bynew.get(norm(asked[new][1]), pl)
            if pl:
                pl = dict(pl, acc=new)
            env = {c: pl}
            body = cv.body(rhs, env)
            body = as_record(body, labels_of(fn, new, o))
            extra = params[1:]
            if re.search(r"-requires(-|$)", o) and extra:
                extra = extra[1:]
            if extra:
                body = " λ " + " ".join(extra) + "." + body
            # further params (κs): dropped
            ans_out.append((b["comment"], f"pub {new} : goal.{new}\n" + (unf + "\n" if unf else "") + f"{new} {c} ={body}"))
            continue
        # helper
        sig = cv.types(strip_inv("\n".join(b["sig"])))
        # names bound in dependent types: (c : tie.P) used in later types
        env = {}
        for m in re.finditer(r"\((" + NAMECH + r"+) : tie\.(" + NAMECH + r"+)", "\n".join(b["sig"])):
            env[m.group(1)] = fn.place(m.group(2))
        if env:
            head, ty = sig.split(" : ", 1)
            sig = head + " : " + cv.body(ty, env)
        cls = []
        # clauses: split on lines starting with the name at col 0
        cur = None
        for ln in cl.split("\n"):
            if ln and not ln[0].isspace() and ln.startswith(b["name"]):
                cur = [ln]
                cls.append(cur)
            elif cur is not None:
                cur.append(ln)
            else:
                cls.append([ln])
                cur = cls[-1]
        outc = []
        for c in cls:
            t = "\n".join(c)
            if " =" in t:
                l, r = t.split(" =", 1)
                ps = l.split()[1:]
                ps = [p for p in ps if not p.startswith("{")]
                e2 = {}
                for p, pl in zip(ps, b["params"]):
                    e2[p] = pl
                want = cv.helpers[b["name"]][1]
                tk = tokenize(r)
                up = cv.upcast(tk, cv.skip(tk, 0), e2) if want and len(ps) == 1 else None
                if up and cv.skip(tk, up[3]) == len(tk):
                    outc.append(l + " = " + cv.emit(up[0], up[1], want))
                else:
                    outc.append(l + " =" + cv.body(r, e2))
            else:
                outc.append(t)
        if b["name"] in wanted:
            if "pub " not in sig.split(" : ")[0]:
                sig = sig.replace("abbrev ", "abbrev pub ", 1) if sig.startswith("abbrev ") else "pub " + sig
            inv_out.append((b["comment"], sig + "\n" + (unf + "\n" if unf else "") + "\n".join(outc)))
            continue
        ans_out.append((b["comment"], sig + "\n" + (unf + "\n" if unf else "") + "\n".join(outc)))
    d = os.path.dirname(path)
    goal_mod = f"Rattle.{crate}.proofs.{mod}"
    def write(name, items, uses, last, hdr):
        body = "\n\n".join("\n".join(c + [t]) for c, t in items)
        us = prune(uses, body)
        for rn in refs:
            if neednames[rn] and neednames[rn] != rn:
                body = re.sub(r"(?<![\w.'-])" + re.escape(rn) + r"(?![\w'-])", neednames[rn], body)
        body = re.sub(r"(?<=[\w)])\.inv(?![\w-])", ".invariant", body)
        body = re.sub(r"(?<=\w)\.well-formed(?![\w-])", ".well_formed", body)
        body = re.sub(r"simp length-map at [\w.()-]*well_formed[\w.]*", "search rules", body)
        if re.search(r"search rules", body) and not any("Rules.{" in u for u in uses):
            uses = uses + ["use borrow.Author.Rules.{rules}"]
        us = prune(uses, body)
        with open(os.path.join(d, name), "w", encoding="utf-8") as f:
            f.write("\n".join(hdr + us + last) + "\n\n" + body + "\n")
    if inv_out:
        write("Invariants.antt", inv_out, uses, [f"use {goal_mod}.Given as goal"], [])
    if ans_out:
        last = [f"use {goal_mod}.Goals as goal"]
        there = used_names("\n".join(t for _, t in ans_out))
        w = sorted((wanted | inv_names) & there)
        if w:
            last.insert(0, f"use {goal_mod}.Invariants.{{{', '.join(w)}}}")
        if cv.used_places:
            last.append(f"use {goal_mod}.Goals.{{{', '.join(sorted(cv.used_places))}}}")
        write("Answers.antt", ans_out, uses, last, header)
    os.remove(path)
    return warns, dropped


def by_label(ls, rest):
    """facts of clauses, joined to the right: 0, 1.0, 1.1.0, .., 1.1"""
    if len(ls) < 2:
        return rest
    i = 0
    while i < len(ls) - 1 and i < len(rest) and rest[i] == "1":
        i += 1
    if i == len(ls) - 1:
        return [ls[i]] + rest[i:]
    if i < len(rest) and rest[i] == "0":
        return [ls[i]] + rest[i + 1:]
    return rest


LABELS = {}
PARAMS = {}
MUTS = {}


def labels(root):
    for f in glob.glob(os.path.join(root, "*", "src", "**", "*.rt"), recursive=True):
        rel = os.path.relpath(f, root).split("/")
        crate = rel[0]
        mods = [m[:-3] for m in rel[2:-1] + [rel[-1]] if True]
        mods = rel[2:-1] + ([] if rel[-1] in ("lib.rt", "main.rt", "mod.rt") else [rel[-1][:-3]])
        cur = None
        impl = []
        text = open(f).read()
        for m in re.finditer(r"fn ([a-z_0-9A-Z]+)(?:<[^(]*>)?\(([^{]*?)\)\s*(?:->|\n|requires|ensures|\{)", text):
            ps = []
            for p in re.split(r",(?![^<\[(]*[>\])])", m.group(2)):
                q = re.match(r"\s*(?:mut )?([a-z_0-9A-Z]+)\s*:", p)
                if q:
                    ps.append(q.group(1))
                elif "self" in p:
                    ps.append("self")
            PARAMS["::".join([crate] + mods + [m.group(1)])] = ps
            MUTS["::".join([crate] + mods + [m.group(1)])] = re.findall(r"([a-z_0-9A-Z]+)\s*:\s*&(?:'[a-z]+ )?mut \[", m.group(2))
        for ln in text.split("\n"):
            m = re.match(r"\s*(?:pub(?:\([a-z]+\))? )?(?:unsafe )?(?:extern \"C\" )?fn ([a-z_0-9A-Z]+)", ln)
            if m:
                cur = "::".join([crate] + mods + [m.group(1)])
                LABELS[cur] = {"requires": [], "ensures": []}
            m = re.match(r"\s*(requires|ensures)\*? (?:([a-z_0-9]+) )?\{", ln)
            if m and cur:
                LABELS[cur][m.group(1)].append(m.group(2) or "")


def main():
    names, crate_dir, *only = sys.argv[1:]
    d = json.load(open(names))
    labels(os.path.dirname(os.path.abspath(crate_dir)))
    crate = os.path.basename(os.path.abspath(crate_dir))
    for key, v in d.items():
        if not isinstance(v, dict):
            continue
        m = re.match(r"Rattle-" + crate + r"-proofs\.(.*)\.Lts$", key)
        if not m:
            continue
        mod = m.group(1)
        p = os.path.join(crate_dir, "proofs", mod.replace(".", "/"), "Proof.antt")
        if only and mod not in only:
            continue
        if not os.path.exists(p):
            continue
        if "tie.close" not in open(p).read():
            print(f"{mod}: a walk by hand, left")
            continue
        try:
            fn = Fn(v)
            fn.path = crate + "::" + mod.replace(".", "::")
            w, dr = convert(fn, p, mod, crate)
        except Exception as e:
            import traceback
            traceback.print_exc()
            print(f"{mod}: FAILED {e!r}")
            continue
        print(f"{mod}: dropped {len(dr)}")
        for x in w:
            print("   ", x)


main()
