#!/usr/bin/env python3
"""Drafts a function's Invariants.antt and Answers.antt from its older Proof.antt, for a crate whose proofs are still in the older form.

usage: drafts.py CRATE_FOLDER NAMES_JSON OLD_CRATE_FOLDER [FUNCTION_PATH..] [--over]

NAMES_JSON is what `rt check --generated FOLDER --old-names` writes in the crate's folder, once its Proof.antt files are taken away and the crates
below are proved: each goal's and each place's old and new name. OLD_CRATE_FOLDER has the Proof.antt files, in today's spelling of names. Existing
files are kept, but for --over. What was a path through places (`c.before.before.args`) is named from the goal's record at once (`c.args`); a fact
that was stated of a place becomes a `let` of each answer that uses it. Of the drafts of all crates about nine in ten checked as they came; a cycle
of functions is done by hand. It serves `docs/A.7.patch`, whose proofs are in the older form, and goes with it.
"""
import json, os, re, sys

def norm(s):
    s = s.replace("_", "-")
    s = re.sub(r"^overflow-", "", s)
    return s

def norm_need(s):
    return norm(s)

# ---------- tokens ----------
TOK = re.compile(r"--[^\n]*|\s+|[(){}\[\];,]|\"(?:[^\"\\]|\\.)*\"|«[^»]*»|[^\s(){}\[\];,\"«»]+")

def lex(text):
    return [m[0] for m in TOK.finditer(text)]

OPEN = {"(": ")", "{": "}", "[": "]"}

class G:  # group
    def __init__(self, o, kids, fields):
        self.o, self.kids, self.fields = o, kids, fields

def parse(text):
    toks = lex(text)
    pos = 0
    def seq(end):
        nonlocal pos
        out = []
        while pos < len(toks):
            t = toks[pos]
            if t == end:
                pos += 1
                return out
            if t in OPEN:
                pos += 1
                kids = seq(OPEN[t])
                fields = []
                if pos < len(toks) and toks[pos].startswith(".") and len(toks[pos]) > 1:
                    fields = toks[pos][1:].split(".")
                    pos += 1
                out.append(G(t, kids, fields))
                continue
            if t in ")}]":
                # unbalanced
                pos += 1
                out.append(t)
                continue
            pos += 1
            out.append(t)
        return out
    return seq(None)

class Place:
    def __init__(self, root, name):
        self.root, self.name = root, name

KEYWORDS = {"let", "in", "λ", "=", ":", "→", "elim", "record", "rw", "at", "omega", "search", "grind", "×", "as", "↦", "|", "if", "then", "else"}

class Fn:
    """One function's names."""
    def __init__(self, d):
        self.d = d
        self.parent, self.step, self.call, self.sub, self.new, self.arm = {}, {}, {}, {}, {}, {}
        for p, newname, arm in zip(d["places"], d["places_by_name"], d["arms"]):
            old, par, (so, sn), call, extra = p
            k = norm(old)
            if k in self.parent: continue
            self.parent[k] = norm(par) if par else None
            self.step[k] = (norm(so), sn)
            self.call[k] = call
            self.sub[k] = {norm(a): b for a, b in extra}
            self.new[k] = newname
            self.arm[k] = arm
        self.needs = {}
        for (o, n), at in zip(d["needs"], d["asked_at"]):
            self.needs[norm(o)] = (n, norm(at[0]), at[1])
    def up(self, p):
        return self.parent.get(p)
    def chain(self, p):
        while p:
            yield p
            p = self.parent.get(p)
    def find(self, p, f):
        """the place and new name of step f seen from p"""
        k = norm(f)
        for q in self.chain(p):
            so, sn = self.step[q]
            if so and (so == k):
                return q, sn
        # without a number at its end
        for q in self.chain(p):
            so, sn = self.step[q]
            if so and norm(sn) == k:
                return q, sn
        return None

class Item:
    pass

def snake(n):
    return re.sub(r"(?<=\w)-(?=\w)", "_", n)

def strip_type_place(ty):
    m = re.match(r"\s*(?:tie|list|node|goal)\.([^\s()]+)", ty)
    return norm(m[1]) if m else None

def read_items(text):
    """Top-level and nested items: list of dicts, plus uses and head comment."""
    lines = text.split("\n")
    uses, items, head = [], [], []
    i = 0
    n = len(lines)
    stack = []  # (indent, params)
    comment = []
    def indent(l): return len(l) - len(l.lstrip())
    seen_use = False
    while i < n:
        l = lines[i]
        if not l.strip():
            i += 1
            comment = [] if items or seen_use else comment
            continue
        if l.lstrip().startswith("--"):
            if not seen_use: head.append(l)
            else: comment.append(l.strip())
            i += 1
            continue
        ind = indent(l)
        if l.startswith("use ") :
            seen_use = True
            uses.append(l)
            i += 1
            continue
        while stack and ind <= stack[-1][0]:
            stack.pop()
        # gather the block
        j = i + 1
        block = [l]
        is_module = re.match(r"\s*(pub )?module _", l)
        if is_module:
            while not block[-1].rstrip().endswith("where"):
                block.append(lines[j]); j += 1
            params = re.search(r"module _(.*)where", "\n".join(block), re.S)[1]
            stack.append((ind, params, i))
            i = j
            comment = []
            continue
        while j < n and (not lines[j].strip() or indent(lines[j]) > ind):
            block.append(lines[j]); j += 1
        while block and not block[-1].strip():
            block.pop()
        txt = "\n".join(block)
        s = txt.strip()
        if s.startswith("unfolding "):
            items[-1]["unfolding"] = s[len("unfolding "):].split()
            i = j
            continue
        m = re.match(r"((?:pub |abbrev |unfoldable )*)([^\s:({]+)((?:\s+[({][^:]*?)?)\s*:\s(.*)$", s, re.S)
        m2 = re.match(r"([^\s:({]+)(\s+[^=]*?)?\s*=(?:\s|$)(.*)$", s, re.S)
        # a definition of the last signature
        if m2 and items and items[-1]["name"] == m2[1] and not re.match(r"(?:pub |abbrev )", s) and not re.match(r"[^\s]+ :", s):
            items[-1]["clauses"].append(((m2[2] or "").strip(), m2[3]))
            i = j
            continue
        if m:
            items.append(dict(name=m[2], abbrev="abbrev" in m[1], type=m[4], params=[(k, p) for _, p, k in stack], indent=ind, unfolding=[], clauses=[], comment=comment, raw=txt))
            comment = []
            i = j
            continue
        items.append(dict(name="?", abbrev=False, type="", params=[], indent=ind, unfolding=[], clauses=[("", txt)], comment=comment, raw=txt))
        i = j
    return head, uses, items

def top_blocks(text):
    """Top-level blocks (with the comments above them) that are no `use` line."""
    out, cur, com = [], [], []
    for l in text.split("\n"):
        if l.startswith("use "):
            com = []
            continue
        if l.startswith("--"):
            com.append(l); continue
        if l and not l[0].isspace():
            name = re.match(r"(?:pub |abbrev |unfoldable |record |data )*([^\s:({]+)", l)[1]
            cont = cur and (l.startswith("unfolding ") or re.match(r"[\])}]", l) or (name == cur[0] and not re.match(r"(?:pub |abbrev |record |data |module )*[^\s:({]+(?:\s*[({].*[)}])*\s*:", l)))
            if cont and not com:
                cur[1].append(l); continue
            cur = [name, com + [l]]
            out.append(cur); com = []
            continue
        if com and cur:
            # a comment inside a block, or blank before a comment
            com = com
        if cur is not None and cur:
            if not l.strip(): com = []
            cur[1].append(l)
    return ["\n".join(b).rstrip() for _, b in out]

def declared_in(block):
    names = set()
    for m in re.finditer(r"(?m)^ *(?:pub |abbrev |unfoldable |record |data )*([^\s:({]+)(?: [^:\n]*)? : ", block): names.add(m[1])
    for m in re.finditer(r"(?m)^ *(?:pub )?(?:record|data) ([^\s]+)", block): names.add(m[1])
    return names

def make_pub(block):
    out = []
    for l in block.split("\n"):
        m = re.match(r"( *)((?:abbrev |unfoldable |record |data )?)([^\s:({]+)((?: [^:]*)?) : ", l)
        if m and not l.lstrip().startswith(("--", "pub ", "module ", "use ")) and "=" not in l.split(" : ")[0]:
            l = re.sub(r"^( *)(abbrev )?", lambda q: q[1] + ("abbrev pub " if q[2] else "pub "), l, count=1)
        out.append(l)
    return "\n".join(out)

def split_arrows(ty):
    """Top-level `A → B` parts of a type."""
    depth = 0; parts = []; cur = ""
    for t in lex(ty):
        if t in "([{" : depth += 1
        if t in ")]}" : depth -= 1
        if t == "→" and depth == 0:
            parts.append(cur.strip()); cur = ""
        else: cur += t
    parts.append(cur.strip())
    return parts

class Conv:
    def __init__(self, fn, items):
        self.fn = fn
        self.goal = None
        self.calls = {}
        self.items = {}
        for it in items:
            self.items.setdefault(it["name"], it)
        for it in items:
            self.prepare(it)
        for it in items:
            if it["name"] in ("invariant-loop", "decreases-loop") or re.match(r"tie\.(invariant|decreases)-", it["type"].strip()):
                it["local"] = False
        self.warn = []

    def prepare(self, it):
        # module params
        ps = []
        it["mods"] = []
        for k, p in it["params"]:
            for m in re.finditer(r"[({]([^:(){}]+) : ((?:[^(){}]|\([^()]*\))*)[)}]", p):
                for v in m[1].split():
                    ps.append((v, m[2], strip_type_place(m[2])))
                    it["mods"].append((k, v))
        it["mparams"] = ps
        parts = split_arrows(it["type"])
        eps = []
        for p in parts[:-1]:
            m = re.match(r"[({]([^:]+) : (.*)[)}]$", p, re.S)
            if m:
                for v in m[1].split():
                    eps.append((v, m[2], strip_type_place(m[2])))
                    if p.startswith("{"): it.setdefault("implicit", set()).add(v)
            else:
                eps.append((None, p, strip_type_place(p)))
        it["eparams"] = eps
        it["result"] = parts[-1]
        it["rplace"] = strip_type_place(parts[-1])
        it["need"] = None
        m = re.match(r"(?:tie|list|node)\.Need-([^\s]+)", it["type"].strip())
        if m: it["need"] = norm_need(m[1])
        it["local"] = bool([1 for p in ps + eps if p[2]]) or bool(it["rplace"] and not it["need"])

    # -------- evaluation ----------
    def fields(self, val, fields):
        """val: Place or text"""
        i = 0
        while i < len(fields) and isinstance(val, Place):
            f = fields[i]
            if f == "before":
                up = self.fn.up(val.name)
                if up is None:
                    self.warn.append(f"before of {val.name}")
                    up = val.name
                val = Place(val.root, up)
            elif f in ("args", "lifetimes", "well_formed", "ranges", "type_inv"):
                val = f"{val.root}.{f}"
            elif f == "fits" and i + 1 < len(fields) and not self.fn.find(val.name, f):
                val = f"{val.root}.ranges.{fields[i + 1]}.fits"
                i += 1
            elif f in ("pre", "requires"):
                val = f"{val.root}.requires"
            else:
                got = self.fn.find(val.name, f) or (self.goal and self.fn.find(self.goal, f))
                if got:
                    q, sn = got
                    rest = fields[i + 1 :]
                    root0 = val.root
                    val = f"{val.root}.{sn}"
                    arm = self.fn.arm.get(q)
                    if arm:
                        best = None
                        for nf, os_, path in arm[2]:
                            if norm(os_) == norm(f) and path and rest[: len(path)] == path and (best is None or len(path) > len(best[1])):
                                best = (nf, path)
                        if best:
                            val = f"{root0}.{arm[0]}.{best[0]}"
                            fields = fields[: i + 1] + rest[len(best[1]) :]
                            rest = []
                    if rest:
                        if not self.fn.call.get(q) and (sn.startswith("if-") or sn.endswith("-test")):
                            rest[0] = {"taken": "true", "left": "false"}.get(rest[0], rest[0])
                        k = norm(rest[0])
                        if k in self.fn.sub.get(q, {}):
                            rest[0] = self.fn.sub[q][k]
                        rest = self.of_call(q, rest)
                        fields = fields[: i + 1] + rest
                    elif self.fn.call.get(q):
                        self.calls[val] = q
                else:
                    self.warn.append(f"no step {f} at {val.name}")
                    val = f"{val.root}.{f}"
            i += 1
        if isinstance(val, Place):
            return val
        if val in self.calls and fields[i:]:
            fields = fields[:i] + self.of_call(self.calls[val], fields[i:])
        for f in fields[i:]:
            val += "." + {"inv": "invariant"}.get(f, f)
        return val

    def of_call(self, q, rest):
        """the fields of a call's step: parameters by name"""
        call = self.fn.call.get(q)
        if not call or not rest:
            return rest
        rest = [{"last": "new", "kept": "auto"}.get(rest[0], rest[0])] + rest[1:]
        if rest[0] in ("new", "auto"):
            ps = self.fn.d["params"].get(call)
            k = 1
            while k < len(rest) and rest[k] == "1": k += 1
            if ps and k < len(rest) and rest[k] == "0" and k - 1 < len(ps):
                return [rest[0], ps[k - 1]] + rest[k + 1 :]
        return rest

    def prim(self, t, env):
        """a primary token -> Place or text"""
        if isinstance(t, G):
            if t.o == "(":
                inner = self.seq(t.kids, dict(env))
                if isinstance(inner, Place):
                    return self.fields(inner, t.fields)
                txt = "(" + inner + ")"
                if re.fullmatch(r"\([\w.'′₀-₉-]+\)", txt):
                    txt = txt[1:-1]
            else:
                inner = self.seq(t.kids, dict(env))
                if isinstance(inner, Place): inner = inner.root
                txt = t.o + inner + OPEN[t.o]
            return self.fields(txt, t.fields) if t.fields else txt
        if re.match(r"\s|--|\"", t) or (t in KEYWORDS and t not in env and t not in self.items):
            return t
        head, *fs = t.split(".") if not t.startswith(".") and not t.endswith(".") else [t]
        if head in env:
            return self.fields(env[head], fs)
        it = self.items.get(head)
        if it and it["local"] and not (it["mparams"] or it["eparams"]):
            pass
        return ".".join([head] + [{"inv": "invariant"}.get(f, f) for f in fs]) if fs else t

    def is_local(self, t, env):
        if isinstance(t, G) or "." in t.strip("."):
            h = None
            if not isinstance(t, G):
                h = t.split(".")[0]
            return None
        if t in env: return None
        it = self.items.get(t)
        return it if it and it["local"] and not it["need"] else None

    def local_with_fields(self, t, env):
        if isinstance(t, G): return None, []
        h, *fs = t.split(".") if not t.endswith(".") else [t]
        if h in env: return None, []
        it = self.items.get(h)
        if it and it["local"] and not it["need"]: return it, fs
        if it and it["need"] and it["clauses"] and not fs: return it, fs
        return None, []

    def seq(self, kids, env):
        """evaluate a sequence; returns Place if it is one place, else text"""
        # let-bound places
        out = []
        i = 0
        n = len(kids)
        def skip_ws(k):
            while k < n and isinstance(kids[k], str) and (kids[k].isspace() or kids[k].startswith("--")):
                k += 1
            return k
        while i < n:
            t = kids[i]
            if t == "let":
                j = skip_ws(i + 1)
                k = skip_ws(j + 1)
                if j < n and isinstance(kids[j], G):
                    env = dict(env)
                    for x in kids[j].kids:
                        if isinstance(x, str) and re.match(r"\w", x): env[x] = x
                eq = k
                if k < n and kids[k] == ":":
                    eq = k + 1
                    while eq < n and kids[eq] != "=": eq += 1
                if k < n and eq < n and kids[eq] == "=" and isinstance(kids[j], str):
                    typed = eq != k
                    tytext = ""
                    if typed:
                        tytext = self.seq(kids[k + 1 : eq], dict(env))
                        tytext = " : " + (tytext.root if isinstance(tytext, Place) else tytext.strip())
                    k = eq
                    # find the 'in' of this let
                    depth = 1; e = k + 1
                    while e < n:
                        if kids[e] == "let": depth += 1
                        elif kids[e] == "in":
                            depth -= 1
                            if depth == 0: break
                        e += 1
                    inner = self.seq(kids[k + 1 : e], dict(env))
                    name = kids[j]
                    e2 = skip_ws(e + 1)
                    if isinstance(inner, Place):
                        env = dict(env); env[name] = inner
                        # drop the let, keep what is around
                        i = e2
                        continue
                    s = inner.strip()
                    if not typed and re.fullmatch(r"[^\s()]+", s) and not s.startswith("?"):
                        env = dict(env); env[name] = s
                        i = e2
                        continue
                    env = dict(env); env[name] = name
                    out.append(f"let {name}{tytext} = {inner.strip()} in")
                    i = e + 1
                    continue
            if isinstance(t, str) and t == "λ":
                # bound names hide
                j = i + 1
                names = []
                while j < n and not (isinstance(kids[j], str) and kids[j].endswith(".")):
                    names.append(kids[j]); j += 1
                if j < n: names.append(kids[j].rstrip("."))
                env = dict(env)
                for b in names:
                    if isinstance(b, str): env[b] = b
                    elif isinstance(b, G):
                        for x in b.kids:
                            if isinstance(x, str): env[x] = x
                root = getattr(self, "root", None)
                while i <= j and i < n:
                    x = kids[i]
                    x = x if isinstance(x, str) else self.raw(x)
                    if x in (root, f"{root}."):
                        env[root] = root + "'"
                        x = x.replace(root, root + "'", 1)
                    out.append(x)
                    i += 1
                continue
            k = skip_ws(i + 1)
            solid_before = next((x for x in reversed(out) if not (isinstance(x, str) and x.isspace())), None)
            if isinstance(t, str) and not t.isspace() and "." not in t and k < n and kids[k] in ("=", ":") and k == i + 2 and solid_before in (None, ";"):
                out.append(t)
                i += 1
                continue
            if t == "at" and any(isinstance(x, str) and x in ("rw", "simp") for x in out):
                out.append(t)
                i += 1
                continue
            it, fs = self.local_with_fields(t, env)
            if it:
                if it["need"]:
                    k = skip_ws(i + 1)
                    a = self.seq([kids[k]], env) if k < n else None
                    if not isinstance(a, Place):
                        out.append(t)
                        i += 1
                        continue
                    pats = it["clauses"][0][0].split()
                    v = self.seq(parse(it["clauses"][0][1]), {(pats or ["c"])[0]: a})
                    v = v.root if isinstance(v, Place) else v.strip()
                    self.unfold.update(it["unfolding"])
                    out.append("(" + v + ")" if " " in v else v)
                    i = k + 1
                    continue
                shared = [env[("%", kv)] for kv in it["mods"] if ("%", kv) in env]
                np = len(it["mparams"]) + len(it["eparams"]) - len(shared)
                args = []
                j = i + 1
                while len(args) < np:
                    k = skip_ws(j)
                    if k >= n or (isinstance(kids[k], str) and ((kids[k] in KEYWORDS and kids[k] not in env and kids[k] not in self.items) or kids[k] in ";,")):
                        break
                    args.append(kids[k])
                    j = k + 1
                # only the place args are needed
                val, used = self.apply(it, shared + args, env)
                used -= len(shared)
                if fs: val = self.fields(val, fs)
                out.append(val)
                # rest of args
                for a in args[used:]:
                    v = self.seq([a], env)
                    out.append(" ")
                    out.append(v.root if isinstance(v, Place) else v)
                i = j
                continue
            if isinstance(t, G) and t.o in "({" and ":" in t.kids:
                k = skip_ws(i + 1)
                if k < n and kids[k] in ("→", "×"):
                    v = self.prim(t, env)
                    env = dict(env)
                    for x in t.kids[: t.kids.index(":")]:
                        if isinstance(x, str) and not x.isspace(): env[x] = x
                    out.append(v)
                    i += 1
                    continue
            v = self.prim(t, env)
            out.append(v)
            i += 1
        solid = [x for x in out if not (isinstance(x, str) and (x.isspace() or x == ""))]
        if len(solid) == 1 and isinstance(solid[0], Place):
            return solid[0]
        return "".join(x.root if isinstance(x, Place) else x for x in out)

    def raw(self, g):
        return g.o + "".join(k if isinstance(k, str) else self.raw(k) for k in g.kids) + OPEN[g.o] + ("." + ".".join(g.fields) if g.fields else "")

    def apply(self, it, args, env):
        """instantiate the helper; returns (value, how many args were used)"""
        params = it["mparams"] + it["eparams"]
        pats = (it["clauses"][0][0].split() if it["clauses"] else [])
        inner = {}
        used = 0
        root = None
        for k, (v, ty, place) in enumerate(params):
            if not place: break
            if k >= len(args):
                break
            a = args[k] if isinstance(args[k], Place) else self.seq([args[k]], env)
            if isinstance(a, str) :
                a2 = a.strip()
                if a2.startswith("(") : pass
                self.warn.append(f"{it['name']}: argument {a2[:40]} is no place")
                a = Place(a2, place)
            name = v
            if k >= len(it["mparams"]):
                kk = k - len(it["mparams"])
                name = pats[kk] if kk < len(pats) else v
            inner[name] = Place(a.root, a.name)
            if v and v != name: inner[v] = Place(a.root, a.name)
            # inside, the helper's own place
            for nm in {name, v} - {None}:
                inner[nm] = Place(a.root, place if place in self.fn.parent else a.name)
            if k < len(it["mods"]):
                inner[("%", it["mods"][k])] = inner[v]
            root = a.root
            used += 1
        rest_pats = pats[max(0, used - len(it["mparams"])) :]
        if not it["clauses"]:
            return it["name"], used
        body = it["clauses"][0][1]
        if it["rplace"]:
            v = self.seq(parse(body), inner)
            if not isinstance(v, Place):
                self.warn.append(f"{it['name']} is no place: {v[:60]}")
                v = Place(root or "c", it["rplace"])
            if it["rplace"] in self.fn.parent:
                v = Place(v.root, it["rplace"])
            return v, used
        name = snake(it["name"])
        if root and root != self.root:
            name = name + "_" + re.sub(r"\W", "_", root)
        if name not in self.lets:
            self.lets[name] = None  # placeholder against cycles
            ty = self.rest_type(it, used, inner)
            b = self.seq(parse(body), dict(inner))
            if isinstance(b, Place): b = b.root
            b = b.strip()
            hidden = [v for v, _, _ in it["eparams"] if v in it.get("implicit", ())]
            named = [p for p in rest_pats if not p.startswith("{")]
            rest_pats = [h for h in hidden] + named
            if rest_pats:
                for x in rest_pats:
                    inner[x] = x
                b = self.seq(parse(body), dict(inner))
                b = (b.root if isinstance(b, Place) else b).strip()
                b = "λ " + " ".join(rest_pats) + ". " + b
            self.unfold.update(it["unfolding"])
            if len(it["clauses"]) > 1: self.warn.append(f"{it['name']}: {len(it['clauses'])} clauses")
            self.lets.pop(name)
            self.lets[name] = (ty, b, it["comment"])
        return name + " _" * len(it.get("implicit", ())), used

    def rest_type(self, it, used, inner):
        ps = (it["mparams"] + it["eparams"])[used:]
        out = []
        inner = dict(inner)
        for v, ty, place in ps:
            if v: inner[v] = v
        for v, ty, place in ps:
            t = self.seq(parse(ty), dict(inner))
            t = t.root if isinstance(t, Place) else t
            out.append((f"({v} : {t}) → ") if v else f"{t} → ")
        t = self.seq(parse(it["result"]), dict(inner))
        t = t.root if isinstance(t, Place) else t
        return "".join(out) + t.strip()

    def answer(self, it):
        new, place, newplace = self.fn.needs[it["need"]]
        pats, body = it["clauses"][0]
        pats = pats.split()
        self.root = "c"
        self.goal = place
        self.lets = {}
        self.calls = {}
        self.unfold = set(it["unfolding"])
        self.warn = []
        env = {}
        var = pats[0] if pats else "c"
        env[var] = Place("c", place)
        more = [p for p in pats[1:] if p not in ("κs", "_")]
        b = self.seq(parse(body), env)
        if isinstance(b, Place): b = b.root
        b = b.strip()
        lines = []
        for c in it["comment"]: lines.append(c)
        lines.append(f"pub {new} : goal.{new}")
        if self.unfold: lines.append("unfolding " + " ".join(sorted(self.unfold)))
        args = "c" + "".join(" " + m for m in more)
        if self.lets or "\n" in b:
            lines.append(f"{new} {args} =")
            for nm, got in self.lets.items():
                if got is None: continue
                ty, bb, _ = got
                lines.append(f"    let {nm} : {ty} = {bb} in")
            lines.append("    " + b)
        else:
            lines.append(f"{new} {args} = {b}")
        return new, "\n".join(lines), list(self.warn)

def convert(crate, names, old, only, over):
    cname = os.path.basename(os.path.abspath(crate))
    total = kept = 0
    for key, d in names.items():
        m = re.match(rf"Rattle-{re.escape(cname)}-proofs\.(.*)\.Lts$", key)
        if not m: continue
        path = m[1].replace(".", "/")
        if only and path not in only: continue
        src = os.path.join(old, "proofs", path, "Proof.antt")
        if not os.path.exists(src):
            continue
        text = open(src, encoding="utf-8").read()
        if "tie.spec" not in text:
            print(f"by hand: {path}")
            continue
        head, uses, items = read_items(text)
        for u in uses:
            mm = re.match(r"use (Rattle\.\w+\.(?:specs|proofs)[^\s{]*) as (\S+)$", u)
            if mm and not re.search(r"\.(Tie|Statement)$", mm[1]):
                al = mm[2]
                fix = lambda t: re.sub(rf"(?<![\w.-]){re.escape(al)}\.([^\s(){{}};,.]+)", lambda q: al + "." + (q[1] if q[1][:1].isupper() else re.sub(r"(?<=[a-z0-9])[A-Z]+", lambda r: "_" + r[0].lower(), q[1]).replace("-", "_")), t)
                for it in items:
                    it["type"] = fix(it["type"]); it["raw"] = fix(it["raw"])
                    it["clauses"] = [(a, fix(b)) for a, b in it["clauses"]]
                text = fix(text)
        fn = Fn(d)
        conv = Conv(fn, items)
        inv, ans, helpers, warns = [], [], [], []
        loops = [(norm(a), b, vs) for (a, b), vs in d["loops"]]
        for it in items:
            if it["need"] is not None:
                if not it["clauses"]: continue
                body = it["clauses"][0][1].strip()
                total += 1
                if it["need"] not in fn.needs:
                    warns.append(f"need {it['need']} is not asked now")
                    continue
                if body == "search rules" and not it["unfolding"]:
                    continue
                new, txt, w = conv.answer(it)
                kept += 1
                warns += [f"{new}: {x}" for x in w]
                ans.append(txt)
            elif re.match(r"tie\.(invariant|decreases)-", it["type"].strip()):
                kind, lp = re.match(r"tie\.(invariant|decreases)-([^\s]+)", it["type"].strip()).groups()
                for idx, (o, nw, vs) in enumerate(loops):
                    if o == norm(lp):
                        ch = d["changed"][idx]
                        pats, body = it["clauses"][0]
                        pats = pats.split()
                        env = {}
                        later = [v for v, c in zip(vs, ch) if c]
                        for k, p in enumerate(pats):
                            if k < len(vs):
                                env[p] = f"l.initial.{vs[k]}" if ch[k] else f"l.{vs[k]}"
                            elif k - len(vs) < len(later):
                                env[p] = f"l.{later[k-len(vs)]}"
                        if len(pats) != len(vs) + len(later):
                            warns.append(f"{kind} {lp}: {len(pats)} arguments, {vs} {later}")
                        b = conv.seq(parse(body), env).strip()
                        lines = list(it["comment"]) + [f"abbrev pub {kind}-{nw} : goal.{kind}-{nw}"]
                        if it["unfolding"]: lines.append("unfolding " + " ".join(it["unfolding"]))
                        lines.append(f"{kind}-{nw} l = " + ("\n    " if "\n" in b else "") + b)
                        inv.append("\n".join(lines))
                        break
                else:
                    warns.append(f"no loop {lp}")
            elif not it["local"] and it["name"] != "?" and not re.match(r".*-spec$|.*_spec$", it["name"]):
                helpers.append(it)
        base = [u for u in uses if not re.search(r"proofs\.%s\.(Statement|Tie)\b" % re.escape(m[1]), u) and "borrow.Author.Rules" not in u]
        base.append("use borrow.Author.Rules.{rules}")
        where = os.path.join(crate, "proofs", path)
        os.makedirs(where, exist_ok=True)
        def helper_text(h):
            return "\n".join(h["comment"] + [h["raw"]] + (["unfolding " + " ".join(h["unfolding"])] if h["unfolding"] else []) + [f"{h['name']} {p} = {b}".replace("  ", " ") if p else f"{h['name']} = {b}" for p, b in h["clauses"]])
        def write(name, body, goalmod):
            p = os.path.join(where, name)
            if os.path.exists(p) and not over: 
                print("kept", p); return
            words = set(re.findall(r"[^\s(){}\[\];,.\"]+", body))
            keep = []
            for u in base:
                mm = re.match(r"use ([^\s{]+)\.\{(.*)\}$", u)
                if mm:
                    its = [x.strip() for x in mm[2].split(",")]
                    def used(x):
                        x0 = x.split(" as ")[-1]
                        if x0 == "[]": return "[]" in body
                        if "◌" in x0:
                            return any(y in words or y in body for y in [x0.replace("◌", "")])
                        return x0 in words
                    its = [x for x in its if used(x)]
                    if its: keep.append(f"use {mm[1]}.{{{', '.join(its)}}}")
                else: keep.append(u)
            keep.append(f"use Rattle.{cname}.proofs.{m[1]}.{goalmod} as goal")
            open(p, "w", encoding="utf-8").write("\n".join(head + keep) + "\n\n" + body + "\n")
        blocks = [x for x in top_blocks(text) if not re.search(r"(?<![\w.-])(?:tie|list|node)\.", x) and not re.match(r"(?:--[^\n]*\n)*pub \S+[-_]spec :", x)]
        itext = "\n\n".join(inv)
        atext = "\n\n".join(ans)
        def wanted(txt):
            got, todo = [], txt
            again = True
            while again:
                again = False
                for x in blocks:
                    if x in got: continue
                    if any(re.search(rf"(?<![\w.'-]){re.escape(nm)}(?![\w'-])", todo) for nm in declared_in(x)):
                        got.append(x); todo += x; again = True
            return [x for x in blocks if x in got]
        ib = wanted(itext)
        ab = [x for x in wanted(atext) if x not in ib]
        shared = set()
        for x in ib:
            for nm in declared_in(x):
                if re.search(rf"(?<![\w.'-]){re.escape(nm)}(?![\w'-])", atext + "".join(ab)): shared.add(nm)
        if inv:
            write("Invariants.antt", "\n\n".join([make_pub(x) for x in ib] + inv), "Given")
        if ans:
            if shared:
                tops = [nm for x in ib for nm in re.findall(r"(?m)^(?:pub |abbrev |unfoldable |record |data )*([^\s:({]+)(?: [^:\n]*)? : ", x)]
                base.append(f"use Rattle.{cname}.proofs.{m[1]}.Invariants.{{{', '.join(dict.fromkeys(nm for nm in tops if nm in shared))}}}")
            write("Answers.antt", "\n\n".join(ab + ans), "Goals")
        for w in warns: print(f"{path}: {w}")
    print(f"{cname}: {total} needs, {kept} answers written")

if __name__ == "__main__":
    args = [a for a in sys.argv[1:] if not a.startswith("--")]
    crate, nj, old = args[:3]
    convert(crate, json.load(open(nj)), old, args[3:], "--over" in sys.argv)
