#!/usr/bin/env python3
"""Turns the proof files of an older Rattle (Proof.antt over a module Tie) to Invariants.antt and Answers.antt.

usage: tools/turn_proofs.py NAMES CRATE [FUNCTION..]

It runs after the kit's port.py and tools/respell.py. NAMES is the names.json that `rt check --generated DIR --old-names` writes for the
crate in CRATE, whose lower crates prove; FUNCTION is the end of a function's path, and without one all are turned. A Proof.antt goes once it
is turned. Of a cycle the answers stand in a file for each function, below Answers/.

It prints the goals of old that are gone or have another name now, and the paths that it could not follow; what it could not turn it leaves
behind a comment '-- TURN: ..'. What is left by hand: branches that join (an `elim` in place of a sum), local lemmas over a record of Tie, and
`in_default` arms of several variants (`opened` of borrow.Enum.Refused). It goes with the last of the older proofs.
"""
import json
import os
import re
import sys

norm = lambda s: s.replace("_", "-").lower()
# imports of modules that Rattle no longer makes
OLD_USES = re.compile(
    r"\.Statement\.\{statement\}|\.Tie as |\.Tie\.\{|\.Reads as |\.Kinds as |\.Kinds\.|Lts-\S+ as |borrow\.Fn\."
    r"|\.\{statement\}|\.Proof\.|use Measures\.|\.Lts as "
)
ID = r"[\w'₀-₉+-]+"


class Fn:
    def __init__(self, module, of):
        self.of = of
        self.stem = of.get("stem") or ""
        self.cycle = "+" in module
        self.places = {}
        for i, p in enumerate(of["places"]):
            name, parent, step, callee, renames = p
            self.places[norm(name)] = dict(i=i, name=name, parent=norm(parent) if parent else None, step=step, callee=callee, renames=renames, arm=of["arms"][i], clauses=of["clauses"][i])
        self.needs = {}
        for i, (old, new) in enumerate(of["needs"]):
            at = of["asked_at"][i] if i < len(of["asked_at"]) else None
            self.needs[norm(old)] = (old, new, norm(at[0]) if at else None)
        self.loops = {}
        for i, ((old, new), vs) in enumerate(of["loops"]):
            ch = of["changed"][i] if i < len(of["changed"]) else []
            self.loops[norm(old)] = (new, vs, ch)
        self.missed = []

    def nested(self, fields):
        """Old right-nested pair paths of a list of clauses."""
        n = len(fields)
        out = {}
        for k, f in enumerate(fields):
            if n == 1:
                path = []
            elif k == n - 1:
                path = ["1"] * k
            else:
                path = ["1"] * k + ["0"]
            out[tuple(path)] = f
        return out

    def clause(self, fields, rest):
        for path, f in sorted(self.nested(fields).items(), key=lambda x: -len(x[0])):
            if tuple(rest[: len(path)]) == path:
                return [f] + rest[len(path) :]
        return rest

    def resolve(self, place, comps, whole):
        """Returns (place, None) for a bare chain, or (None, text)."""
        i = 0
        p = place
        # the names of steps are unique in a function, and the two kits count places otherwise
        while i < len(comps) and norm(comps[i]) == "before":
            i += 1
        rest = comps[i:]
        if not rest:
            return p, None
        f = norm(rest[0])
        if f in ("args", "lifetimes"):
            if len(rest) > 1:
                rest[1] = rest[1].replace("-", "_")
            return None, ".".join(["c", f] + rest[1:])
        if f in ("well-formed", "good"):
            return None, ".".join(["c", "well_formed"] + rest[1:])
        if f in ("fits", "ranges"):
            return None, ".".join(["c", "ranges"] + rest[1:])
        if f in ("requires", "pre"):
            r = rest[1:]
            pre = self.of.get("pre")
            if self.cycle:
                if r and r[0] == "0":
                    return None, ".".join(["c", "decreases"] + r[1:])
                if r and r[0] == "1":
                    r = r[1:]
                elif not r:
                    return None, "c.decreases, c.requires"
                else:
                    self.missed.append(whole)
                    return None, ".".join(["c", "requires"] + r)
            if pre and pre.get("fields"):
                r = self.clause(pre["fields"], r)
            return None, ".".join(["c", "requires"] + r)
        # the step of this place, else of the nearest above
        q = p
        while q is not None:
            at = self.places[q]
            arm = at["arm"]
            if arm:
                entries = [e for e in arm[2] if norm(e[1]) == f]
                best = None
                for new, _, path in entries:
                    tail = rest[1:]
                    if [norm(x) for x in tail[: len(path)]] == [norm(x) for x in path] and (best is None or len(path) > len(best[1])):
                        best = (new, path)
                if best:
                    tail = rest[1 + len(best[1]) :]
                    new = best[0]
                    if new.endswith("-own") and tail and re.match(r"keys\d*$", tail[0]):
                        new, tail = "is", tail[1:]
                    return None, ".".join(["c", arm[0], new] + tail)
            if norm(at["step"][0]) == f and f:
                new = at["step"][1]
                tail = rest[1:]
                if f.startswith("loop") and tail:
                    tail[0] = tail[0].replace("-", "_")
                ren = {norm(a): b for a, b in at["renames"]}
                if tail and norm(tail[0]) in ren:
                    tail = [ren[norm(tail[0])]] + tail[1:]
                if tail and norm(tail[0]) == "ensures" and at["clauses"] and at["clauses"].get("fields"):
                    tail = ["ensures"] + self.clause(at["clauses"]["fields"], tail[1:])
                return None, ".".join(["c", new] + tail)
            q = at["parent"]
        self.missed.append(whole)
        return None, ".".join(["c"] + rest)


def split_decls(text):
    """Top-level blocks: each a list of lines, with the comments above."""
    blocks, cur = [], []
    for line in text.split("\n"):
        if line.strip() == "" and cur:
            blocks.append(cur)
            cur = []
        elif line.strip():
            cur.append(line)
    if cur:
        blocks.append(cur)
    out = []
    for b in blocks:
        if out and b[0][:1] in " \t":
            out[-1] += b
        else:
            out.append(b)
    return out


def head_of(block):
    for k, l in enumerate(block):
        if not l.startswith("--"):
            return k, l
    return None, None


def convert_paths(text, fn, place, binder="c"):
    """Rewrites the paths from the context, with the aliases that `let`s make."""
    aliases = {binder: place}
    # find lets that bind a bare chain
    changed = True
    pat_let = re.compile(r"let (" + ID + r")\s*=\s*(" + ID + r")((?:\.(?:before))*)\s+in\b\s?")
    while changed:
        changed = False
        for m in pat_let.finditer(text):
            name, base, chain = m.groups()
            if base in aliases:
                p = aliases[base]
                comps = chain.split(".")[1:]
                got, txt = fn.resolve(p, comps, m.group())
                if txt is None:
                    aliases[name] = got
                    text = text[: m.start()] + text[m.end() :]
                    changed = True
                    break
    # a path to several clauses is written out, since its parts have names now
    pat_path = re.compile(r"let (" + ID + r")\s*=\s*(" + "|".join(re.escape(a) for a in aliases) + r")((?:\." + ID + r")+)\s+in\b\s?")
    again = True
    while again:
        again = False
        for m in pat_path.finditer(text):
            comps = [x for x in m.group(3).split(".")[1:] if norm(x) != "before"]
            many = False
            if comps and norm(comps[0]) in ("requires", "pre"):
                many = fn.cycle or bool(fn.of.get("pre") and fn.of["pre"].get("fields"))
            elif len(comps) == 2 and comps[1] == "ensures":
                q = place
                while q is not None:
                    if norm(fn.places[q]["step"][0]) == norm(comps[0]):
                        many = bool(fn.places[q]["clauses"] and fn.places[q]["clauses"].get("fields"))
                        break
                    q = fn.places[q]["parent"]
            if many:
                name = m.group(1)
                rest = text[m.end() :]
                rest = re.sub(r"(?<![\w.'₀-₉-])" + re.escape(name) + r"(?![\w'₀-₉-])", m.group(2) + "." + ".".join(comps), rest)
                text = text[: m.start()] + rest
                again = True
                break
    names = "|".join(sorted((re.escape(a) for a in aliases), key=len, reverse=True))
    pat = re.compile(r"(?<![\w.'₀-₉-])(" + names + r")((?:\." + ID + r")*)(?![\w'₀-₉-])")

    def sub(m):
        comps = m.group(2).split(".")[1:]
        got, txt = fn.resolve(aliases[m.group(1)], comps, m.group())
        return "c" if txt is None else txt

    return pat.sub(sub, text)


def rename_words(text, table):
    if not table:
        return text
    pat = re.compile(r"(?<![\w.'₀-₉-])(" + "|".join(sorted((re.escape(a) for a in table), key=len, reverse=True)) + r")(?![\w'₀-₉-])")
    return pat.sub(lambda m: table[m.group(1)], text)


def clause_names(root):
    """The names of the clauses of each function of the sources: requires and ensures, where a kind has several."""
    req, ens = {}, {}
    for folder, dirs, files in os.walk(root):
        dirs[:] = [d for d in dirs if d != "out"]
        for f in files:
            if not f.endswith(".rt"):
                continue
            cur = None
            for line in open(os.path.join(folder, f)):
                m = re.search(r"\bfn (\w+)", line)
                if m:
                    cur = m.group(1)
                m = re.match(r"\s+(requires|ensures) (\w+) \{", line)
                if m and cur:
                    (req if m.group(1) == "requires" else ens).setdefault(cur, [])
                    d = req if m.group(1) == "requires" else ens
                    if m.group(2) not in d[cur]:
                        d[cur].append(m.group(2))
    return req, ens


def tail_at(text):
    """Where the last expression of a chain of lets begins."""
    depth, lets, i, start = 0, 0, 0, 0
    for m in re.finditer(r"[()\[\]{}]|(?<![\w'-])let(?![\w'-])|(?<![\w'-])in(?![\w'-])", text):
        w = m.group()
        if w in "([{":
            depth += 1
        elif w in ")]}":
            depth -= 1
        elif depth == 0 and w == "let":
            lets += 1
        elif depth == 0 and w == "in" and lets:
            lets -= 1
            start = m.end()
    return start


def split_tuple(text):
    """The parts of a tuple, or None."""
    s = text.strip()
    if not s.startswith("("):
        return None
    depth, parts, begin = 0, [], 1
    for i, ch in enumerate(s):
        if ch in "([{":
            depth += 1
        elif ch in ")]}":
            depth -= 1
            if depth == 0:
                if i != len(s) - 1:
                    return None
                parts.append(s[begin:i])
        elif ch == "," and depth == 1:
            parts.append(s[begin:i])
            begin = i + 1
    if parts and not parts[-1].strip():
        parts.pop()
    return [x.strip() for x in parts] if len(parts) > 1 else None


def as_record(text, fields):
    """A right-nested tuple as a record of the clauses."""
    parts = split_tuple(text)
    if not parts:
        return None
    out = []
    rest = parts
    for k, f in enumerate(fields):
        if k == len(fields) - 1:
            out.append((f, rest[0] if len(rest) == 1 else "(" + ", ".join(rest) + ")"))
            break
        out.append((f, rest[0]))
        rest = rest[1:]
        if not rest:
            return None
        if len(rest) == 1 and k < len(fields) - 2:
            inner = split_tuple(rest[0])
            if not inner:
                base = rest[0]
                for j, g in enumerate(fields[k + 1 :]):
                    left = len(fields) - k - 2 - j
                    out.append((g, f"({base})" + ".1" * j + (".0" if left else "")))
                break
            rest = inner
    return "record {\n      " + "\n      ".join(f"{f} = {v};" for f, v in out) + "\n    }"


def with_records(rhs, fields, cycle_call):
    at = tail_at(rhs)
    head, tail = rhs[:at], rhs[at:]
    if cycle_call:
        parts = split_tuple(tail)
        if not parts or len(parts) < 2:
            return rhs
        second = parts[1] if len(parts) == 2 else "(" + ", ".join(parts[1:]) + ")"
        rec = as_record(second, fields)
        return rhs if rec is None else head + " (" + parts[0] + ", " + rec + ")"
    rec = as_record(tail, fields)
    return rhs if rec is None else head + " " + rec


def loop_params(vs, ch):
    """The old parameters of an invariant, and what stands for each."""
    out = []
    for k, v in enumerate(vs):
        out.append(f"l.initial.{v}" if k < len(ch) and ch[k] else f"l.{v}")
    for k, v in enumerate(vs):
        if k < len(ch) and ch[k]:
            out.append(f"l.{v}")
    return out


def need_of(fn, name):
    n = norm(name)
    for cand in (n, re.sub(r"^overflow-", "", n), re.sub(r"^(add|sub|mul|cast|shl|shr|step)-", r"overflow-\1-", n)):
        if cand in fn.needs:
            return fn.needs[cand]
    return None


def turn(text, fn):
    stem = fn.stem
    blocks = split_decls(text)
    uses, invs, answers, notes = [], [], [], []
    decls = []
    header = []
    for b in blocks:
        k, h = head_of(b)
        if h is None:
            header += b
            continue
        if h.startswith("use "):
            header += b[:k]
            for l in b[k:]:
                if l.startswith("use "):
                    uses.append(l)
                elif l.startswith("--"):
                    header.append(l)
                elif re.match(r"mod ", l):
                    pass
                else:
                    decls.append([l]) if l[:1] not in " \t" else decls[-1].append(l)
            continue
        decls.append(b)
    # the names of answers in this file
    table = {}
    parsed = []
    for b in decls:
        k, h = head_of(b)
        comments, body = b[:k], b[k:]
        m = re.match(r"((?:pub |abbrev |unfoldable )*)(\S+)\s*:\s*(.*)$", body[0])
        if not m:
            parsed.append(("own", None, comments, body))
            continue
        mods, name, typ = m.groups()
        sig = [body[0]]
        j = 1
        while j < len(body) and not re.match(re.escape(name) + r"(\s|$)", body[j]) and not body[j].startswith("unfolding"):
            sig.append(body[j])
            j += 1
        sigtext = " ".join(x.strip() for x in sig)
        need = re.search(r"\.Need-(" + ID + r")", sigtext)
        if re.search(r"→ statement M|: \{M", sigtext) and "statement" in sigtext:
            parsed.append(("spec", name, comments, body))
        elif need:
            got = need_of(fn, need.group(1))
            parsed.append(("answer", name, comments, (sig, body[j:], need.group(1), got)))
            if got:
                table[name] = stem + got[1]
        elif re.search(r"tie\.invariant|\.invariant-loop|InvT|tie\.decreases|\.decreases-loop|MeasureT", sigtext) or re.match(r"(invariant|decreases|Inv|μ)-loop", name):
            parsed.append(("loop", name, comments, (sig, body[j:])))
        elif re.search(r"lts\.Claims|Measures |In \d+ |\.Claims", sigtext):
            parsed.append(("cycle", name, comments, body))
        else:
            parsed.append(("own", name, comments, body))
    inv_out, ans_out, own_out = [], [], []
    for kind, name, comments, body in parsed:
        if kind == "spec":
            continue
        if kind == "cycle":
            m = re.match(r"(?:abbrev )?(?:pub )?(?:μ|decreases)-(" + ID + r")\s*:", body[0])
            if m and "Measures" in body[0] and "loop" not in name:
                inv_out.append(("measure", name, comments, body))
            continue
        if kind == "own":
            own_out.append("\n".join(comments + body))
            continue
        if kind == "loop":
            sig, rest = body
            m = re.match(r"(invariant|decreases|Inv|μ)-?(loop\S*)", name)
            what = {"Inv": "invariant", "μ": "decreases"}.get(m.group(1), m.group(1))
            got = fn.loops.get(norm(m.group(2)))
            if not got:
                inv_out.append(("text", "-- TURN: no loop " + name + "\n" + "\n".join(sig + rest)))
                continue
            new, vs, ch = got
            text = "\n".join(rest)
            m2 = re.match(r"((?:unfolding[^\n]*\n)?)" + re.escape(name) + r"((?:\s+(?:" + ID + r"|_))*)\s*=\s*", text)
            args = m2.group(2).split()
            old = loop_params(vs, ch)
            if args and args[0] in ("t", "κs"):
                args = args[1:]
            if len(args) > len(old):
                args = [a for a in args if not re.match(r"t\d+", a)]
            rhs = text[m2.end() :]
            note = ""
            if len(args) != len(old):
                note = f"-- TURN: {len(args)} parameters {args} for {old}\n"
            sub = {a: o for a, o in zip(args, old) if a != "_"}
            rhs = rename_words(rhs, sub)
            newname = f"{what}-{stem}{new}"
            inv_out.append(("text", note + "\n".join(comments) + ("\n" if comments else "") + f"abbrev pub {newname} : goal.{newname}\n{m2.group(1)}{newname} l = {rhs}"))
            continue
        sig, rest, oldneed, got = body
        if not got:
            notes.append(f"{name}: the need {oldneed} is gone")
            continue
        old, new, place = got
        newname = stem + new
        text = "\n".join(rest)
        unf = ""
        m2 = re.match(r"((?:unfolding[^\n]*\n)*)", text)
        unf = m2.group(1)
        text = text[m2.end() :]
        clauses = re.split(r"(?m)^(?=" + re.escape(name) + r"(?:\s|$))", text)
        outc = []
        for cl in clauses:
            if not cl.strip():
                continue
            m3 = re.match(re.escape(name) + r"((?:\s+(?:" + ID + r"|_))*)\s*=\s*", cl)
            if not m3:
                outc.append("-- TURN: " + cl)
                continue
            args = m3.group(1).split()
            rhs = cl[m3.end() :]
            pre = ""
            if fn.cycle:
                pre = "t "
                args = args[1:] if args and args[0] in ("t", "_") else args
            binder = args[0] if args else "c"
            rhs = rename_words(rhs, {k: v for k, v in table.items() if k != name})
            rhs = convert_paths(rhs, fn, place, binder)
            rhs = re.sub(r"(?<=\bc) (c\.lifetimes|κs)(?![\w'-])", "", rhs)
            if re.search(r"(?<![\w'-])κs(?![\w'-])", rhs):
                rhs = re.sub(r"(?<![\w'-])κs(?![\w'-])", "c.lifetimes", rhs)
            fields, cyc = None, False
            mm = re.match(r"(\w+?)-requires(?:-\d+)?$", old)
            if mm:
                fields = REQ.get(mm.group(1))
                cyc = fn.cycle and mm.group(1) in MEMBERS
            elif old in fn.of.get("asked", {}):
                fields = fn.of["asked"][old]
            if fields and len(fields) > 1 and not cyc:
                rhs = with_records(rhs, fields, cyc)
            rhs = rhs.strip()
            sep = "\n    " if "\n" in rhs else " "
            outc.append(f"{newname} {pre}c ={sep}{rhs}")
        ans_out.append("\n".join(comments) + ("\n" if comments else "") + f"pub {newname} : goal.{newname}\n{unf}" + "\n".join(outc))
    uses = [u for u in uses if not OLD_USES.search(u)]
    return header, uses, inv_out, ans_out, own_out, notes


def measures(text, params):
    """The measures of a cycle: name of the function, its text over l."""
    out = []
    for m in re.finditer(r"(?m)^μ-(" + ID + r") κs a =\s*(.*(?:\n[ \t]+.*)*)", text):
        name, rhs = m.groups()
        fname = next((k for k in params if norm(k) == norm(name)), None)
        if not fname:
            out.append((name, "-- TURN: no parameters known\n" + rhs))
            continue

        def path(x):
            k = x.group(1).count(".1")
            return "l." + params[fname][k]

        out.append((fname, re.sub(r"(?<![\w.])a((?:\.1)*)\.0(?![\w])", path, rhs)))
    return out


def turn_cycle(cname, path, folder, names, mods):
    params = {}
    for of in names.values():
        if isinstance(of, dict) and "params" in of:
            for k, v in of["params"].items():
                params[k.split("::")[-1]] = v
    goals = f"Rattle.{cname}.proofs.{path}"
    main_file = os.path.join(folder, "Proof.antt")
    parts = os.path.join(folder, "Proof")
    files = [os.path.join(parts, f) for f in sorted(os.listdir(parts))] if os.path.isdir(parts) else [main_file]
    inv, inv_uses, mod_names = [], [], []
    answers_all = []
    for f in files:
        text = open(f).read()
        for fname, rhs in measures(text, params):
            inv.append(f"abbrev pub decreases-{fname} : goal.decreases-{fname}\ndecreases-{fname} l = {rhs}")
            inv_uses += [u for u in re.findall(r"(?m)^use .*$", text)]
        m = re.search(r"\.Lts-(\w+) as", text)
        base = os.path.basename(f)[:-5]
        if base == "Measures":
            os.remove(f)
            continue
        if not m:
            print("no Lts in", f)
            continue
        fn = Fn(mods[m.group(1)], names[mods[m.group(1)]])
        header, uses, invs, answers, own, notes = turn(text, fn)
        if invs:
            inv += [x[1] for x in invs if x[0] == "text"]
            inv_uses += uses
        if f == main_file:
            answers_all = (header, uses, own, answers)
        else:
            to = os.path.join(folder, "Answers")
            os.makedirs(to, exist_ok=True)
            t = "\n".join(header + uses + [f"use {goals}.Goals as goal"]) + "\n\n" + "\n\n".join(own + answers) + "\n"
            open(os.path.join(to, base + ".antt"), "w").write(t)
            mod_names.append((base, re.findall(r"(?m)^pub (\S+) : goal\.", t)))
            os.remove(f)
        for w in fn.missed:
            print(f"{path} {m.group(1)}: missed {w}")
        for n in notes:
            print(f"{path} {m.group(1)}: {n}")
    seen = []
    for u in inv_uses:
        if u not in seen and not OLD_USES.search(u):
            seen.append(u)
    open(os.path.join(folder, "Invariants.antt"), "w").write("-- The measures and the invariants.\n" + "\n".join(seen + [f"use {goals}.Given as goal"]) + "\n\n" + "\n\n".join(inv) + "\n")
    if mod_names:
        t = "-- The answers, a file for each function.\n" + "".join(f"mod {b}\n" for b, _ in mod_names)
        t += f"use {goals}.Goals as goal\n"
        for b, ns in mod_names:
            for n in ns:
                t += f"\npub {n} : goal.{n}\n{n} t c = {b}.{n} t c\n"
        open(os.path.join(folder, "Answers.antt"), "w").write(t)
    else:
        header, uses, own, answers = answers_all
        t = "\n".join(header + uses + [f"use {goals}.Goals as goal"]) + "\n\n" + "\n\n".join(own + answers) + "\n"
        open(os.path.join(folder, "Answers.antt"), "w").write(t)
    if os.path.exists(main_file):
        os.remove(main_file)
    if os.path.isdir(parts) and not os.listdir(parts):
        os.rmdir(parts)


REQ, ENS, MEMBERS = {}, {}, set()


def main(argv):
    names = json.load(open(argv[0]))
    req, ens = clause_names(os.path.dirname(os.path.abspath(argv[1])))
    REQ.update(req)
    ENS.update(ens)
    for module in names:
        m = re.match(r".*\+[^.]*\.Lts-(\w+)$", module)
        if m:
            MEMBERS.add(m.group(1))
        m = re.match(r".*\.\+(\w+)\.Lts$", module)
        if m:
            MEMBERS.add(m.group(1))
    crate0 = os.path.basename(os.path.abspath(argv[1]))
    cycles = {}
    for module in names:
        m = re.match(r"Rattle-" + crate0 + r"-proofs\.(.*\+[^.]*)\.Lts-(\w+)$", module)
        if m:
            cycles.setdefault(m.group(1), {})[m.group(2)] = module
    for path, mods in cycles.items():
        if argv[2:] and not any(path.endswith(o) for o in argv[2:]):
            continue
        folder = os.path.join(argv[1], "proofs", path.replace(".", "/"))
        if os.path.exists(os.path.join(folder, "Proof.antt")):
            turn_cycle(crate0, path, folder, names, mods)
    crate = argv[1]
    only = argv[2:]
    cname = os.path.basename(os.path.abspath(crate))
    for module, of in sorted(names.items()):
        m = re.match(r"Rattle-" + cname + r"-proofs\.(.*)\.Lts$", module)
        if not m:
            continue
        path = m.group(1)
        folder = os.path.join(crate, "proofs", path.replace(".", "/"))
        src = os.path.join(folder, "Proof.antt")
        if only and not any(path.endswith(o) for o in only):
            continue
        if not os.path.exists(src):
            continue
        text = open(src).read()
        if "Tie as tie" not in text:
            print("walk by hand:", path)
            continue
        fn = Fn(module, of)
        header, uses, invs, answers, own, notes = turn(text, fn)
        goals = f"Rattle.{cname}.proofs.{path}"
        if invs:
            t = "\n".join(header[:1] + uses + [f"use {goals}.Given as goal"]) + "\n\n" + "\n\n".join(x[1] for x in invs if x[0] == "text") + "\n"
            open(os.path.join(folder, "Invariants.antt"), "w").write(t)
        if answers:
            inv_use = []
            t = "\n".join(header + uses + inv_use + [f"use {goals}.Goals as goal"]) + "\n\n" + "\n\n".join(own + answers) + "\n"
            open(os.path.join(folder, "Answers.antt"), "w").write(t)
        elif own:
            print("own only:", path)
        os.remove(src)
        for w in fn.missed:
            print(f"{path}: missed {w}")
        for n in notes:
            print(f"{path}: {n}")


if __name__ == "__main__":
    main(sys.argv[1:])
