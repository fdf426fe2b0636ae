#!/usr/bin/env python3
"""Turns a function's old Proof.antt, which walks the places of the code, into Invariants.antt and Answers.antt.

usage: answers.py CRATE [FUNCTION..]      at the top of the repository; FUNCTION as its folder below proofs/

It asks the check for each goal's old and new name (rt check --generated DIR --old-names), and keeps each answer as it was but for names
and paths. Answers that the check most likely finds by itself are left out, and kept in port-dropped-CRATE.json in the folder for temporary files.
"""

import json
import os
import re
import shutil
import subprocess
import sys
import tempfile

NAME = r"[^\s(){}\[\].;,@\"«»]+"
TOKEN = re.compile(r"\s+|--[^\n]*|\"[^\"\n]*\"|" + NAME + r"|.", re.S)
# Fields that have other names today, where port.py did not see whose they are.
WORDS = dict(taken="true", left="false", inv="invariant", kept="auto", last="new", came="branch")
PLAIN = {"search rules", "omega arith", "tt", "refl", "search (rules)"}


def norm(s):
    return s.replace("-", "_")


class Function:
    def __init__(self, data):
        self.d = data
        self.places = {}
        for i, (name, parent, step, *_rest) in enumerate(data["places"]):
            self.places[norm(name)] = dict(name=name, parent=norm(parent) if parent else None, old=step[0], new=step[1], i=i)
        self.needs = {}
        for i, (old, new) in enumerate(data["needs"]):
            self.needs[norm(old)] = dict(new=new, at=norm(data["asked_at"][i][0]) if i < len(data["asked_at"]) else None, view=data["asked_at"][i][1] if i < len(data["asked_at"]) else None)
        self.by_new = {norm(it["new"]): it for it in self.needs.values()}
        self.settled = {norm(s) for s in data["settled"]}
        self.loops = {}
        for (names, vars_), changed in zip(data["loops"], data["changed"]):
            self.loops[norm(names[0])] = (names[1], vars_, changed)

    def parent(self, p):
        # what was a step of its own before the first place is part of the start today
        return (self.places[p]["parent"] or p) if p in self.places else None

    def need(self, name):
        for n in (norm(re.sub(r"^overflow[-_]", "", name)), norm(name)):
            if n in self.needs:
                return self.needs[n]
        return self.by_new.get(norm(name))

    def chain(self, p):
        while p:
            yield p
            p = self.places[p]["parent"] if p in self.places else None


def nested(parts):
    return parts[0] if len(parts) == 1 else f"({parts[0]}, {nested(parts[1:])})"


def binders(part):
    """The groups of a part such as (a b : A) {c : C}; None for a type."""
    groups, depth, start = [], 0, None
    for n, ch in enumerate(part):
        if ch in "([{":
            if depth == 0:
                start = n
            depth += 1
        elif ch in ")]}":
            depth -= 1
            if depth == 0:
                groups.append(part[start:n + 1])
        elif depth == 0 and not ch.isspace():
            return None
    return groups if groups and all(" : " in g for g in groups) else None


def split_arrows(text):
    parts, depth, cur = [], 0, ""
    for t in TOKEN.findall(text):
        if t in "([{":
            depth += 1
        elif t in ")]}":
            depth -= 1
        if t == "→" and depth == 0:
            parts.append(cur.strip())
            cur = ""
        else:
            cur += t
    parts.append(cur.strip())
    return parts


class Turner:
    def __init__(self, fn, crate, path, module, text):
        self.fn, self.crate, self.where, self.module = fn, crate, path, module
        self.text = text
        self.helpers = {}  # name -> (param places [or None..], result place or None)
        self.dropped = {}
        self.invs = []
        self.views = set()
        self.unfolds = set()
        self.need = None
        self.cycle = path.split("/")[-1].startswith("+")

    # the place that a type names, or None
    def place_of(self, ty):
        m = re.match(r"^\(?\s*tie\.(" + NAME + r")((?: +\(?(?:invariant|decreases)[^\s()]*\)?)*)\s*\)?$", ty.strip())
        if m and norm(m[1]) in self.fn.places:
            return norm(m[1])
        if m:
            # not each place where an argument of a call is lent is a place of its own today
            base = norm(re.sub(r"[-_]arg\d*$", "", m[1]))
            lent = [q for q in self.fn.places if q.startswith(base + "_arg")]
            if base != norm(m[1]) and (lent or base in self.fn.places):
                return lent[-1] if lent else base
        return None

    def view(self, place):
        name = self.fn.d["places_by_name"][self.fn.places[place]["i"]]
        self.views.add(name)
        return name

    def types(self, text):
        text = re.sub(r"\b(\w+)\.inv\b", r"\1.invariant", text)

        def one(m):
            name = self.place_of("tie." + m[1])
            if name:
                return self.view(name)
            if m[1].startswith("Need-"):
                need = self.fn.need(m[1][5:])
                if need:
                    return "goal." + need["new"]
            return m[0]

        return re.sub(r"tie\.(" + NAME + r")((?:\s+(?:invariant|decreases)-[^\s()]*)*)", one, text)

    # -- expressions: env has for a name the variable that it stands for, the place of that variable, and its own place
    def conv(self, text, env):
        toks = TOKEN.findall(text)
        out, _ = self.seq(toks, 0, dict(env), None)
        # what a test of a negation says is said of the test itself today
        at = r"(\w+\.(?:if|loop)[^\s()]*\.(?:true|false))"
        out = re.sub(r"\(not[-_](?:true|false) _ " + at + r"\)", r"\1", out)
        out = re.sub(r"\bnot[-_](?:true|false) _ " + at, r"\1", out)
        # a step's fields, where a let names the step
        return re.sub(r"(?<=\w\.)(inv|came)(?=[.\s),])", lambda m: WORDS[m[1]], out)

    def operand(self, toks, i):
        """Where the operand that begins at i ends: a name or a group, with its fields."""
        if toks[i] == "(":
            depth = 0
            while i < len(toks):
                depth += toks[i] in "([{"
                depth -= toks[i] in ")]}"
                i += 1
                if depth == 0:
                    break
        else:
            i += 1
        while i + 1 < len(toks) and toks[i] == "." and re.fullmatch(NAME, toks[i + 1]):
            i += 2
        return i

    def seq(self, toks, i, env, close):
        """Turns tokens up to the closing one; env grows by the lets."""
        out = ""
        while i < len(toks):
            t = toks[i]
            if close and t == close:
                return out, i
            if t == "(":
                j = self.operand(toks, i)
                k = i + 1
                depth = 1
                while depth:
                    depth += toks[k] in "([{"
                    depth -= toks[k] in ")]}"
                    k += 1
                got = self.place_value("".join(toks[i:k]), env)
                if got:
                    s, i = self.fields(got, toks, k)
                    out += s
                    continue
            if t in ("(", "[", "{"):
                end = {"(": ")", "[": "]", "{": "}"}[t]
                inner, j = self.seq(toks, i + 1, dict(env), end)
                once = t == "(" and inner.startswith("(") and self.closes(inner) == len(inner) - 1
                out += inner if once else t + inner + end
                i = j + 1
                continue
            behind_dot = out.endswith(".")
            if not behind_dot and t in self.helpers and self.helpers[t]["place"] and i + 2 < len(toks) and toks[i + 1].isspace():
                j = self.operand(toks, i + 2)
                got = self.place_value("".join(toks[i + 2:j]), env)
                h = self.helpers[t]
                if got and not h["result"]:
                    out += self.call(t, h, got)
                    i = j
                    continue
                if got and h["result"]:
                    out += got[0]
                    i = j
                    continue
            if re.fullmatch(NAME, t) and env.get(t) and not behind_dot:
                if len(env[t]) == 4:
                    s, i = self.fields(env[t][:3], toks, i + 1, env[t][3])
                else:
                    s, i = self.fields(env[t], toks, i + 1)
                out += s
                continue
            if t == "let":
                m = re.match(r"let(\s+)(" + NAME + r")(\s*)=(?=\s)", "".join(toks[i:i + 6]))
                if m:
                    depth, j = 0, i + 1
                    while j < len(toks):
                        if toks[j] in ("(", "[", "{"):
                            depth += 1
                        elif toks[j] in (")", "]", "}"):
                            depth -= 1
                        elif toks[j] == "let":
                            depth += 1
                        elif toks[j] == "in":
                            if depth == 0:
                                break
                            depth -= 1
                        j += 1
                    k = toks.index("=", i)
                    got = self.place_value("".join(toks[k + 1:j]), env)
                    if got:
                        env[m[2]] = got
                        i = j + 1
                        while i < len(toks) and toks[i].isspace():
                            i += 1
                        continue
                    part = self.partial("".join(toks[k + 1:j]), env)
                    if part:
                        env[m[2]] = part
                        i = j + 1
                        while i < len(toks) and toks[i].isspace():
                            i += 1
                        continue
                    val, _ = self.seq(toks[k + 1:j], 0, dict(env), None)
                    out += "".join(toks[i:k + 1]) + val + "in"
                    env[m[2]] = None
                    i = j + 1
                    continue
            if t == "λ":
                j = i + 1
                while j < len(toks) and toks[j] != ".":
                    if re.fullmatch(NAME, toks[j]) and toks[j] in env:
                        env = dict(env)
                        env[toks[j]] = None
                    j += 1
            out += t
            i += 1
        return out, i

    def place_value(self, raw, env):
        """The variable, its place and the place meant, where the text is a place."""
        raw = raw.strip()
        while raw.startswith("(") and self.closes(raw) == len(raw) - 1:
            raw = raw[1:-1].strip()
        m = re.fullmatch(r"(.*?)((?:\.before)+)", raw, re.S)
        if m and (re.fullmatch(NAME, m[1]) or m[1].startswith("(") and self.closes(m[1]) == len(m[1]) - 1):
            got = self.place_value(m[1], env)
            if not got:
                return None
            root, at, p = got
            for _ in range(m[2].count(".before")):
                p = self.fn.parent(p) if p else None
            return (root, at, p) if p else None
        if re.fullmatch(NAME, raw):
            got = env.get(raw)
            return got if got and len(got) == 3 else None
        m = re.fullmatch(r"(" + NAME + r")\s+(\S.*)", raw, re.S)
        if m and m[1] in self.helpers and self.helpers[m[1]]["place"] and self.helpers[m[1]]["result"]:
            toks = TOKEN.findall(m[2])
            if self.operand(toks, 0) != len(toks):
                return None
            got = self.place_value(m[2], env)
            if got:
                return (got[0], got[1], self.helpers[m[1]]["result"])
        return None

    def partial(self, raw, env):
        """A path whose parts have names of their own, as what an arm binds, or several clauses: the place, and the old path."""
        raw = raw.strip()
        m = re.fullmatch(r"(.*?)\.(" + NAME + r"(?:\." + NAME + r")*)", raw, re.S)
        if not m:
            return None
        # the longest front that is a place
        steps = raw.split(".")
        for n in range(len(steps) - 1, 0, -1):
            front = ".".join(steps[:n])
            if front.count("(") != front.count(")"):
                continue
            got = self.place_value(front, env)
            if not got and re.fullmatch(NAME, front) and env.get(front) and len(env[front]) == 4:
                got, before = env[front][:3], env[front][3]
                names = before + steps[n:]
            elif got and len(got) == 3:
                names = steps[n:]
            else:
                continue
            f, rest = norm(names[0]), names[1:]
            root, at, p = got
            if f in ("requires", "pre") and clause_names(self.source(), "requires") and not (rest and by_name(rest, clause_names(self.source(), "requires"))):
                return got + (names,)
            for q in (self.fn.chain(p) if p else []):
                if norm(self.fn.places[q]["old"]) == f:
                    callee = self.fn.d["places"][self.fn.places[q]["i"]][3]
                    word = WORDS.get(rest[0], rest[0]) if rest else ""
                    if word in ("new", "auto") and len(rest) > 1 and rest[1] == "1" and self.fn.d["params"].get(callee):
                        named = by_name(rest[1:], self.fn.d["params"][callee] + ["none"])
                        if not named or named[0] == "none":
                            return got + (names,)
                    if rest[:1] == ["ensures"] and clause_names(callee, "ensures") and not (rest[1:] and by_name(rest[1:], clause_names(callee, "ensures"))):
                        return got + (names,)
                    if not rest and callee and clause_names(callee, "ensures"):
                        return got + (names,)
                    for r in self.fn.chain(at):
                        arm = self.fn.d["arms"][self.fn.places[r]["i"]]
                        for field, step, inner in (arm[2] if arm else []):
                            if norm(step) == f and len(inner) > len(rest) and inner[:len(rest)] == rest:
                                return got + (names,)
                    break
            return None
        return None

    def closes(self, raw):
        depth = 0
        for n, ch in enumerate(raw):
            depth += ch in "([{"
            depth -= ch in ")]}"
            if depth == 0:
                return n
        return -1

    def call(self, name, h, got):
        root, at, p = got
        if self.need:
            if h["place"] == at and self.view(h["place"]) == self.need_view:
                return f"{name} {root}"
            return f"{name} (goal.at.{self.need} {root}).{self.view(h['place'])}"
        if p == at:
            return f"{name} {root}"
        if h["body"] is None:
            return f"{name} {root}"
        # a lemma's own text, at a place further in
        here = (root, at, h["place"])
        self.unfolds.update(h["unfolds"])
        body = self.types(self.conv(h["body"], {h["var"]: here})).strip()
        if h["plain"] and not body.startswith("λ"):
            return f"({body})"
        ty = self.types(self.conv(h["type"], {h["typevar"]: here} if h["typevar"] else {})).strip()
        return f"(let it : {ty} = {body} in it)" + " _" * h["hidden"]

    def rename(self, text, old, new):
        if not text or old == new:
            return text
        out, prev = "", ""
        for t in TOKEN.findall(text):
            out += new if t == old and prev != "." else t
            prev = t
        return out

    def fields(self, got, toks, i, names=()):
        """The fields behind a place: toks[i:] begins with '.', or the place is passed whole."""
        root, at, p = got
        names = list(names)
        j = i
        while j + 1 < len(toks) and toks[j] == "." and re.fullmatch(NAME, toks[j + 1]):
            names.append(toks[j + 1])
            j += 2
        while names and names[0] == "before" and p:
            names.pop(0)
            p = self.fn.parent(p)
        if not names:
            return root, j
        f, rest = norm(names[0]), names[1:]
        if f.endswith("_lem"):
            f = f[:-4]
        # a variable of a loop may have such a name too
        if rest and rest[0] in WORDS and not (f in self.fn.loops and rest[0] in self.fn.loops[f][1]):
            rest[0] = WORDS[rest[0]]
        steps = [q for q in self.fn.chain(p)] + [q for q in self.fn.chain(at)]
        for q in steps:
            if norm(self.fn.places[q]["old"]) == f:
                for r in self.fn.chain(at):
                    arm = self.fn.d["arms"][self.fn.places[r]["i"]]
                    best = None
                    for field, step, inner in (arm[2] if arm else []):
                        if norm(step) == f and inner and rest[:len(inner)] == inner and (not best or len(inner) > best[1]):
                            best = (field, len(inner))
                    if best:
                        return ".".join([root, arm[0], best[0]] + rest[best[1]:]), j
                callee = self.fn.d["places"][self.fn.places[q]["i"]][3]
                if rest[:1] == ["ensures"] and len(rest) > 1 and rest[1] in "01":
                    names_ = clause_names(callee, "ensures")
                    named = by_name(rest[1:], names_) if names_ else None
                    if named:
                        rest = ["ensures"] + named
                if rest[:1] in (["new"], ["auto"]) and len(rest) > 1 and rest[1] in "01" and self.fn.d["params"].get(callee):
                    named = by_name(rest[1:], self.fn.d["params"][callee] + ["none"])
                    if named:
                        rest = rest[:1] + named
                if rest[:1] == ["given"]:
                    for name, step in self.fn.d["typed"][self.fn.places[at]["i"]]:
                        if norm(step) == f:
                            return ".".join([root, "type_inv", name] + rest[1:]), j
                new = self.fn.places[q]["new"]
                if new.startswith("in_default") and rest and (rest[0] == "rest" or rest[0].startswith("keys")):
                    rest = [new + "-own"] + rest
                return ".".join([root, new] + rest), j
        names[0] = {"pre": "requires", "fits": "ranges", "good": "well_formed"}.get(names[0], names[0])
        if names[0] == "requires" and len(names) > 1:
            own = clause_names(self.source(), "requires")
            named = by_name(names[1:], own) if own else None
            if named:
                names = ["requires"] + named
            elif own and all(n == "1" for n in names[1:]):
                return nested([f"{root}.requires.{n}" for n in own[len(names) - 1:]]), j
        elif names == ["requires"] and clause_names(self.source(), "requires"):
            return nested([f"{root}.requires.{n}" for n in clause_names(self.source(), "requires")]), j
        return ".".join([root] + names), j

    def source(self):
        return self.crate + "::" + self.where.replace("/", "::")

    # -- declarations
    def run(self):
        blocks = split_blocks(self.text)
        uses, decls, head = [], [], []
        for b in blocks:
            if b["kind"] == "use":
                if not re.search(r"\.Statement\.\{|\.Tie as tie|\.Reads as|^use Rattle\.\S+\.Reads", b["text"]):
                    uses.append(b["text"])
            elif b["kind"] == "head":
                head.append(b["text"])
            else:
                decls.append(b)
        # invariants and measures, in order
        for b in decls:
            m = re.match(r"(invariant|decreases)-(\S+)$", b["name"] or "")
            if m and norm(m[2]) in self.fn.loops:
                self.invs.append(m[1] + "-" + self.fn.loops[norm(m[2])][0])
            elif m:
                self.invs.append(m[1] + "-" + m[2])
        invariants, answers, inner = [], [], []
        decls, shared, given = self.shared(decls)
        self.macros(decls)
        for b in decls:
            name = b["name"]
            if name is None:
                answers.append(self.section(b))
                continue
            if re.search(r"(^|\n)" + re.escape(name) + r"\s*=\s*tie\.close", b["text"]) or name.endswith("spec") and "statement" in b["text"]:
                continue
            m = re.match(r"(invariant|decreases)-(\S+)$", name)
            if m:
                invariants.append(self.invariant(b, m[1], norm(m[2])))
                continue
            need = self.need_of(b)
            if need is not None:
                t = self.answer(b, need)
                if t:
                    answers.append(t)
                continue
            answers.append(self.helper(b))
        answers = [a for a in answers if a]
        goal = f"use Rattle.{self.crate}.proofs.{self.module}."
        result = {}
        top = "\n".join(head)
        if given:
            uses_too = goal + "Invariants.{" + ", ".join(given) + "}\n"
        else:
            uses_too = ""
        if invariants:
            result["Invariants.antt"] = top + "\n" + "\n".join(uses) + "\n" + goal + "Given as goal\n\n" + "\n\n".join(shared + invariants) + "\n"
        if answers:
            body = "\n\n".join(answers)
            tie = goal + "Goals.{" + ", ".join(sorted(self.views)) + "}\n" if self.views else ""
            result["Answers.antt"] = top + "\n" + "\n".join(uses) + "\n" + uses_too + goal + "Goals as goal\n" + tie + "\n" + body + "\n"
        return result

    def macros(self, decls):
        """An invariant that a proof uses by its name is written out there."""
        for b in decls:
            if not re.match(r"invariant-", b["name"] or "") or len(b["clauses"]) != 1:
                continue
            head, body = b["clauses"][0]
            ps = self.params(head)[1:]
            for d in decls:
                if d is b or not d["name"]:
                    continue
                d["clauses"] = [(h, self.written_out(t, b["name"], ps, body)) for h, t in d["clauses"]]
                d["sig"] = self.written_out(d["sig"], b["name"], ps, body)

    def written_out(self, text, name, ps, body):
        if name not in text:
            return text
        toks = TOKEN.findall(text)
        out, i = "", 0
        while i < len(toks):
            if toks[i] != name:
                out += toks[i]
                i += 1
                continue
            args, j = [], i + 1
            while len(args) < len(ps) and j + 1 < len(toks) and toks[j].isspace() and (re.fullmatch(NAME, toks[j + 1]) or toks[j + 1] == "("):
                if toks[j + 1] in ("→", "in", "decreases-loop", "≡", "×") or toks[j + 1].startswith("decreases-"):
                    break
                k = self.operand(toks, j + 1)
                args.append("".join(toks[j + 1:k]))
                j = k
            if len(args) < len(ps):
                out += toks[i]
                i += 1
                continue
            subst = dict(zip(ps, args))
            res, prev = "", ""
            for t in TOKEN.findall(body.strip()):
                res += subst[t] if t in subst and prev != "." else t
                prev = t
            out += "(" + res + ")"
            i = j
        return out

    def shared(self, decls):
        """Definitions that name no place and that an invariant uses: they go with the invariants."""
        pure, names = [], {}
        for b in decls:
            if "tie." in b["text"]:
                continue
            if b["name"]:
                mine = [b["name"]]
            else:
                mine = re.findall(r"(?m)^(?:pub )?(?:record|data) (" + NAME + ")", b["text"])
                if re.search(r"(?m)^(?:pub )?data ", b["text"]):
                    mine += re.findall(r"(?m)^  (" + NAME + r") :", b["text"])
            pure.append(b)
            for n in mine:
                names[n] = b
        wanted, queue = [], [b["text"] for b in decls if re.match(r"(invariant|decreases)-", b["name"] or "")]
        while queue:
            for word in re.findall(NAME, queue.pop()):
                b = names.get(word)
                if b is not None and not any(b is w for w in wanted):
                    wanted.append(b)
                    queue.append(b["text"])
        if not wanted:
            return decls, [], []
        shared, given = [], []
        for b in decls:
            if not any(b is w for w in wanted):
                continue
            text = b["text"]
            if b["name"] is None:
                text = re.sub(r"(?m)^(record|data) ", r"pub \1 ", text)
                if re.search(r"(?m)^pub record ", text):
                    text = re.sub(r"(?m)^  (?!pub |--|→)(" + NAME + r"(?: " + NAME + r")*) :", r"  pub \1 :", text)
            else:
                text = b["note"] + text
                text = re.sub(r"(?m)^abbrev (?!pub)" + re.escape(b["name"]), "abbrev pub " + b["name"], text)
                text = re.sub(r"(?m)^" + re.escape(b["name"]) + r" :", "pub " + b["name"] + " :", text)
            shared.append(text)
        given = sorted(n for n, b in names.items() if any(b is w for w in wanted))
        return [b for b in decls if not any(b is w for w in wanted)], shared, given

    def section(self, b):
        return self.types(b["text"]) + "\n-- TODO section"

    def need_of(self, b):
        m = re.search(r"(?:^|\n)\S+ :\s+tie\.Need-(" + NAME + r")", b["sig"])
        if not m:
            return None
        return m[1]

    def params(self, clause_head):
        toks = TOKEN.findall(clause_head)
        out, depth, cur = [], 0, ""
        for t in toks:
            if t in "([{":
                depth += 1
            if t in ")]}":
                depth -= 1
            if t.isspace() and depth == 0:
                if cur:
                    out.append(cur)
                cur = ""
            else:
                cur += t
        if cur:
            out.append(cur)
        return out

    def answer(self, b, need):
        info = self.fn.need(need)
        need = norm(re.sub(r"^overflow-", "", need))
        if need in self.fn.settled or (info and norm(info["new"]) in self.fn.settled):
            return None
        new = info["new"] if info else need
        clauses = []
        single = None
        self.need = new
        self.need_view = info["view"] if info else None
        for head, body in b["clauses"]:
            ps = self.params(head)[1:]
            env = {}
            if ps and info and info["at"] in self.fn.places:
                env[ps[0]] = (ps[0], info["at"], info["at"])
            if "κs" in ps:
                ps.remove("κs")
            text = self.conv(body, env)
            if new.startswith("returns"):
                names = clause_names(self.source(), "ensures")
            else:
                names = []
                if need.endswith("requires") or "requires_" in need:
                    step = re.sub(r"_requires(_\d+)?$", "", need)
                    for place in self.fn.d["places"]:
                        if norm(place[2][0]).rstrip("0123456789") == step and place[3]:
                            names = clause_names(place[3], "requires")
            text = re.sub(r"\b(\w+)\.inv\b", r"\1.invariant", text)
            if names:
                text = " " + as_record(text, names, clause_names(self.source(), "requires")).strip()
            single = text.strip()
            clauses.append(" ".join([new] + ps) + " =" + text)
        note = b["note"]
        unf = b["unfolding"] + "\n" if b["unfolding"] else ""
        t = note + f"pub {new} : goal.{new}\n" + unf + "\n".join(c.rstrip() for c in clauses)
        if len(clauses) == 1 and not unf and single in PLAIN:
            self.dropped[new] = t
            return None
        return t

    def helper(self, b):
        self.need = None
        m = re.match(r"((?:pub |abbrev |unfoldable )*)(\S+) :\s*(.*)$", b["sig"], re.S)
        prefix, name, ty = m[1], m[2], m[3]
        parts = split_arrows(ty)
        vars_, places, env = [], [], {}
        for part in parts[:-1]:
            groups = binders(part)
            if groups is None:
                vars_.append(None)
                places.append(self.place_of(part))
                continue
            for group in groups:
                if group.startswith("{"):
                    continue
                mm = re.match(r"^\((.*?) : (.*)\)$", group, re.S)
                place = self.place_of(mm[2])
                for v in mm[1].split():
                    vars_.append(v)
                    places.append(place)
                    env[v] = (v, place, place) if place else None
        result = self.place_of(parts[-1])
        h = dict(place=places[0] if places else None, result=result, var=None, body=None, type=None, hidden=0, unfolds=b["unfolding"].split()[1:])
        self.unfolds = set()
        if result and len(places) == 1 and places[0]:
            self.helpers[name] = h
            return None
        sig = prefix + name + " : " + self.types(self.conv(ty, env))
        clauses = []
        for head, body in b["clauses"]:
            ps = self.params(head)[1:]
            e = {}
            explicit = [q for q in ps if not q.startswith("{")]
            for v, place in zip(explicit, places):
                if re.fullmatch(NAME, v):
                    e[v] = (v, place, place) if place else None
            text = self.types(self.conv(body, e))
            clauses.append(head.rstrip() + " =" + text)
            if len(b["clauses"]) == 1 and explicit and places and places[0] and len(explicit) == len([q for q in ps if not q.startswith("{")]):
                h["var"], h["body"] = explicit[0], body.strip()
                hidden = [w for g in re.findall(r"\{([^{}]*?) : [^{}]*\}", " ".join(split_arrows(ty)[:-1])) for w in g.split()]
                h["hidden"] = len(hidden)
                if len(explicit) > 1 or hidden:
                    h["body"] = "λ " + " ".join(hidden + explicit[1:]) + ". " + h["body"]
                first, rest = split_arrows(ty)[0], split_arrows(ty)[1:]
                groups = binders(first)
                if groups:
                    mm = re.match(r"^\((.*?) : (.*)\)$", groups[0], re.S)
                    more = mm[1].split()[1:]
                    left = ([f"({' '.join(more)} : {mm[2]})"] if more else []) + groups[1:]
                    rest = ([" ".join(left)] if left else []) + rest
                h["typevar"], h["type"] = vars_[0], re.sub(r"\{([^{}]* : [^{}]*)\}", r"(\1)", " → ".join(rest))
                h["plain"] = "abbrev" in prefix
        self.helpers[name] = h
        h["unfolds"] = h["unfolds"] + sorted(self.unfolds - set(h["unfolds"]))
        unf = "unfolding " + " ".join(h["unfolds"]) + "\n" if h["unfolds"] else ""
        return b["note"] + sig.rstrip() + "\n" + unf + "\n".join(c.rstrip() for c in clauses)

    def invariant(self, b, kind, loop):
        if loop in self.fn.loops:
            new, vars_, changed = self.fn.loops[loop]
        else:
            new, vars_, changed = loop, [], []
        out = []
        for head, body in b["clauses"]:
            ps = self.params(head)[1:]
            subst = {}
            if loop in self.fn.loops:
                k = len(vars_)
                for p, v, ch in zip(ps[:k], vars_, changed):
                    subst[p] = f"l.initial.{v}" if ch else f"l.{v}"
                for p, v in zip(ps[k:], [v for v, ch in zip(vars_, changed) if ch]):
                    subst[p] = f"l.{v}"
            else:
                args = self.fn.d.get("args") or []
                for p, v in zip(ps, args):
                    subst[p] = f"l.{v if isinstance(v, str) else v[0]}"
            toks = TOKEN.findall(body)
            res, prev = "", ""
            for n, t in enumerate(toks):
                follows = [x for x in toks[n + 1:n + 3] if not x.isspace()][:1]
                # the name of a record's field is no variable
                field = follows == ["="] and res.rstrip()[-1:] in "{;"
                if t in subst and prev != "." and not field:
                    res += subst[t]
                else:
                    res += t
                prev = t
            out.append(f"{kind}-{new} l =" + res.rstrip())
        return b["note"] + f"abbrev pub {kind}-{new} : goal.{kind}-{new}\n" + (b["unfolding"] + "\n" if b["unfolding"] else "") + "\n".join(out)


CLAUSE = re.compile(r"^\s*(requires|ensures)(?:\s+(\w+))?\s*\{")
CONTRACTS = {}


def contracts(crate):
    """The names of the clauses of each function of a crate, by its path in the source."""
    if crate in CONTRACTS:
        return CONTRACTS[crate]
    found = CONTRACTS[crate] = {}
    src = os.path.join("crates", crate, "src")
    for folder, _, files in os.walk(src):
        for f in files:
            if not f.endswith(".rt"):
                continue
            module = os.path.relpath(os.path.join(folder, f), src)[:-3].replace("/", "::")
            prefix = crate + ("" if module in ("lib", "main") else "::" + module)
            owner, name = "", None
            for line in open(os.path.join(folder, f), encoding="utf-8"):
                m = re.match(r"impl(?:<[^>]*>)? (\w+)", line)
                if m:
                    owner = "::" + m[1]
                elif line.startswith("}"):
                    owner = ""
                m = re.match(r"\s*(?:pub )?(?:unsafe )?(?:extern \"C\" )?fn (\w+)", line)
                if m:
                    name = prefix + (owner if line.startswith(" ") else "") + "::" + m[1]
                    found[name] = dict(requires=[], ensures=[])
                m = CLAUSE.match(line)
                if m and name:
                    found[name][m[1]].append(m[2])
    return found


def clause_names(function, kind):
    names = contracts(function.split("::")[0]).get(function, {}).get(kind, []) if function else []
    return names if len(names) > 1 and all(names) else []


def by_name(path, names):
    """The clause that a path of positions in nested pairs means, and what is left of the path."""
    at = 0
    path = list(path)
    while path and at < len(names) - 1:
        if path[0] == "0":
            return [names[at]] + path[1:]
        if path[0] != "1":
            return None
        path.pop(0)
        at += 1
    return [names[at]] + path if at == len(names) - 1 else None


def top_parts(text):
    """The parts of a tuple, with a tuple in the last place laid flat; None for another term."""
    text = text.strip()
    if not text.startswith("("):
        return None
    depth, cuts = 0, []
    for n, ch in enumerate(text):
        depth += ch in "([{"
        depth -= ch in ")]}"
        if ch == "," and depth == 1:
            cuts.append(n)
        if depth == 0:
            if n != len(text) - 1:
                return None
            break
    if not cuts:
        return None
    edges = [0] + cuts + [len(text) - 1]
    return [text[a + 1:b].strip() for a, b in zip(edges, edges[1:]) if text[a + 1:b].strip()]


def as_record(body, names, own=()):
    """A tuple for several clauses as a record by their names; own are those of the function's requires."""
    m = list(re.finditer(r"\bin\b\s", body))
    starts = [0] + [x.end() for x in m]
    for start in starts:
        parts = top_parts(body[start:])
        if parts is None:
            continue
        while len(parts) < len(names):
            inner = top_parts(parts[-1])
            if inner is None:
                break
            parts = parts[:-1] + inner
        if len(parts) == len(names) + 1 and parts[-1] == "tt":
            parts.pop()
        m2 = re.fullmatch(r"\(?(\S+\.requires)(\.\w+)*.*", parts[-1])
        left = len(names) - len(parts) + 1
        if m2 and left > 1 and len(own) >= left:
            parts[-1:] = [f"{m2[1]}.{n}" for n in own[-left:]]
        if len(parts) == len(names):
            space = re.match(r"\s*", body[start:])[0]
            return body[:start] + space + "record { " + "; ".join(f"{n} = {q}" for n, q in zip(names, parts)) + " }"
    tail = starts[-1]
    space = re.match(r"\s*", body[tail:])[0]
    tail += len(space)
    if re.match(NAME + r"\s+\S", body[tail:]) and not re.match(r"(search|omega|grind|simp|rw|let|elim|subst|cc|record|absurd|λ)\b", body[tail:]):
        paths = [".1" * i + (".0" if i < len(names) - 1 else "") for i in range(len(names))]
        return body[:tail] + f"let it = {body[tail:].strip()} in record {{ " + "; ".join(f"{n} = it{p}" for n, p in zip(names, paths)) + " }"
    return body


def split_blocks(text):
    """Top-level pieces: the head comment, use lines, and declarations with their notes."""
    lines = text.split("\n")
    i, n = 0, len(lines)
    blocks, note, first = [], "", True
    while i < n:
        line = lines[i]
        if not line.strip():
            i += 1
            continue
        if line.startswith("--"):
            if first:
                j = i
                while j < n and lines[j].startswith("--"):
                    j += 1
                blocks.append(dict(kind="head", text="\n".join(lines[i:j]), name=None))
                first, i = False, j
                continue
            note += line + "\n"
            i += 1
            continue
        first = False
        if line.startswith("use "):
            j = i + 1
            while j < n and lines[j].startswith(" "):
                j += 1
            blocks.append(dict(kind="use", text="\n".join(lines[i:j]), name=None))
            i, note = j, ""
            continue
        # a declaration: until a line at column 0 that begins another one
        if re.match(r"(module|record|data|pub record|pub data|infix)", line):
            j = i + 1
            while j < n and (not lines[j].strip() or lines[j].startswith(" ")):
                j += 1
            blocks.append(dict(kind="section", text=note + "\n".join(lines[i:j]).rstrip(), name=None))
            i, note = j, ""
            continue
        m = re.match(r"(?:pub |abbrev |unfoldable )*(" + NAME + r")\s*(?:\{[^}]*\} )*:(?:\s|$)", line)
        if not m:
            raise SystemExit("no declaration: " + line)
        name = m[1]
        j = i + 1
        while j < n and lines[j].startswith((" ", ")", "}")):
            j += 1
        sig = "\n".join(lines[i:j])
        unfolding = ""
        if j < n and lines[j].startswith("unfolding"):
            unfolding = lines[j]
            j += 1
        clauses = []
        while j < n:
            if not lines[j].strip():
                k = j
                while k < n and not lines[k].strip():
                    k += 1
                if k < n and (lines[k].startswith(" ") or re.match(re.escape(name) + r"(\s|$)", lines[k]) and not re.match(re.escape(name) + r"\s+:", lines[k])):
                    j = k
                    continue
                break
            if re.match(re.escape(name) + r"(\s|$)", lines[j]):
                k = j + 1
                while k < n and lines[k].startswith((" ", ")", "}")):
                    k += 1
                chunk = "\n".join(lines[j:k])
                eq = top_equals(chunk)
                clauses.append((chunk[:eq], chunk[eq + 1:]))
                j = k
                continue
            break
        blocks.append(dict(kind="decl", name=name, sig=sig, unfolding=unfolding, clauses=clauses, note=note, text="\n".join(lines[i:j])))
        i, note = j, ""
    return blocks


def top_equals(chunk):
    depth = 0
    for m in TOKEN.finditer(chunk):
        t = m[0]
        if t in "([{":
            depth += 1
        elif t in ")]}":
            depth -= 1
        elif t == "=" and depth == 0:
            return m.start()
    raise SystemExit("no = in " + chunk)


def names_of(crate_dir, to):
    shutil.rmtree(to, ignore_errors=True)
    subprocess.run(["rt", "check", "--generated", to, "--old-names"], cwd=crate_dir, capture_output=True)
    with open(os.path.join(to, "names.json"), encoding="utf-8") as f:
        return json.load(f)


def main(argv):
    crate, only = argv[0], argv[1:]
    top = os.path.join("crates", crate)
    data = names_of(top, os.path.join(tempfile.gettempdir(), f"port-names-{crate}"))
    proofs = os.path.join(top, "proofs")
    dropped = {}
    for folder, dirs, files in os.walk(proofs):
        dirs.sort()
        if "Proof.antt" not in files:
            continue
        rel = os.path.relpath(folder, proofs)
        if only and rel not in only:
            continue
        module = rel.replace("/", ".")
        key = f"Rattle-{crate}-proofs.{module}.Lts"
        if key not in data:
            print("no names:", rel)
            continue
        with open(os.path.join(folder, "Proof.antt"), encoding="utf-8") as f:
            text = f.read()
        try:
            turner = Turner(Function(data[key]), crate, rel, module, text)
            result = turner.run()
        except SystemExit as e:
            print("left:", rel, e)
            continue
        os.remove(os.path.join(folder, "Proof.antt"))
        for name, t in result.items():
            with open(os.path.join(folder, name), "w", encoding="utf-8") as f:
                f.write(t)
        if not os.listdir(folder):
            os.rmdir(folder)
        dropped[rel] = turner.dropped
        print("turned:", rel, *sorted(result))
    with open(os.path.join(tempfile.gettempdir(), f"port-dropped-{crate}.json"), "w") as f:
        json.dump(dropped, f, ensure_ascii=False, indent=1)


if __name__ == "__main__":
    main(sys.argv[1:])
