#!/usr/bin/env python3
"""Counts the places of the design pass over src/ (docs/DESIGN-PASS.md), by the text of the files.

    python3 tools/design/places.py [-v] [ROOT]

One line for each point and way of counting; -v names the places. It reads src/ alone, and proofs/ for point 8."""
import collections
import glob
import os
import re
import sys

WORDS = re.compile(r"[A-Za-z_][A-Za-z0-9_]*|[0-9]+|'[^']*'|b?\"[^\"]*\"|[^\sA-Za-z0-9_]")


def functions(path):
    """The functions of a file: name, head (up to the body), body, line."""
    text = open(path).read()
    text = re.sub(r"^\s*//.*$", lambda m: "", text, flags=re.M)
    for m in re.finditer(r"^(\s*)(?:pub )?(?:const )?(?:extern \"C\" )?fn (\w+)", text, flags=re.M):
        start = m.start()
        indent = m.group(1).replace("\n", "")
        body = re.compile(r"^" + re.escape(indent) + r"\{\n(.*?)^" + re.escape(indent) + r"\}", re.M | re.S).search(text, m.end())
        flat = re.compile(r"\)[^\n{]*\{\n(.*?)^" + re.escape(indent) + r"\}", re.S | re.M).search(text, m.end())
        ends = [b for b in (body, flat) if b]
        if not ends:
            continue
        b = min(ends, key=lambda x: x.start(1))
        yield m.group(2), text[m.end():b.start(1)], b.group(1), text.count("\n", 0, start) + 1


def enums(path):
    text = re.sub(r"//.*", "", open(path).read())
    for m in re.finditer(r"enum (\w+)(?:<[^>]*>)? \{(.*?)^\}", text, flags=re.M | re.S):
        cases = [c.strip() for c in re.split(r",\s*\n", m.group(2)) if c.strip()]
        yield m.group(1), cases


def shape(body):
    """A body without its types, constants, numbers and the names of what it calls."""
    words = WORDS.findall(body)
    out = []
    for i, w in enumerate(words):
        following = words[i + 1] if i + 1 < len(words) else ""
        if re.fullmatch(r"u8|u16|u32|u64|usize|[0-9]+|[A-Z]\w*|'[^']*'|b?\"[^\"]*\"|b", w):
            out.append("_")
        elif re.fullmatch(r"[a-z_]\w*", w) and following in ("(", ":") and w not in ("if", "while", "match", "let", "mut", "return"):
            out.append("f" if following == "(" else w)
        else:
            out.append(w)
    return " ".join(out)


def main():
    args = [a for a in sys.argv[1:] if a != "-v"]
    loud = "-v" in sys.argv
    root = args[0] if args else "."
    found = collections.OrderedDict()

    def place(point, what):
        found.setdefault(point, []).append(what)

    shapes = collections.defaultdict(list)
    facts = collections.defaultdict(set)
    groups = collections.defaultdict(set)
    for path in sorted(glob.glob(os.path.join(root, "crates/*/src/*.rt"))):
        crate = path.split(os.sep)[-3]
        for name, cases in enums(path):
            if any(re.search(r"\((?:\w+, )*(?:Fault|Refusal)\)", c) for c in cases):
                place("1a enums with a case for a refusal", f"{crate}::{name}")
            elif len(cases) == 2 and sum("(" in c for c in cases) == 1:
                place("1b enums of a value or nothing", f"{crate}::{name}")
            elif any(c == "None" for c in cases):
                place("1b enums of a value or nothing", f"{crate}::{name}")
        raw = open(path).read()
        for m in re.finditer(r"((?:^(?:pub )?const [A-Z_]+: (?:u32|usize|u8) = [0-9]+;\n\s*(?://[^\n]*\n)*){3,})", raw, flags=re.M):
            for c in re.findall(r"const ([A-Z_]+):", m.group(1)):
                if crate == "rows":
                    place("1c numbers for kinds", f"{crate}::{c}")
        for m in re.finditer(r"^// [^\n]*(?:\b0 with none|or 0 where|plus 1, that)[^\n]*\n(?:\s*//[^\n]*\n)*\s*(?:pub )?fn (\w+)[^{]*?-> (?:u32|usize|u64)\b", raw, flags=re.M):
            if m.group(1) not in ("worst", "deepest", "targets_give"):
                place("1d 0 for none", f"{crate}::{m.group(1)}")
        for name, head, body, line in functions(path):
            where = f"{crate}::{name}"
            if len(body.split("\n")) > 2 or name in ("number", "offset"):
                shapes[shape(body)].append(where)
            for w in re.finditer(r"^(\s*)while (.*?) \{\n(.*?)^\1\}", body, flags=re.M | re.S):
                test, inner = w.group(2), w.group(3)
                stepped = [v for v in re.findall(r"(\w+) [+-]= 1;", inner) if re.search(r"\b" + v + r"\b", test)]
                if stepped:
                    place("3a loops that count by 1", where)
                else:
                    place("3b other while loops", where)
            if re.search(r"if (\w+) < (\w+) \{\s*(?:return )?(\1|\2)(?:;|\s)", body) and len(body) < 120:
                place("4a least and greatest by hand", where)
            if re.fullmatch(r"(eq|cmp|clone|copy|fmt|from|into|coded|code|number|returned|\w+_word|row_of|verdict)", name) and re.search(r"\bmatch\b|\bif\b", body):
                place("4b conversion or printing by hand", where)
            if re.search(r"\bmatch \w+(?: / \d+)? \{[^}]*^\s*\d+ => \w+::\w+\(", body, flags=re.M | re.S) or re.search(r"^\s*b'.' => \w+::\w+\(", body, flags=re.M):
                place("7 switches on which step to run", where)
            for c in re.finditer(r"^\s*requires (?:\w+ )?\{ (.*?) \}$", head, flags=re.M | re.S):
                text = re.sub(r"\.(?:now|old)\b", "", " ".join(c.group(1).split()))
                facts[text].add(where)
            params = re.search(r"(?:<[^>]*>)?\((.*?)\)\s*(?:->|$|requires|ensures|\{|\n)", head, flags=re.S)
            if params:
                ps = [re.sub(r"mut (\w+):", r"\1:", p.strip()) for p in params.group(1).split(",") if ":" in p]
                ps = [re.sub(r"&mut ", "&", p) for p in ps]
                for k in range(3, 6):
                    for i in range(len(ps) - k + 1):
                        groups[tuple(ps[i:i + k])].add(where)
                arrays = [re.search(r"; (\d+)\]", p).group(1) for p in ps if re.search(r"\[\w+; \d+\]", p)]
                if len(arrays) > len(set(arrays)) or any(p.startswith("heads:") for p in ps):
                    place("6b arrays of one index beside one another", where)
                if re.search(r"\w+: &mut \[\w+\],\s*at: usize", head):
                    place("6a a room with a position beside it", where)
    for s, names in shapes.items():
        if len(names) > 1:
            for n in names:
                place("2a bodies alike but for types, sizes, constants and calls", n)
    for text, names in facts.items():
        if len(names) > 2:
            place("5a facts in three or more contracts", f"{text}  [{len(names)}]")
    kept = []
    for ps, names in sorted(groups.items(), key=lambda kv: (-len(kv[0]), kv[0])):
        if len(names) > 2 and not any(set(ps) <= set(q) and names <= n for q, n in kept):
            kept.append((ps, names))
    for ps, names in kept:
        place("5b parameters that travel together in three or more functions", f"{', '.join(ps)}  [{len(names)}]")
    for path in sorted(glob.glob(os.path.join(root, "crates/*/proofs/**/*.antt"), recursive=True)):
        text = open(path).read()
        n = len(re.findall(r"\blet it\b", text))
        if n:
            place("8 lemmas written out in answers (let it)", f"{os.path.relpath(path, root)} [{n}]")
    for point, what in sorted(found.items()):
        n = sum(int(re.search(r"\[(\d+)\]$", w).group(1)) for w in what) if point.startswith("8") else len(what)
        print(f"{n:5}  {point}")
        if loud:
            for w in what:
                print(f"         {w}")


main()
