#!/usr/bin/env python3
"""Spells the repository's own definitions and lemmas as today's Rattle does: words in snake case, facts in camel case.

usage: respell.py [--try] [TOP]     TOP is the top of the repository (default: here); --try writes nothing

It goes over crates/*/specs, crates/*/proofs, the contracts in crates/*/src, the edits in crates/*/must-fail, and names in backquotes in
README.md, docs/ and the other pages. Run once, right after port.py. What it leaves alone: functions, fields and constants of src/, names of
libraries, names that Rattle makes (goals and steps, which a check names), exported names, strings, inputs and outputs.
A name that would meet another one in some file where both stand is listed, and has its own spelling in OWN below.
"""

import collections
import os
import re
import sys

NAME = r'[^\s(){}.;,@"«»\[\]`]+'
DECLARED = re.compile(r'(?m)^( *)((?:pub |unfoldable |abbrev |record |data |infix[lr]? \d+ )*)(' + NAME + r')((?: \([^\n]*?\)| \{[^\n]*?\})*) :(?: (.*))?$')
ALSO = re.compile(r"(?m)^ *(?:pub )?(" + NAME + r"(?: " + NAME + r")+) : ")
GOAL = re.compile(r"^(?:\{.*?\} → )?(?:tie|goal)\.")
USE = re.compile(r"(?ms)^(?:ghost )?use ([^\s{};]+?)(?:\.\{([^}]*)\})?(?: as (\S+?))?;?$")
ANSWERS = re.compile(r"/proofs/(?:.*/)?(?:Proof|Answers|Invariants)\.antt$")
WORD = re.compile(NAME)

# Names whose new spelling would meet another name, and facts that were spelled as words.
OWN = {
    "byHyper": "hyper_depth",
    "byCover": "cover_depth",
    "ofField": "read_of_field",
    # a lemma that would have its function's name
    **{n: n.replace("-", "_") + "_lem" for n in "at-most helper-size helpers-bytes is-nought is-unknown label-at lists-of next-size noted-of part-of plain-of push-back push-forward row-covers rows-bytes takes-more until-row words-for".split()},
}
# In some files alone, and only where the name stands behind no dot: the file's ending, and old to new.
HERE_ALONE = [
    ("/marked/specs/Took.antt", {"within": "Within", "either": "Either"}),
    ("/marked/proofs/Marked.antt", {"within": "Within", "either": "Either"}),
    ("/marked/proofs/Taking.antt", {"within": "Within", "either": "Either"}),
    ("/marked/proofs/take_both/Proof.antt", {"within": "Within"}),
    ("/marked/src/lib.rt", {"within": "Within", "either": "Either"}),
    ("/machine/proofs/Good.antt", {"none": "NoEdge", "only": "OnlyEdge", "caught": "Caught"}),
    ("/machine/proofs/Steps.antt", {"none": "NoEdge", "only": "OnlyEdge", "caught": "Caught", "is_one": "was_one"}),
    ("/machine/proofs/Reached.antt", {"none": "NoEdge"}),
    ("/machine/proofs/Answers.antt", {"none": "NoEdge"}),
    ("/machine/proofs/Cases.antt", {"is_one": "is_one_lem"}),
    ("/walks/proofs/pass_ones/Proof.antt", {"is_one": "is_one_lem"}),
    ("/model/proofs/Ordered.antt", {"to-at": "to_here"}),
    ("/ranks/proofs/Filling.antt", {"rank-at": "rank_here"}),
    ("/graph/proofs/Names.antt", {"node_at": "node_here"}),
    ("/build/proofs/Covers.antt", {"row_at": "row_from"}),
]


def spelled(name):
    """Words in snake case. A dash stays beside a sign, and behind a fact or an operator that keeps its capital."""
    if name in OWN:
        return OWN[name]
    if not re.search(r"[a-z0-9][A-Z]|-", name) or re.search(r"[◌]", name):
        return name
    parts = name.split("-")
    out = parts[0] if parts[0][:1].isupper() else re.sub(r"(?<=[a-z0-9])([A-Z])", lambda m: "_" + m[1].lower(), parts[0])
    for before, part in zip(parts, parts[1:]):
        word = part if part[:1].isupper() else re.sub(r"(?<=[a-z0-9])([A-Z])", lambda m: "_" + m[1].lower(), part)
        plain = re.fullmatch(r"\w[\w']*", part) and re.search(r"[\w']$", before) and before and not before[:1].isupper() and not part[:1].isupper()
        out += ("_" if plain else "-") + word
    return out


def texts(top, *endings):
    for folder, dirs, files in os.walk(os.path.join(top, "crates")):
        dirs[:] = sorted(d for d in dirs if d != "out")
        for f in sorted(files):
            if f.endswith(endings):
                path = os.path.join(folder, f)
                with open(path, encoding="utf-8") as it:
                    yield path, it.read()


def is_own(path, crates):
    steps = path.split(".")
    return steps[0] == "Rattle" and len(steps) > 1 and steps[1] in crates and "declared" not in steps


def main(argv):
    dry = "--try" in argv
    argv = [a for a in argv if a != "--try"]
    top = argv[0] if argv else "."
    crates = set(os.listdir(os.path.join(top, "crates")))
    sources = dict(texts(top, ".rt", ".antt", ".edit"))
    own, goals = collections.defaultdict(set), collections.defaultdict(set)
    for path, text in sources.items():
        if not path.endswith(".antt"):
            continue
        for m in DECLARED.finditer(text):
            if ANSWERS.search(path) and (GOAL.match(m[5] or "") or m[3].startswith(("invariant-", "decreases-"))):
                goals[path].add(m[3])
            else:
                own[m[3]].add(path)
        for m in ALSO.finditer(text):
            for name in m[1].split():
                if name not in ("pub", "unfoldable", "abbrev", "record", "data"):
                    own[name].add(path)
    changed = {n: spelled(n) for n in own if spelled(n) != n}
    met, written = [], 0
    for path, text in sorted(sources.items()):
        foreign = set()
        for m in USE.finditer(text):
            if not is_own(m[1], crates):
                foreign.update(w.strip() for w in (m[2] or "").split(","))
        here = {}
        for ending, names in HERE_ALONE:
            if path.endswith(ending):
                text = alone(text, names, path)
        words = set(WORD.findall(text))
        for old in words & set(changed):
            if old in foreign or old in goals[path]:
                continue
            here[old] = new = changed[old]
            if new in words:
                met.append((new, old, path))
        for new in set(here.values()):
            both = [o for o in here if here[o] == new]
            if len(both) > 1:
                met.append((new, " ".join(sorted(both)), path))
        turned = turn(text, here, path)
        if turned != sources[path]:
            written += 1
            if not dry:
                with open(path, "w", encoding="utf-8") as it:
                    it.write(turned)
    pages = 0
    for folder, dirs, files in os.walk(top):
        dirs[:] = sorted(d for d in dirs if d not in (".git", "out", "target", "crates"))
        for f in sorted(files):
            if not f.endswith(".md"):
                continue
            path = os.path.join(folder, f)
            with open(path, encoding="utf-8") as it:
                text = it.read()
            turned = re.sub(r"`[^`\n]+`", lambda m: WORD.sub(lambda w: changed.get(w[0], w[0]), m[0]), text)
            if turned != text:
                pages += 1
                if not dry:
                    with open(path, "w", encoding="utf-8") as it:
                        it.write(turned)
    print(f"respell: {len(changed)} names, {written} files of crates/, {pages} pages")
    for new, old, path in sorted(set(met)):
        print(f"meets: {new} <- {old}: {os.path.relpath(path, top)}")
    return 0


def turn(text, here, path):
    """The text with the names of here respelled; in a comment only names that prose can't hold, as they have a capital inside."""
    def word(m):
        return here.get(m[0], m[0])

    def prose(m):
        return here.get(m[0], m[0]) if re.search(r"[a-z0-9][A-Z]", m[0]) else m[0]

    mark = "--" if path.endswith(".antt") else "//"
    lines = []
    for line in text.split("\n"):
        at = comment_at(line, mark)
        code, note = line[:at], line[at:]
        # what stands behind `tie.` and `goal.` is Rattle's
        code = re.sub(r"(?<![\w'])(?:tie|goal)\." + NAME + r"|" + NAME, lambda m: m[0] if m[0].startswith(("tie.", "goal.")) else word(m), code)
        lines.append(code + re.sub(NAME, prose, note))
    return "\n".join(lines)


def alone(text, names, path):
    mark = "--" if path.endswith(".antt") else "//"
    one = re.compile(r"(?<![^\s(){}, ;\[])(" + "|".join(map(re.escape, sorted(names))) + r")(?![^\s(){}., ;\]])")
    lines = []
    for line in text.split("\n"):
        at = comment_at(line, mark)
        lines.append(one.sub(lambda m: names[m[1]], line[:at]) + line[at:])
    return "\n".join(lines)


def comment_at(line, mark):
    m = re.search(r"(?:(?<=\s)|^)" + re.escape(mark) + r"(?=\s|$)", line)
    return m.start() if m else len(line)


if __name__ == "__main__":
    raise SystemExit(main(sys.argv[1:]))
