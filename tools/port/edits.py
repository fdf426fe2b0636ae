#!/usr/bin/env python3
"""Lists the must-fail edits that today's text does not take, and what each edit changes.

usage: edits.py [--all] [TOP]     TOP is the top of the repository (default: here); --all prints the changed lines of those that apply, too

An edit is a file crates/NAME/must-fail/*.edit: a line 'file: PATH', and pairs of lines 'old: TEXT' and 'new: TEXT', where TEXT stands once in that
file, as the pairs above have left it. Other lines are comments, and start with '#'. Exit status 1 where an edit does not apply.
"""

import difflib
import os
import sys


def applied(edit, crate):
    """The files that an edit changes, before and after; or a mistake."""
    was, texts, path, old = {}, {}, None, None
    with open(edit, encoding="utf-8") as it:
        lines = it.read().split("\n")
    for line in lines:
        if line.startswith("file: "):
            path = line[len("file: ") :].strip()
        elif line.startswith("old: "):
            old = line[len("old: ") :]
        elif line.startswith("new:"):
            new = line[len("new:") :]
            new = new[1:] if new.startswith(" ") else new
            if path is None or old is None:
                return was, texts, "'new:' before 'file:' or 'old:'"
            if path not in texts:
                file = os.path.join(crate, path)
                if not os.path.isfile(file):
                    return was, texts, f"there is no {path}"
                with open(file, encoding="utf-8") as it:
                    was[path] = texts[path] = it.read()
            count = texts[path].count(old)
            if count != 1:
                return was, texts, f"{count} times in {path}: {old}"
            texts[path], old = texts[path].replace(old, new), None
        elif line.strip() and not line.startswith("#"):
            return was, texts, f"a line that is not read: {line}"
    if texts == was:
        return was, texts, "it changes nothing"
    return was, texts, None


def main(argv):
    every = "--all" in argv
    argv = [it for it in argv if it != "--all"]
    top = argv[0] if argv else "."
    count, bad = 0, 0
    for crate in sorted(os.listdir(os.path.join(top, "crates"))):
        folder = os.path.join(top, "crates", crate, "must-fail")
        for name in sorted(os.listdir(folder)) if os.path.isdir(folder) else []:
            if not name.endswith(".edit"):
                continue
            count += 1
            was, texts, why = applied(os.path.join(folder, name), os.path.join(top, "crates", crate))
            if why:
                bad += 1
                print(f"{crate}/{name}: {why}")
            elif every:
                for path, text in texts.items():
                    lines = difflib.unified_diff(was[path].splitlines(), text.splitlines(), lineterm="", n=0)
                    print(f"{crate}/{name} {path}", *[it for it in lines if it[:3] not in ("---", "+++") and it[:1] != "@"], sep="\n")
    print(f"{count} edits, {bad} of them don't apply")
    return 1 if bad else 0


if __name__ == "__main__":
    sys.exit(main(sys.argv[1:]))
