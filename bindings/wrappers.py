"""The C functions of the library, for a module in which its exported functions are plain ones.

    wrappers.py main LIB.rt            writes a `main` that calls each `pub extern "C" fn` of the source, so that a program has them all
    wrappers.py module LIB.rt MODULE.ll    writes the module of that program with a C function for each, and without its `main`

C's parameters stand in the order of the source, as in the archive that rt lib makes: a slice is a pointer and a length, another reference a
pointer, a number itself. A call hands them on by place."""

import re
import sys

NUMBERS = {"u8": "i8", "u16": "i16", "u32": "i32", "u64": "i64", "usize": "i64"}
# What a call may hand over for a parameter of the library's own types.
MADE = {"Tally": "Tally { counts: [0; 13], sum: 0, largest: 0 }"}


def parameters(words):
    """The name and the type of each parameter of the source."""
    return [word.split(": ") for word in filter(None, (word.strip() for word in words.split(",")))]


def taken(name, kind):
    """What C's function takes for a parameter."""
    if kind in NUMBERS:
        return [f"{NUMBERS[kind]} %{name}"]
    if re.fullmatch(r"&(mut )?\[\w+\]", kind):
        return [f"ptr %{name}", f"i64 %{name}.length"]
    if kind.startswith("&"):
        return [f"ptr %{name}"]
    sys.exit(f"wrappers.py: no rule for the parameter {name}: {kind}")


def handed(name, kind):
    """Something that a call in the source can hand over: a number 0, an empty slice, a reference to zeros."""
    if kind in NUMBERS:
        return "0"
    found = re.fullmatch(r"(&(?:mut )?)(?:\[\w+\]|\[\w+; (\d+)\]|(\w+))", kind)
    if not found or found[3] and found[3] not in (*NUMBERS, *MADE):
        sys.exit(f"wrappers.py: no rule for the parameter {name}: {kind}")
    return found[1] + (MADE.get(found[3], "0") if found[3] else f"[0; {found[2]}]" if found[2] else "[]")


def exports(source):
    """The exported functions of the source, with their parameters."""
    found = re.findall(r'^pub extern "C" fn (\w+)\((.*?)\) -> u8$', source, re.M | re.S)
    if len(found) != source.count("#[unsafe(no_mangle)]"):
        sys.exit("wrappers.py: an exported function has another form")
    return [(name, parameters(words)) for name, words in found]


def wrapper(name, its, module):
    """The C function of an exported one."""
    found = re.search(rf'^define internal noundef i8 @"export::{name}"\((.*)\)[^()]*\{{$', module, re.M)
    if not found:
        sys.exit(f"wrappers.py: the module has no {name} that gives a byte")
    words = [word for parameter in its for word in taken(*parameter)]
    types = [word.split()[0] for word in words], [word.split()[0] for word in found.group(1).split(", ")]
    if types[0] != types[1]:
        sys.exit(f"wrappers.py: {name} takes {types[1]} in the module")
    call = f'  %result = call i8 @"export::{name}"({", ".join(words)})\n  ret i8 %result\n'
    return f"\ndefine noundef i8 @{name}({', '.join(words)}) {{\n{call}}}\n"


def read(file):
    with open(file, encoding="utf-8") as it:
        return it.read()


def main(what, source, *modules):
    found = exports(read(source))
    if what == "main":
        calls = [f"    let _ = {name}({', '.join(handed(*it) for it in its)});\n" for name, its in found]
        print(f"\nfn main() {{\n{''.join(calls)}}}")
        return
    module = read(*modules)
    print(re.sub(r"^define [^\n]*@main\(.*?^}\n", "", module, flags=re.M | re.S), end="")
    for name, its in found:
        print(wrapper(name, its, module), end="")


if __name__ == "__main__":
    main(*sys.argv[1:])
