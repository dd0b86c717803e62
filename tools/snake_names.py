#!/usr/bin/env python3
"""Brings the names of this repository's definitions and lemmas to snake case, below crates/ (run once, at the top, after port.py).

usage: tools/snake_names.py [--check] [OLD=NEW..]

A name that specs/ or proofs/ declare (a definition, a lemma, a field, a local) loses its dashes and its humps: lookupOf and lookup-of become
lookup_of. Names of the library, names of src/ and names that Rattle makes for a function's proof (behind `tie.`, or a step of one) stay.
OLD=NEW gives a name that this list of exceptions does not have. --check writes nothing. Names that would fall together in one file are printed, and nothing is written then.
"""

import collections
import glob
import os
import re
import sys

WORD = re.compile(r"--[^\n]*|\"(?:[^\"\\]|\\.)*\"|«[^»]*»|[^\s(){}.;,@\"«»\[\]\\]+|\.|[(){};,@\[\]\\]")
DECLARED = re.compile(r"(?m)^ *(?:(?:pub|abbrev|unfoldable|opaque) +)*([^\s:(){}]+) +:(?: |$)")
USE = re.compile(r"(?m)^(?:ghost )?use ([^\s{;]+?)(?:\.\{([^}]*)\})?(?: as ([^\s;]+))?;?$")
FIELD = re.compile(r"^ +(?:(?:pub|abbrev|unfoldable) )*([^\s:(){}|]+) : ")
# Names that would fall together with another name in scope, or say something else.
SPECIAL = {
    "inBounds": "is_in_bounds",
    "hasRoom": "has_room_for",
    **{
        it: it.replace("-", "_") + "_lem"
        for it in "in-row all-given row-of kinds-in open-weight filed-by most-tries well-formed accepted-outcome chosen-list given-list value-at column-at turned-in tables-in"
        " is-file variable-bytes variables-bytes mark-of unit-seen good-text payload-at kinds-said column-of image-masks key-bytes right-inputs single-fit weight-in bit-or free-from"
        " spread-in place-row placed-within bit-and bit-xor".split()
    },
}
# Names that a definition takes now: what had them before, by file ("" is every file).
LOCAL = {
    "": {"cell_in": "cell_below"},
    "crates/load/proofs/tables/fill/Proof.antt": {"rows_in": "rows_fit"},
    "crates/recover/proofs/Exact.antt": {"first_cell": "first_cell_is"},
    "crates/unit/proofs/Demand1/Calls.antt": {"first_cell": "first_cell_as"},
    "crates/choice/proofs/Choice/Loops.antt": {"best_of": "best_of_lem"},
}
MADE = {"Goals", "Tie", "Lts", "Statement", "Kinds", "Reads", "Code", "Met"}


def humped(name):
    return bool(re.match(r"[a-z+]", name) and (re.search(r"[a-z0-9₀-₉][A-Z]", name) or "-" in name[1:-1])) or bool(re.match(r"[A-Z]\w*-", name))


def snake(name):
    if name in SPECIAL:
        return SPECIAL[name]
    plain = name.replace("-", "_")
    if plain[0].isupper():
        return plain
    return re.sub(r"(?<=[a-z0-9₀-₉])([A-Z])", lambda it: "_" + it.group(1).lower(), plain)


def read(path):
    with open(path, encoding="utf-8") as it:
        return it.read()


class Tree:
    def __init__(self):
        self.own = {it for it in os.listdir("crates") if os.path.isdir(f"crates/{it}")}
        self.antt = sorted(it for part in ("specs", "proofs") for it in glob.glob(f"crates/*/{part}/**/*.antt", recursive=True))
        self.rt = sorted(glob.glob("crates/*/src/**/*.rt", recursive=True))
        self.declared, self.fields = set(), set()
        for path in self.antt:
            self.look(path, read(path))

    def look(self, path, text):
        self.declared |= {it.group(1) for it in DECLARED.finditer(text)}
        # In the proof of a function a field may be a step's: there only the fields of records count.
        inside = not text.count(".Tie")
        for line in text.split("\n"):
            if re.match(r" *(?:pub )?record ", line):
                inside = True
            elif line and not line.startswith(" "):
                inside = not text.count(".Tie")
            found = FIELD.match(line)
            if inside and found:
                self.fields.add(found.group(1))

    def is_own(self, module):
        parts = module.split(".")
        return parts[0] == "Rattle" and len(parts) > 1 and parts[1] in self.own and not (set(parts) & MADE)


def scope(tree, text):
    """The names that a file takes from outside this repository's own modules, and its short names for own modules."""
    kept, short = set(), set()
    for it in USE.finditer(text):
        module, names, alias = it.groups()
        if names is not None and not tree.is_own(module):
            kept |= {one.strip().split(" as ")[-1] for one in names.split(",")}
            kept |= {one.strip().split(" as ")[0] for one in names.split(",")}
        if names is None and tree.is_own(module):
            short.add(alias or module.split(".")[-1])
    return kept, short


def turned(tree, text, in_source, local):
    kept, short = scope(tree, text)
    out, at, last, clash = [], 0, ["", ""], collections.defaultdict(set)
    for it in WORD.finditer(text):
        word = it.group(0)
        out.append(text[at : it.start()])
        at = it.end()
        new = word
        if word.startswith("--"):
            new = re.sub(r"[a-z]\w*[A-Z]\w*", lambda one: snake(one.group(0)) if one.group(0) in tree.declared else one.group(0), word)
        if not word.startswith(("--", '"', "«")):
            behind = last[1] == "." and text[it.start() - 1] == "."
            if humped(word):
                if behind:
                    if (last[0] in short and word in tree.declared) or (word in tree.fields and word not in kept):
                        new = snake(word)
                elif in_source:
                    if word in tree.declared and word not in kept:
                        new = snake(word)
                elif word not in kept:
                    new = snake(word)
            elif not in_source and (not behind or word in LOCAL[""]):
                new = local.get(word, word)
            if not behind:
                clash[new].add(word)
            last = [last[1], word]
        out.append(new)
    out.append(text[at:])
    return "".join(out), {new: old for new, old in clash.items() if len(old) > 1}


def main(words):
    SPECIAL.update(it.split("=") for it in words if "=" in it)
    tree = Tree()
    results, bad = {}, False
    for path in tree.antt + tree.rt:
        text = read(path)
        new, clash = turned(tree, text, path.endswith(".rt"), LOCAL[""] | LOCAL.get(path, {}))
        for name, old in sorted(clash.items()) if path.endswith(".antt") else []:
            print(f"{path}: {' and '.join(sorted(old))} would be {name}")
            bad = True
        if new != text:
            results[path] = new
    print(f"{len(results)} files")
    if bad or "--check" in words:
        return 1 if bad else 0
    for path, new in results.items():
        with open(path, "w", encoding="utf-8") as it:
            it.write(new)
    return 0


if __name__ == "__main__":
    raise SystemExit(main(sys.argv[1:]))
