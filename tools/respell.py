#!/usr/bin/env python3
"""Spells the repository's own definitions and lemmas in snake case.

usage: python3 tools/respell.py        once, at the top of the repository, right after the toolchain's own script for an older repository

A name that a file of specs/ or proofs/ declares and that begins in lower case gets words joined by underscores, wherever it stands: in specs/, proofs/,
the clauses and comments of src/, and the must-fail edits. Names that would fall together are kept apart: the definition has the plain name, and a lemma
gets `_lem` behind it. Answers of a function's goals keep their names, and so do functions, fields, constants and strings of src/.
"""

import collections
import os
import re

DECLARED = re.compile(r"^(\s*)((?:pub |abbrev |unfoldable |data |record )*)([^\s:(){}λ.,;=]+)((?: \{[^{}\n]*\})*)\s*:(?!=)\s+(\S*)")
NAME = re.compile(r"[^\s(){}.;,@\"«»`]+")
# Of Rust and edits only words in lower camel case are turned: no function, field or local of src/ is spelled so.
CAMEL = re.compile(r"(?<![\w'])[a-z][a-z0-9]*[A-Z][A-Za-z0-9]*(?![\w'])")
STRING = re.compile(r'"(?:[^"\\]|\\.)*"')
# Of two definitions that would fall together the one that gives way.
GIVEN = {"sent-of": "sent_piece_of", "burst-words": "sent_words", "boxOf": "box_at_slot"}


def files(ending):
    for folder, dirs, names in os.walk("crates"):
        # what a check keeps lies in crates/NAME/out, and there is a crate out
        dirs[:] = sorted(d for d in dirs if d != "data" and not (d == "out" and folder.count("/") == 1))
        for name in sorted(names):
            if name.endswith(ending):
                yield os.path.join(folder, name)


def read(path):
    with open(path, encoding="utf-8") as f:
        return f.read()


def write(path, old, new):
    if old != new:
        with open(path, "w", encoding="utf-8") as f:
            f.write(new)


def snake(name):
    name = re.sub(r"getD(?![a-z])", "get_or", name)
    return re.sub(r"(?<=[a-z0-9])[A-Z]", lambda m: "_" + m[0].lower(), name).replace("-", "_")


def declared():
    """Each name that is declared, with whether a definition of specs/ has it."""
    found = collections.defaultdict(bool)
    for path in files(".antt"):
        for line in read(path).split("\n"):
            it = DECLARED.match(line)
            if it and not it[5].startswith(("tie.", "goal.")):
                found[it[3]] |= "/specs/" in path and not it[1]
    return found


def table(found):
    """The names that change, old to new."""
    groups = collections.defaultdict(list)
    for name in found:
        if name not in GIVEN:
            groups[snake(name) if name[:1].islower() else name].append(name)
    new = {}
    for target, names in groups.items():
        # the definition first, then what is spelled so already, then lemmas with fewer dashes
        names.sort(key=lambda it: (not found[it], it != target, it.count("-"), it))
        for i, name in enumerate(names):
            it = target + ["", "_lem", "_lem_2", "_lem_3"][i]
            while i and it in found:
                it += "_2"
            new[name] = it
    return {**{old: it for old, it in new.items() if old != it}, **GIVEN}


USE = re.compile(r"(?m)^ *(?:pub )?(?:ghost )?use ([^\s;{]+)\{([^}]*)\}")


def of_libraries(text, crates):
    """The names that a text imports from elsewhere than the repository's crates."""
    names = set()
    for path, items in USE.findall(text):
        steps = path.strip(".").split(".")
        if steps[0] != "Rattle" or steps[1] not in crates:
            names.update(NAME.findall(items))
    return names


FIELDS = set()


def note_fields():
    """Notes the fields with a dash of the repository's records."""
    for path in files(".antt"):
        inside = False
        for line in read(path).split("\n"):
            if line.strip() and not line[0].isspace():
                inside = re.match(r"(pub |abbrev )*record ", line) is not None
            it = DECLARED.match(line)
            if inside and it and it[1] and "-" in it[3]:
                FIELDS.add(it[3])


def turn_antt(text, new, kept):
    modules = set(re.findall(r"(?m)^use Rattle\.\S+ as (\w+)$", text))

    def one(m):
        name = m[0]
        if name not in new or name in kept:
            return name
        # behind a dot stands a field of a record, a name of a module, or a step that is named after the code
        if "-" in name and m.start() and text[m.start() - 1] == "." and name not in FIELDS:
            module = re.search(r"([^\s(){},;@\"«»]+)\.$", text[: m.start()])
            if not module or module[1] not in modules:
                return name
        return new[name]

    return NAME.sub(one, text)


# What antt reads of a .rt file or of an edit's line: imports and clauses.
CLAUSE = re.compile(r"(?m)^ *(?:pub )?ghost use [^;]*;|\b(?:requires|ensures)\b[^{;\n]*\{[^{}]*(?:\{[^{}]*\}[^{}]*)*\}")


def turn_rust(text, new, kept):
    def outside(part):
        return CAMEL.sub(lambda m: new.get(m[0], m[0]), part)

    text = CLAUSE.sub(lambda m: turn_antt(m[0], new, kept), text)
    out, at = [], 0
    for m in STRING.finditer(text):
        out += [outside(text[at : m.start()]), m[0]]
        at = m.end()
    return "".join(out + [outside(text[at:])])


def main():
    crates = set(os.listdir("crates"))
    new = table(declared())
    note_fields()
    for ending, turn in ((".antt", turn_antt), (".rt", turn_rust), (".edit", turn_rust)):
        for path in files(ending):
            text = read(path)
            kept = of_libraries(text, crates)
            turned = turn(text, new, kept)
            for name in sorted(kept & {new[it] for it in set(NAME.findall(text)) - kept if it in new}):
                print(f"look: {path}: {name} is a library's too")
            write(path, text, turned)
    for old, it in sorted(new.items()):
        print(f"{old} {it}")


if __name__ == "__main__":
    main()
