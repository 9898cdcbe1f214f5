#!/usr/bin/env python3
"""Spells the repository's own definitions and lemmas as today's Rattle does: words in snake case, types and modules in camel case.

usage: python3 tools/respell.py [--list]      at the top of a repository, once, right after the kit's port/port.py

port.py spells anew the names of Rattle and of its libraries, and those of ours that it takes for one of them. This does the rest: a name that
specs/ or proofs/ declare, as `stepOf` or `step-of`, becomes `step_of` where it stands as a whole word, in .antt, .rt and .edit files, and where a
comment names it. A name that a file imports from a library stays in that file. What Rattle makes (goals, steps, `f-spec`) is no name of ours and
stays. --list writes nothing, and prints each name beside its new one, and those that would fall together.
"""

import collections
import os
import re
import sys

WORD = re.compile(r"[A-Za-z][A-Za-z0-9_'\u2032\u2080-\u2089-]*(?<!-)")
TOKEN = re.compile(r"[^\s(){}.;,\"@`\[\]/:\u00b7\u00ab\u00bb]+")
DECLARED = re.compile(r"^(?:(?:abbrev|unfoldable|pub|data|record|ruleset)\s+)*([^\s:(){}]+)\s*(?=[:({])")
INNER = re.compile(r"^\s+((?:(?:abbrev|unfoldable|pub)\s+)*)([^\s:(){}]+)\s*:(?=\s|$)")
IMPORT = re.compile(r"^(?:ghost\s+)?use\s+([^\s{]+?)\.?\{([^}]*)\}", re.M)
MADE = re.compile(r"-spec$|^(invariant|decreases)-|^tie$")
# A lemma that would have the name of the definition it speaks of ends so, as Rattle's pages say.
LEMMA = "_lem"
# A variable that would have the name of a definition that the same file cites.
VARIABLES = {
    "crates/demands/proofs/Numbers.antt": {"no_part": "absent"},
    "crates/sheet_texts/proofs/OnlyRules.antt": {"good_more": "good_more_lem"},
}
# A field and a constructor that would hide the definition of that name.
FIELDS = {"is-day": "is_a_day", "rule-text": "rule_text_end"}


def files(root, endings):
    for folder, dirs, names in os.walk(os.path.join(root, "crates")):
        dirs[:] = sorted(d for d in dirs if d != "out")
        for name in sorted(names):
            if name.endswith(endings):
                yield os.path.join(folder, name)


def read(path):
    with open(path, encoding="utf-8", newline="") as it:
        return it.read()


def spelled(name):
    """The name in snake case; a capital at its head is a type's and stays."""
    parts = re.sub(r"(?<=[a-z0-9])([A-Z])", lambda m: "_" + m.group(1).lower(), name)
    return parts.replace("-", "_")


def is_ours(name):
    return WORD.fullmatch(name) and not MADE.search(name) and ("-" in name or (name[0].islower() and re.search(r"[a-z0-9][A-Z]", name)))


def declared(root):
    """The names that specs/ and proofs/ declare at the margin and below it (fields, constructors, what a module declares), each with the files that declare it."""
    found = collections.defaultdict(set)
    fields = collections.defaultdict(set)
    for path in files(root, (".antt",)):
        proof_of_function = "/proofs/" in path and path.split("/proofs/")[1].count("/") > 0
        for line in read(path).split("\n"):
            if line.startswith(("--", "use", "infix", "mod", "pub mod")):
                continue
            if line and not line[0].isspace():
                m = DECLARED.match(line)
                if m and WORD.fullmatch(m.group(1)) and not MADE.search(m.group(1)) and not (proof_of_function and re.search(r":\s*tie\.", line)):
                    found[m.group(1)].add(path)
            else:
                m = INNER.match(line)
                if m and WORD.fullmatch(m.group(2)):
                    (found if "abbrev" in m.group(1) or "unfoldable" in m.group(1) else fields)[m.group(2)].add(path)
    return found, fields


def imported(text):
    """The names that a file takes from a library."""
    names = set()
    for m in IMPORT.finditer(text):
        if not re.match(r"Rattle\.(?!std\b|core\b)", m.group(1)):
            names |= {it.split(" as ")[0].strip() for it in m.group(2).split(",")}
    return names


def table(found, fields):
    """Each name that is spelled anew, with its new spelling."""
    definitions = {spelled(it) for it in [*fields, *found] if is_ours(it) and "-" not in it}
    into = {it: FIELDS.get(it) or spelled(it) for it in {*found, *fields} if is_ours(it)}
    for name, paths in [*fields.items(), *found.items()]:
        if name in FIELDS:
            continue
        if "-" in name and is_ours(name) and (spelled(name) in definitions or spelled(name) in found):
            into[name] = spelled(name) + LEMMA
        # port.py took the dash of this lemma already
        elif "_" in name and name in definitions and any("/proofs/" in it for it in paths):
            into[name] = name + LEMMA
    return into


def turned(path, text, into):
    kept = imported(text)
    of_a_function = re.search(r"/proofs/\S+/(Proof|Answers|Invariants)\.antt$", path)
    comments = [m.span() for m in re.finditer(r"(?m)(?<!\S)(?:--|//)[^\n]*", text)]

    def is_prose(at):
        return any(a <= at < b for a, b in comments) and not (at and text[at - 1] in "`.")

    def new(m):
        name = m.group()
        if name not in into or name in kept:
            return name
        # a function of src/ keeps its name, and so does a word of a comment
        if not path.endswith(".antt") and name == name.lower() and "-" not in name or "-" in name and is_prose(m.start()):
            return name
        # in a proof that walks the code, what follows a dot is a step of the code
        if of_a_function and m.start() and text[m.start() - 1] == "." and name not in FIELDS:
            return spelled(name)
        return into[name]

    return TOKEN.sub(new, text)


def main():
    root = os.getcwd()
    found, fields = declared(root)
    into = table(found, fields)
    whole = {path: read(path) for path in files(root, (".antt", ".rt", ".edit"))}
    if "--list" in sys.argv[1:]:
        for name, new in sorted(into.items()):
            print(name, new)
        old_of = collections.defaultdict(set)
        for name, new in into.items():
            old_of[new].add(name)
        words = {path: set(TOKEN.findall(text)) for path, text in whole.items()}
        for new, olds in sorted(old_of.items()):
            for path, has in words.items():
                here = [it for it in [*sorted(olds), new] if it in has]
                if len(here) > 1:
                    print("together:", new, here, os.path.relpath(path, root))
        return
    for path, text in whole.items():
        for name, new in VARIABLES.get(os.path.relpath(path, root), {}).items():
            text = re.sub(rf"(?<![\w-]){name}(?![\w-])", new, text)
        text = turned(path, text, into)
        if text != whole[path]:
            with open(path, "w", encoding="utf-8", newline="") as it:
                it.write(text)


main()
