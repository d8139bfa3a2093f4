#!/usr/bin/env python3
"""Brings the repository's own definitions, fields and lemmas to snake case.

usage: python3 tools/respell.py    at the top of the repository, once, after port.py

Own names are those that a file of specs/ or proofs/ declares (Proof.antt aside). Functions and types of src/, modules and what the kit
declares keep their names. Where a definition and a lemma fall together, the lemma gets `_law` after its name. It writes, for each name, its old
and its new form into respelled.tsv beside this script, and names each file in which a new name stood already.
"""
import collections
import os
import re

HERE = os.path.dirname(os.path.abspath(__file__))
WORDS = r"(?:pub |abbrev |unfoldable |data |record )*"
NAME = r"[^\s:(){}\[\],;.]+"
PLAIN = re.compile(r"\s*" + WORDS + "(" + NAME + r") :(?: |$)")
ALONE = re.compile(r"\s*" + WORDS + "(" + NAME + r")\s*$")
TYPED = re.compile(r"\s*(?:pub )?(?:data|record) (?:pub )?(" + NAME + ") ")
# names whose snake case a file of the kit has
OTHERS = {"is-nan": "is_a_nan", "nan-bits": "bits_of_nan"}


def files():
    for top, folders, names in os.walk("crates"):
        folders[:] = sorted(f for f in folders if f not in ("out", "must-fail"))
        for name in sorted(names):
            if name.endswith((".antt", ".rt")):
                yield os.path.join(top, name)


def read(path):
    with open(path, encoding="utf-8") as f:
        return f.read()


def snake(name):
    name = name.replace("-", "_")
    return name if name[0].isupper() else re.sub(r"(?<=[a-z0-9])[A-Z]", lambda m: "_" + m[0].lower(), name)


def own():
    """Each own name, with the files that declare it."""
    found = collections.defaultdict(set)
    for path in files():
        if path.endswith(".antt") and os.path.basename(path) != "Proof.antt":
            lines = read(path).split("\n")
            for line, after in zip(lines, lines[1:] + [""]):
                # a long signature begins on the line below its name
                m = PLAIN.match(line) or TYPED.match(line) or (ALONE.match(line) if after.lstrip().startswith(": ") else None)
                if m:
                    found[m[1]].add(path)
    return found


def renamed(found):
    """The new form of each own name that has one."""
    together = collections.defaultdict(list)
    for name in found:
        together[snake(name)].append(name)
    new = {}
    for to, names in together.items():
        # of names that fall together a definition keeps the plain form, then one in camel case
        names.sort(key=lambda n: (not any("/specs/" in p for p in found[n]), "-" in n, n))
        for i, name in enumerate(names):
            made = OTHERS.get(name, to + "_law" * i)
            if made != name:
                new[name] = made
    return new


def main():
    new = renamed(own())
    camel = re.compile(r"(?<![\w'-])(" + "|".join(sorted(map(re.escape, (n for n in new if "-" not in n)), key=len, reverse=True)) + r")(?![\w'-])")
    any_name = re.compile(r"(?<![\w'-])(" + "|".join(sorted(map(re.escape, new), key=len, reverse=True)) + r")(?![\w'-])")
    for path in files():
        text = read(path)
        if path.endswith(".rt"):
            # strings keep their text; a name with a hyphen stands in comments alone
            lines = []
            for line in text.split("\n"):
                code, mark, comment = line.partition("// ")
                if '"' not in code:
                    code = camel.sub(lambda m: new[m[1]], code)
                lines.append(code + mark + (any_name.sub(lambda m: new[m[1]], comment)))
            turned = "\n".join(lines)
        elif os.path.basename(path) == "Proof.antt":
            # what Rattle generates keeps its names: steps and goals are named after a dot
            turned = re.sub(r"(?<![\w'.-])(" + "|".join(sorted(map(re.escape, new), key=len, reverse=True)) + r")(?![\w'-])", lambda m: new[m[1]], text)
        else:
            turned = any_name.sub(lambda m: new[m[1]], text)
        if turned != text:
            for name in sorted(set(m[1] for m in any_name.finditer(text))):
                if re.search(r"(?<![\w'-])" + re.escape(new[name]) + r"(?![\w'-])", text):
                    print(f"look: {path}: {name} is now {new[name]}, which stood there")
            with open(path, "w", encoding="utf-8") as f:
                f.write(turned)
    with open(os.path.join(HERE, "respelled.tsv"), "w", encoding="utf-8") as f:
        f.writelines(f"{old}\t{to}\n" for old, to in sorted(new.items()))


if __name__ == "__main__":
    main()
