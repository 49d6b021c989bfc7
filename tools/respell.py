#!/usr/bin/env python3
"""Brings the repository's own names in clauses, specs/ and proofs/ to snake case, as the names of the library are.

Run once at the top of the repository, after port.py. Declared names of the shape `isValueDue` and `same-eq` become
`is_value_due` and `same_eq`; types, modules, functions of src/, strings and generated names keep theirs.
"""
import collections
import os
import re
import sys

ROOT = os.path.dirname(os.path.dirname(os.path.abspath(__file__)))
IDENT = r"[A-Za-z_][A-Za-z0-9_'₀-₉]*(?:-[A-Za-z0-9_'₀-₉≢≡≤<]+)*"
DECLARED = re.compile(r"^\s*(?:(?:pub|abbrev|unfoldable)\s+)*(" + IDENT + r")(?:\s+" + IDENT + r")*\s*:(?:\s|$)")
LIBRARY = re.compile(r"^use\s+(?!Rattle\.(?:%s)\.)[^{]*\{([^}]*)\}")


def snake(name):
    name = name.replace("-", "_")
    name = re.sub(r"(?<=[a-z0-9₀-₉])([A-Z])", lambda m: "_" + m.group(1).lower(), name)
    return re.sub(r"_([A-Z])", lambda m: "_" + m.group(1).lower(), name)


def own_files(ending):
    for folder, folders, names in os.walk(os.path.join(ROOT, "crates")):
        folders[:] = [f for f in folders if f != "out"]
        for name in names:
            if name.endswith(ending):
                yield os.path.join(folder, name)


def of_function(path):
    parts = os.path.relpath(path, ROOT).split(os.sep)
    return parts[2] == "proofs" and len(parts) > 4


def main():
    check = "--check" in sys.argv
    crates = os.listdir(os.path.join(ROOT, "crates"))
    library = re.compile(LIBRARY.pattern % "|".join(crates))
    declared = set()
    for path in own_files(".antt"):
        if of_function(path):
            continue
        for line in open(path, encoding="utf-8"):
            m = DECLARED.match(line)
            if m:
                for name in re.findall(IDENT, line[: line.index(":")]):
                    if name not in ("pub", "abbrev", "unfoldable"):
                        declared.add(name)
    turned = {n: snake(n) for n in declared if re.match(r"[a-z]", n) and snake(n) != n}
    token = re.compile(r"(?<![A-Za-z0-9_'₀-₉\-])" + IDENT)
    # a lemma whose plain spelling is another name's is that name's law
    taken = {turned[n] for n in turned if "-" not in n}
    for path in own_files(".antt"):
        if not of_function(path):
            taken.update(token.findall(open(path, encoding="utf-8").read()))
    for name in turned:
        if "-" in name and turned[name] in taken:
            turned[name] += "_law"
    # and a lemma that has that spelling already, beside the other in one file
    plain = {turned[n] for n in turned if "-" not in n}
    files_own = {}
    for path in own_files(".antt"):
        text = open(path, encoding="utf-8").read()
        words = set(token.findall(text))
        both = {w for w in words & plain if any(turned[n] == w for n in turned if n in words)}
        mine = {w for w in both if re.search(r"(?m)^\s*(?:pub )?%s :" % w, text)}
        if mine and not of_function(path):
            files_own[path] = mine
    clashes = collections.defaultdict(list)
    for ending in (".antt", ".rt", ".edit"):
        for path in own_files(ending):
            text = open(path, encoding="utf-8").read()
            foreign = set()
            for line in text.split("\n"):
                m = library.match(line)
                if m:
                    for part in m.group(1).split(","):
                        foreign.update(part.split(" as ")[-1:] and [part.split(" as ")[-1].strip()])
                        foreign.add(part.split(" as ")[0].strip())
            seen = {}
            generated = of_function(path)

            def turn(m):
                name = m.group(0)
                if name in declared and name in turned.values() and name in files_own.get(path, ()):
                    seen.setdefault(name + "_law", set()).add(name)
                    return name + "_law"
                if name in foreign or name not in turned:
                    seen.setdefault(name, set()).add(name)
                    return name
                if generated and m.start() > 0 and text[m.start() - 1] == "." and "-" in name:
                    return name
                seen.setdefault(turned[name], set()).add(name)
                return turned[name]

            # a string of a program is no name
            parts = re.split(r'("(?:[^"\\\n]|\\.)*")', text) if ending == ".rt" else [text]
            new = "".join(p if p.startswith('"') and ending == ".rt" else token.sub(turn, p) for p in parts)
            for to, olds in seen.items():
                if len(olds) > 1:
                    clashes[to, tuple(sorted(olds))].append(os.path.relpath(path, ROOT))
            if not check and new != text:
                open(path, "w", encoding="utf-8").write(new)
    for (to, olds), where in sorted(clashes.items()):
        print("falls together:", to, olds, *where[:4])
    print(len(turned), "names")


main()
