#!/usr/bin/env python3
"""Spells the definitions and lemmas of the crates as the library spells its own: words in snake case.

usage: tools/respell.py [TOP]

Run once at the top of the repository, after port.py. A name that a file of specs/ or proofs/ declares, with a lower-case letter at its head, gets underscores for
its dashes and inner capitals, in every .antt and .rt file. Names of types and modules stay, and so does a name in a file that imports it from a library, and the
name of a goal that Rattle makes. A lemma that would have its definition's name ends in _lem, and a line 'meets:' says so. respelled.tsv has each name, old and new.
"""
import os
import re
import sys

NAME = r'[^\s(){}.;,@"«»\[\]]+'
DECLARED = re.compile(rf"(?m)^ *(?:(?:unfoldable|abbrev|pub|axiom|pattern) +)*({NAME})(?: +\{{[^{{}}\n]*\}})? :(?: |$)(.*)$")
TOKEN = re.compile(NAME)
USE = re.compile(r"^(?:ghost )?use ([^\s;{]+?)(?:\.\{([^}]*)\})?(?: as (\S+?))?;?$", re.M)
CAMEL = re.compile(r"(?<![\w.:-])[a-z][a-z0-9]*(?:[A-Z][a-z0-9]*)+[\w₀']*(?![\w-])")


def files(top):
    for folder, dirs, names in os.walk(os.path.join(top, "crates")):
        dirs[:] = sorted(d for d in dirs if d not in ("out", "must-fail"))
        for name in sorted(names):
            if name.endswith((".antt", ".rt")):
                yield os.path.join(folder, name)


def snake(name):
    return re.sub(r"(?<=[a-z0-9])[A-Z]", lambda m: "_" + m[0].lower(), name).replace("-", "_")


def own(path):
    return path.startswith("Rattle.") and not re.match(r"Rattle\.(std|core|std_\w+|io|libc|os|bytes)\.", path)


def from_library(text):
    found = set()
    for path, items, _ in USE.findall(text):
        if not own(path):
            found |= {it.split(" as ")[0].strip() for it in items.split(",")}
    return found


def main(top):
    texts = {}
    for path in files(top):
        with open(path, encoding="utf-8") as f:
            texts[path] = f.read()
    declared, stay = {}, set()
    for path, text in texts.items():
        if path.endswith(".antt"):
            for name, kind in DECLARED.findall(text):
                if re.match(r"(\(c : )?tie\.(Need|invariant|decreases|InvT|MeasureT)", kind):
                    continue
                if name[0].islower() and snake(name) != name and name not in ("◌",):
                    declared.setdefault(snake(name), set()).add(name)
    taken = set()
    for path, text in texts.items():
        if path.endswith(".antt"):
            taken |= {name for name, kind in DECLARED.findall(text)}
    rename = {}
    for new, olds in sorted(declared.items()):
        capitals = [it for it in olds if re.search(r"[A-Z]", it)]
        for old in olds:
            is_lemma = old not in capitals and (capitals or new in taken)
            rename[old] = new + "_lem" if is_lemma else new
        if capitals and new in taken:
            rename[new] = new + "_lem"
        if len(olds) > 1 or new in taken:
            print("meets:", ", ".join(f"{it} is {rename[it]}" for it in sorted({*olds, *([new] if new in rename else [])})))
    falls = set(rename.values()) & taken - set(rename)
    if len(set(rename.values())) < len(rename):
        print("two names are one")
    print("new names that stood already:", sorted(falls))
    for path, text in texts.items():
        library = from_library(text)
        if path.endswith(".antt"):
            goals = {n for n, kind in DECLARED.findall(text) if re.match(r"tie\.(Need|invariant|decreases|InvT|MeasureT)", kind)}
            out = []
            for line in text.split("\n"):
                code, dash, comment = line, "", ""
                at = line.find("-- ")
                if line.startswith("--"):
                    code, comment = "", line
                elif at >= 0 and line[:at].strip() == "":
                    code, comment = "", line
                elif " -- " in line:
                    code, comment = line[: line.index(" -- ")], line[line.index(" -- "):]

                def turn(m):
                    word = m[0]
                    behind = code[m.start() - 1: m.start()] == "."
                    if behind and rename.get(word) == word + "_lem":
                        return word
                    if word in rename and (behind or word not in library) and (behind or word not in goals):
                        return rename[word]
                    return word
                code = TOKEN.sub(turn, code)
                comment = CAMEL.sub(lambda m: rename.get(m[0], m[0]), comment)
                out.append(code + comment)
            new = "\n".join(out)
        else:
            new = CAMEL.sub(lambda m: rename.get(m[0], m[0]) if m[0] not in library else m[0], text)
        if new != text:
            with open(path, "w", encoding="utf-8") as f:
                f.write(new)
    with open(os.path.join(top, "tools", "respelled.tsv"), "w", encoding="utf-8") as f:
        for old, new in sorted(rename.items()):
            f.write(f"{old}\t{new}\n")
    print(len(rename), "names")


main(sys.argv[1] if len(sys.argv) > 1 else ".")
