#!/usr/bin/env python3
"""Spells the repository's own definitions and lemmas as the installed Rattle spells names: words in snake case.

usage: tools/respell.py, once, at the top, right after /opt/rattle/port/port.py

A name that specs/ or proofs/ declare (a definition, a lemma, a field, a parameter) loses its dashes and inner capitals.
Types and modules, names that an import brings from a library, and the labels that Rattle makes for a function's goals
stay. Where two names would fall together, or a lemma with a function of src/, TOLD says what the one is called.
"""

import glob
import re

CRATES = "protocol values counting phase_king turpin_coan step_down eig compositions demo".split()

# a name that another one, or a function, would be spelled like
TOLD = {
    "max-stations": "stations_within",
    "max-faulty": "faulty_within",
    "new-point": "new_point_lem",
    "king-said": "king_said_lem",
    "runs-exist": "runs_exist_lem",
    "lowest-admission": "lowest_admission_lem",
    "exact-admission": "exact_admission_lem",
}
# port.py gave a local definition the name of one of another crate
LOCAL = {"crates/turpin_coan/proofs/TurpinCoanLaw.antt": {"word_of": "answer_word"}}

NAME = r"[^\s(){}.;,@\"«»`\[\]|]+"
TOKEN = re.compile(rf"(?<![^\s(){{}}.;,@«»`\[\]|]){NAME}")
DECLARED = re.compile(r"(?m)^ *(?:(?:abbrev|unfoldable|pub) )*([a-z][^\s(){}.;,@]*)(?: \{[^{}\n]*\})* :(?!:)")
BINDER = re.compile(r"[({λ]([a-z][^(){}:.;,]*?) (?=: )")
LABEL = re.compile(r"^(loop|invariant|decreases|returns|then|else|ghosts?)-|-(requires|init|preserved|smaller)$")
USE = re.compile(r"\buse ([\w.+«»-]+)\.\{([^}]*)\}")


def texts(*patterns):
    return sorted(f for c in CRATES for p in patterns for f in glob.glob(f"crates/{c}/{p}", recursive=True))


def snake(name):
    words = re.sub(r"(?<=[a-z0-9])[A-Z]", lambda m: "_" + m[0].lower(), name)
    return words.replace("-", "_").replace("′", "'")


def declared(text):
    names = set(DECLARED.findall(text))
    for group in BINDER.findall(text):
        names |= set(group.split())
    return names


def without_comment(line):
    """The part of an antt line before its comment, and the comment."""
    at = line.find("--")
    return (line, "") if at < 0 else (line[:at], line[at:])


def respelled(text, names):
    return TOKEN.sub(lambda m: names.get(m[0], m[0]), text)


def main():
    antt = texts("specs/**/*.antt", "proofs/**/*.antt")
    rust = texts("src/**/*.rt")
    own, foreign = set(), set()
    for f in antt + rust:
        text = open(f, encoding="utf-8").read()
        for module, items in USE.findall(text):
            if not (module.startswith("Rattle.") and module.split(".")[1] in CRATES):
                foreign |= {i.strip() for i in items.split(",")}
        if f.endswith(".antt"):
            own |= declared(text)
    names = {n: TOLD.get(n, snake(n)) for n in own if n not in foreign and not LABEL.search(n)}
    names = {n: s for n, s in names.items() if n != s}
    taken = {}
    for n in own | set(names):
        taken.setdefault(names.get(n, n), set()).add(n)
    for s, ns in sorted(taken.items()):
        if len(ns) > 1 or (s in foreign and ns & set(names)):
            print(f"falls together: {s}: {' '.join(sorted(ns))}")
    for f in antt + rust:
        text = open(f, encoding="utf-8").read()
        here = {**names, **LOCAL.get(f, {})}
        lines = []
        for line in text.split("\n"):
            if f.endswith(".antt"):
                code, comment = without_comment(line)
                lines.append(respelled(code, here) + comment)
            else:
                lines.append(line if line.lstrip().startswith("//") else respelled(line, here))
        if lines != text.split("\n"):
            open(f, "w", encoding="utf-8").write("\n".join(lines))
    for f in sorted(glob.glob("docs/*.md")) + ["README.md"]:
        text = open(f, encoding="utf-8").read()
        new = re.sub(r"`[^`\n]+`", lambda m: respelled(m[0], names), text)
        if new != text:
            open(f, "w", encoding="utf-8").write(new)
    print(f"{len(names)} names respelled")
    for n, s in sorted(names.items()):
        print(f"  {n} -> {s}")


main()
