#!/usr/bin/env python3
"""Lists the places in src/ that may read like an older language, point by point.

    python3 tools/places.py [COMMIT]       how many lines each search finds, in the work tree or at a commit
    python3 tools/places.py -v [COMMIT]    the lines too

A line that is found is a candidate: which of them are places, and what became of each, docs/DESIGN-PASS.md says.
"""
import re
import subprocess
import sys
from collections import defaultdict

SEARCHES = [
    ("1 enums (of the shape of Option or Result?)", r"^\s*(pub(\(\w+\))? )?enum "),
    ("1 flags", r"\bbool\)|\w+: bool\b"),
    ("1 numbers for kinds, to or from", r"^\s*\d+( \| \d+)* => |=> \d+,$"),
    ("1 words and numbers that may stand for none or for more",
     r"^\s*(\w+ \{.*)?word: u64\b|const (SILENT|MANY_ROUNDS)\b"),
    ("3 loops", r"^\s*(for .* in .*\{|while .*|loop \{)$"),
    ("3 elements by a hand-made index", r"\w\[([a-z_]\w*(\.\w+)?\](?!\))|\()|\[0\.\."),
    ("4 impls of std's traits",
     r"impl.* (PartialEq|Eq|PartialOrd|Ord|Clone|Copy|Hash|Default|From<.*>|TryFrom<.*>|Error|\w*:*Display) for"),
    ("4 conversions, orders and texts as functions",
     r"fn \w+(<.*>)?\(.*\) -> (u8|u64|bool|Switch|&'static str|Result<String, .*>)( \{)?$"),
    ("6 arrays by size", r"\[[^\[\];]+; [^\[\];]+\]"),
    ("6 Vec, String, maps", r"\b(Vec|String|BTreeMap|HashMap)\b"),
    ("7 closures, dyn, function pointers", r"\bdyn\b|\bFn(Mut|Once)?\(|\bfn\(|[(=] ?\|[^|]*\| "),
]


def git(*args):
    return subprocess.run(["git", *args], capture_output=True, text=True, check=True).stdout


def sources(commit):
    if commit is None:
        names = git("ls-files", "-co", "--exclude-standard", "crates").split()
        read = lambda name: open(name, encoding="utf-8").read()
    else:
        names = git("ls-tree", "-r", "--name-only", commit, "crates").split()
        read = lambda name: git("show", f"{commit}:{name}")
    return {name: read(name) for name in sorted(names) if re.fullmatch(r"crates/\w+/src/.*\.rt", name)}


def functions(text):
    """Name, line, parameters and body of each function that has one."""
    for m in re.finditer(r"\bfn (\w+)(<[^(]*>)?\(", text):
        end = matching(text, m.end() - 1, "(", ")")
        opening = re.compile(r"[^{;]*").match(text, clauses_end(text, end)).end()
        if opening >= len(text) or text[opening] == ";":
            continue
        start = opening
        stop = matching(text, start, "{", "}")
        yield m.group(1), text.count("\n", 0, m.start()) + 1, text[m.end():end - 1], text[start:stop]


def clauses_end(text, at):
    while True:
        m = re.compile(r"[^{;]*?\b(ensures|requires)( \w+)? \{").match(text, at)
        if not m:
            return at
        at = matching(text, m.end() - 1, "{", "}")


def matching(text, at, opens, closes):
    depth = 0
    for i in range(at, len(text)):
        depth += (text[i] == opens) - (text[i] == closes)
        if depth == 0:
            return i + 1
    return len(text)


def shape(body):
    """The body with types, numbers and called functions left out: twins have one shape."""
    tokens = re.findall(r"\w+|[^\w\s]", re.sub(r"//.*", "", body))
    for i, t in enumerate(tokens):
        if re.match(r"[A-Z]|\d", t):
            tokens[i] = "T"
        elif re.match(r"[a-z]", t) and i + 1 < len(tokens) and tokens[i + 1] in ("(", ":"):
            tokens[i] = "f"
    return " ".join(tokens)


def twins(files):
    groups = defaultdict(list)
    for name, text in files.items():
        for fn, line, _, body in functions(text):
            if len(body.split()) > 4:
                groups[shape(body)].append(f"{name}:{line}: fn {fn}")
    return [places for places in groups.values() if len(places) > 1]


def groups_of_parameters(files):
    """Pairs of parameters (name and type) that stand together in three functions or more."""
    together = defaultdict(list)
    for name, text in files.items():
        for fn, line, params, _ in functions(text):
            ps = sorted(p.strip() for p in re.split(r",(?![^<\[(]*[>\])])", params) if ":" in p)
            for i, a in enumerate(ps):
                for b in ps[i + 1:]:
                    together[f"{a}, {b}"].append(f"{name}:{line}: fn {fn}")
    return {k: v for k, v in together.items() if len(v) > 2}


def repeated_clauses(files):
    clauses = defaultdict(list)
    for name, text in files.items():
        for m in re.finditer(r"(ensures|requires)( \w+)? \{([^{}]*)\}", text):
            clauses[" ".join(m.group(3).split())].append(f"{name}:{text.count(chr(10), 0, m.start()) + 1}")
    return {k: v for k, v in clauses.items() if len(v) > 2}


def main():
    args = sys.argv[1:]
    verbose = "-v" in args
    args = [a for a in args if a != "-v"]
    files = sources(args[0] if args else None)
    show = lambda lines: [print(f"    {line}") for line in lines] if verbose else None
    for label, pattern in SEARCHES:
        found = [f"{name}:{i}: {line.strip()}"
                 for name, text in files.items() for i, line in enumerate(text.split("\n"), 1)
                 if re.search(pattern, line) and not line.lstrip().startswith(("//", "ghost", "use ", "#["))]
        print(f"{len(found):4} {label}")
        show(found)
    groups = twins(files)
    print(f"{len(groups):4} 2 groups of functions of one shape")
    show(" = ".join(g) for g in groups)
    params = groups_of_parameters(files)
    print(f"{len(params):4} 5 pairs of parameters in three functions or more")
    show(f"({k}): " + ", ".join(v) for k, v in params.items())
    facts = repeated_clauses(files)
    print(f"{len(facts):4} 5 clauses in three functions or more")
    show(f"{{ {k} }}: " + ", ".join(v) for k, v in facts.items())


main()
