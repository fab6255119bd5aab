#!/usr/bin/env python3
"""Respells the repository's own definitions and lemmas as today's Rattle spells words: snake case.

usage: tools/snake_names.py        at the top of the repository, once, right after port.py

A lower camel name becomes snake case wherever an .antt file or a clause has it ('bitsAt' is 'bits_at'), but for the names that a
file imports from a library. A lemma's dashes become underscores, but a dash that joins two definitions of specs/ stays
('length-set_bit'). Types and facts keep their capitals. Must-fail edits are turned like the files that they change.
It stops, and writes nothing, where two names of one file's scope would fall together.
"""

import collections
import os
import re
import sys

TOKEN = re.compile(r'[^\s(){}.;,@"«»`:⌜⌝]+')
CAMEL = re.compile(r"[a-z][a-z0-9]*(?:[A-Z][a-z0-9]*)+'*$")
DECLARED = re.compile(r"^ *(?:(?:abbrev|unfoldable|pub) )*([a-z][^\s(){}.;,@\"«»:]*) (?:: |\(.*\) : |\{.*\} : )", re.M)
IMPORTED = re.compile(r"^(?:pub )?(?:ghost )?use ([\w.'-]+)\.\{([^}]*)\}", re.M)
GHOST = re.compile(r"ghost use [^;]*;|(?:requires|ensures)\b[^\n{]*\{[^\n]*|^\s*(?:owns|lends|invariant)\b[^\n]*", re.M)
KEPT = {"nat_eq"}


def snake(word):
    return re.sub(r"(?<=[a-z0-9])([A-Z])", lambda m: "_" + m.group(1).lower(), word)


def texts(kind):
    for folder, dirs, files in os.walk("crates"):
        dirs[:] = sorted(d for d in dirs if d != "out")
        for f in sorted(files):
            if f.endswith(kind):
                yield os.path.join(folder, f)


def read(path):
    with open(path, encoding="utf-8") as f:
        return f.read()


def is_own(module, crates):
    parts = module.split(".")
    return len(parts) > 1 and parts[0] == "Rattle" and parts[1] in crates


def table(files, crates):
    """The new spelling of each name of the repository's own that gets one."""
    own, foreign, defined = set(), set(), set()
    for path, text in files.items():
        in_function = re.search(r"/proofs/.+/", path)
        for module, names in IMPORTED.findall(text):
            if not is_own(module, crates) or ".declared." in module:
                foreign |= {n.split(" as ")[0].strip() for n in names.split(",")}
        for name in DECLARED.findall(text):
            if not in_function:
                own.add(name)
            if "/specs/" in path:
                defined.add(snake(name))
    words = {n for n in defined if "_" in n and "-" not in n} | {"length"}
    new = {}
    clauses = [m.group() for p in texts(".rt") for m in GHOST.finditer(read(p))]
    for name in own | {t for text in [*files.values(), *clauses] for t in TOKEN.findall(text) if CAMEL.match(t)}:
        if name in foreign or name in KEPT:
            continue
        parts = [snake(p) if p[:1].islower() else p for p in name.split("-")]
        turned = parts[0]
        for before, part in zip(parts, parts[1:]):
            joins = (before in words and part in words) or not before[:1].islower() or not part[:1].isalpha()
            turned += ("-" if joins and name in own else "_" if name in own else "-") + part
        if turned != name:
            new[name] = turned
    # A lemma that would have its function's name gets '_lem'; port.py has turned some of these lemmas already.
    functions = {n for k, n in new.items() if CAMEL.match(k)} | {n for n in defined if "-" not in n}
    for name, turned in new.items():
        if "-" in name and turned in functions:
            new[name] = turned + "_lem"
    for name in own - defined:
        if name in {n for k, n in new.items() if CAMEL.match(k)}:
            new[name] = name + "_lem"
    return new


def turn(text, new):
    """Every whole name; in a comment a name with a dash only where it is quoted."""
    out = []
    for line in text.split("\n"):
        code, mark, comment = line.partition("--") if re.search(r"(^|\s)--(\s|$)", line) else (line, "", "")
        code = TOKEN.sub(lambda m: new.get(m.group(), m.group()), code)
        comment = TOKEN.sub(lambda m: new.get(m.group(), m.group()) if CAMEL.match(m.group()) else m.group(), comment)
        comment = re.sub(r"`([^`]*)`", lambda m: "`" + TOKEN.sub(lambda n: new.get(n.group(), n.group()), m.group(1)) + "`", comment)
        out.append(code + mark + comment)
    return "\n".join(out)


def turn_source(text, new):
    return GHOST.sub(lambda m: TOKEN.sub(lambda n: new.get(n.group(), n.group()) if CAMEL.match(n.group()) else n.group(), m.group()), text)


def turn_edit(text, new):
    def line(l):
        if re.match(r"(old|new):.*(ensures|requires|≡|⌜)", l):
            return TOKEN.sub(lambda n: new.get(n.group(), n.group()) if CAMEL.match(n.group()) else n.group(), l)
        return l

    return "\n".join(map(line, text.split("\n")))


def fallen(path, text, new):
    """The names of a file's scope that would have one spelling."""
    scope = set(DECLARED.findall(text))
    for _, names in IMPORTED.findall(text):
        scope |= {n.split(" as ")[-1].strip() for n in names.split(",")}
    spelled = collections.defaultdict(set)
    for n in scope:
        spelled[new.get(n, n)].add(n)
    return [f"{path}: {sorted(v)} would all be {k}" for k, v in spelled.items() if len(v) > 1]


def main():
    crates = set(os.listdir("crates"))
    files = {p: read(p) for p in texts(".antt")}
    new = table(files, crates)
    bad = [b for p, t in files.items() for b in fallen(p, t, new)]
    if bad and "--force" not in sys.argv:
        print("\n".join(bad))
        return 1
    done = {p: turn(t, new) for p, t in files.items()}
    for path in texts(".rt"):
        done[path] = turn_source(read(path), new)
    for path in texts(".edit"):
        done[path] = turn_edit(read(path), new)
    for path, text in done.items():
        if text != read(path):
            with open(path, "w", encoding="utf-8") as f:
                f.write(text)
    for name in sorted(new):
        print(name, new[name])
    return 0


if __name__ == "__main__":
    sys.exit(main())
