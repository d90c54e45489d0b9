#!/usr/bin/env python3
"""Respells this repository's own definitions and lemmas: Upper-case-names of types to UpperCamelCase, other-names to snake_case.

usage: python3 tools/respell.py [--list]     at the top of the repository, once, after port.py

It reads the names that specs/ and proofs/ declare (and the variables that they bind), and writes them anew in .antt files,
in contracts and ghost items of .rt files, and in must-fail edits. Comments and strings stay. Names of the kit and names that
Rattle makes of the code (goals, steps) stay. Where two names would fall together it stops and writes nothing.
"""

import os
import re
import sys

GENERATED = {"Answers.antt", "Invariants.antt", "Choices.antt", "Proof.antt"}
# A character of a name; '.' parts a path, and '+' joins parts of a generated name.
CHAR = r"[^\s(){}\[\];,.:λ\"`«»∷≡×]"
NAME = re.compile(CHAR + "+")
# A file of lemmas has the name of its fact; a variable has the name of a field, which is always read as t.grades_fit.
TOGETHER = {"OneAnswer", "OneRun", "ButMarks", "grades_fit"}
# port.py leaves a type that a library also spells with an underscore, as Laid_out.
HYPHENED = re.compile(r"^(?:[A-Za-z][\w']*(?:-[\w']+)+|[A-Z][a-z]+(?:_[a-z]+)+)$")


def files(top, endings):
    for folder, dirs, names in os.walk(top):
        dirs[:] = sorted(d for d in dirs if d not in ("out", ".git"))
        for n in sorted(names):
            if n.endswith(endings):
                yield os.path.join(folder, n)


def read(path):
    with open(path, encoding="utf-8") as f:
        return f.read()


def split_comment(line, mark):
    """The line before its comment, and the comment; strings hold no comment."""
    quoted = False
    for i, ch in enumerate(line):
        if ch == '"' and (i == 0 or line[i - 1] != "\\"):
            quoted = not quoted
        if not quoted and line.startswith(mark, i):
            return line[:i], line[i:]
    return line, ""


def declared():
    """Names that specs/ and the lemma files declare, and names that any proof file binds."""
    found = set()
    for p in files("crates", (".antt",)):
        generated = os.path.basename(p) in GENERATED
        for line in read(p).split("\n"):
            code = split_comment(line, "--")[0]
            if not generated:
                m = re.match(r"^\s*(?:(?:abbrev|unfoldable|pub|opaque|private)\s+)*(?:(?:data|record|module|ruleset)\s+)?(" + CHAR + r"+)\s*(?::\s|\(|\{|$|:$|where|=)", code)
                if m and HYPHENED.match(m.group(1)):
                    found.add(m.group(1))
            for m in re.finditer(r"\b(?:let|λ)\s+(" + CHAR + r"+(?:\s+" + CHAR + r"+)*)", code):
                found.update(n for n in m.group(1).split() if HYPHENED.match(n))
            for m in re.finditer(r"[({]([^(){}:]+)\s:\s", code):
                found.update(n for n in m.group(1).split() if HYPHENED.match(n))
    return found


def of_kit():
    """Hyphened names that the repository takes from the kit."""
    own = set(os.listdir("crates"))
    found = set()
    for p in files("crates", (".antt", ".rt")):
        for m in re.finditer(r"\buse ([\w.]+)\.\{([^}]*)\}", read(p)):
            parts = m.group(1).split(".")
            if parts[0] != "Rattle" or parts[1] not in own:
                found.update(n.strip() for n in m.group(2).split(","))
    return found


def respelled(name):
    if name[0].isupper():
        return "".join(part[:1].upper() + part[1:] for part in re.split("[-_]", name))
    return name.replace("-", "_")


def plan():
    names = declared() - of_kit()
    mapping = {n: respelled(n) for n in names}
    # Functions of src/ may have the name of the word that they answer, as in std. So only names of .antt files count here.
    there = set()
    for p in files("crates", (".antt",)):
        for line in read(p).split("\n"):
            there.update(NAME.findall(split_comment(line, "--")[0]))
    twice = {}
    for old, new in mapping.items():
        twice.setdefault(new, []).append(old)
    bad = [(olds, new) for new, olds in twice.items() if len(olds) > 1 or (new in there and new not in TOGETHER)]
    return mapping, bad


def turn_code(code, mapping):
    """Respells names outside strings."""
    parts = re.split(r'("(?:\\.|[^"\\])*")', code)
    for i in range(0, len(parts), 2):
        parts[i] = NAME.sub(lambda m: mapping.get(m.group(0), m.group(0)), parts[i])
    return "".join(parts)


def turn(path, mapping):
    text = read(path)
    mark = "--" if path.endswith(".antt") else "//"
    lines = []
    for line in text.split("\n"):
        if path.endswith(".edit"):
            lines.append(turn_code(line, mapping) if line.startswith(("old: ", "new: ")) else line)
            continue
        code, comment = split_comment(line, mark)
        lines.append(turn_code(code, mapping) + comment)
    new = "\n".join(lines)
    if new != text:
        with open(path, "w", encoding="utf-8") as f:
            f.write(new)
    return new != text


def main(argv):
    if not os.path.isdir("crates"):
        sys.exit("run it at the top of the repository")
    mapping, bad = plan()
    if argv == ["--list"]:
        for old in sorted(mapping):
            print(old, mapping[old])
    for olds, new in bad:
        print("falls together:", ", ".join(olds), "->", new, file=sys.stderr)
    if bad:
        return 1
    if argv == ["--list"]:
        return 0
    changed = sum(turn(p, mapping) for p in files("crates", (".antt", ".rt", ".edit")))
    print(f"{len(mapping)} names, {changed} files")
    return 0


if __name__ == "__main__":
    sys.exit(main(sys.argv[1:]))
