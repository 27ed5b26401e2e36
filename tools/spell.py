#!/usr/bin/env python3
"""Brings the repository's own names to the spelling of the toolchain: definitions, fields and lemmas in snake case.

usage: tools/spell.py [--list]     at the top of the repository, once, right behind the toolchain's own script

A name that some file of specs/ or proofs/ declares, in camel case with a small first letter (capacityLimit) or of words joined by dashes
(links-and-free), is written with underscores (capacity_limit, links_and_free), in the files of specs/ and proofs/, in the clauses of src/, in the edits of must-fail/,
and where a document or a comment has it between backticks. Types, modules and constructors keep their capital, functions of src/ their name. What a proof of one
function (proofs/F/) declares for itself is left: those are names of goals. A name that the toolchain makes (behind 'tie.', or behind a dot and no field of a
record of the repository) is left too.

Where two names would fall together, a definition has the plain name and the lemma gets '_lem'; other falls are printed, and nothing is written. --list prints the
names, old and new.
"""

import collections
import glob
import os
import re
import sys

WORD = r"[^\s(){}\[\],;.:`]+"
DECLARED = re.compile(rf"^(\s*)((?:(?:pub|abbrev|unfoldable)\s+)*)({WORD})\s+:(?:\s|$)")
HEAD = re.compile(r"^\s*(?:pub\s+)?(record|data)\s")
OF_FUNCTION = ("Proof.antt", "Answers.antt", "Invariants.antt")


def of_function(path):
    return os.path.basename(path) in OF_FUNCTION and os.path.basename(os.path.dirname(path)) not in ("specs", "proofs")


# A definition that would fall on a field of its own module.
KEPT_APART = {"lentOn": "lent_part", "map-map": "map-map"}


def read(path):
    with open(path, encoding="utf-8") as f:
        return f.read()


def antt_files():
    return sorted(p for top in ("specs", "proofs") for p in glob.glob(f"crates/*/{top}/**/*.antt", recursive=True))


def spelled(name):
    if name in KEPT_APART:
        return KEPT_APART[name]
    name = re.sub(r"(?<=[a-z0-9])([A-Z])", lambda m: "_" + m[1].lower(), name) if re.match(r"[a-zα-ωσμ]", name) else name
    return name.replace("-", "_")


def declared():
    """The names that are declared outside the proofs of single functions: kind by name, and the fields of records."""
    names, fields, plain = {}, set(), set()
    for path in antt_files():
        record = None
        for line in read(path).split("\n"):
            if line.strip().startswith("--"):
                continue
            indent = len(line) - len(line.lstrip())
            if HEAD.match(line):
                record = indent
                continue
            if line.strip() and record is not None and indent <= record:
                record = None
            m = DECLARED.match(line)
            if not m:
                continue
            name = m[3]
            if of_function(path):
                continue
            plain.add(name)
            kind = "definition" if "abbrev" in m[2] or "unfoldable" in m[2] else "lemma"
            if record is not None:
                fields.add(name)
                kind = "field"
            if "/specs/" in path and kind == "lemma":
                kind = "stated"
            order = ["field", "definition", "stated", "lemma"]
            if name not in names or order.index(kind) < order.index(names[name]):
                names[name] = kind
    return names, fields, plain


def mapping():
    names, fields, plain = declared()
    to, fallen = {}, []
    taken = collections.defaultdict(list)
    for name in sorted(names):
        new = spelled(name)
        taken[new].append(name)
    for new, olds in sorted(taken.items()):
        if len(olds) == 1:
            if olds[0] != new:
                to[olds[0]] = new
            continue
        # a definition first, then the one that is spelled so already
        olds.sort(key=lambda n: (["definition", "field", "stated", "lemma"].index(names[n]), n != new))
        for k, old in enumerate(olds):
            if k == 0:
                if old != new:
                    to[old] = new
            elif k == 1 and names[old] in ("lemma", "stated") and new + "_lem" not in taken:
                to[old] = new + "_lem"
            else:
                fallen.append((new, olds))
    return to, names, fields, fallen


def turn_code(code, to, fields, own, short=frozenset()):
    def one(m):
        before, word = m[1], m[2]
        if word not in to or word in own:
            return m[0]
        if before.endswith("."):
            whose = re.search(rf"({WORD})$", code[: m.start()])
            return before + to[word] if word in fields or (whose and whose[1] in short) else m[0]
        return before + to[word]

    return re.sub(rf"(^|[\s(){{}}\[\],;.:`])(?=(?:{WORD}))({WORD})", one, code)


def turn_backticks(text, to):
    return re.sub(r"`([^`\n]+)`", lambda m: "`" + turn_code(m[1], to, set(), set()) + "`", text)


def turn_antt(text, to, fields, alone):
    own = set()
    if alone:
        own = {m[3] for m in map(DECLARED.match, text.split("\n")) if m}
    # modules that the file brings under a short name
    short = set(re.findall(r"^(?:pub )?use \S+ as (\S+)$", text, re.M)) - {"tie", "goal"}
    out = []
    for line in text.split("\n"):
        at = re.search(r"(?:^|\s)--(?:\s|$)", line)
        code, note = (line[: at.start()], line[at.start() :]) if at else (line, "")
        if at and line[: at.start()].strip() == "":
            code, note = "", line
        line = turn_code(code, to, fields, own, short)
        note = turn_backticks(note, {k: v for k, v in to.items()})
        note = re.sub(r"(?<![\w`-])[a-z]+(?:[A-Z][a-z0-9]*)+(?![\w-])", lambda m: to.get(m[0], m[0]), note)
        out.append(line + note)
    return "\n".join(out)


def turn_rt(text, to):
    camel = {k: v for k, v in to.items() if re.match(r"^[a-z][A-Za-z0-9]*$", k) and re.search("[A-Z]", k)}
    return re.sub(r"(?<![\w'\"-])[a-z][a-z0-9]*(?:[A-Z][A-Za-z0-9]*)+(?![\w'-])", lambda m: camel.get(m[0], m[0]), text)


def main():
    to, names, fields, fallen = mapping()
    if fallen:
        for new, olds in fallen:
            print("fall together:", new, olds)
        sys.exit(1)
    if "--list" in sys.argv[1:]:
        for old, new in sorted(to.items()):
            print(old, new)
        return
    for path in antt_files():
        text = read(path)
        new = turn_antt(text, to, fields, of_function(path))
        if new != text:
            with open(path, "w", encoding="utf-8") as f:
                f.write(new)
    for path in sorted(glob.glob("crates/*/src/**/*.rt", recursive=True)):
        text = read(path)
        new = turn_rt(text, to)
        if new != text:
            with open(path, "w", encoding="utf-8") as f:
                f.write(new)
    for path in sorted(glob.glob("crates/*/must-fail/*.edit")):
        text = read(path)
        out, antt = [], False
        for line in text.split("\n"):
            if line.startswith("file:"):
                antt = line.strip().endswith(".antt")
            elif line[:4] in ("old:", "new:"):
                line = line[:5] + (turn_antt(line[5:], to, fields, False) if antt else turn_rt(line[5:], to))
            out.append(line)
        new = "\n".join(out)
        if new != text:
            with open(path, "w", encoding="utf-8") as f:
                f.write(new)
    pages = ["README.md", *sorted(glob.glob("docs/*.md")), *sorted(glob.glob("*/*.md"))]
    for path in dict.fromkeys(pages):
        text = read(path)
        new = turn_backticks(text, to)
        if new != text:
            with open(path, "w", encoding="utf-8") as f:
                f.write(new)


main()
