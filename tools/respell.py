#!/usr/bin/env python3
"""Spells the repository's own words in snake case: nanosOf and ceil-is become nanos_of and ceil_is.

usage: tools/respell.py [FOLDER]      once, right after port.py; then rt fmt in each crate

It turns definitions, lemmas, fields, constructors and variables of .antt files, the clauses of .rt files that cite them, the texts of
must-fail edits and of tests/wrong_answers, and names between backticks in README.md and docs/. Names that an .antt file imports from
the library stay, and so do types, modules and what Rattle makes. Where a lemma would fall together with a definition, it gets _law.
"""
import collections
import glob
import os
import re
import sys

W = r"[^\s(){}.;,@\"«»\[\]\\]+"
WORD = re.compile(W)
USE = re.compile(r"^(?:ghost )?use ([^\s{;]+?)(?:\.\{([^}]*)\})?(?: as (\S+))?;?$")
DECLARED = re.compile(r"^\s*(?:(?:pub|abbrev|unfoldable|opaque|private|abstract)\s+)*((?:" + W + r"\s+)*?" + W + r")\s+:\s")
# Fields that would have the name of a definition.
FIELDS = {"arena-holds": "arena_held", "scratch-holds": "scratch_held", "deadline-kept": "kept_deadline", "header-bytes": "header_length", "same_bytes": "bytes_same"}
# Predicates, which are types.
OTHERWISE = {"typedBy": "TypedBy", "secondsFit": "SecondsFit"}


def snake(name):
    return re.sub(r"(?<=[a-z0-9])([A-Z])", lambda m: "_" + m.group(1).lower(), name.replace("-", "_"))


def is_odd(name):
    return bool(re.search(r"[A-Za-z0-9₀-₉']-[A-Za-z0-9]", name) or re.match(r"^[a-z][a-z0-9_-]*[A-Z]", name))


def read(path):
    with open(path, encoding="utf-8") as f:
        return f.read()


def write(path, text):
    if read(path) != text:
        with open(path, "w", encoding="utf-8") as f:
            f.write(text)


def main():
    top = sys.argv[1] if len(sys.argv) > 1 else "."
    crates = set(os.listdir(os.path.join(top, "crates")))
    antt = sorted(glob.glob(top + "/crates/*/specs/**/*.antt", recursive=True) + glob.glob(top + "/crates/*/proofs/**/*.antt", recursive=True))
    rt = sorted(glob.glob(top + "/crates/*/src/**/*.rt", recursive=True))
    library, tops, fields, bare, every = set(), set(), set(), set(), set()
    for path in antt + rt:
        for line in read(path).split("\n"):
            m = USE.match(line.strip())
            if m and m.group(2) is not None:
                parts = m.group(1).split(".")
                own = len(parts) > 1 and parts[0] == "Rattle" and parts[1] in crates
                if not own or ".declared." in m.group(1) or m.group(1).endswith(".Statement"):
                    library |= {n.strip().split(" as ")[0].strip() for n in m.group(2).split(",")}
    for path in antt:
        in_record = False
        for line in read(path).split("\n"):
            if line.lstrip().startswith("--"):
                continue
            if re.match(r"^\s*(pub )?record ", line):
                in_record = True
            else:
                if not line.strip() or re.match(r"^\S", line):
                    in_record = False
                m = DECLARED.match(line)
                if m:
                    (fields if in_record else tops).update(m.group(1).split())
            text = "" if line.startswith("use ") else line
            for m in WORD.finditer(text):
                every.add(m.group(0))
                if not (m.start() and text[m.start() - 1] == "."):
                    bare.add(m.group(0))
            every.update(WORD.findall(line))
    odd = {t for t in every if is_odd(t) and t not in library}
    spelled = {t: snake(t) for t in odd}
    groups = collections.defaultdict(set)
    for t in odd:
        groups[snake(t)].add(t)
    law = {}
    for name, group in groups.items():
        if name in tops:
            group.add(name)
        named = {t for t in group if t in tops}
        camel = {t for t in named if re.match(r"^[a-z][a-z0-9_]*[A-Z]", t)}
        if len(named) > 1:
            keep = camel or {name}
            assert len(keep) == 1, group
            for t in named - keep:
                law[t] = name + "_law"
    for t in law:
        assert law[t] not in every, t

    def turn(text, m):
        t = m.group(0)
        projected = m.start() > 0 and text[m.start() - 1] == "."
        if t in FIELDS and (t in fields):
            made = re.match(r"\.(ensures|result|new|requires|branch)\b", text[m.end() : m.end() + 12])
            return spelled.get(t, t) if made else FIELDS[t]
        if t in law:
            return spelled.get(t, t) if projected else law[t]
        return OTHERWISE.get(t, spelled.get(t, t))

    def turned(text):
        return WORD.sub(lambda m: turn(text, m), text)

    for path in antt:
        out = []
        for line in read(path).split("\n"):
            code, dash, note = (line, "", "") if "--" not in line else (line[: line.index("--")], "--", line[line.index("--") + 2 :])
            if code.startswith("use "):
                m = USE.match(code.strip())
                if m and m.group(2) is not None:
                    head = code[: code.index("{")]
                    code = head + turned(code[code.index("{") :])
            else:
                code = turned(code)
            note = re.sub(r"`([^`]+)`", lambda m: "`" + turned(m.group(1)) + "`", note)
            out.append(code + dash + note)
        write(path, "\n".join(out))

    low = re.compile(r"(?<![\w.«])[a-z][a-z0-9]*[A-Z]\w*")
    camel = lambda text: low.sub(lambda m: OTHERWISE.get(m.group(0), spelled.get(m.group(0), m.group(0))) if m.group(0) in odd else m.group(0), text)
    for path in rt:
        out = []
        for line in read(path).split("\n"):
            code, slash, note = line.partition("//")
            if code.count('"') % 2:
                code, slash, note = line, "", ""
            out.append((code if code.count('"') else camel(code)) + slash + note)
        write(path, "\n".join(out))

    for path in glob.glob(top + "/crates/*/must-fail/*.edit") + glob.glob(top + "/tests/wrong_answers/*.txt"):
        out = []
        antt_text = False
        for line in read(path).split("\n"):
            if line.startswith("file: "):
                antt_text = line.endswith(".antt")
            elif line.startswith(("old: ", "new: ")):
                line = line[:5] + (turned(line[5:]) if antt_text else camel(line[5:]))
            out.append(line)
        write(path, "\n".join(out))

    names = tops | fields
    for path in [top + "/README.md"] + glob.glob(top + "/docs/*.md"):
        text = read(path)
        fit = lambda m: "`" + WORD.sub(lambda w: turn(m.group(1), w) if w.group(0) in names and is_odd(w.group(0)) else w.group(0), m.group(1)) + "`"
        write(path, re.sub(r"`([^`\n]+)`", fit, text))


main()
