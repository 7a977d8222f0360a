#!/usr/bin/env python3
"""Brings the repository's own definitions, lemmas and record fields to today's spelling: words in snake case, types and modules as they are.

Run once at the top, right after the kit's port.py: `python3 tools/respell.py`. It takes the names from the declarations of specs/ and of the lemma
files of proofs/ (what stands in a function's own proof folder keeps its names, but for what it cites), and turns them in .antt files, in the clauses
and comments of .rt files, in must-fail edits and in the code spans of the documents. Names of functions of src/, exported names and strings stay.
A lemma that would get a definition's name gets `_lem`. `--table` prints the table alone.
"""

import os
import re
import sys

TOKEN = re.compile(r"[^\s(){}.;,@\"«»`]+")
DECLARED = re.compile(r"^(?:unfoldable |abbrev |pub )*(?:record |data |ruleset )?([^\s:(){}=|]+)(?=[ \t]*[:({]|[ \t][^=\n]*[ \t]:|$)")
MEMBER = re.compile(r"^[ \t]+(?:pub )?([^\s:(){}=]+)(?= :(?: |$)|$)")
GOAL = re.compile(r"^(?:returns|loop|if|in|else|then|field|add|sub|mul)-\d+$")


def files(top, ending):
    for folder, subs, names in os.walk(top):
        subs[:] = sorted(s for s in subs if s not in ("out", ".git", "target"))
        for name in sorted(names):
            if name.endswith(ending):
                yield os.path.join(folder, name)


def snake(name):
    """`isNewer` and `read-back` in snake case; a word that begins with a capital is a type's name and stays."""
    if not re.fullmatch(r"[A-Za-z0-9_'\-₀-₉]+", name) or name.startswith("-"):
        return name
    parts = name.split("-")
    if parts[0][:1].isupper():
        return name
    return "_".join(re.sub(r"(?<=[a-z0-9])([A-Z])", lambda m: "_" + m[1].lower(), p[:1].lower() + p[1:] if i else p) for i, p in enumerate(parts))


def declared():
    """The names declared at the head of a line or in a module, and the fields of records."""
    names, fields = set(), set()
    for path in files("crates", ".antt"):
        parts = path.split(os.sep)
        if os.path.basename(path) == "Proof.antt" or parts[2] == "proofs" and len(parts) > 4 and parts[3] != "Laws":
            continue
        within = ""
        for line in open(path, encoding="utf-8"):
            top = DECLARED.match(line)
            if line[:1].strip():
                within = line
            m = top or MEMBER.match(line)
            if not m or GOAL.match(m[1]) or m[1] in ("use", "let", "mod", "module", "unfolding", "where", "record", "data") or m[1].startswith("--"):
                continue
            if top or "record" in within or "data" in within:
                (names if top else fields).add(m[1])
            elif within.startswith(("module", "pub module")) and not m[0].endswith(m[1] + " ") and re.match(r" {2}(pub )?\S+( :|$)", line):
                names.add(m[1])
    return names, fields


def table():
    """Old names and new. A definition, which was in mixed case, has the plain name; a lemma that would have it too gets `_lem`. Fields stand apart."""
    names, fields = declared()
    rows, taken = {}, set()
    definitions = {n for n in names if "-" not in n and snake(n) != n}
    for name in sorted(names, key=lambda n: (n not in definitions, "-" in n, n)):
        new = snake(name)
        if new != name:
            while new in taken:
                new += "_lem"
            rows[name] = new
        taken.add(new)
    for name in fields - names:
        if snake(name) != name:
            rows[name] = snake(name)
    return rows


def imported(text, own):
    """The names that a file takes from the kit's libraries."""
    kept = set()
    for m in re.finditer(r"^(?:ghost )?(?:pub )?use ([^{};]*?)\.\{([^}]*)\}", text, re.M):
        head = m[1].split(".")
        if not (head[0] == "Rattle" and len(head) > 1 and head[1] in own):
            kept |= {n.strip().split(" as ")[-1] for n in m[2].split(",")}
    return kept


def turned(text, rows):
    return TOKEN.sub(lambda m: rows.get(m[0], m[0]), text)


def camel(rows):
    return {old: new for old, new in rows.items() if "-" not in old}


def spans(text, rows):
    """Only the code spans of prose, and words in mixed case, which are no words of English."""
    text = re.sub(r"`[^`\n]+`", lambda m: turned(m[0], rows), text)
    return TOKEN.sub(lambda m: re.sub(r"[A-Za-z0-9]+", lambda w: camel(rows).get(w[0], w[0]), m[0]) if re.search("[a-z][A-Z]", m[0]) else m[0], text)


def of_antt(text, rows):
    out = []
    for line in text.split("\n"):
        code, mark, prose = line.partition("--") if re.match(r"\s*--", line) else (line, "", "")
        if not mark and " -- " in line:
            code, mark, prose = line.partition(" -- ")
        out.append(turned(code, rows) + mark + spans(prose, rows))
    return "\n".join(out)


def of_rt(text, rows):
    out = []
    for line in text.split("\n"):
        pieces = re.split(r"(\"(?:[^\"\\]|\\.)*\")", line)
        at = next((i for i in range(0, len(pieces), 2) if "//" in pieces[i]), None)
        for i in range(0, len(pieces), 2):
            if at is None or i < at:
                pieces[i] = turned(pieces[i], rows)
        if at is not None:
            code, mark, prose = "".join(pieces[at:]).partition("//")
            pieces[at:] = [turned(code, rows) + mark + spans(prose, rows)]
        out.append("".join(pieces))
    return "\n".join(out)


def of_edit(text, rows):
    out = []
    for line in text.split("\n"):
        out.append(spans(line, rows) if line.startswith("#") else line if line.startswith("file:") else of_rt(line, rows))
    return "\n".join(out)


def main():
    rows = table()
    if sys.argv[1:] == ["--table"]:
        print("".join(f"{old}\t{new}\n" for old, new in sorted(rows.items())), end="")
        return
    own = set(os.listdir("crates"))
    changed = 0
    for top, ending, turn in (("crates", ".antt", of_antt), ("crates", ".rt", of_rt), ("crates", ".edit", of_edit), ("edits", ".edit", of_edit), ("docs", ".md", spans), (".", "README.md", spans)):
        for path in files(top, ending):
            text = open(path, encoding="utf-8").read()
            kept = imported(text, own)
            new = turn(text, {old: to for old, to in rows.items() if old not in kept})
            if new != text:
                open(path, "w", encoding="utf-8").write(new)
                changed += 1
    print(f"respelled: {len(rows)} names, {changed} files changed")


if __name__ == "__main__":
    main()
