#!/usr/bin/env python3
"""Respells this repository's own definitions and lemmas: lower camel case and hyphens become snake case.

usage: python3 tools/respell.py [FOLDER]     once, right after port.py, at the top of the repository

What is respelt: each name that a file of specs/ or proofs/ defines and that has a hyphen or a capital inside a word, wherever it
stands in specs/, proofs/, the clauses and comments of src/, must-fail edits, README.md and docs/. Functions of src/, exported names,
strings, inputs and outputs keep their names. What falls together with another name gets the name of OTHER.
"""

import os
import re
import sys

# names whose plain respelling is a crate's or a parameter's
OTHER = {"planText": "text_of_plan", "wholeWork": "whole_work_of", "wholeConflict": "whole_conflict_of"}
# lemmas in snake case already whose name now is a definition's; each is said in specs/ alone
LAWS = {n: n + "_law" for n in ("ready_by", "count_at", "due_in", "run_more", "rows_more", "digits_in")}
# definitions in snake case already, whose lemma has the same words
DEFINED = {"value_at", "first_of", "rows_at", "rows_by"}

SIGNATURE = re.compile(r"^\s*(?:(?:pub|abbrev|unfoldable|data|record|axiom|ruleset)\s+)*((?:[^\s(){}\[\]:;.,\"`=]+\s+)+):(?:\s|$)")
TOKEN = re.compile(r"[^\s(){}\[\]:;.,\"`=|∷]+")
STRING = re.compile(r'b?"(?:[^"\\]|\\.)*"')


def files(root, *ends):
    for folder, dirs, names in os.walk(root):
        dirs[:] = sorted(d for d in dirs if d not in ("out", ".git", "target"))
        for name in sorted(names):
            if name.endswith(ends):
                yield os.path.join(folder, name)


def read(path):
    with open(path, encoding="utf-8") as f:
        return f.read()


def words_of_libraries(text):
    """The names that a file brings in from outside this repository."""
    found = set()
    for line in re.findall(r"^\s*use ((?:mathlib|lib|Prim|borrow|Rattle\.std)\b[^\n]*)", text, re.M):
        for group in re.findall(r"\{([^{}]*)\}", line):
            found |= {w.strip().split(" as ")[0] for w in group.split(",")}
    return found


def old_style(name):
    return name[0].islower() and ("-" in name or re.search(r"[a-z0-9₀-₉][A-Z]", name))


def respelt(name):
    name = name.replace("getD", "get_or")
    name = re.sub(r"(?<!^)(?<![_-])([A-Z])", lambda m: "_" + m.group(1).lower(), name)
    return name.replace("-", "_").lower()


def declared_in(path):
    names = set()
    for line in read(path).split("\n"):
        if not line.lstrip().startswith("--"):
            m = SIGNATURE.match(line)
            if m:
                names |= set(m.group(1).split())
    return {n for n in names if old_style(n)}


def specs(root):
    return [p for p in files(os.path.join(root, "crates"), ".antt") if not p.endswith("/Proof.antt")]


def table(root):
    """The new name of each old one. Where a definition and its law have the same words, the law gets `_law`."""
    names = set().union(*(declared_in(p) for p in specs(root)))
    plain = {}
    for n in sorted(names):
        plain.setdefault(respelt(n), []).append(n)
    to = dict(LAWS)
    for new, old in plain.items():
        for n in old:
            law = "-" in n and (len(old) > 1 or new in DEFINED)
            to[n] = OTHER.get(n, new + "_law" if law else new)
    back = {}
    for n, new in to.items():
        if new in back:
            print(f"respell: {n} and {back[new]} would fall together as {new}")
        back[new] = n
    return to


def respell(text, to, skip_strings):
    def one(m):
        word = m.group(0)
        if word in LAWS and "." in text[max(0, m.start() - 1) : m.start()] + text[m.end() : m.end() + 1]:
            return word
        return to.get(word, word)

    if not skip_strings:
        return TOKEN.sub(one, text)
    parts, at = [], 0
    whole = text
    for m in STRING.finditer(whole):
        text = whole[at : m.start()]
        parts += [TOKEN.sub(one, text), m.group(0)]
        at = m.end()
    text = whole[at:]
    return "".join(parts + [TOKEN.sub(one, text)])


def main(argv):
    root = argv[1] if len(argv) > 1 else "."
    to = table(root)
    shared = set()
    for path in files(os.path.join(root, "crates"), ".antt"):
        shared |= words_of_libraries(read(path)) & set(to)
    # what port.py respelt stands in pages and edits still
    known = set(to.values())
    for path in specs(root):
        for line in read(path).split("\n"):
            m = SIGNATURE.match(line)
            known |= set(m.group(1).split()) if m else set()
    changed = 0
    paths = list(files(os.path.join(root, "crates"), ".antt", ".rt", ".edit"))
    paths += list(files(os.path.join(root, "docs"), ".md")) + [os.path.join(root, "README.md")]
    for path in paths:
        if os.path.basename(path) == "PORT.md":
            continue
        old = read(path)
        own = declared_in(path) if path.endswith(".antt") else set()
        code = path.endswith(".rt")
        here = {n: new for n, new in to.items() if (n not in shared or n in own) and not (n in LAWS and not path.endswith(".antt"))}
        if path.endswith((".md", ".edit")):
            words = set(TOKEN.findall(old)) - set(to)
            here |= {w: respelt(w) for w in words if old_style(w) and respelt(w) in known}
        new = respell(old, here, code)
        if code:
            # a clause's name is not a definition's
            new = re.sub(r"\b(requires|ensures) (\w+) \{", lambda m: f"{m[1]} {m[2]}_is {{" if m[2] in to.values() else m[0], new)
        if new != old:
            changed += 1
            with open(path, "w", encoding="utf-8") as f:
                f.write(new)
    print(f"respell: {len(to)} names, {changed} files")
    return 0


if __name__ == "__main__":
    raise SystemExit(main(sys.argv))
