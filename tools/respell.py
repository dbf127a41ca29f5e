#!/usr/bin/env python3
"""Brings the names of definitions and lemmas to one spelling: words in snake case, facts and types in camel case.

usage: python3 tools/respell.py [FOLDER]     in FOLDER (or here), after port.py: rewrites crates/, README.md and docs/ in place,
                                             but not docs/PORT.md, which shows the older names beside today's

A name is turned where specs/ or proofs/ of some crate declares it with a hyphen: `real-date` becomes `real_date`,
`Says-same` becomes `SaysSame`. A definition in small letters that gives a fact and is declared in one line,
`abbrev pub user-fits : .. → Type 0`, becomes `UserFits`. Names that the checker makes (of goals, loops and returns) and
names of the standard library keep their hyphens, since no file here declares them.

A name is turned wherever it stands as a word, in comments too, but not in a string that ends on its line. In .rt files only
names with a hyphen are turned, which no function has. Where two turned names would fall together nothing is written; where
the file has the new name already, as a function's or a field's, that is printed, since only a reader sees whether the two
are kept apart there. In the pages only words between backticks are turned, and only hyphens.
"""
import os
import re
import sys

NAME = r"[^\W\d_·][\w'·]*(?:-[\w'·]+)*|_[\w'·]+(?:-[\w'·]+)*"
TOKEN = re.compile(r"(?<![\w'·-])(?:%s)(?![\w'·-])" % NAME)
LEFT = re.compile(r"^\s*(?:(?:abbrev|unfoldable|pub)\s+)*((?:[^\W\d][\w'·-]*\s+)*[^\W\d][\w'·-]*)\s*:\s+(.*)")
FACT = re.compile(r"^\s*(?:(?:abbrev|unfoldable|pub)\s+)+([a-z][\w'·]*[_-][\w'·-]*)\s*:\s.*Type 0\s*$")
HEAD = re.compile(r"^\s*(?:pub\s+)?(?:record|data)\s+([^\W\d][\w'·-]*)")
# names of variables and of imports, which no line declares
OTHERS = ("leap-year", "c-at", "no-brace", "here-is", "User-item", "Field-item", "fields-trip", "fields-accepted")
STRING = re.compile(r'"(?:[^"\\\n]|\\.)*"')


def files(root):
    for folder, dirs, names in os.walk(os.path.join(root, "crates")):
        dirs[:] = sorted(d for d in dirs if d not in ("out", "data"))
        for name in sorted(names):
            if name.endswith((".antt", ".rt", ".edit")):
                yield os.path.join(folder, name)


def camel(name):
    return "".join(w[0].upper() + w[1:] for w in re.split("[-_]", name))


def turned(name):
    return camel(name) if name[0].isupper() else name.replace("-", "_")


def declared(path):
    """The names to be turned that a file of specs/ or proofs/ declares, each with its new one; answers to goals are not its own."""
    found, facts = set(), set()
    for line in open(path, encoding="utf-8"):
        if line.lstrip().startswith(("--", "use ")):
            continue
        m = HEAD.match(line)
        if m:
            found.add(m[1])
        m = FACT.match(line)
        if m and "goal." not in line:
            facts.add(m[1])
        m = LEFT.match(line)
        if m and not m[2].startswith("goal.") and "=" not in line[: m.end(1)]:
            found.update(m[1].split())
    facts |= {n for n in found if n[0].isupper() and "_" in n and not n.isupper()}
    return {n: turned(n) for n in found if "-" in n} | {n: camel(n) for n in facts}


def tokens(text):
    return set(TOKEN.findall(STRING.sub('""', text)))


def respell(text, names):
    out, at = [], 0
    for m in STRING.finditer(text):
        out.append(TOKEN.sub(lambda t: names.get(t[0], t[0]), text[at : m.start()]))
        out.append(m[0])
        at = m.end()
    out.append(TOKEN.sub(lambda t: names.get(t[0], t[0]), text[at:]))
    return "".join(out)


def main():
    root = sys.argv[1] if len(sys.argv) > 1 else "."
    all_files = list(files(root))
    texts = {p: open(p, encoding="utf-8").read() for p in all_files}
    names = {n: turned(n) for n in OTHERS}
    for p in all_files:
        if p.endswith(".antt"):
            names |= declared(p)
    clashes = 0
    by_new = {}
    for old, new in names.items():
        by_new.setdefault(new, []).append(old)
    for new, olds in sorted(by_new.items()):
        if len(olds) > 1:
            print("fall together:", new, olds)
            clashes += 1
    for p, text in texts.items():
        have = tokens(text)
        for old in sorted(have & set(names)):
            if names[old] in have:
                print("look: in", os.path.relpath(p, root), names[old], "stands already, as a function or a field")
    if clashes:
        print(clashes, "clashes; nothing is written")
        return 1
    hyphened = {old: new for old, new in names.items() if "-" in old}
    for p, text in texts.items():
        new = respell(text, names if p.endswith(".antt") else hyphened)
        if new != text:
            open(p, "w", encoding="utf-8").write(new)
    pages = [os.path.join(root, "README.md")] + [os.path.join(root, "docs", d) for d in sorted(os.listdir(os.path.join(root, "docs"))) if d.endswith(".md") and d != "PORT.md"]
    known = set()
    for p in all_files:
        if p.endswith(".antt"):
            known |= tokens(open(p, encoding="utf-8").read())
    for p in pages:
        text = open(p, encoding="utf-8").read()
        code = re.sub(r"`[^`\n]+`", lambda m: TOKEN.sub(lambda t: turned(t[0]) if "-" in t[0] and turned(t[0]) in known else t[0], m[0]), text)
        if code != text:
            open(p, "w", encoding="utf-8").write(code)
    print(len(names), "names")
    return 0


raise SystemExit(main())
