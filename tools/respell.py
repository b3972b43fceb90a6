#!/usr/bin/env python3
"""Brings the names of definitions and lemmas to snake case: faultNumber to fault_number, map-end to map_end.

usage: tools/respell.py [--list] [FOLDER]

It goes over the crates below FOLDER (the current one) once, after the kit's own port.py. Renamed are the words that specs/ and proofs/ define,
wherever they are cited: in specs/, proofs/, the clauses of src/ and the edits of must-fail/. Functions, types, modules, strings, constants in
capitals and the names that Rattle makes stay. Where a lemma falls together with a definition it gets `_lem` at its end. --list only prints the
names, old and new.
"""

import collections
import glob
import os
import re
import sys

EDGE = r"[^\s(){}.;,@\"«»\[\]\\`:|]"
TOKEN = re.compile(r"\"(?:[^\"\\]|\\.)*\"|«[^»]*»|" + EDGE + "+|.", re.S)
IMPORT = re.compile(r"^(?:pub )?use ([^\s;{]+?)(?:\.\{([^}]*)\})?(?: as (\S+))?$", re.M)
DEFINED = [
    re.compile(r"^ *(?:abbrev |unfoldable )?(?:pub )?(" + EDGE + r"+)(?: [({][^:]*:[^)}]*[)}])* :(?: |$)"),
    re.compile(r"^ *(?:pub )?(?:record|data|ruleset) (?:pub )?(" + EDGE + "+)"),
]


def read(path):
    with open(path, encoding="utf-8") as f:
        return f.read()


def shared(root):
    """The files whose words others cite: specs/ and the lemmas of proofs/."""
    return sorted(glob.glob(f"{root}/crates/*/specs/*.antt") + glob.glob(f"{root}/crates/*/proofs/*.antt"))


def snake(name):
    name = re.sub(r"([a-z0-9])([A-Z])", r"\1_\2", name).replace("-", "_")
    return name.lower() if name[0].islower() else name


def defined(text):
    out = []
    for line in text.split("\n"):
        if not line.lstrip().startswith("--"):
            out += [m.group(1) for m in (d.match(line) for d in DEFINED) if m]
    return out


def is_plain(name):
    return "◌" in name or (name[0].isupper() and "-" not in name) or snake(name) == name


def table(root):
    names = collections.OrderedDict()
    for path in shared(root):
        for name in defined(read(path)):
            names.setdefault(name, path)
    falls = collections.defaultdict(set)
    for name in names:
        falls[snake(name)].add(name)
    out = {}
    for name in names:
        if not is_plain(name):
            new = snake(name)
            out[name] = new + "_lem" if len(falls[new]) > 1 and "-" in name else new
    return out


def owners(root):
    return {os.path.basename(p) for p in glob.glob(f"{root}/crates/*")}


def foreign(text, own):
    """The words that a file imports from the kit or from what Rattle makes, and the kit's modules under their names there."""
    words, modules = set(), set()
    for path, items, alias in IMPORT.findall(text):
        parts = path.split(".")
        mine = parts[0] == "Rattle" and len(parts) > 2 and parts[1] in own and not re.search(r"\.proofs\.[a-z+]", path)
        if not mine:
            words |= {w.strip().split(" as ")[0] for w in items.split(",") if w.strip()}
            if not items:
                modules.add(alias or parts[-1])
    return words, modules


def imported(text, own):
    words, modules = set(), set()
    for path, items, alias in IMPORT.findall(text):
        parts = path.split(".")
        if parts[0] == "Rattle" and len(parts) > 2 and parts[1] in own and not re.search(r"\.proofs\.[a-z+]", path):
            words |= {w.strip() for it in items.split(",") for w in it.split(" as ")}
            if not items:
                modules.add(alias or parts[-1])
    return words, modules


def turned(text, names, skip, skip_modules, only=None, modules=()):
    """The text with its words renamed: all but those in skip, or, with only, those in it and what is taken of the modules."""
    out, last, before = [], "", ""
    for line in text.split("\n"):
        code, mark, comment = line.partition("--") if line.lstrip().startswith("--") or " -- " in line else (line, "", "")
        last = before = ""
        for m in TOKEN.finditer(code):
            t = m.group(0)
            new = names.get(t)
            if new is not None:
                if last == "." and before:
                    ok = before not in skip_modules and (only is None or before in modules or t in FIELDS)
                else:
                    ok = t not in skip and (only is None or t in only)
                if ok:
                    t = new
            out.append(t)
            if t == ".":
                last = "."
            elif t.strip() == "":
                last = before = ""
            else:
                before, last = m.group(0), ""
        if mark:
            out.append(mark + noted(comment, names))
        out.append("\n")
    return "".join(out)[:-1]


def noted(comment, names):
    """A comment: its words in camel case, its words in backticks, and the names that a list at a file's head has on its left."""
    word = lambda m: names.get(m.group(0), m.group(0))
    left = re.match(r"   \S.*?(?=   |$)", comment)
    if left:
        comment = re.sub(EDGE + "+", word, left.group(0)) + comment[left.end() :]
    return re.sub(r"(?<![\w'-])[a-z]\w*[A-Z]\w*(?![\w'-])|(?<=`)[^`\s]+(?=`)", word, comment)


def source(text, names):
    """A file of src/: the words in camel case outside its strings, and the words that `ghost use` brings in."""
    def one(m):
        t = m.group(0)
        return t if t.startswith('"') else re.sub(r"(?<![\w'-])[a-z]\w*[A-Z][\w'-]*", lambda w: names.get(w.group(0), w.group(0)), t)

    return re.sub(r'"(?:[^"\\]|\\.)*"|[^"]+|"', one, text)


FIELDS = set()

# Lemmas that were in snake case already and fall together with a definition that their file cites.
FALLEN = {
    "promises/specs/Loops.antt": "no_loop",
    "rules_fence/proofs/Loops.antt": "on_value",
    "rules_fence/proofs/Places.antt": "as_place",
    "rules_fence/proofs/Reasons.antt": "apart_from",
    "rules_fence/proofs/Spans.antt": "apart_from",
}


def main(argv):
    only_list = "--list" in argv
    root = ([a for a in argv if not a.startswith("--")] or ["."])[0]
    names, own = table(root), owners(root)
    if only_list:
        print("\n".join(f"{a}\t{b}" for a, b in names.items()))
        return 0
    for path in shared(root):
        for line in read(path).split("\n"):
            m = re.match(r"^  (?:pub )?(" + EDGE + r"+) :(?: |$)", line)
            if m:
                FIELDS.add(m.group(1))
    files = shared(root) + sorted(glob.glob(f"{root}/crates/*/proofs/*/**/*.antt", recursive=True))
    new = {}
    for path in files:
        text = read(path)
        skip, skip_modules = foreign(text, own)
        if path in shared(root):
            fallen = {w: w + "_lem" for w in [FALLEN.get(path.split("/crates/")[1])] if w}
            new[path] = turned(text, names | fallen, skip, skip_modules)
            clash = {b for a, b in names.items() if a in set(TOKEN.findall(text))} & set(TOKEN.findall(text)) - set(fallen)
            if clash:
                print(f"look: {path}: {' '.join(sorted(clash))}: here before the renaming")
        else:
            words, modules = imported(text, own)
            inner = {n: snake(n) for n in re.findall(r"^(?:abbrev )?(" + EDGE + r"+) :(?! tie\.)", text, re.M) if not is_plain(n) and not n.startswith(("invariant-", "decreases-"))}
            new[path] = turned(text, names | inner, set(), skip_modules, words | set(inner), modules)
    for path in sorted(glob.glob(f"{root}/crates/*/src/*.rt")):
        new[path] = source(read(path), names)
    for path in sorted(glob.glob(f"{root}/crates/*/must-fail/*.edit")):
        text = read(path)
        inside = re.search(r"^file: (?:specs|proofs)/", text, re.M)
        new[path] = "\n".join((turned(line, names, set(), set()) if inside else source(line, names)) if re.match(r"old:|new:", line) else line for line in text.split("\n"))
    for path, text in new.items():
        if text != read(path):
            with open(path, "w", encoding="utf-8") as f:
                f.write(text)
    return 0


if __name__ == "__main__":
    raise SystemExit(main(sys.argv[1:]))
