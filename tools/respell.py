#!/usr/bin/env python3
"""Brings the repository's own definitions and lemmas to the spelling of today's Rattle, once, behind the kit's port.py.

A word in camel case becomes snake case, and so does a name of plain words joined by dashes. A dash stays between two functions, as in `length-filled`.
A lemma that would have its function's name gets `_lem`, also where port.py had given it that name. Types, functions of src/, names that Rattle makes
and strings are left.
It prints the pairs: old, new.
"""
import os
import re
import sys

MODIFIERS = r"^\s*(?:abbrev |unfoldable |pub |irreducible )*"
DECLARES = re.compile(MODIFIERS + r"((?:[^\s:(){}.,;]+ )+):(?: |$)")
TOKEN = re.compile(r'"(?:[^"\\]|\\.)*"|[^\s(){}\[\];,.:"`«»|*&!?<>=+/#]+')
# std's words that a lemma's name may join with a dash.
STD = {"length", "drop", "take", "sets", "append", "get_or"}


def files(*endings):
    for folder, dirs, names in os.walk("."):
        dirs[:] = sorted(d for d in dirs if d not in ("out", ".git", "target", "landings"))
        for name in sorted(names):
            if name.endswith(endings):
                yield os.path.join(folder, name)


def read(path):
    with open(path, encoding="utf-8") as f:
        return f.read()


def snake(name):
    return re.sub(r"(?<=[a-z0-9'])[A-Z]+", lambda m: "_" + m.group(0).lower(), name)


def is_made(line):
    """A goal, an invariant or a measure: its name is Rattle's."""
    return re.search(r" : (?:tie|goal|statement)\b", line) is not None


def declared():
    own, made, imported = {}, set(), set()
    for path in files(".antt"):
        for line in read(path).split("\n"):
            line = line.split("--")[0]
            m = re.match(r"use ([\w.'-]+)\.\{(.*)\}", line)
            if m and not m.group(1).startswith("Rattle.") or m and m.group(1).startswith("Rattle.std"):
                imported |= {w.strip() for w in m.group(2).split(",")}
            m = DECLARES.match(line)
            if m and not line.strip().startswith(("record ", "data ", "use ")):
                for name in m.group(1).split():
                    if is_made(line):
                        made.add(name)
                    else:
                        own.setdefault(name, set()).add(path)
    return own, made, imported


def pairs():
    own, made, imported = declared()
    functions = {n for n in own if "-" not in n and n[0].islower()} | STD
    taken = {n for n in own if "-" not in n} | imported
    to = {}
    for name in sorted(own, key=lambda n: ("-" in n, n)):
        if name in to or name in made or name in imported or not name[0].islower():
            continue
        parts = name.replace("getD", "get_or").split("-")
        if len(parts) == 1 and snake(name) == name:
            continue
        dash = len(parts) == 2 and all(p in functions for p in parts) and any(p in STD for p in parts)
        new = ("-" if dash else "_").join(snake(p) for p in parts)
        if (new in taken or new in to.values()) and "-" in name:
            new += "_lem"
        elif new in taken:
            to[new] = new + "_lem"
        to[name] = new
    to["goOn"] = "go_on"
    return to


def by_port(to, own):
    """For pages and edits, which port.py leaves: the names that it respelled itself."""
    known = {n for n in own if n not in to} | set(to.values())

    class Pairs(dict):
        def get(self, name, default=None):
            new = to.get(name) or snake(name).replace("-", "_")
            return new if name in to or name not in known and new in known and re.search("[A-Z-]", name) else default

    return Pairs()


def in_code(text, to, comments):
    def one(line):
        code, mark, said = line.partition(comments)
        if mark and code.count('"') % 2:
            code, mark, said = line, "", ""
        code = TOKEN.sub(lambda m: m.group(0) if m.group(0)[0] == '"' else to.get(m.group(0), m.group(0)), code)
        if mark:
            said = re.sub(r"\b[a-z]\w*[A-Z]\w*\b", lambda m: to.get(m.group(0), m.group(0)), said)
        return code + mark + said

    return "\n".join(one(line) for line in text.split("\n"))


def in_prose(text, to):
    """The names between backticks, but for those of files."""
    return re.sub(r"`[^`\n]+(?<!\.mjs)`", lambda m: TOKEN.sub(lambda t: to.get(t.group(0), t.group(0)), m.group(0)), text)


def main():
    to = pairs()
    assert len(set(to.values())) == len(to)
    ghost = {old: new for old, new in to.items() if snake(old) != old or "-" in old}
    others = by_port(to, declared()[0])
    for path in files(".antt", ".rt", ".edit", ".md"):
        old = read(path)
        if path.endswith(".md"):
            new = in_prose(old, others)
        elif path.endswith(".edit"):
            new = in_code(old, others, "//")
        else:
            new = in_code(old, to, "--") if path.endswith(".antt") else in_code(old, ghost, "//")
        if new != old:
            with open(path, "w", encoding="utf-8") as f:
                f.write(new)
    for old in sorted(to):
        print(old, to[old])
    return 0


if __name__ == "__main__":
    sys.exit(main())
