#!/usr/bin/env python3
"""Brings this repository's own definitions and lemmas to today's spelling, once, right after port.py.

usage: tools/respell.py [--dry]    at the top of the repository

Words go to snake case (`empty-word` to `empty_word`), types and facts to camel case (`Touches-only` to `TouchesOnly`). Names that
Rattle makes for goals and steps, names of std, functions of src/, and strings keep theirs. With --dry it prints what it would turn,
and the names that would fall together.
"""
import os
import re
import sys

NAME = r"[A-Za-z][A-Za-z0-9_'-]*"
SIGNATURE = re.compile(rf"^\s*(?:(?:abbrev|unfoldable|pub)\s+)*({NAME})\s+:\s+(.*)$|^\s*(?:(?:abbrev|unfoldable|pub)\s+)*({NAME})\s+:$")
NAMED = re.compile(rf"^\s*(?:pub\s+)?(?:data|record|ruleset)\s+({NAME})\b")
GOAL = re.compile(r"^(?:goal|goals|need|needs|given)\.")
TOKEN = re.compile(r"[A-Za-z_](?:[A-Za-z0-9_'-]*[A-Za-z0-9_'])?")
USE = re.compile(r"^\s*(?:ghost |pub )*use ([\w.+-]+?)(?:\.\{([^}]*)\}| as (\S+?))?;?$")
STRING = re.compile(r'b?"(?:[^"\\]|\\.)*"')


def files(root, endings):
    for folder, dirs, names in os.walk(root):
        dirs[:] = sorted(d for d in dirs if d not in ("out", "target", ".git"))
        for name in sorted(names):
            if name.endswith(endings):
                yield os.path.join(folder, name)


def respelled(name):
    """A fact or type, which begins with a capital, in camel case; anything else in snake case."""
    if name[0].isupper():
        first, *rest = name.split("-")
        return first + "".join(part[:1].upper() + part[1:] for part in rest)
    return name.replace("-", "_")


def defined(path):
    """The names that a file of definitions or lemmas defines; answers to goals are not among them."""
    for line in open(path, encoding="utf-8"):
        line = line.rstrip("\n")
        found = NAMED.match(line)
        if found:
            yield found.group(1)
            continue
        found = SIGNATURE.match(line)
        if found and not GOAL.match(found.group(2) or ""):
            yield found.group(1) or found.group(3)


def imported(text):
    """The names that a file takes from std."""
    taken = set()
    for line in text.split("\n"):
        found = USE.match(line)
        if found and found.group(1).startswith("Rattle.std") and found.group(2):
            for item in found.group(2).split(","):
                taken.add(item.split(" as ")[-1].strip())
    return taken


def turned(text, table, keep, strings):
    """The text with every name of the table respelled, but for those of keep, and strings as they are."""
    def name(found):
        word = found.group(0)
        return table.get(word, word) if word not in keep else word

    if not strings:
        return TOKEN.sub(name, text)
    parts, last = [], 0
    for found in STRING.finditer(text):
        parts += [TOKEN.sub(name, text[last : found.start()]), found.group(0)]
        last = found.end()
    return "".join(parts + [TOKEN.sub(name, text[last:])])


def main():
    dry = "--dry" in sys.argv[1:]
    own = {}
    for path in files("crates", (".antt",)):
        for name in defined(path):
            own.setdefault(name, set()).add(path)
    table = {name: respelled(name) for name in own if respelled(name) != name}
    for name, new in sorted(table.items()):
        if new in own:
            print(f"falls together: {name} and {new}: {sorted(own[name])} {sorted(own[new])}")
    for path in files("crates", (".antt", ".rt", ".edit")):
        text = open(path, encoding="utf-8").read()
        std = imported(text)
        keep = {name for name in std if name in table and path not in own[name]}
        for name in keep:
            print(f"kept, it is std's here: {name} in {path}")
        for name in table:
            if table[name] in std and name not in keep and re.search(rf"(?<![\w'-]){re.escape(name)}(?![\w'-])", text):
                print(f"std has that name here: {name} to {table[name]} in {path}")
        new = turned(text, table, keep, path.endswith(".rt"))
        if new != text and not dry:
            open(path, "w", encoding="utf-8").write(new)
    for path in [*files("docs", (".md",)), "README.md"]:
        text = open(path, encoding="utf-8").read()
        new = re.sub(r"`[^`\n]+`|```[^`]*```", lambda found: turned(found.group(0), table, (), False), text)
        if new != text and not dry:
            open(path, "w", encoding="utf-8").write(new)
    if dry:
        print("\n".join(f"{name} {new}" for name, new in sorted(table.items())))


if __name__ == "__main__":
    main()
