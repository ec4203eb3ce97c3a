#!/usr/bin/env python3
"""Spells the repository's own definitions, lemmas and record fields as Rattle does: words in snake case, and a dash only
between the names of two definitions. usage: respell.py [--table] ROOT

Run once, after port.py, at the top of a checkout. --table prints the old and the new names and changes nothing.
Functions of src/, types, modules, strings, inputs and outputs keep their names, and so do the goals that Rattle makes."""
import os
import re
import sys

NAME = r"[^\s(){}\[\].,;:\"«»λ]+"
HEAD = re.compile(rf"^(?:abbrev |unfoldable |pub )*({NAME})\s+:(?!\s*goal\b)")
FIELD = re.compile(rf"^  (?:pub )?({NAME})\s+:\s")
RECORD = re.compile(rf"^(?:abbrev |pub )*(?:record|data)\s+({NAME})")
TOKEN = re.compile(NAME)
# words of Rattle's library that a dash may join to a definition
LIBRARY = {"length", "append", "take", "drop", "map", "sum", "reverse", "get_or", "push"}


def files_of(top, ending):
    """The files of the crates whose names end so, in a fixed order within a folder; what a check made is left out."""
    for folder, _, names in os.walk(os.path.join(top, "crates")):
        if "/out" in folder:
            continue
        for name in sorted(names):
            if name.endswith(ending):
                yield os.path.join(folder, name)


def snake(name):
    if not re.match(r"[a-z]", name):
        return name
    name = name.replace("getD", "get_or")
    name = re.sub(r"([a-z0-9])([A-Z])", r"\1_\2", name)
    name = re.sub(r"([A-Z])([A-Z][a-z])", r"\1_\2", name)
    return name.lower()


def collected(top):
    """The names that the repository defines: (definitions of specs/, lemmas, fields)."""
    definitions, lemmas, fields = set(), set(), set()
    for path in files_of(top, ".antt"):
        in_specs = "/specs/" in path and not path.endswith("Lemmas.antt")
        inside = None
        for line in open(path, encoding="utf-8"):
            if RECORD.match(line):
                inside = fields
                continue
            if line.startswith("module "):
                inside = definitions if in_specs else lemmas
                continue
            head = HEAD.match(line)
            if head and not line.startswith((" ", "use ", "--")):
                inside = None
                (definitions if in_specs else lemmas).add(head.group(1))
                continue
            if inside is fields and not line.strip():
                inside = None
            item = FIELD.match(line)
            if inside is not None and item and not re.match(r"  (let|in|use|unfolding)\b", line):
                inside.add(item.group(1))
    return definitions, lemmas, fields


def dashed(name, words):
    """The name with a dash only between two definitions."""
    if "-" not in name or not re.match(r"[a-zA-Z]", name):
        return name
    parts = name.split("-")
    out = parts[0]
    for left, right in zip(parts, parts[1:]):
        out += ("-" if left in words and right in words else "_") + right
    return out


def table(top):
    definitions, lemmas, fields = collected(top)
    new_definitions = {name: snake(name) for name in definitions}
    words = set(new_definitions.values()) | LIBRARY
    out = {}
    taken = set(new_definitions.values())
    for name in sorted(definitions):
        new = dashed(new_definitions[name], words)
        if new != name:
            out[name] = new
    for name in sorted(lemmas):
        parts = "-".join(snake(part) for part in name.split("-"))
        new = dashed(parts, words) if name not in definitions else out.get(name, name)
        if name not in definitions and new in taken:
            new += "_lem"
        if new != name and name not in definitions:
            out[name] = new
    for name in sorted(fields):
        new = dashed("-".join(snake(part) for part in name.split("-")), set())
        if name in out and out[name] != new:
            # one token, two things: the definition's spelling serves for both
            continue
        if new in taken and name not in definitions:
            new += "_lem"
        if new != name:
            out[name] = new
    return out


def main():
    words = [word for word in sys.argv[1:] if word != "--table"]
    top = words[0] if words else "."
    names = table(top)
    if "--table" in sys.argv:
        back = {}
        for old, new in sorted(names.items()):
            back.setdefault(new, []).append(old)
            print(f"{old}\t{new}")
        kept = set().union(*collected(top)) - set(names)
        for new, olds in sorted(back.items()):
            if len(olds) > 1 or new in kept:
                print(f"together: {new} from {olds}" + (" and itself" if new in kept else ""))
        return
    changed = 0
    for path in list(files_of(top, ".antt")) + list(files_of(top, ".rt")):
        text = open(path, encoding="utf-8").read()
        new = TOKEN.sub(lambda found: names.get(found.group(0), found.group(0)), text)
        if new != text:
            changed += 1
            open(path, "w", encoding="utf-8").write(new)
    print(f"respell: {len(names)} names, {changed} files")


main()
