#!/usr/bin/env python3
"""Respells this repository's own definitions and lemmas: words in snake case, types and facts in upper camel case.

usage: python3 tools/spell.py [FOLDER]     once, right after the port of the older kit's spelling; it rewrites crates/ in place

A name is this repository's own if an .antt file of crates/ declares it: at the left margin, in a `where` block, or as a field or a
constructor. Goals, whose names the check makes, keep theirs, and so does a name in a file that takes it from a library.
Names that would fall together are listed, and then nothing is written.
"""

import os
import re
import sys

TOKEN = re.compile(r"(?<![\w'-])[A-Za-z][\w']*(?:-[\w'*]+)*(?![\w'-])")
DECLARED = re.compile(r"^\s*(?:(?:abbrev|unfoldable|pub|record|data|opaque|ruleset)\s+)*([A-Za-z][\w'-]*)\s*(?:[({][^=]*[)}]\s*)*:(?!=)\s*(.*)$")
# names that would fall together with another
APART = {"at-weight": "as_at_weight", "Cubes-meet": "CubesMeetInARow"}
IMPORT = re.compile(r"^(?:pub )?(?:ghost )?use ([\w.«»+-]+)\.\{([^}]*)\}", re.M)


def files(root):
    for folder, dirs, names in os.walk(os.path.join(root, "crates")):
        dirs[:] = sorted(d for d in dirs if d != "out")
        for name in sorted(names):
            if name.endswith((".antt", ".rt", ".edit")):
                yield os.path.join(folder, name)


def code_of(line, mark):
    """The line cut where its comment begins."""
    at = line.find(mark)
    return (line, "") if at < 0 else (line[:at], line[at:])


def camel(name):
    return "".join(part[:1].upper() + part[1:] for part in re.split(r"[-_]", name))


def snake(name):
    name = name.replace("-", "_")
    return re.sub(r"([a-z0-9])([A-Z])", lambda m: m.group(1) + "_" + m.group(2).lower(), name)


def spelled(name):
    if name in APART:
        return APART[name]
    return camel(name) if name[0].isupper() else snake(name)


def main(root):
    own, kept, all_names = {}, set(), set()
    for path in files(root):
        if not path.endswith(".antt"):
            continue
        with open(path, encoding="utf-8") as f:
            text = f.read()
        for line in text.splitlines():
            code, _ = code_of(line, "--")
            all_names.update(TOKEN.findall(code))
            m = DECLARED.match(code)
            if m:
                if m.group(2).startswith("goal."):
                    kept.add(m.group(1))
                else:
                    own.setdefault(m.group(1), path)
    table = {n: spelled(n) for n in own if n not in kept and spelled(n) != n}
    taken = {}
    for name, new in sorted(table.items()):
        taken.setdefault(new, []).append(name)
    fallen = [f"{' and '.join(olds)} would be {new}" for new, olds in sorted(taken.items()) if len(olds) > 1 or new in own]
    clash = [f"{old}: {new} stands already" for old, new in sorted(table.items()) if new in all_names and new not in own]
    if fallen:
        print("\n".join(fallen))
        return 1
    for c in clash:
        print("look: " + c)
    written = 0
    for path in files(root):
        with open(path, encoding="utf-8") as f:
            text = f.read()
        mark = "--" if path.endswith(".antt") else "//"
        foreign = set()
        for module, names in IMPORT.findall(text):
            parts = module.split(".")
            own_crate = parts[0] == "Rattle" and len(parts) > 1 and os.path.isdir(os.path.join(root, "crates", parts[1]))
            if not own_crate:
                foreign.update(n.strip().split(" as ")[0] for n in names.split(","))

        def turn(m):
            word = m.group(0)
            return word if word in foreign else table.get(word, word)

        lines = []
        for line in text.split("\n"):
            code, comment = code_of(line, mark)
            lines.append(TOKEN.sub(turn, code) + comment)
        new = "\n".join(lines)
        if new != text:
            with open(path, "w", encoding="utf-8") as f:
                f.write(new)
            written += 1
    print(f"{len(table)} names respelled in {written} files")
    return 0


if __name__ == "__main__":
    raise SystemExit(main(sys.argv[1] if len(sys.argv) > 1 else "."))
