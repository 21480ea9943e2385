#!/usr/bin/env python3
"""Respells this repository's own definitions and lemmas: words in snake case, types and facts in camel case.

    python3 tools/respell.py

Run once, at the top, after the kit's port.py. A name of our own is one that a file of specs/ or proofs/
declares with a dash in it; names that the library or the checker makes keep their spelling. In Rust text
only clauses change: comments (but what stands in backquotes) and strings stay.
"""
import glob
import re

# A name with a dash, or a type's name with an underscore.
NAME = r"(?:[A-Za-z_][\w']*(?:-[\w']+)+|[A-Z][a-z][\w']*_[\w']*)"
SIGNATURE = re.compile(r"^\s*(?:(?:abbrev|unfoldable|pub|opaque)\s+)*((?:[^\s:(){}=→λ,]+\s+)+):\s")
HEAD = re.compile(r"^\s*(?:(?:abbrev|unfoldable|pub)\s+)*(?:record|data)\s+(\S+)")
BINDER = re.compile(r"[({]((?:[^\s:(){}=→λ,]+\s+)+):\s")
LOCAL = re.compile(r"(?:\blet|\bλ)\s+((?:[^\s:(){}=→λ,.]+\s*)+)")


def sources(*kinds):
    return sorted(f for k in kinds for f in glob.glob("crates/**/*" + k, recursive=True) if "/out/" not in f)


def library_names(text):
    names = set()
    for m in re.finditer(r"\buse (Rattle\.std[\w.◌]*|[a-zA-Z]+(?:\.[\w]+)*)\.\{([^}]*)\}", text):
        if m.group(1).startswith("Rattle.std") or not m.group(1).startswith("Rattle"):
            names |= {n.strip().split(" as ")[-1] for n in m.group(2).split(",")}
    return names


def own_names():
    own, library = set(), set()
    for f in sources(".antt"):
        text = open(f).read()
        library |= library_names(text)
        for line in text.split("\n"):
            line = line.split("--")[0]
            for pattern in (SIGNATURE, HEAD, BINDER, LOCAL):
                for m in pattern.finditer(line):
                    own |= {n for n in m.group(1).split() if re.fullmatch(NAME, n)}
    return own - library


def respelled(name):
    if name[0].isupper():
        return "".join(part[:1].upper() + part[1:] for part in re.split("[-_]", name))
    return name.replace("-", "_")


def main():
    table = {n: respelled(n) for n in own_names()}
    token = re.compile(r"(?<![\w'◌-])" + NAME + r"(?![\w'◌-])")

    def turn(text):
        return token.sub(lambda m: table.get(m.group(0), m.group(0)), text)

    def turn_quoted(comment):
        return re.sub(r"`[^`]*`", lambda m: turn(m.group(0)), comment)

    def turn_line(line, mark, strings):
        parts = re.split(r'("(?:[^"\\]|\\.)*")', line) if strings else [line]
        out, i = "", 0
        while i < len(parts):
            part = parts[i]
            if i % 2 == 0 and mark in part:
                code, rest = part.split(mark, 1)
                return out + turn(code) + turn_quoted(mark + rest + "".join(parts[i + 1:]))
            out += part if i % 2 else turn(part)
            i += 1
        return out

    def aliases(text):
        # An import under another spelling of its own name is plain: `entry_end as entryEnd` is `entry_end`.
        renames = {}

        def plain(m):
            name, alias = m.group(1), m.group(2)
            same = alias.replace("_", "").lower() == name.replace("_", "").lower()
            if same or re.fullmatch(r"[a-z]+(?:[A-Z][a-z]*)+", alias):
                renames[alias] = name if same else re.sub(r"[A-Z]", lambda c: "_" + c.group(0).lower(), alias)
                return name if same else name + " as " + renames[alias]
            return m.group(0)

        lines = [re.sub(r"([\w'-]+) as (\w+)", plain, line) if line.startswith("ghost use") else line for line in text.split("\n")]
        out = []
        for line in lines:
            if not line.startswith("ghost use") and not line.strip().startswith("//"):
                for alias, name in renames.items():
                    line = re.sub(r"(?<![\w'.-])" + alias + r"(?![\w'-])", name, line)
            out.append(line)
        return "\n".join(out)

    for f in sources(".antt"):
        text = open(f).read()
        new = "\n".join(turn_line(line, "--", False) for line in text.split("\n"))
        if new != text:
            open(f, "w").write(new)
    for f in sources(".rt"):
        text = open(f).read()
        new = aliases("\n".join(turn_line(line, "//", True) for line in text.split("\n")))
        if new != text:
            open(f, "w").write(new)
    for f in sorted(glob.glob("docs/*.md")) + ["README.md"]:
        text = open(f).read()
        new = "\n".join(turn(line) if line.startswith("    ") else turn_quoted(line) for line in text.split("\n"))
        if new != text:
            open(f, "w").write(new)
    print(len(table), "names")


main()
